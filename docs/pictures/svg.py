"""What the pictures share: where the repository is, colours, and a sheet to draw on."""
from html import escape
from pathlib import Path

ROOT = Path(__file__).resolve().parent.parent.parent
INK, GREY, LINE = "#1c2733", "#5c6b7a", "#d5dce3"
COLORS = ["#4e79a7", "#f28e2b", "#59a14f", "#e15759", "#9c6fae", "#76b7b2", "#c9a227", "#a0705a", "#6b7f99", "#d37295"]
SANS = "Helvetica, Arial, 'DejaVu Sans', sans-serif"
MONO = "Menlo, Consolas, 'DejaVu Sans Mono', monospace"


def text_of(path):
    return (ROOT / path).read_text(encoding="utf-8")


def number(digits):
    return int(digits.replace("_", ""))


class Svg:
    def __init__(self, width, height, title):
        self.parts = [
            f'<svg xmlns="http://www.w3.org/2000/svg" width="{width}" height="{height}" viewBox="0 0 {width} {height}" '
            f'font-family="{SANS}" role="img">',
            f"<title>{escape(title)}</title>",
            f'<rect width="{width}" height="{height}" fill="#ffffff"/>',
        ]

    def rect(self, x, y, width, height, fill, stroke="none", radius=0, opacity=1):
        self.parts.append(
            f'<rect x="{x:.1f}" y="{y:.1f}" width="{width:.1f}" height="{height:.1f}" rx="{radius}" fill="{fill}" '
            f'stroke="{stroke}" fill-opacity="{opacity}"/>'
        )

    def text(self, x, y, words, size=13, fill=INK, anchor="start", weight="normal", mono=False):
        family = f' font-family="{MONO}"' if mono else ""
        self.parts.append(
            f'<text x="{x:.1f}" y="{y:.1f}" font-size="{size}" fill="{fill}" text-anchor="{anchor}" '
            f'font-weight="{weight}"{family}>{escape(words)}</text>'
        )

    def line(self, x, y, to_x, to_y, stroke=LINE, width=1.0):
        self.parts.append(
            f'<line x1="{x:.1f}" y1="{y:.1f}" x2="{to_x:.1f}" y2="{to_y:.1f}" stroke="{stroke}" stroke-width="{width}"/>'
        )

    def path(self, d, stroke, width=1.5):
        self.parts.append(f'<path d="{d}" fill="none" stroke="{stroke}" stroke-width="{width}"/>')

    def dot(self, x, y, radius, fill):
        self.parts.append(f'<circle cx="{x:.1f}" cy="{y:.1f}" r="{radius}" fill="{fill}" stroke="#ffffff" stroke-width="1.5"/>')

    def done(self):
        return "\n".join(self.parts) + "\n</svg>\n"
