"""layers.svg: crates.txt, and what stands in each crate."""
import re

from svg import GREY, INK, ROOT, Svg, text_of

KINDS = {"calls": "calls for C", "code": "proved code", "definitions": "definitions", "theorems": "theorems"}
TINTS = {"calls": "#d9822b", "code": "#3f6ea3", "definitions": "#6f8f4e", "theorems": "#8a5fa0"}


def kind(crate):
    if crate.endswith("_c") and f'"{crate[:-2]}"' in text_of("bindings/rust/archives.rs"):
        return "calls"
    source = "\n".join(path.read_text(encoding="utf-8") for path in sorted((ROOT / "crates" / crate / "src").glob("*.rt")))
    if re.search(r"^\s*(pub )?(extern \"C\" )?fn ", source, re.M):
        return "code"
    return "definitions" if crate.endswith("_model") else "theorems"


def groups():
    """Each group of crates.txt with its crates, and what each crate uses."""
    found, uses = [], {}
    for line in text_of("crates.txt").splitlines()[1:]:
        if line.startswith("# "):
            found.append((line[2:], []))
        elif ":" in line:
            name, used = line.split(":")
            name = name.removesuffix(" staticlib")
            found[-1][1].append(name)
            uses[name] = used.split()
    return found, uses


def layers():
    found, uses = groups()
    place = {crate: i for i, (_, crates) in enumerate(found) for crate in crates}
    left, right, size, line = 290, 915, 12, 30
    bands = []
    for title, crates in found:
        rows, x = [[]], left
        for crate in crates:
            wide = 7.3 * len(crate) + 18
            if x + wide > right:
                rows.append([])
                x = left
            rows[-1].append((x, wide, crate))
            x += wide + 8
        bands.append((title, rows))
    top = 108
    height = top + sum(line * len(rows) + 20 for _, rows in bands) + 16
    svg = Svg(940, height, "The layers")
    svg.text(30, 36, "The layers", 20, weight="bold")
    svg.text(30, 58, "an arc leads to what a band uses, unless a band between leads there too; red where it leads up", 13, GREY)
    x = 30
    for name, words in KINDS.items():
        svg.rect(x, 72, 15, 15, TINTS[name], radius=4)
        svg.text(x + 22, 84, words, 13, GREY)
        x += 46 + 7.2 * len(words)
    middles, y = {}, top
    for i in range(len(bands) - 1, -1, -1):
        title, rows = bands[i]
        deep = line * len(rows) + 10
        svg.rect(110, y, 820, deep, "#f4f6f8", radius=6)
        svg.text(122, y + deep / 2 + 5, re.split(r"[:,]| for ", title)[0], 13, INK, weight="bold")
        for r, row in enumerate(rows):
            for x, wide, crate in row:
                svg.rect(x, y + 7 + line * r, wide, 24, TINTS[kind(crate)], radius=6)
                svg.text(x + wide / 2, y + 23 + line * r, crate, size, "#ffffff", "middle", mono=True)
        middles[i] = y + deep / 2
        y += deep + 10
    edges = {(i, place[used]) for crate, i in place.items() for used in uses[crate] if used in place and place[used] != i}
    # An arc that goes by way of a band between is left out.
    edges = {(a, b) for a, b in edges if not any((a, c) in edges and (c, b) in edges for c in range(min(a, b) + 1, max(a, b)))}
    for a, b in sorted(edges):
        reach = 18 + 13 * (abs(a - b) - 1)
        color = "#8c99a6" if a > b else "#c0392b"
        svg.path(f"M108 {middles[a]:.1f}C{108 - reach * 1.4:.1f} {middles[a]:.1f} {108 - reach * 1.4:.1f} {middles[b]:.1f} 108 {middles[b]:.1f}", color)
        svg.path(f"M102 {middles[b] - 4:.1f}L108 {middles[b]:.1f}L102 {middles[b] + 4:.1f}", color)
    return svg.done()
