"""mirror.svg: crates/sections/specs and crates/d3d9_model/specs/Marks.antt, the sections, and what marks each."""
import re

from svg import COLORS, GREY, INK, Svg, text_of

STATES = {
    "eqb n 2": "the view",
    "eqb n 3": "the projection",
    "leb 16 n && leb n 23": "a texture matrix",
    "eqb n 256": "world matrix 0",
    "leb 257 n && leb n 511": "the others",
}
SETTERS = {
    "set_material": "the material",
    "set_light": "a light",
    "enable_light": "its enable",
    "set_fog_start": "fog's start",
    "set_fog_end": "end",
    "set_fog_density": "density",
    "set_ambient": "the ambient colour",
    "set_texture_mask": "the texture mask",
}


def sections():
    """(name, bit, first row, rows in words, what marks it) of each section, by its first row; and the number of rows."""
    table, counts = text_of("crates/sections/specs/Sections.antt"), text_of("crates/sections/specs/Counts.antt")
    bits = dict(re.findall(r"^bit_of (\w+) = (\d+)$", table, re.M))
    rows = {name: int(row) for name, row in re.findall(r"^first_row (\w+) = (\d+)$", table, re.M)}
    plain = dict(re.findall(r"^section_rows (\w+) k t = (\d+)$", counts, re.M))
    specular, lit, unlit = re.search(r"^material_count .* (\d) (\d)\) (\d)$", counts, re.M).groups()
    six = re.search(r"^light_count .*\* (\d)$", counts, re.M)[1]
    four = re.search(r"^texture_count .*\* (\d)$", counts, re.M)[1]
    each = re.search(r"^palette_count .*\* (\d)$", counts, re.M)[1]
    indexed = re.search(r"^palette_matrices .*k\.vertex_blend_indexed (\d+) ", counts, re.M)[1]
    words = {
        "Material": f"{unlit}; lit {lit}; with specular {specular}",
        "Lights": f"{six} for each light that is packed",
        "Tt": f"{four} for each stage up to the mask's highest",
        "Palette": f"{each} for each matrix: {indexed} indexed, else 0 to 255",
    }
    words.update(plain)
    marks = text_of("crates/d3d9_model/specs/Marks.antt")
    marked = {name: [] for name in rows}
    for test, names in re.findall(r"cond \((eqb n \d+|leb \d+ n && leb n \d+)\) \(([^()]*)\[\]\)", marks):
        for name in re.findall(r"\w+", names):
            marked[name].append(STATES[test])
    for setter, name in re.findall(r"^marks_section \((\w+) [^)]*\) = among \((\w+) ∷ \[\]\)$", marks, re.M):
        marked[name].append(SETTERS[setter])
    last = rows["Palette"] + 255 * int(each)
    order = sorted(rows, key=rows.get)
    return [(name, int(bits[name]), rows[name], words[name], ", ".join(marked[name])) for name in order], last


def mirror():
    found, end = sections()
    svg = Svg(940, 190 + 27 * len(found) + 8, "The map of a mirror")
    svg.text(30, 36, f"A mirror: {end:,} rows of four floats", 20, weight="bold")
    svg.text(30, 58, "a refresh writes the sections that are marked, each from its first row on, and no other row", 13, GREY)
    palette = found[-1][2]
    left, each, right = 30, 7.6, 910
    for i, (name, _, first, _, _) in enumerate(found):
        stop = found[i + 1][2] if i + 1 < len(found) else None
        x = left + each * first
        wide = right - x if stop is None else each * (stop - first)
        svg.rect(x, 76, wide, 40, COLORS[i])
    for row in range(1, palette):
        svg.line(left + each * row, 76, left + each * row, 116, "#ffffff", 0.6)
    for i, (name, _, first, _, _) in enumerate(found):
        wide = (right - left - each * first) if i + 1 == len(found) else each * (found[i + 1][2] - first)
        if wide > 7.2 * len(name):
            svg.text(left + each * first + wide / 2 + (20 if i + 1 == len(found) else 0), 101, name.upper(), 12 if wide > 60 else 10, "#ffffff", "middle", "bold")
    cut = left + each * palette + 40
    for x in (cut, cut + 7):
        svg.path(f"M{x:.1f} 72L{x - 6:.1f} 88L{x + 6:.1f} 104L{x:.1f} 120", "#ffffff", 3)
    for row in [first for _, _, first, _, _ in found if first not in (4, 9)] + [end]:
        x = right if row == end else left + each * row
        svg.line(x, 116, x, 122, GREY)
        svg.text(x, 135, f"{row:,}", 11, GREY, "end" if row == end else "middle")
    heads = [(72, "start", "section"), (188, "end", "bit"), (278, "end", "rows"), (304, "start", "how many, under a key"), (630, "start", "marked by setting")]
    for x, anchor, head in heads:
        svg.text(x, 168, head, 12, GREY, anchor)
    svg.line(30, 175, 910, 175)
    for i, (name, bit, first, rows, marked) in enumerate(found):
        y = 197 + 27 * i
        last = (found[i + 1][2] if i + 1 < len(found) else end) - 1
        svg.rect(44, y - 11, 13, 13, COLORS[i], radius=2)
        svg.text(72, y, name.upper(), 13, weight="bold")
        svg.text(188, y, str(bit), 13, INK, "end")
        svg.text(278, y, f"{first:,}" if first == last else f"{first:,} to {last:,}", 13, INK, "end")
        svg.text(304, y, rows, 13)
        svg.text(630, y, marked, 13, GREY)
    return svg.done()
