"""image.svg: crates/image/specs/Format.antt, the places of an image's fields."""
import re

from svg import COLORS, GREY, Svg, number, text_of

WORDS = {
    "view": "the view",
    "projection": "the projection",
    "world_palette": "the world matrices",
    "texture_transforms": "the texture matrices",
    "material": "the material",
    "lights": "lights 0 to 7",
    "light_enabled": "slots that are enabled",
    "light_defined_mask": "slots that are defined",
    "ff_vs_dirty": "dirty sections",
    "zero": "always 0",
    "world_palette_high_water": "highest world matrix set",
    "overflow_count": "entries that are used",
    "overflow_lights": "lights from index 8 on, sorted",
    "fog_start": "where fog begins",
    "fog_end": "where fog ends",
    "fog_density": "how dense fog is",
    "ambient": "the ambient colour",
    "tt_active_mask": "texture stages that transform",
}


def image_fields():
    """(place, bytes, name, what is stored) of each field, in order."""
    length = text_of("crates/image_reasons/specs/Length.antt")
    end = sum(number(re.search(rf"^{name} = ([\d_]+)$", length, re.M)[1]) for name in ("entries_end", "tail_length"))
    states = re.search(r"^states_bytes r = (.*)$", text_of("crates/codec/specs/RenderStates.antt"), re.M)[1]
    table = re.findall(r"field ([\d_]+) \((.*)\)$", text_of("crates/image/specs/Format.antt"), re.M)
    places = [number(place) for place, _ in table] + [end]
    fields = []
    for i, (_, bytes_of) in enumerate(table):
        size = places[i + 1] - places[i]
        name = re.search(r"s\.(\w+)", bytes_of)
        name = name[1] if name else "ff_vs_dirty" if "dirty_word" in bytes_of else "zero"
        if bytes_of.startswith("states_bytes"):
            inner = re.findall(r"(float_bytes|little_bytes 4) r\.(\w+)", states)
            assert 4 * len(inner) == size
            fields += [
                (places[i] + 4 * k, 4, field, "a float" if kind == "float_bytes" else "a u32")
                for k, (kind, field) in enumerate(inner)
            ]
            continue
        each = {"matrix_bytes": (64, "matri", "x", "ces"), "light_bytes": (104, "light", "", "s"), "entry_bytes": (112, "entr", "y", "ies")}
        kind = next((each[word] for word in each if word in bytes_of), None)
        if kind:
            count = size // kind[0]
            assert count * kind[0] == size
            what = f"{count} {kind[1]}{kind[3]}" if count > 1 else f"a {kind[1]}{kind[2]}"
        else:
            what = {1: "a byte", 2: "a u16", 4: "a u32"}.get(size, "17 floats")
        fields.append((places[i], size, name, what))
    return fields, end


def image():
    fields, end = image_fields()
    colors = [COLORS[(i + 2 * (i // len(COLORS))) % len(COLORS)] for i in range(len(fields))]
    half = (len(fields) + 1) // 2
    top, row = 168, 24
    svg = Svg(940, top + row * half + 24, "The map of a state image")
    svg.text(30, 36, f"A state image: {end:,} bytes", 20, weight="bold")
    svg.text(30, 58, "to scale; numbers are little-endian, and no byte is left over", 13, GREY)
    left, width = 30, 880
    for i, (place, size, name, what) in enumerate(fields):
        x, wide = left + width * place / end, width * size / end
        svg.rect(x, 76, max(wide, 0.8), 40, colors[i])
        if wide > 120:
            svg.text(x + wide / 2, 101, f"{what}, {size:,} bytes", 13, "#ffffff", "middle", "bold")
    for place in (0, fields[3][0], next(f[0] for f in fields if f[2] == "overflow_lights"), end):
        x = left + width * place / end
        svg.line(x, 116, x, 122, GREY)
        svg.text(x, 135, f"{place:,}", 11, GREY, "start" if place == 0 else "end" if place in (end, fields[3][0]) else "start")
    for i, (place, size, name, what) in enumerate(fields):
        x, y = 30 + 455 * (i // half), top + row * (i % half)
        svg.rect(x, y - 11, 13, 13, colors[i], radius=2)
        svg.text(x + 68, y, f"{place:,}", 13, GREY, "end")
        svg.text(x + 82, y, WORDS.get(name, name), 13)
        svg.text(x + 425, y, f"{what}, {size:,} bytes" if size > 4 else what, 12, GREY, "end")
    return svg.done()
