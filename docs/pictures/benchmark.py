"""benchmark.svg: some rows of the tables of docs/BENCHMARKS.md."""
from math import log10

from svg import GREY, INK, LINE, Svg, text_of

PLOTTED = [
    ("set_transform", "in memory, palette", "ff_set_transform", "a world matrix set"),
    ("multiply_transform", "in memory, palette", "ff_multiply_transform", "a world matrix multiplied"),
    ("set_material", "in memory", "ff_set_material", "the material set"),
    ("set_light_at", "in memory, a slot", "ff_set_light_at", "a light set"),
    ("set_light_enabled_at", "in memory, a slot", "ff_set_light_enabled_at", "a light switched"),
    ("vs_source_light_inputs", "in memory, slots alone", "ff_vs_source_light_inputs", "the key's light masks read"),
    ("refresh", "in memory, all", None, "a refresh of every section"),
]


def times():
    """(words, the Rust's, ours in memory, ours over an image) in ns."""
    tables = [[cell.strip() for cell in line.strip("|").split("|")] for line in text_of("docs/BENCHMARKS.md").splitlines() if line.startswith("|")]
    beside = {(row[0], row[1]): row for row in reversed(tables) if len(row) == 6}
    hosts = {row[0].strip("`"): row for row in reversed(tables) if len(row) == 7 and row[1] == "0"}
    found = []
    for name, loop, host, words in PLOTTED:
        ours, theirs = float(beside[name, loop][2]), float(beside[name, loop][3])
        image_ns = float(hosts[host][2]) if host else float(beside[name, "over an image, all"][2])
        found.append((words, theirs, ours, image_ns))
    return found


def benchmark():
    found = times()
    left, right, top, row = 250, 890, 122, 40
    bottom = top + row * len(found)
    svg = Svg(940, bottom + 34, "What a call takes")
    svg.text(30, 36, "What a call takes", 20, weight="bold")
    svg.text(30, 58, "nanoseconds, each line ten times the one before; docs/BENCHMARKS.md says how it was measured", 13, GREY)
    series = [("the Rust", "#8c99a6", 1), ("ours, a state in memory", "#3f6ea3", 2), ("ours, over an image", "#d9822b", 3)]
    x = 30
    for words, color, _ in series:
        svg.dot(x + 7, 84, 7, color)
        svg.text(x + 21, 89, words, 13)
        x += 52 + 7 * len(words)

    def at(ns):
        return left + (right - left) * log10(ns) / log10(50000)

    for power in range(5):
        x = at(10**power)
        svg.line(x, top - 8, x, bottom - 6)
        svg.text(x, bottom + 12, f"{10**power:,} ns" if power < 3 else f"{10 ** (power - 3)} µs", 12, GREY, "middle")
    for i, (words, *values) in enumerate(found):
        y = top + row * i + 12
        svg.text(left - 18, y + 5, words, 14, INK, "end")
        svg.line(at(min(values)), y, at(max(values)), y, LINE, 3)
        for (_, color, k), value in zip(series, values):
            svg.dot(at(value), y, 7, color)
        svg.text(at(values[2]) + 14, y + 5, f"{values[2] / 1000:.1f} µs", 12, "#a85f14")
        close = abs(at(values[0]) - at(values[1])) < 40
        low, high = sorted(values[:2])
        show = (lambda v: f"{v:.1f}" if v < 100 else f"{v:,.0f}")
        if close:
            pair = f"{show(values[0])} and {show(values[1])}"
            svg.text((at(low) + at(high)) / 2, y - 12, pair, 11, GREY, "middle")
        else:
            for value in values[:2]:
                svg.text(at(value), y - 12, show(value), 11, GREY, "middle")
    return svg.done()
