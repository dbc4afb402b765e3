"""Writes the measured tables and plots from the results of bench/run.

The tables go to standard output and into the marked sections of docs/PERFORMANCE.md, the plots to docs/performance-*.svg.
"""

import csv
import math
import re
import shutil
import subprocess
import sys

PAGE = "docs/PERFORMANCE.md"
PROGRAMS = {
    "begbija": "Begbija",
    "plain": "plain C, -O2",
    "hoisted_o2": "hoisted C, -O2",
    "hoisted_o3": "hoisted C, -O3",
}
COLOURS = {"begbija": "#c0392b", "plain": "#555555", "hoisted_o2": "#2471a3", "hoisted_o3": "#1e8449"}
DASHES = {"begbija": "none", "plain": "2 3", "hoisted_o2": "7 3", "hoisted_o3": "7 3 2 3"}
TABLE_BYTES = 65536
STACK_TARGET = 32 * 1024
SIZE_TARGET = 24 * 1024


def read_results(path):
    with open(path, newline="") as file:
        rows = list(csv.DictReader(file))
    for row in rows:
        row["value"] = float(row["value"])
        for key in ("jobs", "levels", "energy_cells", "temperature_cells", "words", "bytes"):
            row[key] = int(row[key] or 0)
    return rows


def shape_of(row):
    return row["jobs"], row["levels"], row["energy_cells"], row["temperature_cells"]


def by_shape(rows, tables, figure):
    """The values of one figure: for each sheet, in order, its row and a value for each program."""
    found = {}
    for row in rows:
        if row["table"] in tables and row["figure"] == figure:
            found.setdefault(shape_of(row), (row, {}))[1][row["program"]] = row["value"]
    return list(found.values())


def figures(number):
    """Three figures, or the whole part where it has more."""
    return f"{number:.{max(0, min(2, 2 - math.floor(math.log10(number))))}f}"


def markdown(head, lines):
    rule = ["---"] * 2 + ["--:"] * (len(head) - 2)
    return "\n".join("| " + " | ".join(cells) + " |" for cells in [head, rule, *lines])


def compared(label, row, values, divisor):
    sheet = "m {}, l {}, {} × {}".format(*shape_of(row))
    each = [figures(values[program] / divisor) for program in PROGRAMS]
    ratios = [f"{values['begbija'] / values[program]:.2f}" for program in list(PROGRAMS)[1:]]
    return [label, sheet, *each, *ratios]


def compared_table(first, groups):
    head = [first, "sheet", *PROGRAMS.values(), "to plain", "to hoisted -O2", "to hoisted -O3"]
    lines = []
    for label, found, divisor in groups:
        lines += [compared(label, row, values, row[divisor]) for row, values in found]
    return markdown(head, lines)


def times_table(rows):
    sheets = ("logger", "full")
    return compared_table("nanoseconds per", [
        ("word, whole call", by_shape(rows, sheets, "whole"), "words"),
        ("word, fill and walk", by_shape(rows, sheets, "fill"), "words"),
        ("word, planning afresh", by_shape(rows, ("full",), "afresh"), "words"),
        ("word, logger's call", by_shape(rows, ("logger",), "text"), "words"),
        ("byte, reader", by_shape(rows, (*sheets, "longest"), "reader"), "bytes"),
    ])


def instructions_table(rows):
    return compared_table("instructions per", [
        ("word, whole call", by_shape(rows, ("instructions",), "whole"), "words"),
        ("word, planning afresh", by_shape(rows, ("instructions",), "afresh"), "words"),
        ("word, logger's call", by_shape(rows, ("instructions",), "text"), "words"),
        ("byte, reader", by_shape(rows, ("instructions",), "reader"), "bytes"),
    ])


def growth_table(rows, table):
    return compared_table("nanoseconds per", [("word, whole call", by_shape(rows, (table,), "whole"), "words")])


def memory_table(rows):
    stack = {(row["program"], row["figure"]): row["value"] for row in rows if row["table"] == "stack"}
    size = {row["program"]: row["value"] for row in rows if row["table"] == "size"}
    lines = [
        ["stack, call with a lent table", "", *(f"{stack[program, 'plan']:,.0f}" for program in PROGRAMS)],
        *([f"stack, {call}", "", f"{stack['begbija', figure]:,.0f}", *[""] * (len(PROGRAMS) - 1)]
          for call, figure in (("planning afresh", "afresh"), ("measuring call", "measure"), ("call for the need", "need"))),
        ["stack, logger's call, less its table", f"{STACK_TARGET:,}",
         *(f"{stack[program, 'text'] - TABLE_BYTES:,.0f}" for program in PROGRAMS)],
        ["code", f"{SIZE_TARGET:,}", *(f"{size[program]:,.0f}" for program in PROGRAMS)],
    ]
    return markdown(["bytes", "target at most", *PROGRAMS.values()], lines)


def worst(rows, tables, figure, program):
    """The largest of Begbija's figures divided by a program's, over all sheets."""
    return max(values["begbija"] / values[program] for _, values in by_shape(rows, tables, figure))


def targets_table(rows):
    sheets = ("logger", "full")
    lines = []
    for what, tables, figure, program, target in (
        ("fill and walk", sheets, "fill", "plain", 0.15),
        ("fill and walk", sheets, "fill", "hoisted_o2", 1.0),
        ("fill and walk", sheets, "fill", "hoisted_o3", 1.5),
        ("logger's call", ("logger",), "text", "hoisted_o2", 1.0),
        ("reader, longest sheet", ("longest",), "reader", "plain", 1.2),
    ):
        ratio = worst(rows, tables, figure, program)
        lines.append([what, PROGRAMS[program], f"{target:.2f}", f"{ratio:.2f}", "yes" if ratio <= target else "no"])
    return markdown(["time of", "beside", "target at most", "worst sheet", "met"], lines)


def first_line(*command):
    return subprocess.run(command, capture_output=True, text=True, check=True).stdout.splitlines()[0]


def machine_table():
    with open("/proc/cpuinfo") as file:
        processor = re.search(r"model name\s*: (.*)", file.read()).group(1)
    lines = [["processor", processor + ", x86-64"], ["C compiler", first_line("gcc", "--version")]]
    if shutil.which("rt"):
        lines.append(["Rattle", first_line("rt", "version")])
    lines.append(["instruction counts", first_line("valgrind", "--version")])
    return markdown(["what", "which"], lines)


class Axis:
    """Values along one side of a plot, from pixel `low` to pixel `high`."""

    def __init__(self, values, ticks, low, high, log):
        self.ticks, self.low, self.high = ticks, low, high
        self.scale = math.log10 if log else float
        self.first, self.last = self.scale(min([*values, *ticks])), self.scale(max([*values, *ticks]))

    def at(self, value):
        return self.low + (self.scale(value) - self.first) / (self.last - self.first) * (self.high - self.low)


def log_ticks(values):
    """Powers of ten, or 1, 2, 5 times them where there would be few, from below the least value to above the greatest."""
    least, most = math.log10(min(values)), math.log10(max(values))
    steps = (1,) if most - least > 2.5 else (1, 2, 5)
    ticks = [step * 10.0**power for power in range(math.floor(least), math.ceil(most) + 1) for step in steps]
    below = max(tick for tick in ticks if tick <= min(values))
    above = min(tick for tick in ticks if tick >= max(values))
    return [tick for tick in ticks if below <= tick <= above]


def text(x, y, words, anchor="middle", turn=""):
    return f'<text x="{x:.1f}" y="{y:.1f}" text-anchor="{anchor}"{turn}>{words}</text>'


def grid(x_axis, y_axis):
    parts = []
    for tick in x_axis.ticks:
        x = x_axis.at(tick)
        parts.append(f'<line class="grid" x1="{x:.1f}" y1="{y_axis.low}" x2="{x:.1f}" y2="{y_axis.high}"/>')
        parts.append(text(x, y_axis.low + 18, f"{tick:,.0f}"))
    for tick in y_axis.ticks:
        y = y_axis.at(tick)
        parts.append(f'<line class="grid" x1="{x_axis.low}" y1="{y:.1f}" x2="{x_axis.high}" y2="{y:.1f}"/>')
        parts.append(text(x_axis.low - 8, y + 4, f"{tick:,g}", "end"))
    return parts


def curve(program, points, x_axis, y_axis):
    style = f'stroke="{COLOURS[program]}" stroke-dasharray="{DASHES[program]}"'
    places = [(x_axis.at(x), y_axis.at(y)) for x, y in points]
    line = " ".join(f"{x:.1f},{y:.1f}" for x, y in places)
    dots = [f'<circle cx="{x:.1f}" cy="{y:.1f}" r="3" fill="{COLOURS[program]}"/>' for x, y in places]
    return [f'<polyline points="{line}" {style}/>', *dots]


def legend(x, y):
    parts = []
    for i, (program, name) in enumerate(PROGRAMS.items()):
        style = f'stroke="{COLOURS[program]}" stroke-dasharray="{DASHES[program]}"'
        parts.append(f'<polyline points="{x},{y + 20 * i} {x + 36},{y + 20 * i}" {style}/>')
        parts.append(text(x + 44, y + 20 * i + 4, name, "start"))
    return parts


def plot(path, title, x_label, y_label, curves, x_ticks, log_x):
    """`curves` has a list of (x, y) for each program."""
    xs = [x for points in curves.values() for x, _ in points]
    ys = [y for points in curves.values() for _, y in points]
    x_axis, y_axis = Axis(xs, x_ticks, 80, 540, log_x), Axis(ys, log_ticks(ys), 360, 50, True)
    parts = [
        '<svg xmlns="http://www.w3.org/2000/svg" viewBox="0 0 720 420" font-family="sans-serif" font-size="13">',
        '<style>.grid { stroke: #dddddd } polyline { fill: none; stroke-width: 2 }</style>',
        '<rect width="720" height="420" fill="white"/>',
        text(310, 28, title),
        text(310, 404, x_label),
        text(22, 205, y_label, turn=' transform="rotate(-90 22 205)"'),
        *grid(x_axis, y_axis),
    ]
    for program, points in curves.items():
        parts += curve(program, points, x_axis, y_axis)
    parts += [*legend(560, 70), "</svg>"]
    with open(path, "w") as file:
        file.write("\n".join(parts) + "\n")


def curves_of(found, x_key, divisor):
    return {program: [(row[x_key], values[program] / divisor(row)) for row, values in found] for program in PROGRAMS}


def plot_all(rows):
    words = by_shape(rows, ("words",), "whole")
    plot("docs/performance-words.svg", "Whole call with a lent table, 8 jobs and 8 levels", "words of the table",
         "milliseconds", curves_of(words, "words", lambda row: 1e6), [10**power for power in range(3, 8)], True)
    levels = by_shape(rows, ("levels",), "whole")
    plot("docs/performance-levels.svg", "Whole call with a lent table, 8 jobs, about 1,000,000 words", "levels",
         "nanoseconds per word", curves_of(levels, "levels", lambda row: row["words"]), list(range(1, 9)), False)


def write_sections(sections):
    with open(PAGE) as file:
        page = file.read()
    for name, table in sections.items():
        pattern = re.compile(rf"(<!-- {name}: written by bench/run -->\n).*?(<!-- end of {name} -->)", re.DOTALL)
        page, count = pattern.subn(lambda match: f"{match[1]}\n{table}\n\n{match[2]}", page)
        if count != 1:
            sys.exit(f"plot.py: {PAGE} has {count} sections '{name}', not 1")
    with open(PAGE, "w") as file:
        file.write(page)


def main():
    rows = read_results(sys.argv[1])
    sections = {
        "machine": machine_table(),
        "targets": targets_table(rows),
        "times": times_table(rows),
        "instructions": instructions_table(rows),
        "memory": memory_table(rows),
        "growth with words": growth_table(rows, "words"),
        "growth with levels": growth_table(rows, "levels"),
    }
    for name, table in sections.items():
        print(f"\n{name}:\n\n{table}")
    plot_all(rows)
    write_sections(sections)


main()
