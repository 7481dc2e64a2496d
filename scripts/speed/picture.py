#!/usr/bin/env python3
"""Makes docs/speed.svg and the tables of docs/SPEED.md from docs/speed.tsv, which scripts/speed/beside.sh prints.

    scripts/speed/picture.py            writes both, and prints the table, the README's sentence and the picture's words
    scripts/speed/picture.py --check    says what is not as it would write it; the exit status is then 1

The picture has both formats at 1,000 elements, and the data sets, by their own elements. A cell of a table has one
number for each library, in the order of the table's head.
"""

import html
import math
import os
import re
import sys
import textwrap

DATA, PICTURE, PAGE, README = "docs/speed.tsv", "docs/speed.svg", "docs/SPEED.md", "README.md"
BEGIN, END = "<!-- scripts/speed/picture.py: {} -->\n", "<!-- end -->\n"
OURS, CRATE, VARINT, FIXED = LIBRARIES = "ours", "bitcode", "bincode varint", "bincode fixed"
SHOWN, SIZES = 1000, (10, 1000, 1_000_000)
# What the picture shows, with its headings.
SHOWN_FORMATS = {"first": None, "second": "Second format:", "set": "Data sets:"}

# The picture: where its four axes begin, how long they are, and where its rows are. The second format and the data sets
# have a heading each, so their rows are further down.
AXES, AXIS, FIRST_ROW, ROW, WIDTH = (345, 575, 805, 1035), 185, 122, 20, 1240
STYLE = """text { font: 12px system-ui, sans-serif; fill: #1f2328 } .small { font-size: 11px; fill: #59636e }
.head { font-weight: 600 } .line { stroke: #d1d9e0 } .even { stroke: #59636e; stroke-width: 1.5 }
.row { stroke: #d1d9e0; stroke-dasharray: 1 4 } .ours { fill: #0969da }
.crate { fill: none; stroke: #bc4c00; stroke-width: 2 } .decode { fill: none; stroke: #0969da; stroke-width: 2 }
.varint, .fixed { fill: none; stroke: #59636e; stroke-width: 1.5 }
@media (prefers-color-scheme: dark) { text { fill: #f0f6fc } .small { fill: #9198a1 }
.line, .row { stroke: #3d444d } .even { stroke: #9198a1 } .ours { fill: #4493f8 } .crate { stroke: #f0883e }
.decode { stroke: #4493f8 } .varint, .fixed { stroke: #9198a1 } }"""


class Run:
    """The lines of a run: by workload, number of elements and library the bytes and the nanoseconds, each for one
    element. A data set stands beside the lists of 1,000 elements, with its bytes and times for one of its own elements;
    `sets` has those of the whole."""

    def __init__(self, path):
        with open(path) as file:
            head, _names, *rows = file.read().rstrip("\n").split("\n")
        self.head, self.found, self.formats, self.sets = head.lstrip("# "), {}, {}, {}
        for row in rows:
            form, name, elements, library, size, *times = row.split("\t")
            self.formats.setdefault(form, {})[name] = None
            measured = [None if time == "-" else float(time) for time in times]
            if form == "set":
                self.sets[name, library] = int(size), *measured
                count = int(re.search(r": ([\d,]+) ", name)[1].replace(",", ""))
                self.found[name, SHOWN, library] = int(size) / count, *(time / count for time in measured)
            else:
                self.found[name, int(elements), library] = int(size) / int(elements), *measured

    def each(self, name, elements, column):
        """What the libraries have in a column: 0 bytes, 1 encoding, 2 a buffer, 3 decoding."""
        return [self.found[name, elements, library][column] for library in LIBRARIES]

    def ratios(self, name, elements):
        """Our times over the Rust crate's."""
        ours, crate = self.found[name, elements, OURS], self.found[name, elements, CRATE]
        return "/".join("-" if ours[i] is None else f"{ours[i] / crate[i]:.2f}" for i in (1, 2, 3))


def short(number):
    """Two digits that count."""
    if number is None:
        return "-"
    return f"{number:.0f}" if number >= 9.95 else f"{number:.1f}" if number >= 0.95 else f"{number:.2f}"


def mark(library, x, y):
    """The mark of a library: a disc, a ring, an upright and a slanted cross."""
    if library == OURS:
        return disc("ours", x, y)
    if library == CRATE:
        return ring("crate", x, y)
    if library == VARINT:
        return f'<path class="varint" d="M{x - 4.5:.1f} {y}h9M{x:.1f} {y - 4.5}v9"/>'
    return f'<path class="fixed" d="M{x - 3.5:.1f} {y - 3.5}l7 7m0 -7l-7 7"/>'


def disc(kind, x, y):
    return f'<circle class="{kind}" cx="{x:.1f}" cy="{y}" r="4"/>'


def ring(kind, x, y):
    return f'<circle class="{kind}" cx="{x:.1f}" cy="{y}" r="5.5"/>'


def text(x, y, words, kind=""):
    of_kind = f' class="{kind}"' if kind else ""
    return f'<text{of_kind} x="{x}" y="{y}">{html.escape(words)}</text>'


class Axis:
    """A logarithmic axis: from the power of the base below the least value to the one above the greatest."""

    def __init__(self, left, base, values):
        self.left, self.base = left, base
        self.low = math.floor(math.log(min(values), base))
        self.high = math.ceil(math.log(max(values), base))

    def at(self, value):
        return self.left + AXIS * (math.log(value, self.base) - self.low) / (self.high - self.low)

    def lines(self, bottom):
        for power in range(self.low, self.high + 1):
            x, value = self.at(self.base**power), self.base**power
            kind = "even" if self.base == 2 and power == 0 else "line"
            yield f'<path class="{kind}" d="M{x:.1f} {FIRST_ROW - 12}V{bottom}"/>'
            yield f'<text class="small" x="{x:.1f}" y="{FIRST_ROW - 18}" text-anchor="middle">{value:g}</text>'


def placed(run):
    """The workloads of the picture, each with its row, and the headings, each with its own."""
    rows, headings, y = {}, {}, FIRST_ROW
    for form, heading in SHOWN_FORMATS.items():
        if heading:
            headings[heading] = y
            y += ROW
        for name in run.formats[form]:
            rows[name] = y
            y += ROW
    return rows, headings


def ratio(run, name, column):
    """Our time over the Rust crate's: 1 encoding, 3 decoding."""
    ours, crate = run.each(name, SHOWN, column)[:2]
    return ours / crate


def told(run):
    """What the picture shows, in words: its title, and what stands in its place where it is not seen."""
    names = [name for form in SHOWN_FORMATS for name in run.formats[form]]
    fewer = [name for name in names if run.each(name, SHOWN, 0)[0] <= run.each(name, SHOWN, 0)[2]]
    faster = [[name for name in names if ratio(run, name, column) <= 1] for column in (1, 3)]
    return (
        f"{len(names) - len(run.formats['set'])} workloads of 1,000 elements and {len(run.formats['set'])} data sets: no "
        f"more bytes than bincode with varints in {len(fewer)}, encoded at least as fast as by the Rust crate in "
        f"{len(faster[0])}, decoded at least as fast in {len(faster[1])}"
    )


def drawn(run):
    rows, headings = placed(run)
    bottom = max(rows.values()) + 12
    parts = [
        f'<svg xmlns="http://www.w3.org/2000/svg" viewBox="0 0 {WIDTH} {bottom + 4}"',
        'role="img" aria-labelledby="title">',
        f'<title id="title">{told(run)}</title>', f"<style>{STYLE}</style>",
    ]
    parts += [f'<path class="row" d="M12 {y + 10}H{WIDTH - 20}"/>' for y in rows.values()]
    legend = ("bitcode, this library", "bitcode, the Rust crate", "bincode, varint", "bincode, fixed")
    for i, (library, words) in enumerate(zip(LIBRARIES, legend)):
        parts += [mark(library, 24 + 190 * i, 20), text(36 + 190 * i, 24, words)]
    parts += [disc("ours", AXES[3] + 4, 20), text(AXES[3] + 14, 24, "encode")]
    parts += [ring("decode", AXES[3] + 84, 20), text(AXES[3] + 96, 24, "decode")]
    shown = "Lists of 1,000 elements, and data sets. All axes are logarithmic: further left is better."
    parts.append(text(12, 54, shown, "head"))
    heads = ("bytes per element", "encode, ns per element", "decode, ns per element")
    for left, column, head in zip(AXES, (0, 1, 3), heads):
        axis = Axis(left, 10, [value for name in rows for value in run.each(name, SHOWN, column)])
        parts += [text(left, 84, head, "head"), *axis.lines(bottom)]
        for name, y in rows.items():
            values = reversed([*zip(LIBRARIES, run.each(name, SHOWN, column))])
            parts += [mark(library, axis.at(value), y) for library, value in values]
    axis = Axis(AXES[3], 2, [ratio(run, name, column) for name in rows for column in (1, 3)])
    parts += [text(AXES[3], 84, "our time / the crate's", "head"), *axis.lines(bottom)]
    for name, y in rows.items():
        parts += [ring("decode", axis.at(ratio(run, name, 3)), y), disc("ours", axis.at(ratio(run, name, 1)), y)]
    parts += [text(12, y + 4, name.replace("`", "")) for name, y in rows.items()]
    parts += [text(12, y + 4, heading, "head") for heading, y in headings.items()]
    return "\n".join([*parts, "</svg>", ""])


def table(run):
    heads = (
        "Workload", "Bytes per element: bitcode/varint/fixed", "Encode, ns per element: ours/crate/varint/fixed",
        "Decode, ns per element", "Our time / the crate's: 10 elements", "1,000", "1,000,000",
    )
    lines = ["| " + " | ".join(heads) + " |", "|---" * len(heads) + "|"]
    for name in [*run.formats["first"], *run.formats["second"]]:
        sizes = [short(it) for it in run.each(name, SHOWN, 0)]
        times = ["/".join(short(it) for it in run.each(name, SHOWN, column)) for column in (1, 3)]
        cells = ["/".join(sizes[1:]), *times, *(run.ratios(name, elements) for elements in SIZES)]
        lines.append(f"| {name} | " + " | ".join(cells) + " |")
    for name in run.formats["single"]:
        sizes = ["/".join(short(it) for it in run.each(name, 1, column)) for column in (0, 1, 3)]
        lines.append(f"| {name} | {sizes[0].split('/', 1)[1]} | {sizes[1]} | {sizes[2]} | {run.ratios(name, 1)} | | |")
    return "\n".join(lines) + "\n"


def sets_table(run):
    heads = (
        "Set", "Bytes: bitcode/varint/fixed", "Encode, ms: ours/crate/varint/fixed", "Decode, ms", "Our time / the crate's",
    )
    lines = ["| " + " | ".join(heads) + " |", "|---" * len(heads) + "|"]
    for name in run.formats["set"]:
        each = [run.sets[name, library] for library in LIBRARIES]
        sizes = "/".join(f"{it[0]:,}" for it in each[1:])
        times = ["/".join(short(it[column] / 1e6) for it in each) for column in (1, 3)]
        lines.append(f"| {name} | {sizes} | {times[0]} | {times[1]} | {run.ratios(name, SHOWN)} |")
    return "\n".join(lines) + "\n"


def span(run, form, sizes=SIZES):
    """The least and the greatest of our times over the Rust crate's, over all workloads of a format."""
    cells = [run.ratios(name, elements).split("/") for name in run.formats[form] for elements in sizes]
    ratios = [float(cell) for row in cells for cell in row if cell != "-"]
    return f"{min(ratios):.2f} to {max(ratios):.1f} times"


def sentence(run):
    """What the README says."""
    name = next(name for name in run.formats["first"] if name.startswith("records"))
    size = [short(it) for it in run.each(name, SHOWN, 0)]
    return (f"A record of five fields takes {size[0]} bytes in a list of 1,000 (bincode: {size[2]} or {size[3]}). "
            f"Calls take {span(run, 'first')} as long as in the Rust crate, or {span(run, 'second')} in the second format, "
            f"and {span(run, 'set', [SHOWN])} on four common data sets")


def with_block(page, name, block):
    """The page with a block in the place of the one between the marks of that name."""
    start = page.index(BEGIN.format(name)) + len(BEGIN.format(name))
    return page[:start] + block + page[page.index(END, start):]


def read(path):
    with open(path) as file:
        return file.read()


def main():
    os.chdir(os.path.join(os.path.dirname(os.path.abspath(__file__)), "../.."))
    run = Run(DATA)
    page = with_block(read(PAGE), "run", textwrap.fill(f"Measured: {run.head}.", 120, break_on_hyphens=False) + "\n")
    page = with_block(with_block(page, "table", table(run)), "sets", sets_table(run))
    made = {PICTURE: drawn(run), PAGE: page}
    if sys.argv[1:] == ["--check"]:
        stale = [path for path in made if not os.path.exists(path) or read(path) != made[path]]
        faults = [f"{path} is out of date: run scripts/speed/picture.py" for path in stale]
        for page, words in ((README, sentence(run)), (README, f"![{told(run)}]"), (PAGE, f"![{told(run)}]")):
            if words not in " ".join(read(page).split()):
                faults.append(f"{page} must contain: {words}")
        print("\n".join(faults), end="\n" if faults else "")
        return 1 if faults else 0
    for path, text in made.items():
        with open(path, "w") as file:
            file.write(text)
    print(table(run) + "\n" + sentence(run) + f"\n\n![{told(run)}]")
    return 0


sys.exit(main())
