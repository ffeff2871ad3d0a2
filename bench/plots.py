"""Draws the measurements of versus.py and workers.py as SVG files: python3 bench/plots.py

    --peers FILE     what `bench/versus.py --csv` wrote (docs/plots/peers.csv)
    --workers FILE   what `bench/workers.py --csv` wrote (docs/plots/workers.csv)
    --out FOLDER     where the files are written (docs/plots)

rows.svg has a panel for each query: seconds against rows, both axes logarithmic. memory.svg shows the memory for each row,
and workers.svg the speed-up by several workers, each at one number of rows. A file whose measurements are missing is not
drawn. A program has the same colour, dashes and marker in rows.svg and memory.svg. Each file has a background of its own,
which is dark if the reader's system is.
"""

import argparse
import math
import os
from dataclasses import dataclass
from html import escape

from measuring import HERE, read_measurements

FOLDER = os.path.join(HERE, "..", "docs", "plots")

# The colours of Okabe and Ito, which colour-blind readers can distinguish, on a light and on a dark background.
COLOURS = {
    "blue": ("#0072b2", "#4fa3e0"),
    "sky": ("#3a9bd9", "#8cc9f5"),
    "grey": ("#59636e", "#9198a1"),
    "green": ("#009e73", "#2fc39a"),
    "red": ("#d55e00", "#f0803c"),
    "purple": ("#b0568e", "#dd8fbf"),
    "orange": ("#c98500", "#e9b44c"),
}
GROUND, INK, FAINT = ("#ffffff", "#0d1117"), ("#1f2328", "#e6edf3"), ("#d5dae0", "#30363d")

STYLE = """
text { font-family: sans-serif; font-size: 12px }
.title { font-size: 13px; font-weight: bold }
.grid, .axis, .line { fill: none }
.line { stroke: currentColor; stroke-width: 2 }
"""

DASHES = ["", "6 3", "2 3", "9 3 2 3", "1 3", "4 2", "12 4"]
MARKERS = ["circle", "square", "cross", "diamond", "triangle", "plus", "ring"]

# The queries that are drawn, and their titles.
PANELS = {
    "join": "Join of two tables on the key",
    "difference": "Difference (EXCEPT ALL)",
    "counts": "Counts by department",
    "sums": "Sums by department over the join",
    "name": "SELECT name",
    "name,dept": "SELECT name, dept",
}


@dataclass
class Axis:
    """A scale from values to coordinates, with its ticks and their labels."""

    low: float
    high: float
    begin: float
    end: float
    ticks: list
    label_of: object = str
    is_log: bool = False

    def place(self, value):
        low, high, value = (math.log10(it) if self.is_log else it for it in (self.low, self.high, value))
        return self.begin + (value - low) / (high - low) * (self.end - self.begin)


def powers(low, high):
    """The powers of ten from the last one not above `low` to the first one not below `high`."""
    return [10**power for power in range(math.floor(math.log10(low) + 1e-9), math.ceil(math.log10(high) - 1e-9) + 1)]


def log_axis(values, begin, end, label_of):
    ticks = powers(min(values), max(values))
    if len(ticks) == 1:
        ticks.append(10 * ticks[0])
    return Axis(ticks[0], ticks[-1], begin, end, ticks, label_of, is_log=True)


def short(number):
    """A number as the label of a tick: 0.01, 10, 10k, 1M."""
    for unit, letter in ((1_000_000, "M"), (1_000, "k")):
        if number >= unit:
            return f"{number / unit:g}{letter}"
    return f"{number:g}"


def colours(at):
    """The CSS rules of the colours on a light background (0) or on a dark one (1)."""
    rules = [f".{name} {{ color: {both[at]} }}" for name, both in COLOURS.items()]
    rules += [f".ground {{ fill: {GROUND[at]} }}", f"text {{ fill: {INK[at]} }}"]
    rules += [f".grid {{ stroke: {FAINT[at]} }}", f".axis {{ stroke: {COLOURS['grey'][at]} }}"]
    return "\n".join(rules)


def text(x, y, words, anchor="start", more=""):
    return f'<text x="{x:.1f}" y="{y:.1f}" text-anchor="{anchor}"{more}>{escape(words)}</text>'


def line(x1, y1, x2, y2, kind):
    return f'<path class="{kind}" d="M{x1:.1f} {y1:.1f}L{x2:.1f} {y2:.1f}"/>'


def marker(shape, x, y):
    """A marker of about 8 by 8 in the colour of its group."""
    shapes = {
        "circle": f'<circle cx="{x:.1f}" cy="{y:.1f}" r="4" fill="currentColor"/>',
        "ring": f'<circle class="ground" cx="{x:.1f}" cy="{y:.1f}" r="3.2" stroke="currentColor" stroke-width="2"/>',
        "square": f'<path d="M{x - 3.5:.1f} {y - 3.5:.1f}h7v7h-7z" fill="currentColor"/>',
        "diamond": f'<path d="M{x:.1f} {y - 5:.1f}l4.5 5l-4.5 5l-4.5 -5z" fill="currentColor"/>',
        "triangle": f'<path d="M{x:.1f} {y - 5:.1f}l4.5 8.5h-9z" fill="currentColor"/>',
        "cross": f'<path class="line" d="M{x - 3.5:.1f} {y - 3.5:.1f}l7 7m0 -7l-7 7"/>',
        "plus": f'<path class="line" d="M{x - 4.5:.1f} {y:.1f}h9m-4.5 -4.5v9"/>',
    }
    return shapes[shape]


def drawn(look, places):
    """A line through points with a marker on each, in the colour, dashes and marker of a look."""
    colour, dashes, shape = list(COLOURS)[look], DASHES[look], MARKERS[look]
    path = "L".join(f"{x:.1f} {y:.1f}" for x, y in places)
    dashed = f' stroke-dasharray="{dashes}"' if dashes else ""
    markers = "".join(marker(shape, x, y) for x, y in places)
    return f'<g class="{colour}"><path class="line"{dashed} d="M{path}"/>{markers}</g>'


def frame(x_axis, y_axis, x_label, y_label):
    """The grid, the axes and their labels."""
    for tick in x_axis.ticks:
        x = x_axis.place(tick)
        yield line(x, y_axis.begin, x, y_axis.end, "grid")
        yield text(x, y_axis.begin + 16, x_axis.label_of(tick), "middle")
    for tick in y_axis.ticks:
        y = y_axis.place(tick)
        yield line(x_axis.begin, y, x_axis.end, y, "grid")
        yield text(x_axis.begin - 6, y + 4, y_axis.label_of(tick), "end")
    yield line(x_axis.begin, y_axis.begin, x_axis.end, y_axis.begin, "axis")
    yield line(x_axis.begin, y_axis.begin, x_axis.begin, y_axis.end, "axis")
    if x_label:
        yield text((x_axis.begin + x_axis.end) / 2, y_axis.begin + 34, x_label, "middle")
    if y_label:
        x, y = x_axis.begin - 46, (y_axis.begin + y_axis.end) / 2
        yield text(x, y, y_label, "middle", f' transform="rotate(-90 {x:.1f} {y:.1f})"')


def legend(looks, y):
    """The names of the series with their lines and markers, in one row."""
    x = 24
    for name, look in looks.items():
        yield drawn(look, [(x, y - 4), (x + 36, y - 4)])
        yield text(x + 44, y, name)
        x += 62 + 7 * len(name)


def apart(places, gap):
    """Moves the places, in their order, until neighbours are at least `gap` apart, in at most 100 rounds."""
    order = sorted(range(len(places)), key=lambda at: places[at])
    moved = list(places)
    for _ in range(100):
        for above, below in zip(order, order[1:]):
            lack = gap - (moved[below] - moved[above])
            if lack > 0:
                moved[above] -= lack / 2
                moved[below] += lack / 2
    return moved


def svg(width, height, title, parts):
    """The text of an SVG file."""
    ground = '<rect class="ground" width="100%" height="100%" rx="6"/>'
    style = f"{STYLE}{colours(0)}\n@media (prefers-color-scheme: dark) {{\n{colours(1)}\n}}\n"
    head = f'<svg xmlns="http://www.w3.org/2000/svg" viewBox="0 0 {width} {height}" width="{width}" height="{height}" role="img">'
    heading = text(20, 24, title, more=' class="title"')
    return "\n".join([head, f"<title>{escape(title)}</title>", f"<style>{style}</style>", ground, heading, *parts, "</svg>", ""])


def name_of(it):
    return it.program if it.workers == 1 else f"{it.program}, {it.workers} workers"


def looks_of(measurements):
    """The look of each program. Looks are numbered in the order of the measurements."""
    names = dict.fromkeys(map(name_of, measurements))
    return {name: at % len(COLOURS) for at, name in enumerate(names)}


def rows_plot(measurements):
    """Seconds against rows: a panel for each query, all with the same axes."""
    looks = looks_of(measurements)
    asked = [question for question in PANELS if question in {it.question for it in measurements}]
    columns, wide, high = 3, 285, 215
    parts = [*legend(looks, 50)]
    for at, question in enumerate(asked):
        left, top = 64 + at % columns * wide, 90 + at // columns * high
        its = [it for it in measurements if it.question == question]
        x_axis = log_axis([it.rows for it in measurements], left, left + wide - 70, short)
        y_axis = log_axis([it.seconds for it in measurements], top + high - 64, top, "{:g}".format)
        parts.append(text(left, top - 9, PANELS[question], more=' class="title"'))
        is_first, is_last = at % columns == 0, at + columns >= len(asked)
        parts += frame(x_axis, y_axis, "rows of each table" if is_last else "", "seconds" if is_first else "")
        for name, look in looks.items():
            points = sorted((it.rows, it.seconds) for it in its if name_of(it) == name)
            if points:
                parts.append(drawn(look, [(x_axis.place(rows), y_axis.place(seconds)) for rows, seconds in points]))
    height = 75 + math.ceil(len(asked) / columns) * high
    return svg(columns * wide + 30, height, "Time against rows, both axes logarithmic", parts)


def memory_plot(measurements):
    """Bytes for each row without the files, at the number of rows with the most known values."""
    known = [it for it in measurements if it.question in PANELS and (it.bytes_a_row() or 0) > 0]
    rows = max({it.rows for it in known}, key=lambda size: (sum(it.rows == size for it in known), size))
    known = [it for it in known if it.rows == rows]
    looks = {name: look for name, look in looks_of(measurements).items() if name in map(name_of, known)}
    asked = [question for question in PANELS if question in {it.question for it in known}]
    width, height, high = 885, 130 + 40 * len(asked), 40
    x_axis = log_axis([it.bytes_a_row() for it in known], 240, width - 30, short)
    y_axis = Axis(0, 1, height - 55, 75, [])
    parts = [*legend(looks, 50), *frame(x_axis, y_axis, "bytes a row (logarithmic)", "")]
    for at, question in enumerate(asked):
        y = y_axis.end + (at + 0.5) * high
        parts += [line(x_axis.begin, y, x_axis.end, y, "grid"), text(x_axis.begin - 8, y + 4, PANELS[question], "end")]
        its = {name_of(it): it for it in known if it.question == question}
        for below, (name, look) in enumerate(looks.items()):
            if name in its:
                place = y + 4 * (below - (len(looks) - 1) / 2)
                parts.append(drawn(look, [(x_axis.place(its[name].bytes_a_row()), place)]))
    return svg(width, height, f"Peak memory a row of input beyond the files, {rows:,} rows a table", parts)


def workers_plot(measurements):
    """The speed-up of several workers over one, at the largest number of rows, with the ideal line."""
    rows = max(it.rows for it in measurements)
    its = [it for it in measurements if it.rows == rows and it.tables == "payroll"]
    most = max(it.workers for it in its)
    x_axis = Axis(1, most, 64, 480, sorted({it.workers for it in its}))
    y_axis = Axis(0, most, 420, 50, list(range(most + 1)))
    parts = [*frame(x_axis, y_axis, "workers", "times as fast as one worker")]
    parts.append(line(x_axis.place(1), y_axis.place(1), x_axis.place(most), y_axis.place(most), "axis"))
    parts.append(text(x_axis.end + 12, y_axis.end + 4, "ideal"))
    asked = [question for question in PANELS if question in {it.question for it in its}]
    ends = []
    for look, question in enumerate(asked):
        seconds = {it.workers: it.seconds for it in its if it.question == question}
        times = {workers: seconds[1] / took for workers, took in sorted(seconds.items())}
        parts.append(drawn(look, [(x_axis.place(workers), y_axis.place(value)) for workers, value in times.items()]))
        ends.append(times[most])
    for look, y in enumerate(apart([y_axis.place(value) for value in ends], 17)):
        parts += [drawn(look, [(x_axis.end + 18, y)]), text(x_axis.end + 30, y + 4, f"{ends[look]:.1f}  {PANELS[asked[look]]}")]
    return svg(760, 470, f"Speed-up by several workers, {rows:,} rows a table", parts)


def plots(peers, workers):
    """The names and texts of the files that these measurements produce."""
    for name, path, plot in (("rows.svg", peers, rows_plot), ("memory.svg", peers, memory_plot), ("workers.svg", workers, workers_plot)):
        if os.path.exists(path):
            yield name, plot(read_measurements(path))


def main():
    parser = argparse.ArgumentParser()
    parser.add_argument("--peers", default=os.path.join(FOLDER, "peers.csv"))
    parser.add_argument("--workers", default=os.path.join(FOLDER, "workers.csv"))
    parser.add_argument("--out", default=FOLDER)
    options = parser.parse_args()
    os.makedirs(options.out, exist_ok=True)
    for name, drawing in plots(options.peers, options.workers):
        with open(os.path.join(options.out, name), "w", encoding="utf-8") as file:
            file.write(drawing)


if __name__ == "__main__":
    main()
