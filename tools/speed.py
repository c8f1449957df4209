#!/usr/bin/env python3
"""speed.py: docs/speed.txt, which is what the benchmark printed, made into docs/speed.svg and into the tables of docs/SPEED.md.

A line of docs/speed.txt is fields with tabs between them; the first says what it is (host/bench/src/report.rs, stages.rs and counts.rs). A table of docs/SPEED.md stands
between a line `<!-- NAME: python3 tools/speed.py -->` and a line `<!-- end -->`; the names are those of TABLES below.

Usage, at the repository's root, after `cargo run --release -p bench -- --all > ../docs/speed.txt` in host/:
  python3 tools/speed.py            writes the picture and the tables
  python3 tools/speed.py --check    writes nothing; status 1 if either would change
"""
import math
import re
import sys
from pathlib import Path

ROOT = Path(__file__).resolve().parent.parent
LINES, PICTURE, PAGE = ROOT / "docs/speed.txt", ROOT / "docs/speed.svg", ROOT / "docs/SPEED.md"
SIDES = ["ours", "plain", "Rust"]
STAGES = ["checks", "tables", "words", "prediction", "clearing", "whole"]


class Row:
    """What was measured of one frame: of each side the least and the median, and its clearing's, in nanoseconds a sample."""

    def __init__(self, name, at, samples, bits, runs):
        self.name, self.at, self.samples, self.bits, self.runs, self.sides = name, at, samples, bits, runs, {}

    def whole(self, side, which=0):
        return self.sides[side][which]

    def without(self, side, which=0):
        return self.sides[side][which] - self.sides[side][which + 2]


class Run:
    """All lines of docs/speed.txt."""

    def __init__(self, text):
        self.head, self.rows, self.stages, self.counts = {}, {}, {}, {}
        for line in text.splitlines():
            keyword, *fields = line.split("\t")
            if keyword == "head":
                self.head[fields[0]] = fields[1]
            elif keyword == "stage":
                name, side, stage, least, _ = fields
                self.stages.setdefault(name, {}).setdefault(side, {})[stage] = float(least)
            elif keyword == "count":
                name, side, function, count = fields
                self.counts.setdefault(name, {}).setdefault(side, {})[function] = float(count)
            else:
                self.measured(keyword, fields)

    def measured(self, keyword, fields):
        name, at, side, samples, bits, runs, *times = fields
        rows = self.rows.setdefault(keyword, [])
        if not rows or (rows[-1].name, rows[-1].at) != (name, int(at)):
            rows.append(Row(name, int(at), int(samples), float(bits), int(runs)))
        rows[-1].sides[side] = [float(t) for t in times]

    def named(self, keyword):
        """The rows of a keyword by the frame's name."""
        found = {}
        for row in self.rows[keyword]:
            found.setdefault(row.name, []).append(row)
        return found


def table(head, rows, left=1):
    """A page's table; every column but the first ones stands to the right."""
    lines = ["| " + " | ".join(head) + " |", "|" + "---|" * left + "---:|" * (len(head) - left)]
    return "\n".join(lines + ["| " + " | ".join(cells) + " |" for cells in rows])


def span(values, form="{:.2f}"):
    low, high = form.format(min(values)), form.format(max(values))
    return low if low == high else f"{low} to {high}"


def both(value):
    """The least, and in brackets the median."""
    return f"{value(0):.2f} ({value(1):.2f})"


def compared(value):
    """Three sides and two ratios of one row."""
    cells = [both(lambda which, side=side: value(side, which)) for side in SIDES]
    return cells + [both(lambda which, side=side: value("ours", which) / value(side, which)) for side in SIDES[1:]]


def machine(run):
    words = [run.head["machine"], run.head["end"], run.head["compiler"], f"{run.head['size']}, {run.head['runs']} runs"]
    return f"Ours is {run.head['ours']}. {'; '.join(words)}."


def verdict(run):
    coded = [row for row in run.rows["frame"] if "coded" in row.name]
    ratio = lambda side, which: [row.whole("ours", which) / row.whole(side, which) for row in coded]
    asked = [f"{row.name} {both(lambda which: row.whole('ours', which) / row.whole('plain', which))}" for row in run.rows["frame"][:3]]
    out = [f"Ours over the plain program, clearing in both, least (median): {', '.join(asked)}."]
    for which, word in enumerate(["least", "median"]):
        within = sum(r <= 2 for r in ratio("plain", which))
        out.append(
            f"By the {word}, the {len(coded)} coded frames take {span(ratio('plain', which))} times the plain program's time and {span(ratio('Rust', which))} times the "
            f"customer's Rust's; {within} of {len(coded)} are within twice the plain program's."
        )
    return "\n".join(out)


def cleared(run):
    """The table without clearing, and the clearing alone."""
    alone = lambda side: span([row.sides[side][2] for row in run.rows["frame"]], "{:.3f}")
    words = f"The clearing alone takes, in nanoseconds a sample, least: {', '.join(f'{side} {alone(side)}' for side in SIDES)}."
    return frames(run, Row.without) + "\n\n" + words


def frames(run, value):
    head = ["frame", "bits", "ours", "plain", "Rust", "ours / plain", "ours / Rust"]
    return table(head, [[row.name, f"{row.bits:.2f}", *compared(lambda *a: value(row, *a))] for row in run.rows["frame"]])


def seconds(run):
    rate = lambda row, side: both(lambda which: 1e3 / row.whole(side, which))
    return table(["frame", *SIDES], [[row.name, *(rate(row, side) for side in SIDES)] for row in run.rows["frame"]])


def stages(run):
    rows = []
    for name, sides in run.stages.items():
        cells = lambda side: [f"{sides[side][stage]:.3f}" for stage in STAGES]
        more = [f"{sides['ours'][stage] - sides['plain'][stage]:.3f}" for stage in STAGES]
        rows += [[name, "ours", *cells("ours")], ["", "plain", *cells("plain")], ["", "ours less plain", *more]]
    return table(["frame", "side", *STAGES], rows, 2)


def gain(run):
    coded = [sides for name, sides in run.stages.items() if "coded" in name]
    share = lambda side: span([100 * s[side]["words"] / s[side]["whole"] for s in coded], "{:.0f}")
    over = lambda stage: span([s["ours"][stage] / s["plain"][stage] for s in coded])
    rest = [100 * (s["ours"]["checks"] + s["ours"]["tables"] + s["ours"]["clearing"]) / s["ours"]["whole"] for s in coded]
    return (
        f"In the coded frames of the table the words are {share('ours')} percent of ours and {share('plain')} percent of the plain program's. Ours takes {over('words')} times the plain program's time for "
        f"the words and {over('prediction')} times for the prediction. Checks, tables and clearing together are at most {max(rest):.1f} percent of ours."
    )


def counts(run):
    rows = []
    for name, sides in run.counts.items():
        for side in SIDES:
            parts = [f"{function} {count:.2f}" for function, count in sides[side].items() if function != "all"]
            rows.append([name if side == SIDES[0] else "", side, f"{sides[side]['all']:.2f}", ", ".join(parts)])
    return table(["frame", "side", "instructions", "by function"], rows, 4)


def growing(run, keyword, axis, label):
    head = ["frame", axis, "runs", *SIDES, "ours / plain", "ours / Rust"]
    return table(head, [[row.name, label(row), str(row.runs), *compared(row.whole)] for row in run.rows[keyword]])


def size(row):
    return f"{row.at} by {row.at // 16 * 9}"


def sizes(run):
    words = []
    for name, rows in run.named("size").items():
        spans = [f"{side} {span([row.whole(side) for row in rows])}" for side in SIDES]
        words.append(f"{name}: over {rows[-1].samples // rows[0].samples} times the samples, nanoseconds a sample are {', '.join(spans)}.")
    return growing(run, "size", "size", size) + "\n\n" + "\n".join(words)


def a_slice(few, many, side):
    """What one more slice adds, in nanoseconds."""
    return (many.whole(side) - few.whole(side)) * few.samples / (many.at - few.at)


def slices(run):
    rows = run.rows["slices"]
    adds = ", ".join(f"{side} {a_slice(rows[0], rows[-1], side):.0f}" for side in SIDES)
    words = f"From {rows[0].at} slice to {rows[-1].at:,}, each slice adds, in nanoseconds: {adds}."
    return growing(run, "slices", "slices a plane", lambda row: f"{row.at:,}") + "\n\n" + words


def words(run):
    out = []
    for name, rows in run.named("words").items():
        spans = [f"{side} {span([row.whole(side) for row in rows])}" for side in SIDES]
        out.append(f"{name}, of {rows[0].at} to {rows[-1].at} bits: nanoseconds a sample are {', '.join(spans)}.")
    return growing(run, "words", "bits a word", lambda row: str(row.at)) + "\n\n" + "\n".join(out)


def most(run):
    many, few = run.rows["most"]
    adds = ", ".join(f"{side} {a_slice(few, many, side):.0f}" for side in SIDES)
    millis = ", ".join(f"{side} {many.whole(side) * many.samples / 1e6:.1f}" for side in SIDES)
    words = f"The frame of {many.at:,} slices takes, in milliseconds: {millis}. Each slice adds, in nanoseconds: {adds}."
    return growing(run, "most", "slices", lambda row: f"{row.at:,}") + "\n\n" + words


def refusals(run):
    rows = []
    for row in run.rows["refusal"]:
        what = f"refused by {row.at}" if row.at else "whole"
        cells = [both(lambda which, side=side: row.whole(side, which)) for side in SIDES]
        rows.append([row.name, what, *cells, *(both(lambda which, side=side: row.without(side, which)) for side in SIDES)])
    return table(["frame", "answer", *SIDES, *(f"{side}, no clearing" for side in SIDES)], rows, 2)


TABLES = {
    "machine": machine,
    "verdict": verdict,
    "frames": lambda run: frames(run, Row.whole),
    "without clearing": cleared,
    "samples a second": seconds,
    "stages": stages,
    "gain": gain,
    "counts": counts,
    "sizes": sizes,
    "slices": slices,
    "words": words,
    "most slices": most,
    "refusals": refusals,
}

COLOURS = {"ours": "#0b7a4b", "plain": "#c8581a", "Rust": "#4a5a9c"}
MARKS = {"ours": "circle", "plain": "square", "Rust": "diamond"}
WIDTH, HEIGHT, TOP, BOTTOM, LEFT, GAP = 1000, 400, 78, 58, 52, 46
PANEL = (WIDTH - LEFT - 14 - 2 * GAP) / 3


class Panel:
    """One axis: where a value stands."""

    def __init__(self, at, title, axis, ticks, top, log):
        self.x0, self.title, self.axis, self.ticks, self.top, self.log = LEFT + at * (PANEL + GAP), title, axis, ticks, top, log
        self.low, self.high = self.scaled(ticks[0][0]), self.scaled(ticks[-1][0])

    def scaled(self, value):
        return math.log(value) if self.log else value

    def x(self, value):
        return self.x0 + 10 + (self.scaled(value) - self.low) / (self.high - self.low) * (PANEL - 20)

    def y(self, value):
        return HEIGHT - BOTTOM - value / self.top * (HEIGHT - TOP - BOTTOM)


def text(x, y, words, anchor="middle", size=11, more=""):
    return f'<text x="{x:.1f}" y="{y:.1f}" text-anchor="{anchor}" font-size="{size}"{more}>{words}</text>'


def line(x1, y1, x2, y2, colour="#e2e2e2", more=""):
    return f'<line x1="{x1:.1f}" y1="{y1:.1f}" x2="{x2:.1f}" y2="{y2:.1f}" stroke="{colour}"{more}/>'


def mark(side, x, y):
    colour = f'fill="{COLOURS[side]}"'
    if MARKS[side] == "circle":
        return f'<circle cx="{x:.1f}" cy="{y:.1f}" r="3.2" {colour}/>'
    turn = f' transform="rotate(45 {x:.1f} {y:.1f})"' if MARKS[side] == "diamond" else ""
    return f'<rect x="{x - 2.8:.1f}" y="{y - 2.8:.1f}" width="5.6" height="5.6" {colour}{turn}/>'


def axes(panel):
    out = [text(panel.x0 + PANEL / 2, TOP - 16, panel.title, size=13, more=' font-weight="bold"')]
    step = 1 if panel.top <= 8 else 2 if panel.top <= 20 else 5
    for value in range(0, int(panel.top) + 1, step):
        out.append(line(panel.x0, panel.y(value), panel.x0 + PANEL, panel.y(value)))
        out.append(text(panel.x0 - 6, panel.y(value) + 4, value, "end"))
    for value, words in panel.ticks:
        out.append(line(panel.x(value), panel.y(0), panel.x(value), panel.y(0) + 4, "#777777"))
        out.append(text(panel.x(value), panel.y(0) + 17, words, size=10))
    out.append(line(panel.x0, panel.y(0), panel.x0 + PANEL, panel.y(0), "#777777"))
    return out + [text(panel.x0 + PANEL / 2, HEIGHT - 16, panel.axis)]


def curves(panel, rows, dashed):
    out = []
    for side in SIDES:
        points = [(panel.x(row.at), panel.y(row.whole(side))) for row in rows]
        path = " ".join(f"{x:.1f},{y:.1f}" for x, y in points)
        dashes = ' stroke-dasharray="5 4"' if dashed else ""
        out.append(f'<polyline points="{path}" fill="none" stroke="{COLOURS[side]}" stroke-width="1.8"{dashes}/>')
        out += [mark(side, x, y) for x, y in points]
    return out


def legend():
    out, x = [text(LEFT - 34, 22, "nanoseconds a sample, least of all runs, clearing in the figure", "start", 12)], WIDTH - 520
    for side, words in zip(SIDES, ["ours", "the plain program", "the customer's Rust"]):
        out += [line(x, 18, x + 26, 18, COLOURS[side], ' stroke-width="1.8"'), mark(side, x + 13, 18), text(x + 32, 22, words, "start", 12)]
        x += 60 + 7 * len(words)
    words = "solid: Gray 8-bit coded with Left; dashed: Yuv 2x1 10-bit coded with Median (left), Gray 14-bit (right)"
    return out + [text(LEFT - 34, 40, words, "start", 11, ' fill="#555555"')]


def picture(run):
    every = [row.whole(side) for keyword in ("size", "slices", "words") for row in run.rows[keyword] for side in SIDES]
    top = math.ceil(max(every) / 2) * 2
    panels = []
    for at, (keyword, title, axis, log) in enumerate(
        [
            ("size", "over the picture's size", "columns (rows are 9/16 of them)", True),
            ("slices", "over the slices of a plane", "slices of 16,384 rows of 128 columns", True),
            ("words", "over the bits of a word", "bits of every word", False),
        ]
    ):
        named = list(run.named(keyword).values())
        longest = max(named, key=len)
        ticks = [(row.at, f"{row.at:,}" if keyword == "slices" else str(row.at)) for row in longest]
        panel = Panel(at, title, axis, ticks, top, log)
        panels += axes(panel)
        for dashed, rows in enumerate(named):
            panels += curves(panel, rows, dashed)
    head = f'<svg xmlns="http://www.w3.org/2000/svg" viewBox="0 0 {WIDTH} {HEIGHT}" width="{WIDTH}" height="{HEIGHT}" font-family="sans-serif" fill="#222222">'
    ground = f'<rect width="{WIDTH}" height="{HEIGHT}" fill="#ffffff"/>'
    return "\n".join([head, "<title>Nanoseconds a sample, as frames grow</title>", ground, *legend(), *panels, "</svg>"]) + "\n"


def page(run, text):
    """The page with its tables filled. A name without a table, or a table without its place, is an error."""
    places = re.findall(r"<!-- ([\w ]+): python3 tools/speed.py -->", text)
    apart = set(places) ^ set(TABLES)
    if apart:
        sys.exit(f"speed.py: tables and docs/SPEED.md differ at {', '.join(sorted(apart))}")
    for name in places:
        begin = f"<!-- {name}: python3 tools/speed.py -->"
        start = text.index(begin) + len(begin)
        text = text[:start] + "\n\n" + TABLES[name](run) + "\n\n" + text[text.index("<!-- end -->", start) :]
    return text


def main():
    run = Run(LINES.read_text())
    made = {PICTURE: picture(run), PAGE: page(run, PAGE.read_text())}
    changed = [path for path, text in made.items() if not path.exists() or path.read_text() != text]
    for path in changed:
        if "--check" in sys.argv:
            print(f"{path.relative_to(ROOT)} is not what docs/speed.txt makes of it (python3 tools/speed.py)")
        else:
            path.write_text(made[path])
    return 1 if changed and "--check" in sys.argv else 0


if __name__ == "__main__":
    sys.exit(main())
