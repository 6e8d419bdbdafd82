#!/usr/bin/env python3
"""Makes the pictures of the documents, docs/pictures/NAME.svg.

    bench/pictures.py          writes them
    bench/pictures.py --check  fails if one differs from what would be written

layers: the crates by their groups in crates.txt. execution: the outcome of a task. record: the record of a task at
each point where a build may stop. From bench/figures.json: cost, the cost of layouts compared with sha256sum;
growth, the same by the number of tasks; peers, the cost of other tools.
"""
import math
import os
import sys
from xml.sax.saxutils import escape

from figures import named, ratio, taken_at
from lib.measured import kept

ROOT = os.path.dirname(os.path.dirname(os.path.abspath(__file__)))
PICTURES = os.path.join(ROOT, "docs", "pictures")
INK, PALE, LINE, GREEN, RED = "#1f2933", "#eef2f6", "#8896a5", "#dff0e1", "#f8e1de"
DARK_GREEN, DARK_RED = "#2f7d3b", "#b04a3a"
FONT = 'font-family="Helvetica, Arial, sans-serif"'


def read(path):
    with open(os.path.join(ROOT, path), encoding="utf-8") as file:
        return file.read()


class Picture:
    def __init__(self, width):
        self.width = width
        self.height = 0
        self.parts = []

    def box(self, x, y, width, height, fill=PALE):
        self.height = max(self.height, y + height + 12)
        self.parts.append(
            f'<rect x="{x}" y="{y}" width="{width}" height="{height}" rx="4" fill="{fill}" stroke="{LINE}"/>'
        )

    def text(self, x, y, text, size=13, anchor="start", weight="normal", ink=INK):
        self.height = max(self.height, y + 12)
        self.parts.append(
            f'<text x="{x}" y="{y}" font-size="{size}" text-anchor="{anchor}" font-weight="{weight}" '
            f'fill="{ink}">{escape(text)}</text>'
        )

    def arrow(self, x, y, to_x, to_y):
        self.parts.append(
            f'<line x1="{x}" y1="{y}" x2="{to_x}" y2="{to_y}" stroke="{INK}" marker-end="url(#tip)"/>'
        )

    def rule(self, x, y, to_x, to_y, ink=LINE):
        self.height = max(self.height, y + 12, to_y + 12)
        self.parts.append(f'<line x1="{x}" y1="{y}" x2="{to_x}" y2="{to_y}" stroke="{ink}"/>')

    def dot(self, x, y, ink):
        self.parts.append(f'<circle cx="{x}" cy="{y}" r="3" fill="{ink}"/>')

    def svg(self):
        head = (
            f'<svg xmlns="http://www.w3.org/2000/svg" width="{self.width}" height="{self.height}" '
            f'viewBox="0 0 {self.width} {self.height}" {FONT}>'
        )
        tip = (
            '<defs><marker id="tip" markerWidth="8" markerHeight="8" refX="7" refY="4" orient="auto">'
            f'<path d="M0,0 L8,4 L0,8 z" fill="{INK}"/></marker></defs>'
        )
        back = f'<rect width="{self.width}" height="{self.height}" fill="#ffffff"/>'
        return "\n".join([head, tip, back, *self.parts, "</svg>", ""])


def groups():
    """The groups of crates.txt: a title, and the crates below it."""
    found = []
    for line in read("crates.txt").split("\n")[1:]:
        if line.startswith("# "):
            found.append((line[2:], []))
        elif line.strip() and found:
            found[-1][1].append(line.split(":")[0])
    return found


def layers():
    """The groups, the lowest at the bottom."""
    picture = Picture(840)
    y = 12
    for title, names in reversed(groups()):
        rows, x = [[]], 24
        for name in names:
            width = 14 + 7.4 * len(name)
            if x + width > 816:
                rows.append([])
                x = 24
            rows[-1].append((x, width, name))
            x += width + 8
        height = 30 + 30 * len(rows)
        picture.box(12, y, 816, height, "#ffffff")
        picture.text(24, y + 19, title, 13, weight="bold")
        for number, row in enumerate(rows):
            for x, width, name in row:
                picture.box(round(x, 1), y + 28 + 30 * number, round(width, 1), 24)
                picture.text(round(x + width / 2, 1), y + 44 + 30 * number, name, 12, "middle")
        y += height + 10
    return picture


OUTCOMES = [
    ("`enabled` or a test of `onlyIf` is false?", "SKIPPED", "outputs and record stay"),
    ("no actions?", "UP-TO-DATE", "or executed, if a task that it needs was"),
    ("inputs not read, or outputs not listed?", "FAILED", "outputs and record stay"),
    ("its `skipWhenEmpty` inputs have no files?", "NO-SOURCE", "outputs and record are removed"),
    ("does the record fit the task and its files?", "UP-TO-DATE", "an output, no --rerun-tasks, no false upToDateWhen"),
]


RUNS = [
    (
        12,
        "only incremental files differ, one action writes",
        ["the record is deleted", "the actions get the changes", "what differs is made or removed"],
    ),
    (424, "else: a full run", ["the record is deleted", "the outputs are emptied", "all actions run"]),
]


def execution():
    """A question below another, each with the outcome for yes."""
    picture = Picture(840)
    y = 12
    picture.text(160, y + 14, "the task starts", 13, "middle", "bold")
    y += 28
    for question, label, left in OUTCOMES:
        picture.arrow(160, y - 6, 160, y + 8)
        picture.box(12, y + 10, 296, 34)
        picture.text(160, y + 31, question.replace("`", ""), 13, "middle")
        picture.arrow(308, y + 27, 372, y + 27)
        picture.text(340, y + 21, "yes", 12, "middle")
        picture.box(376, y + 10, 120, 34, RED if label == "FAILED" else GREEN)
        picture.text(436, y + 31, label, 13, "middle", "bold")
        picture.text(508, y + 31, left, 12)
        picture.text(172, y + 58, "no", 12)
        y += 54
    for at, head, rows in RUNS:
        picture.box(at, y + 12, 400, 96)
        picture.text(at + 200, y + 32, head, 13, "middle", "bold")
        for number, row in enumerate(rows):
            picture.text(at + 200, y + 54 + 20 * number, row, 12, "middle")
    picture.arrow(160, y - 6, 160, y + 10)
    picture.arrow(200, y - 6, 430, y + 10)
    y += 108
    for start in (212, 624):
        for end in (264, 576):
            picture.arrow(start, y, end + (start - 418) // 12, y + 42)
    y += 20
    picture.box(124, y + 26, 280, 34, GREEN)
    picture.text(264, y + 47, "ends well: executed, a new record is stored", 12, "middle")
    picture.box(436, y + 26, 280, 34, RED)
    picture.text(576, y + 47, "fails: FAILED, no record", 12, "middle")
    return picture


RECORD = [
    ("before the run", "record of the last run", "it is compared, as usual", GREEN),
    ("deleted", "none", "the task runs in full", RED),
    ("outputs are written", "none; the old, new or torn file at one place", "the task runs in full", RED),
    ("while it is stored", "none, torn, or the new one", "none, torn: it runs in full; else as below", RED),
    ("after the run", "record of this run", "it is compared: up to date", GREEN),
]


def record():
    """Where a build is stopped, what is at the record's place then, and what the next build does."""
    picture = Picture(840)
    for x, head in ((12, "the build is stopped"), (240, "then there is"), (548, "and the next build")):
        picture.text(x + 8, 26, head, 13, weight="bold")
    y = 36
    for number, (point, left, then, fill) in enumerate(RECORD):
        for x, width, text in ((12, 200, point), (240, 290, left), (548, 280, then)):
            picture.box(x, y, width, 32, fill if x == 12 else PALE)
            picture.text(x + 8, y + 21, text, 12)
        if number + 1 < len(RECORD):
            picture.arrow(112, y + 32, 112, y + 46)
        y += 48
    return picture


def bars(picture, y, rows, scale):
    """Bars below one another: a name, a width before it is scaled, its text and a colour."""
    for name, width, text, fill in rows:
        picture.text(330, y + 15, name, 12, "end")
        picture.box(338, y, round(scale * width, 1), 20, fill)
        picture.text(346 + round(scale * width, 1), y + 15, text, 12)
        y += 24
    return y


def cost():
    """Bars of processor times, in multiples of that of sha256sum over all inputs and outputs."""
    figures = kept()["sums"]
    rows = [row for row in figures["rows"] if row["layout"] != "tasks" or row["count"] in (1000, 4000)]
    rows = [row for row in rows if row["layout"] != "chain" or row["count"] in (1000, 4000)]
    whats = {"nothing to do": GREEN, "one edit": PALE, "gb": GREEN}
    scale = 380 / max(ratio(row, what) or 0 for row in rows for what in whats)
    picture = Picture(840)
    head = "Processor time, in multiples of sha256sum over all inputs and outputs (the line: once)"
    picture.text(12, 26, head, 13, weight="bold")
    picture.text(12, 44, taken_at(figures), 11)
    y = 58
    for row in rows:
        costs = row["costs"]
        picture.text(12, y + 13, f"{named(row)}; sha256sum {costs['sha256sum']['processor']:,.0f} ms", 12, weight="bold")
        made = []
        for what, fill in whats.items():
            if what in costs:
                times, ms = ratio(row, what), costs[what]["processor"]
                made.append((what, times, f"{times:.2f} ({ms:,.0f} ms)", fill))
        end = bars(picture, y + 20, made, scale)
        picture.rule(round(338 + scale, 1), y + 18, round(338 + scale, 1), end - 2, DARK_RED)
        y = end + 8
    return picture


def marks(most):
    """Up to seven round numbers up to this one."""
    step = next(one * ten for ten in (1, 10, 100, 1000, 10000) for one in (1, 2, 5) if most <= 7 * one * ten)
    return range(step, int(most) + 1, step)


def line(picture, points, at, ink):
    """A line through points."""
    places = [at(*point) for point in points]
    for start, end in zip(places, places[1:]):
        picture.rule(*start, *end, ink)
    for x, y in places:
        picture.dot(x, y, ink)


def growth():
    """Processor time by the number of tasks, of gb with nothing to do and of sha256sum."""
    figures = kept()["sums"]
    lines = []
    for layout, name in (("tasks", "tasks of one file each"), ("chain", "a chain of tasks")):
        for what, ink in (("nothing to do", DARK_GREEN), ("sha256sum", DARK_RED)):
            rows = [row for row in figures["rows"] if row["layout"] == layout]
            points = [(row["count"], row["costs"][what]["processor"]) for row in rows]
            lines.append((points, f"{'gb' if what == 'nothing to do' else what}, {name}", ink))
    most = [max(point[of] for points, _, _ in lines for point in points) for of in (0, 1)]
    picture = Picture(840)
    picture.text(12, 26, "Processor time with nothing to do, by the number of tasks", 13, weight="bold")
    picture.text(12, 44, taken_at(figures), 11)

    def at(count, ms):
        return 70 + round(510 * count / most[0], 1), 380 - round(310 * ms / most[1], 1)

    picture.rule(70, 380, 590, 380, INK)
    picture.rule(70, 380, 70, 62, INK)
    for count in marks(most[0]):
        picture.text(at(count, 0)[0], 398, f"{count:,}", 12, "middle")
    for ms in marks(most[1]):
        picture.text(62, at(0, ms)[1] + 4, f"{ms:,} ms", 12, "end")
    ends = 0
    for points, name, ink in sorted(lines, key=lambda it: it[0][-1][1]):
        line(picture, points, at, ink)
        x, y = at(*points[-1])
        ends = min(y + 4, ends - 18) if ends else y + 4
        picture.text(x + 10, ends, name, 12, ink=ink)
    return picture


def peers():
    """Bars of the processor times of tools that copy the same files, on a scale where each step is tenfold."""
    figures = kept()["builds"]
    picture = Picture(840)
    picture.text(12, 26, "Processor time, each step of the scale tenfold", 13, weight="bold")
    picture.text(12, 44, taken_at(figures), 11)
    y, layouts = 58, dict.fromkeys(named(row) for row in figures["rows"])
    most = max(cost["processor"] for row in figures["rows"] for cost in row["costs"].values())
    for layout in layouts:
        for what in ("first build", "nothing to do", "one edit"):
            picture.text(12, y + 13, f"{layout}: {what}", 12, weight="bold")
            made = []
            for row in figures["rows"]:
                if named(row) == layout and what in row["costs"]:
                    ms, fill = row["costs"][what]["processor"], GREEN if row["tool"] == "gb" else PALE
                    made.append((row["tool"], math.log10(max(ms, 1.1)), f"{ms:,.0f} ms", fill))
            y = bars(picture, y + 20, made, 400 / math.log10(most)) + 8
    return picture


def main(words):
    os.makedirs(PICTURES, exist_ok=True)
    stale = []
    measured = {cost: "sums", growth: "sums", peers: "builds"}
    for make in (layers, execution, record, *(it for it, figures in measured.items() if figures in kept())):
        path = os.path.join(PICTURES, f"{make.__name__}.svg")
        text = make().svg()
        if words == ["--check"]:
            if not os.path.isfile(path) or read(path) != text:
                stale.append(path)
        else:
            with open(path, "w", encoding="utf-8") as file:
                file.write(text)
    for path in stale:
        print(f"{path} is not what bench/pictures.py writes")
    return 1 if stale else 0


if __name__ == "__main__":
    sys.exit(main(sys.argv[1:]))
