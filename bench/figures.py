#!/usr/bin/env python3
"""figures.py: the tables of bench/figures.json, which sums.py, builds.py and layouts.py write with --keep.

    bench/figures.py          prints them
    bench/figures.py --write  puts them in docs/BENCHMARKS.md
    bench/figures.py --check  fails if the document has another table

In the document a table is between the lines `<!-- figures NAME -->` and `<!-- end of figures -->`.
"""
import pathlib
import re
import sys
import textwrap

from lib.measured import kept

PAGE = pathlib.Path(__file__).parent.parent / "docs" / "BENCHMARKS.md"
# The layouts in words, with a place for their size.
NAMES = {
    "tasks": "{:,} tasks of one file each",
    "chain": "a chain of {:,} tasks",
    "files": "one incremental task of {:,} files",
    "parts": "100 tasks, each of a hundredth of one folder of {:,} files",
    "first build": "first build of {:,} tasks of one file each",
}


def named(row):
    return NAMES[row["layout"]].format(row["count"])


def ratio(row, what):
    """How many times the processor time of sha256sum something took; none if it was not measured."""
    costs = row["costs"]
    return costs[what]["processor"] / costs["sha256sum"]["processor"] if what in costs else None


def taken_at(figures):
    """The line about where and when they were taken."""
    machine = f"{figures['processors']} processors, load {figures['load']}; folders on {figures['folders']}"
    return f"{figures['day']}: {figures['program']}; {machine}."


def table(head, rows):
    lines = ["| " + " | ".join(line) + " |" for line in (head, *rows)]
    return "\n".join([lines[0], "|---" * len(head) + "|", *lines[1:]])


def cell(cost):
    return f"{cost['processor']:,.0f} ({cost['wall']:,.0f})" if cost else ""


def sums(figures):
    """Each layout compared with sha256sum."""
    rows = []
    for row in figures["rows"]:
        line = [named(row), f"{row['costs']['sha256sum']['processor']:,.0f}"]
        for what in ("gb", "nothing to do", "one edit"):
            times = ratio(row, what)
            if times is not None:
                line += [f"{row['costs'][what]['processor']:,.0f}", f"{times:.2f}"]
        rows.append(line + [""] * (6 - len(line)))
    return table(["Layout", "`sha256sum`", "nothing to do", "times", "one edit", "times"], rows)


def builds(figures):
    """Each tool, by layout."""
    whats = ["first build", "nothing to do", "one edit"]
    rows = []
    for row in figures["rows"]:
        costs = [cell(row["costs"].get(what)) for what in whats]
        rows.append([named(row), f"`{row['tool']}`", *costs])
    return table(["Layout", "Tool", *whats], rows)


def layouts(figures):
    """Each layout of one part, in each size."""
    rows = []
    for row in figures["rows"]:
        rows += [[f"`{row['layout']}`", f"{row['count']:,}", what, cell(it)] for what, it in row["costs"].items()]
    return table(["Layout", "N", "What", "ms"], rows)


def page_with(tables, page):
    """The page with these tables where their names are."""
    for name, text in tables.items():
        place = re.compile(f"(<!-- figures {name} -->\n).*?(<!-- end of figures -->)", re.DOTALL)
        if not place.search(page):
            sys.exit(f"{PAGE} has no place for the figures {name}")
        page = place.sub(lambda found: found[1] + text + "\n" + found[2], page)
    return page


def main(words):
    made = {"sums": sums, "builds": builds, "layouts": layouts}
    figures = kept()
    tables = {}
    for name in made.keys() & figures.keys():
        tables[name] = f"{textwrap.fill(taken_at(figures[name]), 108)}\n\n{made[name](figures[name])}"
    if not words:
        print("\n\n".join(tables[name] for name in made if name in tables))
        return 0
    page = PAGE.read_text()
    written = page_with(tables, page)
    if words == ["--write"]:
        PAGE.write_text(written)
    elif written != page:
        print(f"{PAGE} has other figures than bench/figures.json: bench/figures.py --write")
        return 1
    return 0


if __name__ == "__main__":
    sys.exit(main(sys.argv[1:]))
