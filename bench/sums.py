#!/usr/bin/env python3
"""sums.py GB [LAYOUT..]: compares the processor time of the built gb with that of sha256sum over all inputs and
outputs.

Each time is user and system time of the program and its children, in ms, the least of some runs, followed by the
least wall time; the runs of a row alternate. After each is the ratio to the processor time of sha256sum; for a
first build, to that of copying the inputs and sha256sum of both. Folders are made in the
temporary folder (TMPDIR); one on a disk shows what a disk costs.
"""
import pathlib
import shutil
import tempfile

from lib.measured import SUMS, chain, files, keep, lay_out, least, parts, rounded, run, tasks, words_given, written

COPIED = ["sh", "-c", "cp -r src copied; find src copied -type f -print0 | xargs -0 sha256sum"]
# The layouts by name: what makes them, in which sizes, and in how many rounds they are measured.
LAYOUTS = {
    "tasks": (tasks, [500, 1000, 2000, 3000, 4000], 21),
    "chain": (chain, [500, 1000, 2000, 3000, 4000], 21),
    "files": (files, [10000], 11),
    "parts": (parts, [10000], 3),
}
FIRST_BUILD = ("tasks", 1000)


def row_of(name, count, costs):
    """Prints a row, and gives it as it is kept."""
    one = costs["sha256sum"].processor
    row = [f"{what} {it.processor:.0f} ({it.processor / one:.2f}, wall {it.wall:.0f})" for what, it in costs.items()]
    print(f"{name} {count}:", ", ".join(row), flush=True)
    return {"layout": name, "count": count, "costs": rounded(costs)}


def edited(gb, folder, layout):
    written(folder / layout.edited)
    return run([gb, layout.task], folder)


def first_build(gb, folder, layout):
    for name in ("build", ".gb"):
        shutil.rmtree(folder / name, ignore_errors=True)
    return run([gb, layout.task], folder)


def copied(folder):
    shutil.rmtree(folder / "copied", ignore_errors=True)
    return run(COPIED, folder)


def measured(gb, name, count):
    """The rows of a layout in one size."""
    make, _, rounds = LAYOUTS[name]
    layout = make(count)
    with tempfile.TemporaryDirectory() as room:
        folder = pathlib.Path(room)
        lay_out(folder, layout)
        run([gb, layout.task], folder)
        runs = {
            "nothing to do": lambda: run([gb, layout.task], folder),
            "one edit": lambda: edited(gb, folder, layout),
            "sha256sum": lambda: run(SUMS, folder),
        }
        yield row_of(name, count, least(runs, rounds))
        if (name, count) == FIRST_BUILD:
            runs = {"gb": lambda: first_build(gb, folder, layout), "sha256sum": lambda: copied(folder)}
            yield row_of("first build", count, least(runs, rounds))


given = words_given(__doc__, layout="of " + ", ".join(LAYOUTS))
rows = []
for name in given.layout or LAYOUTS:
    for count in LAYOUTS[name][1]:
        rows += measured(given.gb, name, count)
keep("sums", given, rows)
