#!/usr/bin/env python3
"""layouts.py GB [LAYOUT..]: times the built gb on folders that load one part of it, each in two sizes.

It prints the least processor time of five runs (user and system, of all children too) and, in brackets, the least
wall time, in ms; a first build is one run. Folders are made in the temporary folder (TMPDIR). sums.py compares a
chain of copies and one task that copies many files with sha256sum; here are other kinds.
"""
import pathlib
import random
import tempfile

from lib.measured import SUMS, files, keep, lay_out, least, rounded, run, words_given, written

ROUNDS = 5


def values(first, follow):
    """Properties, each made of the one before."""
    def made(count):
        lines = [f'property p0 set p0 = "{first}"']
        lines += [f"property p{it} set p{it} = {follow(f'p{it - 1}')}" for it in range(1, count)]
        return "\n".join(lines) + f"\nregister t {{ doLast printLine(p{count - 1}) }}\n", ["t"]
    return made


def plan(needs_of):
    """Tasks that need others; each reads what the last of these makes."""
    def made(count):
        lines = []
        for it in range(count):
            needs = needs_of(it, count)
            source = f'task("{needs[-1]}").flatMap(output("out"))' if needs else 'dir("src")'
            named = ", ".join(f'"{name}"' for name in needs)
            after = f"dependsOn {named} " if needs else ""
            lines.append(f'register t{it}:sums{{{after}inputFiles src from {source} outputDir out=dir("build/{it}")}}')
        return "\n".join(lines) + "\n", ["-m", f"t{count - 1}"]
    return made


def clauses(count):
    """Tasks of ten clauses, each after the one before."""
    lines = ["property p set p = \"true\"", "register a{}", "register e{}"]
    for it in range(count):
        source = f'task("t{it - 1}").flatMap(output("out"))' if it else 'dir("src")'
        lines.append(
            f"register t{it}:sums{{input v=p input w=p input u=p enabled true "
            f'onlyIf p.map(nonEmpty) is equals("true") inputFiles src from {source} '
            f'outputDir out=buildDir.map(child("{it}")) mustRunAfter "a" finalizedBy "e"}}'
        )
    return "\n".join(lines) + "\n", ["-m", f"t{count - 1}"]


def read_alone(made):
    """The cost of a build that reads no file but its script."""
    def costs(gb, folder, count):
        script, words = made(count)
        (folder / "build.gb").write_text(script)
        return least({"read": lambda: run([gb, *words], folder)}, ROUNDS)
    return costs


def text(number):
    """1 KiB of words of five letters."""
    drawn = random.Random(number)
    return bytes(32 if it % 6 == 5 else drawn.choice(b"aeot") for it in range(1024))


def built_and_edited(kind):
    """The costs of one task of files of words, and of sha256sum over its inputs and outputs."""
    def edited(gb, folder, layout):
        written(folder / layout.edited, text(random.random()))
        return run([gb, layout.task], folder)

    def costs(gb, folder, count):
        layout = files(count, kind)
        lay_out(folder, layout)
        for number, source in enumerate(layout.sources):
            written(folder / source, text(number))
        found = {"first build": run([gb, layout.task], folder)}
        return found | least({
            "nothing to do": lambda: run([gb, layout.task], folder),
            "one edit": lambda: edited(gb, folder, layout),
            "sha256sum": lambda: run(SUMS, folder),
        }, ROUNDS)
    return costs


def before(it, number):
    return [f"t{of}" for of in range(max(0, it - number), it)]


LAYOUTS = {
    "zips": (read_alone(values("", lambda it: f"{it}.zip({it}, concat)")), 512, 1024),
    "steps": (read_alone(values("x", lambda it: it + ".map(nonEmpty)" * 60)), 512, 1024),
    "chain": (read_alone(plan(lambda it, count: before(it, 1))), 2048, 4096),
    "fan": (read_alone(plan(lambda it, count: before(it, it) if it == count - 1 else [])), 2048, 4096),
    "needs": (read_alone(plan(lambda it, count: before(it, 12))), 2048, 4096),
    "clauses": (read_alone(clauses), 1024, 2048),
    "sums": (built_and_edited("sums"), 10000, 20000),
    "words": (built_and_edited("wordIndex"), 1000, 2000),
}
given = words_given(__doc__, layout="of " + ", ".join(LAYOUTS))
rows = []
for name in given.layout or LAYOUTS:
    costs_of, *counts = LAYOUTS[name]
    for count in counts:
        with tempfile.TemporaryDirectory() as room:
            costs = costs_of(given.gb, pathlib.Path(room), count)
        shown = ", ".join(f"{what} {it.processor:.1f} ({it.wall:.1f})" for what, it in costs.items())
        print(f"{name} {count}:", shown, flush=True)
        rows.append({"layout": name, "count": count, "costs": rounded(costs)})
keep("layouts", given, rows)
