#!/usr/bin/env python3
"""builds.py GB [TASKS..]: compares the built gb with make, ninja, SCons and Gradle, if these are installed.

Each tool copies the same files of 1 KiB, each file by a task of its own, in a folder of its own: many independent
tasks, and a chain of tasks. It prints processor time (user and system, of all children too) and, in
brackets, wall time, in ms: of a first build, of one with nothing to do and of one after an edit of one source,
each the least of some runs, the tools in turn. sha256sum is of all inputs and outputs. make and ninja look at
times of files alone, SCons at the contents of files of the last two days, Gradle at the contents of files of
another time or length. Gradle runs without its daemon, as that is no child of what is measured.
"""
import pathlib
import shutil
import tempfile

from lib.measured import SUMS, chain, keep, lay_out, least, rounded, run, tasks, words_given, written

MAKE = "{1}: {0}\n\t@mkdir -p {2} && cp {0} {1}\n"
NINJA = "build {1}: copy {0}\n"
SCONS = 'env.Command("{1}", "{0}", Copy("$TARGET", "$SOURCE"))\n'
# A line for each copy, as Gradle takes no script of a thousand tasks.
GRADLE = """file("copies").eachLine { line, number ->
    def (source, folder) = line.split(" ")
    task("t$number", type: Copy) {
        from source
        into folder
        if (source.startsWith("build/")) dependsOn("t${number - 1}")
    }
}
task all { dependsOn tasks.withType(Copy) }
"""
FIRST_ROUNDS = 2
ROUNDS = 3


def rules(layout, form):
    """A rule for each copy: its source, its target and the folder of that."""
    return "".join(form.format(source, target, target.rpartition("/")[0]) for source, target in layout.copies)


def makefile(layout):
    return {"Makefile": "all: " + " ".join(target for _, target in layout.copies) + "\n" + rules(layout, MAKE)}


def ninja_file(layout):
    return {"build.ninja": "rule copy\n  command = mkdir -p $$(dirname $out) && cp $in $out\n" + rules(layout, NINJA)}


def scons_file(layout):
    return {"SConstruct": "env = Environment()\n" + rules(layout, SCONS)}


def gradle_files(layout):
    return {"build.gradle": GRADLE, "copies": rules(layout, "{0} {2}\n")}


# What makes the files that a tool reads, and its command line.
PEERS = {
    "ninja": (ninja_file, ["ninja"]),
    "make": (makefile, ["make", "-r"]),
    "scons": (scons_file, ["scons", "-Q"]),
    "gradle": (gradle_files, ["gradle", "--no-daemon", "--offline", "-q", "all"]),
}
STATES = ["build", ".gb", ".ninja_log", ".ninja_deps", ".sconsign.dblite", ".gradle"]


class Tool:
    """A tool in a folder of its own."""
    def __init__(self, name, words, top, layout):
        self.name, self.words, self.folder, self.edited = name, words, top / name, layout.edited
        self.folder.mkdir()
        lay_out(self.folder, layout)
        files = PEERS[name][0](layout) if name in PEERS else {}
        for place, text in files.items():
            (self.folder / place).write_text(text)

    def nothing_to_do(self):
        return run(self.words, self.folder)

    def first_build(self):
        for state in STATES:
            path = self.folder / state
            shutil.rmtree(path) if path.is_dir() else path.unlink(missing_ok=True)
        return run(self.words, self.folder)

    def one_edit(self):
        written(self.folder / self.edited)
        return run(self.words, self.folder)


def compared(gb, layout, name, count):
    """The rows of a layout, a tool each."""
    with tempfile.TemporaryDirectory() as room:
        top = pathlib.Path(room)
        words = {"gb": [gb, layout.task]} | {it: peer[1] for it, peer in PEERS.items() if shutil.which(peer[1][0])}
        tools = [Tool(it, words[it], top, layout) for it in words]
        found = least({(it.name, "first build"): it.first_build for it in tools}, FIRST_ROUNDS)
        runs = {(it.name, "nothing to do"): it.nothing_to_do for it in tools}
        runs |= {(it.name, "one edit"): it.one_edit for it in tools}
        runs[("sha256sum", "nothing to do")] = lambda: run(SUMS, top / "gb")
        found |= least(runs, ROUNDS)
    for tool in dict.fromkeys(tool for tool, _ in found):
        costs = {what: cost for (of, what), cost in found.items() if of == tool}
        row = [f"{what} {it.processor:.0f} ({it.wall:.0f})" for what, it in costs.items()]
        print(f"{name} {count}, {tool}:", ", ".join(row), flush=True)
        yield {"layout": name, "count": count, "tool": tool, "costs": rounded(costs)}


given = words_given(__doc__, tasks="how many tasks; 1000 where none is given")
rows = []
for count in map(int, given.tasks or [1000]):
    for make in (tasks, chain):
        rows += compared(given.gb, make(count), make.__name__, count)
keep("builds", given, rows)
