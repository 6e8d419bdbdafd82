#!/usr/bin/env python3
"""limits.py PROGRAM [LAYOUT ..] [--replay] [--rounds N]: the cost of large builds within all limits.

Each layout is a folder of n, 2n and 4n of something. PROGRAM, a built gb, builds it. With --replay PROGRAM is
a built gb_replay, which does the same in memory, by one replay. It prints the least processor time of N
rounds (user and system; the three sizes in turn), the most memory, of which some 12 MB may be this script's,
and how the build ends. Where nothing is to do, a replay has the first build too. Folders are made in the
temporary folder (TMPDIR).
"""
import argparse
import os
import pathlib
import resource
import shutil
import sys
import tempfile

TEXT = "x" * 100_000
ROOM = 8 << 30  # bytes of memory that a program may ask for


class Layout:
    """Files by their places, and the arguments that build them."""

    def __init__(self, script, *arguments, files=()):
        self.files = {"build.gb": script, **dict(files)}
        self.arguments = arguments


def outputs_at_one_place(n):
    """One task with n outputs at one place."""
    outputs = "".join(f'outputDir o{it} = file("build/o")\n' for it in range(n))
    return Layout('register t : printLine("done") {\n' + outputs + "}\n", "t")


def tasks_at_one_place(n):
    """n tasks that write one place."""
    tasks = "".join(
        f'register t{it} : printLine("done") {{ outputDir o = file("build/o") }}\n' for it in range(n))
    needs = ", ".join(f'"t{it}"' for it in range(n))
    return Layout(tasks + f"register all {{ dependsOn {needs} }}\n", "all")


def actions_that_add(n):
    """One task of n actions, each of which writes a file."""
    actions = "".join(f'doLast addFile("f{it}", "")\n' for it in range(n))
    return Layout(f'register t {{\noutputDir out = file("build/o")\n{actions}}}\n', "t")


def actions_that_print(n):
    """One task of n actions that print, with n outputs."""
    actions = "".join(f'doLast printLine("{it}")\noutputDir o{it} = file("build/{it}")\n' for it in range(n))
    return Layout(f"register t {{\n{actions}}}\n", "t")


def readers_of_a_text(n):
    """One task with n input values, each the same text of 100,000 bytes."""
    values = "".join(f'input v{it} = gradleProperty("v")\n' for it in range(n))
    return Layout(f"register t : printLine(\"done\") {{\n{values}}}\n", "t", "-m", f"-Pv={TEXT}")


def tasks_of_a_text(n):
    """n tasks that each write the same text of 100,000 bytes, in a dry run."""
    tasks = "".join(
        f'register t{it} : writeText(gradleProperty("v")) {{ outputFile out = file("build/{it}") }}\n'
        for it in range(n))
    needs = ", ".join(f'"t{it}"' for it in range(n))
    return Layout(tasks + f"register all {{ dependsOn {needs} }}\n", "all", "-m", f"-Pv={TEXT}")


def words_again(n):
    """255 projects with a task each, and n default tasks of one name."""
    files = [("settings.gb", "".join(f'include "p{it}"\n' for it in range(255)))]
    files += [(f"p{it}/build.gb", "register a { }\n") for it in range(255)]
    names = ", ".join('"a"' for _ in range(n))
    return Layout(f"defaultTasks {names}\n", "-m", files=files)


def tasks_by_patterns(n):
    """n tasks that each copy the files of one ending, of 10,000 files."""
    files = [(f"src/{it // 100}/f{it}.x{it % n}", "x") for it in range(10_000)]
    tasks = "".join(
        f'register t{it} : copyFiles {{ inputFiles src incremental from dir("src") include "**/*.x{it}"\n'
        f'outputDir out = file("build/{it}") }}\n'
        for it in range(n))
    needs = ", ".join(f'"t{it}"' for it in range(n))
    return Layout(tasks + f"register all {{ dependsOn {needs} }}\n", "all", files=files)


def includes_of_names(n):
    """One task with n includes, each of which names one of n files."""
    files = [(f"src/f{it}", "x") for it in range(n)]
    includes = ", ".join(f'"f{it}"' for it in range(n))
    return Layout(f'register t : concat {{ inputFiles src from dir("src") include {includes}\n'
                  'outputFile out = file("build/o") }\n', "t", files=files)


def roots_by_includes(n):
    """One task with n roots and n includes, each of which has a file of one root."""
    files = [(f"r{it}/a{it}/f{it}", "x") for it in range(n)]
    roots = ", ".join(f'dir("r{it}")' for it in range(n))
    includes = ", ".join(f'"a{it}/*"' for it in range(n))
    return Layout(f'register t : concat {{ inputFiles src from {roots} include {includes}\n'
                  'outputFile out = file("build/o") }\n', "t", files=files)


def readers_above_outputs(n):
    """4,000 tasks that read a folder above the n outputs of another task, in a dry run."""
    outputs = "".join(f'outputDir o{it}=file("build/o/{it}")\n' for it in range(n))
    names = [f"r{it}" for it in range(4_000)]
    readers = "".join(f'register {it}:printLine(""){{inputFiles s from p dependsOn "w"}}\n' for it in names)
    script = f'property p set p = file("build/o")\nregister w : printLine("") {{\n{outputs}}}\n{readers}'
    return Layout(script, "-m", *names)


def tokens_that_grow(n):
    """A file of n tokens, each of which is to be replaced by 1,000 bytes: more than a file may have."""
    script = ('register t : replaceTokens("k", gradleProperty("v")) {\n'
              'inputFiles src from file("f") outputDir out = file("build/o") }\n')
    return Layout(script, "t", f"-Pv={TEXT[:1_000]}", files=[("f", "@k@" * n)])


def lines_of_a_task(n):
    """One task that prints n lines of 100,000 bytes."""
    lines = 'doLast printLine(gradleProperty("v"))\n' * n
    return Layout(f"register t {{\n{lines}}}\n", "t", f"-Pv={TEXT}")


# The layouts, each with its least n.
LAYOUTS = {
    outputs_at_one_place: 3_000,
    tasks_at_one_place: 1_000,
    actions_that_add: 2_000,
    actions_that_print: 1_000,
    readers_of_a_text: 1_000,
    tasks_of_a_text: 512,
    words_again: 5_000,
    tasks_by_patterns: 25,
    includes_of_names: 2_500,
    roots_by_includes: 312,
    readers_above_outputs: 5_000,
    tokens_that_grow: 162_500,
    lines_of_a_task: 250,
}
# Those of which a build is measured that has nothing to do. Of all others it is a first one.
BUILT_BEFORE = {tasks_by_patterns, includes_of_names}


def escaped(text):
    return text.replace("\\", "\\\\").replace("\n", "\\n").replace("\t", "\\t")


def replay(layout, is_built_before):
    puts = [f"put {place} {escaped(text)}\n" for place, text in layout.files.items()]
    return "".join(puts + ["run " + " ".join(layout.arguments) + "\n"] * (2 if is_built_before else 1))


def lay_out(room, make, n, is_replay):
    """Writes the files, the arguments and the input of a run."""
    layout = make(n)
    files = {} if is_replay else layout.files
    room.joinpath("folder").mkdir(parents=True)
    room.joinpath("arguments").write_text("" if is_replay else "\0".join(layout.arguments))
    room.joinpath("input").write_text(replay(layout, make in BUILT_BEFORE) if is_replay else "")
    for place, text in files.items():
        room.joinpath("folder", place).parent.mkdir(parents=True, exist_ok=True)
        room.joinpath("folder", place).write_text(text)


def apart(work, *given):
    """Does work in a process of its own: the memory of this one is in what is measured, so it stays small."""
    pid = os.fork()
    if pid == 0:
        try:
            work(*given)
            os._exit(0)
        finally:
            os._exit(1)
    if os.waitpid(pid, 0)[1] != 0:
        sys.exit(f"{work.__name__} {given} failed")


def start(program, arguments, folder, source, report):
    """Becomes the program."""
    try:
        os.chdir(folder)
        os.dup2(source.fileno(), 0)
        os.dup2(report.fileno(), 1)
        resource.setrlimit(resource.RLIMIT_AS, (ROOM, ROOM))
        os.execv(program, [program, *arguments])
    finally:
        os._exit(127)


def run(room, given):
    """Processor seconds, the most memory in MB, and how the report ends."""
    arguments = [it for it in room.joinpath("arguments").read_text().split("\0") if it]
    with open(room / "input") as source, open(room / "report", "w+b") as report:
        pid = os.fork()
        if pid == 0:
            start(given.program, arguments, room / "folder", source, report)
        _, _, used = os.wait4(pid, 0)
        size = report.seek(0, os.SEEK_END)
        report.seek(max(0, size - 400))
        lines = report.read().decode(errors="replace").splitlines()
    ends = [line for line in lines if line.startswith(("FAILED ", "REFUSED ", "BUILD "))] or [""]
    return used.ru_utime + used.ru_stime, used.ru_maxrss / 1000, ends[0][:50]


def measured(room, make, given):
    """A run of a layout; a first build, if no other is measured."""
    if make not in BUILT_BEFORE:
        for name in ("build", ".gb"):
            shutil.rmtree(room / "folder" / name, ignore_errors=True)
    return run(room, given)


def compare(top, make, count, given):
    sizes = (count, 2 * count, 4 * count)
    rooms = {n: pathlib.Path(top, str(n)) for n in sizes}
    for n, room in rooms.items():
        apart(lay_out, room, make, n, given.replay)
        if make in BUILT_BEFORE:
            run(room, given)
    found = {}
    for _ in range(given.rounds):
        for n, room in rooms.items():
            seconds, megabytes, last = measured(room, make, given)
            before = found.get(n, (seconds, megabytes))
            found[n] = (min(seconds, before[0]), min(megabytes, before[1]), last)
    for n, (seconds, megabytes, last) in found.items():
        print(f"  {n:7} {seconds:7.2f} s {megabytes:7.0f} MB  {last}", flush=True)


def main():
    words = argparse.ArgumentParser(description=__doc__, formatter_class=argparse.RawDescriptionHelpFormatter)
    words.add_argument("program", metavar="PROGRAM")
    words.add_argument("layout", nargs="*", help="of " + ", ".join(it.__name__ for it in LAYOUTS))
    words.add_argument("--replay", action="store_true", help="PROGRAM is a built gb_replay")
    words.add_argument("--rounds", type=int, default=3, metavar="N", help="3 where none is given")
    given = words.parse_args()
    given.program = str(pathlib.Path(given.program).resolve())
    if not os.access(given.program, os.X_OK):
        words.error(f"no program at {given.program}")
    for make, count in LAYOUTS.items():
        if given.layout and make.__name__ not in given.layout:
            continue
        print(f"{make.__name__}: {make.__doc__}" + (" Nothing to do." if make in BUILT_BEFORE else ""))
        with tempfile.TemporaryDirectory() as top:
            compare(top, make, count, given)


if __name__ == "__main__":
    main()
