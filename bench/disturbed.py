#!/usr/bin/env python3
"""disturbed.py PROGRAM [--every K] [--pairs N] [--first]: another process writes in a folder that gb builds.

A build of four tasks, in full and by changes, is stopped before each of its calls of the file system (or
before each K-th one), and meanwhile one thing is changed; then it goes on to its end, or is killed. A copy of
a large source then has to be of one version, old or new. After that the built gb runs once more, alone, and a
second time if that failed. Then the outputs have to be those of a first build of a copy of the
sources, and nothing may be left in `.gb/new`. For each change the script prints how often it was tried, and
how often something was wrong; with --first also the first wrong case of each.

Then two builds run at once in one folder, N times (300), with different values of a property, and after them
a third one alone: all outputs have to be of its value.

The status is 1 if anything was wrong. It needs gcc; folders are made in the temporary folder (TMPDIR).
"""
import argparse, collections, concurrent.futures, os, pathlib, random, shutil, sys, tempfile, threading, time
from lib.moments import Program, ended, files, go_on, put, renew, texts

SCRIPT = """
register copies : copyFiles { inputFiles src incremental from dir("src") outputDir out = dir("build/o") }
register joined : concat { inputFiles src from dir("src") outputFile out = file("build/all") }
register prints : sums {
    inputFiles src incremental from task("copies").flatMap(output("out"))
    outputDir out = dir("build/s")
}
register words : wordIndex { inputFiles src incremental from dir("src") outputDir out = dir("build/w") }
register build { dependsOn "copies", "joined", "prints", "words" }
"""
LARGE = {"old": "one two three\n" * 12_000, "new": "six ten seven\n" * 12_000,
         "longer": "six ten seven\n" * 13_000, "shorter": "six ten seven\n" * 9_000}
SOURCES = {"changed": "one two\n", "d/gone": "gone\n", "d/kept": "it stays\n", "kept": "this stays too\n",
           "large": LARGE["old"]}
TASKS = 40
AT_ONCE = 2  # cases are tried side by side


def saved(name, text="a text that was saved\n"):
    """A file that an editor puts in place of the one that was there."""
    def change(folder):
        put(folder / "src" / f".{name}.new", text)
        os.replace(folder / "src" / f".{name}.new", folder / "src" / name)
    return change


def written(place, text="other words are here\n"):
    """A file that is written in place, or made again."""
    return lambda folder: put(folder / place, text)


def edited(place):
    """An output is written, if it exists."""
    def change(folder):
        if not (folder / place).is_file():
            return False
        put(folder / place, "edited\n")
    return change


def removed(place):
    def change(folder):
        if not (folder / place).is_file():
            return False
        (folder / place).unlink()
    return change


def killed(folder):
    """The build itself is killed."""


def cleared(*names):
    def change(folder):
        for name in names:
            shutil.rmtree(folder / name, ignore_errors=True)
    return change


OUTPUTS = ["build/o/d/kept", "build/all", "build/s/d/kept", "build/w/stays"]
FOREIGN = ["build/o/foreign", "build/s/foreign", "build/w/foreign", *OUTPUTS]
CHANGES = {
    "a source is saved by rename": [saved("kept"), saved("changed")],
    "a large source is saved": [saved("large", LARGE[it]) for it in ("new", "longer", "shorter")],
    "the build is killed": [killed],
    "a source is saved in place": [written("src/kept"), written("src/d/kept", "x"), written("src/changed")],
    "a source is added": [written("src/d/new"), written("src/0")],
    "a source is removed": [removed("src/kept"), removed("src/changed")],
    "an output is edited": [edited(it) for it in OUTPUTS],
    "an output is removed": [removed(it) for it in OUTPUTS],
    "a foreign file is put there": [written(it, "foreign\n") for it in FOREIGN],
    "rm -rf build": [cleared("build")],
    "rm -rf build .gb": [cleared("build", ".gb")],
}


class Rooms:
    """Where a thread tries its cases, and the outputs that sources have, by these."""
    def __init__(self, program, top):
        self.program, self.top = program, pathlib.Path(top)
        self.wanted, self.lock = {}, threading.Lock()

    def room(self, name):
        return self.top / f"{name}{threading.get_ident()}"

    def outputs(self, sources):
        """The outputs of a first build of these sources."""
        with self.lock:
            key = frozenset(sources.items())
            if key not in self.wanted:
                room = self.room("clean")
                shutil.rmtree(room, ignore_errors=True)
                lay_out(room, {})
                shutil.rmtree(room / "src")
                for path, text in sources.items():
                    put(room / "src" / path, text.decode())
                status, text = self.program.run(room, ["build"])
                assert status == 0, text
                self.wanted[key] = files(room / "build")
            return self.wanted[key]


def lay_out(folder, sources):
    put(folder / "build.gb", SCRIPT)
    (folder / "src").mkdir()
    for path, text in sources.items():
        put(folder / "src" / path, text)


def tried(rooms, before, moment, change):
    """What is wrong after a change at a moment, or an empty text; none if there was nothing to change."""
    room = rooms.room("tried")
    renew(room, before)
    process = rooms.program.stopped(room, ["build"], moment)
    if process is None:
        return "it ended before"
    is_changed = change(room) is not False
    if change is killed:
        process.kill()
    first = go_on(process)
    if not is_changed:
        return None
    copy = room / "build/o/large"
    if copy.is_file() and copy.read_text() not in LARGE.values():
        return "a copy of two versions, or a part of one"
    again = rooms.program.run(room, ["build"])
    if again[0]:
        again = rooms.program.run(room, ["build"])
    want, have = rooms.outputs(files(room / "src")), files(room / "build")
    if again[0] == 0 and have == want:
        left = list((room / ".gb/new").rglob("*"))
        return f"left over: {left}" if left else ""
    wrong = sorted(it for it in want.keys() | have.keys() if want.get(it) != have.get(it))
    return f"status {first[0]}, then {again[0]} {again[1].splitlines()[-1:]}, wrong: {', '.join(wrong)}"


def begun(program, top):
    """Two folders: one in which nothing is built, and one that was built and then changed."""
    full, by_changes = top / "full", top / "by_changes"
    lay_out(full, SOURCES)
    shutil.copytree(full, by_changes)
    status, text = program.run(by_changes, ["build"])
    assert status == 0, text
    put(by_changes / "src/changed", "three two\n")
    put(by_changes / "src/e", "added\n")
    put(by_changes / "src/large", LARGE["shorter"])
    (by_changes / "src/d/gone").unlink()
    return {"in full": full, "by changes": by_changes}


def disturbed(program, top, every, shows_first):
    """Tries each change at each moment, and returns whether nothing was wrong."""
    rooms, wrong = Rooms(program, top), 0
    for name, before in begun(program, top).items():
        room = top / "counted"
        renew(room, before)
        calls = program.calls(room, ["build"])
        print(f"a build {name}: {len(calls)} calls", flush=True)
        for what, changes in CHANGES.items():
            cases = [(at, change) for at in range(1, len(calls) + 1, every) for change in changes]
            with concurrent.futures.ThreadPoolExecutor(AT_ONCE) as some:
                ends = list(some.map(lambda case: tried(rooms, before, *case), cases))
            bad = [(at, changes.index(change), end) for (at, change), end in zip(cases, ends) if end]
            count = sum(end is not None for end in ends)
            print(f"  {what:30}{count:6} tried{len(bad):6} wrong", flush=True)
            if bad and shows_first:
                at, which, end = bad[0]
                print(f"    change {which} before call {at} ({calls[at - 1].strip()}): {end}", flush=True)
            wrong += len(bad)
    return wrong == 0


def two_at_once(program, top, pairs):
    """Two builds at once, and then one alone."""
    room, before = top / "two", top / "one"
    put(before / "build.gb", texts(TASKS))
    begin = time.monotonic()
    status, text = program.run(before, ["all", "-Pv=0"])
    assert status == 0, text
    took, drawn, ends, wrong = time.monotonic() - begin, random.Random(1), collections.Counter(), 0
    for _ in range(pairs):
        renew(room, before)
        one = program.start(room, ["all", "-Pv=1"])
        time.sleep(drawn.random() * took / 2)
        two = program.start(room, ["all", "-Pv=2"])
        ends["both successful" if ended(one)[0] + ended(two)[0] == 0 else "one or both failed"] += 1
        status, text = program.run(room, ["all", "-Pv=1"])
        if status:
            status, text = program.run(room, ["all", "-Pv=1"])
        made = files(room / "build")
        wrong += status != 0 or len(made) != TASKS or set(made.values()) != {b"1"}
    shown = ", ".join(f"{count} times {end}" for end, count in sorted(ends.items()))
    print(f"two gb at once: {pairs} pairs, {shown}; {wrong} wrong afterwards", flush=True)
    return wrong == 0


words = argparse.ArgumentParser(description=__doc__, formatter_class=argparse.RawDescriptionHelpFormatter)
words.add_argument("program")
words.add_argument("--every", type=int, default=1)
words.add_argument("--pairs", type=int, default=300)
words.add_argument("--first", action="store_true")
given = words.parse_args()
with tempfile.TemporaryDirectory() as top:
    top = pathlib.Path(top)
    program = Program(given.program, top)
    is_right = disturbed(program, top, given.every, given.first)
    is_right = two_at_once(program, top, given.pairs) and is_right
sys.exit(not is_right)
