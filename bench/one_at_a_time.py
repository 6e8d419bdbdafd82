#!/usr/bin/env python3
"""one_at_a_time.py PROGRAM: tests that only one process of the built gb at a time builds a folder.

The first one is stopped in the middle of its build. A second one has to wait and to change nothing until the
first has ended, or was killed; a dry run, refused words and a build of another folder have to end meanwhile.
If the system gives no lock, a build has to end as usual. The status is 1 if one of these does not hold. It
needs gcc; folders are made in the temporary folder (TMPDIR).
"""
import pathlib, subprocess, sys, tempfile
from lib.moments import Program, ended, files, go_on, put, texts

TASKS = 20
WAITS = 1.0  # for how many seconds a process is watched while it waits


def lay_out(folder):
    put(folder / "build.gb", texts(TASKS))
    return folder


def is_made(folder, value):
    made = files(folder / "build")
    return len(made) == TASKS and set(made.values()) == {value.encode()}


def waits(process):
    try:
        process.wait(WAITS)
        return False
    except subprocess.TimeoutExpired:
        return True


def middle(program, top):
    """A call in the middle of a first build."""
    return len(program.calls(lay_out(top / "counted"), ["all", "-Pv=1"])) // 2


def first_goes_on(program, top):
    folder = lay_out(top / "goes_on")
    one = program.stopped(folder, ["all", "-Pv=1"], middle(program, top))
    before = files(folder)
    two = program.start(folder, ["all", "-Pv=2"])
    yield "a second gb waits", waits(two)
    yield "it changes nothing meanwhile", files(folder) == before
    dry, refused = (program.start(folder, it) for it in (["all", "-m", "-Pv=1"], ["--no-such-option"]))
    yield "a dry run does not wait", not waits(dry) and ended(dry)[0] == 0
    yield "refused words do not wait", not waits(refused) and ended(refused)[0] == 2
    other = program.start(lay_out(top / "other"), ["all", "-Pv=3"])
    yield "a build of another folder does not wait", not waits(other) and ended(other)[0] == 0
    ends = [go_on(one)[0], ended(two)[0]]
    yield "then both end well", ends == [0, 0]
    yield "the outputs are those of the second", is_made(folder, "2")
    yield "no file of a lock is left", not [it for it in files(folder) if "lock" in it.lower()]


def first_is_killed(program, top):
    folder = lay_out(top / "killed")
    one = program.stopped(folder, ["all", "-Pv=1"], middle(program, top))
    two = program.start(folder, ["all", "-Pv=2"])
    yield "a second gb waits for one that will be killed", waits(two)
    one.kill()
    ended(one)
    yield "once that is killed, the second ends well", ended(two)[0] == 0
    yield "the outputs are its own", is_made(folder, "2")
    yield "a later one ends well", program.run(folder, ["all", "-Pv=3"])[0] == 0 and is_made(folder, "3")


def no_lock_is_given(program, top):
    folder = lay_out(top / "no_lock")
    one = program.start(folder, ["all", "-Pv=1"], NO_LOCK=1)
    yield "without a lock a build ends as ever", ended(one)[0] == 0
    yield "the outputs are its own", is_made(folder, "1")


is_right = True
with tempfile.TemporaryDirectory() as top:
    program = Program(sys.argv[1], top)
    for number, case in enumerate((first_goes_on, first_is_killed, no_lock_is_given)):
        room = pathlib.Path(top, str(number))
        room.mkdir()
        for what, holds in case(program, room):
            is_right = is_right and holds
            print(("yes  " if holds else "NO   ") + what, flush=True)
sys.exit(not is_right)
