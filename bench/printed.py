#!/usr/bin/env python3
"""printed.py PROGRAM: tests that the built gb prints each task as soon as its execution has ended.

A build is read through a pipe to its end, and killed (SIGKILL) at twenty moments of it. What was read then has
to be a beginning of what the whole build prints, and each task in it has to have its output, and to be
UP-TO-DATE in the next build, which has to leave what a build from scratch leaves. The status is 1 if one of
these does not hold. Folders are made in the temporary folder (TMPDIR).
"""
import pathlib, shutil, subprocess, sys, tempfile, time

TASKS = 400
MOMENTS = 20
HEAD = b"> Task :"
MADE = {f"{n}.txt": f"text {n}" for n in range(TASKS)}


def lay_out(folder):
    folder.mkdir()
    rows = [f'register t{n} : writeText("text {n}") {{ outputFile out = file("build/{n}.txt") }}\n'
            for n in range(TASKS)]
    folder.joinpath("build.gb").write_text("".join(rows))
    return folder


def started(folder):
    words = [f"t{n}" for n in range(TASKS)]
    return subprocess.Popen([program, *words], cwd=folder, stdout=subprocess.PIPE)


def whole(folder):
    """The status of a build, what it prints, and when each piece of that was read, in seconds."""
    process, begun, text, read = started(folder), time.monotonic(), b"", []
    while piece := process.stdout.read1():
        text += piece
        read.append(time.monotonic() - begun)
    return process.wait(), text, read


def killed(folder, enough):
    """What was read of a build that is killed once so many bytes of it were read."""
    process, text = started(folder), b""
    while len(text) < enough and (piece := process.stdout.read1(enough - len(text))):
        text += piece
    process.kill()
    text += process.stdout.read()
    process.wait()
    return text


def names(text, ending=b""):
    """The tasks that a text names with this ending, if the line is whole."""
    heads = [it.removeprefix(HEAD) for it in text.splitlines(keepends=True) if it.startswith(HEAD)]
    return {it.removesuffix(ending + b"\n").decode() for it in heads if it.endswith(ending + b"\n")}


def outputs(folder):
    return {it.name: it.read_text() for it in (folder / "build").iterdir()}


def wrong_with(folder, text):
    """What is wrong with a build of which this was read, and with the next one."""
    before = outputs(folder)
    status, later, _ = whole(folder)
    kept = names(later, b" UP-TO-DATE")
    for name in sorted(names(text)):
        output = f"{name[1:]}.txt"
        if before.get(output) != MADE[output]:
            yield f"{name} lacks its output"
        if name not in kept:
            yield f"{name} is built again"
    if not all_text.startswith(text):
        yield "what was read is no beginning"
    if status != 0 or outputs(folder) != MADE:
        yield "the next build leaves something else"


program = str(pathlib.Path(sys.argv[1]).resolve())
is_right = True
with tempfile.TemporaryDirectory() as top:
    folder = lay_out(pathlib.Path(top, "whole"))
    (first, all_text, read), (second, kept, _) = whole(folder), whole(folder)
    is_right = first == second == 0 and len(names(all_text)) == len(names(kept, b" UP-TO-DATE")) == TASKS
    print(f"a whole build: {len(all_text)} bytes in {len(read)} pieces, {read[0]:.3f} to {read[-1]:.3f} s")
    for moment in range(MOMENTS):
        folder = lay_out(pathlib.Path(top, str(moment)))
        text = killed(folder, 1 + len(all_text) * moment // MOMENTS)
        wrong = list(wrong_with(folder, text))
        print(f"killed at moment {moment}: {len(names(text))} tasks printed, {'; '.join(wrong) or 'all right'}")
        is_right = is_right and not wrong
        shutil.rmtree(folder)
sys.exit(0 if is_right else 1)
