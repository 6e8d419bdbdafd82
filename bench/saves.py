#!/usr/bin/env python3
"""saves.py PROGRAM BUILDS: builds by the built gb while an editor saves a source by rename.

A save writes a new file and puts it in place of the old one by rename, so a reader that opens it once and
reads to its end sees one version. Each version is one byte, again and again, and has a length of its own. So
an output shows whether it is one version, a mix of several, or one that is cut.

First the editor saves every 20 ms while so many builds run, for files of three sizes. Then a build is stopped
before each of its calls of the file system, one longer or shorter version is saved, and the build goes on.
After both a build alone has to leave the last version. It prints how many builds ended in which way. The
status is 1 where the output of a successful build is mixed or cut, or where a build alone is wrong. It needs
gcc; folders are made in the temporary folder (TMPDIR).
"""
import collections
import itertools
import os
import pathlib
import re
import signal
import subprocess
import sys
import tempfile
import time

from lib.moments import Program, go_on, put

SCRIPT = 'register cp : copyFiles { inputFiles src from dir("src") outputDir out = dir("build/o") }\n'
SIZES = {"200 KB": 200_000, "1 MiB": 1 << 20, "8 MiB": (8 << 20) - (1 << 18)}
MORE = 100_000  # bytes that a longer version has more, and a shorter one less
REST = 0.02  # seconds between two saves


def versions(size):
    """Six versions of a source, each with a byte and a length of its own."""
    lengths = (size, size + MORE, size - MORE, size + MORE // 2, size - MORE // 2, size + 1)
    return [bytes([byte]) * length for byte, length in zip(b"abcdef", lengths)]


def save(folder, text):
    """Puts a new file in place of the source."""
    new = folder / "new"
    new.write_bytes(text)
    new.replace(folder / "src" / "f")


def laid_out(folder, text):
    put(folder / "build.gb", SCRIPT)
    (folder / "src").mkdir()
    save(folder, text)
    return folder


def form_of(folder, texts):
    """What the output is: one of these texts, a mix of them, or a part of one."""
    try:
        found = (folder / "build" / "o" / "f").read_bytes()
    except FileNotFoundError:
        return "none"
    if found in texts:
        return "whole"
    return "mixed" if len(set(found)) > 1 else "cut"


def ending(status, report):
    """How a build has ended: well, or by the number of its fault."""
    fault = re.search(r"(?m)^(?:REFUSED|FAILED :[\w-]+:) (\d+)", report)
    return "success" if status == 0 else f"fault {fault[1]}" if fault else f"status {status}"


def build(program, folder):
    done = subprocess.run([program, "cp"], cwd=folder, capture_output=True, text=True)
    return ending(done.returncode, done.stdout)


def edit(folder, texts):
    """Saves one version after another, until this process is ended."""
    try:
        for text in itertools.cycle(texts):
            save(folder, text)
            time.sleep(REST)
    finally:
        os._exit(1)


def is_right_alone(program, folder):
    """Whether a build that runs alone leaves the source."""
    is_success = build(program, folder) == "success"
    return is_success and (folder / "build/o/f").read_bytes() == (folder / "src/f").read_bytes()


def during_saves(program, folder, size, builds):
    texts = versions(size)
    laid_out(folder, texts[0])
    editor = os.fork()
    if editor == 0:
        edit(folder, texts)
    found = collections.Counter()
    try:
        for _ in range(builds):
            end = build(program, folder)
            found[f"{end}, {form_of(folder, texts)}" if end == "success" else end] += 1
    finally:
        os.kill(editor, signal.SIGKILL)
        os.waitpid(editor, 0)
    return found, is_right_alone(program, folder)


def at_each_call(stopper, top, size, change):
    """One save of a version that is longer or shorter, before each call of a first build."""
    texts = [b"a" * size, b"b" * (size + change)]
    calls = len(stopper.calls(laid_out(room(top), texts[0]), ["cp"]))
    found, are_right = collections.Counter(), True
    for call in range(1, calls + 1):
        folder = laid_out(room(top), texts[0])
        process = stopper.stopped(folder, ["cp"], call)
        if process is None:
            continue
        save(folder, texts[1])
        end = ending(*go_on(process))
        found[f"{end}, {form_of(folder, texts)}" if end == "success" else end] += 1
        are_right = is_right_alone(stopper.path, folder) and are_right
    return found, are_right


def room(top):
    return pathlib.Path(tempfile.mkdtemp(dir=top))


def show(what, found, is_right):
    """Prints a row, and returns whether it is right."""
    ends = ", ".join(f"{count} {end}" for end, count in sorted(found.items()))
    print(f"{what}: {ends}; alone {'right' if is_right else 'WRONG'}", flush=True)
    return is_right and not any(end.startswith("success") and not end.endswith("whole") for end in found)


def main(program, builds):
    are_right = []
    with tempfile.TemporaryDirectory() as top:
        stopper = Program(program, top)
        for name, size in SIZES.items():
            found = during_saves(stopper.path, room(top), size, builds)
            are_right.append(show(f"{builds} builds during saves of {name}", *found))
        for size in (1_000, 200_000):
            for change in (1, -1, size // 2, -size // 2):
                found = at_each_call(stopper, top, size, change)
                are_right.append(show(f"one save of {change:+} bytes to {size:,} before each call", *found))
    return 0 if all(are_right) else 1


if __name__ == "__main__":
    sys.exit(main(sys.argv[1], int(sys.argv[2])))
