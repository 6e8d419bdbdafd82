#!/usr/bin/env python3
"""formatted.py GB_ASK [--differ]: formats every script of the repository by the built gb_ask, and prints how
many are in its layout. --differ also prints each that differs, as a diff.

The scripts are crates/*/data/**/*.gb, what the examples of the documents and the replays of bench/replays
put at a place `*.gb`, and what the documents show after `$ cat` and `$ gb_ask fmt`. A script that is refused
has its fault on purpose. The formatted text is formatted once more, and must stay the same. The status is 1
where it does not, or where a script differs, except for those after `$ cat`. The text of a `put` may lack its
last line feed.
"""
import difflib
import glob
import os
import re
import subprocess
import sys
import tempfile

import guide


def unescaped(text):
    """The text of a `put` of gb_replay."""
    return re.sub(r"\\([nt\\])", lambda it: {"n": "\n", "t": "\t"}.get(it[1], it[1]), text)


def puts_of(name, text):
    """The scripts that an input of gb_replay puts."""
    for line in text.split("\n"):
        put = re.fullmatch(r"put (\S*\.gb)(?: (.*))?", line)
        if put:
            yield f"{name} {put[1]}", os.path.basename(put[1]), unescaped(put[2] or "")


def of_crates():
    for path in sorted(glob.glob(f"{guide.ROOT}/crates/*/data/**/*.gb", recursive=True)):
        if os.path.isfile(path):
            with open(path, encoding="utf-8") as file:
                yield os.path.relpath(path, guide.ROOT), os.path.basename(path), file.read()


def of_examples():
    for example in guide.examples():
        yield from puts_of(f"{example.name} (line {example.line})", example.input)


def shown_after(command):
    """What the documents show after such a command, up to the next: where, its file's name, the text."""
    for path in guide.DOCS:
        with open(os.path.join(guide.ROOT, path), encoding="utf-8") as file:
            block = rf"^    \$ {command} (\S*\.gb)\n((?:    [^$\n].*\n|\n+(?=    ))+)"
            shown = re.finditer(block, file.read(), re.M)
        for at, block in enumerate(shown, 1):
            text = re.sub(r"^    ", "", block[2], flags=re.M)
            yield f"{path} {command} {at}", os.path.basename(block[1]), text


def of_documents():
    yield from shown_after("cat")


def of_answers():
    yield from shown_after("gb_ask fmt")


def of_replays():
    for path in sorted(glob.glob(f"{guide.ROOT}/bench/replays/*.in")):
        with open(path, encoding="utf-8", newline="") as file:
            yield from puts_of(os.path.basename(path), file.read())


def formatted(program, name, text):
    """The formatted text, or nothing where the script is refused."""
    with tempfile.TemporaryDirectory() as room:
        with open(os.path.join(room, name), "w", encoding="utf-8", newline="") as file:
            file.write(text)
        ran = subprocess.run([program, "fmt", name], cwd=room, stdout=subprocess.PIPE, check=False)
    return None if ran.returncode else ran.stdout.decode()


def main(words):
    if not words or words[1:] not in ([], ["--differ"]):
        guide.fail("usage: formatted.py GB_ASK [--differ]")
    program, wants_diff, failed = os.path.abspath(words[0]), words[1:] == ["--differ"], False
    strict = {"crates": of_crates, "examples": of_examples, "replays": of_replays, "answers": of_answers}
    kinds = strict | {"shown": of_documents}
    for kind, found in kinds.items():
        counts = {"same": 0, "differ": 0, "refused": 0}
        for name, file, text in found():
            out = formatted(program, file, text)
            if out is None:
                counts["refused"] += 1
                continue
            if formatted(program, file, out) != out:
                failed = True
                print(f"{name}: formatted twice it differs")
            differs = out != text and (kind == "crates" or out != text + "\n")
            counts["differ" if differs else "same"] += 1
            if differs and wants_diff:
                lines = [it.split("\n") for it in (text, out)]
                print(f"---- {name}", *list(difflib.unified_diff(*lines, lineterm="", n=0))[2:], sep="\n")
            failed = failed or (differs and kind in strict)
        print(f"{kind}:", ", ".join(f"{count} {what}" for what, count in counts.items()))
    return 1 if failed else 0


if __name__ == "__main__":
    sys.exit(main(sys.argv[1:]))
