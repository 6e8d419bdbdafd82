#!/usr/bin/env python3
"""The replays that the gate runs by gb_replay, all in one run: the worked ones, bench/replays/NAME.in with
the output in NAME.out, and after them the examples of the documents. Where NAME begins like that of an
example, as GUIDE-07, the replay is run among these.

    bench/replays.py PROGRAM  runs each alone by a built gb_replay and fails where one differs; else writes
                              crates/gb_replay/stdin and crates/gb_replay/stdout, and runs them all in one
    bench/replays.py --check  fails where these two files are not in step with the replays

In the run a file at rows/NAME marks where a replay begins. At its end its records and files are removed, so
that the next one begins in an empty folder. PROGRAM is only asked which files it leaves. At the end of the
run each place is shown where a replay left something, and nothing is there; no line feed ends the last line.
An example with a status other than 0 would end the run: it is a row of gb_builds_tests.
"""
import os
import re
import sys

import guide

ROWS = os.path.join(guide.ROOT, "bench", "replays")
CRATES = os.path.join(guide.ROOT, "crates")
INPUT = os.path.join(CRATES, "gb_replay", "stdin")
OUTPUT = os.path.join(CRATES, "gb_replay", "stdout")
TESTS = os.path.join(CRATES, "gb_builds_tests", "src", "ending.rt")


class Row:
    def __init__(self, name, text, output):
        self.name = name
        self.input = text
        self.output = output


def read(path):
    with open(path, encoding="utf-8", newline="") as file:
        return file.read()


def write(path, text):
    with open(path, "w", encoding="utf-8", newline="") as file:
        file.write(text)


def rows():
    """The worked replays by name, then the examples."""
    only_run = guide.only_run()
    names = sorted({os.path.splitext(name)[0] for name in os.listdir(ROWS)} - set(only_run.values()))
    shown = [
        Row(example.name, example.input, example.output) for example in guide.examples() if example.status == 0
    ]
    shown += [row_of(name, file) for name, file in only_run.items()]
    return [row_of(name, name) for name in names] + sorted(shown, key=lambda row: row.name)


def row_of(name, file):
    return Row(name, *(read(os.path.join(ROWS, file + end)) for end in (".in", ".out")))


def lines_of(row):
    """The lines of a row, each with its end."""
    return row.input + ("\n" if row.input and not row.input.endswith("\n") else "")


def tops(found):
    """All that the rows leave is at or under these places: what they put, build folders and records."""
    put = re.compile(r"(?m)^put ([^ /\n]+)")
    return sorted({".gb", "build"}.union(*(put.findall(row.input) for row in found)))


def shown_places(text):
    """The places of shown files."""
    text = text.encode()
    places = []
    while text:
        head, _, text = text.partition(b"\n")
        if head == b"== none":
            continue
        place, length = re.fullmatch(rb"== (\S+) (\d+)", head).groups()
        places.append(place.decode())
        file, text = text[: int(length)], text[int(length) :]
        if file and not file.endswith(b"\n"):
            text = text[1:]
    return places


def left(program, row, places):
    """The files that a row leaves, its records aside; fails where the row prints something else."""
    printed, status = guide.outcome(program, row.input)
    if (printed, status) != (row.output, 0):
        guide.fail(f"{row.name} differs: status {status}\n{printed}")
    shows = "".join(f"show {place}\n" for place in places)
    printed, _ = guide.outcome(program, f"{lines_of(row)}lost\n{shows}")
    return shown_places(printed[len(row.output) :])


def joined(found, leaves):
    """The input and the output of the run, in which each row leaves these files."""
    given, wanted = [], []
    for row in found:
        head = f"rows/{row.name}"
        given += [f"put {head}\nshow {head}\ndel {head}\n", lines_of(row), "lost\n"]
        given += [f"del {place}\n" for place in leaves.get(row.name, [])]
        wanted += [f"== {head} 0\n", row.output]
    for place in tops(found):
        given.append(f"show {place}\n")
        wanted.append("== none\n")
    return "".join(given)[:-1], "".join(wanted)


def removed_files(text):
    """The files that the rows leave, as the run removes them."""
    parts = re.split(r"(?m)^put rows/(\S+)\n", text)[1:]
    ends = [part.rsplit("\nlost\n", 1)[-1] for part in parts[1::2]]
    return {name: re.findall(r"(?m)^del (\S+)$", end) for name, end in zip(parts[::2], ends)}


def literal(text):
    for plain, escaped in (("\\", "\\\\"), ('"', '\\"'), ("\n", "\\n"), ("\t", "\\t"), ("\r", "\\r")):
        text = text.replace(plain, escaped)
    return '"' + text + '"'


def check_tests():
    """Fails where an example with a status that is not 0 is no row of gb_builds_tests."""
    tests = " ".join(read(TESTS).split())
    for example in guide.examples():
        row = f"{literal(example.input)}, {literal(example.output)}, {example.status}"
        if example.status != 0 and row not in tests:
            guide.fail(f"{example.name} is no row of gb_builds_tests: {row}")


def make(program):
    found = rows()
    places = tops(found)
    given, wanted = joined(found, {row.name: left(program, row, places) for row in found})
    write(INPUT, given)
    write(OUTPUT, wanted)
    if guide.outcome(program, given) != (wanted, 0):
        guide.fail("the whole run differs")
    print(f"{len(found)} replays")


def main(words):
    if words == ["--check"]:
        given, wanted = read(INPUT), read(OUTPUT)
        if joined(rows(), removed_files(given)) != (given, wanted):
            guide.fail("crates/gb_replay/stdin or stdout is not in step with bench/replays or the documents")
    elif len(words) == 1 and not words[0].startswith("-"):
        make(words[0])
    else:
        guide.fail("usage: replays.py PROGRAM | --check")
    check_tests()
    return 0


if __name__ == "__main__":
    sys.exit(main(sys.argv[1:]))
