#!/usr/bin/env python3
"""Asks `gb_ask why` what a build will do, runs `gb` with the same words, and counts wrong lines.

    bench/predictions.py GB GB_ASK [FIRST [FOLDERS]]     two built programs, the first seed, how many folders

In each folder is a random script of 3 to 8 tasks: sources, outputs of other tasks as inputs, skipWhenEmpty,
incremental properties, tests by -P. Five times the words are asked for and then built; then sources, outputs
and records are edited. A line without a mark has to be what the build does, up to the first task that fails:
the outcome, and for an incremental run the first change and how many there are. It prints the counts, and
each line that was wrong with its seed. The status is 1 if one was.
"""
import os
import random
import re
import shutil
import subprocess
import sys
import tempfile

KINDS = ["copyFiles", "copyFiles", "concat", "sums", "writeText", "replaceTokens", "keepLines"]
KINDS += ["none", "print"]
ARGUMENTS = {"replaceTokens": '("a", gradleProperty("v").orElse("d"))', "keepLines": '("a")'}
TEXTS = ["a\n", "b @a@\n", "c a\n", ""]


def root(at, makers, clauses):
    chance = at.random()
    if chance < 0.45 or not makers:
        return f'dir("s{at.randint(0, 2)}")'
    maker = at.choice(makers)
    if chance < 0.85:
        return f'task("t{maker}").flatMap(output("out"))'
    clauses.append(f'{at.choice(["dependsOn", "mustRunAfter"])} "t{maker}"')
    return f'file("build/o{maker}")'


def task(at, number, makers):
    """The text of a task; `makers` are the numbers of earlier tasks with an output."""
    kind, clauses, head = at.choice(KINDS), [], f"register t{number}"
    output = f'out = buildDir.map(child("o{number}"))'
    if kind == "print":
        clauses.append('doLast printLine("p")')
    elif kind == "writeText":
        head += at.choice([' : writeText("x")', ' : writeText(gradleProperty("v").orElse("d"))'])
        clauses.append(f"outputFile {output}")
    elif kind != "none":
        head += f" : {kind}{ARGUMENTS.get(kind, '')}"
        roots = dict.fromkeys(root(at, makers, clauses) for _ in range(at.randint(1, 2)))
        flags = "".join(flag for flag in (" incremental", " skipWhenEmpty") if at.random() < 0.5)
        clauses.append(f"inputFiles src{flags} from {', '.join(roots)}")
        clauses.append(("outputFile " if kind == "concat" else "outputDir ") + output)
    for share, clause in [(0.15, f'onlyIf gradleProperty("go{at.randint(0, 1)}").orElse("true") is isTrue'),
                          (0.1, 'input n = gradleProperty("v").orElse("d")')]:
        if at.random() < share:
            clauses.append(clause)
    if number and at.random() < 0.15:
        clauses.append(f'dependsOn "t{at.randrange(number)}"')
    if kind not in ("print", "none"):
        makers.append(number)
    return head + " {\n    " + "\n    ".join(clauses) + "\n}\n"


def edit(at):
    """One edit of a source, an output or a record."""
    chance, source, output = at.random(), f"s{at.randint(0, 2)}", f"build/o{at.randint(0, 7)}"
    file = f"{source}/{at.choice('abcd')}"
    if chance < 0.3:
        os.makedirs(source, exist_ok=True)
        with open(file, "w") as out:
            out.write(at.choice(TEXTS))
    elif chance < 0.5:
        if os.path.isfile(file):
            os.remove(file)
    elif chance < 0.65:
        shutil.rmtree(source, ignore_errors=True)
    elif chance < 0.8 and os.path.exists(output):
        with open(output if os.path.isfile(output) else f"{output}/{at.choice('abz')}", "w") as out:
            out.write("z")
    elif chance < 0.9:
        if os.path.isfile(output):
            os.remove(output)
        shutil.rmtree(output, ignore_errors=True)
    elif os.path.isfile(f".gb/tasks/t{at.randint(0, 7)}.record"):
        shutil.rmtree(".gb/tasks")


def words(at, count):
    asked = [f"t{number}" for number in sorted(at.sample(range(count), at.randint(1, count)))]
    given = [name for name in ("v", "go0", "go1") if at.random() < 0.3]
    return asked + [f"-P{name}={at.choice(['true', 'false', 'd'])}" for name in given]


def run(program, given):
    return subprocess.run([program, *given], capture_output=True, text=True).stdout


def predicted(rest):
    for begin, outcome in [("runs", "RUN"), ("SKIPPED", "SKIPPED"), ("cannot", "FAILED"), ("has no", "IDLE")]:
        if rest.startswith(begin):
            return outcome
    return rest.split(" ")[0]


def is_right(rest, outcome, lines):
    """Whether the build did what a line without a mark says."""
    said = predicted(rest)
    if said == "IDLE":
        return outcome in ("RUN", "UP-TO-DATE")
    if said != outcome:
        return said == "RUN" and outcome == "FAILED"
    changes = [line for line in lines if re.match(r"(ADDED|MODIFIED|REMOVED) ", line)]
    if not rest.startswith("runs by changes"):
        return said != "RUN" or all(line.startswith("ADDED ") for line in changes)
    more = re.search(r", and (\d+) more", rest)
    first = re.search(r" src (\S+ [^ ,]+)", rest)
    count = 1 + (int(more[1]) if more else 0)
    return not changes or (first and changes[0] == first[1] and len(changes) == count)


def outcomes(text):
    """By path the outcome of each task of a build's output, and the lines that it printed."""
    found, path = {}, None
    for line in text.split("\n"):
        match = re.match(r"> Task (:\S+)(?: (\S+))?$", line)
        if match:
            path = match[1]
            found[path] = (match[2] or "RUN", [])
        elif path:
            found[path][1].append(line)
    return found


def main():
    gb, ask = (os.path.abspath(program) for program in sys.argv[1:3])
    first, folders = (int(word) for word in (sys.argv[3:5] + ["1", "1000"][len(sys.argv) - 3:]))
    builds = checked = marked = wrong = 0
    for seed in range(first, first + folders):
        at = random.Random(seed)
        with tempfile.TemporaryDirectory() as folder:
            os.chdir(folder)
            count, makers = at.randint(3, 8), []
            with open("build.gb", "w") as out:
                out.write("".join(task(at, number, makers) for number in range(count)))
            for _ in range(8):
                edit(at)
            asked = words(at, count)
            for step in range(5):
                predicted, done = run(ask, ["why", *asked]), outcomes(run(gb, asked))
                builds += 1
                for line in [] if predicted.startswith("REFUSED") else predicted.rstrip("\n").split("\n"):
                    path, rest = line.split(" ", 1)
                    outcome, lines = done.get(path, ("NOT RUN", []))
                    if "(after " in rest or "(needs " in rest:
                        marked += 1
                    else:
                        checked += 1
                        if not is_right(rest, outcome, lines):
                            wrong += 1
                            print(f"seed {seed}, build {step}: {line} -> {outcome} {lines}")
                    if outcome == "FAILED":
                        break
                for _ in range(at.randint(1, 4)):
                    edit(at)
                if at.random() < 0.3:
                    asked = words(at, count)
            os.chdir("/")
    print(f"{builds} builds, {checked} lines without a mark, {marked} with one, {wrong} wrong")
    return 1 if wrong else 0


sys.exit(main())
