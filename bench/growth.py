#!/usr/bin/env python3
"""growth.py REPLAY GB: refuses each growth of memory of the built gb_replay and gb, one a run. It needs gcc.

A replay in memory has to print its whole output, report 3, or end with the status 1. If it continues, all files are
written once more, and the last build is made again: it has to succeed, and to leave the files of a run without a
refusal. A build of a folder on the disk has to do the same; then the next build has to leave those files, and the
one after it has to find everything up to date.
"""
import collections, os, pathlib, shutil, subprocess, sys, tempfile

ROWS = {
    "incremental copy": r"""put build.gb register cp : copyFiles { inputFiles src incremental from dir("src") outputDir out = dir("build/o") }
put src/a A
put src/b B
put src/c C
run cp
put src/a X
del src/b
put src/d D
run cp""",
    "a given value": r"""put build.gb register gen : writeText("abc") { input v = gradleProperty("v") outputFile out = file("build/a") } register use : sums { inputFiles src from task("gen").flatMap(output("out")) outputDir out = dir("build/s") }
run use -Pv=1
run use -Pv=2""",
    "finalizers": r"""put build.gb register gen : writeText("a") { outputFile out = file("build/a") finalizedBy "end" } register end : sums { inputFiles src from task("gen").flatMap(output("out")) outputDir out = dir("build/s") } register last { dependsOn "gen" doLast printLine("last") }
run last
run last""",
    "two projects": r"""put settings.gb include ":lib"
put lib/build.gb property v set v = "x" register gen : writeText("L") { input v = v outputFile out = buildDir.map(child("a")) }
put build.gb register gen : copyFiles { dependsOn ":lib:gen" inputFiles src from dir("lib/build") outputDir out = buildDir.map(child("o")) }
run gen
run gen""",
}


def run(program, words, refused, **more):
    """The status, what was printed, and how many growths were asked for."""
    with tempfile.NamedTemporaryFile() as counted:
        given = os.environ | {"LD_PRELOAD": LIBRARY, "GROWTH": str(refused), "GROWTHS": counted.name}
        done = subprocess.run([program, *words], env=given, capture_output=True, text=True, timeout=60, **more)
        return done.returncode, done.stdout, int(counted.read() or 0)


def files(folder):
    return {it.relative_to(folder): it.read_bytes() for it in folder.rglob("build/**/*") if it.is_file()}


def ending_of(status, text, whole):
    """How a run without enough memory ended; none if it was wrong."""
    if (status, text) == whole:
        return "answered"
    if " 3 out of memory" in text or text.startswith("REFUSED 3 "):
        return "reported 3"
    return "ended with 1" if status == 1 and whole[1].startswith(text) else None


def in_memory(program, row):
    edits = [it for it in row.split("\n") if not it.startswith("run ")]
    whole = "\n".join([row, *edits, row.split("\n")[-1], "show build", "show lib/build"])
    growths = run(program, [], 0, input=row)[2]
    want = run(program, [], 0, input=whole)
    shows = want[1][want[1].index("== "):]
    ends = collections.Counter()
    for refused in range(1, growths + 1):
        status, text, _ = run(program, [], refused, input=whole)
        ending = ending_of(status, text, want[:2])
        again = text[: text.find("== ")].rstrip().rsplit("\n", 2)
        is_mended = not status and text.endswith(shows) and again[-2] == "BUILD SUCCESSFUL"
        if not ending or ending == "reported 3" and not is_mended:
            sys.exit(f"growth {refused} of {growths}, status {status}:\n{text}")
        ends[ending] += 1
    return ends


def played(program, folder, lines):
    """Does the lines in a folder on the disk, and returns what the last one answered."""
    done = None
    for line in lines:
        word, _, rest = line.partition(" ")
        place, _, text = rest.partition(" ")
        if word == "put":
            (folder / place).parent.mkdir(parents=True, exist_ok=True)
            (folder / place).write_text(text)
        elif word == "del":
            (folder / place).unlink()
        else:
            done = run(program, rest.split(), 0, cwd=folder)
    return done


def on_disk(program, row, room):
    *before, last = row.split("\n")
    words, ends = last.split()[1:], collections.Counter()
    played(program, room / "begun", before)
    shutil.copytree(room / "begun", room / "whole")
    whole = run(program, words, 0, cwd=room / "whole")
    idle = run(program, words, 0, cwd=room / "whole")[:2]
    want = files(room / "whole")
    assert want, "the build leaves no file"
    for refused in range(1, whole[2] + 1):
        shutil.rmtree(room / "tried", ignore_errors=True)
        shutil.copytree(room / "begun", room / "tried")
        ending = ending_of(*run(program, words, refused, cwd=room / "tried")[:2], whole[:2])
        again = run(program, words, 0, cwd=room / "tried")
        left = files(room / "tried")
        if not ending or again[0] or left != want or run(program, words, 0, cwd=room / "tried")[:2] != idle:
            sys.exit(f"growth {refused} of {whole[2]} on the disk: {ending}, then\n{again[1]}")
        ends[ending] += 1
    return ends


replay, gb = (str(pathlib.Path(it).resolve()) for it in sys.argv[1:3])
with tempfile.TemporaryDirectory() as top:
    LIBRARY = f"{top}/growth.so"
    source = pathlib.Path(__file__).with_name("growth.c")
    subprocess.run(["gcc", "-O2", "-shared", "-fPIC", "-o", LIBRARY, source], check=True)
    for number, (name, row) in enumerate(ROWS.items()):
        room = pathlib.Path(top, str(number))
        (room / "begun").mkdir(parents=True)
        for where, ends in (("in memory", in_memory(replay, row)), ("on a disk", on_disk(gb, row, room))):
            print(f"{name}, {where}: {sum(ends.values())} growths,", ", ".join(f"{it} {ends[it]}" for it in sorted(ends)))
