#!/usr/bin/env python3
"""explain_test.py [EXPLAIN]: tries tools/explain, on faults and on folders and lines that are to harm it.

Each case has a folder of its own, scripts and a report; of what is printed some lines have to be there, some
not, and the status has to be right, within SECONDS and MEMORY and with nothing on standard error. The status
is 1 if one case is not so. It takes some seconds.
"""
import os
import pathlib
import resource
import shutil
import subprocess
import sys
import tempfile

TOP = pathlib.Path(__file__).resolve().parent
SECONDS = 10
MEMORY = 512 << 20
REFUSED = "REFUSED {}\nBUILD FAILED\n"
FAILED = "> Task :t FAILED\n{}FAILED :t: {}\nBUILD FAILED\n1 actionable task: 1 executed\n"
TASK = """register t : copyFiles {
    inputFiles src from dir("src")
    outputDir out = buildDir.map(child("o"))
}
"""
FAIL = "is the text of an action that failed"
faults = []
count = 0


def limit():
    resource.setrlimit(resource.RLIMIT_AS, (MEMORY, MEMORY))


class Folder:
    """An empty folder, in which explain is run."""

    def __init__(self, **texts):
        self.at = pathlib.Path(tempfile.mkdtemp(dir=room))
        for name, text in texts.items():
            (self.at / f"{name}.gb").write_bytes(text if isinstance(text, bytes) else text.encode())

    def explain(self, report, *words, program=None, **more):
        given = report if isinstance(report, bytes) else report.encode()
        ran = [sys.executable, str(program or explain), *words]
        more = {"stdout": subprocess.PIPE, "stderr": subprocess.PIPE, **more}
        try:
            done = subprocess.run(ran, input=given, cwd=self.at, timeout=SECONDS, preexec_fn=limit, **more)
        except subprocess.TimeoutExpired:
            return "", None, f"not ended after {SECONDS} seconds"
        error = (done.stderr or b"").decode(errors="replace")
        return (done.stdout or b"").decode(errors="replace"), done.returncode, error


def check(what, ran, has=(), hasnt=(), status=1, error=""):
    global count
    count += 1
    text, ended, complaint = ran
    wrong = [f"lacks {it!r}" for it in has if it not in text]
    wrong += [f"has {it!r}" for it in hasnt if it in text]
    wrong += [f"status {ended}, not {status}"] if ended != status else []
    complains = error not in complaint or complaint and not error
    wrong += [f"standard error: {complaint.strip()[-200:]}"] if complains else []
    if wrong:
        faults.append(what)
        print(f"---- {what}: {'; '.join(wrong)}\n{text[:1500]}")


def syntax(line, *has, above="", **more):
    """A script with this line, which is refused there."""
    number = above.count("\n") + 1
    folder = Folder(build=above + line + "\n")
    check(f"20: {line}", folder.explain(REFUSED.format(f"20 syntax build.gb:{number}")), has, **more)


def cures():
    cured = "All causes: "
    others = ["A bracket is missing"]
    misspelt = (
        ("regsiter t { }", "register"),
        ('    outputdir out = dir("a")', "outputDir"),
        ('    inputFile a from dir("b")', "inputFiles"),
        ('    outputFiles a = dir("b")', "outputFile"),
        ('    dependson "a"', "dependsOn"),
        ("    doLst fail", "doLast"),
        ('    input v = p.orelse("a")', "orElse"),
        ("    input v = p.flatmap(a)", "flatMap"),
        ('    input v = gradleproperty("a")', "gradleProperty"),
        ('    inputFiles a from Dir("b")', "dir"),
    )
    for line, right in misspelt:
        syntax(line, f"is no word of the notation: did you mean {right}", cured, hasnt=others)
    syntax("    doLast printLine('a')", "instead of `'a')` write", cured, hasnt=others)
    syntax("    onlyIf !p is isTrue", "write what the guide (docs/GUIDE.md#a-test-with-not)", hasnt=others)
    syntax("    register u {", "a bracket is open here since build.gb:1", cured, above="register t {\n")
    syntax("}", "the line above is not complete: build.gb:2: onlyIf p", above="register t {\n  onlyIf p\n")
    syntax("    input = p", "written in full: input n = EXPR", *others, hasnt=[cured])
    for line in ('    inputFiles src from task("a") dir("b")', "register delete : copyFiles dir"):
        syntax(line, "written in full: ", *others, hasnt=[cured, "for Gradle's"])


def cures_of_shapes():
    """55: which part of a task does not fit."""
    lacks = "the task has no"
    shapes = (
        (TASK.replace("outputDir", "outputFile"),
         f"`copyFiles` makes a folder: {lacks} `outputDir out = ..`, but `outputFile out`"),
        ("register t : concat { inputFiles src from q outputDir out = o }",
         f"`concat` makes a file: {lacks} `outputFile out = ..`, but `outputDir out`"),
        ('register t : writeText("a") { outputFile made = o }', f"{lacks} `outputFile out = ..`"),
        ('register t { }\nnamed t { doLast addFile("a", "b") }', f"{lacks} `outputDir out = ..`"),
        ("register t : sums { inputFiles files from q outputDir out = o }",
         f"`sums` reads `src`: {lacks} `inputFiles src from ..`"),
        ("register t : sums { input a = p inputFiles a from q outputDir out = o }",
         "`a` is both `input` and `inputFiles`"),
        ('register t : writeText("a") { outputDir out = o outputFile out = o }',
         "`out` is both `outputDir` and `outputFile`"),
        ("register t { outputDir out = o }", "the task has an output and no action"),
    )
    for script, part in shapes:
        ran = Folder(build=script).explain(REFUSED.format("55 bad shape :t"))
        check(f"55: {part}", ran, [part, "All causes: "])


def documents():
    """Documents are named by paths only where they are there, and their folder is printed once."""
    home = pathlib.Path(tempfile.mkdtemp(dir=room))
    (home / "docs").mkdir()
    (home / "tools").mkdir()
    for name in ("explain", "hints.py"):
        shutil.copy(explain.parent / name, home / "tools" / name)
    shutil.copy(explain.parent.parent / "docs" / "FAULTS.md", home / "docs" / "FAULTS.md")
    program, given = home / "tools" / "explain", REFUSED.format("20 syntax build.gb:1")
    folder = Folder(build="    onlyIf !p is isTrue\n")
    ran = folder.explain(given, program=program)
    check("without GUIDE.md", ran, ["write what the guide (GUIDE: a test with not)"], ["docs/GUIDE.md"])
    place = f"docs/ and README.md are in {explain.parent.parent}\n"
    check("with GUIDE.md", folder.explain(given), ["(docs/GUIDE.md#a-test-with-not)", place])
    ran = folder.explain("", "20")
    check("a number", ran, ["20 syntax F:L", place], status=0)
    folder.at = explain.parent.parent
    check("a number at the top", folder.explain("", "20"), ["20 syntax F:L"], [place], status=0)


def cures_of_tasks():
    cured = "All causes: "
    named = Folder(build='register compile { }\nregister t { outputFile made = file("build/a") }\n')
    line = 'register t { doLast printLine("' + "y" * 200 + '".zip(nope, concat)) }'
    long = Folder(build=f"property a\n{line}\n")
    ran = long.explain(REFUSED.format("54 unknown property nope"))
    check("54 in a long line", ran, ["build.gb:2: .. y", "zip(nope, concat)"], ["register t"])
    ran = long.explain(REFUSED.format("20 syntax build.gb:2"))
    check("20 in a long line", ran, ["build.gb:2: register t", "yyy ..\n"])
    check("52", named.explain(REFUSED.format("52 task not found complie")), ["did you mean compile?", cured])
    ran = named.explain(REFUSED.format("59 unknown output :t out"))
    check("59", ran, ["the outputs of :t are made", cured])
    site = Folder(build="register t : markdown { doFirst chekLinks }\n")
    ran = site.explain(REFUSED.format("40 unknown action markdown"))
    check("40 of gb_site", ran, ["is a kind of `gb_site`: run gb_site", "build.gb:1: ", cured], ["there are"])
    ran = site.explain(REFUSED.format("40 unknown action chekLinks"))
    check("40 near a kind of gb_site", ran, ["did you mean checkLinks", cured])
    site = Folder(build='register t : copyFiles {\n  doFirst checkLinks\n}\nregister u : index("A") { }\n')
    texts = (
        ("no heading", "about.md:1: no heading", "right after the"),
        ("no date", "d/a b.md:1: no date", "the page has no front matter"),
        ("a key", "layout.html:10: a.md has no lang", "the page lacks a key of"),
        ("a link", "a.html:9: no file at feed.xml", "no file of `src` is there"),
        ("a layout", "l.html: no {{main}}", "the layout has no place for a page"),
        ("two pages", "b.markdown and b.md: both at b.html", "two files have one page"),
        ("an order", "no order size", "its second argument is not"),
    )
    for name, text, why in texts:
        check(f"42 of gb_site: {name}", site.explain(FAILED.format("", f"42 {text}")), [why, cured], ["`-x`"])
    ran = site.explain(FAILED.format("", "42 boom"))
    check("42 of another text", ran, ["all texts (docs/SITE.md#the-kinds)"], ["docs/SITE.md on"])
    ran = Folder(build=TASK).explain(FAILED.format("", "42 a.md:1: no date"))
    check("42 without a kind of gb_site", ran, ["`-x`"], ["docs/SITE.md on"])
    for text in (":1: x has no" * 24, ": has no " * 1_000):
        check("42 of a long text", site.explain(FAILED.format("", f"42 {text}")), [FAIL])
    placed = Folder(build='register t {\n  inputFiles a from dir(".")\n  input b = p.map(upper)\n}\n')
    ran = placed.explain(REFUSED.format("2 bad place ."))
    check("2", ran, ["build.gb:2: ", "(docs/FAULTS.md#95-"], ["build.gb:3: "])
    ran = placed.explain(REFUSED.format("2 bad place "))
    check("2 of an empty text", ran, ["is no place"], ["build.gb:2: "])
    worded = Folder(build=TASK + 'register u { outputDir out = "build/u" }\n')
    ran = worded.explain(REFUSED.format("34 wrong value src"))
    check("34", ran, ["build.gb:5: register u"], ["build.gb:2: "])
    ran = worded.explain(REFUSED.format("34 wrong value enabled"))
    check("34 of a word", ran, ["got a value of another form"], ["build.gb:5: "])
    roots = 'from dir("a"), // "b"\n  "c".map(x),\n  "static"\n  include "d",\n  "e"'
    rooted = Folder(build=TASK + "register v : copyFiles {\n  inputFiles src " + roots + "\n}\n")
    ran = rooted.explain(REFUSED.format("34 wrong value src"))
    check("34 of a root", ran, ['build.gb:8: "static"'], [f"build.gb:{line}: " for line in (2, 6, 7, 9, 10)])
    ran = Folder(build=TASK * 5).explain(REFUSED.format("34 wrong value src"))
    check("34 of five lines", ran, ["and 1 more line\n"])
    valued = Folder(build='property v\nset v = gradleProperty("v")\nregister t { doLast printLine(v) }\n')
    ran = valued.explain(REFUSED.format("33 no value :t printLine"))
    check("33", ran, ["build.gb:3: register t", "build.gb:2: set v = "], ["`printLine` is the name"])
    taken = Folder(settings='include "lib"', build="register t {\n  outputDir out = p\n}\n")
    (taken.at / "lib").mkdir()
    (taken.at / "lib" / "build.gb").write_text('register u { inputFiles src from task(":t") }\n')
    ran = taken.explain(REFUSED.format("33 no value :lib:u src"))
    check("33 of an output of another task", ran, ["lib/build.gb:1: register u", " build.gb:1: register t"])
    twice = Folder(build=TASK.replace('dir("src")', 'dir("in/m"), dir("in/n")'))
    for place in ("in/m", "in/n", "in/n/o"):
        (twice.at / place).mkdir(parents=True)
        (twice.at / place / "a").touch()
    ran = twice.explain(FAILED.format("", "71 duplicate input src a"))
    check("71", ran, ["in/m/a has this path", "in/n/a has this path"], ["in/n/o/a"])
    (named.at / "sub").mkdir()
    inner = Folder()
    inner.at = named.at / "sub"
    ran = inner.explain(REFUSED.format("52 task not found t"))
    check("52 in a subfolder", ran, ["but one above has: "])
    copied = Folder()
    shutil.copy(explain, copied.at / "explain")
    check("without FAULTS.md", copied.explain(REFUSED.format("64 no tasks"), program=copied.at / "explain"),
          ["REFUSED 64 no tasks"], error="there is no ")


def statuses():
    folder = Folder(build=TASK)
    success = "> Task :t\nBUILD SUCCESSFUL\n1 actionable task: 1 executed\n"
    reports = (
        (success, 0),
        ("> Task :t SKIPPED\nBUILD SUCCESSFUL\n", 0),
        ("> Task :t\n", 1),
        ("", 1),
        (REFUSED.format("96 usage"), 2),
        (REFUSED.format("64 no tasks"), 1),
        ("> Task :t\nBUILD SUCCESSFUL\n> Task :u\n", 1),
        (FAILED.format("", "42 no"), 1),
    )
    for report, status in reports:
        ran = folder.explain(report)
        check(f"the status of {report!r}", ran, report.split("\n"), status=status)
        check(f"what is passed on of {report!r}", ran, [report] if status == 0 else [], status=status)
    check("a status that is given", folder.explain(success, "--status", "137"), [success], status=137)
    check("a number", folder.explain("", "52"), ["52 task not found T"], status=0)
    check("no such number", folder.explain("", "99"), status=1, error="no fault 99")
    check("other words", folder.explain("", "--nope"), ["tools/explain NUMBER"], status=2)
    for name in ("stdin", "stdout", "stdin stdout stderr"):
        closed = " ".join({"stdin": "<&-", "stdout": ">&-", "stderr": "2>&-"}[it] for it in name.split())
        shell = ["sh", "-c", f'"$0" "$1" {closed}', sys.executable, str(explain)]
        given = {} if "stdin" in name else {"input": success.encode()}
        done = subprocess.run(shell, cwd=folder.at, timeout=SECONDS, capture_output=True, **given)
        check(f"closed: {name}", ("", done.returncode, done.stderr.decode()))
    with open("/dev/full", "w") as full:
        check("a full device", folder.explain(success, stdout=full))
    reader, writer = os.pipe()
    os.close(reader)
    check("nobody reads", folder.explain(success, stdout=writer))
    os.close(writer)


def special_scripts():
    """What gb refuses at once is opened by nobody else."""
    for name in ("settings", "build"):
        for form in ("a pipe", "a link to /dev/zero", "a link", "a folder", "a file of zeros"):
            folder = Folder()
            place = folder.at / f"{name}.gb"
            if form == "a pipe":
                os.mkfifo(place)
            elif form.startswith("a link"):
                (folder.at / "other").write_text("register secret { }\n")
                place.symlink_to("/dev/zero" if "zero" in form else "other")
            elif form == "a folder":
                place.mkdir()
            else:
                with open(place, "wb") as file:
                    file.truncate(1 << 36)
            ran = folder.explain(REFUSED.format(f"10 device {name}.gb"))
            check(f"{form} at {name}.gb", ran, ["The disk reports an error"])
            ran = folder.explain(REFUSED.format("52 task not found secrets"))
            check(f"{form} at {name}.gb, 52", ran, ["There is no task `secrets`"], ["did you mean secret"])
    nul = Folder(settings=b'include "a\0b", "../../etc", "lib"', build=b"\0\n")
    check("a NUL", nul.explain(REFUSED.format("20 syntax settings.gb:1")), ["settings.gb:1: include"])
    check("a NUL in a report", nul.explain(REFUSED.format("14 bad file name a\0b")), ["14 bad file name a?b"])


def large():
    quotes = '"' + '\\"' * 400_000
    for report in ("20 syntax build.gb:1", "54 unknown property p", "59 unknown output :t o"):
        folder = Folder(build="register t { input a = " + quotes)
        check(f"quotes: {report}", folder.explain(REFUSED.format(report)), [f"REFUSED {report}"])
    for part in ('"', "(", "a", " ", "\n", "register t { }\n", "named t ", "a.", "//"):
        text = part * (300_000 // len(part))
        folder = Folder(build=text)
        for report in (f"20 syntax build.gb:{text.count(chr(10)) + 1}", "55 bad shape :t"):
            ran = folder.explain(REFUSED.format(report))
            check(f"300 KB of {part!r}: {report}", ran, [f"REFUSED {report}"], ["explain has failed"])
    parts = Folder(settings='include "' + ":".join("a" * 400_000) + '"\n' + 'include "' + ":a" * 80 + '"')
    unknown = REFUSED.format("50 unknown project :b:c")
    check("parts of a path", parts.explain(unknown), ["names a task of a project"])
    many = Folder(settings="".join(f'include "p{it}"\n' for it in range(40_000)))
    check("projects", many.explain(unknown), ["names a task of a project"])
    one = Folder(build=TASK)
    line = "x" * 20_000_000
    check("a line of 20 MB", one.explain(f"> Task :t\n{line}\nBUILD SUCCESSFUL\n"), [line], status=0)
    fake = "FAILED :t: 14 bad file name src\n" * 50_000
    check("many lines like faults", one.explain(FAILED.format(fake, "42 no")), [FAIL], ["neither a file"])


def printed_lines():
    """What a task prints is no fault, whatever it looks like."""
    folder = Folder(build=TASK)
    lines = (
        "REFUSED 20 syntax build.gb:100000000",
        "REFUSED 20 syntax build.gb:" + "9" * 5_000,
        "REFUSED 14 bad file name /",
        "FAILED :t: 14 bad file name /",
        "FAILED :t: 14 bad file name ../..",
        "FAILED :u: 14 bad file name /",
        "BUILD FAILED",
        "FAILED :t: 42 no\nBUILD FAILED",
    )
    for line in lines:
        ran = folder.explain(FAILED.format(line + "\n", "42 no"))
        wrong = ["is neither a file", "that is not allowed", "/ is ", ".. is "]
        check(f"printed: {line[:60]}", ran, [line + "\n", FAIL], wrong)
        only = folder.explain(f"> Task :t\n{line}\nBUILD SUCCESSFUL\n1 actionable task: 1 executed\n")
        check(f"printed in a success: {line[:60]}", only, [line + "\n"], [FAIL, "Causes"], status=0)
    for line in ("20 syntax build.gb:100000000", "14 bad file name /", "14 bad file name ../.."):
        check(f"a first line {line}", folder.explain(REFUSED.format(line)), [line], ["/ is ", ".. is "])


def hidden():
    """Nothing that a terminal obeys is printed, from wherever it comes."""
    codes = [*range(9), *range(11, 32), *range(127, 160), 0x61C, 0x200E, 0x200F, *range(0x202A, 0x202F),
             *range(0x2066, 0x206A)]
    signs = "".join(map(chr, codes))
    folder = Folder(build=f"register t : copyFiles {{ {signs} }}\n")
    (folder.at / "src").mkdir()
    (folder.at / "src" / signs.replace("\0", "")).symlink_to("x")
    for report in ("20 syntax build.gb:1", "14 bad file name src", f"42 {signs}", f"1 bad name {signs}"):
        ran = folder.explain(REFUSED.format(report))
        check(f"control characters: {report[:8]}", ran, ["REFUSED "], list(signs))
    printed = folder.explain(f"> Task :t\n{signs}\tend\nADDED {signs}\nBUILD SUCCESSFUL\n")
    check("control characters that tasks print", printed, ["?" * len(signs) + "\tend"], list(signs), status=0)
    ran = folder.explain(b"> Task :t\n\xff\xc2\nBUILD SUCCESSFUL\n")
    check("bytes that are no text", ran, ["\ufffd"], status=0)


def commands():
    """A command to copy names the place, whatever is in it."""
    folder = Folder()
    places = (
        ("src", "src"),
        ("a b", "'a b'"),
        ("a;reboot", "'a;reboot'"),
        ("$(x)", "'$(x)'"),
        ("-delete", "./-delete"),
        ("it's", "'it'\"'\"'s'"),
    )
    for place, quoted in places:
        check(f"10 at {place}", folder.explain(REFUSED.format(f"10 device {place}")), [f"`ls -ld {quoted}`"])
    ran = folder.explain(FAILED.format("", "71 duplicate input src it's;a"))
    check("71", ran, ["-path '*it'\\''s;a'"])


with tempfile.TemporaryDirectory() as room:
    explain = pathlib.Path(sys.argv[1] if len(sys.argv) > 1 else TOP / "explain").resolve()
    every = (cures, cures_of_shapes, cures_of_tasks, documents, statuses, special_scripts, large, printed_lines,
             hidden, commands)
    for cases in every:
        cases()
print(f"{count} cases, {len(faults)} wrong")
sys.exit(1 if faults else 0)
