#!/bin/sh
# site.sh PROGRAM [PAGES [ROUNDS]]: the cost of `gb_site` for so many pages of 4 KiB, next to `sha256sum` of the
# inputs and the outputs. The least processor time of so many rounds, in milliseconds, alternating: nothing to
# do, one edit, and the digests. The site has the tasks of the crate's `data` (`pages`, with a layout), and once
# more without the layout (`html`), where one edit is one file.
set -eu
program=$(realpath "$1"); pages=${2:-1000}; rounds=${3:-7}
room=$(mktemp -d)
trap 'rm -rf "$room"' EXIT
cd "$room"
mkdir pages static
python3 - "$pages" <<'P'
import sys
for n in range(int(sys.argv[1])):
    line = f"Words of page {n}, with *emphasis* and `code`, a [link](p{n}.html) and what else stands on a line.\n"
    text = f"# Page {n}\n\n"
    while len(text) + len(line) < 4096:
        text += line
    open(f"pages/p{n:04d}.md", "w").write(text + "x" * (4095 - len(text)) + "\n")
P
echo 'body { color: black }' >static/style.css
echo '<html><body>{{page}}</body></html>' >layout.html
cat >build.gb <<'S'
register html : markdown {
    doFirst checkPages
    inputFiles src incremental from dir("pages")
    outputDir out = buildDir.map(child("html"))
}
register laidOut : template {
    inputFiles src incremental from task("html").flatMap(output("out"))
    inputFiles layout from file("layout.html")
    outputDir out = buildDir.map(child("laid-out"))
}
register all : index("All pages") {
    inputFiles src incremental from dir("pages")
    outputDir out = buildDir.map(child("all"))
}
register site : copyFiles {
    inputFiles src incremental from task("laidOut").flatMap(output("out")), task("all").flatMap(output("out")),
        dir("static")
    outputDir out = buildDir.map(child("site"))
}
S
python3 - "$program" "$rounds" <<'P'
import os, resource, subprocess, sys
program, rounds = sys.argv[1], int(sys.argv[2])

def took(words):
    was = resource.getrusage(resource.RUSAGE_CHILDREN)
    made = subprocess.run(words, capture_output=True, text=True)
    now = resource.getrusage(resource.RUSAGE_CHILDREN)
    if made.returncode:
        sys.exit(made.stdout + made.stderr)
    return 1000 * (now.ru_utime + now.ru_stime - was.ru_utime - was.ru_stime), made.stdout

def files(*roots):
    return [f"{at}/{name}" for root in roots for at, _, names in os.walk(root) for name in names]

for task, outputs in (("html", ["build/html"]), ("site", ["build"])):
    first = took([program, task])[0]
    idle, edit, digest = [], [], []
    for n in range(rounds):
        spent, text = took([program, task])
        assert "executed" not in text, text
        idle.append(spent)
        with open("pages/p0007.md", "r+b") as page:
            page.seek(100)
            page.write(b"%d" % (n % 10))
        edit.append(took([program, task])[0])
        digest.append(took(["sha256sum", *files("pages", *outputs)])[0])
    least = min(digest)
    print(f"{task}: first {first:.0f}, nothing to do {min(idle):.0f} ({min(idle) / least:.2f}), "
          f"one edit {min(edit):.0f} ({min(edit) / least:.2f}), sha256sum {least:.0f}")
P
