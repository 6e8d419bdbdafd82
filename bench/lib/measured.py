"""Measured runs, the folders that they are made in, and the figures that are kept of them.

A library of builds.py, sums.py, layouts.py, figures.py and pictures.py. The cost of a run is its processor time
(user and system, of its children too) and its wall time, both in ms; of several runs the least of each. Runs that
are compared alternate, so that a busy machine is busy for all of them.
"""
import argparse
import collections
import json
import os
import pathlib
import subprocess
import sys
import time

FIGURES = pathlib.Path(__file__).parent.parent / "figures.json"
BUILT = "the proved program"
SUMS = ["sh", "-c", "find src build -type f -print0 | xargs -0 sha256sum"]

Cost = collections.namedtuple("Cost", "processor wall")
# The task that is built, the script, the sources, the one that is edited, and what is copied to where.
Layout = collections.namedtuple("Layout", "task script sources edited copies")


def run(words, folder):
    """What a program costs, which has to end well."""
    began = time.monotonic()
    silent = {"stdout": subprocess.DEVNULL, "stderr": subprocess.DEVNULL}
    process = subprocess.Popen(words, cwd=folder, **silent)
    _, status, used = os.wait4(process.pid, 0)
    process.returncode = os.waitstatus_to_exitcode(status)
    if status:
        sys.exit(f"{words[:3]}: status {process.returncode}")
    return Cost(1000 * (used.ru_utime + used.ru_stime), 1000 * (time.monotonic() - began))


def least(runs, rounds):
    """The least cost of each of these, one after another in each round. Each is a function that prepares and runs."""
    found = {}
    for _ in range(rounds):
        for what, measure in runs.items():
            cost = measure()
            found[what] = Cost(*map(min, cost, found.get(what, cost)))
    return found


def written(place, content=None):
    """A file of 1 KiB with new content, or with this content."""
    place.parent.mkdir(parents=True, exist_ok=True)
    place.write_bytes(os.urandom(1024) if content is None else content)


def lay_out(folder, layout):
    for source in layout.sources:
        written(folder / source)
    (folder / "build.gb").write_text(layout.script)


def task(number, kind, reads):
    return f'register t{number} : {kind} {{ {reads} outputDir out = dir("build/{number}") }}\n'


def all_of(count):
    return "register all { dependsOn " + ", ".join(f'"t{it}"' for it in range(count)) + " }\n"


def tasks(count):
    """Tasks that each copy a file, and one that needs all of them."""
    sources = [f"src/{it}" for it in range(count)]
    lines = [task(it, "copyFiles", f'inputFiles src from file("src/{it}")') for it in range(count)]
    copies = [(f"src/{it}", f"build/{it}/{it}") for it in range(count)]
    return Layout("all", "".join(lines) + all_of(count), sources, "src/7", copies)


def chain(count):
    """Tasks that each copy what the one before made."""
    lines, copies = [], []
    for it in range(count):
        reads = f'task("t{it - 1}").flatMap(output("out"))' if it else 'dir("src")'
        lines.append(task(it, "copyFiles", f"inputFiles src incremental from {reads}"))
        copies.append((f"build/{it - 1}/0" if it else "src/0", f"build/{it}/0"))
    return Layout(f"t{count - 1}", "".join(lines), ["src/0"], "src/0", copies)


def files(count, kind="copyFiles"):
    """One incremental task of files, 256 in a folder."""
    names = [f"{it // 256}/{it}" for it in range(count)]
    script = task(0, kind, 'inputFiles src incremental from dir("src")')
    copies = [(f"src/{name}", f"build/0/{name}") for name in names]
    return Layout("t0", script, [f"src/{name}" for name in names], "src/0/0", copies)


def parts(count):
    """A hundred tasks, each of a hundredth of one folder."""
    sources = [f"src/m{it * 100 // count}/{it}" for it in range(count)]
    lines = [task(it, "copyFiles", f'inputFiles src from dir("src") include "m{it}/**"') for it in range(100)]
    return Layout("all", "".join(lines) + all_of(100), sources, "src/m0/0", [])


def words_given(text, **more):
    """The words of a command line: a built gb, and what to do with the figures."""
    words = argparse.ArgumentParser(description=text, formatter_class=argparse.RawDescriptionHelpFormatter)
    words.add_argument("gb", metavar="GB", help="a built gb")
    for name, text in more.items():
        words.add_argument(name, nargs="*", help=text)
    words.add_argument("--keep", action="store_true", help="write the figures to bench/figures.json")
    words.add_argument("--program", default=BUILT, metavar="TEXT", help="a description of GB, kept with the figures")
    given = words.parse_args()
    if given.keep and any(getattr(given, name) for name in more):
        words.error("--keep is only for a whole measurement")
    given.gb = str(pathlib.Path(given.gb).resolve())
    given.load = os.getloadavg()[0]
    return given


def where():
    """The kind of disk that folders are made on."""
    kind = ["stat", "-f", "-c", "%T", os.environ.get("TMPDIR", "/tmp")]
    return subprocess.run(kind, capture_output=True, text=True, check=True).stdout.strip()


def kept():
    return json.loads(FIGURES.read_text()) if FIGURES.exists() else {}


def keep(name, given, rows):
    """Writes the figures of a benchmark to the file, in place of its last ones, if --keep is given."""
    if not given.keep:
        return
    figures = kept()
    figures[name] = {
        "program": given.program,
        "day": time.strftime("%Y-%m-%d"),
        "processors": os.cpu_count(),
        "load": round(given.load, 1),
        "folders": where(),
        "rows": rows,
    }
    FIGURES.write_text(json.dumps(figures, indent=1, sort_keys=True) + "\n")


def rounded(costs):
    """Costs by name as they are kept."""
    return {what: {key: round(ms, 1) for key, ms in cost._asdict().items()} for what, cost in costs.items()}
