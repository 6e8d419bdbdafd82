#!/usr/bin/env python3
"""Checks that documents agree with the repository.

    bench/quotes.py            fails if one of these does not hold
    bench/quotes.py --theorem  prints the files of definitions that the theorem's clause reaches, the files
                               of code whose types these name, and the files that further clauses reach

- A block ```quote FILE is in FILE, line by line and in one piece.
- A link to a file of the repository leads to one, and one with `#` to a heading of it.
- The block ```theorem of docs/PROOF.md has the files that the theorem's clause reaches, import by import, and
  the block ```types the files of code whose types these name. The blocks ```calls, ```records and ```disk have
  the files that those clauses reach besides.
- The definitions that docs/DEFINITIONS.md names for each crate are there.
- docs/CRATES.md has a section for each crate, in the order of crates.txt.
- That page has a table for each group of crates.txt with its crates, in the order of crates.txt.
- Files and definitions in that page's table of rules are there.
- The words of the notation in docs/REFERENCE.md are in the files of tools/ for editors, and the options of
  the command line in those for shells.
- The table of wrong bodies in docs/PROOF.md names edits that exist, and the documents count them right.
- No line of a document is longer than 110 columns, except rows of tables.
"""
import glob
import os
import re
import sys
import textwrap

from pictures import groups

ROOT = os.path.dirname(os.path.dirname(os.path.abspath(__file__)))
DOCS = ["README.md"] + [f"docs/{name}" for name in sorted(os.listdir(f"{ROOT}/docs")) if name.endswith(".md")]
MOST_COLUMNS = 110
# What the clause `promise` of run_events names.
ROOTS = [
    ("gb_semantics", "Every"),
    ("gb_semantics", "Headline"),
    ("gb_semantics", "Kinds"),
    ("gb_records", "Assumed"),
    ("gb_build", "Registering"),
    ("gb_registry", "Tables"),
]
# What further clauses name: `does` and `printed` of invoke, laws of gb_build and gb_task, the laws of gb_answers,
# and `built` of run_on_disk.
FURTHER = {
    "calls": [("gb_build", "Invoking"), ("gb_exec", "Building"), ("gb_printer", "Printing"), ("gb_task", "Asking")],
    "records": [("gb_answers", "Scratch"), ("gb_answers", "Stored")],
    "disk": [("gb_here", "OnDisk"), ("gb_answer", "Answer")],
}
# Headings of docs/REFERENCE.md whose tables have the words of the notation.
WORDS_BELOW = [
    "### Statements of `build.gb`",
    "### Clauses of a block",
    "### Expressions",
    "### The functions",
    "## Kinds of actions",
]
faults = []


def lines_of(path):
    with open(os.path.join(ROOT, path), encoding="utf-8") as file:
        return file.read().split("\n")


def blocks(path):
    """The fenced blocks: the number of their first line, what is after the fence, their lines."""
    start = None
    for number, line in enumerate(lines_of(path), 1):
        if line.startswith("```"):
            if start is None:
                start, kind, block = number, line[3:], []
            else:
                yield start, kind, block
                start = None
        elif start is not None:
            block.append(line)


def has_piece(lines, piece):
    return any(lines[at : at + len(piece)] == piece for at in range(len(lines) - len(piece) + 1))


def check_quotes(path):
    for number, kind, block in blocks(path):
        if kind.startswith("quote "):
            file = kind.removeprefix("quote ")
            if not os.path.isfile(os.path.join(ROOT, file)) or not has_piece(lines_of(file), block):
                faults.append(f"{path}:{number}: this is not so in {file}")


def check_wrong_bodies():
    """The table of wrong bodies names edits that exist: with a star those of bench/edits, else those of the gate."""
    text = "\n".join(lines_of("docs/PROOF.md"))
    for crate, name, star in re.findall(r"\| `(gb_\w+)`: `(\w+)`( \*)? \|", text):
        path = f"bench/edits/{crate}/{name}.edit" if star else f"crates/{crate}/must-fail/{name}.edit"
        if not os.path.isfile(os.path.join(ROOT, path)):
            faults.append(f"docs/PROOF.md: {path} is not there")


def check_counts():
    """The numbers of wrong edits in the documents are those of the files."""
    gate = len(glob.glob(f"{ROOT}/crates/*/must-fail/*.edit"))
    manual = len(glob.glob(f"{ROOT}/bench/edits/*/*.edit"))
    counts = [("README.md", f"tries {gate} *wrong edits*"), ("README.md", f"{manual} wrong edits, `tools/`")]
    counts += [("docs/PROOF.md", f"must refuse; {manual} more"), ("docs/CONTRIBUTING.md", f"libraries; {manual} are")]
    for path, words in counts:
        if words not in " ".join(lines_of(path)):
            faults.append(f"{path}: it does not say: {words}")


def by_crates(found):
    """A line for each crate, in the order of crates.txt, with its names."""
    rows = {crate: sorted(name for other, name in found if other == crate) for crate, _ in found}
    return [f"{crate}: {' '.join(rows[crate])}" for crate in crates() if crate in rows]


def reached(roots):
    """The files of definitions that these reach, and the files of code whose types they name."""
    found, code, ahead = set(), set(), list(roots)
    while ahead:
        crate, name = ahead.pop()
        path = f"crates/{crate}/specs/{name}.antt"
        if (crate, name) not in found and os.path.isfile(os.path.join(ROOT, path)):
            found.add((crate, name))
            text = "\n".join(lines_of(path))
            ahead += re.findall(r"Rattle\.(gb\w*)\.specs\.(\w+)", text)
            code |= set(re.findall(r"Rattle\.(gb\w*)\.specs\.declared\.(\w+)", text))
    return found, code


def theorem():
    """By block, a line for each crate: the files of the theorem, those of the types that they name, and what further
    clauses reach besides."""
    found, code = reached(ROOTS)
    lists = {"theorem": by_crates(found), "types": by_crates(code)}
    for kind, roots in FURTHER.items():
        more, _ = reached(roots)
        lists[kind] = by_crates(more - found)
        found |= more
    return lists


def check_theorem():
    for kind, lines in theorem().items():
        listed = [block for _, other, block in blocks("docs/PROOF.md") if other == kind]
        if listed != [folded(lines)]:
            faults.append(f"docs/PROOF.md: the block {kind} is that of bench/quotes.py --theorem")


def folded(lines):
    """The lines, each within the columns."""
    return [part for line in lines for part in textwrap.wrap(line, MOST_COLUMNS, subsequent_indent="    ")]


def anchor(heading):
    """The name under which a heading is linked to."""
    text = re.sub(r"[^\w\- ]", "", heading.strip().lower())
    return text.replace(" ", "-")


def anchors(path):
    return {anchor(line.lstrip("#")) for line in prose(path) if line.startswith("#")}


def prose(path):
    """The lines that are in no block."""
    inside = False
    for line in lines_of(path):
        if line.startswith("```"):
            inside = not inside
        elif not inside and not line.startswith("    "):
            yield line


def check_links(path):
    for link in re.findall(r"\]\(([^)\s]+)\)", "\n".join(prose(path))):
        if re.match(r"\w+:", link):
            continue
        file, _, name = link.partition("#")
        file = os.path.normpath(os.path.join(os.path.dirname(path), file)) if file else path
        if not os.path.exists(os.path.join(ROOT, file)):
            faults.append(f"{path}: no file {file}")
        elif name and name not in anchors(file):
            faults.append(f"{path}: no heading {name} in {file}")


def crates():
    rows = [line.split("#")[0] for line in lines_of("crates.txt")]
    return [row.split(":")[0].split()[0] for row in rows if row.strip()]


def check_crates():
    page = "\n".join(lines_of("docs/CRATES.md"))
    sections = re.findall(r"(?m)^## (gb\w*)$", page)
    listed = [name for name in crates() if not name.endswith("_tests")]
    if sections != listed or not sections:
        first = next((pair for pair in zip(sections, listed) if pair[0] != pair[1]), (sections, listed))
        faults.append(f"docs/CRATES.md: its sections are not those of crates.txt in their order: {first}")
        return
    check_groups(page)


def check_groups(page):
    """The groups, each under a heading that begins as its title does, up to a colon."""
    glance = page.partition("## At a glance\n")[2].partition("\n## ")[0]
    tables = [
        (title, re.findall(r"(?m)^\| \[?`?(gb\w*)\b", text))
        for title, text in re.findall(r"(?ms)^### ([^\n]*)\n(.*?)(?=^### |\Z)", glance)
    ]
    wanted = [(title[0].upper() + title.partition(":")[0][1:], names) for title, names in groups()]
    if tables != wanted:
        faults.append("docs/CRATES.md: the tables at a glance are not the groups of crates.txt")


def check_rules():
    """`A`: `B.c` is the definition c of crates/A/specs/B.antt, and `A/b.rt` a file of crates/A/src."""
    page = "\n".join(lines_of("docs/CRATES.md"))
    table = page.partition("## From a rule to its file")[2].partition("\n## ")[0]
    for name, file in re.findall(r"`(gb\w*)/(\w+\.rt)`", table):
        if not os.path.isfile(f"{ROOT}/crates/{name}/src/{file}"):
            faults.append(f"docs/CRATES.md: no file {file} in {name}")
    for name, file, word in re.findall(r"`(gb\w*)`: `(\w+)(?:\.(\w+))?", table):
        path = f"crates/{name}/specs/{file}.antt"
        if not os.path.isfile(os.path.join(ROOT, path)):
            faults.append(f"docs/CRATES.md: no file {path}")
        elif word and not re.search(rf"\bpub \w* ?{word}\b|\bpub {word}\b", "\n".join(lines_of(path))):
            faults.append(f"docs/CRATES.md: no {word} in {path}")


def check_tools():
    words = {word for heading in WORDS_BELOW for row in cells_below(heading) for word in words_of(row)}
    for path in ("tools/vim/syntax/gb.vim", "tools/vscode/gb.tmLanguage.json"):
        there = set(re.findall(r"[A-Za-z]+", "\n".join(lines_of(path))))
        for word in sorted(words - there):
            faults.append(f"{path}: no {word}")
    options = re.findall(r"`(--?[a-zA-Z][a-z-]*)", " ".join(cells_below("## The command line")))
    for path in ("gb.bash", "_gb", "gb.fish"):
        text = "\n".join(lines_of(f"tools/completions/{path}"))
        # fish has `-l continue` for `--continue`, and `-s m` for `-m`
        text = re.sub(r"-s (\w) ", r" -\1 ", re.sub(r"-l ", " --", text)) if path == "gb.fish" else text
        for option in options:
            if not re.search(rf"(?<![\w-]){option}(?![a-z-])", text):
                faults.append(f"tools/completions/{path}: no {option}")


def cells_below(heading):
    """The first cells of the tables below a heading of the reference."""
    text = "\n".join(lines_of("docs/REFERENCE.md")).partition(f"\n{heading}\n")[2]
    return re.findall(r"(?m)^\| (`.*?`) \|", re.split(r"(?m)^##", text)[0])


def words_of(cell):
    """The words of the notation in a cell: what is in texts, and names that the reader chooses, are none."""
    bare = re.sub(r'"[^"]*"', "", " ".join(re.findall(r"`([^`]*)`", cell)))
    return set(re.findall(r"(?<![\w-])[a-z][A-Za-z]+(?![\w-])", bare))


def check_columns(path):
    for number, line in enumerate(lines_of(path), 1):
        if len(line) > MOST_COLUMNS and not line.startswith("|"):
            faults.append(f"{path}:{number}: more than {MOST_COLUMNS} columns")


def check_definitions():
    """The names of the second table of docs/DEFINITIONS.md: `File.name` of a crate is defined in that file."""
    for line in lines_of("docs/DEFINITIONS.md"):
        row = re.match(r"\| `(gb_\w+)` \|(.*)", line)
        for file, name in re.findall(r"`(\w+)\.(\w+)`", row[2]) if row else []:
            path = f"crates/{row[1]}/specs/{file}.antt"
            text = "\n".join(lines_of(path)) if os.path.isfile(os.path.join(ROOT, path)) else ""
            if not re.search(rf"(?m)^ *(abbrev |unfoldable )?(pub )?(record |data )?{name}\b", text):
                faults.append(f"docs/DEFINITIONS.md: no {file}.{name} in {row[1]}")


def main(words):
    if words == ["--theorem"]:
        for lines in theorem().values():
            print("\n".join(folded(lines)))
        return 0
    for path in DOCS:
        check_quotes(path)
        check_links(path)
        check_columns(path)
    check_crates()
    check_rules()
    check_theorem()
    check_definitions()
    check_tools()
    check_wrong_bodies()
    check_counts()
    for fault in faults:
        print(fault)
    print(f"{len(DOCS)} documents, {len(faults)} faults")
    return 1 if faults else 0


if __name__ == "__main__":
    sys.exit(main(sys.argv[1:]))
