#!/usr/bin/env python3
"""Makes the parts of the documents that follow from the code.

    bench/made.py          fails where a made part is not what would be written
    bench/made.py --write  writes them

- docs/CRATES.md, the section of each crate: the head of its lib.rt (or main.rt), a table of the files of its
  src/, with the first sentence of each file's head, and a table of the files of its specs/, with the first
  sentence of each file's first comment. lib.rt and Lib.antt are left out of the tables.
- docs/CALLS.md: the public types and calls of the crates in PUBLIC, each call with its signature, its comment
  and its clauses; and, of other modules, what these hand on and the types that they name.
- docs/FAULTS.md, the list of all faults, from its headings.
"""
import os
import re
import sys
import textwrap
from dataclasses import dataclass, field

ROOT = os.path.dirname(os.path.dirname(os.path.abspath(__file__)))
COLUMNS = 110
# The crates whose calls are listed, and the modules of them that are, if not all public ones.
PUBLIC = {
    "gb_build": None,
    "gb_answers": None,
    "gb_logged": None,
    "gb_semantics": ["events"],
    "gb_report": ["fault", "render", "report"],
    "gb_exec": ["building", "listener"],
    "gb_printer": ["page", "printer"],
    "gb_arguments": ["arguments"],
    "gb_cli": None,
    "gb_here": None,
    "gb_answer": None,
    "gb_kinds": None,
    "gb_with": None,
    "gb_script": ["lines", "script", "source"],
    "gb_format": ["formatting"],
    "gb_registry": None,
    "gb_project": ["script_tasks", "workspaces"],
    "gb_graph": ["plan", "tasks"],
    "gb_plan": ["plan", "task"],
    "gb_records": ["stored_records"],
    "gb_history": ["decide", "history", "record", "record_place", "record_text"],
    "gb_tree": ["changes", "digest", "output", "pattern", "prints", "property"],
    "gb_provider": None,
    "gb_action": None,
    "gb_disk": ["disk"],
    "gb_folder": None,
    "gb_core": None,
}
WIDTH = 110
# What the faults are about whose number is not above this one.
FAULTS = {
    3: "Names, places and memory",
    14: "Files and folders",
    23: "The text of a script",
    37: "Values",
    43: "Actions",
    59: "Projects and tasks",
    64: "The plan of a build",
    72: "The files that a task reads",
    96: "Other",
}
FILES = "| File | What it has |"
DEFINITIONS = "| Definitions | What they say |"
INTRODUCTION = """\
# The calls, by crate

A reference for programs that embed builds or have kinds of actions of their own. It has the public types and
calls of the crates that such programs name, of some crates only those of the modules that they need. Each
has its comment, and each call its signature and the clauses of its contract. `bench/made.py --write` makes
this page from the code.

[From the task at hand to the call](CRATES.md#from-the-task-at-hand-to-the-call) says which call does what.
[A tool of your own](EMBEDDING.md) goes through a whole program.

How to read an entry:

- A clause has a name. After the name comes the sentence that is in front of the clause in the code. A clause
  without a sentence has its formula here if the formula is short, else its name alone.
- *Asks* marks a premise: the caller has to prove it. A call without one may be called with any arguments.
- `x.old` and `x.new` are a borrowed value before and after the call, and `x.now` is one that the call does
  not change. `result` is what the call returns.
- `IfOk result (λ x. ..)` is about a result without an error, `IfErr result (λ fault. ..)` about the error.
  `OnOk result ..` and `OnErr result ..` are about the same two cases, without a name for the value.
- A clause *where contents are known* is about states in which `faithful` holds, such as all of one in memory.
- A law is a call that does nothing at run time. Its clause is a fact for proofs.
- Lines that begin with `impl` say which traits a type has, and what its parameters have to be.
- `number` gives the number of a fault that users read. Below it are the numbers of all variants.

[Names in proofs](DEFINITIONS.md#names-in-proofs) says what the words of formulas mean.
"""


def read(path):
    with open(os.path.join(ROOT, path), encoding="utf-8") as file:
        return file.read()


def files_in(folder, ending):
    path = os.path.join(ROOT, folder)
    return sorted(name for name in os.listdir(path) if name.endswith(ending))


# Heads


def head_of(path, mark):
    """The first comment of a file: its lines from the first one on that begin with the mark."""
    lines = []
    for line in read(path).split("\n"):
        if not line.startswith(mark):
            break
        lines.append(line[len(mark) :].strip())
    return lines


def paragraph(lines):
    """The lines up to the first empty one, as one text."""
    return " ".join(lines[: lines.index("")] if "" in lines else lines)


def first_sentence(text):
    """The text up to its first full stop: a stop before a space, that is no part of `..`."""
    stop = re.search(r"(?<!\.)\.(?=\s|$)", text)
    return text[: stop.start()] if stop else text


def plain(text):
    """A comment of the code as text of a document: links to items become names."""
    return re.sub(r"\[(`[^`]*`)\](?:\([^)]*\))?", r"\1", text)


def cell(text):
    return plain(text).replace("|", "\\|")


# The tables of files


def wrapped(first, text):
    """Rows of two cells that fit the width: where the text goes on, the first cell is empty."""
    rows, line = [], f"| {first} |"
    for word in re.findall(r"(?:`[^`]*`|\[[^\]]*\]\([^)]*\)|\S)+", text):
        if len(line) + len(word) > WIDTH - 3 and not line.endswith("|"):
            rows.append(line + " |")
            line = "| |"
        line += " " + word
    return rows + [line + " |"]


def row(name, path, mark):
    return wrapped(f"`{name}`", cell(first_sentence(paragraph(head_of(path, mark)))))


def specs_of(crate):
    """The files of definitions, in the order in which Lib.antt names them."""
    if not os.path.isdir(os.path.join(ROOT, f"crates/{crate}/specs")):
        return []
    names = re.findall(r"(?m)^(?:pub )?mod (\w+)$", read(f"crates/{crate}/specs/Lib.antt"))
    there = [name[: -len(".antt")] for name in files_in(f"crates/{crate}/specs", ".antt")]
    return [name for name in names if name in there] + [
        name for name in there if name not in names and name != "Lib"
    ]


def tables(crate):
    """The tables of a crate's files, as lines."""
    names = files_in(f"crates/{crate}/src", ".rt")
    sources = [name for name in names if name not in ("lib.rt", "main.rt")]
    lines = [FILES, "|---|---|"] if sources else []
    for name in sources:
        lines += row(name, f"crates/{crate}/src/{name}", "//!")
    specs = specs_of(crate)
    if specs:
        lines += ["", DEFINITIONS, "|---|---|"]
        for name in specs:
            lines += row(name, f"crates/{crate}/specs/{name}.antt", "--")
    return lines


def crates_page():
    """docs/CRATES.md, in which the section of each crate is made."""
    parts = re.split(r"(?m)^(?=## )", read("docs/CRATES.md"))
    return "".join(section(part) for part in parts)


def linked(text):
    """A page that is named by its file becomes a link."""
    return re.sub(r"`docs/(\w+)\.md(#[\w-]+)?`", lambda m: f"[{m[1]}]({m[1]}.md{m[2] or ''})", text)


def whole_head(crate):
    """The head of a crate's first file. Each paragraph is filled; a table and a list keep their lines."""
    first = "lib.rt" if "lib.rt" in files_in(f"crates/{crate}/src", ".rt") else "main.rt"
    head = linked(plain("\n".join(head_of(f"crates/{crate}/src/{first}", "//!"))))
    lines = []
    for part in re.split(r"\n\n+", head):
        lines += [""] if lines else []
        if part.startswith("|"):
            lines += part.split("\n")
        elif part.startswith("- "):
            for item in re.split(r"\n(?=- )", part):
                lines += filled(" ".join(item.split("\n")), "", "  ")
        else:
            lines += filled(" ".join(part.split("\n")))
    return lines


def section(part):
    name = re.match(r"## (gb\w*)\n", part)
    if not name:
        return part
    parts = [part.split("\n")[0], "\n".join(whole_head(name[1])), "\n".join(tables(name[1]))]
    return "\n\n".join(text for text in parts if text) + "\n\n"


# The calls


@dataclass
class Clause:
    asks: bool
    name: str
    formula: str
    sentence: str = ""


@dataclass
class Call:
    signature: list
    comment: str
    clauses: list = field(default_factory=list)
    numbers: list = field(default_factory=list)  # of the variants of a fault


@dataclass
class Owner:
    """A type, a trait, or a module, with its calls."""

    title: str
    comment: str
    calls: list = field(default_factory=list)
    definition: list = field(default_factory=list)

    def name(self):
        return self.title.split()[-1] if self.title else ""


def public_modules(crate):
    if PUBLIC.get(crate) is not None:
        return PUBLIC[crate]
    text = read(f"crates/{crate}/src/lib.rt")
    modules = re.findall(r"(?m)^pub mod (\w+);", text)
    # Macros are exported wherever they are.
    for module in re.findall(r"(?m)^mod (\w+);", text):
        if "#[macro_export]" in read(f"crates/{crate}/src/{module}.rt"):
            modules.append(module)
    return sorted(modules)


class Reader:
    """Reads the public items of a file."""

    def __init__(self, text):
        self.lines = text.split("\n")
        self.at = 0
        self.comment = []
        self.owners = []
        self.inside = None
        self.header = []
        self.exported = False

    def owner(self, title, comment=""):
        for owner in self.owners:
            if owner.title == title:
                owner.comment = owner.comment or comment
                return owner
        self.owners.append(Owner(title, comment))
        return self.owners[-1]

    def items(self):
        while self.at < len(self.lines):
            self.item(self.lines[self.at])
        return self.owners

    def item(self, line):
        bare = line.strip()
        if bare.startswith("///"):
            self.comment.append(bare[3:].strip())
        elif bare.startswith("#["):
            self.exported = self.exported or bare == "#[macro_export]"
        elif self.begins_owner(line) or self.begins_call(line):
            return
        elif bare:
            self.comment, self.exported = [], False
        if line == "}":
            self.inside = None
        self.at += 1

    def begins_owner(self, line):
        """A type, a trait or an implementation begins here."""
        named = re.match(r"pub (struct|enum|trait|type|const) (\w+)", line)
        macro = re.match(r"macro_rules! (\w+)", line)
        if named:
            owner = self.owner(f"{named[1]} {named[2]}", self.taken())
            owner.definition = self.definition(named[1])
            self.inside = owner if named[1] == "trait" else None
        elif macro and self.exported:
            self.owner(f"macro {macro[1]}!", self.taken())
        elif line.startswith("impl"):
            kind = re.match(r"impl(?:<.*?>)? (\w+)(?:<.*>)? \{", line)
            self.inside = self.of_type(kind[1]) if kind and " for " not in line else None
            self.header = [line[: -len(" {")]] if line.startswith("impl<") else []
            self.taken()
        else:
            return False
        self.at += 1
        return True

    def definition(self, kind):
        """What users see of a type: the variants of an enum, the public fields of a struct, with comments."""
        line = self.lines[self.at]
        if kind in ("type", "const"):
            end = next(at for at in range(self.at, len(self.lines)) if self.lines[at].endswith(";"))
            return self.lines[self.at : end + 1]
        if kind == "trait":
            return [line[: -len(" {")] + ";"] if ":" in line else []  # what a type that has it has to be
        if not line.endswith("{"):
            return []
        end = self.lines.index("}", self.at)
        inner = [row for row in self.lines[self.at + 1 : end] if not row.strip().startswith("#[")]
        kept = inner if kind == "enum" else public_fields(inner)
        return [line, *kept, "}"] if kept else []

    def of_type(self, name):
        for owner in self.owners:
            if owner.name() == name:
                return owner
        return self.owner(f"struct {name}")

    def begins_call(self, line):
        in_trait = self.inside is not None and self.inside.title.startswith("trait ")
        form = r"    (ghost \w+:|type \w+|(?:pub )?fn \w+)" if in_trait else r"(    )?pub fn \w+"
        if not re.match(form, line):
            return False
        nested = line.startswith("    ")
        comment = self.taken()
        # The first call of an implementation shows what its types have to be.
        header, self.header = (self.header if nested and not in_trait else []), []
        call = Call(header + self.signature(), comment)
        call.clauses = self.clauses()
        if line.strip().startswith("pub fn number("):
            call.numbers = self.numbers()
        if not nested:
            self.owner("").calls.append(call)
        elif self.inside is not None:
            self.inside.calls.append(call)
        return True

    def taken(self):
        text, self.comment, self.exported = "\n".join(self.comment), [], False
        return text

    def signature(self):
        """The lines of a signature, as they are laid out in the code."""
        lines = []
        while True:
            line = self.lines[self.at]
            bare = line.strip()
            if re.match(r"(requires|ensures)\b", bare) or bare.startswith("//") or bare in ("{", "{}", ""):
                break
            self.at += 1
            lines.append(re.sub(r" \{$| \{\}$|;$", "", line.rstrip()))
            if bare.endswith((";", " {", " {}")):
                break
        return textwrap.dedent("\n".join(lines)).split("\n")

    def clauses(self):
        """The clauses of the contract that begins here: up to the body, or to the end of the item."""
        clauses, sentence, free, ended = [], [], False, False
        if self.lines[self.at - 1].strip().endswith((";", " {", " {}")):
            return clauses
        while not ended:
            bare = self.lines[self.at].strip()
            begun = re.match(r"(requires|ensures)(?: (\w+))? \{ ?", bare)
            if begun:
                clause, ended = self.clause(begun)
                # A comment after an empty line is about all clauses below it: each of these has `faithful`.
                clause.sentence = "" if free else " ".join(sentence)
                sentence, free = [], False
                clauses.append(clause)
                continue
            if bare in ("{", "{}", "}"):
                break
            free = free or bare == ""
            if bare.startswith("//"):
                sentence.append(bare[2:].strip())
            self.at += 1
        return clauses

    def numbers(self):
        """What the body that begins here gives for each variant: a number, or that of the fault in it."""
        numbers = []
        for line in self.lines[self.at : self.lines.index("    }", self.at)]:
            arm = re.match(r"\s+\w+::(\w+)(?:\(.*?\))? => (?:(\d+)|\w+\.number\(\)),$", line)
            if arm:
                numbers.append(f"`{arm[1]}` {arm[2] or 'that of the fault in it'}")
        return numbers

    def clause(self, begun):
        """A clause with its formula, up to the brace that closes it; whether the item ends with it."""
        depth, text = 0, ""
        while True:
            bare = self.lines[self.at].strip()
            self.at += 1
            text += (" " if text else "") + bare
            depth += bare.count("{") - bare.count("}")
            if depth == 0:
                break
        ended = text.endswith(";")
        formula = text[begun.end() :].rstrip(";").rstrip()
        formula = formula[:-1].strip() if formula.endswith("}") else formula
        return Clause(begun[1] == "requires", begun[2] or "", formula), ended


def public_fields(lines):
    """The public fields, each with its comment."""
    kept, comment = [], []
    for line in lines:
        if line.strip().startswith("///"):
            comment.append(line)
            continue
        kept += comment + [line] if line.startswith("    pub ") else []
        comment = []
    return kept


def filled(text, first="", rest=""):
    return textwrap.wrap(
        text,
        COLUMNS,
        initial_indent=first,
        subsequent_indent=rest,
        break_long_words=False,
        break_on_hyphens=False,
    )


def comment_lines(comment, first="", rest=""):
    """The paragraphs of a comment; a table and a list keep their lines."""
    lines = []
    for part in re.split(r"\n\n+", plain(comment)):
        if not part:
            continue
        if lines:
            lines.append("")
        if re.match(r"\||[*-] ", part):
            lines += [rest + line for line in part.split("\n")]
        else:
            lines += filled(" ".join(part.split("\n")), first if not lines else rest, rest)
    return lines


def clause_text(clause):
    begin = "*Asks* " if clause.asks else ""
    name = f"`{clause.name}`" if clause.name else ""
    if clause.sentence:
        said = plain(clause.sentence)
    elif len(clause.formula) <= (90 if clause.name else 250) and "`" not in clause.formula:
        said = f"`{clause.formula}`"
    else:
        said = ""
    return begin + ": ".join(part for part in (name, said) if part)


def is_known(clause):
    """Whether it is only about folders whose contents are known."""
    return bool(re.match(r"IsTrue (\w\.)?faithful → ", clause.formula))


def contract_lines(clauses):
    """The clauses: each with a text on its own line, the names of the others in a row."""
    lines, alone = [], {}
    for clause in clauses:
        text = clause_text(clause)
        known = is_known(clause)
        if text == f"`{clause.name}`" or text == f"*Asks* `{clause.name}`":
            alone.setdefault((clause.asks, known), []).append(f"`{clause.name}`")
        elif text:
            if known and clause.sentence:
                text = text.replace(": ", ", where contents are known: ", 1)
                text = re.sub(r": Where contents are known\b", "", text, count=1)
            lines += filled(text, "- ", "  ")
    for (asks, known), names in alone.items():
        begin = "*Asks* " if asks else ""
        end = ", where contents are known" if known else ""
        lines += filled(f"{begin}{', '.join(names)}{end}", "- ", "  ")
    return lines


def call_lines(call):
    lines = [""] + ["    " + line for line in call.signature]
    comment = comment_lines(call.comment)
    numbers = filled("Numbers: " + ", ".join(call.numbers) + ".") if call.numbers else []
    contract = contract_lines(call.clauses)
    for part in (comment, numbers, contract):
        if part:
            lines += [""] + part
    return lines


def traits():
    """The public traits of all listed crates."""
    names = set()
    for crate in PUBLIC:
        for module in files_in(f"crates/{crate}/src", ".rt"):
            names.update(re.findall(r"(?m)^pub trait (\w+)", read(f"crates/{crate}/src/{module}")))
    return names


def implemented(crate, known):
    """The heads of the crate's implementations of these traits, by the name of the type."""
    heads = {}
    for module in files_in(f"crates/{crate}/src", ".rt"):
        for head in re.findall(r"(?m)^(impl\b.* for .*) \{$", read(f"crates/{crate}/src/{module}")):
            trait = re.match(r"impl(?:<.*>)? ([\w:]+?)(?:<.*>)? for (?:Box<dyn )?(\w+)", head)
            if trait and trait[1] in known:
                heads.setdefault(trait[2], []).append("    " + head)
    return heads


def handed_on(crate, text):
    """The names that a file hands on: a line for each other crate, and for each module of its own crate."""
    names = {}
    for path, group, other in re.findall(r"(?ms)^pub use ([\w:]+?)(?:::\{(.*?)\})?(?: as (\w+))?;", text):
        own = path.split("::")[-1]
        alone = f"`{other}`, which is `{own}` there" if other else f"`{own}`"
        parts = [f"`{part.strip()}`" for part in group.split(",") if part.strip()] or [alone]
        first = path.removeprefix("crate::").split("::")[0]
        is_own = os.path.exists(os.path.join(ROOT, f"crates/{crate}/src/{first}.rt"))
        names.setdefault(f"{crate}::{first}" if is_own else first, []).extend(parts)
    lines = ["", "It re-exports:", ""] if names else []
    for crate, parts in names.items():
        lines += filled(f"of `{crate}`: " + ", ".join(parts), "- ", "  ")
    return lines


# What the listed calls name, and what listed modules hand on, of modules that are not listed

IMPORT = r"(?ms)^(?:pub )?use ([\w:]+?)(?:::\{(.*?)\})?(?: as (\w+))?;"


def path_of(name, text):
    """The path by which a file imports a name, if it does."""
    for path, group, other in re.findall(IMPORT, text):
        for part in [f"{path}::{part.strip()}" for part in group.split(",") if part.strip()] or [path]:
            own, _, alias = part.partition(" as ")
            if name == (alias or other or own.split("::")[-1]):
                return own.split("::")
    return []


def home(crate, module, name):
    """The crate and the module that define the public type of this name in this module, if `gb` has it."""
    if not os.path.exists(os.path.join(ROOT, f"crates/{crate}/src/{module}.rt")):
        return None
    text = read(f"crates/{crate}/src/{module}.rt")
    if re.search(rf"(?m)^pub (?:struct|enum|trait|type|const) {name}\b", text):
        return crate, module
    path = path_of(name, text)
    if not path:
        return None
    return home(crate if path[0] == "crate" else path[0], "::".join(path[1:-1]) or "lib", path[-1])


def names_in(owner):
    """The names of types in the definition of a type and in the signatures of its calls."""
    lines = owner.definition + [line for call in owner.calls for line in call.signature]
    code = [line for line in lines if not re.match(r"\s*(///|(pub )?ghost )", line)]
    return sorted(set(re.findall(r"\b[A-Z]\w*", "\n".join(code))))


def handed_calls(modules):
    """The calls that listed modules hand on from modules of their own crate that are not listed."""
    found = {}
    for crate, module in modules:
        pattern = r"(?m)^pub use crate::(\w+)::(\w+);"
        for other, name in re.findall(pattern, read(f"crates/{crate}/src/{module}.rt")):
            if (crate, other) not in modules:
                found.setdefault((crate, other), []).append(name)
    return found


def named_items():
    """What is handed on, and the types that listed calls and types name and that no listed module has: also
    those that the found ones name. By crate and module."""
    modules = [(crate, module) for crate in PUBLIC for module in public_modules(crate)]
    found = handed_calls(modules)
    left = [(*at, owner) for at in [*modules, *found] for owner in owners_of(*at, found.get(at))]
    while left:
        crate, module, owner = left.pop(0)
        for name in names_in(owner):
            at = home(crate, module, name)
            if at and at not in modules and name not in found.setdefault(at, []):
                found[at].append(name)
                left += [(*at, other) for other in owners_of(*at, [name])]
    return found


def owners_of(crate, module, names=None):
    """The types of a module with their calls, and its functions: those of these names, or all."""
    owners = Reader(read(f"crates/{crate}/src/{module}.rt")).items()
    for owner in owners if names is not None else []:
        if not owner.title:
            calls = [(re.search(r"\bfn (\w+)", "\n".join(call.signature)), call) for call in owner.calls]
            owner.calls = [call for name, call in calls if name and name[1] in names]
    return [owner for owner in owners if names is None or owner.name() in ["", *names]]


def place_of_private(crate, module, names):
    """Where the names of a module are that is private. `names`: the types that are listed of it, or all."""
    text = read(f"crates/{crate}/src/lib.rt")
    if re.search(rf"(?m)^pub mod {module};", text):
        return []
    for other in public_modules(crate):
        if re.search(rf"(?m)^pub use crate::{module}::", read(f"crates/{crate}/src/{other}.rt")):
            return ["", f"The module is private: its names are those of `{crate}::{other}`."]
    if names and not any(path_of(name, text) for name in names):
        own = "other crates can hold values of its types, but not write their names"
        return ["", f"The module is private: {own}."]
    return ["", f"The module is private: its names are those of `{crate}` itself."]


def module_lines(crate, module, heads, names=None):
    """The entries of a module: of these types, or of all that is public."""
    path = f"crates/{crate}/src/{module}.rt"
    owners = owners_of(crate, module, names)
    body = place_of_private(crate, module, names) + (handed_on(crate, read(path)) if names is None else [])
    for owner in owners:
        if not owner.title:
            body += ["", "**functions**"] if len(owners) > 1 and owner.calls else []
            for call in owner.calls:
                body += call_lines(call)
        elif owner.comment or owner.calls:
            kind, name = owner.title.split(" ", 1)
            text = f"**{kind} `{name}`**" + (f": {owner.comment}" if owner.comment else "")
            body += [""] + comment_lines(text)
            definition = ["    " + line for line in owner.definition] + heads.get(name, [])
            body += [""] * bool(definition) + definition
            for call in owner.calls:
                body += call_lines(call)
    if not body:
        return []
    head = plain(paragraph(head_of(path, "//!")))
    return ["", f"### `{crate}::{module}`", ""] + filled(f"{head} ([code](../{path}))") + body


def calls_page():
    lines = INTRODUCTION.rstrip("\n").split("\n") + [""]
    named = named_items()
    crates = [*PUBLIC, *sorted({crate for crate, _ in named} - set(PUBLIC))]
    heads = {crate: plain(paragraph(head_of(f"crates/{crate}/src/lib.rt", "//!"))) for crate in crates}
    # `From` says where `?` may turn one fault into another.
    known = traits() | {"From"}
    for crate, head in heads.items():
        lines += filled(f"[{crate}](#{crate}): {head}", "- ", "  ")
    for crate, head in heads.items():
        lines += ["", f"## {crate}", ""] + filled(head)
        lines += handed_on(crate, read(f"crates/{crate}/src/lib.rt"))
        listed = {module: None for module in public_modules(crate)} if crate in PUBLIC else {}
        listed.update({module: names for (other, module), names in named.items() if other == crate})
        for module, names in listed.items():
            lines += module_lines(crate, module, implemented(crate, known), names)
    return "\n".join(lines) + "\n"


# The list of faults


def fault_link(heading):
    """A link to the section of a fault: its number and its words, without the letters of the heading."""
    place = re.sub(r"[^\w\- ]", "", heading.lower()).replace(" ", "-")
    kept = [word for word in heading.split() if not re.fullmatch(r"[A-Z]+(:[A-Z])?,?|:\w,?", word)]
    words = kept if len(kept) > 1 else [*kept, "an action failed"]
    return f"[{' '.join(words)}](#{place})"


def faults_page():
    """docs/FAULTS.md, in which the list from `**All faults.**` up to the next paragraph in bold is made."""
    text = read("docs/FAULTS.md")
    headings, items, least = re.findall(r"(?m)^## (\d+ .*)$", text), [], 0
    for most, about in FAULTS.items():
        links = [fault_link(heading) for heading in headings if least < int(heading.split()[0]) <= most]
        # No line ends within a link.
        item = filled(f"{about}: {', '.join(links)}".replace(" ", "\0").replace(",\0", ", "), "- ", "  ")
        items += [line.replace("\0", " ") for line in item]
        least = most
    begin = "**All faults.** (`bench/made.py --write` makes this list.)"
    made = "\n".join([begin, "", *items, "", "**Reading"])
    return re.sub(r"(?s)\*\*All faults\.\*\*[^\n]*\n.*?\n\*\*Reading", lambda _: made, text)


def main(words):
    pages = {
        "docs/CRATES.md": crates_page().rstrip("\n") + "\n",
        "docs/CALLS.md": calls_page(),
        "docs/FAULTS.md": faults_page(),
    }
    status = 0
    for path, text in pages.items():
        there = read(path) if os.path.exists(os.path.join(ROOT, path)) else ""
        if text == there:
            continue
        if words == ["--write"]:
            with open(os.path.join(ROOT, path), "w", encoding="utf-8") as file:
                file.write(text)
            print(f"{path}: written")
        else:
            print(f"{path}: not what `bench/made.py --write` writes")
            status = 1
    return status


if __name__ == "__main__":
    sys.exit(main(sys.argv[1:]))
