"""What tools/explain says of a fault: what docs/FAULTS.md has under its number, and what the scripts and the
folder show.

Its words of Gradle are those of docs/FROM_GRADLE.md; kinds, functions and forms are those of
docs/REFERENCE.md, kinds of gb_site those of docs/SITE.md. It reads what gb reads, and no more of it than gb
takes, so that what it costs is bounded.
"""
import difflib
import itertools
import os
import re
import shlex
import stat
import textwrap

HOME = os.path.dirname(os.path.dirname(os.path.realpath(__file__)))
DOCS = os.path.join(HOME, "docs")
PLACEHOLDER = re.compile(r":[a-z]\b|\b(?:PATH|[TPFLN])\b")
MARK = re.compile(r'"(?:\\.|[^"\\\n])*"?|//[^\n]*|[(){}\[\]]')
TOKEN = re.compile(
    r'[A-Za-z][A-Za-z0-9_-]{0,63}(?![A-Za-z0-9_-])|"(?:[^"\\\x00-\x1f]|\\["\\nt])*"|//.*|[{}()\[\],.:= \t\r]'
)
BRACE = re.compile(r"[{}]")
ROOT = re.compile(r'"(?:\\.|[^"\\\n])*"?|//[^\n]*|[A-Za-z][\w-]*|[^\s\w]')
# What in a text of docs/SITE.md means others: a file, a line, a key, a name, an address.
NAMED_IN_TEXTS = r"[\w/]+\.(?:html|markdown|md|txt|org)\b(?:#\w+)?|\d+"
NAMED_IN_TEXTS += r"|(?<=has no )date|(?<=order )name|(?<=\{\{)page"
NAME = re.compile(r"[A-Za-z][A-Za-z0-9_-]{0,63}")
STATEMENTS = set("register named property set convention unset disallowChanges defaultTasks".split())
STEPS = {"map", "flatMap", "zip", "orElse"}
KEYWORDS = STATEMENTS | STEPS | set(
    """include exclude from doFirst doLast dependsOn mustRunAfter finalizedBy onlyIf enabled upToDateWhen
    input inputFiles outputFile outputDir incremental skipWhenEmpty nameOnly is true false dir file buildDir
    gradleProperty task""".split()
)
ROOTS_END = STATEMENTS | set("{ } include exclude doFirst doLast dependsOn mustRunAfter finalizedBy".split())
ROOTS_END |= set("onlyIf enabled upToDateWhen input inputFiles outputFile outputDir".split())
NAMING = "register|named|property|set|convention|unset|disallowChanges|input|inputFiles|outputFile|outputDir"
# So many lines are shown, faults explained, projects and blocks of a task read, names compared, lines above
# read, and entries of folders listed, at most.
MOST_LINES, MOST_FAULTS, MOST_PROJECTS, MOST_BLOCKS = 4, 20, 256, 64
MOST_NAMES, MOST_ABOVE, MOST_ENTRIES = 5_000, 100, 50_000
# The bytes of a script and of all scripts; the characters that are read of a fault.
SCRIPT, SCRIPTS, DETAIL = 1 << 20, 4 << 20, 4_000
# The characters of the text of an action that are compared, and of a line that are shown.
MOST_OF_TEXT, SHOWN = 300, 90


def read(path, most=SCRIPTS, flags=0):
    """The text of a file; none where it is no file, cannot be read, or has more bytes."""
    flags |= os.O_NONBLOCK  # a pipe is opened at once
    try:
        with open(path, "rb", opener=lambda place, mode: os.open(place, mode | flags)) as file:
            is_file = stat.S_ISREG(os.fstat(file.fileno()).st_mode)
            found = file.read(most + 1) if is_file else b""
    except (OSError, ValueError):
        return ""
    return found.decode("utf-8", "replace") if len(found) <= most else ""


# The documents.

class Entry:
    """What docs/FAULTS.md says under one heading."""

    def __init__(self, title, body):
        self.title = title
        text = body.split("\n```", 1)[0]
        parts = [part.strip() for part in re.split(r"\n(?:\n|(?=- ))", text) if part.strip()]
        rows = [row for part in parts if part.startswith("|") for row in cells_of(part)]
        self.signs = [(spans(row[0]), plain(row[1], "FAULTS.md")) for row in rows]
        parts = [" ".join(part.split()) for part in parts if not part.startswith("|")]
        self.parts = [plain(part, "FAULTS.md") for part in parts]

    def parts_for(self, detail):
        """The parts, with the words of the fault in place of the letters of the heading."""
        values = values_of(self.title, detail)
        return [with_values(part, values) for part in self.parts]


def plain(text, name):
    """A text of the document of this name without the marks of its links."""
    text = text.replace("](#", f"]({name}#")
    return re.sub(r"\[([^\]]*)\]\(([^)]*)\)", lambda link: f"{link[1]} ({address(link[2])})", text)


def address(target):
    """Where a link of a document leads: the file and the section; without the file its name and the words."""
    if "://" in target:
        return target
    place, _, section = target.partition("#")
    place = os.path.normpath(os.path.join("docs", place))
    if os.path.exists(os.path.join(HOME, place)):
        return place + ("#" + section if section else "")
    words = ": " + section.replace("-", " ") if section else ""
    return os.path.splitext(os.path.basename(place))[0] + words


def where_documents_are(lines):
    """The folder of the documents that lines name, if it is not the current one."""
    are_named = any("docs/" in line or "README.md" in line for line in lines)
    return [f"  docs/ and README.md are in {HOME}"] if are_named and not os.path.samefile(HOME, ".") else []


def cut(line, pattern=None):
    """A line, or of a long one a part, with that of a pattern; `..` is where it is cut."""
    line = line.strip()
    found = re.search(pattern, line) if pattern and len(line) > SHOWN else None
    start = max(0, found.end() - SHOWN, found.start() - SHOWN // 2) if found and found.end() > SHOWN else 0
    part = line[start:start + SHOWN]
    return ".. " * (start > 0) + part + " .." * (start + SHOWN < len(line))


def values_of(title, detail):
    """What the letters of a heading, as `52 task not found T`, mean in the text of a fault."""
    pattern, names, at = "", [], 0
    for found in PLACEHOLDER.finditer(title):
        form = {":": r"(:[\w:-]*)", "L": r"(\d+)", "N": "(.*?)"}.get(found[0][0], "(.*)")
        pattern += re.escape(title[at:found.start()]) + form
        names.append(found[0])
        at = found.end()
    fits = re.fullmatch(pattern + re.escape(title[at:]), detail)
    return {name: value or '""' for name, value in zip(names, fits.groups())} if fits else {}


def with_values(part, values):
    """A part of an entry with these values, which a shell takes as they are where it is a command to copy."""
    if "N" in values:
        part = re.sub(r"(^|(?<=\. ))`N` is (?!no\b)[^.]*\. ?", "", part)
    is_command = part.startswith("Look:")
    return re.sub(r"`[^`]*`", lambda span: span_with(span[0], values, is_command), part)


def span_with(span, values, is_command):
    if not values:
        return span
    names = "|".join(map(re.escape, values))

    def value_of(found):
        value = values[found[2]]
        if not is_command:
            return found[1] + value
        if found[1]:  # after the quote that opens, as in '*PATH'
            return found[1] + value.replace("'", "'\\''")
        return shlex.quote("./" + value if value.startswith("-") else value)

    return re.sub(rf"('\*|(?<![\w:.-]))({names})(?![\w:-])", value_of, span)


def cells_of(table):
    return [[cell.strip() for cell in row.strip("| ").split(" | ")] for row in table.split("\n")[2:]]


def spans(text):
    return re.findall(r"`([^`]+)`", text)


def entries():
    found = {}
    for part in re.split(r"(?m)^## ", read(os.path.join(DOCS, "FAULTS.md")))[1:]:
        title, _, body = part.partition("\n")
        if title.split()[0].isdigit():
            found[title.split()[0]] = Entry(title.strip(), body)
    return found


def tables(name):
    """The rows of all tables of a document."""
    found = re.findall(r"(?m)^\|.*\n\|[-|]+\n(?:\|.*\n)+", read(os.path.join(DOCS, name)))
    return [row for table in found for row in cells_of(table)]


def below(heading, name="REFERENCE.md"):
    """What the reference, or a document of this name, says below a heading."""
    part = read(os.path.join(DOCS, name)).partition(heading + "\n")[2]
    return re.split(r"(?m)^##", part)[0]


def names_in(heading):
    """The first name of each row of the tables below a heading of the reference."""
    return re.findall(r"(?m)^\| `(\w+)[^`]*` \|", below(heading))


def reasons_of_sites(text):
    """Why a kind of gb_site fails with a text, by the row of docs/SITE.md that has such a text."""
    if len(text) > MOST_OF_TEXT:
        return []
    part = below("## The kinds", "SITE.md").partition("| Text | Why |\n")[2]
    for first, why in re.findall(r"(?m)^\| (`.*?) \| (.*) \|$", part):
        for example in spans(first):
            parts = [re.escape(part) for part in re.split(rf"({NAMED_IN_TEXTS})", example)]
            parts[1::2] = [r"\d+" if part.isdigit() else ".+" for part in parts[1::2]]
            if re.fullmatch("".join(parts), text):
                whole = f"docs/SITE.md on `{example}`: {plain(why, 'SITE.md')}"
                return textwrap.wrap(whole, 104, break_long_words=False, break_on_hyphens=False)
    return []


def kinds_of_sites():
    """The kinds that only gb_site has."""
    return re.findall(r"(?m)^\| `(\w+)(?:\([^`|]*\))?` \|", below("## The kinds", "SITE.md"))


def uses():
    """Where each function is used."""
    rows = re.findall(r"(?m)^\| `(\w+)[^`]*` \| ([^|]*) \|", below("### The functions"))
    return {name: use if use.startswith("a ") else use.strip("`") for name, use in rows}


def forms():
    """How each statement, clause and expression is written, by its word."""
    found, likewise = {}, {}
    for heading in ("### Statements of `build.gb`", "### Clauses of a block"):
        part = re.sub(r"(?ms)^```.*?^```", "", below(heading))
        for first, rest in re.findall(r"(?m)^\| (.*?) \| (.*) \|$", part):
            for form in spans(first):
                word = form.split()[0]
                found.setdefault(word, []).append(form)
                if "likewise" in rest:
                    likewise.update({other: form.replace(word, other) for other in spans(rest)})
        for form in re.findall(r"(?m)^    (\w+ .*)", part):
            found[form.split()[0]] = [form]
    for form in spans(below("### Expressions").partition("\n\nA function")[0]):
        word = re.match(r"(?:EXPR)?\.?(\w*)", form)[1]
        if "(" in form or word == "buildDir":
            found.setdefault(word, [form])
    return {**{word: [form] for word, form in likewise.items()}, **found}


# The scripts.

def folders_in(settings):
    """The folders of the projects that the settings include, each with its `/`; that of the root is empty."""
    found = {"": None}
    for path in re.finditer(r'"([^"\n]{1,1000})"', settings):
        names = path[1].strip(":").split(":")
        if all(map(NAME.fullmatch, names)):
            found.update({"/".join(names[:count]) + "/": None for count in range(1, len(names) + 1)})
        if len(found) > MOST_PROJECTS:
            break
    return list(found)[:MOST_PROJECTS]


class Scripts:
    """The text of each script, by its place. Of what gb does not open, as a link or a pipe, it is empty."""

    def __init__(self):
        self.texts = {"settings.gb": read("settings.gb", SCRIPT, os.O_NOFOLLOW)}
        self.last = ("", [])
        room = SCRIPTS
        for folder in folders_in(self.texts["settings.gb"]):
            text = read(folder + "build.gb", min(SCRIPT, room), os.O_NOFOLLOW)
            self.texts[folder + "build.gb"] = text
            room -= min(room, len(text.encode("utf-8", "replace")))
        self.projects = [":" + os.path.dirname(place).replace("/", ":") for place in self.texts]

    def names(self, word):
        """The names after `register`, say."""
        found = set()
        for text in self.texts.values():
            for name in re.finditer(rf"\b{word}\s+({NAME.pattern})(?![\w-])", text):
                found.add(name[1])
                if len(found) == MOST_NAMES:
                    return found
        return found

    def lines(self, place):
        if self.last[0] != place:
            self.last = (place, self.texts.get(place, "").split("\n"))
        return self.last[1]

    def line(self, place, number):
        lines = self.lines(place)
        return lines[number - 1] if 0 < number <= len(lines) else ""

    def lines_with(self, pattern, places=None):
        """Where a pattern is found, at most some lines; of all scripts, or of these."""
        found = [
            f"{place}:{number}: {cut(line, pattern)}"
            for place, text in self.texts.items()
            if (places is None or place in places) and re.search(pattern, text)
            for number, line in enumerate(text.split("\n"), 1)
            if re.search(pattern, line)
        ]
        more = len(found) - MOST_LINES
        return found[:MOST_LINES] + ([f"and {more} more line{'s' * (more > 1)}"] if more > 0 else [])

    def word(self, word):
        return self.lines_with(r"(?<![\w-])" + re.escape(word) + r"(?![\w-])")

    def task(self, path):
        """Where the task of a path is registered."""
        name = re.escape(path.rpartition(":")[2])
        return self.lines_with(rf"\b(register|named)\s+{name}(?![\w-])", [script_of(path)])

    def blocks(self, path):
        """The text of the blocks of a task, from `register` or `named` on, without comments and texts."""
        text, ranges = self.ranges(path)
        return "\n".join(text[start:end] for start, end in ranges)

    def lines_of_blocks(self, path):
        """The lines of the blocks of a task, as they are written."""
        text, ranges = self.ranges(path)
        lines = self.lines(script_of(path))
        for start, end in ranges:
            yield from lines[text.count("\n", 0, start):text.count("\n", 0, end) + 1]

    def ranges(self, path):
        """The script of a task without comments and texts, and where the blocks of the task are in it."""
        text = "\n".join(map(bare_of, self.lines(script_of(path))))
        found, at = [], 0
        name = re.escape(path.rpartition(":")[2])
        head = re.compile(rf"\b(?:register|named)\s+{name}(?![\w-])")
        while len(found) < MOST_BLOCKS and (start := head.search(text, at)):
            depth, at = 0, len(text)
            for brace in BRACE.finditer(text, start.end()):
                depth += 1 if brace[0] == "{" else -1
                if depth <= 0:
                    at = brace.end()
                    break
            found.append((start.start(), at))
        return text, found

    def open_brackets(self, place, number):
        """The brackets that are open where a line begins, with their lines, and whether it closes more."""
        lines = self.lines(place)
        still_open, at_start, closes_more = [], [], False
        for at, line in enumerate(lines[:number] if number <= len(lines) else [], 1):
            at_start = list(still_open) if at == number else at_start
            for token in MARK.findall(line):
                if token in "({[":
                    still_open.append((token, at))
                elif token in ")}]":
                    closes_more = closes_more or at == number and not still_open
                    del still_open[-1:]
        return at_start, closes_more


def script_of(path):
    """The script of the project of a task."""
    return "/".join([*path.strip(":").split(":")[:-1], "build.gb"])


def bare_of(line):
    """A line without its comment and without what is in its texts."""
    return re.sub(r'"(?:\\.|[^"\\])*(?:"|\\?$)', '""', line).partition("//")[0]


# What is said of a fault, beyond its entry.

def near(word, names):
    others = [name for name in names if name != word]
    found = difflib.get_close_matches(word, others, 3, 0.6) if len(word) <= 80 else []
    found += [name for name in others if name.lower() == word.lower() and name not in found]
    return [f"did you mean {' or '.join(found)}?"] if found else []


def of_gradle(is_meant):
    """The rows of docs/FROM_GRADLE.md of which a span of Gradle's side is meant."""
    found = []
    for row in tables("FROM_GRADLE.md"):
        span = next(filter(is_meant, spans(row[0])), None)
        if span is not None and len(row) == 2:
            found.append(f"for Gradle's `{span}` gb has: {plain(row[1], 'FROM_GRADLE.md')}")
    return found[:MOST_LINES]


def word_of_gradle(word):
    def is_meant(span):
        bare = re.sub(r'"[^"]*"', "", span)
        return len(word) > 1 and re.search(rf"(?<![\w.:-]){re.escape(word)}(?![\w.])", bare)

    return of_gradle(is_meant)


def line_of_gradle(line, place):
    """Words of Gradle in a line, but for names; one that gb has too counts where it goes on as in Gradle."""
    line = re.sub(r"'[^']*'?", "''", line)
    line = re.sub(rf"\b({NAMING})\s+[\w-]+", r"\1", line)

    def is_meant(span):
        receiver, word, follows = re.match(r"((?:[tp]\.)?)([\w.]*)\s*(\S?)", span).groups()
        if word in ("t", "p") or not re.search(r"\w", word):
            return False
        pattern = r"(?:(?<![\w.])\w+|\))\." if receiver else r"(?<![\w.])"
        pattern += re.sub(r"\\\.p$", r"\\.\\w+", re.escape(word))
        if word in ("include", "exclude"):
            return place != "settings.gb" and re.match(r"\s*" + pattern + r"\b", line)
        if word in STEPS:
            return follows == "{" and re.search(pattern + r"\s*\{", line)
        if word not in KEYWORDS:
            pattern += r"\s*=(?!=)" if follows == "=" else r"(?![\w.])"
        elif follows.isalnum():
            pattern += r"\s+\w"
        elif follows:
            pattern += r"\s*" + re.escape(follows)
        else:
            return False
        return re.search(pattern, line)

    return of_gradle(is_meant)


def stray(line, signs):
    """What begins no word, text or sign, and what to write instead of it."""
    at = 0
    while found := TOKEN.match(line, at):
        at = found.end()
    rest = line[at:].rstrip()
    for known, instead in signs:
        if any(rest.startswith(sign) for sign in known):
            return [f"instead of `{rest[:20]}` write {instead}"]
    if rest.startswith('"'):
        return [f"this text has no end on its line, or an escape that does not exist: {rest[:60]}"]
    if re.match(r"[A-Za-z]", rest):
        return [f"this word has more than 64 characters: {rest[:60]}.."]
    return [f"no word, text or sign begins with {ascii(rest[0])}: {rest[:60]}"] if rest else []


def misspelt(here, bare):
    """Words where only words of the notation may be, and which are none, but near to one."""
    heads = r"^\s*([A-Za-z][\w-]*)(?![\w-])(?!\s*[.=])|\.\s*([A-Za-z][\w-]*)|(?<![\w-])([A-Za-z][\w-]*)\s*\("
    words = [word for found in re.findall(heads, bare) for word in found if word]
    known = KEYWORDS | set(names_in("## Kinds of actions")) | set(uses())
    known |= here.names("register") | here.names("property")
    hints = []
    for word in list(dict.fromkeys(words))[:MOST_LINES]:
        if word not in known and len(word) <= 80:
            among = STEPS if re.search(rf"\.\s*{re.escape(word)}", bare) else KEYWORDS
            lower = {other.lower(): other for other in among}
            found = [lower[name] for name in difflib.get_close_matches(word.lower(), lower, 2, 0.85)]
            if found:
                hints.append(f"`{word}` is no word of the notation: did you mean {' or '.join(found)}?")
    return hints


def takes_texts(word):
    """Whether texts are in the brackets of a word of the notation, so that there are brackets."""
    kinds = re.findall(r"(?m)^\| `(\w+)` \| \w", below("## Kinds of actions"))
    functions = re.findall(r"(?m)^\| `(\w+)\(", below("### The functions"))
    return word in {"dir", "file", "gradleProperty", "task", *STEPS, *kinds, *functions}


def forms_of(here, place, number):
    """How what a line names is written; of a line that names nothing, the line above it."""
    known = {"include": ['include "a", "b:c"']} if place == "settings.gb" else forms()
    last = max(0, number - MOST_ABOVE)
    while number > last:
        bare = bare_of(here.line(place, number))[:DETAIL]
        words = re.findall(r"(?<![\w.-])[A-Za-z][\w-]*|(?<=\.)(?:map|flatMap|zip|orElse)(?![\w-])", bare)
        words += ["set"] if "property" in words or re.match(r"\s*[\w-]+\s*=", bare) else []
        lines = [form for word in dict.fromkeys(words) for form in known.get(word, [])]
        if lines or words:
            return [f"written in full: {form}" for form in lines][:MOST_LINES]
        number -= 1
    return []


def of_brackets(here, place, number):
    """A bracket that is open where a line begins, if the line should not be within it; or one too many."""
    still_open, closes_more = here.open_brackets(place, number)
    if closes_more:
        return ["a bracket is closed here that is not open"]
    line = here.line(place, number).strip()
    if still_open and (still_open[-1][0] in "([" or not line or line.split()[0] in STATEMENTS):
        opened = still_open[-1][1]
        return [f"a bracket is open here since {place}:{opened}: {here.line(place, opened).strip()[:70]}"]
    return []


def of_line_above(here, place, number):
    """The line above, where it is not complete, and how it is written."""
    above = number - 1
    while above > max(1, number - MOST_ABOVE) and not bare_of(here.line(place, above)).strip():
        above -= 1
    end = bare_of(here.line(place, above)).strip()
    first = re.match(r"\w+", end)
    lacks_is = first and first[0] in ("onlyIf", "upToDateWhen") and not re.search(r"\bis\b", end)
    if not end.endswith((",", "=", ".", ":")) and not lacks_is:
        return []
    line = cut(here.line(place, above))
    return [f"the line above is not complete: {place}:{above}: {line}"] + forms_of(here, place, above)


def of_syntax(entry, here, place, number):
    line = here.line(place, number)
    shown = [f"{place}:{number}: {cut(line)}"] if line.strip() else []
    hints = []
    if here.texts.get(place, "").startswith("\ufeff"):
        hints.append("the file begins with a byte order mark")
    else:
        hints += stray(line, entry.signs)
    bare = bare_of(line)[:DETAIL]
    empty = [word for word in re.findall(r"([\w-]+)\s*\(\)", bare) if not takes_texts(word)]
    for signs, instead in entry.signs:
        seen = [sign for sign in signs if sign == "()" and empty or sign == "==" and sign in bare]
        hints += [f"instead of `{sign}` write {instead}" for sign in seen]
    hints += misspelt(here, bare) or line_of_gradle(bare, place)
    hints = hints or of_line_above(here, place, number) or of_brackets(here, place, number)
    return shown + (hints or forms_of(here, place, number)), bool(hints)


def of_name(number, word, detail, here):
    """The nearest name or Gradle's word, and where the name is written."""
    last = word.split(":")[-1]
    if number == "52":
        is_project = ":" + word.strip(":") in here.projects
        cure = ["this is a project"] if is_project else near(last, here.names("register"))
        return cure + word_of_gradle(last), here.word(last)
    if number == "54":
        return near(word, here.names("property")), here.word(word)
    if number == "40":
        kinds, others = names_in("## Kinds of actions"), kinds_of_sites()
        if word in others:
            cure = f"`{word}` is a kind of `gb_site`: run gb_site in place of gb; gb_ask does not know it"
            return [cure], here.word(word)
        cure = near(word, kinds + others) + word_of_gradle(word)
        return cure, ([] if cure else ["there are " + ", ".join(kinds)]) + here.word(word)
    if number == "31":
        functions = uses()
        cure = [f"`{word}` is for {functions[word]}"] if word in functions else near(word, functions)
        every = [
            f"for {use} there are " + ", ".join(name for name in functions if functions[name] == use)
            for use in dict.fromkeys(functions.values())
        ]
        return cure, ([] if cure else every) + here.word(word)
    if number == "50":
        project = ":" + word.rpartition(":")[0].strip(":")
        known = [name for name in dict.fromkeys(here.projects) if name != ":"]
        return near(project, known), here.lines_with(re.escape(word))
    if number == "59":
        task = detail.split(" ")[-2]
        outputs = re.findall(r"\boutput(?:File|Dir)\s+([\w-]+)", here.blocks(task))
        cure = [f"the outputs of {task} are " + ", ".join(dict.fromkeys(outputs))[:90]] if outputs else []
        return cure, here.lines_with(r'output\("' + re.escape(word))
    return [], []


def of_tasks(detail, here):
    paths = re.findall(r"(?<!\S):[\w:-]+", detail, re.ASCII)[:2 * MOST_LINES]
    return list(dict.fromkeys(line for path in paths for line in here.task(path)))


def rows_of_kinds():
    """What each kind reads and makes, by its name."""
    rows = re.findall(r"(?m)^\| `(\w+)` \|[^|]*\|([^|]*)\| *(\w*)[^|]*\|$", below("## Kinds of actions"))
    return {kind: (reads, makes) for kind, reads, makes in rows}


def lacks(kind, reads, makes, text):
    """What a task with these blocks lacks for a kind that reads and makes this."""
    if "src" in reads and not re.search(r"\binputFiles\s+src\b", text):
        yield f"`{kind}` reads `src`: the task has no `inputFiles src from ..`"
    for form, word, other in (("dir", "outputDir", "outputFile"), ("file", "outputFile", "outputDir")):
        if makes == form and not re.search(rf"\b{word}\s+out\b", text):
            has = f", but `{other} out`" if re.search(rf"\b{other}\s+out\b", text) else ""
            made = "a folder" if form == "dir" else "a file"
            yield f"`{kind}` makes {made}: the task has no `{word} out = ..`{has}"


def kinds_of(text):
    """The kinds of the actions in blocks, in their order."""
    kinds = re.findall(r"\b(?:doFirst|doLast)\s+([\w-]+)|\bregister\s+[\w-]+\s*:\s*([\w-]+)", text)
    return dict.fromkeys(kind for found in kinds for kind in found if kind)


def of_shape(here, path):
    """Which parts of a task do not fit together."""
    text = here.blocks(path)
    kinds = kinds_of(text)
    rows = rows_of_kinds()
    hints = [line for kind in kinds if kind in rows for line in lacks(kind, *rows[kind], text)]
    if not kinds and re.search(r"\boutput(?:File|Dir)\b", text):
        hints.append("the task has an output and no action")
    declared = {}
    for form, name in re.findall(r"\b(input|inputFiles|outputFile|outputDir)\s+([\w-]+)", text):
        declared.setdefault(name, {})[form] = None
    for name, several in declared.items():
        if len(several) > 1:
            hints.append(f"`{name}` is both {' and '.join(f'`{form}`' for form in several)}")
    return hints[:2 * MOST_LINES]


def of_folder():
    """Where the scripts are, if not in the current folder."""
    scripts = ("settings.gb", "build.gb")
    if any(map(os.path.lexists, scripts)):
        return []
    above = os.getcwd()
    while above != os.path.dirname(above):
        above = os.path.dirname(above)
        if any(os.path.lexists(os.path.join(above, name)) for name in scripts):
            return [f"this folder has no build.gb, but one above has: {above}"]
    return ["this folder has no build.gb"]


def shape(place):
    """What is at a place of the disk."""
    try:
        mode = os.lstat(place).st_mode
    except (OSError, ValueError) as error:
        return f"not to be seen ({str(getattr(error, 'strerror', None) or error).lower()})"
    forms = ((stat.S_ISLNK, "a link"), (stat.S_ISDIR, "a folder"), (stat.S_ISREG, "a file"))
    return next((name for test, name in forms if test(mode)), "a special file")


def under(places):
    """What is at and under places of the disk, each with its form; so many entries at most."""
    ahead, listed = list(places), 0
    while ahead and listed < MOST_ENTRIES:
        place = ahead.pop()
        form = shape(place)
        listed += 1
        yield place, form
        if form == "a folder":
            try:
                with os.scandir(place) as entries:
                    ahead += [entry.path for entry in itertools.islice(entries, MOST_ENTRIES)]
            except OSError:
                pass


def special_files(place):
    """Under a place, what is neither a file nor a folder or has a name that cannot be printed."""
    wrong = (it for it in under([place]) if it[1] not in ("a file", "a folder") or not it[0].isprintable())
    return [f"{path!r} is {form}" for path, form in itertools.islice(wrong, 2 * MOST_LINES)]


def files_at(path, task, here):
    """The files of a task that have one path, as far as its roots are written in its blocks."""
    text = "\n".join(here.lines_of_blocks(task))
    folder = os.path.dirname(script_of(task))
    places = dict.fromkeys(re.findall(r'\b(?:dir|file)\("([^"\\]*)"\)', text))
    roots = [os.path.join(folder, place) for place in places if is_place(place)][:2 * MOST_LINES]
    files = ((root, place) for root in roots for place, form in under([root]) if form == "a file")
    own = ((place, place[len(root) + 1:] or os.path.basename(root)) for root, place in files)
    is_name_alone = re.search(r"\bnameOnly\b", text)
    same = (place for place, it in own if path == (os.path.basename(it) if is_name_alone else it))
    return [f"{place} has this path" for place in itertools.islice(same, MOST_LINES)]


def is_place(text):
    is_short = 0 < len(text.encode("utf-8", "replace")) <= 1024
    return is_short and not any(part in ("", ".", "..") for part in text.split("/"))


def of_place(number, place):
    """What is at a place and above it; under it, what is neither a file nor a folder."""
    parts = place.split("/")
    if not is_place(place):
        return []
    above = ["/".join(parts[:count]) for count in range(1, len(parts) + 1)]
    found = [f"{path} is {shape(path)}" for path in above][-2 * MOST_LINES:]
    if number == "14":
        found += special_files(place)
    elif number == "13" and shape(place) == "a file":
        found.append(f"{place} has {os.lstat(place).st_size} bytes")
    return found


def text_roots(text):
    """Where a script has a text as a root, after `from`, where only a place may be."""
    is_in_roots, is_next, depth, last = False, False, 0, None
    for token in ROOT.finditer(text):
        sign = token[0]
        if sign.startswith("//"):
            continue
        if last is not None and sign != ".":
            yield last
        last = token.start() if is_next and sign.startswith('"') else None
        if sign == "from" or sign in ROOTS_END:
            is_in_roots, is_next, depth = sign == "from", sign == "from", 0
        else:
            is_next = is_in_roots and depth == 0 and sign == ","
            depth += (sign in "([") - (sign in ")]")


def lines_of_text_roots(here):
    found = (
        (place, text.count("\n", 0, at) + 1) for place, text in here.texts.items() for at in text_roots(text)
    )
    some = itertools.islice(found, MOST_LINES)
    return [f"{place}:{number}: {cut(here.line(place, number))}" for place, number in some]


def of_value(here, path):
    """Where the properties that the blocks of a task name are set."""
    words = set(re.findall(r"[\w-]+", here.blocks(path))) & here.names("property")
    sets = [rf"\b(set|convention)\s+{name}(?![\w-])" for name in sorted(words)[:MOST_LINES]]
    return [line for pattern in sets for line in here.lines_with(pattern, [script_of(path)])]


def of_tasks_read(here, path):
    """Where the tasks are registered whose outputs a task takes."""
    names = re.findall(r'\btask\("([\w:-]{1,1000})"\)', "\n".join(here.lines_of_blocks(path)), re.ASCII)
    above = path.rpartition(":")[0]
    paths = [name if name.startswith(":") else f"{above}:{name}" for name in dict.fromkeys(names)]
    return [line for it in paths[:MOST_LINES] for line in here.task(it)]


def hint_for(number, detail, entry, here, task):
    """The lines to look at, and whether they have the cure, so that no other cause is printed."""
    word = detail.split(" ")[-1]
    if number == "71" and task:
        return files_at(detail.split(" ", 4)[-1], task, here), False
    if number == "42" and task and kinds_of(here.blocks(task)).keys() & set(kinds_of_sites()):
        cure = reasons_of_sites(detail.partition(" ")[2])
        return cure, bool(cure)
    if number == "33":
        path = detail.split(" ")[-2]
        read_by = [] if word in names_in("## Kinds of actions") else of_tasks_read(here, path)
        return of_tasks(detail, here) + of_value(here, path) + read_by, False
    if number in ("52", "64") and (cure := of_folder()):
        return cure, True
    if number == "55":
        cure = of_shape(here, word)
        return cure + of_tasks(detail, here), bool(cure)
    script = re.search(r" (\S+):(\d{1,7})$", detail, re.ASCII)
    if number == "20" and script:
        return of_syntax(entry, here, script[1], int(script[2]))
    cure, lines = of_name(number, word, detail, here)
    return cure + (lines or where(number, word, detail, here) or of_tasks(detail, here)), bool(cure)


def where(number, word, detail, here):
    """The lines of the scripts, or what is on the disk, that a fault is about."""
    script = re.search(r" (\S+):(\d{1,7})$", detail, re.ASCII)
    if number == "22" and script:
        return [f"{script[1]}:{script[2]}: {cut(here.line(script[1], int(script[2])))}"]
    if number in ("10", "12", "13", "14"):
        return of_place(number, detail.split(" ", {"14": 4, "13": 3}.get(number, 2))[-1])
    if number == "90":
        return of_place(number, ".gb/tasks")
    if number in ("1", "2", "70"):
        text = re.escape(detail.split(" ", 3)[-1])
        return here.lines_with(f'"{text}"') or (here.lines_with(f'"{text}') if text else [])
    if detail == "34 wrong value list":
        return here.lines_with(r"\[")
    if number == "34" and word != "enabled" and word not in uses():
        text_for_place = r'\boutput(?:File|Dir)\s+[\w-]+\s*=\s*"(?:\\.|[^"\\])*"(?!\s*\.)'
        return lines_of_text_roots(here) + here.lines_with(text_for_place) or here.word(word)
    if number in ("32", "34", "35", "53", "57"):
        return here.word(word.split(":")[-1])
    if number == "30":
        names = re.findall(r"#([\w-]+)", detail)[:MOST_LINES]
        sets = [rf"\b(set|convention|outputFile|outputDir)\s+{name}(?![\w-])" for name in names]
        return [line for pattern in sets for line in here.lines_with(pattern)]
    return []


# What is printed.

def lines_of(parts):
    """Parts of an entry, with a line before its causes."""
    lines, has_causes = [], False
    for part in parts:
        is_cause = part.startswith("- ")
        if is_cause and not has_causes:
            lines.append("  Causes, and what to do:")
        has_causes = has_causes or is_cause
        whole = re.sub(r"`[^`]*`", lambda span: span[0].replace(" ", "\0"), part)
        wrapped = textwrap.wrap(whole, 106, break_long_words=False, break_on_hyphens=False)
        lines += ["  " + ("  " if is_cause and at else "") + line for at, line in enumerate(wrapped)]
    return [line.replace("\0", " ") for line in lines]


class Explainer:
    """Says what faults mean, each number in full once."""

    def __init__(self, entries, program):
        self.entries = entries
        self.program = program
        self.scripts = None
        self.explained = set()
        self.count = 0
        self.has_named_documents = False

    def explain(self, detail, task):
        """The lines after a fault; none where it has no entry, and after so many faults."""
        number = detail.partition(" ")[0]
        self.count += 1
        if number not in self.entries or self.count > MOST_FAULTS:
            return []
        try:
            return self.lines_for(number, detail.replace("\0", "?")[:DETAIL], task)
        except Exception as error:  # whatever the scripts and the disk hold, the report is passed on
            return [f"    explain has failed here: {type(error).__name__}"]

    def lines_for(self, number, detail, task):
        self.scripts = self.scripts or Scripts()
        entry = self.entries[number]
        lines, has_cure = hint_for(number, detail, entry, self.scripts, task)
        lines += of_tasks(task, self.scripts) if task else []
        found = ["    " + line for line in dict.fromkeys(lines)]
        if number not in self.explained:
            parts = entry.parts_for(detail)
            found += lines_of(parts[:1] if has_cure else parts)
            found += [f"  All causes: {shlex.quote(self.program)} {number}"] if has_cure else []
        self.explained.add(number)
        place = [] if self.has_named_documents else where_documents_are(found)
        self.has_named_documents = self.has_named_documents or bool(place)
        return found + place
