#!/usr/bin/env python3
"""Makes the pages of the manual in tools/man from docs/REFERENCE.md and docs/SITE.md.

    bench/man.py            writes them
    bench/man.py --check    fails if one differs from what would be written

Paragraphs, tables, code and links become roff; worked builds are left out. `man tools/man/gb.1` shows a page.
"""
import os
import re
import sys

ROOT = os.path.dirname(os.path.dirname(os.path.abspath(__file__)))
# A page: its line of purpose, the document, and for each part its first text and the text after it.
PAGES = {
    "gb": ("build the current folder", "docs/REFERENCE.md",
           [("    gb [WORD ..] [OPTION ..]", "`gb_ask` answers questions")]),
    "gb_ask": ("ask what a build would do", "docs/REFERENCE.md",
               [("`gb_ask` answers questions", "## On a disk")]),
    "gb_site": ("build the site of the current folder", "docs/SITE.md",
                [("`gb_site` is `gb` with", "## From nothing"), ("## The kinds", "## Front matter")]),
}
EXPLAINED = "\\fBgb\\-explain 52\\fR (tools/explain) prints what fault 52 means"
FOOT = {
    "gb": "gb_ask(1), gb_site(1); " + EXPLAINED,
    "gb_ask": "gb(1); " + EXPLAINED,
    "gb_site": "gb(1); docs/SITE.md, which has the Markdown that is read; " + EXPLAINED,
}


def inline(text):
    """A text with code and names in bold, links as their words, and numbers in parentheses as faults."""
    text = text.replace("\\", "\\e").replace("-", "\\-")
    text = re.sub(r" \(\[[^\]]*\]\([^)]*\)\)", "", text)
    text = re.sub(r"\[([^\]]*)\]\([^)]*\)", lambda link: link[1], text)
    text = re.sub(r"(?<![\w.])\((\d{1,2})\)", r"(fault \1)", text)
    text = re.sub(r"\*\*([^*]+)\*\*", r"\\fB\1\\fR", text)
    text = re.sub(r"`([^`]+)`", r"\\fB\1\\fR", text)
    return "\\&" + text if text[:1] in (".", "'") else text


def rows(lines):
    """A table: each row is a term and its text; the head of the table is left out."""
    made = []
    for line in lines[2:]:
        cells = [cell.strip().replace("\\|", "|") for cell in re.split(r"(?<!\\)\|", line.strip().strip("|"))]
        made += [".TP", inline(cells[0]), inline("; ".join(cell for cell in cells[1:] if cell))]
    return made


def roff(text):
    """The part of a document as roff."""
    text = re.sub(r"```(replay|output|quote)[^\n]*\n.*?```\n", "", text, flags=re.S)
    made = []
    for block in re.split(r"\n\s*\n", text.strip("\n")):
        lines = block.split("\n")
        if lines[0].startswith("##"):
            made += [".SH " + lines[0].lstrip("# ").upper()]
        elif lines[0].startswith("    "):
            shown = [inline(line.strip()) for line in lines if line.startswith("    ")]
            made += [".PP", ".nf", *shown, ".fi"]
            made += [inline(line) for line in lines if not line.startswith("    ")]
        elif lines[0].startswith("|"):
            made += rows(lines)
        elif lines[0].startswith("- "):
            for item in re.split(r"\n- ", block[2:]):
                made += [".IP \\(bu 2", *(inline(line.strip()) for line in item.split("\n"))]
        else:
            made += [".PP", *(inline(line) for line in lines)]
    return made


def page(name):
    purpose, document, ends = PAGES[name]
    with open(f"{ROOT}/{document}", encoding="utf-8") as file:
        text = file.read()
    starts = [(text.index(begin), end) for begin, end in ends]
    part = "\n\n".join(text[start:text.index(end, start)] for start, end in starts)
    head = [f'.\\" Made by bench/man.py from {document}.', f'.TH {name.upper()} 1 "" gb "gb"', ".SH NAME"]
    lines = head + [f"{name} \\- {purpose}", ".SH DESCRIPTION", *roff(part), ".SH SEE ALSO", FOOT[name]]
    return "\n".join(lines) + "\n"


def main():
    folder, stale = f"{ROOT}/tools/man", []
    for name in PAGES:
        path, made = f"{folder}/{name}.1", page(name)
        old = open(path, encoding="utf-8").read() if os.path.exists(path) else None
        if old == made:
            continue
        stale.append(f"tools/man/{name}.1")
        if "--check" not in sys.argv:
            os.makedirs(folder, exist_ok=True)
            with open(path, "w", encoding="utf-8") as file:
                file.write(made)
    if "--check" in sys.argv and stale:
        print("bench/man.py would change", ", ".join(stale))
        return 1
    return 0


sys.exit(main())
