#!/usr/bin/env python3
"""Says of how many examples of CommonMark the kind `markdown` makes the same page, by section.

    bench/commonmark.py PROGRAM SPEC    PROGRAM: a built `gb_site`; SPEC: test/spec.txt of the source of `cmark`

`markdown` reads a part of CommonMark and shows the rest as text, so not all agree. The script does not compare
the ids of headings, the `/` of `<br />`, and the white space next to tags.
"""
import os
import re
import subprocess
import sys
import tempfile

SECTIONS = ["ATX headings", "Thematic breaks", "Fenced code blocks", "Paragraphs", "Blank lines",
            "Block quotes", "List items", "Lists", "Backslash escapes", "Code spans", "Emphasis and strong emphasis", "Links",
            "Images", "Hard line breaks", "Soft line breaks", "Textual content"]
FENCE = "`" * 32
SCRIPT = """register html : markdown {
    inputFiles src incremental from dir("pages")
    outputDir out = dir("build/html")
}
"""


def examples(file):
    """The section, the text and the page of each example."""
    section, part, found = "", 0, []
    for line in open(file, encoding="utf-8"):
        if line.rstrip() == FENCE + " example":
            part, texts = 1, ["", ""]
        elif line.rstrip() == FENCE:
            part = 0
            found.append((section, texts[0], texts[1]))
        elif part and line == ".\n":
            part = 2
        elif part:
            texts[part - 1] += line.replace("→", "\t")
        elif re.match("#+ ", line):
            section = line.strip("# \n")
    return [one for one in found if one[0] in SECTIONS]


def plain(page):
    """The page without what is not compared."""
    page = re.sub(r'(<h[1-6]) id="[^"]*"', r"\1", page)
    page = re.sub(r" ?/>", ">", page)
    return re.sub(r"\s+", " ", re.sub(r"\s*(<[^>]*>)\s*", r"\1", page)).strip()


def pages(program, texts):
    with tempfile.TemporaryDirectory() as folder:
        os.mkdir(f"{folder}/pages")
        with open(f"{folder}/build.gb", "w", encoding="utf-8") as file:
            file.write(SCRIPT)
        for index, text in enumerate(texts):
            with open(f"{folder}/pages/{index}.md", "w", encoding="utf-8", newline="") as file:
                file.write(text)
        subprocess.run([program, "html"], cwd=folder, check=True, stdout=subprocess.DEVNULL)
        made = []
        for index in range(len(texts)):
            with open(f"{folder}/build/html/{index}.md", encoding="utf-8", newline="") as file:
                made.append(file.read())
        return made


def main():
    wanted = examples(sys.argv[2])
    made = pages(os.path.abspath(sys.argv[1]), [text for _, text, _ in wanted])
    agree = [plain(page) == plain(own) for (_, _, page), own in zip(wanted, made)]
    for section in SECTIONS:
        own = [ok for (name, _, _), ok in zip(wanted, agree) if name == section]
        print(f"{section}: {sum(own)} of {len(own)}")
    print(f"all: {sum(agree)} of {len(agree)}")


main()
