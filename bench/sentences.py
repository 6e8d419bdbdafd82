#!/usr/bin/env python3
"""Counts the words of the sentences of documents.

    bench/sentences.py [FILE ..]       for each document: sentences, median and longest, in words
    bench/sentences.py --check         fails where the median of one of CHECKED is not below MOST_WORDS
    bench/sentences.py --long N FILE   prints the sentences of more than N words, each with its line

A sentence ends at a full stop, a question mark or an exclamation mark before a space, and where its paragraph
or its item of a list ends. A piece of code counts as one word, and a link as its text. Headings, tables,
pictures, links that are alone in an item, and blocks of code and of quotes are no sentences.
"""
import os
import re
import statistics
import sys

ROOT = os.path.dirname(os.path.dirname(os.path.abspath(__file__)))
CHECKED = ["README.md", "docs/GUIDE.md", "docs/REFERENCE.md", "docs/PROOF.md"]
MOST_WORDS = 18
CODE = "\0"
BREAKS = re.compile(r"\s*(?:#|\||!\[)")
ITEM = re.compile(r"\s*(?:[-*]|\d+\.)\s+")


def paragraphs(text):
    """The paragraphs and items of lists, each with the number of its first line."""
    fenced, start, kept = False, 0, []
    for number, line in enumerate(text.split("\n") + [""], 1):
        fence = line.startswith("```")
        item = ITEM.match(line)
        ends = fence or fenced or not line.strip() or BREAKS.match(line) or item
        if ends or (not kept and line.startswith("    ")):
            if kept:
                yield start, " ".join(kept)
            kept = []
        if item and not fenced:
            start, kept = number, [line[item.end() :].strip()]
        elif not ends and (kept or not line.startswith("    ")):
            start = start if kept else number
            kept.append(line.strip())
        fenced = fenced != fence


def plain(paragraph):
    """Without marks: code as one word, links as their text."""
    text = re.sub(r"\[([^\]]*)\]\([^)]*\)", r"\1", paragraph)
    text = re.sub(r"(`+).+?\1", CODE, text)
    return text.replace("**", "").replace("*", "")


def sentences(text):
    """The sentences, each with the line of its paragraph."""
    for number, paragraph in paragraphs(text):
        if re.fullmatch(r"\[[^\]]*\]\([^)]*\)", paragraph):
            continue
        for part in re.split(r"(?<=[.!?])(?:[\")]?)\s+(?=\S)", plain(paragraph)):
            if any(map(is_word, part.split())):
                yield number, part


def is_word(token):
    return re.search(r"[\w\0]", token) is not None


def count(sentence):
    return sum(map(is_word, sentence.split()))


def read(path):
    with open(os.path.join(ROOT, path), encoding="utf-8") as file:
        return file.read()


def tell_long(least, path):
    for number, sentence in sentences(read(path)):
        if count(sentence) > least:
            print(f"{path}:{number}: {count(sentence)}: {sentence.replace(CODE, '``')}")
    return 0


def main(words):
    if words[:1] == ["--long"]:
        return tell_long(int(words[1]), words[2])
    check = words == ["--check"]
    status = 0
    for path in CHECKED if check or not words else words:
        counts = [count(sentence) for _, sentence in sentences(read(path))]
        median = statistics.median(counts)
        print(f"{path}: {len(counts)} sentences, median {median:g}, longest {max(counts)}")
        if check and median >= MOST_WORDS:
            print(f"{path}: the median is not below {MOST_WORDS}")
            status = 1
    return status


if __name__ == "__main__":
    sys.exit(main(sys.argv[1:]))
