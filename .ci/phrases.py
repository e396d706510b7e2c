#!/usr/bin/env python3
"""Counts phrases that this project doesn't write any more, in pages, comments, messages and help texts.

usage: .ci/phrases.py [--list [PHRASE]]

CONTRIBUTING has the rules. A line of .ci/phrases.tsv is a phrase, as a regular expression, and what to
write instead. A line of .ci/phrases_allowed.tsv is an exception: a file, a phrase, the number of lines of
the file that may have it, and the reason. The last line begins with FAILED if a file has a phrase in more
lines. --list prints the lines that have a phrase.
"""
import collections
import os
import re
import subprocess
import sys

TOP = os.path.dirname(os.path.dirname(os.path.realpath(__file__)))
# The prose of a line in a file of code, by the ending of its name: comments, and strings that users see.
COMMENTS = {
    ".rt": re.compile(r"//[/!]? ?(.*)|\"([^\"]*)\""),
    ".rs": re.compile(r"//[/!]? ?(.*)"),
    ".antt": re.compile(r"^\s*-- (.*)"),
    ".c": re.compile(r"//(.*)"),
    ".h": re.compile(r"//(.*)"),
    ".py": re.compile(r"#(.*)"),
    ".js": re.compile(r"//(.*)"),
    ".ts": re.compile(r"//(.*)"),
    ".fish": re.compile(r"#(.*)|'([^']*)'$"),
    ".sh": re.compile(r"^\s*#(?!!)(.*)"),
    "": re.compile(r"^\s*#(?!!)(.*)"),
}
# The ends of a comment of several lines, by the ending of the file's name.
BLOCKS = {".c": ("/*", "*/"), ".h": ("/*", "*/"), ".py": ('"""', '"""')}
PAGES = (".md", ".1", ".3")
SKIPPED = ("LICENSE", "phrases.tsv", "phrases_allowed.tsv")


def code_prose(line, ending, in_block):
    """Returns the prose of a line of code, and whether it ends inside a comment of several lines."""
    if ending in BLOCKS:
        begin, end = BLOCKS[ending]
        if in_block:
            text, found, _ = line.partition(end)
            return text, not found
        _, found, text = line.partition(begin)
        if found:
            text, found, _ = text.partition(end)
            return text, not found
    found = COMMENTS[ending].search(line)
    return " ".join(part for part in found.groups() if part) if found else "", False


def prose(path):
    """Yields the prose of each line of a file, with the line's number."""
    ending = os.path.splitext(path)[1]
    if os.path.basename(path) in SKIPPED or ending not in (*PAGES, *COMMENTS):
        return
    with open(os.path.join(TOP, path), encoding="utf-8", errors="replace") as file:
        in_block = False
        for number, line in enumerate(file, 1):
            if ending in PAGES:
                in_block ^= line.startswith("```")
                text = "" if in_block else line
            else:
                text, in_block = code_prose(line, ending, in_block)
            if text:
                yield number, text


def table(name):
    """Returns the lines of a table of .ci, without comments, as lists of columns."""
    with open(f"{TOP}/.ci/{name}", encoding="utf-8") as file:
        return [line.rstrip("\n").split("\t") for line in file if line.strip() and not line.startswith("#")]


def main(words):
    phrases = {pattern: re.compile(rf"\b(?:{pattern})\b", re.IGNORECASE) for pattern, _ in table("phrases.tsv")}
    allowed = {(path, pattern): int(most) for path, pattern, most, _ in table("phrases_allowed.tsv")}
    listed = subprocess.run(["git", "ls-files"], cwd=TOP, capture_output=True, text=True, check=True).stdout
    counts = collections.Counter()
    for path in listed.split("\n"):
        if not os.path.isfile(os.path.join(TOP, path)) or "/stdin" in path:
            continue
        for number, text in prose(path):
            for pattern, phrase in phrases.items():
                if phrase.search(text):
                    counts[path, pattern] += 1
                    if words[:1] == ["--list"] and pattern in (words[1:] or [pattern]):
                        print(f"{path}:{number}: {text.strip()}")
    failed = [f"'{pattern}' in {count} lines of {path} ({allowed.get((path, pattern), 0)} allowed)"
              for (path, pattern), count in counts.items() if count > allowed.get((path, pattern), 0)]
    if failed:
        print(f"FAILED: phrases: {'; '.join(failed)}: `.ci/phrases.py --list` shows them")
        return 1
    unused = [f"{path} ({pattern})" for (path, pattern), most in allowed.items() if counts[path, pattern] < most]
    print(f"phrases: {sum(counts.values())} lines have one"
          + (f"; remove from phrases_allowed.tsv: {', '.join(unused)}" if unused else ""))
    return 0


if __name__ == "__main__":
    sys.exit(main(sys.argv[1:]))
