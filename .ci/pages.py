#!/usr/bin/env python3
"""Lists what pages name and nothing has: files, functions and other names of code, commands.

usage: .ci/pages.py [PAGE..]      without pages README, PROOFS, CONTRIBUTING and the page of each crate

It looks at links, at code in prose, and at commands in indented lines:

- The file of a link exists, and its heading.
- A path exists from the top, from the page, below crates/, or in the folder of a crate: the one that is named before
  it in the line; else that of the page, one below it, or any crate for the pages that are not of a crate. A word of
  capitals is any name, and out/ is what a build makes.
- A name of code is declared in the crate of the page, in one below it or one that the page names, or in any crate
  for the other pages. A name without capitals and underscores can also be a word in their files.
- A row of a table in PROOFS names files of `specs/`, after a semicolon, without folder and ending.
- `./test` and `make` have known names, `rt`, `zonetext` and `dnstext` known commands.

Prints a line for each that is missing, and ends with status 1 if there is one.
"""
import fnmatch
import functools
import glob
import os
import re
import subprocess
import sys

sys.dont_write_bytecode = True
import names
import words

TOP = str(names.TOP.parent)
PAGES = ["README.md", "docs/PROOFS.md", "CONTRIBUTING.md"]
# Names of other projects, and forms of names.
ELSEWHERE = {"domain", "octseq", "logic", "TYPEn", "CLASSn", "keyN", "key8", "YYYYMMDDnn"}
LINK = re.compile(r"\]\(([^)\s]*)\)")
SPAN = re.compile(r"`([^`\n]+)`")
CODE_NAME = re.compile(r"(?:[A-Za-z_]\w*(?:::|\.))*[A-Za-z_]\w*(?:\(\)|!)?")
PATH = re.compile(r"[\w.*/{},-]*/[\w.*/{},-]*|[\w*-]+\.(?:py|rt|antt|md|c|h|tsv|toml|edit|sh|txt)")
ANY = re.compile(r"\b[A-Z][A-Z_]+\b(?!\.md)")


def read(path):
    with open(f"{TOP}/{path}", encoding="utf-8", errors="replace") as file:
        return file.read()


@functools.lru_cache(None)
def files_of(folder):
    """Returns the files of a folder of the repository, without what a build makes."""
    words_of_git = ["git", "ls-files", "-co", "--exclude-standard", "--", folder]
    listed = subprocess.run(words_of_git, cwd=TOP, stdout=subprocess.PIPE, check=True, text=True).stdout
    return [it for it in listed.split("\n") if it and os.path.isfile(f"{TOP}/{it}")]


def of_kit(*command):
    """Returns the output of a command of the kit, or nothing without the kit."""
    try:
        return subprocess.run(command, stdout=subprocess.PIPE, stderr=subprocess.STDOUT, check=False, text=True).stdout
    except OSError:
        return ""


@functools.lru_cache(None)
def kit():
    """Returns the folder of the kit's libraries, and the text of `rt help`."""
    return os.path.dirname(of_kit("rt", "doc").strip()) + "/rattle", of_kit("rt", "help")


def read_uses():
    """Returns the crates of crates.txt, with the crates that each uses."""
    uses = {}
    for line in read("crates.txt").splitlines():
        name, colon, below = line.partition("#")[0].partition(":")
        if colon:
            uses[name.split()[0]] = below.split()
    return uses


USES = read_uses()
# The crates of the repository, and those of the kit that they use.
CRATES = {*USES, *(it for below in USES.values() for it in below)}


def add_below(crate, found):
    """Adds the crates below a crate, also those of the kit, to those found, and returns them."""
    for it in USES.get(crate, ()):
        if it not in found:
            found.add(it)
            add_below(it, found)
    return found


@functools.lru_cache(None)
def declared(folder):
    """Returns the names that the files of a folder declare, among them those of the files, and all words in them."""
    own, seen = set(), set()
    if os.path.isabs(folder):
        top, paths = folder, glob.glob(f"{folder}/**/*.rt", recursive=True)
    else:
        top, paths = TOP, [f"{TOP}/{it}" for it in files_of(folder)]
    for path in paths:
        parts = os.path.relpath(path, top).split("/")
        own |= {*parts, *(it.partition(".")[0] for it in parts)}
        if path.endswith(".md"):
            continue
        with open(path, encoding="utf-8", errors="replace") as file:
            text = file.read()
        seen |= set(re.findall(r"\w+", text))
        if path.endswith(".rt"):
            own |= {name for _, name in words.declared(text)}
            # (also parameters of types, and the names in texts that a program compares)
            own |= set(re.findall(r'(?:\b(?:ghost|macro_rules!) |[<,] ?|")(\w+)', text))
        elif path.endswith(".antt"):
            own |= set(names.exported_by(text)) | set(re.findall(r"^\s+(?:pub )?(\w+) : ", text, re.M))
        else:
            own |= set(re.findall(r"\w+", text))
    return own, seen


@functools.lru_cache(None)
def headings(path):
    """Returns the names by which links reach the headings of a page."""
    found = re.findall(r"^#+ (.*)$", read(path), re.M)
    return {re.sub(r"[^\w\- ]", "", it.lower()).replace(" ", "-") for it in found}


def unknown(given, known):
    return [it for it in given if re.fullmatch(r"[a-z][\w-]*", it) and it not in known]


def unknown_to_test(given):
    return unknown(given, {it.split()[0] for it in read(".ci/checks").splitlines() if it and it[0] != "#"})


def unknown_to_make(given):
    targets = re.findall(r"^([\w -]+):", read("Makefile") + read("c/Makefile"), re.M)
    # (the word after -C is a folder)
    given = [it for before, it in zip(["", *given], given) if before != "-C"]
    return unknown(given, set(" ".join(targets).split()))


def unknown_to_rt(given):
    known = re.findall(r"\brt ([a-z|-]+)", kit()[1])
    return unknown(given[:1], set("|".join(known).split("|"))) if known else []


def unknown_to_program(name, given):
    page = read(f"crates/{name}/{name}.1")
    return unknown(given[:1], {"help", *re.findall(r"^(?:\.It |\.)Cm (\w+)", page, re.M)})


# For each command a function of its arguments, which returns those that it doesn't have.
COMMANDS = {
    "./test": unknown_to_test,
    "make": unknown_to_make,
    "rt": unknown_to_rt,
    "zonetext": functools.partial(unknown_to_program, "zonetext"),
    "dnstext": functools.partial(unknown_to_program, "dnstext"),
}


class Page:
    """A page, and what is missing of what it names."""

    def __init__(self, path):
        self.path, self.text, self.missing = path, read(path), []
        self.crate = path.split("/")[1] if path.startswith("crates/") else ""
        if self.crate:
            scope = {self.crate, *add_below(self.crate, set())}
            scope |= {it for it in USES if re.search(rf"\b{it}\b", self.text)}
        else:
            scope = {it for crate, used in USES.items() for it in (crate, *used)}
        self.crates = sorted(it for it in scope if it in USES)
        self.folders = [f"crates/{it}" for it in self.crates]
        self.folders += [f"{kit()[0]}/{it}" for it in sorted({"std", "core", *scope} - set(USES))]
        self.folders.append(".ci")
        # (the page of a crate can be about its bindings)
        if not self.crate or re.search(r"dnstext\.h|\bDNSTEXT_", self.text):
            self.folders += ["c", "rust"]
        if not self.crate:
            self.folders += ["bench", "test", "Makefile", "HANDLES", "VERSION"]

    def report(self, number, what, why):
        self.missing.append(f"{self.path}:{number}: {what}: {why}")

    def check(self):
        """Returns a line for each name of what nothing has."""
        in_block = False
        for number, line in enumerate(self.text.split("\n"), 1):
            if line.startswith("```"):
                in_block = not in_block
            elif in_block:
                continue
            elif line.startswith("    "):
                self.check_command(number, line.strip().removeprefix("$ "))
            else:
                self.check_prose(number, line)
        return self.missing

    def check_prose(self, number, line):
        for target in LINK.findall(line):
            self.check_link(number, target)
        if self.path == "docs/PROOFS.md" and line.startswith("| "):
            self.check_row(number, line)
        crate = self.crate
        for span in SPAN.findall(LINK.sub("]", line)):
            crate = span if span in USES else crate
            self.check_span(number, span, crate)

    def check_link(self, number, target):
        if re.match(r"\w+:", target):
            return
        path, _, heading = target.partition("#")
        path = os.path.normpath(os.path.join(os.path.dirname(self.path), path)) if path else self.path
        if not os.path.exists(f"{TOP}/{path}"):
            self.report(number, target, "no such file")
        elif heading and heading not in headings(path):
            self.report(number, target, f"{path} has no such heading")

    def check_row(self, number, line):
        crate = ""
        for part in re.split(r"(`\w+`: )", line.split("|")[-2]):
            found = re.fullmatch(r"`(\w+)`: ", part)
            crate = found[1] if found else crate
            for listed in re.findall(r"; ([A-Z]\w*(?:, [A-Z]\w*)*)", part) if crate in USES else ():
                for name in listed.split(", "):
                    if not glob.glob(f"{TOP}/crates/{crate}/specs/**/{name}.antt", recursive=True):
                        self.report(number, name, f"crates/{crate}/specs has no such file")

    def check_span(self, number, span, crate):
        if span in ELSEWHERE or span.startswith(("/", "--", "$")) or not re.search(r"[a-z]", span):
            return
        first = span.split()[0]
        if " " in span and (first in COMMANDS or PATH.fullmatch(first)):
            self.check_command(number, span)
        elif PATH.fullmatch(span):
            self.check_file(number, span, crate)
        elif CODE_NAME.fullmatch(span):
            self.check_name(number, span)

    def check_file(self, number, path, crate):
        if path.startswith(("out/", "/")) or "/out/" in path or ANY.fullmatch(path.strip("/")):
            return
        form = re.sub(r"\{[^}]*\}", "*", ANY.sub("*", path)).rstrip("/")
        # (a page that isn't of a crate has no other one than that before the path)
        crates = self.crates if self.crate or not crate else [crate]
        places = ["", os.path.dirname(self.path) + "/", "crates/", *(f"crates/{it}/" for it in crates)]
        forms = [f"{TOP}/{place}{form}{end}" for place in places for end in ("", ".antt", ".rt")]
        if any(glob.glob(it, recursive=True) for it in forms):
            return
        if "/" in form or not fnmatch.filter((os.path.basename(it) for it in files_of(".")), form):
            self.report(number, path, "no such file")

    def check_name(self, number, span):
        for name in re.findall(r"[A-Za-z_]\w+", span):
            if name in ELSEWHERE or name in CRATES or re.fullmatch(r"[A-Z]+", name):
                continue
            is_plain = name.islower() and "_" not in name
            if not any(name in declared(it)[0] or (is_plain and name in declared(it)[1]) for it in self.folders):
                self.report(number, span, f"nothing declares {name}")

    def check_command(self, number, line):
        for command in re.split(r"&&|[;|()]", line):
            parts = command.split()
            while parts and re.match(r"[A-Z_]+=", parts[0]):
                parts.pop(0)
            if len(parts) > 1 and parts[0] in COMMANDS:
                for name in COMMANDS[parts[0]](parts[1:]):
                    self.report(number, command.strip(), f"{parts[0]} has no {name}")
            elif parts and re.fullmatch(r"[\w./-]+/[\w./-]+", parts[0]):
                self.check_file(number, parts[0], self.crate)


def main(given):
    pages = given or [*PAGES, *(it for it in files_of("crates") if re.fullmatch(r"crates/\w+/README\.md", it))]
    missing = [line for page in pages for line in Page(page).check()]
    for line in missing:
        print(line)
    print(f"{len(pages)} pages, {len(missing)} names of what nothing has")
    return 1 if missing else 0


if __name__ == "__main__":
    sys.exit(main(sys.argv[1:]))
