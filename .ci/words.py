#!/usr/bin/env python3
"""Lists names that are built from words with no meaning in DNS.

usage: .ci/words.py [--count]

FORMS has these words: GLOSSARY has a verb for each act (parse, print, return, report, append, skip, store,
compare), and positions are before, after and at the end. Looks at the names that specs/ exports, and at the
items and variants of src/. A line of .ci/words has names that need such a word, and the reason. Ends with
status 1 if another name has one, if .ci/words lists a name that no file has, or if it lists more than MOST.
--count prints the number of such names alone.
"""
import re
import sys

import names

MOST = 14
FORMS = (
    "stand stands standing stood tell tells telling told take takes taking took taken give gives giving gave given giver "
    "go goes going gone went say says said saying behind left front fronts"
).split()
LISTED = names.TOP.parent / ".ci/words"


def parts(name):
    """Returns the words that a name is built from."""
    return [it.lower() for it in re.findall(r"[A-Z]+(?![a-z])|[A-Z]?[a-z]+|\d+", name)]


def declared(text):
    """Yields what a file of src/ declares, by kind and name: items, variants and fields."""
    code = "\n".join(it for it in text.split("\n") if not it.lstrip().startswith("//"))
    for it in re.finditer(r"\b(fn|struct|enum|trait|mod|const|static|type) (\w+)", code):
        yield it[1], it[2]
    for it in re.finditer(r"\benum \w+[^{;]*\{(.*?)\n\s*\}", code, re.DOTALL):
        for name in re.findall(r"^\s*([A-Z]\w*)\b", it[1], re.MULTILINE):
            yield "variant", name
    for it in re.finditer(r"\bstruct \w+[^{;()]*\{(.*?)\n\s*\}", code, re.DOTALL):
        for name in re.findall(r"^\s*(?:pub(?:\([\w ]+\))? )?(\w+):", it[1], re.MULTILINE):
            yield "field", name


def reasons():
    """Returns the reason of each listed name."""
    rows = [line.split("\t", 1) for line in LISTED.read_text(encoding="utf-8").splitlines()[1:] if "\t" in line]
    return {name: why for names_of_line, why in rows for name in names_of_line.split()}


def main():
    found = {}
    for path in sorted([*names.TOP.glob("*/specs/**/*.antt"), *names.TOP.glob("*/src/**/*.rt")]):
        place = path.relative_to(names.TOP)
        if path.suffix == ".rt":
            here = [name for kind, name in declared(path.read_text(encoding="utf-8")) if kind != "field"]
        else:
            here = [] if place.parts[0] in names.SAME_AGAIN else names.exported(path)
        for name in here:
            if set(parts(name)) & set(FORMS):
                found[name] = str(place)
    if sys.argv[1:] == ["--count"]:
        print(len(found))
        return 0
    listed = reasons()
    wrong = [f"crates/{place}: {name}" for name, place in sorted(found.items()) if name not in listed]
    wrong += [f".ci/words: no file has {name}" for name in listed if name not in found]
    wrong += [f".ci/words: {name} has no reason" for name, why in listed.items() if not why.strip()]
    if len(listed) > MOST:
        wrong.append(f".ci/words: {len(listed)} names, and {MOST} may be listed")
    for line in wrong:
        print(line)
    print(f"{len(found)} such names, {len(listed)} of them listed")
    return 1 if wrong else 0


if __name__ == "__main__":
    sys.exit(main())
