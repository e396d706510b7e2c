#!/usr/bin/env python3
"""Swaps each error that a crate makes for another of its type, one at a time, and lists those that still prove.

usage: .ci/errors.py [--list] CRATE|CRATE/FUNCTION..

A swap that is proved shows that the contract doesn't say which error it is: strengthen it, or see that both mean
the same there. Swapped is a variant without fields of an enum of the crate or of one below it, where it is made
(`Err(ErrorKind::BadTime)`, `.ok_or(..)`, `.map_err(|_| ..)`), for the next such variant; and a call of ScannerError,
as `E::short_buf()`. Errors that `?` passes on are not swapped: for a function that turns all into one, write an edit.

Swaps of different functions are checked together, as edits are. The crates below must have been built before
(`.ci/kept.py`, `rt check`). --list prints the swaps alone. The status is 1 if one is proved or has no verdict.
"""
import argparse
import os
import re
import subprocess
import sys
import tempfile

sys.dont_write_bytecode = True
from edits import ROOT, Crate, Edit, read_crates  # noqa: E402

ENUM = re.compile(r"^(?:pub(?:\(crate\))? )?enum (\w+)(?:<[^>]*>)? \{\n(.*?)^\}", re.M | re.S)
UNIT = re.compile(r"^    ([A-Z]\w*),", re.M)
# Where an error is made, up to the error itself.
MADE = r"(?:\bErr\(|\.ok_or\(|\.map_err\(\|_\w*\| )"
VARIANT = re.compile(MADE + r"((?:\w+::)*?(\w+)::([A-Z]\w*))(?=[),])")
CALL = re.compile(r"(?<![\w:])((?:\w+::)*\w+)::(short_buf|end_of_entry|trailing_tokens|custom)\((\"[^\"]*\")?\)")
OTHER = {"short_buf": "end_of_entry", "trailing_tokens": "end_of_entry"}
SCOPE = re.compile(r"^( *)(?:pub(?:\(crate\))? )?(?:(fn) (\w+)|(impl|mod|trait)\b(.*))")


class Swaps(Crate):
    def __init__(self, wanted, kit, crates):
        """Reads the sources of a crate, which may have no edits yet."""
        self.name, _, self.function = wanted.partition("/")
        self.kit, self.crates = kit, crates
        self.folder = f"{ROOT}/crates/{self.name}"
        if self.name not in crates:
            sys.exit(f"errors: there is no crate {self.name}")
        self.variants = {}
        for it in [self.name, *(it for it in crates[self.name][0] if it in crates)]:
            for _, text in sources(f"{ROOT}/crates/{it}"):
                for name, body in ENUM.findall(text):
                    self.variants.setdefault(name, UNIT.findall(body))

    def others(self, line):
        """Yields the start, the end, the error and its replacement, for each error that a line makes."""
        pattern_end = line.find("=>")
        for found in VARIANT.finditer(line):
            path, enum, variant = found.groups()
            units = self.variants.get(enum, [])
            # A pattern is not an error that is made.
            if found.start() >= pattern_end and variant in units and len(units) > 1:
                other = units[(units.index(variant) + 1) % len(units)]
                yield found.start(1), found.end(1), path, path[: -len(variant)] + other
        for found in CALL.finditer(line):
            if found.start() >= pattern_end:
                yield found.start(), found.end(), found[0], f"{found[1]}::{OTHER.get(found[2], 'short_buf')}()"

    def swaps(self):
        """Returns the swaps as edits of a whole file, each with the place and both errors as its name."""
        made = []
        for file, text in sources(self.folder):
            lines, scopes = text.split("\n"), []
            parts = [] if file == "lib.rt" else file.removesuffix(".rt").removesuffix("/mod").split("/")
            for number, line in enumerate(lines, 1):
                scope = SCOPE.match(line)
                if scope:
                    scopes = [it for it in scopes if it[0] < len(scope[1])]
                    scopes.append((len(scope[1]), scope[3], scope[5]))
                if line.lstrip().startswith(("//", "ensures", "requires", "ghost")) or not scopes:
                    continue
                function = next((it[1] for it in reversed(scopes) if it[1]), None)
                if not function or self.function not in ("", function):
                    continue
                owner = next((owner_of(it[2]) for it in scopes if it[2]), [])
                for start, end, old, new in self.others(line):
                    changed = [*lines]
                    changed[number - 1] = line[:start] + new + line[end:]
                    name = f"src/{file}:{number}: {old} as {new.rpartition('::')[2]}"
                    changes = [(f"src/{file}", number, changed[number - 1])]
                    made.append(Edit(name, "::".join([*parts, *owner, function]), changes))
        return made

    def check(self, edits, kept):
        """Checks swaps of different functions in one copy: a change is a line by its number."""
        whole = {}
        for edit in edits:
            for file, number, line in edit.changes:
                with open(f"{self.folder}/{file}", encoding="utf-8") as text:
                    old = text.read()
                lines = whole.setdefault(file, (old, old.split("\n")))[1]
                lines[number - 1] = line
        changes = [(file, old, "\n".join(lines)) for file, (old, lines) in whole.items()]
        together = [Edit("", it.function, []) for it in edits]
        together[0].changes = changes
        return super().check(together, kept)


def sources(folder):
    """Yields the path below src/ and the text of each file of code."""
    for place, _, files in sorted(os.walk(f"{folder}/src")):
        for name in sorted(it for it in files if it.endswith(".rt")):
            with open(f"{place}/{name}", encoding="utf-8") as text:
                yield os.path.relpath(f"{place}/{name}", f"{folder}/src"), text.read()


def owner_of(header):
    """Returns how `rt check` names an impl: its type, and the trait after it, as one name."""
    header = re.sub(r"<[^<>]*>", "", re.sub(r"<[^<>]*>", "", re.sub(r"<[^<>]*>", "", header)))
    header = header.partition("{")[0].partition(" where")[0].replace("<", " ").replace(">", " ")
    trait, _, target = header.rpartition(" for ")
    words = [it.rpartition("::")[2] for it in re.findall(r"[\w:]+", target)]
    traits = [it.rpartition("::")[2] for it in re.findall(r"[\w:]+", trait)]
    return ["".join([*words[:1], *traits[:1]])] if words else []


def main():
    words = argparse.ArgumentParser(description=__doc__, formatter_class=argparse.RawDescriptionHelpFormatter)
    words.add_argument("--list", action="store_true")
    words.add_argument("names", nargs="+", metavar="CRATE|CRATE/FUNCTION")
    given = words.parse_args()
    doc = subprocess.run(["rt", "doc"], stdout=subprocess.PIPE, text=True, check=True).stdout
    count = failed = 0
    for name in given.names:
        crate = Swaps(name, os.path.dirname(doc.strip()), read_crates())
        left = crate.swaps()
        count += len(left)
        if not given.list and crate.lacking():
            sys.exit(f"errors: {crate.lacking()} is not built: `rt check` in crates/{crate.name} builds what is below")
        with tempfile.TemporaryDirectory(prefix="errors-kept-") as kept:
            while left:
                now = list({it.function: it for it in reversed(left)}.values())
                left = [it for it in left if all(it is not one for one in now)]
                said = "" if given.list else crate.check(now, kept)
                for it in now:
                    answer = None if given.list else crate.told(it, said)
                    if given.list or answer.verdict != "REFUSED":
                        failed += not given.list
                        proved = answer and answer.verdict == "NOT REFUSED"
                        why = "" if given.list else f": {'PROVED' if proved else answer.why[:200]}"
                        print(f"{crate.name}/{it.name} in {it.function}{why}", flush=True)
    print(f"errors: {count} swaps" + ("" if given.list else f", {failed} proved or without a verdict"))
    return 1 if failed else 0


if __name__ == "__main__":
    sys.exit(main())
