#!/usr/bin/env python3
"""Lists the public functions whose contracts differ from those of an earlier commit.

usage: .ci/contracts.py REV

Prints, for each such function in src/ of a crate, its clauses in REV, each after `-`, and those of the
working tree, each after `+`. A function that only one of them has is listed with its clauses too. At the
end it prints the count of each kind, and of the functions with equal clauses. Whether a contract is weaker
now is for the reader to decide.
"""
import pathlib
import re
import subprocess
import sys

TOP = pathlib.Path(__file__).resolve().parent.parent
IMPL = re.compile(r"^impl\b.*?\b([A-Z]\w*)(?:<[^{]*)? \{$")
FN = re.compile(r"^(\s*)pub (?:extern \"C\" )?fn (\w+)")
CLAUSE = re.compile(r"\s*(?:ensures|requires)\b")


def is_open(clause):
    """Returns whether a clause continues on the next line."""
    return clause.count("{") > clause.count("}")


def functions(name, text):
    """Returns the clauses of each public function of a file, by the function's name."""
    found, kind, current, begun = {}, "", None, False
    for line in text.split("\n"):
        if begun:
            # (a clause of several lines)
            found[current][-1] += " " + line.strip()
            begun = is_open(found[current][-1])
            continue
        if line.startswith("impl"):
            kind = (IMPL.match(line) or re.match(r"()", line)).group(1) + "::"
        elif line.startswith(("pub fn", "fn", "pub(")):
            kind = ""
        at = FN.match(line)
        if at:
            current = f"{name} {kind if at.group(1) else ''}{at.group(2)}"
            found[current] = []
        elif line.strip() in ("{", "{}") or line.rstrip().endswith(" {"):
            current = None
        elif current and CLAUSE.match(line):
            found[current].append(line.strip())
            begun = is_open(line)
    return found


def before(rev):
    """Returns the functions of a commit."""
    git = ["git", "-C", str(TOP)]
    listed = subprocess.run(
        [*git, "ls-tree", "-r", "--name-only", rev, "crates"], check=True, capture_output=True, text=True
    )
    found = {}
    for path in listed.stdout.split("\n"):
        if "/src/" in path and path.endswith(".rt"):
            text = subprocess.run([*git, "show", f"{rev}:{path}"], check=True, capture_output=True, text=True)
            found |= functions(path.removeprefix("crates/"), text.stdout)
    return found


def main():
    if len(sys.argv) != 2 or sys.argv[1].startswith("-"):
        print(__doc__)
        return 2
    old, new = before(sys.argv[1]), {}
    for path in sorted(TOP.glob("crates/*/src/**/*.rt")):
        new |= functions(str(path.relative_to(TOP / "crates")), path.read_text(encoding="utf-8"))
    changed = [it for it in old if it in new and old[it] != new[it]]
    gone, added = [it for it in old if it not in new], [it for it in new if it not in old]
    for name in sorted([*changed, *gone, *added]):
        print(name)
        for sign, clauses, others in (("-", old, new), ("+", new, old)):
            kept = others.get(name, [])
            for clause in clauses.get(name, []):
                if clause not in kept:
                    print(f"  {sign} {clause}")
    same = len(old) - len(changed) - len(gone)
    print(f"{len(changed)} changed, {len(gone)} gone, {len(added)} new, {same} the same")
    return 0


if __name__ == "__main__":
    sys.exit(main())
