#!/usr/bin/env python3
"""Tries the edits of crates/NAME/edits: each changes one function, which the prover must then reject.

All edits of a crate are made at once, and the result of each changed function is looked up in the output
of the check. So a crate needs one check of these functions and not one for each edit, as with
`rt must-fail`. The result shows that the function itself is rejected, and for which goal. The crates
below must have been built before, by `rt ci` in a clean clone or by `rt check`.

An edit is BAD if it shows nothing of the contract: the code doesn't compile, the check gives no verdict, or
the function is rejected only because its proofs name what the edit changed, whatever the function returns.
Goals are named after variables, calls, patterns and compared numbers. So an edit of the 3 in `if n < 3` is
BAD if Answers.antt has the goal `returns-then-n-lt3`: change what the branch returns.

An edit has a line `refused: FUNCTION`, which names the function that it changes, and lines `file:`,
`old:` and `new:` as for `rt must-fail`. First it is checked that each old text occurs once in its file,
and that its crate or one below it has each name of the new text: an edit that names what is gone doesn't
compile, and shows nothing. With --applies that is all, also of the edits of must-fail/.

With --since COMMIT only the crates are tried whose code, definitions or edits differ from a commit, apart
from comments, and an eighth of the others. The number of changes that landed selects the eighth, so that
every edit is tried within eight merges. COMMIT can be LANDED, the commit that .ci/landed names, from which
a change started. If that file or commit is missing, all edits are tried.

--self-test tries edits of dns_octets whose results are known, so that a BAD one isn't counted as refused.
"""
import argparse
import concurrent.futures
import os
import re
import shutil
import subprocess
import sys
import tempfile
from dataclasses import dataclass

ROOT = os.path.dirname(os.path.dirname(os.path.realpath(__file__)))
# What the check reports of a proof that names what an edit changed, or that a limit ended.
STALE = re.compile(
    r"has no field|is not in scope|has no `|was not admitted|rattle does not (read|use)"
    r"|antt ran out of|outgrew the memory limit|stopped at the step limit"
)
# Names of std and of the kit's crates that only edits use.
OF_STD = set(
    "MAX STD3 is_none is_some_and len_utf8 min saturating_add saturating_sub trim_end_matches truncate".split()
)
LITERAL = re.compile(r"\"(?:[^\"\\]|\\.)*\"|'(?:[^'\\]|\\[^u]|\\u\{\w+\})'|//.*")
NAME = re.compile(r"(?<![\w'])[^\W\d]\w*")
# What an edit declares: a variable, a function, a parameter of a closure.
DECLARED = re.compile(r"\b(?:let|mut|for|fn|const|ref)\s+(\w+)|\|\s*(\w+)")
# The edits of --self-test: the expected result, the function of crates/dns_octets/src/lowered.rt, old and new texts.
ENDS, OTHER_ENDS = "left.len().cmp(&right.len())", "right.len().cmp(&left.len())"
KNOWN = [
    ("REFUSED", "compare_lowered", (ENDS, OTHER_ENDS)),
    ("NOT REFUSED", "compare_lowered", ("left.len().min(right.len())", "right.len().min(left.len())")),
    # a loop has another name than in Invariants.antt
    ("BAD", "hash_lowered", ("for octet in", "for one in"), ("octet.to_ascii_lowercase().hash", "one.hash")),
    # a goal has another name, then a call
    ("BAD", "compare_lowered", (ENDS, f"if shared > 3 {{ {OTHER_ENDS} }} else {{ {ENDS} }}")),
    ("BAD", "compare_lowered", ("let shared", "let most"), ("0..shared", "0..most")),
    # it doesn't compile
    ("BAD", "same_octets", ("eq_ignore_ascii_case(right)", "eq_ignore_ascii_case(3)")),
]


@dataclass
class Edit:
    name: str
    function: str
    changes: list  # of (file, old text, new text)


@dataclass
class Answer:
    edit: Edit
    verdict: str  # REFUSED, NOT REFUSED or BAD
    why: str


def stop(why):
    print(f"edits: {why}", file=sys.stderr)
    sys.exit(2)


def read_edit(path):
    """Parses the edit of a file: a line `refused:`, and `file:` before pairs of `old:` and `new:`."""
    edit, file, old = Edit(os.path.basename(path).removesuffix(".edit"), "", []), "", ""
    with open(path, encoding="utf-8") as lines:
        for line in lines:
            word, _, text = line.rstrip("\n").partition(":")
            text = text.removeprefix(" ")
            if word == "refused":
                edit.function = text
            elif word == "file":
                file = text
            elif word == "old":
                old = text
            elif word == "new":
                edit.changes.append((file, old, text))
    return edit


def read_crates():
    """Returns the libraries that each crate uses, and whether it is a static library, by `crates.txt`."""
    crates = {}
    with open(f"{ROOT}/crates.txt", encoding="utf-8") as lines:
        for line in lines:
            if not line.startswith("#") and ":" in line:
                name, _, below = line.partition(":")
                name, *kind = name.split()
                crates[name] = (below.split(), kind)
    return crates


def edits_of(crate, folder="edits"):
    """Returns the names of a crate's edits."""
    folder = f"{ROOT}/crates/{crate}/{folder}"
    found = sorted(os.listdir(folder)) if os.path.isdir(folder) else []
    return [it.removesuffix(".edit") for it in found if it.endswith(".edit")]


WORDS = {}


def names_of(crate):
    """Returns the names in the code and the definitions of a crate."""
    if crate not in WORDS:
        WORDS[crate] = set()
        for kind in ("src", "specs"):
            for folder, _, files in os.walk(f"{ROOT}/crates/{crate}/{kind}"):
                for file in files:
                    with open(f"{folder}/{file}", encoding="utf-8") as text:
                        WORDS[crate].update(NAME.findall(text.read()))
    return WORDS[crate]


def names_within(crate, crates):
    """Returns the names of a crate and of those below it."""
    found, waiting, seen = set(OF_STD), [crate], set()
    while waiting:
        name = waiting.pop()
        if name in crates and name not in seen:
            seen.add(name)
            found |= names_of(name)
            waiting += crates[name][0]
    return found


def git(*words):
    """Returns what git prints, or None if it fails."""
    ran = subprocess.run(
        ["git", "-c", f"safe.directory={ROOT}", "-C", ROOT, *words],
        stdout=subprocess.PIPE, stderr=subprocess.DEVNULL, text=True,
    )
    return ran.stdout.strip() if ran.returncode == 0 else None


def start_of_change(since):
    """Returns the commit of --since, or None if it doesn't exist."""
    if since == "LANDED":
        path = f"{ROOT}/.ci/landed"
        if not os.path.isfile(path):
            return None
        with open(path, encoding="ascii") as file:
            since = file.read().strip()
    return git("rev-parse", "--verify", "--quiet", f"{since}^{{commit}}")


def due(names, since):
    """Returns the crates that differ from a commit, and an eighth of the others, by the count of changes."""
    commit = start_of_change(since)
    # Files in which only comments and blank lines differ are not listed.
    words = ["diff", "--numstat", "--no-renames", "--ignore-blank-lines", "-I^[[:space:]]*(//|--)", commit, "--"]
    found = git(*words, *(f"crates/*/{it}/*" for it in ("src", "specs", "edits"))) if commit else None
    if found is None:
        return names
    changed = set(re.findall(r"\tcrates/(\w+)/", found))
    turn = int(git("rev-list", "--count", "HEAD", "--", ".ci/landed") or 0) % 8
    return [it for number, it in enumerate(names) if it in changed or number % 8 == turn]


class Crate:
    def __init__(self, wanted, kit, crates):
        self.name, _, one = wanted.partition("/")
        self.kit, self.crates = kit, crates
        self.folder = f"{ROOT}/crates/{self.name}"
        found = [it for it in edits_of(self.name) if one in ("", it)]
        if self.name not in crates or not found:
            stop(f"there is no crate or edit {wanted}")
        self.edits = [read_edit(f"{self.folder}/edits/{it}.edit") for it in found]
        self.names = names_within(self.name, crates)

    def lacking(self):
        """Returns the first library below the crate that isn't built, or None."""
        below = [it for it in self.crates[self.name][0] if it in self.crates]
        made = [f"{ROOT}/crates/{it}/out/rlib/{it}.rlib" for it in below]
        return next((it for it, path in zip(below, made) if not os.path.isdir(path)), None)

    def command(self, functions, kept):
        below, kind = self.crates[self.name]
        main = "src/main.rt" if os.path.isfile(f"{self.folder}/src/main.rt") else "src/lib.rt"
        words = [f"{self.kit}/bin/rattle", "check", "--crate-name", self.name, main, "--jobs", "1"]
        kit = f"{self.kit}/rlibs"
        words += ["--extern", f"std={kit}/std.rlib", "-L", f"dependency={kit}"]
        for it in below:
            place = f"{ROOT}/crates/{it}/out/rlib" if it in self.crates else kit
            words += ["--extern", f"{it}={place}/{it}.rlib"]
        for it in self.crates:
            words += ["-L", f"dependency={ROOT}/crates/{it}/out/rlib"]
        words += ["--crate-type", "staticlib"] * ("staticlib" in kind)
        words += ["--antt-project", f"{self.kit}/rattle/logic/antt-project.json"]
        words += ["--logic-built", f"{self.kit}/logic_built", "--links", f"{self.name}="]
        words += ["--incremental", kept]
        for it in functions:
            words += ["--only", it]
        return words

    def check(self, edits, kept):
        """Returns the output of a check of the edited functions, in a copy of the crate with these edits."""
        with tempfile.TemporaryDirectory(prefix="edits-") as room:
            for part in ("src", "specs", "proofs"):
                if os.path.isdir(f"{self.folder}/{part}"):
                    shutil.copytree(f"{self.folder}/{part}", f"{room}/{part}")
            for edit in edits:
                for file, old, new in edit.changes:
                    with open(f"{room}/{file}", encoding="utf-8") as text:
                        changed = text.read().replace(old, new)
                    with open(f"{room}/{file}", "w", encoding="utf-8") as text:
                        text.write(changed)
            ran = subprocess.run(
                self.command([it.function for it in edits], kept),
                cwd=room, stdout=subprocess.PIPE, stderr=subprocess.STDOUT, errors="replace",
            )
        return ran.stdout

    def unknown(self, edit):
        """Returns a name of an edit's new texts that neither the crate nor one below it has, or None."""
        texts = [LITERAL.sub(" ", new) for _, _, new in edit.changes]
        declared = {name for text in texts for found in DECLARED.findall(text) for name in found}
        names = [name for text in texts for name in NAME.findall(text)]
        known = self.names | declared
        return next((it for it in names if it not in known and it[0] != "_"), None)

    def fault(self, edit, is_must_fail=False):
        """Returns why the edit can't be made, or None: each old text must occur once in the file as it is then."""
        if not (edit.function or is_must_fail) or not edit.changes:
            return "it has no line `refused:`, or changes nothing"
        texts = {}
        for file, old, new in edit.changes:
            if file not in texts:
                if not os.path.isfile(f"{self.folder}/{file}"):
                    return f"there is no file {file}"
                with open(f"{self.folder}/{file}", encoding="utf-8") as text:
                    texts[file] = text.read()
            count = texts[file].count(old) if old else 0
            if count != 1:
                return f"its text is in {file} {count} times, and not once"
            if old == new:
                return "it changes nothing"
            texts[file] = texts[file].replace(old, new)
        name = self.unknown(edit)
        return f"its new text names {name}, which neither the crate nor one below it has" if name else None

    def told(self, edit, said):
        """Returns what the output of a check shows of an edit: the goals that aren't proved, or why it is BAD."""
        # (a long message has more lines, which are indented)
        lines = re.sub(r"\n {2,}", " ", said.rstrip("\n")).split("\n")
        ends = [at for at, it in enumerate(lines) if it.startswith("fn ")]
        start = f"fn {self.name}::{edit.function}: "
        here = next((at for at in reversed(ends) if lines[at].startswith(start)), None)
        if here is None:
            error = next((it for it in lines if re.search(r": error[:\[]", it)), lines[-1])
            return Answer(edit, "BAD", f"no contract was tried: {error}")
        verdict = lines[here].removeprefix(start)
        if not verdict.startswith(("not proved", "no proof: expected")):
            return Answer(edit, "NOT REFUSED" if verdict.startswith("proved") else "BAD", verdict)
        # The directory of a recursive function begins with `+`.
        *above, own_name = edit.function.split("::")
        folder = "/".join(["proofs", *above, rf"\+?{re.escape(own_name)}"])
        own = [it for it in lines if re.search(rf"\./{folder}/\w+\.antt", it)]
        stale = [it for it in own if STALE.search(it)]
        refused = [it[1] for it in (re.search(r": error: `?([^`]+)", it) for it in own if it not in stale) if it]
        # The goals that have no answer. If an answer lost its goal, they can be proved goals with another name.
        if not any(re.search("has no `|rattle does not", it) for it in stale):
            block = lines[max((at for at in ends if at < here), default=-1) + 1 : here]
            refused += re.findall(r"\(`([^` ]+)`\)", "\n".join(it for it in block if "it is not proved" in it))
        if refused and not any("/Invariants.antt" in it for it in stale):
            return Answer(edit, "REFUSED", ", ".join(dict.fromkeys(refused)))
        return Answer(edit, "BAD", f"no goal of its own: {[*stale, verdict][0]}")

    def is_local(self, edit):
        """Returns whether an edit changes texts of its function alone, and not those of a constant or a table."""
        for file, old, _ in edit.changes:
            with open(f"{self.folder}/{file}", encoding="utf-8") as text:
                before = text.read().partition(old)[0]
            if re.findall(r"\bfn (\w+)", before + old)[-1:] != [edit.function.split("::")[-1]]:
                return False
        return True

    def together(self, edits):
        """Returns those edits that can be made at once: no function and no text is in two of them.

        An edit that isn't local is made alone: what it changes can have other functions rejected.
        """
        used, wide = set(), [it for it in edits if not self.is_local(it)]
        for edit in wide[:1] or edits:
            marks = {edit.function, *((file, old) for file, old, _ in edit.changes)}
            if not used & marks:
                yield edit
            used |= marks

    def tried(self):
        """Returns a result for each edit."""
        answers, left, most = [], self.edits, len(self.edits)
        with tempfile.TemporaryDirectory(prefix="edits-kept-") as kept:
            while left:
                now = list(self.together(left))[:most]
                said = self.check(now, kept)
                told = [self.told(edit, said) for edit in now]
                last = [it for it in told if it.verdict == "REFUSED" or len(now) == 1]
                answers += last
                # A function whose callee was changed too needs a check without that change.
                most = most if last else 1
                left = [edit for edit in left if all(it.edit is not edit for it in last)]
        return answers


def self_test(crate):
    """Tries edits of dns_octets whose results are known. Returns whether each is as expected."""
    failed = 0
    with tempfile.TemporaryDirectory(prefix="edits-kept-") as kept:
        for wanted, function, *changes in KNOWN:
            edit = Edit("known", f"lowered::{function}", [("src/lowered.rt", *it) for it in changes])
            found = crate.told(edit, crate.check([edit], kept))
            wrong = crate.fault(edit)
            failed += bool(wrong) or found.verdict != wanted
            print(f"expected {wanted}: {wrong or found.verdict}: {found.why[:200]}", flush=True)
    print(f"{len(KNOWN)} edits, {failed} not as expected")
    return failed == 0


def do_apply(crates):
    """Returns whether every edit can be made, and reports each that can't."""
    faults = [(it.name, edit, it.fault(edit)) for it in crates for edit in it.edits]
    for it in crates:
        for name in edits_of(it.name, "must-fail"):
            edit = read_edit(f"{it.folder}/must-fail/{name}.edit")
            faults.append((it.name, edit, it.fault(edit, is_must_fail=True)))
    for name, edit, why in faults:
        if why:
            print(f"{name}/{edit.name}: NOT TRIED: {why}")
    return not any(why for _, _, why in faults)


def try_all(crates):
    """Tries the edits, and prints the results. Returns whether each was rejected, and shows something."""
    refused = failed = 0
    with concurrent.futures.ThreadPoolExecutor(len(os.sched_getaffinity(0))) as pool:
        runs = [(it, pool.submit(it.tried)) for it in crates]
        for crate, run in runs:
            answers = run.result()
            for it in answers:
                if it.verdict == "REFUSED":
                    refused, text = refused + 1, it.why[:100]
                else:
                    failed, text = failed + 1, f"{it.verdict}: {it.why[:300]}"
                print(f"{crate.name}/{it.edit.name}: {it.edit.function}: {text}", flush=True)
    print(f"edits: {refused} refused, {failed} not refused or BAD")
    return failed == 0


def main():
    words = argparse.ArgumentParser(
        description=__doc__, formatter_class=argparse.RawDescriptionHelpFormatter
    )
    words.add_argument("--applies", action="store_true")
    words.add_argument("--since", metavar="COMMIT|LANDED")
    words.add_argument("--self-test", action="store_true")
    words.add_argument("names", nargs="*", metavar="CRATE|CRATE/EDIT")
    given = words.parse_args()
    doc = subprocess.run(["rt", "doc"], stdout=subprocess.PIPE, text=True, check=True).stdout
    known = read_crates()
    if given.self_test:
        return 0 if self_test(Crate("dns_octets", os.path.dirname(doc.strip()), known)) else 1
    names = given.names or [it for it in known if edits_of(it)]
    if given.since:
        every = names
        names = due(names, given.since)
        print(f"edits: of {len(names)} crates out of {len(every)}", flush=True)
    crates = [Crate(it, os.path.dirname(doc.strip()), known) for it in names]
    if not crates:
        stop("there are none")
    count = sum(len(it.edits) for it in crates)
    if not do_apply(crates):
        return 1
    if given.applies:
        print(f"edits: {count} can be made")
        return 0
    for it in crates:
        if it.lacking():
            stop(f"{it.lacking()} is not built: `rt check` in crates/{it.name} builds what is below")
    return 0 if try_all(crates) else 1


if __name__ == "__main__":
    sys.exit(main())
