#!/usr/bin/env python3
"""Tries the samples in Rattle on pages: each is compiled, without proofs, and must end without an error.

usage: .ci/samples.py [--list] [PAGE[:LINE]..]    without pages README, BINDINGS, C, RECORDS, FIRST-CHANGE and that of each crate

A sample is a block that begins with ```rust. The line above it is its mark:

    <!-- in: CODE -->             the sample is tried: after CODE, such as its `use`s, in a function
    <!-- from: FILE -->           it must be in that file, which is proved; white space may differ
    <!-- fragment -->             it is not tried, since it has what only a reader has; a reason can follow, after a colon

The function has an allocator `alloc`, and its `?` accepts each error. Each sample is a test of a crate `samples`, which
is made in a folder of its own, beside copies of the crates that samples name. The output of `rt try --test` follows,
with the places in the pages. --list prints the samples and their marks, and tries none.

The status is 1 if a sample fails or has another mark, or if more than UNMARKED have none. UNMARKED only goes down.
"""
import argparse
import glob
import os
import re
import shutil
import subprocess
import sys
import tempfile

TOP = os.path.dirname(os.path.dirname(os.path.realpath(__file__)))
PAGES = ["README.md", "docs/BINDINGS.md", "docs/C.md", "docs/RECORDS.md", "docs/FIRST-CHANGE.md"]
UNMARKED = 0
# Also in an item of a list, where each line begins with blanks.
SAMPLE = re.compile(r"(?:^ *<!-- ([^\n]*) -->\n)?^ *```rust\n(.*?)^ *```$", re.M | re.S)
HEAD = """//! The samples.
#![tactic(auto)]

use std::error::Error;

/// Any error.
#[derive(Drop)]
pub struct Failed;

impl<E: Error + Drop> From<E> for Failed {
    fn from(_error: E) -> Failed {
        Failed
    }
}
"""
BEFORE = """use crate::Failed;
use std::alloc::Global;
use std::process::Abort;

#[test]
fn ends(rt: HostRuntime) {
    assert!(rt; sample(rt.alloc()).is_ok());
}

fn sample(alloc: Global) -> Result<(), Failed> {
"""


class Sample:
    def __init__(self, page, text, found):
        self.page, self.mark, self.code = page, found[1], found[2]
        self.line = text[:found.start(2)].count("\n") + 1

    @property
    def surroundings(self):
        return self.mark[len("in:"):].strip() if self.mark and self.mark.startswith("in:") else None

    def is_right(self):
        """Returns whether the mark has a known form, and a sample from a file is in it."""
        if self.mark is None or self.surroundings is not None or re.match(r"fragment\b", self.mark):
            return True
        file = self.mark.removeprefix("from:").strip()
        if file == self.mark or not os.path.isfile(f"{TOP}/{file}"):
            return False
        with open(f"{TOP}/{file}", encoding="utf-8") as text:
            return " ".join(self.code.split()) in " ".join(text.read().split())


def samples(pages):
    for page, _, line in (it.partition(":") for it in pages):
        with open(os.path.join(TOP, page), encoding="utf-8") as file:
            text = file.read()
        found = [Sample(page, text, it) for it in SAMPLE.finditer(text)]
        yield from (it for it in found if not line or it.line == int(line) + 1)


def crates():
    """Returns the names of the crates that each crate uses, by crates.txt."""
    with open(f"{TOP}/crates.txt", encoding="utf-8") as lines:
        rows = [it.split(":") for it in lines if ":" in it and it[0] != "#"]
    return {name.split()[0]: names.split() for name, names in rows}


def with_below(names, uses):
    """Returns crates, and all that these use."""
    found, new = set(), set(names)
    while new:
        found |= new
        new = {it for name in new for it in uses[name] if it in uses} - found
    return found


def make(room, tried):
    """Makes the crate of the samples, and copies what it needs."""
    uses, code = crates(), "\n".join(it.code + it.surroundings for it in tried)
    named = [it for it in uses if re.search(rf"\b{it}::", code)]
    for name in with_below(named, uses):
        for part in ("src", "specs", "proofs"):
            if os.path.isdir(f"{TOP}/crates/{name}/{part}"):
                shutil.copytree(f"{TOP}/crates/{name}/{part}", f"{room}/crates/{name}/{part}")
    os.makedirs(f"{room}/crates/samples/src")
    shutil.copy(f"{TOP}/HANDLES", room)
    with open(f"{room}/crates.txt", "w", encoding="utf-8") as out, open(f"{TOP}/crates.txt", encoding="utf-8") as lines:
        copied = os.listdir(f"{room}/crates")
        out.writelines(it for it in lines if it.split(":")[0].split()[0] in copied)
        out.write(f"samples: {' '.join(named)}\n")
    with open(f"{room}/crates/samples/src/lib.rt", "w", encoding="utf-8") as out:
        out.write(HEAD + "".join(f"\n#[cfg(test)]\nmod sample_{number};\n" for number in range(len(tried))))
    for number, it in enumerate(tried):
        with open(f"{room}/crates/samples/src/sample_{number}.rt", "w", encoding="utf-8") as out:
            out.write(f"{BEFORE}    {it.surroundings}\n{it.code}    Ok(())\n}}\n")
    subprocess.run(["git", "init", "-q", room], check=True)


def try_all(tried):
    """Returns whether all samples end without an error."""
    def place(found):
        it = tried[int(found[1])]
        return f"{it.page}:{int(found[2]) + it.line - BEFORE.count(chr(10)) - 2}" if found[2] else f"{it.page}:{it.line - 1}"

    with tempfile.TemporaryDirectory(prefix="samples-") as room:
        make(room, tried)
        ran = subprocess.run(["rt", "try", "--test"], cwd=f"{room}/crates/samples", stdout=subprocess.PIPE,
                             stderr=subprocess.STDOUT, text=True, check=False)
    print(re.sub(r"(?:src/)?sample_(\d+)(?:\.rt:(\d+)|(?:_|::)ends)", place, ran.stdout), end="")
    return ran.returncode == 0 and f"{len(tried)} passed; 0 failed" in ran.stdout


def main():
    parser = argparse.ArgumentParser()
    parser.add_argument("--list", action="store_true")
    parser.add_argument("pages", nargs="*")
    options = parser.parse_args()
    own = sorted(os.path.relpath(it, TOP) for it in glob.glob(f"{TOP}/crates/*/README.md"))
    found = list(samples(options.pages or [*PAGES, *own]))
    tried = [it for it in found if it.surroundings is not None]
    unmarked = [it for it in found if it.mark is None]
    wrong = [it for it in found if not it.is_right()]
    for it in found if options.list else [*wrong, *unmarked] if len(unmarked) > UNMARKED else wrong:
        print(f"{it.page}:{it.line - 1}: {it.mark or 'no mark'}")
    is_good = not wrong and len(unmarked) <= UNMARKED
    if tried and not options.list:
        is_good = try_all(tried) and is_good
    print(f"samples: {len(tried)} to try, {len(found) - len(tried) - len(unmarked)} fragments, {len(unmarked)} without a mark")
    return 0 if is_good else 1


if __name__ == "__main__":
    sys.exit(main())
