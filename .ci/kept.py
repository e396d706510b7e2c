#!/usr/bin/env python3
"""Gives this clone the libraries that `rt ci` proved and kept on this machine, as far up as it has them.

usage: .ci/kept.py [CRATE ..]      without crates, of all crates

`rt check` and `.ci/edits.py` need the libraries below a crate, and build those that the clone lacks, which takes hours.
`rt ci` keeps what it proved, but gives it only to other runs of `rt ci`. This puts it into `crates/*/out`, where a kept
library was made of the same files. Prints the libraries that the clone then has, and those that it lacks.

No page of the kit promises how `rt ci` keeps libraries. If that changes, all are lacking.
"""
import importlib.machinery
import importlib.util
import os
import shutil
import sys

sys.dont_write_bytecode = True
TOP = os.path.dirname(os.path.dirname(os.path.realpath(__file__)))


def load(path):
    """Returns the program at a path as a module."""
    loader = importlib.machinery.SourceFileLoader("rt", path)
    made = importlib.util.module_from_spec(importlib.util.spec_from_loader("rt", loader))
    loader.exec_module(made)
    return made


def names():
    with open(f"{TOP}/crates.txt", encoding="utf-8") as lines:
        return [it.split(":")[0].split()[0] for it in lines if ":" in it and not it.startswith("#")]


def main():
    rt = load(os.path.realpath(shutil.which("rt") or sys.exit("kept.py: there is no rt")))
    os.chdir(TOP)
    known = {}
    for name in sys.argv[1:] or names():
        folder = f"{TOP}/crates/{name}"
        known.get(folder) or known.setdefault(folder, rt.rtlib.Crate(folder, TOP, known))
    crates = list({it.folder: it for crate in known.values() for it in [*crate.below(), crate]}.values())
    kept, lacking = rt.Kept(crates), []
    for crate in (it for it in crates if it.makes_rlib()):
        if not all(it.name in kept.rlibs for it in crate.below()):
            lacking.append(crate.name)
            continue
        if not crate.is_built():
            shutil.rmtree(os.path.dirname(crate.rlib), ignore_errors=True)
            if not kept.give(crate, False, kept.key(crate)):
                lacking.append(crate.name)
                continue
        kept.is_built(crate)
        with open(f"{crate.folder}/out/rlib/stamp", "w", encoding="utf-8") as stamp:
            stamp.write(crate.stamp())
    print("here:", *kept.rlibs)
    print("lacking:", *lacking)


if __name__ == "__main__":
    main()
