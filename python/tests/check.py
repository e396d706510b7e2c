#!/usr/bin/env python3
"""Runs the tests of the Python package, over the library that DNS_TEXT_LIB names: an archive, which is linked first, or
a shared library. The variable zonetext names the program. Prints a line for each tool that isn't installed, and at
last what ran.

usage: python/tests/check.py [NAME..]    all tests, or those of these files, as test_rows
"""
import os
import sys
import tempfile
import unittest

HERE = os.path.dirname(os.path.abspath(__file__))
PACKAGE = os.path.dirname(HERE)
sys.dont_write_bytecode = True
sys.path[:0] = [HERE, PACKAGE]


def main(names):
    given = os.environ.get("DNS_TEXT_LIB", "")
    if not given:
        print("python: no cc: 0 rows")
        return 0
    import backend
    with tempfile.TemporaryDirectory() as folder:
        # (the tests of the package build from what was given)
        os.environ["DNS_TEXT_GIVEN"] = given = os.path.abspath(given)
        if given.endswith(".a"):
            backend.link(given, f"{folder}/libdnstext.so")
            given = f"{folder}/libdnstext.so"
        os.environ["DNS_TEXT_LIB"] = given
        import support
        names = names or sorted(it[:-3] for it in os.listdir(HERE) if it.startswith("test_"))
        suite = unittest.defaultTestLoader.loadTestsFromNames(names)
        result = unittest.TextTestRunner(verbosity=0).run(suite)
        for why in dict.fromkeys(why for _, why in result.skipped):
            print(f"python: {why}")
        for line in support.SAID:
            print(line)
        wrong = len(result.failures) + len(result.errors)
        print(f"python: {support.COUNT['rows'] + result.testsRun} rows and tests, {wrong} failed: "
              f"{support.COUNT['rows']} rows, {support.COUNT['zones']} zone files, {result.testsRun} tests")
        return 1 if wrong else 0


if __name__ == "__main__":
    sys.exit(main(sys.argv[1:]))
