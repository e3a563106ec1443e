#!/usr/bin/env python3
"""Writes the stored input and output of crates/module_table: the cases of tests/canonical.py, tests/validity.py and tests/linkage.py.

    tests/module_table.py            writes the rows
    tests/module_table.py --check    tells whether they are what it would write
"""
import sys

sys.dont_write_bytecode = True
import canonical
import linkage
import validity
from stored import store


def main():
    written = [table.written() for table in (canonical, validity, linkage)]
    store("module_table", b"".join(given for given, _ in written), b"".join(told for _, told in written))


if __name__ == "__main__":
    main()
