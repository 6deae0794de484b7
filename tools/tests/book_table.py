#!/usr/bin/env python3
"""Writes the table of judged books, cases/books.table.

    tools/tests/book_table.py CASES

CASES is a folder of cases: a job in a file NAME, `book` in NAME.args, and what an independent program prints of its
book in NAME.stdout. What is wanted is that of the cases, never the program's own.
"""
import os
import sys

import folders
from beginning import begin
from programs import TOP
from run_cases import stored_cases

TABLE = os.path.join(TOP, "cases", "books.table")


def text_of(case):
    """A case as it stands in a table."""
    name = os.path.basename(case.name)
    return f"case {name} book\n".encode() + case.given + b"prints\n" + case.wanted


def main():
    begin(__doc__)
    if len(sys.argv) != 2:
        sys.exit(__doc__.strip())
    cases = [case for case in stored_cases(sys.argv[1]) if case.words == ["book"]]
    with open(TABLE, "wb") as table:
        table.writelines(map(text_of, cases))
    print(f"{len(cases)} books")
    return 0


if __name__ == "__main__":
    sys.exit(main())
