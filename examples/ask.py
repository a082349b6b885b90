#!/usr/bin/env -S python3 -B
"""Asks a file of facts by SQL, as sqlite3 does where that is installed.

    examples/ask.py FACTS SQL

FACTS is what examples/facts.py made; it is only read. SQL is one question, or `-` for that of standard input. The first
line has the names of the columns, the others the rows, with tabs between the values. The page facts.md has the tables.

Status 1 is a question that has no answer, or a file of something else; 2 a command line that is at fault, or a file that
can't be read or written.
"""

import pathlib
import sqlite3
import sys

from acpidis_tools import command, listing


def shown(value):
    """A value without what a terminal would act on."""
    text = "" if value is None else str(value)
    return "".join(char if char.isprintable() else f"\\x{ord(char):02X}" for char in text)


def main():
    asked = command.parser(__doc__, "FACTS", "SQL").parse_args()
    sql = sys.stdin.read() if asked.sql == "-" else asked.sql
    listing.check_file(asked.facts)
    open(asked.facts, "rb").close()  # SQLite's fault wouldn't name it
    try:
        connection = sqlite3.connect(pathlib.Path(asked.facts).absolute().as_uri() + "?mode=ro", uri=True)
        connection.execute("SELECT name FROM machine LIMIT 0")  # a file of something else may have any answer
        judge = lambda action, *_: sqlite3.SQLITE_DENY if action == sqlite3.SQLITE_ATTACH else sqlite3.SQLITE_OK
        connection.set_authorizer(judge)  # no other file is opened
        rows = connection.execute(sql)
        print("\t".join(column[0] for column in rows.description or ()))
        for row in rows:
            print("\t".join(map(shown, row)))
    except (sqlite3.Error, sqlite3.Warning, ValueError) as fault:
        command.refuse(fault)


if __name__ == "__main__":
    command.run(main)
