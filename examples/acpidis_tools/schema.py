"""The tables of facts (docs/facts.md): their columns, and which of these name a row of another table."""

import pathlib
import re

SQL = (pathlib.Path(__file__).parent / "schema.sql").read_text()
SCHEMA, _, INDEXES = SQL.partition("-- The indexes, once all rows are there\n")
DEFINITIONS = re.findall(r"CREATE TABLE (\w+) \((.*?)\n\);", SCHEMA, re.DOTALL)
COLUMNS = {table: re.findall(r"(\w+) (?:INTEGER|TEXT)", text) for table, text in DEFINITIONS}
REFERENCE = re.compile(r"(\w+) INTEGER(?: NOT NULL)? REFERENCES (\w+)")
# For each table the places of the columns that name a row, with the table that it is of.
REFERENCES = {
    table: [(COLUMNS[table].index(column), other) for column, other in REFERENCE.findall(text)]
    for table, text in DEFINITIONS
}
# The tables that say what the tables' code says, which may be that of many machines.
OF_CODE = [table for table, columns in COLUMNS.items() if columns[1] == "code"]


def shifted(rows: list[list], table: str, bases: dict[str, int]) -> list[list]:
    """The rows with other numbers: each counts from what its table has already."""
    references = [(0, bases[table]), *((place, bases[other]) for place, other in REFERENCES[table])]
    for row in rows:
        for place, base in references:
            if row[place] is not None:
                row[place] += base
    return rows
