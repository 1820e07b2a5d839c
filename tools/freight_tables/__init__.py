"""A carrier's tables to an instance of the program, and an answer back in the carrier's names, dates and units.

Nothing here is proved, and nothing here decides anything about plans: what a table says is written as docs/formats.md has an
instance, and what the program printed is written as tables. docs/tables.md is the page for those who use it.
"""
