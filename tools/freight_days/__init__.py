"""Days of a carrier in France that are made from a number, as instances of the program.

Nothing here is proved: it makes inputs to try the program on. docs/formats.md has the records.
"""
