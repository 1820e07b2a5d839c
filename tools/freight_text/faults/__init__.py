"""A second reading of the records, outside the proof: all their faults, where the program tells the first.

It reads the records one by one as docs/formats.md says, and looks for the faults of each in the order of their codes. After
a fault it goes on with what the record seems to mean, so that what follows from the fault isn't told as another.
"""
