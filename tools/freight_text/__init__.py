"""What the program reads and prints, looked at from outside its proof.

Nothing here decides anything: the program has answered before, and these modules look for the place that its answer
speaks of, as docs/formats.md describes inputs, certificates and answers.
"""
