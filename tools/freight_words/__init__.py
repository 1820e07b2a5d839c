"""The words of ./freight, described once: the usage, the help pages, the completions, the manual page and the launcher's table.

tools/words writes all of these from `description`.
"""
