"""The options, and the name, among the words of a run of the program."""

# The options of a search whose number may stand as a word of its own.
NUMBERED = ("--rounds", "--branches", "--seconds", "--scale")


def option(words, name, without):
    """The number that the words give to an option."""
    for place, word in enumerate(words):
        if word == name:
            return int(words[place + 1])
        if word.startswith(f"{name}="):
            return int(word[len(name) + 1 :])
    return without


def name_among(words):
    """The word after the command that is no option and no option's number, or None."""
    for before, word in zip(words, words[1:]):
        if before not in NUMBERED and (not word.startswith("-") or word == "-"):
            return word
    return None
