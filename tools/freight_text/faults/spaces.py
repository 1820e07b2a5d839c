"""Blanks that look like a space and are none, which pages and word processors leave in a text."""

# Each as it is in UTF-8, read byte by byte or decoded, and what it's called. The last comes from other encodings.
SPACES = {
    "\u00a0": "a no-break space", "\u202f": "a narrow no-break space", "\u2007": "a space as wide as a digit", "\u2009": "a thin space",
    "\u200b": "a space without width", "\ufeff": "a byte order mark",
}  # fmt: skip


def odd_space_hint(text):
    """Which blank stands in a field, as it was read or decoded, and what to do; empty where there is none."""
    for space, name in SPACES.items():
        if space in text or space.encode("utf-8").decode("latin-1") in text:
            return f"{name} stands in it (bytes {space.encode('utf-8').hex(' ')} in UTF-8): take it out, or write a plain space"
    return ""
