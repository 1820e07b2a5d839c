"""The blocks of a page in Markdown."""


def blocks(page):
    """The indented blocks of a page, each as one text."""
    found, lines = [], []
    for line in [*page.read_text().splitlines(), "end"]:
        if line.startswith("    ") or (lines and not line):
            lines.append(line[4:])
        elif lines:
            found.append("\n".join(lines).strip() + "\n")
            lines = []
    return found
