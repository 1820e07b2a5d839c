"""The files that are made from the description, by their paths from the top of the repository."""

from . import completions, manual, shell, texts


def made():
    """Each path, and the text that the file has to have."""
    files = {
        "tools/usage.txt": texts.usage(),
        "tools/launcher/words.bash": shell.table(),
        "tools/completions/freight.bash": completions.bash(),
        "tools/completions/_freight": completions.zsh(),
        "tools/completions/freight.fish": completions.fish(),
        "docs/freight.1": manual.manual(),
    }
    files.update({f"tools/launcher/help/{name}.txt": text for name, text in texts.pages().items() if name != "help"})
    return files
