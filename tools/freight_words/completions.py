"""Completions for bash, zsh and fish."""

from .description import COMMANDS, WHOLE, options_of
from .texts import option_line

MADE = "# Made by tools/words from tools/freight_words/description.py: change that, and run tools/words."
NAMES = [it.name for it in COMMANDS]


def names_of(option):
    return [it for it in (option.short, option.name) if it]


def all_names(options):
    return " ".join(name for option in options for name in names_of(option))


def valued(kind):
    """The names of the options whose value is of a kind, `FILE`, `N`, `NAME` or `TEXT`."""
    found = {name: None for it in COMMANDS for option in options_of(it) if option.value == kind for name in names_of(option)}
    return " | ".join(found)


def bash():
    """The text of tools/completions/freight.bash."""
    cases = [f"  {it.name}) words='{all_names(options_of(it))}' ;;" for it in COMMANDS if it.name != "help"]
    lines = [
        MADE, "# Source this file, or lay it as `freight` in ~/.local/share/bash-completion/completions/.", "",
        "# The options of a command.", "_freight_options() {", "  local words=", "  case $1 in", *cases, "  esac", '  echo "$words"', "}", "",
        "# What may stand where the cursor is. Without a reply bash completes the names of files.", "_freight() {",
        '  local word=${COMP_WORDS[COMP_CWORD]} before=${COMP_WORDS[COMP_CWORD - 1]} words=', "  COMPREPLY=()",
        f"  case $before in {' | '.join(map(valued, ('N', 'FILE', 'NAME', 'TEXT')))}) return ;; esac", '  case "$COMP_CWORD ${COMP_WORDS[1]} $word" in',
        f"  1\\ *) words='{' '.join(NAMES)} {all_names(WHOLE)}' ;;", f"  2\\ help\\ *) words='{' '.join(NAMES)}' ;;",
        '  *\\ -*) words=$(_freight_options "${COMP_WORDS[1]}") ;;', "  esac",
        "  # shellcheck disable=SC2207 # no word has a blank", '  COMPREPLY=($(compgen -W "$words" -- "$word"))', "}",
        "complete -o default -F _freight freight ./freight",
    ]  # fmt: skip
    return "\n".join(lines) + "\n"


def quoted(text):
    """A text between single quotes, as zsh and fish read it where it has no backslash."""
    return "'" + text.replace("'", "'\\''") + "'"


def zsh_argument(option):
    names = names_of(option)
    value = {"": "", "N": f":N, {option.range}:", "FILE": ":file:_files", "NAME": ":name:", "TEXT": ":text:"}[option.value]
    described = f"[{option_line(option)}]".replace(":", "\\:")
    shut = f"({' '.join(names)})" if len(names) > 1 else ""
    return [quoted(f"{shut}{name}{described}{value}") for name in names]


def zsh_case(command):
    arguments = [text for option in options_of(command) for text in zsh_argument(option)]
    files = ["'*:file:_files'"] if command.reads or command.script else []
    return " ".join([f"  {command.name}) _arguments", *arguments, *files, ";;"])


def zsh():
    """The text of tools/completions/_freight."""
    described = [quoted(f"{it.name}:{it.line}") for it in COMMANDS]
    whole = [text for option in WHOLE for text in zsh_argument(option)]
    lines = [
        "#compdef freight ./freight", MADE, "# Lay this file in a folder of $fpath, before compinit.", "", "_freight() {", "  local -a commands",
        "  commands=(", *(f"    {it}" for it in described), "  )", "  if ((CURRENT == 2)); then", "    _describe command commands",
        f"    _arguments {' '.join(whole)}", "    return", "  fi", "  shift words", "  ((CURRENT--))", "  case $words[1] in",
        *(zsh_case(it) for it in COMMANDS if it.name != "help"), "  help) _describe command commands ;;", "  esac", "}", '_freight "$@"',
    ]  # fmt: skip
    return "\n".join(lines) + "\n"


def fish_option(condition, option):
    short = f" -s {option.short[1:]}" if option.short else ""
    value = {"": "", "N": " -x", "FILE": " -r -F", "NAME": " -x", "TEXT": " -x"}[option.value]
    return f"complete -c freight -n {quoted(condition)}{short} -l {option.name[2:]}{value} -d {quoted(option_line(option))}"


def fish():
    """The text of tools/completions/freight.fish."""
    first, lines = "__fish_use_subcommand", [MADE, "# Lay this file in ~/.config/fish/completions/.", ""]
    lines += [f"complete -c freight -f -n {first} -a {it.name} -d {quoted(it.line)}" for it in COMMANDS]
    lines += [fish_option(first, option) for option in WHOLE]
    lines.append(f"complete -c freight -f -n '__fish_seen_subcommand_from help' -a {quoted(' '.join(NAMES))}")
    for it in COMMANDS:
        if it.name != "help":
            lines += [fish_option(f"__fish_seen_subcommand_from {it.name}", option) for option in options_of(it)]
    return "\n".join(lines) + "\n"
