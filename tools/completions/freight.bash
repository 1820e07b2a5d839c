# Made by tools/words from tools/freight_words/description.py: change that, and run tools/words.
# Source this file, or lay it as `freight` in ~/.local/share/bash-completion/completions/.

# The options of a command.
_freight_options() {
  local words=
  case $1 in
  direct) words='-o --output --certificate --timetable-only --allow-empty -h --help' ;;
  plan) words='--rounds --branches --scale --seconds --spans --notes -o --output --certificate --timetable-only --allow-empty -h --help' ;;
  improve) words='--rounds --branches --scale --seconds --spans --notes -o --output --certificate --timetable-only --allow-empty -h --help' ;;
  bound) words='--seconds --spans -o --output --allow-empty -h --help' ;;
  check) words='-o --output --allow-empty -h --help' ;;
  yard) words='-o --output --allow-empty -h --help' ;;
  fleet) words='--trucks -o --output --allow-empty -h --help' ;;
  replan) words='--rounds --branches --seconds --spans --notes -o --output --certificate --timetable-only --allow-empty -h --help' ;;
  quote) words='--rounds --branches --seconds --spans --notes --shipment -o --output --allow-empty -h --help' ;;
  trial) words='-o --output -h --help' ;;
  import) words='-o --output --names --columns --zone --day --dates --decimal --time-unit -h --help' ;;
  export) words='-o --output --names --instance --fleet --by --to -h --help' ;;
  picture) words='--names --fleet --zero --unit -h --help' ;;
  esac
  echo "$words"
}

# What may stand where the cursor is. Without a reply bash completes the names of files.
_freight() {
  local word=${COMP_WORDS[COMP_CWORD]} before=${COMP_WORDS[COMP_CWORD - 1]} words=
  COMPREPLY=()
  case $before in --rounds | --branches | --scale | --seconds | -o | --output | --certificate | --names | --instance | --fleet | --shipment | --columns | --zone | --day | --dates | --decimal | --time-unit | --by | --to | --zero | --unit) return ;; esac
  case "$COMP_CWORD ${COMP_WORDS[1]} $word" in
  1\ *) words='direct plan improve bound check yard fleet replan quote trial import export picture help -h --help --version' ;;
  2\ help\ *) words='direct plan improve bound check yard fleet replan quote trial import export picture help' ;;
  *\ -*) words=$(_freight_options "${COMP_WORDS[1]}") ;;
  esac
  # shellcheck disable=SC2207 # no word has a blank
  COMPREPLY=($(compgen -W "$words" -- "$word"))
}
complete -o default -F _freight freight ./freight
