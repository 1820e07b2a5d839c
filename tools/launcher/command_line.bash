# shellcheck shell=bash disable=SC2154 # the table is sourced by ./freight
# Reads the words that ./freight was given: what is the program's, which files are to be read, and what the launcher is asked for.

words=() files=() output='' certificate='' shipment='' timetable_only='' allow_empty='' wants_help=''

# Whether a list of words, parted by blanks, has a word.
has_word() {
  case $2 in '' | *' '*) return 1 ;; esac
  case " $1 " in *" $2 "*) ;; *) return 1 ;; esac
}

# The long name of an option of the launcher.
long_name() {
  case $1 in -o) echo --output ;; -h) echo --help ;; *) echo "$1" ;; esac
}

# The name of the variable that an option of the launcher sets.
variable_of() {
  case $(long_name "$1") in
  --output) echo output ;;
  --certificate) echo certificate ;;
  --shipment) echo shipment ;;
  --timetable-only) echo timetable_only ;;
  --allow-empty) echo allow_empty ;;
  --help) echo wants_help ;;
  esac
}

takes_file() {
  case $1 in -o | --output | --certificate) ;; *) return 1 ;; esac
}

# Whether an option of the launcher takes a word, which is the name of a file or of a shipment.
takes_word() {
  takes_file "$1" || [ "$1" = --shipment ]
}

# Whether an option can take a word: no file is called -, and the program takes no word for a name that begins as an option does.
is_value() {
  if takes_file "$1"; then
    [ -n "$2" ] && [ "$2" != - ]
  else
    case $2 in '' | -?*) return 1 ;; esac
  fi
}

# Takes an option of the launcher, and what stands after it, and sets `taken` to how many words that were. It fails where the
# option stands twice, has no value that it needs or one that it doesn't take.
read_own_option() {
  local name=${1%%=*} value=yes variable
  variable=$(variable_of "$name")
  [ -z "${!variable}" ] || return 1
  taken=1
  if takes_word "$name"; then
    if [ "$name" = "$1" ]; then
      value=${2:-} taken=2
    else
      value=${1#*=}
    fi
    is_value "$name" "$value" || return 1
  elif [ "$name" != "$1" ]; then
    return 1
  fi
  printf -v "$variable" %s "$value"
}

# Takes an option, COMMAND OPTION WORD..: one of the launcher is kept here, any other is for the program, with its number.
read_option() {
  local name=${2%%=*}
  taken=1
  if has_word "${own_options[$1]:-}" "$name"; then
    read_own_option "${@:2}"
  elif [ "$name" = "$2" ] && [ -n "${ranges[$name]:-}" ] && [ $# -gt 2 ]; then
    taken=2
    words+=("$2" "$3")
  else
    words+=("$2")
  fi
}

# Reads a command and all that stands after it. It fails where an option of the launcher is at fault. The name of a shipment is the
# program's word after the command, so that no option takes it for its number.
read_words() {
  local command=$1 left
  # shellcheck disable=SC2206 # no name has a blank
  left=(${places[$1]:-})
  words=("$1")
  shift
  while [ $# -gt 0 ]; do
    taken=1
    case $1 in
    -?*) read_option "$command" "$@" || return ;;
    *)
      if [ "${#left[@]}" -eq 0 ] && has_word "$readers" "$command"; then
        files+=("$1")
      else
        left=("${left[@]:1}")
        words+=("$1")
      fi
      ;;
    esac
    shift "$taken"
  done
  [ -z "$shipment" ] || words=("$command" "$shipment" "${words[@]:1}")
}

# Whether the words ask for anything that isn't the program's.
has_own_words() {
  [ "${#files[@]}" -gt 0 ] || [ -n "$output$certificate$shipment$timetable_only$allow_empty$wants_help" ]
}
