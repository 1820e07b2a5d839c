# shellcheck shell=bash disable=SC2154 # the table is sourced by ./freight
# Says which word is at fault, in one sentence. The program has refused the words, or the launcher has: nothing is decided here.

# The next row of the distances between the front of a word, which ends with a letter, and each front of another word.
next_row() {
  local letter=$1 other=$2 at before=${row[0]} here
  row[0]=$((before + 1))
  for ((at = 1; at <= ${#other}; at++)); do
    here=${row[at]}
    [ "$letter" = "${other:at-1:1}" ] || before=$((before + 1))
    ((row[at - 1] + 1 >= before)) || before=$((row[at - 1] + 1))
    ((here + 1 >= before)) || before=$((here + 1))
    row[at]=$before before=$here
  done
}

# Sets `distance`: how many letters have to be put in, left out or changed to make one word another.
measure() {
  local at
  row=(0)
  for ((at = 1; at <= ${#2}; at++)); do row[at]=$at; done
  for ((at = 1; at <= ${#1}; at++)); do next_row "${1:at-1:1}" "$2"; done
  distance=${row[${#2}]}
}

# ": did you mean WORD?" with the word of a list that a word begins, or else that is nearest to it, where one is near.
nearest() {
  local word bare=${1#--} least found=
  least=$(((${#bare} + 2) / 3))
  [ "${#bare}" -ge 3 ] && [ "${#1}" -lt 40 ] || return 0
  for word in $2; do
    measure "$1" "$word"
    case $word in "$1"*) distance=0 ;; esac
    ((distance > least)) || found=$word least=$((distance - 1))
  done
  [ -z "$found" ] || echo ": did you mean $found?"
}

# Whether a number begins with a 0 too many, RANGE-KEY VALUE.
is_padded() {
  case $2 in 0?*) [[ " $unpadded " == *" $1 "* ]] ;; *) return 1 ;; esac
}

# Says what is wrong with a number, NAME RANGE-KEY VALUE. It fails where nothing is.
number_fault() {
  local shown=${ranges[$2]} low=${least[$2]} high=${most[$2]}
  case $3 in
  '' | *[!0-9]*) echo "$1 takes a whole number, $shown, and \"$3\" is none" ;;
  ???????????*) echo "$1 takes $shown in at most ten digits, and $3 has ${#3}" ;;
  *)
    if ((10#$3 < low || 10#$3 > high)); then
      echo "$1 takes $shown, and $3 is out of that range"
    else
      is_padded "$2" "$3" && echo "$1 takes $shown without a 0 before it, and $3 has one"
    fi
    ;;
  esac
}

# The commands that take an option, as "plan, replan".
takers() {
  local command found=
  for command in $commands; do
    ! has_word "${options[$command]:-} ${own_options[$command]:-}" "$1" || found="$found, $command"
  done
  echo "${found#, }"
}

# Says that a command doesn't take an option.
foreign_option() {
  local others
  others=$(takers "$2")
  if [ "$2" = -- ]; then
    echo '-- is no word here: a file whose name begins with - is written with ./ before it'
  elif [ -n "$others" ]; then
    echo "$1 doesn't take $2: it is an option of $others"
  else
    echo "$1 has no option $2$(nearest "$2" "${options[$1]:-} ${own_options[$1]:-}")"
  fi
}

# Says what is wrong with the name of a shipment, OPTION NAME. It fails where nothing is.
name_fault() {
  case $2 in
  '') echo "$1 takes the name of a shipment" ;;
  -?*) echo "$1 takes no name that begins with -, and \"$2\" does: write its record behind all others and leave $1 out, which prices the last shipment" ;;
  *) return 1 ;;
  esac
}

# Says what is wrong with the value of an option, NAME HAS-EQUALS VALUE. It fails where nothing is.
value_fault() {
  if [ -n "${ranges[$1]:-}" ]; then
    number_fault "$1" "$1" "$3"
  elif ! takes_word "$1"; then
    [ -n "$2" ] && echo "$1 takes no value"
  elif ! takes_file "$1"; then
    name_fault "$1" "$3"
  elif [ -z "$3" ]; then
    echo "$1 takes the name of a file"
  else
    [ "$3" = - ] && echo "$1 takes the name of a file: without $1 the answer goes to standard output"
  fi
}

# Says what is wrong with an option, COMMAND NAMED OPTION WORD..; NAMED are the options before it. It sets `taken`, and fails
# where nothing is wrong.
option_fault() {
  local command=$1 named=$2 name=${3%%=*} equals=yes value=${3#*=}
  taken=1
  if ! has_word "${options[$command]:-} ${own_options[$command]:-}" "$name"; then
    foreign_option "$command" "$name"
    return
  fi
  if [ "$name" = "$3" ]; then
    equals='' value=''
    if takes_word "$name" || [ -n "${ranges[$name]:-}" ]; then
      value=${4:-} taken=2
    fi
  fi
  if has_word "$named" "$(long_name "$name")"; then
    echo "$name stands here twice"
  else
    value_fault "$name" "$equals" "$value"
  fi
}

# Says what is wrong with a word in a place, COMMAND NAME WORD. NAME is empty past the last number. It fails where nothing is.
place_fault() {
  if [ -n "$2" ]; then
    number_fault "$2" "$1.$2" "$3"
  elif has_word "$readers" "$1"; then
    return 1
  elif [ "$1" = help ]; then
    ! has_word "$commands" "$3" && echo "\"$3\" is no command$(nearest "$3" "$commands")"
  else
    echo "$1 takes ${places[$1]:-no word} and no word more, and \"$3\" is one"
  fi
}

# Says which word after a command is at fault. It fails where it finds none.
fault_after() {
  local command=$1 named='' left
  # shellcheck disable=SC2206 # no name has a blank
  left=(${places[$1]:-})
  shift
  while [ $# -gt 0 ]; do
    taken=1
    case $1 in
    -?*)
      option_fault "$command" "$named" "$@" && return
      named="$named $(long_name "${1%%=*}")"
      ;;
    *)
      place_fault "$command" "${left[0]:-}" "$1" && return
      left=("${left[@]:1}")
      ;;
    esac
    shift "$((taken < $# ? taken : $#))"
  done
  [ "${#left[@]}" -gt 0 ] && echo "$command takes ${left[0]} too, ${ranges[$command.${left[0]}]}"
}

# Says which word is no command.
command_fault() {
  if [ $# -eq 0 ]; then
    echo 'no command stands here: ./freight plan day.csv plans a day'
  elif [ -f "$1" ]; then
    echo "$1 is a file, and a command stands before it: ./freight plan $1"
  else
    echo "\"$1\" is no command$(nearest "$1" "$commands")"
  fi
}

# One sentence on the word at fault, and where help is.
fault_of() {
  local page=
  if has_word "$commands" "${1:-}"; then
    say "$(fault_after "$@" || echo "$1 doesn't take these words together")"
    [ "$1" = help ] || page=" $1"
  else
    say "$(command_fault "$@")"
  fi
  say "./freight help$page has the words"
}
