# shellcheck shell=bash disable=SC2034,SC2154 # ./freight has the words, and other files use what is set here
# The notes that the program writes while it searches: they are kept in the folder, and shown in a line where standard error is a
# terminal.

# What was noted last of each search (a quote has two): a file of the folder, cost, bound, gap, rounds and branches.
files_noted=() costs=() bounds=() gaps=() rounds=() branches=()
searches=0 is_drawn='' drawn_at=0

# Whether the words ask the program for its notes. Then they are the user's, and nothing is drawn.
asks_for_notes() {
  local word
  for word in "${words[@]}"; do [ "$word" != --notes ] || return 0; done
  return 1
}

# Whether a command has notes that can be kept here.
has_notes() {
  has_word "${options[$1]:-}" --notes && command -v awk >/dev/null
}

# Whether a line is shown.
draws() {
  [ -t 2 ] && [ -z "${FREIGHT_QUIET:-}" ] && ! asks_for_notes
}

# Hands the notes on, and ends the last line where a kill has cut it off: not every awk reads such a one rightly.
end_last_line() {
  cat
  echo
}

# Keeps the notes on standard input, and tells on standard output what was noted. It ends when they do, and by no signal before.
# One awk, that of Debian, waits for many lines where it isn't asked to read each.
keep_notes() {
  local asked=() raw=''
  case $(awk -W version 2>&1 </dev/null) in mawk*) asked=(-W interactive) ;; esac
  if asks_for_notes; then
    raw=yes
  elif [ -n "${FREIGHT_QUIET:-}" ]; then
    exec 2>/dev/null
  fi
  cd "$folder" && LC_ALL=C exec awk ${asked[@]+"${asked[@]}"} -v raw="$raw" -f "$top/tools/launcher/notes.awk"
}

# Takes what was noted: a line of the above. A line that was read in part is passed over.
take_note() {
  [ $# -eq 7 ] || return 0
  searches=$1
  files_noted[searches]=$2 costs[searches]=$3 bounds[searches]=$4 gaps[searches]=$5 rounds[searches]=$6 branches[searches]=$7
}

# Draws the line of a search over the one before, once a second. A narrow terminal cuts it off, so that it stays one line.
draw() {
  local at=$searches text
  draws && [ "$SECONDS" -ne "$drawn_at" ] || return 0
  drawn_at=$SECONDS is_drawn=yes
  text="freight: $((SECONDS - began)) s"
  [ "${words[0]}" != quote ] || [ "$at" -eq 0 ] || text+=", search $at of 2"
  [ "$at" -eq 0 ] || text+=", cost ${costs[at]}, bound ${bounds[at]}, gap ${gaps[at]} %, rounds ${rounds[at]}, branches ${branches[at]}"
  printf '\033[?7l\r%s\033[K\033[?7h' "$text" >&2
}

# Takes the line away.
end_line() {
  [ -z "$is_drawn" ] || printf '\r\033[K' >&2
  is_drawn=
}

# The number that an option has, or else the one that it has without being named.
number_of() {
  local at
  for ((at = 1; at < ${#words[@]}; at++)); do
    case ${words[at]} in
    "$1") echo "$((10#${words[at + 1]}))" && return ;;
    "$1"=*) echo "$((10#${words[at]#*=}))" && return ;;
    esac
  done
  echo "${without[$1]:-}"
}

# Says until when a search goes on that has no end by the clock.
say_until() {
  local goes='the search goes on until its plan is proved the cheapest, or its' gives='hands over the best timetable so far'
  draws && [ -z "$(number_of --seconds)" ] || return 0
  if [ "${words[0]}" = quote ]; then
    goes='two searches go on, each until its plan is proved the cheapest, or its' gives='ends them and says how far they are'
  fi
  say "$goes $(number_of --rounds) rounds or $(number_of --branches) branches are used up, which may take hours: Ctrl-C $gives (--seconds N sets an end)"
}

# Whether the search is among the plans that keep legs or go on with a day.
keeps_records() {
  case ${words[0]} in
  replan) true ;;
  improve) LC_ALL=C tr '\r' '\n' <"$folder/input" | LC_ALL=C grep -aqE '^[[:blank:]"]*(kept|now)[[:blank:]",]' ;;
  *) false ;;
  esac
}

# What the last note of a search says of a plan, SEARCH.
figures_of() {
  local none=none
  ! keeps_records || none='none that keeps the legs or goes on from now'
  case ${costs[$1]:-}+${bounds[$1]:-} in
  +) echo 'there is no plan yet' ;;
  *+-) echo "the cheapest plan so far costs ${costs[$1]}" ;;
  *) echo "the cheapest plan so far costs ${costs[$1]}, and $none costs less than ${bounds[$1]} (a gap of ${gaps[$1]} %)" ;;
  esac
}
