# shellcheck shell=bash disable=SC2034,SC2094,SC2154 # ./freight has the words, other files use what is set here, and pipes are no files
# Runs a program that searches, with its notes. Beside the launcher, which waits for signals, stand the program, one that keeps its
# notes, and one that holds its answer in memory. These two heed no signal: they end when the program has, and the launcher says how.

# Opens both ends of a pipe of the folder, of which none waits for the other. Numbers: the answer 3 4, notes 5 6, what was noted 7 8.
open_pipes() {
  mkfifo "$folder/notes" "$folder/noted" 2>/dev/null || return
  exec 9<>"$folder/pipe" 3<"$folder/pipe" 4>"$folder/pipe" 9>&-
  exec 9<>"$folder/notes" 5<"$folder/notes" 6>"$folder/notes" 9>&-
  exec 9<>"$folder/noted" 7<"$folder/noted" 8>"$folder/noted" 9>&-
}

# Holds the answer, until the launcher adds with which status the program ended, and finishes the run with it. Where it adds none,
# the answer is dropped.
hold_answer() {
  answer=$(cat)
  status=${answer##*.}
  case $status in '' | *[!0-9]*) exit ;; esac
  answer=${answer%.*}
  finish "$@"
}

# Starts all three. A signal that came before the program started ends it.
start_search() {
  local asked=("${words[@]}")
  asks_for_notes || asked+=(--notes)
  heeding_no_signal end_last_line <&5 3<&- 4>&- 5<&- 6>&- 7<&- 8>&- |
    heeding_no_signal keep_notes >&8 3<&- 4>&- 5<&- 6>&- 7<&- 8>&- &
  keeper=$!
  heeding_no_signal hold_answer "$@" <&3 3<&- 4>&- 5<&- 6>&- 7<&- 8>&- &
  holder=$!
  "$program" "${asked[@]}" <"$folder/input" >&4 2>&6 3<&- 4>&- 5<&- 6>&- 7<&- 8>&- &
  child=$!
  exec 3<&- 5<&- 6>&- 8>&-
  [ -z "$stopped" ] || kill "$child" 2>/dev/null
}

# Takes what is noted until the program has ended. One that goes on for a second after it was ended is killed.
watch_search() {
  local note
  while :; do
    if read -r -t 1 -u 7 -a note; then
      take_note "${note[@]}"
    elif [ $? -le 128 ] || ! kill -0 "$child" 2>/dev/null; then
      break
    elif [ -n "$stopped" ]; then
      kill -KILL "$child" 2>/dev/null
    fi
    draw
  done
}

# Says with which status the program ended, and waits until its answer is handed on. It fails where nobody holds the answer.
hand_answer_on() {
  trap '' PIPE
  printf .%s "$status" >&4 || return
  exec 4>&-
  wait_for "$holder"
  holder=
} 2>/dev/null

# Runs the program, and ends the run. Where it has no answer, as after a signal or for want of memory, what was noted stands in.
search() {
  local began=$SECONDS
  drawn_at=$SECONDS
  take_signals
  say_until
  start_search "$@"
  watch_search
  wait_for "$child"
  child=
  end_line
  if [ "$status" -gt 128 ] || [ "$status" -eq 40 ]; then
    hand_over
  elif ! hand_answer_on; then
    status=31
    hand_over
  elif [ "$status" -gt 128 ]; then
    say "what handed the answer on was ended by signal $((status - 128))"
  fi
  exit "$status"
}
