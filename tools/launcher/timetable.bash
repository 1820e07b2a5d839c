# shellcheck shell=bash disable=SC2154 # ./freight has the words
# Hands over the best timetable so far where a search has ended without an answer, once the program's own `check` has accepted it.

# Why there is no answer.
reason() {
  if [ "$stopped" = INT ]; then
    echo 'stopped by Ctrl-C (SIGINT)'
  elif [ -n "$stopped" ]; then
    echo "stopped by SIG$stopped"
  elif [ "$status" -gt 128 ]; then
    echo "the program was ended by signal $((status - 128))"
  elif [ "$status" -eq 40 ]; then
    echo "there wasn't memory enough"
  else
    echo 'the answer was lost'
  fi
}

# The records before the first of a kind, as a program reads them: a lone carriage return ends a line too.
before_first() {
  LC_ALL=C tr '\r' '\n' <"$folder/input" | LC_ALL=C sed "/^[[:blank:]\"]*$1[[:blank:]\",]/,\$d"
}

# The instance, with the kept legs and the present, and without the answer that `improve` goes on from.
instance() {
  case ${words[0]} in
  improve) before_first answer ;;
  *) cat "$folder/input" ;;
  esac
}

# Has the program check the timetable of a file, and sets `status` to what it ends with.
check_timetable() {
  heeding_no_signal checked_text "$1" | heeding_no_signal exec "$program" check >/dev/null 2>&1 &
  job=$!
  wait_for "$job"
  job=
}

# The instance and the timetable of a file.
checked_text() {
  instance && echo && cat "$1"
}

# Hands the timetable of a file on as an answer. It fails where a write does.
deliver_timetable() {
  status=10
  answer=$(cat "$1" && echo .) || return
  answer=${answer%.}
  deliver
  [ "$status" -eq 10 ]
}

# Checks the timetable of a file and hands it over, REASON FILE, and sets `status` to 31 where a write failed.
hand_timetable_over() {
  local is_checked='which check accepts'
  check_timetable "$2"
  case $status in
  0) ;;
  12 | 21 | 22)
    say "$1: check doesn't accept the best timetable so far (status $status), and it isn't handed over"
    return
    ;;
  *) is_checked="which couldn't be checked (status $status)" ;;
  esac
  heeding_no_signal deliver_timetable "$2" &
  job=$!
  wait_for "$job"
  job=
  if [ "$status" -eq 0 ]; then
    say "$1: $(figures_of 1); its timetable, $is_checked, is ${output:+in }${output:-on standard output}"
  else
    say "$1: a write failed (status 31), and the best timetable so far isn't handed over whole"
    status=31
  fi
}

# Ends a search that has no answer with what was noted last. The status is that of the signal, or else what the program ended with.
hand_over() {
  local ended=$status why
  why=$(reason)
  [ -z "$stopped" ] || ended=$((128 + numbers["$stopped"]))
  exec 4>&-
  if [ "${words[0]}" = quote ]; then
    say "$why: without ${shipment:-the last shipment} $(figures_of 1); with it $(figures_of 2)"
  elif [ -z "${files_noted[1]:-}" ]; then
    say "$why: no plan was found yet, so there is no timetable to hand over"
  else
    hand_timetable_over "$why" "$folder/${files_noted[1]}"
    [ "$status" -ne 31 ] || ended=31
  fi
  status=$ended
}
