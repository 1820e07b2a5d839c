# shellcheck shell=bash disable=SC2154 # ./freight has the jobs
# What a signal does. While the program searches the first one ends the program, and what it has so far is handed over; a later one
# ends the launcher at once. At any other time a signal ends the launcher.

declare -A numbers=([HUP]=1 [INT]=2 [TERM]=15)
held='' stopped='' stopped_at=0 signals=0
# Signals that are so many microseconds apart are one: `timeout` sends its own twice, and a terminal that goes away two of them.
apart=200000

# Sets `moment` to the microseconds of a clock. Before bash 5 it's a clock of seconds.
look_at_clock() {
  moment=${EPOCHREALTIME:-$SECONDS.000000}
  moment=${moment//[!0-9]/}
}

# Lets signals wait, so that what is opened meanwhile is known, and taken away when one has ended the launcher.
hold_signals() {
  local name
  # shellcheck disable=SC2064 # the name is that of now
  for name in "${!numbers[@]}"; do trap "held=$name" "$name"; done
}

# Lets a signal end the launcher again, also one that has waited.
let_signals_end() {
  trap - "${!numbers[@]}"
  [ -z "$held" ] || kill -s "$held" $$
}

# Takes signals for those that stop a search.
take_signals() {
  local name
  # shellcheck disable=SC2064 # the name is that of now
  for name in "${!numbers[@]}"; do trap "take_signal $name" "$name"; done
}

# shellcheck disable=SC2317 # a trap calls this
take_signal() {
  signals=$((signals + 1))
  look_at_clock
  if [ -z "$stopped" ]; then
    stopped=$1 stopped_at=$moment
    [ -z "$child" ] || kill "$child" 2>/dev/null
  elif [ $((moment - stopped_at)) -ge "$apart" ]; then
    end_line
    exit $((128 + numbers[$1]))
  fi
}

# Waits for the end of a job, whatever signals come meanwhile, and sets `status` to its own.
wait_for() {
  local before
  while :; do
    before=$signals
    wait "$1" 2>/dev/null
    status=$?
    [ "$status" -gt 128 ] && [ "$before" -ne "$signals" ] || return 0
  done
}

# Runs a command, in a shell of its own beside the launcher, that no signal ends but the launcher's second.
heeding_no_signal() {
  trap '' HUP INT TERM
  "$@"
}
