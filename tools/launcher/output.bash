# shellcheck shell=bash disable=SC2154 # ./freight has the words
# Hands the answer on: to standard output, or to files that are written whole or not at all.

parts=() targets=()

# Ends with 31 where an answer can't take the place of a file.
look_at_target() {
  local file
  if [ -d "$1" ]; then
    say "$1 is a folder, and the answer needs a file"
  elif [ -e "$1" ] && [ ! -f "$1" ]; then
    say "$1 is no plain file: > hands the answer on to it"
  else
    for file in ${files[@]+"${files[@]}"}; do
      [ ! "$file" -ef "$1" ] || { say "$1 is read by this run, and would be written over" && exit 31; }
    done
    return 0
  fi
  exit 31
}

# Gives a new file the mode of the one whose place it takes, or else that of any new file.
set_mode() {
  if [ -e "$2" ]; then
    chmod --reference="$2" "$1"
  else
    chmod "$(printf %o "$((0666 & ~0$(umask)))")" "$1"
  fi
} 2>/dev/null

# Opens a new file beside one that an answer is to take the place of. No run on another machine opens the same.
# No signal ends what makes it, so that it is known and taken away.
open_part() {
  local target part
  look_at_target "$1"
  if ! target=$(readlink -f -- "$1") || ! part=$(trap '' HUP INT TERM; mktemp "${target%/*}/.freight.XXXXXX" 2>/dev/null); then
    say "$1 can't be written there: its folder isn't here, or nothing may be written to it"
    exit 31
  fi
  set_mode "$part" "$target"
  parts+=("$part") targets+=("$target")
}

# Opens what -o and --certificate name. It comes before the run, which may be long.
open_parts() {
  [ -z "$certificate" ] || open_part "$certificate"
  [ -z "$output" ] || open_part "$output"
  [ "${#targets[@]}" -lt 2 ] || [ "${targets[0]}" != "${targets[1]}" ] || {
    say "$output can't hold both the answer and its certificate"
    exit 31
  }
}

# The answer as it is shown: of a timetable its own lines alone, where that is asked for.
shown() {
  if [ -n "$timetable_only" ] && is_answer; then
    printf %s "$answer" | grep -E '^(answer|leg|truck|end)(,|$)'
  else
    printf %s "$answer"
  fi
}

# Whether the run ended with an answer, and not with a refusal or a failure.
is_answer() {
  has_word "$answers" "$status"
}

# Writes the files, and puts each in its place where all are whole.
write_files() {
  local at=0
  [ -z "$certificate" ] || { printf %s "$answer" >"${parts[0]}" && at=1; } || return
  [ -z "$output" ] || shown >"${parts[at]}" || return
  for at in "${!parts[@]}"; do
    mv -f -- "${parts[at]}" "${targets[at]}" || return
  done
  parts=()
}

# Hands the answer on. Where a write fails, the status is 31.
deliver() {
  trap '' PIPE
  {
    if is_answer; then
      write_files && { [ -n "$output" ] || shown; }
    else
      shown
    fi || status=31
  } 2>/dev/null
}
