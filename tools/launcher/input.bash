# shellcheck shell=bash disable=SC2154 # ./freight has the words
# Gathers what the program is to read. It is kept in a folder of its own, so that an answer can be explained from it.

folder='' starts=()

# A folder of its own below a place, where a million bytes fit and a pipe can stand: sets `folder`, or `why` there is none.
# No signal ends what makes it, so that it is known and taken away.
open_folder() {
  folder=$(trap '' HUP INT TERM; mktemp -d "$1/freight.XXXXXX" 2>/dev/null) || {
    folder='' why="$1 isn't a folder that can be written to"
    return 1
  }
  if { printf '%1000000s' '' >"$folder/room" && rm "$folder/room" && mkfifo "$folder/pipe"; } 2>/dev/null; then
    return
  fi
  rm -rf "$folder"
  folder='' why="$1 has no room"
  return 1
}

# The first folder that will do. What is wrong with the one that TMPDIR names is said.
find_folder() {
  local place why first=
  for place in "${TMPDIR:-/tmp}" /tmp /var/tmp /dev/shm; do
    if open_folder "$place"; then
      [ -z "$first" ] || say "$first: $place is used (TMPDIR names the folder)"
      return
    fi
    first=${first:-$why}
  done
  say "$first, and no other folder will do: the answer comes without a word on what it means"
  return 1
}

# Whether a file's last byte ends a line, or it has none.
ends_line() {
  [ ! -s "$1" ] || [ "$(tail -c 1 "$1" | wc -l)" -eq 1 ]
}

# What is said of a file that isn't here and may be meant as the name of a shipment.
name_hint() {
  if [ "${words[0]}" = quote ] && [ -z "$shipment" ] && [[ $1 != *[!A-Za-z0-9_-]* ]]; then
    echo ": a shipment is named by --shipment $1"
  fi
}

# Ends with 30 where a file can't be read, before anything is.
look_at_files() {
  local file
  for file in ${files[@]+"${files[@]}"}; do
    if [ "$file" = - ]; then
      continue
    elif [ ! -e "$file" ]; then
      say "$file isn't here$(name_hint "$file")"
    elif [ -d "$file" ]; then
      say "$file is a folder, and no file"
    elif [ ! -r "$file" ]; then
      say "$file may not be read"
    else
      continue
    fi
    exit 30
  done
  return 0
}

# Hands on the files one after the other, or standard input, each but the last ended by a line feed.
hand_on_files() {
  local file last=
  for file in "${files[@]:--}"; do
    [ -z "$last" ] || { [ -f "$last" ] && ends_line "$last"; } || echo
    cat -- "$file" || return
    last=$file
  done
}

# Copies what is to be read to the folder. The status is 30 where a read failed, and 31 where there is no room.
gather() {
  local file fault
  : >"$folder/input"
  for file in "${files[@]:--}"; do
    ends_line "$folder/input" || echo >>"$folder/input"
    starts+=("$(($(wc -l <"$folder/input") + 1))")
    fault=$({ LC_ALL=C cat -- "$file" >>"$folder/input"; } 2>&1) && continue
    case $fault in *'write error'*) return 31 ;; *) return 30 ;; esac
  done
}

# Whether all that was read can be read once more: pipes can't be.
can_be_read_again() {
  local file
  for file in "${files[@]:--}"; do
    [ "$file" != - ] && [ -f "$file" ] || return 1
  done
}

# Whether what was read has no record of a shipment. A lone carriage return ends a line too.
is_empty() {
  ! tr '\r' '\n' <"$folder/input" | grep -aq '^[[:blank:]"]*shipment[[:blank:]",]'
}

# On which line of what was read each file begins, where there is more than one.
say_starts() {
  local at
  for ((at = 1; at < ${#files[@]}; at++)); do
    say "lines are counted through all files: ${files[at]} begins at line ${starts[at]}"
  done
}
