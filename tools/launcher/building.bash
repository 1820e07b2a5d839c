# shellcheck shell=bash disable=SC2154 # tools/records has the paths
# Finds the proved program of these sources, or builds it by proving it.

# Proves and builds the program, and writes down of which sources it is.
build() {
  command -v rt >/dev/null || {
    echo 'freight: no proved program of these sources is here, and neither is the Rattle kit (the command rt) to build it' >&2
    exit 2
  }
  say 'no proved program of these sources is here: proving and building it, once, in an estimated 15 to 40 minutes'
  local log before
  before=$("$top/tools/sources")
  log=$(mktemp) || exit 2
  if ! (cd "$top/crates/freight" && rt run -- direct </dev/null 9<&-) >"$log" 2>&1; then
    cat "$log" >&2
    echo 'freight: the build failed' >&2
    exit 2
  fi
  rm -f "$log"
  "$top/tools/record" "$built" "$built.record" "$before" || exit 2
}

# Waits until no other run builds. Where there are no locks it doesn't wait: at worst two runs build the same program.
wait_for_lock() {
  local held=75
  command -v flock >/dev/null || return 0
  flock -n -E "$held" 9 2>/dev/null
  [ $? -ne "$held" ] || { say 'another run is building the program: waiting for it' && flock 9; }
}

# Builds where it has to. Of runs that start together one builds, and the others wait for it. Over a network a lock may need a
# file that is open for writing.
build_once() {
  local found
  if [ -w "$top/freight" ]; then
    exec 9<>"$top/freight"
  else
    exec 9<"$top/freight"
  fi
  wait_for_lock
  find_program || { build && find_program; }
  found=$?
  exec 9<&-
  return "$found"
}
