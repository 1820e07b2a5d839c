# shellcheck shell=bash disable=SC2154 # ./freight has the words
# Says on standard error what an answer means, where it asks for words.

python_wanted='Python 3.9 or later, with its whole library'

has_python() {
  python3 -c 'import sys, csv, dataclasses, heapq, json; sys.exit(sys.version_info < (3, 9))' </dev/null >/dev/null 2>&1
}

# What the answer means, by tools/explain.
explain() {
  case $status in 10 | 11 | 12 | 21 | 22 | 30 | 31 | 40 | 41) ;; *) return 0 ;; esac
  if [ "$status" -eq 31 ] && [ "${#parts[@]}" -gt 0 ]; then
    say 'a write failed (status 31): no file was written in part'
    return
  fi
  [ -z "${FREIGHT_QUIET:-}" ] && [ -n "$folder" ] && has_word "$readers" "${words[0]}" || return 0
  if ! has_python; then
    say "status $status: install $python_wanted (python3) for a word on what it means; docs/launcher.md has the statuses"
  elif printf %s "$answer" 2>/dev/null >"$folder/answer"; then
    python3 "$top/tools/explain" "$status" "$folder/input" "$folder/answer" "${words[@]}" </dev/null || true
    case $status in 12 | 21) say_starts ;; esac
  fi
}

# Why the program didn't start, or was ended by a signal. It has none of these statuses of its own, and this fails where the
# status is one of its own.
explain_start() {
  case $status in
  1) say 'the program did not start (status 1): its C library has to be glibc 2.34 or later, as in Debian 12, Ubuntu 22.04 and RHEL 9' ;;
  126) say "the program can't be run here (status 126): it is for x86-64 Linux, this machine is $(uname -sm), or its folder may not run programs" ;;
  127) say 'the program, or the loader that it needs, is not here (status 127): it needs Linux with glibc 2.34 or later' ;;
  *)
    [ "$status" -gt 128 ] && say "the program was ended by signal $((status - 128)), without an answer"
    ;;
  esac
}
