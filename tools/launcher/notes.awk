# Reads the notes of a program as they come, and keeps of them the last whole timetable and the last figures. Timetables go to two
# files in turn, and once one is whole a line on standard output names it. So whatever is killed, and when, the file that was named
# last is whole. The lines, with - for what isn't known yet, and GAP in per cent of COST:
#
#   SEARCH FILE COST BOUND GAP ROUNDS BRANCHES
#
# With `raw` all that is read goes to standard error too, and without it what is neither a timetable nor a note. An empty line at the
# end isn't the program's, and was added.

# Whether one number of digits is less than another, both of any length.
function is_less(one, other) {
  return length(one) < length(other) || length(one) == length(other) && (one "") < (other "")
}

function tell() {
  gap = bound == "-" ? "-" : sprintf("%.1f", cost > 0 ? 100 * (cost - bound) / cost : 0)
  print search, file, cost, bound, gap, rounds, branches
  fflush()
}

function hand_on() {
  print | "cat 1>&2"
  fflush("cat 1>&2")
}

# A search begins with a plan that costs no less than the last one of the search before, and each later one is cheaper.
function begin_search() {
  search++
  bound = rounds = branches = "-"
}

# Keeps the lines as a timetable in the file that wasn't named last.
function keep_timetable(    at, other) {
  other = file == "timetable.0" ? "timetable.1" : "timetable.0"
  for (at = 0; at < count; at++) print lines[at] >other
  if (close(other) != 0) return
  if (search == 0 || !is_less(found, cost)) begin_search()
  file = other
  cost = found
  tell()
}

BEGIN {
  FS = ","
  search = 0
  file = cost = "-"
}

$0 == "" { next }

raw { hand_on() }

/^answer,direct,[0-9]+$/ {
  found = $3
  count = 0
  is_inside = 1
}

is_inside {
  lines[count++] = $0
  if ($0 == "end") {
    is_inside = 0
    keep_timetable()
  }
  next
}

# A note that a kill has cut off lacks its bound, or has the front of it, which is a bound too, if not the best.
/^note,[0-9]+,[0-9]+,[0-9]+,[0-9]+$/ && search > 0 {
  if (bound == "-" || !is_less($5, bound)) {
    rounds = $2
    branches = $3
    bound = $5
    tell()
  }
  next
}

!raw { hand_on() }
