# Sourced by the scripts that compare a proved program with itself.

# The least processor time of so many runs, in microseconds. What else runs meanwhile hardly counts.
best() {
  local runs=$1 least= took log
  shift
  log=$(mktemp)
  for _ in $(seq "$runs"); do
    perf stat -x, -e task-clock -o "$log" "$@" >/dev/null || return 1
    took=$(($(grep task-clock "$log" | cut -d, -f4) / 1000))
    [ -z "$least" ] || [ "$took" -lt "$least" ] && least=$took
  done
  rm -f "$log"
  echo "$least"
}

# What is compared, in which unit, and how many times the first the second is.
ratio() {
  printf '%s: %d %s and %d %s, ratio %d.%02d\n' "$1" "$3" "$2" "$4" "$2" $(($4 / $3)) $(($4 * 100 / $3 % 100))
}
