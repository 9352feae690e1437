# A read that is refused takes no buffer: thirty refused reads of the greatest length that a line may name take hardly more
# processor time than thirty of one byte, the least of five times each. They are refused by the handle's state, by the length
# that a read may have, and by the end of the export; each tells so, and its callbacks are freed. Where each filled a buffer
# first, thirty of 64 MiB took more than a second.
. checks/need.sh

program=$(tools/built lnbd) || exit 1
dir=$(mktemp -d)
trap 'rm -rf "$dir"' EXIT
times=30
greatest=67108864
size=1048576
# Milliseconds of processor time that one refused read may take more than one of a byte.
apart=3

# script LINE WANTED: so many such lines, on a handle that is connected where READY is set.
script() {
  { [ -z "$READY" ] || printf '%s\n' "connect unix $dir/socket" settle; yes "$1" | head -n $times; } >"$dir/script"
  { [ -z "$READY" ] || printf '%s\n' connected settled; yes "$2" | head -n $times; echo "opened $freed freed $freed"; } >"$dir/wanted"
}

# once: the milliseconds of processor time of the script; nothing where it told something else.
once() {
  local server=
  if [ -n "$READY" ]; then
    rm -f "$dir/socket"
    "$program" serve "nbd+unix:///?socket=$dir/socket" --size $size --sessions 1 >/dev/null 2>&1 &
    server=$!
    awaited "$dir/socket"
  fi
  TIMEFORMAT='%3U %3S'
  { time timeout 60 "$program" nbdcalls <"$dir/script" >"$dir/out" 2>"$dir/err"; } 2>"$dir/time"
  if [ -n "$server" ]; then
    kill "$server" 2>/dev/null
    wait "$server" 2>/dev/null
  fi
  cmp -s "$dir/out" "$dir/wanted" && awk '{ printf "%d", ($1 + $2) * 1000 }' "$dir/time"
}

# least LINE WANTED: the least of five times; nothing where one went wrong.
least() {
  local best= took
  script "$1" "$2"
  for _ in 1 2 3 4 5; do
    took=$(once)
    [ -n "$took" ] || return
    [ -z "$best" ] || [ "$took" -lt "$best" ] && best=$took
  done
  echo "$best"
}

# compare NAME CALLBACKS LONG WANTED SHORT WANTED: the script of the long line beside that of the short one; each read admits so many callbacks.
compare() {
  freed=$((times * $2))
  local long short
  short=$(least "$5" "$6")
  [ -n "$short" ] && long=$(least "$3" "$4")
  if [ -n "$long" ] && [ "$long" -le $((short + times * apart)) ]; then
    echo "ok: $1"
  else
    echo "failed: $1: $times of these took ${long:-no} ms, and ${short:-no} with one byte; $(cat "$dir/err") $(diff "$dir/out" "$dir/wanted" | head -5 | cut -c 1-200)"
  fi
}

READY=
compare 'a long read that the state refuses takes no buffer' 1 "pread $greatest 0" 'refused not-ready created' 'pread 1 0' 'refused not-ready created'
READY=1
compare 'a read that is too long takes no buffer' 1 "pread $greatest 0" 'refused too-big 33554432' "pread 1 $size" "refused bounds $size"
compare 'a long structured read past the end takes no buffer' 2 "pread-structured $((greatest / 2)) $size" "refused bounds $size" "pread-structured 1 $size" "refused bounds $size"
