# A read that is answered in 200,000 pieces, in rising order, in falling order with gaps that are filled later, and in random order: its bytes are the same. Falling
# order takes at most twice the time of rising order, by the clock and with the peer's share, the best of three runs; in quadratic time it took 70 times and more. Random
# order takes 1.7 to 1.8 times that of rising order where nothing else is at work, and three times are allowed for.
. checks/need.sh
need python3 python3

program=$(tools/built lnbd) || exit 1
dir=$(mktemp -d)
trap 'rm -rf "$dir"' EXIT
count=200000
printf '%s\n' 'structured on' "connect unix $dir/socket" settle "pread $count 0" settle 'done 1' disconnect settle >"$dir/script"
printf '%s\n' ok connected settled 'cookie 1' settled "done $count ab*$count" ok settled 'opened 1 freed 1' >"$dir/wanted"

# The time of one read in this order, in milliseconds; nothing where it went wrong.
once() {
  rm -f "$dir/socket"
  python3 checks/pieces.py "$dir/socket" "$count" "$1" &
  local peer=$!
  awaited "$dir/socket"
  TIMEFORMAT=%3R
  { time timeout 120 "$program" nbdcalls <"$dir/script" >"$dir/out" 2>"$dir/err"; } 2>"$dir/time"
  kill "$peer" 2>/dev/null
  wait "$peer" 2>/dev/null
  cmp -s "$dir/out" "$dir/wanted" && awk '{ printf "%d", $1 * 1000 }' "$dir/time"
}

# The least of three times; nothing where one went wrong.
best() {
  local least= took
  for _ in 1 2 3; do
    took=$(once "$1")
    [ -n "$took" ] || return
    [ -z "$least" ] || [ "$took" -lt "$least" ] && least=$took
  done
  echo "$least"
}

rising=$(best rising)
[ -n "$rising" ] || { echo "failed: a read in $count pieces in rising order: $(cat "$dir/err") $(diff "$dir/out" "$dir/wanted" | head -5 | cut -c 1-200)"; exit; }
for order in falling:2 random:3; do
  most=${order#*:} order=${order%:*}
  took=$(best "$order")
  if [ -n "$took" ] && [ "$took" -le $((most * rising)) ]; then
    echo "ok: a read in $count pieces in $order order takes at most $most times as long as in rising order"
  else
    echo "failed: a read in $count pieces in $order order: ${took:-no} ms, and $rising in rising order; $(diff "$dir/out" "$dir/wanted" | head -5 | cut -c 1-200)"
  fi
done
