# Fifty copies of which one server is killed at a random moment: status 0 is told only where all is copied, every other end is one of the page, and what
# stands at the destination is of the source or as before. Source and destination die in turns, in five pairs of servers. How long a whole copy takes is
# measured first, for each pair, and the moments are spread over nine tenths of it.
. checks/servers.sh
size=16777216
longest=60
words=(-C 2 -R 8 --request-size 4096)
pairs=('nbdkit-file nbdkit-file' 'nbdkit-file qemu-raw' 'qemu-raw nbd-server' 'nbd-server nbdkit-file' 'lnbd-serve qemu-raw')
head -c $size /dev/urandom >"$dir/disk"
tr '\0' '\21' </dev/zero 2>/dev/null | head -c $size >"$dir/noise"

# ready FROM TO: two new servers, of which the one holds the disk and the other noise.
ready() {
  cp "$dir/noise" "$dir/target"
  case $1 in
    lnbd-serve) start from "$1" $size && put "$dir/disk" "$address" ;;
    *) start from "$1" $size "$dir/disk" ;;
  esac
  source=$server from=$address
  start to "$2" $size "$dir/target"
  target=$server to=$address
}

# measured: puts into `took` how many milliseconds a whole copy takes, which has to be a good one: the less of two, so that no moment comes too late.
measured() {
  local began one
  took=999999
  for _ in 1 2; do
    # (not cut off first: qemu-nbd may still be about to ask for the size)
    dd if="$dir/noise" of="$dir/target" bs=1M conv=notrunc status=none
    began=$(date +%s%N)
    copy "$from" "$to" "${words[@]}"
    one=$((($(date +%s%N) - began) / 1000000))
    [ $one -ge $took ] || took=$one
    ended 0 '' && same "$dir/disk" "$dir/target" || return 1
  done
}

# mixed: prints how many blocks of the target are as in the source and as before; or a fault, where one of its bytes is neither.
mixed() {
  "$python" -S -E - "$dir/disk" "$dir/target" <<'PY'
import sys
disk, target = (open(path, 'rb').read() for path in sys.argv[1:])
noise, copied, kept = b'\x11' * 4096, 0, 0
for at in range(0, len(disk), 4096):
    one, other = disk[at:at + 4096], target[at:at + 4096]
    if one == other: copied += 1
    elif other == noise: kept += 1
    elif any(b != a and b != 0x11 for a, b in zip(one, other)): sys.exit(f'byte {at} or one close behind it is of neither')
print(copied, kept)
PY
}

# judge: how the last copy ended, where it is one of the ends there may be; else the reason in `wrong`.
faults=0 parts=0 wrong=
judge() {
  local blocks
  blocks=$(mixed 2>&1) || wrong="$wrong $1: $blocks;"
  [ -z "$out" ] || wrong="$wrong $1: '$out' on standard output;"
  case $code:$said in
    0:) cmp -s "$dir/disk" "$dir/target" || wrong="$wrong $1: status 0 and not equal;" ;;
    '4:lnbd: peer broke Ended' | '5:lnbd: link fault') faults=$((faults + 1)) ;;
    *) wrong="$wrong $1: status $code, '$said';" ;;
  esac
  # (copied and kept blocks both)
  case $blocks in '0 '* | *' 0') ;; *) parts=$((parts + 1)) ;; esac
}

for pair in "${pairs[@]}"; do
  read -r one other <<<"$pair"
  ready "$one" "$other"
  held "from $one to $other, whole, to measure it" measured
  stop $source $target
  for round in 0 1 2 3 4 5 6 7 8 9; do
    ready "$one" "$other"
    victim=$source
    [ $((round % 2)) -eq 0 ] || victim=$target
    # One of five equal parts of the time, for each of both.
    moment=$((took * 9 / 10 * (round / 2 * 1000 + RANDOM % 1000) / 5000))
    (sleep "$(printf '%d.%03d' $((moment / 1000)) $((moment % 1000)))"; stop $victim) & killer=$!
    copy "$from" "$to" "${words[@]}"
    wait $killer
    stop $source $target
    judge "$one to $other, round $round, killed at $moment of $took ms"
  done
done
[ $faults -ge 25 ] || wrong="$wrong fewer than 25 ended with a fault;"
if [ -z "$wrong" ]; then
  echo "ok: nbdcopy and 50 servers killed: $faults copies ended with a fault, $parts of the 50 with a part written; status 0 only where all is equal"
else
  echo "failed: nbdcopy and 50 servers killed, $faults faults, $parts with a part written: $wrong"
fi
