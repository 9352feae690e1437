# Faults of real servers and of what lies between: reads and writes that fail now and then, answers that come late, servers that go with their last client, resets in
# the middle of a reply, a disk that is full, a source that shrinks, servers killed in the middle of a large copy, and servers of which nothing or one byte a second
# comes. Status 0 stands only where the destination has the source's bytes, and memory stays what it is while nothing comes.
#
# FAULT_ROUNDS, KILLS, KILLED_MIB and FLAT_SECONDS make it as long as bench/soak has it.
. checks/servers.sh
rounds=${FAULT_ROUNDS:-5} kills=${KILLS:-6} killed=${KILLED_MIB:-64} flat=${FLAT_SECONDS:-4}
longest=$((60 + 2 * flat))
size=4194304
# (a folder in memory, where there is one: a large file is then made and compared at once)
disks=$(mktemp -d -p /dev/shm 2>/dev/null || mktemp -d)
small=
trap 'stop "${!servers[@]}"; [ -z "$small" ] || umount "$small"; rm -rf "$dir" "$disks"' EXIT
head -c $size /dev/urandom >"$disks/source"

# fresh FILE [SIZE]: a new file of zeros, which no source here has.
fresh() { rm -f "$1"; truncate -s "${2:-$size}" "$1"; }

# port: prints one at which nobody listens.
port() { python3 -c 'import socket; s = socket.socket(); s.bind(("127.0.0.1", 0)); print(s.getsockname()[1])'; }

# relay NAME HOW COUNT: one to the server at $dir/NAME, whose address is then in `address`.
relay() {
  local to
  to=$(port)
  "$python" -S -E checks/relay.py "$to" "$dir/$1" "$2" "$3" 2>/dev/null &
  server=$!
  disown "$server"
  servers[$server]=$(began_at "$server")
  address=nbd://127.0.0.1:$to
  for _ in $(seq 250); do (exec 3<>"/dev/tcp/127.0.0.1/$to") 2>/dev/null && return; sleep 0.02; done
}

# counts STATUS LINE ..: how the last copy ended is one of these pairs, or it ended with 0 and all is equal. It is counted in `ends`, or told in `wrong`.
declare -A ends
wrong=
counts() {
  local source=$1 target=$2
  shift 2
  ends[$code]=$((${ends[$code]:-0} + 1))
  if [ "$code:$said$out" = 0: ]; then
    cmp -s "$source" "$target" || wrong="$wrong status 0, and not equal;"
    return
  fi
  while [ $# -gt 0 ]; do
    [ "$code:$said$out" = "$1:$2" ] && return
    shift 2
  done
  wrong="$wrong status $code, '$said$out';"
}

# told NAME: how often each status came, where nothing was wrong.
told() {
  local each=
  for code in "${!ends[@]}"; do each="$each, ${ends[$code]} with $code"; done
  if [ -z "$wrong" ]; then echo "ok: nbdcopy $1: ${each#, }"; else echo "failed: nbdcopy $1:$wrong"; fi
  ends=() wrong=
}

# One command in a hundred fails, at either side. (A client that leaves while several threads of nbdkit 1.32 answer it ends that nbdkit by an assertion of its own, so
# what serves more than one copy here has one thread, or is qemu-nbd.)
begin failing nbdkit -f -t 1 -U "$dir/failing" --filter=error file "$disks/source" error=EIO error-rate=1%
failing=$address
start good qemu-raw $size "$disks/source"
good=$address
for _ in $(seq "$rounds"); do
  fresh "$disks/target"
  start to nbdkit-file $size "$disks/target"
  copy "$failing" "$address" --request-size 65536 -C 2
  stop "$server"
  counts "$disks/source" "$disks/target" 3 'lnbd: peer error command 5'
  fresh "$disks/target"
  rm -f "$dir/to"
  begin to nbdkit -f -U "$dir/to" --filter=error file "$disks/target" error=ENOSPC error-rate=1%
  copy "$good" "$address" --request-size 65536 -C 2
  stop "$server"
  counts "$disks/source" "$disks/target" 3 'lnbd: peer error command 28'
done
told 'where one command in a hundred fails'

# Answers that come late, and servers that go with their last client: all is copied.
fresh "$disks/target"
begin late nbdkit -f -U "$dir/late" --filter=delay file "$disks/source" delay-read=3ms delay-extents=20ms delay-open=100ms
from=$address
begin slow nbdkit -f -U "$dir/slow" --filter=delay --filter=exitlast file "$disks/target" delay-write=3ms delay-zero=3ms delay-close=50ms
copy "$from" "$address" --request-size 65536
whole() { ended 0 '' && same "$disks/source" "$disks/target"; }
held 'whose answers come late, to a server that goes with its last client' whole

# The way back from either side is reset in the middle of a reply.
for _ in $(seq "$rounds"); do
  fresh "$disks/target"
  start to nbdkit-file $size "$disks/target"
  to=$address target=$server
  relay good reset $((200 + RANDOM * 40))
  copy "$address" "$to"
  counts "$disks/source" "$disks/target" 4 'lnbd: peer broke Ended' 5 'lnbd: link fault'
  stop "$server"
  relay to reset $((200 + RANDOM % 400))
  copy "$good" "$address" --request-size 65536
  counts "$disks/source" "$disks/target" 4 'lnbd: peer broke Ended' 5 'lnbd: link fault'
  stop "$server" "$target"
done
told 'where a way back is reset in the middle'

# The destination's disk is full.
small=$disks/small
mkdir "$small"
if mount -t tmpfs -o size=1m none "$small" 2>/dev/null; then
  fresh "$small/target"
  start full nbdkit-file $size "$small/target"
  copy "$good" "$address"
  held 'to a disk that becomes full' ended 3 'lnbd: peer error command 28'
  stop "$server"
  rm -f "$dir/full"
  fresh "$small/target"
  start full qemu-raw $size "$small/target"
  copy "$good" "$address" --flush
  held 'to a disk of qemu-nbd that becomes full' ended 3 'lnbd: peer error command 28'
  stop "$server"
else
  small=
  echo 'skipped: no small disk can be mounted here'
fi

# The source shrinks while it is copied.
cp "$disks/source" "$disks/shrinks"
begin shrinks nbdkit -f -U "$dir/shrinks" --filter=delay file "$disks/shrinks" delay-read=200ms
from=$address
fresh "$disks/target"
start to nbdkit-file $size "$disks/target"
(sleep 1; truncate -s 100000 "$disks/shrinks") &
copy "$from" "$address" -C 1 -R 4 --request-size 65536
wait $!
stop "$server"
held 'from a source that shrinks' ended 3 'lnbd: peer error command 5'

# Either server is killed at a random moment of a large copy.
large=$((killed << 20))
head -c $large /dev/urandom >"$disks/large"
took=0
for round in $(seq 0 "$kills"); do
  fresh "$disks/target" $large
  rm -f "$dir/from" "$dir/to"
  start from nbdkit-file $large "$disks/large"
  victim=$server source=$server from=$address
  start to nbdkit-file $large "$disks/target"
  target=$server
  [ $((round % 2)) -eq 0 ] || victim=$target
  began=$(date +%s%N)
  if [ "$round" -gt 0 ]; then
    # (a little longer than a whole copy, so that some are done)
    moment=$((took * (RANDOM % 1100) / 1000))
    (sleep "$(printf '%d.%03d' $((moment / 1000)) $((moment % 1000)))"; stop "$victim") & killer=$!
  fi
  copy "$from" "$address"
  if [ "$round" -gt 0 ]; then wait $killer; else took=$((($(date +%s%N) - began) / 1000000)); fi
  stop "$source" "$target"
  counts "$disks/large" "$disks/target" 4 'lnbd: peer broke Ended' 5 'lnbd: link fault'
done
told "of $killed MiB and $kills kills"
rm -f "$disks/large" "$disks/target"

# Nothing comes any more, or one byte a second: memory stays.
# grows NAME WORDS ..: whether the memory of such a run stays for some seconds, once it has asked what it asks. On a busy machine that comes late.
memory() { awk '/^VmRSS/ { print $2 }' "/proc/$1/status" 2>/dev/null; }
script=
grows() {
  local name=$1 mine=$BASHPID first=0 last run same=0
  shift
  "$program" "$@" <<<"$script" >/dev/null 2>"$dir/err.$mine" &
  run=$!
  sleep 2
  for _ in $(seq $((2 * flat + 72))); do
    last=$(memory $run)
    [ -n "$last" ] || break
    if [ "$((last - first))" -le 256 ]; then same=$((same + 1)); else same=0 first=$last; fi
    [ $same -lt $((2 * flat)) ] || break
    sleep 0.5
  done
  kill -9 $run 2>/dev/null
  wait $run 2>/dev/null
  if [ -n "$last" ] && [ $same -ge $((2 * flat)) ]; then
    echo "ok: the memory of $name stays what it is for $flat seconds"
  else
    echo "failed: the memory of $name: $first KiB, and then ${last:-no more} KiB, $(cat "$dir/err.$mine")"
  fi
}
fresh "$disks/target"
rm -f "$dir/to"
start to qemu-raw $size "$disks/target"
to=$address
# (qemu-nbd ends a handshake that takes more than ten seconds)
start patient nbdkit-file $size "$disks/source"
waits=()
for how in never drip; do
  says=nothing
  [ $how = never ] || says='one byte a second'
  for count in 0 20 70000; do
    relay patient "$how" "$count"
    silent=${address#nbd://}
    grows "nbdcopy from a server of which $says comes behind $count bytes" nbdcopy "$address" "$to" & waits+=($!)
    [ $count -gt 20 ] || { grows "nbdinfo of a server of which $says comes behind $count bytes" nbdinfo --map "$address" & waits+=($!); }
    script="connect tcp ${silent%:*} ${silent#*:}"$'\nsettle\npread 100000 0\npread 100000 100000\nsettle'
    grows "a script of a server of which $says comes behind $count bytes" nbdcalls & waits+=($!)
  done
done
wait "${waits[@]}"
