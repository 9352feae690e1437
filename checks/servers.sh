# Sourced by the checks of copies and dumps: `program`, which may be set before, a folder `dir` that goes at the end, and servers of six kinds, which end
# with the check.
. checks/need.sh
need nbdkit nbdkit
need qemu-utils qemu-nbd
need nbd-server nbd-server
need libnbd-bin nbdcopy
need python3 python3

program=${program:-$(tools/built lnbd)} || exit 1
dir=$(mktemp -d)
# Its own path: where python3 is a script that looks for it, that takes longer than what is done here.
python=$(python3 -c 'import sys; print(sys.executable)')
# The servers that may still run, each with the time at which it began: so no other process is ended that has come to such a number since.
declare -A servers
trap 'stop "${!servers[@]}"; rm -rf "$dir"' EXIT

# begin NAME WORDS ..: runs the server of these words, which listens at the socket $dir/NAME; its process is then in `server`, its address in `address`.
begin() {
  local socket=$dir/$1
  shift
  "$@" >/dev/null 2>&1 &
  server=$!
  disown "$server"
  servers[$server]=$(began_at "$server")
  address="nbd+unix:///?socket=$socket"
  awaited "$socket"
}

# start NAME KIND SIZE [FILE]: a server of this kind at $dir/NAME, for the file or a new one; what is in memory begins as zeros.
start() {
  local name=$1 kind=$2 size=$3 file=${4:-$dir/$1.disk}
  rm -f "$dir/$name"
  case $kind in
    nbdkit-memory | lnbd-serve) ;;
    qemu-qcow2) [ -e "$file" ] || qemu-img create -q -f qcow2 "$file" "$size" ;;
    *) [ -e "$file" ] || truncate -s "$size" "$file" ;;
  esac
  case $kind in
    nbdkit-memory) begin "$name" nbdkit -f -U "$dir/$name" memory "$size" ;;
    nbdkit-file) begin "$name" nbdkit -f -U "$dir/$name" file "$file" ;;
    qemu-raw) begin "$name" qemu-nbd -t -e 16 -k "$dir/$name" -f raw "$file" ;;
    qemu-qcow2) begin "$name" qemu-nbd -t -e 16 -k "$dir/$name" -f qcow2 "$file" ;;
    lnbd-serve) begin "$name" "$program" serve "nbd+unix:///?socket=$dir/$name" --size "$size" --sessions 1000000 ;;
    nbd-server) start_nbd_server "$name" "$file" ;;
    *) return 1 ;;
  esac
}

# start_nbd_server NAME FILE: as `begin`. It serves many clients where it is a daemon alone, and has exports with names alone.
start_nbd_server() {
  local socket=$dir/$1
  rm -f "$socket.pid"
  printf '[generic]\nunixsock = %s\n[disk]\nexportname = %s\n' "$socket" "$2" >"$socket.conf"
  nbd-server -C "$socket.conf" -p "$socket.pid" >/dev/null 2>&1
  for _ in $(seq 500); do [ -s "$socket.pid" ] && break; sleep 0.02; done
  server=$(cat "$socket.pid")
  servers[$server]=$(began_at "$server")
  address="nbd+unix:///disk?socket=$socket"
  # (it listens for up to some seconds before it takes its first client)
  awaited "$socket" && timeout 60 nbdinfo --size "$address" >/dev/null
}

# began_at PROCESS: when it began, in ticks.
began_at() {
  local stat
  read -r stat 2>/dev/null <"/proc/$1/stat" || return 1
  set -- ${stat##*) }
  printf '%s' "${20}"
}

# with_children PROCESS: it and those that it made: nbd-server has one for each client.
with_children() { printf '%s ' "$1" $(cat "/proc/$1/task/$1/children" 2>/dev/null); }

# stop PROCESS ..: ends these servers at once, where they run.
stop() {
  local process
  for process in "$@"; do
    [ -n "${servers[$process]}" ] && [ "$(began_at "$process")" = "${servers[$process]}" ] && kill -9 $(with_children "$process") 2>/dev/null
    unset "servers[$process]"
  done
}

# put FILE ADDRESS: libnbd's nbdcopy writes the file there, zeros in its data too; holes stay holes.
put() { timeout 120 nbdcopy -S 0 "$1" "$2"; }

# get ADDRESS FILE: qemu-img reads all that is there.
get() { rm -f "$2" && timeout 120 qemu-img convert -q -f raw -O raw "$1" "$2"; }

# copy FROM TO WORDS ..: lnbd nbdcopy with these words, with its status in `code` and what it printed in `out` and `said`. A copy that takes longer
# than `longest` seconds is ended, with status 124. Several may go on at once, each in a process of its own.
longest=120
copy() {
  local mine=$BASHPID
  timeout "$longest" "$program" nbdcopy "${@:3}" "$1" "$2" >"$dir/out.$mine" 2>"$dir/err.$mine"
  code=$?
  out=$(cat "$dir/out.$mine")
  said=$(cat "$dir/err.$mine")
}

# held NAME CONDITION ..: where this command holds and nothing is on standard output, it is well.
held() {
  local name=$1
  shift
  if "$@" && [ -z "$out" ]; then echo "ok: nbdcopy $name"; else echo "failed: nbdcopy $name: status $code, '$out$said'$why"; fi
  why=
}

# ended STATUS LINE: the last copy ended so.
ended() { [ "$code" -eq "$1" ] && [ "$said" = "$2" ]; }

# same ONE OTHER: two files have the same bytes; else `why` tells where they differ.
why=
same() {
  cmp -s "$1" "$2" && return 0
  why=", $(cmp "$1" "$2" 2>&1)"
  return 1
}

# peer NAME FILE SETTING=VALUE ..: the server of checks/peer.py for this file, with a log at $dir/NAME.log.
peer() {
  local name=$1 file=$2
  shift 2
  rm -f "$dir/$name" "$dir/$name.log"
  touch "$dir/$name.log"
  begin "$name" "$python" -S -E checks/peer.py "$dir/$name" "$file" log="$dir/$name.log" "$@"
}

# only_answered SOURCE TARGET LOG: where the target isn't noise it has the source's bytes, and a peer's log tells that they were answered.
only_answered() {
  why=$("$python" -S -E - "$@" 2>&1 <<'PY'
import sys
source, target = (open(path, 'rb').read() for path in sys.argv[1:3])
answered = bytearray(len(source))
for line in open(sys.argv[3]):
    word, kind, offset, length = line.split()
    if (word, kind) == ('done', 'READ'):
        answered[int(offset):int(offset) + int(length)] = b'\1' * int(length)
for at in range(0, len(target), 512):
    one, other = source[at:at + 512], target[at:at + 512]
    if other == b'\x11' * len(other) or one == other and all(answered[at:at + 512]):
        continue
    for place in range(len(other)):
        if other[place] != 0x11 and (other[place] != one[place] or not answered[at + place]):
            sys.exit(f', byte {at + place} of the destination was not answered')
PY
  )
}
