# nbdinfo says of an export what libnbd's nbdinfo says: its size, each line that both have, and each question, over nbdkit, qemu-nbd
# and nbd-server. A server that is gone and an address that is none have their statuses.
. checks/need.sh
need nbdkit nbdkit
need libnbd-bin nbdinfo
need qemu-utils qemu-nbd
need nbd-server nbd-server

program=$(tools/built lnbd) || exit 1
dir=$(mktemp -d)
servers=()
trap 'kill "${servers[@]}" 2>/dev/null; rm -rf "$dir"' EXIT

# What both tools say in one form: no line that only one of them has, sizes in bytes alone, and descriptions without quotes.
text_lines() { sed 's/ ([0-9.]*[KMGTPE]*)$//; /^\tcontent: /d; /^\turi: /d; s/^\(\tdescription: \)"\(.*\)"$/\1\2/; s/\\x22/"/g' "$1"; }
lines() { text_lines "$1"; }

# same NAME SOCKET [EXPORT]: both tools say the same of this export at this socket, of the one without a name where none is told.
same() {
  local uri="nbd+unix:///${3-}?socket=$2" wrong=
  awaited "$2"
  timeout 60 "$program" nbdinfo "$uri" >"$dir/ours" 2>"$dir/err" || wrong="status $?: $(cat "$dir/err")"
  nbdinfo --no-content "$uri" >"$dir/theirs" 2>/dev/null
  diff <(lines "$dir/ours") <(lines "$dir/theirs") >"$dir/diff" || wrong="$wrong$(cat "$dir/diff")"
  [ "$(timeout 60 "$program" nbdinfo --size "$uri")" = "$(nbdinfo --size "$uri")" ] || wrong="$wrong size"
  for question in 'is read-only' 'is rotational' 'is tls' 'can cache' 'can connect' 'can df' 'can fast-zero' 'can flush' 'can fua' \
    'can multi-conn' 'can read' 'can structured-reply' 'can trim' 'can write' 'can zero'; do
    timeout 60 "$program" nbdinfo --${question% *} ${question#* } "$uri" >"$dir/out" 2>&1
    ours=$?
    nbdinfo --${question% *} ${question#* } "$uri" >/dev/null 2>&1
    [ "$ours" -eq $? ] && [ ! -s "$dir/out" ] || wrong="$wrong $question"
  done
  if [ -z "$wrong" ]; then echo "ok: nbdinfo as libnbd's, of $1"; else echo "failed: nbdinfo of $1: $wrong"; fi
}

# kit NAME WORDS ..: the same of an export of nbdkit.
kit() {
  local name=$1 socket=$dir/s${#servers[@]}
  shift
  nbdkit -f -U "$socket" "$@" 2>/dev/null &
  servers+=($!)
  same "$name" "$socket"
}

kit 'nbdkit memory' memory 16M
kit 'nbdkit read-only' -r memory 1M
kit 'an export without bytes' null 0
kit 'an export of 2^63 - 1 bytes' null 9223372036854775807
kit 'nbdkit without structured replies' --no-sr memory 1M
kit 'told sizes of blocks' --filter=blocksize-policy memory 1M blocksize-minimum=512 blocksize-preferred=4096 blocksize-maximum=65536
kit 'an export that rotates and caches' --filter=cache null 1M

qemu-img create -q -f qcow2 "$dir/disk.qcow2" 8M
qemu-nbd -t -k "$dir/q1" -f qcow2 "$dir/disk.qcow2" 2>/dev/null &
servers+=($!)
same 'a qcow2 disk of qemu-nbd' "$dir/q1"
truncate -s 3M "$dir/disk.raw"
qemu-nbd -t -r -k "$dir/q2" -f raw -D 'a "raw" disk' "$dir/disk.raw" 2>/dev/null &
servers+=($!)
same 'a read-only disk of qemu-nbd with a description' "$dir/q2"

truncate -s 2M "$dir/one"
# serve NAME LINES: an export of nbd-server with these lines. libnbd's nbdinfo tells the size 0 of it, but with --size the right one, as both do.
serve() {
  local socket=$dir/s${#servers[@]}
  printf '[generic]\nunixsock = %s\n[first]\nexportname = %s\n%b' "$socket" "$dir/one" "$2" >"$socket.config"
  nbd-server -C "$socket.config" -p "$socket.pid" >/dev/null 2>&1
  awaited "$socket"
  servers+=("$(cat "$socket.pid")")
  lines() { text_lines "$1" | sed '/^\texport-size: /d'; }
  same "$1" "$socket" first
}
serve 'an export of nbd-server that flushes, trims and rotates' 'flush = true\nfua = true\ntrim = true\nrotational = true\n'
serve 'a read-only export of nbd-server' 'readonly = true\n'

# ends STATUS LINE ADDRESS: so nbdinfo ends, and prints nothing else.
ends() {
  timeout 60 "$program" nbdinfo "$3" >"$dir/out" 2>"$dir/err"
  code=$?
  if [ "$code" -eq "$1" ] && [ "$(cat "$dir/err")" = "$2" ] && [ ! -s "$dir/out" ]; then
    echo "ok: nbdinfo of $3 is status $1"
  else
    echo "failed: nbdinfo of $3 ended with $code and wrote '$(cat "$dir/out" "$dir/err")'"
  fi
}
ends 5 'lnbd: link fault' "nbd+unix:///?socket=$dir/none"
ends 1 'lnbd: uri Tls' nbds://localhost
ends 3 'lnbd: peer error option 7 code 6' "nbd+unix:///nosuch?socket=$dir/q1"
