# lnbd nbdcopy where its servers are unusual: one export as source and destination, 2^40 bytes, answers that come late or never, and extents of one byte.
. checks/servers.sh
size=1048576
python3 - "$dir" $size <<'PY'
import os, sys
dir, size = sys.argv[1], int(sys.argv[2])
def data(count): return bytes(b or 1 for b in os.urandom(count))
# In each 4096 bytes: every second byte of 64, zeros, one byte in zeros.
crumb = lambda: b''.join(data(1) + b'\0' for _ in range(32)) + bytes(2000) + data(1) + bytes(2031)
crumbs = b''.join(crumb() for _ in range(size // 16384)) + bytes(size // 4) + data(size // 2)
for name, content in (('dense', data(size)), ('crumbs', crumbs), ('noise', b'\x11' * size)):
    open(f'{dir}/{name}', 'wb').write(content)
PY

# noisy NAME [SETTING=VALUE ..]: a server for a new file of noise, as long as the sources here: nbdkit, or a peer with these settings.
noisy() {
  cp "$dir/noise" "$dir/$1.disk"
  if [ $# -eq 1 ]; then start "$1" nbdkit-file $size; else peer "$1" "$dir/$1.disk" "${@:2}"; fi
}

# The same export on both sides: it is read and written, and stays as it is.
# itself KIND CONNECTIONS: such a copy.
itself() {
  start same "$1" 8388608
  put "$dir/disk" "$address"
  copy "$address" "$address" -C "$2"
  get "$address" "$dir/back"
  stop "$server"
  rm -f "$dir/same.disk"
  ended 0 '' && same "$dir/disk" "$dir/back"
}
truncate -s 8388608 "$dir/disk"
for at in 0 3 5; do dd if="$dir/dense" of="$dir/disk" bs=1M seek=$at conv=notrunc status=none; done
for kind in nbdkit-memory nbdkit-file qemu-raw qemu-qcow2 nbd-server lnbd-serve; do
  held "from an export of $kind to itself over one connection leaves it as it is" itself $kind 1
  held "from an export of $kind to itself over four connections leaves it as it is" itself $kind 4
done

# 2^40 bytes with data at the beginning, over a border of 128 MiB, in the middle and at the end.
begin wide nbdkit -f -U "$dir/wide" data '0xab*5000 @0x27fffff00 0xcd*1048576 @0x8000000001 1 2 3 @0xfffffffffd 4 5 6' size=1T
wide=$address
# vast WORDS ..: the copy of them to a new memory of as many bytes.
vast() {
  begin narrow nbdkit -f -U "$dir/narrow" memory 1T
  copy "$wide" "$address" "$@"
  ended 0 '' && why=", $(timeout 120 qemu-img compare -f raw -F raw "$wide" "$address" 2>&1)" && [ "$why" = ', Images are identical.' ]
  local result=$?
  stop "$server"
  rm -f "$dir/narrow"
  return $result
}
held 'of 2^40 bytes, nearly all of them a hole, ends soon with the same bytes' vast
held 'of 2^40 bytes, nearly all of them a hole, over one connection, ends soon with the same bytes' vast -C 1
held 'of 2^40 bytes to an export that is zero, ends soon with the same bytes' vast --destination-is-zero

# Answers that come late, and answers that never come. All of these run side by side.
# late NAME FROM TO TARGET WORDS ..: a copy that takes ten seconds or nearly so, ends well, and leaves the bytes of the dense source in the target's file.
late() {
  local began=$SECONDS target=$4
  copy "$2" "$3" "${@:5}"
  why=", after $((SECONDS - began)) seconds"
  slowly() { ended 0 '' && [ $((SECONDS - began)) -ge 9 ] && same "$dir/dense" "$target"; }
  held "$1" slowly
}
begin late1 nbdkit -f -U "$dir/late1" --filter=delay file "$dir/dense" rdelay=10
from=$address
noisy to1
late 'from a server that answers its one read after ten seconds' "$from" "$address" "$dir/to1.disk" --request-size $size &
start late2 nbdkit-file $size "$dir/dense"
from=$address
cp "$dir/noise" "$dir/to2.disk"
begin to2 nbdkit -f -U "$dir/to2" --filter=delay file "$dir/to2.disk" wdelay=10
late 'to a server that answers its one write after ten seconds' "$from" "$address" "$dir/to2.disk" --request-size $size &
peer late3 "$dir/dense" fault=READ:3:slow
from=$address
noisy to3
late 'from a server that answers one of its reads after ten seconds and the others at once' "$from" "$address" "$dir/to3.disk" --request-size 65536 &
start late4 nbdkit-file $size "$dir/dense"
from=$address
noisy to4 fault=WRITE:3:slow
late 'to a server that answers one of its writes after ten seconds and the others at once' "$from" "$address" "$dir/to4.disk" --request-size 65536 &

# A copy without an answer goes on waiting, so it is ended after five seconds here.
longest=5
# few_open LOG COUNT: writes were answered, and at most so many came that weren't.
few_open() { grep -q '^done WRITE' "$1" && [ $(($(grep -c '^came WRITE' "$1") - $(grep -c '^done WRITE' "$1"))) -le "$2" ]; }
unanswered_reads() {
  copy "$1" "$2" --request-size 65536
  ended 124 '' && grep -q '^done READ' "$dir/never1.log" && only_answered "$dir/dense" "$dir/to5.disk" "$dir/never1.log"
}
unanswered_writes() {
  copy "$1" "$2" --request-size 65536 -C 1 -R 3
  ended 124 '' && few_open "$dir/to6.log" 3
}
unsaid() {
  copy "$1" "$2"
  ended 124 '' && same "$dir/noise" "$3"
}
peer never1 "$dir/dense" fault=READ:6:silent
from=$address
noisy to5
held 'from a server that stops answering reads goes on waiting, and writes only what was answered' unanswered_reads "$from" "$address" &
start never2 nbdkit-file $size "$dir/dense"
from=$address
noisy to6 fault=WRITE:6:silent
held 'to a server that stops answering writes goes on waiting, with no more slices under way than asked' unanswered_writes "$from" "$address" &
peer never3 "$dir/dense" handshake=silent
from=$address
noisy to7
held 'from a server that never says a word goes on waiting, and writes nothing' unsaid "$from" "$address" "$dir/to7.disk" &
start never4 nbdkit-file $size "$dir/dense"
from=$address
noisy to8 handshake=silent since=2
held 'to a server that never says a word on a further connection goes on waiting, and writes nothing' unsaid "$from" "$address" "$dir/to8.disk" &
wait
longest=120

# Extents of one byte, told exactly, which the least block may pass. A peer tells 20,000 at once at most, which is less than the least block of 65536.
# crumbs SETTING=VALUE ..: the copy of the crumbs from a peer with these settings.
crumbs() {
  peer told "$dir/crumbs" "$@"
  local from=$address first=$server
  noisy target
  copy "$from" "$address" -S 512
  stop "$first" "$server"
  ended 0 '' && same "$dir/crumbs" "$dir/target.disk"
}
for mode in structured extended; do
  held "from a server with $mode replies that tells extents of one byte" crumbs mode=$mode extents=exact:1
  held "from a server with $mode replies that tells extents of one byte inside least blocks of 4096" crumbs mode=$mode extents=exact:1 blocks=4096:4096:33554432
  held "from a server with $mode replies that tells extents of one byte inside least blocks of 65536" crumbs mode=$mode extents=exact:1 blocks=65536:65536:65536
  held "from a server with $mode replies that tells extents of 512 bytes inside least blocks of 65536" crumbs mode=$mode extents=exact:512 blocks=65536:65536:65536
done
