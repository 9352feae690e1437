# lnbd nbdcopy between every two of six kinds of servers, over one connection and over eight. The destination is full of other bytes before; afterwards
# another client reads there what the source holds.
. checks/servers.sh
size=8388608
kinds='nbdkit-memory nbdkit-file qemu-raw qemu-qcow2 nbd-server lnbd-serve'

# Bytes that are data, zeros that are stored, and holes, with some borders off every block.
python3 - "$dir" $size <<'PY'
import os, sys
dir, size = sys.argv[1], int(sys.argv[2])
with open(dir + '/disk', 'wb') as f:
    f.truncate(size)
    for at, count in ((0, 512), (65536, 4096), (300001, 100000), (2 << 20, 1 << 20), (5 << 20, 3333), (size - 777, 777)):
        f.seek(at)
        f.write(os.urandom(count))
    for at, count in ((8192, 4096), (1 << 20, 500000), ((2 << 20) + 65536, 131072), (6 << 20, 1 << 20)):
        f.seek(at)
        f.write(bytes(count))
with open(dir + '/noise', 'wb') as f:
    f.write(b'\x11' * size)
PY

declare -A from to
for kind in $kinds; do
  start "from-$kind" "$kind" $size && put "$dir/disk" "$address" && from[$kind]=$address
  get "$address" "$dir/back" && cmp -s "$dir/disk" "$dir/back" || echo "failed: a source of $kind does not hold its bytes"
  start "to-$kind" "$kind" $size && to[$kind]=$address
done

# pair FROM TO CONNECTIONS: a copy of the disk ends well and leaves its bytes there.
pair() {
  put "$dir/noise" "${to[$2]}" || { why=", a destination of $2 takes no bytes"; return 1; }
  copy "${from[$1]}" "${to[$2]}" -C "$3"
  get "${to[$2]}" "$dir/back"
  ended 0 '' && same "$dir/disk" "$dir/back"
}

for one in $kinds; do
  for other in $kinds; do
    held "from $one to $other over one connection leaves the same bytes there" pair "$one" "$other" 1
    held "from $one to $other over eight connections leaves the same bytes there" pair "$one" "$other" 8
  done
done

# unchanged KIND: the source holds what it held.
unchanged() { get "${from[$1]}" "$dir/back" && same "$dir/disk" "$dir/back"; }
for kind in $kinds; do held "leaves a source of $kind as it was" unchanged "$kind"; done
