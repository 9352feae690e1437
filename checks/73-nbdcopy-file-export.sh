# nbdcopy between a file and an export, by the built program, over six kinds of servers: each byte there and back, holes, what is left of the file, rules, servers
# that are killed, and a full disk. Status 0 is told only where all is equal.
. checks/servers.sh
longest=60
small=$dir/small
trap 'umount "$small" 2>/dev/null; stop "${!servers[@]}"; rm -rf "$dir"' EXIT

# Zeros and other bytes, at edges of blocks and slices, and two whole slices of zeros.
"$python" -S -E - "$dir/disk" <<'PY'
import random, sys
drawn, size = random.Random(7), 5 * 1048576 + 512
parts = bytearray()
while len(parts) < size:
    count = drawn.choice([512, 4096, 8192, 20480, 65536])
    parts += bytes(count) if drawn.random() < 0.4 else drawn.randbytes(count)
parts[1048576:1048576 + 524288] = bytes(524288)
open(sys.argv[1], 'wb').write(parts[:size])
PY
size=$(stat -c %s "$dir/disk")
head -c 9000000 /dev/urandom >"$dir/longer"

# there KIND WORDS ..: the file is copied to a new server of this kind, and read back by qemu-img.
there() {
  local kind=$1
  shift
  start to "$kind" "$size"
  copy "$dir/disk" "$address" "$@"
  get "$address" "$dir/read"
  held "to $kind, ${*:-no options}" eval "ended 0 '' && same '$dir/disk' '$dir/read'"
  stop "$server"
  rm -f "$dir/to.disk"
}

# back KIND FILE WORDS ..: a server of this kind holds the disk, which is copied to this file.
back() {
  local kind=$1 file=$2
  shift 2
  case $kind in
    lnbd-serve | nbdkit-memory | qemu-qcow2) start from "$kind" "$size" && put "$dir/disk" "$address" ;;
    *) cp "$dir/disk" "$dir/from.disk" && start from "$kind" "$size" ;;
  esac
  copy "$address" "$file" "$@"
  held "from $kind to $(basename "$file"), ${*:-no options}" eval "ended 0 '' && same '$dir/disk' '$file'"
  stop "$server"
  rm -f "$dir/from.disk"
}

for kind in nbdkit-memory nbdkit-file qemu-raw qemu-qcow2 nbd-server lnbd-serve; do
  there "$kind"
  rm -f "$dir/new"
  back "$kind" "$dir/new"
done
there nbdkit-file -C 1 -R 1 -S 0 --flush
there nbdkit-memory --destination-is-zero -S 512 --request-size 4096
there qemu-raw --allocated -C 16 -R 512
for words in '-C 1 -R 1 --no-extents' '--allocated --flush' '-S 512 --request-size 4096' '-S 0 --destination-is-zero'; do
  cp "$dir/longer" "$dir/old"
  # shellcheck disable=SC2086
  back nbdkit-file "$dir/old" $words
done

# What lies behind the file's end stays, and an export that is smaller is refused.
start to nbdkit-file $((size + 512)) && head -c 512 /dev/urandom | tee "$dir/behind" | dd of="$dir/to.disk" bs=512 seek=$((size / 512)) conv=notrunc status=none
copy "$dir/disk" "$address"
cat "$dir/disk" "$dir/behind" >"$dir/whole"
held 'to a larger export' eval "ended 0 '' && same '$dir/whole' '$dir/to.disk'"
stop "$server" && rm -f "$dir/to.disk"
start to nbdkit-file $((size - 512))
copy "$dir/disk" "$address"
held 'to a smaller export' ended 6 "lnbd: rule smaller $size $((size - 512))"
stop "$server" && rm -f "$dir/to.disk"

# Sides that are not there leave the other as it was.
cp "$dir/longer" "$dir/old"
copy "nbd+unix:///?socket=$dir/none" "$dir/old"
held 'from nowhere to a file, which stays' eval "ended 5 'lnbd: link fault' && same '$dir/longer' '$dir/old'"
copy "$dir/nowhere" "nbd+unix:///?socket=$dir/none"
held 'from a file that is not there' ended 11 'lnbd: store fault'
start from nbdkit-memory 1M
copy "$address" "$dir"
held 'to a folder' ended 11 'lnbd: store fault'
copy "$address" "$dir/nowhere/file"
held 'to a folder that is not there' ended 11 'lnbd: store fault'
stop "$server"

# Empty sides, and holes.
: >"$dir/empty"
start to nbdkit-memory 512
copy "$dir/empty" "$address"
held 'of an empty file' ended 0 ''
stop "$server"
start from nbdkit-memory 0
cp "$dir/longer" "$dir/old"
copy "$address" "$dir/old"
held 'of an empty export' eval "ended 0 '' && same '$dir/empty' '$dir/old'"
stop "$server"
start from nbdkit-memory 1G
copy "$address" "$dir/hole"
held 'of 1 GiB of holes' eval "ended 0 '' && [ $(stat -c %s "$dir/hole") -eq 1073741824 ] && [ $(du -k "$dir/hole" | cut -f 1) -lt 1024 ]"
stop "$server"

# Holes of a file, which are not read: they are at every edge of slices, and there are 64 GiB of them.
"$python" -S -E - "$dir/holes" <<'PY'
import random, sys
drawn = random.Random(11)
with open(sys.argv[1], 'wb') as file:
    for _ in range(60):
        file.seek(drawn.choice([512, 4096, 65536, 262144, 299520, 1048576]), 1)
        file.write(drawn.randbytes(drawn.choice([512, 1024, 4096, 70144])))
    file.truncate(file.tell() // 512 * 512 + 778240)
PY
holes=$(stat -c %s "$dir/holes")
for words in '' '--allocated' '-S 0' '-S 33554432' '--request-size 4096' '-C 4 -R 2'; do
  start to nbdkit-file "$holes"
  # shellcheck disable=SC2086
  copy "$dir/holes" "$address" $words
  get "$address" "$dir/read"
  held "of a file with holes, ${words:-no options}" eval "ended 0 '' && same '$dir/holes' '$dir/read'"
  stop "$server"
  rm -f "$dir/to.disk"
done
truncate -s 64G "$dir/long" 2>/dev/null
if [ "$(stat -c %s "$dir/long" 2>/dev/null)" = 68719476736 ]; then
  for at in 0 300000000 34359738368 68719476224; do head -c 512 /dev/urandom | dd of="$dir/long" bs=1 seek="$at" conv=notrunc status=none; done
  start to nbdkit-memory 68719476736
  began=$(date +%s%N)
  copy "$dir/long" "$address"
  took=$((($(date +%s%N) - began) / 1000000))
  held 'of 64 GiB of holes' ended 0 ''
  [ "$took" -lt 8000 ] && echo "ok: they took $took ms" || echo "failed: they took $took ms"
  copy "$address" "$dir/back"
  held 'of 64 GiB of holes, and back' eval "ended 0 '' && [ \$(stat -c %s '$dir/back') -eq 68719476736 ]"
  for at in 0 300000000 34359738368 68719476224; do
    held "of 64 GiB of holes, the bytes at $at" cmp -s -i "$at" -n 1024 "$dir/long" "$dir/back"
  done
  stop "$server"
  rm -f "$dir/long" "$dir/back"
else
  echo 'skipped: no file of 64 GiB can be made here'
fi

# A full disk.
mkdir "$small"
if mount -t tmpfs -o size=2m tmpfs "$small" 2>/dev/null; then
  cp "$dir/disk" "$dir/from.disk" && start from nbdkit-file "$size"
  copy "$address" "$small/file"
  held 'to a full disk' ended 11 'lnbd: store fault'
  stop "$server" && rm -f "$dir/from.disk"
else
  echo 'skipped: no small file system can be mounted here'
fi

# Servers that are killed in the middle: status 0 only where all is equal, and every byte is of the source or zero, or as it was at the export.
wrong= faults=0
for round in 0 1 2 3 4 5 6 7 8 9; do
  if [ $((round % 2)) -eq 0 ]; then
    cp "$dir/disk" "$dir/from.disk" && start from nbdkit-file "$size"
    rm -f "$dir/new"
    from=$address to=$dir/new target=$dir/new
  else
    rm -f "$dir/to.disk"
    start to qemu-raw "$size"
    from=$dir/disk to=$address target=$dir/to.disk
  fi
  victim=$server
  (sleep "0.0$((round * 9 % 10))$((RANDOM % 10))"; stop "$victim") & killer=$!
  copy "$from" "$to" -C 2 -R 2 --request-size 4096
  wait $killer
  stop "$victim"
  case $code:$said in
    0:) cmp -s "$dir/disk" "$target" || wrong="$wrong round $round: status 0 and not equal;" ;;
    '4:lnbd: peer broke Ended' | '5:lnbd: link fault') faults=$((faults + 1)) ;;
    *) wrong="$wrong round $round: status $code, '$said';" ;;
  esac
  [ ! -s "$target" ] || "$python" -S -E - "$dir/disk" "$target" <<'PY' || wrong="$wrong round $round: a byte of neither;"
import sys
disk, target = (open(path, 'rb').read() for path in sys.argv[1:])
sys.exit(any(b and a != b for a, b in zip(disk, target)))
PY
  rm -f "$dir/from.disk"
done
if [ -z "$wrong" ]; then echo "ok: nbdcopy between a file and ten servers that are killed, of which $faults ended with a fault"; else echo "failed: nbdcopy and servers killed:$wrong"; fi
