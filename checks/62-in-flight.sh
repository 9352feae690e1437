# 64 writes in flight on one handle, then zeroes and trims, then 64 reads, over nbdkit: what is read back is, byte for byte, what was asked for,
# and what libnbd's nbdcopy finds there. The exports of a server are listed and asked for in opt mode. A sparse disk is read and mapped by
# chunks over nbdkit and qemu-nbd.
. checks/need.sh
need nbdkit nbdkit
need libnbd-bin nbdcopy
need qemu-utils qemu-nbd
need python3 python3

program=$(tools/built lnbd) || exit 1
dir=$(mktemp -d)
servers=()
trap 'kill "${servers[@]}" 2>/dev/null; rm -rf "$dir"' EXIT

# begin NAME WORDS ..: a server at this socket.
begin() {
  local socket=$dir/$1
  shift
  "$@" 2>/dev/null &
  servers+=($!)
  awaited "$socket"
}

# plays: the script "$dir/script" is played with status 0.
plays() {
  timeout 60 "$program" nbdcalls <"$dir/script" >"$dir/out" 2>"$dir/err"
  code=$?
  [ "$code" -eq 0 ] && [ ! -s "$dir/err" ]
}

# said NAME: the last script was played so, and printed "$dir/wanted".
said() {
  if plays && cmp -s "$dir/out" "$dir/wanted"; then
    echo "ok: $1"
  else
    echo "failed: $1: status $code, $(cat "$dir/err") $(diff "$dir/out" "$dir/wanted" | head -5 | cut -c 1-300)"
  fi
}

begin kit nbdkit -f -U "$dir/kit" memory 4M
# 64 writes of 64 KiB, each of a byte of its own; zeroes and trims over parts of them; then 64 reads. What has to be there is worked out beside.
python3 - "$dir" <<'PY'
import sys
dir = sys.argv[1]
size, step = 4 << 20, 65536
disk, script = bytearray(size), [f'connect unix {dir}/kit', 'settle']
for n in range(64):
    at = (n * 37 % 64) * step
    script.append(f'pwrite fill:{n + 1:02x}:{step} {at}')
    disk[at:at + step] = bytes([n + 1]) * step
script.append('settle')
for n in range(32):
    at = n * 2 * step + 4096 + n
    script.append(f'zero {8192 + n} {at}' if n % 2 else f'trim {8192 + n} {at}')
    disk[at:at + 8192 + n] = bytes(8192 + n)
script.append('settle')
script += [f'pread {step} {n * step}' for n in range(64)]
script += ['in-flight', 'settle'] + [f'done {97 + n}' for n in range(64)]
open(f'{dir}/script', 'w').write('\n'.join(script) + '\n')
open(f'{dir}/disk', 'wb').write(disk)
PY
# What the answers `done` tell, as bytes: each of them is so many runs.
python3 -c "
import sys
for line in open(sys.argv[1]):
    words = line.split()
    if words[0] == 'done':
        runs = [run.split('*') for run in words[2:]]
        part = b''.join(bytes([int(byte, 16)]) * int(count) for byte, count in runs)
        assert len(part) == int(words[1])
        sys.stdout.buffer.write(part)
" <(plays; cat "$dir/out") >"$dir/read"
nbdcopy "nbd+unix:///?socket=$dir/kit" "$dir/copied"
if cmp -s "$dir/read" "$dir/disk" && cmp -s "$dir/copied" "$dir/disk" && grep -qx 64 "$dir/out"; then
  echo 'ok: 64 writes, zeroes, trims and 64 reads in flight, byte for byte'
else
  echo "failed: 64 in flight: $(cmp "$dir/read" "$dir/disk") $(cmp "$dir/copied" "$dir/disk") $(tail -n 2 "$dir/out" | cut -c 1-200)"
fi

# Several exports of one server, and one of another.
mkdir "$dir/exports"
truncate -s 1M "$dir/exports/one" && truncate -s 2M "$dir/exports/two words"
begin files nbdkit -f -U "$dir/files" file dir="$dir/exports"
qemu-img create -q -f qcow2 "$dir/disk.qcow2" 8M
qemu-io -f qcow2 -c 'write -P 0xcd 1M 64k' -c 'write -z 4M 1M' "$dir/disk.qcow2" >/dev/null
begin qemu qemu-nbd -t -x disk -k "$dir/qemu" -f qcow2 -D 'a disk' "$dir/disk.qcow2"

printf '%s\n' 'optmode on' "connect unix $dir/files" settle opt-list settle listing \
  'export one' opt-info settle answer info 'export two words' opt-info settle answer info 'export three' opt-info settle answer \
  'export one' opt-go settle state 'handle 1' 'optmode on' "connect unix $dir/qemu" settle opt-list settle listing 'export none' opt-info settle answer \
  'export disk' opt-info settle answer opt-abort settle >"$dir/script"
timeout 60 "$program" nbdcalls <"$dir/script" >"$dir/out" 2>"$dir/err"
code=$?
sed -E 's/^info ([0-9]+) .*/info \1/' "$dir/out" >"$dir/short"
printf '%s\n' ok connected settled ok settled 'export "one" ""' 'export "two words" ""' end \
  ok ok settled ok 'info 1048576' end ok ok settled ok 'info 2097152' end ok ok settled 'refused 6 6' \
  ok ok settled ready ok ok connected settled ok settled 'export "disk" "a disk"' end ok ok settled 'refused 6 6' \
  ok ok settled ok ok settled 'opened 0 freed 0' >"$dir/wanted"
if [ "$code" -eq 3 ] && [ "$(cat "$dir/err")" = 'lnbd: peer error option 6 code 6' ] && cmp -s "$dir/short" "$dir/wanted"; then
  echo 'ok: the exports of two servers are listed and asked for in opt mode'
else
  echo "failed: opt mode: status $code, $(cat "$dir/err") $(diff "$dir/short" "$dir/wanted")"
fi

# A sparse disk: 64 KiB of data behind a hole, a piece of it in each chunk, and its map.
truncate -s 8M "$dir/sparse"
head -c 65536 /dev/zero | tr '\0' '\315' | dd of="$dir/sparse" bs=1M seek=1 conv=notrunc status=none
begin raw nbdkit -f -U "$dir/raw" file "$dir/sparse"
for place in "$dir/raw" "nbd+unix:///disk?socket=$dir/qemu"; do
  case $place in nbd*) connect="connect $place" name='a qcow2 disk of qemu-nbd' ;; *) connect="connect unix $place" name='a sparse file of nbdkit' ;; esac
  printf '%s\n' 'structured on' 'context base:allocation' "$connect" settle 'pread-structured 131072 983040' settle 'done 1' \
    'clear-log' heard 'block-status 2097152 0' settle 'done 2' heard disconnect settle >"$dir/script"
  plays
  # (a server may cut chunks and extents where it likes, so they are joined first)
  python3 - "$dir/out" >"$dir/short" <<'PY'
import sys
reach, extents = {}, []
for line in open(sys.argv[1]):
    words = line.split()
    if words[0] == 'chunk':
        at = int(words[1])
        for byte, count in (run.split('*') for run in words[4:]):
            reach[at] = (byte, int(count))
            at += int(count)
    elif words[0] == 'extents':
        for length, flags in (word.split(':') for word in words[4:]):
            if extents and extents[-1][1] == flags: extents[-1][0] += int(length)
            else: extents.append([int(length), flags])
    elif words[0] in ('done', 'failed'):
        print(*words)
runs = []
for at in sorted(reach):
    byte, count = reach[at]
    if runs and runs[-1][0] == byte and runs[-1][2] == at: runs[-1][1] += count; runs[-1][2] += count
    else: runs.append([byte, count, at + count])
print('chunks', *(f'{byte}*{count}' for byte, count, _ in runs))
total, told = 0, []
for length, flags in extents:
    length = min(length, 2097152 - total)
    total += length
    if length: told.append(f'{length}:{flags}')
print('extents', *told)
PY
  printf '%s\n' 'done 131072 00*65536 cd*65536' 'done 0 -' 'chunks 00*65536 cd*65536' 'extents 1048576:3 65536:0 983040:3' >"$dir/wanted"
  if [ "$code" -eq 0 ] && cmp -s "$dir/short" "$dir/wanted"; then
    echo "ok: $name, read and mapped by chunks"
  else
    echo "failed: $name: status $code, $(cat "$dir/err") $(diff "$dir/short" "$dir/wanted")"
  fi
done
