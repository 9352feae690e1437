# nbdcopy between two local files, by the built program: each byte of files of many sizes, what is sparse, what is left of a destination, and files that are none.
. checks/need.sh
need python3 python3

program=$(tools/built lnbd) || exit 1
case $program in /*) ;; *) program=$PWD/$program ;; esac
dir=$(mktemp -d)
trap 'umount "$dir/small" 2>/dev/null; rm -rf "$dir"' EXIT

# said NAME WANTED GOT
said() { if [ "$2" = "$3" ]; then echo "ok: $1"; else echo "failed: $1: '$3' in place of '$2'"; fi; }

# ends NAME STATUS ERR WORDS ..: nbdcopy with these words prints nothing, writes this line of standard error, and ends so.
ends() {
  timeout 120 "$program" nbdcopy "${@:4}" >"$dir/out" 2>"$dir/err"
  code=$?
  if [ "$code" -eq "$2" ] && [ ! -s "$dir/out" ] && [ "$(cat "$dir/err")" = "$3" ]; then
    echo "ok: $1"
  else
    echo "failed: $1: it ended with $code, printed '$(cat "$dir/out")' and wrote '$(cat "$dir/err")'"
  fi
}

# same NAME ONE OTHER: two files have the same bytes.
same() { if cmp -s "$2" "$3"; then echo "ok: $1"; else echo "failed: $1: $(cmp "$2" "$3" 2>&1)"; fi; }

# blocks FILE: how many KiB of its file system it takes
blocks() { du -k "$1" | cut -f 1; }

# Each byte, to a file that is missing, and over one that is longer.
for size in 0 1 511 512 4096 4097 262143 262144 262145 1048577; do
  head -c "$size" /dev/urandom >"$dir/from"
  rm -f "$dir/to"
  ends "$size bytes to a missing file" 0 '' "$dir/from" "$dir/to"
  same "  they are its bytes" "$dir/from" "$dir/to"
  head -c 2000000 /dev/urandom >"$dir/to"
  ends "$size bytes over a longer file" 0 '' --flush -S 512 --request-size 4096 "$dir/from" "$dir/to"
  same "  nothing of it is left" "$dir/from" "$dir/to"
done

# Zeros among other bytes, at every edge of blocks and slices.
python3 - "$dir/from" <<'PY'
import random, sys
drawn = random.Random(5)
with open(sys.argv[1], 'wb') as file:
    for _ in range(3000):
        file.write(bytes(drawn.choice([1, 511, 512, 4095, 4096, 8192, 20000])) if drawn.random() < 0.5 else drawn.randbytes(drawn.choice([1, 513, 4096, 5000])))
PY
for words in '' '-S 0' '-S 512' '-S 33554432' '--request-size 4096' '--request-size 33554432 -S 4096' '--allocated' '--destination-is-zero --no-extents -C 16 -R 512'; do
  head -c 30000000 /dev/urandom >"$dir/to"
  # shellcheck disable=SC2086
  ends "zeros among other bytes, ${words:-no options}" 0 '' $words "$dir/from" "$dir/to"
  same '  each byte is there' "$dir/from" "$dir/to"
done

# What is sparse.
truncate -s 1G "$dir/from"
for at in 0 300000000 1073741311; do head -c 512 /dev/urandom | dd of="$dir/from" bs=1 seek="$at" conv=notrunc status=none; done
rm -f "$dir/to"
began=$(date +%s%N)
ends '1 GiB of holes' 0 '' "$dir/from" "$dir/to"
took=$((($(date +%s%N) - began) / 1000000))
same '  each byte is there' "$dir/from" "$dir/to"
if [ "$(blocks "$dir/from")" -lt 100000 ]; then
  [ "$(blocks "$dir/to")" -le "$(blocks "$dir/from")" ] && echo "ok: it takes $(blocks "$dir/to") KiB, no more than its source, and took $took ms" || echo "failed: it takes $(blocks "$dir/to") KiB, its source $(blocks "$dir/from")"
  truncate -s 8M "$dir/hole"
  ends 'holes that are to be allocated' 0 '' --allocated "$dir/hole" "$dir/to"
  [ "$(blocks "$dir/to")" -ge 8192 ] && echo 'ok: they are' || echo "failed: they take $(blocks "$dir/to") KiB"
else
  echo 'skipped: no holes on this file system'
fi

# Holes of the source, which are not read: at every edge of slices, and 64 GiB of them.
python3 - "$dir/from" <<'PY'
import random, sys
drawn = random.Random(7)
with open(sys.argv[1], 'wb') as file:
    for _ in range(150):
        file.seek(drawn.choice([1, 511, 4096, 65536, 262144, 300000, 1048576]), 1)
        file.write(drawn.randbytes(drawn.choice([1, 513, 4096, 70000])))
    file.truncate(file.tell() + 777777)
PY
for words in '' '-S 0' '-S 512' '-S 33554432' '--request-size 4096' '--request-size 33554432 -S 4096' '--allocated'; do
  head -c 1000000 /dev/urandom >"$dir/to"
  # shellcheck disable=SC2086
  ends "holes among other bytes, ${words:-no options}" 0 '' $words "$dir/from" "$dir/to"
  same '  each byte is there' "$dir/from" "$dir/to"
done
rm -f "$dir/to"
truncate -s 64G "$dir/long" 2>/dev/null
if [ "$(stat -c %s "$dir/long")" = 68719476736 ] && [ "$(blocks "$dir/long")" -lt 100000 ]; then
  for at in 0 300000000 34359738368 68719476224; do head -c 512 /dev/urandom | dd of="$dir/long" bs=1 seek="$at" conv=notrunc status=none; done
  began=$(date +%s%N)
  ends '64 GiB of holes' 0 '' "$dir/long" "$dir/to"
  took=$((($(date +%s%N) - began) / 1000000))
  [ "$took" -lt 4000 ] && echo "ok: they took $took ms" || echo "failed: they took $took ms"
  python3 - "$dir/long" "$dir/to" <<'PY'
import os, sys

def data(file):
    """The ranges of the file that are no hole."""
    at, size = 0, os.fstat(file).st_size
    while at < size:
        try:
            begin = os.lseek(file, at, os.SEEK_DATA)
        except OSError:
            return
        at = os.lseek(file, begin, os.SEEK_HOLE)
        yield begin, at - begin

one, other = (os.open(path, os.O_RDONLY) for path in sys.argv[1:])
ranges = [*data(one), *data(other)]
wrong = [begin for begin, count in ranges if os.pread(one, count, begin) != os.pread(other, count, begin)]
alike = os.fstat(one).st_size == os.fstat(other).st_size and len(ranges) < 100 and not wrong
print('ok:   each byte is there' if alike else f'failed:   {len(ranges)} ranges, other bytes at {wrong}')
PY
else
  echo 'skipped: no file here is so long, or none has holes'
fi

# Words.
head -c 5000 /dev/urandom >"$dir/from"
cp "$dir/from" "$dir/before"
ends 'one path twice' 1 'lnbd: usage' "$dir/from" "$dir/from"
ends 'an empty path' 1 'lnbd: usage' "$dir/from" ''
ends 'a path of 4,097 bytes' 1 'lnbd: usage' "$dir/from" "$(printf '%4097s' x)"
ends 'one of 4,096, which the system refuses' 11 'lnbd: store fault' "$dir/from" "$(printf '%4096s' x)"
same 'the source is as it was' "$dir/from" "$dir/before"

# Files that are none.
head -c 9000 /dev/urandom >"$dir/to"
cp "$dir/to" "$dir/kept"
ends 'a source that is not there' 11 'lnbd: store fault' "$dir/nowhere" "$dir/to"
ends 'a folder as source' 11 'lnbd: store fault' "$dir" "$dir/to"
ends 'a device as source' 11 'lnbd: store fault' /dev/zero "$dir/to"
mkfifo "$dir/pipe"
ends 'a pipe as source' 11 'lnbd: store fault' "$dir/pipe" "$dir/to"
ends 'a pipe as destination' 11 'lnbd: store fault' "$dir/from" "$dir/pipe"
same 'then the destination is as it was' "$dir/to" "$dir/kept"
ends 'a folder as destination' 11 'lnbd: store fault' "$dir/from" "$dir"
ends 'a device as destination' 11 'lnbd: store fault' "$dir/from" /dev/null
ends 'a folder that is not there' 11 'lnbd: store fault' "$dir/from" "$dir/nowhere/to"
if [ "$(id -u)" -eq 0 ] && command -v setpriv >/dev/null; then
  chmod 711 "$dir"
  chmod 600 "$dir/from" "$dir/to"
  setpriv --reuid=65534 --regid=65534 --clear-groups "$program" nbdcopy "$dir/from" "/tmp/lnbd-$$" >"$dir/out" 2>"$dir/err"
  said 'a source without permission' '11 lnbd: store fault' "$? $(cat "$dir/err")"
  [ -e "/tmp/lnbd-$$" ] && echo 'failed: its destination was made' || echo 'ok: its destination was not made'
  chmod 644 "$dir/from"
  setpriv --reuid=65534 --regid=65534 --clear-groups "$program" nbdcopy "$dir/from" "$dir/to" >"$dir/out" 2>"$dir/err"
  said 'a destination without permission' '11 lnbd: store fault' "$? $(cat "$dir/err")"
  same '  it is as it was' "$dir/to" "$dir/kept"
else
  echo 'skipped: nobody else can be here'
fi
# (a file of this system tells 4,096 bytes and gives fewer)
short=/sys/kernel/mm/transparent_hugepage/enabled
if [ "$(stat -c %s "$short" 2>/dev/null)" = 4096 ]; then
  ends 'a source that ends before its length' 6 "lnbd: rule changed 4096 $(wc -c <"$short")" "$short" "$dir/to"
else
  echo 'skipped: there is no file here that ends before its length'
fi
mkdir "$dir/small"
if mount -t tmpfs -o size=4m tmpfs "$dir/small" 2>/dev/null; then
  head -c 8388608 /dev/urandom >"$dir/large"
  ends 'a full disk' 11 'lnbd: store fault' "$dir/large" "$dir/small/to"
  said '  the file has its length' 8388608 "$(stat -c %s "$dir/small/to")"
  cmp -s -n 1048576 "$dir/large" "$dir/small/to" && echo 'ok: and a front of the source' || echo 'failed: it has no front of the source'
else
  echo 'skipped: no small file system can be mounted here'
fi

# One file under two names: links are followed, and no file is copied onto itself.
ln -s "$dir/target" "$dir/link"
ends 'a symbolic link as destination' 0 '' "$dir/from" "$dir/link"
same '  the file that it names is written' "$dir/from" "$dir/target"
[ -L "$dir/link" ] && echo 'ok: it is a link still' || echo 'failed: it is no link any more'
cp "$dir/before" "$dir/own"
ln "$dir/own" "$dir/hard"
ln -s "$dir/own" "$dir/soft"
for other in "$dir/./own" "$dir/hard" "$dir/soft"; do
  ends "one file under two names, $(basename "$other")" 11 'lnbd: store fault' "$dir/own" "$other"
  same '  it is as it was' "$dir/before" "$dir/own"
done

# A copy that a signal ends; it reads and writes zeros, which takes long.
rm -f "$dir/to"
truncate -s 64G "$dir/long" 2>/dev/null
if [ "$(stat -c %s "$dir/long")" = 68719476736 ]; then
  for signal in TERM KILL; do
    rm -f "$dir/to"
    "$program" nbdcopy -S 0 "$dir/long" "$dir/to" >"$dir/out" 2>"$dir/err" &
    copy=$!
    while [ "$(stat -c %s "$dir/to" 2>/dev/null)" != 68719476736 ] && kill -0 "$copy" 2>/dev/null; do sleep 0.01; done
    kill -s "$signal" "$copy"
    wait "$copy" 2>/dev/null
    code=$?
    said "a copy that SIG$signal ends" "$((128 + $(kill -l "$signal"))) 68719476736" "$code $(stat -c %s "$dir/to")"
  done
else
  echo 'skipped: no file here is so long'
fi
