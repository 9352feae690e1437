# The programs in C of examples/c, built against the installed library by pkg-config, over nbdkit and qemu-nbd: whole exports are read, in buffers and without,
# and a map is that of nbdinfo; under valgrind there is no fault and no leak. The calls of lnbd.h in random order, under AddressSanitizer and valgrind, with
# and without one allocation in thirty that fails.
. checks/need.sh
need gcc gcc
need pkg-config pkg-config
need nbdkit nbdkit
need qemu-utils qemu-nbd
need libnbd-bin nbdinfo
need valgrind valgrind

dir=$(mktemp -d)
servers=()
trap 'kill "${servers[@]}" 2>/dev/null; rm -rf "$dir"' EXIT

if ! PREFIX=$dir LIBDIR=$dir/lib tools/library ${PROVE:+--prove} "$dir/lib" >/dev/null 2>&1; then
  echo 'skipped: the library for C is not built of these sources'
  exit 0
fi
mkdir -p "$dir/include" && cp include/lnbd.h "$dir/include/"
export PKG_CONFIG_PATH=$dir/lib LD_LIBRARY_PATH=$dir/lib

# same NAME WANTED COMMAND ..: the command ends well and prints this.
same() {
  local name=$1 wanted=$2 said
  shift 2
  if said=$(timeout 300 "$@" 2>"$dir/why") && [ "$said" = "$wanted" ]; then
    echo "ok: $name"
  else
    echo "failed: $name: '$(echo "$said" | head -c 300)' for '$(echo "$wanted" | head -c 300)' $(head -c 300 "$dir/why")"
  fi
}
# ok NAME COMMAND ..: the command ends well.
ok() {
  local name=$1
  shift
  if timeout 600 "$@" >"$dir/said" 2>&1; then echo "ok: $name"; else echo "failed: $name: $(tail -c 600 "$dir/said")"; fi
}
grind='valgrind -q --error-exitcode=9 --leak-check=full --errors-for-leak-kinds=definite,indirect,possible'

for program in read map; do
  ok "examples/c/$program.c is built by pkg-config" sh -c "gcc -Wall -Wextra -Werror -O2 examples/c/$program.c \$(pkg-config --cflags --libs lnbd) -o $dir/$program"
done

# serve NAME COMMAND ..: a server at $dir/NAME.
serve() {
  local socket=$dir/$1
  shift
  "$@" >/dev/null 2>&1 &
  servers+=($!)
  awaited "$socket"
}
serve pattern nbdkit -f -U "$dir/pattern" pattern 20000000
serve empty nbdkit -f -U "$dir/empty" null
serve fails nbdkit -f -U "$dir/fails" --filter=error pattern 1M error-pread=EIO error-pread-rate=100%
serve data nbdkit -f -U "$dir/data" data '1 2 3 @1000000 4*70000 @33000000 5' size=50M
dd if=/dev/urandom of="$dir/file" bs=65536 count=40 2>/dev/null
truncate -s 30M "$dir/file"
dd if=/dev/urandom of="$dir/file" bs=65536 seek=300 count=3 conv=notrunc 2>/dev/null
serve qemu qemu-nbd -r -f raw -k "$dir/qemu" -t "$dir/file"

# (the sum of examples/c/read.c: words of 8 bytes, the lowest first, of each piece of 256 KiB, and what is left of it byte by byte)
sum() {
  python3 - "$1" <<'PY'
import struct, sys
data = open(sys.argv[1], 'rb').read()
total = 0
for at in range(0, len(data), 262144):
    piece = data[at:at + 262144]
    words = len(piece) // 8
    total += sum(struct.unpack(f'<{words}Q', piece[:8 * words])) + sum(piece[8 * words:])
print(f'{len(data)} bytes, sum {total % 2**64:016x}')
PY
}
python3 -c 'import sys
for at in range(0, 20_000_000, 8): sys.stdout.buffer.write(at.to_bytes(8, "big"))' >"$dir/pattern.bytes"
: >"$dir/empty.bytes"
wanted=$(sum "$dir/pattern.bytes")
same 'read.c reads 20 MB of a pattern' "$wanted" "$dir/read" "$dir/pattern" sum
same 'and into buffers of its own' "$wanted" "$dir/read" "$dir/pattern" buffers sum
same 'without a checksum it tells the bytes' '20000000 bytes' "$dir/read" "$dir/pattern"
same 'an export without bytes' "$(sum "$dir/empty.bytes")" "$dir/read" "$dir/empty" sum
same 'a file of qemu-nbd' "$(sum "$dir/file")" "$dir/read" "$dir/qemu" sum
"$dir/read" "$dir/fails" >"$dir/said" 2>&1
if [ $? -eq 1 ] && grep -q 'a read failed: Input/output error' "$dir/said"; then
  echo 'ok: a read that the server fails is told'
else
  echo "failed: a read that the server fails: $(cat "$dir/said")"
fi
for how in '' buffers; do
  same "valgrind finds no fault and no leak in it${how:+, with buffers}" "$wanted" $grind "$dir/read" "$dir/pattern" sum $how
done
for name in data qemu; do
  same "map.c prints the map of nbdinfo over $name" "$(nbdinfo --map "nbd+unix:///?socket=$dir/$name")" "$dir/map" "$dir/$name"
done
ok 'valgrind finds no fault and no leak in it' $grind "$dir/map" "$dir/data"

# Another thread, and a close with commands in flight.
if gcc -Wall -Wextra -Werror -O2 -g -pthread -Iinclude -Iexamples/c checks/c/threads.c "$dir/lib/liblnbd.a" -o "$dir/threads"; then
  same 'a handle is made by one thread, used by two others in turn, and closed by the first with reads in flight' '65536 bytes, 8 in flight' "$dir/threads" "$dir/qemu"
  ok 'valgrind finds no fault and no leak in that' $grind "$dir/threads" "$dir/qemu"
  ok 'and no race' valgrind -q --error-exitcode=9 --tool=helgrind "$dir/threads" "$dir/qemu"
else
  echo 'failed: the program with threads is not built'
fi

# Any order of calls.
cat >"$dir/fails.c" <<'C'
#include <stddef.h>
#include <stdint.h>
void *__real_malloc(size_t);
void *__real_realloc(void *, size_t);
static uint32_t drawn = 7;
static int fails(void) { drawn = drawn * 1664525u + 1013904223u; return (drawn >> 16) % 30 == 0; }
void *__wrap_malloc(size_t n) { return fails() ? NULL : __real_malloc(n); }
void *__wrap_realloc(void *p, size_t n) { return fails() ? NULL : __real_realloc(p, n); }
C
calls=${FUZZ_CALLS:-1000000}
wrap='-Wl,--wrap=malloc,--wrap=realloc'
if gcc -O1 -g -Iinclude checks/c/fuzz.c "$dir/lib/liblnbd.a" -o "$dir/fuzz" && gcc -O1 -g -Iinclude checks/c/fuzz.c "$dir/fails.c" "$dir/lib/liblnbd.a" $wrap -o "$dir/fuzz-fails" &&
  gcc -O1 -g -fsanitize=address,undefined -fno-sanitize-recover=all -Iinclude checks/c/fuzz.c "$dir/lib/liblnbd.a" -o "$dir/fuzz-asan"; then
  ok "$calls calls in random order under AddressSanitizer" "$dir/fuzz-asan" "$calls" 3
  ok 'as many with allocations that fail' "$dir/fuzz-fails" "$calls" 5
  ok "$((calls / 20)) calls in random order under valgrind" $grind "$dir/fuzz" $((calls / 20)) 7
  ok 'as many with allocations that fail, under valgrind' $grind "$dir/fuzz-fails" $((calls / 20)) 9
else
  echo 'failed: the calls in random order are not built'
fi
