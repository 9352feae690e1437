# lnbd nbdcopy with servers of nbdkit that tell least and largest blocks, and refuse each command that doesn't keep to them; and with sources that tell
# extents of 512 bytes, of one byte, and none as zero.
. checks/servers.sh
size=8388608

# Sources, and the extents of two of them, for nbdkit's list of extents: exactly what they hold, and holes that aren't told to be zero.
python3 - "$dir" $size <<'PY'
import os, re, sys
dir, size = sys.argv[1], int(sys.argv[2])
def data(count): return bytes(b or 1 for b in os.urandom(count))
def put(name, content): open(f'{dir}/{name}', 'wb').write(content)
def told(name, content, zero):
    with open(f'{dir}/{name}', 'w') as f:
        for run in re.finditer(rb'\0+|[^\0]+', content):
            f.write(f'{run.start()} {run.end() - run.start()} {zero if run[0][0] == 0 else ""}\n')
put('dense', os.urandom(size))
put('large', os.urandom(5 * size))
put('uneven', data((1 << 20) + 512))
put('empty', b'')
put('noise', b'\x11' * 5 * size)
# Every second piece of 512 bytes is zeros.
alternate = b''.join(data(512) + bytes(512) for _ in range(size // 1024))
put('alternate', alternate)
told('alternate.exact', alternate, 'hole,zero')
told('alternate.holes', alternate, 'hole')
# Every second byte; then one byte in each block; then zeros that lack a byte, or half a block, to whole blocks; then zeros that are whole blocks.
crumbs = bytearray(size)
crumbs[1:32768:2] = data(16384)
for block in range(16, 256):
    crumbs[block * 4096 + block * 17 % 4096] = 7
for at in range(1 << 20, 3 << 20, 65536):
    crumbs[at:at + 1] = data(1)
    crumbs[at + 8191:at + 8192] = data(1)
    crumbs[at + 16384:at + 26624] = data(10240)
crumbs[4 << 20:5 << 20] = data(1 << 20)
crumbs[-1] = 9
put('crumbs', crumbs)
told('crumbs.exact', bytes(crumbs), 'hole,zero')
PY

# policy NAME FILE LEAST:PREFERRED:LARGEST [LIST]: nbdkit for this file with these blocks, or with none where they are left empty, and with a list of
# extents. It answers EINVAL to what doesn't keep to the blocks, and logs each command to $dir/NAME.log.
policy() {
  local name=$1 least preferred largest filters=(--filter=log) words=(file "$2" logfile="$dir/$1.log")
  IFS=: read -r least preferred largest <<<"$3"
  rm -f "$dir/$name" "$dir/$name.log"
  if [ -n "$least" ]; then
    filters+=(--filter=blocksize-policy)
    words+=(blocksize-minimum="$least" blocksize-preferred="$preferred" blocksize-maximum="$largest" blocksize-error-policy=error)
  fi
  if [ -n "$4" ]; then
    filters+=(--filter=extentlist)
    words+=(extentlist="$dir/$4")
  fi
  begin "$name" nbdkit -f -U "$dir/$name" "${filters[@]}" "${words[@]}"
}

# between SOURCE BLOCKS BLOCKS WORDS ..: a copy of it between servers with these blocks; the destination is as long as the source. `listed` is a list of
# extents for the source, or empty.
listed=
between() {
  local source=$1 one=$2 other=$3
  shift 3
  head -c "$(stat -c %s "$dir/$source")" "$dir/noise" >"$dir/target"
  policy from "$dir/$source" "$one" "$listed"
  local first=$server from=$address
  policy to "$dir/target" "$other"
  copy "$from" "$address" "$@"
  stop "$first" "$server"
}

# fits SOURCE BLOCKS BLOCKS WORDS ..: such a copy ends well and leaves the same bytes.
fits() { between "$@" && ended 0 '' && same "$dir/$1" "$dir/target"; }

# refused LINE SOURCE BLOCKS BLOCKS: such a copy ends with this rule, and nothing was written.
refused() {
  between "${@:2}"
  head -c "$(stat -c %s "$dir/$2")" "$dir/noise" >"$dir/before"
  ended 6 "lnbd: rule $1" && same "$dir/before" "$dir/target"
}

# longest_of NAME COMMAND: the most bytes of one command of this kind in the log, in hex.
longest_of() { sed -nE "s/.* $2 id=.* count=0x([0-9a-f]+).*/\1/p" "$dir/$1.log" | awk '{ print length($0), $0 }' | sort -k1,1n -k2 | tail -n 1 | cut -d' ' -f2; }

# as_long COUNT COMMAND-ARGUMENTS ..: such a copy fits, and its longest read and its longest write have so many bytes, in hex.
as_long() {
  fits "${@:2}" || return 1
  local read=$(longest_of from Read) written=$(longest_of to Write)
  why=", its longest read has $read bytes and its longest write $written"
  [ "$read" = "$1" ] && [ "$written" = "$1" ] && why=
}

most=33554432
for source in dense alternate crumbs; do
  held "with least blocks of 512 at the source ($source)" fits $source 512:4096:$most ''
  held "with least blocks of 512 at the destination ($source)" fits $source '' 512:4096:$most
  held "with least blocks of 65536 at the source ($source)" fits $source 65536:65536:$most ''
  held "with least blocks of 65536 at the destination ($source)" fits $source '' 65536:65536:$most
  held "with least blocks of 512 at the source and of 65536 at the destination ($source)" fits $source 512:512:$most 65536:65536:$most
  held "with least blocks of 65536 at the source and of 512 at the destination, zeros looked for by 512 ($source)" fits $source \
    65536:65536:$most 512:512:$most -S 512
done
held 'with requests below the least block, which then is their length' as_long 10000 dense 65536:65536:$most '' --request-size 4096
held 'with blocks of 65536 alone on both sides' as_long 10000 dense 65536:65536:65536 65536:65536:65536 --request-size $most
held 'with a largest block of 196608 at the source: requests have the power of two below it' as_long 20000 dense 65536:65536:196608 '' --request-size $most
held 'with a largest block of 4096 at the destination' as_long 1000 dense '' 512:4096:4096 --request-size $most
held 'with requests of 32 MiB where the source takes no more' as_long 2000000 large 1:4096:$most '' --request-size $most
held 'with requests of 32 MiB where the destination takes no more' as_long 2000000 large '' 1:4096:$most --request-size $most
held 'with requests of 32 MiB where both take no more and have least blocks of 65536' as_long 2000000 large 65536:65536:$most 65536:65536:$most --request-size $most
held 'with requests of 32 MiB where both sides would take more' as_long 2000000 large 1:4096:67108864 1:4096:4294967295 --request-size $most
held 'of an empty export' fits empty 65536:65536:$most 512:4096:$most
held "of a size that is no multiple of the destination's least block ends by the rule, with nothing written" refused 'uneven 1049088 65536' uneven '' 65536:65536:$most
held "of a size that is no multiple of the source's own least block ends by the rule, with nothing written" refused 'uneven 1049088 65536' uneven 65536:65536:$most ''
held 'of a size that is a multiple of the least block of 512' fits uneven 512:512:$most 1:4096:$most
held "with a least block that the other side doesn't take at once ends by the rule, with nothing written" refused 'unfit 65536 32768' dense 65536:65536:$most 1:4096:32768
held "with a largest block below the destination's least ends by the rule, with nothing written" refused 'unfit 65536 4096' dense 512:4096:4096 65536:65536:$most

# With lists of extents.
listed=alternate.exact
held 'with data and zeros every 512 bytes, told exactly' fits alternate '' ''
held 'with data and zeros every 512 bytes, told exactly, and zero blocks of 512 looked for' fits alternate '' '' -S 512
held 'with data and zeros every 512 bytes, told exactly, and least blocks of 512' fits alternate 512:512:$most 512:512:$most -S 512
held 'with data and zeros every 512 bytes, told exactly, and a least block of 4096' fits alternate '' 4096:4096:$most
listed=alternate.holes
held 'with data and zeros every 512 bytes, and holes that are not told to be zero' fits alternate '' ''
held 'with data and zeros every 512 bytes, holes that are not told to be zero, and a least block of 65536' fits alternate 65536:65536:$most ''
listed=crumbs.exact
held 'with extents of one byte' fits crumbs '' ''
held 'with extents of one byte inside least blocks of 512' fits crumbs 512:512:$most ''
held 'with extents of one byte inside least blocks of 4096' fits crumbs 4096:4096:$most ''
held 'with extents of one byte inside least blocks of 65536 of the destination' fits crumbs '' 65536:65536:$most
held 'with extents of one byte inside least blocks of 4096 on both sides, over one connection' fits crumbs 4096:4096:$most 4096:4096:$most -C 1 -S 512
listed=

# The bytes behind the source's end stay.
head -c $((2 * size)) "$dir/noise" >"$dir/target"
cat "$dir/dense" <(head -c $size "$dir/noise") >"$dir/wanted"
policy from "$dir/dense" 512:4096:$most
from=$address first=$server
policy to "$dir/target" 65536:65536:$most
copy "$from" "$address"
stop $first $server
longer() { ended 0 '' && same "$dir/wanted" "$dir/target"; }
held 'to a longer export with least blocks of 65536 leaves the bytes behind the end' longer
