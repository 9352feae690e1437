# lnbd nbddump of ten exports over servers of four kinds, beside the text that checks/dump.py makes of their bytes; what it asks for; each way in which it can
# end; and the examples of its page.
. checks/servers.sh
need libnbd-bin nbddump
judge() { "$python" -S -E checks/dump.py "$@"; }

python3 - "$dir" <<'PY'
import os, sys
dir = sys.argv[1]
def put(name, content): open(f'{dir}/{name}.bytes', 'wb').write(content)
def data(count): return bytes(b or 1 for b in os.urandom(count))
put('hi', bytes(48) + b'Hi\n')
put('empty', b'')
put('one', b'\xff')
put('dense', os.urandom(600000))
put('letters', bytes(range(256)) * 512)
put('alike', b'\x11' * 400000)
put('holes', b''.join(data(4096) + bytes(61440) for _ in range(16)))
put('crumbs', b''.join(bytes(4000) + data(96) for _ in range(128)))
# 25 pieces of 16,384 bytes, each of whose groups has a line of its own.
put('long', data(409600))
# In blocks of 4,096: zeros of a whole block, of less than one, over a border of two, and in a group.
put('blocks', b''.join(data(4096) + bytes(4096) + data(1000) + bytes(3096 + 4096 + 512) + data(3584) + (bytes(8) + data(8)) * 256 for _ in range(8)))
# (as few reads as bytes told as zero)
put('bytewise', data(40000) + bytes(60000) + b''.join(data(20) + bytes(n % 40) for n in range(400)))
PY
truncate -s 4M "$dir/sparse.bytes"
printf 'at the end' | dd of="$dir/sparse.bytes" bs=1 seek=4194000 conv=notrunc status=none

# The judge itself, beside libnbd's nbddump.
wrong=
for name in hi one dense letters alike holes crumbs sparse; do
  begin "$name.judged" nbdkit -f -U "$dir/$name.judged" file "$dir/$name.bytes"
  cmp -s <(nbddump "$address" | judge nbddump) <(judge text "$dir/$name.bytes" 0 "$(stat -c %s "$dir/$name.bytes")") || wrong="$wrong $name"
  stop "$server"
done
[ -z "$wrong" ] && echo 'ok: the judge prints what nbddump does, but for blanks' || echo "failed: the judge prints other lines than nbddump of$wrong"

wrong=
count=0
# same NAME OFFSET LENGTH WORDS ..: the dump of this range, by these words, is the judge's.
same() {
  local file=$dir/$1.bytes text=$dir/$1.$2.$3.text code
  count=$((count + 1))
  [ -e "$text" ] || judge text "$file" "$2" "$3" >"$text"
  timeout 120 "$program" nbddump "${@:4}" "$address" >"$dir/ours" 2>"$dir/ours.err"
  code=$?
  [ $code -eq 0 ] && [ ! -s "$dir/ours.err" ] && cmp -s "$dir/ours" "$text" || wrong="$wrong $1:$2:$3 ($code, $address)"
}

# ranges NAME: the whole, all but its ends, a middle that begins in a group, and nothing at its end.
ranges() {
  local size
  size=$(stat -c %s "$dir/$1.bytes")
  same "$1" 0 "$size"
  [ "$size" -lt 3 ] || same "$1" 1 $((size - 2)) --length $((size - 2)) --offset 1
  [ "$size" -lt 51 ] || same "$1" 49 1 --offset 49 --length 1
  [ "$size" -lt 9000 ] || same "$1" 4095 4098 "--offset=4095" "--length=4098"
  same "$1" "$size" 0 --offset "$size"
  same "$1" 0 0 --length 0
}

for name in hi empty one dense letters alike holes crumbs long sparse; do
  begin "$name" nbdkit -f -U "$dir/$name" file "$dir/$name.bytes"
  ranges "$name"
  stop "$server"
done
[ -z "$wrong" ] && echo "ok: the dumps of ten exports of nbdkit are the judge's ($count)" || echo "failed: these dumps of nbdkit's exports differ:$wrong"

# qemu-nbd tells whole sectors, and zeros behind the file.
wrong= count=0
for name in hi empty one dense letters alike holes crumbs long sparse; do
  truncate -s %512 "$dir/$name.bytes"
  rm -f "$dir/$name".*.text
  start "$name.qemu" qemu-raw - "$dir/$name.bytes"
  ranges "$name"
  stop "$server"
done
[ -z "$wrong" ] && echo "ok: those of qemu-nbd too ($count)" || echo "failed: these dumps of qemu-nbd's exports differ:$wrong"

# Servers that tell no extents: without structured replies, with all told as data, and nbd-server.
wrong= count=0
for name in hi holes sparse; do
  begin "$name.simple" nbdkit -f -U "$dir/$name.simple" --no-sr file "$dir/$name.bytes"
  ranges "$name"
  stop "$server"
  begin "$name.untold" nbdkit -f -U "$dir/$name.untold" --filter=noextents file "$dir/$name.bytes"
  ranges "$name"
  stop "$server"
  start "$name.server" nbd-server - "$dir/$name.bytes"
  ranges "$name"
  stop "$server"
done
[ -z "$wrong" ] && echo "ok: and those of servers that tell no extents ($count)" || echo "failed: these dumps of servers that tell no extents differ:$wrong"

# Blocks of 4,096 bytes, which nbdkit refuses to read in part.
wrong= count=0
for name in letters holes blocks; do
  begin "$name.blocks" nbdkit -f -U "$dir/$name.blocks" --filter=blocksize-policy file "$dir/$name.bytes" \
    blocksize-minimum=4096 blocksize-preferred=4096 blocksize-maximum=65536 blocksize-error-policy=error
  ranges "$name"
  stop "$server"
done
[ -z "$wrong" ] && echo "ok: and those in blocks of 4,096 ($count)" || echo "failed: these dumps in blocks of 4,096 differ:$wrong"

# told NAME FILE BLOCK MOST WHAT SETTING=VALUE ..: the dump of the file over a peer with these settings is the judge's, and it asks as the page says: whole
# blocks, at most so long, and none of zeros.
told() {
  wrong= count=0
  peer "$1" "$dir/$2.bytes" "${@:6}"
  same "$2" 0 "$(stat -c %s "$dir/$2.bytes")"
  stop "$server"
  if why=$(judge asked "$dir/$2.bytes" "$dir/$1.log" "$3" "$4" 2>&1) && [ -z "$wrong" ]; then echo "ok: $5"; else echo "failed: $5: $why$wrong"; fi
}
told zeros holes 512 262144 'no block that is told as zero is read, and nothing twice' extents=exact:512
told small blocks 4096 65536 'no block of 4,096 bytes that is told as zero in parts is read' extents=exact:512 blocks=4096:4096:65536
told bytewise bytewise 1 262144 'extents of one byte each, and not of all that was asked' extents=exact:1
told extended blocks 4096 262144 'with extended headers likewise' extents=exact:4096 blocks=4096:4096:33554432 mode=extended

# Sixteen reads are under way, and no more, where the server takes its time.
begin slow nbdkit -t 64 -f -U "$dir/slow" --filter=log --filter=blocksize-policy --filter=delay file "$dir/long.bytes" rdelay=1 logfile="$dir/slow.log" \
  blocksize-minimum=1 blocksize-preferred=4096 blocksize-maximum=16384 blocksize-error-policy=error
wrong=
same long 0 409600
most=$(judge under-way "$dir/slow.log")
[ "$most" = 16 ] && [ -z "$wrong" ] && echo 'ok: sixteen reads are under way' || echo "failed: $most reads are under way;$wrong"
stop "$server"

# prints NAME STATUS LINES ERR WORDS ..: nbddump with these words prints these lines (joined by #) and this line of standard error, and ends so.
prints() {
  timeout 120 "$program" nbddump "${@:5}" >"$dir/out" 2>"$dir/err"
  code=$?
  lines=$(paste -sd '#' "$dir/out")
  if [ "$code" -eq "$2" ] && [ "$lines" = "$3" ] && [ "$(cat "$dir/err")" = "$4" ]; then
    echo "ok: $1"
  else
    echo "failed: $1: it ended with $code, printed '$lines' and wrote '$(cat "$dir/err")'"
  fi
}
nothing='00 00 00 00 00 00 00 00 00 00 00 00 00 00 00 00  |................|'

begin fifty nbdkit -f -U "$dir/fifty" data '0*48 72 105 10'
prints 'zeros and three bytes' 0 "0000000000: $nothing#*#0000000030: 48 69 0a                                         |Hi.|" '' "$address"
prints 'one byte' 0 "0000000031: 69$(printf '%47s' '')|i|" '' --offset 49 --length 1 "$address"
prints 'no byte of a length that is 0' 0 '' '' --length 0 "$address"
prints 'and none behind the last' 0 '' '' "$address" --offset 51
prints 'a range that the export has not is told' 6 '' 'lnbd: rule range 52 0 51' --offset 52 "$address"
prints 'and one without a byte' 6 '' 'lnbd: rule range 52 0 51' --offset 52 --length 0 "$address"
prints 'and one that is too long' 6 '' 'lnbd: rule range 50 2 51' --offset 50 --length 2 "$address"
prints 'and one whose end is no number' 6 '' 'lnbd: rule range 1 18446744073709551615 51' --offset 1 --length 18446744073709551615 "$address"
prints 'an offset past all exports' 6 '' 'lnbd: rule range 9223372036854775808 0 51' --offset 9223372036854775808 "$address"
prints 'a length that none has' 6 '' 'lnbd: rule range 0 9223372036854775808 51' --length 9223372036854775808 "$address"
for word in --offset --length; do
  for value in 18446744073709551616 -1 +1 0x10 1k ''; do prints "$word '$value' is none" 1 '' 'lnbd: usage' $word "$value" "$address"; done
  prints "$word stands once" 1 '' 'lnbd: usage' $word 1 $word 1 "$address"
done
prints 'a dump wants an address' 1 '' 'lnbd: usage'
prints 'and no second one' 1 '' 'lnbd: usage' "$address" "$address"
prints 'nobody listens' 5 '' 'lnbd: link fault' "nbd+unix:///?socket=$dir/nobody"
stop "$server"

begin none nbdkit -f -U "$dir/none" memory 0
prints 'an export of no bytes prints nothing' 0 '' '' "$address"
prints 'and has no byte' 6 '' 'lnbd: rule range 0 1 0' --length 1 "$address"

begin ragged nbdkit -f -U "$dir/ragged" --filter=blocksize-policy data 1 size=5000 \
  blocksize-minimum=4096 blocksize-preferred=4096 blocksize-maximum=65536 blocksize-error-policy=error
prints 'last bytes that lie in no whole block' 6 '' 'lnbd: rule uneven 5000 4096' "$address"
prints 'and a range that ends in them' 6 '' 'lnbd: rule uneven 5000 4096' --offset 100 --length 3997 "$address"
prints 'but not one without a byte' 0 '' '' --offset 5000 "$address"
prints 'a range past the end comes first' 6 '' 'lnbd: rule range 4096 905 5000' --offset 4096 --length 905 "$address"
prints 'the blocks before them' 0 "0000000000: 01${nothing#00}#0000000010: $nothing#*#0000000ff0: $nothing" '' --length 4096 "$address"

# Ranges of terabytes that are told as zero take few lines and no time.
# soon NAME SECONDS ..: what `prints` says, within so many seconds.
soon() {
  local began=$SECONDS
  prints "$1" "${@:3}"
  [ $((SECONDS - began)) -le "$2" ] || echo "failed: $1 took $((SECONDS - began)) seconds"
}
begin wide nbdkit -f -U "$dir/wide" memory 1T
soon 'a tebibyte of zeros' 30 0 "0000000000: $nothing#*#fffffffff0: $nothing" '' "$address"
begin ends nbdkit -f -U "$dir/ends" data '1*65536 @1099511627000 1' size=1T
ones=$(printf '01 %.0s' {1..16})
soon 'a tebibyte with bytes at its ends' 30 0 \
  "0000000000: $ones |................|#*#0000010000: $nothing#*#fffffffcf0: ${nothing:0:24}01 ${nothing:27}#fffffffd00: $nothing#*#fffffffff0: $nothing" '' "$address"
begin vast nbdkit -f -U "$dir/vast" memory 9223372036854775807
prints 'the last bytes of the largest export' 0 "7fffffffffffffe0: $nothing#7ffffffffffffff0: ${nothing:0:44}     |...............|" '' --offset 9223372036854775776 "$address"

# is_front LEAST: what the last dump printed is a front of the dump of `long`, with the lines of so many bytes at least but for the last of them, which may wait.
is_front() {
  local size
  size=$(stat -c %s "$dir/out")
  why=" and printed $size letters"
  cmp -s -n "$size" "$dir/out" "$dir/long.0.409600.text" && [ "$size" -ge $((($1 / 16 - 1) * 80)) ] && [ "$size" -lt 2048000 ]
}

# fails NAME STATUS ERR LEAST SETTING=VALUE ..: over a peer with these settings, which takes 16,384 bytes at once, a dump ends so, and printed a front.
number=0
fails() {
  number=$((number + 1))
  peer "failing$number" "$dir/long.bytes" blocks=1:4096:16384 "${@:5}"
  timeout 120 "$program" nbddump "$address" >"$dir/out" 2>"$dir/err"
  code=$?
  if is_front "$4" && [ $code -eq "$2" ] && [ "$(cat "$dir/err")" = "lnbd: $3" ]; then
    echo "ok: $1"
  else
    echo "failed: $1: it ended with $code, wrote '$(cat "$dir/err")'$why"
  fi
  stop "$server"
}
piece=16384
fails 'a first read that fails is told' 3 'peer error command 5' 0 fault=READ:1:error5
fails 'a later one is told behind what was read before it' 3 'peer error command 5' $((19 * piece)) fault=READ:20:error5
fails 'and by a simple reply' 3 'peer error command 28' $((17 * piece)) mode=simple fault=READ:18:error28
fails 'a block status that fails is told behind what was read before it' 3 'peer error command 22' 160000 extents=exact:4 fault=STATUS:3:error22
fails 'one that tells nothing is faulty content' 4 'peer broke Content' 160000 extents=exact:4 fault=STATUS:3:noextents
fails 'and so is one of an empty extent' 4 'peer broke Content' 0 extents=exact:4 fault=STATUS:1:emptyextent
fails 'a read of which bytes are missing is faulty content' 4 'peer broke Content' $((17 * piece)) fault=READ:18:missing
fails 'an end in the middle' 4 'peer broke Ended' $((16 * piece)) fault=READ:18:leave
fails 'an end at a block status' 4 'peer broke Ended' 160000 extents=exact:4 fault=STATUS:3:leave
fails 'a breach in the middle' 4 'peer broke UnknownCookie' $((16 * piece)) fault=READ:18:cookie
fails 'an end of the handshake' 4 'peer broke Ended' 0 handshake=leave
fails 'an export that is not there' 3 'peer error option 7 code 6' 0 handshake=unknown
fails 'one without a size' 4 'peer broke NoExportInfo' 0 handshake=nosize
fails 'one that is too large' 4 'peer broke SizeTooBig' 0 handshake=big

# An output that fails, at once and later: what it took is a front.
begin printing nbdkit -f -U "$dir/printing" file "$dir/long.bytes"
# fell NAME CODE: the last dump ended so, for its output.
fell() {
  if is_front 0 && [ "$2" -eq 8 ] && [ "$(cat "$dir/err")" = 'lnbd: output fault' ]; then
    echo "ok: $1"
  else
    echo "failed: $1: it ended with $2, wrote '$(cat "$dir/err")'$why"
  fi
}
: >"$dir/out"
"$program" nbddump "$address" >/dev/full 2>"$dir/err"
fell 'an output that is full' $?
for bytes in 0 1 80 1000000; do
  "$program" nbddump "$address" 2>"$dir/err" | head -c $bytes >"$dir/out"
  fell "a pipe whose reader goes away after $bytes bytes" ${PIPESTATUS[0]}
done
for kib in 1 77 1280; do
  (
    trap '' XFSZ
    ulimit -f $kib
    "$program" nbddump "$address" 2>"$dir/err" >"$dir/out"
  )
  fell "a file that may have $kib KiB" $?
  [ "$(stat -c %s "$dir/out")" -eq $((kib * 1024)) ] || echo "failed: of a file that may have $kib KiB $(stat -c %s "$dir/out") bytes were written"
done

# The page's own examples, over its server.
page=docs/nbddump.md
kit=$(sed -n "s|^nbdkit -U /tmp/nbd.sock -P /tmp/nbd.pid |nbdkit -f -U $dir/nbd.sock |p" "$page")
eval "begin nbd.sock $kit"
awk -v dir="$dir" '
  /^```sh$/ { file = dir "/" ++n ".sh"; next }
  /^```text$/ { file = dir "/" n ".shown"; next }
  /^```$/ { file = ""; next }
  file { print > file }' "$page"
count=0
for commands in "$dir"/[0-9].sh; do
  count=$((count + 1))
  { printf 'lnbd() { "%s" "$@"; }\n' "$program"; sed "s|/tmp/nbd.sock|$dir/nbd.sock|" "$commands"; } >"$dir/commands"
  timeout 60 bash "$dir/commands" >"$dir/out" 2>&1
  if cmp -s "$dir/out" "${commands%.sh}.shown"; then
    echo "ok: example $count of the page of nbddump"
  else
    echo "failed: example $count of the page of nbddump: $(diff "$dir/out" "${commands%.sh}.shown")"
  fi
done
[ "$count" -ge 2 ] || echo "failed: the page of nbddump has $count examples"
