# lnbd nbdcopy between servers of four kinds, compared byte for byte: dense and sparse sources, one connection and many, each option;
# how it ends where the exports don't fit or a server dies; and the examples of its page.
. checks/need.sh
need nbdkit nbdkit
need qemu-utils qemu-nbd
need nbd-server nbd-server
need libnbd-bin nbdcopy

program=$(tools/built lnbd) || exit 1
dir=$(mktemp -d)
servers=()
trap 'kill "${servers[@]}" 2>/dev/null; rm -rf "$dir"' EXIT
size=16777216

# Sources: bytes all over; data in a few places of a sparse file; and nothing but zeros.
head -c $size /dev/urandom >"$dir/dense"
python3 - "$dir" $size <<'PY'
import os, sys
dir, size = sys.argv[1], int(sys.argv[2])
with open(dir + '/sparse', 'wb') as f:
    f.truncate(size)
    for at, count in ((0, 512), (65536, 4096), (300000, 100000), (8 << 20, 1 << 20), (size - 777, 777)):
        f.seek(at)
        f.write(os.urandom(count))
with open(dir + '/zeros', 'wb') as f:
    f.truncate(size)
PY
tr '\0' '\21' </dev/zero 2>/dev/null | head -c $size >"$dir/noise"

# serve SOCKET KIND FILE: a server of this kind for the file, or in memory.
serve() {
  rm -f "$1" "$1.pid"
  case $2 in
    nbdkit-file) nbdkit -f -U "$1" file "$3" 2>/dev/null & ;;
    nbdkit-plain) nbdkit -f --no-sr -U "$1" file "$3" 2>/dev/null & ;;
    nbdkit-blocks) nbdkit -f -U "$1" --filter=blocksize-policy file "$3" blocksize-minimum=4096 blocksize-preferred=65536 blocksize-maximum=131072 2>/dev/null & ;;
    qemu-raw) qemu-nbd -t -e 8 -k "$1" -f raw "$3" 2>/dev/null & ;;
    qemu-qcow2) qemu-nbd -t -e 8 -k "$1" -f qcow2 "$3" 2>/dev/null & ;;
    nbd-server)
      printf '[generic]\nunixsock = %s\n[disk]\nexportname = %s\n' "$1" "$3" >"$1.conf"
      # (it serves many connections where it is a daemon alone)
      nbd-server -C "$1.conf" -p "$1.pid" >/dev/null 2>&1
      for _ in $(seq 100); do [ -s "$1.pid" ] && break; sleep 0.1; done
      server=$(cat "$1.pid")
      servers+=($server)
      awaited "$1"
      return
      ;;
  esac
  server=$!
  servers+=($server)
  awaited "$1"
}

# uri SOCKET [KIND]: nbd-server has exports with names alone.
uri() { if [ "$2" = nbd-server ]; then printf 'nbd+unix:///disk?socket=%s' "$1"; else printf 'nbd+unix:///?socket=%s' "$1"; fi; }

# copy FROM TO WORDS ..: runs it, with the status in code and the line in said.
copy() {
  timeout 120 "$program" nbdcopy "${@:3}" "$1" "$2" >"$dir/out" 2>"$dir/err"
  code=$?
  said=$(cat "$dir/out" "$dir/err")
}

# copied NAME SOURCE FROM_KIND TO_KIND WORDS ..: a copy of this source, to a destination full of other bytes, holds it afterwards.
number=0
copied() {
  local name=$1 source=$2 from_kind=$3 to_kind=$4 from=$dir/from to=$dir/to file=$dir/file
  shift 4
  number=$((number + 1))
  from=$from$number to=$to$number file=$file$number
  case $to_kind in
    qemu-qcow2) qemu-img create -q -f qcow2 "$file" $size && qemu-io -f qcow2 -c "write -q -P 17 0 $size" "$file" >/dev/null ;;
    *) cp "$dir/noise" "$file" ;;
  esac
  local given=$dir/$source
  if [ "$from_kind" = qemu-qcow2 ]; then
    given=$dir/$source.qcow2
    [ -e "$given" ] || qemu-img convert -f raw -O qcow2 "$dir/$source" "$given"
  fi
  serve "$from" "$from_kind" "$given"
  local first=$server
  serve "$to" "$to_kind" "$file"
  local second=$server
  copy "$(uri "$from" "$from_kind")" "$(uri "$to" "$to_kind")" "$@"
  kill $first $second 2>/dev/null
  wait $first $second 2>/dev/null
  [ "$to_kind" = qemu-qcow2 ] && qemu-img convert -f qcow2 -O raw "$file" "$file.raw" && mv "$file.raw" "$file"
  if [ $code -eq 0 ] && [ -z "$said" ] && cmp -s "$dir/$source" "$file"; then
    echo "ok: nbdcopy $name"
  else
    echo "failed: nbdcopy $name: status $code, '$said', $(cmp "$dir/$source" "$file" 2>&1)"
  fi
  rm -f "$file"
}

kinds='nbdkit-file qemu-raw qemu-qcow2 nbd-server'
for from in $kinds; do
  for to in $kinds; do
    copied "a sparse disk from $from to $to" sparse "$from" "$to"
  done
  copied "a sparse disk from $from over one connection" sparse "$from" qemu-raw -C 1
done
copied 'bytes all over' dense nbdkit-file nbdkit-file -C 8
copied 'one request at a time' dense nbdkit-file qemu-raw -C 1 -R 1
copied 'zeros alone' zeros nbdkit-file qemu-raw
copied 'zeros as allocated' zeros nbdkit-file nbdkit-file --allocated
copied 'without extents' sparse nbdkit-file nbdkit-file --no-extents
copied 'without looking for zeros' sparse qemu-raw nbdkit-file --no-extents -S 0
copied 'small requests and small zero blocks' sparse nbdkit-file nbdkit-file --request-size 4096 -S 512
copied 'large requests and a flush' dense nbdkit-file nbdkit-file --request-size=33554432 --flush
copied 'a source with simple replies' sparse nbdkit-plain nbdkit-file
copied 'a destination with simple replies' sparse nbdkit-file nbdkit-plain
copied 'a source that tells its blocks' dense nbdkit-blocks nbdkit-file
copied 'a destination that tells its blocks' sparse nbdkit-file nbdkit-blocks

# ended NAME STATUS LINE: the last copy ended so.
ended() {
  if [ "$code" -eq "$2" ] && [ "$said" = "$3" ]; then echo "ok: nbdcopy $1"; else echo "failed: nbdcopy $1: status $code, '$said'"; fi
}

nbdkit -f -U "$dir/one" memory 1M & servers+=($!)
nbdkit -f -U "$dir/two" memory 512k & servers+=($!)
nbdkit -f -r -U "$dir/three" memory 1M & servers+=($!)
nbdkit -f -U "$dir/four" --filter=error memory 1M error-pwrite=EIO error-pwrite-rate=100% 2>/dev/null & servers+=($!)
nbdkit -f -U "$dir/five" data '0xab*1048576' & servers+=($!)
for name in one two three four five; do awaited "$dir/$name"; done
copy "$(uri "$dir/one")" "$(uri "$dir/two")"
ended 'to a smaller export' 6 'lnbd: rule smaller 1048576 524288'
copy "$(uri "$dir/one")" "$(uri "$dir/three")"
ended 'to a read-only export' 6 'lnbd: rule read-only'
copy "$(uri "$dir/five")" "$(uri "$dir/four")"
ended 'where writes fail' 3 'lnbd: peer error command 5'
copy "$(uri "$dir/one")" "$(uri "$dir/none")"
ended 'to a server that is not there' 5 'lnbd: link fault'
copy "$(uri "$dir/one")" nbds://localhost
ended 'to an address that is none' 1 'lnbd: uri Tls'
copy "$(uri "$dir/one")" "$(uri "$dir/two")" -C 17
ended 'with more connections than there may be' 1 'lnbd: usage'

# A server that dies in the middle: whatever the moment, 0 is told only where all is copied.
wrong=
for round in $(seq 12); do
  cp "$dir/noise" "$dir/target"
  rm -f "$dir/d1" "$dir/d2"
  nbdkit -f -U "$dir/d1" file "$dir/dense" 2>/dev/null & one=$!
  nbdkit -f -U "$dir/d2" file "$dir/target" 2>/dev/null & two=$!
  disown $one $two
  awaited "$dir/d1"
  awaited "$dir/d2"
  victim=$one
  [ $((round % 2)) -eq 0 ] && victim=$two
  (sleep "0.0$((RANDOM % 90 + 10))"; kill -9 $victim) 2>/dev/null &
  copy "$(uri "$dir/d1")" "$(uri "$dir/d2")" --request-size 65536
  kill -9 $one $two 2>/dev/null
  case $code in
    0) cmp -s "$dir/dense" "$dir/target" || wrong="$wrong round $round: 0 and not equal;" ;;
    4 | 5) ;;
    *) wrong="$wrong round $round: status $code, '$said';" ;;
  esac
done
if [ -z "$wrong" ]; then echo 'ok: nbdcopy and 12 servers that died'; else echo "failed: nbdcopy and servers that died: $wrong"; fi

# The program serves both sides itself.
"$program" serve "$(uri "$dir/s1")" --size 1000000 --seed 3 --sessions 5 >/dev/null & servers+=($!)
"$program" serve "$(uri "$dir/s2")" --size 1000000 --seed 4 --sessions 5 >/dev/null & servers+=($!)
awaited "$dir/s1"
awaited "$dir/s2"
copy "$(uri "$dir/s1")" "$(uri "$dir/s2")"
timeout 60 nbdcopy -C 1 "$(uri "$dir/s1")" "$dir/r1" 2>/dev/null
timeout 60 nbdcopy -C 1 "$(uri "$dir/s2")" "$dir/r2" 2>/dev/null
if [ $code -eq 0 ] && cmp -s "$dir/r1" "$dir/r2"; then echo 'ok: nbdcopy between two of lnbd serve'; else echo "failed: nbdcopy between two of lnbd serve: $code, '$said'"; fi

# The examples of the page, over its two servers.
lnbd() { timeout 60 "$program" "$@"; }
awk '/^## /{ on = ($0 == "## Examples") } on && /^```/{ n += !inside; inside = !inside; next } on && inside { print > dir "/block" n }' dir="$dir" docs/nbdcopy.md
while read -r command; do eval "${command//\/tmp\//$dir/}"; done <"$dir/block2"
for name in from to; do awaited "$dir/$name.sock"; servers+=("$(cat "$dir/$name.pid")"); done
while read -r command; do
  eval "${command//\/tmp\//$dir/}" >"$dir/said" 2>&1 && echo "ok: docs/nbdcopy.md: $command" || echo "failed: docs/nbdcopy.md: $command: $(cat "$dir/said")"
done <"$dir/block1"
