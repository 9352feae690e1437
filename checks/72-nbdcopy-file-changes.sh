# nbdcopy while something happens to it: its source file is cut or grows, or a signal ends it. Each copy is stopped in its middle, once it has moved four MiB of a file, and goes on when
# that is done. Then files of 2^40 bytes, which are holes but for some bytes.
. checks/servers.sh
case $program in /*) ;; *) program=$PWD/$program ;; esac
longest=120
size=268435456

# midway FROM TO WORDS ..: this copy, stopped in its middle; its process is then in `copier`. (Python, since what bash has in the background ignores SIGINT.)
midway() {
  local word value moved
  for _ in 1 2 3; do
    "$python" -S -E -c 'import os, signal, sys; signal.signal(signal.SIGINT, signal.SIG_DFL); os.execv(sys.argv[1], sys.argv[1:])' \
      "$program" nbdcopy --request-size 4096 "${@:3}" "$1" "$2" >"$dir/out" 2>"$dir/err" &
    copier=$!
    while kill -0 "$copier" 2>/dev/null; do
      moved=0
      while IFS=': ' read -r word value; do
        case $word in rchar | wchar) moved=$((moved + value)) ;; esac
      done 2>/dev/null <"/proc/$copier/io"
      [ "$moved" -gt 4194304 ] && [ "$(readlink "/proc/$copier/exe")" = "$program" ] && kill -STOP "$copier" && return
    done
    wait "$copier"
  done
  return 1
}

# ends_soon: the copy goes on; how it ended is in `code` and `said`, and it is 124 where it took too long.
ends_soon() {
  kill -CONT "$copier"
  for _ in $(seq $((longest * 10))); do
    [ -e "/proc/$copier" ] && [ "$(cut -d ' ' -f 3 "/proc/$copier/stat" 2>/dev/null)" != Z ] || break
    sleep 0.1
  done
  kill -KILL "$copier" && why=', which it did not soon'
  wait "$copier"
  code=$?
  out=$(cat "$dir/out")
  said=$(cat "$dir/err")
} 2>/dev/null

# fresh: a source of 256 MiB, a MiB of which has data and the others are a hole.
fresh() {
  head -c 1048576 /dev/urandom >"$dir/from"
  truncate -s $size "$dir/from"
  rm -f "$dir/to"
  truncate -s $size "$dir/to.disk"
}
# full: the same bytes without a hole, all of which are read on the way to an export.
full() {
  fresh
  { head -c 1048576 "$dir/from" && head -c $((size - 1048576)) /dev/zero; } >"$dir/full" && mv "$dir/full" "$dir/from"
}
fresh 2>/dev/null
if [ "$(du -k "$dir/from" | cut -f 1)" -gt 20000 ]; then
  echo 'skipped: no holes on this file system'
  exit
fi

# Its source is cut, and it ends with the length that it had and a place behind what is left.
is_changed() {
  local end=${said#"lnbd: rule changed $size "}
  [ "$code" -eq 6 ] && [ "$end" != "$said" ] && [ "$end" -ge 2097152 ] && [ "$end" -lt $size ]
}
begin export nbdkit -f -U "$dir/export" file "$dir/to.disk" && export=$address
for to in "$dir/to" "$export"; do
  # (between two files holes are read where zeros are written)
  [ "$to" = "$export" ] && name='an export' words=() made=full || name='a file' words=(-S 0) made=fresh
  $made
  midway "$dir/from" "$to" "${words[@]}" && truncate -s 2097152 "$dir/from" && ends_soon
  held "to $name, whose source is cut meanwhile" is_changed
  $made
  midway "$dir/from" "$to" "${words[@]}" && echo more >>"$dir/from" && ends_soon
  [ "$to" = "$export" ] && to=$dir/to.disk
  truncate -s $size "$dir/from"
  held "to $name, whose source grows meanwhile, is of what it had" eval "ended 0 '' && same '$dir/from' '$to'"
done
stop "$server"
rm -f "$dir/to.disk"

# A signal ends it: a file keeps its length, and has bytes of the source and zeros; a server goes on.
# fronts FILE: where this isn't zero it is the pattern of nbdkit, whose every eighth byte begins a number that is its place.
fronts() {
  "$python" -S -E - "$1" <<'PY'
import os, sys
with open(sys.argv[1], 'rb') as file:
    size, at, seen = os.fstat(file.fileno()).st_size, 0, 0
    while at < size:
        try:
            at = os.lseek(file.fileno(), at, os.SEEK_DATA) // 8 * 8
        except OSError:
            break
        end = os.lseek(file.fileno(), at, os.SEEK_HOLE)
        while at < end:
            piece = os.pread(file.fileno(), min(1 << 20, end - at) + 7 & ~7, at)
            for place in range(0, len(piece), 8):
                number = piece[place:place + 8]
                if any(number):
                    seen += 1
                    if number != (at + place).to_bytes(8, 'big'):
                        sys.exit(f'byte {at + place} is neither')
            at += len(piece)
print(seen)
PY
}
for signal in INT TERM HUP KILL; do
  number=$(kill -l $signal)
  signalled() { [ "$code" -eq $((128 + number)) ] && [ -z "$said" ]; }
  begin pattern nbdkit -f -t 1 -U "$dir/pattern" pattern 8G
  rm -f "$dir/to"
  midway "$address" "$dir/to" && kill -s $signal "$copier" && ends_soon
  held "from an export to a file, which SIG$signal ends" eval "signalled && [ $(stat -c %s "$dir/to") -eq 8589934592 ] && [ $(fronts "$dir/to" || echo 0) -gt 0 ]"
  stop "$server"
  rm -f "$dir/to" "$dir/pattern"
  fresh
  midway "$dir/from" "$dir/to" -S 0 && kill -s $signal "$copier" && ends_soon
  held "between two files, which SIG$signal ends" eval "signalled && [ $(stat -c %s "$dir/to") -eq $size ] && cmp -s -n 1048576 '$dir/from' '$dir/to'"
  begin target nbdkit -f -t 1 -U "$dir/target" memory $size
  full
  midway "$dir/from" "$address" && kill -s $signal "$copier" && ends_soon
  held "from a file to an export, which SIG$signal ends, and the server goes on" eval "signalled && [ \"\$(timeout 20 nbdinfo --size '$address')\" = $size ]"
  stop "$server"
  rm -f "$dir/target"
done

# 2^40 bytes: data at the beginning, over a border of 128 MiB, in the middle and at the end.
begin vast nbdkit -f -U "$dir/vast" data '0xab*5000 @0x27fffff00 0xcd*1048576 @0x8000000001 1 2 3 @0xfffffffffd 4 5 6' size=1T
vast=$address
# as_vast FILE: it has 2^40 bytes, which are those, and takes little room.
as_vast() {
  ended 0 '' && [ "$(stat -c %s "$1")" -eq 1099511627776 ] && [ "$(du -k "$1" | cut -f 1)" -lt 4096 ] &&
    why=", $(timeout 120 qemu-img compare -f raw -F raw "$vast" "$1" 2>&1)" && [ "$why" = ', Images are identical.' ]
}
rm -f "$dir/to"
if truncate -s 1T "$dir/to" 2>/dev/null; then
  copy "$vast" "$dir/to"
  held 'of 2^40 bytes to a file, nearly all of them a hole, ends soon' as_vast "$dir/to"
  copy "$vast" "$dir/to" -C 1 -S 0 --flush
  held 'of 2^40 bytes to a file that is there, over one connection' as_vast "$dir/to"
else
  echo 'skipped: no file here has 2^40 bytes'
fi
