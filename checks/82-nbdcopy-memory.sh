# The most memory that lnbd nbdcopy takes does not grow with what is copied: by GNU time, a copy of 16 times as many requests, and one of 64 times as many
# extents, takes at most 1.05 times that of the small one.
. checks/need.sh
need nbdkit nbdkit
need time /usr/bin/time
program=${program:-$(tools/built lnbd)} || exit 1
dir=$(mktemp -d)
servers=()
trap 'kill "${servers[@]}" 2>/dev/null; rm -rf "$dir"' EXIT

# serve NAME WORDS ..: nbdkit with these words at $dir/NAME.
serve() {
  rm -f "$dir/$1"
  nbdkit -f -U "$dir/$1" "${@:2}" >/dev/null 2>&1 &
  servers+=($!)
  awaited "$dir/$1"
}

# peak WORDS ..: a copy with these words from the one server to the other; its peak of memory in KiB is in `kib`, the least of two runs.
peak() {
  local one
  kib=
  for _ in 1 2; do
    timeout 240 /usr/bin/time -q -f %M -o "$dir/peak" "$program" nbdcopy "$@" "nbd+unix:///?socket=$dir/from" "nbd+unix:///?socket=$dir/to" >"$dir/said" 2>&1 ||
      { why=": it ended with $?, '$(cat "$dir/said")'"; return 1; }
    one=$(cat "$dir/peak")
    [ -n "$kib" ] && [ "$kib" -le "$one" ] || kib=$one
  done
}

# both SMALL LARGE SOURCE .. -- WORDS ..: copies with these words from nbdkit's SOURCE of both sizes; the least peaks of all such so far are in `least` and `most`.
both() {
  local sizes=("$1" "$2") source=() size
  shift 2
  while [ "$1" != -- ]; do source+=("$1"); shift; done
  shift
  for size in "${sizes[@]}"; do
    serve from "${source[@]}" size="$size" && serve to null size="$size" && peak "$@" || return 1
    if [ "$size" = "${sizes[0]}" ]; then
      least=$((least && least < kib ? least : kib))
    else
      most=$((most && most < kib ? most : kib))
    fi
    kill "${servers[@]}" 2>/dev/null
    wait "${servers[@]}" 2>/dev/null
    servers=()
  done
}

# flat NAME SMALL LARGE ..: `both` of these. The system counts pages of the program's file too, of which it keeps more or fewer, up to 200 KiB: so three rounds at most.
flat() {
  local least=0 most=0
  why=
  for _ in 1 2 3; do
    both "${@:2}" || { echo "failed: the memory of $1$why"; return; }
    [ $((most * 100)) -le $((least * 105)) ] && { echo "ok: the memory of $1: $least KiB of $2, $most KiB of $3"; return; }
  done
  echo "failed: the memory of $1 grows: $least KiB of $2, $most KiB of $3"
}

flat 'requests of 4 KiB' 32M 512M pattern -- --request-size 4096
flat 'requests of 256 KiB' 1G 16G pattern -- --no-extents
flat 'extents' 64G 4T sparse-random percent=0 -- --destination-is-zero
