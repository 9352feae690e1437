# nbdinfo of what is out of the common: names with quotes and tabs and of 4,096 bytes, 10,000 names, exports of no byte, of one, of less than a block and of
# 2^63 - 1, servers that tell 512 bytes at a time; and its words in every order, twice, empty and not UTF-8.
. checks/need.sh
need nbdkit nbdkit
need libnbd-bin nbdinfo

program=$(tools/built lnbd) || exit 1
dir=$(mktemp -d)
servers=()
trap 'kill "${servers[@]}" 2>/dev/null; rm -rf "$dir"' EXIT

# begin NAME WORDS ..: a server of nbdkit at this socket.
begin() {
  local socket=$dir/$1
  shift
  nbdkit -f -U "$socket" "$@" 2>/dev/null &
  servers+=($!)
  awaited "$socket"
}

at() { printf 'nbd+unix:///?socket=%s/%s' "$dir" "$1"; }

# tells NAME WANTED WORDS ..: nbdinfo with these words ends with 0, and what it printed passed the filter is the file WANTED.
tells() {
  local name=$1 wanted=$2
  shift 2
  timeout 120 "$program" nbdinfo "$@" >"$dir/out" 2>"$dir/err"
  code=$?
  filter <"$dir/out" >"$dir/filtered"
  if [ "$code" -eq 0 ] && [ ! -s "$dir/err" ] && cmp -s "$dir/filtered" "$wanted"; then
    echo "ok: $name"
  else
    echo "failed: $name: status $code, $(head -c 300 "$dir/err") $(diff "$dir/filtered" "$wanted" | head -5 | cut -c 1-200)"
  fi
}

filter() { grep '^export='; }

long=$(head -c 4096 /dev/zero | tr '\0' x)
begin names eval list_exports="printf 'NAMES\nplain\na\"b\\\\c\ntab\there\n$long\n'" get_size='echo 512' pread='head -c $3 /dev/zero'
printf 'export="%s":\n' plain 'a\x22b\x5cc' 'tab\x09here' "$long" >"$dir/wanted"
tells 'names with a quote, a backslash and a tab, and of 4,096 bytes' "$dir/wanted" --list "$(at names)"

# (one of 4,097 bytes is no address)
timeout 60 "$program" nbdinfo --size "nbd+unix:///x$long?socket=$dir/names" >"$dir/out" 2>"$dir/err"
code=$?
if [ "$code" -eq 1 ] && [ "$(cat "$dir/err")" = 'lnbd: uri TooLong' ]; then echo 'ok: a name of 4,097 bytes is refused'; else echo "failed: a name of 4,097 bytes: status $code, $(cat "$dir/err")"; fi
echo 512 >"$dir/wanted"
filter() { cat; }
tells 'an address whose name has 4,096 bytes' "$dir/wanted" --size "nbd+unix:///$long?socket=$dir/names"

mkdir "$dir/many"
(cd "$dir/many" && seq -f 'name-%.0f' 10000 | xargs truncate -s 512)
begin list file dir="$dir/many"
filter() { grep '^export=' | sort; }
seq -f 'export="name-%.0f":' 10000 | sort >"$dir/wanted"
tells '10,000 listed names' "$dir/wanted" --list "$(at list)"

filter() { cat; }
begin none null 0
: >"$dir/wanted"
tells 'the map of an export without bytes' "$dir/wanted" --map "$(at none)"
begin one memory 1
printf '         0           1    3  hole,zero\n' >"$dir/wanted"
tells 'the map of an export of one byte' "$dir/wanted" --map "$(at one)"
# (libnbd's nbdinfo asks for the bytes behind the last whole block too, and is refused)
begin rest --filter=blocksize-policy memory 10000 blocksize-minimum=4096 blocksize-preferred=4096 blocksize-maximum=65536
printf '%s\n' '         0        8192    3  hole,zero' '      8192        1808    0  data' >"$dir/wanted"
tells 'the map of an export that ends in less than a block' "$dir/wanted" --map "$(at rest)"
begin little --filter=blocksize-policy memory 1000 blocksize-minimum=4096 blocksize-preferred=4096 blocksize-maximum=65536
printf '         0        1000    0  data\n' >"$dir/wanted"
tells 'the map of an export shorter than its least block' "$dir/wanted" --map "$(at little)"
printf '      1000  100.0%%    0  data\n' >"$dir/wanted"
tells 'its sums' "$dir/wanted" --map --totals "$(at little)"
begin most null 9223372036854775807
echo 9223372036854775807 >"$dir/wanted"
tells 'the size of an export of 2^63 - 1 bytes' "$dir/wanted" --size "$(at most)"

# 512 bytes at a time, of which every second KiB is a hole.
begin drops eval get_size='echo 65536' pread='head -c $3 /dev/zero' can_extents='exit 0' \
  extents='if [ $(($4 / 1024 % 2)) = 0 ]; then echo "$4 512 hole,zero"; else echo "$4 512"; fi'
nbdinfo --map "$(at drops)" >"$dir/wanted"
tells 'a server that tells 512 bytes at a time, as libnbd maps it' "$dir/wanted" --map "$(at drops)"

# The words of one question in every order.
filter() { cat; }
uri=$(at drops)
timeout 60 "$program" nbdinfo --map --json --totals "$uri" >"$dir/wanted"
words=(--map --json --totals "$uri")
wrong=
for order in $(for a in 0 1 2 3; do for b in 0 1 2 3; do for c in 0 1 2 3; do for d in 0 1 2 3; do echo "$a$b$c$d"; done; done; done; done | grep -vE '(.).*\1'); do
  mapfile -t picked < <(fold -w 1 <<<"$order" | while read -r n; do echo "${words[n]}"; done)
  timeout 60 "$program" nbdinfo "${picked[@]}" >"$dir/out" 2>&1 && cmp -s "$dir/out" "$dir/wanted" || wrong="$wrong $order"
done
if [ -z "$wrong" ] && [ -s "$dir/wanted" ]; then echo 'ok: words in each of 24 orders'; else echo "failed: words in the orders$wrong"; fi

# usage WORDS ..: no question has these words.
usage() {
  timeout 60 "$program" nbdinfo "$@" >"$dir/out" 2>"$dir/err"
  code=$?
  [ "$code" -eq 1 ] && [ "$(cat "$dir/err")" = 'lnbd: usage' ] && [ ! -s "$dir/out" ] || wrong="$wrong [$*: status $code]"
}
wrong=
usage
usage --size
usage --size --size "$uri"
usage --json --json "$uri"
usage "$uri" "$uri"
usage --map= "$uri"
usage --context= --map "$uri"
usage --context x "$uri"
usage --is= "$uri"
usage --is "$uri"
usage --can '' "$uri"
usage --size --list "$uri"
usage --size --json "$uri"
usage --size -- "$uri" --json
usage --sizes "$uri"
usage --size "$uri" $'\xff'
usage --is $'read-only\xff' "$uri"
if [ -z "$wrong" ]; then echo 'ok: words twice, without a value, with an empty one and not UTF-8'; else echo "failed: words:$wrong"; fi
filter() { cat; }
echo 65536 >"$dir/wanted"
tells 'an address behind the end of the options' "$dir/wanted" --size -- "$uri"
