# lnbd selftest tells of 200 seeds what their contents come to by the formula of the page of serve, at sizes around its blocks and at the
# greatest; what it refuses; and the examples of its page.
program=$(tools/built lnbd) || exit 1
page=docs/selftest.md
dir=$(mktemp -d)
trap 'rm -rf "$dir"' EXIT

# The words of each run, and the line that is to come of it.
python3 - "$dir" <<'PY'
import sys
dir = sys.argv[1]

def line(seed, size):
    read = written = 0
    for k in range((size + 4095) // 4096):
        count = min(4096, size - k * 4096)
        number = (2 * seed + 1) * (k + 1) * 2654435761 % 2 ** 32
        if number >= 2 ** 30:
            read += count
            # (of two bytes that follow one another one isn't zero)
            written += count if count > 1 or number // 256 % 256 else 0
    return f'seed {seed} size {size} read {read} written {written} zeroed {size - written} equal'

seeds = list(range(180)) + [2 ** 31, 2 ** 32 - 1, 2 ** 32, 2 ** 53 + 1] + [2 ** 63 + 7 * n for n in range(8)] + [2 ** 64 - 1 - n for n in range(8)]
sizes = [0, 1, 2, 4095, 4096, 4097, 8193, 65536, 65537, 300000]
with open(dir + '/words', 'w') as words, open(dir + '/wanted', 'w') as wanted:
    for n, seed in enumerate(seeds):
        for size in {1, 65536, sizes[n % len(sizes)]}:
            print(seed, size, file=words)
            print(line(seed, size), file=wanted)
with open(dir + '/largest', 'w') as largest:
    print(line(5, 16777216), file=largest)
PY
while read -r seed size; do timeout 60 "$program" selftest "$seed" "$size" 2>&1; done <"$dir/words" >"$dir/said"
seeds=$(cut -d ' ' -f 1 "$dir/words" | sort -u | wc -l)
if [ "$seeds" -eq 200 ] && cmp -s "$dir/said" "$dir/wanted"; then
  echo "ok: selftest of $seeds seeds, $(wc -l <"$dir/words") runs"
else
  echo "failed: selftest of $seeds seeds: $(diff "$dir/said" "$dir/wanted" | head -n 4)"
fi

began=$(date +%s%N)
timeout 300 "$program" selftest 5 16777216 >"$dir/said" 2>&1
took=$((($(date +%s%N) - began) / 1000000))
if cmp -s "$dir/said" "$dir/largest"; then
  echo "ok: selftest of the greatest size, in $took ms"
else
  echo "failed: selftest of the greatest size: '$(cat "$dir/said")' in place of '$(cat "$dir/largest")'"
fi
timeout 300 "$program" selftest 5 16777216 >"$dir/again" 2>&1
if cmp -s "$dir/said" "$dir/again"; then echo 'ok: selftest says the same at each run'; else echo "failed: selftest said '$(cat "$dir/again")' at another run"; fi

# refused STATUS LINE WORDS ..: nothing is printed, and the run ends so.
refused() {
  local status=$1 line=$2
  shift 2
  timeout 60 "$program" selftest "$@" >"$dir/out" 2>"$dir/err"
  code=$?
  if [ "$code" -eq "$status" ] && [ ! -s "$dir/out" ] && [ "$(cat "$dir/err")" = "$line" ]; then
    echo "ok: selftest $*: $line"
  else
    echo "failed: selftest $*: it ended with $code and wrote '$(cat "$dir/out")' and '$(cat "$dir/err")'"
  fi
}
refused 6 'lnbd: rule selftest-size 16777217 16777216' 0 16777217
refused 6 'lnbd: rule selftest-size 18446744073709551615 16777216' 0 18446744073709551615
refused 1 'lnbd: usage'
refused 1 'lnbd: usage' 0
refused 1 'lnbd: usage' 0 1 2
refused 1 'lnbd: usage' 0 18446744073709551616
refused 1 'lnbd: usage' 0 -1
refused 1 'lnbd: usage' --seed 0 1

"$program" selftest 0 65536 >/dev/full 2>"$dir/err"
code=$?
if [ "$code" -eq 8 ] && [ "$(cat "$dir/err")" = 'lnbd: output fault' ]; then
  echo 'ok: selftest on a full output'
else
  echo "failed: selftest on a full output: it ended with $code and wrote '$(cat "$dir/err")'"
fi

# With little memory it tells so, and prints no line.
(ulimit -v 40960 && timeout 60 "$program" selftest 0 16777216) >"$dir/out" 2>"$dir/err"
code=$?
if [ "$code" -eq 9 ] && [ ! -s "$dir/out" ] && [ "$(cat "$dir/err")" = 'lnbd: no memory' ]; then
  echo 'ok: selftest without memory'
else
  echo "failed: selftest without memory: it ended with $code and wrote '$(cat "$dir/out")' and '$(cat "$dir/err")'"
fi

# The examples of the page: each block of commands is N.sh, and the block of text behind it N.text.
lnbd() { timeout 60 "$program" "$@"; }
awk -v dir="$dir" '
  /^```sh$/ { file = dir "/" ++n ".sh"; next }
  /^```text$/ { file = dir "/" n ".text"; next }
  /^```$/ { file = ""; next }
  file { print > file }' "$page"
count=0
for commands in "$dir"/*.sh; do
  count=$((count + 1))
  . "$commands" >"$dir/out" 2>&1
  if cmp -s "$dir/out" "${commands%.sh}.text"; then
    echo "ok: example $count of the page of selftest"
  else
    echo "failed: example $count of the page of selftest printed '$(cat "$dir/out")'"
  fi
done
[ "$count" -eq 2 ] || echo "failed: the page of selftest has $count examples"
