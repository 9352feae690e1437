# The manual page of nbdcalls is true of the program: each example, played over a real server, prints what stands below it, and each
# line that the tool's help lists stands on the page.
. checks/need.sh
need nbdkit nbdkit

program=$(tools/built lnbd) || exit 1
page=docs/nbdcalls.md
dir=$(mktemp -d)
servers=()
trap 'kill "${servers[@]}" 2>/dev/null; rm -rf "$dir"' EXIT

nbdkit -f -U "$dir/nbd.sock" data '0xab*512' size=1M 2>/dev/null &
servers+=($!)
awaited "$dir/nbd.sock"

# Each block of a script is N.script, and the block of text behind it N.text.
awk -v dir="$dir" '
  /^```script$/ { file = dir "/" ++n ".script"; next }
  /^```text$/ { file = dir "/" n ".text"; next }
  /^```$/ { file = ""; next }
  file { print > file }' "$page"

count=0
for script in "$dir"/*.script; do
  count=$((count + 1))
  sed "s|/tmp/nbd.sock|$dir/nbd.sock|" "$script" >"$dir/script"
  timeout 60 "$program" nbdcalls <"$dir/script" >"$dir/out" 2>"$dir/err"
  code=$?
  if [ "$code" -eq 0 ] && [ ! -s "$dir/err" ] && cmp -s "$dir/out" "${script%.script}.text"; then
    echo "ok: example $count of the page of nbdcalls"
  else
    echo "failed: example $count of the page ended with $code: $(cat "$dir/err") $(diff "$dir/out" "${script%.script}.text")"
  fi
done
[ "$count" -ge 3 ] || echo "failed: the page of nbdcalls has $count examples"

# The first word of each line of the help stands on the page, as a line.
missing=
for word in $(sed -n "/^    a script's lines:$/,/^$/s/^      \(.*[^ ]\)   .*/\1/p" docs/help.txt | sed 's/ *$//; s/, /\n/g' | awk '$1 != "#" { print $1 }' | sort -u); do
  grep -q "^|.*\`$word[ \`]" "$page" || missing="$missing $word"
done
if [ -z "$missing" ]; then echo 'ok: each line of the help stands on the page of nbdcalls'; else echo "failed: the page of nbdcalls lacks$missing"; fi
