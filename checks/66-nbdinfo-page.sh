# The manual page of nbdinfo is true of the program: each example, run over a real server, prints what stands below it, and each word that the
# tool's help lists stands on the page.
. checks/need.sh
need nbdkit nbdkit

program=$(tools/built lnbd) || exit 1
page=docs/nbdinfo.md
dir=$(mktemp -d)
servers=()
trap 'kill "${servers[@]}" 2>/dev/null; rm -rf "$dir"' EXIT

# The page's own server, at a socket of this check.
kit=$(sed -n "s|^nbdkit -U /tmp/nbd.sock -P /tmp/nbd.pid |nbdkit -f -U $dir/nbd.sock |p" "$page")
eval "$kit &"
servers+=($!)
awaited "$dir/nbd.sock"

# Each block of commands is N.sh, and the block of text behind it N.text.
awk -v dir="$dir" '
  /^```sh$/ { file = dir "/" ++n ".sh"; next }
  /^```text$/ { file = dir "/" n ".text"; next }
  /^```$/ { file = ""; next }
  file { print > file }' "$page"

count=0
for commands in "$dir"/*.sh; do
  count=$((count + 1))
  { printf 'lnbd() { "%s" "$@"; }\n' "$program"; sed "s|/tmp/nbd.sock|$dir/nbd.sock|" "$commands"; } >"$dir/commands"
  timeout 60 bash "$dir/commands" >"$dir/out" 2>&1
  if cmp -s "$dir/out" "${commands%.sh}.text"; then
    echo "ok: example $count of the page of nbdinfo"
  else
    echo "failed: example $count of the page of nbdinfo: $(diff "$dir/out" "${commands%.sh}.text")"
  fi
done
[ "$count" -ge 3 ] || echo "failed: the page of nbdinfo has $count examples"

missing=
for word in $(grep '^  nbdinfo ' docs/help.txt | grep -oE -- '--[a-z]+' | sort -u); do
  grep -q -- "^|.*\`$word[ \`]" "$page" || missing="$missing $word"
done
if [ -z "$missing" ]; then echo 'ok: each word of the help stands on the page of nbdinfo'; else echo "failed: the page of nbdinfo lacks$missing"; fi
