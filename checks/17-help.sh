# The page of the tools is true of the program: each line that it lists as working is a line of a script, and each tool
# that it lists as planned is a usage fault still.
program=$(tools/built lnbd) || exit 1
page=docs/help.txt
dir=$(mktemp -d)
trap 'rm -rf "$dir"' EXIT

# The lines of the page, with values in the places of its capitals.
sed -n "/^    a script's lines:$/,/^$/s/^      \(.*[^ ]\)   .*/\1/p" "$page" | sed 's/ *$//; s/, /\n/g' |
  sed 's/LEN OFF/512 0/; s/BYTES OFF/hex:00 0/; s/COOKIE/1/; s/^strict N$/strict 31/; s/^fail N COMMAND$/fail 5 flush/; s/COMMAND/flush/; s/^handle N$/handle 0/; s/HOST PORT/127.0.0.1 1/; s|URI|nbd://127.0.0.1:1/x|; s/PATH\|NAME\|TEXT/x/; s/^close$//' >"$dir/script"
count=$(grep -c . "$dir/script")
"$program" nbdcalls <"$dir/script" >"$dir/out" 2>"$dir/err"
code=$?
# (the three connects find no server)
if [ "$count" -ge 41 ] && [ "$code" -eq 5 ]; then
  echo "ok: each of $count lines of the page is a line of a script"
else
  echo "failed: of $count lines of the page: the program ended with $code and wrote '$(cat "$dir/out" "$dir/err")'"
fi

planned=$(sed -n '/^Planned/,/^Exit status/s/^  \([a-z]*\) .*/\1/p' "$page")
for tool in $planned; do
  "$program" "$tool" </dev/null >"$dir/out" 2>"$dir/err"
  code=$?
  if [ "$code" -eq 1 ] && [ "$(cat "$dir/err")" = 'lnbd: usage' ] && grep -q "^|.*| planned: \`$tool\`" README.md; then
    echo "ok: $tool is planned, on the page and in the README"
  else
    echo "failed: $tool ended with $code, and the page or the README calls it otherwise"
  fi
done
[ "$(wc -w <<<"$planned")" -eq 0 ] || echo "failed: the page has these planned tools: $planned"
