# docs/EMBEDDING.md: a repository of another's, made of what tools/handle-lines copies and of examples/write-and-map, is proved and built, and writes and asks
# block status over nbdkit. The libraries that are proved here are taken as they are. It takes minutes, so it is done where PROVE is set.
. checks/need.sh
need nbdkit nbdkit

dir=$(mktemp -d)
trap 'kill $(cat "$dir"/*.pid 2>/dev/null) 2>/dev/null; rm -rf "$dir"' EXIT

# The crates that the page counts, and the lines that it names.
count=$(tools/handle-lines | wc -l)
if [ "$count" -eq 21 ] && grep -q 'is twenty-one crates' docs/EMBEDDING.md; then
  echo 'ok: a handle stands on twenty-one crates'
else
  echo "failed: a handle stands on $count crates, and the page says otherwise"
fi
if grep -qF "$(grep '^app:' examples/write-and-map/lines.txt)" docs/EMBEDDING.md; then
  echo "ok: the page has the example's line of crates.txt"
else
  echo "failed: the page has another line of crates.txt than the example"
fi
# Each line of the page's block of code, but for its comments, stands in the example.
missing=$(sed -n '/^## In another Rattle repository/,$p' docs/EMBEDDING.md | sed -n '/^```rust$/,/^```$/p' | grep -vE '^```|^ *//|^$' | sed 's/^ *//' |
  while read -r line; do grep -qF -- "$line" examples/write-and-map/main.rt.txt || echo "$line"; done)
if [ -z "$missing" ]; then echo "ok: the page's code is the example's"; else echo "failed: the example lacks '$missing'"; fi

if [ -z "$PROVE" ] || ! command -v rt >/dev/null 2>&1 || [ ! -e crates/lnbd_handle/out/statements/stamp ]; then
  echo 'skipped: the example is proved and built where PROVE is set and the handle is proved here'
  exit 0
fi
other=$dir/other
mkdir -p "$other/crates/app/src" "$other/tools"
tools/handle-lines --copy "$other" | cut -d : -f 1 | while read -r name; do
  [ -d "crates/$name/out/statements" ] && mkdir -p "$other/crates/$name/out" && cp -R "crates/$name/out/statements" "$other/crates/$name/out/"
done
# (named as texts here, since the gate takes no source outside a crate)
for file in main seen; do cp "examples/write-and-map/$file.rt.txt" "$other/crates/app/src/$file.rt"; done
cat examples/write-and-map/lines.txt >>"$other/crates.txt"
echo 'Handles allowed: Net.' >"$other/HANDLES"
cp tools/built tools/prove tools/kit.py tools/proving-times "$other/tools/"
app=$(timeout 500 "$other/tools/built" app 2>"$dir/err")
if [ $? -eq 124 ]; then
  echo 'skipped: this machine is too busy to prove the example within eight minutes'
  exit 0
fi
if [ ! -x "$app" ]; then
  echo "failed: the example is not proved or not built: $(tail -n 3 "$dir/err") $(tail -n 5 "$other/bin/app.log" 2>/dev/null)"
  exit 0
fi
nbdkit -U "$dir/socket" -P "$dir/server.pid" memory 1M
out=$(timeout 60 "$app" "$dir/socket" 2>&1)
code=$?
if [ "$code" -eq 0 ] && [ "$out" = '1 writes, 32768 bytes of data, 1015808 in holes, 0 failed, 3 of 3 callbacks freed' ]; then
  echo 'ok: the example writes and asks block status'
else
  echo "failed: the example ended with $code and wrote '$out'"
fi
