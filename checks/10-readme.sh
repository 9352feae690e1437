# The README's own commands, block by block as they stand under 'Quick start', print what stands below them, on a machine without any server. No table there
# has a cell above 200 characters, and the toolchain that it names is the one that tools/built wants.
dir=$(mktemp -d)
trap 'kill $(jobs -p) 2>/dev/null; rm -rf "$dir"' EXIT

kit=$(sed -n "s/^wanted='\(.*\)'$/\1/p" tools/built)
if [ -n "$kit" ] && grep -qF "$kit" README.md; then
  echo 'ok: the README names the toolchain that is wanted'
else
  echo "failed: the README does not name the toolchain '$kit'"
fi

wide=$(awk -F'|' '/^\|/ { for (i = 2; i < NF; i++) if (length($i) > 202) print FILENAME ": " $i }' README.md docs/PROVED.md docs/PLAN.md)
if [ -z "$wide" ]; then echo 'ok: no cell of a table is too wide'; else echo "failed: a cell above 200 characters: $wide"; fi

# Each block of commands is N.sh, and the block of text behind it N.text.
awk -v dir="$dir" '
  /^## / { quick = ($0 == "## Quick start"); next }
  !quick { next }
  /^```sh$/ { file = dir "/" ++n ".sh"; next }
  /^```text$/ { file = dir "/" n ".text"; next }
  /^```$/ { file = ""; next }
  file { print > file }' README.md

count=0
for commands in "$dir"/*.sh; do
  count=$((count + 1))
  timeout 60 bash "$commands" >"$dir/out" 2>&1
  if cmp -s "$dir/out" "${commands%.sh}.text"; then
    echo "ok: the README's commands, block $count"
  else
    echo "failed: block $count of the README's commands printed '$(cat "$dir/out")'"
  fi
done
[ "$count" -ge 1 ] || echo "failed: the README has $count blocks of commands"
