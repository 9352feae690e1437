# dist/ has the program of these sources: its checksum is the sources' own, and where the kit is the one that it names the program that the gate
# built has its bytes. And in a copy of the scripts, with three small crates and programs that only pretend: when ./lnbd runs dist's program,
# when it proves, and what it says then.
dir=$(mktemp -d)
trap 'chmod -R u+w "$dir"; rm -rf "$dir"' EXIT

# said NAME WANTED GOT
said() { if [ "$2" = "$3" ]; then echo "ok: $1"; else echo "failed: $1: '$3' in place of '$2'"; fi; }

# The repository's own.
if [ ! -e dist/PROVED ]; then
  echo 'failed: there is no dist/: run tools/release behind the gate'
elif [ "$(sed -n 's/^sources //p' dist/PROVED)" = "$(tools/sources --sum)" ]; then
  echo "ok: dist/ is of these sources"
  tools/start --of-dist >/dev/null 2>"$dir/why" && echo 'ok: dist/lnbd is what dist/SHA256SUMS names, and starts' || echo "failed: $(cat "$dir/why")"
  said 'dist/PROVED names the version' "$(cat VERSION)" "$(sed -n 's/^version //p' dist/PROVED)"
  [ ! -e dist/liblnbd.so.0 ] || said 'dist/ has the library for C of these sources' "$(tools/sources --sum lnbd_c)" "$(sed -n 's/^library //p' dist/PROVED)"
else
  echo 'failed: dist/ is of other sources: run tools/release behind the gate, before the commit'
fi

built=crates/lnbd/out/lnbd
[ -x "$built" ] && [ -z "$(tools/sources | xargs sh -c 'program=$1; shift; find "$@" -newer "$program"' sh "$built" | head -n 1)" ] || built=
kit=$(rt version 2>/dev/null | head -n 1)
if [ -z "$built" ] || [ -z "$kit" ]; then
  echo 'skipped: no program was built here of these sources, to be compared with dist/lnbd'
elif [ "$kit" = "$(sed -n 's/^kit //p' dist/PROVED 2>/dev/null)" ]; then
  tools/strip "$built" "$dir/stripped" && cmp -s "$dir/stripped" dist/lnbd && echo "ok: $built has the bytes of dist/lnbd" ||
    echo "failed: $built, without its symbols, has other bytes than dist/lnbd, though the kit is the same"
else
  # (another kit of the same logic may compile otherwise)
  echo "skipped: dist/lnbd is of another kit than '$kit', so both are played and not compared byte by byte"
  for words in 'selftest 0 65536' 'selftest 7 8193' 'nbdinfo nbds://localhost' 'nbdcopy' 'nbdcalls'; do
    said "both programs say the same to $words" "$(timeout 60 "$built" $words 2>&1 </dev/null; echo $?)" "$(timeout 60 dist/lnbd $words 2>&1 </dev/null; echo $?)"
  done
fi

# What a start costs beyond the program's own, at best of many: by the clock, or of the processor where others keep the machine busy. At most 5 ms. Where
# it is more, and the program's own start, 1.4 ms on a free machine, takes more than 2, nothing is judged.
if tools/start --of-dist >/dev/null 2>&1; then
  ./lnbd selftest 0 0 >/dev/null 2>&1
  cost=$(python3 - <<'PY'
import os, time
best = {}
def run(path):
    began = time.perf_counter()
    child = os.fork()
    if child == 0:
        os.dup2(os.open('/dev/null', os.O_WRONLY), 1)
        os.execv(path, [path, 'selftest', '0', '0'])
    used = os.wait4(child, 0)[2]
    return time.perf_counter() - began, used.ru_utime + used.ru_stime
for _ in range(200):
    for path in ('./lnbd', 'dist/lnbd'):
        best[path] = tuple(map(min, best.get(path, (9, 9)), run(path)))
clock, processor = (1000 * (one - other) for one, other in zip(best['./lnbd'], best['dist/lnbd']))
own = 1000 * min(best['dist/lnbd'])
verdict = 'ok' if min(clock, processor) <= 5 else 'skipped' if own > 2 else 'failed'
print(verdict, f'a start by ./lnbd costs {clock:.1f} ms more by the clock, {processor:.1f} of the processor, than {own:.1f}', sep=': ')
PY
)
  echo "$cost"
fi

# The copy. Its tools/built makes a program that says so, and tells its calls.
top=$dir/top
mkdir -p "$top/tools" "$top/docs" "$top/dist" "$top/.git"
cp lnbd HANDLES VERSION "$top/"
cp tools/start tools/sources tools/help.sh tools/version "$top/tools/"
cp docs/help.txt docs/nbdcopy.md "$top/docs/"
printf 'low:\nlnbd: low\nunused:\n' >"$top/crates.txt"
: >"$top/.git/index"
for name in low lnbd unused; do
  mkdir -p "$top/crates/$name/src" "$top/crates/$name/specs"
  echo "// $name" >"$top/crates/$name/src/lib.rt"
  echo "-- $name" >"$top/crates/$name/specs/Lib.antt"
done
cat >"$top/tools/built" <<'EOF'
#!/bin/sh
top=$(cd "$(dirname "$0")/.." && pwd)
echo "$1" >>"$top/../calls"
mkdir -p "$top/bin" && printf '#!/bin/sh\necho "built $*"\n' >"$top/bin/lnbd" && chmod +x "$top/bin/lnbd" && echo "$top/bin/lnbd"
EOF
chmod +x "$top/tools/built"

# release: dist/ of the sources as they are.
release() {
  printf '#!/bin/sh\n[ $# -eq 0 ] && exit 1\necho "dist $*"\n' >"$top/dist/lnbd"
  chmod 755 "$top/dist/lnbd"
  printf 'version %s\nkit a kit\nsources %s\nday 2026-01-01\n' "$(cat VERSION)" "$("$top/tools/sources" --sum)" >"$top/dist/PROVED"
  (cd "$top/dist" && sha256sum lnbd PROVED >SHA256SUMS)
  rm -rf "$top/bin"
}

# use WORDS ..: the copy is run; `calls` are those of its tools/built.
use() {
  : >"$dir/calls"
  timeout 60 "${run:-$top/lnbd}" "$@" >"$dir/out" 2>"$dir/err"
  code=$?
}

# told NAME STATUS PRINTED CALLS PATTERN: the last run ended so, and its one line on standard error fits; none where the pattern is empty.
told() {
  if [ "$code" -eq "$2" ] && [ "$(cat "$dir/out")" = "$3" ] && [ "$(wc -l <"$dir/calls")" -eq "$4" ] &&
    { if [ -z "$5" ]; then [ ! -s "$dir/err" ]; else [ "$(wc -l <"$dir/err")" -eq 1 ] && grep -qE -- "$5" "$dir/err"; fi; }; then
    echo "ok: $1"
  else
    echo "failed: $1: it ended with $code and wrote '$(cat "$dir/out")' and '$(cat "$dir/err")', with $(wc -l <"$dir/calls") calls"
  fi
}

release
use a 'b c'
told 'a first start runs the program of dist/ and proves nothing' 0 'dist a b c' 0 ''
mv "$top/tools/start" "$dir/start"
use a
told 'a second start needs no look at the sources' 0 'dist a' 0 ''
ln -s "$top/lnbd" "$dir/link"
run=$dir/link use a
told 'so does one by a link' 0 'dist a' 0 ''
(cd "$top/crates" && timeout 60 ../lnbd a >"$dir/out" 2>"$dir/err")
code=$?
told 'so does one from another folder' 0 'dist a' 0 ''
mv "$dir/start" "$top/tools/start"

echo '// more' >>"$top/crates/low/src/lib.rt"
use a
told 'where a source was changed, one line says that it proves' 0 'built a' 1 '^lnbd: the sources are not those that dist/lnbd was made from: '
use a
told 'what was built then starts without a line' 0 'built a' 0 ''
echo '// low' >"$top/crates/low/src/lib.rt"
touch -d '+3 seconds' "$top/crates/low/src/lib.rt"
use a
told 'where it is as it was, dist/ runs again' 0 'dist a' 0 ''
touch "$top/crates/low/src/lib.rt"

release
echo '// unused' >>"$top/crates/unused/src/lib.rt"
use a
told 'a crate that the program does not stand on is no matter' 0 'dist a' 0 ''
echo '-- more' >>"$top/crates/low/specs/Lib.antt"
sleep 0.02
echo index >"$top/.git/index"
use a
told 'definitions that git changed are seen' 0 'built a' 1 '^lnbd: the sources are not those '
echo '-- low' >"$top/crates/low/specs/Lib.antt"
: >"$top/crates/low/src/more.rt"
rm -rf "$top/bin"
use a
told 'a file more is a change' 0 'built a' 1 '^lnbd: the sources are not those '
rm "$top/crates/low/src/more.rt"

release
use a
printf '\n' >>"$top/dist/lnbd"
use a
told 'a byte more in dist/lnbd is refused, and named' 0 'built a' 1 '^lnbd: dist/lnbd was changed since it was made: '
release
sed -i 's/^sources ./sources 0/' "$top/dist/PROVED"
use a
told 'so is one of dist/PROVED' 0 'built a' 1 '^lnbd: dist/PROVED was changed since it was made: '
release
rm "$top/dist/SHA256SUMS"
use a
told 'a dist/ without its sums is refused' 0 'built a' 1 '^lnbd: there is no dist/SHA256SUMS: '
release
printf '#!/none\n' >"$top/dist/lnbd"
(cd "$top/dist" && sha256sum lnbd PROVED >SHA256SUMS)
use a
told 'a program that does not start here is one line' 0 'built a' 1 '^lnbd: dist/lnbd, for x86-64 Linux with glibc, does not start on this machine '

release
for number in 1 2 3 4 5 6 7 8; do
  timeout 60 "$top/lnbd" "$number" >"$dir/at-once.$number" 2>&1 &
done
wait
said 'eight first uses at once all run' 'dist 1 dist 2 dist 3 dist 4 dist 5 dist 6 dist 7 dist 8' "$(cat "$dir"/at-once.? | tr '\n' ' ' | sed 's/ $//')"
use a
told 'and leave what the next start takes' 0 'dist a' 0 ''

cp -a "$top" "$dir/other"
echo '// more' >>"$dir/other/crates/low/src/lib.rt"
run=$dir/other/lnbd use a
told 'a copy of the clone looks at its own sources' 0 'built a' 1 '^lnbd: the sources are not those '

release
if [ "$(id -u)" -eq 0 ] && command -v setpriv >/dev/null; then
  chmod 711 "$dir"
  chmod -R go+rX,go-w "$top"
  out=$(timeout 60 setpriv --reuid=65534 --regid=65534 --clear-groups "$top/lnbd" a 2>&1)
  said 'where the folder can not be written it runs too' 'dist a' "$out"
else
  chmod -R a-w "$top"
  use a
  told 'where the folder can not be written it runs too' 0 'dist a' 0 ''
  chmod -R u+w "$top"
fi

use --version
said '--version tells version, checksum, kit and day' "lnbd $(cat VERSION)|sources $("$top/tools/sources" --sum)|kit a kit|proved on 2026-01-01|" "$(tr '\n' '|' <"$dir/out")"
for words in 'nbdcopy --help' 'nbdcopy -h' 'help nbdcopy'; do
  use $words
  [ "$code" -eq 0 ] && cmp -s "$dir/out" docs/nbdcopy.md && echo "ok: ./lnbd $words prints the page" || echo "failed: ./lnbd $words ended with $code"
done
for words in '--help' '-h' 'help'; do
  use $words
  [ "$code" -eq 0 ] && cmp -s "$dir/out" docs/help.txt && echo "ok: ./lnbd $words prints the tools" || echo "failed: ./lnbd $words ended with $code"
done
use help ../help
told 'there is no page of what is no tool' 1 '' 0 '^lnbd: there is no page of \.\./help; '
use nbdcopy a --help
told 'help is asked for by two words alone' 0 'dist nbdcopy a --help' 0 ''
