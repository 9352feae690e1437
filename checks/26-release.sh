# tools/release makes dist/ of what the gate left, and of nothing else: in a copy of the scripts, with a crate and programs that only pretend, it refuses a program
# that is older than its sources, one that no gate has passed, and one that fails its selftest; made twice, the files are the same.
if ! command -v rt >/dev/null 2>&1; then
  echo 'skipped: tools/release wants the tools of a kit, and there is no rt'
  exit 0
fi
dir=$(mktemp -d)
trap 'rm -rf "$dir"' EXIT
top=$dir/top
mkdir -p "$top/tools" "$top/crates/lnbd/src" "$top/crates/lnbd/out" "$top/bin"
cp HANDLES VERSION "$top/"
cp tools/release tools/sources tools/strip tools/start "$top/tools/"
echo 'lnbd:' >"$top/crates.txt"
echo '// lnbd' >"$top/crates/lnbd/src/main.rt"
program=$(type -P true)

# released NAME STATUS PATTERN WORDS ..: the release with these words ends so, and says so.
released() {
  local name=$1 status=$2 pattern=$3
  shift 3
  said=$("$top/tools/release" "$@" 2>&1)
  code=$?
  if [ "$code" -eq "$status" ] && grep -qE -- "$pattern" <<<"$said"; then echo "ok: $name"; else echo "failed: $name: it ended with $code and said '$said'"; fi
}

released 'without a program there is no release' 1 '^release: there is no crates/lnbd/out/lnbd: run \.ci/run first'
cp "$program" "$top/crates/lnbd/out/lnbd"
touch -d '+5 seconds' "$top/crates/lnbd/src/main.rt"
released 'nor of a program that is older than a source' 1 '^release: crates/lnbd/src/main.rt is newer than '
touch -d '-1 hour' "$top/crates/lnbd/src/main.rt" "$top/crates.txt" "$top/HANDLES" "$top/crates/lnbd/src"
touch "$top/crates/lnbd/out/lnbd"
released 'nor where no gate has passed' 1 '^release: bin/passed does not name these sources'
"$top/tools/sources" --sum >"$top/bin/passed"
released 'nor of a program that fails its selftest' 1 "^release: the program fails its selftest: ''"
[ -e "$top/dist/lnbd" ] && echo 'failed: a release that was refused left a program' || echo 'ok: what is refused leaves nothing'
released 'words that it has not are refused' 1 '^release: usage' --other

if tools/start --of-dist >/dev/null 2>&1; then
  cp dist/lnbd "$top/crates/lnbd/out/lnbd"
  released 'the program of the gate is released' 0 '^sources [0-9a-f]{64}$'
  cp -r "$top/dist" "$dir/first"
  released 'a second time too' 0 '^day '
  diff -r "$dir/first" "$top/dist" >/dev/null && echo 'ok: both are the same' || echo 'failed: two releases of one program differ'
  cmp -s "$top/dist/lnbd" dist/lnbd && echo 'ok: it has the bytes of what was stripped before' || echo 'failed: what is stripped twice differs'
  said=$("$top/tools/start" --of-dist 2>&1)
  [ "$said" = "$top/dist/lnbd" ] && echo 'ok: and it fits its sources' || echo "failed: it does not fit its sources: $said"
  rm "$top/bin/passed"
  released 'as it was built it is released without a gate' 0 '^kit ' --as-built "$top/crates/lnbd/out/lnbd"
else
  echo 'skipped: dist/lnbd is not of these sources, so there is no program to be released'
fi
