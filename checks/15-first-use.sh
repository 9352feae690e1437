# What ./lnbd says when it is used for the first time, in a copy of its scripts with three small crates: how far it is, that it
# starts at once afterwards, what it does after a change, and one line for each fault of the toolchain. And the page of the tools.
dir=$(mktemp -d)
trap 'rm -rf "$dir"' EXIT
top=$dir/top
mkdir -p "$top/tools" "$top/docs" "$dir/strange" "$dir/none"
cp lnbd "$top/"
cp tools/built tools/prove tools/kit.py tools/proving-times tools/start tools/sources tools/help.sh "$top/tools/"
cp docs/help.txt "$top/docs/"
cp HANDLES "$top/"
printf '# Low\nlow:\n\n# Others\nother: low\nlnbd: low other\nunused:\n' >"$top/crates.txt"
for name in low other unused; do
  mkdir -p "$top/crates/$name/src"
  cat >"$top/crates/$name/src/lib.rt" <<EOF
//! A crate.
#![tactic(auto)]

/// The lesser of two.
pub fn lesser_$name(one: u8, two: u8) -> u8 {
    if one < two { one } else { two }
}
EOF
done
mkdir -p "$top/crates/lnbd/src"
cat >"$top/crates/lnbd/src/main.rt" <<'EOF'
//! A program.
#![tactic(auto)]

use low::lesser_low;
use other::lesser_other;
use std::io;

fn main(rt: HostRuntime) -> io::Result<()> {
    println!(rt; "ran {} {}", lesser_low(1, 2), lesser_other(5, 4))
}
EOF

# use WORDS ..: the copy is run; bare WORDS ..: with no rt at all; strange WORDS ..: with an rt that is none of the kit's.
use() {
  timeout 300 "$top/lnbd" "$@" >"$dir/out" 2>"$dir/err"
  code=$?
}
bare() {
  PATH=$dir/none:/usr/bin:/bin timeout 60 "$top/lnbd" "$@" >"$dir/out" 2>"$dir/err"
  code=$?
}
strange() {
  PATH=$dir/strange:$PATH timeout 60 "$top/lnbd" "$@" >"$dir/out" 2>"$dir/err"
  code=$?
}

# told NAME STATUS PRINTED PATTERN ..: the last run ended so, printed this, and each line on standard error fits its pattern.
told() {
  local name=$1 status=$2 printed=$3 good=yes number=0
  # (the copy has no dist/, which is told first wherever it has to prove)
  sed -i '1{/^lnbd: there is no dist\/lnbd: /d}' "$dir/err"
  shift 3
  [ "$code" -eq "$status" ] && [ "$(cat "$dir/out")" = "$printed" ] && [ "$(wc -l <"$dir/err")" -eq $# ] || good=no
  for pattern in "$@"; do
    number=$((number + 1))
    sed -n "${number}p" "$dir/err" | grep -qE -- "$pattern" || good=no
  done
  if [ "$good" = yes ]; then
    echo "ok: $name"
  else
    echo "failed: $name: it ended with $code and wrote '$(cat "$dir/out")' and '$(cat "$dir/err")'"
  fi
}

use --help
if [ "$code" -eq 0 ] && cmp -s "$dir/out" docs/help.txt && [ ! -s "$dir/err" ]; then
  echo 'ok: --help prints the page of the tools'
else
  echo "failed: --help ended with $code"
fi
use
if [ "$code" -eq 1 ] && cmp -s "$dir/err" docs/help.txt && [ ! -s "$dir/out" ]; then
  echo 'ok: no word prints it on standard error'
else
  echo "failed: no word ended with $code"
fi

if PATH=/usr/bin:/bin command -v rt >/dev/null; then
  echo 'skipped: an rt lies in /usr/bin'
else
  bare a
  told 'no rt is one line that says what to do' 1 '' '^lnbd: there is no rt on the path: .* put the folder of its rt on PATH$'
fi

# An rt that only tells a version, and its calls.
cat >"$dir/strange/rt" <<EOF
#!/bin/sh
[ "\$1" = version ] && exec cat "$dir/version"
echo "\$1 \${PWD##*/}" >>"$dir/calls"
EOF
chmod +x "$dir/strange/rt"
echo 'rattle-kit-1 logic 0' >"$dir/version"
strange a
told 'another kit is one line that says what to do' 1 '' "^lnbd: rt is 'rattle-kit-1 logic 0', and these proofs want a kit of '.*': put .* first on PATH$"
sed -n "s/^wanted='\(.*\)'$/\1/p" tools/built >"$dir/version"
strange a
told 'a kit of another make is used as it is' 1 '' '^lnbd: the program is not proved or not built: see .*/bin/lnbd\.log$'
[ "$(cat "$dir/calls" 2>/dev/null)" = 'run lnbd' ] || echo "failed: its rt was called so: '$(cat "$dir/calls")'"

sed -i 's/{ one }/{ one - 1 }/' "$top/crates/other/src/lib.rt"
use a
told 'a crate without its proof ends it, and names the log' 1 '' '^lnbd: first use: proving and building 3 crates, 0 of them already there; about [0-9]+ minutes' \
  '^lnbd: 1 of 3 proved, after [0-9]+\.[0-9] minutes: low$' '^lnbd: the program is not proved or not built: see .*/bin/lnbd\.log$'
if grep -q 'fn other::lesser_other: no' "$top/bin/lnbd.log"; then
  echo 'ok: the log says what was not proved'
else
  echo 'failed: the log does not say what was not proved'
fi

sed -i 's/{ one - 1 }/{ one }/' "$top/crates/other/src/lib.rt"
use a 'b c'
told 'the first use says how far it is, takes what is proved, and runs' 0 'ran 1 4' '^lnbd: first use: proving and building 3 crates, 1 of them already there; ' \
  '^lnbd: 2 of 3 proved, .*: other$' '^lnbd: proved and built$'

use a
told 'the second use says nothing' 0 'ran 1 4'
bare a
told 'the second use needs no rt' 0 'ran 1 4'
if [ -e "$top/crates/unused/out" ]; then
  echo 'failed: it proved a crate that the program does not need'
else
  echo 'ok: it proves no crate that the program does not need'
fi

sed -i 's/ran {}/went {}/' "$top/crates/lnbd/src/main.rt"
touch -d '+2 seconds' "$top/crates/lnbd/src/main.rt"
use a
told 'after a change it proves and builds again what it touches' 0 'went 1 4' '^lnbd: sources changed: ' '^lnbd: proved and built$'
