# Each fault of the words, the script, the streams and the link has its status and its one line on standard error,
# and one that can't be written changes no status.
dir=$(mktemp -d)
trap 'rm -rf "$dir"' EXIT

# told NAME STATUS LINE PRINTED: the run before ended with the status $code and wrote to "$dir/out" and "$dir/err".
told() {
  if [ "$code" -eq "$2" ] && [ "$(cat "$dir/err")" = "$3" ] && [ "$(cat "$dir/out")" = "$4" ]; then
    echo "ok: $1"
  else
    echo "failed: $1: the program ended with $code and wrote '$(head -c 500 "$dir/out")' and '$(head -c 500 "$dir/err")'"
  fi
}

# words NAME WORDS ..: no tool has these words, and the script is not read.
words() {
  name=$1
  shift
  echo state | timeout 20 ./lnbd "$@" >"$dir/out" 2>"$dir/err"
  code=$?
  told "$name is a usage fault" 1 'lnbd: usage' ''
}

# script NAME STATUS LINE PRINTED: of the script on standard input.
script() {
  timeout 60 ./lnbd nbdcalls >"$dir/out" 2>"$dir/err"
  code=$?
  told "$@"
}

# Without a word the script ./lnbd prints a page; the program itself has its line.
program=$(tools/built lnbd) || exit 1
echo state | timeout 20 "$program" >"$dir/out" 2>"$dir/err"
code=$?
told 'no word is a usage fault of the program' 1 'lnbd: usage' ''
words 'a word that names no tool' anything
words 'a tool without its words' nbdcopy
words 'a further word of nbdcalls' nbdcalls state
words 'a word that is not UTF-8' $'nbdcalls\xff'
words 'a further word that is not UTF-8' nbdcalls $'\xff'

printf '' | script 'an empty script opens nothing' 0 '' 'opened 0 freed 0'
printf 'state\n\n# x\npreed 1 0\n' | script 'a faulty line is told by its number' 1 'lnbd: script line 4' ''
printf '# \xff\n' | script 'a comment that is not UTF-8 is a faulty line' 1 'lnbd: script line 1' ''
head -c 16777216 /dev/zero | tr '\0' '\n' | script 'the longest script is played' 0 '' 'opened 0 freed 0'
head -c 16777217 /dev/zero | tr '\0' '\n' | script 'a script one byte longer is too long' 1 'lnbd: script line 0' ''
script 'a script without an end is too long' 1 'lnbd: script line 0' '' </dev/zero
script 'an input that fails is an input fault' 10 'lnbd: input fault' '' <"$dir"
printf 'connect tcp 127.0.0.1 1\nstate\n' |
  script 'a port that is refused is a link fault' 5 'lnbd: link fault' $'connect failed\ncreated\nopened 0 freed 0'

: >"$dir/out"
echo state | timeout 20 ./lnbd nbdcalls >/dev/full 2>"$dir/err"
code=$?
told 'an output that is full is an output fault' 8 'lnbd: output fault' ''
: >"$dir/err"
timeout 20 ./lnbd anything >"$dir/out" 2>/dev/full
code=$?
told 'a line that standard error does not take changes no status' 1 '' ''

# 12,000 KiB hold the program, and no script of 16 MiB.
head -c 16777216 /dev/zero | (ulimit -v 12000 && timeout 60 "$program" nbdcalls) >"$dir/out" 2>"$dir/err"
code=$?
told 'a script that memory does not hold is want of memory' 9 'lnbd: no memory' ''
