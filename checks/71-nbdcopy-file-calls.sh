# nbdcopy between an export and a file, and between two files, where calls of the system on a file move less than they may, are broken off by signals, or fail: each in turn, by a
# counter that is loaded before the C library, until none fails. Each run before that ends with 11, and none opens another file.
. checks/servers.sh
need gcc gcc
longest=60
gcc -O1 -shared -fPIC -o "$dir/files.so" checks/files.c -ldl || { echo 'failed: the counter of calls on files does not compile'; exit 1; }
case $program in /*) ;; *) program=$PWD/$program ;; esac
# The servers are others, so it is loaded into the copies alone.
printf '#!/bin/sh\nLD_PRELOAD=%s exec %s "$@"\n' "'$dir/files.so'" "'$program'" >"$dir/loaded"
chmod +x "$dir/loaded"
program=$dir/loaded
export FILES_TO=$dir/calls

# Data, two blocks of zeros, and data; and what a file held before, which is longer.
{ head -c 5000 /dev/urandom; head -c 8000 /dev/zero; head -c 7001 /dev/urandom; } >"$dir/disk"
head -c 30000 /dev/urandom >"$dir/longer"
size=$(stat -c %s "$dir/disk")
# (one thread: a client that leaves while several threads of nbdkit 1.32 answer it ends that nbdkit by an assertion of its own)
truncate -s "$size" "$dir/to.disk"
begin from nbdkit -f -t 1 -U "$dir/from" file "$dir/disk" && from=$address
begin to nbdkit -f -t 1 -U "$dir/to" file "$dir/to.disk" && to=$address

# The three ways: a name, and then its sides and where the bytes stand behind it.
ways=("from an export to a file|$from|$dir/file|$dir/file" "from a file to an export|$dir/disk|$to|$dir/to.disk" "between two files|$dir/disk|$dir/file|$dir/file")

# afresh: a file that holds something else, and an export of zeros.
afresh() {
  cp "$dir/longer" "$dir/file"
  dd if=/dev/zero of="$dir/to.disk" bs="$size" count=1 conv=notrunc status=none
}

# opened_only PATH ..: the last copy opened no other path, and none twice.
opened_only() {
  local path
  while read -r path; do
    case " $* " in *" $path "*) ;; *) why=", '$path' was opened"; return 1 ;; esac
  done < <(tail -n +2 "$FILES_TO")
  [ "$(tail -n +2 "$FILES_TO" | sort | uniq -d)" = '' ] || { why=", a path was opened twice"; return 1; }
}

# in_turn FROM TO TARGET WORDS ..: each call fails in turn, until none does. How many there were is in `count`.
in_turn() {
  local at
  for at in $(seq 200); do
    afresh
    FILES_FAIL_AT=$at copy "$1" "$2" "${@:4}"
    read -r count behind <"$FILES_TO"
    opened_only "$1" "$2" || return 1
    if [ "$code" -eq 0 ]; then
      [ "$at" -gt "$count" ] && [ "$count" -gt 3 ] && [ -z "$said" ] && same "$dir/disk" "$3"
      return
    fi
    ended 11 'lnbd: store fault' || { why=", of which call $at failed"; return 1; }
    [ "$behind" -eq 0 ] || { why=", which went on behind call $at"; return 1; }
  done
  why=', which did not end'
  return 1
}

for way in "${ways[@]}"; do
  IFS='|' read -r name one other target <<<"$way"
  while read -r piece interrupt moved; do
    afresh
    FILES_PIECE=$piece FILES_INTERRUPT=$interrupt copy "$one" "$other" --request-size 4096
    read -r count _ <"$FILES_TO"
    held "$name, $moved" eval "ended 0 '' && [ $count -gt 6 ] && same '$dir/disk' '$target'"
  done <<'MOVED'
1 0 a byte at a time
0 1 where signals break off
3 1 three bytes at a time, where signals break off
MOVED
  for words in '--request-size 4096 --flush' '--request-size 4096 -S 0 -C 1'; do
    count=
    # shellcheck disable=SC2086
    if in_turn "$one" "$other" "$target" $words && [ -z "$out" ]; then
      echo "ok: nbdcopy $name, $words: each of $count calls fails in turn, and then none"
    else
      echo "failed: nbdcopy $name, $words, call by call: status $code, '$out$said'$why"
    fi
    why=
  done
done
