# The program plays the example of writes against a real server that keeps what it is told in memory, over TCP and over
# a Unix socket, and each line is compared: what was written and zeroed is read back. A server that may only be read
# has each change refused before it is sent.
. checks/need.sh
need nbdkit nbdkit

dir=$(mktemp -d)
servers=()
trap 'kill "${servers[@]}" 2>/dev/null; rm -rf "$dir"' EXIT

# check NAME CONNECT SCRIPT EXPECTED: the script with this line in place of its own prints what is expected.
check() {
  name=$1
  sed "s|^connect .*|$2|" "$3" >"$dir/script"
  for _ in $(seq 50); do
    timeout 20 ./lnbd nbdcalls <"$dir/script" >"$dir/out" 2>"$dir/err"
    code=$?
    [ "$code" -eq 0 ] && break
    sleep 0.2
  done
  if [ "$code" -eq 0 ] && cmp -s "$dir/out" "$4" && [ ! -s "$dir/err" ]; then
    echo "ok: $name"
  else
    echo "failed: $name: the program ended with $code and wrote '$(cat "$dir/out" "$dir/err")'"
  fi
}

nbdkit -f -i 127.0.0.1 -p 10875 memory 1M &
servers+=($!)
nbdkit -f -U "$dir/socket" memory 1M &
servers+=($!)
nbdkit -f -r -U "$dir/read-only" memory 1M &
servers+=($!)

example=examples/write-and-read-back
check 'what is written over TCP is read back' 'connect tcp 127.0.0.1 10875' "$example.script" "$example.expected"
check 'what is written over a Unix socket is read back' "connect unix $dir/socket" "$example.script" "$example.expected"

printf '%s\n' 'connect unix ' settle 'pwrite fill:aa:512 0' 'trim 512 0' 'zero 512 0' 'pread 4 0' settle 'done 1' >"$dir/changes"
printf '%s\n' connected settled 'refused unsupported read-only' 'refused unsupported read-only' 'refused unsupported read-only' \
  'cookie 1' settled 'done 4 00*4' 'opened 4 freed 4' >"$dir/expected"
check 'a server that may only be read is told no change' "connect unix $dir/read-only" "$dir/changes" "$dir/expected"

# (the longest fill and the longest read of a script are longer than a request may be)
printf '%s\n' 'connect unix ' settle 'pwrite fill:aa:67108864 0' 'pread 67108864 0' 'pread-structured 67108864 0' 'auto pwrite fill:00:67108864 0' >"$dir/long"
printf '%s\n' connected settled 'refused too-big 33554432' 'refused too-big 33554432' 'refused too-big 33554432' 'refused too-big 33554432' \
  'opened 5 freed 5' >"$dir/expected"
check 'a fill and a read of 64 MiB are refused' "connect unix $dir/socket" "$dir/long" "$dir/expected"
