# The program plays the first example against a real server, over TCP and over a Unix socket, and each line is
# compared. A place that is no server is one link fault.
. checks/need.sh
need nbdkit nbdkit

dir=$(mktemp -d)
servers=()
trap 'kill "${servers[@]}" 2>/dev/null; rm -rf "$dir"' EXIT

# check NAME CONNECT: the example with this line in place of its own prints what stands beside it.
check() {
  name=$1
  sed "s|^connect .*|$2|" examples/first-sector.script >"$dir/script"
  for _ in $(seq 50); do
    timeout 20 ./lnbd nbdcalls <"$dir/script" >"$dir/out" 2>"$dir/err"
    code=$?
    [ "$code" -eq 0 ] && break
    sleep 0.2
  done
  if [ "$code" -eq 0 ] && cmp -s "$dir/out" examples/first-sector.expected && [ ! -s "$dir/err" ]; then
    echo "ok: the first example against nbdkit over $name"
  else
    echo "failed: over $name the program ended with $code and wrote '$(cat "$dir/out" "$dir/err")'"
  fi
}

nbdkit -f -i 127.0.0.1 -p 10871 data '0xab*512' size=1M &
servers+=($!)
nbdkit -f -U "$dir/socket" data '0xab*512' size=1M &
servers+=($!)
check TCP 'connect tcp 127.0.0.1 10871'
check 'a Unix socket' "connect unix $dir/socket"

printf 'connect unix %s/none\n' "$dir" | ./lnbd nbdcalls >"$dir/out" 2>"$dir/err"
code=$?
if [ "$code" -eq 5 ] && [ "$(cat "$dir/err")" = 'lnbd: link fault' ]; then
  echo "ok: no server is a link fault"
else
  echo "failed: with no server the program ended with $code and wrote '$(cat "$dir/out" "$dir/err")'"
fi
