# The program plays the example of a death against a server that dies on purpose, over TCP and over a Unix socket:
# it goes away, it breaks the protocol, or it resets the connection. Each line, the line on standard error and the
# status are compared.
. checks/need.sh
need python3 python3

dir=$(mktemp -d)
servers=()
trap 'kill "${servers[@]}" 2>/dev/null; rm -rf "$dir"' EXIT

# check NAME HOW CAUSE PLACE CONNECT [EXPECTED]: the server dies so at this place, and the run ends with this cause.
check() {
  name=$1
  python3 examples/dying-server.py "$2" "$4" 2>"$dir/server" &
  servers+=($!)
  sed "s|^connect .*|$5|" examples/death.script >"$dir/script"
  sed "s|dead ended|dead $3|" "examples/${6:-death}.expected" >"$dir/expected"
  # Until the server listens, the connect is a link fault.
  for _ in $(seq 50); do
    timeout 20 ./lnbd nbdcalls <"$dir/script" >"$dir/out" 2>"$dir/err"
    code=$?
    [ "$code" -eq 5 ] || break
    sleep 0.2
  done
  told=${3#broke }
  if [ "$code" -eq 4 ] && cmp -s "$dir/out" "$dir/expected" && [ "$(cat "$dir/err")" = "lnbd: peer broke ${told^}" ]; then
    echo "ok: $name"
  else
    echo "failed: $name: the program ended with $code and wrote '$(cat "$dir/out" "$dir/err")'; the server '$(cat "$dir/server")'"
  fi
}

check 'a server that goes away, over TCP' end ended 10872 'connect tcp 127.0.0.1 10872'
check 'a server that goes away, over a Unix socket' end ended "$dir/end" "connect unix $dir/end"
check 'a server that answers nobody, over TCP' cookie 'broke UnknownCookie' 10873 'connect tcp 127.0.0.1 10873'
check 'a server that answers nobody, over a Unix socket' cookie 'broke UnknownCookie' "$dir/cookie" "connect unix $dir/cookie"
check 'a server that resets the connection has ended it' reset ended 10874 'connect tcp 127.0.0.1 10874' reset
