# What serve does of its clients' and its machine's accidents: a client that vanishes from the net, no descriptor for one more client, the file of
# its socket, and a name with addresses of both families.
. checks/need.sh
need python3 python3

program=$(tools/built lnbd) || exit 1
dir=$(mktemp -d)
servers=()
net=lnbd$$
trap 'kill "${servers[@]}" 2>/dev/null; ip netns del "$net-s" 2>/dev/null; ip netns del "$net-c" 2>/dev/null; rm -rf "$dir"' EXIT

ok() { echo "ok: $1"; }
failed() { echo "failed: $1: ${2:-}"; }

# begin URI WORDS ..: serves there; the first line is awaited.
begin() {
  rm -f "$dir/out"
  mkfifo "$dir/out"
  "$program" serve "$@" >"$dir/out" 2>"$dir/err" &
  server=$!
  servers+=($server)
  exec 4<"$dir/out"
  line=
  read -r -t 60 line <&4
}

# ended: the server's status, once it has ended.
ended() {
  cat <&4 >/dev/null
  exec 4<&-
  wait "$server"
  code=$?
}

# The file of a Unix socket.
uri="nbd+unix:///x?socket=$dir/s"
begin "$uri" --size 4096 --sessions 2
# (which looks whether anybody listens there, and so is a client)
"$program" serve "$uri" --size 4096 >/dev/null 2>"$dir/second"
code=$?
if [ "$code" -eq 5 ] && [ "$(cat "$dir/second")" = 'lnbd: link fault' ] && [ -S "$dir/s" ]; then
  ok 'a path at which somebody listens is not taken'
else
  failed 'a path at which somebody listens is not taken' "$code $(cat "$dir/second")"
fi
"$program" nbdinfo --size "$uri" >/dev/null
ended
if [ "$code" -eq 0 ] && [ ! -e "$dir/s" ]; then ok "the socket's file goes when serve ends"; else failed "the socket's file goes when serve ends" "$code"; fi

begin "$uri" --size 4096
kill -9 "$server"
wait "$server" 2>/dev/null
exec 4<&-
[ -S "$dir/s" ] || failed 'a kill leaves the file'
begin "$uri" --size 4096
size=$(timeout 20 "$program" nbdinfo --size "$uri")
ended
if [ "$size" = 4096 ] && [ "$code" -eq 0 ]; then ok "a socket's file at which nobody listens is taken over"; else failed "a socket's file at which nobody listens is taken over" "$code $size"; fi

echo kept >"$dir/s"
"$program" serve "$uri" --size 4096 >/dev/null 2>&1
code=$?
if [ "$code" -eq 5 ] && [ "$(cat "$dir/s")" = kept ]; then ok 'a file that is no socket stays'; else failed 'a file that is no socket stays' "$code"; fi
rm -f "$dir/s"

# Both families of a name.
if python3 -c 'import socket as s; exit(0 if {f for f, *_ in s.getaddrinfo("localhost", 1, type=s.SOCK_STREAM)} >= {s.AF_INET, s.AF_INET6} else 1)' &&
  python3 -c 'import socket as s; s.socket(s.AF_INET6).bind(("::1", 0))' 2>/dev/null; then
  begin nbd://localhost:21809/x --size 4096 --sessions 2
  one=$(timeout 20 "$program" nbdinfo --size nbd://127.0.0.1:21809/x)
  two=$(timeout 20 "$program" nbdinfo --size 'nbd://[::1]:21809/x')
  ended
  if [ "$one $two $code" = '4096 4096 0' ]; then ok 'a name is listened on at both families'; else failed 'a name is listened on at both families' "$one $two $code"; fi
else
  echo 'skipped: localhost has no address of both families here'
fi

# No descriptor for one more client: the others are served, the next waits, and waiting takes no processor time.
(ulimit -n 24; exec "$program" serve "$uri" --size 4096 --sessions 40 >/dev/null 2>"$dir/err") &
server=$!
servers+=($server)
awaited "$dir/s"
python3 - "$dir/s" >"$dir/told" 2>&1 <<'PY'
import socket, sys, time

path = sys.argv[1]
held = []
for _ in range(40):
    s = socket.socket(socket.AF_UNIX)
    s.connect(path)
    s.settimeout(0.3)
    held.append(s)
greeted = 0
for s in held:
    try:
        greeted += len(s.recv(18)) == 18
    except TimeoutError:
        pass
time.sleep(1)
print('greeted', 0 < greeted < 40)
for s in held[:20]:
    s.close()
for s in held[20:]:
    s.settimeout(5)
rest = 0
for s in held[20:]:
    try:
        rest += len(s.recv(18)) in (18, 0)
    except TimeoutError:
        pass
print('served later', rest > 0)
for s in held:
    s.close()
PY
ticks=$(awk '{print $14 + $15}' "/proc/$server/stat" 2>/dev/null)
if [ "$(cat "$dir/told")" = $'greeted True\nserved later True' ]; then
  ok 'want of descriptors is waited out'
else
  failed 'want of descriptors is waited out' "$(cat "$dir/told")"
fi
if [ "${ticks:-0}" -lt 100 ]; then ok 'waiting for a descriptor takes no processor time'; else failed 'waiting for a descriptor takes no processor time' "$ticks ticks"; fi
kill "$server" 2>/dev/null
wait "$server" 2>/dev/null
rm -f "$dir/s"

# A client that vanishes from the net while bytes are on their way to it, and one that comes later: two hosts of our own, each a network namespace.
if ! { ip netns add "$net-s" && ip netns add "$net-c" && ip link add "l$$" netns "$net-s" type veth peer name "l$$" netns "$net-c"; } 2>/dev/null; then
  echo 'skipped: no network namespace can be had here'
  exit 0
fi
for end in s c; do
  ip -n "$net-$end" link set lo up
  ip -n "$net-$end" addr add "10.213.7.$([ $end = s ] && echo 1 || echo 2)/24" dev "l$$"
  ip -n "$net-$end" link set "l$$" up
done
ip netns exec "$net-s" sh -c 'echo 3 >/proc/sys/net/ipv4/tcp_retries2'
rm -f "$dir/out"
mkfifo "$dir/out"
ip netns exec "$net-s" "$program" serve nbd://10.213.7.1:10809/x --size 67108864 --sessions 2 >"$dir/out" 2>"$dir/err" &
server=$!
servers+=($server)
exec 4<"$dir/out"
read -r -t 60 line <&4
ip netns exec "$net-c" python3 - >"$dir/client" <<'PY' &
import socket, struct, time
s = socket.create_connection(('10.213.7.1', 10809))
s.recv(18, socket.MSG_WAITALL)
s.sendall(struct.pack('>I', 3) + b'IHAVEOPT' + struct.pack('>II', 1, 1) + b'x')
s.recv(10, socket.MSG_WAITALL)
for k in range(2):
    s.sendall(struct.pack('>IHHQQI', 0x25609513, 0, 0, k + 1, 0, 33554432))
s.recv(65536)
print('reading', flush=True)
time.sleep(60)
PY
client=$!
for _ in $(seq 100); do
  [ -s "$dir/client" ] && break
  sleep 0.1
done
ip -n "$net-c" link set "l$$" down
for _ in $(seq 300); do
  [ -z "$(ip netns exec "$net-s" ss -Htn state established 'sport = :10809')" ] && break
  sleep 0.1
done
kill "$client" 2>/dev/null
ip -n "$net-c" link set "l$$" up
size=$(ip netns exec "$net-c" timeout 20 "$program" nbdinfo --size nbd://10.213.7.1:10809/x)
[ "$size" = 67108864 ] || kill "$server" 2>/dev/null
ended
if [ "$size" = 67108864 ] && [ "$code" -ne 5 ]; then
  ok 'a client that vanishes ends its own link alone'
else
  failed 'a client that vanishes ends its own link alone' "the next one read '$size', status $code, $(cat "$dir/err" "$dir/client")"
fi
