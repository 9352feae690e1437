# The real wires reach a real server over TCP and over a Unix socket, and read the hello that it sends first:
# NBDMAGIC, IHAVEOPT and two bytes of flags (NBD protocol, "Newstyle negotiation"). A place that is no server
# is one fault, and never a stop.
. checks/need.sh
need nbdkit nbdkit

built probe_hello
probe=$program

dir=$(mktemp -d)
servers=()
trap 'kill "${servers[@]}" 2>/dev/null; rm -rf "$dir"' EXIT

# check NAME WORDS ..: the probe prints a hello of the newstyle handshake.
check() {
  name=$1
  shift
  for _ in $(seq 50); do
    out=$(timeout 20 "$probe" "$@")
    code=$?
    [ "$code" -eq 0 ] && break
    sleep 0.2
  done
  if [ "$code" -eq 0 ] && [[ $out =~ ^4e42444d4147494349484156454f505400[0-9a-f]{2}$ ]]; then
    echo "ok: the hello of nbdkit over $name"
  else
    echo "failed: over $name the probe ended with $code and wrote '$out'"
  fi
}

# refused NAME WORDS ..: the probe is told one fault.
refused() {
  name=$1
  shift
  out=$(timeout 60 "$probe" "$@")
  code=$?
  if [ "$code" -eq 5 ] && [ "$out" = "not connected: 1 faults" ]; then
    echo "ok: $name is one fault"
  else
    echo "failed: $name: the probe ended with $code and wrote '$out'"
  fi
}

nbdkit -f -U "$dir/socket" memory 1M 2>/dev/null &
servers+=($!)
port=$((20000 + RANDOM % 20000))
nbdkit -f -i 127.0.0.1 -p "$port" memory 1M 2>/dev/null &
servers+=($!)

check "a Unix socket" unix "$dir/socket"
check "TCP by an address" tcp 127.0.0.1 "$port"
check "TCP by a name" tcp localhost "$port"

: >"$dir/plain"
refused "a path that is no socket" unix "$dir/plain"
refused "a path where nothing is" unix "$dir/none"
refused "a path too long for a socket" unix "$dir/$(printf 'a%.0s' {1..200})"
refused "a port that is refused" tcp 127.0.0.1 1
refused "a host that does not resolve" tcp nosuchhost.invalid 10809
