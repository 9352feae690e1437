# Standard streams as a parent may leave them: closed, or pipes that don't wait. And the line that says why, where it is asked for.
. checks/need.sh
need python3 python3
need nbdkit nbdkit

program=$(tools/built lnbd) || exit 1
dir=$(mktemp -d)
servers=()
trap 'kill "${servers[@]}" 2>/dev/null; rm -rf "$dir"' EXIT

# said NAME WANTED GOT
said() { if [ "$2" = "$3" ]; then echo "ok: $1"; else echo "failed: $1: '$3' in place of '$2'"; fi; }

# Closed ones are /dev/null before anything is opened.
"$program" serve "nbd+unix:///x?socket=$dir/s" --size 4096 <&- >&- 2>&- &
server=$!
servers+=($server)
awaited "$dir/s"
said 'closed standard streams are /dev/null' '/dev/null /dev/null /dev/null' \
  "$(readlink "/proc/$server/fd/0" "/proc/$server/fd/1" "/proc/$server/fd/2" | tr '\n' ' ' | sed 's/ $//')"
"$program" nbdinfo --size "nbd+unix:///x?socket=$dir/s" >/dev/null
wait "$server"

# Pipes that don't wait: a script of many lines in, its answers out.
python3 - "$program" >"$dir/told" 2>&1 <<'PY'
import fcntl, os, subprocess, sys, threading, time

def pipe_that_does_not_wait(end):
    ends = os.pipe()
    fcntl.fcntl(ends[end], fcntl.F_SETFL, fcntl.fcntl(ends[end], fcntl.F_GETFL) | os.O_NONBLOCK)
    return ends

lines = b'state\n' * 20000
(into, feed), (drain, out) = pipe_that_does_not_wait(0), pipe_that_does_not_wait(1)
ran = subprocess.Popen([sys.argv[1], 'nbdcalls'], stdin=into, stdout=out, stderr=subprocess.PIPE)
os.close(into), os.close(out)

def give():
    time.sleep(0.3)
    for at in range(0, len(lines), 30000):
        os.write(feed, lines[at:at + 30000])
        time.sleep(0.05)
    os.close(feed)

threading.Thread(target=give).start()
time.sleep(1.5)
told = b''
while part := os.read(drain, 65536):
    told += part
print(ran.wait(), told.count(b'created\n'), ran.stderr.read().decode())
PY
said 'pipes that do not wait are waited for' '0 20000 ' "$(cat "$dir/told")"

# why NAME STATUS LINE WORDS ..: the program's status, and what it says behind its status line.
why() {
  local name=$1 status=$2 line=$3
  shift 3
  LNBD_WHY=1 timeout 20 "$program" "$@" >/dev/null 2>"$dir/err" </dev/null
  code=$?
  said "$name" "$status $line" "$code $(sed -n 2p "$dir/err")"
}

begin() {
  "$@" &
  servers+=($!)
  awaited "$socket"
}

why 'nobody listens there' 5 "why: connect $dir/none: No such file or directory" nbdinfo "nbd+unix:///?socket=$dir/none"
why 'the destination of a copy is not there' 5 "why: connect 127.0.0.1:1: Connection refused" nbdcopy nbd://127.0.0.1:1/ "nbd+unix:///?socket=$dir/none"
why 'words that are none' 1 'why: see lnbd --help' nbdinfo --nothing
socket=$dir/full
begin nbdkit -f -U "$socket" memory 1M --filter=error error=ENOSPC error-rate=100% 2>/dev/null
"$program" nbdinfo --size "nbd+unix:///?socket=$socket" >/dev/null 2>&1
socket=$dir/source
begin "$program" serve "nbd+unix:///x?socket=$socket" --size 1048576 --sessions 9
why 'the destination is full' 3 "why: $dir/full: No space left on device" nbdcopy -C 1 "nbd+unix:///x?socket=$dir/source" "nbd+unix:///?socket=$dir/full"
why 'no such export' 3 "why: $dir/source has no such export (nbdinfo --list tells them)" nbdinfo "nbd+unix:///y?socket=$dir/source"
python3 - "$dir/web" <<'PY' &
import socket, sys
s = socket.socket(socket.AF_UNIX)
s.bind(sys.argv[1])
s.listen()
c, _ = s.accept()
c.sendall(b'HTTP/1.1 400 Bad Request\r\nConnection: close\r\n\r\n')
c.recv(1)
PY
servers+=($!)
awaited "$dir/web"
why 'no NBD server' 4 "why: $dir/web is no NBD server" nbdinfo "nbd+unix:///?socket=$dir/web"
timeout 20 "$program" nbdinfo "nbd+unix:///?socket=$dir/none" >/dev/null 2>"$dir/err"
said 'without the variable there is one line' 'lnbd: link fault' "$(cat "$dir/err")"
