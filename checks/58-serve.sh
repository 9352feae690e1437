# Clients of others over lnbd serve: libnbd's nbdinfo and nbdcopy, qemu-img and qemu-io read what the page of serve says, write, and
# read it back; so do nbdinfo and scripts of this program, with extended headers. And how serve ends.
. checks/need.sh
need libnbd-bin nbdcopy
need qemu-utils qemu-img

program=$(tools/built lnbd) || exit 1
dir=$(mktemp -d)
servers=()
trap 'kill "${servers[@]}" 2>/dev/null; rm -rf "$dir"' EXIT

# begin URI WORDS ..: serves there, and reads the line that tells that clients can come.
begin() {
  uri=$1
  shift
  rm -f "$dir/out" "$dir/lines"
  mkfifo "$dir/out"
  "$program" serve "$uri" "$@" >"$dir/out" 2>"$dir/err" &
  server=$!
  servers+=($server)
  exec 4<"$dir/out"
  line=
  read -r -t 60 line <&4
}

# ends NAME STATUS SESSIONS ERR: the server printed so many sessions and this line of standard error, and ended so.
ends() {
  last=
  read -r -t 60 last <&4
  exec 4<&-
  wait "$server"
  code=$?
  if [ "$code" -eq "$2" ] && [ "$last" = "$3" ] && [ "$(cat "$dir/err")" = "$4" ]; then
    echo "ok: $1"
  else
    echo "failed: $1: serve printed '$line' and '$last', ended with $code and wrote '$(cat "$dir/err")'"
  fi
}

# same NAME ONE OTHER: two files have the same bytes.
same() { if cmp -s "$2" "$3"; then echo "ok: $1"; else echo "failed: $1: $(cmp "$2" "$3" 2>&1)"; fi; }

# said NAME WANTED GOT
said() { if [ "$2" = "$3" ]; then echo "ok: $1"; else echo "failed: $1: '$3' in place of '$2'"; fi; }

# The contents by the formula of the page.
python3 - "$dir/wanted" 7 8388608 <<'PY'
import sys
path, seed, size = sys.argv[1], int(sys.argv[2]), int(sys.argv[3])
out = bytearray()
for k in range((size + 4095) // 4096):
    number = (2 * seed + 1) * (k + 1) * 2654435761 % 2 ** 32
    out += bytes(4096) if number < 2 ** 30 else bytes((number // 256 + i) % 256 for i in range(4096))
open(path, 'wb').write(out[:size])
PY
head -c 8388608 /dev/urandom >"$dir/noise"

# 1 GiB of content: what it takes until the server listens, at best of five starts; by the clock as ./lnbd starts it, in large pages. Half a second is what it
# takes on a machine of its own, so only the program's own time is judged.
python3 - "$program" "$dir/s0" <<'PY'
import os, subprocess, sys, time
program, path = sys.argv[1:]
os.environ.setdefault("GLIBC_TUNABLES", "glibc.malloc.hugetlb=1")
clock, own = [], []
for _ in range(5):
    began = time.monotonic()
    serving = subprocess.Popen([program, "serve", f"nbd+unix:///x?socket={path}", "--size", str(1 << 30)], stdout=subprocess.PIPE)
    line = serving.stdout.readline()
    clock.append(time.monotonic() - began)
    own.append(int(open(f"/proc/{serving.pid}/stat").read().rsplit(")", 1)[1].split()[11]) / os.sysconf("SC_CLK_TCK"))
    serving.kill()
    serving.wait()
    if os.path.exists(path):
        os.unlink(path)
said = f"1 GiB is listened on after {min(clock):.2f} s, of which the program's own are {min(own):.2f}"
print(f"ok: {said}" if line == b"serving 1073741824\n" and min(own) <= 0.3 else f"failed: {said}, with {line}")
PY

# One client, which is nbdinfo of this program.
begin "nbd+unix:///x?socket=$dir/s1" --size 65536
said 'the first line tells the size' 'serving 65536' "$line"
said 'nbdinfo tells the size of what is served' 65536 "$(timeout 60 "$program" nbdinfo --size "$uri" 2>&1)"
ends 'one client was served' 0 'sessions 1' ''

# Clients of libnbd.
begin "nbd+unix:///?socket=$dir/s2" --size 8388608 --seed 7 --sessions 10
said "libnbd's nbdinfo tells the size" 8388608 "$(timeout 60 nbdinfo --size "$uri" 2>&1)"
timeout 60 nbdinfo --can multi-conn "$uri" && echo 'ok: many connections are told to be allowed' || echo 'failed: nbdinfo --can multi-conn'
timeout 60 nbdcopy -C 2 "$uri" "$dir/read" 2>&1
same "nbdcopy reads what the page says" "$dir/wanted" "$dir/read"
timeout 60 nbdcopy -C 2 "$dir/noise" "$uri" 2>&1
timeout 60 nbdcopy -C 4 "$uri" "$dir/read" 2>&1
same 'nbdcopy reads back what it wrote' "$dir/noise" "$dir/read"
ends "libnbd's clients were served" 0 'sessions 10' ''

# The map of the page's contents: blocks 1, 4, 9 and 12 of seed 0 are zeros.
begin "nbd+unix:///?socket=$dir/s3" --size 57344 --seed 0
said "libnbd's nbdinfo maps the zeros" '0 4096 0|4096 4096 3|8192 8192 0|16384 4096 3|20480 16384 0|36864 4096 3|40960 8192 0|49152 4096 3|53248 4096 0' \
  "$(timeout 60 nbdinfo --map "$uri" 2>&1 | awk '{ printf "%s%s %s %s", (NR > 1 ? "|" : ""), $1, $2, $3 }')"
ends 'a map was served' 0 'sessions 1' ''

# qemu-img and qemu-io, each command a client.
begin "nbd+unix:///disk?socket=$dir/s4" --size 8388608 --seed 7 --sessions 5
timeout 60 qemu-img convert -f raw -O raw "$uri" "$dir/read" 2>&1
same 'qemu-img reads what the page says' "$dir/wanted" "$dir/read"
timeout 60 qemu-img convert -n -f raw -O raw "$dir/noise" "$uri" 2>&1
timeout 60 qemu-img compare -f raw -F raw "$dir/noise" "$uri" >"$dir/said" 2>&1
said 'qemu-img finds what it wrote' 'Images are identical.' "$(cat "$dir/said")"
timeout 60 qemu-io -f raw -c 'write -P 0xab 1000 70000' -c 'read -P 0xab 1000 70000' -c 'write -z 4096 4096' -c 'read -P 0 4096 4096' -c 'discard 65536 1000' \
  -c 'read -P 0 65536 1000' -c 'read -P 0xab 66536 4464' -c 'flush' "$uri" >"$dir/said" 2>&1
if grep -qi 'fail\|error' "$dir/said"; then echo "failed: qemu-io: $(cat "$dir/said")"; else echo 'ok: qemu-io reads the patterns that it wrote, zeroed and discarded'; fi
python3 - "$dir/noise" <<'PY'
import sys
with open(sys.argv[1], 'r+b') as f:
    for at, bytes_ in ((1000, b'\xab' * 70000), (4096, bytes(4096)), (65536, bytes(1000))):
        f.seek(at)
        f.write(bytes_)
PY
# (qemu-img takes the zeros of a block status in whole sectors, and so reads 24 bytes too many as zeros)
timeout 60 nbdcopy -C 1 "$uri" "$dir/read" 2>&1
same 'all other bytes are as they were' "$dir/noise" "$dir/read"
ends "qemu's clients were served" 0 'sessions 5' ''

# This program's clients, with extended headers.
begin "nbd+unix:///?socket=$dir/s5" --size 65536 --sessions 2
timeout 60 "$program" nbdinfo "$uri" >"$dir/said" 2>&1
said 'nbdinfo agrees on extended headers' 'protocol: newstyle-fixed without TLS, using extended packets' "$(head -1 "$dir/said")"
cat >"$dir/script" <<SCRIPT
structured on
extended on
connect unix $dir/s5
settle
pread 4 0
settle
pwrite fill:ab:512 0
zero 256 256
settle
pread 512 0
settle
done 1
done 4
disconnect
settle
SCRIPT
timeout 60 "$program" nbdcalls <"$dir/script" >"$dir/said" 2>&1
said 'a script reads, writes and zeroes with extended headers' 'done 4 79*1 7a*1 7b*1 7c*1 done 512 ab*256 00*256' "$(grep '^done' "$dir/said" | tr '\n' ' ' | sed 's/ $//')"
ends "this program's clients were served" 0 'sessions 2' ''

# A read-only export.
begin "nbd+unix:///?socket=$dir/s6" --size 4096 --read-only --sessions 2
timeout 60 nbdinfo --is read-only "$uri" && echo 'ok: it is read-only' || echo 'failed: nbdinfo --is read-only'
timeout 60 qemu-io -f raw -c 'write -P 1 0 512' "$uri" >"$dir/said" 2>&1 && echo 'failed: a read-only export was written' || echo 'ok: it can not be written'
ends 'a read-only export was served' 0 'sessions 2' ''

# A client over TCP, and one whose bytes are none.
port=10876
if (exec 3<>/dev/tcp/127.0.0.1/$port) 2>/dev/null; then
  echo "skipped: the port $port of this machine is taken"
else
  begin "nbd://127.0.0.1:$port" --size 65536 --sessions 2
  said 'a client over TCP' 65536 "$(timeout 60 nbdinfo --size "$uri" 2>&1)"
  exec 3<>/dev/tcp/127.0.0.1/$port
  printf '\0\0\0\4' >&3
  timeout 60 cat <&3 >/dev/null
  exec 3<&-
  ends 'a client that broke the protocol is told at the end' 4 'sessions 2' 'lnbd: peer broke Client'
fi

# A client that asks for more than it reads and then breaks the protocol, and sends on: what it is not read for costs nothing.
begin "nbd+unix:///?socket=$dir/s8" --size 4194304
said 'a client that is read no further costs the server little' little "$(timeout 60 python3 - "$dir/s8" "$server" <<'PY'
import os, socket, struct, sys, time
def spent(pid):
    fields = open(f'/proc/{pid}/stat').read().rsplit(')', 1)[1].split()
    return (int(fields[11]) + int(fields[12])) / os.sysconf('SC_CLK_TCK')
client = socket.socket(socket.AF_UNIX)
client.connect(sys.argv[1])
def take(n):
    while n:
        n -= len(client.recv(n))
take(18)
# the client's flags, and the option that starts transmission
client.sendall(struct.pack('>I', 3) + b'IHAVEOPT' + struct.pack('>II', 1, 0))
take(10)
for cookie in range(4):
    client.sendall(struct.pack('>IHHQQI', 0x25609513, 0, 0, cookie, 0, 4194304))
client.sendall(b'x' * 28)
time.sleep(1)
client.sendall(b'x' * 1000)
before = spent(sys.argv[2])
time.sleep(3)
print('little' if spent(sys.argv[2]) - before < 1 else 'much')
PY
)"
kill "$server" 2>/dev/null
exec 4<&-

# A client that asks for more than it reads, and leaves: the next one is served all the same.
begin "nbd+unix:///?socket=$dir/s9" --size 4194304 --sessions 2
timeout 60 python3 - "$dir/s9" <<'PY'
import socket, struct, sys, time
client = socket.socket(socket.AF_UNIX)
client.connect(sys.argv[1])
client.sendall(struct.pack('>I', 3) + b'IHAVEOPT' + struct.pack('>II', 1, 0))
for cookie in range(4):
    client.sendall(struct.pack('>IHHQQI', 0x25609513, 0, 0, cookie, 0, 4194304))
time.sleep(1)
client.close()
PY
said 'a client that left with replies unread is followed by another' 4194304 "$(timeout 60 nbdinfo --size "$uri" 2>&1)"
ends 'it ended its own session alone' 0 'sessions 2' ''

# 65 clients at once: the last one is let in as another leaves. It asks an unknown option, and reads at the end and one byte too far.
begin "nbd+unix:///?socket=$dir/s10" --size 65536 --sessions 65
said 'the 65th client waits for another to leave' 'waits in unsupported 0 22' "$(timeout 60 python3 - "$dir/s10" <<'PY'
import socket, struct, sys
def connected():
    client = socket.socket(socket.AF_UNIX)
    client.settimeout(30)
    client.connect(sys.argv[1])
    return client
def taken(client, n):
    out = b''
    while len(out) < n:
        got = client.recv(n - len(out))
        if not got:
            raise SystemExit('left alone')
        out += got
    return out
others = [connected() for _ in range(64)]
for client in others:
    taken(client, 18)
last = connected()
last.settimeout(1)
try:
    taken(last, 18)
    said = ['comes']
except socket.timeout:
    said = ['waits']
last.settimeout(30)
others.pop().close()
taken(last, 18)
said.append('in')
last.sendall(struct.pack('>I', 3) + b'IHAVEOPT' + struct.pack('>II', 99, 0))
magic, option, kind, size = struct.unpack('>QIII', taken(last, 20))
said.append('unsupported' if (option, kind, size) == (99, 0x80000001, 0) else hex(kind))
last.sendall(b'IHAVEOPT' + struct.pack('>II', 1, 0))
taken(last, 10)
for offset, size in ((65532, 4), (65533, 4)):
    last.sendall(struct.pack('>IHHQQI', 0x25609513, 0, 0, 7, offset, size))
    magic, error, cookie = struct.unpack('>IIQ', taken(last, 16))
    if error == 0:
        taken(last, size)
    said.append(str(error))
print(*said)
PY
)"
ends '65 clients were served, 64 at once' 0 'sessions 65' ''

# ended NAME STATUS ERR WORDS ..: so serve ends at once.
ended() {
  timeout 60 "$program" serve "${@:4}" >"$dir/said" 2>"$dir/err"
  code=$?
  if [ "$code" -eq "$2" ] && [ "$(cat "$dir/err")" = "$3" ] && [ ! -s "$dir/said" ]; then
    echo "ok: $1"
  else
    echo "failed: $1: it ended with $code and wrote '$(cat "$dir/said" "$dir/err")'"
  fi
}
ended 'a place that is not to be had is a link fault' 5 'lnbd: link fault' "nbd+unix:///?socket=$dir/none/s" --size 1
ended 'serve without a size is usage' 1 'lnbd: usage' "nbd+unix:///?socket=$dir/s"
ended 'an address that is none' 1 'lnbd: uri Tls' nbds://localhost --size 1
timeout 60 "$program" serve "nbd+unix:///?socket=$dir/s7" --size 1 >/dev/full 2>"$dir/err"
said 'a full output' '8 lnbd: output fault' "$? $(cat "$dir/err")"

# The examples of the page: each server of it tells its size, and one of them serves the commands that stand below.
lnbd() { timeout 60 "$program" "$@"; }
awk '/^## /{ on = ($0 == "## Examples") } on && /^```/{ n += !inside; inside = !inside; next } on && inside { print > dir "/block" n }' dir="$dir" docs/serve.md
while read -r command; do
  words=${command#lnbd serve }
  eval "begin ${words//\/tmp\//$dir/}"
  case "$line" in serving*) echo "ok: docs/serve.md: $command" ;; *) echo "failed: docs/serve.md: $command: '$(cat "$dir/err")'" ;; esac
  if [[ $words == *--sessions* ]]; then
    while read -r client; do
      (cd "$dir" && eval "${client//\/tmp\//$dir/}") >"$dir/said" 2>&1 && echo "ok: docs/serve.md: $client" || echo "failed: docs/serve.md: $client: $(cat "$dir/said")"
    done <"$dir/block2"
  fi
  kill "$server" 2>/dev/null
  exec 4<&-
done <"$dir/block1"
