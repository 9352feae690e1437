# serve with a file, and beside a program: what real clients make of the file, real programs that end well, badly or never begin, and what is left of the file.
. checks/need.sh
need libnbd-bin nbdcopy
need qemu-utils qemu-img
need python3 python3

program=$(tools/built lnbd) || exit 1
case $program in /*) ;; *) program=$PWD/$program ;; esac
dir=$(mktemp -d)
trap 'umount "$dir/small" 2>/dev/null; rm -rf "$dir"' EXIT
uri="nbd+unix:///x?socket=$dir/s"

# said NAME WANTED GOT
said() { if [ "$2" = "$3" ]; then echo "ok: $1"; else echo "failed: $1: '$3' in place of '$2'"; fi; }

# same NAME ONE OTHER: two files have the same bytes.
same() { if cmp -s "$2" "$3"; then echo "ok: $1"; else echo "failed: $1: $(cmp "$2" "$3" 2>&1)"; fi; }

# ends NAME STATUS LINES ERR WORDS ..: serve with these words prints these lines (joined by |) and this line of standard error, and ends so.
ends() {
  timeout 60 "$program" serve "${@:5}" >"$dir/out" 2>"$dir/err"
  code=$?
  lines=$(paste -sd '|' "$dir/out")
  if [ "$code" -eq "$2" ] && [ "$lines" = "$3" ] && [ "$(cat "$dir/err")" = "$4" ]; then
    echo "ok: $1"
  else
    echo "failed: $1: it ended with $code, printed '$lines' and wrote '$(cat "$dir/err")'"
  fi
}

# a program of this name, which gets the address as its last word
script() {
  printf '#!/bin/sh\n%s\n' "$2" >"$dir/$1"
  chmod +x "$dir/$1"
}

# Programs beside made contents.
ends 'nbdinfo of this program is a child' 0 'serving 4096|4096|sessions 1' '' "$uri" --size 4096 --run "$program" nbdinfo --size
script well "timeout 20 '$program' nbdinfo --size \"\$1\" >/dev/null"
script badly "timeout 20 '$program' nbdinfo --size \"\$1\" >/dev/null; exit 3"
script killed "timeout 20 '$program' nbdinfo --size \"\$1\" >/dev/null; kill -9 \$\$"
script words 'for word; do printf "%s," "$word"; done; shift $(($# - 1)); '"timeout 20 '$program' nbdinfo --size \"\$1\" >/dev/null; echo"
ends 'a program that ends well' 0 'serving 4096|sessions 1' '' "$uri" --size 4096 --run "$dir/well"
ends 'a program that ends with a status' 12 'serving 4096|sessions 1' 'lnbd: child 3' "$uri" --size 4096 --run "$dir/badly"
ends 'a program that a signal ends' 12 'serving 4096|sessions 1' 'lnbd: child signal' "$uri" --size 4096 --run "$dir/killed"
ends 'a program that is not there' 13 'serving 4096' 'lnbd: spawn fault' "$uri" --size 4096 --run "$dir/none"
: >"$dir/plain"
ends 'a program that can not be run' 13 'serving 4096' 'lnbd: spawn fault' "$uri" --size 4096 --run "$dir/plain"
ends 'words behind --run are the program'"'"'s' 0 "serving 4096|--size,3,--run,--,$uri,|sessions 1" '' "$uri" --size 4096 --run "$dir/words" --size 3 --run --
ends '--run counts behind -- too' 0 'serving 4096|sessions 1' '' --size 4096 -- "$uri" --run "$dir/well"
ends '--run without a program' 1 '' 'lnbd: usage' "$uri" --size 4096 --run
ends 'a word of 4,097 bytes' 1 '' 'lnbd: usage' "$uri" --size 4096 --run "$dir/well" "$(printf '%4097s' x)"
script twice "timeout 20 '$program' nbdinfo --size \"\$1\" >/dev/null; sleep 1; timeout 20 '$program' nbdinfo --size \"\$1\" >/dev/null 2>&1; echo \"second \$?\""
ends 'one that connects once more is refused, not left waiting' 0 'serving 4096|second 5|sessions 1' '' "$uri" --size 4096 --run "$dir/twice"
script never 'sleep 3'
timeout 1 "$program" serve "$uri" --size 4096 --run "$dir/never" >/dev/null 2>&1
said 'a program that never connects is waited for' 124 "$?"
rm -f "$dir/s"

# A file.
head -c 8388608 /dev/urandom >"$dir/source"
head -c 8388608 /dev/urandom >"$dir/disk"
cp "$dir/disk" "$dir/before"
script reads "timeout 20 nbdcopy -C 1 \"\$1\" '$dir/read'"
ends 'nbdcopy reads a file that is served' 0 'serving 8388608|sessions 1' '' "$uri" --file "$dir/disk" --run "$dir/reads"
same 'what it read are its bytes' "$dir/disk" "$dir/read"
same 'a file that was only read is as it was' "$dir/disk" "$dir/before"
ends 'nbdcopy writes a file that is served' 0 'serving 8388608|sessions 4' '' "$uri" --file "$dir/disk" --sessions 4 --run nbdcopy -C 4 "$dir/source"
same 'a file that was written has the bytes of its source' "$dir/source" "$dir/disk"
qemu-img create -q -f qcow2 "$dir/image" 16M
ends 'qemu-img is a child' 0 "serving $(stat -c %s "$dir/image")|qcow2|sessions 1" '' "$uri" --file "$dir/image" --run sh -c 'qemu-img info "$1" | sed -n "s/^file format: //p"' x
cp "$dir/disk" "$dir/before"
script writes "timeout 20 qemu-io -f raw -c 'write -P 1 0 512' \"\$1\" >/dev/null 2>&1; exit 0"
ends 'a file that is read-only' 0 'serving 8388608|sessions 1' '' "$uri" --file "$dir/disk" --read-only --run "$dir/writes"
same 'it is as it was' "$dir/disk" "$dir/before"
script breaks "python3 -c 'import socket, sys
client = socket.socket(socket.AF_UNIX)
client.connect(sys.argv[1])
client.sendall(bytes([0, 0, 0, 4]))
client.recv(100)' '$dir/s'"
ends 'a client that is none' 4 'serving 8388608|sessions 1' 'lnbd: peer broke Client' "$uri" --file "$dir/disk" --run "$dir/breaks"
: >"$dir/empty"
ends 'an empty file' 0 'serving 0|sessions 1' '' "$uri" --file "$dir/empty" --run "$dir/well"
said 'it is empty still' 0 "$(stat -c %s "$dir/empty")"

# Clients without a program.
rm -f "$dir/out"
timeout 60 "$program" serve "$uri" --file "$dir/disk" --sessions 2 >"$dir/out" 2>"$dir/err" &
server=$!
while [ ! -s "$dir/out" ] && kill -0 "$server" 2>/dev/null; do sleep 0.05; done
timeout 20 qemu-io -f raw -c 'write -P 0xab 1000 70000' -c 'write -z 4096 4096' "$uri" >/dev/null
same 'a client'"'"'s writes stand in no file before all have left' "$dir/disk" "$dir/before"
timeout 20 "$program" nbdinfo --size "$uri" >/dev/null
wait "$server"
said 'two clients of a file are served' '0 serving 8388608|sessions 2' "$? $(paste -sd '|' "$dir/out")"
python3 - "$dir/before" <<'PY'
import sys
with open(sys.argv[1], 'r+b') as f:
    for at, bytes_ in ((1000, b'\xab' * 70000), (4096, bytes(4096))):
        f.seek(at)
        f.write(bytes_)
PY
same 'then the file has them, in their order' "$dir/disk" "$dir/before"

# A server that is killed leaves the file as it was.
rm -f "$dir/out"
"$program" serve "$uri" --file "$dir/disk" --sessions 2 >"$dir/out" 2>"$dir/err" &
server=$!
while [ ! -s "$dir/out" ] && kill -0 "$server" 2>/dev/null; do sleep 0.05; done
timeout 20 qemu-io -f raw -c 'write -P 1 0 4096' "$uri" >/dev/null && echo 'ok: a client wrote to it'
kill -9 "$server"
wait "$server" 2>/dev/null
rm -f "$dir/s"
same 'a server that is killed leaves the file as it was' "$dir/disk" "$dir/before"

# Files that can't be served, or not be written back.
ends 'a file that is not there' 11 '' 'lnbd: store fault' "$uri" --file "$dir/nowhere"
ends 'a folder' 11 '' 'lnbd: store fault' "$uri" --file "$dir"
ends 'a path of 4,097 bytes' 1 '' 'lnbd: usage' "$uri" --file "$(printf '%4097s' x)"
ends 'a file beside a size' 1 '' 'lnbd: usage' "$uri" --file "$dir/disk" --size 3
ends 'a file beside a seed that is written out' 1 '' 'lnbd: usage' "$uri" --file "$dir/disk" --seed 0
truncate -s 1073741825 "$dir/large"
ends 'a file above 1 GiB' 6 '' 'lnbd: rule file-size 1073741825 1073741824' "$uri" --file "$dir/large"
# (a file of this system tells 4,096 bytes and gives fewer)
if [ "$(stat -c %s /sys/kernel/mm/transparent_hugepage/enabled 2>/dev/null)" = 4096 ]; then
  ends 'a file that ends before its length' 6 '' "lnbd: rule changed 4096 $(wc -c </sys/kernel/mm/transparent_hugepage/enabled)" "$uri" --file /sys/kernel/mm/transparent_hugepage/enabled
else
  echo 'skipped: there is no file here that ends before its length'
fi
mkdir "$dir/small"
if mount -t tmpfs -o size=4m tmpfs "$dir/small" 2>/dev/null; then
  truncate -s 8388608 "$dir/small/disk"
  ends 'a full disk behind the file' 11 'serving 8388608' 'lnbd: store fault' "$uri" --file "$dir/small/disk" --sessions 1 --run nbdcopy -C 1 "$dir/source"
else
  echo 'skipped: no small file system can be mounted here'
fi
if [ "$(id -u)" -eq 0 ] && command -v setpriv >/dev/null; then
  cp "$dir/before" "$dir/shut" && chmod 600 "$dir/shut" && chmod 711 "$dir"
  setpriv --reuid=65534 --regid=65534 --clear-groups "$program" serve "nbd+unix:///x?socket=/tmp/lnbd-$$" --file "$dir/shut" >"$dir/out" 2>"$dir/err"
  said 'a file without permission' '11 lnbd: store fault' "$? $(cat "$dir/err")"
else
  echo 'skipped: no other user can be had here'
fi

# How long a start takes over a file, and what a gigabyte costs a reader, by the side of nbdkit where that is here.
python3 - "$program" "$dir" <<'PY'
import os, subprocess, sys, time
program, folder = sys.argv[1:]
path, place = f"{folder}/big", f"{folder}/t"
block = os.urandom(1 << 20)
with open(path, "wb") as file:
    for _ in range(256):
        file.write(block)
began = time.monotonic()
with open(path, "rb") as file:
    while file.read(1 << 20):
        pass
read = time.monotonic() - began
clock = []
for _ in range(5):
    began = time.monotonic()
    serving = subprocess.Popen([program, "serve", f"nbd+unix:///x?socket={place}", "--file", path, "--read-only"], stdout=subprocess.PIPE)
    serving.stdout.readline()
    clock.append(time.monotonic() - began)
    serving.kill()
    serving.wait()
    os.path.exists(place) and os.unlink(place)
said = f"256 MiB of a file are served after {min(clock):.2f} s (reading it once took {read:.2f})"
print(f"ok: {said}" if min(clock) <= read + 0.5 else f"failed: {said}")
PY
