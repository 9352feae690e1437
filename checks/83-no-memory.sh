# Runs of which each allocation is refused in turn, by a counter that is loaded before the C library: each ends with 9 and its line, or as it does without, and leaves
# nothing behind; where a connect found no memory for itself, it failed, which is 5. With REFUSED_STEP=1 each is refused; here each seventh.
. checks/need.sh
need gcc gcc
need python3 python3
need nbdkit nbdkit
need qemu-utils qemu-nbd

program=$(tools/built lnbd) || exit 1
dir=$(mktemp -d)
servers=()
trap 'kill "${servers[@]}" 2>/dev/null; rm -rf "$dir"' EXIT

gcc -O1 -shared -fPIC -o "$dir/refuse.so" checks/refuse.c -ldl || { echo 'failed: the counter of allocations does not compile'; exit 1; }
python3 - "$dir" <<'PY'
import os, sys
with open(sys.argv[1] + '/source', 'wb') as source:
    source.write(b'\xaa' * 393216 + bytes(262144) + b'\xbb' * 393216)
open(sys.argv[1] + '/target', 'wb').write(b'\x11' * 1048576)
PY
nbdkit -f -t 1 -U "$dir/data" data '0xab*512' size=1M 2>/dev/null & servers+=($!)
# (qemu-nbd: a client that leaves while several threads of nbdkit 1.32 answer it ends that nbdkit by an assertion of its own)
qemu-nbd -t -e 16 -k "$dir/from" -f raw "$dir/source" 2>/dev/null & servers+=($!)
qemu-nbd -t -e 16 -k "$dir/to" -f raw "$dir/target" 2>/dev/null & servers+=($!)
"$program" serve "nbd+unix:///x?socket=$dir/seed" --size 65536 --sessions 1000000 >/dev/null 2>&1 & servers+=($!)
for name in data from to seed; do awaited "$dir/$name"; done
python3 -B checks/refused.py "$program" "$dir/refuse.so" "${REFUSED_STEP:-7}" "$dir"
