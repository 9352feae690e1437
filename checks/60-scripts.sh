# One script over two real servers: what is written on one handle is read back there and not on the other, of which
# one connects by an address that names its export; in opt mode the exports
# of a server are listed and asked for; structured replies, extended headers and contexts are asked for and told.
# (A server may answer in any order: a write is over before its bytes are zeroed.)
. checks/need.sh
need nbdkit nbdkit
need qemu-utils qemu-nbd

program=$(tools/built lnbd) || exit 1
dir=$(mktemp -d)
servers=()
trap 'kill "${servers[@]}" 2>/dev/null; rm -rf "$dir"' EXIT

nbdkit -f -U "$dir/kit" memory 1M 2>/dev/null &
servers+=($!)
qemu-img create -q -f qcow2 "$dir/disk.qcow2" 1M
qemu-nbd -t -k "$dir/qemu" -f qcow2 -x disk -D 'a disk' "$dir/disk.qcow2" 2>/dev/null &
servers+=($!)
for socket in kit qemu; do
  awaited "$dir/$socket"
done

# plays NAME: the script on standard input prints what stands behind its line '===', with status 0.
plays() {
  sed "s|DIR|$dir|" >"$dir/both"
  sed '/^===$/,$d' "$dir/both" >"$dir/script"
  sed '1,/^===$/d' "$dir/both" >"$dir/wanted"
  timeout 60 "$program" nbdcalls <"$dir/script" >"$dir/out" 2>"$dir/err"
  code=$?
  if [ "$code" -eq 0 ] && [ ! -s "$dir/err" ] && cmp -s "$dir/out" "$dir/wanted"; then
    echo "ok: a script of $1"
  else
    echo "failed: a script of $1 ended with $code: $(cat "$dir/err") $(diff "$dir/out" "$dir/wanted")"
  fi
}

plays 'two handles on two servers' <<'SCRIPT'
connect unix DIR/kit
handle 1
structured on
connect nbd+unix:///disk?socket=DIR/qemu
settle
state
pwrite fill:11:65536 0
handle 0
pwrite fill:22:65536 0
settle
zero 512 512
trim 512 1024
flush
settle
pread 2048 0
handle 1
pread 2048 0
settle
done 2
handle 0
done 5
disconnect
handle 1
disconnect
settle
===
connected
ok
ok
connected
settled
ready
cookie 1
ok
cookie 1
settled
cookie 2
cookie 3
cookie 4
settled
cookie 5
ok
cookie 2
settled
done 2048 11*2048
ok
done 2048 22*512 00*1024 22*512
ok
ok
ok
settled
opened 7 freed 7
SCRIPT

plays 'opt mode' <<'SCRIPT'
optmode on
structured on
context base:allocation
connect unix DIR/qemu
settle
state
opt-list
settle
listing
export disk
opt-meta
settle
answer
opt-info
settle
info
opt-go
settle
state
disconnect
settle
===
ok
ok
ok
connected
settled
opt-mode
ok
settled
export "disk" "a disk"
end
ok
ok
settled
ok
ok
settled
info 1048576 3309 1 4096 33554432 true
context 0 base:allocation
end
ok
settled
ready
ok
settled
opened 0 freed 0
SCRIPT
