# The module lnbd of python/: pip installs it without a network, an export is backed up by examples/python/backup.py into a sparse file that equals it, what is written is
# read back, and what fails raises the exception of its code.
. checks/need.sh
need python3 python3
need python3-venv python3
need nbdkit nbdkit
need qemu-utils qemu-nbd

dir=$(mktemp -d)
servers=()
trap 'kill "${servers[@]}" 2>/dev/null; rm -rf "$dir"' EXIT
if ! tools/library ${PROVE:+--prove} "$dir/lib" >/dev/null 2>&1; then
  echo 'skipped: the library for C is not built of these sources'
  exit 0
fi
python3 -m venv "$dir/venv" >/dev/null 2>&1 || { echo 'skipped: python3 has no venv here'; exit 0; }
# (what pip leaves in its folder is not to stand in the repository)
cp -r python "$dir/python" && cp VERSION "$dir/python/"
if (cd "$dir/python" && unshare -rn "$dir/venv/bin/pip" install --no-cache-dir . || "$dir/venv/bin/pip" install --no-cache-dir --no-index .) >"$dir/said" 2>&1; then
  echo 'ok: pip installs the module without a network'
else
  echo "failed: pip: $(tail -n 3 "$dir/said")"
fi
export LNBD_LIBRARY=$dir/lib/liblnbd.so.0
python=$dir/venv/bin/python

serve() {
  local socket=$dir/$1
  shift
  "$@" >/dev/null 2>&1 &
  servers+=($!)
  awaited "$socket"
}
dd if=/dev/urandom of="$dir/file" bs=65536 count=40 2>/dev/null
truncate -s 300M "$dir/file"
dd if=/dev/urandom of="$dir/file" bs=65536 seek=3000 count=3 conv=notrunc 2>/dev/null
serve qemu qemu-nbd -r -f raw -k "$dir/qemu" -t "$dir/file"
serve memory nbdkit -f -U "$dir/memory" memory 1M
serve fails nbdkit -f -U "$dir/fails" --filter=error memory 1M error-pread=EIO error-pread-rate=100%

if said=$(timeout 120 "$python" examples/python/backup.py "$dir/qemu" "$dir/copy" 2>&1) && cmp -s "$dir/file" "$dir/copy" && [ "$(stat -c %b "$dir/copy")" -lt 16384 ]; then
  echo "ok: a backup of a file of qemu-nbd equals it and is sparse: $said"
else
  echo "failed: the backup: $(echo "$said" | tail -n 3)"
fi

cat >"$dir/calls.py" <<'PY'
import sys
import lnbd

folder = sys.argv[1]

def told(name, well):
    print(f'ok: {name}' if well else f'failed: {name}')

def raises(kind, call):
    try:
        call()
    except kind:
        return True
    except Exception as other:
        print(repr(other), file=sys.stderr)
    return False

with lnbd.Handle() as h:
    told('before the start a read is refused', raises(lnbd.BadState, lambda: h.pread(1, 0)))
    told('a name of 4,097 bytes is refused', raises(lnbd.BadRequest, lambda: h.set_export_name('a' * 4097)))
    h.set_request_structured_replies(True)
    h.add_meta_context('base:allocation')
    h.connect_unix(folder + '/memory')
    told('the size is told', h.size == 1 << 20)
    h.pwrite(b'lnbd' * 1024, 65536)
    h.flush()
    told('what was written is read back', h.pread(4096, 65536) == b'lnbd' * 1024 and h.pread(4096, 0) == bytes(4096))
    told('the allocation has it', sum(e.length for _, e in h.allocation() if not e.flags & lnbd.ZERO) >= 4096)
    h.zero(4096, 65536)
    told('what was zeroed reads as zeroes', h.pread(4096, 65536) == bytes(4096))
    told('a read past the end is refused', raises(lnbd.BadRequest, lambda: h.pread(4096, h.size)))
    told('a count of 2^63 is refused', raises(lnbd.BadRequest, lambda: h.pread(1 << 63, 0)))
    told('and one of 2^64', raises(lnbd.BadRequest, lambda: h.trim(1 << 64, 0)))
    told('and flags of 2^32', raises(lnbd.BadRequest, lambda: h.pread(1, 0, 1 << 32)))
    told('a cookie that is not there is told', raises(lnbd.NoCookie, lambda: h.command_completed(10_000)))
    cookie = h.aio_pread_structured(131072, 0)
    told('a structured read has its bytes', len(h.wait(cookie)) == 131072)
    told('and its pieces', sum(it.length for it in h.chunks() if it.cookie == cookie) == 131072)
    h.close()
    told('a closed handle is told', raises(lnbd.Error, lambda: h.state))
with lnbd.Handle() as h:
    h.connect_unix(folder + '/fails')
    told('a read that the server fails raises its error', raises(lnbd.CommandError, lambda: h.pread(512, 0)))
h = lnbd.Handle()
h.connect_unix(folder + '/memory')
cookies = [h.aio_pread(4096, 0) for _ in range(8)]
h.close()
told('a handle is closed with commands in flight', True)
PY
timeout 120 "$python" "$dir/calls.py" "$dir" || echo 'failed: the calls in Python did not end'
