# nbdcopy where a side is a file that can't be copied, or one of an unusual size: what is missing, folders, pipes, devices, what isn't permitted, what can't be written, links
# that lead nowhere, full disks on either side, a file that is larger than the export, and the file of the export itself. Where it ends with 11 before it wrote, all is as it was.
. checks/servers.sh
longest=60
small=$dir/small sealed=$dir/sealed loop=
trap 'stop "${!servers[@]}"; umount "$small" "$sealed" 2>/dev/null; [ -z "$loop" ] || losetup -d "$loop"; rm -rf "$dir"' EXIT
case $program in /*) ;; *) program=$PWD/$program ;; esac

size=1048576
head -c $size /dev/urandom >"$dir/disk"
head -c $((size + 4096)) /dev/urandom >"$dir/longer"
cp "$dir/longer" "$dir/kept"
cp "$dir/disk" "$dir/held"
# (one thread: a client that leaves while several threads of nbdkit 1.32 answer it ends that nbdkit by an assertion of its own)
begin export nbdkit -f -t 1 -U "$dir/export" file "$dir/held" && export=$address
nowhere="nbd+unix:///?socket=$dir/none"

# refused NAME FROM TO: the copy ends with 11, and neither the export nor the files are any different.
untouched() { ended 11 'lnbd: store fault' && same "$dir/disk" "$dir/held" && same "$dir/kept" "$dir/longer"; }
refused() {
  copy "$2" "$3"
  held "$1" untouched
}

# What can't be read: no export is asked for anything, so that it does not matter that this one is not there. What can't be written.
mkdir "$dir/folder"
mkfifo "$dir/pipe"
ln -s "$dir/missing" "$dir/dangling"
ln -s "$dir/circle" "$dir/circle"
: >"$dir/plain"
python3 -c 'import socket, sys; socket.socket(socket.AF_UNIX).bind(sys.argv[1])' "$dir/socket"
while read -r path name; do
  refused "from $name to an export" "$dir/$path" "$export"
  refused "from $name to an export that is not there" "$dir/$path" "$nowhere"
  refused "from $name to a file" "$dir/$path" "$dir/longer"
  case $path in missing | dangling) continue ;; esac
  refused "to $name, of an export" "$export" "$dir/$path"
  refused "to $name, of a file" "$dir/longer" "$dir/$path"
done <<'PATHS'
missing what is not there
dangling a link to what is not there
circle a link to itself
folder a folder
folder/ a folder with a slash
folder/missing/file a place in no folder
plain/file a place below a file
pipe a pipe
socket a socket
PATHS
[ -z "$(ls -A "$dir/folder")" ] && [ ! -e "$dir/missing" ] && echo 'ok: none of them made a file' || echo 'failed: a file was made'
refused 'from the null device' /dev/null "$export"
refused 'from the zeros' /dev/zero "$export"
refused 'to the null device' "$export" /dev/null
copy "$export" "$dir/dangling"
held 'to a link to what is not there, which is then made' eval "ended 0 '' && same '$dir/disk' '$dir/missing'"
copy -- "$export"
held 'with one word' ended 1 'lnbd: usage'
copy "$export" "$(printf '%4097s' x)"
held 'to a path of 4,097 bytes' ended 1 'lnbd: usage'
copy "$export" "$dir/$(printf '%0300d' 0)"
held 'to a name that is longer than the system has them' ended 11 'lnbd: store fault'

# What isn't permitted: root may all, so it is nobody who copies.
if [ "$(id -u)" -eq 0 ] && command -v setpriv >/dev/null && cp "$program" "$dir/lnbd"; then
  cat >"$dir/nobody" <<SH
#!/bin/sh
exec setpriv --reuid=65534 --regid=65534 --clear-groups "$dir/lnbd" "\$@"
SH
  chmod 755 "$dir/nobody" "$dir/lnbd"
  chmod 711 "$dir"
  chmod 777 "$dir/export"
  mkdir -m 755 "$dir/foreign" && mkdir -m 777 "$dir/open"
  own=$program program=$dir/nobody
  chmod 600 "$dir/longer"
  refused 'from a file that may not be read, to an export' "$dir/longer" "$export"
  refused 'from a file that may not be read, to a file' "$dir/longer" "$dir/open/new"
  [ -e "$dir/open/new" ] && echo 'failed: its destination was made' || echo 'ok: its destination was not made'
  chmod 444 "$dir/longer"
  refused 'to a file that may only be read, of an export' "$export" "$dir/longer"
  refused 'to a file that may only be read, of a file' "$dir/disk" "$dir/longer"
  refused 'to a folder in which nothing may be made' "$export" "$dir/foreign/new"
  copy "$export" "$dir/open/new"
  held 'to a folder in which all may be made' eval "ended 0 '' && same '$dir/disk' '$dir/open/new'"
  program=$own
  chmod 644 "$dir/longer"
else
  echo 'skipped: nobody else can be here'
fi

# A file system that can only be read.
mkdir "$sealed"
if mount -t tmpfs -o size=4m tmpfs "$sealed" 2>/dev/null && cp "$dir/longer" "$dir/disk" "$sealed" && mount -o remount,ro "$sealed" 2>/dev/null; then
  sealed_untouched() { untouched && same "$dir/kept" "$sealed/longer"; }
  for path in longer new; do
    copy "$export" "$sealed/$path"
    held "to a file system that can only be read, $path, of an export" sealed_untouched
    copy "$dir/disk" "$sealed/$path"
    held "to a file system that can only be read, $path, of a file" sealed_untouched
  done
  head -c $size /dev/zero >"$dir/held"
  copy "$sealed/disk" "$export"
  held 'from a file system that can only be read' eval "ended 0 '' && same '$dir/disk' '$dir/held'"
else
  echo 'skipped: no file system can be mounted here to be read alone'
fi

# Disks that become full: that of the file, and that of the server's.
mkdir "$small"
if mount -t tmpfs -o size=512k tmpfs "$small" 2>/dev/null; then
  copy "$export" "$small/file"
  held 'to a disk that becomes full, of an export' ended 11 'lnbd: store fault'
  copy "$dir/disk" "$small/file"
  held 'to a disk that becomes full, of a file' ended 11 'lnbd: store fault'
  rm "$small/file"
  # (a file of zeros takes no room, and each of its blocks that is written some)
  truncate -s $size "$small/disk"
  start full nbdkit-file $size "$small/disk"
  copy "$dir/disk" "$address"
  held 'to a server whose disk becomes full, of a file' ended 3 'lnbd: peer error command 28'
  stop "$server"
else
  echo 'skipped: no small file system can be mounted here'
fi

# Sizes there and back, and a file that is larger than the export by a byte.
for bytes in 0 1 511 512 4097 262145; do
  head -c $bytes "$dir/disk" >"$dir/some"
  truncate -s $bytes "$dir/sized.disk"
  start sized nbdkit-file $bytes "$dir/sized.disk"
  copy "$dir/some" "$address"
  held "of $bytes bytes to an export of as many" eval "ended 0 '' && same '$dir/some' '$dir/sized.disk'"
  copy "$address" "$dir/longer"
  held "of $bytes bytes, over a longer file" eval "ended 0 '' && same '$dir/some' '$dir/longer'"
  cp "$dir/sized.disk" "$dir/before"
  { cat "$dir/some"; printf x; } >"$dir/more"
  copy "$dir/more" "$address"
  held "of $((bytes + 1)) bytes to an export of $bytes" eval "ended 6 'lnbd: rule smaller $((bytes + 1)) $bytes' && same '$dir/before' '$dir/sized.disk'"
  stop "$server"
done

# A block device is no file here, and is copied by a server of it.
truncate -s 4194304 "$dir/medium"
if [ "$(id -u)" -eq 0 ] && command -v losetup >/dev/null && loop=$(losetup -f --show "$dir/medium" 2>/dev/null); then
  cp "$dir/disk" "$dir/held" && cp "$dir/kept" "$dir/longer"
  dd if="$dir/disk" of="$loop" bs=1M oflag=direct conv=notrunc status=none
  refused 'from a block device' "$loop" "$export"
  refused 'from a block device to a file' "$loop" "$dir/longer"
  refused 'to a block device' "$export" "$loop"
  refused 'to a block device, of a file' "$dir/longer" "$loop"
  cmp -s -n $size "$dir/disk" "$loop" && echo 'ok: it holds what it held' || echo 'failed: the device was written'
  begin device nbdkit -f -U "$dir/device" file "$loop"
  copy "$address" "$dir/saved" --flush
  held 'from a server of a block device to a file' eval "ended 0 '' && same '$loop' '$dir/saved'"
  head -c 4194304 /dev/urandom >"$dir/saved"
  copy "$dir/saved" "$address" --flush
  held 'from a file to a server of a block device' eval "ended 0 '' && same '$dir/saved' '$loop'"
  stop "$server"
else
  loop=
  echo 'skipped: no block device of a file can be had here'
fi

# The file of the export itself, which the program can't see. Over it the export's file is cut before it is read: that ends too. From it all stays as it is.
cp "$dir/disk" "$dir/own"
begin served nbdkit -f -t 1 -U "$dir/served" file "$dir/own" && own=$address
copy "$dir/own" "$own"
held 'from the file that an export serves to it leaves it as it is' eval "ended 0 '' && same '$dir/disk' '$dir/own'"
copy "$own" "$dir/own"
held 'from an export to the file that it serves ends, and the file has its length' eval "[ $code -ne 124 ] && [ $(stat -c %s "$dir/own") -eq $size ]"
