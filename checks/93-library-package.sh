# The packages of the library for C, made of a dist/ that has it: in a root of its own (this system with a layer above it, which is dropped in the end) they are installed by
# dpkg -i, the words of `cc read.c $(pkg-config --cflags --libs lnbd)` build the example, which runs, and Python finds its module.
. checks/need.sh
need dpkg dpkg-deb
need lowdown lowdown
need gcc gcc
need pkg-config pkg-config

dir=$(mktemp -d)
trap 'rm -rf "$dir"' EXIT
tools/start --of-dist >/dev/null 2>&1 || { echo 'skipped: dist/lnbd is not of these sources, so there is nothing to pack'; exit 0; }
mkdir "$dir/top"
tar -cf - --anchored --no-wildcards-match-slash --exclude='./crates/*/out' --exclude=./.git --exclude=./bin --exclude=./out . | tar -xf - -C "$dir/top"
if [ ! -f "$dir/top/dist/liblnbd.so.0" ]; then
  tools/library ${PROVE:+--prove} "$dir/top/dist" >/dev/null 2>&1 || { echo 'skipped: the library for C is not built of these sources'; exit 0; }
  rm "$dir/top/dist/liblnbd.so" "$dir/top/dist/lnbd.pc"
fi

# ok NAME COMMAND ..: where the command ends well.
ok() {
  local name=$1
  shift
  if "$@" >"$dir/said" 2>&1; then echo "ok: $name"; else echo "failed: $name: $(head -c 600 "$dir/said")"; fi
}
version=$(cat VERSION)
ok 'the packages are made' "$dir/top/tools/package" "$dir/made"
for name in lnbd_${version}_amd64 liblnbd0_${version}_amd64 liblnbd-dev_${version}_amd64 python3-lnbd_${version}_all; do
  ok "$name.deb is there" test -f "$dir/made/$name.deb"
done
ok 'the program has no file of the library in its package' sh -c '! dpkg-deb -c "$1" | grep -E "liblnbd|lnbd\.h"' sh "$dir/made/lnbd_${version}_amd64.deb"
mkdir "$dir/tar" && tar -xzf "$dir/made/lnbd-$version-x86_64-linux.tar.gz" -C "$dir/tar"
tree=$dir/tar/lnbd-$version
ok 'in the tar file pkg-config finds it' sh -c 'PKG_CONFIG_PATH=$1/lib/pkgconfig gcc -o $2/read examples/c/read.c $(PKG_CONFIG_PATH=$1/lib/pkgconfig pkg-config --cflags --libs lnbd)' sh "$tree" "$dir"

if [ "$(id -u)" -ne 0 ] || ! unshare -m true 2>/dev/null; then
  echo 'skipped: the packages are installed by root, in a mount namespace'
  exit 0
fi
cat >"$dir/inside" <<'EOF'
export PATH=/usr/sbin:/usr/bin:/sbin:/bin
dpkg -i /made/liblnbd0_*.deb /made/liblnbd-dev_*.deb || exit 1
cd /usr/share/doc/lnbd/examples/c 2>/dev/null || cd /examples
gcc read.c $(pkg-config --cflags --libs lnbd) -o /read || exit 2
echo "runs $(/read 2>&1)"
if dpkg -s python3 >/dev/null 2>&1; then
  dpkg -i /made/python3-lnbd_*.deb || exit 1
  echo "python $(/usr/bin/python3 -c 'import lnbd; print(lnbd.Handle().state)' 2>&1)"
  dpkg -r python3-lnbd || exit 3
else
  echo 'python not found'
fi
dpkg -r liblnbd-dev liblnbd0 || exit 3
EOF
unshare -m sh -c '
  mount --make-rprivate / && mkdir -p "$1/layer" && mount -t tmpfs none "$1/layer" && mkdir "$1/layer/up" "$1/layer/work" "$1/layer/root" &&
    mount -t overlay overlay -o "lowerdir=/,upperdir=$1/layer/up,workdir=$1/layer/work" "$1/layer/root" &&
    mount -t proc proc "$1/layer/root/proc" 2>/dev/null
  [ -d "$1/layer/root/usr" ] || exit 9
  mount --bind /dev "$1/layer/root/dev"
  cp -r "$1/made" "$1/layer/root/made" && cp -r "$1/top/examples/c" "$1/layer/root/examples" && cp "$1/inside" "$1/layer/root/inside" && chroot "$1/layer/root" sh /inside' sh "$dir" >"$dir/told" 2>&1
code=$?
if [ "$code" -eq 9 ]; then
  echo 'skipped: a layer above this system can not be mounted here'
  exit 0
fi
ok 'dpkg -i installs them, and dpkg -r removes them' test "$code" -eq 0
told() { if grep -qxF -- "$2" "$dir/told"; then echo "ok: $1"; else echo "failed: $1: '$(tail -n 12 "$dir/told" | tr '\n' '|')'"; fi; }
told 'the example is built by the words of its page, and runs' 'runs usage: read SOCKET [buffers] [sum]'
if grep -qx 'python not found' "$dir/told"; then
  echo 'skipped: this system has no package python3'
else
  told 'Python finds its module' 'python 0'
fi
