# The package: two in two folders have the same bytes, and so have two tar files; it is installed by dpkg -i in a root of its own (this system with a
# layer above it, which is dropped in the end), runs a selftest there, prints its pages and version, and is removed without a rest.
. checks/need.sh
need lowdown lowdown
need dpkg dpkg-deb

tools/start --of-dist >/dev/null 2>&1 || { echo 'skipped: dist/lnbd is not of these sources, so there is nothing to pack'; exit 0; }
dir=$(mktemp -d)
trap 'rm -rf "$dir"' EXIT
version=$(cat VERSION)

# ok NAME COMMAND ..: where the command ends well.
ok() {
  local name=$1
  shift
  if "$@" >"$dir/said" 2>&1; then echo "ok: $name"; else echo "failed: $name: $(head -c 600 "$dir/said")"; fi
}

# A second clone, in another place, with other times, another umask and another day.
mkdir -p "$dir/elsewhere"
tar -cf - --no-wildcards-match-slash --anchored --exclude='./crates/*/out' --exclude=./.git --exclude=./bin --exclude=./out . | tar -xmf - -C "$dir/elsewhere"
ok 'a package and a tar file are made' tools/package "$dir/one"
(umask 077 && cd / && TZ=Asia/Tokyo LANG=de_DE.UTF-8 "$dir/elsewhere/tools/package" "$dir/two" >/dev/null 2>&1)
deb=lnbd_${version}_amd64.deb tar=lnbd-$version-x86_64-linux.tar.gz
ok 'made in another folder the package has the same bytes' cmp "$dir/one/$deb" "$dir/two/$deb"
ok 'and the tar file too' cmp "$dir/one/$tar" "$dir/two/$tar"
ok 'its version is that of VERSION' test "$(dpkg-deb -f "$dir/one/$deb" Version)" = "$version"
ok 'CHANGELOG.md has a line for this version' grep -q "^## v$version," CHANGELOG.md

# The tar file runs where it is unpacked.
wanted='seed 0 size 65536 read 49152 written 49152 zeroed 16384 equal'
mkdir "$dir/unpacked" && tar -xzf "$dir/one/$tar" -C "$dir/unpacked"
ok 'the tar file runs where it is unpacked' test "$("$dir/unpacked/lnbd-$version/bin/lnbd" selftest 0 65536)" = "$wanted"
ln -s "$dir/unpacked/lnbd-$version/bin/lnbd" "$dir/lnbd"
ok 'by a link too' test "$("$dir/lnbd" help nbdcopy | head -n 1)" = '# nbdcopy'

if [ "$(id -u)" -ne 0 ] || ! unshare -m true 2>/dev/null; then
  echo 'skipped: the package is installed by root, in a mount namespace'
  exit 0
fi
# What is done in the namespace, in the root of its own. The kit's folder is hidden there.
cat >"$dir/inside" <<'EOF'
export PATH=/usr/sbin:/usr/bin:/sbin:/bin
dpkg -i /lnbd.deb || exit 1
echo "line $(lnbd selftest 0 65536)"
echo "version $(lnbd --version | head -n 1)"
echo "help $(lnbd help | head -n 1 | cut -c 1-5)"
echo "page $(lnbd nbdinfo -h | head -n 1)"

echo "completes $(bash -c '. /usr/share/bash-completion/completions/lnbd; COMP_WORDS=(lnbd nbdcopy --fl); COMP_CWORD=2; _lnbd; echo "${COMPREPLY[*]}"')"
# (dpkg may be set to leave manual pages and documents out)
[ -e /usr/share/man/man1/lnbd.1.gz ] && echo "manual $(man -w lnbd-nbdcopy 2>/dev/null || ls /usr/share/man/man1/lnbd-nbdcopy.1.gz)"
dpkg -r lnbd || exit 1
echo "rest $(find /usr -path '*lnbd*' ! -path '/usr/share/doc/*' ! -path '/usr/lib/python*' 2>/dev/null | grep -E '/(bin|lib|share)/(lnbd|man/man[17]/lnbd)' | wc -l)"
EOF
unshare -m sh -c '
  mount --make-rprivate / && mkdir -p "$1/layer" && mount -t tmpfs none "$1/layer" && mkdir "$1/layer/up" "$1/layer/work" "$1/layer/root" &&
    mount -t overlay overlay -o "lowerdir=/,upperdir=$1/layer/up,workdir=$1/layer/work" "$1/layer/root" &&
    mount -t proc proc "$1/layer/root/proc" 2>/dev/null
  [ -d "$1/layer/root/usr" ] || exit 9
  mount --bind /dev "$1/layer/root/dev"
  [ -d "$1/layer/root/opt" ] && mount -t tmpfs none "$1/layer/root/opt"
  cp "$2" "$1/layer/root/lnbd.deb" && cp "$1/inside" "$1/layer/root/inside" && chroot "$1/layer/root" sh /inside' sh "$dir" "$dir/one/$deb" >"$dir/told" 2>&1
code=$?
if [ "$code" -eq 9 ]; then
  echo 'skipped: a layer above this system can not be mounted here'
  exit 0
fi
ok 'dpkg -i installs it, and dpkg -r removes it' test "$code" -eq 0
# told NAME LINE: the line is among what was told inside.
told() { if grep -qxF -- "$2" "$dir/told"; then echo "ok: $1"; else echo "failed: $1: '$(tail -n 12 "$dir/told" | tr '\n' '|')'"; fi; }
told 'installed, it copies in memory' "line $wanted"
told 'tells its version' "version lnbd $version"
told 'prints the list of tools' 'help lnbd:'
told 'and a page' 'page # nbdinfo'
told 'completes an option' 'completes --flush'
told 'and leaves nothing when it is removed' 'rest 0'
