# Each block of commands of docs/recipes.md, played in order in a folder of this check, prints what stands below it. The device of the page is a loop
# device where one can be had, else a file; `far` is this machine, by a server of ssh of this check's own.
. checks/need.sh
need nbdkit nbdkit
need qemu-utils qemu-nbd
need python3 python3

program=$(tools/built lnbd) || exit 1
program=$(readlink -f "$program")
dir=$(mktemp -d)
device=
trap 'kill $(cat "$dir"/recipes/*.pid "$dir/sshd.pid" 2>/dev/null) 2>/dev/null; kill $(jobs -p) 2>/dev/null; [ -n "$device" ] && losetup -d "$device" 2>/dev/null; rm -rf "$dir"' EXIT

mkdir "$dir/bin" && ln -s "$program" "$dir/bin/lnbd"
export PATH=$dir/bin:$PATH

# Each block is N.sh or N.ssh, and the block of text behind it N.text.
awk -v dir="$dir" '
  /^```s?sh$/ { file = dir "/" sprintf("%02d", ++n) "." substr($0, 4); next }
  /^```text$/ { file = dir "/" sprintf("%02d", n) ".text"; next }
  /^```$/ { file = ""; next }
  file { print > file }' docs/recipes.md

# far SSHD: a server of ssh for this user, by a key of this check's own, and the host of the page.
far() {
  ssh-keygen -q -t ed25519 -N '' -f "$dir/key" && ssh-keygen -q -t ed25519 -N '' -f "$dir/host" && cp "$dir/key.pub" "$dir/keys" && chmod 600 "$dir/keys" || return 1
  local port=$((20000 + RANDOM % 20000))
  [ "$(id -u)" -eq 0 ] && mkdir -p /run/sshd
  printf 'Port %s\nListenAddress 127.0.0.1\nHostKey %s\nAuthorizedKeysFile %s\nPidFile %s\nStrictModes no\nUsePAM no\nPermitRootLogin yes\n' \
    "$port" "$dir/host" "$dir/keys" "$dir/sshd.pid" >"$dir/sshd.conf"
  "$1" -f "$dir/sshd.conf" -E "$dir/sshd.log" || return 1
  printf 'Host far\n  HostName 127.0.0.1\n  Port %s\n  User %s\n  IdentityFile %s\n  StrictHostKeyChecking no\n  UserKnownHostsFile /dev/null\n  LogLevel ERROR\n' \
    "$port" "$(id -un)" "$dir/key" >"$dir/ssh.conf"
}

for commands in $(ls -d "$dir"/[0-9]*.sh "$dir"/[0-9]*.ssh | sort); do
  number=$(basename "${commands%.*}")
  told=${commands%.*}.text
  touch "$told"
  case $commands in
    *.ssh)
      server=$(command -v sshd || ls /usr/sbin/sshd 2>/dev/null)
      if [ -z "$server" ] && [ "$(id -u)" -eq 0 ] && command -v apt-get >/dev/null; then
        # (it is not to listen by itself)
        RUNLEVEL=1 timeout 300 env DEBIAN_FRONTEND=noninteractive apt-get install -y --no-install-recommends openssh-server openssh-client >/dev/null 2>&1
        server=$(command -v sshd || ls /usr/sbin/sshd 2>/dev/null)
      fi
      if [ -z "$server" ] || ! command -v ssh >/dev/null || ! far "$server"; then
        echo "skipped: block $number of the recipes needs a server of ssh"
        continue
      fi
      ;;
  esac
  if grep -q '/dev/sdb' "$commands"; then
    device=$(losetup -f --show -r "$dir/recipes/from.img" 2>/dev/null)
  fi
  {
    echo "ssh() { command ssh -F '$dir/ssh.conf' \"\$@\"; }"
    sed "s|/tmp/recipes|$dir/recipes|g; s|/dev/sdb|${device:-$dir/recipes/from.img}|g" "$commands"
  } >"$dir/commands"
  timeout 200 bash "$dir/commands" >"$dir/out" 2>&1
  if cmp -s "$dir/out" "$told"; then
    echo "ok: block $number of the recipes"
  else
    echo "failed: block $number of the recipes: $(diff "$dir/out" "$told" | head -n 12)"
  fi
done

# The example of the README and of the page of serve that hung: a copier with four connections against one session waits, and -C 1 does not.
lnbd serve "nbd+unix:///?socket=$dir/one" --size 65536 >/dev/null 2>&1 &
server=$!
awaited "$dir/one"
truncate -s 65536 "$dir/to"
export from="nbd+unix:///?socket=$dir/one"
if timeout 20 nbdkit -U - file "$dir/to" --run 'lnbd nbdcopy -C 1 "$from" "$uri"' && wait "$server"; then echo 'ok: one session is enough for -C 1'; else echo 'failed: one session and -C 1'; fi
