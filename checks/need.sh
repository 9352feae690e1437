# Sourced by the checks. `need PACKAGE COMMAND` sees that COMMAND is there, by Debian's PACKAGE where it must;
# where it can't be had it prints a line 'skipped: ..' and ends the check with status 0.
need() {
  command -v "$2" >/dev/null 2>&1 && return 0
  if [ "$(id -u)" -eq 0 ] && command -v apt-get >/dev/null 2>&1; then
    timeout 300 env DEBIAN_FRONTEND=noninteractive apt-get install -y "$1" >/dev/null 2>&1 ||
      { timeout 120 apt-get update >/dev/null 2>&1 && timeout 300 env DEBIAN_FRONTEND=noninteractive apt-get install -y "$1" >/dev/null 2>&1; }
  fi
  command -v "$2" >/dev/null 2>&1 && return 0
  printf 'skipped: %s needs %s of the package %s, which is not to be had here\n' "$0" "$2" "$1"
  exit 0
}

# `awaited SOCKET` waits until somebody listens at this Unix socket, ten seconds at most.
awaited() {
  for _ in $(seq 500); do
    [ -S "$1" ] && grep -q " 00010000 .* $1\$" /proc/net/unix && return 0
    sleep 0.02
  done
  return 1
}

# `built NAME` sets `program` to the path of this program where it was built of what stands here, as the gate does; else it prints a line 'skipped: ..' and
# ends the check: whoever checks without a prover has lnbd alone. Where PROVE is set, it is proved and built.
built() {
  local name=$1
  for program in "bin/$name" "crates/$name/out/$name"; do
    [ -x "$program" ] && [ -z "$(find crates.txt crates/*/src crates/*/specs crates/*/proofs -newer "$program" -print -quit)" ] && return 0
  done
  if [ -n "$PROVE" ]; then
    program=$(tools/built "$name") && return 0
  fi
  printf 'skipped: %s needs the program %s, which the gate builds\n' "$0" "$name"
  exit 0
}
