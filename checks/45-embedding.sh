# The example of docs/EMBEDDING.md, a handle in an event loop of one's own, reads whole exports: as many bytes as they have, with
# the sum that their contents have, and each callback freed. A read that the server answers by an error is counted.
. checks/need.sh
need nbdkit nbdkit

built example_embedding
example=$program

dir=$(mktemp -d)
servers=()
trap 'kill "${servers[@]}" 2>/dev/null; rm -rf "$dir"' EXIT

# check NAME STATUS TEXT SERVER WORDS ..: over this server the example ends so and prints so.
check() {
  name=$1 status=$2 text=$3
  shift 3
  rm -f "$dir/socket"
  nbdkit -f -U "$dir/socket" "$@" 2>/dev/null &
  servers+=($!)
  awaited "$dir/socket"
  out=$(timeout 60 "$example" "$dir/socket" 2>&1)
  code=$?
  if [ "$code" -eq "$status" ] && [ "$out" = "$text" ]; then
    echo "ok: the example of an event loop over $name"
  else
    echo "failed: over $name the example ended with $code and wrote '$out'"
  fi
}

# (nbdkit-pattern-plugin: at each multiple of 8 stand its 8 bytes, the highest first)
sum=$(python3 -c 'print(sum(sum(at.to_bytes(8, "big")) for at in range(0, 5_000_000, 8)))')
check '5 MB of a pattern' 0 "5000000 bytes, sum $sum, 0 failed, 77 of 77 callbacks freed" pattern 5000000
check 'an export without bytes' 0 '0 bytes, sum 0, 0 failed, 0 of 0 callbacks freed' null 0
check 'reads that fail' 4 '0 bytes, sum 0, 2 failed, 2 of 2 callbacks freed' --filter=error null 131072 error-pread-rate=100%
