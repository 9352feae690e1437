# nbdinfo lists exports and maps them as libnbd's nbdinfo does: each line that both have, as text and as JSON, over nbdkit, qemu-nbd and nbd-server.
. checks/need.sh
need nbdkit nbdkit
need libnbd-bin nbdinfo
need qemu-utils qemu-nbd
need nbd-server nbd-server
need python3 python3

program=$(tools/built lnbd) || exit 1
dir=$(mktemp -d)
servers=()
trap 'kill "${servers[@]}" 2>/dev/null; rm -rf "$dir"' EXIT

# What both tools say in one form: no line that only one of them has, sizes in bytes alone, and descriptions without quotes.
lines() { sed 's/ ([0-9.]*[KMGTPE]*)$//; /^\tcontent: /d; /^\turi: /d; /^\tcontexts:$/d; /^\t\t/d; s/^\(\tdescription: \)"\(.*\)"$/\1\2/; s/\\x22/"/g' "$1"; }

# The values that both tools have, of JSON; the keys of block sizes have other names there.
values() {
  python3 -c '
import json, sys
drop = {"content", "uri", "contexts", "export-size-str", "percent"}
def kept(value):
    if isinstance(value, dict):
        return {key.replace("block_size_", "block_"): kept(one) for key, one in value.items() if key not in drop and one is not None}
    return [kept(one) for one in value] if isinstance(value, list) else value
print(json.dumps(kept(json.load(open(sys.argv[1]))), sort_keys=True))
' "$1"
}

# both WORDS URI: what each tool says, to files.
both() {
  local uri=${!#}
  timeout 60 "$program" nbdinfo "$@" >"$dir/ours" 2>"$dir/err" || wrong="$wrong${*:1:$#-1}: status $?: $(cat "$dir/err") "
  nbdinfo --no-content "$@" >"$dir/theirs" 2>/dev/null || nbdinfo "$@" >"$dir/theirs" 2>/dev/null
}

# The extents of both, of text: libnbd's tool may tell neighbours of one kind apart, and writes totals in another form of percent.
extents() { awk '{ if (NR > 1 && $3 == flags) length_ += $2; else { if (NR > 1) print offset, length_, flags, words; offset = $1; length_ = $2 }; flags = $3; words = $4 } END { if (NR) print offset, length_, flags, words }' "$1"; }
sums() { awk '{ print $1, $3, $4 }' "$1" | sort; }

# The same of JSON.
objects() {
  python3 -c '
import json, sys
kept = []
for one in json.load(open(sys.argv[1])):
    one.pop("percent", None)
    if kept and "offset" in one and kept[-1]["type"] == one["type"]:
        kept[-1]["length"] += one["length"]
    else:
        kept.append(one)
print(json.dumps(sorted(kept, key=lambda one: (one.get("offset", 0), one["type"])), sort_keys=True))
' "$1"
}

alike() { diff <("$1" "$dir/ours") <("$1" "$dir/theirs") >"$dir/diff" || wrong="$wrong$2: $(head -5 "$dir/diff")"; }

# listed NAME SOCKET: the exports of this server.
listed() {
  local uri="nbd+unix:///?socket=$2" wrong=
  awaited "$2"
  both --list "$uri"
  alike lines --list
  both --list --json "$uri"
  alike values '--list --json'
  if [ -z "$wrong" ]; then echo "ok: lists as libnbd's, of $1"; else echo "failed: lists of $1: $wrong"; fi
}

# mapped NAME URI: the map of this export and its totals.
mapped() {
  local uri=$2 wrong=
  both --map "$uri"
  alike extents --map
  both --map --json "$uri"
  alike objects '--map --json'
  both --map --totals "$uri"
  alike sums '--map --totals'
  both --map --totals --json "$uri"
  alike objects '--map --totals --json'
  if [ -z "$wrong" ]; then echo "ok: maps as libnbd's, of $1"; else echo "failed: maps of $1: $wrong"; fi
}

# unmapped NAME WORD CONTEXT URI: the server does not agree to this context.
unmapped() {
  local code
  timeout 60 "$program" nbdinfo "$2" "$4" >"$dir/out" 2>"$dir/err"
  code=$?
  if [ "$code" -eq 6 ] && [ "$(cat "$dir/err")" = "lnbd: rule no-context $3" ] && [ ! -s "$dir/out" ]; then
    echo "ok: a context that $1 does not agree to"
  else
    echo "failed: a context that $1 does not agree to: status $code, '$(cat "$dir/out" "$dir/err")'"
  fi
}

# kit NAME WORDS ..: the list and the map of a server of nbdkit.
kit() {
  local name=$1 socket=$dir/s${#servers[@]}
  shift
  nbdkit -f -U "$socket" "$@" 2>/dev/null &
  servers+=($!)
  listed "$name" "$socket"
  mapped "$name" "nbd+unix:///?socket=$socket"
}

kit 'nbdkit memory' memory 16M
kit 'nbdkit with data and holes' data '1*65536 @3145728 2*4096 @16777216 3'
kit 'a size that no block divides' data '1*70001' size=70001
kit 'an export without bytes' null 0
kit 'told sizes of blocks' --filter=blocksize-policy memory 1M blocksize-minimum=512 blocksize-preferred=4096 blocksize-maximum=65536
kit 'a sparse export of 1 TiB' memory 1T

mkdir "$dir/exports"
truncate -s 1M "$dir/exports/one" && truncate -s 2M "$dir/exports/two words"
nbdkit -f -U "$dir/files" file dir="$dir/exports" 2>/dev/null &
servers+=($!)
listed 'files of a folder of nbdkit' "$dir/files"

qemu-img create -q -f qcow2 "$dir/disk.qcow2" 8M
qemu-io -f qcow2 -c 'write 1M 64k' -c 'write -z 4M 1M' "$dir/disk.qcow2" >/dev/null
qemu-nbd -t -x disk -k "$dir/q1" -f qcow2 -D 'a "raw" disk' "$dir/disk.qcow2" 2>/dev/null &
servers+=($!)
listed 'a described disk of qemu-nbd' "$dir/q1"
mapped 'a disk of qemu-nbd with data, holes and zeroes' "nbd+unix:///disk?socket=$dir/q1"
unmapped qemu-nbd --map=none:such none:such "nbd+unix:///disk?socket=$dir/q1"

# (nbd-server answers a list only where it is allowed)
printf '[generic]\nunixsock = %s\nallowlist = true\n[first]\nexportname = %s\n[second]\nexportname = %s\nreadonly = true\n' \
  "$dir/n1" "$dir/exports/one" "$dir/exports/two words" >"$dir/config"
nbd-server -C "$dir/config" -d 2>/dev/null >/dev/null &
servers+=($!)
listed 'two exports of nbd-server' "$dir/n1"
# (it knows no meta contexts)
unmapped nbd-server --map base:allocation "nbd+unix:///first?socket=$dir/n1"
