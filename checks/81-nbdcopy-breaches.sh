# lnbd nbdcopy with servers that are faulty: connections that tell another export than the first, and breaches of the protocol in the handshake and in the
# middle of a copy. Each fault ends it by the page, and nothing stands at the destination that the source hasn't answered.
. checks/servers.sh
size=1048576
head -c $size /dev/urandom >"$dir/dense"
tr '\0' '\21' </dev/zero 2>/dev/null | head -c $size >"$dir/noise"

# ends_from SETTINGS STATUS LINE: a copy from a peer with these settings, divided by spaces, ends so, and writes only what was answered.
ends_from() {
  cp "$dir/noise" "$dir/target"
  peer bad "$dir/dense" $1
  local bad=$address first=$server
  start good nbdkit-file $size "$dir/target"
  copy "$bad" "$address" --request-size 65536
  stop "$first" "$server"
  ended "$2" "$3" && only_answered "$dir/dense" "$dir/target" "$dir/bad.log"
}

# ends_to SETTINGS STATUS LINE: the same to such a peer; what stands there is of the source or as before.
ends_to() {
  cp "$dir/noise" "$dir/target"
  peer bad "$dir/target" $1
  local bad=$address first=$server
  start good nbdkit-file $size "$dir/dense"
  copy "$address" "$bad" --request-size 65536
  stop "$first" "$server"
  printf 'done READ 0 %d\n' $size >"$dir/all"
  ended "$2" "$3" && only_answered "$dir/dense" "$dir/target" "$dir/all"
}

# Without a fault.
for mode in simple structured extended; do
  whole_from() { ends_from "mode=$mode" 0 '' && same "$dir/dense" "$dir/target"; }
  held "from a server in python with $mode replies" whole_from
  whole_to() { ends_to "mode=$mode" 0 '' && same "$dir/dense" "$dir/target"; }
  held "to a server in python with $mode replies" whole_to
done

# links COUNT: a copy over so many connections to each side, which both allow several, makes exactly so many.
links() {
  cp "$dir/noise" "$dir/target"
  peer one "$dir/dense"
  local one=$address first=$server
  peer other "$dir/target"
  copy "$one" "$address" -C "$1"
  stop "$first" "$server"
  why=", connections: $(grep -c '^came LINK' "$dir/one.log") and $(grep -c '^came LINK' "$dir/other.log")"
  ended 0 '' && [ "$why" = ", connections: $1 and $1" ] && same "$dir/dense" "$dir/target"
}
held 'over one connection makes one to each side' links 1
held 'over eight connections makes eight to each side' links 8
held 'over sixteen connections makes sixteen to each side' links 16

# A further connection that tells another export than the first.
full=1:4096:33554432
differs() {
  held "from a server whose further connections tell $1 ends with its line" ends_from "$2" 4 'lnbd: peer broke Differs'
  held "to a server whose further connections tell $1 ends with its line" ends_to "$2" 4 'lnbd: peer broke Differs'
}
differs 'half the size' sizes=$size,$((size / 2))
differs 'the size 0' sizes=$size,0
differs 'half the size, from the third on' sizes=$size,$size,$((size / 2))
differs 'twice the size' sizes=$size,$((size * 2))
differs 'one flag less' flags=0x16d,0x12d
differs 'that they are read-only' flags=0x16d,0x16f
differs "that there aren't to be several" flags=0x16d,0x06d
differs 'another least block' blocks=$full,512:4096:33554432
differs 'another largest block' blocks=$full,1:4096:65536
one_alone() { ends_from "flags=0x06d" 0 '' && same "$dir/dense" "$dir/target" && [ "$(grep -c '^came LINK' "$dir/bad.log")" -eq 1 ]; }
held 'from a server that allows one connection makes no further one' one_alone

# Faults of the handshake, of each connection and of further ones alone.
while read -r fault status line; do
  for side in from to; do
    held "$side a server with the fault '$fault' in its handshake ends with its line" "ends_$side" "handshake=$fault" "$status" "lnbd: $line"
    held "$side a server with the fault '$fault' in the handshake of a further connection ends with its line" "ends_$side" "handshake=$fault since=2" "$status" "lnbd: $line"
  done
done <<'EOT'
hello 4 peer broke BadHello
oldstyle 4 peer broke OldStyle
notfixed 4 peer broke NotFixed
optionmagic 4 peer broke BadOptionMagic
option 4 peer broke WrongOption
big 4 peer broke SizeTooBig
nosize 4 peer broke NoExportInfo
leave 4 peer broke Ended
unknown 3 peer error option 7 code 6
EOT

# Faults in the middle: the fifth command of its kind has it, or the first block status.
while read -r mode fault status line; do
  side=from
  case $fault in WRITE*) side=to ;; esac
  held "$side a server with $mode replies and the fault '$fault' ends with its line" "ends_$side" "mode=$mode fault=$fault" "$status" "lnbd: $line"
done <<'EOT'
simple READ:5:magic 4 peer broke BadReplyMagic
simple READ:5:chunkmagic 4 peer broke BadReplyMagic
simple READ:5:cookie 4 peer broke UnknownCookie
simple READ:5:twice 4 peer broke UnknownCookie
simple READ:5:error5 3 peer error command 5
simple READ:5:error99 3 peer error command 22
simple READ:5:leave 4 peer broke Ended
simple WRITE:5:magic 4 peer broke BadReplyMagic
simple WRITE:5:twice 4 peer broke UnknownCookie
simple WRITE:5:error28 3 peer error command 28
structured READ:5:magic 4 peer broke BadReplyMagic
structured READ:5:extendedmagic 4 peer broke BadReplyMagic
structured READ:5:cookie 4 peer broke UnknownCookie
structured READ:5:twice 4 peer broke UnknownCookie
structured READ:5:simple 4 peer broke SimpleForRead
structured READ:5:kind 4 peer broke BadChunkType
structured READ:5:notdone 4 peer broke BadChunkType
structured READ:5:length 4 peer broke BadChunkLength
structured READ:5:outside 4 peer broke OutOfRange
structured READ:5:before 4 peer broke OutOfRange
structured READ:5:zeroerror 4 peer broke ZeroError
structured READ:5:manyerrors 4 peer broke TooManyErrors
structured READ:5:missing 4 peer broke Content
structured READ:5:overlap 4 peer broke Content
structured READ:5:emptyhole 4 peer broke Content
structured READ:5:error5 3 peer error command 5
structured READ:5:behindall 3 peer error command 5
structured READ:5:leave 4 peer broke Ended
structured STATUS:1:magic 4 peer broke BadReplyMagic
structured STATUS:1:emptyextent 4 peer broke Content
structured STATUS:1:noextents 4 peer broke Content
structured STATUS:1:simplestatus 4 peer broke Content
structured STATUS:1:error22 3 peer error command 22
structured STATUS:1:leave 4 peer broke Ended
structured WRITE:5:magic 4 peer broke BadReplyMagic
structured WRITE:5:cookie 4 peer broke UnknownCookie
structured WRITE:5:twice 4 peer broke UnknownCookie
structured WRITE:5:datatowrite 4 peer broke BadChunkType
structured WRITE:5:zeroerror 4 peer broke ZeroError
structured WRITE:5:error28 3 peer error command 28
structured WRITE:5:leave 4 peer broke Ended
extended READ:5:magic 4 peer broke BadReplyMagic
extended READ:5:chunkmagic 4 peer broke MixedHeaders
extended READ:5:simple 4 peer broke MixedHeaders
extended READ:5:cookie 4 peer broke UnknownCookie
extended READ:5:twice 4 peer broke UnknownCookie
extended READ:5:kind 4 peer broke BadChunkType
extended READ:5:outside 4 peer broke OutOfRange
extended READ:5:missing 4 peer broke Content
extended READ:5:error5 3 peer error command 5
extended STATUS:1:oldextents 4 peer broke BadChunkType
extended STATUS:1:emptyextent 4 peer broke Content
extended WRITE:5:chunkmagic 4 peer broke MixedHeaders
extended WRITE:5:error108 3 peer error command 108
extended WRITE:5:leave 4 peer broke Ended
EOT
