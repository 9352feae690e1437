# Each must-fail edit stands in its file exactly once, those of edits/ too, which the gate doesn't try. How many crates changed since
# their edits were tried is told, and no fault: who changes what a crate promises tries them.
. checks/need.sh
need python3 python3

if told=$(tools/edits --look 2>&1); then
  echo "ok: $told"
else
  while IFS= read -r line; do echo "failed: $line"; done <<<"$told"
fi
