# docs/DEFINITIONS.md lists each crate of which the clauses of the program's top call name a definition, however far below, and no other; and
# each name in it in `code` stands in the sources.
. checks/need.sh
need python3 python3

listed=$(sed -n '/^## What has to be believed/,/^## Values/p' docs/DEFINITIONS.md | grep '^|' | cut -d '|' -f 3 | grep -o '`lnbd_[a-z]*`' | tr -d '`' | sort -u)
reached=$(tools/reached)
if [ "$listed" = "$reached" ] && [ "$(wc -l <<<"$reached")" -ge 30 ]; then
  echo 'ok: docs/DEFINITIONS.md lists the crates that the clauses of run rest on'
else
  echo "failed: docs/DEFINITIONS.md lists other crates than those that run rests on: $(diff <(echo "$listed") <(echo "$reached") | tr '\n' ' ')"
fi

python3 - <<'PY'
import os, re
known = set()
for at, _, files in os.walk('crates'):
    for file in files:
        if re.search(r'/(src|specs|proofs)(/|$)', at) and '/out' not in at:
            known.update(re.findall(r"[A-Za-z_][\w]*", open(f'{at}/{file}', encoding='utf-8').read()))
wrong, seen = [], set()
for part in re.findall(r'`([A-Za-z_](?:\w|::)*)`', open('docs/DEFINITIONS.md', encoding='utf-8').read()):
    last = part.split('::')[-1]
    if last not in known and last not in seen and not last.startswith('lnbd_') and last != 'code':
        seen.add(last)
        wrong.append(last)
print('ok: each name in docs/DEFINITIONS.md stands in the sources' if not wrong else 'failed: docs/DEFINITIONS.md names what is not there: ' + ', '.join(wrong))
PY
