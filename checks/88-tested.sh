# docs/TESTED.md has a row for each breach, content fault, refusal, reply to an option and line of a status that the sources and docs/errors.md name, and each row names
# a test or a check in which its name stands.
. checks/need.sh
need python3 python3

python3 - <<'PY'
import os, re

page = open('docs/TESTED.md', encoding='utf-8').read()
errors = open('docs/errors.md', encoding='utf-8').read()

def text(path):
    """What a file says; nothing where there is none."""
    return open(path, encoding='utf-8').read() if os.path.isfile(path) else ""

def variants(path, name):
    """The variants of an enum of the sources, but for want of memory, which is a line of its own."""
    body = re.search(rf'pub enum {name}\b.*?\n}}', text(path), re.S)[0]
    return [name for name in re.findall(r'^    ([A-Z]\w*)', body, re.M) if name != 'NoMemory']

def kebab(names):
    return [re.sub(r'(?<!^)([A-Z])', r'-\1', name).lower() for name in names]

def table(page, head):
    """The rows of the first table behind this line: a name, and what stands in its last cell."""
    lines = page[page.index(head):].split('\n')
    start = next(at for at, line in enumerate(lines) if line.startswith('|---')) + 1
    end = next(at for at in range(start, len(lines)) if not lines[at].startswith('|'))
    cells = [[cell.strip() for cell in line.strip('|').split('|')] for line in lines[start:end]]
    return [(row[0].strip('`'), re.findall(r'`([^`]+)`', row[-1])) for row in cells]

model, handle = 'crates/lnbd_model/src', 'crates/lnbd_handle/src'
refusals = [variants(path, name) for path, name in ((f'{model}/refusal.rt', 'Why'), (f'{handle}/kinds.rt', 'SetFault'), (f'{handle}/kinds.rt', 'OptFault'), (f'{handle}/strict.rt', 'StrictFault'))]
wanted = {
    '## Breaches': variants(f'{model}/breach.rt', 'Breach'),
    '## Refusals': list(dict.fromkeys(sum(refusals, []))),
    'What an export may lack:': kebab(variants(f'{model}/refusal.rt', 'Lack')),
    '## Replies to options': ['ACK', 'SERVER', 'INFO', 'META_CONTEXT'] + re.findall(r'^\| \d+ \| `(ERR_\w+)` \|', errors, re.M),
    '## Lines of a status': [name for name, _ in table(errors, '## Description')],
    'Faults of an address:': variants('crates/lnbd_uri/src/fault.rt', 'UriFault'),
    'Rules, and what else breaks a connection:': kebab(variants('crates/lnbd_plan/src/fault.rt', 'Rule')) + ['no-context', 'range', 'selftest-size', 'file-size', 'changed'] +
        [name for name in variants(f'{model}/breach.rt', 'Broken') if name != 'Breach'] + ['Client'],
}

def told(name, wrong):
    print(f'ok: {name}' if not wrong else f'failed: {name}: ' + '; '.join(wrong[:6]))

wrong, rows = [], table(page, '## Faulty content')
if len(rows) != 10:
    wrong.append(f'{len(rows)} faults of content')
for head, names in wanted.items():
    found = table(page, head)
    rows += found
    here = [name for name, _ in found]
    wrong += [f'{head} lacks {name}' for name in names if name not in here] + [f'{head} has {name}' for name in here if name not in names]
told('docs/TESTED.md has a row for each breach, content fault, refusal, reply to an option and line of a status', wrong)
wrong = [f'{name} is played by nothing' for name, places in rows if not places]
wrong += [f'{place} has no {name}' for name, places in rows for place in places if name not in text(place)]
told('each of them is played by a test or a check that names it', wrong)
PY
