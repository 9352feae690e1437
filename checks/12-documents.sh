# The documents name what is there: docs/ARCHITECTURE.md each crate, with those that it stands on above it, and each function of the ways of one read and of one slice in its
# file; docs/PROVED.md functions and types that stand in the crate of their row, or in one below it.
. checks/need.sh
need python3 python3

python3 - <<'PY'
import functools, os, re

def deps():
    told = {}
    for line in open('crates.txt'):
        line = line.split('#')[0]
        if ':' in line:
            name, words = line.split(':', 1)
            told[name.split()[0]] = words.split()
    return told

@functools.lru_cache(None)
def source(crate):
    text = ''
    for folder, _, files in os.walk(f'crates/{crate}/src'):
        for file in files:
            text += open(f'{folder}/{file}').read()
    return text

def rows(text):
    for line in text.split('\n'):
        if line.startswith('|') and not line.startswith('|---'):
            yield [cell.strip() for cell in line.strip('|').split('|')]

def told(name, wrong):
    print(f'ok: {name}' if not wrong else f'failed: {name}: ' + '; '.join(wrong[:8]))

crates = deps()
page = open('docs/ARCHITECTURE.md').read()
table = page[page.index('\n## The crates'):page.index('\n## The order in which')]
wrong, above = [], set()
for cells in rows(table):
    names = re.findall(r'`(\w+)`', cells[0])
    for name in names:
        if name not in crates:
            wrong.append(f'{name} is no crate')
        for below in re.findall(r'`(lnbd\w*)`', cells[-1].split(';')[0]):
            if below not in above and below not in names:
                wrong.append(f'{name} stands on {below}, which is not above it')
            if name in crates and below not in crates[name]:
                wrong.append(f'{name} does not stand on {below}')
    above.update(names)
wrong += [f'{name} is not there' for name in crates if name not in above]
told('each crate stands in the architecture behind those that it stands on', wrong)

wrong, folder = [], ''
way = page[page.index('\n## The way of one read'):page.index('\n## The crates')]
for cells in rows(way):
    names = []
    for name in re.findall(r'`([^`]+)`', cells[-1]):
        if name.endswith('.rt') or name in crates:
            if '/' in name:
                folder = os.path.dirname(name)
            path = f'crates/{name}' if '/' in name or name in crates else f'crates/{folder}/{name}'
            text = source(name) if name in crates else open(path).read() if os.path.exists(path) else ''
            wrong += [f'{one} is not in {name}' for one in names if not re.search(r'\b(fn|struct) ' + one.split('::')[-1] + r'\b', text)]
            names = []
        else:
            names.append(name)
told('each function of the ways of one read and of one slice stands in its file', wrong)

wrong, crate = [], ''
page = open('docs/PROVED.md').read()
for cells in rows(page[page.index('\n## Base'):]):
    found = re.findall(r'`(\w+)`', cells[0])
    if found:
        crate = found[0]
    if len(cells) < 3 or not crate:
        continue
    text = source(crate)
    for name in re.findall(r'`([\w:]+)`', cells[2].replace('the private `', '`private:')):
        if name.startswith('private:') or name in crates:
            continue
        last = name.split('::')[-1]
        # (a crate shows what it takes from those below it)
        owner = source(name.split('::')[0]) if name.split('::')[0] in crates else text + ''.join(map(source, crates.get(crate, [])))
        if not re.search(r'\b(fn|struct|trait|enum|type|ghost) ' + last + r'\b', owner):
            wrong.append(f'{crate} has no {name}')
told('what carries a claim stands in the crate of its row', wrong)
PY
