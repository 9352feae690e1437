# docs/errors.md decodes each line on standard error: each name of a breach and of an address fault, each option and error code, each number of
# an error, each rule and each line that the sources can print has its row; and no row is of a name that is not there.
. checks/need.sh
need python3 python3

python3 - <<'PY'
import glob, re

page = open('docs/errors.md', encoding='utf-8').read()
rows = [[cell.strip() for cell in line.strip('|').split(' | ')] for line in page.split('\n') if line.startswith('|') and not line.startswith('|---')]
first = {name for row in rows for name in re.findall(r'`([^`]+)`', row[0])}

def read(path):
    return open(path, encoding='utf-8').read()

def told(name, missing, count, least):
    missing = sorted(missing)
    print(f'ok: {name} ({count})' if not missing and count >= least else f'failed: {name}: {count} found; the page lacks ' + ', '.join(missing))

breach = read('crates/lnbd_model/src/breach.rt')
names = set(re.findall(r'Breach::\w+ => "(\w+)"', breach))
told('each breach has a row', names - first, len(names), 20)
broken = set(re.findall(r'Broken::\w+ => text\.push_str\("(\w+)"\)', read('crates/lnbd_cli/src/ending.rt')))
broken |= {it for it in re.findall(r'"peer broke (\w+)"', read('crates/lnbd_cli/src/ending.rt'))}
told('each other cause of `peer broke` has a row', broken - first, len(broken), 4)
faults = set(re.findall(r'UriFault::\w+ => "(\w+)"', read('crates/lnbd_uri/src/fault.rt')))
told('each fault of an address has a row', faults - first, len(faults), 9)
part = page[page.index('## The other side broke'):page.index('## A link failed')]
listed = {name for line in part.split('\n') if line.startswith('| `') for name in re.findall(r'^\| `(\w+)`', line)}
told('and no row is of another name', listed - names - broken, len(listed), 24)

errors = dict(re.findall(r'pub const (E\w+): u32 = (\d+);', read('crates/lnbd_model/src/errors.rt')))
has = {name for name, number in errors.items() if re.search(rf'(?m)^\| {number} \| {name} \|', page) or f'{number} ({name})' in page}
told('each number of an error has a row', set(errors) - has, len(errors), 10)

# The options that are sent, and the codes of error replies, by the standard's names.
wanted = {'1': 'EXPORT_NAME', '2': 'ABORT', '3': 'LIST', '6': 'INFO', '7': 'GO', '8': 'STRUCTURED_REPLY', '10': 'SET_META_CONTEXT', '11': 'EXTENDED_HEADERS'}
told('each option that is sent has a row', {name for number, name in wanted.items() if not re.search(rf'(?m)^\| {number} \| `{name}` \|', page)}, len(wanted), 8)
codes = 'UNSUP POLICY INVALID PLATFORM TLS_REQD UNKNOWN SHUTDOWN BLOCK_SIZE_REQD TOO_BIG EXT_HEADER_REQD'.split()
told('each error reply has a row', {name for number, name in enumerate(codes, 1) if not re.search(rf'(?m)^\| {number} \| `ERR_{name}` \|', page)}, len(codes), 10)

# The beginnings of lines, as the tools' sources print them.
lines = set()
for path in glob.glob('crates/lnbd_cli/src/*.rt') + glob.glob('crates/lnbd_plan/src/*.rt'):
    text = read(path)
    lines |= set(re.findall(r'"(?:lnbd: )?((?:usage|script line|uri|peer|link|rule|output|input|no memory)[^"{\\]*)', text))
lines = {re.sub(r'^(peer broke|peer error option).*', r'\1', it.strip()) for it in lines if it.strip() not in ('', 'peer error', 'rule', 'uri')}
told('each line that is printed is on the page', {it for it in lines if it not in page}, len(lines), 10)
rules = {text.replace('"', '').strip() for text in re.findall(r'rule_text \(?rule\.[\w ]+\)? = codes ("[^"]*")', read('crates/lnbd_cli/specs/Ends.antt'))}
told('each rule of a copy has a row', {it for it in rules if f'`rule {it}' not in page}, len(rules), 4)
PY
