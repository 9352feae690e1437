# What keeps the gate's time: no crate names another that it does not use, tests stand in few crates and in no library, and must-fail edits are few. That each
# edit still finds its texts is seen by checks/14-edits.sh.
. checks/need.sh
need python3 python3

python3 - <<'PY'
import glob, os, re

# How many crates may have tests, how many may have must-fail edits, and how many edits there may be in all.
CRATES_WITH_TESTS = 5
CRATES_WITH_EDITS = 8
EDITS = 30

PARTS = ('src', 'specs', 'proofs')

def named():
    """The crates of crates.txt, each with the names behind it."""
    crates = {}
    for line in open('crates.txt', encoding='utf-8'):
        head, colon, names = line.partition('#')[0].partition(':')
        if colon:
            crates[head.split()[0]] = names.split()
    return crates

def text_of(crate, ends):
    """What the crate's files of these kinds say, without the lines that are comments."""
    found = []
    for part in PARTS:
        for folder, _, files in os.walk(f'crates/{crate}/{part}'):
            found += [open(f'{folder}/{file}', encoding='utf-8').read() for file in files if file.endswith(ends)]
    return re.sub(r'(?m)^ *(//|--).*$', '', '\n'.join(found))

def stands(name, text):
    return name in text and re.search(rf'\b{name}\b', text)

def told(name, wrong):
    print(f'ok: {name}' if not wrong else f'failed: {name}: ' + '; '.join(wrong[:8]) + ('; ..' if len(wrong) > 8 else ''))

crates = named()
libraries = {name for names in crates.values() for name in names}

wrong, tested = [], []
for crate, names in crates.items():
    code = text_of(crate, '.rt')
    both = code + text_of(crate, '.antt')
    wrong += [f'{crate} names {name}' for name in names if not stands(name, both)]
    if '#[test]' in code:
        tested.append(crate)
told('each crate uses those that it names in crates.txt', wrong)
told('no library has tests', [crate for crate in tested if crate in libraries])
told(f'at most {CRATES_WITH_TESTS} crates have tests', [f'{len(tested)} have: ' + ' '.join(tested)] if len(tested) > CRATES_WITH_TESTS else [])

edits = glob.glob('crates/*/must-fail/*.edit')
edited = sorted({edit.split('/')[1] for edit in edits})
told(f'at most {EDITS} must-fail edits are tried by the gate', [f'{len(edits)} are'] if len(edits) > EDITS else [])
told(f'at most {CRATES_WITH_EDITS} crates have must-fail edits', [f'{len(edited)} have: ' + ' '.join(edited)] if len(edited) > CRATES_WITH_EDITS else [])
PY
