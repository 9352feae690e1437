# The README is short: at most 110 lines, none above 160 letters, no sentence above 30 words. What it names is there: files, folders and tools.
# No line of the documents for readers is above 200 letters, of tables no cell, and no paragraph of docs/DEFINITIONS.md above 1,200.
. checks/need.sh
need python3 python3

python3 - <<'PY'
import glob, os, re

def told(name, wrong):
    print(f'ok: {name}' if not wrong else f'failed: {name}: ' + '; '.join(map(str, wrong[:8])))

def plain(text):
    """The text without blocks of commands."""
    return re.sub(r'(?ms)^```.*?^```\n', '', text)

readme = open('README.md').read()
lines = readme.split('\n')
told('the README has at most 110 lines, none above 160 letters',
     [f'{len(lines)} lines'] * (len(lines) > 111) + [f'line {n}: {len(it)}' for n, it in enumerate(lines, 1) if len(it) > 160])

wrong = []
for block in re.split(r'\n\s*\n|\n(?=\d+\. |- |\||#|   - )', plain(readme)):
    for cell in (block.split('|') if block.startswith('|') else [block]):
        for sentence in re.split(r'(?<=[.!?])\s+', cell.replace('\n', ' ')):
            count = len([it for it in sentence.split() if re.search(r'\w', it)])
            if count > 30:
                wrong.append(f"{count} words: '{sentence[:60]}'")
told('no sentence of the README has above 30 words', wrong)

wrong = []
for name in re.findall(r'`((?:docs|crates|tools|checks|bench|examples|dist)/[\w./-]*|[A-Z-]+(?:\.md)?)`', plain(readme)):
    if ('/' in name or name.endswith('.md')) and not os.path.exists(name):
        wrong.append(name)
told('each file that the README names is there', wrong)

wrong = []
for path in ['README.md', 'SECURITY.md', 'CHANGELOG.md', *sorted(set(glob.glob('docs/*.md')) - {'docs/CONTRIBUTING.md', 'docs/DECISIONS.md'})]:
    inside = False
    for number, line in enumerate(open(path).read().split('\n'), 1):
        inside ^= line.startswith('```')
        parts = line.split('|') if line.startswith('|') else [line]
        if max(map(len, parts)) > 202 and not inside:
            wrong.append(f'{path}:{number}')
told('no line of a document is above 200 letters, of a table no cell', wrong)

wrong = []
for part in re.split(r'\n\s*\n|\n(?=- |\d+\. )', plain(open('docs/DEFINITIONS.md').read())):
    if len(part) > 1200 and not part.lstrip().startswith('|'):
        wrong.append(f"{len(part)}: '{part[:50]}'")
told('no paragraph of docs/DEFINITIONS.md is above 1,200 letters', wrong)
PY
