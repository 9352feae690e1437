# docs/PROVED.md names, for each claim of the README, a clause, definitions and laws with their files: each stands there. And a copy's facts are
# fields of the records that Copier::run promises, or clauses of it, by definitions of these files.
. checks/need.sh
need python3 python3

python3 - <<'PY'
import os, re

def told(name, wrong, count):
    print(f'ok: {name} ({count})' if not wrong and count else f'failed: {name}: ' + ('; '.join(wrong[:8]) or 'there is none'))

def rows(text):
    for line in text.split('\n'):
        if line.startswith('|') and not line.startswith('|---'):
            yield [cell.strip() for cell in line.strip('|').split(' | ')]

def names(cell):
    return re.findall(r'`([\w:]+)`', cell)

page = open('docs/PROVED.md', encoding='utf-8').read()
part = page[page.index('## From a claim to its law'):page.index('\n## Base')]
wrong, count = [], 0
for cells in rows(part):
    files = re.findall(r'`(crates/[\w/.]+)`', cells[-1])
    if len(files) != 1:
        continue
    if not os.path.exists(files[0]):
        wrong.append(f'there is no {files[0]}')
        continue
    text = open(files[0], encoding='utf-8').read()
    for name in names(cells[-2]):
        count += 1
        if files[0].endswith('.antt'):
            found = re.search(r'(?m)^\s*(?:abbrev pub|pub record|pub data) ' + name + r'\b', text)
        else:
            found = re.search(r'\b(?:ensures ' + name + r' \{|pub fn ' + name + r'\b)', text)
        if not found:
            wrong.append(f'{files[0]} has no {name}')
told('each name of a chain stands in its file', wrong, count)

run = open('crates/lnbd_copy/src/running.rt', encoding='utf-8').read()
run = run[run.index('pub fn run<'):]
run = run[:run.index('\n    {')]
records = ''
for file, record in (('Made', 'IsMade'), ('Conduct', 'Conducts'), ('Changes', 'Behaves')):
    text = open(f'crates/lnbd_conduct/specs/{file}.antt', encoding='utf-8').read()
    records += text[text.index(f'pub record {record} '):].partition('\n\n')[0]
wrong, count = [], 0
for cells in rows(part[part.index('### What `nbdcopy` promises'):]):
    if len(cells) == 4 and names(cells[1]):
        for clause, definition in zip(names(cells[1]), names(cells[2])):
            count += 1
            if not re.search(r'ensures ' + clause + r' \{[^\n]*\b' + definition + r'\b', run) and not re.search(r'pub ' + clause + r' : [^\n]*\b' + definition + r'\b', records):
                wrong.append(f'no field and no clause {clause} by {definition}')
told('each fact of a copy is a field of what its run promises, or a clause, by its definition', wrong, count)
PY
