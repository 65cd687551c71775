#!/usr/bin/env python3
"""Brings the repository's own definitions and lemmas to today's spelling: words in snake case, types and modules in camel case.
It ran once, after the kit's port.py and before any edit by hand (docs/PORT.md). The names stand in tools/respelled.tsv, old and new;
tools/respelled_first.tsv has the lemmas that first make room for a definition that gets their name.
A name is turned wherever it stands as a whole word in crates/*/src, specs, proofs and must-fail; in a comment only if it is not two English words with a dash.
usage: tools/respell.py [FOLDER]        the top of a checkout; by default this one"""
import pathlib
import re
import sys

HERE = pathlib.Path(__file__).resolve().parent
TOP = pathlib.Path(sys.argv[1]) if len(sys.argv) > 1 else HERE.parent
PART = r"[\w'\-·]"
WORD = re.compile(rf"(?<!{PART})[A-Za-z_]{PART}*")


def names(file):
    rows = (line.rstrip('\n').split('\t') for line in (HERE / file).open(encoding='utf-8') if not line.startswith('#'))
    return {old: new for old, new in rows}


def turned(text, table, comment, function):
    """The text with each whole word of the table turned; a word with a dash stays in a comment, and after a dot in a function's folder, where it is a step's name."""
    out = []
    for line in text.split('\n'):
        code, mark, rest = line.partition(comment)
        code = WORD.sub(lambda m: m.group() if function and '-' in m.group() and line[m.start() - 1 : m.start()] == '.' and not line.startswith('use ') else table.get(m.group(), m.group()), code)
        rest = WORD.sub(lambda m: m.group() if '-' in m.group() else table.get(m.group(), m.group()), rest)
        out.append(code + mark + rest)
    return '\n'.join(out)


first, table = names('respelled_first.tsv'), names('respelled.tsv')
changed = 0
for path in sorted(TOP.glob('crates/*/**/*')):
    parts = path.relative_to(TOP).parts
    if path.suffix not in ('.rt', '.antt', '.edit') or 'out' in parts:
        continue
    old = new = path.read_text(encoding='utf-8')
    comment = {'.rt': '//', '.antt': '--', '.edit': '\0'}[path.suffix]
    if parts[2] == 'proofs' and len(parts) == 4:
        # a name after a dot is a field, or a function's folder
        new = re.sub(rf"(?<!{PART})(?<!\.)(?:{'|'.join(map(re.escape, first))})(?!{PART})(?!\.)", lambda m: first[m.group()], new)
    new = turned(new, table, comment, parts[2] == 'proofs' and len(parts) > 4)
    if new != old:
        path.write_text(new, encoding='utf-8')
        changed += 1
print(f'{changed} files turned')
