#!/usr/bin/env python3
"""Brings the names of this repository's own definitions and lemmas to snake case.

usage: tools/respell.py [--list]      at the top of the repository, once, behind port.py

A name that specs/ or proofs/ declare (a definition, lemma, field, constructor or variable) and that
begins with a small letter loses its capitals: `someFrom` becomes `some_from`. It is replaced as a
whole word in crates/ (edits too), README.md and docs/, but for docs/papers. Names of types,
of modules and of src/ stay: a definition may have the name of a function of src/, since the two
never stand in one place. A name that would fall together with another one gets the name of SPECIAL.
"""
import os
import re
import subprocess
import sys

SPECIAL = {
    # `compared_at` is a lemma beside it
    'comparedAt': 'compared_result',
}
WORD = r"[^\W\d]\w*"
CAMEL = re.compile(r"(?<![\w'])([a-z]\w*[A-Z]\w*)(?![\w'])")


def files(*ends):
    out = subprocess.run(['git', 'ls-files', '-z'], capture_output=True, text=True, check=True).stdout
    return [f for f in out.split('\0') if f.endswith(ends) and os.path.isfile(f)]


def text(f):
    with open(f, encoding='utf-8') as h:
        return h.read()


def uncommented(s):
    return re.sub(r'(--|//).*', '', s)


def snake(name):
    s = re.sub(r'([a-z0-9])([A-Z])', r'\1_\2', name)
    s = re.sub(r'([A-Z])([A-Z][a-z])', r'\1_\2', s)
    return s.lower()


def main():
    antt = [f for f in files('.antt') if f.startswith('crates/')]
    rt = [f for f in files('.rt') if f.startswith('crates/')]
    camel, words = set(), set()
    for f in antt + rt:
        s = uncommented(text(f))
        camel |= set(CAMEL.findall(s))
        words |= set(re.findall(WORD, s))
    # names of the library keep their spelling: they are imported from it
    imported = set()
    for f in antt + rt:
        for m in re.finditer(r'use ((?:Rattle\.std|lib|mir|mathlib|Prim|borrow|logic)[\w.·+-]*)\.\{([^}]*)\}', text(f)):
            imported |= set(re.findall(WORD, m.group(2)))
    names = {n: SPECIAL.get(n, snake(n)) for n in sorted(camel - imported)}
    for n, to in names.items():
        if to in words:
            print(f'falls together: {n} and {to}')
    if '--list' in sys.argv:
        for n, to in names.items():
            print(n, to)
        return
    one = re.compile(r"(?<![\w'])(" + '|'.join(sorted(names, key=len, reverse=True)) + r")(?![\w'])")
    for f in files('.antt', '.rt', '.edit', '.md'):
        if f.startswith('docs/papers/'):
            continue
        s = text(f)
        t = one.sub(lambda m: names[m.group(1)], s)
        if t != s:
            with open(f, 'w', encoding='utf-8') as h:
                h.write(t)


main()
