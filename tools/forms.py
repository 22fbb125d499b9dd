#!/usr/bin/env python3
"""Counts the places of docs/DESIGN-PASS.md's points 1 to 8 in crates/*/src, and lists them with -v.

    tools/forms.py [-v] [POINT..]

A place with a comment that says `form kept` on its line or above it is counted as kept.
"""
import collections
import pathlib
import re
import sys

ROOT = pathlib.Path(__file__).resolve().parent.parent
NUMBER = r'(?:[iu](?:8|16|32|64)|usize|f64)'


def sources():
    for path in sorted(ROOT.glob('crates/*/src/*.rt')):
        yield path.relative_to(ROOT), path.read_text().split('\n')


def functions(lines):
    """(first line, name, signature with clauses, body) of each function, by its indentation."""
    i = 0
    while i < len(lines):
        m = re.match(r'( *)(?:pub(?:\(\w+\))? )?(?:extern "C" )?fn (\w+)', lines[i])
        if not m:
            i += 1
            continue
        indent, start = m.group(1), i
        while i < len(lines) and not re.match(indent + r'(\{|.*[^{]\{$)', lines[i]):
            if lines[i].rstrip().endswith(';') and not lines[i].startswith(indent + ' '):
                break
            i += 1
        head = i
        while i < len(lines) and lines[i] != indent + '}':
            i += 1
        yield start, m.group(2), '\n'.join(lines[start:head + 1]), '\n'.join(lines[head:i + 1])
        i += 1


def kept(lines, n):
    if 'form kept' in lines[n]:
        return True
    while n > 0 and re.match(r'\s*(//|#\[)', lines[n - 1]):
        n -= 1
        if 'form kept' in lines[n]:
            return True
    return False


def point_1():
    """a number for a refusal or a kind, beside a value or alone; own enums of Option's or Result's shape"""
    for path, lines in sources():
        for n, line in enumerate(lines):
            if re.match(r'\s*(pub )?status: u(8|32),', line):
                yield path, n, lines, 'a status beside a value'
            if re.match(r'\s*Refused\(u32\)', line):
                yield path, n, lines, 'a refusal as a number'
            if re.match(r'\s*(NoneGood|Neither|Done\(\w+\)),', line):
                yield path, n, lines, "a case of Option's or Result's shape"
        for start, name, head, body in functions(lines):
            if re.search(r'-> u32', head) and re.search(r'status |return \d+;|refused', head + body) and re.search(r'return \d+;|status != 0|ensures.* status \(|ensures.* status$', head + body):
                yield path, start, lines, f'fn {name} answers a number'
            if re.search(r'\b(function|by): usize', head):
                yield path, start, lines, f'fn {name} takes a number for a kind'


def shape(text):
    text = re.sub(r'//.*', '', text)
    text = re.sub(r'\b' + NUMBER + r'\b', 'N', text)
    text = re.sub(r'_(?:[iu](?:8|16|32|64)|12bit|top_half|4x4|2x2|i64|direct|[248])\b', '', text)
    text = re.sub(r'\b0x[0-9a-f_]+\b|\b\d[\d_.]*(?:' + NUMBER + r')?\b', '0', text)
    return re.sub(r'\s+', ' ', text)


def point_2():
    """functions and types that differ only in a type, a size or a constant"""
    groups = collections.defaultdict(list)
    for path, lines in sources():
        for start, name, head, body in functions(lines):
            plain = shape(re.sub(r'\bfn \w+', 'fn f', re.sub(r'(?s)\n\s*(requires|ensures).*', '', head)) + body)
            if len(body.split('\n')) > 3:
                groups[plain].append((path, start, lines, f'fn {name}'))
        for n, line in enumerate(lines):
            m = re.match(r'pub const (\w+): i64 = crate::\w+ as i64;', line)
            if m:
                groups['const'].append((path, n, lines, m.group(1)))
    for members in groups.values():
        if len(members) > 1:
            yield from members


def point_3():
    """loops that count an index by hand"""
    for path, lines in sources():
        for n, line in enumerate(lines):
            if re.match(r'\s*while ', line):
                yield path, n, lines, line.strip()


def point_4():
    """conversions, equality, order, copying and printing written by hand"""
    for path, lines in sources():
        for start, name, head, body in functions(lines):
            inner = [x.strip() for x in body.split('\n')[1:-1]]
            if len(inner) == 1 and re.fullmatch(r'\(?\w+(?:\.\w+)? as ' + NUMBER + r'\)?(?: as ' + NUMBER + ')?', inner[0]):
                yield path, start, lines, f'fn {name} converts'
            if len(inner) == 1 and re.fullmatch(r'\w+ == \w+', inner[0]):
                yield path, start, lines, f'fn {name} compares'
            if re.search(r'(\w+)\[(\w+)\] = (?:\w+)\[\2\];', body):
                yield path, start, lines, f'fn {name} copies'
            if re.search(r'MAX - \(', body):
                yield path, start, lines, f'fn {name} converts bits'
            if re.search(r'\[n\] == |\[z\] == |== b\[', body):
                yield path, start, lines, f'fn {name} compares lists'
        for n, line in enumerate(lines):
            if re.match(r'impl (PartialEq|Eq|PartialOrd|Ord|Clone|Copy|Debug|Hash) for', line):
                yield path, n, lines, line


def point_5():
    """a fact in the clauses of three or more functions of a crate; parameters that always travel together"""
    facts = collections.defaultdict(list)
    together = collections.defaultdict(list)
    for path, lines in sources():
        crate = path.parts[1]
        for start, name, head, body in functions(lines):
            if 'extern "C"' in head:
                continue
            for clause in re.findall(r'requires (?:\w+ )?\{ (.*) \}', head):
                for fact in clause.split(' × '):
                    fact = fact.strip('()')
                    facts[crate, re.sub(r'\b(\w+)\.(now|old)\b', 'x.now', fact)].append((path, start, lines, f'fn {name}: {fact}'))
            parameters = re.findall(r'(\w+): [^,()]+', head.split('->')[0].split('\n    requires')[0])
            for k in range(len(parameters) - 2):
                together[crate, tuple(parameters[k:k + 3])].append((path, start, lines, f'fn {name}: {", ".join(parameters[k:k + 3])}'))
    seen = set()
    for members in list(facts.values()) + list(together.values()):
        if len(members) > 2:
            for member in members:
                key = member[0], member[1]
                if key not in seen:
                    seen.add(key)
                    yield member


def point_6():
    """buffers with a length or a position beside them, parallel arrays"""
    for path, lines in sources():
        for start, name, head, body in functions(lines):
            parameters = head.split('\n    requires')[0]
            if re.search(r'\berrors: .*\bcounts: ', re.sub(r'\s+', ' ', parameters)):
                yield path, start, lines, f'fn {name}: parallel arrays'
            elif re.search(r'\[\w+\].*\b(n|size|count|listed|places|got): (usize|u32)', re.sub(r'\s+', ' ', parameters)):
                yield path, start, lines, f'fn {name}: a buffer and a length'
        text = '\n'.join(lines)
        for m in re.finditer(r'struct (\w+) \{\n((?:    .*\n)*?)\}', text):
            if re.search(r'\[.*\]', m.group(2)) and re.search(r'\b(size|got|count|listed): ', m.group(2)):
                yield path, text[:m.start()].count('\n'), lines, f'struct {m.group(1)}: a buffer and a length'


def point_7():
    """a switch on which step to run, a table of functions"""
    for path, lines in sources():
        for start, name, head, body in functions(lines):
            if re.search(r'match function|if by == ', body):
                yield path, start, lines, f'fn {name}'


def point_8():
    """answers and invariants of the crates' functions, lemma files apart: lines"""
    for path in sorted(ROOT.glob('crates/*/proofs/**/*.antt')):
        if path.name in ('Answers.antt', 'Invariants.antt'):
            lines = path.read_text().split('\n')
            for n, line in enumerate(lines):
                if line.startswith('pub ') or line.startswith('abbrev pub'):
                    yield path.relative_to(ROOT), n, lines, line


POINTS = [point_1, point_2, point_3, point_4, point_5, point_6, point_7, point_8]


def main():
    words = [w for w in sys.argv[1:] if w != '-v']
    for k, point in enumerate(POINTS, 1):
        if words and str(k) not in words:
            continue
        places = list(point())
        held = [place for place in places if kept(place[2], place[1])]
        print(f'{k} {len(places)} places, {len(held)} of them kept: {point.__doc__}')
        if '-v' in sys.argv:
            for path, n, lines, what in places:
                print(f'    {path}:{n + 1}: {what}{" (kept)" if kept(lines, n) else ""}')


main()
