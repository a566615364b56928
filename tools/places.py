#!/usr/bin/env python3
"""Lists the places of src/ that a newer form of the language could say more plainly.

usage: tools/places.py [POINT ..]      at the top of the repository; POINT is 1 to 8, all if left out

Each line is POINT/WHAT FILE:LINE TEXT; the last lines count them. docs/DESIGN-PASS.md says of each what became of it.
Tests (#[cfg(test)]) are left out. Points 1 to 7 are found by patterns over the text, twins and repeated facts by
comparing functions with one another, point 8 by the answers in proofs/.
"""
import collections
import glob
import re
import sys

found = []


def tell(point, what, path, line, text):
    found.append((point, what, path, line, ' '.join(text.split())[:110]))


def sources():
    for path in sorted(glob.glob('crates/*/src/**/*.rt', recursive=True)):
        text = open(path).read().split('#[cfg(test)]')[0]
        yield path, text


def code_lines(text):
    for number, line in enumerate(text.split('\n'), 1):
        yield number, line.split('//')[0]


# A pattern over the whole text: POINT, WHAT, PATTERN.
PATTERNS = [
    # 1: shapes of Option and Result, flags beside values, numbers and strings for cases
    (1, 'match that hands a value on', r'\bOk\((\w+)\) => (?:return )?(?:Ok\(\1\)|\1),|\bSome\((\w+)\) => (?:return )?(?:Ok|Some)\(\*?\2\),'),
    (1, 'flag in a struct', r'^ +(?:pub )?\w+: bool,'),
    (1, 'flag as a parameter', r'\bfn \w+(?:<[^>]*>)?\([^)]*\bbool\b[^)]*\)'),
    (1, 'number for a case', r'^ +\w+::\w+ => \d+,'),
    (1, 'call by its name as a string', r'^ +"(?:new|align|reserve|reserve_bytes|write|push|push_bytes|build|finish|short|scan|shallow|deep|get|copy)"(?: \||.* =>)|== "(?:new|finish|short|big)"'),
    # 3: loops by hand
    (3, 'while', r'\bwhile\b'),
    (3, 'index named in a loop', r'\bfor [a-z]\w* in \(?\d+\.\.'),
    (3, 'index kept beside what is gone over', r'\.enumerate\(\)'),
    # 4: equality, order, copying, conversion, printing
    (4, 'impl of From by hand', r'^impl(?:<[^>]*>)? From<'),
    (4, 'impl of Display by hand', r'^impl(?:<[^>]*>)? fmt::Display'),
    (4, 'impl of another derivable trait by hand', r'^impl(?:<[^>]*>)? (?:PartialEq|Eq|PartialOrd|Ord|Clone|Copy|Debug|Default|Hash)\b'),
    (4, 'words of a case by hand', r'\bfn (?:words|name)\('),
    (4, 'equality by a match', r'=> true,\s*\n\s*_ => false'),
    (4, 'equality byte by byte', r'\w+\[\w+\] != \w+\[0\]'),
    (4, 'conversion by hand', r'\bfn (?:items_of|digit|byte|hexadecimal|form|goes_on)\('),
    (4, 'print of a case by a match', r'\bfn (?:say|complain|show)\('),
    # 6: buffers with a length, parallel arrays, searches
    (6, 'parallel arrays', r'^ +pub (?:numbers|casts|parts): Vec<'),
    (6, 'search by hand', r'^ +if at == place'),
    # 7: switches on which step to run
    (7, 'switch on a flag', r'\bif deep\b'),
    (7, 'one switch, written twice', r'Root::Numbers \| Root::Casts =>'),
    (7, 'table of names', r'\bfn (?:named|is_by_name|by_name|others_by_name|texts_by_name|held_twice|three_deep)\b'),
]

TYPES = [
    (r'\b[ui](?:8|16|32|64|size)\b', 'INT'),
    (r'\bWidth[1248]\b', 'WIDTH'),
    (r'\b(?:Little|Big|Native)Endian\b', 'ENDIAN'),
    (r'_(?:u8|u16|u32|u64)\b', '_INT'),
    (r'_[lb]e_bytes\b', '_bytes'),
    (r'\b0x[0-9a-f_]+\b|\b\d[\d_]*\b', 'N'),
    (r'\b(?:Pointed|Arrayed|Vast|Far|Sliced)\b', 'HOLDER'),
    (r'\b(?:RelativePtr|ZeroArray|ZeroSlice|Array)\b(?:::<[^>]*>)?', 'KIND'),
]


def functions(text):
    """(line, header, body) of each function that has a body."""
    for m in re.finditer(r'^( *)(?:pub(?:\(crate\))? )?fn (\w+)', text, re.M):
        indent = m.group(1)
        end = re.compile(r'^' + indent + r'\}|^[^\n]*;\s*$', re.M).search(text, m.start())
        brace = re.compile(r'\{\s*$|^' + indent + r'\{', re.M)
        piece = text[m.start():text.find('\n' + indent + '}', m.start()) + 1]
        if piece.split('\n')[0].rstrip().endswith(';'):
            continue
        at = re.search(r'^' + indent + r'\{\s*$|\{\s*$', piece, re.M)
        if not at or '\n\n' in piece[:at.start()]:
            continue
        yield text.count('\n', 0, m.start()) + 1, m.group(2), piece[:at.start()], piece[at.end():]


def twins():
    groups = collections.defaultdict(list)
    for path, text in sources():
        for line, name, header, body in functions(text):
            plain = ' '.join(body.split())
            for pattern, word in TYPES:
                plain = re.sub(pattern, word, plain)
            if len(plain) > 12 and plain not in ('self.item.align()',):
                groups[plain].append((path, line, name))
    for plain, places in groups.items():
        if len(places) > 1:
            for path, line, name in places:
                tell(2, 'function like %d others but for a type, a size or a constant' % (len(places) - 1), path, line, name + ': ' + plain)
    for path, text in sources():
        for line, code in code_lines(text):
            if re.search(r'^(?:pub )?const \w+: \w+ = 2_147_483_64[78];', code):
                tell(2, 'constant of the limit or the stop', path, line, code)
    names = collections.defaultdict(list)
    for path, text in sources():
        for m in re.finditer(r'^pub (?:enum|struct|trait) (\w+)|^pub fn (\w+)', text, re.M):
            names[m.group(1) or m.group(2)].append((path, text.count('\n', 0, m.start()) + 1))
    for name, places in names.items():
        if len({p.split('/')[1] for p, _ in places}) > 1:
            for path, line in places:
                tell(2, 'public name in %d crates' % len(places), path, line, name)


def facts():
    clauses = collections.defaultdict(set)
    together = collections.defaultdict(list)
    for path, text in sources():
        for m in re.finditer(r'\bfn (\w+)[^{;]*?\(([^)]*)\)(?:[^{;]|\{[^\n]*\}\n)*', text):
            line = text.count('\n', 0, m.start()) + 1
            parameters = re.findall(r'(\w+): ', m.group(2))
            for pair in [('item', 'count'), ('call', 'desk', 'buffer'), ('sheet', 'at'), ('archive', 'at'), ('archive', 'place'), ('head', 'tail'), ('out', 'at'), ('rt', 'name', 'archive')]:
                if all(p in parameters for p in pair):
                    together[pair].append((path, line, m.group(1)))
        for m in re.finditer(r'^ *(?:requires|ensures|ghost \w+:)[^{]*\{(.*)\}', text, re.M):
            for fact in [r'Power \w+', r'\(?1 ≤ \w+\)? × \(?\w+ ≤ 65535', r'align ≤ 4096', r'length \w+\.(?:now|old)(?:\.items)? ≤ limit', r'Seated ']:
                if re.search(fact, m.group(1)):
                    clauses[fact].add((path, text.count('\n', 0, m.start()) + 1))
    for pair, places in together.items():
        if len(places) >= 3:
            for path, line, name in places:
                tell(5, 'parameters together: ' + ', '.join(pair), path, line, name)
    for fact, places in clauses.items():
        if len(places) >= 3:
            for path, line in sorted(places):
                tell(5, 'fact in several contracts: ' + fact, path, line, '')


def loops():
    """Places, counts and sums that the body of a loop carries on by hand."""
    for path, text in sources():
        lines = [line.split('//')[0] for line in text.split('\n')]
        for start, line in enumerate(lines):
            m = re.match(r'( *)(?:for|while) .*\{$', line)
            if not m:
                continue
            for number in range(start + 1, len(lines)):
                if lines[number].startswith(m.group(1) + '}'):
                    break
                if re.search(r'\b(\w+) (?:\+= |-= |= \1\.(?:saturating|checked)_add|= \1 \+)|^ *(?:at|start|place) = \w+', lines[number]):
                    tell(3, 'place, count or sum carried on by hand in a loop', path, number + 1, lines[number])


def answers():
    for path in sorted(glob.glob('crates/*/proofs/**/Answers.antt', recursive=True)):
        for number, line in enumerate(open(path), 1):
            if re.match(r'pub [\w-]+ : goal\.', line):
                tell(8, 'answer', path, number, line)


def main():
    wanted = {int(a) for a in sys.argv[1:]} or set(range(1, 9))
    for path, text in sources():
        for point, what, pattern in PATTERNS:
            bare = '\n'.join(line for _, line in code_lines(text))
            for m in re.finditer(pattern, bare, re.M):
                tell(point, what, path, bare.count('\n', 0, m.start()) + 1, m.group(0))
    twins()
    loops()
    facts()
    answers()
    counts = collections.Counter()
    for point, what, path, line, text in found:
        if point in wanted:
            if point != 8:
                print('%d/%s %s:%d %s' % (point, what, path, line, text))
            counts[(point, what if point != 2 else re.sub(r'\d+', 'N', what))] += 1
    print()
    for (point, what), n in sorted(counts.items()):
        print('%d %4d  %s' % (point, n, what))
    for point in sorted(wanted):
        print('point %d: %d places' % (point, sum(n for (p, _), n in counts.items() if p == point)))


main()
