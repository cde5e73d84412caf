#!/usr/bin/env python3
"""places.py [ROOT] [--list]: counts, in src/ and proofs/ of every crate, the places that docs/DESIGN-PASS.md speaks of.

Each count is a plain search over the text, so it also finds places that are fine as they are; the page says which."""
import collections
import glob
import os
import re
import sys

ARGS = [a for a in sys.argv[1:] if not a.startswith('--')]
ROOT = ARGS[0] if ARGS else os.path.join(os.path.dirname(os.path.abspath(__file__)), '..')
LIST = '--list' in sys.argv
KEYWORDS = set('let mut if else match for in while return fn self as true false pub impl where const ref move loop'.split())


def sources():
    for path in sorted(glob.glob(os.path.join(ROOT, 'crates/*/src/**/*.rt'), recursive=True)):
        yield os.path.relpath(path, os.path.join(ROOT, 'crates')), open(path).read()


def without_tests(text):
    return text.split('#[cfg(test)]')[0]


def code(text):
    """The text without comments and clauses."""
    text = re.sub(r'//[^\n]*', '', without_tests(text))
    return re.sub(r'^\s*(ensures|requires)\b[^\n]*|^\s*ghost [^\n]*', '', text, flags=re.M)


def matching(text, at):
    """The place behind the brace that closes the one at `at`."""
    depth = 0
    for i in range(at, len(text)):
        depth += {'{': 1, '}': -1}.get(text[i], 0)
        if depth == 0:
            return i + 1
    return len(text)


def functions(text):
    """Name, parameters, clauses and body of each function."""
    text = re.sub(r'//[^\n]*', '', without_tests(text))
    for m in re.finditer(r'\bfn (\w+)', text):
        at = text.find('(', m.end())
        depth = 0
        for i in range(at, len(text)):
            depth += {'(': 1, ')': -1}.get(text[i], 0)
            if depth == 0:
                break
        parameters = text[at + 1:i]
        rest = text[i + 1:]
        head, brace = [], None
        at_line = 0
        for line in rest.split('\n'):
            if re.match(r'\s*(ensures|requires)\b', line):
                head.append(line.strip())
            elif line.rstrip().endswith('{'):
                brace = at_line + len(line.rstrip()) - 1
                break
            elif line.rstrip().endswith(';') and not line.strip().startswith('ensures'):
                break
            at_line += len(line) + 1
        block = rest[brace:matching(rest, brace)] if brace is not None else ''
        yield m.group(1), ' '.join(parameters.split()), head, block


def grep(pattern, flags=0):
    found = []
    for path, text in sources():
        for m in re.finditer(pattern, code(text), flags | re.M):
            found.append((path, ' '.join(m.group(0).split())[:90]))
    return found


def tell(name, found):
    print(f'{name}: {len(found)}')
    if LIST:
        for place in found:
            print('    ' + ': '.join(str(p) for p in place))


def point_1():
    tell('shapes 1, enums', grep(r'^\s*(pub(\(\w+\))? )?enum \w+'))
    tell('shapes 2, arms that only carry an Option or a Result on', grep(
        r'Ok\((\w+)\) => (Ok|Some)\(\1\)|Err\((\w+)\) => Err\(\3\)|Err\(_\) => None|None => None,|Some\((\w+)\) => Some\(\4\)'))
    tell('shapes 3, arms and constants that give a kind a number', grep(
        r'^\s*[\w:]+(\([^)]*\))? => \d+,|^\s*\d+ => [\w:()]+,|const \w+: u8 = \d+;|\bkind: u\d+|layer: u8|surface: u8|winding: u8'))
    tell('shapes 4, flags that are switched', grep(r'let mut \w+ = (false|true);'))
    tell('shapes 5, values that stand for none', grep(r'sig12: -1\.0|_ => 16,'))


def shape(parameters, block):
    """The tokens of a function, with names of its own, types, constants and numbers left out."""
    text = parameters + ' ' + block
    text = re.sub(r'"[^"]*"', '"', text)
    tokens = re.findall(r'[A-Za-z_]\w*|\d[\w.]*|[^\s\w]', text)
    out = []
    for t in tokens:
        if re.match(r'\d', t):
            out.append('0')
        elif re.match(r'[A-Z]', t) and t not in ('Some', 'None', 'Ok', 'Err', 'Option', 'Result', 'Self'):
            out.append('T')
        elif re.match(r'[a-z_]', t) and t not in KEYWORDS:
            out.append('v')
        else:
            out.append(t)
    return ' '.join(out)


def point_2():
    groups = collections.defaultdict(list)
    for path, text in sources():
        for name, parameters, _, block in functions(text):
            tokens = shape(parameters, block)
            if len(tokens.split()) >= 40:
                groups[tokens].append((path, name))
    twins = [g for g in groups.values() if len(g) > 1]
    print(f'twins 1, functions that have a twin by their tokens: {sum(map(len, twins))} in {len(twins)} groups')
    if LIST:
        for g in twins:
            print('    ' + ', '.join(f'{p} {n}' for p, n in g))
    types = collections.defaultdict(list)
    for path, text in sources():
        for m in re.finditer(r'^pub (?:struct|enum) (\w+)[^{;]*\{', code(text), re.M):
            types[m.group(1)].append(path)
    same = {n: p for n, p in types.items() if len(p) > 1}
    print(f'twins 2, types of one name in several files: {sum(map(len, same.values()))} of {len(same)} names')
    if LIST:
        for n, p in same.items():
            print(f'    {n}: ' + ', '.join(p))


def point_3():
    tell('loops 1, `for` over a range', grep(r'for \w+ in [^{\n]*\.\.[^{\n]*\{'))
    found = []
    for path, text in sources():
        for name, _, _, block in functions(text):
            for m in re.finditer(r'for (\w+) in [^{\n]*\.\.[^{\n]*\{', block):
                inner = block[m.end():matching(block, m.end() - 1)]
                if re.search(r'\[[^\]]*\b' + m.group(1) + r'\b[^\]]*\]', inner):
                    found.append((path, name, m.group(0)))
    tell('loops 2, of them, whose body indexes with the counter', found)
    tell('loops 3, `while`', grep(r'while [^{]*\{'))
    tell('loops 4, counters that a loop steps', grep(r'\b(\w+) (\+= 1;|= \1(\.saturating_add\(1\)| \+ 1);)'))


def point_4():
    found = []
    for path, text in sources():
        for name, parameters, _, block in functions(text):
            inner = ' '.join(block.strip('{} \n').split())
            if re.match(r'match [*\w.]+(\(\))? \{', inner) and ('self' == parameters.strip('&') or ':' in parameters and ',' not in parameters):
                found.append((path, name))
    tell('by hand 1, functions of one argument that are one `match`', found)
    tell('by hand 2, functions that name a value by a word', grep(r'fn named\('))
    tell('by hand 3, `fn number`, `fn code`, `fn .._number`, `fn .._name`, `fn .._bits?`', grep(r'fn (number|code|\w+_number|\w+_name|\w+_bits?|done|plural)\('))
    tell('by hand 4, comparisons of bit patterns', grep(r'f64_to_bits_with_nan\([^)]*\) == '))
    tell('by hand 5, functions that print fields', grep(r'fn print_\w+\('))
    tell('by hand 6, impl blocks of From, TryFrom, FromStr, Display', grep(r'^impl(<[^>]*>)? (\w+::)?(From|TryFrom|FromStr|Display)\b[^\n]*'))


def split_parameters(parameters):
    out, depth, part = [], 0, ''
    for c in parameters:
        depth += {'<': 1, '[': 1, '(': 1, '>': -1, ']': -1, ')': -1}.get(c, 0)
        if c == ',' and depth == 0:
            out.append(part.strip())
            part = ''
        else:
            part += c
    return [p for p in out + [part.strip()] if p]


def point_5():
    pairs = collections.Counter()
    clauses = collections.Counter()
    for path, text in sources():
        for name, parameters, head, _ in functions(text):
            ps = [' '.join(p.replace('mut ', '').split()) for p in split_parameters(parameters)]
            ps = [p for p in ps if ':' in p]
            for i in range(len(ps)):
                for j in range(i + 1, len(ps)):
                    pairs[(ps[i], ps[j])] += 1
            for c in head:
                body = re.sub(r'^(ensures|requires)\*?\s*\w*\s*', '', c)
                clauses[body] += 1
    often = {k: v for k, v in pairs.items() if v >= 3}
    print(f'together 1, pairs of parameters that three functions or more share: {len(often)}, at {sum(often.values())} places')
    if LIST:
        for k, v in sorted(often.items(), key=lambda x: -x[1]):
            print(f'    {v} × {k[0]}, {k[1]}')
    same = {k: v for k, v in clauses.items() if v >= 3 and 'result ≡' not in k}
    print(f'together 2, clauses that stand, letter by letter, in three contracts or more: {len(same)}, at {sum(same.values())} places')
    if LIST:
        for k, v in sorted(same.items(), key=lambda x: -x[1]):
            print(f'    {v} × {k[:110]}')


def point_6():
    found = []
    for path, text in sources():
        for name, parameters, _, _ in functions(text):
            if re.search(r'(\w+: &(mut )?\[[^\]]*\]).*\b(count|at|made): (usize|u16)', parameters):
                found.append((path, name))
    tell('buffers 1, functions that take a slice and a count or a place in it', found)
    tell('buffers 2, structs with a buffer and a length', grep(r'counts: Sizes|lengths: Sizes'))


def point_7():
    tell('switches 1, parameters that are a flag', grep(r'\b\w+: bool\b(?=[,)])'))
    tell('switches 2, closures', grep(r'(?:[(,=] ?|move )\|[^|\n]*\| ?[\w{(*!&]'))
    tell('switches 3, `impl Fn`, `F: Fn`, dyn', grep(r'\bFn(Once|Mut)?\(|\bdyn '))


def point_8():
    answers = sorted(glob.glob(os.path.join(ROOT, 'crates/*/proofs/**/Answers.antt'), recursive=True))
    plain, lines = [], 0
    for path in answers:
        text = open(path).read()
        lines += text.count('\n')
        bodies = re.findall(r'^[\w-]+(?: \w+)* = (.*)$', text, re.M)
        if bodies and all(b.strip() == 'search rules' for b in bodies):
            plain.append((os.path.relpath(path, os.path.join(ROOT, 'crates')),))
    print(f'proofs 1, files of answers: {len(answers)}, {lines} lines')
    tell('proofs 2, of them, files in which every answer is a bare search', plain)
    everything = glob.glob(os.path.join(ROOT, 'crates/*/proofs/**/*.antt'), recursive=True)
    print(f'proofs 3, lines of proofs/: {sum(open(p).read().count(chr(10)) for p in everything)}')
    names = collections.Counter()
    for path in everything:
        if path.endswith(('Answers.antt', 'Invariants.antt')):
            continue
        names.update(set(re.findall(r'^pub ([\w-]+) :', open(path).read(), re.M)))
    twice = {n: c for n, c in names.items() if c > 1}
    print(f'proofs 4, lemmas of one name in several files: {len(twice)}')
    if LIST:
        print('    ' + ', '.join(sorted(twice)))


for point in (point_1, point_2, point_3, point_4, point_5, point_6, point_7, point_8):
    point()
