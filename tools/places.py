#!/usr/bin/env python3
"""Counts the places of docs/DESIGN-PASS.md in src/: python3 tools/places.py [POINT] [--list]. Run at the top of a checkout.

What it finds are candidates by their shape; docs/DESIGN-PASS.md says of each that is left why it stays."""
import glob, re, sys

FILES = sorted(glob.glob('crates/*/src/*.rt'))


def lines_of(path):
    with open(path, encoding='utf-8') as f:
        return f.read().split('\n')


def functions():
    """Each function: file, line, name, signature, clauses, body."""
    for path in FILES:
        lines = lines_of(path)
        i = 0
        while i < len(lines):
            m = re.match(r'^(\s*)(?:#\[.*\] )?(?:pub(?:\(crate\))? )?(?:extern "C" )?fn (\w+)', lines[i])
            if not m:
                i += 1
                continue
            indent, name, start = m.group(1), m.group(2), i
            head = []
            while i < len(lines) and not re.search(r'\{$', lines[i]) or re.match(r'^\s*(requires|ensures)\b', lines[i]):
                head.append(lines[i])
                i += 1
                if i >= len(lines) or re.search(r';$', head[-1]):
                    break
            if i < len(lines):
                head.append(lines[i])
            body = []
            i += 1
            while i < len(lines) and lines[i] != indent + '}':
                body.append(lines[i])
                i += 1
            clauses = [l.strip() for l in head if re.match(r'^\s*(requires|ensures)\b', l)]
            signature = ' '.join(l.strip() for l in head if not re.match(r'^\s*(requires|ensures)\b', l)).rstrip(' {')
            yield path, start + 1, name, signature, clauses, body


def enums():
    for path in FILES:
        text = '\n'.join(lines_of(path))
        for m in re.finditer(r'^(?:pub )?enum (\w+) \{\n(.*?)^\}', text, re.M | re.S):
            body = re.sub(r'\{[^}]*\}', '{}', m.group(2))
            variants = [v.strip() for v in re.split(r',\n|\n', body) if v.strip() and not v.strip().startswith(('//', '#'))]
            yield path, text[:m.start()].count('\n') + 1, m.group(1), [v.rstrip(',') for v in variants]


def point1():
    """Own enums of the shape of Option or Result; a flag in a struct; a count, an index or a number that stands for none or for a kind."""
    for path, line, name, variants in enums():
        with_value = [v for v in variants if '(' in v or '{' in v]
        bare = [v for v in variants if v not in with_value]
        if len(with_value) == 1 and len(bare) == 1:
            yield path, line, f'enum {name}: Option'
        elif any(v.startswith('Refused') for v in variants):
            yield path, line, f'enum {name}: Result'
        elif 'Passed' in bare or 'NotText' in bare or 'NoCall' in bare:
            yield path, line, f'enum {name}: Result or Option'
    for path in FILES:
        inside = None
        for i, l in enumerate(lines_of(path)):
            m = re.match(r'^(?:pub )?struct (\w+)', l)
            if m:
                inside = m.group(1)
            if l == '}':
                inside = None
            if inside and re.match(r'^\s+(pub )?\w+: bool,', l):
                yield path, i + 1, f'flag in struct {inside}'
    for path, line, name, signature, clauses, body in functions():
        text = '\n'.join(body)
        if re.search(r'-> (usize|u8|u64)$', signature):
            numbers = re.findall(r'=> (?:\d+),', text)
            if len(numbers) > 1:
                yield path, line, f'{name}: numbers for kinds'
            elif re.search(r'\b(len|n|16|made\(d\)|line\.len\(\))\n?$', text.strip()) and re.search(r'return (k|i|hint)\b', text):
                yield path, line, f'{name}: an index, or the length for none'
        if re.search(r'\bkind (==|!=|<=|<) \d|\b\d (<=|<) kind', text):
            yield path, line, f'{name}: kinds compared as numbers'


def shape(text):
    """A function's text without what twins differ in: types, sizes, constants and the names of functions."""
    text = re.sub(r'"[^"]*"', 'S', text)
    text = re.sub(r'\b0x[0-9A-Fa-f]+\b|\b\d+\b', 'N', text)
    text = re.sub(r'\b(u8|u16|u32|u64|usize|bool)\b', 'T', text)
    text = re.sub(r'\b[A-Z]\w*(::\w+)*\b', 'T', text)
    text = re.sub(r'\b\w+(::\w+)+(?=\()', 'F', text)
    text = re.sub(r'\b[a-z]\w*(?=\()', 'F', text)
    text = re.sub(r'\.[a-z]\w*\b(?!\()', '.f', text)
    return re.sub(r'\s+', ' ', text)


def point2():
    """Functions with the same text but for types, sizes, constants, fields and the functions that they call: groups of two and more, of three lines and more."""
    groups = {}
    for path, line, name, signature, clauses, body in functions():
        code = [l for l in body if l.strip() and not l.strip().startswith('//')]
        if len(code) < 3:
            continue
        params = re.sub(r'^.*?fn \w+', '', signature)
        names = re.findall(r'(\w+):', params)
        text = shape(params + ' | ' + ' '.join(l.strip() for l in code))
        for k, n in enumerate(names):
            text = re.sub(r'\b' + n + r'\b', f'p{k}', text)
        groups.setdefault(text, []).append((path, line, name))
    for text, found in sorted(groups.items(), key=lambda g: g[1]):
        if len(found) > 1:
            for path, line, name in found:
                yield path, line, f'{name} ({len(found)} alike: {found[0][2]})'


def point3():
    """Loops with while."""
    for path in FILES:
        for i, l in enumerate(lines_of(path)):
            if re.match(r'^\s*while ', l):
                yield path, i + 1, l.strip()


def point4():
    """Equality, order, copying, conversion and printing by hand."""
    for path, line, name, signature, clauses, body in functions():
        text = '\n'.join(body)
        if len(re.findall(r'=> (true|false),', text)) > 1:
            yield path, line, f'{name}: variants told apart by hand'
        elif re.fullmatch(r'both|same|same_bytes|wide|least|greatest|truth_word|word_of|id_of|copy_words|put_byte|lower_case', name):
            yield path, line, f'{name}: by hand what a trait or a method of the library is'
        elif len(re.findall(r'^\s+\w+: \w+\.\w+,$', text, re.M)) > 2:
            yield path, line, f'{name}: fields copied one by one'
        elif re.search(r'out: &mut \[u8[^\]]*\], at: usize', signature) and re.search(r'-> usize$', signature):
            yield path, line, f'{name}: prints by hand'


def point5():
    """Facts in the contracts of three functions and more, and parameters that always travel together, by the number of functions."""
    facts = [('memory_ok d (length mem', r'memory_ok d \(length mem'), ('Undamaged d mem', r'Undamaged d mem'), ('buffers_ok d (length mem', r'buffers_ok d \(length mem'),
             ('length words ≡ bytes_at limits + limits.bytes', r'length words\.\w+ ≡ bytes_at limits \+ limits\.bytes'), ('slots_words n ≤ length words', r'slots_words n ≤ length words'),
             ('length arena ≡ limit + limit', r'length arena\.\w+ ≡ limit \+ limit'), ('Held arena limit used start len', r'Held arena'),
             ('scratch.old ≡ replicate (length scratch.old) 0', r'scratch\.old ≡ replicate'),
             ('scratch_words (limits_of .. limits) ≤ length scratch', r'scratch_words \(limits_of'), ('limits_ok (limits_of .. limits)', r'limits_ok \(limits_of')]
    for label, pattern in facts:
        n = [(p, l, f) for p, l, f, s, c, b in functions() if any(re.search(pattern, x) for x in c if x.startswith('requires'))]
        if len(n) > 2:
            yield n[0][0], n[0][1], f'fact `{label}` in the requires of {len(n)} functions'
    together = [('d: Document, mem', r'd: Document, mem: &'), ('words, limits, counts', r'words: &(mut )?\[u64\], limits: \w+, counts: \w+'),
                ('arena, limit', r'arena: &(mut )?\[u64\], limit: usize'), ('start, len', r'start: usize, len: usize'), ('words, n', r'words: &(mut )?\[u64\], n: usize'),
                ('out, at', r'out: &mut \[u8[^\]]*\], at: usize'), ('stack, height', r'stack: &mut \[u64\], height: usize'), ('namespace, local', r'namespace: &\[u8\], local: &\[u8\]'),
                ('mem, nodes, made', r'mem: &\[u64\], nodes: usize, made: usize'), ('document, memory', r'document: &(mut )?\[u64\], memory: &(mut )?\[u64\]')]
    for label, pattern in together:
        n = [(p, l, f) for p, l, f, s, c, b in functions() if re.search(pattern, s)]
        if len(n) > 2:
            yield n[0][0], n[0][1], f'parameters `{label}` of {len(n)} functions'


def point6():
    """Buffers with a length or a place beside, parallel arrays, searches by hand."""
    for path, line, name, signature, clauses, body in functions():
        if re.search(r'stack: &mut \[u64\], height: usize|out: &mut \[u(8|64)[^\]]*\], (at|count): usize|words: &(mut )?\[u64\], at: usize, n: usize|marks: &(mut )?\[u64\], (at|start): usize|scratch: &mut \[u64\], at: usize', signature):
            yield path, line, f'{name}: {signature[signature.find("("):]}'


def point7():
    """A match that chooses which function to call, in three arms and more, and tables of names by number."""
    for path, line, name, signature, clauses, body in functions():
        text = '\n'.join(body)
        arms = re.findall(r'=> (?:\{\s*)?(?:\w+\()?[a-z]\w*(?:::\w+)*\(', text)
        if len(arms) > 2:
            yield path, line, f'{name}: {len(arms)} arms'
        elif re.search(r'match position\(', text):
            yield path, line, f'{name}: a table of words by number'


def point8():
    """Answers and lemmas in proofs/, by crate."""
    for crate in sorted(glob.glob('crates/*/proofs')):
        answers = lemmas = 0
        for path in glob.glob(crate + '/**/*.antt', recursive=True):
            pub = sum(1 for l in lines_of(path) if re.match(r'^(pub )?\S+ : ', l))
            if path.endswith('/Answers.antt'):
                answers += pub
            elif not path.endswith('/Invariants.antt'):
                lemmas += sum(1 for l in lines_of(path) if re.match(r'^\s*pub \S+ : ', l))
        if answers + lemmas:
            yield crate, 0, f'{answers} answers, {lemmas} public lemmas'


def main():
    args = [a for a in sys.argv[1:] if a != '--list']
    for k in [int(a) for a in args] or range(1, 9):
        found = list(globals()[f'point{k}']())
        print(f'point {k}: {len(found)} places')
        if '--list' in sys.argv:
            for path, line, what in found:
                print(f'  {path}:{line}: {what}')
        if k == 8:
            a = sum(int(re.match(r'(\d+) answers', w).group(1)) for _, _, w in found)
            b = sum(int(re.search(r'(\d+) public', w).group(1)) for _, _, w in found)
            print(f'  {a} answers, {b} public lemmas')


main()
