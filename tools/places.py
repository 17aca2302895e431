#!/usr/bin/env python3
"""Lists the places that docs/DESIGN-PASS.md counts: `python3 tools/places.py` at the top of the repository, or with the
numbers of points, as `python3 tools/places.py 1 3`. It reads crates/*/src/*.rt (point 8: crates/*/proofs)."""
import collections
import glob
import os
import re
import sys

os.chdir(os.path.join(os.path.dirname(os.path.abspath(__file__)), '..'))
FILES = sorted(glob.glob('crates/*/src/*.rt'))
TEXT = {f: open(f, encoding='utf-8').read() for f in FILES}
LINES = {f: TEXT[f].split('\n') for f in FILES}


def functions():
    """(file, line, head, clauses, body) of each function with a body."""
    for f in FILES:
        lines = LINES[f]
        i = 0
        while i < len(lines):
            m = re.match(r'( *)(pub(?:\([a-z]+\))? )?((?:unsafe |const |extern "C" )*)fn (\w+)', lines[i])
            if not m:
                i += 1
                continue
            pad = m.group(1)
            j = i
            while j < len(lines) and lines[j] != pad + '{' and not (lines[j].endswith('{') and not lines[j].lstrip().startswith(('requires', 'ensures'))) and lines[j].rstrip() != pad + '}' and not lines[j].endswith(';'):
                j += 1
            if j == len(lines) or lines[j].endswith(';'):
                i += 1
                continue
            k = j + 1
            while k < len(lines) and lines[k] != pad + '}':
                k += 1
            head = '\n'.join(x for x in lines[i:j + 1] if not re.match(r' *(requires|ensures)', x))
            clauses = [x.strip() for x in lines[i:j + 1] if re.match(r' *(requires|ensures)', x)]
            yield f, i + 1, m.group(4), head, clauses, lines[j + 1:k]
            i = k + 1


FUNCTIONS = list(functions())


def show(place, what):
    print(f'  {place}: {what}')


def point1():
    n = 0
    # enums with a case that says that there is nothing, or that nothing went wrong
    empty = {'Accepted', 'Written', 'Packed', 'Unknown', 'Undefined', 'UnknownState', 'Singular', 'Bad', 'None', 'Special', 'Absent', 'Refused'}
    for f in FILES:
        for m in re.finditer(r'^(?:pub )?enum (\w+)[^{]*\{(.*?)^\}', TEXT[f], re.M | re.S):
            cases = re.findall(r'^    (\w+)', m.group(2), re.M)
            if empty & set(cases):
                n += 1
                show(f'{f}:{TEXT[f][:m.start()].count(chr(10)) + 1}', f'enum {m.group(1)} {{{", ".join(cases)}}}')
        # a flag or an answer beside a value
        for m in re.finditer(r'^(?:pub )?struct (\w+)[^{;]*\{(.*?)^\}', TEXT[f], re.M | re.S):
            if re.search(r'^    (?:pub )?(?:answer: |stored: bool|whole: bool|number: u32)', m.group(2), re.M):
                n += 1
                show(f'{f}:{TEXT[f][:m.start()].count(chr(10)) + 1}', f'struct {m.group(1)}, a flag or an answer beside a value')
    # functions that answer numbers of refusals, or numbers that say what to do
    for f, line, name, head, clauses, body in FUNCTIONS:
        if '/bench_loops/' in f or 'no_mangle' in LINES[f][line - 2]:
            continue
        if re.search(r'-> u32\b', head) and any(re.match(r' *(return [1-9];|[1-9]|\w+::\w+(\(_?\))? => [1-9],)$', x) or re.search(r'\breturn (code|number);|number: [1-9]', x) for x in body):
            n += 1
            show(f'{f}:{line}', f'fn {name} answers numbers')
    # numbers in place of kinds
    for f, line, name, head, clauses, body in FUNCTIONS:
        m = re.search(r'\b(how|kind|type_|field|letter): u(?:8|32)\b', head)
        if m and '/bench_loops/' not in f and not re.search(r'/\w+_c/', f):
            n += 1
            show(f'{f}:{line}', f'fn {name} takes the number {m.group(1)}')
    for f in FILES:
        for i, x in enumerate(LINES[f]):
            if re.match(r' *pub (type_|kind|how): u(8|32),', x):
                n += 1
                show(f'{f}:{i + 1}', f'{x.strip()} a kind as a number')
    return n


def skeleton(body):
    t = '\n'.join(re.sub(r'//.*', '', x).strip() for x in body)
    t = re.sub(r'b?\'[^\']*\'|"[^"]*"|\b(0x)?[0-9][0-9A-Fa-f_]*(\.[0-9]+)?(u8|u16|u32|u64|usize|f32|f64)?\b', '#', t)
    t = re.sub(r'\b(u8|u16|u32|u64|usize|f32|f64|bool)\b|\b[A-Z]\w*\b', 'T', t)
    return re.sub(r'\b(?!return|let|mut|if|else|match|while|for|in|as|true|false|loop|T\b)[a-z_]\w*\b', 'v', t)


def point2():
    groups = collections.defaultdict(list)
    for f, line, name, head, clauses, body in FUNCTIONS:
        if re.search(r'/\w+_c/|/bench_loops/', f):
            continue
        if len(skeleton(body)) >= 25:
            groups[skeleton(body)].append((f, line, name))
    n = 0
    for s, members in groups.items():
        if len(members) > 1:
            n += len(members)
            show(members[0][0].split('/')[1], ', '.join(f'{f.split("/", 1)[1]}:{line} {name}' for f, line, name in members))
    return n


def point3():
    n = 0
    for f in FILES:
        for i, x in enumerate(LINES[f]):
            if re.match(r' *(while|loop)\b', x):
                n += 1
                show(f'{f}:{i + 1}', x.strip())
    return n


def point4():
    n = 0
    for f, line, name, head, clauses, body in FUNCTIONS:
        if re.search(r'/\w+_c/|/bench_loops/', f):
            continue
        one = re.search(r'fn \w+\((\w+): &?([\w\[\]; ]+)\) -> ([\w<>]+)', head)
        if re.match(r'(color_row|row_color|wide\d*|.*_number|.*_words|section_of|section_bit|hex_digit|put_word|put_refusal|put_bad|put_text|eq|cmp|compare|clone|fmt|to_string|four_bytes|one_if_packed|kind_of|default_\w+|zero_light|identity)$', name) and (one or not re.search(r'\(.*\w', head.split('\n')[0].split('fn ')[1]) or name.startswith('put_') or name == 'four_bytes'):
            n += 1
            show(f'{f}:{line}', f'fn {name}')
    return n


def point5():
    n = 0
    facts = collections.Counter()
    where = collections.defaultdict(list)
    for f, line, name, head, clauses, body in FUNCTIONS:
        for c in clauses:
            m = re.match(r'requires (?:\w+ )?\{ (.*) \}', c)
            for part in (m.group(1).split(' × ') if m else []):
                part = part.strip('()').replace('.old', '.now')
                facts[part] += 1
                where[part].append(f'{f.split("/")[1]} {name}')
    for part, k in facts.most_common():
        if k >= 3 and len({w for w in where[part]}) >= 3:
            n += 1
            show(f'{k} contracts', f'{part}: {", ".join(where[part])}')
    groups = collections.defaultdict(set)
    for f, line, name, head, clauses, body in FUNCTIONS:
        if re.search(r'/\w+_c/|/host/|/lent_\w+/', f) or 'no_mangle' in LINES[f][line - 2]:
            continue
        ps = re.findall(r'(\w+): ', head.split('->')[0])
        for i in range(len(ps) - 2):
            groups[tuple(ps[i:i + 3])].add(f'{f.split("/")[1]} {name}')
    seen = set()
    for g, users in sorted(groups.items(), key=lambda x: -len(x[1])):
        if len(users) >= 3 and frozenset(users) not in seen:
            seen.add(frozenset(users))
            n += 1
            show(f'{len(users)} functions', f'({", ".join(g)}, ..) together: {", ".join(sorted(users))}')
    return n


def point6():
    n = 0
    for f in FILES:
        for i, x in enumerate(LINES[f]):
            m = re.match(r' *(?:pub )?(\w+): \[[^\]]*; [^\]]*\],$', x)
            near = ' '.join(LINES[f][max(0, i - 3):i + 6])
            if m and re.search(r'\b(len|used|count|overflow_count|n|end|held): (usize|u16)', near):
                n += 1
                show(f'{f}:{i + 1}', x.strip() + ' with a length beside')
    for f, line, name, head, clauses, body in FUNCTIONS:
        if '/bench_loops/' in f:
            continue
        if re.search(r'\[[^\]]*; [^\]]*\]|&(mut )?\[u8\]', head) and re.search(r'\b(used|n|len|held|kept|count): (usize|u16)', head) and 'pub extern' not in head:
            n += 1
            show(f'{f}:{line}', f'fn {name}, a buffer and its length')
    return n


def point7():
    n = 0
    for f, line, name, head, clauses, body in FUNCTIONS:
        t = '\n'.join(body)
        if re.search(r'match (letter|kind_of\(|field|how)\b', t) or re.search(r'\bhow < |\bhow == ', t):
            n += 1
            show(f'{f}:{line}', f'fn {name} switches on {re.search(r"(letter|kind_of|field|how)", t).group(1)}')
        steps = re.findall(r'^ *(\w+)\(\w+::\w+, .*\);$', t, re.M)
        if len(steps) >= 3:
            n += 1
            show(f'{f}:{line}', f'fn {name}: {len(steps)} calls of {steps[0]} one under the other')
        if re.match(r' *if has_section\(', body[0]) if body else False:
            n += 1
            show(f'{f}:{line}', f'fn {name}: a step under a test of its section')
    return n


def point8():
    walks = sorted(glob.glob('crates/*/proofs/**/Proof.antt', recursive=True))
    lines = collections.Counter()
    for p in glob.glob('crates/*/proofs/**/*.antt', recursive=True):
        lines[p.split('/')[1]] += sum(1 for _ in open(p, encoding='utf-8'))
    per = collections.Counter(p.split('/')[1] for p in walks)
    for c in sorted(per):
        show(c, f'{per[c]} walks by hand, {lines[c]} lines of proofs')
    print(f'  {sum(lines.values())} lines of proofs in all')
    return len(walks)


if __name__ == '__main__':
    asked = [int(x) for x in sys.argv[1:]] or list(range(1, 9))
    for p in asked:
        print(f'point {p}')
        print(f'point {p}: {globals()[f"point{p}"]()} places')
