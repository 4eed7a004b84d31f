#!/usr/bin/env python3
"""Lists places in crates/*/src that may read like an older form of the language: tools/places.py [POINT].

Each line is a place to look at, not a verdict; docs/DESIGN-PASS.md says which of them are places and what became of each.
Points: 1 flags and numbers for kinds and refusals; 2 twins; 3 loops by an index; 4 equality, conversion and printing by hand;
5 facts and parameters that go together; 6 buffers with a length beside; 7 switches on what to do; 8 answers and lemmas.
"""
import collections
import glob
import re
import sys

SOURCES = sorted(glob.glob('crates/*/src/**/*.rt', recursive=True))


def lines():
    for path in SOURCES:
        for number, line in enumerate(open(path), 1):
            yield path, number, line.rstrip('\n')


def matching(pattern, but=None):
    return [f'{p}:{n}: {t.strip()}' for p, n, t in lines()
            if re.search(pattern, t) and not t.lstrip().startswith('//') and not (but and re.search(but, t))]


def functions():
    """Path, name, parameters, contract and body of each function."""
    for path in SOURCES:
        text = re.sub(r'//[^\n]*', '', open(path).read())
        for m in re.finditer(r'\bfn (\w+)(?:<[^({]*>)?\(([^)]*)\)([^{;]*(?:\{[^\n]*\}\n[^{;]*)*)', text):
            rest = text[m.end():m.end() + 4000]
            body = re.match(r'(\{.*?\n {0,4}\}\n)', rest, re.S)
            yield path, m.group(1), m.group(2), m.group(3), body.group(1) if body else ''


def point_1():
    return matching(r'^\s*(pub )?enum |Result<bool|\w+: bool,$|-> (Option<)?bool|-> \(.*bool|soundness: usize|(modulus|degree|kind): (u32|usize|&str)')


def point_2():
    """Functions whose bodies are the same but for types, literals and the names of one kind."""
    groups = collections.defaultdict(list)
    for path, name, _, _, body in functions():
        shape = re.sub(r'\b\d[\d_]*(u\d+)?\b|b?"[^"]*"', '#', body)
        shape = re.sub(r'\b[A-Z]\w*(<[^;(){}]*>)?(::\w+)*', 'T', shape)
        shape = re.sub(r'\b(\w+)\b', lambda m: m.group(1) if m.group(1) in KEEP else 'x', shape)
        shape = re.sub(r'\s+', '', shape)
        if len(shape) > 24:
            groups[shape].append(f'{path}: {name}')
    out = []
    for members in groups.values():
        if len(members) > 1:
            out.append(' ~ '.join(members))
    return sorted(out)


KEEP = {'let', 'if', 'else', 'match', 'for', 'in', 'while', 'return', 'mut', 'Ok', 'Err', 'Some', 'None', 'push', 'true', 'false'}


def point_3():
    return matching(r'\bwhile |\bfor \w+ in [^{]*\.\.|\.enumerate\(\)')


def point_4():
    return matching(r'fn (equal|same\w*|are_same|eq|cmp|clone|byte|number|kind_of|is_named|soundness_type|show\w*|print\w*|put_\w+)\b|print!\(rt; |anyhow!\("\{|as u8\b|bytes\[[0-3]\]')


def point_5():
    pairs = collections.defaultdict(set)
    facts = collections.defaultdict(set)
    for path, name, params, contract, _ in functions():
        names = [p.split(':')[0].strip().replace('mut ', '').lstrip('&') for p in params.split(',') if p.strip()]
        crate = path.split('/')[1]
        for i, a in enumerate(names):
            for b in names[i + 1:]:
                pairs[crate, a, b].add(name)
        for clause in re.findall(r'requires \w*\s*\{([^\n]*)\}\n', contract):
            for fact in clause.split('×'):
                facts[crate, re.sub(r'[()]', '', fact).strip()].add(name)
    out = [f'{c}: parameters {a}, {b}: {len(fs)}: {", ".join(sorted(fs))}' for (c, a, b), fs in pairs.items() if len(fs) >= 3]
    out += [f'{c}: fact {f}: {len(fs)}: {", ".join(sorted(fs))}' for (c, f), fs in facts.items() if len(fs) >= 3]
    return sorted(out)


def point_6():
    return matching(r'\b(len|at|filled|start|from|count|done): (usize|u32|u64),|\[u8; 32\](?!,$)|&mut \[\w+; \d+\], |\.binary_search|binary')


def point_7():
    return matching(r'\bmatch (\(?\*?(self|kind|weight|order|due|r|degree|line|modulus|case|strategy|name|word)\b)|: fn\(|\bdyn |impl Fn')


def point_8():
    out = []
    for path in sorted(glob.glob('crates/*/proofs/**/Answers.antt', recursive=True)):
        text = open(path).read()
        out.append(f'{path}: {len(re.findall(r"^[a-z][^ ]* :", text, re.M) + re.findall(r"^pub ", text, re.M))} statements, {text.count(chr(10))} lines')
    return out


def main():
    points = {k[6:]: f for k, f in globals().items() if k.startswith('point_')}
    for point in sys.argv[1:] or sorted(points):
        found = points[point]()
        print(f'point {point}: {len(found)}')
        for line in found:
            print('  ' + line)


main()
