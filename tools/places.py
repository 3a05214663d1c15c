#!/usr/bin/env python3
"""Counts the places in crates/*/src that docs/DESIGN-PASS.md speaks of, point by point.

usage: python3 tools/places.py [COMMIT] [--show]

Without a commit it reads the working tree. --show prints the places too. It goes by text: what it finds is a place to read,
and the page says what became of each.
"""
import os
import re
import subprocess
import sys

KEYWORDS = {
    'as', 'break', 'const', 'continue', 'else', 'enum', 'false', 'fn', 'for', 'if', 'impl', 'in', 'let', 'loop', 'match', 'mod',
    'move', 'mut', 'pub', 'ref', 'return', 'self', 'Self', 'struct', 'trait', 'true', 'type', 'use', 'where', 'while', 'Some',
    'None', 'Ok', 'Err', 'matches', 'unwrap', 'usize', 'bool',
}

# points that a line shows
LINES = [
    ('1 a Result in a Result', r'Result<Result<'),
    ('1 an Err handed on by hand', r'Err\((fault|refusal|cause|e)\) => (return )?(Err|Ok\(Err)'),
    ('1 a None turned into an Err by hand', r'None => (return )?(Ok\()?Err\('),
    ('1 a fixed Err returned from a let-else', r'else \{\n *return (Ok\()?Err\('),
    ('1 a flag in a struct or a parameter', r'^ +(pub )?[a-z_]+: bool,'),
    # not `for _ in 0..n`, which only repeats
    ('3 a loop over numbers, with a count, or by while', r'^ *for (?!_ )[^{]* in [^{]*(\.\.|enumerate\(\))|^ *while '),
    ('4 a conversion, an order or a text by hand', r'fn (number|of_number|name|reason|rank|widened|into_row|from_row|[a-z_]+_name|same_[a-z]+|[a-z]+_status_of|value_of|done_text)[<(]'),
    ('4 a comparison by a pattern', r'matches!\('),
    ('6 a table of fixed size', r'^ +(pub )?[a-z_]+: \[[A-Za-z<>]+; [0-9]+\]'),
]


def tree(commit):
    """The files of src/, by path."""
    if commit:
        names = subprocess.check_output(['git', 'ls-tree', '-r', '--name-only', commit], text=True).split('\n')
        return {n: subprocess.check_output(['git', 'show', f'{commit}:{n}'], text=True)
                for n in names if re.match(r'crates/[a-z_]+/src/.*\.rt$', n)}
    found = {}
    for folder, _, names in os.walk('crates'):
        for n in names:
            path = os.path.join(folder, n)
            if n.endswith('.rt') and '/src/' in path and '/out/' not in path:
                found[path] = open(path).read()
    return found


def proofs(commit):
    """Answer files, files of invariants, and lines of proofs/."""
    if commit:
        names = subprocess.check_output(['git', 'ls-tree', '-r', '--name-only', commit], text=True).split('\n')
        read = lambda n: subprocess.check_output(['git', 'show', f'{commit}:{n}'], text=True)
    else:
        names = [os.path.join(d, n) for d, _, ns in os.walk('crates') for n in ns if '/out/' not in d + '/']
        read = lambda n: open(n).read()
    names = [n for n in names if re.match(r'crates/[a-z_]+/proofs/.*\.antt$', n)]
    return (sum(n.endswith('/Answers.antt') for n in names), sum(n.endswith('/Invariants.antt') for n in names),
            sum(read(n).count('\n') for n in names))


def functions(text):
    """Each function with a body: its line, its name, its head with the clauses, its body."""
    for m in re.finditer(r'^ *(pub(\([a-z]+\))? )?fn ([a-z_0-9]+)', text, re.M):
        indent = re.match(r' *', m.group(0)).group(0)
        # the body begins at a brace alone, or at the end of the signature, and ends at a brace as far in as the function
        end = text.find('\n' + indent + '}', m.end())
        if end < 0:
            continue
        whole = text[m.end():end]
        cut = re.search(r'\n' + indent + r'\{\n| \{\n', whole)
        if not cut or '\n' + indent + 'fn ' in whole:
            continue
        yield text.count('\n', 0, m.start()) + 1, m.group(3), whole[:cut.start()], whole[cut.end():]


def shape(body):
    """A body without its names and numbers."""
    body = re.sub(r'//.*', '', body)
    tokens = re.findall(r'"[^"]*"|b\'.\'|[A-Za-z_][A-Za-z_0-9]*|[0-9][0-9_]*|\S', body)
    out = []
    for t in tokens:
        if re.match(r'[A-Za-z_]', t) and t not in KEYWORDS:
            t = 'name'
        elif re.match(r'[0-9"]|b\'', t):
            t = 'value'
        out.append(t)
    return out


def twins(files):
    groups = {}
    for path, text in files.items():
        if '_tests/' in path:
            continue
        for line, name, _, body in functions(text):
            s = shape(body)
            if len(s) >= 16:
                groups.setdefault(tuple(s), []).append(f'{path}:{line} {name}')
    return [g for g in groups.values() if len(g) > 1]


def facts(files):
    """Clauses that three or more functions of a file have, word for word."""
    found = []
    for path, text in files.items():
        count = {}
        for line, name, head, _ in functions(text):
            for m in re.finditer(r'^\s*(requires|ensures)( [a-z_]+)? \{ (.*) \}$', head, re.M):
                count.setdefault((m.group(1), m.group(3)), set()).add(f'{path}:{line} {name}')
        found += [(k, sorted(v)) for k, v in count.items() if len(v) > 2]
    return found


def main():
    args = [a for a in sys.argv[1:] if a != '--show']
    show = '--show' in sys.argv
    files = tree(args[0] if args else None)
    for title, pattern in LINES:
        places = []
        for path, text in sorted(files.items()):
            lines = text.split('\n')
            for i, line in enumerate(lines, 1):
                # a pattern over two lines sees the next one too
                seen = '\n'.join(lines[i - 1:i + 1]) if '\\n' in pattern else line
                if re.search(pattern, seen) and not line.strip().startswith('//'):
                    places.append(f'{path}:{i}: {line.strip()}')
        print(f'{title}: {len(places)}')
        if show:
            print(''.join(f'    {p}\n' for p in places), end='')
    groups = twins(files)
    print(f'2 functions of one shape: {sum(map(len, groups))} in {len(groups)} groups')
    if show:
        print(''.join('    ' + ', '.join(g) + '\n' for g in sorted(groups)), end='')
    same = facts(files)
    print(f'5 facts in the contracts of three or more functions of a file: {len(same)}')
    if show:
        print(''.join(f'    {k[0]} {k[1]}: ' + ', '.join(p.split(' ')[1] for p in v) + f' ({v[0].split(":")[0]})\n' for k, v in same), end='')
    answers, invariants, lines = proofs(args[0] if args else None)
    print(f'8 answer files {answers}, files of invariants {invariants}, lines of proofs {lines}')


main()
