#!/usr/bin/env python3
"""Brings the definitions and lemmas of this repository to today's spelling: words in snake case, a prime as an apostrophe.

usage: port_names.py                     in the repository: turns crates/ by tools/port_names.tsv, one row a name
       port_names.py gather TREE..       writes the table from trees that port.py has turned, for the Rattle of `rt`
       port_names.py left [TREE]         turns what was left by tools/port_names_left.tsv: names that a library has too,
                                         constructors, names of imported modules

A name is turned in definitions, proofs, clauses, comments and must-fail edits, and never in a string. Functions of src/ keep
their names, as they have no dash and no capital. The table has no two names that fall together: each new name was nowhere.
"""
import collections, os, re, subprocess, sys

HERE = os.path.dirname(os.path.realpath(__file__))
TABLE = os.path.join(HERE, 'port_names.tsv')
DECLARED = re.compile(r"(?m)^ *(?:(?:pub|abbrev|unfoldable|data|record) )*([^\s(){}.;,@\"«»:]+)(?: [\({][^\n]*?[\)}])* :")
WORD = re.compile(r"[^\s(){}\[\].;,@\"«»:]+")
TOKEN = re.compile(r"(?P<string>b?\"(?:\\.|[^\"\\\n])*\")|(?P<word>[^\s(){}\[\].;,@\"«»:`]+)")


# What port.py spelled in one file otherwise than in those that cite it.
MENDS = {
    'alf/specs/Expressions.antt': {'at_least_lem': 'is_at_least', 'at_most': 'is_at_most'},
    'contradictions/specs/Calls.antt': {'field_own': 'own_at'},
    'alternative_listings/specs/Calls.antt': {'field_own': 'own_at'},
}


def texts(root, ends=('.antt', '.rt')):
    for d, ds, fs in os.walk(os.path.join(root, 'crates')):
        ds[:] = sorted(x for x in ds if x != 'out')
        for f in sorted(fs):
            if f.endswith(ends):
                yield os.path.join(d, f)


def read(p):
    with open(p, encoding='utf-8') as f:
        return f.read()


def spelled(name):
    """The name in snake case."""
    name = name.replace('′', "'")
    if '◌' in name or re.match(r'[A-Z]', name):
        return name
    name = re.sub(r'(?<=[a-z0-9])[A-Z](?=[a-z])|(?<=[a-z0-9])[A-Z](?![a-z])', lambda m: '_' + m[0].lower(), name)
    return name.replace('-', '_')


def gather(trees):
    declared, own, kit = set(), {}, set()
    in_antt, in_rust = collections.defaultdict(set), collections.defaultdict(set)
    for tree in trees:
        for p in texts(tree):
            t = read(p)
            if p.endswith('.antt'):
                declared.update(DECLARED.findall(t))
                code = re.sub(r'--[^\n]*|"[^"\n]*"', ' ', t)
                bare = re.sub(r'\b(?:Rattle|package)(?:\.[^\s(){}\[\];,.]+)+', ' ', code)
                for w in set(WORD.findall(bare)):
                    in_antt[w].add(p)
            else:
                t = re.sub(r'//[^\n]*|"(?:\\.|[^"\\\n])*"', ' ', t)
                ghost = ' '.join(re.findall(r'ghost use [^;]*;', t))
                for w in set(WORD.findall(t)):
                    in_antt[w].add(p) if w in WORD.findall(ghost) else None
                # what is no function and no module, so that a clause could mean it
                rest = re.sub(r'ghost use [^;]*;', ' ', t)
                rest = re.sub(r'\b(?:fn|mod) \w+|::\w+|\w+::|\w+(?=\()', ' ', rest)
                for w in set(re.findall(r'\w+', rest)):
                    in_rust[w].add(p)
    kit_folder = os.path.join(os.path.dirname(subprocess.run(['rt', 'doc'], capture_output=True, text=True).stdout.split()[0]), 'rattle')
    for d, ds, fs in os.walk(kit_folder):
        for f in fs:
            if f.endswith('.antt'):
                kit.update(WORD.findall(re.sub(r'--[^\n]*|"[^"\n]*"', ' ', read(os.path.join(d, f)))))
    tied = {w for w in declared if w.startswith(('+', 'μ-')) or w.endswith('-spec')}
    want = sorted(w for w in declared - tied if spelled(w) != w)
    # first the definitions, then the lemmas, which give way
    want.sort(key=lambda w: ('-' in w, w))
    rows, new_names, left = {}, set(), []

    def meets(old, new):
        here = in_antt[old]
        crates = {p.split('/crates/')[1].split('/')[0] + p.split('/crates/')[0] for p in here}
        rust = {p.split('/crates/')[1].split('/')[0] + p.split('/crates/')[0] for p in in_rust.get(new, ())}
        return bool(here & in_antt.get(new, set())) or bool(crates & rust) or new in new_names

    for w in want:
        if w in kit:
            left.append(f'{w}: a library has it too')
            continue
        new = spelled(w)
        if meets(w, new) and '-' not in w and new in declared and new not in rows and new not in new_names and not meets(new, new + '_lem'):
            rows[new] = new + '_lem'
            new_names.add(new + '_lem')
            left.append(f'{w}: the lemma {new} gives way')
            rows[w] = new
            new_names.add(new)
            continue
        ends = ('', '_lem', '_rule', '_too', '_also')
        for k, end in enumerate(ends):
            if not meets(w, new + end):
                break
        else:
            left.append(f'{w}: no free name')
            continue
        if k:
            left.append(f'{w}: {new} is taken, so {new + end}')
        rows[w] = new + end
        new_names.add(new + end)
    with open(TABLE, 'w', encoding='utf-8') as f:
        for w in sorted(rows):
            f.write(f'{w}\t{rows[w]}\n')
    print('\n'.join(left))
    print(f'{len(rows)} names')


def turned(text, rows, rust):
    def turn(m):
        if m['string'] or m[0] not in rows:
            return m[0]
        # a function of src/ may have the name of a lemma that gives way: in a path and behind a dot it stays
        if re.fullmatch(r'[a-z0-9_]+', m[0]) and m[0] not in ('field_own', 'at_most') and (rust or text[m.start() - 1:m.start()] == '.'):
            return m[0]
        return rows[m[0]]

    return TOKEN.sub(turn, text)


IMPORT = re.compile(r"(?m)^(?:ghost )?use ((?!Rattle\.)[^\s{}]+)\.\{([^}]*)\}")


def turn_left(root):
    """A name that a file imports from a library stays there; the goals of a function keep their names."""
    with open(os.path.join(HERE, 'port_names_left.tsv'), encoding='utf-8') as f:
        rows = dict(line.rstrip('\n').split('\t') for line in f)
    n = 0
    for p in texts(root, ('.antt', '.rt', '.edit', '.antt.txt', '.rt.txt')):
        old = read(p)
        foreign = {w for m in IMPORT.finditer(old) for w in re.split(r'[,\s]+', m[2])}
        new = turned(old, {w: x for w, x in rows.items() if w not in foreign}, False)
        if new != old:
            with open(p, 'w', encoding='utf-8') as f:
                f.write(new)
            n += 1
    print(f'{n} files turned')


def main(argv):
    if argv[:1] == ['left']:
        return turn_left(argv[1] if argv[1:] else os.getcwd())
    if argv[:1] == ['gather']:
        return gather(argv[1:])
    rows = dict(line.rstrip('\n').split('\t') for line in open(TABLE, encoding='utf-8'))
    root = argv[0] if argv else os.getcwd()
    n = 0
    for p in texts(root, ('.antt', '.rt', '.edit')):
        old = read(p)
        mends = MENDS.get(os.path.relpath(p, os.path.join(root, 'crates')), {})
        new = turned(old, {**rows, **mends}, p.endswith(('.rt', '.edit')))
        if new != old:
            with open(p, 'w', encoding='utf-8') as f:
                f.write(new)
            n += 1
    print(f'{n} files turned')


main(sys.argv[1:])
