#!/usr/bin/env python3
"""Compares a commit in the older spelling with the crates as they are, word by word.

usage: port_align.py COMMIT              in the repository

For each file of specs/, for the signatures of each file of proofs/ and for the clauses of each file of src/, the words of
both are laid side by side, without imports, comments and the words that today's clauses no longer have. Each old word
must stand for one new word in that file, and each new word for one old. It prints what does not fit.
"""
import os, re, subprocess, sys

COMMIT = sys.argv[1]
WORD = re.compile(r"[^\s(){}\[\];,.@\"«»⌜⌝]+")
DROPPED = {'now', 'old', 'new', 'entry', 'exit', 'result', '×'}
DECLARED = re.compile(r"(?m)^( *)(?:(?:pub|abbrev|unfoldable|data|record) )*([^\s(){}.;,@\"«»:]+)((?: [\({][^\n]*?[\)}])*) :(?= |$)")


def git(*words):
    return subprocess.run(['git', *words], capture_output=True, text=True, check=True).stdout


def quiet(text, comment):
    text = re.sub(comment + r'[^\n]*', '', text)
    return re.sub(r'"[^"\n]*"', lambda m: ' STR' + m[0].encode().hex() + ' ', text)


def definitions(text):
    text = quiet(text, '--')
    text = re.sub(r'(?m)^ *(?:pub )?use [^\n]*(?:\n[ \t]+[^\n]*)*?(?=\n\S|\n\n|\Z)', ' ', text)
    return WORD.findall(text)


def signatures(text):
    text = re.sub(r'\bnow \(([^()]*)\)', r'\1 .now', quiet(text, '--'))
    out = []
    for m in DECLARED.finditer(text):
        end = re.search(r'\n {0,%d}\S' % len(m[1]), text[m.end():])
        out += [m[2]] + WORD.findall(m[3]) + WORD.findall(text[m.end():m.end() + end.start()] if end else text[m.end():])
    return [w for w in out if w not in DROPPED]


def clauses(text):
    text, out = re.sub(r'//[^\n]*', '', text), []
    for m in re.finditer(r'\b(?:requires|ensures)(?: \w+)? \{', text):
        i, depth = m.end(), 1
        while depth:
            depth += {'{': 1, '}': -1}.get(text[i], 0)
            i += 1
        clause, dropped = text[m.end():i - 1], set(DROPPED)
        binder = re.match(r'\s*λ (\S+?)\.', clause)
        if binder:
            clause = clause[binder.end():]
            dropped.add(binder[1])
        out += [w for w in WORD.findall(clause) if w not in dropped]
    return out


def main():
    words = bad = 0
    for f in git('ls-tree', '-r', '--name-only', COMMIT).split('\n'):
        if f.endswith('.rt') and '/src/' in f:
            read = clauses
        elif f.endswith('.antt') and '/specs/' in f:
            read = definitions
        elif re.search(r'/proofs/[A-Z]\w*\.antt$', f):
            read = signatures
        else:
            continue
        if not os.path.isfile(f):
            print(f'{f}: gone')
            bad += 1
            continue
        old = read(git('show', f'{COMMIT}:{f}'))
        with open(f, encoding='utf-8') as it:
            new = read(it.read())
        words += len(old)
        if len(old) != len(new):
            print(f'{f}: {len(old)} words, now {len(new)}')
            bad += 1
            continue
        there, back = {}, {}
        for a, b in zip(old, new):
            if there.setdefault(a, b) != b or back.setdefault(b, a) != a:
                print(f'{f}: {a} stands for {b}, and for another')
                bad += 1
                break
    print(f'{words} words, {bad} files that differ')


main()
