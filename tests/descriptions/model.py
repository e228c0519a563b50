#!/usr/bin/env python3
"""A model of descriptions of latches and flip-flops, made by hand from documents 01 and 02 [3] and the project's
readings of them.

  model.py run TEXT DESCRIPTION [OPTION..]   the trace with the outputs behind the inputs, as `dachsmond show` prints,
                                             or `refused NUMBER at PLACE length LENGTH`
  TEXT is a trace as `dachsmond show` prints it. Options: --outputs, --equal-branches, --steady-pins.

It shares no line with the code or the definitions of the project. It is meant to be read, and is slow.
"""
import functools
import itertools
import re
import sys

STATES = '01XHLWZU'
NO, UNKNOWN, YES = 0, 1, 2
REDUCED = dict(zip(STATES, '01X10XXX'))
NAME = re.compile(rb'[A-Za-z_][A-Za-z0-9_]*')
SIGNS = [s.encode() for s in ('<->', '<&>', '&&', '||', '->', '&>', '==', '!=', '>=', '<=', '~^', '?!', '?-',
                              '!', '~', '^', '>', '<', '&', '|', '?', ':', '(', ')', '@', '{', '}', '=', ';')]
UNCOUNTED = ('(', ')', ':', '@', '{', '}', '=', ';')
LEVEL = {**dict.fromkeys(('^', '~^', '==', '!=', '>', '<', '>=', '<='), 2), '&': 3, '&&': 3,
         **dict.fromkeys(('->', '<->', '&>', '<&>'), 4), '|': 5, '||': 5}


class Refused(Exception):
    """A number, a place in the text, and how many bytes were refused."""


class Token:
    def __init__(self, place, text, kind, value=None):
        self.place, self.text, self.kind, self.value = place, text, kind, value


# Tokens.

def half(text, at):
    """The state of a based literal at a place, or `?`; None where there is none or more bytes are right behind it."""
    if text[at:at + 2] != b"'b":
        return None
    letter = text[at + 2:at + 3].decode('latin-1').upper()
    if letter == '' or letter not in STATES + '?':
        return None
    if letter != '?' and re.match(rb'[A-Za-z0-9_]', text[at + 3:at + 4]):
        return None
    return letter


def based(text, at, bad):
    first = half(text, at)
    if first is None:
        raise bad(at)
    if text[at + 3:at + 4] == b"'":
        second = half(text, at + 3)
        if second is None:
            raise bad(at + 3)
        return Token(at, text[at:at + 6], 'edge', first + second)
    if first == '?':
        raise bad(at)
    return Token(at, text[at:at + 3], 'literal', first)


def token_at(text, at, bad):
    byte = text[at:at + 1]
    name = NAME.match(text, at)
    if name:
        if len(name.group()) > 32:
            raise bad(at)
        return Token(at, name.group(), 'name', name.group().decode())
    if byte == b"'":
        return based(text, at, bad)
    run = re.compile(rb'[01?]+').match(text, at)
    if run and len(run.group()) > 2:
        raise bad(at)
    if run and len(run.group()) == 2:
        return Token(at, run.group(), 'edge', run.group().decode())
    if byte in (b'0', b'1'):
        return Token(at, byte, 'literal', byte.decode())
    for sign in SIGNS:
        if text.startswith(sign, at):
            return Token(at, sign, 'edge' if sign in (b'?!', b'?-') else 'sign', sign.decode())
    raise bad(at)


def tokens_of(text):
    def bad(at):
        return Refused(2, at, len(re.match(rb'[^ \t\n\r]*', text[at:]).group()))
    found, at = [], 0
    while at < len(text):
        if text[at:at + 1] in (b' ', b'\t', b'\n', b'\r'):
            at += 1
        else:
            found.append(token_at(text, at, bad))
            at += len(found[-1].text)
    return found


def limits(found):
    depth = 0
    for t in found:
        if t.value == '(' and t.kind == 'sign':
            depth += 1
            if depth > 32:
                raise Refused(3, t.place, 0)
        elif t.value == ')' and t.kind == 'sign':
            depth = max(0, depth - 1)
    counted = [t for t in found if not (t.kind == 'sign' and t.value in UNCOUNTED)]
    if len(counted) > 256:
        raise Refused(4, counted[256].place, 0)


# The frame. An expression is its tokens and the token that ends it.

class Clause:
    def __init__(self):
        self.trigger, self.trigger_end, self.assigned = None, None, []


class Frame:
    """The blocks of a description, each a list of clauses. An assignment is (name token, tokens, end token)."""

    def __init__(self, found, length):
        self.found, self.at, self.length = found, 0, length
        self.blocks = []
        while not self.blocks or self.at < len(found):
            self.want('@')
            block = [self.clause()]
            while self.sees(':'):
                self.want(':')
                block.append(self.clause())
            self.blocks.append(block)

    def sees(self, sign):
        return self.at < len(self.found) and self.found[self.at].kind == 'sign' and self.found[self.at].value == sign

    def stuck(self):
        if self.at < len(self.found):
            raise Refused(20, self.found[self.at].place, len(self.found[self.at].text))
        raise Refused(20, self.length, 0)

    def want(self, sign):
        if not self.sees(sign):
            self.stuck()
        self.at += 1

    def expression(self, end):
        taken, depth = [], 0
        while True:
            if self.at == len(self.found):
                self.stuck()
            if depth == 0 and self.sees(end):
                self.at += 1
                return taken, self.found[self.at - 1]
            if any(self.sees(s) for s in '@{}=;'):
                self.stuck()
            if self.sees(')'):
                if depth == 0:
                    self.stuck()
                depth -= 1
            depth += self.sees('(')
            taken.append(self.found[self.at])
            self.at += 1

    def clause(self):
        c = Clause()
        self.want('(')
        c.trigger, c.trigger_end = self.expression(')')
        self.want('{')
        while not c.assigned or not self.sees('}'):
            if self.at == len(self.found) or self.found[self.at].kind != 'name':
                self.stuck()
            name = self.found[self.at]
            self.at += 1
            self.want('=')
            c.assigned.append((name, *self.expression(';')))
        self.want('}')
        return c

    def clauses(self):
        return [c for block in self.blocks for c in block]

    def expressions(self):
        """All expressions in text order: tokens, end, whether it is a trigger."""
        for c in self.clauses():
            yield c.trigger, c.trigger_end, True
            for _, right, end in c.assigned:
                yield right, end, False

    def outputs(self):
        return list(dict.fromkeys(name.value for c in self.clauses() for name, _, _ in c.assigned))


# Grammar: which token goes on is told by whether an operand is due, and by the open brackets and `?`.

def grammatical(found, end):
    due, opened = True, []
    for t in found:
        sign = t.value if t.kind == 'sign' else ''
        if due:
            if t.kind in ('name', 'literal'):
                due = False
            elif sign == '(':
                opened.append('(')
            elif not (t.kind == 'edge' or sign in ('!', '~')):
                raise Refused(5, t.place, len(t.text))
        elif sign in LEVEL:
            due = True
        elif sign == '?':
            opened.append('?')
            due = True
        elif sign == ':' and opened[-1:] == ['?']:
            opened.pop()
            due = True
        elif sign == ')' and opened[-1:] == ['(']:
            opened.pop()
        else:
            raise Refused(5, t.place, len(t.text))
    if due or opened:
        raise Refused(5, end.place, len(end.text))


# Trees: (operator, place, length, operands..); a name is ('name', NAME), a literal ('literal', STATE).

class Parser:
    def __init__(self, found):
        self.found, self.at = found, 0

    def next(self):
        t = self.found[self.at] if self.at < len(self.found) else None
        return t.value if t and t.kind == 'sign' else None

    def whole(self):
        tree = self.binary(5)
        if self.next() == '?':
            t = self.found[self.at]
            self.at += 1
            one = self.whole()
            self.at += 1
            tree = ('?', t, tree, one, self.whole())
        return tree

    def binary(self, level):
        if level == 1:
            return self.unary()
        tree = self.binary(level - 1)
        while LEVEL.get(self.next()) == level:
            t = self.found[self.at]
            self.at += 1
            tree = (t.value.replace('&&', '&').replace('||', '|'), t, tree, self.binary(level - 1))
        return tree

    def unary(self):
        t = self.found[self.at]
        self.at += 1
        if t.kind in ('name', 'literal'):
            return t.kind, t
        if t.kind == 'edge':
            return 'edge', t, self.unary()
        if t.value in '!~':
            return '!', t, self.unary()
        tree = self.whole()
        self.at += 1
        return tree


def sort_of(tree):
    """'boolean' or 'vector'; 7 at the first operator that has an operand of the wrong sort."""
    kind, token, *operands = tree
    sorts = [sort_of(o) for o in operands]
    if kind in ('name', 'literal'):
        return 'boolean'
    if kind == 'edge':
        fits, gives = sorts == ['boolean'], 'vector'
    elif kind in ('->', '<->', '&>', '<&>'):
        fits, gives = sorts == ['vector', 'vector'], 'vector'
    elif kind == '|':
        fits, gives = sorts[0] == sorts[1], sorts[0]
    elif kind == '&':
        fits, gives = True, 'boolean' if sorts == ['boolean', 'boolean'] else 'vector'
    else:
        fits, gives = 'vector' not in sorts, 'boolean'
    if not fits:
        raise Refused(7, token.place, len(token.text))
    return gives


# Steady pins: `?-` added to the steps of a run.

def is_step(tree):
    return tree[0] == 'edge' or (tree[0] == '&' and is_step(tree[2]) and is_step(tree[3]))


def edges(step):
    return [step] if step[0] == 'edge' else edges(step[2]) + edges(step[3])


def changing(edge):
    e = edge[1].value
    return e == '?!' or (e not in ('?-', '?!') and '?' not in e and e[0] != e[1])


def plain(step):
    return {e[2][1].value for e in edges(step) if e[2][0] == 'name'}


def filled_run(run):
    if not all(any(changing(e) for e in edges(s)) for s in run):
        return run
    pins = sorted(set().union(*map(plain, run)))
    out = []
    for s in run:
        for p in pins:
            if p not in plain(s):
                s = ('&', s[1], s, ('edge', Token(0, b'?-', 'edge', '?-'), ('name', Token(0, b'', 'name', p))))
        out.append(s)
    return out


def filled(tree):
    kind, token, *operands = tree
    if kind != '->':
        return tree if kind in ('name', 'literal', 'edge') else (kind, token, *map(filled, operands))

    def chain(t):
        return chain(t[2]) + chain(t[3]) if t[0] == '->' else [t]
    parts = []
    for steps, group in itertools.groupby(chain(tree), is_step):
        parts += filled_run(list(group)) if steps else [filled(t) for t in group]
    return functools.reduce(lambda a, b: ('->', token, a, b), parts)


# Limit 8: each alternative by its tests at each step.

def alternatives(tree):
    kind, _, *operands = tree
    if kind == 'edge':
        made = [[1]]
    elif kind == '&' and 'boolean' in (sorts := [sort_of(o) for o in operands]):
        made = [[n + 1 for n in a] for a in alternatives(operands[sorts.index('vector')])]
    else:
        left, right = map(alternatives, operands)

        def beside(a, b):
            n = max(len(a), len(b))
            return [x + y for x, y in zip([0] * (n - len(a)) + a, [0] * (n - len(b)) + b)]
        then = [a + b for a in left for b in right]
        both = [beside(a, b) for a in left for b in right]
        back = [b + a for b in right for a in left]
        made = {'->': then, '&': both, '|': left + right, '<->': then + back, '&>': both + then,
                '<&>': then + both + back}[kind]
    if len(made) > 64 or any(len(a) > 16 or sum(a) > 64 for a in made):
        raise Refused(8, 0, 0)
    return made


# Reading a description.

class Described:
    def __init__(self, names, text, steady):
        if len(text) > 4096:
            raise Refused(1, 4096, 0)
        found = tokens_of(text)
        limits(found)
        self.frame = frame = Frame(found, len(text))
        self.names, self.outputs = names, frame.outputs()
        for part, end, _ in frame.expressions():
            grammatical(part, end)
        for part, end, trigger in frame.expressions():
            for t in part:
                if t.kind == 'name' and t.value not in names and (trigger or t.value not in self.outputs):
                    raise Refused(6, t.place, len(t.text))
        for part, end, trigger in frame.expressions():
            if sort_of(Parser(part).whole()) == 'vector' and not trigger:
                raise Refused(7, end.place, len(end.text))
        seen = []
        for c in frame.clauses():
            own = []
            for name, _, _ in c.assigned:
                if name.value not in seen:
                    seen.append(name.value)
                if name.value in names or name.value in own or len(seen) > 32:
                    raise Refused(21, name.place, len(name.text))
                own.append(name.value)
        # blocks: lists of (trigger tree, its sort, [(output, right tree)])
        self.blocks = []
        for block in frame.blocks:
            clauses = []
            for c in block:
                tree = Parser(c.trigger).whole()
                sort = sort_of(tree)
                if sort == 'vector':
                    tree = filled(tree) if steady else tree
                    alternatives(tree)
                clauses.append((tree, sort, [(n.value, Parser(r).whole()) for n, r, _ in c.assigned]))
            self.blocks.append(clauses)


# Values and states of boolean expressions; `row` gives the state of a name.

def both_known(a, b, value):
    return 'X' if 'X' in (a, b) else '01'[value]


def relation(kind, a, b):
    """000's table 5-9, as document 01 has it."""
    if kind in ('>=', '<='):
        return larger(relation(kind[0], a, b), relation('==', a, b))
    column = ('==', '!=', '>', '<').index(kind)
    x, y = REDUCED[a], REDUCED[b]
    if a == 'U' or (b == 'U' and a in 'XWZ'):
        return 'X'
    if a == b:
        return '10XX'[column] if a in 'XWZ' else '1000'[column]
    if a in 'XWZ' or x == y:
        return '01XX'[column]
    if x == '1':
        return '0110'[column] if y == '0' else '01X0'[column]
    return '0101'[column] if y == '1' else '010X'[column]


def lesser(a, b):
    return min(a, b, key='0X1'.index)


def larger(a, b):
    return max(a, b, key='0X1'.index)


class Evaluation:
    def __init__(self, equal):
        self.equal = equal

    def state(self, tree, row):
        return row(tree[1].value) if tree[0] == 'name' else self.value(tree, row)

    def value(self, tree, row):
        kind, token, *operands = tree
        if kind == 'name':
            return REDUCED[row(token.value)]
        if kind == 'literal':
            return token.value
        if kind in ('==', '!=', '>', '<', '>=', '<='):
            return relation(kind, *(self.state(o, row) for o in operands))
        values = [self.value(o, row) for o in operands]
        if kind == '?':
            choice = REDUCED[values[0]]
            if choice == 'X':
                return values[1] if self.equal and values[1] == values[2] else 'X'
            return values[1] if choice == '1' else values[2]
        values = [REDUCED[v] for v in values]
        if kind == '!':
            return {'0': '1', '1': '0', 'X': 'X'}[values[0]]
        if kind == '&':
            return lesser(*values)
        if kind == '|':
            return larger(*values)
        return both_known(*values, (values[0] != values[1]) == (kind == '^'))

    # Answers on windows; `at(i)` is the row i.

    def asked(self, literal, state):
        if literal == '?':
            return YES
        if literal in '01':
            return {literal: YES, 'X': UNKNOWN}.get(REDUCED[state], NO)
        return YES if literal == state else NO

    def edge(self, e, before, after):
        if e in ('?!', '?-'):
            return YES if (before != after) == (e == '?!') else NO
        return min(self.asked(e[0], before), self.asked(e[1], after))

    def window(self, tree, at, a, b, known):
        key = id(tree), a, b
        if key not in known:
            known[key] = self.window_of(tree, at, a, b, known)
        return known[key]

    def window_of(self, tree, at, a, b, known):
        kind, token, *operands = tree

        def on(t, i, j):
            return self.window(t, at, i, j, known)

        def then(p, q):
            return max((min(on(p, a, m), on(q, m, b)) for m in range(a + 1, b)), default=NO)

        def both(p, q):
            later_p = max((on(p, i, b) for i in range(a, b)), default=NO)
            later_q = max((on(q, i, b) for i in range(a, b)), default=NO)
            return max(min(on(p, a, b), later_q), min(later_p, on(q, a, b)))
        if kind == 'edge':
            if b != a + 1:
                return NO
            return self.edge(token.value, self.state(operands[0], at(a)), self.state(operands[0], at(b)))
        p, q = operands
        if kind == '&' and 'boolean' in (sorts := [sort_of(o) for o in operands]):
            c, v = (p, q) if sorts[0] == 'boolean' else (q, p)
            holds = [{'0': NO, 'X': UNKNOWN, '1': YES}[REDUCED[self.value(c, at(i))]] for i in range(a, b + 1)]
            return min(holds + [on(v, a, b)])
        if kind == '->':
            return then(p, q)
        if kind == '&':
            return both(p, q)
        if kind == '|':
            return max(on(p, a, b), on(q, a, b))
        if kind == '<->':
            return max(then(p, q), then(q, p))
        if kind == '&>':
            return max(both(p, q), then(p, q))
        return max(then(p, q), both(p, q), then(q, p))


def run(described, rows, equal):
    """The outputs of each row, as dictionaries. `rows` are dictionaries of the inputs."""
    e = Evaluation(equal)
    known = {}
    outs, before = [], dict.fromkeys(described.outputs, 'U')
    for i, inputs in enumerate(rows):
        gifts = {}
        for block in described.blocks:
            for tree, sort, assigned in block:
                if sort == 'boolean':
                    answer = {'0': NO, 'X': UNKNOWN, '1': YES}[REDUCED[e.value(tree, inputs.get)]]
                    seen = {**inputs, **before}
                else:
                    answer = max((e.window(tree, lambda j: rows[j].get, a, i, known) for a in range(max(0, i - 17), i)),
                                 default=NO)
                    seen = {**rows[max(0, i - 1)], **before}
                if answer == NO:
                    continue
                for q, right in assigned:
                    gifts.setdefault(q, []).append(e.value(right, seen.get) if answer == YES else 'X')
                break
        after = {q: before[q] if q not in gifts else gifts[q][0] if len(gifts[q]) == 1 else 'X' for q in before}
        outs.append(after)
        before = after
    return outs


# Traces as texts.

def read_trace(text):
    lines = [line.split() for line in text.splitlines() if line.strip() and not line.lstrip().startswith('#')]
    head = lines[0][1:]
    if 'changed' in head:
        head = head[:len(head) - 1 - head[::-1].index('changed')]
    return head, [int(l[0]) for l in lines[1:]], [dict(zip(head, map(str.upper, l[1:]))) for l in lines[1:]]


def shown(names, times, rows):
    lines = [' '.join(['time'] + names + ['changed'])]
    for i, (time, row) in enumerate(zip(times, rows)):
        old = rows[i - 1] if i else row
        other = [n for n in names if row[n] != old[n]]
        lines.append(' '.join([str(time)] + [row[n] for n in names] + [str(len(other))] + other))
    return '\n'.join(lines) + '\n'


def answer(trace, text, options=()):
    """What a run prints."""
    names, times, rows = read_trace(trace)
    try:
        d = Described(names, text, '--steady-pins' in options)
    except Refused as r:
        return 'refused {} at {} length {}\n'.format(*r.args)
    outs = run(d, rows, '--equal-branches' in options)
    if '--outputs' in options:
        return shown(d.outputs, times, outs)
    if len(names) + len(d.outputs) > 32:
        return 'too many\n'
    return shown(names + d.outputs, times, [{**r, **o} for r, o in zip(rows, outs)])


def main():
    command, trace, text, *options = sys.argv[1:]
    if command != 'run':
        sys.exit(__doc__)
    with open(trace) as t, open(text, 'rb') as d:
        sys.stdout.write(answer(t.read(), d.read(), options))


if __name__ == '__main__':
    main()
