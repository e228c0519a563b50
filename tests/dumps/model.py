#!/usr/bin/env python3
"""A model of reading and writing value change dumps, made from the project's readings of document 02 [8] by hand.

  model.py show DUMP [SCOPE]   the trace that the dump is, as `dachsmond show` prints it, or `refused NUMBER at PLACE`
  model.py passed DUMP SCOPE   how many variables are passed over where the scope is chosen
  model.py scopes DUMP         a line for each scope: its path, how many scalars, how many other variables
  model.py write TEXT          the dump that is written of a trace, given as `dachsmond show` prints it

It shares no line with the code or the definitions of the project. It is meant to be read, and is slow.
"""
import re
import sys

LAST = 2 ** 64
KINDS = ('event integer parameter real realtime reg supply0 supply1 time tri triand trior trireg tri0 tri1 wand wire '
         'wor').split()
SCOPES = 'begin fork function module task'.split()
SECTIONS = '$dumpvars $dumpall $dumpon $dumpoff'.split()
REMARKS = '$comment $date $version $timescale'.split()
NAME = re.compile(r'[A-Za-z_][A-Za-z0-9_]{0,31}')
STATE = {'0': '0', '1': '1', 'x': 'X', 'X': 'X', 'z': 'Z', 'Z': 'Z'}


class Refused(Exception):
    """A number of the table, and a place in the file."""


class Words:
    """The words of a file, each with its place. Behind the last one there is the file's end, at which 23 is given."""

    def __init__(self, data):
        text = data.decode('latin-1')
        self.all = [(m.start(), m.group()) for m in re.finditer('[^ \t\n\r]+', text)]
        self.end = len(data)
        self.next = 0

    def left(self):
        return self.next < len(self.all)

    def take(self):
        if not self.left():
            raise Refused(23, self.end)
        self.next += 1
        return self.all[self.next - 1]

    def want_end(self):
        place, word = self.take()
        if word != '$end':
            raise Refused(23, place)

    def pass_to_end(self):
        while self.take()[1] != '$end':
            pass


def is_code(word):
    return bool(word) and all('!' <= c <= '~' for c in word)


def is_number(word):
    return bool(word) and all('0' <= c <= '9' for c in word)


class Dump:
    """A dump, read with a scope chosen or without. `path` is '' where none is."""

    def __init__(self, data, path=''):
        self.words = Words(data)
        self.path = path
        self.open = []          # the names of the open scopes, outermost first
        self.met = False        # the chosen scope was there
        self.pins = []          # pairs of code and name
        self.passed = 0
        self.rows = []          # lists: time, then a state for each pin
        self.now = 0
        self.definitions()
        self.changes()

    def chosen(self):
        return not any('.' in s for s in self.open) and '.'.join(self.open) == self.path and self.open != []

    def code_of(self, code):
        for i, (known, _) in enumerate(self.pins):
            if known == code:
                return i
        return None

    def definitions(self):
        words = self.words
        while True:
            place, word = words.take()
            if word in REMARKS:
                words.pass_to_end()
            elif word == '$scope':
                at, kind = words.take()
                if kind not in SCOPES:
                    raise Refused(23, at)
                at, name = words.take()
                if name == '$end':
                    raise Refused(23, at)
                self.open.append(name)
                self.met = self.met or (self.path != '' and self.chosen())
                words.want_end()
            elif word == '$upscope':
                if not self.open:
                    raise Refused(23, place)
                self.open.pop()
                words.want_end()
            elif word == '$var':
                self.variable(place)
            elif word == '$enddefinitions':
                if not self.pins and (self.path == '' or self.met):
                    raise Refused(23, place)
                words.want_end()
                return
            else:
                raise Refused(23, place)

    def variable(self, place):
        words, whole = self.words, self.path == ''
        if whole and len(self.pins) == 32:
            raise Refused(11, place)
        at, kind = words.take()
        if kind not in KINDS:
            raise Refused(23, at)
        real = kind in ('real', 'realtime')
        if whole and real:
            raise Refused(24, at)
        at, size = words.take()
        if not is_number(size):
            raise Refused(23, at)
        scalar = not real and int(size) == 1
        if whole and not scalar:
            raise Refused(24, at)
        pin = scalar and (whole or self.chosen())
        if pin and not whole and len(self.pins) == 32:
            raise Refused(11, at)
        at, code = words.take()
        if not is_code(code) or code == '$end':
            raise Refused(23, at)
        if pin and self.code_of(code) is not None:
            raise Refused(25, at)
        at, name = words.take()
        if name == '$end':
            raise Refused(23, at)
        if not pin:
            self.passed += 1
            after, word = words.take()
            if word.startswith('['):
                words.pass_to_end()
            elif word != '$end':
                raise Refused(23, after)
            return
        joined = '_'.join(self.open + [name]) if whole else name
        if not NAME.fullmatch(joined) or joined in [n for _, n in self.pins]:
            raise Refused(26, at)
        self.pins.append((code, joined))
        after, word = words.take()
        if word.startswith('['):
            raise Refused(26, at)
        if word != '$end':
            raise Refused(23, after)

    def row_now(self, place):
        """The row of the time that it is; there is one more of them where the last one is of another time."""
        if self.rows and self.rows[-1][0] == self.now:
            return self.rows[-1]
        if len(self.rows) == 65535:
            raise Refused(11, place)
        before = self.rows[-1][1:] if self.rows else ['U'] * len(self.pins)
        self.rows.append([self.now] + before)
        return self.rows[-1]

    def change(self, place, word):
        """A value change, of a scalar or, where a scope is chosen, of anything else."""
        if word[0] in STATE and is_code(word[1:]):
            pin = self.code_of(word[1:])
            if pin is not None:
                self.row_now(place)[1 + pin] = STATE[word[0]]
            elif self.path == '':
                raise Refused(25, place + 1)
            return
        wide = word[0] in 'bB' and len(word) > 1 and all(c in STATE for c in word[1:])
        if self.path == '' or not (wide or (word[0] in 'rR' and len(word) > 1)):
            raise Refused(23, place)
        at, code = self.words.take()
        if not is_code(code) or code == '$end' or self.code_of(code) is not None:
            raise Refused(23, at)

    def changes(self):
        words = self.words
        while words.left():
            place, word = words.take()
            if word[0] == '#' and is_number(word[1:]):
                time = int(word[1:])
                if time >= LAST:
                    raise Refused(23, place)
                if time < self.now:
                    raise Refused(13, place)
                self.now = time
                if self.path == '':
                    self.row_now(place)
            elif word == '$comment':
                words.pass_to_end()
            elif word in SECTIONS:
                place, word = words.take()
                while word != '$end':
                    self.change(place, word)
                    place, word = words.take()
            else:
                self.change(place, word)
        if self.path != '' and not self.met:
            raise Refused(26, words.end)
        if not self.rows:
            raise Refused(23, words.end)

    def shown(self):
        names = [n for _, n in self.pins]
        lines = [' '.join(['time'] + names + ['changed'])]
        for i, row in enumerate(self.rows):
            old = self.rows[i - 1][1:] if i else row[1:]
            other = [n for n, a, b in zip(names, old, row[1:]) if a != b]
            lines.append(' '.join([str(row[0])] + row[1:] + [str(len(other))] + other))
        return '\n'.join(lines) + '\n'


def scopes(data):
    """The scopes in the order in which they are opened, each with what is declared directly in it."""
    words, opened, counts = Words(data), [], {}
    while words.left():
        _, word = words.take()
        if word == '$scope':
            words.take()
            opened.append(words.take()[1])
            counts.setdefault('.'.join(opened), [0, 0])
            words.want_end()
        elif word == '$upscope':
            opened.pop()
            words.want_end()
        elif word == '$var':
            kind, size = words.take()[1], words.take()[1]
            scalar = kind not in ('real', 'realtime') and int(size) == 1
            if opened:
                counts['.'.join(opened)][0 if scalar else 1] += 1
            words.pass_to_end()
        elif word == '$enddefinitions':
            break
        else:
            words.pass_to_end()
    lines = ''.join(f'{path}\t{n}\t{others}\n' for path, (n, others) in counts.items())
    return 'scope\tscalars\tother variables\n' + lines


def written(text):
    """The dump of a trace. Letters: H and L become 1 and 0, W and U become x."""
    letter = dict(zip('01XHLWZU', '01x10xzx'))
    head, *rows = [line.split() for line in text.splitlines()]
    names = head[1:head.index('changed')] if 'changed' in head else head[1:]
    lines = [f'$var wire 1 {chr(33 + i)} {name} $end' for i, name in enumerate(names)] + ['$enddefinitions $end']
    old = None
    for time, *rest in rows:
        new = [letter[s] for s in rest[:len(names)]]
        told = [f'{s}{chr(33 + i)}' for i, s in enumerate(new) if old is None or s != old[i]]
        lines += [f'#{time}'] + (['$dumpvars'] + told + ['$end'] if old is None else told)
        old = new
    return '\n'.join(lines) + '\n'


def main():
    command, path, *more = sys.argv[1:]
    with open(path, 'rb') as f:
        data = f.read()
    if command == 'write':
        sys.stdout.write(written(data.decode()))
        return
    if command == 'scopes':
        sys.stdout.write(scopes(data))
        return
    try:
        dump = Dump(data, *more)
    except Refused as r:
        print(f'refused {r.args[0]} at {r.args[1]}')
        return
    sys.stdout.write(dump.shown() if command == 'show' else f'{dump.passed}\n')


main()
