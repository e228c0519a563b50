#!/usr/bin/env python3
"""Turns each proofs/F/Proof.antt in the form of tie.close (tie.spec ..) into Invariants.antt and Answers.antt.

usage: port_proofs.py NAMES CRATE..    NAMES is what `rt names` wrote; CRATE is a crate's folder

An answer keeps its words. A path through earlier points of the code, as c.before.before.if1.true, becomes today's, as c.if-b-lt40.true.
An answer that only calls omega arith, search rules or refl is left out, since the check finds it.
It prints a line for each place that it could not turn, and leaves such a Proof.antt where it is if the whole file has another form.
"""
import json, os, re, sys

TOKEN = re.compile(r'[^\s(){}\[\];,]+|[(){}\[\];,]|\s+')
TRIVIAL = re.compile(r'^(omega arith|search rules|search needs|refl|omega \(arith\))$')

def norm(s):
    s = s.replace('-', '_').lower()
    s = re.sub(r'_lem(?=\d*$)', '', s)
    s = re.sub(r'_(\d+)$', r'\1', s)
    return s

def blocks(text):
    """The text's declarations: lists of lines, each beginning at a line that stands at the margin."""
    out, cur = [], []
    for line in text.split('\n'):
        if line.strip() == '':
            if cur and cur[-1] != '': cur.append('')
            continue
        if not line[0].isspace() and not line.startswith('--') and cur and not all(l.startswith('--') or l == '' for l in cur):
            # a new line at the margin: a clause of the same name goes on
            out.append(cur); cur = []
        elif line.startswith('--') and cur and cur[-1] == '':
            out.append(cur); cur = []
        cur.append(line)
    if cur: out.append(cur)
    return [[l for l in b] for b in out]

def parse_args(s):
    """Top-level terms of an application, each with the comment behind it."""
    i, n, out = 0, len(s), []
    while i < n:
        if s[i].isspace(): i += 1; continue
        if s.startswith('--', i):
            j = s.find('\n', i); j = n if j < 0 else j
            i = j; continue
        if s[i] in '([{':
            depth, j = 0, i
            while j < n:
                if s.startswith('-- ', j) and (j == 0 or s[j-1].isspace()):
                    k = s.find('\n', j); j = n if k < 0 else k; continue
                if s[j] in '([{': depth += 1
                if s[j] in ')]}':
                    depth -= 1
                    if depth == 0: break
                j += 1
            out.append(s[i:j+1]); i = j + 1
        else:
            m = re.compile(r'[^\s(){}\[\]]+').match(s, i)
            out.append(m[0]); i = m.end()
    return out

class Fn:
    def __init__(self, info, cycle=False):
        self.cycle = cycle
        self.needs = info['needs']; self.at = info['asked_at']
        self.places = {p[0]: p for p in info['places']}
        self.typed = {p[0]: t for p, t in zip(info['places'], info['typed'])}
        self.loops = info['loops']; self.changed = info['changed']
        self.params = info.get('params', {})
        self.by_name = dict(zip([q[0] for q in info['places']], info['places_by_name']))
        self.settled = set(info.get('settled', []))
    def chain(self, place):
        out = []
        while place is not None and place in self.places:
            out.append(place); place = self.places[place][1]
        return out
    def resolve(self, at, start, fields, said):
        """fields from the record of the place `start`, for an answer at `at`."""
        fields = list(fields)
        while fields and fields[0] == 'before':
            fields = fields[1:]
            if start is not None and start in self.places: start = self.places[start][1]
        if not fields: return None
        f = fields[0]
        if f.replace('-', '_') in ('well_formed', 'type_inv'): f = fields[0] = f.replace('-', '_')
        if f == 'pre': f = fields[0] = 'requires'
        if self.cycle and f == 'requires':
            if fields[1:2] == ['0']: return '.'.join(['c', 'decreases'] + fields[2:])
            if fields[1:2] == ['1']: return '.'.join(['c', 'requires'] + fields[2:])
        if f in ('args', 'requires', 'ranges', 'type_inv', 'well_formed', 'lifetimes'):
            return '.'.join(['c'] + fields)
        want = norm(f)
        chain = self.chain(at)
        hits = [p for p in chain if norm(self.places[p][2][0]) == want]
        if not hits:
            stripped = re.sub(r'\d+$', '', want)
            hits = [p for p in chain if re.sub(r'\d+$', '', norm(self.places[p][2][0])) == stripped]
            if len(hits) > 1 and start in hits: hits = [start]
            if len(hits) > 1: said.append(f'?several {f}')
        if not hits:
            hits = [p for p in chain if norm(self.places[p][2][1]) == want]
        if not hits:
            said.append(f'?no step {f}')
            return '.'.join(['c'] + fields)
        p = hits[0]
        rest = fields[1:]
        callee = self.places[p][3]
        if rest[:1] == ['new'] and len(rest) > 1 and callee in self.params:
            k = 1
            while k < len(rest) and rest[k] == '1': k += 1
            ps = self.params[callee]
            if k < len(rest) and rest[k] == '0' and k - 1 < len(ps):
                rest = ['new', ps[k - 1]] + rest[k + 1:]
            elif k == len(rest) and len(rest) - 1 < len(ps) + 1:
                rest = ['new', ps[min(len(rest) - 1, len(ps) - 1)]]
        if rest[:1] == ['given'] and norm(f).startswith('enum_told'):
            arms = [q for q in chain if self.places[q][2][1].startswith('in-')]
            if arms:
                return '.'.join(['c', self.places[arms[0]][2][1], 'is'])
        if rest[:1] == ['given']:
            typed = [t for t in self.typed[p]]
            if typed:
                return '.'.join(['c', 'type_inv', typed[0][0]] + [r for r in rest[1:] if r not in ('0', '1')])
            said.append(f'?given {f}')
        return '.'.join(['c', self.places[p][2][1]] + rest)

PATH = re.compile(r'(?<![^\s(){}\[\];,←])(c\d*|κ?[a-z]\w*)((?:\.[^\s(){}\[\];,.]+)+)(?![^\s(){}\[\];,])|(?<![^\s(){}\[\];,])(c\d+)(?![^\s(){}\[\];,.])')

def distance(fn, at, to):
    chain = fn.chain(at)
    return chain.index(to) if to in chain else None

def turn_body(fn, at, body, said, projections={}, takers={}, start='c'):
    alias = {start: at}
    # (entry c), a place that an own definition finds
    for _ in range(4):
      for name, to in projections.items():
        body = re.sub(rf'\({re.escape(name)} (?:[^\s()]+|\([^()]*\))\)', f'@{name}', body)
        body = re.sub(rf'(?<![^\s(){{}}\[\];,]){re.escape(name)} (?:c|@\S+|[^\s()]*before)(?=\s+in\b)', f'@{name}', body)
        alias[f'@{name}'] = to
    # behind_point c.before, a fact of one's own about a place
    for name, to in takers.items():
        def give(m):
            n = distance(fn, at, to)
            if n is None:
                said.append(f'?place of {name}'); return m[0]
            return f'{name} ' + start + '.before' * n + '\x00'
        body = re.sub(rf'(?<![^\s(){{}}\[\];,]){re.escape(name)} (?:@[^\s()]+|[^\s()]+|\([^()]*\))', give, body)
    def take(m):
        name, path = m[1], m[2].split('.')[1:]
        place = at
        base = m[2]
        src = alias.get(m[2], None)
        return ''
    # let cN = c.before.before in   or  let cN = cM.before in
    LET = re.compile(r'let ([^\s(){}.;,]+) = ([^\s(){}.;,]+)((?:\.before)*) in\s*')
    pos = 0
    while True:
        m = LET.search(body, pos)
        if not m: break
        if m[2] not in alias:
            pos = m.end(); continue
        place = alias.get(m[2], at)
        for _ in range(m[3].count('.before')):
            place = fn.places[place][1] if place in fn.places else None
        alias[m[1]] = place
        body = body[:m.start()] + body[m.end():]
    names = '|'.join(sorted(map(re.escape, alias), key=len, reverse=True))
    P = re.compile(rf'(?<![^\s(){{}}\[\];,])({names})((?:\.[^\s(){{}}\[\];,.\x00]+)+)(?![^\s(){{}}\[\];,])')
    def sub(m):
        r = fn.resolve(at, alias[m[1]], m[2].split('.')[1:], said)
        if r is None:
            said.append('?bare place')
            return 'c'
        return r
    body = P.sub(sub, body)
    # a test of !x tells of x itself
    body = re.sub(r'\((?:not[-_]true|not[-_]false) _\s+(c\.[^\s(){}\[\];,]+\.(?:true|false))\)', r'\1', body)
    body = re.sub(r'(?<![^\s(){}\[\];,])(?:not[-_]true|not[-_]false) _\s+(c\.[^\s(){}\[\];,]+\.(?:true|false))(?![^\s(){}\[\];,])', r'\1', body)
    body = re.sub(r'\(sym (c\.in-[^\s(){}\[\];,.]+)\.is ∙ c\.[^\s(){}\[\];,]+\.ensures\)', r'\1.ensures', body)
    bare = re.compile(rf'(?<![^\s(){{}}\[\];,])({names})(?![^\s(){{}}\[\];,.])')
    for m in bare.finditer(body):
        if m[1] != start: said.append(f'?bare {m[1]}')
    def bare_place(m):
        if m[1] == start: return m[0]
        n = distance(fn, at, alias[m[1]])
        return m[0] if n is None else start + '.before' * n
    body = bare.sub(bare_place, body)
    return body.replace('\x00', '')

def turn(path, fn_path, info, crate):
    """Returns (invariants, answers, said) or None."""
    text = open(path, encoding='utf-8').read()
    if 'tie.close' not in text: return None
    fn = Fn(info); said = []
    bl = blocks(text)
    head, uses, defs, order, final = [], [], {}, [], None
    other = []; whole_unf = ''; after_spec = False
    for b in bl:
        lines = [l for l in b]
        while lines and lines[-1] == '': lines.pop()
        lead = []
        while lines and lines[0].startswith('--'): lead.append(lines.pop(0))
        while lines and lines[0] == '': lines.pop(0)
        if lead and not uses and not defs: head += lead; lead = []
        if not lines: other.append(('comment', lead)); continue
        if lines[0].startswith('use '):
            uses.append('\n'.join(lines)); continue
        if 'tie.close' in '\n'.join(lines):
            for i, l in enumerate(lines):
                if l.startswith('unfolding'):
                    u = [l]
                    while lines[i + len(u)][:1].isspace(): u.append(lines[i + len(u)])
                    whole_unf = '\n'.join(u) + '\n'
            final = '\n'.join(lines); continue
        if re.match(r'pub \S+ : \{M : Type 1\} → statement M', lines[0]):
            lines = lines[1:]
            if lines and lines[0].startswith('unfolding') and 'tie.close' not in '\n'.join(lines):
                whole_unf = '\n'.join(lines) + '\n'; lines = []
            if not lines: after_spec = True; continue
        if after_spec and lines[0].startswith('unfolding'):
            whole_unf = '\n'.join(lines) + '\n'; continue
        m = re.match(r'(?:abbrev |unfoldable )?(?:pub )?(\S+) :(?: (.*))?$', lines[0])
        if m:
            order.append(m[1]); defs[m[1]] = [lead, lines]
        else:
            m = re.match(r'(\S+)', lines[0])
            # a clause of the last declaration, or an unfolding line
            if order:
                defs[order[-1]][1] += lines
            else:
                said.append('?lines ' + lines[0])
    if final is None: return None
    final = re.sub(r'\s+--[^\n]*\s*$', '', final)
    m = re.search(r'tie\.close\s*\(\s*tie\.spec(.*)\)\s*$', final, re.S)
    if not m:
        m = re.search(r'tie\.close\s+tie\.spec\s*()$', final, re.S)
    if not m: return None
    args = parse_args(m[1])
    nl = len(fn.loops)
    inv_args, need_args = args[:2*nl], args[2*nl:]
    # kinds
    tie_of = {}
    for name in order:
        t = ' '.join(defs[name][1])
        mm = re.search(r': tie\.((?:Need|invariant|decreases)[^\s]*)', t)
        if mm: tie_of[name] = mm[1]
    if len(need_args) != len(fn.needs):
        said.append(f'?count old {len(need_args)} new {len(fn.needs)}')
    # pair: by position where the counts agree, else by name
    pairs = []
    if len(need_args) == len(fn.needs):
        pairs = list(zip(need_args, range(len(fn.needs))))
    else:
        old_names = []
        tail = m[1]
        for a in need_args:
            t = tie_of.get(a, '')
            old_names.append(norm(t[5:]) if t.startswith('Need-') else norm(a) if not a.startswith('(') else '')
        import difflib
        new_names = [norm(n[0]) for n in fn.needs]
        def key(s): return re.sub(r'^(overflow_)', '', s)
        sm = difflib.SequenceMatcher(None, [key(x) for x in old_names], [key(x) for x in new_names], autojunk=False)
        for a, b, k in sm.get_matching_blocks():
            for d in range(k): pairs.append((need_args[a+d], b+d))
    # own definitions over places of the code
    projections, takers = {}, {}
    olds = {norm(q): q for q in fn.places}
    def place_of(word):
        w = norm(word)
        return olds.get(w) or olds.get(re.sub(r'^(then|else|after|in|at)_', r'\1_', w))
    for name in order:
        ty = ' '.join(defs[name][1])
        ty = ty.split(f'\n{name}')[0]
        m1 = re.match(r'.*? : tie\.([^\s()]+)(?: invariant\S*| decreases\S*)* → tie\.([^\s()]+)', defs[name][1][0])
        if m1 and not m1[1].startswith(('Need', 'invariant', 'decreases')):
            q = place_of(m1[2])
            if q: projections[name] = q
            continue
        m2 = re.search(r':\s+(?:\((\w+) : )?tie\.([^\s()]+)', ' '.join(defs[name][1][:2]))
        if m2 and not m2[2].startswith(('Need', 'invariant', 'decreases')):
            q = place_of(m2[2])
            if q: takers[name] = q
            else: said.append(f'?place {m2[2]} of {name}')
    # invariants
    inv = []
    names_inv = {}
    for li, ((old_new, vars_), changed) in enumerate(zip(fn.loops, fn.changed)):
        for kind, arg in (('invariant', inv_args[2*li]), ('decreases', inv_args[2*li+1])):
            new = f'{kind}-{old_new[1]}'
            if arg in defs:
                body = '\n'.join(defs[arg][1][1:])
                mm = re.match(rf'{re.escape(arg)}\s+([^=]*?)\s*=(.*)$', body, re.S)
                if not mm:
                    said.append(f'?invariant {arg}'); continue
                params, term = mm[1].split(), mm[2]
            else:
                mm = re.match(r'\(λ ([^.]*)\.(.*)\)$', arg, re.S)
                if not mm:
                    said.append(f'?invariant {arg}'); continue
                params, term = mm[1].split(), mm[2]
            want = [f'l.initial.{v}' if c else f'l.{v}' for v, c in zip(vars_, changed)] + [f'l.{v}' for v, c in zip(vars_, changed) if c]
            if len(want) != len(params):
                said.append(f'?params of {arg}: {" ".join(params)} against {" ".join(want)}')
                # by name
                sub = {}
                for p in params:
                    base = p.rstrip('₀')
                    v = base.replace("'", '')
                    if v in vars_: sub[p] = (f'l.initial.{v}' if p.endswith('₀') else f'l.{v}')
            else:
                sub = dict(zip(params, want))
            def rep(mt):
                t = mt[0]
                if t in sub: return sub[t]
                if '.' in t and t.split('.')[0] in sub and not t.startswith('.'):
                    h, r = t.split('.', 1)
                    return sub[h] + '.' + r
                return t
            # a name before '=' in a record is a field
            term = re.sub(r'(?<![^\s(){}\[\];,])[^\s(){}\[\];,]+(?!\s=\s)', rep, term)
            inv.append((new, defs.get(arg, [[], []])[0], term.strip('\n'), term))
            names_inv[arg] = new
    # answers
    renamed = {a: fn.needs[k][1] for a, k in pairs if not a.startswith('(')}
    cited = set()
    for n in order:
        for mt in re.finditer(r'(?<![^\s(){}\[\];,])[^\s(){}\[\];,.]+(?= c\b)', '\n'.join(defs[n][1][1:])):
            if mt[0] in renamed and mt[0] != n: cited.add(renamed[mt[0]])
    used = set(inv_args)
    ans = []
    seen_defs = {}
    for arg, k in pairs:
        old, new = fn.needs[k]
        at = fn.at[k][0]
        if arg.startswith('('):
            mm = re.match(r'\(λ (.*?)\.\s(.*)\)$', arg, re.S) or re.match(r'\(λ (.*?)\.(.*)\)$', arg, re.S)
            if not mm:
                said.append(f'?answer {new}: {arg[:60]}'); continue
            body = mm[2]; unf = whole_unf; lead = []
            params = mm[1].split()
            multi = None
        elif arg in defs:
            used.add(arg)
            lead, lines = defs[arg]
            lines = lines[1:] if not lines[0].rstrip().endswith('→') else lines[1:]
            # the type may go over lines: skip up to the first clause or unfolding
            while lines and lines[0][:1].isspace(): lines = lines[1:]
            unf = ''
            if lines and lines[0].startswith('unfolding'):
                u = [lines.pop(0)]
                while lines and lines[0][:1].isspace(): u.append(lines.pop(0))
                unf = '\n'.join(u) + '\n'
            body_ = '\n'.join(lines)
            mm = re.match(rf'{re.escape(arg)}(\s+[^=]*?|)\s*=(?=\s)(.*)$', body_, re.S)
            if not mm:
                said.append(f'?clause {arg}'); continue
            params = mm[1].split(); body = mm[2]
        else:
            said.append(f'?unknown {arg} for {new}'); continue
        body = body.strip()
        if params and params[0] != 'c' and params[0] != '_':
            said.append(f'?binder {params} for {new}')
        said_here = []
        body = turn_body(fn, at, body, said_here, projections, takers)
        said += [f'{new}: {s}' for s in said_here]
        body = re.sub(r'(?<![^\s(){}\[\];,])[^\s(){}\[\];,.]+(?= c\b)', lambda mt: renamed.get(mt[0], mt[0]), body)
        if TRIVIAL.match(re.sub(r'\s+', ' ', body.strip())) and not unf and new not in cited: continue
        where = ''
        p = ' '.join(['c'] )
        ans.append((new, lead, unf, p, body))
    # an answer that another cites stands above it
    moved = True
    while moved:
        moved = False
        for i, a in enumerate(ans):
            for j in range(i + 1, len(ans)):
                if re.search(rf'(?<![^\s(){{}}\[\];,]){re.escape(ans[j][0])} c\b', a[4]):
                    ans.insert(i, ans.pop(j)); moved = True; break
            if moved: break
    for name in takers:
        lead, lines = defs[name]
        s = '\n'.join(lines)
        q = takers[name]
        m3 = re.search(r'\((\w+) : tie\.', s.split('\n' + name + ' ')[0])
        here = []
        # the variable in the type, and the one of the clause
        parts = re.split(rf'\n(?={re.escape(name)} )', s, maxsplit=1)
        head_, rest_ = parts[0] + '\n', (parts[1] if len(parts) > 1 else '')
        head_ = re.sub(r'tie\.[^\s()]+(?: invariant\S*| decreases\S*)*', 'goal.' + fn.by_name[q], head_, count=1)
        if m3: head_ = turn_body(fn, q, head_, here, projections, {k: v for k, v in takers.items() if k != name}, m3[1])
        if m3 and m3[1] != 'c': head_ = re.sub(rf'(?<![^\s(){{}}\[\];,])c\.', m3[1] + '.', head_)
        m4 = re.match(rf'{re.escape(name)} (\w+)', rest_)
        if m4:
            rest_ = turn_body(fn, q, rest_, here, projections, {k: v for k, v in takers.items() if k != name}, m4[1])
            if m4[1] != 'c': rest_ = re.sub(rf'(?<![^\s(){{}}\[\];,])c\.', m4[1] + '.', rest_)
        said += [f'{name}: {x}' for x in here]
        defs[name][1] = (head_ + rest_).split('\n')
    helpers = [n for n in order if n not in used and n not in tie_of and n not in projections]
    return fn, head, uses, inv, ans, [(n, defs[n]) for n in helpers], said

def params_of(crate_dir, mods, f):
    """The names of a function's parameters, from its source."""
    for d, _, fs in os.walk(os.path.join(crate_dir, 'src')):
        for name in fs:
            t = open(os.path.join(d, name), encoding='utf-8').read()
            m = re.search(rf'\bfn {f}(?:<[^>]*>)?\(', t)
            if not m: continue
            if mods and name[:-3] != mods[-1] and not (name == 'mod.rs'): continue
            i, depth = m.end(), 1
            while depth:
                depth += {'(': 1, ')': -1}.get(t[i], 0); i += 1
            s = re.sub(r'<[^<>]*>', '', t[m.end():i-1])
            return [re.sub(r'^mut ', '', a.strip()).split(':')[0].strip() for a in re.split(r',(?![^\[]*\])', s) if a.strip()]
    return None

def turn_cycle(path, mods, f, info, crate_dir):
    """A function that calls itself alone."""
    text = open(path, encoding='utf-8').read()
    if 'PlainCycle' not in text: return None
    fn = Fn(info, True); said = []
    head, uses, final, cur = [], [], None, []
    lines = text.split('\n')
    while lines and lines[0].startswith('--'): head.append(lines.pop(0))
    rest = '\n'.join(lines)
    for u in re.findall(r'(?m)^use [^\n]*(?:\n[ \t]+[^\n]*)*', rest): uses.append(u)
    m = re.search(r'(?m)^abbrev (μ\S*) : Measures[^\n]*\n\1 κs a = (.*(?:\n[ \t]+.*)*)', rest)
    if not m:
        m = re.search(r'(?m)^abbrev (μ\S*) : [^\n]*\n\1 κs a =\s*(.*(?:\n[ \t]+.*)*)', rest)
    if not m: return None
    measure = m[2].strip()
    ps = params_of(crate_dir, mods, f)
    def par(mt):
        k = mt[1].count('.1')
        return 'l.' + (ps[k] if ps and k < len(ps) else f'?{k}')
    measure = re.sub(r'\ba((?:\.1)*)\.0', par, measure)
    m = re.search(r'close μ\S* λ t\. \S+\.spec (.*)$', rest, re.S) or re.search(r'close μ\S* \(?λ t\. \S+\.spec (.*)$', rest, re.S)
    if not m: return None
    args = parse_args(m[1])[3:]
    if len(args) != len(fn.needs): said.append(f'?count old {len(args)} new {len(fn.needs)}')
    ans = []
    for k, arg in enumerate(args[:len(fn.needs)]):
        old, new = fn.needs[k]; at = fn.at[k][0]
        mm = re.match(r'\(λ (.*?)\.\s(.*)\)$', arg, re.S) or re.match(r'\(λ (.*?)\.(.*)\)$', arg, re.S)
        if not mm:
            said.append(f'?answer {new}: {arg[:60]}'); continue
        here = []
        body = turn_body(fn, at, mm[2].strip(), here)
        said += [f'{new}: {s}' for s in here]
        if TRIVIAL.match(re.sub(r'\s+', ' ', body.strip())): continue
        ans.append((new, [], '', 't c', body))
    # definitions of the file's own, other than the readings
    defs = []
    for b in blocks(rest):
        ls = [l for l in b if l != '']
        if not ls: continue
        m = re.match(r'(?:abbrev |unfoldable )?(?:pub )?(\S+) : (.*)', ls[0])
        if m and not re.match(r'μ|\+', m[1]) and not re.search(r'Measures|In \d|statement M|ℕ → In', m[2]):
            said.append(f'?own {m[1]}')
    return fn, head, uses, [(f'decreases-{f}', [], measure, ' ' + measure)], ans, [], said

def words(s):
    return set(re.findall(r'[^\s(){}\[\];,.]+', s)) | set(re.findall(r'[^\s(){}\[\];,]+', s))

def keep_uses(uses, body, crate, fn_path):
    """The use lines that the body needs."""
    out = []
    w = words(body)
    if '[]' in body: w.add('[]')
    ops = set()
    for u in uses:
        if '.Statement.{' in u or re.search(r'\.Tie as tie', u) or 'borrow.Author.Needs' in u: continue
        m = re.match(r'use (\S+?)\.\{(.*)\}\s*$', u, re.S)
        if not m:
            m2 = re.match(r'use (\S+) as (\S+)', u)
            if m2 and m2[2] not in w and not re.search(rf'(?<![^\s(){{}}\[\];,]){re.escape(m2[2])}\.', body): continue
            out.append(u); continue
        items = [it.strip() for it in m[2].replace('\n', ' ').split(',') if it.strip()]
        keep = []
        for it in items:
            name = it.split(' as ')[-1].strip()
            if '◌' in name:
                parts = [p for p in name.split('◌') if p]
                if all(p in w for p in parts): keep.append(it)
            elif name in w: keep.append(it)
        if keep: out.append(f'use {m[1]}.{{{", ".join(keep)}}}')
    return out

def main():
    names_root, crates = sys.argv[1], sys.argv[2:]
    done = skipped = 0
    for crate_dir in crates:
        crate_dir = crate_dir.rstrip('/')
        crate = os.path.basename(crate_dir)
        jf = os.path.join(names_root, 'crates', crate, 'names.json')
        if not os.path.isfile(jf):
            print(f'{crate}: no names'); continue
        data = json.load(open(jf))
        for key, info in data.items():
            m = re.match(rf'Rattle-{crate}-proofs\.(.*)\.Lts$', key)
            mc = re.match(rf'Rattle-{crate}-proofs\.((?:.*\.)?\+(\w+))\.Lts-\2$', key)
            if not m and not mc: continue
            m = m or mc
            folder = os.path.join(crate_dir, 'proofs', *m[1].split('.'))
            path = os.path.join(folder, 'Proof.antt')
            if not os.path.isfile(path): continue
            try:
                r = turn_cycle(path, m[1].split('.')[:-1], mc[2], info, crate_dir) if mc else turn(path, m[1], info, crate)
            except Exception as e:
                print(f'{path}: failed {e!r}'); continue
            if r is None:
                print(f'{path}: another form'); skipped += 1; continue
            fn, head, uses, inv, ans, helpers, said = r
            for s in said: print(f'{path}: {s}')
            text_inv = ''
            if inv:
                body = '\n\n'.join('\n'.join(lead + [f'abbrev pub {new} : goal.{new}', f'{new} l ={" " if not full.startswith(chr(10)) else chr(10)}{full.strip(chr(10)) if full.startswith(chr(10)) else full.strip()}']) for new, lead, term, full in inv)
                us = keep_uses(uses, body, crate, m[1])
                text_inv = '\n'.join(head + us + [f'use Rattle.{crate}.proofs.{m[1]}.Given as goal', '']) + '\n' + body + '\n'
            text_ans = ''
            if ans or helpers:
                hs = '\n\n'.join('\n'.join(d[0] + [l for l in d[1]]) for n, d in helpers)
                body = '\n\n'.join('\n'.join(lead + [f'pub {new} : goal.{new}']) + '\n' + unf + f'{new} {p} =' + (' ' + b if '\n' not in b and len(b) + len(new) < 100 else '\n    ' + b) for new, lead, unf, p, b in ans)
                whole = (hs + '\n\n' if hs else '') + body
                us = keep_uses(uses, whole, crate, m[1])
                text_ans = '\n'.join((head if not inv else []) + us + [f'use Rattle.{crate}.proofs.{m[1]}.Goals as goal', '']) + '\n' + whole + '\n'
            os.remove(path)
            if text_inv: open(os.path.join(folder, 'Invariants.antt'), 'w').write(text_inv)
            if text_ans: open(os.path.join(folder, 'Answers.antt'), 'w').write(text_ans)
            if not text_inv and not text_ans:
                try: os.removedirs(folder)
                except OSError: pass
            done += 1
    print(f'turned {done}, left {skipped}')

main()
