#!/usr/bin/env python3
"""tools/convert_proofs.py CRATE NAMES WALKS: turns each walk of the older kit, WALKS/../Proof.antt, into Invariants.antt and Answers.antt in crates/CRATE/proofs.

WALKS is where the crate's proofs/ were put aside. NAMES is the file that `rt check --allow-holes --generated DIR --old-names` wrote (DIR/names.json), with the old and the new name of each goal and step. An answer that only searched goes: the check
tries that by itself. What a path could not be read as is kept as it was, and said. Proof.antt goes where everything was read; the check decides."""
import json
import os
import re
import sys

ROOT = os.path.normpath(os.path.join(os.path.dirname(os.path.abspath(__file__)), '..'))
PATH = re.compile(r"(?<![^\s(){}\[\],;`\"λ])([^\s(){}.,;`\"\[\]]+)((?:\.[^\s(){}.,;`\"\[\]]+)+)")
TOKEN = re.compile(r"[^\s(){}.,;`\"\[\]]+")


def lent_names():
    """Of each function of the project what it is lent to write, by its crate and name: `self` and each parameter that is a `&mut`."""
    out = {}
    for folder, inner, names in os.walk(os.path.join(ROOT, 'crates')):
        inner[:] = [i for i in inner if i != 'out']
        crate = os.path.relpath(folder, os.path.join(ROOT, 'crates')).split(os.sep)[0]
        for name in names:
            if not name.endswith('.rt'): continue
            with open(os.path.join(folder, name), encoding='utf-8') as f: text = f.read()
            for m in re.finditer(r'\bfn (\w+)(?:<[^>]*>)?\(([^)]*)\)', text):
                out[crate, m[1]] = ['self' for _ in re.findall(r'&mut self\b', m[2])] + re.findall(r'(\w+): &mut ', m[2])
    return out


LENT = lent_names()


def same(name):
    """A name without regard to dashes and underscores."""
    return name.replace('-', '_')


def blocks(text):
    """The declarations of a file, each with the comment above it: lists of lines."""
    out, now = [], []
    for line in text.splitlines():
        begins = line and not line[0].isspace()
        if not line.strip():
            if now: out.append(now)
            now = []
            continue
        now.append(line)
    if now: out.append(now)
    # a blank line inside a where block or a section keeps what is indented with what came before
    joined = []
    for b in out:
        if joined and b[0][0].isspace(): joined[-1] += [''] + b
        else: joined.append(b)
    return joined


class Walk:
    def __init__(self, crate, path, entry, said):
        self.crate, self.path, self.entry, self.said = crate, path, entry, said
        self.needs = {}
        for old, new in entry['needs']: self.needs[same(old)] = new
        self.fields, self.places = {}, {}
        for place, new in zip(entry['places'], entry['places_by_name']):
            self.places[same(place[0])] = new
            if place[2][0]: self.fields.setdefault(same(place[2][0]), place[2][1])
        self.loops = {same(l[0][0]): (l[0][1], l[1], c) for l, c in zip(entry['loops'], entry['changed'])}
        self.params = {}
        for place in entry['places']:
            if place[3] and place[3] in entry['params']: self.params[same(place[2][0])] = entry['params'][place[3]]
        self.helpers = {}
        # the names of a callee's promises, and of what it is lent to write
        self.clauses, self.lent = {}, {}
        for place, c in zip(entry['places'], entry['clauses']):
            key = same(place[2][0])
            if c and c.get('fields'): self.clauses[key] = c['fields']
            if place[3]: self.lent[key] = LENT.get((place[3].split('::')[0], place[3].split('::')[-1]), [])
        # an argument that had no name, and what an arm binds
        self.renamed = {}
        for old, new in entry['args']: self.renamed[tuple(same(w.lstrip('.')) for w in old.split())] = [w.lstrip('.') for w in new.split()]
        for arm in entry['arms']:
            if not arm: continue
            for name, place, inner in arm[2]:
                if inner: self.renamed[(same(place), *inner)] = [arm[0], name]
        pre = entry.get('pre')
        self.pre = pre['fields'] if isinstance(pre, dict) and pre.get('fields') else pre if isinstance(pre, list) else []

    def note(self, text): self.said.append(f'{self.path}: {text}')

    def need(self, old):
        for cut in ('', 'overflow-', 'nonzero-', 'overflow_', 'nonzero_'):
            if old.startswith(cut) and same(old[len(cut):]) in self.needs: return self.needs[same(old[len(cut):])]
        return None

    # ---- paths

    def states(self, body, first):
        """The names that stand for a state in this body: c, and what a `let` binds to c's own `before`s."""
        names = set(first)
        while True:
            more = {m[1] for m in re.finditer(r'let (\S+) = ([^\s.]+)((?:\.before)*) in', body) if m[2] in names} - names
            if not more: return names
            names |= more

    def step(self, parts, flat):
        """A path's parts after the state's name, in today's words."""
        befores = 0
        while parts and parts[0] == 'before':
            parts, befores = parts[1:], befores + 1
        head = [] if flat else ['before'] * befores
        if not parts: return head
        plain = [same(w) for w in parts]
        for n in range(len(plain), 0, -1):
            if tuple(plain[:n]) in self.renamed: return self.renamed[tuple(plain[:n])] + parts[n:]
        key, rest = same(parts[0]), parts[1:]
        if key in self.fields:
            if len(rest) > 1 and rest[0] == 'new' and rest[1].isdigit():
                lent = self.lent.get(key, [])
                n = int(rest[1])
                if n < len(lent): rest = ['new', lent[n]] + rest[2:]
                else: self.note(f'{parts[0]}.new.{n}: not read')
            if rest and rest[0] == 'ensures' and key in self.clauses:
                fields = self.clauses[key]
                if len(rest) > 1 and rest[1].isdigit() and len(fields) > 1 and int(rest[1]) < len(fields): rest = ['ensures', fields[int(rest[1])]] + rest[2:]
                elif len(fields) == 1: rest = ['ensures', fields[0]] + rest[1:]
            return [self.fields[key]] + rest
        if key == 'requires' and len(self.pre) > 1 and rest and rest[0].isdigit() and int(rest[0]) < len(self.pre): return ['requires', self.pre[int(rest[0])]] + rest[1:]
        if key == 'well_formed': return ['well_formed'] + rest
        return [parts[0]] + rest

    def paths(self, body, names, flat):
        def turn(m):
            if m[1] not in names: return m[0]
            parts = m[2][1:].split('.')
            new = self.step(parts, flat)
            return m[1] + ''.join('.' + p for p in new)
        return PATH.sub(turn, body)

    # ---- declarations

    def declaration(self, block):
        comment = []
        while block and block[0].startswith('--'): comment.append(block.pop(0))
        return comment, block

    def convert(self, text):
        uses, invariants, answers, head = [], [], [], []
        decls = []
        for i, block in enumerate(blocks(text)):
            comment, block = self.declaration(block)
            if not block:
                (head if not decls and not uses else answers).extend(comment)
                continue
            if block[0].startswith('use '):
                head += comment
                uses += [l for l in block if l.startswith('use ')]
                continue
            decls.append((comment, block))
        kept = []
        # which names are helpers over a place
        for comment, block in decls:
            text = '\n'.join(block)
            m = re.match(r'(?:abbrev |pub )*(\S+) : ', text)
            if m and not re.match(r'(?:abbrev |pub )*\S+ : tie\.(Need-|invariant-|decreases-)', text):
                p = re.search(r'\((\S+) : tie\.([^\s)]+)[^)]*\)', text) or re.search(r'(): tie\.([^\s)]+)[^→]*→', text)
                if p: self.helpers[m[1]] = (p[1], p[2])
        used_places = set()
        invs, ans = [], []
        for comment, block in decls:
            text = '\n'.join(block)
            if re.match(r'pub \S+[-_]spec : ', text): continue
            m = re.match(r'abbrev (invariant|decreases)-(\S+) : tie\.', text)
            if m:
                invs += comment + self.invariant(m[1], m[2], block) + ['']
                continue
            m = re.match(r'(\S+) : tie\.Need-(\S+)', text)
            if m:
                out = self.answer(m[1], m[2], block)
                if out: ans += comment + out + ['']
                continue
            ans += comment + self.helper(block, used_places) + ['']
        return head, uses, invs, ans, used_places

    def invariant(self, kind, old, block):
        if same(old) not in self.loops:
            self.note(f'no loop {old}')
            return block
        new, names, changed = self.loops[same(old)]
        i = next(k for k, l in enumerate(block) if re.match(rf'{kind}-{re.escape(old)} ', l))
        clause = '\n'.join(block[i:])
        m = re.match(rf'{kind}-{re.escape(old)} ((?:[^=])*?)=(?=[\s])', clause)
        given, body = m[1].split(), clause[m.end():]
        want = list(names) + [n for n, c in zip(names, changed) if c]
        if len(given) != len(want):
            self.note(f'{kind}-{old} takes {len(given)} and not {len(want)}')
        turn = {}
        for k, (g, w) in enumerate(zip(given, want)):
            if k < len(names): turn[g] = f'l.initial.{w}' if changed[k] else f'l.{w}'
            else: turn[g] = f'l.{w}'
        body = TOKEN.sub(lambda t: turn.get(t[0], t[0]) if not (t.start() and body[t.start() - 1] == '.') else t[0], body)
        between = [l for l in block[1:i]]
        return [f'abbrev pub {kind}-{new} : goal.{kind}-{new}'] + between + [f'{kind}-{new} l ={body}']

    def answer(self, name, old, block):
        new = self.need(old)
        if new is None:
            self.note(f'no goal for {name} : {old}')
            return []
        i = next(k for k, l in enumerate(block) if k and re.match(rf'{re.escape(name)}\b', l))
        clause = '\n'.join(block[i:])
        m = re.match(rf'{re.escape(name)}((?: [^\s=]+)*) =(?=\s)', clause)
        if not m:
            self.note(f'{name}: not read')
            return ['-- LEFT'] + block
        args, body = m[1].split(), clause[m.end():]
        # what only searches is tried by itself
        plain = ' '.join(body.split())
        if plain in ('search rules', 'omega arith'): return []
        c = args[0] if args else 'c'
        names = self.states(body, [c])
        body = self.calls(body, names, lambda place: f'(goal.at.{new} {c}).{place}')
        body = self.paths(body, names, True)
        body = re.sub(r'let (\S+) = (\S+) in\s*', lambda t: '' if t[1] == t[2] else t[0], body)
        # a name for the whole state says nothing more
        for n in sorted(names - {c}, key=len, reverse=True):
            body = re.sub(rf'let {re.escape(n)} = {re.escape(c)} in\s*', '', body)
            body = PATH.sub(lambda t, n=n: c + t[2] if t[1] == n else t[0], body)
            body = re.sub(rf'let {re.escape(n)} = [^\s.]+ in\s*', lambda t: '' if t[0].split()[3] in names else t[0], body)
        more = args[1:]
        if more and 'requires' in old: more = more[1:]
        return [f'pub {new} : goal.{new}'] + block[1:i] + [' '.join([new, c, *more]) + f' ={body}']

    def calls(self, body, names, state):
        """A helper's argument is the record of its place."""
        for h, (_, place) in self.helpers.items():
            new = self.places.get(same(place))
            if not new:
                self.note(f'no place {place}')
                continue
            body = re.sub(rf'(?<![^\s(\[,]){re.escape(h)} ([^\s(){{}}.,;]+)((?:\.before)*)(?![^\s(){{}},;\]])', lambda m: f'{h} {state(new)}' if m[1] in names else m[0], body)
        return body

    def helper(self, block, used):
        text = '\n'.join(block)
        m = re.match(r'(?:abbrev |pub )*(\S+) : ', text)
        if not m or m[1] not in self.helpers:
            if 'tie.' in text: self.note(f'still says tie: {block[0][:80]}')
            return block
        name, (c, place) = m[1], self.helpers[m[1]]
        new = self.places.get(same(place), place)
        used.add(new)
        text = re.sub(r'tie\.' + re.escape(place) + r'((?: (?:invariant|decreases)-[^\s()]+)*)', new, text)
        text = re.sub(rf'(?m)^{re.escape(name)} (\S+) ', lambda k: f'{name} {k[1]} ', text)
        arg = re.search(rf'(?m)^{re.escape(name)} (\S+)', text)
        first = {c} if c else set()
        if arg: first.add(arg[1])
        names = self.states(text, first)
        text = self.paths(text, names, False)
        return text.splitlines()


def main():
    crate = sys.argv[1]
    folder = os.path.join(ROOT, 'crates', crate)
    with open(sys.argv[2], encoding='utf-8') as f: names = json.load(f)
    said, done = [], 0
    old = sys.argv[3]
    for at, _, files in os.walk(old):
        if 'Proof.antt' not in files: continue
        inner = os.path.relpath(at, old)
        entry = names.get(f'Rattle-{crate}-proofs.' + inner.replace('/', '.') + '.Lts')
        if entry is None:
            said.append(f'{inner}: no names')
            continue
        with open(os.path.join(at, 'Proof.antt'), encoding='utf-8') as f: text = f.read()
        walk = Walk(crate, inner, entry, said)
        try:
            head, uses, invs, ans, places = walk.convert(text)
        except Exception as e:
            said.append(f'{inner}: {type(e).__name__} {e}')
            continue
        stem = f'Rattle.{crate}.proofs.' + inner.replace('/', '.')
        uses = [u for u in uses if not re.match(r'use Rattle\.\w+\.proofs\.\S*\.(Statement|Tie|Reads|Lts|Kinds)(\.\{| as |$)', u)]
        to = os.path.join(folder, 'proofs', inner)
        os.makedirs(to, exist_ok=True)

        def write(name, body, goals, extra=[]):
            words = set(TOKEN.findall('\n'.join(body)))
            kept = []
            for u in uses:
                m = re.match(r'use ([^\s{]+)\.\{([^}]*)\}', u)
                if not m:
                    kept.append(u)
                    continue
                items = [w.strip() for w in m[2].split(',')]
                mine = [w for w in items if w in words or '◌' in w and all(part in words for part in w.split('◌') if part)]
                if mine: kept.append(f'use {m[1]}.{{{", ".join(mine)}}}')
            lines = head + kept + [f'use {stem}.{goals} as goal'] + extra + [''] + body
            with open(os.path.join(to, name), 'w', encoding='utf-8') as f: f.write('\n'.join(lines).rstrip() + '\n')

        if invs: write('Invariants.antt', invs, 'Given')
        if ans: write('Answers.antt', ans, 'Goals', [f'use {stem}.Goals.{{{", ".join(sorted(places))}}}'] if places else [])
        if not invs and not ans:
            try: os.removedirs(to)
            except OSError: pass
        done += 1
    print('\n'.join(said))
    print(f'{crate}: {done} walks turned, {len(said)} notes')


main()
