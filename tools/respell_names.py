#!/usr/bin/env python3
"""tools/respell_names.py: writes tools/respell.tsv, the old and the new spelling of each definition, field, constructor and lemma of specs/ and proofs/ whose name was in camel case or had a
dash before a plain word. Run once, right after the kit's port.py; tools/respell.py applies the list."""
import collections
import os
import re

ROOT = os.path.normpath(os.path.join(os.path.dirname(os.path.abspath(__file__)), '..'))
SIGNATURE = re.compile(r'^(\s*)((?:pub |abbrev |unfoldable )*)(record |data )?([^\s:(){}]+)( [^:]*)? : (.*)$')
RECORD = re.compile(r'^\s*(?:pub )?(?:record|data) ([^\s:(){}]+)')
TOKEN = re.compile(r"[^\s(){}.,;`«»\[\]\"]+")
# names of the logic's own that a dash may stand before or after
KNOWN = set('add sub mul div mod pow suc pred lt le gt ge eq ne ltb leb eqb not and or length append take drop set map replicate reverse size round nearest units fits neg abs zero one two size fin inf nan'.split())


def files(*ends):
    for folder, inner, names in os.walk(os.path.join(ROOT, 'crates')):
        inner[:] = sorted(i for i in inner if i != 'out')
        for name in sorted(names):
            if name.endswith(ends): yield os.path.join(folder, name)


def snake(name):
    name = re.sub(r'([a-z0-9])([A-Z]+)(?=$|[^A-Za-z])', lambda m: m[1] + '_' + m[2].lower(), name)
    return re.sub(r'([a-z0-9])([A-Z])', lambda m: m[1] + '_' + m[2].lower(), name)


def main():
    lemmas, words, tokens = set(), set(), collections.Counter()
    for path in files('.antt'):
        own = not path.endswith('Proof.antt')
        with open(path, encoding='utf-8') as f: text = f.read()
        for line in text.splitlines():
            if line.lstrip().startswith('--'): continue
            tokens.update(TOKEN.findall(line))
            if not own: continue
            m = SIGNATURE.match(line)
            if m:
                (words if 'abbrev' in m[2] or 'unfoldable' in m[2] or m[3] else lemmas).add(m[4])
    source = collections.Counter()
    for path in files('.rt'):
        with open(path, encoding='utf-8') as f: text = f.read()
        source.update(re.findall(r'[A-Za-z_][A-Za-z0-9_]*', re.sub(r'//[^\n]*', '', text)))
    crates, library = os.listdir(os.path.join(ROOT, 'crates')), set()
    for path in files('.antt', '.rt'):
        with open(path, encoding='utf-8') as f: text = f.read()
        for m in re.finditer(r'\buse ([^\s{]+)\.\{([^}]*)\}', text):
            head = m[1].split('.')
            if head[0] != 'Rattle' or head[1] not in crates: library.update(w.strip() for w in m[2].split(','))
    pairs = {}
    for name in sorted(lemmas | words):
        if name in library or '◌' in name or name.startswith('-') or not name[0].isalpha() or name.isupper(): continue
        new = name
        if name[0].islower() and re.search(r'[a-z0-9][A-Z]', name): new = snake(name)
        if '-' in new and new[0].islower():
            parts, olds = new.split('-'), name.split('-')
            out = parts[0]
            for i in range(1, len(parts)):
                left, right = olds[i - 1] in words or olds[i - 1] in KNOWN, olds[i] in words or olds[i] in KNOWN
                out += ('-' if left and right else '_') + parts[i]
            new = out
        if new != name: pairs[name] = new
    counts = collections.Counter(pairs.values())
    # where an old name stands, and which names stand alone there (not a path's part, not a projection)
    said, alone, held = [], {}, {}
    for path in files('.antt', '.rt'):
        with open(path, encoding='utf-8') as f: text = re.sub(r'(--|//)[^\n]*', '', f.read())
        if path.endswith('.rt'): held[path] = set(re.findall(r'\b([a-z_][a-z0-9_]*)(?=: [^:])', text))
        else: held[path] = set(re.findall(r"(?<![^\s(){},;«»\[\]])[^\s(){}.,;`«»\[\]\"]+", text))
        alone[path] = set(TOKEN.findall(text))
    for name in sorted(pairs):
        new = pairs[name]
        why = ''
        if counts[new] > 1 and name not in words: why = 'two come to it'
        if new in lemmas | words: why = 'there is one'
        if name == 'tooMany':
            pairs[name] = 'too_many_line'
            continue
        if name in words and new in lemmas - words:
            pairs[new] = new + '_lem'
            continue
        if any(name in alone[p] and new in held[p] for p in alone): why = why or 'a variable has it'
        if why:
            pairs[name] = new + ('_lem' if name in lemmas else '_value')
            said.append(f'{name} -> {pairs[name]}: {why}')
    for new, n in collections.Counter(pairs.values()).items():
        if n > 1 or new in lemmas | words: said.append(f'TWICE {new}')
    print('\n'.join(said))
    with open(os.path.join(ROOT, 'tools', 'respell.tsv'), 'w', encoding='utf-8') as f:
        for name in sorted(pairs): f.write(f'{name}\t{pairs[name]}\n')
    print(len(pairs), 'names,', len(said), 'that fall together')


main()
