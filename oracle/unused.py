#!/usr/bin/env python3
"""oracle/unused.py: what README's first command would prove and legsheet does not use.
Of the crates that legsheet stands on it looks at every function (is it called, from main on?), and at every definition and law (does a function's contract or proof come to it, or a law that
says what legsheet promises?). Anything else ends it with 1. It goes by names, so it may take something for used that is not."""
import collections, os, re, sys

ROOT = os.path.join(os.path.dirname(os.path.abspath(__file__)), '..')
PROGRAM = 'legsheet'
# What the whole program writes and saves, from the bytes that it reads: legsheet's own promise, which no code cites.
PROMISED = {('runner', 'specs.laws.Law'), ('runner', 'specs.laws.Whole')}
# Laws that proofs cited when they landed, and that today's check finds no need of: they stand (docs/PORT.md, docs/DESIGN-PASS.md).
STANDING = {
    (('rj', 'specs.laws.Counts'), 'rj_inside'), (('text', 'specs.laws.Digits'), 'if_below'),
}


def stands_on():
    needs = {}
    with open(os.path.join(ROOT, 'crates.txt'), encoding='utf-8') as f:
        for line in f:
            m = re.match(r'(\w+):(.*)', line)
            if m:
                needs[m[1]] = m[2].split()
    seen, todo = set(), [PROGRAM]
    while todo:
        crate = todo.pop()
        if crate in needs and crate not in seen:
            seen.add(crate)
            todo += needs[crate]
    return seen


def files(crate, folder, ending):
    for at, _, names in os.walk(os.path.join(ROOT, 'crates', crate, folder)):
        for name in sorted(names):
            if name.endswith(ending):
                path = os.path.join(at, name)
                with open(path, encoding='utf-8') as f:
                    yield path, f.read()


def bound(part):
    """The names that a function's text binds: its parameters, and those of each `let`, `for`, arm and closure."""
    names = set(re.findall(r'(\w+): ', part[:part.find('{\n')]))
    for patterns in re.findall(r'\blet ([^=;]*)=|\bfor (.*?) in |^ *(.*?) =>|\|([^|\n]*)\|', part, re.M): names |= set(re.findall(r'\w+', ' '.join(patterns)))
    return names


def functions(crates):
    """(crate, name) of each function, with what its file imports, the names that it binds, and its text; a method is named by its type too."""
    found, methods = {}, collections.defaultdict(set)
    for crate in crates:
        for _, text in files(crate, 'src', '.rt'):
            text = re.sub(r'//.*', '', text)
            imports = {}
            for m in re.finditer(r'^(?:pub )?use ([\w:]+)::(?:(\w+)|\{([^}]*)\});', text, re.M):
                for name in (m[2] or m[3]).split(','): imports[name.strip()] = m[1].split('::')[0]
            kind = None
            for part in re.split(r'^(?=(?:impl |    )?(?:impl|(?:#\[.*\]\n)?(?:pub(?:\(crate\))? )?(?:extern "C" )?fn) )', text, flags=re.M):
                m = re.match(r'impl (\w+)', part)
                if m:
                    kind = m[1]
                m = re.search(r'^(    )?(?:pub(?:\(crate\))? )?(?:extern "C" )?fn (\w+)', part, re.M)
                if not m:
                    continue
                key = crate, f'{kind}::{m[2]}' if m[1] else m[2]
                if m[1]:
                    methods[m[2]].add(key)
                found[key] = imports, bound(part), part[part.find('{\n'):] if '{\n' in part else part
    return found, methods


def calls(crate, imports, own, body, found, methods):
    body = re.sub(r'::<[^<>()]*>', '', body)
    # one that is handed on by its name
    yield from {(crate, name) for name in re.findall(r'[(,]\s*(\w+)(?=[,)])', body) if name not in own} & found.keys()
    for m in re.finditer(r'([\w:]*?)(?:::)?(\.?)\b(\w+)\(', body):
        path, dot, name = m[1], m[2], m[3]
        if dot:
            yield from methods[name]
            continue
        last = path.split('::')[-1]
        if last and last[0].isupper():
            for key in methods[name]:
                if key[1] == f'{last}::{name}':
                    yield key
        else:
            yield from {(crate, name), (last, name), (imports.get(name), name)} & found.keys() if not last else {(crate, name), (last, name)} & found.keys()


def unused_functions(crates):
    found, methods = functions(crates)
    seen, todo = set(), [(PROGRAM, 'main')]
    while todo:
        key = todo.pop()
        if key not in seen:
            seen.add(key)
            todo += calls(key[0], *found[key], found, methods)
    return {f'{crate}::{name}' for crate, name in found.keys() - seen}


def definitions(text):
    """name of each definition of a file, in modules too -> the words that its lines have; a constructor stands for its type."""
    found, inner, depth, now = collections.defaultdict(set), {}, 0, None
    for line in text.split('\n'):
        line = re.sub(r'(^|\s)--.*', '', line)
        if not line.strip() or re.match(r'(pub )?(use|mod) ', line):
            continue
        indent = len(line) - len(line.lstrip())
        depth = min(depth, indent // 2)
        if indent == 2 * depth:
            words = re.sub(r'^((unfoldable|abbrev|pub|private|macro) )+', '', line.strip())
            if words.startswith('module '):
                depth += 1
                continue
            m = re.match(r'(record |data )?([^\s(){};,]+)', words)
            if words.startswith('unfolding ') and now:
                pass
            elif m and (m[1] or re.match(r'[^\s(){};,]+ : ', words)):
                now = m[2]
                found[now]
            elif m and m[2] in found:
                now = m[2]
            kind = now if m and m[1] else None
        elif indent == 2 * depth + 2 and kind:
            m = re.match(r'(?:pub )?([^\s(){};,]+) : ', line.strip())
            if m:
                inner[m[1]] = kind
        if now:
            found[now] |= set(re.findall(r'[^\s(){};,.]+', line))
    return found, inner


USE = re.compile(r'^(?:pub |ghost )?use Rattle\.(\w+?)\.((?:specs|proofs)\.[^\s{;]+?)(?:\.\{([^}]*)\}| as (\S+?))?;?$', re.M)


def unused_laws(crates):
    """crate/file.name of each law and definition that no proof and no contract of these crates comes to, from the functions' proofs and what PROMISED names on."""
    files_of, names, todo = {}, {}, []
    for crate in crates:
        for folder, ending in (('specs', '.antt'), ('proofs', '.antt'), ('src', '.rt')):
            for path, text in files(crate, folder, ending):
                inside = '.'.join(os.path.relpath(path, os.path.join(ROOT, 'crates', crate))[:-len(ending)].split(os.sep))
                named, whole = {}, {}
                for m in USE.finditer(text):
                    place = m[1], m[2].replace('«', '').replace('»', '')
                    for name in (m[3] or '').split(','):
                        old, _, new = name.strip().partition(' as ')
                        named[new or old] = place, old
                    if m[4]:
                        whole[m[4]] = place
                if ending == '.rt':
                    todo += [(place, name) for place, name in named.values()]
                    # a lemma that an attribute gives the check
                    for m in re.finditer(r'\bcrate::((?:specs|proofs)(?:::\w+)+)::(\w+)', text): todo.append(((crate, m[1].replace('::', '.')), m[2]))
                    continue
                names[crate, inside] = named, whole
                files_of[crate, inside] = definitions(text)
    for place, (found, _) in files_of.items():
        if place[1].endswith(('.Answers', '.Invariants', '.Proof')) or place in PROMISED:
            todo += [(place, name) for name in found]
    todo += STANDING
    seen = set()
    while todo:
        place, name = todo.pop()
        if place not in files_of:
            continue
        found, inner = files_of[place]
        name = inner.get(name, name) if name not in found else name
        if name not in found or (place, name) in seen:
            continue
        seen.add((place, name))
        named, whole = names[place]
        words = found[name]
        words = words | {n for n in (*found, *named) if '◌' in n and set(n.split('◌')) - {''} <= words}
        for word in words:
            todo.append((place, word))
            if word in named:
                todo.append(named[word])
            if word in whole:
                todo += [(whole[word], other) for other in words]
    return {f"{crate}/{inside.replace('.', '/')}.{name}" for (crate, inside), (found, _) in files_of.items() for name in found if ((crate, inside), name) not in seen}


def main():
    crates = stands_on()
    left = unused_functions(crates) | unused_laws(crates)
    for name in sorted(left):
        print(f'{name}: in a crate that {PROGRAM} stands on, and it does not use it; put it where it is used')
    print(f'{PROGRAM} stands on {len(crates)} crates; what it does not use of them: {len(left)}')
    sys.exit(1 if left else 0)


main()
