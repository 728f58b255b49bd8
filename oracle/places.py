#!/usr/bin/env python3
"""oracle/places.py [-l] [-p N] [TREE]: the places that docs/DESIGN-PASS.md counts, by point, in TREE's crates/*/src (this tree's, where none is named). -l lists them all, -p those of one point.

It goes by the text, so what it names is a place to look at. A place that stays has its reason beside it, in a line that begins `// Kept:`; it is counted, and marked."""
import collections
import glob
import os
import re
import sys

FN = re.compile(r'^\s*(?:pub(?:\(crate\))? )?(?:extern "C" )?fn (\w+)')
FIELD = r'^    (?:pub(?:\(crate\))? )?'
WORDS = {'if', 'else', 'return', 'while', 'for', 'in', 'let', 'mut', 'match', 'true', 'false', 'as'}
# what says nothing by standing beside another: a sign, the two numbers of an operation
SIGNS = {'negative', 'more', 'lost', 'na', 'nb', 'set'}


def functions(lines):
    """Each function: its name, its line, the comment above it, its head, its clauses and its body."""
    i = 0
    while i < len(lines):
        m = FN.match(lines[i])
        if not m:
            i += 1
            continue
        above, k = [], i - 1
        while k >= 0 and lines[k].lstrip().startswith(('//', '#[')):
            above.insert(0, lines[k].strip())
            k -= 1
        indent, head, k = len(lines[i]) - len(lines[i].lstrip()), [lines[i]], i
        while not lines[k].rstrip().endswith((' {', '{}', ';')) and k + 1 < len(lines) and not re.match(r'\s*(requires|ensures|where)\b|\s*{$', lines[k + 1]):
            k += 1
            head.append(lines[k])
        clauses = []
        while not lines[k].rstrip().endswith((' {', '{}', ';')) and lines[k].strip() != '{' and k + 1 < len(lines):
            k += 1
            if lines[k].strip() != '{': clauses.append(lines[k])
        body, end = [], ' ' * indent + '}'
        while k + 1 < len(lines) and lines[k + 1] != end:
            k += 1
            body.append(lines[k])
        yield m.group(1), i + 1, ' '.join(above), ' '.join(head), clauses, body
        i += 1


def shape(body):
    """A body's tokens, with one name for all names, one number for all numbers."""
    text = '\n'.join(re.sub(r'//.*', '', b) for b in body)
    tokens = re.findall(r'"[^"]*"|\d[\w.]*|\w+|[^\s\w]', text)
    return tuple(t if t in WORDS or not re.match(r'[\w"]', t) else '0' if t[0].isdigit() else 's' if t[0] == '"' else 'i' for t in tokens)


def places(tree):
    found = {n: [] for n in range(1, 8)}
    shapes, facts, pairs = (collections.defaultdict(list) for _ in range(3))
    for path in sorted(glob.glob(os.path.join(tree, 'crates/*/src/*.rt'))):
        with open(path, encoding='utf-8') as f: lines = f.read().splitlines()
        name, blocks, block = os.path.relpath(path, tree), [], False
        # a block of lines with no blank one between them: whether a reason stands in it above a line
        for line in lines:
            block = bool(line.strip()) and (block or '// Kept:' in line)
            blocks.append(block)

        def add(point, k, what): found[point].append((name, k, what, blocks[k - 1] or '// Kept:' in ''.join(lines[k - 1:k + 1])))
        inside = ''
        for k, line in enumerate(lines, 1):
            code = line.split('//')[0].rstrip()
            m = re.match(r'^(?:pub(?:\(crate\))? )?(struct|enum) (\w+)', code)
            if m: inside = m.group(1) + ' ' + m.group(2)
            if code.startswith('}'): inside = ''
            if inside.startswith('enum') and re.match(r'^    (Not|None|Nothing|Malformed|Refused\(u8\)|Missing),?$', code): add(1, k, f'{inside}: {code.strip()}')
            m = re.match(FIELD + r'(\w+): bool,$', code)
            if inside.startswith('struct') and m and m.group(1) not in SIGNS: add(1, k, f'{inside}: {code.strip()}')
            if inside.startswith('struct') and re.match(FIELD + r'(refusal|class|kind|sheet): (u8|usize|u32|u64),$', code): add(1, k, f'{inside}: {code.strip()}')
            if inside.startswith('struct') and re.match(FIELD + r'(length|held|size|count|next|behind): usize,$', code): add(6, k, f'{inside}: {code.strip()}')
            if re.search(r'Refused\(\d+\)', code) or re.search(r'\brefusal(\([^)]*\))? (!=|==|>) \d', code) or re.search(r'\bclass (!=|==|<|>) \d', code): add(1, k, code.strip())
            if re.match(r'^\s*while\b', code) and ' let ' not in code: add(3, k, code.strip())
            if re.search(r'(\w+)\[(\w+)\] != \w+\[\2\]', code): add(4, k, code.strip())
            if re.match(r'^\s*let (\w+) = (\w+)\.\1;$', code) or re.match(r'^\s*(\w+): (\w+)\.\1,$', code) or re.match(r'^\s*(\w+): \1,$', code): add(4, k, code.strip())
        for f, k, above, head, clauses, body in functions(lines):
            if re.search(r'\b(\d+|none|the row count|the number of rows)\b,? (where|for any|for another|for nothing|if )', above) and re.search(r'-> (u8|u16|u32|u64|usize)\b', head): add(1, k, f'{f}: {above[:100]}')
            if len(body) == 1 and re.match(r'^\s*\w+ as \w+$', body[0]): add(4, k, f'{f}: {body[0].strip()}')
            if re.search(r'at the start of the buffer|: its length', above) and '-> usize' in head: add(6, k, f'{f}: {above[:100]}')
            if len(shape(body)) >= 20: shapes[shape(body)].append((name, k, f, blocks[k - 1]))
            for c in clauses:
                m = re.match(r'^\s*requires(?: \w+)? \{ (.*) \}', c)
                for fact in m.group(1).split(' × ') if m else []:
                    fact = fact.strip()
                    if fact[0] == '(' and fact[-1] == ')': fact = fact[1:-1]
                    facts[fact].append((name, k, f, blocks[k - 1]))
            given = re.findall(r'(?:mut )?(\w+): ([^,()]+?)\s*(?:,|\))', head)
            for a, one in enumerate(given):
                for two in given[a + 1:]:
                    if {one[1], two[1]} <= {'f64', 'u64'} and len(one[0]) + len(two[0]) < 4: continue
                    pairs[(one, two)].append((name, k, f, blocks[k - 1]))
                if one[1] == 'bool' and one[0] not in SIGNS | {'met', 'ok'}: add(7, k, f'{f}({one[0]}: bool)')
    def group(point, what, where): found[point].append((where[0][0], where[0][1], what, all(w[3] for w in where)))
    for where in shapes.values():
        if len(where) > 1: group(2, ' ~ '.join(f'{n.split("/")[1]}::{f}' for n, k, f, kept in where), where)
    for fact, where in sorted(facts.items()):
        if len(where) > 2: group(5, f'{fact} ({len(where)} functions)', where)
    for (one, two), where in sorted(pairs.items()):
        if len(where) > 5: group(5, f'{one[0]}: {one[1]}, {two[0]}: {two[1]} ({len(where)} functions)', where)
    return found


def main():
    words, point = sys.argv[1:], 0
    if '-p' in words:
        point = int(words[words.index('-p') + 1])
        del words[words.index('-p'):words.index('-p') + 2]
    trees = [w for w in words if w != '-l']
    tree = trees[0] if trees else os.path.normpath(os.path.join(os.path.dirname(os.path.abspath(__file__)), '..'))
    for n, where in places(tree).items():
        if point not in (0, n): continue
        print(f'point {n}: {len(where)} places, {sum(kept for *_, kept in where)} of them kept')
        for name, k, what, kept in where if point or '-l' in words else []: print(f'  {name}:{k}: {what}{"  [kept]" if kept else ""}')


if __name__ == '__main__': main()
