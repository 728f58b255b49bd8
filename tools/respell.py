#!/usr/bin/env python3
"""tools/respell.py: gives the names of tools/respell.tsv their new spelling, in the definitions, laws, proofs and clauses of crates/ and in the wrong programs. Run once, at the top, right after
the kit's port.py. Code, strings, comments of the code and the names of functions stay as they are, but for the names of definitions in clauses and comments."""
import os
import re

ROOT = os.path.normpath(os.path.join(os.path.dirname(os.path.abspath(__file__)), '..'))
TOKEN = re.compile(r"[^\s(){}.,;`«»\[\]\"]+")
PART = re.compile(r'\.[^\s(){},;`«»\[\]"]*')


def main():
    with open(os.path.join(ROOT, 'tools', 'respell.tsv'), encoding='utf-8') as f: pairs = dict(line.rstrip('\n').split('\t') for line in f)
    # a name of the source's spelling changes in antt alone
    of_source = {name: new for name, new in pairs.items() if not re.search(r'[A-Z]|-', name)}
    of_all = {name: new for name, new in pairs.items() if name not in of_source}
    count = 0
    for top in ('crates', 'oracle/edits'):
        for folder, inner, names in os.walk(os.path.join(ROOT, top)):
            inner[:] = sorted(i for i in inner if i != 'out')
            for name in sorted(names):
                if not name.endswith(('.antt', '.rt', '.edit')): continue
                path = os.path.join(folder, name)
                with open(path, encoding='utf-8') as f: text = f.read()
                turns = pairs if name.endswith('.antt') else of_all
                if name.endswith('.antt'):
                    # not the part of a path: a module of that name
                    text2 = TOKEN.sub(lambda m: turns[m[0]] if m[0] in of_all or m[0] in turns and not (m.start() and text[m.start() - 1] == '.') else m[0], text)
                    # a name that a `use` line takes
                else:
                    text2 = TOKEN.sub(lambda m: turns.get(m[0], m[0]), text)
                if text2 != text:
                    count += 1
                    with open(path, 'w', encoding='utf-8') as f: f.write(text2)
    print(count, 'files')


main()
