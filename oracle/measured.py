"""What speed.py, compare.py, gate_table.py and first_command.py share: a part of docs/MEASURED.md between two marks, and the machine's name."""
import os
import subprocess

ROOT = os.path.normpath(os.path.join(os.path.dirname(os.path.abspath(__file__)), '..'))
PAGE = os.path.join(ROOT, 'docs', 'MEASURED.md')


def machine():
    said = subprocess.run(['lscpu'], capture_output=True, text=True, env={**os.environ, 'LC_ALL': 'C'}).stdout
    of = {name.strip(): value.strip() for name, _, value in (line.partition(':') for line in said.splitlines())}
    name = of.get('Model name', 'a processor without a name')
    if of.get('Architecture') != 'x86_64': name += f" ({of.get('Architecture')})"
    return f'{name}, {os.cpu_count()} processors'


def parted(marks):
    """The page before the first mark, between the two, and after the second."""
    with open(PAGE, encoding='utf-8') as f: before, rest = f.read().split(marks[0])
    return before, *rest.split(marks[1])


def write(marks, text):
    before, _, after = parted(marks)
    with open(PAGE, 'w', encoding='utf-8') as f: f.write(f'{before}{marks[0]}\n\n{text.strip()}\n\n{marks[1]}{after}')
