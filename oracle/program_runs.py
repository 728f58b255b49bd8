#!/usr/bin/env python3
"""Runs of the programs that read and write sheet files: their spelling in faces/program/runs, a run of a program beside its model, and random ones. oracle/program_model.py --runs writes the
stored ones (their lists are oracle/program_cases.py and, for those in hextext/, oracle/hextext_cases.py), faces/program/test.py replays them.

A stored run is a text. Lines that begin with two spaces belong to the heading above them:

  # why it is there
  run PROGRAM WORD..            the words, with \\xNN for a byte that is no plain letter, \\x for an empty one, =RECIPE,NUMBER.. for a long one, 400*WORD for so many
  file NAME                     a file before the run, as hex: fields as a sheet has them, `00*40` for 40 such bytes, `3 times` before a line that stands three times
  file NAME = RECIPE NUMBER..   the same, made by a function of RECIPES
  folder NAME, link NAME -> NAME, mode NAME OCTAL
  input, or: input fails        standard input, then its end or a read that fails; a line that ends with a single \\ has no line feed; `input = RECIPE NUMBER..`
  printed                       standard output; a long one as its length and SHA-256
  errors none | some | any      standard error is empty; is not; may be either
  after NAME                    a file that the run wrote, as it is then. Every other name is as before: the same file, not touched. No name is left over."""
import hashlib, itertools, os, pty, random, re, shutil, stat, struct, subprocess, sys, tempfile, termios
import files_model, hextext_model as texts, machine, program_model as lines, sheet_model as sheets
from files_model import Input, Ran, World

STORED = os.path.join(lines.ROOT, 'faces/program/runs')
LONG = 4000      # bytes of an output, or of a file's spelling, above which its sum is stored
LONGEST = 20     # seconds that a run may take
SHOWN = 300      # bytes of an output that a message shows
MOST_TOLD = 5    # random runs that differ and are shown whole
LOOKED_AT = {'errors': True}  # whether standard error is looked at
NOBODY = 65534
TOUCHED = 10 ** 9  # the second of 2001 at which every file before a run was last written


# ---- rows and sheets, by their parts

def pattern(x): return lines.pattern(float(x))


def row(f=0, q=0, times=1, a=0, b=0, c=0, first=0, second=0, rest=0): return struct.pack('<BBHI5Q', f, q, times, rest, a, b, c, first, second)


def leg(x, times=1): return row(5, 0, times, pattern(x), first=pattern(x))


BLANK = bytes(48)


def old(one):
    """The row as a sheet that says 1 has it."""
    return one[:2] + bytes(2) + one[4:]


def sheet(rows, says=3, counts=None, total=None, four=0):
    """The sheet of these rows; counts and total are worked out where they are not given."""
    taken = [one[:2] + struct.pack('<H', 1) + one[4:] for one in rows] if says == 1 else rows
    shares = [sheets.share(one) for one in taken]
    if counts is None: counts = [sum((k if k is not None else 1) == c for k, _ in shares) for c in range(5)]
    if total is None: total = sum(x for _, x in shares)
    return sheets.contents(len(rows), says) + b''.join(rows) + sheets.u32(*counts, four) + (total % sheets.MODULUS).to_bytes(272, 'little')


# ---- recipes: bytes too many to be spelled

class Made(bytes):
    recipe = None


def made(name, *numbers):
    one = Made(RECIPES[name](*numbers))
    one.recipe = ' '.join([name] + [str(n) for n in numbers])
    return one


def mixed(seed, rows, says):
    """A sheet of sound rows of every class."""
    rng = random.Random(seed)
    every = [sound_row(rng) for _ in range(rows)]
    return sheet([old(one) for one in every] if says == 1 else every, says)


def legs_of(seed, rows, says, times):
    """A sheet of finite rows with these times."""
    rng = random.Random(seed)
    return sheet([old(leg(rng.uniform(-1e9, 1e9), times)) if says == 1 else leg(rng.uniform(-1e9, 1e9), times) for _ in range(rows)], says)


def one_changed(seed, rows, says, at):
    """`mixed` with one leg in place of a row."""
    data = bytearray(mixed(seed, rows, says))
    data[32 + 48 * at:80 + 48 * at] = old(leg(0.5)) if says == 1 else leg(0.5)
    return bytes(data)


def edits(seed, rows, count): return lines.many(seed, rows, count).split(b'\n', 1)[1]
def clears(rows): return b''.join(lines.edit(i, 0) for i in range(rows))
def blank(rows, says): return sheet([BLANK] * rows, says)
def blank_and_more(rows, says, more): return blank(rows, says) + bytes(more)


RECIPES = {'clears': clears, 'blank': blank, 'blank_and_more': blank_and_more, 'mixed': mixed, 'legs': legs_of, 'one_changed': one_changed, 'input': lines.many, 'edits': edits, 'zeros': lambda n: bytes(n), 'letters': lambda n: b'n' * n, 'dots': lambda n: b'./' * n + b'day',
           'worked': texts.worked, 'text': texts.text, 'text_cut': texts.text_cut, 'other_text': texts.other_text, 'longest_text': texts.longest_text, 'nines': lambda n: b'9' * n}


# ---- random rows, worlds and lines

def sound_row(rng):
    """A row that the row tests take, of any class; most of them as the library makes them."""
    kind, times = rng.randrange(16), rng.choice([0, 1, 1, 1, 2, 3, 255, 256, rng.randrange(1 << 16), 65535])
    p, m = sheets.value(rng), rng.choice([sheets.ONE, sheets.NAN, sheets.MINUS, sheets.value(rng)])
    if sheets.is_nan(p): p = 0
    if kind < 2: return BLANK
    if kind < 8: return row(5, 0, times, p, first=p)
    if kind == 8: return row(rng.randrange(1, 4), 0, times, m, first=p, second=rng.choice([0, p, sheets.value(rng)]))
    if kind == 9: return row(rng.randrange(1, 7), rng.randrange(1, 7), times, m, sheets.value(rng))
    if kind == 10: return row(rng.choice([1, 4, 5, 6]), 0, times, p, m, first=rng.choice([sheets.PLUS, sheets.MINUS]))
    if kind == 11: return row(1, 0, times, m, first=p)
    if kind == 12: return row(6, 0, times, p, 0, first=p, second=sheets.value(rng), rest=rng.choice([0, 1, rng.getrandbits(32)]))
    if kind == 13: return row(0, rng.randrange(7), times, p, m, 0, p, sheets.value(rng), rng.getrandbits(32))
    if kind == 14: return row(5, 0, times, p, first=rng.choice([0, sheets.SIGN]))
    return row(rng.randrange(1, 7), rng.randrange(7), times, rng.getrandbits(64), rng.getrandbits(64), rng.getrandbits(64), p, rng.getrandbits(64), rng.getrandbits(32))


def wrong_row(rng):
    """One that the row tests reject."""
    one = bytearray(sound_row(rng))
    kind = rng.randrange(3)
    if kind == 0: one[0] = rng.choice([7, 8, 9, 255, rng.randrange(7, 256)])
    if kind == 1: one[1] = rng.choice([7, 14, 16, 22, 255, rng.randrange(7, 256)])
    if kind == 2: one[32:40] = struct.pack('<Q', rng.choice([sheets.NAN, sheets.PLUS + 1, sheets.MINUS + 1, (1 << 64) - 1]))
    return bytes(one)


def random_total(rng):
    edge = rng.choice([0, 1 << 2175, 1 << 2176, 1 << 2124, 1 << 1074, 1 << 52, 1 << rng.randrange(2177)])
    return rng.choice([edge + rng.randrange(-3, 4), rng.getrandbits(2176), rng.getrandbits(rng.randrange(1, 2177)), -rng.getrandbits(rng.randrange(1, 2177))])


def random_counts(rng, r):
    kind = rng.randrange(4)
    if kind == 0: return [rng.choice([0, 1, r, 0xffffffff, rng.getrandbits(32)]) for _ in range(5)]
    if kind == 1: return [(0xffffffff, 2, 0, 0, r - 1 if r else 0), (r, 0, 0, 0, 0), (0, r, 0, 0, 0), (0, 0, 0, 0, r)][rng.randrange(4)]
    cuts = sorted(rng.randrange(r + 1) for _ in range(4))
    return [b - a for a, b in zip([0] + cuts, cuts + [r])]


def random_sheet(rng, says=None, r=None):
    """A sheet, most often with some senseless parts."""
    if r is None: r = rng.choice([0, 1, 1, 2, 2, 3, 4, 5, 8, rng.randrange(40), rng.randrange(40), 1024 if rng.randrange(30) == 0 else 6])
    if says is None: says = rng.choice([1, 3, 3])
    rows = [sound_row(rng) for _ in range(r)]
    if says == 1 or rng.randrange(5) == 0:
        rows = [one[:2] + (bytes(2) if says == 1 and rng.randrange(12) else struct.pack('<H', int(one[0] != 0))) + one[4:] for one in rows]
    if r and rng.randrange(5) == 0: rows[rng.randrange(r)] = wrong_row(rng)
    counts = random_counts(rng, r) if rng.randrange(6) == 0 else None
    total = random_total(rng) if rng.randrange(4) == 0 else None
    return sheet(rows, says, counts, total, rng.choice([0] * 9 + [rng.getrandbits(32)]))


def harmed(rng, data):
    """Bytes that may no longer be a sheet's."""
    data, kind = bytearray(data), rng.randrange(9)
    if kind == 0: data = data[:rng.randrange(len(data))]
    elif kind == 1: data += bytes(rng.choice([1, 2, 48, 47, 1000, 100000]))
    elif kind == 2: data[rng.choice([0, 0, 0, 1, 3])] = rng.choice([0, 1, 2, 3, 4, 255])
    elif kind < 5: data[rng.randrange(32)] ^= 1 << rng.randrange(8)
    else:
        for _ in range(rng.randrange(1, 4)): data[rng.randrange(32, len(data))] = rng.choice([0, 1, 6, 7, 127, 128, 255, rng.randrange(256)])
    return bytes(data) if not data[:1].isdigit() else b'x'


def changed(rng, data):
    """Another sheet of as many rows, like this one but for some rows."""
    one = files_model.opened(data)
    r = one.rows()
    for _ in range(rng.randrange(4) if r else 0):
        i, new = rng.randrange(r), sound_row(rng)
        if rng.randrange(2): # a near one
            new = bytearray(one.row(i))
            at = rng.choice([2, 4, 7, 8, 32, 33, 39, 40, 47])
            new[at] = rng.choice([new[at] ^ 1, new[at] ^ 128, rng.randrange(256)])
        one.b[32 + 48 * i:80 + 48 * i] = new
    if rng.randrange(3) == 0: one.b[56 + 48 * r:] = (random_total(rng) % sheets.MODULUS).to_bytes(272, 'little')
    if rng.randrange(8) == 0: one.b[0] = 4 - one.b[0]
    return bytes(one.b)


def some_file(rng): return harmed(rng, random_sheet(rng)) if rng.randrange(5) == 0 else random_sheet(rng)


def some_lines(rng, r, start=b''):
    """Edit lines, at times damaged."""
    text = start + b''.join(lines.random_edit(rng, max(r, 1)) for _ in range(rng.choice([0, 1, 1, 2, 3, rng.randrange(12)])))
    if r == 0 and rng.randrange(2): text = start
    text = bytearray(text)
    if text and rng.randrange(6) == 0:
        at = rng.randrange(len(text))
        text[at:at + rng.randrange(2)] = bytes([rng.choice(b'0123456789abcdef \n\r\0A-x')])
    if rng.randrange(12) == 0: text += lines.edit(rng.randrange(r + 1), rng.choice([1, 7, 255]), sheets.ONE)
    if text and rng.randrange(5) == 0: text = text[:-1]
    return Input(bytes(text), rng.randrange(25) == 0 and len(text) < 3000)


NAMES = [b'day', b'night', b'a b', b' ', b'\xff\xfe', b'caf\xc3\xa9', b'-x', b'sub/day', b'./day', b'new', b'none/day', b'sub', b'line\nfeed', b'.legs', b'"*$(']


def random_run(rng):
    """A program, the words, a world and an input."""
    program = rng.choice(list(files_model.PROGRAMS))
    world = World(folders=[b'sub'])
    for name in rng.sample(NAMES, 5):
        if name not in (b'none/day', b'sub', b'./day'): world.files[name] = some_file(rng)
    present, given = sorted(world.files), Input()
    def word(): return rng.choice(present) if present and rng.randrange(8) else rng.choice(NAMES)
    words = []
    if program in ('legsheet', 'legrounds'):
        r = rng.choice([0, 1, 2, 5, 30])
        given = some_lines(rng, r, b'%d\n' % r)
        if program == 'legrounds': given = Input(rounds_lines(rng, r), given.fails)
        elif rng.randrange(4): words = [word()]
    if program == 'legfix':
        words = [word()]
        one = files_model.opened(world.read(words[0]) or b'')
        given = some_lines(rng, one.rows() if one else 2)
    if program == 'legwrite': words = [word()]
    if program == 'legread':
        words, text = [word()], texts.some_text(rng)
        given = Input(text, rng.randrange(25) == 0 and len(text) < 3000)
    if program == 'legmonth': words = [word() for _ in range(rng.choice([1, 2, 3, 6, rng.randrange(12)]))]
    if program == 'legdiff':
        words = [word(), word()]
        one = world.read(words[0])
        if one and files_model.opened(one) and rng.randrange(4):
            world.files[b'second'], words[1] = changed(rng, one), b'second'
    if program in ('legforth', 'legback'):
        words = [word(), word()]
        if rng.randrange(3):
            rows = [one if one[0] == 0 and rng.randrange(9) or rng.randrange(40) == 0 else one[:2] + b'\1\0' + one[4:] for one in (sound_row(rng) for _ in range(rng.randrange(9)))]
            if rows and rng.randrange(8) == 0: rows[rng.randrange(len(rows))] = wrong_row(rng)
            counts = random_counts(rng, len(rows)) if rng.randrange(6) == 0 else None
            world.files[b'first'], words[0] = sheet([old(one) for one in rows] if program == 'legforth' else rows, 1 if program == 'legforth' else 3, counts, rng.choice([None, random_total(rng)]), rng.choice([0, 9])), b'first'
    if rng.randrange(25) == 0: words = words[1:] if rng.randrange(2) else words + [word()]
    return program, words, world, given


def rounds_lines(rng, r):
    """Edits of which the rounds are known."""
    points, text = rng.sample(sorted(files_model.ROUNDS), 8), b'%d\n' % r
    for _ in range(rng.randrange(10) if r else 0):
        f, a, b = rng.choice(points + [(0, 1, 2), (2, sheets.value(rng), 5), (3, sheets.value(rng), 0)])
        text += lines.edit(rng.randrange(r + (rng.randrange(40) == 0)), f, a, b, sheets.value(rng), sheets.often(rng))
    return text


# ---- a run and its spelling

class Sum:
    """What is known of bytes too long to be stored."""
    def __init__(self, length, digest): self.length, self.digest = length, digest
    def __eq__(self, data): return isinstance(data, bytes) and len(data) == self.length and hashlib.sha256(data).hexdigest() == self.digest


class Run:
    def __init__(self, name, note, program, words, world, given, ran=None):
        self.name, self.note, self.program, self.words, self.world, self.given = name, note, program, list(words), world, given
        self.ran = ran or files_model.ran(program, words, world, given)


def escaped(data): return ''.join(chr(c) if 33 <= c < 127 and c not in b'\\*=' else '\\x%02x' % c for c in data) or '\\x'
def unescaped(word): return re.sub(rb'\\x([0-9a-f]{2})', lambda m: bytes([int(m[1], 16)]), word.encode()).replace(b'\\x', b'')


def spelled_word(word): return '=%s' % word.recipe.replace(' ', ',') if isinstance(word, Made) else escaped(word)


def spelled_words(words):
    """One behind the other; many equal ones as `400*WORD`."""
    groups = [(word, len(list(group))) for word, group in itertools.groupby(map(spelled_word, words))]
    return [one for word, n in groups for one in (['%d*%s' % (n, word)] if n >= 10 else [word] * n)]


def read_words(spelled):
    words = []
    for one in spelled:
        n, _, word = one.rpartition('*')
        if word.startswith('='): word = made(word[1:].split(',')[0], *map(int, word.split(',')[1:]))
        else: word = unescaped(word)
        words += [word] * int(n or 1)
    return words


def spelled_text(data):
    """Line by line; a space may stand in a line, and other bytes are escaped."""
    parts = data.split(b'\n')
    out = ['  ' + escaped(part).replace('\\x20', ' ') if part else '  ' for part in parts[:-1]]
    return out + (['  ' + escaped(parts[-1]).replace('\\x20', ' ') + '\\'] if parts[-1] else [])


def read_text(part):
    out = b''
    for line in part:
        ends = not line.endswith('\\')
        out += unescaped(line if ends else line[:-1]) + (b'\n' if ends else b'')
    return out


def runs_of(data):
    """Hex, with long runs of one byte shortened."""
    out, short = [], b''
    for _, group in itertools.groupby(data):
        one = bytes(group)
        if len(one) < 12: short += one
        else: out, short = out + [short.hex()] * bool(short) + ['%02x*%d' % (one[0], len(one))], b''
    return ' '.join(out + [short.hex()] * bool(short))


def spelled_bytes(data):
    """A sheet's by its fields, any other bytes 32 a line."""
    r, rest = divmod(len(data) - 328, 48)
    if rest == 0 and r >= 0:
        cut = lambda part, *sizes: ' '.join(part[sum(sizes[:i]):sum(sizes[:i + 1])].hex() for i in range(len(sizes)))
        out = [cut(data[:32], *[4] * 8)]
        out += [cut(data[32 + 48 * i:80 + 48 * i], 1, 1, 2, 4, *[8] * 5) for i in range(r)]
        out += [cut(data[32 + 48 * r:56 + 48 * r], *[4] * 6), runs_of(data[56 + 48 * r:])]
    else:
        out = [data[i:i + 32].hex() for i in range(0, len(data), 32)] if len(data) < 4000 else [runs_of(data)]
    short, i = [], 0
    while i < len(out):
        n = next((k for k in range(i, len(out)) if out[k] != out[i]), len(out)) - i
        short.append('  ' + ('%d times ' % n if n > 1 else '') + out[i])
        i += n
    return short


def read_bytes(part):
    out = b''
    for line in part:
        times, words = 1, line.split()
        if words[1:2] == ['times']: times, words = int(words[0]), words[2:]
        one = b''.join(bytes.fromhex(w) if '*' not in w else bytes.fromhex(w.split('*')[0]) * int(w.split('*')[1]) for w in words)
        out += one * times
    return out


def headed(title, data, spell, given=True):
    """What is given stands there whole, or by its recipe."""
    if isinstance(data, Made): return [title + ' = ' + data.recipe]
    body = spell(data)
    if not given and sum(map(len, body)) > LONG: return ['%s: %d bytes, sha256 %s' % (title, len(data), hashlib.sha256(data).hexdigest())]
    return [title] + body


def spelled(run):
    out = ['# ' + run.note, ' '.join(['run', run.program] + spelled_words(run.words))]
    for name, data in run.world.files.items(): out += headed('file ' + escaped(name), data, spelled_bytes)
    out += ['folder ' + escaped(name) for name in sorted(run.world.folders)]
    out += ['link %s -> %s' % (escaped(a), escaped(b)) for a, b in run.world.links.items()]
    out += ['mode %s %03o' % (escaped(name), mode) for name, mode in run.world.modes.items()]
    if run.given.text or run.given.fails: out += headed('input fails' if run.given.fails else 'input', run.given.text, spelled_text)
    out += headed('printed', run.ran.printed, spelled_text, False) + ['errors ' + run.ran.errors]
    for name, data in run.ran.wrote.items(): out += headed('after ' + escaped(name), data, spelled_bytes, False)
    return '\n'.join(out) + '\n'


def read_run(name, text):
    """A run from its spelling."""
    rest, parts = text.split('\n'), []
    for line in rest[:-1]:
        if line.startswith('  '): parts[-1][1].append(line[2:])
        else: parts.append((line, []))
    run, world = Run.__new__(Run), World()
    run.name, run.world, run.given, run.ran = name, world, Input(), Ran(b'')
    for head, body in parts:
        kind, _, said = head.partition(' ')
        title, _, recipe = head.partition(' = ')
        def given(read):
            if recipe: return made(recipe.split()[0], *map(int, recipe.split()[1:]))
            summed = re.fullmatch(r'.*: (\d+) bytes, sha256 ([0-9a-f]{64})', head)
            return Sum(int(summed[1]), summed[2]) if summed else read(body)
        words = title.split(' ')
        if kind == '#': run.note = said
        elif kind == 'run': run.program, run.words = words[1], read_words(words[2:])
        elif kind == 'file': world.files[unescaped(words[1])] = given(read_bytes)
        elif kind == 'folder': world.folders.add(unescaped(words[1]))
        elif kind == 'link': world.links[unescaped(words[1])] = unescaped(words[3])
        elif kind == 'mode': world.modes[unescaped(words[1])] = int(words[2], 8)
        elif kind == 'input': run.given = Input(given(read_text), words[1:2] == ['fails'])
        elif title.startswith('printed'): run.ran.printed = given(read_text)
        elif kind == 'errors': run.ran.errors = said
        elif kind == 'after': run.ran.wrote[unescaped(words[1].rstrip(':'))] = given(read_bytes)
        else: raise ValueError('%s: %r' % (name, head))
    return run


# ---- a run of a program

def command(program, folder=None):
    """The command that runs a program, one of the folder or of target/bin."""
    return machine.command(os.path.abspath(os.path.join(folder or os.path.join(lines.ROOT, 'target/bin'), program)))


def is_root(): return os.geteuid() == 0
def nobody_reads(path): return not subprocess.run(['test', '-r', path], user=NOBODY, group=NOBODY, extra_groups=[]).returncode


class Place:
    """A folder of its own for a run, with what the run's world has, and what stands in it before and after."""
    def __init__(self, world, nobody=False):
        self.top = tempfile.mkdtemp(prefix='legs').encode()
        self.folder = os.path.join(self.top, b'in')
        os.mkdir(self.folder)
        for name in sorted(world.folders): os.mkdir(self.at(name))
        for name, data in world.files.items():
            with open(self.at(name), 'wb') as file: file.write(data)
            os.utime(self.at(name), (TOUCHED, TOUCHED))
        for name, to in world.links.items(): os.symlink(to, self.at(name))
        if nobody:
            for name in [self.top, self.folder] + [self.at(name) for name in [*world.folders, *world.files]]: os.chown(name, NOBODY, NOBODY)
        for name, mode in sorted(world.modes.items(), reverse=True): os.chmod(self.at(name), mode)
        self.before = self.listed()

    def at(self, name): return os.path.join(self.folder, name)

    def listed(self):
        """Every name in the folder, with its kind, bytes, number and time."""
        found = {}
        for folder, folders, files in os.walk(self.folder):
            for name in folders + files:
                path = os.path.join(folder, name)
                what = os.lstat(path)
                kind = stat.S_IFMT(what.st_mode)
                data = os.readlink(path) if kind == stat.S_IFLNK else None
                if kind == stat.S_IFREG:
                    if not what.st_mode & 0o400 and not is_root(): data = None
                    else:
                        with open(path, 'rb') as file: data = file.read()
                time = None if kind == stat.S_IFDIR else what.st_mtime_ns
                found[os.path.relpath(path, self.folder)] = kind, data, what.st_ino, time, stat.S_IMODE(what.st_mode)
        return found

    def away(self):
        os.chmod(self.folder, 0o700)
        shutil.rmtree(self.top)


def umask():
    now = os.umask(0o22)
    os.umask(now)
    return now


def talk(words, folder, given, nobody=False, extra=None, before=None):
    """Runs it, and says its status, output and standard error."""
    options = dict(cwd=folder, stdout=subprocess.PIPE, stderr=subprocess.PIPE, env={**os.environ, **(extra or {})}, preexec_fn=before)
    if nobody: options.update(user=NOBODY, group=NOBODY, extra_groups=[])
    ours = None
    if given.fails:
        # a terminal whose other end closes: reads bring what was written, and then fail
        ours, theirs = pty.openpty()
        raw = termios.tcgetattr(theirs)
        raw[0] = raw[1] = raw[3] = 0
        termios.tcsetattr(theirs, termios.TCSANOW, raw)
    run = subprocess.Popen(words, stdin=subprocess.PIPE if ours is None else ours, **options)
    if ours is not None:
        for line in given.text.splitlines(True): os.write(theirs, line)
        os.close(theirs)
    try:
        printed, errors = run.communicate(given.text if ours is None else None, LONGEST)
    except subprocess.TimeoutExpired:
        run.kill()
        printed, errors = run.communicate()
        errors += b'(it did not end)'
    finally:
        if ours is not None: os.close(ours)
    return run.returncode, printed, errors


def shown(data): return repr(data[:SHOWN]) + ('.. (%d bytes)' % len(data) if len(data) > SHOWN else '')


def folder_faults(place, wrote, mode=None):
    """What differs in the folder from what it was with these files written."""
    after, wrong = place.listed(), []
    wanted = {os.path.normpath(name): data for name, data in wrote.items()}
    for name in sorted(set(place.before) | set(after) | set(wanted)):
        if name in wanted:
            if name not in after: wrong.append('%r is not there' % name)
            elif after[name][0] != stat.S_IFREG: wrong.append('%r is no file' % name)
            elif not wanted[name] == after[name][1]: wrong.append('%r holds other bytes than it should: %s' % (name, byte_difference(wanted[name], after[name][1])))
            elif mode is not None and after[name][4] != mode: wrong.append('%r has mode %o and not %o' % (name, after[name][4], mode))
        elif name not in after: wrong.append('%r is gone' % name)
        elif name not in place.before: wrong.append('%r was left behind' % name)
        elif place.before[name] != after[name]:
            what = 'holds other bytes' if place.before[name][1] != after[name][1] else 'was touched'
            wrong.append('%r %s' % (name, what))
    return wrong


def byte_difference(wanted, found):
    if not isinstance(wanted, bytes) or found is None: return 'its sum differs'
    if len(wanted) != len(found): return '%d bytes and not %d' % (len(found), len(wanted))
    at = next(i for i, (a, b) in enumerate(zip(wanted, found)) if a != b)
    return 'byte %d is %02x and not %02x, and %d in all differ' % (at, found[at], wanted[at], sum(a != b for a, b in zip(wanted, found)))


def said_faults(wanted, status, printed, errors):
    """What differs in what a run said."""
    wrong = []
    if status: wrong.append('it ended by signal %d' % -status if status < 0 else 'it ended with status %d' % status)
    if not wanted.printed == printed:
        text = '%d bytes with another sum' % wanted.printed.length if isinstance(wanted.printed, Sum) else shown(wanted.printed)
        wrong.append('printed %s, and should have printed %s' % (shown(printed), text))
    if LOOKED_AT['errors'] and (wanted.errors == 'none' and errors or wanted.errors == 'some' and not errors):
        wrong.append('standard error is %s, where something %s' % (shown(errors), 'went wrong' if wanted.errors == 'some' else 'did not go wrong'))
    return wrong


def faults(run, folder=None):
    """What a run of the program does otherwise than the stored one, as a list of sentences; None where it can't be tried here."""
    nobody = bool(run.world.modes) and is_root()
    words = command(run.program, folder)
    if nobody and len(words) > 1 and not nobody_reads(words[-1]): return None  # what stands before it would start all the same
    place = Place(run.world, nobody)
    try:
        status, printed, errors = talk(words + run.words, place.folder, run.given, nobody)
        wanted = run.ran
        if isinstance(wanted.printed, Sum) and not wanted.printed == printed:
            now = files_model.ran(run.program, run.words, run.world, run.given)
            if wanted.printed == now.printed: wanted = Ran(now.printed, wanted.errors)
        return said_faults(wanted, status, printed, errors) + folder_faults(place, run.ran.wrote, 0o666 & ~umask())
    except PermissionError:
        return None
    finally:
        place.away()


def compare(n, seed, folder=None, programs=None):
    """How many of n random runs the programs and their models do otherwise. Says how many were tried, too."""
    rng, off, tried, good = random.Random(seed), 0, 0, 0
    while tried < n:
        program, words, world, given = random_run(rng)
        if programs is not None and program not in programs: continue
        try:
            run = Run('random', '', program, words, world, given)
        except ValueError:
            continue  # an answer that the documents do not name
        tried += 1
        good += not re.match(rb'bad|refused|cannot|input|usage', run.ran.printed)
        wrong = faults(run, folder)
        if wrong:
            off += 1
            print('run %d of seed %s: %s%s' % (tried, seed, '; '.join(wrong), '\n' + spelled(run) if off <= MOST_TOLD else ''))
    return off, tried, good


# ---- the stored runs

def stored_names():
    """The name of each file in the folder of runs and in those below it."""
    return sorted(os.path.relpath(os.path.join(folder, name), STORED) for folder, _, names in os.walk(STORED) for name in names)


def stored():
    """The stored runs, by name."""
    for name in stored_names():
        with open(os.path.join(STORED, name)) as file: yield read_run(name, file.read())


def wanted_files():
    """Every stored run's file, by its name."""
    import hextext_cases, program_cases
    files = {}
    for run in itertools.chain(program_cases.runs(), hextext_cases.runs()):
        assert run.name not in files, run.name
        files[run.name] = spelled(run)
        again = read_run(run.name, files[run.name])
        assert spelled_again(again) == files[run.name], run.name
    return files


def spelled_again(run):
    """The spelling of a run that was read, where no sum stands for its bytes."""
    fresh = Run(run.name, run.note, run.program, run.words, run.world, run.given)
    return spelled(fresh)


def check_stored():
    """The names of stored runs that are not as the model makes them, and how many there should be."""
    files = wanted_files()
    off = sorted(set(stored_names()) - set(files))
    for name, text in files.items():
        path = os.path.join(STORED, name)
        if not os.path.exists(path) or open(path).read() != text: off.append(name)
    return off, len(files)


def write_stored():
    files = wanted_files()
    shutil.rmtree(STORED, ignore_errors=True)
    for name, text in files.items():
        os.makedirs(os.path.dirname(os.path.join(STORED, name)), exist_ok=True)
        with open(os.path.join(STORED, name), 'w') as file: file.write(text)
    return len(files), sum(map(len, files.values()))
