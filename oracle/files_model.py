#!/usr/bin/env python3
"""Models of the programs that read and write sheet files: from the words of the call, the files and standard input to what is printed and what the files hold afterwards.

Written from documents 01 and 02 and the page of programs alone, over the sheet of sheet_model.py, the lines of program_model.py and the texts of hextext_model.py. They share nothing with the
Rattle code: a total is a Python whole number, bytes are taken apart by struct. No elliptic integral is worked out: an edit is modelled only where the documents name its answer, a line of hex
text also where an answer is stored, rounds where the stored list has them, and everything else takes a row's bytes as they stand. oracle/program_runs.py makes the stored runs of it and puts
the programs beside it."""
import functools, os, struct
import hextext_model as texts, program_model as lines, sheet_model as sheets

MOST_FILES = 400
LARGEST = 328 + 48 * sheets.MOST_ROWS  # bytes of the largest sheet
LONGEST_PATH, LONGEST_NAME = 4095, 255  # bytes of a path that can be opened, and of a name in it
CLASSES = b'blank', b'finite', b'+inf', b'-inf', b'refused'


# ---- what a program is given and what it leaves

class Input:
    """Standard input: these bytes, and then its end, or a read that fails."""
    def __init__(self, text=b'', fails=False): self.text, self.fails = text, fails

    def lines(self):
        """The lines; where a read fails, those that were whole by then."""
        every = self.text.split(b'\n')
        return every[:-1] if self.fails or every[-1] == b'' else every


def is_text(name):
    try: name.decode()
    except UnicodeDecodeError: return False
    return True


class World:
    """The folder that a program runs in, by relative paths: files, folders in it, links, and modes where they matter (b'.' is the folder itself)."""
    def __init__(self, files=(), folders=(), links=(), modes=()):
        self.files, self.folders, self.links, self.modes = dict(files), set(folders), dict(links), dict(modes)

    def place(self, name): return os.path.normpath(name)

    def is_path(self, name):
        """Whether it is taken for the path of a file: by the system, and by the kit's std, for which a name is UTF-8 text (docs/PORT.md)."""
        return is_text(name) and 0 < len(name) <= LONGEST_PATH and all(len(part) <= LONGEST_NAME for part in name.split(b'/')) and not name.endswith(b'/')

    def read(self, name):
        """A file's bytes, at least so many that a sheet can be told; None where it can't be opened or read."""
        if name == b'/dev/zero': return bytes(LARGEST + 1)
        if name == b'/dev/null': return b''
        if not self.is_path(name): return None
        place = self.place(name)
        place = self.links.get(place, place)
        return self.files.get(place) if self.modes.get(place, 0o600) & 0o400 else None

    def can_write(self, name):
        if not self.is_path(name): return False
        place, folder = self.place(name), self.place(os.path.dirname(name) or b'.')
        return place not in self.folders and place != b'.' and (folder == b'.' or folder in self.folders) and bool(self.modes.get(folder, 0o700) & 0o200)


class Ran:
    """What a run came to: its output, the files that it wrote, and whether standard error is empty ('none'), not empty ('some') or either ('any')."""
    def __init__(self, printed, errors='none', name=None, data=None):
        self.printed, self.errors, self.wrote = printed, errors, {} if name is None else {name: data}


def usage(line): return Ran(b'usage: ' + line + b'\n', 'any')
def cannot(what, name): return Ran(b'cannot ' + what + b' ' + name + b'\n', 'some')
def refused(text): return Ran(b'refused ' + text + b'\n', 'any')
def bad(k): return Ran(b'bad line %d\n' % k, 'any')
def failed(k): return Ran(b'input failed after line %d\n' % k, 'some')


def saved(world, name, data, printed):
    """The file is written first; where it can't be, nothing else is printed."""
    return Ran(printed, 'none', name, data) if world.can_write(name) else cannot(b'write', name)


# ---- sheets and rows

def opened(data):
    """The sheet in these bytes, or None."""
    sheet = sheets.Sheet(0, 0)
    sheet.b = bytearray(data)
    return None if sheet.rows() is None else sheet


def rows_in(sheet): return [bytes(sheet.row(i)) for i in range(sheet.rows())]
def first_in(row): return struct.unpack_from('<Q', row, 32)[0]
def second_in(row): return struct.unpack_from('<Q', row, 40)[0]
def arguments_in(row): return struct.unpack_from('<3Q', row, 8)
def rejected(row): return row[0] > sheets.LAST or row[1] > 6 or sheets.is_nan(first_in(row))
def finite(p): return p % sheets.SIGN < sheets.PLUS
def class_of(row): return sheets.share(row)[0]
def first_rejected(rows): return next((i for i, row in enumerate(rows) if rejected(row)), None)


def signed_total(sheet):
    n = sheet.number(sheet.rows())
    return n - sheets.MODULUS if n >= sheets.MODULUS >> 1 else n


def signed_hex(n): return b'%s%x' % (b'-' if n < 0 else b'', abs(n))


def page(sheet):
    """The sheet as it stands: every row, the counts, the total."""
    out = [b'%d %d %d %016x %016x %d\n' % (i, row[0], row[1], first_in(row), second_in(row), sheet.times(i)) for i, row in enumerate(rows_in(sheet))]
    out.append(b'counts %d %d %d %d %d\n' % tuple(sheet.counts(sheet.rows())))
    out.append(b'total %016x\n' % lines.rounded(signed_total(sheet)))
    return b''.join(out)


# ---- lines

def count_in(line):
    """The row count of a first line, or None."""
    return int(line) if lines.NUMBER.fullmatch(line) and lines.number(line) <= lines.MOST else None


def edit_in(line):
    """Row, function, three arguments and times, or None where the line is malformed or a number does not fit its field."""
    m = lines.EDIT.fullmatch(line)
    if not m: return None
    row, f, times = lines.number(m[1]), lines.number(m[2]), lines.number(m[6])
    return None if row > 0xffffffff or f > 255 or times > lines.OFTEN else (row, f, int(m[3], 16), int(m[4], 16), int(m[5], 16), times)


def take(sheet, line):
    """Whether the line was taken as an edit of the sheet."""
    given = edit_in(line)
    if given is None: return False
    row, f, a, b, c, times = given
    known = f > sheets.LAST or f == sheets.WITHDRAWN or sheets.evaluate(f, a, b) is not None
    if not known and sheet.may_be_edited() and row < sheet.rows(): raise ValueError('an elliptic integral would be needed')
    return sheet.edit(row, f, a, b, c, times) == 0


# ---- the programs

def legsheet(words, world, given):
    if len(words) > 1: return usage(b'legsheet [FILE]')
    sheet = None
    for k, line in enumerate(given.lines(), 1):
        if sheet is None:
            r = count_in(line)
            if r is None: return bad(k)
            sheet = sheets.Sheet(328 + 48 * r, 0)
            sheet.make(r)
        elif not take(sheet, line): return bad(k)
    if given.fails: return failed(len(given.lines()))
    if sheet is None: return bad(1)
    assert page(sheet) == lines.run(given.text)  # the model of the program without files, which keeps rows and no bytes
    return saved(world, words[0], bytes(sheet.b), page(sheet)) if words else Ran(page(sheet))


def legfix(words, world, given):
    if len(words) != 1: return usage(b'legfix FILE')
    data = world.read(words[0])
    if data is None: return cannot(b'read', words[0])
    sheet = opened(data)
    if sheet is None: return refused(b'7')
    for k, line in enumerate(given.lines(), 1):
        if not take(sheet, line): return bad(k)
    if given.fails: return failed(len(given.lines()))
    return saved(world, words[0], bytes(sheet.b), page(sheet)) if given.lines() else Ran(page(sheet))


def stored_rounds():
    """The rounds of the stored list, by function and arguments."""
    with open(os.path.join(lines.ROOT, 'crates/vectors/data/rounds.txt')) as listed:
        points = [[int(x, 16) for x in line.split()] for line in listed]
    return {(f, a, b): n for f, a, b, n in points if 4 <= f <= sheets.LAST}


ROUNDS = stored_rounds()


def rounds(f, a, b):
    """The rounds of a row, where they are known: none for a blank row and functions 1 to 3, and for ellipeinc at m = 0, which asks no recipe."""
    if f <= 3 or f == 5 and b % sheets.SIGN == 0: return 0
    if (f, a, b) not in ROUNDS: raise ValueError('the stored list has no such point')
    return ROUNDS[f, a, b]


def legrounds(words, world, given):
    if words: return usage(b'legrounds')
    rows = None
    for k, line in enumerate(given.lines(), 1):
        if rows is None:
            r = count_in(line)
            if r is None: return bad(k)
            rows = [(0, 0, 0)] * r
            continue
        edit = edit_in(line)
        if edit is None or edit[0] >= len(rows) or edit[1] == sheets.WITHDRAWN or edit[1] > sheets.LAST: return bad(k)
        rows[edit[0]] = edit[1:4]
    if given.fails: return failed(len(given.lines()))
    if rows is None: return bad(1)
    return Ran(b''.join(b'%d %d %d\n' % (i, f, rounds(f, a, b)) for i, (f, a, b) in enumerate(rows)))


class Extreme:
    """The first of the largest of the numbers shown to it, by a key; both zeros are one number."""
    def __init__(self, name, key): self.name, self.key, self.best = name, key, None

    def show(self, p, place):
        if self.best is None or self.key(p) > self.key(self.best[0]): self.best = p, place

    def line(self): return self.name + (b' %016x sheet %d row %d\n' % (self.best[0], *self.best[1]) if self.best else b' none\n')


def extremes(): return Extreme(b'largest', sheets.key), Extreme(b'smallest', lambda p: -sheets.key(p))


@functools.lru_cache(100)
def summed(data):
    """What a file brings to a report: how often each class and each refusal number occurs, its exact total, and its extremes. Where it stands apart, why."""
    sheet = opened(data)
    if sheet is None: return b'7'
    at = first_rejected(rows_in(sheet))
    if at is not None: return b'10 row %d' % at
    counts, numbers, total, ends = [0] * 5, {}, 0, extremes()
    for i, row in enumerate(rows_in(sheet)):
        kind = class_of(row)
        counts[kind] += 1
        if kind == 4: numbers[row[1]] = numbers.get(row[1], 0) + 1
        if kind == 1:
            total += sheet.times(i) * sheets.units(first_in(row))
            for end in ends: end.show(first_in(row), i)
    return counts, numbers, total, ends


def legmonth(words, world, given):
    if not words: return usage(b'legmonth FILE...')
    if len(words) > MOST_FILES: return Ran(b'too many files\n', 'any')
    taken, apart, counts, numbers, total, ends = 0, [], [0] * 5, {}, 0, extremes()
    for s, name in enumerate(words, 1):
        data = world.read(name)
        if data is not None and data[:1].isdigit(): raise ValueError('a text')
        brought = b'unread' if data is None else summed(data)
        if isinstance(brought, bytes):
            apart.append(b'file %s %s\n' % (brought, name))
            continue
        taken += 1
        counts = [a + b for a, b in zip(counts, brought[0])]
        for number, rows in brought[1].items(): numbers[number] = numbers.get(number, 0) + rows
        total += brought[2]
        for end, its in zip(ends, brought[3]):
            if its.best: end.show(its.best[0], (s, its.best[1]))
    out = [b'sheets %d\napart %d\n' % (taken, len(apart)), b'counts %d %d %d %d %d\n' % tuple(counts), b'total %016x\n' % lines.rounded(total), b'exact %s\n' % signed_hex(total)]
    out += [end.line() for end in ends] + [b'refusal %d %d\n' % pair for pair in sorted(numbers.items())] + apart
    return Ran(b''.join(out), 'any' if apart else 'none')


def told(old, new):
    """What a line says behind the two rows."""
    was, now = class_of(old), class_of(new)
    if was != now: return b'from %s to %s' % (CLASSES[was], CLASSES[now])
    if was != 1: return b'same ' + CLASSES[was]
    first = abs(sheets.key(first_in(old)) - sheets.key(first_in(new)))
    seconds = second_in(old), second_in(new)
    second = b'%d' % abs(sheets.key(seconds[0]) - sheets.key(seconds[1])) if all(map(finite, seconds)) else b'-'
    return b'steps %d %s' % (first, second)


def legdiff(words, world, given):
    if len(words) != 2: return usage(b'legdiff OLD NEW')
    data = [world.read(name) for name in words]
    for name, one in zip(words, data):
        if one is None: return cannot(b'read', name)
    both = [opened(one) for one in data]
    for name, one in zip(words, both):
        if one is None: return refused(b'7 ' + name)
    if both[0].rows() != both[1].rows(): return refused(b'13')
    for name, one in zip(words, both):
        at = first_rejected(rows_in(one))
        if at is not None: return refused(b'10 row %d %s' % (at, name))
    out = []
    for i, pair in enumerate(zip(*map(rows_in, both))):
        if pair[0] != pair[1]:
            shown = [b'%d %d %016x %016x %016x %d' % (row[0], row[1], *arguments_in(row), one.times(i)) for one, row in zip(both, pair)]
            out.append(b'%d %s %s %s\n' % (i, *shown, told(*pair)))
    return Ran(b''.join(out) + b'difference %s\nrows %d\n' % (signed_hex(signed_total(both[1]) - signed_total(both[0])), len(out)))


def converted(program, words, world, says):
    """The way forth for a sheet that says 1, the way back for one that says 3."""
    if len(words) != 2: return usage(program)
    data = world.read(words[0])
    if data is None: return cannot(b'read', words[0])
    sheet = opened(data)
    if sheet is None or sheet.b[0] != says: return refused(b'7')
    r, rows = sheet.rows(), rows_in(sheet)
    counts = sheet.counts(r)
    for i, row in enumerate(rows):
        if rejected(row) or counts[class_of(row)] == 0: return refused(b'10 row %d' % i)
    if sum(counts) != r: return refused(b'10 counts')
    if says == sheets.NEW:
        for i, row in enumerate(rows):
            if row[0] and sheets.times_in(row) != 1: return refused(b'17 row %d' % i)
    new = bytearray(data)
    new[:4] = sheets.u32(sheets.NEW if says == sheets.OLD else sheets.OLD)
    for i, row in enumerate(rows):
        new[34 + 48 * i:36 + 48 * i] = struct.pack('<H', 1 if row[0] and says == sheets.OLD else 0)
    return saved(world, words[1], bytes(new), b'rows %d\n' % r)


def legforth(words, world, given): return converted(b'legforth OLD NEW', words, world, sheets.OLD)
def legback(words, world, given): return converted(b'legback NEW OLD', words, world, sheets.NEW)


def legwrite(words, world, given):
    if len(words) != 1: return usage(b'legwrite FILE')
    data = world.read(words[0])
    if data is None: return cannot(b'read', words[0])
    text = texts.write(data)
    return refused(text.told()) if isinstance(text, texts.Refused) else Ran(text)


def legread(words, world, given):
    if len(words) != 1: return usage(b'legread FILE')
    if given.fails: return failed(len(given.lines()))
    reading = texts.Reading()
    for line in given.lines():
        wrong = reading.take(line)
        if wrong: return refused(wrong.told())
    data = reading.end()
    if isinstance(data, texts.Refused): return refused(data.told())
    assert data == texts.read(given.text)
    return saved(world, words[0], data, b'rows %d\n' % reading.sheet.rows())


PROGRAMS = {program.__name__: program for program in (legsheet, legfix, legrounds, legmonth, legdiff, legforth, legback, legwrite, legread)}


def ran(program, words, world, given): return PROGRAMS[program](list(words), world, given)
