#!/usr/bin/env python3
"""The list of the stored runs of faces/program/runs/hextext: legwrite and legread, each with its words, the files before and standard input. What they come to is worked out by files_model.py,
answers that the documents do not name by the stored ones of hextext_model.py."""
import hexfloat_points as floats, hextext_model as texts, sheet_model as sheets
from files_model import Input, World
from hextext_model import LEG, of, other_text, sheet_of, with_field
from program_cases import DAMAGED_ROWS, NAMES, NO_NAMES, ODD_ROWS, ONES, WHOLE, not_sheets, olds
from program_runs import BLANK, Run, leg, made, pattern, row, sheet

PLUS, MINUS, ONE, TOP, SIGN, NAN = sheets.PLUS, sheets.MINUS, sheets.ONE, sheets.TOP, sheets.SIGN, sheets.NAN
TWO, HALF, OFTEN = pattern(2), pattern(0.5), sheets.MOST_TIMES
LEAST, BELOW = 1, (1 << 52) - 1  # the smallest f64, and the largest subnormal one
EARTH = 0xbf7b9adfe197dcd2       # the meridian's m


# ---- rows that are worked out

def worked(f, a=0, b=0, c=0, times=1):
    """A row's fields, its answers as they are known."""
    read = [x if k < sheets.USED[f] else 0 for k, x in enumerate((a, b, c))]
    return (f, a, b, c, times, *texts.known(f, *read))


def arc(p, times=1): return worked(6, p, 0, 0, times)  # F(φ, 0) is φ, -0 too
def plain(rows): return sheet_of(*rows)
def text(rows): return texts.write(plain(rows))


FUNCTIONS = [worked(0), worked(2, HALF), worked(3, HALF, times=2), worked(4, pattern(0.25), HALF, times=3), worked(4, TWO, HALF), worked(5, 0x3ff921fb54442d18, EARTH, times=1000), worked(6, pattern(-1), HALF),
             worked(3, ONE), worked(3, MINUS), worked(2, MINUS), worked(4, TWO, ONE)]
REFUSED = [worked(3, NAN), worked(2, TWO, times=7), worked(5, pattern(1.5), TWO), worked(4, ONE, 0), worked(4, TWO, 0xeaa0000000000000), worked(6, pattern(2.0 ** 53), MINUS, times=0), worked(5, NAN, TWO)]
ENDS = [arc(p) for p in (0, SIGN, LEAST, SIGN + LEAST, BELOW, 1 << 51, BELOW + 1, TOP, SIGN + TOP, PLUS, MINUS, ONE, SIGN + ONE, ONE + 1, pattern(0.1), pattern(1 / 3), pattern(2.0 ** 1023), 0x3ff0000000010000, 0x3fffffffffffffff)]
NANS = [worked(3, NAN), worked(3, PLUS + 1), worked(2, MINUS + 1), worked(4, (1 << 64) - 1, HALF), worked(4, HALF, 0x7ff8000000abcdef), worked(5, 0, 0xfff8000000000001), worked(6, NAN, NAN + 7)]
DRIVEN = [arc(pattern(1.5), times) for times in (0, 1, 9, 10, 255, 256, 9999, 65534, OFTEN)] + [worked(3, ONE, times=OFTEN), worked(4, ONE, ONE, times=0)]


# ---- legwrite FILE

def legwrite():
    """Name, note, words, world, input."""
    def at(data, **more): return World({b'day': data}, **more)
    three = plain([arc(pattern(1.5), 2), worked(0), arc(pattern(-4))])
    longest = row(255, 255, OFTEN, *[SIGN + BELOW] * 5)
    shown = [('rows_0', 'No rows.', sheet([])), ('rows_0_says_1', 'No rows, in a sheet that says 1.', sheet([], 1)), ('rows_1', 'One row.', plain([arc(pattern(3))])),
             ('rows_3', 'Three rows, of which one is blank.', three), ('functions', 'Every function that can be entered, with answers.', plain(FUNCTIONS)),
             ('ones', 'Rows of function 1, entered before.', sheet(ONES)), ('refusals', 'Every refusal number of a row.', plain(REFUSED)),
             ('ends', 'Zeros, subnormals, the largest and the smallest, infinities, few digits and many.', plain(ENDS)), ('nans', 'NaN arguments with their sign and what they carry.', plain(NANS)),
             ('times', 'Times 0 to 65,535.', plain(DRIVEN)), ('classes', 'Every class, rows that no library worked out among them.', sheet(WHOLE)),
             ('says_1', 'The same in a sheet that says 1: times 1, or 0 for a blank row.', sheet(olds(WHOLE), 1)),
             ('says_1_times', 'In a sheet that says 1 bytes 2 and 3 are no times.', sheet([leg(1.5, 7), row(0, 0, 7)], 1)),
             ('damaged_rows', 'Damage is written as it stands: functions, refusal numbers, NaN answers.', sheet(list(DAMAGED_ROWS.values()))),
             ('odd_rows', 'Rows that no edit makes; bytes 4 to 7 are not written, times of a blank row are.', sheet(list(ODD_ROWS.values()))),
             ('totals', 'Counts, total and the four zeros play no part.', sheet([leg(1.5)], counts=(9, 8, 7, 6, 5), total=-7, four=0xdeadbeef)),
             ('rows_1024', '1,024 rows.', made('worked', 1, 1024)), ('rows_1024_longest', '1,024 rows of the longest line that is written.', sheet([longest] * 1024))]
    for name, note, data in shown: yield name, note, [b'day'], at(data), b''
    for name, note, data in list(not_sheets())[::5]: yield 'not_' + name, note, [b'day'], at(data), b''
    yield 'not_a_text', 'Hex text is no sheet.', [b'day'], at(of(LEG)), b''
    yield 'input_unread', 'Standard input plays no part.', [b'day'], at(three), of(LEG)
    yield 'dev_zero', 'A device without an end.', [b'/dev/zero'], World(), b''
    yield 'missing', 'There is no such file.', [b'night'], at(three), b''
    yield 'folder', 'A folder.', [b'sub'], World(folders=[b'sub']), b''
    yield 'unreadable', 'A file that may not be read.', [b'day'], at(three, modes={b'day': 0}), b''
    yield 'read_only_folder', 'Nothing is written, so the folder need not be writable.', [b'day'], at(three, modes={b'.': 0o555}), b''
    yield 'link', 'A link is read.', [b'link'], at(three, links={b'link': b'day'}), b''
    for name, word in NAMES[::3]: yield 'name_' + name, 'The file\'s name: %s.' % name.replace('_', ' '), [word], World({word: three}), b''
    for name, word in NAMES[2:3]: yield 'missing_' + name, 'There is none of that name: %s.' % name.replace('_', ' '), [word], World(), b''
    for name, word in NO_NAMES[::3]: yield name, 'It can\'t be read: %s.' % name.replace('_', ' '), [word], at(three), b''
    for words in ([], [b'day', b'day']): yield 'usage_%d' % len(words), '%d words.' % len(words), words, at(three), b''


# ---- legread FILE: texts that are taken

def respelled(pairs):
    """Rows of F(φ, 0), which is φ: each an argument's spelling and its answer's."""
    return b'%d\n' % len(pairs) + b''.join(b'6,%s,0x0p+0,0x0p+0,1,0,%s,0x0p+0\n' % pair for pair in pairs)


THREES = [s.encode() for s in texts.THREES] + [b'0x' + b'0' * 39 + b'3', b'0x3.' + b'0' * 39, b'0x.' + b'0' * 39 + b'3p160']
ROUNDED = [(s.encode(), floats.written(p).encode()) for s, p in texts.ROUNDED]
UPPER = [(b'0X1.8P+1', b'0x3'), (b'0XABCDEF.ABCDEFP-10', b'0xabcdef.abcdefp-10'), (b'-0XFP0', b'-0xfP+000'), (b'0xaBcDeF', b'0XAbCdEf')]
UNUSED = [b'0,inf,nan:fff8000000000001,-0x1p-1075,65535,0,0x0p+0,0x0p+0', b'3,0x1p+0,nan:7ff8000000000000,0x7,9,0,inf,0x1p+0', with_field(3, b'-inf')]


def taken():
    yield 'rows_0', 'No rows.', b'0\n'
    yield 'rows_0_no_end', 'No rows, and no line feed.', b'0'
    yield 'rows_1', 'One row.', of(LEG)
    yield 'rows_3', 'Three rows, of which one is blank.', text([arc(pattern(1.5), 2), worked(0), arc(pattern(-4))])
    yield 'no_end', 'The last line has no line feed.', of(LEG, LEG)[:-1]
    yield 'cut', 'A last line that is cut, and says the same: 0x0 for 0x0p+0.', of(LEG, LEG)[:-4]
    yield 'functions', 'Every function that can be entered, with answers.', text(FUNCTIONS)
    yield 'refusals', 'Every refusal number of a row.', text(REFUSED)
    yield 'ends', 'Zeros, subnormals, the largest and the smallest, infinities, few digits and many.', text(ENDS)
    yield 'nans', 'NaN arguments keep their sign and what they carry.', text(NANS)
    yield 'times', 'Times 0 to 65,535.', text(DRIVEN)
    yield 'says_1', 'What is written of a sheet that says 1 is read as its way forth.', texts.write(sheet(olds([leg(1.5), BLANK, leg(-4.0)]), 1))
    yield 'unused', 'What a function does not read, and times of a blank row, say anything that reads, and are stored as zero.', of(*UNUSED)
    yield 'spellings', 'Other spellings of 3: digits, zeros, points and exponents.', respelled([(s, THREES[-1 - k]) for k, s in enumerate(THREES)])
    yield 'rounded', 'Spellings that are rounded: ties, subnormals, what is too small, what is too large.', respelled(ROUNDED + [(b'inf', b'0xfp+999999'), (b'0x' + b'f' * 40 + b'p-160', b'0x1p+0')])
    yield 'upper_case', 'Digits and letters of either case.', respelled(UPPER)
    yield 'many_spellings', 'Random spellings.', other_text(4, 30)
    yield 'longest', 'The longest line that is taken, 40 times.', made('longest_text', 40)
    yield 'rows_1024', '1,024 rows.', made('text', 2, 1024)
    yield 'rows_1024_spellings', '1,024 rows in many spellings.', made('other_text', 3, 1024)


# ---- texts that are refused

def between(line): return b'3\n' + LEG + b'\n' + line + b'\n' + LEG + b'\n'


KNOWN_ONE = b'1,0x1p-1,0x0p+0,0x0p+0,3,0,0x1.daa4a35759e4cp+0,0x0p+0'  # ellipk(0.5)
PAIR = b'3,0x1p+0,0x0p+0,0x0p+0,1,0,inf,0x1p+0'                           # ellipke(1)
FOURTH = b'4,0x1p+0,0x1p+0,0x0p+0,1,4,0x0p+0,0x0p+0'                      # ellippi(1, 1), refused 4
NO_NUMBERS = [('decimal', b'1.5'), ('no_digit', b'0x'), ('point_alone', b'0x.'), ('two_points', b'0x1.8.0p+1'), ('no_exponent', b'0x1.8p'), ('digits_41', b'0x' + b'0' * 40 + b'3'), ('exponent_7', b'0x1.8p0000001'),
              ('space_before', b' 0x3'), ('inf_upper', b'INF'), ('inf_plus', b'+inf'), ('infinity', b'infinity'), ('nan_of_infinity', b'nan:7ff0000000000000'), ('nan_upper', b'nan:7FF8000000000000'),
              ('nan_15', b'nan:7ff800000000000')]


def not_taken():
    # line 1
    for name, count in [('zero_first', b'02'), ('plus', b'+2'), ('cr', b'2\r'), ('hex', b'0x2p+0'), ('comma', b'2,')]: yield 'count_' + name, 'A row count that does not read', count + b'\n' + LEG + b'\n' + LEG + b'\n'
    yield 'empty', 'No byte', b''
    yield 'count_empty', 'An empty first line', b'\n' + of(LEG)
    for name, count in [('1025', b'1025'), ('wraps_32', b'4294967297'), ('30_digits', b'9' * 30)]: yield 'count_' + name, 'More than 1,024 rows', count + b'\n' + LEG + b'\n'
    yield 'count_5000_digits', 'Far more, and no line feed', made('nines', 5000)
    yield 'count_5000_and_x', 'A long first line that does not read at its end', b'9' * 5000 + b'x\n' + LEG
    # lines that are missing, or too many
    yield 'missing_all', 'Every row is missing', b'3\n'
    yield 'missing_last', 'The last row is missing', b'3\n' + LEG + b'\n' + LEG + b'\n'
    yield 'missing_of_1024', 'The last of 1,024 rows is missing', made('text_cut', 5, 1024)
    yield 'extra_empty', 'An empty line too many', of(LEG, LEG) + b'\n'
    yield 'extra_line', 'A line too many, which would read', of(LEG, LEG) + LEG + b'\n'
    yield 'extra_no_end', 'A byte too many', of(LEG, LEG) + b'x'
    yield 'extra_of_0', 'A line for no row', b'0\n' + LEG + b'\n'
    yield 'empty_line', 'An empty line between', between(b'')
    # fields of whole numbers
    for name, field in [('7', b'7'), ('256', b'256'), ('05', b'05'), ('empty', b'')]: yield 'function_' + name, 'A function that does not read', between(with_field(0, field))
    for name, field in [('65536', b'65536'), ('007', b'007'), ('wraps_32', b'4294967298')]: yield 'times_' + name, 'Times that do not read', between(with_field(4, field))
    yield 'times_65536_of_a_blank_row', 'Nor do those of a blank row', between(b'0,0x0p+0,0x0p+0,0x0p+0,65536,0,0x0p+0,0x0p+0')
    # numbers
    for k, (name, field) in enumerate(NO_NUMBERS): yield 'number_' + name, 'A number that does not read', between(with_field((1, 2, 3, 6, 7)[k % 5], field))
    yield 'unused_unread', 'An argument that the function does not read must read all the same', between(with_field(3, b'0', PAIR))
    # what is worked out
    yield 'refusal_0_for_4', 'No refusal is said, and 4 is worked out', between(with_field(5, b'0', FOURTH))
    yield 'refusal_1_for_0', 'A refusal is said, and none is worked out', between(with_field(5, b'1'))
    yield 'refusal_260', 'A refusal that is 4 in a byte', between(with_field(5, b'260', FOURTH))
    yield 'refusal_10_digits', 'A refusal of ten digits differs: an answer that does not read is told before it', between(with_field(5, b'4294967296', with_field(7, b'0')))
    yield 'refusal_11_digits', 'One of eleven does not read, and is told before the answer', between(with_field(5, b'10000000000', with_field(7, b'0')))
    yield 'first_one_bit', 'The first answer differs in its last bit', between(with_field(6, b'0x1.8000000000001p+1'))
    yield 'second_one_bit', 'The second answer differs in its last bit', between(with_field(7, b'0x1.0000000000001p+0', PAIR))
    yield 'both_answers', 'Both answers differ: the first is told', between(with_field(7, b'0x1p+1', with_field(6, b'-inf', PAIR)))
    yield 'refusal_and_answers', 'The refusal and both answers differ: the refusal is told', between(b'4,0x1p+0,0x1p+0,0x0p+0,1,5,0x1p+0,0x1p+0')
    yield 'minus_zero', '-0 for +0', between(with_field(7, b'-0x0p+0'))
    yield 'plus_zero', '+0 for -0', between(b'6,-0x0p+0,0x0p+0,0x0p+0,1,0,0x0p+0,0x0p+0')
    yield 'nan_answer', 'A NaN is no answer', between(with_field(6, b'nan:7ff8000000000000'))
    yield 'blank_answer', 'A blank row has no answer', between(b'0,0x0p+0,0x0p+0,0x0p+0,0,0,0x1p+0,0x0p+0')
    yield 'integral_one_bit', 'An integral that differs in its last bit', between(b'6,0x1p+0,0x1p-1,0x0p+0,1,0,0x1.154db1c5d941dp+0,0x0p+0')
    yield 'first_row', 'Line 2 is refused: no row was taken', of(with_field(6, b'0x3.1'), LEG)
    # function 1
    yield 'one', 'Function 1', between(KNOWN_ONE)
    yield 'one_other_answers', 'Its answers are not looked at', between(with_field(5, b'7', with_field(6, b'nan:7ff8000000000000', KNOWN_ONE)))
    yield 'one_unread', 'Function 1 in a line that does not read', between(with_field(7, b'0', KNOWN_ONE))
    yield 'one_nine_fields', 'Function 1 with a field too many', between(KNOWN_ONE + b',')
    yield 'one_after', 'An earlier line is told before it', of(with_field(5, b'2'), KNOWN_ONE)
    # the number of fields
    yield 'fields_1', 'One field', between(b'5')
    yield 'fields_7', 'Seven fields', between(LEG.rsplit(b',', 1)[0])
    yield 'fields_7_and_comma', 'Seven fields and a comma: the eighth is empty', between(LEG.rsplit(b',', 1)[0] + b',')
    yield 'fields_9', 'Nine fields', between(LEG + b',0x0p+0')
    yield 'fields_8_and_comma', 'Eight fields and a comma', between(LEG + b',')
    yield 'fields_9_and_unread', 'Nine fields, of which one does not read', between(with_field(2, b'') + b',0')
    yield 'fields_9_and_differs', 'Nine fields, of which one differs: the ninth is told', between(with_field(5, b'3') + b',0')
    yield 'space_after_commas', 'A space behind each comma', between(LEG.replace(b',', b', '))
    # line ends and other bytes
    yield 'cr', 'Carriage returns: line 1', of(LEG, LEG).replace(b'\n', b'\r\n')
    yield 'cr_later', 'A carriage return: the last field', between(LEG + b'\r')
    yield 'cut', 'A last line that is cut', of(LEG, LEG)[:-3]
    yield 'nul', 'A byte of zero', between(LEG + b'\0')
    yield 'not_ascii', 'Bytes that are no ASCII', between(with_field(1, '0x３'.encode()))
    yield 'long_function', 'A long line of zeros', between(b'0' * 3000)
    yield 'long_argument', 'A field that is longer than any line that reads', between(with_field(2, b'0x' + b'0' * 600))
    yield 'long_ninth', 'Eight fields that read, and a long line', between(LEG + b',' * 600)
    yield 'long_last', 'The longest fields, and a last one that is longer', of(texts.LONGEST + b'0' * 9)
    yield 'sheet', 'A sheet is no text', plain([arc(pattern(1.5))])


# ---- legread FILE

def legread():
    """Name, note, words, world, input."""
    day, good = World({b'day': b'what was there\n'}), of(LEG, PAIR)
    for name, note, given in taken(): yield name, note, [b'day'], day, given
    yield 'new', 'The file is new.', [b'new'], day, good
    yield 'over_a_sheet', 'A sheet is written over, not mended.', [b'day'], World({b'day': sheet(WHOLE)}), good
    for name, note, given in not_taken(): yield 'bad_' + name, note + ': the file is as it was.', [b'day'], day, given
    yield 'bad_new', 'A line that does not read: no file is made.', [b'new'], day, between(b'x')
    # standard input fails
    for whole in (0, 2, 3): yield 'input_fails_%d' % whole, 'Standard input fails after %d lines: the file is as it was.' % whole, [b'day'], day, Input(b''.join(good.splitlines(True)[:whole]), True)
    yield 'input_fails_in_a_line', 'Standard input fails within a line: no file is made.', [b'new'], day, Input(good[:-5], True)
    yield 'input_fails_in_the_count', 'Standard input fails within line 1.', [b'day'], day, Input(b'2', True)
    yield 'input_fails_too_many', 'Standard input fails within a line too many.', [b'day'], day, Input(good + b'x', True)
    yield 'bad_before_it_fails', 'A line that differs before standard input fails.', [b'day'], day, Input(b'3\n' + with_field(5, b'1') + b'\n', True)
    yield 'one_before_it_fails', 'Function 1 before standard input fails.', [b'day'], day, Input(b'3\n' + KNOWN_ONE + b'\n', True)
    yield 'count_1025_before_it_fails', 'More than 1,024 rows before standard input fails.', [b'day'], day, Input(b'1025\n', True)
    yield 'extra_before_it_fails', 'A line too many before standard input fails.', [b'day'], day, Input(good + b'\n', True)
    # files
    for name, word in NAMES[::3]: yield 'name_' + name, 'The file\'s name: %s.' % name.replace('_', ' '), [word], day, good
    for name, word in NO_NAMES[::2]: yield name, 'It can\'t be written: %s.' % name.replace('_', ' '), [word], day, good
    yield 'folder', 'A folder can\'t be written.', [b'sub'], World({b'sub/x': b'1'}, [b'sub']), good
    yield 'refused_and_folder', 'A refusal is told before the file is tried.', [b'sub'], World(folders=[b'sub']), b'1025\n'
    yield 'in_folder', 'A file in another folder.', [b'sub/day'], World({b'day': b'1', b'sub/day': b'2'}, [b'sub']), good
    yield 'link', 'A link\'s name is given: it is a file afterwards, and what it named is as it was.', [b'link'], World({b'day': b'1'}, links={b'link': b'day'}), good
    yield 'unreadable_file', 'The file need not be readable.', [b'day'], World({b'day': b'1'}, modes={b'day': 0}), good
    yield 'read_only_folder', 'The folder may not be written.', [b'day'], World({b'day': b'1'}, modes={b'.': 0o555}), good
    for words in ([], [b'day', b'day']): yield 'usage_%d' % len(words), '%d words.' % len(words), words, day, good


def runs():
    """Every run of the folder."""
    for program, listed in [('legwrite', legwrite()), ('legread', legread())]:
        for name, note, words, world, given in listed: yield Run('hextext/%s_%s' % (program, name), note, program, words, world, given if isinstance(given, Input) else Input(given))
