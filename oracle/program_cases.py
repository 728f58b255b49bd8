#!/usr/bin/env python3
"""The list of the stored runs of faces/program/runs: each a program, its words, the files before and standard input. What they come to is worked out by files_model.py."""
import sheet_model as sheets
from files_model import Input, World, ROUNDS
from program_model import EXAMPLE, GOOD, LARGEST, NAN, edit, leg as leg_line, value
from program_runs import BLANK, Run, leg, made, old, pattern, row, sheet

PLUS, MINUS, ONE, TOP, SIGN = sheets.PLUS, sheets.MINUS, sheets.ONE, sheets.TOP, sheets.SIGN
HALF_PI = sheets.HALF_PI
MODULUS = sheets.MODULUS
OFTEN = 65535
TWO = pattern(2)


# ---- rows

def minus_zero(times=1): return row(5, 0, times, SIGN, first=SIGN)
def infinite(p, times=1): return row(5, 0, times, p, first=p)
def refusal(f, q, a=NAN, b=0, times=1): return row(f, q, times, a, b)
def pair(times=1): return row(3, 0, times, 0, first=HALF_PI, second=HALF_PI)          # ellipke(0)
def plain(times=1): return row(1, 0, times, 0, first=HALF_PI)                          # ellipk(0), entered before function 1 went out


CLASSES = [BLANK, leg(1.5), leg(-2.5, 3), infinite(PLUS), infinite(MINUS, 4), refusal(5, 1), refusal(3, 2, TWO, times=7)]
REFUSALS = [refusal(3, 1), refusal(4, 2, 0, TWO), refusal(6, 3, HALF_PI, ONE), refusal(4, 4, ONE, 0), refusal(4, 5, ONE, 0), refusal(6, 6, pattern(2.0 ** 53), MINUS)]
ONES = [plain(), row(1, 0, 2, ONE, first=PLUS), row(1, 0, 3, MINUS), refusal(1, 1), refusal(1, 2, TWO, times=9)]
WHOLE = CLASSES + REFUSALS + ONES + [pair(5), row(2, 0, 1, ONE, first=ONE), leg(0.0, 6), minus_zero(OFTEN), leg(1e300, 0)]

DAMAGED_ROWS = {
    'function_7': row(7, 0, 1, ONE, first=ONE), 'function_8': row(8), 'function_255': row(255, 0, 2),
    'refusal_7': row(5, 7, 1, ONE), 'refusal_14': row(5, 14, 1, ONE), 'refusal_22': row(1, 22, 1), 'refusal_255': row(3, 255),
    'nan': row(5, 0, 1, ONE, first=NAN), 'nan_of_a_refused_row': row(5, 1, 1, ONE, first=PLUS + 1), 'nan_of_a_blank_row': row(0, 0, 0, first=MINUS + 1),
    'refusal_of_a_blank_row': row(0, 7, 0),
}
# rows that are sound, though no edit makes them
ODD_ROWS = {
    'rest': row(5, 0, 1, ONE, first=ONE, rest=0xffffffff), 'blank_with_bytes': row(0, 6, 9, 1, 2, 3, ONE, NAN, 5), 'second_nan': row(3, 0, 1, ONE, first=ONE, second=NAN),
    'second_infinite': row(3, 0, 1, ONE, first=ONE, second=MINUS), 'refused_with_answers': row(4, 4, 1, 1, 1, 1, TOP, TOP), 'unused_arguments': row(5, 0, 1, ONE, 0, 77, ONE, 88),
}


def olds(rows): return [old(one) for one in rows]


def not_sheets():
    """Bytes that are no sheet, each with why."""
    good, word = sheet([leg(1.5), BLANK]), lambda at, n: sheet([leg(1.5), BLANK])[:4 * at] + sheets.u32(n) + sheet([leg(1.5), BLANK])[4 * at + 4:]
    yield 'empty', 'A file of no bytes.', b''
    yield 'one_byte', 'A file of one byte.', b'\3'
    yield 'contents_alone', 'The contents and nothing behind them.', good[:32]
    yield 'cut_by_1', 'The last byte is missing.', good[:-1]
    yield 'cut_by_48', 'As long as a sheet of one row, and its contents say two.', good[:-48]
    yield 'longer_by_1', 'One byte too many.', good + b'\0'
    yield 'longer_by_48', 'As long as a sheet of three rows, and its contents say two.', good + bytes(48)
    for says in (0, 2, 4, 0x01000001, 0x03000000): yield 'says_%x' % says, 'The first word is %d.' % says, word(0, says)
    for at, n in ((1, 33), (2, 97), (3, 1), (4, 1), (5, 129), (6, 297), (7, 0), (3, 0x10002)): yield 'word_%d_is_%x' % (at, n), 'Word %d of the contents is %d.' % (at, n), word(at, n)
    yield 'rows_1025', 'A sheet of 1,025 rows, were there any.', made('blank', 1025, 3)
    yield 'bytes_49481', 'The largest sheet and one byte.', made('blank_and_more', 1024, 3, 1)
    yield 'bytes_49482', 'The largest sheet and two bytes.', made('blank_and_more', 1024, 1, 2)
    yield 'megabytes', 'Far longer than any sheet, though it begins with one.', made('blank_and_more', 1024, 3, 2000000)
    yield 'zeros_49480', 'As many bytes as the largest sheet has, all zero.', made('zeros', 49480)


NAMES = [('space', b'a b  c'), ('spaces_alone', b'  '), ('not_utf8', b'\xff\xfe\x80day'), ('utf8', 'Größe'.encode()), ('line_feed', b'two\nlines'), ('minus', b'-n'), ('help', b'--help'),
         ('percent', b'%s%n'), ('dots', b'...'), ('bytes_255', b'n' * 255)]
NO_NAMES = [('empty_name', b''), ('name_of_256', b'n' * 256), ('path_of_5000', made('letters', 5000)), ('path_of_4096', made('letters', 4096)), ('name_of_131071', made('letters', 131071)), ('ends_with_slash', b'day/'),
            ('no_such_folder', b'none/day'), ('a_file_as_folder', b'day/x')]


# ---- legsheet FILE

def legsheet():
    """Name, note, words, world, input."""
    day = World({b'day': b'what was there\n'})
    every = b'%d\n' % 12 + leg_line(0, 1.5) + leg_line(1, -2.5, 3) + leg_line(2, float('inf'), 4) + leg_line(3, float('-inf')) + edit(4, 5, NAN) + edit(5, 3, TWO, times=7) + edit(6, 4, ONE, ONE) + \
        edit(7, 3, ONE, 5, 6, 2) + leg_line(8, -0.0, OFTEN) + leg_line(9, 1e300, 0) + edit(10, 0, 1, 2, 3, 9)
    yield 'no_file', 'Without a word it is the program that it was.', [], day, EXAMPLE
    yield 'no_file_bad', 'Without a word, a bad line.', [], day, b'1\n' + edit(0, 1)
    yield 'no_file_empty', 'Without a word, no input.', [], day, b''
    yield 'new', 'The sheet of the worked example in a new file.', [b'new'], day, EXAMPLE
    yield 'over', 'A file that is no sheet is written over.', [b'day'], day, EXAMPLE
    yield 'over_a_sheet', 'A sheet is written over, not mended.', [b'day'], World({b'day': sheet(WHOLE)}), EXAMPLE
    yield 'every_class', 'Every class, and times 0 to 65,535.', [b'day'], day, every
    yield 'no_end', 'The last line has no line feed.', [b'day'], day, EXAMPLE[:-1]
    yield 'rows_0', 'No rows.', [b'day'], day, b'0\n'
    yield 'rows_1', 'One blank row.', [b'day'], day, b'1\n'
    yield 'rows_1024', '1,024 rows, many of them edited more than once.', [b'day'], day, made('input', 1, 1024, 2500)
    yield 'rows_1024_blank', '1,024 blank rows.', [b'day'], World(), b'1024\n'
    yield 'cleared', 'A row is filled and cleared: 48 zeros.', [b'day'], day, b'2\n' + leg_line(0, 1.5, 9) + edit(0, 0, 7, 7, 7, 7)
    yield 'negative_total', 'A total below zero is stored in two\'s complement.', [b'day'], day, b'2\n' + leg_line(0, -1.5, 9) + leg_line(1, 2.0 ** -1074)
    yield 'largest_total', 'The largest first answer as often as can be.', [b'day'], day, b'2\n' + leg_line(0, LARGEST, OFTEN) + leg_line(1, -LARGEST, 1)
    for name, note, text in [('bad_count', 'A row count that does not read', b'x\n' + GOOD), ('count_1025', 'More than 1,024 rows', b'1025\n'), ('bad_2', 'Function 1', b'1\n' + edit(0, 1, ONE)), ('bad_3', 'A row that is not there', b'1\n' + GOOD + edit(1, 0)),
                             ('bad_last', 'A bad last line without a line feed', b'1\n' + GOOD + b'0 5'), ('no_input', 'No line at all', b''), ('empty_line', 'An empty line', b'1\n\n'), ('function_7', 'A function above the last', b'1\n' + edit(0, 7)),
                             ('times_65536', 'Times 65536', b'1\n' + edit(0, 5, times=65536))]:
        yield name, note + ': the file is as it was.', [b'day'], day, text
        yield name + '_new', note + ': no file is made.', [b'new'], day, text
    for whole in (0, 1, 3):
        yield 'input_fails_%d' % whole, 'Standard input fails after %d lines: the file is as it was.' % whole, [b'day'], day, Input(b''.join(EXAMPLE.splitlines(True)[:whole]), True)
    yield 'input_fails_in_a_line', 'Standard input fails within a line: no file is made.', [b'new'], day, Input(EXAMPLE[:70], True)
    yield 'bad_before_it_fails', 'A bad line before standard input fails.', [b'new'], day, Input(b'1\n' + edit(1, 0), True)
    for name, word in NAMES: yield 'name_' + name, 'The file\'s name: %s.' % name.replace('_', ' '), [word], day, EXAMPLE
    for name, word in NO_NAMES: yield name, 'It can\'t be written: %s.' % name.replace('_', ' '), [word], day, EXAMPLE
    yield 'folder', 'A folder can\'t be written.', [b'sub'], World({b'sub/x': b'1'}, [b'sub']), EXAMPLE
    yield 'here', 'Nor can the folder that it runs in.', [b'.'], day, EXAMPLE
    yield 'bad_and_folder', 'A bad line is told before the file is tried.', [b'sub'], World(folders=[b'sub']), b'1\nx\n'
    yield 'in_folder', 'A file in another folder.', [b'sub/day'], World({b'day': b'1', b'sub/day': b'2'}, [b'sub']), EXAMPLE
    yield 'in_folder_dots', 'The same, by a longer way.', [b'./sub/../sub//day'], World({b'day': b'1', b'sub/day': b'2'}, [b'sub']), EXAMPLE
    yield 'link', 'A link\'s name is given: it is a file afterwards, and what it named is as it was.', [b'link'], World({b'day': b'1'}, links={b'link': b'day'}), EXAMPLE
    yield 'link_to_nothing', 'A link to nothing becomes the file.', [b'link'], World(links={b'link': b'none'}), EXAMPLE
    yield 'read_only_file', 'The name\'s file may not be written, and its folder may: it is replaced.', [b'day'], World({b'day': b'1'}, modes={b'day': 0o444}), EXAMPLE
    yield 'unreadable_file', 'Nor need it be readable.', [b'day'], World({b'day': b'1'}, modes={b'day': 0}), EXAMPLE
    yield 'read_only_folder', 'The folder may not be written.', [b'day'], World({b'day': b'1'}, modes={b'.': 0o555}), EXAMPLE
    yield 'read_only_folder_new', 'The folder may not be written: nor can a file be made.', [b'new'], World({b'day': b'1'}, modes={b'.': 0o555}), EXAMPLE
    yield 'read_only_folder_in', 'A folder in it may not be written.', [b'sub/day'], World({b'sub/day': b'1'}, [b'sub'], modes={b'sub': 0o555}), EXAMPLE
    yield 'writes_beside_it', 'The folder that it runs in may not be written, and the file\'s may.', [b'sub/day'], World({b'sub/day': b'1'}, [b'sub'], modes={b'.': 0o555}), EXAMPLE
    yield 'usage_2', 'Two words.', [b'day', b'day'], day, EXAMPLE
    yield 'usage_3', 'Three words.', [b'day', b'x', b'y'], day, EXAMPLE


# ---- legfix FILE

def legfix():
    def at(data, **more): return World({b'day': data}, **more)
    two = sheet([leg(1.5, 2), leg(4.0)])
    line = leg_line(1, 7.0, 3)
    # printed as it stands
    shown = [('classes', 'Every class, every refusal number and function 1.', sheet(WHOLE)), ('classes_1', 'The same in a sheet that says 1: times 1, or 0 for a blank row.', sheet(olds(WHOLE), 1)),
             ('rows_0', 'No rows.', sheet([])), ('rows_0_says_1', 'No rows, in a sheet that says 1.', sheet([], 1)), ('rows_1', 'One row.', sheet([leg(-0.5, OFTEN)])),
             ('rows_1024', '1,024 rows.', made('mixed', 3, 1024, 3)), ('rows_1024_says_1', '1,024 rows in a sheet that says 1.', made('mixed', 4, 1024, 1)), ('rows_1024_blank', '1,024 blank rows.', sheet([BLANK] * 1024)),
             ('damaged_rows', 'Rows that the row tests reject are printed.', sheet(list(DAMAGED_ROWS.values()))), ('damaged_rows_1', 'The same in a sheet that says 1.', sheet(list(DAMAGED_ROWS.values()), 1)),
             ('odd_rows', 'Rows that no edit makes.', sheet(list(ODD_ROWS.values()))), ('odd_rows_1', 'The same in a sheet that says 1, whose bytes 2 and 3 are no times.', sheet(list(ODD_ROWS.values()), 1)),
             ('counts_wrong', 'Counts that are not the rows\'.', sheet([leg(1.5)], counts=(9, 8, 7, 6, 5))), ('counts_large', 'The largest counts.', sheet([leg(1.5)], counts=[0xffffffff] * 5)),
             ('four_zeros', 'Bytes 20 to 23 of the totals, which should be zero.', sheet([leg(1.5)], four=0xdeadbeef))]
    totals = [('total_minus_1', -1), ('total_half', MODULUS >> 1), ('total_below_half', (MODULUS >> 1) - 1), ('total_minus_half_and_1', -(MODULUS >> 1) + 1), ('total_overflows', 1 << 2100), ('total_overflows_below', -(1 << 2100)),
              ('total_0', 0), ('total_subnormal', (1 << 52) - 1), ('total_tie_to_even', (1 << 53) + 1), ('total_tie_up', (1 << 53) + 3), ('total_past_tie', (1 << 60) + (1 << 7) + 1), ('total_negative_tie', -(1 << 53) - 3),
              ('total_largest', ((1 << 53) - 1) << 2045), ('total_ties_to_infinity', ((1 << 54) - 1) << 2044), ('total_below_that_tie', (((1 << 54) - 1) << 2044) - 1)]
    shown += [(name, 'The total as it is stored: %s.' % name[6:].replace('_', ' '), sheet([leg(1.5)], total=n)) for name, n in totals]
    for name, note, data in shown: yield 'print_' + name, note, [b'day'], at(data), b''
    # edits
    yield 'replace', 'A row is replaced: the old times are taken away, the new are added.', [b'day'], at(two), leg_line(0, 2.0, 5)
    yield 'clear', 'A row is cleared.', [b'day'], at(two), edit(0, 0, 1, 2, 3, 4)
    yield 'same_again', 'A row is replaced by itself.', [b'day'], at(two), leg_line(0, 1.5, 2)
    yield 'times_alone', 'Another times for the same leg.', [b'day'], at(two), leg_line(0, 1.5, OFTEN)
    yield 'times_0', 'Times 0.', [b'day'], at(two), leg_line(0, 1.5, 0)
    yield 'several', 'Several lines, of which one comes after another of the same row.', [b'day'], at(sheet(WHOLE)), leg_line(0, 1.0) + edit(1, 0) + leg_line(0, 2.0, 3) + edit(4, 3, ONE) + edit(9, 4, ONE, ONE) + leg_line(5, -1.0, 9)
    yield 'no_end', 'The last line has no line feed.', [b'day'], at(two), line[:-1]
    yield 'many', '2,000 lines on 1,024 rows.', [b'day'], at(made('mixed', 5, 1024, 3)), made('edits', 6, 1024, 2000)
    yield 'all_cleared', 'Every row of 1,024 is cleared: the blank sheet.', [b'day'], at(made('mixed', 7, 1024, 3)), made('clears', 1024)
    yield 'last_row', 'The last of 1,024 rows.', [b'day'], at(sheet([BLANK] * 1024)), leg_line(1023, -3.5, 2)
    yield 'ones_replaced', 'Rows of function 1 are replaced.', [b'day'], at(sheet(ONES)), leg_line(0, 3.0) + edit(1, 3, ONE, times=2) + leg_line(2, -1.0)
    yield 'ones_cleared', 'Rows of function 1 are cleared.', [b'day'], at(sheet(ONES)), b''.join(edit(i, 0) for i in range(5))
    yield 'beside_ones', 'A row beside rows of function 1.', [b'day'], at(sheet([BLANK] + ONES)), leg_line(0, 3.0)
    yield 'blank_with_bytes', 'A blank row with bytes in it is replaced: it is blank, and adds nothing.', [b'day'], at(sheet([ODD_ROWS['blank_with_bytes'], leg(1.0)])), leg_line(0, 2.0)
    yield 'blank_with_bytes_cleared', 'Cleared, it is 48 zeros.', [b'day'], at(sheet([ODD_ROWS['blank_with_bytes'], leg(1.0)])), edit(0, 0)
    yield 'rest', 'Bytes 4 to 7 of the row that is edited are zero afterwards, those of another stay.', [b'day'], at(sheet([ODD_ROWS['rest'], ODD_ROWS['rest']])), leg_line(0, 2.0)
    yield 'four_zeros', 'An edit writes the four zeros behind the counts.', [b'day'], at(sheet([leg(1.5)], four=0xdeadbeef)), leg_line(0, 2.0)
    yield 'second_nan', 'A second answer that is a NaN is no damage.', [b'day'], at(sheet([ODD_ROWS['second_nan']])), leg_line(0, 2.0)
    yield 'senseless_total', 'A senseless total is carried on.', [b'day'], at(sheet([leg(1.5)], total=12345678901234567890)), leg_line(0, 2.5)
    yield 'total_wraps', 'It is kept modulo 2^2176.', [b'day'], at(sheet([leg(-2.0 ** -1074)], total=-1)), leg_line(0, 2.0 ** -1074)
    yield 'counts_carried', 'Counts that add up and are not the rows\' are carried on.', [b'day'], at(sheet([leg(1.5), leg(2.5), leg(3.5)], counts=(1, 1, 0, 0, 1))), edit(0, 0)
    yield 'damage_elsewhere', 'A damaged row is no matter for the edit of another, and is printed.', [b'day'], at(sheet([DAMAGED_ROWS['function_255'], leg(1.5)], counts=(1, 1, 0, 0, 0))), leg_line(1, 2.5)
    # bad lines
    for name, one in DAMAGED_ROWS.items(): yield 'damaged_' + name, 'The row to be replaced is damaged: a bad line.', [b'day'], at(sheet([leg(1.5), one])), leg_line(0, 2.0) + leg_line(1, 2.0)
    for name, counts in [('one_more', (0, 3, 0, 0, 0)), ('one_less', (0, 1, 0, 0, 0)), ('wrap', (0xffffffff, 3, 0, 0, 0)), ('none', (0, 0, 0, 0, 0))]:
        yield 'counts_' + name, 'Counts that do not add up: a bad line.', [b'day'], at(sheet([leg(1.5), leg(4.0)], counts=counts)), line
    yield 'counts_class_0', 'The row\'s class counts 0: a bad line.', [b'day'], at(sheet([leg(1.5), leg(4.0)], counts=(1, 0, 1, 0, 0))), line
    bad = [('row_count', 'A row count, which is no edit', b'2\n'), ('row_count_first', 'A row count in front, as legsheet takes it', b'2\n' + line), ('empty_line', 'An empty line', b'\n'), ('empty_line_last', 'An empty line after a good one', line + b'\n'),
           ('row_2', 'A row that is not there', leg_line(2, 1.0)), ('row_wraps', 'Row 2^32', b'4294967296' + line[1:]), ('function_1', 'Function 1', edit(0, 1, ONE)), ('function_7', 'A function above the last', edit(0, 7, ONE)),
           ('function_256', 'Function 256', edit(0, 256, ONE)), ('times_65536', 'Times 65536', edit(0, 5, ONE, times=65536)), ('five_fields', 'No times', line.rsplit(b' ', 1)[0] + b'\n'), ('cr', 'A carriage return', line[:-1] + b'\r\n'),
           ('third', 'The third line', line + line + b'x\n' + line), ('function_1_third', 'Function 1 in the third line', line + line + edit(0, 1, ONE) + line), ('cut', 'A last line that is cut', line + line[:-3]), ('long', 'A long line', b'0' * 5000 + b'\n')]
    for name, note, text in bad: yield 'bad_' + name, note + ': the file is as it was.', [b'day'], at(two), text
    yield 'function_1_over_damage', 'Function 1 over a damaged row.', [b'day'], at(sheet([DAMAGED_ROWS['nan']])), edit(0, 1, ONE)
    yield 'says_1_edit', 'A sheet that says 1 is not edited.', [b'day'], at(sheet(olds(WHOLE), 1)), leg_line(1, 7.0)
    yield 'says_1_clear', 'Nor cleared.', [b'day'], at(sheet(olds(WHOLE), 1)), edit(1, 0)
    yield 'says_1_bad', 'A malformed line for it.', [b'day'], at(sheet(olds(WHOLE), 1)), b'x\n'
    yield 'rows_0_edit', 'No row, and an edit.', [b'day'], at(sheet([])), leg_line(0, 1.0)
    # not a sheet, or no file
    for name, note, data in not_sheets(): yield 'not_' + name, note, [b'day'], at(data), b''
    yield 'not_a_sheet_good_line', 'No sheet, and a good line.', [b'day'], at(b'x'), line
    yield 'not_a_sheet_bad_line', 'No sheet, and a bad line: 7 is told.', [b'day'], at(b'x'), b'x\n'
    yield 'dev_null', 'A device without bytes.', [b'/dev/null'], World(), b''
    yield 'dev_zero', 'A device without an end.', [b'/dev/zero'], World(), line
    yield 'missing', 'There is no such file.', [b'night'], at(two), line
    yield 'missing_no_line', 'There is none, and no line.', [b'night'], at(two), b''
    yield 'folder', 'A folder.', [b'sub'], World(folders=[b'sub']), line
    yield 'unreadable', 'A file that may not be read.', [b'day'], at(two, modes={b'day': 0}), line
    for name, word in NAMES: yield 'name_' + name, 'The file\'s name: %s.' % name.replace('_', ' '), [word], World({word: two}), line
    for name, word in NO_NAMES: yield name, 'It can\'t be read: %s.' % name.replace('_', ' '), [word], at(two), line
    for n in (2046, 2047): yield 'path_of_%d' % (2 * n + 3), 'A path of %d bytes; the longest that can be opened has 4,095.' % (2 * n + 3), [made('dots', n)], at(two), b''
    yield 'path_of_3003', 'A long path.', [made('dots', 1500)], at(two), line
    yield 'in_folder', 'A file in another folder.', [b'sub/day'], World({b'day': b'1', b'sub/day': two}, [b'sub']), line
    yield 'link', 'A link\'s name is given: it is a file afterwards, and what it named is as it was.', [b'link'], at(two, links={b'link': b'day'}), line
    yield 'link_printed', 'Without a line the link stays.', [b'link'], at(two, links={b'link': b'day'}), b''
    yield 'read_only_file', 'The file may not be written, and its folder may.', [b'day'], at(two, modes={b'day': 0o444}), line
    yield 'read_only_folder', 'The folder may not be written.', [b'day'], at(two, modes={b'.': 0o555}), line
    yield 'read_only_folder_printed', 'Without a line nothing is written, so that is no matter.', [b'day'], at(two, modes={b'.': 0o555}), b''
    yield 'read_only_folder_bad', 'A bad line there.', [b'day'], at(two, modes={b'.': 0o555}), b'x\n'
    for whole in (0, 1, 2):
        yield 'input_fails_%d' % whole, 'Standard input fails after %d lines: the file is as it was.' % whole, [b'day'], at(two), Input(line * whole, True)
    yield 'input_fails_in_a_line', 'Standard input fails within a line.', [b'day'], at(two), Input(line + line[:9], True)
    yield 'bad_before_it_fails', 'A bad line before standard input fails.', [b'day'], at(two), Input(line + b'x\n', True)
    yield 'usage_0', 'No word.', [], at(two), line
    yield 'usage_2', 'Two words.', [b'day', b'day'], at(two), line


# ---- legrounds

def legrounds():
    nowhere, points = World(), sorted(ROUNDS)
    most = max(points, key=ROUNDS.get)
    yield 'example', 'The worked example: no recipe is asked.', [], nowhere, b'4\n' + edit(0, 3, ONE) + edit(1, 2, 0) + edit(3, 5, TWO)
    yield 'blank', 'Blank rows.', [], nowhere, b'3\n'
    yield 'rows_0', 'No rows: no line.', [], nowhere, b'0\n'
    yield 'rows_1024', '1,024 blank rows.', [], nowhere, b'1024\n'
    yield 'no_recipe', 'Functions 2 and 3 ask no recipe, whatever their arguments.', [], nowhere, b'6\n' + edit(0, 2, pattern(0.5)) + edit(1, 3, pattern(0.5)) + edit(2, 2, NAN) + edit(3, 3, pattern(-1e300)) + edit(4, 3, TWO) + edit(5, 0, 1, 2, 3)
    for f in (4, 5, 6):
        some = [p for p in points if p[0] == f][::23]
        yield 'function_%d' % f, 'Points of the stored list of rounds, function %d.' % f, [], nowhere, b'%d\n' % len(some) + b''.join(edit(i, *p) for i, p in enumerate(some))
    yield 'most', 'The most of the stored list, in the last of three rows.', [], nowhere, b'3\n' + edit(2, *most)
    yield 'unused', 'Neither the third argument nor times matter, nor an edit that was replaced.', [], nowhere, b'2\n' + edit(0, *most) + edit(0, *points[200], 7, 0) + edit(1, *most, NAN, OFTEN) + edit(1, 0)
    yield 'order', 'The order of the arguments matters.', [], nowhere, b'1\n' + edit(0, 4, 0x87b0000000000000, 0xea90000000000000)
    for name, text in [('empty', b''), ('count', b'1025\n'), ('function_1', b'1\n' + edit(0, 1, ONE)), ('function_7', b'1\n' + edit(0, 7)), ('row', b'1\n' + edit(1, 0)), ('line_3', b'1\n' + GOOD + b'\n' + GOOD), ('five_fields', b'1\n' + GOOD.rsplit(b' ', 1)[0])]:
        yield 'bad_' + name, 'A bad line: %s.' % name.replace('_', ' '), [], nowhere, text
    yield 'no_end', 'The last line has no line feed.', [], nowhere, (b'1\n' + edit(0, *most))[:-1]
    for whole in (0, 2): yield 'input_fails_%d' % whole, 'Standard input fails after %d lines.' % whole, [], nowhere, Input(b'1\n' + GOOD if whole else b'', True)
    yield 'usage', 'A word.', [b'day'], World({b'day': sheet([leg(1.5)])}), b'1\n'


# ---- legmonth FILE..

def legmonth():
    def month(*files, **more): return [b'%d' % i for i in range(len(files))], World({b'%d' % i: data for i, data in enumerate(files)}, **more)
    one = sheet([leg(1.5, 2), leg(-4.0)])
    yield ('one', 'One sheet.', *month(one), b'')
    yield ('classes', 'Every class, every refusal number and function 1.', *month(sheet(WHOLE)), b'')
    yield ('says_1', 'The same in a sheet that says 1: every leg once.', *month(sheet(olds(WHOLE), 1)), b'')
    yield ('says_1_times', 'In a sheet that says 1 bytes 2 and 3 are no times.', *month(sheet([leg(1.5, 7), ODD_ROWS['blank_with_bytes']], 1)), b'')
    yield ('both', 'Sheets of both kinds.', *month(sheet(WHOLE), sheet(olds(WHOLE), 1), one), b'')
    yield ('rows_0', 'A sheet of no rows is a sheet.', *month(sheet([]), sheet([], 1)), b'')
    yield ('blank', 'Blank rows alone.', *month(sheet([BLANK] * 3)), b'')
    yield ('blank_with_bytes', 'A blank row with bytes: it is blank, and its refusal number does not count.', *month(sheet([ODD_ROWS['blank_with_bytes']])), b'')
    yield ('odd_rows', 'Rows that are sound, though no edit makes them.', *month(sheet(list(ODD_ROWS.values()))), b'')
    yield ('no_extremes', 'No finite row: no extremes.', *month(sheet([infinite(PLUS), infinite(MINUS), refusal(5, 1)])), b'')
    yield ('one_finite', 'One finite row is both.', *month(sheet([infinite(PLUS), leg(-3.0), infinite(MINUS)])), b'')
    yield ('never_driven', 'Times 0: counted, an extreme, and nothing in the total.', *month(sheet([leg(1e300, 0), leg(1.0), leg(-1e300, 0)])), b'')
    yield ('ties', 'Of equal ones the earliest is shown.', *month(sheet([leg(1.0), leg(5.0), leg(-7.0)]), sheet([leg(5.0), leg(-7.0), leg(5.0)])), b'')
    yield ('ties_in_a_sheet', 'Also in one sheet.', *month(sheet([leg(2.0), leg(2.0)])), b'')
    yield ('zeros', '-0 and +0 are equal, and the first shows its own pattern: -0.', *month(sheet([minus_zero(), leg(0.0)])), b'')
    yield ('zeros_2', 'And the other way.', *month(sheet([leg(0.0)]), sheet([minus_zero()])), b'')
    yield ('zero_above', '+0 is the largest of what is below zero.', *month(sheet([leg(-1.0), minus_zero(), leg(0.0)])), b'')
    yield ('subnormals', 'The smallest steps.', *month(sheet([leg(2.0 ** -1074), leg(-2.0 ** -1074), leg(2.0 ** -1073, 3)])), b'')
    yield ('negative', 'A total below zero.', *month(sheet([leg(-1.5, 9)]), sheet([leg(2.0)])), b'')
    yield ('zero_total', 'A total of zero from rows that cancel.', *month(sheet([leg(1e300, 7)]), sheet([leg(-1e300, 7)])), b'')
    yield ('too_large', 'A total that rounds to an infinity, and is exact.', *month(sheet([leg(LARGEST, OFTEN)] * 3), sheet([leg(LARGEST, OFTEN)])), b'')
    yield ('too_small', 'The same below zero.', *month(sheet([leg(-LARGEST, OFTEN)] * 2)), b'')
    yield ('tie', 'A total that lies between two, rounded once.', *month(sheet([leg(2.0 ** 53)]), sheet([leg(1.0), leg(2.0 ** -1074)])), b'')
    yield ('tie_to_even', 'And one just between.', *month(sheet([leg(2.0 ** 53)]), sheet([leg(1.0)])), b'')
    yield ('totals_unread', 'Stored counts and totals are not looked at.', *month(sheet([leg(1.5)], counts=(9, 9, 9, 9, 9), total=-5, four=7)), b'')
    yield ('order', 'The sheets of another run in another order.', [b'1', b'0'], month(sheet(WHOLE), one)[1], b'')
    yield ('twice', 'A file named twice counts twice.', [b'0', b'0', b'0'], month(one)[1], b'')
    yield ('twice_by_another_way', 'Also by another name.', [b'0', b'./0'], month(one)[1], b'')
    yield ('rows_1024', '1,024 rows, twice.', *month(made('mixed', 8, 1024, 3), made('mixed', 9, 1024, 1)), b'')
    for name, row_ in DAMAGED_ROWS.items(): yield ('damaged_' + name, 'A row that the row tests reject: the file stands apart.', *month(one, sheet([leg(9.0), row_, row_]), one), b'')
    yield ('damaged_last', 'The last row of 1,024: nothing of the file is added.', *month(sheet([leg(9.0)] * 1023 + [DAMAGED_ROWS['nan']])), b'')
    yield ('numbered', 'Sheets are numbered by their place among all words, those apart too.', [b'none', b'0', b'x', b'0'], World({b'0': one, b'x': b'x'}), b'')
    every = list(not_sheets())
    yield ('not_sheets', 'Every kind of file that is no sheet, around one that is.', [b'not_' + n.encode() for n, _, _ in every] + [b'one'], World({**{b'not_' + n.encode(): d for n, _, d in every}, b'one': one}), b'')
    yield ('apart_alone', 'No file was taken.', [b'none', b'x'], World({b'x': b''}), b'')
    yield ('apart_order', 'Files that are not taken stand in the order given.', [b'x', b'none', b'bad', b'none', b'x', b'0', b'sub', b'bad'], World({b'0': one, b'x': b'x', b'bad': sheet([BLANK, DAMAGED_ROWS['nan']])}, [b'sub']), b'')
    yield ('unreadable', 'A file that may not be read.', [b'0', b'1'], month(one, one, modes={b'0': 0})[1], b'')
    yield ('folder', 'A folder.', [b'sub', b'0'], month(one, folders=[b'sub'])[1], b'')
    yield ('devices', 'Devices.', [b'/dev/null', b'/dev/zero', b'0'], month(one)[1], b'')
    names = [word for _, word in NAMES]
    yield ('names', 'Names of any bytes.', names, World({word: one for word in names}), b'')
    yield ('names_apart', 'The same of files that are no sheets.', names, World({word: b'x' for word in names}), b'')
    yield ('names_unread', 'Names that can\'t be opened.', [word for _, word in NO_NAMES] + names, World({b'day': one}), b'')
    yield ('files_400', '400 files.', [b'0', b'1'] * 200, month(one, sheet([leg(-1.0, OFTEN), refusal(5, 1)]))[1], b'')
    yield ('files_400_apart', '400 files, and none of them a sheet.', [b'0'] * 400, month(b'')[1], b'')
    yield ('files_401', '401 files.', [b'0'] * 401, month(one)[1], b'')
    yield ('files_401_unread', '401 names of nothing.', [b'none'] * 401, World(), b'')
    yield ('files_1000', '1,000 files.', [b'0'] * 1000, month(one)[1], b'')
    most = sheet([leg(LARGEST, OFTEN)] * 1024)
    yield ('largest_month', 'The largest total that a month can have.', [b'0'] * 400, month(most)[1], b'')
    yield ('smallest_month', 'The smallest.', [b'0'] * 400, month(sheet([leg(-LARGEST, OFTEN)] * 1024))[1], b'')
    yield ('largest_but_one', 'The largest, less the smallest step.', [b'0'] * 399 + [b'1'], month(most, sheet([leg(LARGEST, OFTEN)] * 1023 + [leg(-2.0 ** -1074)]))[1], b'')
    yield ('paths', 'Long paths; the longest that can be opened has 4,095 bytes.', [made('dots', 2046), made('dots', 2047)], World({b'day': one}), b'')
    yield ('usage', 'No word.', [], World(), b'')
    yield ('input_unread', 'Standard input plays no part.', *month(one), b'1\nx\n')
    yield ('links', 'A link is read.', [b'link'], World({b'0': one}, links={b'link': b'0'}), b'')


# ---- legdiff OLD NEW

def legdiff():
    def two(a, b, **more): return [b'old', b'new'], World({b'old': a, b'new': b}, **more)
    one, legs = sheet(WHOLE), [leg(1.5), leg(-2.5), BLANK]
    few = sheet(legs)
    def lone(a, b): return two(sheet([BLANK, a]), sheet([BLANK, b]))
    def totals(a, b): return two(sheet([leg(1.5)], total=a), sheet([leg(1.5)], total=b))
    half = MODULUS >> 1
    yield ('same', 'Equal sheets: no row line.', *two(one, one), b'')
    yield ('one_name', 'The same name twice.', [b'old', b'old'], two(one, one)[1], b'')
    yield ('rows_0', 'No rows.', *two(sheet([]), sheet([])), b'')
    yield ('every_row', 'Every row differs.', *two(one, sheet(WHOLE[::-1])), b'')
    yield ('rows_1024', '1,024 rows, of which one differs.', *two(made('mixed', 10, 1024, 3), made('one_changed', 10, 1024, 3, 700)), b'')
    yield ('rows_1024_all', '1,024 rows that differ.', *two(made('mixed', 11, 1024, 3), made('legs', 12, 1024, 3, 2)), b'')
    steps = {'one_step': (1.0, 1.0 + 2.0 ** -52), 'one_step_down': (1.0, 1.0 - 2.0 ** -53), 'zeros': (0.0, -0.0), 'zeros_2': (-0.0, 0.0), 'around_zero': (2.0 ** -1074, -2.0 ** -1074), 'from_minus_zero': (-0.0, 2.0 ** -1074),
             'farthest': (LARGEST, -LARGEST), 'farthest_2': (-LARGEST, LARGEST), 'far': (LARGEST, 0.0), 'negative': (-1.0, -2.0), 'subnormal': (2.0 ** -1022, 2.0 ** -1022 - 2.0 ** -1074), 'above_2_63': (-1.0, LARGEST)}
    for name, (a, b) in steps.items(): yield ('steps_' + name, 'Steps between finite answers: %s.' % name.replace('_', ' '), *lone(leg(a), leg(b)), b'')
    seconds = {'one_apart': (HALF_PI, HALF_PI + 1), 'farthest': (TOP, SIGN + TOP), 'nan': (NAN, HALF_PI), 'nan_2': (HALF_PI, SIGN + PLUS + 1), 'infinite': (PLUS, HALF_PI), 'both_infinite': (PLUS, MINUS), 'two_nans': (NAN, NAN + 1), 'zeros': (0, SIGN)}
    for name, (a, b) in seconds.items(): yield ('second_' + name, 'Second answers, which alone differ: %s.' % name.replace('_', ' '), *lone(row(3, 0, 1, ONE, first=ONE, second=a), row(3, 0, 1, ONE, first=ONE, second=b)), b'')
    kinds = {'blank': BLANK, 'finite': leg(1.5), '+inf': infinite(PLUS), '-inf': infinite(MINUS), 'refused': refusal(5, 1)}
    for a in kinds: yield ('from_' + a.replace('+', 'plus_').replace('-', 'minus_'), 'From %s to every other class.' % a, *two(sheet([kinds[a]] * 5), sheet(list(kinds.values()))), b'')
    yield ('same_class', 'The same class, and not finite.', *two(sheet([row(0, 0, 0, 1), infinite(PLUS), infinite(MINUS), refusal(5, 1), refusal(5, 1)]), sheet([row(0, 3, 9, 2, 3, 4, ONE, NAN), infinite(PLUS, 2), row(1, 0, 1, ONE, first=MINUS), refusal(5, 2), refusal(4, 1)])), b'')
    yield ('refused_with_answers', 'Of refused rows no distance is told, though they hold answers.', *lone(row(4, 4, 1, 1, 1, 1, TOP, TOP), row(4, 4, 1, 1, 1, 1, ONE, ONE)), b'')
    yield ('rest', 'Bytes 4 to 7 alone differ: the line shows the same twice.', *lone(leg(1.5), row(5, 0, 1, pattern(1.5), first=pattern(1.5), rest=1)), b'')
    yield ('times', 'Times alone differ.', *lone(leg(1.5, 0), leg(1.5, OFTEN)), b'')
    yield ('arguments', 'Arguments alone differ, also those that are not used.', *two(sheet([leg(1.5)] * 3), sheet([row(5, 0, 1, TWO, first=pattern(1.5)), row(5, 0, 1, pattern(1.5), SIGN, first=pattern(1.5)), row(5, 0, 1, pattern(1.5), 0, 5, first=pattern(1.5))])), b'')
    yield ('functions', 'Function 1 against function 3.', *lone(plain(), pair()), b'')
    yield ('blank_bytes', 'A blank row with bytes in it.', *lone(BLANK, ODD_ROWS['blank_with_bytes']), b'')
    yield ('says_1_both', 'Two sheets that say 1: times are shown as 1, or 0 for a blank row.', *two(sheet(olds(legs), 1), sheet(olds([leg(1.5), BLANK, leg(7.0)]), 1)), b'')
    yield ('says_1_times', 'Bytes 2 and 3 differ in sheets that say 1: the row is shown, with times 1.', *two(sheet([leg(1.5, 9)], 1), sheet([leg(1.5, 8)], 1)), b'')
    yield ('says_1_and_3', 'Between a sheet that says 1 and one that says 3 each row with times other than 0 differs.', *two(sheet(olds(WHOLE), 1), one), b'')
    yield ('says_3_and_1', 'And the other way.', *two(one, sheet(olds(WHOLE), 1)), b'')
    for name, a, b in [('none', 5, 5), ('one', 5, 6), ('minus_one', 6, 5), ('from_minus_one', -1, 0), ('to_minus_one', 0, -1), ('most', -half, half - 1), ('least', half - 1, -half), ('half', 0, -half), ('past_half', -1, half - 1), ('minus_half', half - 1, -1),
                       ('minus_half_and_1', half - 1, -2), ('large', 1 << 2123, -(1 << 2123)), ('leading', 0, 16 ** 543), ('digits', 0, 0x123456789abcdef << 2000), ('halves', -half, -half), ('below_leading', 1, 1 << 64), ('inner_zeros', 0, (1 << 128) + 1)]:
        yield ('total_' + name, 'The difference of the stored totals: %s.' % name.replace('_', ' '), *totals(a, b), b'')
    yield ('counts_unread', 'Stored counts are not looked at.', *two(sheet([leg(1.5)], counts=(9, 9, 9, 9, 9)), sheet([leg(1.5)], four=3)), b'')
    # refusals in their order
    for name, note, data in not_sheets(): yield ('old_' + name, 'OLD: ' + note, *two(data, few), b'')
    for name, note, data in list(not_sheets())[::4]: yield ('new_' + name, 'NEW: ' + note, *two(few, data), b'')
    yield ('neither', '7 for OLD comes first.', *two(b'x', b'y'), b'')
    yield ('rows_differ', 'The row counts differ.', *two(sheet(legs), sheet(legs[:2])), b'')
    yield ('rows_differ_0', 'No rows against some.', *two(sheet([]), sheet(legs)), b'')
    yield ('7_before_13', '7 comes before 13.', *two(sheet(legs), sheet(legs[:2])[:-1]), b'')
    yield ('13_before_10', '13 comes before 10.', *two(sheet([DAMAGED_ROWS['nan']]), sheet(legs)), b'')
    for name, one_row in DAMAGED_ROWS.items(): yield ('damaged_' + name, 'A row of OLD that the row tests reject.', *two(sheet([leg(1.0), one_row, one_row]), sheet(legs)), b'')
    yield ('damaged_new', 'A row of NEW that the row tests reject.', *two(sheet(legs), sheet([leg(1.0), leg(1.0), DAMAGED_ROWS['function_7']])), b'')
    yield ('damaged_both', 'All rows of OLD are tried before those of NEW.', *two(sheet([leg(1.0), leg(1.0), DAMAGED_ROWS['nan']]), sheet([DAMAGED_ROWS['nan'], leg(1.0), leg(1.0)])), b'')
    yield ('damaged_the_same', 'Also where the rows are equal.', *two(sheet([DAMAGED_ROWS['nan']]), sheet([DAMAGED_ROWS['nan']])), b'')
    # files
    yield ('no_old', 'There is no OLD.', [b'none', b'new'], two(few, few)[1], b'')
    yield ('no_new', 'There is no NEW.', [b'old', b'none'], two(few, few)[1], b'')
    yield ('no_file', 'There is neither.', [b'none', b'nor this'], World(), b'')
    yield ('no_new_and_7', 'Both are read before either is tested.', [b'old', b'none'], two(b'x', few)[1], b'')
    yield ('folder', 'A folder.', [b'old', b'sub'], two(few, few, folders=[b'sub'])[1], b'')
    yield ('unreadable', 'A file that may not be read.', *two(few, few, modes={b'new': 0}), b'')
    for name, word in NAMES: yield ('name_' + name, 'NEW\'s name: %s; it is no sheet.' % name.replace('_', ' '), [b'old', word], World({b'old': few, word: b'x'}), b'')
    yield ('name_damaged', 'A name with spaces behind a row.', [b'a b', b'new'], World({b'a b': sheet([BLANK, DAMAGED_ROWS['nan']]), b'new': sheet([BLANK] * 2)}), b'')
    for name, word in NO_NAMES: yield (name, 'OLD can\'t be read: %s.' % name.replace('_', ' '), [word, b'day'], World({b'day': few}), b'')
    for n, words in enumerate(([], [b'old'], [b'old', b'new', b'old'])): yield ('usage_%d' % len(words), '%d words.' % len(words), words, two(few, few)[1], b'')


# ---- legforth OLD NEW, legback NEW OLD

def conversions(says):
    """Both ways: `says` is what the first file says."""
    def turn(rows): return olds(rows) if says == 1 else [one[:2] + b'\1\0' + one[4:] if one[0] else one for one in rows]
    def made_sheet(rows, **more): return sheet(turn(rows), says, **more)
    def first(data, **more): return [b'day', b'out'], World({b'day': data, b'out': b'what was there'}, **more)
    good, small = made_sheet(WHOLE), made_sheet([leg(1.5), BLANK])
    yield ('classes', 'Every class, every refusal number and function 1.', *first(good), b'')
    yield ('new', 'The second file is new.', [b'day', b'out'], World({b'day': good}), b'')
    yield ('in_place', 'Both names are one.', [b'day', b'day'], World({b'day': good}), b'')
    yield ('in_place_by_another_way', 'Also by another way.', [b'day', b'./day'], World({b'day': good}), b'')
    yield ('rows_0', 'No rows.', *first(made_sheet([])), b'')
    yield ('rows_1', 'One row.', *first(made_sheet([leg(1.5)])), b'')
    yield ('blank', 'Blank rows stay blank.', *first(made_sheet([BLANK] * 3)), b'')
    yield ('rows_1024', '1,024 rows.', *first(made('mixed', 13, 1024, 1) if says == 1 else made('legs', 14, 1024, 3, 1)), b'')
    yield ('ones', 'Rows of function 1.', *first(made_sheet(ONES)), b'')
    yield ('odd_rows', 'Every other byte is carried over as it stands.', *first(made_sheet(list(ODD_ROWS.values()), four=0x01020304)), b'')
    yield ('total', 'The total is carried over, not worked out again.', *first(made_sheet([leg(1.5)], total=-7)), b'')
    yield ('counts', 'So are counts that add up and are not the rows\'.', *first(made_sheet([leg(1.5), leg(2.5), BLANK], counts=(1, 1, 0, 0, 1))), b'')
    yield ('bytes_2_and_3', 'Bytes 2 and 3 of each row are written anew.', *first(sheet([row(0, 0, 300, 7), row(5, 0, 300 if says == 1 else 1, ONE, first=ONE)], says)), b'')
    # refusals in their order
    yield ('other_way', 'It says %d: the other program is for it.' % (4 - says), *first(sheet(olds(WHOLE) if says == 3 else WHOLE, 4 - says)), b'')
    yield ('other_way_damaged', '7 comes before 10.', *first(sheet([DAMAGED_ROWS['nan']], 4 - says)), b'')
    for name, note, data in not_sheets(): yield ('not_' + name, note, *first(data), b'')
    for name, one in DAMAGED_ROWS.items(): yield ('damaged_' + name, 'A row that the row tests reject.', *first(made_sheet([leg(1.0), one, one])), b'')
    yield ('class_0', 'A row whose class counts 0.', *first(made_sheet([leg(1.0), infinite(PLUS), BLANK], counts=(1, 2, 0, 0, 0))), b'')
    yield ('class_0_first', 'It comes before a damaged row behind it.', *first(made_sheet([infinite(PLUS), DAMAGED_ROWS['nan']], counts=(0, 2, 0, 0, 0))), b'')
    yield ('damaged_before_class_0', 'And after one in front.', *first(made_sheet([DAMAGED_ROWS['nan'], infinite(PLUS)], counts=(0, 2, 0, 0, 0))), b'')
    for name, counts in [('more', (0, 3, 0, 0, 0)), ('less', (0, 1, 0, 0, 0)), ('wrap', (0xffffffff, 3, 0, 0, 0)), ('beside', (0, 2, 0, 0, 1))]:
        yield ('counts_' + name, 'Counts that do not add up.', *first(made_sheet([leg(1.5), leg(4.0)], counts=counts)), b'')
    yield ('counts_of_no_rows', 'Counts of a sheet of no rows.', *first(made_sheet([], counts=(1, 0, 0, 0, 0))), b'')
    yield ('counts_after_rows', 'A row is told before the counts.', *first(made_sheet([leg(1.5), DAMAGED_ROWS['nan']], counts=(0, 9, 0, 0, 0))), b'')
    if says == 3:
        for times in (0, 2, 256, 257, OFTEN): yield ('times_%d' % times, 'Times %d can\'t go back.' % times, *first(sheet([leg(1.5), BLANK, leg(2.5, times), leg(3.5, 9)])), b'')
        yield ('times_refused', 'Nor of a refused row.', *first(sheet([refusal(5, 1, times=2)])), b'')
        yield ('times_infinite', 'Nor of an infinite one, also never driven.', *first(sheet([infinite(MINUS, 0)])), b'')
        yield ('times_blank', 'Times of a blank row are no matter.', *first(sheet([row(0, 0, 7), leg(1.5)])), b'')
        yield ('counts_before_times', '10 comes before 17.', *first(sheet([leg(1.5, 2)], counts=(0, 2, 0, 0, 0))), b'')
        yield ('row_before_times', 'Also for a later row.', *first(sheet([leg(1.5, 2), DAMAGED_ROWS['nan']])), b'')
    # files
    yield ('missing', 'There is no first file.', [b'none', b'out'], first(small)[1], b'')
    yield ('folder_first', 'The first is a folder.', [b'sub', b'out'], first(small, folders=[b'sub'])[1], b'')
    yield ('folder_second', 'The second is a folder.', [b'day', b'sub'], first(small, folders=[b'sub'])[1], b'')
    yield ('refused_and_folder', 'A refusal is told before the second file is tried.', [b'x', b'sub'], World({b'x': b'x'}, [b'sub']), b'')
    yield ('unreadable', 'The first may not be read.', *first(small, modes={b'day': 0}), b'')
    yield ('unreadable_second', 'The second need not be readable.', *first(small, modes={b'out': 0}), b'')
    yield ('read_only_folder', 'The folder may not be written.', *first(small, modes={b'.': 0o555}), b'')
    yield ('in_folder', 'The second is in another folder.', [b'day', b'sub/out'], World({b'day': small, b'out': b'1'}, [b'sub']), b'')
    yield ('writes_beside_it', 'The folder that it runs in may not be written, and the second file\'s may.', [b'day', b'sub/out'], World({b'day': small}, [b'sub'], modes={b'.': 0o555}), b'')
    yield ('link_first', 'The first is a link.', [b'link', b'out'], World({b'day': small}, links={b'link': b'day'}), b'')
    yield ('link_second', 'The second is a link to the first: it is a file afterwards, and the first is as it was.', [b'day', b'link'], World({b'day': small}, links={b'link': b'day'}), b'')
    for name, word in NAMES: yield ('name_' + name, 'Both names: %s.' % name.replace('_', ' '), [word, word[:-1] + b'2'], World({word: small}), b'')
    for name, word in NO_NAMES: yield ('first_' + name, 'The first can\'t be read: %s.' % name.replace('_', ' '), [word, b'out'], World({b'day': small}), b'')
    for name, word in NO_NAMES: yield ('second_' + name, 'The second can\'t be written: %s.' % name.replace('_', ' '), [b'day', word], World({b'day': small}), b'')
    for words in ([], [b'day'], [b'day', b'out', b'out']): yield ('usage_%d' % len(words), '%d words.' % len(words), words, first(small)[1], b'')


def runs():
    """Every stored run."""
    for program, listed in [('legsheet', legsheet()), ('legfix', legfix()), ('legrounds', legrounds()), ('legmonth', legmonth()), ('legdiff', legdiff()), ('legforth', conversions(1)), ('legback', conversions(3))]:
        for name, note, words, world, given in listed:
            yield Run(program + '_' + name, note, program, words, world, given if isinstance(given, Input) else Input(given))
