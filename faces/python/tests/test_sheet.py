"""The sheet: the model's whole script of calls, damage, files, and what Python adds."""
import copy
import os
import pickle
import random
import re
import struct
import tempfile
import unittest
from ctypes import c_uint8
from fractions import Fraction
from pathlib import Path
from unittest import mock

from shuttlemint import Class, Counts, Refusal, Refused, Sheet, pattern, value
from shuttlemint._library import library

from .patterns import NAN, PLUS, PROJECT, SIGN, any_pattern, sheet_model


def refusal_of(call, *arguments):
    try:
        call(*arguments)
        return 0
    except Refused as refused:
        return refused.number


def lent(data):
    return (c_uint8 * len(data)).from_buffer(data), len(data)


class Replay:
    """Replays a script of oracle/sheet_model.py: a buffer that is a sheet through `Sheet`, any other through the library's own calls."""

    def __init__(self, test):
        self.test, self.data, self.aside, self.calls = test, bytearray(), b"", 0

    def sheet(self):
        try:
            return Sheet.from_bytes(self.data)
        except Refused as refused:
            self.test.assertEqual(refused.number, 7)
            return None

    def edit(self, row, function, a, b, c, times):
        sheet = self.sheet()
        if sheet is None:
            return library.sm_edit(*lent(self.data), row, function, a, b, c, times)
        answer = refusal_of(sheet.edit_patterns, row, function, a, b, c, times)
        if answer:
            self.test.assertEqual(sheet.to_bytes(), self.data)
        self.data = bytearray(sheet.to_bytes())
        return answer

    def clear(self, row):
        sheet = self.sheet()
        if sheet is None:
            return library.sm_edit(*lent(self.data), row, 0, 0, 0, 0, 0)
        answer = refusal_of(sheet.clear, row)
        self.data = bytearray(sheet.to_bytes())
        return answer

    def make(self, rows):
        answer = library.sm_blank(*lent(self.data), rows)
        made = refusal_of(Sheet, rows)
        self.test.assertEqual(made, 11 if rows > 1024 else 0)
        if answer == 0:
            self.test.assertEqual(Sheet(rows).to_bytes(), self.data)
        return answer

    def read(self, row):
        sheet = self.sheet()
        if sheet is None:
            at = library.sm_row_at(*lent(self.data), row)
            self.test.assertEqual(at, len(self.data))
            return library.sm_row_refusal(*lent(self.data), row), b""
        try:
            read = sheet.row(row)
        except Refused as refused:
            return refused.number, b""
        place = 32 + 48 * row
        self.test.assertEqual((read.function, read.refusal), (self.data[place], self.data[place + 1]))
        return 0, bytes([read.function, read.refusal]) + self.data[place + 2 : place + 8] + struct.pack("<5Q", *read.patterns)

    def times(self, row):
        sheet = self.sheet()
        try:
            return sheet.row(row).times if sheet else library.sm_row_times(*lent(self.data), row)
        except Refused:
            return 0

    def line(self, words):
        test, what, numbers = self.test, words[0], [int(w, 16) if w != "-" else 0 for w in words[1:]]
        if what == "L":
            self.data = bytearray([numbers[1]]) * numbers[0]
        elif what == "M":
            test.assertEqual(self.make(numbers[0]), numbers[1])
        elif what == "E":
            test.assertEqual(self.edit(*numbers[:6]), numbers[6])
        elif what == "C":
            test.assertEqual(self.clear(numbers[0]), numbers[1])
        elif what == "P":
            self.data[numbers[0]] = numbers[1]
        elif what == "R":
            test.assertEqual(self.read(numbers[0]), (numbers[1], b"" if words[3] == "-" else bytes.fromhex(words[3])))
        elif what == "K":
            test.assertEqual(self.times(numbers[0]), numbers[1])
        elif what == "T":
            sheet = self.sheet()
            test.assertEqual((7, 0) if sheet is None else (0, pattern(sheet.total())), tuple(numbers))
        elif what == "N":
            sheet = self.sheet()
            test.assertEqual(sheet.counts()[numbers[0]] if sheet and numbers[0] < 5 else 0, numbers[1])
        elif what == "D":
            self.aside = bytes(self.data)
        elif what == "B":
            test.assertEqual(self.data, self.aside)
        else:
            test.assertEqual(int.from_bytes(self.data, "big") % ((1 << 55) - 55), numbers[0])
        self.calls += what != "L"


class Model(unittest.TestCase):
    def test_the_models_script(self):
        model, replay = sheet_model(), Replay(self)
        model.script(random.Random(16))
        for line in model.out:
            replay.line(line.split(" "))
        self.assertGreater(replay.calls, 10000)

    def test_bytes_are_those_worked_out_afresh(self):
        """Demand 3: any edits in any order give the bytes of the last one of each row."""
        rng = random.Random(3)
        for rows in (1, 7, 40):
            edits = [(rng.randrange(rows), rng.choice([0, 2, 3, 4, 5, 6]), any_pattern(rng), any_pattern(rng), any_pattern(rng), rng.randrange(1 << 16)) for _ in range(4 * rows)]
            sheet, last = Sheet(rows), {}
            for edit in edits:
                sheet.edit_patterns(*edit)
                last[edit[0]] = edit
            again = Sheet(rows)
            for edit in sorted(last.values(), reverse=True):
                again.edit_patterns(*edit)
            self.assertEqual(sheet, again)
            counts = [0] * 5
            for row in sheet:
                counts[row.class_] += 1
            self.assertEqual(sheet.counts(), Counts(*counts))
            self.assertEqual(sheet.exact_total(), sum(row.times * Fraction(row.answers[0]) for row in sheet if row.class_ == Class.FINITE))


class Refusals(unittest.TestCase):
    def test_7_to_11_and_22(self):
        sheet = Sheet(2)
        before = sheet.to_bytes()
        self.assertEqual(refusal_of(Sheet.from_bytes, before[1:]), Refusal.NOT_A_SHEET)
        for row in (2, 1 << 31, (1 << 32) - 1, 1 << 32, (1 << 32) + 1, -1):
            self.assertEqual(refusal_of(sheet.edit, row, 3, 0.5), Refusal.NO_SUCH_ROW)
            self.assertEqual(refusal_of(sheet.edit, row, 1, 0.5), Refusal.NO_SUCH_ROW)
            self.assertEqual(refusal_of(sheet.row, row), Refusal.NO_SUCH_ROW)
            self.assertEqual(refusal_of(sheet.clear, row), Refusal.NO_SUCH_ROW)
        for function in (7, 255, 256, 257, -1):
            self.assertEqual(refusal_of(sheet.edit, 0, function), Refusal.NO_SUCH_FUNCTION)
        for function in (1, "ellipk"):
            self.assertEqual(refusal_of(sheet.edit, 0, function, 0.5), Refusal.WITHDRAWN_FUNCTION)
        for rows in (1025, 1 << 32, (1 << 32) + 1, -1):
            self.assertEqual(refusal_of(Sheet, rows), Refusal.TOO_MANY_ROWS)
        self.assertEqual(sheet.to_bytes(), before)
        self.assertEqual(len(Sheet(1024)), 1024)
        damaged = Sheet.from_bytes(before[:32] + b"\x09" + before[33:])
        before = damaged.to_bytes()
        self.assertEqual(refusal_of(damaged.edit, 0, 3, 0.5), Refusal.DAMAGED)
        self.assertEqual(refusal_of(damaged.edit, 0, 1, 0.5), Refusal.WITHDRAWN_FUNCTION)
        self.assertEqual(refusal_of(damaged.clear, 0), Refusal.DAMAGED)
        self.assertEqual(damaged.to_bytes(), before)
        self.assertEqual((damaged.row(0).name, damaged.row(0).class_), ("function 9", Class.FINITE))

    def test_lengths_and_contents(self):
        good = Sheet(1).to_bytes()
        for length in (0, 1, 31, 32, 327, 328, 375, 377, 424, 49480, 49481, 49528):
            data = (good + bytes(50000))[:length]
            self.assertEqual(refusal_of(Sheet.from_bytes, data), 7, length)
        for place in range(32):
            data = bytearray(good)
            data[place] ^= 1
            self.assertEqual(refusal_of(Sheet.from_bytes, data), 7, place)

    def test_a_sheet_that_says_1_is_only_read(self):
        sheet = Sheet(3)
        sheet.edit(0, "ellipeinc", -1.5, 0.0)
        sheet.edit(1, "ellippi", 1.0, 1.0)
        self.assertTrue(sheet.keeps_times)
        data = bytearray(sheet.to_bytes())
        data[0] = 1
        for place in (34, 82):
            self.assertEqual(data[place], 1)
            data[place] = 0
        for anything in (0, 0x55):
            data[34] = data[35] = data[82] = data[130] = anything
            old = Sheet.from_bytes(data)
            self.assertEqual((old.keeps_times, [row.times for row in old], old.total(), old.counts()), (False, [1, 1, 0], -1.5, Counts(1, 1, 0, 0, 1)))
            for call in ((old.edit, 0, "ellipke", 0.5), (old.edit, 9, 200), (old.edit_patterns, 0, 1), (old.clear, 0), (old.clear, 9)):
                self.assertEqual(refusal_of(*call), Refusal.NOT_A_SHEET)
            self.assertEqual(old.to_bytes(), data)
        with self.assertRaisesRegex(Refused, "Sheet.edit of row 0: refusal 7: .* an old one without times is only read"):
            old.edit(0, "ellipke", 0.5)
        for says in set(range(256)) - {1, 3}:
            data[0] = says
            self.assertEqual(refusal_of(Sheet.from_bytes, data), Refusal.NOT_A_SHEET)

    def test_forth_and_back(self):
        sheet = Sheet(3)
        sheet.edit(0, "ellipeinc", -1.5, 0.0)
        sheet.edit(1, "ellippi", 1.0, 1.0)
        new = sheet.to_bytes()
        old = bytearray(new)
        old[0] = 1
        old[34] = old[82] = 0
        sheet.back()
        self.assertEqual((sheet.to_bytes(), sheet.keeps_times, sheet.total()), (bytes(old), False, -1.5))
        self.assertEqual(refusal_of(sheet.back), Refusal.NOT_A_SHEET)
        sheet.forth()
        self.assertEqual((sheet.to_bytes(), sheet.keeps_times), (new, True))
        self.assertEqual(refusal_of(sheet.forth), Refusal.NOT_A_SHEET)
        sheet.edit(1, "ellippi", 1.0, 1.0, times=0)
        before = sheet.to_bytes()
        with self.assertRaisesRegex(Refused, "Sheet.back of row 1: refusal 17: "):
            sheet.back()
        self.assertEqual(sheet.to_bytes(), before)
        for place, about in ((32, "of row 0"), (32 + 3 * 48 + 16, "of row 1"), (32 + 3 * 48, "of the counts")):
            damaged = bytearray(before)
            damaged[place] = 9 if place == 32 else damaged[place] ^ (1 if place % 48 == 0 else 2)
            damaged[32 + 48 + 2] = 1
            if about == "of row 1":
                damaged[place] = 0
            with self.assertRaisesRegex(Refused, f"Sheet.back {about}: refusal 10: "):
                Sheet.from_bytes(damaged).back()

    def test_a_row_of_function_1_stands(self):
        """It was entered before the function went out: F(π/2, 0) has K(0)'s bits, and K reads one argument."""
        sheet = Sheet(2)
        sheet.edit(0, "ellipf", value(0x3FF921FB54442D18), 0.0, times=3)
        sheet.edit(1, "ellipe", 1.0)
        data = bytearray(sheet.to_bytes())
        data[32], data[40:48] = 1, bytes(8)
        stands = Sheet.from_bytes(data)
        row = stands.row(0)
        self.assertEqual((row.name, row.times, row.answers[0], stands.counts()), ("ellipk", 3, value(0x3FF921FB54442D18), Counts(0, 2, 0, 0, 0)))
        self.assertEqual((refusal_of(stands.edit, 0, 1, 0.0), refusal_of(stands.edit, 1, "ellipk", 0.0), refusal_of(stands.edit, 2, 1, 0.0)), (22, 22, 8))
        self.assertEqual(stands.to_bytes(), data)
        stands.edit(1, "blank")
        self.assertEqual(stands.exact_total(), 3 * Fraction(row.answers[0]))
        stands.edit(0, "ellipke", 1.0)
        self.assertEqual((stands.row(0).class_, stands.exact_total()), (Class.PLUS_INFINITY, 0))
        again = Sheet.from_bytes(data)
        again.clear(0)
        self.assertEqual(again.total(), 1.0)

    def test_damaged_rows_are_shown(self):
        data = bytearray(Sheet(1).to_bytes())
        data[32:34] = 5, 200
        data[64:72] = struct.pack("<Q", NAN + 1)
        row = Sheet.from_bytes(data).row(0)
        self.assertEqual((row.refusal, row.class_, row.patterns[3]), (200, Class.REFUSED, NAN + 1))
        self.assertIn("damaged", row.words)
        data[33] = 0
        self.assertIsNone(Sheet.from_bytes(data).row(0).class_)

    def test_arguments_are_counted(self):
        sheet = Sheet(1)
        for call in (("ellipeinc", 1.0), ("ellipk",), ("ellippi", 1.0, 2.0, 3.0, 4.0)):
            with self.assertRaisesRegex(TypeError, "reads . argument"):
                sheet.edit(0, *call)
        with self.assertRaisesRegex(ValueError, "no function has the name 'ellipj'; there are blank, ellipk"):
            sheet.edit(0, "ellipj", 1.0)
        with self.assertRaisesRegex(TypeError, "must be real numbers"):
            sheet.edit(0, "ellipke", "0.5")
        with self.assertRaises(TypeError):
            sheet.edit(0.0, "ellipke", 0.5)
        self.assertEqual(sheet, Sheet(1))


class Calls(unittest.TestCase):
    def test_the_sheet_of_the_documents_bytes(self):
        """docs/SHEET.md's sheet of two rows: its dump is what the library makes."""
        sheet = Sheet(2)
        sheet.edit(0, 5, -1.5, 0.0, 7.0, times=1000)
        sheet.edit(1, 4, 1.0, 1.0, times=2)
        data = sheet.to_bytes()
        dump = (PROJECT / "docs/SHEET.md").read_text().split("## A sheet of two rows, byte by byte")[1].split("```")[1]
        places = []
        for place, shown in re.findall(r"^([0-9a-f]{4})  ((?:[0-9a-f]{2} )*[0-9a-f]{2})(?:  |$)", dump, re.M):
            at, shown = int(place, 16), bytes.fromhex(shown)
            self.assertEqual(data[at : at + len(shown)], shown, place)
            places += range(at, at + len(shown))
        between = [byte for place, byte in enumerate(data) if place not in places]
        self.assertEqual(between, [0] * 0x70 + [0xFF] * 0x70)
        self.assertEqual((len(data), sheet.total(), sheet.exact_total()), (424, -1500.0, -1500))
        self.assertEqual([row.times for row in sheet], [1000, 2])

    def test_times(self):
        sheet = Sheet(2)
        for times in (65535, 0, 1, 255, 256):
            row = sheet.edit(0, "ellipeinc", -1.5, 0.0, times=times)
            self.assertEqual((row.times, row.class_, sheet.total()), (times, Class.FINITE, -1.5 * times))
            self.assertEqual(sheet.to_bytes()[34:40], struct.pack("<HI", times, 0))
        self.assertEqual(sheet.edit(0, "ellipeinc", -1.5, 0.0).times, 1)
        self.assertEqual((sheet.edit(0, "ellippi", 1.0, 0.5, times=7).times, sheet.edit(1, "ellipke", 1.0, times=8).times, sheet.total()), (7, 8, 0.0))
        self.assertEqual((sheet.edit(0, "blank", times=9).times, sheet.edit(1, 0, times=9).times, sheet), (0, 0, Sheet(2)))
        for times in (65536, 1 << 16 | 1, 1 << 64, -1):
            with self.assertRaisesRegex(ValueError, "give 0 to 65535"):
                sheet.edit(0, "ellipke", 0.5, times=times)
        with self.assertRaises(TypeError):
            sheet.edit(0, "ellipke", 0.5, times=2.0)
        self.assertEqual(sheet, Sheet(2))

    def test_names_numbers_and_patterns_are_one(self):
        sheets = [Sheet(1), Sheet(1), Sheet(1), Sheet(1)]
        sheets[0].edit(0, "ellipf", 0.5, 0.25)
        sheets[1].edit(0, "ellipkinc", 0.5, 0.25)
        sheets[2].edit(0, 6, 0.5, 0.25, 9.0)
        sheets[3].edit_patterns(0, 6, pattern(0.5), pattern(0.25), NAN)
        self.assertEqual([sheet.to_bytes() for sheet in sheets], [sheets[0].to_bytes()] * 4)

    def test_a_nan_goes_in_as_it_is(self):
        row = Sheet(1).edit_patterns(0, 3, SIGN + PLUS + 5)
        self.assertEqual((row.patterns[0], row.refusal, row.class_), (SIGN + PLUS + 5, 1, Class.REFUSED))

    def test_clearing_restores_the_bytes(self):
        sheet = Sheet(3)
        sheet.edit(1, "ellipke", 0.5)
        self.assertNotEqual(sheet, Sheet(3))
        sheet.clear(1)
        self.assertEqual(sheet, Sheet(3))

    def test_copies_are_apart(self):
        sheet = Sheet(1)
        source = bytearray(sheet.to_bytes())
        others = [Sheet.from_bytes(source), copy.copy(sheet), copy.deepcopy(sheet), pickle.loads(pickle.dumps(sheet))]
        source[0] = 9
        sheet.edit(0, "ellipke", 0.5)
        for other in others:
            self.assertEqual(other, Sheet(1))
        self.assertNotEqual(sheet, "a sheet")
        with self.assertRaises(TypeError):
            hash(sheet)
        self.assertEqual(repr(Sheet(1)), "<Sheet of 1 rows: 1 blank, 0 finite, 0 plus_infinity, 0 minus_infinity, 0 refused; total 0.0>")

    def test_answers_and_classes(self):
        sheet = Sheet(5)
        sheet.edit(1, "ellipke", 1.0)
        sheet.edit(2, "ellippi", 2.0, 1.0)
        sheet.edit(3, "ellipe", value(NAN))
        sheet.edit(4, "ellipe", 1.0)
        self.assertEqual([row.class_ for row in sheet], [Class.BLANK, Class.PLUS_INFINITY, Class.MINUS_INFINITY, Class.REFUSED, Class.FINITE])
        self.assertEqual(sheet.counts(), Counts(1, 1, 1, 1, 1))
        self.assertEqual(sheet.row(1).answers, (float("inf"), 1.0))
        self.assertEqual(sheet.row(4).arguments, (1.0, 0.0, 0.0))


class Files(unittest.TestCase):
    def setUp(self):
        folder = tempfile.TemporaryDirectory()
        self.addCleanup(folder.cleanup)
        self.folder = Path(folder.name)
        self.file = self.folder / "a leg's.sheet"

    def test_there_and_back(self):
        sheet = Sheet(1024)
        sheet.edit(1023, "ellipeinc", 1.0, 0.5)
        sheet.save(self.file)
        self.assertEqual(self.file.read_bytes(), sheet.to_bytes())
        self.assertEqual(Sheet.load(str(self.file)), sheet)
        self.assertEqual(os.listdir(self.folder), [self.file.name])
        Sheet(0).save(self.file)
        self.assertEqual(len(Sheet.load(self.file)), 0)

    def test_a_name_without_a_folder(self):
        before = os.getcwd()
        os.chdir(self.folder)
        self.addCleanup(os.chdir, before)
        Sheet(1).save("legs")
        self.assertEqual(Sheet.load("legs"), Sheet(1))

    def test_the_mode_is_the_umasks(self):
        before = os.umask(0o027)
        self.addCleanup(os.umask, before)
        Sheet(1).save(self.file)
        self.assertEqual(self.file.stat().st_mode & 0o777, 0o640)

    def test_old_or_whole(self):
        """Whatever fails on the way, the name holds the old bytes and nothing is left behind."""
        Sheet(1).save(self.file)
        old = self.file.read_bytes()
        for step in ("fsync", "replace"):
            with mock.patch.object(os, step, side_effect=OSError(28, "No space left on device")):
                with self.assertRaises(OSError):
                    Sheet(2).save(self.file)
            self.assertEqual((self.file.read_bytes(), os.listdir(self.folder)), (old, [self.file.name]))
        with self.assertRaises(OSError):
            Sheet(2).save(self.folder / "no such folder" / "legs")
        with self.assertRaises(OSError):
            Sheet(2).save(self.folder)
        self.assertEqual(os.listdir(self.folder), [self.file.name])

    def test_no_sheet_in_the_file(self):
        for data in (b"", b"x", Sheet(1).to_bytes() + b"\0", bytes(60000)):
            self.file.write_bytes(data)
            self.assertEqual(refusal_of(Sheet.load, self.file), 7)
        with self.assertRaises(FileNotFoundError):
            Sheet.load(self.folder / "none")
