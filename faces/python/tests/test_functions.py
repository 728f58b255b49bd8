"""The integrals: the stored lists, the answers that the rules name, every kind of pattern, random ones, refusals, shapes."""
import array
import decimal
import fractions
import math
import pickle
import random
import re
import subprocess
import tempfile
import unittest
from pathlib import Path

import shuttlemint
from shuttlemint import Masked, Refusal, Refused, pattern, value
from shuttlemint._library import FUNCTIONS

from .patterns import KINDS, NAN, ONE, PROJECT, any_pattern, is_nan, sheet_model

LAST = len(FUNCTIONS) - 1
PUBLIC = {1: shuttlemint.ellipk, 2: shuttlemint.ellipe, 3: shuttlemint.ellipke, 4: shuttlemint.ellippi, 5: shuttlemint.ellipeinc, 6: shuttlemint.ellipf}
MODEL = sheet_model()


def by_number(function, a, b=0, c=0):
    """Refusal and answers, from what Python's call gives or raises."""
    try:
        return 0, *shuttlemint.evaluate(function, a, b, c)
    except Refused as refused:
        return refused.number, 0, 0


class Stored(unittest.TestCase):
    def test_complete_integrals_bit_for_bit(self):
        lines = (PROJECT / "crates/vectors/data/complete.txt").read_text().split("\n")[:-1]
        self.assertGreater(len(lines), 3000)
        for line in lines:
            words = [int(word, 16) for word in line.split()]
            function, refusal = words[0] >> 8, words[0] & 255
            expected = (refusal, *words[4:6])
            self.assertEqual(by_number(function, words[1], words[2], words[3]), expected, line)

    def test_incomplete_integrals_near_the_references(self):
        for function in (4, 5, 6):
            lines = (PROJECT / f"crates/vectors/data/{FUNCTIONS[function][0]}.txt").read_text().split("\n")[:-1]
            self.assertEqual(len(lines), 1000)
            a, b, reference = zip(*([value(int(word, 16)) for word in line.split()] for line in lines))
            for x, y in zip(PUBLIC[function](list(a), list(b)), reference):
                self.assertLessEqual(abs(x - y), 2.0**-36 * abs(y))


class Named(unittest.TestCase):
    """Against the answers that 01 and 02 name, which the model holds."""

    def agree(self, function, a, b):
        got = by_number(function, a, b)
        named = MODEL.evaluate(function, a, b) if function <= LAST else (9, 0, 0)
        if named is not None:
            self.assertEqual(got, tuple(named), f"{function} {a:016x} {b:016x}")
        refusal, first, second = got
        self.assertIn(refusal, (0, 1, 2, 3, 4, 5, 6) if function <= LAST else (9,))
        self.assertFalse(is_nan(first) or is_nan(second))
        return got

    def test_every_kind_of_pattern(self):
        for function in range(LAST + 3):
            for a in KINDS:
                for b in KINDS if function > 3 else (0, NAN):
                    self.agree(function, a, b)

    def test_random_patterns_and_what_each_way_of_calling_gives(self):
        rng = random.Random(16)
        met = set()
        for _ in range(20_000):
            function, a, b = rng.randrange(1, LAST + 1), any_pattern(rng), any_pattern(rng)
            refusal, first, second = self.agree(function, a, b)
            met.add(refusal)
            call = PUBLIC[function]
            arguments = [value(a), value(b)][: len(FUNCTIONS[function][1])]
            expected = (value(first), value(second)) if function == 3 else value(first)
            masked = call(*arguments, refused="mask")
            self.assertEqual(masked.mask, refusal)
            if refusal:
                self.assertTrue(all(math.isnan(x) for x in (masked.values if function == 3 else [masked.values])))
                with self.assertRaises(Refused) as raised:
                    call(*arguments)
                self.assertEqual(raised.exception.number, refusal)
            else:
                self.assertEqual(masked.values, expected)
                self.assertEqual(call(*arguments), expected)
        self.assertEqual(met, {0, 1, 2, 3, 4, 5, 6})

    def test_corners_of_the_order(self):
        inf = math.inf
        self.assertEqual(shuttlemint.ellipke(1.0), (inf, 1.0))
        self.assertEqual(shuttlemint.ellipke(-inf), (0.0, inf))
        self.assertEqual(shuttlemint.ellippi(2.0, 1.0), -inf)
        self.assertEqual(shuttlemint.ellippi(0.5, 1.0), inf)
        self.assertEqual(pattern(shuttlemint.ellipeinc(0.0, math.nan)), 0)
        self.assertEqual(shuttlemint.ellipeinc(2.0**-1000, -inf), inf)
        self.assertEqual(shuttlemint.ellipeinc(-(2.0**-1074), -inf), -inf)
        self.assertEqual(shuttlemint.ellipeinc(inf, math.nan), inf)
        self.assertLess(shuttlemint.ellipeinc(2.0**1023, 1.0), inf)
        self.assertEqual(shuttlemint.ellipf(2.0**52 + 1, -inf, refused="mask").mask, 6)
        self.assertAlmostEqual(shuttlemint.ellippi(0.5, 0.5), 2.7012877620953506, delta=2.0**-36)
        self.assertAlmostEqual(shuttlemint.ellipeinc(math.pi / 4, 0.5), 0.7481865041776612, delta=2.0**-36)


class AgainstC(unittest.TestCase):
    """The same calls from a C program over the header and the archive."""

    PROGRAM = """
        #include "shuttlemint.h"
        #include <inttypes.h>
        #include <stdio.h>
        int main(void)
        {
            unsigned function;
            uint64_t a, b, c, out[2];
            while (scanf("%u %" SCNx64 " %" SCNx64 " %" SCNx64, &function, &a, &b, &c) == 4) {
                int refusal = sm_evaluate((uint8_t)function, a, b, c, out, 2);
                printf("%d %" PRIx64 " %" PRIx64 "\\n", refusal, out[0], out[1]);
            }
            return 0;
        }
    """

    def test_bit_for_bit(self):
        rng = random.Random(17)
        calls = [(rng.randrange(LAST + 2), any_pattern(rng), any_pattern(rng), any_pattern(rng)) for _ in range(20_000)]
        with tempfile.TemporaryDirectory() as folder:
            program = Path(folder, "calls")
            archive = PROJECT / "target/staticlib/libshuttlemint.a"
            subprocess.run(["gcc", "-x", "c", "-", "-x", "none", f"-I{PROJECT / 'faces/c'}", str(archive), "-o", str(program)], input=self.PROGRAM, text=True, check=True)
            lines = "".join("%d %x %x %x\n" % call for call in calls)
            said = subprocess.run([str(program)], input=lines, capture_output=True, text=True, check=True).stdout.splitlines()
        self.assertEqual(len(said), len(calls))
        for call, line in zip(calls, said):
            refusal, first, second = line.split()
            self.assertEqual(by_number(*call), (int(refusal), int(first, 16), int(second, 16)), call)


class Refusals(unittest.TestCase):
    CALLS = {
        1: lambda: shuttlemint.ellipk(math.nan),
        2: lambda: shuttlemint.ellipe(1.5),
        3: lambda: shuttlemint.ellipeinc(1.0, 2.0),
        4: lambda: shuttlemint.ellippi(1.0, 0.5),
        5: lambda: shuttlemint.ellippi(2.0, -(2.0**683)),
        6: lambda: shuttlemint.ellipf(2.0**52 + 1, -math.inf),
        9: lambda: shuttlemint.evaluate(LAST + 1),
    }

    def test_each_number_with_its_words(self):
        for number, call in self.CALLS.items():
            with self.assertRaises(Refused) as raised:
                call()
            self.assertEqual(raised.exception.number, Refusal(number))
            self.assertIn(f"refusal {number}: {shuttlemint.refusal_words(number)}", str(raised.exception))
            self.assertIsInstance(raised.exception, ValueError)

    def test_words_are_those_of_the_rust_crate(self):
        source = (PROJECT / "faces/rust/src/refusal.rs").read_text()
        words = {int(n): text for n, text in re.findall(r'^\s*(\d+) => "(.*)",$', source, re.M)}
        self.assertEqual({n: shuttlemint.refusal_words(n) for n in words}, words)
        self.assertEqual([r.value for r in Refusal], sorted(words))
        self.assertIn(f'_ => "{shuttlemint.refusal_words(200)}"', source)

    def test_names_are_those_of_the_header(self):
        source = (PROJECT / "faces/c/shuttlemint.h").read_text()
        numbers = dict(re.findall(r"\b(SM_[A-Z_]+) = (\d+)", source))
        for refusal in Refusal:
            self.assertEqual(numbers.pop("SM_" + refusal.name), str(refusal.value))
        for number, (name, _, _) in enumerate(FUNCTIONS):
            self.assertEqual(numbers.pop("SM_" + name.upper()), str(number))
        self.assertEqual(numbers, {})

    def test_the_first_refused_element_is_named(self):
        with self.assertRaises(Refused) as raised:
            shuttlemint.ellippi([[0.0, 0.5], [0.25, 1.0]], [[0.5, 0.5], [0.5, 0.5]])
        self.assertEqual(raised.exception.index, (1, 1))
        self.assertTrue(str(raised.exception).startswith("ellippi(1.0, 0.5) at [1, 1]: refusal 4: "))

    def test_it_can_be_pickled(self):
        refused = Refused(4, "ellippi(1.0, 0.5)", (3,))
        again = pickle.loads(pickle.dumps(refused))
        self.assertEqual((again.number, again.index, str(again)), (4, (3,), str(refused)))


class Shapes(unittest.TestCase):
    def test_sequences_of_all_sorts(self):
        expected = [shuttlemint.ellipk(m) for m in (0.0, 0.25, 0.5)]
        for given in ([0.0, 0.25, 0.5], (0.0, 0.25, 0.5), array.array("d", [0.0, 0.25, 0.5]), memoryview(array.array("d", [0.0, 0.25, 0.5])), array.array("f", [0.0, 0.25, 0.5])):
            self.assertEqual(shuttlemint.ellipk(given), expected)
        self.assertEqual(shuttlemint.ellipk(range(-2, 1)), [shuttlemint.ellipk(m) for m in (-2.0, -1.0, 0.0)])
        self.assertEqual(shuttlemint.ellipk([]), [])
        self.assertEqual(shuttlemint.ellipke([]), ([], []))
        self.assertEqual(shuttlemint.ellipk([[], [0.5, [0.25]]]), [[], [expected[2], [expected[1]]]])

    def test_numbers_of_all_sorts(self):
        half = shuttlemint.ellipk(0.5)
        self.assertEqual(shuttlemint.ellipk(fractions.Fraction(1, 2)), half)
        self.assertEqual(shuttlemint.ellipk(decimal.Decimal("0.5")), half)
        self.assertEqual(shuttlemint.ellipk(0), math.pi / 2)
        self.assertEqual(shuttlemint.ellipk(True), math.inf)
        self.assertIs(type(shuttlemint.ellipk(0)), float)

    def test_a_single_number_goes_with_every_element(self):
        one = [shuttlemint.ellipeinc(phi, -0.5) for phi in (1.0, 2.0)]
        self.assertEqual(shuttlemint.ellipeinc([1.0, 2.0], -0.5), one)
        self.assertEqual(shuttlemint.ellipeinc([[1.0], [2.0]], [-0.5, -0.5]), [[x] for x in one])
        self.assertEqual(shuttlemint.ellipeinc(1.0, [-0.5, -0.5]), [one[0], one[0]])

    def test_names_of_arguments(self):
        self.assertEqual(shuttlemint.ellipkinc(m=0.5, phi=1.0), shuttlemint.ellipf(1.0, 0.5))
        self.assertEqual(shuttlemint.ellippi(m=0.5, n=0.25), shuttlemint.ellippi(0.25, 0.5))

    def test_the_mask_has_the_shape_of_the_values(self):
        values, mask = shuttlemint.ellipke([[0.5, 2.0], [math.nan]], refused="mask")
        self.assertEqual(mask, [[0, 2], [1]])
        for part in values:
            self.assertEqual([[math.isnan(x) for x in row] for row in part], [[False, True], [True]])
        self.assertIsInstance(shuttlemint.ellipk(0.5, refused="mask"), Masked)

    def test_what_is_no_number_is_named(self):
        for given in ("0.5", b"0.5", bytearray(8), None, {0.5: 1}, {0.5}, 1j, iter([0.5]), [[0.5], "x"], object()):
            with self.assertRaisesRegex(TypeError, "ellipk: m must be a real number"):
                shuttlemint.ellipk(given)
        with self.assertRaisesRegex(TypeError, "make a list of it"):
            shuttlemint.ellipk(x for x in [0.5])
        with self.assertRaisesRegex(ValueError, "sequences of 2 and 3 elements do not fit together"):
            shuttlemint.ellippi([0.1, 0.2], [0.1, 0.2, 0.3])
        with self.assertRaisesRegex(ValueError, '"raise" or "mask"'):
            shuttlemint.ellipk(0.5, refused="ignore")
        with self.assertRaises(OverflowError):
            shuttlemint.ellipk(10**400)
        for bad in (-1, 1 << 64):
            with self.assertRaisesRegex(ValueError, "no bit pattern"):
                shuttlemint.evaluate(1, bad)

    def test_rounds(self):
        self.assertEqual(shuttlemint.rounds(4, shuttlemint.pattern(-(2.0**-900)), shuttlemint.pattern(-(2.0**682))), 77)  # RJ has 13, an RC inside it 64
        for function in (0, 1, 2, 3, LAST + 1, 255, 260, -1):
            self.assertEqual(shuttlemint.rounds(function, shuttlemint.pattern(0.25), shuttlemint.pattern(0.5)), 0)
        for bad in (-1, 1 << 64):
            with self.assertRaisesRegex(ValueError, "no bit pattern"):
                shuttlemint.rounds(4, bad)

    def test_a_function_number_never_wraps(self):
        for function in (256, 257, 259, 1 << 32, (1 << 64) + 1, -1, -255):
            self.assertEqual(by_number(function, ONE), (9, 0, 0))
