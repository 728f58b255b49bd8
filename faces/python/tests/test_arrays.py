"""NumPy's arrays, and SciPy's functions in the order's box. Skipped, with a word, where the one or the other is not installed (Debian: python3-scipy, which brings both)."""
import math
import random
import unittest

import shuttlemint
from shuttlemint import Refused

try:
    import numpy
except ImportError:
    numpy = None
try:
    import scipy.special as special
except ImportError:
    special = None

POINTS = 4000


@unittest.skipUnless(numpy, "NumPy is not installed for this Python (Debian: python3-numpy, for /usr/bin/python3)")
class Arrays(unittest.TestCase):
    def test_shapes_and_broadcasting(self):
        m = numpy.linspace(-2, 0.9, 12).reshape(3, 4)
        phi = numpy.array([0.5, 1.0, 1.5, 2.0])
        got = shuttlemint.ellipeinc(phi, m)
        self.assertEqual((got.shape, got.dtype), ((3, 4), numpy.float64))
        for i in range(3):
            for j in range(4):
                self.assertEqual(got[i, j], shuttlemint.ellipeinc(float(phi[j]), float(m[i, j])))
        self.assertEqual(shuttlemint.ellipeinc(phi[:, None], [0.1, 0.2]).shape, (4, 2))
        self.assertEqual(shuttlemint.ellipeinc(1.0, m).tolist(), shuttlemint.ellipeinc(1.0, m.tolist()))
        self.assertEqual(shuttlemint.ellipk(m.T).tolist(), numpy.transpose(shuttlemint.ellipk(m)).tolist())
        self.assertEqual(shuttlemint.ellipk(m[::2, ::-1]).tolist(), shuttlemint.ellipk(m)[::2, ::-1].tolist())
        self.assertEqual(shuttlemint.ellipk(numpy.zeros((0, 3))).shape, (0, 3))
        with self.assertRaises(ValueError):
            shuttlemint.ellippi(numpy.zeros(3), numpy.zeros(4))

    def test_a_single_number_in_a_number_out(self):
        self.assertIsInstance(shuttlemint.ellipk(numpy.array(0.5)), numpy.float64)
        self.assertEqual(shuttlemint.ellipk(numpy.float64(0.5)), shuttlemint.ellipk(0.5))
        self.assertEqual(shuttlemint.ellipk(numpy.float32(0.5)), shuttlemint.ellipk(0.5))
        self.assertEqual(shuttlemint.ellipk([numpy.float64(0.5)]), [shuttlemint.ellipk(0.5)])

    def test_pairs(self):
        first, second = shuttlemint.ellipke(numpy.array([0.0, 0.5, 1.0]))
        self.assertEqual(first.tolist(), shuttlemint.ellipk([0.0, 0.5, 1.0]))
        self.assertEqual(second.tolist()[2], 1.0)

    def test_other_kinds_of_numbers(self):
        for dtype in ("float32", "float16", "longdouble", "int64", "uint8", "bool", ">f8"):
            self.assertEqual(shuttlemint.ellipk(numpy.array([0, 1], dtype)).tolist(), [math.pi / 2, math.inf], dtype)
        for bad in (numpy.array([1j]), numpy.array(["0.5"]), numpy.array([None]), numpy.array(["2026-11-15"], "M8[D]")):
            with self.assertRaisesRegex(TypeError, "ellipk: m must hold real numbers, not"):
                shuttlemint.ellipk(bad)

    def test_refusals(self):
        m = numpy.array([[0.5, 2.0], [math.nan, 1.0]])
        with self.assertRaises(Refused) as raised:
            shuttlemint.ellipk(m)
        self.assertEqual((raised.exception.number, raised.exception.index), (2, (0, 1)))
        self.assertIn("ellipk(2.0) at [0, 1]", str(raised.exception))
        values, mask = shuttlemint.ellipk(m, refused="mask")
        self.assertEqual((mask.dtype, mask.tolist()), (numpy.uint8, [[0, 2], [1, 0]]))
        self.assertEqual(numpy.isnan(values).tolist(), [[False, True], [True, False]])
        self.assertEqual(numpy.ma.array(values, mask=mask).count(), 2)
        (first, second), mask = shuttlemint.ellipke(m, refused="mask")
        self.assertEqual(numpy.isnan(second).tolist(), [[False, True], [True, False]])
        self.assertEqual(shuttlemint.ellipk(numpy.array(2.0), refused="mask").mask, 2)

    def test_a_masked_element_is_no_number(self):
        given = numpy.ma.array([0.5, 0.25], mask=[False, True])
        self.assertEqual(shuttlemint.ellipk(given, refused="mask").mask.tolist(), [0, 1])

    def test_the_given_array_stays(self):
        m = numpy.array([0.5, 2.0])
        shuttlemint.ellipk(m, refused="mask")
        self.assertEqual(m.tolist(), [0.5, 2.0])

    def test_patterns_go_through_as_in_single_calls(self):
        rng = random.Random(5)
        bits = numpy.array([rng.randrange(1 << 64) for _ in range(2 * POINTS)], numpy.uint64).view(numpy.float64)
        a, b = bits[:POINTS], bits[POINTS:]
        for call in (shuttlemint.ellippi, shuttlemint.ellipeinc, shuttlemint.ellipf):
            values, mask = call(a, b, refused="mask")
            single = call(a.tolist(), b.tolist(), refused="mask")
            self.assertEqual(mask.tolist(), single.mask)
            numpy.testing.assert_array_equal(values, single.values)


@unittest.skipUnless(special, "SciPy is not installed for this Python (Debian: python3-scipy, for /usr/bin/python3)")
class SciPy(unittest.TestCase):
    """|φ| ≤ 1000, -1000 ≤ m ≤ 0.99, -1000 ≤ n ≤ 0.99 or 1.01 ≤ n ≤ 1000: the relative difference is at most 2^-36."""

    def setUp(self):
        rng = numpy.random.default_rng(20261115)
        sign = rng.choice([-1.0, 1.0], POINTS)
        self.m = numpy.where(rng.random(POINTS) < 0.5, rng.uniform(-1000, 0.99, POINTS), 1 - 10 ** rng.uniform(-2, 3, POINTS))
        self.m = numpy.clip(self.m, -1000, 0.99)
        self.phi = sign * numpy.where(rng.random(POINTS) < 0.5, rng.uniform(0, 1000, POINTS), 10 ** rng.uniform(-8, 3, POINTS))
        self.n = numpy.clip(1 + sign * 10 ** rng.uniform(-2, 3, POINTS), -1000, 1000)

    def near(self, ours, theirs, what):
        off = numpy.abs(ours - theirs) / numpy.abs(theirs)
        worst = int(off.argmax())
        self.assertLessEqual(off[worst], 2.0**-36, f"{what} at m = {self.m[worst]!r}, phi = {self.phi[worst]!r}, n = {self.n[worst]!r}")

    def test_complete(self):
        self.near(shuttlemint.ellipk(self.m), special.ellipk(self.m), "ellipk")
        self.near(shuttlemint.ellipe(self.m), special.ellipe(self.m), "ellipe")
        first, second = shuttlemint.ellipke(self.m)
        self.near(first, special.ellipk(self.m), "ellipke")
        self.near(second, special.ellipe(self.m), "ellipke")

    def test_incomplete(self):
        self.near(shuttlemint.ellipkinc(self.phi, self.m), special.ellipkinc(self.phi, self.m), "ellipkinc")
        self.near(shuttlemint.ellipeinc(self.phi, self.m), special.ellipeinc(self.phi, self.m), "ellipeinc")

    @unittest.skipUnless(special and hasattr(special, "elliprj"), "this SciPy has no elliprj (1.8 has)")
    def test_third_kind(self):
        """SciPy has no Π; it has Carlson's RF and RJ, and Π = RF + n/3·RJ (DLMF 19.25.2; RJ's principal value for n > 1)."""
        rest = 1 - self.m
        theirs = special.elliprf(0, rest, 1) + self.n / 3 * special.elliprj(0, rest, 1, 1 - self.n)
        off = numpy.abs(shuttlemint.ellippi(self.n, self.m) - theirs)
        # for n > 1 the two parts nearly cancel, so the difference is measured by the larger of them
        size = numpy.where(self.n > 1, special.elliprf(0, rest, 1), numpy.abs(theirs))
        self.assertLessEqual((off / size).max(), 2.0**-36)

    def test_where_scipy_says_nan_or_infinity(self):
        for m in (2.0, math.nan):
            self.assertTrue(math.isnan(special.ellipk(m)))
            self.assertTrue(math.isnan(shuttlemint.ellipk(m, refused="mask").values))
        self.assertEqual((special.ellipk(1.0), shuttlemint.ellipk(1.0)), (math.inf, math.inf))
