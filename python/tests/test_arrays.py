"""Arrays in and out: no bit is lost, and what can't be lent is told."""

import unittest

import numpy as np

from gauge_line import Line, Settings, lay_prototype, plan

PAIRS = Settings(r=2)


class Samples(unittest.TestCase):
    def refused(self, kind, words, act):
        with self.assertRaisesRegex(kind, words):
            act()

    def test_integers_that_fit_are_taken_whatever_their_type(self):
        values = [8192, -8192, 16384, 0]
        wanted = Line(Settings()).run(np.int32(values))
        self.assertEqual(wanted.dtype, np.float32)
        for kind in [np.int16, np.int32, np.int64, ">i4", "<i2"]:
            np.testing.assert_array_equal(Line(Settings()).run(np.array(values, kind)), wanted)
        np.testing.assert_array_equal(Line(Settings()).run(values), wanted)
        np.testing.assert_array_equal(Line(Settings()).run(np.uint64([8192])), wanted[:1])
        self.assertEqual(Line(Settings()).run([]).size, 0)

    def test_what_does_not_fit_is_told_with_its_place(self):
        line = Line(PAIRS)
        told = r"samples\[1\] is -?21474836\d\d, outside int32"
        for values in [[0, 2**31], np.array([0, 2**31]), np.uint64([0, 2**31]), [0, -(2**31) - 1]]:
            self.refused(ValueError, told, lambda: line.run(values))
        self.refused(ValueError, r"taps\[0\] is 32768, outside int16", lambda: Line(PAIRS, [32768]))
        self.refused(ValueError, "one dimension", lambda: line.run(np.zeros((2, 2), np.int32)))
        self.refused(ValueError, "one dimension", lambda: line.run(np.int32(5)))
        self.refused(ValueError, "masked", lambda: line.run(np.ma.masked_less(np.int32([1, 2]), 2)))
        for values in [[0.5], [1.0], np.zeros(2), np.zeros(0), [True], ["1"], [2**70], [None]]:
            self.refused(TypeError, "samples: int32 is wanted, not ", lambda: line.run(values))
        self.refused(TypeError, r"np.rint\(x\).astype\(np.int32\)", lambda: line.run([0.5]))
        # None of them reached the line.
        self.assertEqual(line.run([8192, 8192]).tolist(), [0.25])

    def test_strided_and_unaligned_rows_are_lent_as_they_read(self):
        values = np.arange(-3000, 3000, dtype=np.int32) * 5
        wanted = Line(PAIRS).run(values[::-2].copy())
        np.testing.assert_array_equal(Line(PAIRS).run(values[::-2]), wanted)
        rows = np.zeros(3000, [("mark", "u1"), ("sample", "i4"), ("level", "f4")])
        rows["sample"] = values[::-2]
        np.testing.assert_array_equal(Line(PAIRS).run(rows["sample"]), wanted)
        moved = Line(PAIRS).feed(rows["sample"], rows["level"])
        self.assertEqual(moved, (3000, 1500))
        np.testing.assert_array_equal(rows["level"][:1500], wanted)
        self.assertTrue((rows["level"][1500:] == 0).all() and (rows["mark"] == 0).all())

    def test_read_only_samples_are_read(self):
        values = np.int32([8192, 8192])
        values.flags.writeable = False
        self.assertEqual(Line(PAIRS).run(values).tolist(), [0.25])


class Spans(unittest.TestCase):
    def test_places_behind_the_levels_stay(self):
        nines = np.full((3, 6, 2), 9, np.float32)
        for whole in [nines[0].ravel()[:6], nines[1, :, 0], nines[2, ::-1, 1]]:
            self.assertEqual(Line(PAIRS).feed([8192, 8192, 16384, 16384, 0], whole), (5, 2))
            self.assertEqual(whole.tolist(), [0.25, 0.5, 9, 9, 9, 9])
        strided = np.full(6, 9, np.float32)
        Line(PAIRS).feed([8192, 8192], strided[::2])
        self.assertEqual(strided.tolist(), [0.25, 9, 9, 9, 9, 9])

    def test_what_can_not_be_written_is_told(self):
        line = Line(PAIRS)
        closed = np.zeros(2, np.float32)
        closed.flags.writeable = False
        for kind, span in [
            (TypeError, [0.0, 0.0]),
            (TypeError, np.zeros(2)),
            (TypeError, np.zeros(2, ">f4")),
            (ValueError, closed),
            (ValueError, np.zeros((1, 2), np.float32)),
        ]:
            with self.assertRaises(kind):
                line.feed([1000], span)
        shared = np.zeros(4, np.int32)
        with self.assertRaisesRegex(ValueError, "overlap"):
            line.feed(shared, shared[1:].view(np.float32))
        self.assertEqual(line.run([8192, 8192]).tolist(), [0.25])


class Numbers(unittest.TestCase):
    def test_a_prototype_is_never_rounded_unasked(self):
        settings = Settings(phases=2, phase_taps=1)
        for exact in [[1, 0], [0.5, 0.25], np.float16([0.1, 0]), np.float32([0.1, 0.2])]:
            kept = Line(settings, (), exact).prototype
            self.assertEqual(kept.tolist(), np.float32(exact).tolist())
        for lost in [[0.1, 0.0], np.float64([0.1, 0.0]), [2**24 + 1, 0], [1e300, 0.0]]:
            with self.assertRaisesRegex(ValueError, r"prototype\[0\] is .* no float32 is; x.ast"):
                Line(settings, (), lost)
        for wrong in [["a", "b"], [1j, 0], [None, 0]]:
            with self.assertRaises(TypeError):
                Line(settings, (), wrong)

    def test_settings_are_whole_and_of_64_bits(self):
        for kind, words, wrong in [
            (ValueError, r"stages is -1, outside 0 to 2\^64 - 1", {"stages": -1}),
            (ValueError, "r is 18446744073709551616, outside", {"r": 2**64}),
            (TypeError, "float", {"depth": 1.0}),
            (TypeError, "str", {"straight": "yes"}),
            (TypeError, "step: a number is wanted, not str", {"step": "1"}),
            (ValueError, r"step is 0.1, which no float32 is; np.float32\(x\)", {"step": 0.1}),
            (ValueError, r"step is 1e\+300, .* here to inf", {"step": 1e300}),
        ]:
            with self.assertRaisesRegex(kind, words):
                Line(Settings(**wrong))
        step = np.float32(0.1)
        settings = Settings(np.int8(1), np.uint64(1), phases=2, phase_taps=1, step=step)
        self.assertEqual(Line(settings, (), [1, 0]).settings.step, float(step))

    def test_lengths_of_a_plan_are_whole(self):
        for pieces, kind in [([1.5], TypeError), ([-1], ValueError), ([[1]], ValueError)]:
            with self.assertRaises(kind):
                plan(PAIRS, (), (), pieces, [1])

    def test_a_design_of_another_length_is_told(self):
        self.assertEqual(lay_prototype(range(6), 3, 2).tolist(), [3, 2, 1, 0, 5, 4])
        self.assertEqual(lay_prototype(range(7), 3, 2).tolist(), [3, 2, 1, 6, 5, 4])
        for count, phases, taps in [(5, 3, 2), (8, 3, 2), (0, 0, 0), (1, 0, 3)]:
            with self.assertRaises(ValueError):
                lay_prototype([1.0] * count, phases, taps)


if __name__ == "__main__":
    unittest.main()
