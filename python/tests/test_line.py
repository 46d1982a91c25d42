"""The line: feeds, runs, cuts, parking, plans and refusals."""

import copy
import pickle
import unittest
from dataclasses import replace
from pathlib import Path

import numpy as np

from gauge_line import Line, Moved, Refusal, Settings, plan

TOP = Path(__file__).resolve().parents[2]
# That of examples/c/levels.c: every part is on.
FULL = Settings(stages=3, r=4, factor=2, depth=2, phases=2, phase_taps=2, step=1.5)
TAPS = [8192] * 4
PROTOTYPE = [1.0, 0.5, 0.0, 0.5]


def opened():
    return Line(FULL, TAPS, PROTOTYPE)


def rising(count=1500):
    at = np.arange(count)
    return (8 * at + (at % 5 - 2) * 300).astype(np.int32)


class Feeding(unittest.TestCase):
    def test_the_levels_of_the_c_example(self):
        """Pieces of 200 and spans of 3, printed as examples/c/levels.c prints them."""
        line, span, shown = opened(), np.zeros(3, np.float32), []
        waiting = np.split(rising(), range(200, 1500, 200))
        piece = waiting.pop(0)
        while True:
            moved = line.feed(piece, span)
            levels = "".join(f" {level:.6f}" for level in span[: moved.written])
            shown.append(f"{moved.taken:3} of {piece.size:3}:{levels}")
            if piece.size == 0 and moved.written < span.size:
                break
            piece = piece[moved.taken :]
            if piece.size == 0 and waiting:
                piece = waiting.pop(0)
        self.assertEqual(shown, (TOP / "examples/c/levels.txt").read_text().splitlines())

    def test_cutting_a_stream_changes_no_level(self):
        samples, choose = rising(), np.random.default_rng(1)
        wanted = opened().run(samples)
        for _ in range(20):
            line, levels, at = opened(), [], 0
            while True:
                span = np.empty(choose.integers(0, 5), np.float32)
                moved = line.feed(samples[at : at + choose.integers(0, 200)], span)
                levels.extend(span[: moved.written])
                at += moved.taken
                if at == samples.size and moved.written < span.size:
                    break
            self.assertEqual(np.float32(levels).tobytes(), wanted.tobytes())
        line = opened()
        runs = [line.run(piece) for piece in np.split(samples, [0, 1, 700, 701])]
        self.assertEqual(np.concatenate(runs).tobytes(), wanted.tobytes())

    def test_a_run_may_be_of_any_length(self):
        samples = (np.arange(200_000) % 60_000 - 30_000).astype(np.int32)
        for count in [0, 1, 65_535, 65_536, 65_537, 131_072, 200_000]:
            levels = Line(Settings()).run(samples[:count])
            np.testing.assert_array_equal(levels * 32768, samples[:count])

    def test_a_run_writes_what_a_full_span_left_due(self):
        line = Line(Settings(phases=2, phase_taps=1, step=1 / 64), (), [1, 0])
        self.assertEqual(line.feed([16384] * 3, np.zeros(5, np.float32)), Moved(1, 5))
        self.assertEqual(line.run([]).size, 59)
        self.assertEqual(line.run([0] * 100).size, 6400)
        # One span more than 65,536 levels, and no sample left for it.
        self.assertEqual(line.feed([0], np.zeros(5, np.float32)), Moved(1, 5))
        self.assertEqual(line.run([0] * 1024).size, 59 + 65_536)

    def test_the_range_of_samples_comes_round(self):
        settings = Settings(stages=3, r=64)
        for sample, level in [(8191, 8191 / 32768), (8192, -0.25), (16384, 0.0)]:
            self.assertEqual(Line(settings).run([sample] * 256)[3], level)

    def test_cuts_and_reset(self):
        line = Line(Settings())
        self.assertEqual(line.run([32767, 32768, -32768, -32769])[1], 32767 / 32768)
        self.assertEqual(line.cuts, 2)
        line.reset()
        self.assertEqual(line.cuts, 0)
        line = opened()
        first = line.run(rising())
        line.reset()
        self.assertEqual(line.run(rising()).tobytes(), first.tobytes())


class Fields(unittest.TestCase):
    """Each field is what its name says: two of one type could else be lent in the wrong order."""

    def test_an_opening_writes_each_setting(self):
        settings = Settings(3, 5, 7, 2, 4, 1, True, 1.5)
        line = Line(settings, [11, 12], [0.5, 0.25, 0.125, 1])
        self.assertEqual(line.settings, settings)
        self.assertEqual(line.taps.tolist(), [11, 12])
        self.assertEqual(line.prototype.tolist(), [0.5, 0.25, 0.125, 1])
        self.assertEqual((line.taps.dtype, line.prototype.dtype), (np.int16, np.float32))
        self.assertIn("stages=3, r=5", repr(line))
        off = Line(Settings(factor=9, phase_taps=3)).settings
        self.assertEqual(off, Settings(1, 1, 0, 0, 0, 0, False, 0.0))

    def test_what_is_handed_over_is_copied(self):
        taps = np.int16(TAPS)
        line = Line(FULL, taps, PROTOTYPE)
        taps[:] = 0
        line.taps[:] = 0
        self.assertEqual(line.run(rising()).tobytes(), opened().run(rising()).tobytes())


class Parking(unittest.TestCase):
    def test_a_line_taken_up_goes_on(self):
        line = opened()
        line.run(rising(701))
        others = [
            Line.take_up(line.park()),
            Line.take_up(bytearray(line.park())),
            Line.take_up(np.frombuffer(line.park(), np.uint8)),
            pickle.loads(pickle.dumps(line)),
            copy.copy(line),
            copy.deepcopy(line),
        ]
        wanted = line.run(rising()[701:])
        for other in others:
            self.assertEqual(other.run(rising()[701:]).tobytes(), wanted.tobytes())
            self.assertEqual((other.settings, other.cuts), (FULL, line.cuts))
            self.assertEqual(other.park(), line.park())

    def test_stored_sheets_are_taken_up(self):
        stored = sorted((TOP / "host/gauge-line/tests/parked").glob("*.marked"))
        self.assertTrue(stored)
        for path in stored:
            self.assertEqual(Line.take_up(path.read_bytes()).park(), path.read_bytes(), path.name)

    def test_bytes_that_are_no_line_are_refused(self):
        sheet = opened().park()
        for bad, number in [(b"", 16), (sheet[:-1], 17), (b"\0\x80", 21)]:
            with self.assertRaises(Refusal) as found:
                Line.take_up(bad)
            self.assertEqual(found.exception.number, number, bad)
        for bad in ["text", 5, None, np.zeros(98, np.int32)]:
            with self.assertRaises(TypeError):
                Line.take_up(bad)


class Refusals(unittest.TestCase):
    def test_each_refusal_of_an_opening(self):
        on = Settings(phases=2, phase_taps=2)
        for number, name, settings, taps, prototype in [
            (1, "Stages", Settings(stages=9), [], []),
            (2, "Factor", Settings(r=0), [], []),
            (3, "GainBits", Settings(stages=8, r=15), [], []),
            (5, "FirFactor", Settings(factor=4097), [1], []),
            (6, "Taps", Settings(), [1] * 129, []),
            (11, "Depth", Settings(depth=6), [], []),
            (12, "Phases", replace(on, phases=65), [], []),
            (13, "Prototype", on, [], [1] * 3),
            (14, "Step", replace(on, step=65), [], [1] * 4),
            (14, "Step", replace(on, step=float("nan")), [], [1] * 4),
        ]:
            for act in [Line, lambda *opening: plan(*opening, [1], [1])]:
                with self.assertRaises(Refusal) as found:
                    act(settings, taps, prototype)
                refusal = found.exception
                self.assertEqual((refusal.number, refusal.name), (number, name))
                self.assertTrue(str(refusal).startswith(f"refusal {number}, {name}: "))
                self.assertIsInstance(refusal, ValueError)
                again = pickle.loads(pickle.dumps(refusal))
                self.assertEqual((again.number, str(again)), (number, str(refusal)))

    def test_a_limit_is_told_by_its_value(self):
        with self.assertRaises(Refusal) as found:
            Line(Settings(stages=8, r=15))
        self.assertEqual(str(found.exception), "refusal 3, GainBits: gain bits over 31")


class Planning(unittest.TestCase):
    def test_a_plan_is_what_feeds_do(self):
        choose = np.random.default_rng(2)
        pieces, spans = choose.integers(0, 300, 50), choose.integers(0, 6, 50)
        taken, written = plan(FULL, TAPS, PROTOTYPE, pieces, spans)
        line, fed = opened(), []
        for piece, span in zip(pieces, spans):
            fed.append(line.feed(np.zeros(piece, np.int32), np.empty(span, np.float32)))
        self.assertEqual(list(zip(taken, written)), fed)
        self.assertEqual((taken.dtype, written.dtype), (np.uint64, np.uint64))

    def test_refused_plans(self):
        for pieces, spans in [([1, 2], [1]), ([65537], [1]), ([1] * 4097, [1] * 4097)]:
            with self.assertRaises(Refusal) as found:
                plan(FULL, TAPS, PROTOTYPE, pieces, spans)
            self.assertEqual(found.exception.name, "Plan")
        taken, written = plan(FULL, TAPS, PROTOTYPE, [], [])
        self.assertEqual((taken.size, written.size), (0, 0))


if __name__ == "__main__":
    unittest.main()
