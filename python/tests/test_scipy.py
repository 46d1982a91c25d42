"""The line beside scipy's decimate and resample_poly, on like work."""

import unittest

import numpy as np

from gauge_line import Line, Settings, explain, lay_prototype

try:
    from scipy import signal
except ImportError:
    signal = None

STEP = 1 / 32768


@unittest.skipIf(signal is None, "scipy is not installed")
class BesideScipy(unittest.TestCase):
    def noise(self, count):
        return np.random.default_rng(29).integers(-30000, 30000, count).astype(np.int32)

    def test_a_cic_decimator_is_its_zeros_decimated(self):
        for stages, r in [(1, 2), (3, 8), (4, 5)]:
            settings = Settings(stages=stages, r=r)
            samples = self.noise(4000)
            zeros = np.tile(np.exp(2j * np.pi * np.arange(1, r) / r), stages)
            scale = 2.0 ** -explain(settings).gain_bits
            moving_sums = signal.dlti(zeros, np.zeros(zeros.size), scale)
            # A level comes with the last of its r samples, an output of decimate with the first.
            later = np.append(0.0, samples)
            wanted = signal.decimate(later, r, ftype=moving_sums, zero_phase=False)[1:] * STEP
            below = wanted - Line(settings).run(samples)
            # Scaled sums are rounded down.
            self.assertGreater(below.min(), -1e-6 * STEP)
            self.assertLess(below.max(), STEP)

    def test_a_fir_is_decimate_with_its_taps_in_32768ths(self):
        samples = self.noise(4000)
        design = signal.firwin(63, 1 / 4)
        taps = np.rint(design * 32768).astype(np.int16)
        # From the second sample on the middle of a level's window falls on every fourth.
        levels = Line(Settings(factor=4), taps).run(samples[1:])
        for filtered, above, below in [
            (signal.resample_poly(samples * STEP, 1, 4, window=taps / 32768), 0.0, 63.0),
            (signal.decimate(samples * STEP, 4, 62, ftype="fir"), 29.0, 92.0),
        ]:
            off = filtered[8 : 8 + levels.size] - levels
            # 63 products, each rounded down; the design's taps are half a 32768th off too.
            self.assertGreaterEqual(off.min(), -above * STEP - 1e-12)
            self.assertLess(off.max(), below * STEP)

    def test_a_thinned_wave_is_the_one_that_decimate_leaves(self):
        settings = Settings(stages=2, r=8, depth=5)
        figures = explain(settings)
        every = int(figures.whole.samples_per_value)
        times = np.arange(400 * every)
        wave = 20000 * np.sin(times / 5000) + 1500 * np.sin(times * 1.3)
        samples = np.rint(wave).astype(np.int32)
        # Dropping so many samples makes each level tell of a time that decimate has an output for.
        behind = int(figures.whole.delay) - (figures.first_level - 1)
        dropped = behind % every
        levels = Line(settings).run(samples[dropped:])[60:]
        wanted = signal.decimate(signal.decimate(wave * STEP, 8, ftype="fir"), 32, ftype="fir")
        first = 60 - (behind - dropped) // every
        both = min(levels.size, wanted.size - first - 30)
        self.assertGreater(both, 250)
        off = levels[:both] - wanted[first : first + both]
        self.assertLess(np.abs(off).max(), 0.0003)

    def resampled(self, design, phase_taps):
        """A wave by the line and by resample_poly, 16 levels for each 15 samples."""
        wave = np.rint(20000 * np.sin(np.arange(2000) / 8)).astype(np.int32)
        settings = Settings(phases=16, phase_taps=phase_taps, step=15 / 16)
        line = Line(settings, (), lay_prototype(design, 16, phase_taps))
        # The design's middle, 8 × phase_taps of its places, is then whole outputs away.
        dropped = 8 * phase_taps % 15
        levels = line.run(wave[dropped:])
        window = design.astype(np.float64) / 16
        wanted = signal.resample_poly(wave * STEP, 16, 15, window=window)
        first = (8 * phase_taps - 16 * dropped) // 15
        kept = np.arange(40, levels.size - 20)
        return kept, levels[kept], wanted[kept - first]

    def test_straight_lines_between_samples_are_resample_polys(self):
        rise = np.arange(16) / 16
        triangle = np.concatenate([rise, 1 - rise, [0.0]]).astype(np.float32)
        _, levels, wanted = self.resampled(triangle, 2)
        self.assertLess(np.abs(levels - wanted).max(), 1e-6)

    def test_a_resampled_wave_is_resample_polys_between_samples(self):
        design = (16 * signal.firwin(16 * 16 + 1, 1 / 16)).astype(np.float32)
        at, levels, wanted = self.resampled(design, 16)
        # Every 16th level falls on a sample: phases wrap, and it is drawn on from two of them.
        between = at % 16 != 0
        self.assertLess(np.abs(levels - wanted)[between].max(), 1e-6)
        self.assertGreater(np.abs(levels - wanted)[~between].max(), 1e-6)


if __name__ == "__main__":
    unittest.main()
