"""What settings make: beside what the tool prints of them, and as a line shows it."""

import os
import re
import subprocess
import tempfile
import unittest
from pathlib import Path

import numpy as np

from gauge_line import Line, Refusal, Settings, explain

TOOL = os.environ.get("GAUGE_TOOL")
FULL = (
    Settings(stages=3, r=4, factor=2, depth=2, phases=2, phase_taps=2, step=1.5),
    [8192] * 4,
    [1.0, 0.5, 0.0, 0.5],
)
CASES = [
    FULL,
    (Settings(stages=2, r=5), [], []),
    (Settings(stages=8, r=14), [], []),
    (Settings(stages=1, r=4096, depth=5), [], []),
    (Settings(stages=2, r=5, factor=1), [32767, 32767], []),
    (Settings(stages=1, r=3, factor=5, depth=3), [-32768, -20000, 7], []),
    (Settings(stages=1, r=1, phases=4, phase_taps=2, straight=True, step=2), [], np.arange(8) / 8),
]


def as_file(settings, taps, prototype):
    """The settings file of the tool."""
    lines = [f"stages = {settings.stages}", f"r = {settings.r}", f"depth = {settings.depth}"]
    if len(taps) > 0:
        lines += [f"factor = {settings.factor}", "taps = " + " ".join(map(str, taps))]
    if settings.phases > 0:
        phase = "straight" if settings.straight else "wrapped"
        lines += [f"phases = {settings.phases}", f"phase_taps = {settings.phase_taps}"]
        lines += [f"phase = {phase}", f"step = {settings.step}"]
        lines += ["prototype = " + " ".join(map(str, prototype))]
    return "\n".join(lines) + "\n"


@unittest.skipIf(TOOL is None, "GAUGE_TOOL names no tool")
class BesideTheTool(unittest.TestCase):
    def told(self, opening, command, *more):
        with tempfile.TemporaryDirectory() as folder:
            path = Path(folder) / "line.settings"
            path.write_text(as_file(*opening))
            arguments = [TOOL, command, "--settings", path, *more]
            return subprocess.run(arguments, capture_output=True, check=True).stdout

    def test_every_figure_is_the_tools(self):
        for opening in CASES:
            text, figures = self.told(opening, "explain").decode(), explain(*opening)
            self.assertIn(f" bytes, {figures.gain_bits} gain bits", text)
            self.assertIn(f"The first level comes with sample {figures.first_level}.", text)
            self.assertIn(f"Up to sample {figures.whole.reach:.0f} levels still weigh zeros", text)
            rows = {row[:36].strip(): row[36:].split() for row in text.splitlines()}
            for what, found in [
                ("in any order: every sum is exact", figures.exact),
                ("steady: the sum keeps to 32 bits", figures.steady),
                ("steady: and is not cut to 16 bits", figures.uncut),
            ]:
                self.assertEqual(rows[what], [str(found.least), str(found.greatest)], opening)
                self.assertIn(f"{what:36}{found.least:>12}{found.greatest:>12}", str(figures))
            self.sections(text, figures)

    def sections(self, text, figures):
        found = [*figures.sections, figures.whole]
        is_row = re.compile(r"\S.{17} +[\d.]+ +[\d.]+ +\S+ +\S+$").match
        rows = [row for row in text.splitlines() if is_row(row)]
        self.assertEqual([row[:18].strip() for row in rows], [one.name for one in found])
        for row, one in zip(rows, found):
            every, rate, delay, gain = row[18:].split()
            self.assertAlmostEqual(float(every), one.samples_per_value, 4)
            self.assertAlmostEqual(float(rate), 1 / one.samples_per_value, 7)
            self.assertEqual(gain, f"{one.gain:.4f}")
            self.assertEqual(delay, "none" if np.isnan(one.delay) else f"{one.delay:.1f}")

    def test_levels_are_those_of_the_tool(self):
        samples = (np.random.default_rng(3).integers(-20000, 20000, 20000)).astype("<i4")
        for opening in CASES:
            with tempfile.NamedTemporaryFile() as recording:
                recording.write(samples.tobytes())
                recording.flush()
                levels = self.told(opening, "run", "--format", "raw", recording.name)
            self.assertEqual(levels, Line(*opening).run(samples).tobytes(), opening)

    def test_moments_are_those_of_the_tool(self):
        for opening in CASES:
            with tempfile.NamedTemporaryFile("w") as recording:
                recording.write("sample\n" + "0\n" * 2000)
                recording.flush()
                rows = self.told(opening, "run", "--column", "1", recording.name).split()[1:]
            moments = [float(row.split(b",")[0]) for row in rows]
            np.testing.assert_allclose(explain(*opening).times(len(rows)), moments, atol=1e-6)


class AsALineShows(unittest.TestCase):
    def test_a_steady_sample_settles_at_the_gain(self):
        for opening in CASES[:2]:
            figures, line = explain(*opening), Line(*opening)
            self.assertEqual(line.run([16384] * (figures.first_level - 1)).size, 0)
            self.assertGreater(line.run([16384]).size, 0)
            line.run([16384] * int(figures.whole.reach))
            levels = line.run([16384] * 1000)
            self.assertLess(np.abs(levels - 0.5 * figures.whole.gain).max(), 6 / 32768)

    def test_ranges_end_where_a_line_says(self):
        figures = explain(Settings(stages=2, r=5))
        for sample, cuts in [(figures.uncut.greatest, 0), (figures.uncut.greatest + 1, 9)]:
            line = Line(Settings(stages=2, r=5))
            line.run([sample] * 50)
            self.assertEqual(line.cuts, cuts)

    def test_what_an_opening_refuses_is_not_explained(self):
        with self.assertRaises(Refusal):
            explain(Settings(stages=9))


if __name__ == "__main__":
    unittest.main()
