"""What settings make: rates, delays, gains, and the samples that a line can take."""

from __future__ import annotations

from dataclasses import dataclass
from math import isnan, prod

import numpy as np
from numpy.typing import ArrayLike, NDArray

from . import raw
from .library import State, call
from .line import Line
from .settings import Settings

#: The taps of each half-band stage, in the order in which a cascade runs them.
STAGE_TAPS = (3, 4, 5, 10, 23)


@dataclass(frozen=True)
class Section:
    """A part of the line as a filter. Times are in samples."""

    name: str
    #: Samples for each value that it hands on.
    samples_per_value: float
    #: How late it shows a slow change; NaN where its weights sum to 0.
    delay: float
    #: By how much its memory reaches back behind that of the section before.
    reach: float
    #: What a steady input is multiplied by.
    gain: float


@dataclass(frozen=True)
class Range:
    """Samples from the least to the greatest."""

    least: int
    greatest: int


@dataclass(frozen=True)
class Explanation:
    """What settings make, as numbers; `print` shows them as a table."""

    #: Sums are divided by 2 to this power.
    gain_bits: int
    #: The sections that are on, in their order.
    sections: tuple[Section, ...]
    #: All of them as one filter.
    whole: Section
    #: The first level comes with this sample, counted from 1.
    first_level: int
    #: Samples in any order of which every sum is exact.
    exact: Range
    #: Steady samples whose sum keeps to 32 bits; any other comes round.
    steady: Range
    #: Of these the ones of which no value is cut to 16 bits.
    uncut: Range

    def times(self, count: int) -> NDArray[np.float64]:
        """The moments that the first `count` levels tell of, in samples; the first sample is at 0.

        The delay is taken off. Levels at moments below 0 weigh zeros from before the start.
        """
        first = self.first_level - 1 - (0.0 if isnan(self.whole.delay) else self.whole.delay)
        return first + self.whole.samples_per_value * np.arange(count)

    def __str__(self) -> str:
        lines = [f"{'section':18}{'samples a value':>16}{'delay, samples':>16}{'gain':>10}"]
        for one in (*self.sections, self.whole):
            lines.append(
                f"{one.name:18}{one.samples_per_value:>16.10g}{one.delay:>16.1f}{one.gain:>10.4f}"
            )
        lines += ["", f"{'samples':36}{'least':>12}{'greatest':>12}"]
        for what, each in (
            ("in any order: every sum is exact", self.exact),
            ("steady: the sum keeps to 32 bits", self.steady),
            ("steady: and is not cut to 16 bits", self.uncut),
        ):
            lines.append(f"{what:36}{each.least:>12}{each.greatest:>12}")
        return "\n".join(lines)


def explain(settings: Settings, taps: ArrayLike = (), prototype: ArrayLike = ()) -> Explanation:
    """What a line with these settings makes. Raises the Refusals of its opening."""
    # What an opening refuses has no explanation; what it takes is read from there.
    line = Line(settings, taps, prototype)
    own, taps, prototype = line.settings, line.taps, line.prototype
    cic = State(raw.CicDecimator)
    call("cic_decimator_new", cic, wanted_stages=own.stages, wanted_r=own.r)
    gain = call("cic_decimator_gain", cic)["gain"]
    bits = call("cic_decimator_gain_bits", cic)["bits"]
    steady = Range(-(2**31 // gain), (2**31 - 1) // gain)
    sections = _sections(own, taps, prototype, gain / 2**bits)
    return Explanation(
        gain_bits=bits,
        sections=sections,
        whole=_whole(sections),
        first_level=_first_level(own, taps.size),
        exact=Range(**call("cic_decimator_exact_range", cic)),
        steady=steady,
        uncut=_uncut(steady, gain, bits, taps),
    )


def _sections(
    own: Settings, taps: NDArray[np.int16], prototype: NDArray[np.float32], gain: float
) -> tuple[Section, ...]:
    # N moving sums of r samples, each (r - 1) / 2 late.
    reach = own.stages * (own.r - 1)
    sections = [Section("CIC decimator", own.r, reach / 2, reach, gain)]
    if taps.size > 0:
        sections.append(_fir(own, taps, sections[-1].samples_per_value))
    if own.depth > 0:
        sections.append(_half_band(own, sections[-1].samples_per_value))
    if own.phases > 0:
        sections.append(_resampler(own, prototype, sections[-1].samples_per_value))
    return tuple(sections)


def _whole(sections: tuple[Section, ...]) -> Section:
    return Section(
        "whole line",
        sections[-1].samples_per_value,
        sum(one.delay for one in sections),
        sum(one.reach for one in sections),
        prod(one.gain for one in sections),
    )


def _fir(own: Settings, taps: NDArray[np.int16], rate: float) -> Section:
    # Tap t weighs the value that is T - 1 - t old.
    ages = np.arange(taps.size - 1, -1, -1)
    gain, delay = _gain_and_delay(ages, taps / 32768)
    return Section("FIR", rate * own.factor, rate * delay, rate * (taps.size - 1), gain)


def _half_band(own: Settings, rate: float) -> Section:
    # A stage of M taps has its middle 2M values back and its oldest 4M - 1. The first stage's taps
    # stand last in the table.
    rest = np.array(call("hbf_tap_table")["taps"], np.float64)
    delay, reach, gain = 0.0, 0.0, 1.0
    for taps in STAGE_TAPS[: own.depth]:
        rest, stage = rest[:-taps], rest[-taps:]
        delay += rate * 2 * taps
        reach += rate * (4 * taps - 1)
        gain *= 0.5 + stage.sum()
        rate *= 2
    return Section("half-band cascade", rate, delay, reach, float(gain))


def _resampler(own: Settings, prototype: NDArray[np.float32], rate: float) -> Section:
    # Phase p is due 1 - p / P behind the newest value, so its tap t weighs a value t + 1 - p / P
    # old. Straight phase reads places 1 to P of a row, of which the last is the next row's first.
    first = 1 if own.straight else 0
    places = np.arange(prototype.size - first)
    ages = places // own.phases + 1 - (places % own.phases + first) / own.phases
    gain, delay = _gain_and_delay(ages, prototype[first:].astype(np.float64) / own.phases)
    reach = rate * (own.phase_taps - 1)
    return Section("resampler", rate * own.step, rate * delay, reach, gain)


def _gain_and_delay(ages: NDArray, weights: NDArray) -> tuple[float, float]:
    """The sum of weights, and the age at their centre."""
    gain = float(weights.sum())
    return gain, float(ages @ weights) / gain if gain else float("nan")


def _first_level(own: Settings, taps: int) -> int:
    halved = 2**own.depth
    return own.r * ((halved - 1) * own.factor + taps if taps else halved)


def _uncut(steady: Range, gain: int, bits: int, taps: NDArray[np.int16]) -> Range:
    low, high = _uncut_values(taps)
    # Towards 0 below, for the sum of the least sample must not be under `low`.
    least = max(steady.least, -(-(low << bits) // gain))
    return Range(least, min(steady.greatest, (((high + 1) << bits) - 1) // gain))


def _uncut_values(taps: NDArray[np.int16]) -> tuple[int, int]:
    """The steady values of 16 bits, on both sides of 0, of which a FIR's sum is not cut."""
    values = np.arange(-32768, 32768)
    sums = sum(((values * int(tap)) >> 15 for tap in taps), np.zeros_like(values))
    cut = (sums < -32768) | (sums > 32767) if taps.size else np.zeros(values.shape, bool)
    below, above = np.flatnonzero(cut[:32768]), np.flatnonzero(cut[32768:])
    low = int(values[below[-1] + 1]) if below.size else -32768
    return low, int(above[0]) - 1 if above.size else 32767
