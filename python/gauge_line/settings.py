"""What a line is opened with, beside its FIR taps and its prototype."""

from __future__ import annotations

from dataclasses import dataclass, fields
from typing import Any

from . import arrays


@dataclass(frozen=True)
class Settings:
    """Settings of a line. By default each sample makes a level; limits.py has the limits.

    Range of samples: sums are modulo 2^32 and are divided by 2^g, where g, the gain bits, is the
    least with 2^g not below r^stages. From samples of -2^(31 - g) to 2^(31 - g) - 1 every sum is
    exact. Beyond, a steady sample comes round, and nothing is refused: `explain` tells the ranges.
    """

    #: CIC stages, 1 to 8. With r they set the range of samples.
    stages: int = 1
    #: CIC factor, 1 to 4,096; r^stages is at most 2^31.
    r: int = 1
    #: FIR factor, 1 to 4,096. Not looked at without FIR taps.
    factor: int = 1
    #: Half-band stages, 0 (off) to 5; each halves the rate. Only 5 holds 140 dB up to 0.4 of it.
    depth: int = 0
    #: Phases of the resampler, 0 (off) or 2 to 64. What follows is not looked at when it is off.
    phases: int = 0
    #: Taps of each phase, 1 to 16.
    phase_taps: int = 0
    #: How the resampler reads its prototype: in wrapped phase, as the Rust original, or straight.
    straight: bool = False
    #: Values into the resampler for each one out of it, 1/64 to 64; a float32 exactly.
    step: float = 1.0
    #: What thins by r: integrators and combs, or, where it is true, sums of neighbours, for which r
    #: is a power of two. Both give the same levels.
    thinning: bool = False

    def crossing(self, prefix: str = "") -> dict[str, Any]:
        """The settings by the names of the archive's parameters, which begin with the prefix."""
        crossed = {}
        for field in fields(self):
            checked = arrays.number if field.name == "step" else arrays.whole
            crossed[prefix + field.name] = checked(field.name, getattr(self, field.name))
        return crossed
