"""A filter design laid as the resampler reads it."""

from __future__ import annotations

import numpy as np
from numpy.typing import ArrayLike, NDArray

from . import arrays


def lay_prototype(natural: ArrayLike, phases: int, phase_taps: int) -> NDArray[np.float32]:
    """The prototype, float32, of a design in natural order, for wrapped phase.

    `natural` is a filter for `phases` times the rate, with a gain of `phases`: float32, phases ×
    phase_taps numbers, or one more, as symmetric filters of odd length have. Its number
    (t + 1) × phases - p comes to t × phases + p: the row of each tap backwards. So number 0 is used
    nowhere, and 0.0 stands where the design has ended. Straight phase reads a design as it is.
    """
    phases, taps = arrays.whole("phases", phases), arrays.whole("phase_taps", phase_taps)
    design = arrays.floats("natural", natural)
    wanted = phases * taps
    if wanted == 0 or design.size not in (wanted, wanted + 1):
        told = f"{phases} × {taps} = {wanted}"
        raise ValueError(f"natural has {design.size} numbers; {told} are wanted, or one more")
    ended = np.append(design[1:], np.zeros(wanted + 1 - design.size, np.float32))
    return ended.reshape(taps, phases)[:, ::-1].ravel()
