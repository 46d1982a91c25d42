"""Whether floats are worked out as the proofs take them."""

import numpy as np


def fp_environment_ok() -> bool:
    """Whether this thread rounds to nearest, ties to even, and keeps subnormal numbers.

    The archive does not look: in another environment it gives other levels and refuses nothing. A
    module that was linked with -Ofast or -ffast-math changes it for the whole program when it is
    imported.
    """
    one, step = np.float32([1.0]), np.float32([2.0**-23])
    half, more = step / 2, step * np.float32(0.75)
    to_nearest = one + half == one and -one - half == -one and one + more == one + step
    least_normal, least = np.float32([2.0**-126]), np.frombuffer(b"\1\0\0\0", "<f4")
    kept = least_normal * np.float32(0.5) != 0 and least * np.float32(2.0**23) == least_normal
    return bool(to_nearest and kept)
