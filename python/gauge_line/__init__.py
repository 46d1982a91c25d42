"""A gauge line, proved to give the levels that are defined for its samples: docs/python.md.

Samples are rows of int32, levels rows of float32. A call that the archive refuses raises Refusal.
"""

from pathlib import Path

from .environment import fp_environment_ok
from .explanation import Explanation, Range, Section, explain
from .line import Line, Moved, plan
from .prototype import lay_prototype
from .refusal import Refusal
from .settings import Settings

__version__ = Path(__file__).with_name("VERSION").read_text().strip()

__all__ = [
    "Explanation",
    "Line",
    "Moved",
    "Range",
    "Refusal",
    "Section",
    "Settings",
    "explain",
    "fp_environment_ok",
    "lay_prototype",
    "plan",
]
