"""The gauge line: cell samples in, levels out."""

from __future__ import annotations

from dataclasses import fields
from typing import Any, NamedTuple

import numpy as np
from numpy.typing import ArrayLike, NDArray

from . import arrays, raw
from .library import State, call
from .settings import Settings

#: Levels that a run makes room for at a time.
SPAN = 65536


class Moved(NamedTuple):
    """What a feed did: how many samples it took and how many levels it wrote."""

    taken: int
    written: int


class Line:
    """A line, which goes on from feed to feed: how a stream is cut into feeds changes no level.

    `taps` are the FIR's, int16 in 32768ths, at most 128; none turn the FIR off. `prototype` is the
    resampler's, float32, phases × phase_taps long, tap t of phase p at t × phases + p:
    `lay_prototype` lays a filter design so. Both are copied. Raises Refusal 1, 2, 23, 3, 5, 6, 11,
    12, 13 or 14.

    Copies and pickles are made by parking: they go on as the line would have.
    """

    def __init__(self, settings: Settings, taps: ArrayLike = (), prototype: ArrayLike = ()) -> None:
        self._state = State(raw.Line)
        call("line_open", self._state, **crossing(settings, taps, prototype, "wanted_"))

    def feed(self, samples: ArrayLike, span: NDArray[np.float32]) -> Moved:
        """Takes int32 samples from the front of those lent, writes levels to that of `span`.

        It stops where the span is full, or where no level is due and no sample is left; go on with
        samples[taken:]. Places of the span behind the levels stay as they were. Both are rows of
        any length and strides. A level of 1.0 is 32768 behind the CIC decimator.
        """
        lent = arrays.integers("samples", samples, np.int32)
        own = arrays.span("span", span)
        written_to = np.require(own, np.float32, ["C", "A", "W"])
        if np.may_share_memory(lent, written_to):
            raise ValueError("samples and span overlap")
        moved = Moved(**call("line_feed", self._state, samples=lent, out=written_to))
        if written_to is not own:
            own[: moved.written] = written_to[: moved.written]
        return moved

    def run(self, samples: ArrayLike) -> NDArray[np.float32]:
        """Takes all int32 samples, a row, and answers every level that they make, float32.

        A second run goes on where this one ended: two runs make the levels of one over all samples.
        """
        rest = arrays.integers("samples", samples, np.int32)
        pieces = []
        while True:
            span = np.empty(SPAN, np.float32)
            moved = self.feed(rest, span)
            pieces.append(span[: moved.written])
            rest = rest[moved.taken :]
            if moved.written < span.size:
                return np.concatenate(pieces)

    @property
    def cuts(self) -> int:
        """How many values were cut to 16 bits since the opening or the last reset.

        Scaled sums and, where the FIR is on, its sums, of all samples taken; it holds at 2^32 - 1.
        The count runs ahead of the levels: filters hold a cut value back.
        """
        return self._state.fields.cuts

    def reset(self) -> None:
        """Makes the line what its opening made it."""
        call("line_reset", self._state)

    def park(self) -> bytes:
        """The line as a tap sheet of 98 to 5,640 bytes, which `take_up` goes on from."""
        sheet = np.empty(call("line_parked_len", self._state)["bytes"], np.uint8)
        call("line_park", self._state, span=sheet)
        return sheet.tobytes()

    @classmethod
    def take_up(cls, sheet: bytes) -> Line:
        """The line that was parked: its levels and cuts are those of a line that was never parked.

        Raises Refusal 16 or 17 where the bytes are no tap sheet, 21 or 15 where that is no line.
        """
        line = cls.__new__(cls)
        line._state = State(raw.Line)
        call("line_take_up", line._state, bytes=arrays.octets("sheet", sheet))
        return line

    @property
    def settings(self) -> Settings:
        """The settings. Those of a part that is off are 0."""
        found = {}
        for field in fields(Settings):
            # As the default is: a flag crosses as a number.
            found[field.name] = type(field.default)(getattr(self._state.fields, field.name))
        return Settings(**found)

    @property
    def taps(self) -> NDArray[np.int16]:
        """The FIR's taps, a copy."""
        own = self._state.fields
        return np.array(own.taps[: own.tap_count], np.int16)

    @property
    def prototype(self) -> NDArray[np.float32]:
        """The resampler's prototype, a copy."""
        own = self._state.fields
        return np.array(own.prototype[: own.phases * own.phase_taps], np.float32)

    def __repr__(self) -> str:
        return f"<{self.settings}, {self.taps.size} taps, {self.cuts} cuts>"

    def __reduce__(self) -> tuple[Any, ...]:
        return type(self).take_up, (self.park(),)


def plan(
    settings: Settings, taps: ArrayLike, prototype: ArrayLike, pieces: ArrayLike, spans: ArrayLike
) -> tuple[NDArray[np.uint64], NDArray[np.uint64]]:
    """What each feed of a freshly opened line would take and write, for every choice of samples.

    Feed i is lent pieces[i] samples and a span of spans[i] places; what it leaves untaken is not
    carried over. Answers the samples taken and the levels written, both uint64, one for each feed.
    Raises the Refusals of an opening, then 22: rows of two lengths, over 4,096 feeds, or a length
    over 65,536.
    """
    lengths = {
        "pieces": arrays.integers("pieces", pieces, np.uint64),
        "spans": arrays.integers("spans", spans, np.uint64),
    }
    taken, written = (np.zeros(lengths["pieces"].size, np.uint64) for _ in range(2))
    opening = crossing(settings, taps, prototype, "")
    call("plan", **opening, **lengths, taken=taken, written=written)
    return taken, written


def crossing(
    settings: Settings, taps: ArrayLike, prototype: ArrayLike, prefix: str
) -> dict[str, Any]:
    """An opening by the names of the archive's parameters, which begin with the prefix."""
    return settings.crossing(prefix) | {
        prefix + "taps": arrays.integers("taps", taps, np.int16),
        prefix + "prototype": arrays.floats("prototype", prototype),
    }
