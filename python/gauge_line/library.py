"""The shared object beside this file, and calls of its functions by their parameters' names."""

from __future__ import annotations

import ctypes
import re
from functools import lru_cache
from pathlib import Path
from typing import Any, NamedTuple

import numpy as np

from . import raw
from .refusal import Refusal

PREFIX = "gauge_raw_"
FILE = Path(__file__).with_name("libgauge_line.so")


class Function(NamedTuple):
    """A function of the archive; of each parameter name, type, and what a pointer points to."""

    function: Any
    parameters: list[tuple[str, Any, Any]]


def _load() -> dict[str, Function]:
    if not FILE.exists():
        raise ImportError(f"no {FILE}: `make python` leaves the package with it in target/python")
    library = ctypes.CDLL(str(FILE))
    functions = {}
    for name, (answer, parameters) in raw.FUNCTIONS.items():
        # An opening's name ends in the number of its state's layout.
        if not hasattr(library, name):
            raise ImportError(f"{FILE} has no {name}: it is of another version than the package")
        function = getattr(library, name)
        function.restype = answer
        function.argtypes = [kind for _, kind in parameters]
        pointed = [kind._type_ if hasattr(kind, "contents") else None for _, kind in parameters]
        functions[name] = Function(function, [(*both, to) for both, to in zip(parameters, pointed)])
    return functions


_FUNCTIONS = _load()


@lru_cache(None)
def declared(name: str) -> str:
    """The whole name of a function: with the prefix, and a layout's number where it has one."""
    whole = PREFIX + name
    if whole in _FUNCTIONS:
        return whole
    numbered = [one for one in _FUNCTIONS if re.fullmatch(whole + r"_\d+", one)]
    if len(numbered) != 1:
        raise TypeError(f"no function {name}")
    return numbered[0]


class State:
    """A state of the archive, zeros at first, with each field ready to be lent."""

    def __init__(self, kind: type[ctypes.Structure]) -> None:
        self.fields = kind()
        self.lent = {
            name: ctypes.pointer(each.from_buffer(self.fields, getattr(kind, name).offset))
            for name, each in kind._fields_
        }


def call(name: str, state: State | None = None, /, **given: Any) -> dict[str, Any]:
    """Calls a function of the archive, or raises the Refusal that it answers.

    A parameter is what is `given` by its name, an array with its length behind it; else the field
    of the state by that name; else a place of this call's own, which is answered by that name.
    """
    whole = declared(name)
    function, parameters = _FUNCTIONS[whole]
    fields, lent = (None, {}) if state is None else (state.fields, state.lent)
    places: dict[str, Any] = {}
    arguments = []
    for one, kind, pointed in parameters:
        if one in given:
            arguments.append(_handed(one, kind, pointed, given[one]))
        elif one in lent:
            arguments.append(lent[one] if pointed else getattr(fields, one))
        elif pointed:
            places[one] = pointed()
            arguments.append(ctypes.byref(places[one]))
        elif isinstance(given.get(one.removesuffix("_len")), np.ndarray):
            arguments.append(given[one.removesuffix("_len")].size)
        else:
            raise TypeError(f"{whole} wants {one}")
    number = function(*arguments)
    # A function that can't be refused answers nothing.
    if number:
        raise Refusal(number)
    return {one: getattr(place, "value", place) for one, place in places.items()}


def _handed(name: str, kind: Any, pointed: Any, value: Any) -> Any:
    if pointed is None:
        return value
    if value.dtype != pointed or not value.flags.c_contiguous:
        raise TypeError(f"{name}: an array of {value.dtype} can't be lent as {pointed.__name__}")
    return value.ctypes.data_as(kind)
