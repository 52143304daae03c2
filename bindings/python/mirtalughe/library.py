"""The shared library, and one way to call it: lists as arrays with their lengths, whole numbers held to their range."""
import ctypes
import os
from pathlib import Path
from typing import Any

from .header import CALLS, Call
from .refusal import Refused

HERE = Path(__file__).resolve().parent


def opened() -> dict[str, Any]:
    name = os.environ.get("MIRTALUGHE_LIBRARY") or HERE / "libmirtalughe.so"
    library, found = ctypes.CDLL(str(name)), {}
    for call in CALLS.values():
        function = library[f"mirtalughe_{call.name}"]
        function.restype = call.answer
        function.argtypes = [ctypes.POINTER(p.kind) if p.pointer else p.kind for p in call.parameters]
        found[call.name] = function
    return found


FUNCTIONS = opened()


def fitting(kind: Any, value: int) -> int:
    """The value, where the C type holds it: ctypes would cut it otherwise."""
    if kind(value).value != value:
        raise OverflowError(f"{value} does not fit in {kind.__name__.removeprefix('c_')}")
    return value


def array(kind: Any, values: Any) -> Any:
    """An array of C numbers, a copy."""
    whole = [fitting(kind, value) for value in values]
    return (kind * len(whole))(*whole)


def call(name: str, *given: Any) -> Any:
    """Calls by the header's name: an array for a pointer and the length behind it, a whole number for any other argument.
    A refusal is raised."""
    told: Call = CALLS[name]
    words: list[Any] = []
    rest = list(given)
    for before, parameter in zip((None, *told.parameters), told.parameters):
        if parameter.pointer:
            words.append(rest.pop(0))
        elif before and before.pointer and parameter.kind is ctypes.c_size_t:
            words.append(len(words[-1]))
        else:
            words.append(fitting(parameter.kind, rest.pop(0)))
    if rest:
        raise TypeError(f"{name} takes {len(given) - len(rest)} arguments, {len(given)} were given")
    answer = FUNCTIONS[name](*words)
    if isinstance(answer, ctypes.Structure) and answer.number:
        given_to = next((p.name for p in told.parameters if p.pointer), "")
        raise Refused(answer.number, answer.place, given_to)
    return answer
