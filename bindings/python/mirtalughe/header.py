"""What mirtalughe.h says, read from it: sizes, refusals, answers and calls. The header is the one place where they stand."""
import ctypes
import re
from dataclasses import dataclass
from enum import IntEnum
from pathlib import Path
from typing import Any

HERE = Path(__file__).resolve().parent
NAME = "mirtalughe.h"
INSTALLED, REPOSITORY = HERE / NAME, HERE.parents[2] / "crates/chart_c/include" / NAME
TEXT = (INSTALLED if INSTALLED.is_file() else REPOSITORY).read_text()
PLAIN = re.sub(r"/\*.*?\*/", "", TEXT, flags=re.S)

KINDS: dict[str, Any] = {
    "bool": ctypes.c_bool, "double": ctypes.c_double, "size_t": ctypes.c_size_t,
    "int8_t": ctypes.c_int8, "int16_t": ctypes.c_int16, "int32_t": ctypes.c_int32, "int64_t": ctypes.c_int64,
    "uint8_t": ctypes.c_uint8, "uint16_t": ctypes.c_uint16, "uint32_t": ctypes.c_uint32, "uint64_t": ctypes.c_uint64,
}  # fmt: skip


def size(name: str) -> int:
    """A size of the header, worked out; those with an argument, such as PAIRS_ROOM, are none."""
    body = re.search(rf"^#define MIRTALUGHE_{name} (.+)$", PLAIN, re.M)
    if body is None:
        raise AttributeError(f"mirtalughe.h has no size MIRTALUGHE_{name}")
    told = re.sub(r"MIRTALUGHE_(\w+)(\(|\b)", lambda m: f"room({m[1]!r}, " if m[2] else str(size(m[1])), body[1])
    return int(eval(told.replace("/", "//"), {"room": room}))


def room(name: str, count: int) -> int:
    """A size with an argument, n."""
    body = re.search(rf"^#define MIRTALUGHE_{name}\(n\) (.+)$", PLAIN, re.M)
    if body is None:
        raise AttributeError(f"mirtalughe.h has no size MIRTALUGHE_{name}(n)")
    return int(eval(body[1].replace("/", "//"), {"n": count}))


def numbers(enum: str) -> dict[str, int]:
    """The names of an enum, without the library's own, and their numbers."""
    body = re.search(rf"typedef enum \{{([^}}]*)\}} mirtalughe_{enum};", PLAIN)
    if body is None:
        raise AttributeError(f"mirtalughe.h has no enum mirtalughe_{enum}")
    return {name: int(number) for name, number in re.findall(r"MIRTALUGHE_(\w+) = (\d+)", body[1])}


def sentences() -> dict[int, str]:
    """What each refusal means: the comment above it, without its place."""
    body = TEXT[: TEXT.index("} mirtalughe_refusal;")].rpartition("typedef enum {")[2]
    found = {}
    for comment, number in re.findall(r"/\*(.*?)\*/\s*MIRTALUGHE_\w+ = (\d+)", body, re.S):
        said: str = " ".join(comment.split()).partition(". Place")[0]
        found[int(number)] = re.sub(r"MIRTALUGHE_(\w+)", lambda m: str(size(str(m[1]))), said)
    return found


def structs() -> dict[str, Any]:
    """Every answer as a ctypes structure; one may stand in a later one."""
    kinds = dict(KINDS)
    for body, name in re.findall(r"typedef struct \{(.*?)\} (\w+);", PLAIN, re.S):
        told = re.findall(r"(\w+) ([\w, ]+);", body)
        fields = [(field, kinds[kind]) for kind, names in told for field in names.split(", ")]
        kinds[name] = type(name, (ctypes.Structure,), {"_fields_": fields})
    return kinds


@dataclass(frozen=True)
class Parameter:
    name: str
    kind: Any
    pointer: bool


@dataclass(frozen=True)
class Call:
    """A call. Behind a pointer stands its length."""

    name: str
    answer: Any
    parameters: tuple[Parameter, ...]


def calls() -> dict[str, Call]:
    """Every call, by its name without `mirtalughe_`."""
    kinds, found = structs(), {}
    for answer, name, given in re.findall(r"^(\w+) mirtalughe_(\w+)\(([^)]*)\);", PLAIN, re.M):
        told = (re.fullmatch(r"(?:const )?(\w+) (\*?)(\w+)", word.strip()) for word in given.split(","))
        parameters = tuple(Parameter(p[3], kinds[p[1]], bool(p[2])) for p in told if p)
        if len(parameters) != given.count(",") + 1:
            raise ValueError(f"mirtalughe_{name}({given}) is not understood")
        found[name] = Call(name, kinds[answer], parameters)
    return found


CALLS = calls()
SENTENCES = sentences()
Fault = IntEnum("Fault", {name: number for name, number in numbers("refusal").items() if number})  # type: ignore[misc]
