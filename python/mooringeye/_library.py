"""The shared object: where it is found, and its functions with every number checked before it goes to C.

`calls.crc8(data, length)` is mooringeye_crc8, and so on for every line of EXPORTS.
"""
import ctypes
import os
from pathlib import Path
from typing import Any, Callable

from ._exports import EXPORTS

_HERE = Path(__file__).resolve().parent
_NUMBERS: dict[str, Any] = {
    "u8": ctypes.c_uint8,
    "u16": ctypes.c_uint16,
    "u32": ctypes.c_uint32,
    "u64": ctypes.c_uint64,
    "size": ctypes.c_size_t,
    "bool": ctypes.c_bool,
    "none": None,
}
_MOST = {"u8": 2**8 - 1, "u16": 2**16 - 1, "u32": 2**32 - 1, "u64": 2**64 - 1, "size": 2**64 - 1, "bool": 1}


def _path() -> str:
    """The file that MOORINGEYE_LIBRARY names, that of this package, of the repository, or one that is installed."""
    named = os.environ.get("MOORINGEYE_LIBRARY")
    if named:
        return named
    for file in (_HERE / "libmooringeye.so", _HERE.parent.parent / "target/library/libmooringeye.so"):
        if file.exists():
            return str(file)
    return "libmooringeye.so.1"


def _load() -> ctypes.PyDLL:
    try:
        # PyDLL holds Python's lock during a call, so no other thread can lend the same memory meanwhile.
        return ctypes.PyDLL(_path())
    except OSError as error:
        raise ImportError(
            f"{error}. Install the wheel, which has the library inside; or run bin/library in the repository; "
            "or let MOORINGEYE_LIBRARY name libmooringeye.so"
        ) from error


def _checked(name: str, function: Callable[..., Any], words: list[str]) -> Callable[..., Any]:
    """The function, which refuses a number that its parameter does not hold."""
    limits = [(i, _MOST[word]) for i, word in enumerate(words) if word in _MOST]

    def call(*arguments: Any) -> Any:
        for i, most in limits:
            if not 0 <= arguments[i] <= most:
                raise ValueError(f"{name}: {arguments[i]} is not a number from 0 to {most}")
        return function(*arguments)

    return call


class _Calls:
    """Every function of the library, by its name without `mooringeye_`."""

    def __init__(self, library: ctypes.PyDLL) -> None:
        for name, text in EXPORTS.items():
            answer, *words = text.split()
            function = getattr(library, name)
            function.restype = _NUMBERS[answer]
            function.argtypes = [ctypes.c_void_p if ":" in word else _NUMBERS[word] for word in words]
            setattr(self, name.removeprefix("mooringeye_"), _checked(name, function, words))

    def __getattr__(self, name: str) -> Callable[..., Any]:
        raise AttributeError(f"libmooringeye has no function mooringeye_{name}")


calls = _Calls(_load())
