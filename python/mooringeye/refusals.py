"""Why a call is refused, and how memory is lent to one."""
import ctypes
from typing import Any, Union

Data = Union[bytes, bytearray, memoryview]

# Each number with its name and what it says, as mooringeye.h has them.
REFUSALS: dict[int, tuple[str, str]] = {
    1: ("LENGTH", "the length is wrong"),
    2: ("SUM", "HASH is wrong, the sum"),
    3: ("NESTED", "addressed inside addressed, or encapsulating an addressed one"),
    4: ("NOT_ADDRESSED", "removal asked of a plain telegram"),
    5: ("TOO_LONG", "an addressed telegram of over 21 bytes"),
    6: ("SHORT_OUTPUT", "the output is too short for the result"),
    7: ("LATE", "the clock went back"),
    8: ("FULL", "2^64 - 1 receptions are counted"),
    9: ("NO_PLAN", "no lawful plan"),
    10: ("ARGUMENT", "an argument is out of its range"),
    11: ("NOT_ACCEPTED", "the state or the image is not accepted"),
    12: ("MISMATCH", "a block of an archive does not match"),
    13: ("CRC", "HASH is wrong, the CRC"),
    14: ("RESERVED_ADDRESS", "the address control of an ERP2 telegram is reserved"),
    15: ("MISFIT", "the fields of an ERP2 telegram do not fit its length"),
    16: ("SIZE", "not whole blocks, or over 2^32 of them"),
    17: ("TRANSMITTERS", "a 257th transmitter of a report"),
    18: ("UNLAWFUL", "the slot plan of a repeater of a site is not lawful"),
    19: ("OVERLAP", "transmissions of two repeaters of a site overlap"),
    255: ("WRONG_SIZE", "a slice does not have the size that the call asks for"),
}


class Refused(Exception):
    """A call was refused. `number` is the papers' number; `position` is that of a block, or the place of a row.

    >>> from mooringeye import check, Refused
    >>> try:
    ...     check(b"")
    ... except Refused as refused:
    ...     print(refused.number, refused.name, refused)
    1 LENGTH refused with 1: the length is wrong
    """

    def __init__(self, number: int, position: int = 0) -> None:
        self.number = number
        self.position = position
        self.name, self.text = REFUSALS.get(number, ("UNKNOWN", "a number that no call answers"))
        super().__init__(f"refused with {number}: {self.text}")


def done(number: int, position: Any = None) -> None:
    """Raises Refused unless the number is 0; `position` is the variable that the call may have written."""
    if number != 0:
        raise Refused(number, position.value if position is not None else 0)


def lend(data: Data) -> tuple[Any, int]:
    """Bytes to be read, where they lie, and how many they are."""
    if isinstance(data, bytes):
        return data, len(data)
    view = memoryview(data).cast("B")
    if view.readonly:
        return bytes(view), len(view)
    return (ctypes.c_uint8 * len(view)).from_buffer(view), len(view)


def lend_buffer(data: Union[bytearray, memoryview]) -> tuple[Any, int]:
    """Bytes to be changed, where they lie, and how many they are."""
    view = memoryview(data).cast("B")
    return (ctypes.c_uint8 * len(view)).from_buffer(view), len(view)
