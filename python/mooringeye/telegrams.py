"""Subtelegrams of ERP1, telegrams of ERP2, and slot plans."""
import ctypes
from dataclasses import dataclass
from typing import Iterable, NamedTuple, Optional

from ._library import calls
from .refusals import Data, Refused, done, lend


def version() -> tuple[int, int, int]:
    """The version of the library: major, minor, patch."""
    packed = calls.version()
    return packed // 65_536, packed // 256 % 256, packed % 256


def crc8(data: Data) -> int:
    """CRC-8 with x^8 + x^2 + x + 1 from 0.

    >>> crc8(bytes([1, 2]))
    27
    """
    return calls.crc8(*lend(data))


def check(data: Data) -> None:
    """The check of a subtelegram: raises Refused with 1, 2, 3 or 13 where it is not valid."""
    done(calls.check(*lend(data)))


def same(a: Data, b: Data) -> bool:
    """Whether two subtelegrams are the same telegram: equal but for HASH and the level."""
    return calls.same(*lend(a), *lend(b))


@dataclass(frozen=True)
class Fields:
    """The fields of a subtelegram; destid is None for a plain one. IDs are in the order of transmission."""

    rorg: int
    data: bytes
    txid: bytes
    status: int
    destid: Optional[bytes] = None


def _of_length(name: str, value: bytes, length: int) -> bytes:
    if len(value) != length:
        raise ValueError(f"{name} has {len(value)} bytes, expected {length}")
    return bytes(value)


def read(data: Data) -> Fields:
    """The fields of a subtelegram.

    >>> read(bytes.fromhex("D5090102030400E8")).txid.hex()
    '01020304'
    """
    out = (ctypes.c_uint8 * 26)()
    done(calls.read(*lend(data), out, 26))
    f = bytes(out)
    return Fields(f[0], f[12 : 12 + f[1]], f[8:12], f[3], f[4:8] if f[2] else None)


def _written(size: int, call, *before) -> bytes:
    """What a call writes into the front of an output of `size` bytes."""
    out, length = (ctypes.c_uint8 * size)(), ctypes.c_size_t()
    done(call(*before, out, size, ctypes.byref(length)))
    return bytes(out[: length.value])


def build(fields: Fields) -> bytes:
    """The subtelegram of these fields. Refused: 10, 5.

    >>> build(Fields(0xD5, b"\\x09", bytes([1, 2, 3, 4]), 0)).hex().upper()
    'D5090102030400E8'
    """
    destid = _of_length("destid", fields.destid, 4) if fields.destid is not None else bytes(4)
    head = bytes([fields.rorg, min(len(fields.data), 255), fields.destid is not None, fields.status])
    packed = head + destid + _of_length("txid", fields.txid, 4) + bytes(fields.data)[:14].ljust(14, b"\0")
    return _written(21, calls.build, packed, len(packed))


def encapsulate(data: Data, destid: int) -> bytes:
    """A plain subtelegram addressed to a DESTID, whose highest byte is sent first. Refused: the check's, 3, 5."""
    return _written(21, calls.encapsulate, *lend(data), destid)


def decapsulate(data: Data) -> bytes:
    """What an addressed subtelegram carries. Refused: the check's, 4."""
    return _written(21, calls.decapsulate, *lend(data))


def repeat(setting: int, data: Data) -> bytes:
    """What a repeater set to 0, 1 or 2 sends for a valid subtelegram; no bytes for nothing.

    >>> repeat(1, bytes.fromhex("D5090102030400E8")).hex().upper()
    'D5090102030401E9'
    """
    sent = (ctypes.c_uint8 * 22)()
    done(calls.repeat(setting, *lend(data), sent, 22))
    return bytes(sent[1 : 1 + sent[0]])


@dataclass(frozen=True)
class Erp2:
    """An ERP2 telegram: `form` is the Length of a short form, 1 to 6; 0 for a long one, which has the other fields."""

    form: int
    originator: int
    data: bytes
    control: int = 0
    kind: int = 0
    hops: Optional[int] = None  # if it is not None, there is an extended header
    optional: bytes = b""
    subtype: Optional[int] = None
    destination: Optional[int] = None


def erp2_read(data: Data) -> Erp2:
    """Reads a length byte and Data_PL. Refused: 1, and of a long form 13, 14, 15.

    >>> erp2_read(bytes([5, 1, 2, 3, 4, 0xAA]))  # doctest: +ELLIPSIS
    Erp2(form=5, originator=16909060, data=b'\\xaa', ...
    """
    out, originator, destination = (ctypes.c_uint8 * 276)(), ctypes.c_uint64(), ctypes.c_uint32()
    done(calls.erp2_read(*lend(data), out, 276, ctypes.byref(originator), ctypes.byref(destination)))
    f = bytes(out)
    return Erp2(
        f[0],
        originator.value,
        f[11 : 11 + f[10]],
        f[1],
        f[3],
        f[5] if f[4] else None,
        f[261 : 261 + f[6]],
        f[8] if f[7] else None,
        destination.value if f[9] else None,
    )


def erp2_build(telegram: Erp2) -> bytes:
    """The length byte and Data_PL. Refused: 10, 14, 15."""
    t = telegram
    if len(t.data) > 250 or len(t.optional) > 15:
        raise Refused(15 if len(t.data) > 250 else 10)
    extended = t.hops is not None
    packed = bytes([t.form, t.control, extended, t.kind, extended, t.hops or 0, len(t.optional)])
    packed += bytes([t.subtype is not None, t.subtype or 0, t.destination is not None, len(t.data)])
    packed += bytes(t.data).ljust(250, b"\0") + bytes(t.optional).ljust(15, b"\0")
    return _written(256, calls.erp2_build, packed, len(packed), t.originator, t.destination or 0)


# ---- slot plans: rule 0 is the standard one, 1 the compressed one, 2 the one with a pause


def _slots(answer: int) -> tuple[int, int, int]:
    number, first, second, third = answer.to_bytes(4, "big")
    done(number)
    return first, second, third


def plan(level: int, duration: int, draw: int) -> tuple[int, int, int]:
    """The slots that a draw picks under the standard rule; 255 is no third one. Refused: 10, 9.

    >>> plan(0, 1000, 7)
    (0, 1, 27)
    """
    return _slots(calls.plan(level, duration, draw))


def plan_by(rule: int, level: int, transmissions: int, duration: int, draw: int) -> tuple[int, int, int]:
    """The same under a named rule, for two or three transmissions."""
    return _slots(calls.plan_by(rule, level, transmissions, duration, draw))


def is_lawful(rule: int, level: int, duration: int, slots: tuple[int, int, int]) -> bool:
    """Whether a plan is lawful under a rule, at a level and a duration in microseconds."""
    return calls.is_lawful(rule, level, duration, *slots)


class Repeater(NamedTuple):
    """What one repeater of a site sends."""

    rule: int
    level: int
    duration: int
    slots: tuple[int, int, int]


def site(repeaters: Iterable[Repeater]) -> tuple[int, int, int]:
    """The check of repeaters that hear one sender: the number, and the repeaters that it names.

    >>> site([Repeater(0, 1, 1999, (10, 20, 255)), Repeater(0, 1, 1999, (11, 22, 255))])
    (19, 0, 1)
    """
    packed = b"".join(bytes([r.rule, r.level]) + r.duration.to_bytes(4, "big") + bytes(r.slots) for r in repeaters)
    _, number, repeater, other = calls.site(packed, len(packed)).to_bytes(4, "big")
    return number, repeater, other
