"""The journal of the plant's tool: its state file, and what it decides at a start (docs/CRASH.md)."""
import ctypes
from typing import NamedTuple, Optional, Sequence

from ._library import calls
from .archives import BLOCK, Row
from .refusals import Data, done, lend

STATE = 4096
IMAGE = 2560
TAIL = 512
NAME = 255
JUDGEMENTS = ("SAME", "LONGER", "TORN", "OTHER")


class State(NamedTuple):
    """What a state file holds (docs/FORMATS.md). `image` is a checkpoint, which `Collector` restores.

    >>> from mooringeye import Collector
    >>> state = State(7, bytes(Collector().checkpoint()))
    >>> State.read(state.write()) == state
    True
    """

    lines: int
    image: bytes
    name: bytes = b""
    counted: int = 0
    had: int = 0
    number: int = 0
    last: bytes = bytes(BLOCK)
    log: Optional[tuple[int, int, int, bytes]] = None
    out: Optional[tuple[int, int, int]] = None

    @staticmethod
    def read(data: Data) -> "State":
        """The state of a file of version 1 or 2. Refused: 16 another length, 11 bytes that no state has."""
        numbers = (ctypes.c_uint64 * 14)()
        name, last = (ctypes.c_uint8 * NAME)(), (ctypes.c_uint8 * BLOCK)()
        image, tail = (ctypes.c_uint8 * IMAGE)(), (ctypes.c_uint8 * TAIL)()
        done(calls.state_accept(*lend(data), numbers, name, last, image, tail))
        n = list(numbers)
        log = (n[6], n[7], n[8], bytes(tail[: n[9]])) if n[5] else None
        out = (n[11], n[12], n[13]) if n[10] else None
        return State(n[0], bytes(image), bytes(name[: n[4]]), n[1], n[2], n[3], bytes(last), log, out)

    def write(self) -> bytes:
        """The 4,096 bytes of the file. Refused: 11 a state that no run has."""
        offset, device, inode, tail = self.log or (0, 0, 0, b"")
        length, out_device, out_inode = self.out or (0, 0, 0)
        numbers = [self.lines, self.counted, self.had, self.number, len(self.name)]
        numbers += [int(self.log is not None), offset, device, inode, len(tail)]
        numbers += [int(self.out is not None), length, out_device, out_inode]
        if any(not 0 <= n < 2**64 for n in numbers):
            raise ValueError("a number of a state is not from 0 to 2^64 - 1")
        parts = ((self.name, NAME), (self.last, BLOCK), (self.image, IMAGE), (tail, TAIL))
        if any(len(part) > size for part, size in parts):
            raise ValueError("a part of a state is too long")
        lent = [(ctypes.c_uint8 * size)(*part) for part, size in parts]
        file = (ctypes.c_uint8 * STATE)()
        done(calls.state_write((ctypes.c_uint64 * 14)(*numbers), *lent, file))
        return bytes(file)


def judge(last: Data, rows: int, block: Data) -> str:
    """Compares the block with the last counted row with the state's copy: SAME, LONGER, TORN or OTHER.

    >>> judge(bytes(512), 1, bytes(512))
    'OTHER'
    """
    copy, size = lend(last)
    return JUDGEMENTS[calls.journal_judge(copy, size, rows, *lend(block))]


def _records(rows: Sequence[Row]):
    times = (ctypes.c_uint64 * len(rows))(*(row.time for row in rows))
    records = b"".join(bytes([row.loose, len(row.data)]) + row.data.ljust(21, b"\0") for row in rows)
    return times, len(rows), *lend(records)


def compare(rows: Sequence[Row], leftovers: Sequence[Row]) -> tuple[int, int]:
    """How many rows agree with the leftovers, from the first on, and how many leftovers are put aside."""
    agreed, going = ctypes.c_size_t(), ctypes.c_size_t()
    found = ctypes.byref(agreed), ctypes.byref(going)
    done(calls.journal_compare(*_records(rows), *_records(leftovers), *found))
    return agreed.value, going.value


class Run:
    """The blocks after the counted rows, in pieces, as long as they belong to the archive.

    >>> run = Run(limit=2**32)
    >>> run.feed(bytes(1024))
    >>> run.blocks, run.rows, run.ended
    (0, 0, True)
    """

    def __init__(self, limit: int, number: int = 0) -> None:
        if not 0 <= number < limit <= 2**32:
            raise ValueError("a file has 1 to 2^32 blocks, and a block's number is below that")
        self._numbers = (ctypes.c_uint64 * 5)(limit, number, 0, 0, 0)

    def feed(self, piece: Data) -> None:
        """The next blocks. Refused: 16 a piece that isn't whole blocks."""
        done(calls.journal_scan(self._numbers, *lend(piece)))

    @property
    def blocks(self) -> int:
        """Blocks that belong to the run."""
        return self._numbers[2]

    @property
    def rows(self) -> int:
        """Their rows."""
        return self._numbers[3]

    @property
    def ended(self) -> bool:
        """Whether the run has ended."""
        return self._numbers[4] != 0
