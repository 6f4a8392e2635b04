"""Archive block files, whole and in pieces, and reports over them."""
import ctypes
import threading
from typing import Iterator, NamedTuple, Sequence, Union

from ._library import calls
from .refusals import Data, Refused, done, lend, lend_buffer

BLOCK = 512
ROWS_PER_BLOCK = 15
Buffer = Union[bytearray, memoryview]


class Row(NamedTuple):
    """A row of an archive: a reception that was KEPT or LOOSE."""

    time: int
    loose: bool
    data: bytes


class Salvaged(NamedTuple):
    """What salvage saved: an archive, the positions of the blocks that were dropped, and how many rows remain."""

    archive: bytearray
    dropped: list[int]
    rows: int


def _size() -> ctypes.c_size_t:
    return ctypes.c_size_t()


def _list(kind, numbers: Sequence[int], most: int):
    """Numbers as C has them, each tested."""
    if any(not 0 <= n <= most for n in numbers):
        raise ValueError(f"a number of the list is not from 0 to {most}")
    return (kind * len(numbers))(*numbers), len(numbers)


def verify(archive: Data) -> int:
    """How many rows an archive has. Refused: 16, 12 with the position.

    >>> verify(bytes(1024))
    0
    """
    rows, position = _size(), _size()
    done(calls.archive_verify(*lend(archive), ctypes.byref(rows), ctypes.byref(position)), position)
    return rows.value


def append(archive: Buffer, time: int, loose: bool, data: Data) -> None:
    """Appends a row to an archive; every block is looked at. Refused: 16, 12 with the position, the check's, 6."""
    position = _size()
    lent = lend_buffer(archive)
    done(calls.archive_append(*lent, *lend(data), time, bool(loose), ctypes.byref(position)), position)


def salvage(damaged: Data) -> Salvaged:
    """The rows of the sound blocks of a damaged archive, packed again. Refused: 16."""
    lent, size = lend(damaged)
    out, most = bytearray(size), size // BLOCK
    positions, dropped, rows = (ctypes.c_uint64 * most)(), _size(), _size()
    numbers = ctypes.byref(dropped), ctypes.byref(rows)
    done(calls.archive_salvage(lent, size, *lend_buffer(out), positions, most, *numbers))
    return Salvaged(out, list(positions[: dropped.value]), rows.value)


def _row(lent, size: int, index: int) -> Row:
    row, time = (ctypes.c_uint8 * 23)(), ctypes.c_uint64()
    done(calls.archive_row(lent, size, index, row, 23, ctypes.byref(time)))
    return Row(time.value, row[0] != 0, bytes(row[2 : 2 + row[1]]))


class Archive:
    """An archive in a bytearray of whole blocks, which is changed in place and cannot be resized meanwhile.

    >>> archive = Archive(bytearray(1024))
    >>> archive.append(1000, False, bytes.fromhex("D5090102030400E8"))
    >>> len(archive), archive[0].time
    (1, 1000)
    """

    def __init__(self, buffer: Buffer) -> None:
        self.buffer = buffer
        self._lock = threading.Lock()
        self._lent, self._length = lend_buffer(buffer)
        self._count()

    def _count(self) -> None:
        rows, position = _size(), _size()
        references = ctypes.byref(rows), ctypes.byref(position)
        done(calls.archive_verify(self._lent, self._length, *references), position)
        self._rows = rows.value

    def __len__(self) -> int:
        return self._rows

    def __getitem__(self, index: int) -> Row:
        with self._lock:
            if not -self._rows <= index < self._rows:
                raise IndexError(f"the archive has {self._rows} rows")
            return _row(self._lent, self._length, index % self._rows)

    def __iter__(self) -> Iterator[Row]:
        return (self[i] for i in range(len(self)))

    def append(self, time: int, loose: bool, data: Data) -> None:
        """Appends a row; only one block is read. Refused: the check's, 6 no further block."""
        position = _size()
        lent, length = lend(data)
        with self._lock:
            where = self._lent, self._length, self._rows
            number = calls.archive_append_at(*where, lent, length, time, bool(loose), ctypes.byref(position))
            done(number, position)
            self._rows += 1

    def remove(self, identities: Sequence[int]) -> int:
        """Removes the rows of up to 32 transmitters; answers how many blocks are no longer needed. Refused: 10."""
        freed, position = _size(), _size()
        listed = _list(ctypes.c_uint32, identities, 2**32 - 1)
        references = ctypes.byref(freed), ctypes.byref(position)
        with self._lock:
            done(calls.archive_remove(self._lent, self._length, *listed, *references), position)
            self._count()
        return freed.value

    def cut(self, rows: int) -> None:
        """Leaves the first rows. Refused: 10 where it has fewer."""
        position = _size()
        with self._lock:
            done(calls.archive_cut(self._lent, self._length, rows, ctypes.byref(position)), position)
            self._rows = rows


class Block:
    """One block of an archive.

    >>> block = Block()
    >>> block.put(15, Row(1000, False, bytes.fromhex("D5090102030400E8")))
    >>> [row.time for row in block]
    [1000]
    """

    def __init__(self, data: Data = bytes(BLOCK)) -> None:
        self._bytes = (ctypes.c_uint8 * len(data)).from_buffer_copy(data)
        self._lock = threading.Lock()

    def __bytes__(self) -> bytes:
        return bytes(self._bytes)

    def put(self, n: int, row: Row) -> None:
        """Puts row `n` of an archive. Refused: 16, 12, the check's."""
        position = _size()
        lent, length = lend(row.data)
        here = self._bytes, len(self._bytes), n
        with self._lock:
            number = calls.archive_put_row(*here, lent, length, row.time, bool(row.loose), ctypes.byref(position))
            done(number, position)

    def put_rows(self, first: int, rows: Sequence[Row]) -> None:
        """Puts rows `first`, first + 1 and so on, all or none. Refused: 16, 12, the check's with the row's place, 6."""
        position = _size()
        times = _list(ctypes.c_uint64, [row.time for row in rows], 2**64 - 1)
        records = b"".join(
            bytes([bool(r.loose), min(len(r.data), 255)]) + bytes(r.data)[:21].ljust(21, b"\0") for r in rows
        )
        here = self._bytes, len(self._bytes), first
        with self._lock:
            number = calls.archive_put_rows(*here, *times, records, len(records), ctypes.byref(position))
            done(number, position)

    def cut(self, rows: int) -> None:
        """Leaves its first rows. Refused: 16, 12."""
        with self._lock:
            done(calls.archive_cut_block(self._bytes, len(self._bytes), rows))

    def __iter__(self) -> Iterator[Row]:
        for i in range(ROWS_PER_BLOCK):
            try:
                yield _row(self._bytes, len(self._bytes), i)
            except Refused:
                return


class Scan:
    """An archive that is verified in pieces of whole blocks.

    >>> scan = Scan()
    >>> scan.feed(bytes(1024))
    >>> scan.end()
    0
    """

    def __init__(self) -> None:
        self._numbers = (ctypes.c_uint64 * 4)()
        self._lock = threading.Lock()

    def feed(self, piece: Data) -> None:
        """Takes the next piece. Refused: 16."""
        with self._lock:
            done(calls.scan_feed(self._numbers, *lend(piece)))

    def end(self) -> int:
        """How many rows the pieces have, as one archive. Refused: 12 with the position."""
        rows, position = _size(), _size()
        with self._lock:
            done(calls.scan_end(self._numbers, ctypes.byref(rows), ctypes.byref(position)), position)
        return rows.value


class Packed(NamedTuple):
    """What a packer did with a piece: the blocks that are full now, and the positions in it that were dropped."""

    blocks: bytes
    dropped: list[int]


class Packer:
    """Packs the rows of sound blocks again, without those of up to 32 transmitters: salvage and removal in pieces.

    >>> packer = Packer()
    >>> packer.feed(bytes(1024))
    Packed(blocks=b'', dropped=[])
    >>> packer.end()
    b''
    """

    def __init__(self, identities: Sequence[int] = ()) -> None:
        self._numbers, self._waiting = (ctypes.c_uint64 * 2)(), (ctypes.c_uint8 * 960)()
        self._identities = _list(ctypes.c_uint32, identities, 2**32 - 1)
        self._lock = threading.Lock()

    def feed(self, piece: Data) -> Packed:
        """Takes the sound blocks of the next piece. Refused: 16, 10 more than 32 transmitters."""
        lent, size = lend(piece)
        out, most, dropped = (ctypes.c_uint8 * size)(), size // BLOCK, _size()
        positions = (ctypes.c_uint64 * most)()
        with self._lock:
            before = self._numbers[1]
            mine = self._numbers, self._waiting
            to = out, size, positions, most
            done(calls.pack_feed(*mine, lent, size, *self._identities, *to, ctypes.byref(dropped)))
            written = (self._numbers[1] - before) * BLOCK
        return Packed(bytes(out)[:written], list(positions[: dropped.value]))

    def end(self) -> bytes:
        """The last block, where rows wait for one; else no bytes."""
        out, length = (ctypes.c_uint8 * BLOCK)(), _size()
        with self._lock:
            done(calls.pack_end(self._numbers, self._waiting, out, BLOCK, ctypes.byref(length)))
        return bytes(out[: length.value])


class Line(NamedTuple):
    """What one transmitter has in a report: its TXID as a number, its rows, and their earliest and latest time."""

    identity: int
    kept: int
    loose: int
    earliest: int
    latest: int


class Report:
    """The yearly report: up to 64 archives, at most 256 transmitters.

    >>> report = Report()
    >>> report.add(bytes(1024))
    >>> report.archives, report.kept, report.loose, list(report)
    (1, 0, 0, [])
    """

    def __init__(self) -> None:
        self._numbers, self._lines = (ctypes.c_uint64 * 4)(), (ctypes.c_uint64 * 1280)()
        self._lock = threading.Lock()
        calls.report_empty(self._numbers, self._lines)

    @property
    def archives(self) -> int:
        """How many archives were added."""
        return self._numbers[0]

    @property
    def kept(self) -> int:
        """All KEPT rows."""
        return self._numbers[2]

    @property
    def loose(self) -> int:
        """All LOOSE rows."""
        return self._numbers[3]

    def add(self, archive: Data) -> None:
        """Adds the rows of an archive. Refused, and nothing added: 16, 12 with the position, 10 a 65th archive, 17."""
        position = _size()
        with self._lock:
            number = calls.report_add(self._numbers, self._lines, *lend(archive), ctypes.byref(position))
            done(number, position)

    def line(self, index: int) -> Line:
        """Line `index`, in order of identity. Refused: 10."""
        line = (ctypes.c_uint64 * 5)()
        with self._lock:
            done(calls.report_line(self._numbers, self._lines, index, line))
        return Line(*line)

    def __len__(self) -> int:
        return self._numbers[1]

    def __iter__(self) -> Iterator[Line]:
        return (self.line(i) for i in range(len(self)))

    def share(self, received: int) -> int:
        """The share of its rows in a received figure, in whole thousandths rounded down. Refused: 10."""
        thousandths = ctypes.c_uint64()
        with self._lock:
            done(calls.report_share(self._numbers, self._lines, received, ctypes.byref(thousandths)))
        return thousandths.value


class Adding:
    """An archive that is added to a report in pieces; the report changes at the end alone.

    >>> report = Report()
    >>> adding = Adding(report)
    >>> adding.feed(bytes(1024))
    >>> adding.end()
    >>> report.archives
    1
    """

    def __init__(self, report: Report) -> None:
        self._report = report
        self._numbers, self._lines = (ctypes.c_uint64 * 8)(), (ctypes.c_uint64 * 1280)()
        with report._lock:
            calls.report_start(report._numbers, report._lines, self._numbers, self._lines)

    def _both(self):
        return self._report._numbers, self._report._lines, self._numbers, self._lines

    def feed(self, piece: Data) -> None:
        """Takes the next piece. Refused: 16."""
        with self._report._lock:
            done(calls.report_feed(*self._both(), *lend(piece)))

    def end(self) -> None:
        """Adds what the pieces were, as one archive. Refused: 12 with the position, 10, 17."""
        position = _size()
        with self._report._lock:
            done(calls.report_end(*self._both(), ctypes.byref(position)), position)
