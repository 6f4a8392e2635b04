"""The collector: receptions go in, and each is answered KEPT, COPY or LOOSE."""
import ctypes
import threading
from typing import Any, NamedTuple, Optional, Sequence

from ._library import calls
from .archives import Row
from .refusals import Data, done, lend

KINDS = ("KEPT", "COPY", "LOOSE")
FORMATS = ("text", "csv", "json")
CSV_HEADING = "time,answer,refusal,telegram,send,txid,rorg,level\n"


class Totals(NamedTuple):
    """How many receptions there were, and what they were."""

    received: int
    kept: int
    copies: int
    loose: int
    damaged: int
    late: int


class Reply(NamedTuple):
    """The reply to a reception of a burst: its kind, or the number of its refusal, and what a repeater sends for it."""

    kind: Optional[str]
    number: int
    sent: bytes


class Lines(NamedTuple):
    """What was taken of a text: the bytes used, what `collect` prints, the KEPT and LOOSE rows, and how many lines."""

    used: int
    text: bytes
    rows: list[Row]
    lines: int


class Closing(NamedTuple):
    """What a telegram was heard when it closed: when it was opened, its bytes as first received, and its copies."""

    opened: int
    data: bytes
    copies: int


class Taken(NamedTuple):
    """What lines gave: the bytes used, rows in a format, the KEPT and LOOSE rows, how many lines, and what closed."""

    used: int
    text: bytes
    rows: list[Row]
    lines: int
    closings: list[Closing]


def first_line(text: Data) -> tuple[Optional[int], int]:
    """The setting that a first line says, None for another line, and its bytes with the newline, 0 where none ends it.

    >>> first_line(b"level 2\\n1000 D5\\n"), first_line(b"level 3\\n"), first_line(b"level 2")
    ((2, 8), (None, 8), (None, 0))
    """
    used = ctypes.c_uint64()
    setting = calls.first_line(*lend(text), ctypes.byref(used))
    return setting if setting < 3 else None, used.value


def read_line(line: Data) -> Optional[tuple[int, bytes]]:
    """The reception that a line says, without its newline: the time and the bytes; None for a line that is BAD.

    >>> read_line(b"1000 d509"), read_line(b"1000 d50")
    ((1000, b'\\xd5\\t'), None)
    """
    text, data, told = bytes(line) + b"\n", (ctypes.c_uint8 * 64)(), (ctypes.c_uint64 * 3)()
    number = calls.read_line(text, len(text), data, told)
    time, length, used = told
    return (time, bytes(data[:length])) if number == 0 and used == len(text) else None


def skip_lines(text: Data, most: int) -> tuple[int, int]:
    """The bytes of whole lines at the start of a text, at most `most`, and how many they are.

    >>> skip_lines(b"1000 D5\\nx\\nrest", 5)
    (10, 2)
    """
    told = (ctypes.c_uint64 * 2)()
    calls.skip_lines(*lend(text), most, told)
    return told[0], told[1]


def _rows(moments: Sequence[int], rows: Any, count: int) -> list[Row]:
    """Rows as a call wrote them: a time, and 23 bytes with LOOSE, the length and the telegram."""
    each = [bytes(rows[23 * i : 23 * i + 23]) for i in range(count)]
    return [Row(moments[i], r[0] != 0, r[2 : 2 + r[1]]) for i, r in enumerate(each)]


def _closing(c: bytes) -> Closing:
    """A closing as a call wrote it: when it was opened, a frame, and the copies."""
    return Closing(int.from_bytes(c[:8], "big"), c[9 : 9 + c[8]], int.from_bytes(c[30:], "big"))


class Collector:
    """A collector: started fresh, or restored from the 2,560 bytes of a checkpoint.

    >>> collector = Collector()
    >>> press = bytes.fromhex("D5090102030400E8")
    >>> [collector.take(press, time) for time in (1000, 1012)]
    ['KEPT', 'COPY']
    >>> collector.copies(0), collector.open, collector.latest
    (1, 1, 1012)
    """

    IMAGE = 2560
    MAX_BURST = 256

    def __init__(self, image: Optional[Data] = None) -> None:
        numbers = ctypes.c_uint64 * 8
        sizes = (ctypes.c_uint64 * 64, ctypes.c_uint8 * 64, ctypes.c_uint8 * 1344, ctypes.c_uint16 * 64, numbers)
        self._state = [array() for array in sizes]
        self._lock = threading.Lock()
        calls.collector_fresh(*self._state)
        if image is not None:
            done(calls.collector_restore(*self._state, *lend(image)))

    def take(self, data: Data, time: int) -> str:
        """Takes a reception at a time in milliseconds: KEPT, COPY or LOOSE. Refused: 8, the check's, 7."""
        lent, length = lend(data)
        with self._lock:
            answer = calls.collector_take(*self._state, lent, length, time)
        done(answer % 256)
        return KINDS[answer // 256]

    def burst(self, setting: int, receptions: Sequence[tuple[Data, int]]) -> list[Reply]:
        """Takes up to 256 receptions, each its bytes and a time. Refused, and nothing taken: 10.

        >>> press = bytes.fromhex("D5090102030400E8")
        >>> [(r.kind, r.number, r.sent.hex()) for r in Collector().burst(1, [(press, 1200), (press, 1000)])]
        [('KEPT', 0, 'd5090102030401e9'), (None, 7, '')]
        """
        n = len(receptions)
        if any(not 0 <= time < 2**64 for _, time in receptions):
            raise ValueError("a time is a number from 0 to 2^64 - 1")
        moments = (ctypes.c_uint64 * n)(*(time for _, time in receptions))
        records = b"".join(bytes([min(len(d), 255)]) + bytes(d)[:21].ljust(21, b"\0") for d, _ in receptions)
        replies = (ctypes.c_uint8 * (24 * n))()
        with self._lock:
            number = calls.collector_burst(*self._state, setting, moments, n, records, len(records), replies, 24 * n)
        done(number)
        each = (bytes(replies[at : at + 24]) for at in range(0, 24 * n, 24))
        return [Reply(None if r[1] else KINDS[r[0]], r[1], r[3 : 3 + r[2]]) for r in each]

    def lines(self, setting: int, text: Data, most: int = 2**63) -> Lines:
        """Takes whole lines from the start of a text, at most `most`, each a time, a space and bytes in hexadecimal.

        >>> taken = Collector().lines(1, b"1000 D5090102030400E8\\nx\\n1012 D5")
        >>> taken.text, taken.used, taken.lines, [row.time for row in taken.rows]
        (b'1000 KEPT SEND D5090102030401E9\\nBAD\\n', 24, 2, [1000])
        """
        lent, size = lend(text)
        places = max(1, min(most, bytes(text).count(b"\n")))
        out, moments = (ctypes.c_uint8 * (92 * places))(), (ctypes.c_uint64 * places)()
        rows, told = (ctypes.c_uint8 * (23 * places))(), (ctypes.c_uint64 * 4)()
        to = out, len(out), moments, places, rows, len(rows), told
        with self._lock:
            done(calls.collector_lines(*self._state, setting, lent, size, most, *to))
        used, written, count, lines = told
        return Lines(used, bytes(out[:written]), _rows(moments, rows, count), lines)

    def lines_as(self, setting: int, format: str, text: Data, most: int = 2**63) -> Taken:
        """Takes whole lines as `lines` does, with their rows as "text", "csv" or "json", and with what closes.

        >>> text = b"1000 D5090102030400E8\\n1012 D5090102030401E9\\n1102 D5090102030400E8\\n"
        >>> taken = Collector().lines_as(0, "csv", text)
        >>> taken.text.splitlines()[1], [(c.opened, c.copies) for c in taken.closings]
        (b'1012,COPY,,D5090102030401E9,,01020304,D5,1', [(1000, 1)])
        """
        if format not in FORMATS:
            raise ValueError(f"{format!r} is not one of {', '.join(FORMATS)}")
        lent, size = lend(text)
        places = max(1, min(most, bytes(text).count(b"\n")))
        # Room for the telegrams that are open, those that these lines open, and what one more line may close.
        room = 32 * (places + 128)
        out, moments = (ctypes.c_uint8 * (333 * places))(), (ctypes.c_uint64 * places)()
        rows, closed, told = (ctypes.c_uint8 * (23 * places))(), (ctypes.c_uint8 * room)(), (ctypes.c_uint64 * 5)()
        to = out, len(out), moments, places, rows, len(rows), closed, room, told
        with self._lock:
            done(calls.collector_lines_as(*self._state, setting, FORMATS.index(format), lent, size, most, *to))
        used, written, count, lines, closings = told
        shut = [bytes(closed[32 * i : 32 * i + 32]) for i in range(closings)]
        return Taken(used, bytes(out[:written]), _rows(moments, rows, count), lines, [_closing(c) for c in shut])

    @property
    def open(self) -> int:
        """How many telegrams are open."""
        return self._state[4][0]

    @property
    def latest(self) -> int:
        """The latest time of a reception that was neither damaged nor late."""
        return self._state[4][1]

    def totals(self) -> Totals:
        """The totals."""
        totals = (ctypes.c_uint64 * 6)()
        with self._lock:
            done(calls.collector_totals(*self._state, totals))
        return Totals(*totals)

    def copies(self, entry: int) -> int:
        """How often an open telegram, from 0 in opening order, was heard again. Refused: 10 after the last."""
        heard = ctypes.c_uint64()
        with self._lock:
            done(calls.collector_copies(*self._state, entry, ctypes.byref(heard)))
        return heard.value

    def checkpoint(self) -> bytes:
        """The state as bytes, to be stored and restored."""
        image = (ctypes.c_uint8 * self.IMAGE)()
        with self._lock:
            done(calls.collector_checkpoint(*self._state, image, self.IMAGE))
        return bytes(image)


class Session:
    """A collector that is fed the bytes of a log in pieces, cut anywhere, and yields rows.

    The log's first line says the setting, which `first_line` reads; the session is fed what follows it.

    >>> session = Session(1, "csv")
    >>> session.feed(b"1000 D509010203").lines
    0
    >>> taken = session.feed(b"0400E8\\n1012 D5090102030401E9")
    >>> taken.text, taken.rows[0].time
    (b'1000,KEPT,,D5090102030400E8,D5090102030401E9,01020304,D5,0\\n', 1000)
    >>> session.end().lines, session.collector.totals().copies
    (1, 1)
    """

    PIECE = 65536
    LINE_LIMIT = 150

    def __init__(self, setting: int, format: str = "text", collector: Optional[Collector] = None) -> None:
        self.collector = collector if collector is not None else Collector()
        self._setting, self._format = setting, format
        self._rest = b""
        self._lock = threading.Lock()
        self.collector.lines_as(setting, format, b"", 0)  # refuses a wrong setting or format

    def feed(self, data: Data) -> Taken:
        """Takes the next bytes: what the lines gave that ended in them."""
        parts = []
        with self._lock:
            text, at = self._rest + bytes(data), 0
            while True:
                end = text.rfind(b"\n", at, at + self.PIECE)
                end = end if end >= 0 else text.find(b"\n", at)
                if end < 0:
                    break
                parts.append(self.collector.lines_as(self._setting, self._format, text[at : end + 1]))
                at = end + 1
            # A line that is longer than the longest is always BAD.
            self._rest = text[at : at + self.LINE_LIMIT]
        rows = [row for part in parts for row in part.rows]
        closings = [closing for part in parts for closing in part.closings]
        whole = b"".join(part.text for part in parts)
        return Taken(at, whole, rows, sum(part.lines for part in parts), closings)

    def end(self) -> Taken:
        """The input has ended: a line that no newline ended counts, as `collect` counts it."""
        return self.feed(b"\n" if self._rest else b"")
