"""Mooringeye, a proved EnOcean collector, for Python.

    >>> import mooringeye
    >>> press = bytes.fromhex("D5090102030400E8")
    >>> collector = mooringeye.Collector()
    >>> [collector.take(press, time) for time in (1000, 1012)]
    ['KEPT', 'COPY']
    >>> mooringeye.Collector(collector.checkpoint()).totals().received
    2
    >>> archive = mooringeye.Archive(bytearray(1024))
    >>> archive.append(1000, False, press)
    >>> archive[0]
    Row(time=1000, loose=False, data=b'\\xd5\\t\\x01\\x02\\x03\\x04\\x00\\xe8')

What a call refuses raises `Refused`, whose `number` is that of the papers and of mooringeye.h. A number that a
parameter cannot hold raises ValueError. Threads may share an object: each call is one step.
"""
from .archives import (
    Adding,
    Archive,
    Block,
    Line,
    Packed,
    Packer,
    Report,
    Row,
    Salvaged,
    Scan,
    append,
    salvage,
    verify,
)
from .collector import (
    CSV_HEADING,
    Closing,
    Collector,
    Lines,
    Reply,
    Session,
    Taken,
    Totals,
    first_line,
    read_line,
    skip_lines,
)
from .refusals import REFUSALS, Refused
from .telegrams import (
    Erp2,
    Fields,
    Repeater,
    build,
    check,
    crc8,
    decapsulate,
    encapsulate,
    erp2_build,
    erp2_read,
    is_lawful,
    plan,
    plan_by,
    read,
    repeat,
    same,
    site,
    version,
)

__version__ = ".".join(map(str, version()))
__all__ = [
    "Adding",
    "Archive",
    "Block",
    "CSV_HEADING",
    "Closing",
    "Collector",
    "Erp2",
    "Fields",
    "Line",
    "Lines",
    "Packed",
    "Packer",
    "REFUSALS",
    "Refused",
    "Repeater",
    "Reply",
    "Report",
    "Row",
    "Salvaged",
    "Scan",
    "Session",
    "Taken",
    "Totals",
    "append",
    "build",
    "check",
    "crc8",
    "decapsulate",
    "encapsulate",
    "erp2_build",
    "erp2_read",
    "first_line",
    "is_lawful",
    "plan",
    "plan_by",
    "read",
    "read_line",
    "repeat",
    "salvage",
    "same",
    "site",
    "skip_lines",
    "verify",
    "version",
]
