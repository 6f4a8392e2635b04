"""An archive in Python: appends rows to an archive file, and prints all that it has, as examples/c/archive.c does.

    python3 examples/python/archive.py FILE < ROWS

A line of ROWS is a time, KEPT or LOOSE, and the bytes of a subtelegram in hexadecimal digits. FILE is made with room for
960 rows where it does not exist.
"""
import sys
from pathlib import Path

import mooringeye


def main(path: Path) -> None:
    buffer = bytearray(path.read_bytes() if path.exists() else 64 * 512)
    archive = mooringeye.Archive(buffer)
    for line in sys.stdin:
        words = line.split()
        if len(words) != 3:
            print("BAD")
            continue
        try:
            archive.append(int(words[0]), words[1] == "LOOSE", bytes.fromhex(words[2]))
        except mooringeye.Refused as refused:
            print(f"{words[0]} REFUSED {refused.number}")
    for row in archive:
        print(row.time, "LOOSE" if row.loose else "KEPT", row.data.hex().upper())
    path.write_bytes(buffer)


if __name__ == "__main__":
    main(Path(sys.argv[1]))
