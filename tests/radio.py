#!/usr/bin/env python3
"""A radio signal as an RTL-SDR stick records it (8-bit I and Q), for lines with a time in ms and a telegram: ERP1 at 125 kbit/s. RATE is samples per second."""
import sys

BITS = 125_000


def coded(telegram):
    """Preamble and start, then 12 bits for each byte: inverse bits after the third and the sixth, and whether another byte follows."""
    yield from "01010101" "001"
    for i, byte in enumerate(telegram):
        b = f"{byte:08b}"
        yield from b[:3] + "10"[int(b[2])] + b[3:6] + "10"[int(b[5])] + b[6:] + ("01" if i + 1 < len(telegram) else "10")


def main(rate):
    off, on = bytes([128, 128]), bytes([230, 128])
    at = 0
    for line in sys.stdin:
        time, telegram = line.split()
        start = int(time) * rate // 1000
        for number, bit in enumerate(["1", *coded(bytes.fromhex(telegram))]):
            end = start + number * rate // BITS
            sys.stdout.buffer.write((on if bit == "0" else off) * (end - at))
            at = end
    sys.stdout.buffer.write(off * (rate // 10))


main(int(sys.argv[1]))
