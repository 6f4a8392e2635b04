"""A collector in Python over libmooringeye: reads the lines of `collect`, and prints what it prints.

    python3 examples/python/collect.py < LINES > ROWS

The module is that of the package `mooringeye`, which pip installs; in the repository PYTHONPATH=python finds it.
"""
import sys

import mooringeye


def main():
    source, out = sys.stdin.buffer, sys.stdout.buffer
    setting, _ = mooringeye.first_line(source.readline().removesuffix(b"\n") + b"\n")
    if setting is None:
        print("BAD")
        return
    session = mooringeye.Session(setting)
    while piece := source.read1(65536):
        out.write(session.feed(piece).text)
    out.write(session.end().text)
    out.flush()
    print(*(f"{name.upper()} {count}" for name, count in session.collector.totals()._asdict().items()))


if __name__ == "__main__":
    main()
