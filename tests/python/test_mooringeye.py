"""The Python package: what users had trouble with, every export, and the numbers and names of the header.

    PYTHONPATH=python python3 -m unittest discover -s tests/python
"""
import doctest
import inspect
import re
import threading
import unittest
from pathlib import Path

import mooringeye
from mooringeye import _library, archives, collector, journal, refusals, telegrams
from mooringeye._exports import EXPORTS

ROOT = Path(__file__).resolve().parent.parent.parent
PRESS = bytes.fromhex("D5090102030400E8")
MODULES = (mooringeye, archives, collector, journal, refusals, telegrams)


def load_tests(loader, tests, pattern):
    """The examples of the documentation are tests too."""
    for module in MODULES:
        tests.addTests(doctest.DocTestSuite(module))
    return tests


class Ranges(unittest.TestCase):
    """A number that a parameter cannot hold raises an error; it is not cut."""

    def test_time(self):
        c = mooringeye.Collector()
        for time in (-1, 2**64):
            with self.assertRaises(ValueError):
                c.take(PRESS, time)
            with self.assertRaises(ValueError):
                c.burst(0, [(PRESS, time)])
        self.assertEqual(c.totals().received, 0)
        self.assertEqual(c.take(PRESS, 1000), "KEPT")

    def test_setting(self):
        with self.assertRaises(ValueError):
            mooringeye.repeat(257, PRESS)
        with self.assertRaises(mooringeye.Refused) as caught:
            mooringeye.repeat(3, PRESS)
        self.assertEqual((caught.exception.number, caught.exception.name), (10, "ARGUMENT"))

    def test_lists(self):
        with self.assertRaises(ValueError):
            mooringeye.Archive(bytearray(512)).remove([2**32])
        with self.assertRaises(ValueError):
            mooringeye.Packer([-1])
        with self.assertRaises(ValueError):
            mooringeye.build(mooringeye.Fields(0xD5, b"\x09", b"\x01\x02\x03", 0))
        with self.assertRaises(ValueError):
            mooringeye.plan(256, 1000, 0)


class Threads(unittest.TestCase):
    """Threads that share an object lose nothing."""

    def run_in(self, count, work):
        threads = [threading.Thread(target=work, args=(i,)) for i in range(count)]
        for thread in threads:
            thread.start()
        for thread in threads:
            thread.join()

    def test_one_collector(self):
        c = mooringeye.Collector()

        def take(thread):
            for i in range(4000):
                body = bytes([0xF6, i % 256, 0, 0, thread, i // 256, 0x30])
                c.take(body + bytes([sum(body) % 256]), 1000)

        self.run_in(3, take)
        self.assertEqual(c.totals().received, 12_000)

    def test_one_archive(self):
        archive = mooringeye.Archive(bytearray(512 * 200))
        self.run_in(3, lambda thread: [archive.append(i, False, PRESS) for i in range(1000)])
        self.assertEqual(len(archive), 3000)
        self.assertEqual(mooringeye.verify(archive.buffer), 3000)


class Calls(unittest.TestCase):
    """What the classes return; this file calls each export at least once."""

    called: set[str] = set()

    @classmethod
    def setUpClass(cls):
        for name in EXPORTS:
            short = name.removeprefix("mooringeye_")

            def counted(*arguments, call=getattr(_library.calls, short), name=name):
                cls.called.add(name)
                return call(*arguments)

            setattr(_library.calls, short, counted)

    def test_telegrams(self):
        self.assertEqual(mooringeye.version(), tuple(map(int, (ROOT / "VERSION").read_text().split("."))))
        self.assertEqual(mooringeye.crc8(b"\x01\x02"), 27)
        mooringeye.check(bytearray(PRESS))
        addressed = mooringeye.encapsulate(PRESS, 0xF1F2F3F4)
        self.assertEqual(mooringeye.decapsulate(memoryview(addressed)), PRESS)
        self.assertEqual(mooringeye.read(addressed).destid, bytes.fromhex("F1F2F3F4"))
        for data in (PRESS, addressed):
            self.assertEqual(mooringeye.build(mooringeye.read(data)), data)
        self.assertTrue(mooringeye.same(PRESS, mooringeye.repeat(1, PRESS)))
        for data in (bytes([5, 1, 2, 3, 4, 0xAA]), bytes.fromhex("0C2F0701020304AABBCC0000")):
            try:
                self.assertEqual(mooringeye.erp2_build(mooringeye.erp2_read(data)), data)
            except mooringeye.Refused as refused:
                self.assertIn(refused.number, (1, 13, 15))
        slots = mooringeye.plan_by(1, 0, 3, 1000, 0)
        self.assertTrue(mooringeye.is_lawful(1, 0, 1000, slots))
        self.assertFalse(mooringeye.is_lawful(0, 0, 1000, slots))
        self.assertEqual(mooringeye.plan(0, 1000, 7), (0, 1, 27))
        self.assertEqual(mooringeye.site([]), (0, 0, 0))

    def test_collector(self):
        c = mooringeye.Collector()
        self.assertEqual([c.take(PRESS, t) for t in (1000, 1012, 1101)], ["KEPT", "COPY", "KEPT"])
        again = mooringeye.Collector(c.checkpoint())
        self.assertEqual((again.totals(), again.copies(0)), (c.totals(), 0))
        self.assertEqual(again.burst(1, [(PRESS, 1110)])[0], mooringeye.Reply("COPY", 0, b""))
        with self.assertRaises(mooringeye.Refused):
            mooringeye.Collector(bytes(2560))
        with self.assertRaises(mooringeye.Refused):
            c.copies(1)

    def test_lines(self):
        text = (ROOT / "samples/plant.txt").read_bytes()
        setting, used = mooringeye.first_line(text)
        c = mooringeye.Collector()
        taken = c.lines(setting, text[used:])
        expected = (ROOT / "samples/plant.expected").read_bytes().splitlines(keepends=True)
        self.assertEqual(taken.text, b"".join(expected[:-1]))
        self.assertEqual(mooringeye.skip_lines(text[used:], 2**63), (taken.used, taken.lines))
        self.assertEqual(len(taken.rows), c.totals().kept + c.totals().loose)
        self.assertEqual(c.lines(setting, b"").lines, 0)

    def test_read_line(self):
        self.assertEqual(mooringeye.read_line(b"18446744073709551615 d509"), (2**64 - 1, b"\xd5\x09"))
        self.assertEqual(mooringeye.read_line(b"0 "), (0, b""))
        for line in (b"", b"1", b"01 D5", b"1 D5\n", b"1 D5\n2 D5", b"1 D5\r", b"18446744073709551616 D5"):
            self.assertIsNone(mooringeye.read_line(line))

    def test_sessions(self):
        text = (ROOT / "samples/plant.txt").read_bytes()
        setting, used = mooringeye.first_line(text)
        expected = (ROOT / "samples/plant.expected").read_bytes().splitlines(keepends=True)
        whole = mooringeye.Collector().lines_as(setting, "csv", text[used:])
        self.assertEqual(whole.lines, len(expected) - 1)
        for piece in (1, 7, 100, 4096, len(text)):
            printed, csv = mooringeye.Session(setting), mooringeye.Session(setting, "csv")
            parts = [text[at : at + piece] for at in range(used, len(text), piece)]
            said, taken = [printed.feed(part).text for part in parts], [csv.feed(part) for part in parts]
            self.assertEqual(b"".join(said), b"".join(expected[:-1]))
            self.assertEqual(b"".join(t.text for t in taken), whole.text)
            self.assertEqual([row for t in taken for row in t.rows], whole.rows)
            self.assertEqual([closing for t in taken for closing in t.closings], whole.closings)
            self.assertEqual((printed.end().lines, csv.end().lines), (0, 0))
        kept, still_open = csv.collector.totals().kept, csv.collector.open
        self.assertEqual(len(whole.closings), kept - still_open)
        long = mooringeye.Session(0, "json")
        for _ in range(100):
            self.assertEqual(long.feed(b"7" * 100).lines, 0)
        self.assertEqual(long.end().text, b'{"answer":"BAD"}\n')
        with self.assertRaises(mooringeye.Refused):
            mooringeye.Session(3)
        with self.assertRaises(ValueError):
            mooringeye.Session(0, "xml")

    def test_archives(self):
        buffer = bytearray(3 * 512)
        archive = mooringeye.Archive(buffer)
        for i in range(20):
            archive.append(i, i % 2 == 1, PRESS)
        mooringeye.append(buffer, 20, False, PRESS)
        self.assertEqual(mooringeye.verify(buffer), 21)
        archive.cut(20)
        self.assertEqual((len(archive), archive[-1]), (20, mooringeye.Row(19, True, PRESS)))
        report, scan, packer, packed = mooringeye.Report(), mooringeye.Scan(), mooringeye.Packer(), b""
        adding = mooringeye.Adding(report)
        for at in range(0, len(buffer), 512):
            piece = bytes(buffer[at : at + 512])
            scan.feed(piece)
            adding.feed(piece)
            packed += packer.feed(piece).blocks
        adding.end()
        report.add(buffer)
        self.assertEqual((scan.end(), packed + packer.end()), (20, bytes(buffer[:1024])))
        self.assertEqual(list(report), [mooringeye.Line(0x01020304, 20, 20, 0, 19)])
        self.assertEqual((report.archives, report.share(80)), (2, 500))
        self.assertEqual(archive.remove([0x01020304]), 2)
        buffer[600] = 1
        with self.assertRaises(mooringeye.Refused) as caught:
            mooringeye.Archive(buffer)
        self.assertEqual((caught.exception.number, caught.exception.position), (12, 1))
        self.assertEqual(mooringeye.salvage(buffer).dropped, [1])

    def test_blocks(self):
        block, row = mooringeye.Block(), mooringeye.Row(1000, False, PRESS)
        block.put(15, row)
        block.put_rows(16, [row, row])
        self.assertEqual(list(block), [row] * 3)
        with self.assertRaises(mooringeye.Refused) as caught:
            block.put_rows(18, [row, mooringeye.Row(1, False, PRESS[:-1])])
        self.assertEqual((caught.exception.number, caught.exception.position), (1, 1))
        block.cut(1)
        self.assertEqual(list(block), [row])

    def test_journal(self):
        collector, block, row = mooringeye.Collector(), mooringeye.Block(), mooringeye.Row(1000, False, PRESS)
        collector.take(PRESS, 1000)
        block.put(0, row)
        image, copy = bytes(collector.checkpoint()), bytes(block)
        log, out = (24, 1, 2, b"1000 D5090102030400E8\nX\n"), (9, 3, 4)
        state = journal.State(2, image, b"plant.arc", last=copy, log=log, out=out)
        self.assertEqual(journal.State.read(state.write()), state)
        with self.assertRaises(mooringeye.Refused) as caught:
            journal.State.read(state.write()[:-1])
        self.assertEqual(caught.exception.number, 16)
        self.assertEqual(journal.judge(copy, 1, copy), "SAME")
        block.put(1, row)
        self.assertEqual(journal.judge(copy, 1, bytes(block)), "LONGER")
        self.assertEqual(journal.judge(copy, 1, copy[:-1] + bytes([copy[-1] ^ 1])), "TORN")
        self.assertEqual(journal.compare([row], [row, row]), (1, 0))
        self.assertEqual(journal.compare([mooringeye.Row(1, False, PRESS)], [row, row]), (0, 2))
        run = journal.Run(2**32)
        run.feed(bytes(block) + bytes(512))
        self.assertEqual((run.blocks, run.rows, run.ended), (1, 2, True))

    @classmethod
    def tearDownClass(cls):
        # Anyone can write Python's fields, so its collector uses the call that tests the state.
        missing = EXPORTS.keys() - cls.called - {"mooringeye_collector_take_tested"}
        assert not missing, f"exports that no class of the package calls: {sorted(missing)}"


class Texts(unittest.TestCase):
    def test_refusals_are_those_of_the_header(self):
        header = (ROOT / "include/mooringeye.h").read_text()
        found = re.findall(r'X\((\w+), (\d+), "([^"]*)"\)', header)
        wanted = {int(number): (name, text) for name, number, text in found if number != "0"}
        self.assertEqual(mooringeye.REFUSALS, wanted)

    def test_everything_public_has_a_text_and_hints(self):
        for name in mooringeye.__all__:
            thing = getattr(mooringeye, name)
            if name == "REFUSALS":
                continue
            self.assertTrue(inspect.getdoc(thing), name)
            members = vars(thing).values() if inspect.isclass(thing) else [thing]
            for member in filter(inspect.isfunction, members):
                if member.__module__.startswith("mooringeye") and not member.__name__.startswith("_"):
                    hints = member.__annotations__
                    arguments = set(inspect.signature(member).parameters) - {"self"}
                    self.assertEqual(arguments | {"return"}, set(hints), f"{name}.{member.__name__}")


if __name__ == "__main__":
    unittest.main()
