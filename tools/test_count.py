"""benchmark/count.py, on logs of our own: nothing is run."""

import io
import pathlib
import tempfile
import unittest

import made

count = made.tool("benchmark/count.py")


def trace(address, function):
    return b"Trace 0: 0xffff00000140 [00000000/%016x/1040c0b3/00000201] %s\n" % (address, function)


class Symbols(count.Symbols):
    def __init__(self):
        self.at = {0x10: (4, count.BEGINS), 0x20: (4, count.ENDS), 0x30: (16, "card_join"), 0x40: (16, "octets::equal")}
        self.starts = sorted(self.at)


class Emulated(unittest.TestCase):
    def test_what_lies_between_the_marks(self):
        symbols = Symbols()
        log = io.BytesIO(b"".join([
            trace(0x30, b"card_join"),
            trace(0x10, b"work_begins"), trace(0x33, b"card_join"), trace(0x41, b""), trace(0x41, b""), trace(0x20, b"work_ends"),
            trace(0x30, b"card_join"),
            trace(0x10, b"work_begins"), trace(0x14, b"work_begins"), trace(0x3f, b"card_join"), trace(0x20, b"work_ends"),
            trace(0x24, b"work_ends"),
        ]))
        parts = count.parts_of(log, symbols.trace_of(count.BEGINS), symbols.trace_of(count.ENDS))
        counts = [dict(count.by_function(symbols, part)) for part in parts]
        self.assertEqual(counts, [{"card_join": 1, "octets::equal": 2}, {count.BEGINS: 0, "card_join": 1}])

    def test_ranges(self):
        self.assertEqual(Symbols().ranges(), "0x10+0x4,0x20+0x4,0x30+0x10,0x40+0x10")


class Grinded(unittest.TestCase):
    PART = "desc: Trigger: --dump-before={}\nfn=card_join'2\n7 30\ncfn=memcpy\ncalls=2 9\n7 500\n8 4\nfn=memcpy\n0 12\n"

    def read(self, trigger):
        with tempfile.TemporaryDirectory() as folder:
            file = pathlib.Path(folder, "out.1")
            file.write_text(self.PART.format(trigger), encoding="utf-8")
            return count.read_callgrind(file)

    def test_calls_are_not_counted_twice(self):
        self.assertEqual(dict(self.read(count.ENDS)), {"card_join": 34, "memcpy": 12})

    def test_what_is_prepared_is_left_out(self):
        self.assertIsNone(self.read(count.BEGINS))


class Shown(unittest.TestCase):
    def test_once(self):
        work = count.Work("a lookup\t\t4", {"card_lookup_label": 6, "memcpy": 4})
        self.assertEqual((work.row, work.column, work.all), ("a lookup", "", 2.5))

    def test_numbers(self):
        self.assertEqual([count.show(n) for n in (64.0, 986.04, 12345.6)], ["64", "986", "12,346"])


if __name__ == "__main__":
    unittest.main()
