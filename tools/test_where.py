"""tools/where, on a folder of our own: nothing is proved."""

import os
import pathlib
import tempfile
import unittest

import made

where = made.tool("tools/where")

FILES = [
    ("Rattle-octets-specs.Part.oantt", 10.0),
    ("Rattle-octets-proofs.copy.Lts.decls.oantt", 12.5),
    ("Rattle-octets-proofs.copy.Lts.oantt", 12.75),
    ("Rattle-octets-proofs.at.Proof.decls.oantt", 13.75),
    ("Rattle-octets-proofs.copy.Proof.decls.oantt", 14.0),
]


class Folder(unittest.TestCase):
    def setUp(self):
        folder = tempfile.TemporaryDirectory()
        self.addCleanup(folder.cleanup)
        self.folder = pathlib.Path(folder.name)
        for name, time in FILES:
            path = self.folder / name
            path.touch()
            os.utime(path, (time, time))
        (self.folder / "rattle-last-used").touch()

    def test_a_module_takes_what_lies_before_its_file(self):
        rows = where.modules(self.folder)
        self.assertEqual([seconds for seconds, _ in rows], [2.5, 0.25, 1.0, 0.25])
        self.assertEqual(rows[0][1], "Rattle-octets-proofs.copy.Lts")

    def test_what_was_kept_before_the_check_is_left_out(self):
        self.assertEqual([seconds for seconds, _ in where.modules(self.folder, 12.6)], [1.0, 0.25])

    def test_the_function_of_a_module(self):
        for module, function in (
            ("Rattle-octets-proofs.copy.Lts.View", "copy"),
            ("Rattle-octets-specs.contracts.copy.Key", "copy"),
            ("Rattle-octets.proofs.copy.Statement", "copy"),
            ("Rattle-octets-specs.Part", "Part"),
            ("Rattle-octets", "Rattle-octets"),
            ("Rattle-octets.specs", "Rattle-octets.specs"),
        ):
            self.assertEqual(where.part_of(module), function)

    def test_summed_by_function_and_by_module(self):
        rows = where.modules(self.folder)
        self.assertEqual(where.summed(rows, where.part_of), [(3.0, "copy"), (1.0, "at")])
        dearest = where.summed(rows, lambda module: module)[0]
        self.assertEqual(dearest, (2.75, "Rattle-octets-proofs.copy.Lts"))

    def test_rows_below_the_least_are_left_out(self):
        self.assertEqual(where.told("by function:", [(3.0, "copy"), (0.01, "at")], 12), "by function:\n    3.00  copy")


if __name__ == "__main__":
    unittest.main()
