"""The pictures of docs/NO-BARK.md."""

import itertools
import unittest
import xml.etree.ElementTree

import made

picture = made.tool("tools/picture")

SVG = "{http://www.w3.org/2000/svg}"
SOURCE = picture.ROWS.read_text(encoding="utf-8")
DRAWN = picture.pictures(SOURCE)


def texts(name):
    return list(xml.etree.ElementTree.fromstring(DRAWN[name]).iter(SVG + "text"))


def place(element):
    """About where a text stands: left, top, right, bottom."""
    size = int(element.get("font-size", 13))
    width = len(element.text) * size * 0.54
    x = int(element.get("x")) - (width / 2 if element.get("text-anchor") == "middle" else 0)
    return x, int(element.get("y")) - size * 0.8, x + width, int(element.get("y")) + size * 0.2


def rows(*names):
    return [picture.read_row(numbers) for name in names for _, numbers in picture.sentences_and_rows(SOURCE, name)]


class Pictures(unittest.TestCase):
    def test_docs_have_them(self):
        for name, svg in DRAWN.items():
            self.assertEqual((picture.ROOT / "docs" / name).read_text(encoding="utf-8"), svg, f"tools/picture writes {name}")

    def test_every_turn_has_a_sentence_and_a_row(self):
        for name, turns in (("morning_rows", 7), ("move_rows", 15), ("slip_rows", 15)):
            self.assertEqual(turns, len(rows(name)))

    def test_an_arrow_for_each_item(self):
        for name, lists in (("move.svg", ("morning_rows", "move_rows")), ("bark.svg", ("morning_rows", "slip_rows"))):
            ways = picture.journeys(rows(*lists))
            arrows = [p for p in xml.etree.ElementTree.fromstring(DRAWN[name]).iter(SVG + "path") if p.get("marker-end")]
            self.assertEqual(len(ways), len(arrows))
            self.assertTrue(all(way["taken"] > way["sent"] for way in ways), "at the day's end nothing is under way")

    def test_one_bark(self):
        barks = {name: [t.text for t in texts(name) if t.text.startswith("BARK")] for name in DRAWN}
        self.assertEqual({"move.svg": [], "bark.svg": ["BARK: A is heard as B"]}, barks)

    def test_what_is_heard(self):
        self.assertEqual(["A is heard", "A is heard", "B is heard"], [t.text for t in texts("move.svg") if t.text.endswith("is heard")])

    def test_texts_stand_apart(self):
        for name in DRAWN:
            width = int(xml.etree.ElementTree.fromstring(DRAWN[name]).get("viewBox").split()[2])
            self.assertTrue(all(0 <= place(t)[0] and place(t)[2] <= width for t in texts(name)), name)
            for one, other in itertools.combinations(texts(name), 2):
                a, b = place(one), place(other)
                apart = a[2] <= b[0] or b[2] <= a[0] or a[3] <= b[1] or b[3] <= a[1]
                self.assertTrue(apart, f"{name}: {one.text} / {other.text}")


class WrongRows(unittest.TestCase):
    def test_too_few_and_too_many_numbers(self):
        with self.assertRaises(picture.Wrong):
            picture.read_row([0] * 6)
        with self.assertRaises(picture.Wrong):
            picture.read_row([0] * 8)

    def test_a_row_follows_the_one_before(self):
        one, other = (1, 1, 16), (1, 1, 17)
        self.assertEqual((False, [other]), picture.difference([one], [one, other]))
        self.assertEqual((True, []), picture.difference([one, other], [other]))
        with self.assertRaises(picture.Wrong):
            picture.difference([one, other], [one])

    def test_a_list_that_is_not_there(self):
        with self.assertRaises(picture.Wrong):
            picture.sentences_and_rows(SOURCE, "evening_rows")


if __name__ == "__main__":
    unittest.main()
