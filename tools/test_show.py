"""The picture of a day, and the tables that it is made of."""

import functools
import html.parser
import json
import pathlib
import re
import subprocess
import tempfile
import unittest

import ldp
import made
import replay

show = made.tool("show")

KINDS = ("ordinary", "full", "held", "saves", "mixed", "lines", "room")
WITHOUT_RESTORE = ("ordinary", "full", "held", "exhaust", "room", "damaged", "random")
LINES = 200
LARGEST_PAGE = 1_000_000
NO_SAVES = f"sh -c \"{made.BENCH} | sed 's/^save 0.*/save 19/'\""
TREE = ldp.Name(bytes([192, 0, 2, 1]), bytes([1, 0, 4, 0, 0, 0, 7]))
BROWSER = ("chromium", "--headless", "--no-sandbox", "--disable-gpu")
NARROW, WIDE = "--window-size=500,900", "--window-size=1600,1000"  # chromium's windows are no narrower
EVERY = 15  # of so many events one is chosen
# Walks through the page as a reader does, and leaves what it saw in the page.
WALK = f"<script>const EVERY = {EVERY};" + """
const rows = () => [...document.querySelectorAll('#table tbody tr')].map((row) => [...row.cells].map((cell) => cell.textContent));
const chosen = () => document.querySelector('.event.chosen').id;
const press = (key) => document.activeElement.dispatchEvent(new KeyboardEvent('keydown', {key, bubbles: true, cancelable: true}));
const seen = {start: chosen(), tables: []};
[...document.querySelectorAll('summary')].forEach((summary, at) => {
  if (at % EVERY === 0) { summary.click(); seen.tables.push(rows()); }
});
press('Home'); document.querySelector('summary').focus(); press('ArrowDown'); press('ArrowDown'); seen.down = chosen();
press('End'); press('ArrowDown'); seen.end = chosen();
document.getElementById('before').click(); seen.before = chosen();
document.querySelector('.axis a').dispatchEvent(new MouseEvent('click', {bubbles: true, cancelable: true,
  clientX: document.querySelector('.axis a rect').getBoundingClientRect().left + 3}));
seen.refusal = chosen();
seen.sideways = document.documentElement.scrollWidth - innerWidth;
document.body.append(Object.assign(document.createElement('pre'), {id: 'seen', textContent: JSON.stringify(seen)}));
</script>"""


@functools.cache
def made_day(kind):
    return made.second("day", kind, 1, LINES).decode("latin-1").split("\n")


@functools.cache
def made_steps(kind):
    return replay.replay(made.BENCH, made_day(kind))


def example(name):
    return (made.ROOT / "examples" / name).read_text().split("\n")


def expected_rows(step, names):
    """The rows of the page's table, as text; labels that await release by their number."""
    rows = show.table_rows(step.table, names, {})
    kinds = [[key for key in rows if key[0] == kind] for kind in "tlr"]
    kinds[1].sort(key=lambda key: int(key[1:]))
    return [[re.sub("<[^>]*>", "", cell) for cell in rows[key]] for keys in kinds for key in keys]


class Tables(unittest.TestCase):
    def test_a_short_day(self):
        steps = replay.replay(made.BENCH, example("day.txt"))
        table = steps[9].table
        self.assertEqual(table.routes, {TREE.root: 3})
        self.assertEqual(table.trees, {TREE: replay.Tree(True, ((1, 100), (2, 200)))})
        uses = {16: replay.Use(replay.AWAITING, 0, TREE), 17: replay.Use(replay.MAPPED, 3, TREE)}
        self.assertEqual(table.labels, uses)
        self.assertEqual([step.refused for step in steps if step.refused], [2])

    def test_a_held_branch_is_what_a_lookup_leaves_out(self):
        steps = replay.replay(made.BENCH, example("back.txt"))
        self.assertEqual(steps[5].table.trees[TREE], replay.Tree(False, ((0, 16), (1, 100)), ((0, 16),)))
        self.assertEqual(steps[7].table.trees[TREE].held, ())

    def test_a_day_in_words_is_the_day_in_octets(self):
        words = [ldp.line_in_words(line) for line in example("back.txt")]
        self.assertEqual(replay.replay(made.BENCH, words), replay.replay(made.BENCH, example("back.txt")))

    def test_little_room_hides_no_table(self):
        steps = replay.replay(made.BENCH, ["room 0", *example("day.txt")])
        self.assertIn(16, [step.refused for step in steps])
        self.assertTrue(all(step.table.saved for step in steps))

    def test_without_saves_labels_and_routes_are_as_seen(self):
        for kind in WITHOUT_RESTORE:
            day = made_day(kind)
            for saved, heard in zip(made_steps(kind), replay.replay(NO_SAVES, day), strict=True):
                self.assertFalse(heard.table.saved)
                self.assertEqual(heard.table.labels, saved.table.labels, (kind, saved.line))
                self.assertEqual(heard.table.routes, saved.table.routes, (kind, saved.line))
                for name, tree in heard.table.trees.items():
                    live = tuple(branch for branch in saved.table.trees[name].branches if branch in tree.branches)
                    self.assertEqual(tree, replay.Tree(saved.table.trees[name].leaf, live), (kind, saved.line))

    def test_a_lost_neighbour_is_seen(self):
        other = ldp.Name(bytes(4), b"\x09")
        labels = {16: replay.Use(replay.MAPPED, 3, TREE), 17: replay.Use(replay.AWAITING, 3, other)}
        before = replay.Table({TREE.root: 3, other.root: 4}, {}, labels | {18: replay.Use(replay.MAPPED, 4, other)}, True)
        after = replay.seen(before, ["lost", "3"], "lost 0")
        self.assertEqual(after, replay.Table({other.root: 4}, {}, {18: replay.Use(replay.MAPPED, 4, other)}, False))
        self.assertEqual(replay.seen(before, ["lost", "16"], "lost 1").labels, before.labels)


class Changes(unittest.TestCase):
    def test_changes_lead_from_table_to_table(self):
        for kind in KINDS:
            steps = made_steps(kind)
            names, roots, before, stands = show.Names(steps), {}, {}, {}
            for step in steps:
                after = show.table_rows(step.table, names, roots)
                for key, cells in show.changes_of_kinds(before, after):
                    if cells is None:
                        del stands[key]
                    else:
                        stands[key] = cells
                for part in ("t", "r"):
                    kept = [[item for item in rows.items() if item[0][0] == part] for rows in (stands, after)]
                    self.assertEqual(*kept, (kind, step.line))
                self.assertEqual(stands, after, (kind, step.line))
                before = after

    def test_bars_are_the_labels_in_use(self):
        for kind in KINDS:
            steps = made_steps(kind)
            drawn = {(at, bar.label, bar.use) for bar in show.bars_of(steps) for at in range(bar.first, bar.last + 1)}
            used = {(at, *item) for at, step in enumerate(steps, 1) for item in step.table.labels.items()}
            self.assertEqual(drawn, used, kind)


class Reader(html.parser.HTMLParser):
    """What a page would load, and its text."""

    def __init__(self, text):
        super().__init__()
        self.loads, self.texts = [], []
        self.feed(text)

    def handle_starttag(self, tag, attrs):
        self.loads += [value for key, value in attrs if key in ("src", "href", "data", "srcset")]

    def handle_data(self, data):
        self.texts.append(data)


class Page(unittest.TestCase):
    def test_it_needs_nothing_else(self):
        for kind in KINDS:
            day = made_day(kind)
            text = show.page("a <day>", day, made_steps(kind))
            self.assertTrue(all(load.startswith("#") for load in Reader(text).loads), kind)
            self.assertNotRegex(text, r"https?:|@import|url\((?!#)|\[\[")
            self.assertIn("a &lt;day&gt;", text)
            self.assertLess(len(text.encode()), LARGEST_PAGE)

    def test_no_event_and_bad_lines(self):
        odd = ["<u>", "free <u>", "take <u> 00", "take 1 2 00", "notice <u> <u> 00", "route <u> 3 # <u>", "# <u>"]
        for day in ([""], ["# nothing"], [*odd, "join -", "route - 3", "take 1", "restore 00", "\x00\xff", "lost 3"]):
            text = show.page("day", day, replay.replay(made.BENCH, day))
            self.assertNotIn("<u>", text)

    def test_a_plan_is_told(self):
        day = ["plan 3 192.0.2.1=0,5", "vet 3 - list 192.0.2.1=0", *example("crew.txt")]
        text = show.page("crew", day, replay.replay(made.BENCH, day))
        for said in ("A plan for the line to neighbour 3, permitted 192.0.2.1=0,5<", "nothing to move", "lists 3 roots",
                     "192.0.2.1 over neighbour 0", "May 192.0.2.1=0 empty the line to neighbour 3? Permitted -<", "rejected"):
            self.assertIn(said, text)

    def test_every_text_has_contrast(self):
        for rule in show.colour_rules().splitlines():
            colour, text = re.findall("#([0-9a-f]{6})", rule)
            self.assertGreater(show.contrast(colour, text), 4.5)

    def test_examples_are_what_show_makes(self):
        for name in ("day", "evening"):
            lines = example(f"{name}.txt")
            made_now = show.page(f"{name}.txt", lines, replay.replay(made.BENCH, lines))
            stands = (made.ROOT / f"examples/{name}.html").read_text()
            self.assertTrue(made_now == stands, f"make it anew: ./show examples/{name}.txt examples/{name}.html")


@made.needs("chromium", "no page of ./show is loaded in a browser")
class Browser(unittest.TestCase):
    def walked(self, day, steps, size):
        with tempfile.TemporaryDirectory() as folder:
            path = pathlib.Path(folder, "day.html")
            path.write_text(show.page("day", day, steps) + WALK)
            command = [*BROWSER, size, f"--user-data-dir={folder}/profile", "--dump-dom", path.as_uri()]
            dom = subprocess.run(command, stdout=subprocess.PIPE, stderr=subprocess.DEVNULL, timeout=60, check=True)
        seen = re.search('<pre id="seen">(.*?)</pre>', dom.stdout.decode(), re.DOTALL)
        self.assertTrue(seen, "the page's script did not come to its end")
        return json.loads(html.unescape(seen[1]))

    def test_a_reader_walks_through(self):
        evening = example("evening.txt")
        busy = replay.replay(made.BENCH, evening)
        for day, steps, size in ((made_day("mixed"), made_steps("mixed"), NARROW), (evening, busy, WIDE)):
            seen = self.walked(day, steps, size)
            names = show.Names(steps)
            self.assertEqual(seen["tables"], [expected_rows(step, names) for step in steps[::EVERY]])
            last = len(steps)
            refused = next(at for at, step in enumerate(steps, 1) if step.refused)
            places = [seen[key] for key in ("start", "down", "end", "before", "refusal")]
            self.assertEqual(places, ["e1", "e3", f"e{last}", f"e{last - 1}", f"e{refused}"])
            self.assertLessEqual(seen["sideways"], 0)


if __name__ == "__main__":
    unittest.main()
