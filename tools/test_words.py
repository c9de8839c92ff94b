"""Days and answers in words."""

import io
import subprocess
import unittest

import ldp
import made

words = made.tool("tools/words")

SEEDS = (1, 2)
LINES = 400
TREE = "192.0.2.1 01:00000007"
ELEMENT = "06000104c0000201000701000400000007"
MAPPING = "04000021000000010100001106000104c00002010007010004000000070200000400000064"
SPACE = "00" * 12  # behind a root of 4 octets
# in words, in octets
ORDERS = (
    (f"mapping 1 {TREE} 100", f"take 1 {MAPPING}"),
    (f"withdraw 1 {TREE} 100", "take 1 0402" + MAPPING[4:]),
    (f"release 1 {TREE} 100 2", "take 1 0403002100000002" + MAPPING[16:]),
    (f"mapping 99 {TREE} 4294967295", f"take 99 {MAPPING[:-8]}ffffffff"),
    (f"join {TREE}", f"join {ELEMENT}"),
    (f"leave {TREE}  # the studio", f"leave {ELEMENT}  # the studio"),
    (f"tree {TREE}", f"tree {ELEMENT}"),
    ("join 2001:db8::1 ff:0102:0a,01:", "join 0600021020010db80000000000000000000000010009ff010200010a010000"),
    ("join 192.0.2.1 09", "join 06000104c0000201000109"),
    ("join 192.0.2.1 -", "join 06000104c00002010000"),
    ("route 192.0.2.1 3", "route c0000201 3"),
    ("route 2001:db8::1 here", "route 20010db8000000000000000000000001 16"),
    ("route 192.0.2.1 none", "route c0000201 17"),
    (f"notice 1 10 mapping {TREE} 100", f"notice 1 10 {MAPPING}"),
    (f"wrap 192.0.2.9 - {TREE}", f"wrap c0000209 - {ELEMENT}"),
    ("plan 3 192.0.2.1=0,15 2001:db8::1=none", f"plan 3 800104c0000201{SPACE}00001020010db8000000000000000000000001"),
    ("plan 3 -", "plan 3 -"),
    ("vet 3 192.0.2.1=0 list 192.0.2.1=255", f"vet 3 000104c0000201{SPACE} ff04c0000201{SPACE}"),
    ("vet 16 - list -", "vet 16 - -"),
    ("lost 3", "lost 3"),
    ("free", "free"),
    ("", ""),
)
# taken in words too; the way back writes the form above
ALSO = (
    ("mapping 1 192.0.2.1 01000400000007 100", f"take 1 {MAPPING}"),
    ("  mapping\t1  192.0.2.1 01:00000007 100 01", f"  take 1 {MAPPING}"),
    ("join 2001:DB8:0::1 0A:0B", "join 0600021020010db800000000000000000000000100040a00010b"),
    ("route c0000201 here", "route c0000201 16"),
    ("plan 3 192.0.2.1=9,8,9", f"plan 3 030004c0000201{SPACE}"),
    ("vet 3 - list 192.0.2.1=07", f"vet 3 - 0704c0000201{SPACE}"),
)
NO_WORDS = (
    "mapping 1 192.0.2.1 01:00000007",
    "mapping 1 192.0.2.1 01:00000007 4294967296",
    "mapping 1 192.0.2.1 01:0000000 100",
    "mapping 1 192.0.2.1 ff:00 100",
    "mapping 1 192.0.2.1 :00 100",
    "mapping 1 192.0.2 01:00 100",
    "mapping 1 fe80::1%eth0 01:00 100",
    f"mapping 1 192.0.2.1 01:{'00' * 65536} 100",
    "join 192.0.2.1",
    "join c0000201 01:00",
    "route 192.0.2.1",
    "route here 192.0.2.1",
    "plan 3",
    "plan 3 192.0.2.1=16",
    "plan 3 192.0.2.1=",
    "plan 3 192.0.2.1=1 -",
    f"plan 3 000105c0000201{SPACE}",
    f"plan 3 000104c0000201{SPACE[2:]}",
    f"plan 3 000104c0000201{SPACE[2:]}01",
    "vet 3 192.0.2.1=1 192.0.2.1=1",
    "vet 3 list 192.0.2.1=1",
    "vet 3 192.0.2.1=1 list",
    "vet 3 192.0.2.1=1 list 192.0.2.1=256",
    "vet 3 192.0.2.1=1 list 192.0.2.1=1,2",
    "vet 3 - list 192.0.2.1=none",
    "take 1 " + MAPPING.upper(),
    "route\tc0000201  3 # odd spaces",
    "\u00b2 \u00b9\x85\x00",
)
RECORD = f"4c440000{MAPPING[:-8]}00000010"
SENT = f"16 for {TREE} to neighbour 0, identifier 1"
ANSWERS = (
    ("start 0", "start: accepted"),
    ("start 17", "start: refused 17: a base outside 16 to 1048320"),
    (f"take 0 {RECORD}", f"take: Mapping {SENT}"),
    (f"route 0 {RECORD * 2}", f"route: Mapping {SENT}\n       Mapping {SENT}"),
    ("lost 0", "lost: accepted, nothing is sent"),
    ("label nothing", "label: leads nowhere"),
    ("tree leaf 1:100", "tree: leads to the leaf, neighbour 1 with label 100"),
    ("free 255", "free: 255 labels"),
    ("room 26", "room: 26 octets"),
    ("? 7", "line 7 is no order"),
    ("save 19", "save: refused 19: no save of a table that keeps the rules, or one that this form cannot carry"),
    ("save2 0 4c53", "save2: 2 octets"),
    ("take 99", "take: refused 99: a number that is not known"),
    ("layers 0 c0000209/0000000000000001 > c0000201 09", "layers: 192.0.2.9/0000000000000001 > 192.0.2.1 09"),
    (f"wrap 0 {ELEMENT}", f"wrap: {TREE}"),
    (f"unwrap 0 {ELEMENT} c0000209 -", f"unwrap: {TREE} within 192.0.2.9 -"),
    ("unwrap 22", "unwrap: refused 22: a last layer, with nothing inside to unwrap"),
    ("plan 0 c0000201:3", "plan: 192.0.2.1 over neighbour 3"),
    ("plan 0 c0000201:3 c0000202:0", "plan: 192.0.2.1 over neighbour 3\n      192.0.2.2 over neighbour 0"),
    ("plan 0", "plan: nothing to move"),
    ("plan none", "plan: none"),
    ("plan 1", "plan: refused 1: a neighbour above 15, or a route that is none"),
    ("vet 0", "vet: accepted"),
    ("vet rejected", "vet: rejected"),
)


def turned(direction, octets):
    """What tools/words does with a day or with answers."""
    out = io.StringIO(newline="\n")
    words.turn(words.DIRECTIONS[direction], io.StringIO(octets.decode("latin-1"), newline="\n"), out)
    return out.getvalue().encode("latin-1")


class Orders(unittest.TestCase):
    def test_words_and_back(self):
        for said, octets in ORDERS:
            self.assertEqual(ldp.line_in_octets(said), octets)
            self.assertEqual(ldp.line_in_words(octets), said)

    def test_other_ways_to_say_it(self):
        for said, octets in ALSO:
            self.assertEqual(ldp.line_in_octets(said), octets)

    def test_what_is_in_no_words_stays(self):
        for line in NO_WORDS:
            self.assertEqual(ldp.line_in_octets(line), line)
            self.assertEqual(ldp.line_in_words(line), line)

    def test_opaque_value_of_128_octets(self):
        line = "join " + ldp.element_octets(ldp.Name(bytes(4), b"\x01\x00\x7d" + bytes(125))).hex()
        self.assertEqual(ldp.line_in_words(line), "join 0.0.0.0 01:" + "00" * 125)
        self.assertEqual(ldp.line_in_octets(ldp.line_in_words(line)), line)


class MadeDays(unittest.TestCase):
    def test_every_line_survives(self):
        for kind in made.kinds():
            for seed in SEEDS:
                day = made.second("day", kind, seed, LINES)
                self.assertEqual(turned("octets", turned("orders", day)), day, (kind, seed))
                self.assertEqual(turned("octets", day), day, (kind, seed))

    def test_both_address_lengths_become_words(self):
        said = turned("orders", made.second("day", "ordinary", 1, LINES)).decode()
        for start in ("mapping", "withdraw", "release", "join", "leave", "tree", "route"):
            self.assertRegex(said, rf"(?m)^{start} ([0-9]+ )?[0-9]+\.[0-9.]+ ")
            self.assertRegex(said, rf"(?m)^{start} ([0-9]+ )?[0-9a-f]+:[0-9a-f:]+ ")

    def test_every_answer_has_words(self):
        for kind in made.kinds():
            output = made.second("run", day=made.second("day", kind, 1, LINES))
            said = turned("answers", output).decode().splitlines()
            self.assertEqual(len([line for line in said if line[0] != " "]), output.count(b"\n"), kind)
            self.assertFalse([line for line in said if "not known" in line], kind)


class Program(unittest.TestCase):
    def test_octet_by_octet(self):
        day = made.second("day", "lines", 1, LINES)  # an odd seed: no newline at the end
        for direction in ("orders", "octets"):
            command = [made.ROOT / "tools/words", direction]
            ran = subprocess.run(command, input=day, stdout=subprocess.PIPE, check=True)
            self.assertEqual(ran.stdout, turned(direction, day))

    def replay(self, *options, day):
        command = [made.ROOT / "tools/words", "replay", *options, "-", made.SECOND, "run"]
        return subprocess.run(command, input=day, stdout=subprocess.PIPE, check=True).stdout

    def test_a_day_in_words_is_the_day_in_octets(self):
        day = (made.ROOT / "examples/day.txt").read_bytes()
        self.assertEqual(self.replay(day=turned("orders", day)), made.second("run", day=day))

    def test_answers_in_words(self):
        day = f"route 192.0.2.1 0\nmapping 1 {TREE} 100\nmapping 1 {TREE}".encode()
        said = f"route: accepted, nothing is sent\ntake: Mapping {SENT}\nline 3 is no order\n"
        self.assertEqual(self.replay("--words", day=day).decode(), said)

    def test_the_status_is_the_program_s(self):
        command = [made.ROOT / "tools/words", "replay", "-", "sh", "-c", "exit 3"]
        self.assertEqual(subprocess.run(command, input=b"free\n" * 100000).returncode, 3)


class Answers(unittest.TestCase):
    def test_answers(self):
        for line, said in ANSWERS:
            self.assertEqual("\n".join(ldp.answer_in_words(line)), said)

    def test_notification(self):
        output = made.second("run", made.ROOT / "examples/notices.txt").decode().splitlines()
        said = [ldp.answer_in_words(line)[0] for line in output]
        self.assertIn(
            "notice: Notification 0x05, Bad Message Length, fatal, for the Mapping with identifier 2, to neighbour 1, identifier 2",
            said,
        )

    def test_every_refusal_to_come_has_a_meaning(self):
        self.assertEqual(sorted(ldp.REFUSALS), list(range(1, 23)))


if __name__ == "__main__":
    unittest.main()
