"""What a day does to the table, read from the bench alone: it is run over the day, and again with orders set between that ask.

A save after each order has the whole table (docs/SAVE.md). Where the bench refuses to save, what it was seen to send and
accept says which labels are in use and which routes stand, and lookups by name say where trees lead.
"""

import shlex
import struct
import subprocess
from typing import NamedTuple

import ldp

MAPPED, AWAITING = 1, 2  # the states of a label in a save
MOST_ROOM = ldp.LARGEST_NUMBER
NEIGHBOURS = 16
ROOT_SPACE = 16
OPAQUE_SPACE = 32
NAME_SIZE = 2 + ROOT_SPACE + OPAQUE_SPACE
HEAD = ">2sBIIBBH"
ROUTE = f">2sBB{1 + ROOT_SPACE}s"
TREE = f">2sB{NAME_SIZE}sB{NEIGHBOURS}I"
LABEL = f">2sBIBB{NAME_SIZE}s"
UNREFUSED = ("label", "tree", "free", "room", "?")  # what begins answers that no refusal stands in
CHANGING = ("start", "take", "join", "leave", "route", "lost", "restore", "restore2")


class Use(NamedTuple):
    """A label that is in use: its state, the neighbour, the tree."""

    state: int
    neighbour: int
    name: ldp.Name


class Tree(NamedTuple):
    """A tree that stands. Branches are pairs of neighbour and label; held ones are those that lookups leave out."""

    leaf: bool
    branches: tuple
    held: tuple = ()


class Table(NamedTuple):
    routes: dict  # by root
    trees: dict  # by name, oldest first
    labels: dict  # by label
    saved: bool  # else from what was seen and from lookups


class Step(NamedTuple):
    """An order of the day, its answer, and the table after it."""

    line: int
    order: list
    answer: str
    table: Table

    @property
    def refused(self):
        """The refusal's number, or 0."""
        verb, *rest = self.answer.split(" ")
        return int(rest[0]) if verb not in UNREFUSED and rest[0].isdecimal() else 0


# A save's octets


def read_root(octets):
    return octets[1 : 1 + octets[0]]


def read_save_name(octets):
    opaque = octets[1 + ROOT_SPACE :]
    return ldp.Name(read_root(octets), opaque[1 : 1 + opaque[0]])


def read_save(octets):
    def records(form, count):
        nonlocal at
        for _ in range(count):
            yield struct.unpack_from(form, octets, at)[2:]
            at += struct.calcsize(form)

    at = 0
    (_base, _next, routes, trees, labels), = records(HEAD, 1)
    stands = {read_root(root): route for route, root in records(ROUTE, routes)}
    grown = {}
    for name, leaf, *branches in records(TREE, trees):
        grown[read_save_name(name)] = Tree(bool(leaf), tuple((n, label) for n, label in enumerate(branches) if label))
    used = {label: Use(state, n, read_save_name(name)) for label, state, n, name in records(LABEL, labels)}
    return Table(stands, grown, used, True)


# The bench, asked


class Bench:
    """A day's orders on a bench program, with other orders set between them."""

    def __init__(self, command, orders):
        self.command = shlex.split(command)
        self.orders = orders

    def run(self, asked):
        """The answers of each order, and of the orders that 'asked' sets behind it; those before the first are at -1."""
        groups = [asked(at) for at in range(-1, len(self.orders))]
        lines = list(groups[0])
        for order, group in zip(self.orders, groups[1:]):
            lines += [order, *group]
        day = "".join(line + "\n" for line in lines).encode("latin-1")
        output = subprocess.run(self.command, input=day, stdout=subprocess.PIPE, check=True).stdout
        answers = output.decode("latin-1").splitlines()
        if len(answers) != len(lines):
            raise ValueError(f"the bench wrote {len(answers)} lines for {len(lines)} orders")
        answers = iter(answers)
        before = [next(answers) for _ in groups[0]]
        return [before] + [[next(answers) for _ in range(1 + len(group))] for group in groups[1:]]


def rooms_after(answers):
    """The room that each order leaves, as its answers tell."""
    room, rooms = MOST_ROOM, []
    for answer in answers:
        if answer.startswith("room "):
            room = int(answer.split(" ")[1])
        rooms.append(room)
    return rooms


def ask_saves(bench, answers):
    """The table after each order where the bench saves it, else None; first that before any order."""
    rooms = rooms_after(answers)

    def asked(at):
        if at < 0:
            return ["save"]
        changing = answers[at].split(" ")[0] in CHANGING
        return [f"room {MOST_ROOM}", "save", f"room {rooms[at]}"] if changing else []

    tables = []
    for at, said in enumerate(bench.run(asked), -1):
        if at >= 0 and not same_answer(said[0], answers[at]):
            raise ValueError("the bench answers otherwise when it is asked between")
        asked = said[at >= 0 :]
        saves = [answer.split(" ")[2] for answer in asked if answer.startswith("save 0 ")]
        stays = tables[-1] if tables and not asked else None
        tables.append(read_save(bytes.fromhex(saves[0])) if saves else stays)
    return tables


def same_answer(one, other):
    """The same but for the numbers of bad lines, which orders set between move."""
    return one == other or one.startswith("? ") and other.startswith("? ")


# What was seen, where a table is not saved


def is_accepted(verb, answer):
    return answer.split(" ")[:2] == [verb, "0"]


def accepted_records(answer):
    verb, *rest = answer.split(" ")
    octets = bytes.fromhex(rest[1]) if verb in ldp.RECORD_ANSWERS and len(rest) == 2 else b""
    return [(neighbour, message) for neighbour, octets in ldp.cut_records(octets) if (message := ldp.read_message(octets))]


def seen(table, order, answer):
    """The table after an order, as far as its answer shows it; trees are as they were."""
    routes, labels = dict(table.routes), dict(table.labels)
    verb, *rest = order
    accepted = is_accepted(verb, answer)
    if accepted and verb in ("start", "restore", "restore2") or answer.startswith("start "):
        return Table({}, {}, {}, False)
    if accepted and verb == "lost":
        gone = int(rest[0])
        routes = {root: route for root, route in routes.items() if route != gone}
        labels = {label: use for label, use in labels.items() if use.neighbour != gone}
    if accepted and verb == "route":
        routes[ldp.read_hex(rest[0])] = int(rest[1])
        routes = {root: route for root, route in routes.items() if route != ldp.NO_ROUTE}
    message = ldp.read_message(ldp.read_hex(rest[1])) if accepted and verb == "take" else None
    if message and message.kind == "release":
        labels.pop(message.label, None)
    states = {"mapping": MAPPED, "withdraw": AWAITING}
    for neighbour, sent in accepted_records(answer):
        if sent.kind in states:
            labels[sent.label] = Use(states[sent.kind], neighbour, sent.name)
    return Table(routes, table.trees, dict(sorted(labels.items())), False)


def order_name(order):
    """The tree that an order names, or None."""
    if order[0] not in ("take", "notice", "join", "leave", "tree"):
        return None
    try:
        octets = ldp.read_hex(order[-1])
    except ValueError:
        return None
    message = ldp.read_message(octets)
    return message.name if message else ldp.read_element(octets)


def names_so_far(orders):
    names, so_far = {}, []
    for order in orders:
        names[order_name(order)] = None
        so_far.append([name for name in names if name])
    return so_far


# Lookups


def names_to_ask(tables, orders):
    """After each order the trees whose lookup may have become another: those that, or whose root's route, the save has
    otherwise than before; where there is no save, every tree that the day has named."""
    asked = []
    for before, after, named in zip(tables, tables[1:], names_so_far(orders)):
        if not after.saved:
            asked.append(named)
            continue
        asked.append([
            name for name, tree in after.trees.items()
            if not before.saved
            or before.trees.get(name) != tree
            or before.routes.get(name.root) != after.routes.get(name.root)
        ])
    return asked


def read_feed(answer):
    """The leaf mark, and neighbour and label of each branch."""
    places = answer.split(" ")[1:]
    return "leaf" in places, tuple(tuple(map(int, place.split(":"))) for place in places if ":" in place)


def with_feeds(tables, asked, feeds):
    """The tables with what lookups say: which branches are held, and of a table that was not saved the trees."""
    found, held = [], {}
    for table, names, answers in zip(tables, asked, feeds):
        said = dict(zip(names, map(read_feed, answers)))
        if not table.saved:
            trees = {name: Tree(leaf, branches) for name, (leaf, branches) in said.items() if leaf or branches}
            found.append(table._replace(trees=trees))
            continue
        for name, (_, branches) in said.items():
            held[name] = tuple(branch for branch in table.trees[name].branches if branch not in branches)
        trees = {name: tree._replace(held=held[name]) for name, tree in table.trees.items()}
        found.append(table._replace(trees=trees))
    return found


def replay(command, day):
    """The steps of a day, which is given as its lines; the orders in words among them are turned."""
    lines = [ldp.line_in_octets(line) for line in day]
    numbers = [number for number, line in enumerate(lines, 1) if ldp.order_words(line)]
    orders = [ldp.order_words(lines[number - 1]) for number in numbers]
    bench = Bench(command, [lines[number - 1] for number in numbers])
    answers = [said[0] for said in bench.run(lambda _: [])[1:]]
    tables = ask_saves(bench, answers)
    tables[0] = tables[0] or Table({}, {}, {}, False)
    for at, table in enumerate(tables[1:], 1):
        tables[at] = table or seen(tables[at - 1], orders[at - 1], answers[at - 1])
    asked = names_to_ask(tables, orders)
    lookups = [[f"tree {ldp.element_octets(name).hex()}" for name in names] for names in asked]
    said = bench.run(lambda at: lookups[at] if at >= 0 else [])[1:]
    tables = with_feeds(tables[1:], asked, [answers[1:] for answers in said])
    return [Step(*step) for step in zip(numbers, orders, answers, tables)]
