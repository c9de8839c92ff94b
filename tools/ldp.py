"""What the tools share: hex, the card's records, LDP messages and names of trees, and all of these in words.

A tree is named in words by its root's address and its opaque value: '192.0.2.1 01:00000007'. An opaque value that is
one or more elements (RFC 6388) is written element by element, 'type:value' or 'ff:extended type:value', joined by commas;
any other is plain hex.
"""

import functools
import ipaddress
import re
import struct
from typing import NamedTuple

MARK = b"\x4c\x44"
RECORD_HEAD = 4  # the mark and the neighbour
MESSAGE_HEAD = 4  # type and length; the length counts what follows it
KINDS = {"mapping": 0x0400, "withdraw": 0x0402, "release": 0x0403}
KIND_NAMES = {number: name.capitalize() for name, number in KINDS.items()}
NOTIFICATION = 0x0001
STATUS_BODY = ">IHHIIH"  # identifier, the Status TLV's head, status code, copied identifier and type
FATAL = 1 << 31
TLV_FEC = 0x0100
TLV_LABEL = 0x0200
P2MP = 6
FAMILIES = {4: 1, 16: 2}  # by the address's length
EXTENDED = 255  # the type of an opaque element whose own type follows in two octets
BLANKS = " \t"
LARGEST_NUMBER = 2**32 - 1
USUAL_IDENTIFIER = 1  # of a message in words that gives none
THIS_NODE = 16
NO_ROUTE = 17
ROUTE_WORDS = {"here": THIS_NODE, "none": NO_ROUTE}
UNREADABLE = (ValueError, struct.error)
NEIGHBOURS = 16
ROOT_SPACE = 16
SET_SIZE = 2 + 1 + ROOT_SPACE  # the neighbours that a root may have, a bit each, and the root
ENTRY_SIZE = 1 + 1 + ROOT_SPACE  # a neighbour and the root
LIST_WORD = "list"  # in words, between the sets and the list
NAMED_ORDERS = ("join", "leave", "tree", "layers", "unwrap")
RECORD_ANSWERS = ("take", "join", "leave", "route", "notice", "lost")
SAVE_ANSWERS = ("save", "save2", "newer", "older")

REFUSALS = {
    1: "a neighbour above 15, or a route that is none",
    2: "under 8 octets, or a length field that is not octets - 4",
    3: "no Mapping, Withdraw or Release",
    4: "a TLV runs past the message",
    5: "not a FEC TLV first and a Label TLV second",
    6: "not exactly one P2MP element, or a root that has neither 4 nor 16 octets",
    7: "an opaque value of no octets, or of too many",
    8: "not a label from 16 to 1048575 in 4 octets",
    9: "a further TLV that may not be stepped over",
    10: "that branch stands with another label",
    11: "a new tree while 64 stand",
    12: "fewer free labels than needed",
    13: "that label awaits no release from this neighbour for this tree",
    14: "no leaf is there to leave",
    15: "a new root's route while 32 stand",
    16: "too little room for what is to be written",
    17: "a base outside 16 to 1048320",
    18: "a malformed opaque value",
    19: "no save of a table that keeps the rules, or one that this form cannot carry",
    20: "the session box has too little room, or too small a buffer",
    21: "no Notification record that the card would write",
    22: "a last layer, with nothing inside to unwrap",
}

STATUSES = {
    0x04: "Unknown Message Type",
    0x05: "Bad Message Length",
    0x06: "Unknown TLV",
    0x07: "Bad TLV Length",
    0x08: "Malformed TLV Value",
    0x0C: "Unknown FEC",
    0x0E: "No Label Resources",
    0x16: "Missing Message Parameters",
}


class Name(NamedTuple):
    """A tree's name."""

    root: bytes
    opaque: bytes

    def __str__(self):
        return f"{address_in_words(self.root)} {opaque_in_words(self.opaque)}"


class Message(NamedTuple):
    """A label message; its kind is a key of KINDS."""

    kind: str
    name: Name
    label: int
    identifier: int


# Octets


def read_number(word):
    if not re.fullmatch("[0-9]+", word) or int(word) > LARGEST_NUMBER:
        raise ValueError(f"no number: {word}")
    return int(word)


def read_hex(word):
    if word == "-":
        return b""
    if not re.fullmatch("([0-9a-fA-F]{2})+", word):
        raise ValueError(f"no hex: {word}")
    return bytes.fromhex(word)


def hex_word(octets):
    return octets.hex() or "-"


def cut_records(octets):
    """Neighbour and message of each record."""
    while octets:
        head = octets[: RECORD_HEAD + MESSAGE_HEAD]
        if len(head) < RECORD_HEAD + MESSAGE_HEAD or head[:2] != MARK:
            raise ValueError("no record begins where one should")
        neighbour, _kind, length = struct.unpack(">HHH", head[2:])
        end = len(head) + length
        if len(octets) < end:
            raise ValueError("a record is cut short")
        yield neighbour, octets[RECORD_HEAD:end]
        octets = octets[end:]


def element_octets(name):
    root, opaque = name
    head = struct.pack(">BHB", P2MP, FAMILIES[len(root)], len(root))
    return head + root + struct.pack(">H", len(opaque)) + opaque


def read_element(octets):
    """The name in these octets, or None where they are not exactly one element."""
    size = octets[3] if len(octets) > 3 else 0
    name = Name(octets[4 : 4 + size], octets[6 + size :])
    return name if size in FAMILIES and len(name.root) == size and element_octets(name) == octets else None


def message_octets(message):
    element = element_octets(message.name)
    body = struct.pack(">IHH", message.identifier, TLV_FEC, len(element)) + element
    body += struct.pack(">HHI", TLV_LABEL, 4, message.label)
    return struct.pack(">HH", KINDS[message.kind], len(body)) + body


def read_message(octets):
    """The label message in these octets, or None where they are none. Further TLVs are passed over."""
    if len(octets) < MESSAGE_HEAD + 8:
        return None
    number, length, identifier, _, size = struct.unpack(">HHIHH", octets[: MESSAGE_HEAD + 8])
    name = read_element(octets[MESSAGE_HEAD + 8 :][:size])
    if number not in KIND_NAMES or name is None or length != len(octets) - MESSAGE_HEAD:
        return None
    label = int.from_bytes(octets[MESSAGE_HEAD + 8 + size :][4:8], "big")
    message = Message(KIND_NAMES[number].lower(), name, label, identifier)
    return message if octets[MESSAGE_HEAD:].startswith(message_octets(message)[MESSAGE_HEAD:]) else None


def spaced(root):
    """A root behind its length, in its space."""
    return bytes([len(root)]) + root.ljust(ROOT_SPACE, b"\0")


def cut_spaced(octets, size):
    """What stands before the root, and the root, of each piece of this size."""
    if len(octets) % size:
        raise ValueError("a piece is cut short")
    for at in range(0, len(octets), size):
        head, field = octets[at : at + size - 1 - ROOT_SPACE], octets[at + size - 1 - ROOT_SPACE : at + size]
        yield head, field[1 : 1 + field[0]]


# Names in words


@functools.cache
def address_in_words(root):
    return str(ipaddress.ip_address(root)) if len(root) in FAMILIES else hex_word(root)


def read_address(word):
    if not re.fullmatch("[0-9a-fA-F.:]+", word):
        raise ValueError(f"no address: {word}")
    return ipaddress.ip_address(word).packed


def root_word(word):
    """An address in hex; one that is in hex already stays as it is."""
    return read_address(word).hex() if re.search("[.:]", word) else word


def cut_elements(opaque):
    """The elements of an opaque value in words, or None where it is not made of elements alone."""
    elements = []
    while opaque:
        types = [opaque[:1], opaque[1:3]] if opaque[0] == EXTENDED else [opaque[:1]]
        head = sum(map(len, types)) + 2
        end = head + int.from_bytes(opaque[head - 2 : head], "big")
        if len(opaque) < max(head, end):
            return None
        elements.append(":".join(part.hex() for part in (*types, opaque[head:end])))
        opaque = opaque[end:]
    return elements


@functools.cache
def opaque_in_words(opaque):
    return ",".join(cut_elements(opaque) or [hex_word(opaque)])


def read_opaque(word):
    """The octets of an opaque value, written in elements or in hex."""
    if ":" not in word:
        return read_hex(word)
    octets = b""
    for element in word.split(","):
        *types, value = (read_hex(part) if part else b"" for part in element.split(":"))
        octets += b"".join(types) + struct.pack(">H", len(value)) + value
    if opaque_in_words(octets) != word.lower():
        raise ValueError(f"no opaque value: {word}")
    return octets


def read_name(root, opaque):
    return Name(read_address(root), read_opaque(opaque))


# Plans in words


def read_choices(word):
    """Root and neighbours of 'ROOT=NEIGHBOUR,NEIGHBOUR'."""
    root, _, choices = word.partition("=")
    return read_address(root), [] if choices == "none" else [read_number(choice) for choice in choices.split(",")]


def choices_word(root, choices):
    return f"{address_in_words(root)}={','.join(map(str, choices)) or 'none'}"


def set_octets(word):
    root, choices = read_choices(word)
    if any(choice >= NEIGHBOURS for choice in choices):
        raise ValueError(f"no set: {word}")
    return sum(1 << choice for choice in set(choices)).to_bytes(2, "big") + spaced(root)


def entry_octets(word):
    root, (neighbour,) = read_choices(word)
    return bytes([neighbour]) + spaced(root)


def pieces_octets(words, piece):
    """The octets of sets or entries in words, in hex; one word may be hex already."""
    if len(words) == 1 and "=" not in words[0]:
        return words[0]
    return hex_word(b"".join(map(piece, words)))


def sets_words(octets):
    pieces = cut_spaced(octets, SET_SIZE)
    bits = ((root, int.from_bytes(head, "big")) for head, root in pieces)
    return [choices_word(root, [n for n in range(NEIGHBOURS) if chosen >> n & 1]) for root, chosen in bits] or ["-"]


def list_words(octets):
    return [choices_word(root, head) for head, root in cut_spaced(octets, ENTRY_SIZE)] or ["-"]


# Orders in words


def read_message_words(words):
    """The octets of 'KIND ROOT OPAQUE LABEL [IDENTIFIER]'."""
    kind, root, opaque, label, *identifier = words
    if kind not in KINDS or len(identifier) > 1:
        raise ValueError("no message in words")
    number = read_number(identifier[0]) if identifier else USUAL_IDENTIFIER
    return message_octets(Message(kind, read_name(root, opaque), read_number(label), number))


def message_words(message):
    last = [] if message.identifier == USUAL_IDENTIFIER else [str(message.identifier)]
    return [message.kind, *str(message.name).split(" "), str(message.label), *last]


def words_to_octets(words):
    """The same order in octets. ValueError where it is none in words."""
    verb, *rest = words
    if verb in KINDS and len(rest) >= 4:
        return ["take", rest[0], read_message_words([verb, *rest[1:]]).hex()]
    if verb == "notice" and len(rest) >= 6:
        return [verb, *rest[:2], read_message_words(rest[2:]).hex()]
    if verb in NAMED_ORDERS and len(rest) == 2:
        return [verb, element_octets(read_name(*rest)).hex()]
    if verb == "wrap" and len(rest) in (3, 4):
        name = [element_octets(read_name(*rest[2:])).hex()] if len(rest) == 4 else rest[2:]
        return [verb, root_word(rest[0]), rest[1], *name]
    if verb == "route" and len(rest) == 2:
        return [verb, root_word(rest[0]), str(ROUTE_WORDS.get(rest[1], rest[1]))]
    if verb == "plan" and len(rest) >= 2:
        return [verb, rest[0], pieces_octets(rest[1:], set_octets)]
    if verb == "vet" and LIST_WORD in rest[2:-1]:
        at = rest.index(LIST_WORD)
        return [verb, rest[0], pieces_octets(rest[1:at], set_octets), pieces_octets(rest[at + 1 :], entry_octets)]
    raise ValueError("no order in words")


def octets_to_words(words):
    """The same order in words. ValueError where there are none for it."""
    verb, *rest = words
    if verb == "route" and len(rest) == 2:
        places = {str(number): word for word, number in ROUTE_WORDS.items()}
        return [verb, address_in_words(read_hex(rest[0])), places.get(rest[1], rest[1])]
    if verb == "plan" and len(rest) == 2:
        return [verb, rest[0], *sets_words(read_hex(rest[1]))]
    if verb == "vet" and len(rest) == 3:
        return [verb, rest[0], *sets_words(read_hex(rest[1])), LIST_WORD, *list_words(read_hex(rest[2]))]
    octets = read_hex(rest[-1]) if rest else b""
    message, name = read_message(octets), read_element(octets)
    if verb == "take" and len(rest) == 2 and message:
        kind, *others = message_words(message)
        return [kind, rest[0], *others]
    if verb == "notice" and len(rest) == 3 and message:
        return [verb, *rest[:2], *message_words(message)]
    if verb in NAMED_ORDERS and len(rest) == 1 and name:
        return [verb, *str(name).split(" ")]
    if verb == "wrap" and len(rest) == 3 and name:
        return [verb, address_in_words(read_hex(rest[0])), rest[1], *str(name).split(" ")]
    raise ValueError("no words for it")


def cut_line(line):
    """What stands before a line's order, the order, and what stands behind it."""
    order = line.partition("#")[0]
    before = len(order) - len(order.lstrip(BLANKS))
    order = order.strip(BLANKS)
    return line[:before], order, line[before + len(order) :]


def order_words(line):
    """The words of a line's order, parted as the bench parts them."""
    return [word for word in re.split(f"[{BLANKS}]+", cut_line(line)[1]) if word]


def line_in_octets(line):
    """A line of a day with its order in octets; a line that has no order in words stays as it is."""
    words = order_words(line)
    try:
        order = words_to_octets(words or [""])
    except UNREADABLE:
        return line
    before, _, behind = cut_line(line)
    return line if order == words else before + " ".join(order) + behind


def line_in_words(line):
    """A line of a day with its order in words, where those give back this very line; else the line as it is."""
    try:
        order = octets_to_words(order_words(line) or [""])
    except UNREADABLE:
        return line
    before, _, behind = cut_line(line)
    changed = before + " ".join(order) + behind
    return changed if line_in_octets(changed) == line else line


# Answers in words


def refusal_in_words(number):
    return f"refused {number}: {REFUSALS.get(int(number), 'a number that is not known')}"


def record_in_words(neighbour, message, named=str):
    """A record as a sentence; 'named' writes a tree's name."""
    told = read_message(message)
    if told:
        what = f"{told.kind.capitalize()} {told.label} for {named(told.name)}"
        return f"{what} to neighbour {neighbour}, identifier {told.identifier}"
    if message[:2] == struct.pack(">H", NOTIFICATION) and len(message) == MESSAGE_HEAD + struct.calcsize(STATUS_BODY):
        identifier, _, _, status, copied, kind = struct.unpack(STATUS_BODY, message[MESSAGE_HEAD:])
        code = status & ~FATAL
        what = f"Notification 0x{code:02x}, {STATUSES.get(code, 'not known')}{', fatal' if status & FATAL else ''}"
        of = f"for the {KIND_NAMES.get(kind, f'message of type 0x{kind:04x}')} with identifier {copied}"
        return f"{what}, {of}, to neighbour {neighbour}, identifier {identifier}"
    return f"message {message.hex()} to neighbour {neighbour}"


def feed_in_words(places):
    """Where a lookup leads: 'leaf' and 'NEIGHBOUR:LABEL' in words."""
    if places == ["nothing"]:
        return "leads nowhere"
    pairs = (place.partition(":") for place in places)
    return "leads to " + ", ".join(f"neighbour {n} with label {label}" if label else "the leaf" for n, _, label in pairs)


def layers_in_words(rest):
    """'ROOT[/EIGHT] > ... > ROOT OPAQUE', with addresses and elements."""
    *layers, opaque = [word for word in rest if word != ">"]
    pairs = (layer.partition("/") for layer in layers)
    roots = [address_in_words(read_hex(root)) + mark + eight for root, mark, eight in pairs]
    return " > ".join(roots) + " " + opaque_in_words(read_hex(opaque))


def accepted_in_words(verb, rest, named=str):
    """What an accepted order wrote, a line for each part."""
    if verb in RECORD_ANSWERS and rest:
        return [record_in_words(*record, named) for record in cut_records(read_hex(rest[0]))]
    if verb in SAVE_ANSWERS and rest:
        return [f"{len(read_hex(rest[0]))} octets"]
    if verb == "layers":
        return [layers_in_words(rest)]
    if verb in ("wrap", "unwrap"):
        outer = [f"within {address_in_words(read_hex(rest[1]))} {rest[2]}"] if verb == "unwrap" else []
        return [" ".join([named(read_element(read_hex(rest[0]))), *outer])]
    if verb == "plan":
        pairs = (entry.partition(":") for entry in rest)
        return [f"{address_in_words(read_hex(root))} over neighbour {n}" for root, _, n in pairs] or ["nothing to move"]
    return ["accepted" + (", nothing is sent" if verb in RECORD_ANSWERS else "")]


def said_in_words(verb, rest, named=str):
    """What the bench wrote behind an order's word, a line for each part."""
    if verb in ("label", "tree"):
        return [feed_in_words(rest)]
    if verb in ("free", "room"):
        return [f"{rest[0]} {'labels' if verb == 'free' else 'octets'}"]
    if rest[0] == "0":
        return accepted_in_words(verb, rest[1:], named)
    return [refusal_in_words(rest[0]) if rest[0].isdecimal() else rest[0]]


def answer_in_words(line):
    """What the bench wrote for one order, in words: a list of lines."""
    verb, *rest = line.split(" ")
    if verb == "?":
        return [f"line {rest[0]} is no order"]
    first, *others = said_in_words(verb, rest)
    margin = " " * len(f"{verb}: ")
    return [f"{verb}: {first}", *(margin + other for other in others)]
