"""examples/box.c over real TCP: four neighbours on the loopback, all at once, against the bench.

Each neighbour writes its stream in pieces from one octet to many PDUs, and the kernel cuts it as it likes. What the box prints tells
in which order it took the octets in. The same messages in the same order go through the bench's language (the second program's
`run`): answers, records and tables have to agree. What a neighbour is sent has to be the messages to it, in PDUs. Neighbour 2
stops in the middle, is lost and comes back. Where tshark may capture on the loopback, it has to read all that the box sends.
"""

import collections
import os
import pathlib
import random
import shutil
import signal
import socket
import struct
import subprocess
import tempfile
import threading
import time
import unittest

import ldp
import made
import test_library

from_pcap = made.tool("tools/from-pcap")

NEIGHBOURS = range(4)
STOPS = 2  # the neighbour that stops and comes back
BURSTS = 12
PATIENCE = 60
CAPTURE_PATIENCE = 15  # for tshark's start: the box itself waits for thirty seconds
PIECES = (1, 2, 3, 7, 60, 500, 1460, 20000)
PAUSES = 0.3  # after so many of the pieces the neighbour waits, so that others come between
PDU_HEAD = 10
BODY_LEAST, BODY_MOST = 8, 4090
ROUTES = {bytes([192, 0, 2, 1]): 0, bytes([192, 0, 2, 2]): 3, bytes.fromhex("20010db8000000000000000000000009"): 2}
SIZES = (0, 1, 4, 20, 60, 125)
TREES = [ldp.Name(root, struct.pack(">BH", 1, size) + bytes([7]) * size) for root in ROUTES for size in SIZES]
CARD = bytes.fromhex("c00002fe0000")


def pdu(neighbour, messages, version=1):
    return struct.pack(">HHIH", version, 6 + len(messages), 0xC0000200 + neighbour, 0) + messages


def refused_message(chance):
    """A message that is refused 2, 3 or 8; the next one is read all the same."""
    message = ldp.message_octets(ldp.Message("mapping", TREES[0], 15, 1))
    return chance.choice((struct.pack(">HH", 0x0400, 0), b"\x04\x01" + message[2:], message))


class Line:
    """A connection of a neighbour: its messages, each with the place in the stream where it ends, and the messages that came back."""

    def __init__(self, port, neighbour):
        self.neighbour, self.chance = neighbour, random.Random(neighbour)
        self.sent, self.messages, self.owed = 0, [], collections.deque()
        self.received, self.heard = b"", []
        self.socket = socket.create_connection(("127.0.0.1", port), PATIENCE, (f"127.0.2.{neighbour}", 0))
        self.socket.setsockopt(socket.IPPROTO_TCP, socket.TCP_NODELAY, 1)
        self.reader = threading.Thread(target=self.read, daemon=True)
        self.reader.start()

    def read(self):
        """Each Withdraw is to be answered by a Release."""
        place = 0
        while octets := self.socket.recv(65536):
            self.received += octets
            messages, read = from_pcap.cut_messages(self.received[place:])
            place += read
            self.heard += [message for message, _ in messages]
            told_so = [ldp.read_message(message) for message, _ in messages]
            self.owed.extend(message._replace(kind="release") for message in told_so if message.kind == "withdraw")

    def senders(self):
        """The identifiers of the PDUs that came back."""
        place, found = 0, set()
        while place < len(self.received):
            found.add(self.received[place + 4 : place + PDU_HEAD])
            place += 4 + int.from_bytes(self.received[place + 2 : place + 4], "big")
        return found

    def message(self):
        kind = self.chance.choice(("mapping", "mapping", "withdraw", "withdraw", "refused"))
        if self.owed:
            return ldp.message_octets(self.owed.popleft())
        if kind == "refused":
            return refused_message(self.chance)
        tree = self.chance.randrange(len(TREES))
        label = 1000 * (self.neighbour + 1) + tree + (self.chance.random() < 0.05)
        return ldp.message_octets(ldp.Message(kind, TREES[tree], label, self.chance.randrange(2**32)))

    def pdus(self, count):
        """So many messages, and one more where the last would be too short for a PDU; in PDUs as full as it happens."""
        stream, body, most = b"", b"", self.chance.randrange(1, BODY_MOST + 1)
        while count > 0 or len(body) < BODY_LEAST:
            message = self.message()
            if len(body) >= BODY_LEAST and len(body) + len(message) > most:
                stream += pdu(self.neighbour, body)
                body = b""
            body += message
            self.messages.append((self.sent + len(stream) + PDU_HEAD + len(body), message))
            count -= 1
        return stream + pdu(self.neighbour, body)

    def write(self, octets):
        self.sent += len(octets)
        while octets:
            size = self.chance.choice(PIECES)
            self.socket.sendall(octets[:size])
            octets = octets[size:]
            if self.chance.random() < PAUSES:
                time.sleep(0.001)

    def talk(self):
        for _ in range(BURSTS):
            self.write(self.pdus(self.chance.randrange(1, 80)))

    def stop(self):
        """A PDU of another version: of what follows nothing is a message."""
        self.write(pdu(self.neighbour, self.message(), version=2) + pdu(self.neighbour, self.message()))

    def end(self):
        """The box closes its side when it has read to the end."""
        self.socket.shutdown(socket.SHUT_WR)
        self.reader.join(PATIENCE)
        self.socket.close()


class Box:
    """The program, and what it has printed."""

    def __init__(self, command):
        self.process = subprocess.Popen(command, stdout=subprocess.PIPE, text=True, start_new_session=True)
        self.lines, self.news = [], threading.Condition()
        self.reader = threading.Thread(target=self.read, daemon=True)
        self.reader.start()

    def read(self):
        for line in self.process.stdout:
            with self.news:
                self.lines.append(line.split())
                self.news.notify_all()

    def wait_for(self, what):
        """Waits until `what` of the lines is true; what it is."""
        with self.news:
            if not self.news.wait_for(lambda: what(self.lines), PATIENCE):
                raise AssertionError(f"the box has not come so far; it printed {self.lines[-3:]}")
            return what(self.lines)

    def end(self):
        """How it ended."""
        self.reader.join(PATIENCE)
        return self.process.wait(PATIENCE)

    def kill(self):
        """Where it has not ended by itself."""
        if self.process.poll() is None:
            os.killpg(self.process.pid, signal.SIGKILL)
            self.process.wait()
        self.process.stdout.close()


def eaten(words):
    """How many octets the calls of a line `octets N ANSWER:EATEN[:RECORDS]..` ate."""
    return sum(int(call.split(":")[1]) for call in words[2:])


def eaten_of(neighbour, lines):
    """How many octets were eaten of the neighbour's last connection."""
    total = 0
    for words in lines:
        if words[1] == str(neighbour):
            total = 0 if words[0] == "came" else total + (eaten(words) if words[0] == "octets" else 0)
    return total


class Replay:
    """The box's day as orders of the bench, and which of them each of its lines tells of."""

    def __init__(self, lines, talks):
        self.day = [f"route {root.hex()} {neighbour}" for root, neighbour in ROUTES.items()]
        self.spans, self.cut = [], 0
        self.coming = {neighbour: iter(talks[neighbour]) for neighbour in NEIGHBOURS}
        self.left, self.places = {}, {}
        for words in lines:
            first = len(self.day)
            self.add(*words)
            self.spans.append((words, first, len(self.day)))

    def add(self, kind, *rest):
        neighbour = int(rest[0]) if rest else None
        if kind == "came":
            self.left[neighbour], self.places[neighbour] = list(next(self.coming[neighbour]).messages), 0
        elif kind == "octets":
            self.take_in(neighbour, eaten([kind, *rest]))
        elif kind == "lost":
            self.day.append(f"lost {neighbour}")
        elif kind == "save2":
            self.day.append("save2")

    def take_in(self, neighbour, count):
        """The messages that are whole now are taken, before anything else comes."""
        self.places[neighbour] += count
        left, place = self.left[neighbour], self.places[neighbour]
        whole = sum(end <= place for end, _ in left)
        self.day += [f"take {neighbour} {message.hex()}" for _, message in left[:whole]]
        self.cut += bool(left[whole:]) and place not in (end for end, _ in left[:whole])
        self.left[neighbour] = left[whole:]


def told(words):
    """Refusals and records of the calls of a line of the box."""
    calls = [call.split(":") for call in words[2:]]
    return [call[0] for call in calls if call[0] != "0"], "".join(call[2] for call in calls if len(call) == 3)


def answered(lines):
    """Refusals and records of lines of the bench."""
    words = [line.split() for line in lines]
    return [line[1] for line in words if line[1] != "0"], "".join(line[2] for line in words if len(line) == 3)


def sent_to(neighbour, lines):
    """The messages to a neighbour on each of its connections."""
    connections = []
    for words in lines:
        if words[:2] == ["came", str(neighbour)]:
            connections.append([])
        records = told(words)[1] if words[0] == "octets" else words[3] if words[0] == "lost" and len(words) == 4 else ""
        messages = [message for to, message in ldp.cut_records(bytes.fromhex(records)) if to == neighbour]
        if connections:
            connections[-1] += messages
    return connections


class Capture:
    """What tshark captures on the loopback, where it is there and may."""

    def __init__(self, port, folder):
        self.port, self.file, self.process = port, pathlib.Path(folder, "lo.pcap"), None
        if shutil.which("tshark"):
            words = ["tshark", "-q", "-B", "64", "-i", "lo", "-f", f"tcp port {port}", "-w", self.file]
            self.process = subprocess.Popen(words, stdout=subprocess.DEVNULL, stderr=subprocess.DEVNULL)
            self.until(lambda: self.has_begun() or self.process.poll() is not None, CAPTURE_PATIENCE)
        self.runs = self.has_begun()

    def has_begun(self):
        return self.file.is_file() and self.file.stat().st_size > 0

    def until(self, true, seconds=PATIENCE):
        """Waits for it, no longer than that."""
        end = time.monotonic() + seconds
        while not true() and time.monotonic() < end:
            time.sleep(0.1)

    def messages(self):
        """The identifiers of the messages from the box to each address, as tshark reads them; of a file that is still written too."""
        choice = ["-d", f"tcp.port=={self.port},ldp", "-Y", f"tcp.srcport=={self.port} and ldp"]
        words = ["tshark", "-r", self.file, *choice, "-T", "fields", "-e", "ip.dst", "-e", "ldp.msg.id"]
        ran = subprocess.run(words, capture_output=True, text=True, check=False, timeout=PATIENCE)
        found = collections.defaultdict(list)
        for line in ran.stdout.splitlines():
            address, numbers = line.split("\t")
            found[address] += [int(number, 16) for number in numbers.split(",")]
        return found

    def wait_for(self, sent):
        """The messages, when as many are in the file as were sent: it comes when the machine lets it. None where tshark may not capture."""
        if not self.runs:
            return None
        self.until(lambda: sum(map(len, self.messages().values())) >= sent)
        return self.messages()

    def end(self):
        if self.process and self.process.poll() is None:
            self.process.send_signal(signal.SIGINT)
            self.process.wait(PATIENCE)


@made.needs(test_library.COMPILER, "examples/box.c is not built (no compiler for x86-64)")
@made.needs("pkg-config", "examples/box.c is not built through it")
@made.needs(str(made.SECOND), "examples/box.c is not compared with it")
@test_library.needs_archive("examples/box.c is not built")
class OverTcp(unittest.TestCase):
    def stop_and_return(self, box, talks, port):
        first = talks[STOPS][0]
        first.talk()
        first.stop()
        box.wait_for(lambda lines: ["stopped", str(STOPS)] in lines)
        first.end()
        talks[STOPS].append(Line(port, STOPS))
        talks[STOPS][1].talk()

    def run_a_day(self, box, port):
        """All four talk at once; when all is eaten each ends its connection."""
        talks = {neighbour: [Line(port, neighbour)] for neighbour in NEIGHBOURS}
        box.wait_for(lambda lines: all(["came", str(neighbour)] in lines for neighbour in NEIGHBOURS))
        talkers = [threading.Thread(target=talks[n][0].talk, daemon=True) for n in NEIGHBOURS if n != STOPS]
        talkers.append(threading.Thread(target=self.stop_and_return, args=(box, talks, port), daemon=True))
        for talker in talkers:
            talker.start()
        for talker in talkers:
            talker.join(PATIENCE)
        self.assertEqual([len(lines) for lines in talks.values()], [2 if n == STOPS else 1 for n in NEIGHBOURS])
        box.wait_for(lambda lines: all(eaten_of(n, lines) == talks[n][-1].sent for n in NEIGHBOURS))
        for neighbour in NEIGHBOURS:
            talks[neighbour][-1].end()
        self.assertEqual(box.end(), 0)
        return talks

    def compare(self, lines, talks):
        """With what the bench says to the same orders."""
        replay = Replay(lines, talks)
        written = made.second("run", day="\n".join(replay.day).encode()).decode().splitlines()
        self.assertEqual(len(written), len(replay.day))
        for words, first, end in replay.spans:
            if words[0] == "octets":
                self.assertEqual(told(words), answered(written[first:end]))
            elif words[0] == "lost":
                self.assertEqual(["lost", *words[2:]], written[first].split())
            elif words[0] == "save2":
                self.assertEqual(words, written[first].split())
        self.assertGreater(replay.cut, 0, "no message was cut")
        self.assertLessEqual({"2", "3", "8", "10"}, {number for line in written for number in line.split()[1:2]})

    def test_a_day_of_four_neighbours(self):
        routes = " ".join(f"{root.hex()}:{neighbour}" for root, neighbour in ROUTES.items())
        with tempfile.TemporaryDirectory() as folder:
            box = Box(test_library.make_command("box", f"build={folder}", f"ROUTES={routes}"))
            try:
                port = int(box.wait_for(lambda lines: lines and lines[0])[1])
                capture = Capture(port, folder)
                try:
                    talks = self.run_a_day(box, port)
                    captured = capture.wait_for(sum(len(line.heard) for lines in talks.values() for line in lines))
                finally:
                    capture.end()
            finally:
                box.kill()
        self.compare(box.lines, talks)
        self.assertEqual([words[1] for words in box.lines if words[0] == "lost"], ["2", "0", "1", "2", "3"])
        self.assertEqual(box.lines[-1][0], "save2")
        for neighbour in NEIGHBOURS:
            heard = [line.heard for line in talks[neighbour]]
            self.assertEqual(heard, sent_to(neighbour, box.lines))
            self.assertLessEqual(set().union(*(line.senders() for line in talks[neighbour])), {CARD})
            if captured is not None:
                numbers = [int.from_bytes(message[4:8], "big") for messages in heard for message in messages]
                self.assertEqual(captured[f"127.0.2.{neighbour}"], numbers)


if __name__ == "__main__":
    unittest.main()
