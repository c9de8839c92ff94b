"""Captures out and in: tools/pcap and tools/from-pcap."""

import pathlib
import random
import socket
import struct
import subprocess
import tempfile
import unittest

import ldp
import made

pcap = made.tool("tools/pcap")
from_pcap = made.tool("tools/from-pcap")

LINES = 300
LONGEST_SEGMENT = 1460
TREE = ldp.Name(bytes([192, 0, 2, 1]), bytes([1, 0, 4, 0, 0, 0, 7]))
LONG_TREE = ldp.Name(bytes.fromhex("20010db8000000000000000000000001"), bytes(range(32)))
HELLO = bytes.fromhex("0100000c00000001" "0400000400 0f0000".replace(" ", ""))
KEEPALIVE = bytes.fromhex("0201000400000002")
INITIALIZATION = bytes.fromhex("0200001600000001" "0500000e 0001 001e 00 00 0000 c00002fe 0000".replace(" ", ""))


def address(neighbour):
    return socket.inet_aton(f"198.51.100.{neighbour}")


def label_message(kind, label, identifier, name=TREE):
    return ldp.message_octets(ldp.Message(kind, name, label, identifier))


def udp_frame(payload, neighbour):
    datagram = struct.pack(">HHHH", pcap.LDP_PORT, pcap.LDP_PORT, 8 + len(payload), 0) + payload
    everyone = socket.inet_aton("224.0.0.2")
    return pcap.frame(pcap.ip_packet(0, datagram, address(neighbour), everyone, socket.IPPROTO_UDP), neighbour)


def segment_frame(neighbour, at, payload, source, destination):
    """A part of the stream from source to destination, which begins at sequence number 1."""
    segment = pcap.tcp_segment(neighbour, 1 + at, payload, source, destination)
    return pcap.frame(pcap.ip_packet(at, segment, source, destination), neighbour)


def cut(octets, chance):
    """The octets in parts of odd lengths, each with its place."""
    at = 0
    while at < len(octets):
        part = octets[at : at + chance.choice((1, 2, 3, 5, 7, 40, 333, LONGEST_SEGMENT))]
        yield at, part
        at += len(part)


def cut_lines(streams, seed):
    """Frames of several neighbours' streams to the card, cut at odd places and taking turns."""
    chance = random.Random(seed)
    waiting = {neighbour: list(cut(octets, chance)) for neighbour, octets in streams.items()}
    while waiting:
        neighbour = chance.choice(sorted(waiting))
        at, part = waiting[neighbour].pop(0)
        yield segment_frame(neighbour, at, part, address(neighbour), pcap.CARD)
        if not waiting[neighbour]:
            del waiting[neighbour]


def day_of(frames, *words):
    with tempfile.TemporaryDirectory() as folder:
        path = pathlib.Path(folder, "line.pcap")
        path.write_bytes(pcap.capture(frames))
        ran = subprocess.run([made.ROOT / "tools/from-pcap", *words, path], stdout=subprocess.PIPE, text=True, check=True)
    return ran.stdout.splitlines()


def written_records(kind):
    output = made.second("run", day=made.second("day", kind, 1, LINES)).decode().splitlines()
    return pcap.read_records(output)


@made.needs("tshark", "no capture is turned into a day")
class FromPcap(unittest.TestCase):
    def test_what_pcap_wrote(self):
        for kind in ("damaged", "full"):
            records = written_records(kind)
            told = [message for _, message in records if ldp.read_message(message)]
            day = day_of(pcap.frames(records))
            self.assertEqual(day[0], "# neighbour 0 is 192.0.2.254")
            self.assertEqual([line for line in day if line[0] != "#"], [f"take 0 {message.hex()}" for message in told])
            others = len(records) - len(told)
            self.assertEqual(day[1 + len(told) :], [f"# left out: {others} Notification"] if others else [])

    def test_streams_cut_at_odd_places(self):
        records = written_records("ordinary")
        sent = {neighbour: [message for to, message in records if to == neighbour] for neighbour, _ in records}
        for seed in (1, 2):
            streams = {neighbour: b"".join(map(pcap.ldp_pdu, messages)) for neighbour, messages in sent.items()}
            day = day_of(cut_lines(streams, seed))
            numbers = dict(line[2:].split()[1::2] for line in day if line.startswith("# neighbour"))
            self.assertEqual(sorted(numbers.values()), sorted(f"198.51.100.{neighbour}" for neighbour in sent))
            for number, who in numbers.items():
                taken = [line.split()[2] for line in day if line.startswith(f"take {number} ")]
                told = [message.hex() for message in sent[int(who.split(".")[3])] if ldp.read_message(message)]
                self.assertEqual(taken, told)

    def test_hello_keepalive_and_two_messages_in_a_pdu(self):
        first, second = label_message("mapping", 100, 5), label_message("withdraw", 100, 6, LONG_TREE)
        stream = pcap.ldp_pdu(INITIALIZATION) + pcap.ldp_pdu(KEEPALIVE) + pcap.ldp_pdu(first + KEEPALIVE + second)
        other = pcap.ldp_pdu(label_message("release", 16, 7))
        frames = [udp_frame(pcap.ldp_pdu(HELLO), 1), *cut_lines({1: stream}, 1), udp_frame(pcap.ldp_pdu(HELLO), 2),
                  segment_frame(2, 0, other, address(2), pcap.CARD),
                  segment_frame(1, 0, pcap.ldp_pdu(first), pcap.CARD, address(1))]
        day = [
            "# neighbour 0 is 198.51.100.1", "# neighbour 1 is 198.51.100.2",
            f"take 0 {first.hex()}", f"take 0 {second.hex()}", f"take 1 {label_message('release', 16, 7).hex()}",
            "# left out: 2 Hello", "# left out: 1 Initialization", "# left out: 2 KeepAlive",
            "# left out: 1 Mapping of the card itself",
        ]
        self.assertEqual(day_of(frames, "--card", "192.0.2.254"), day)

    def test_segments_out_of_order_and_twice(self):
        messages = [label_message("mapping", label, label) for label in range(100, 110)]
        parts = list(cut(b"".join(map(pcap.ldp_pdu, messages)), random.Random(4)))
        parts[3], parts[4] = parts[4], parts[3]
        parts.insert(6, parts[2])
        day = day_of(segment_frame(1, at, part, address(1), pcap.CARD) for at, part in parts)
        self.assertEqual(day[1:], [f"take 0 {message.hex()}" for message in messages])

    def test_what_is_no_pdu_is_told(self):
        whole = pcap.ldp_pdu(label_message("mapping", 100, 1))
        day = day_of([segment_frame(1, 0, whole + whole[:-1], address(1), pcap.CARD)])
        remark = f"# of 198.51.100.1 {len(whole) - 1} octets at the end of a stream are no whole PDU and were not read"
        self.assertEqual([day[0], *day[2:]], ["# neighbour 0 is 198.51.100.1", remark])

    def test_the_day_runs(self):
        day = "\n".join(day_of(pcap.frames(written_records("full")))).encode()
        self.assertNotIn(b"?", made.second("run", day=day))


class Pdus(unittest.TestCase):
    def test_reading_ends_where_no_pdu_stands(self):
        message = label_message("mapping", 100, 1)
        whole = pcap.ldp_pdu(message)
        past = struct.pack(">HH", 0x0400, 100) + bytes(20)
        for rest in (b"", b"\0\2" + bytes(30), whole[:-1], whole[:9], pcap.ldp_pdu(past), pcap.ldp_pdu(b"\0\0\0")):
            self.assertEqual(from_pcap.cut_messages(whole + rest), ([(message, len(whole))], len(whole)))


if __name__ == "__main__":
    unittest.main()
