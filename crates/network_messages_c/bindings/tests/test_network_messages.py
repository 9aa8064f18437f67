"""Calls the library with the rows of standard input, on each line the name of a format and bytes in hex, and with random
values. Plain sums say what is right. Prints the number of calls."""
from __future__ import annotations

import random
import sys
from typing import Callable

from network_messages import icmp_message, ipv4_packet, udp_datagram
from network_messages.icmp_message import Echo, IcmpMessage
from network_messages.ipv4_packet import Ipv4Packet
from network_messages.ipv4_pseudo import Ipv4Pseudo
from network_messages.udp_datagram import UdpDatagram

calls = 0
Answer = tuple[object, int] | type[ValueError]


def said(parse: Callable[[], tuple[object, int]]) -> Answer:
    """Returns the fields and the number of their bytes, or the class of the exception."""
    global calls
    calls += 1
    try:
        return parse()
    except ValueError as it:
        return type(it)


def inverted_sum(data: bytes) -> int:
    """Returns the inverted sum of the words of 16 bits, with a zero after an odd number of bytes."""
    data += b"\0" * (len(data) % 2)
    found = sum(int.from_bytes(data[k : k + 2], "big") for k in range(0, len(data), 2))
    while found >> 16:
        found = (found & 0xFFFF) + (found >> 16)
    return 0xFFFF - found


def number(data: bytes, at: int) -> int:
    """Returns the number of two bytes."""
    return int.from_bytes(data[at : at + 2], "big")


def check_icmp(data: bytes) -> None:
    """Compares a message with plain sums, and packs it again."""
    wanted: Answer = icmp_message.EndOfInput
    if data and data[0] not in (0, 8):
        wanted = icmp_message.NoEcho
    elif len(data) >= 8:
        wanted = icmp_message.WrongSum
        if inverted_sum(data[:2] + data[4:]) == number(data, 2):
            it = IcmpMessage(Echo(data[0]), data[1], number(data, 4), number(data, 6), data[8:])
            assert it.pack() == data
            wanted = it, len(data)
    assert said(lambda: IcmpMessage.parse(data)) == wanted, data.hex()


def check_ipv4(data: bytes) -> None:
    """Compares a header with plain sums, and packs it again."""
    size = 4 * (data[0] & 15) if data else 0
    wanted: Answer = ipv4_packet.EndOfInput
    if data and data[0] >> 4 != 4:
        wanted = ipv4_packet.OtherVersion
    elif len(data) > 6 and data[6] & 0x80:
        wanted = ipv4_packet.ReservedSet
    elif len(data) >= 20 and size < 20:
        wanted = ipv4_packet.ShortHeader
    elif len(data) >= max(size, 20):
        wanted = ipv4_packet.WrongSum
        if inverted_sum(data[:10] + data[12:size]) == number(data, 10):
            flags, ids = data[6] >> 5, (number(data, 2), number(data, 4))
            place = number(data, 6) & 0x1FFF
            ends = data[8], data[9], data[12:16], data[16:20], data[20:size]
            it = Ipv4Packet(data[1], *ids, bool(flags & 2), bool(flags & 1), place, *ends)
            assert it.pack() == data[:size]
            wanted = it, size
    assert said(lambda: Ipv4Packet.parse(data)) == wanted, data.hex()


def check_udp(pseudo: Ipv4Pseudo, data: bytes) -> None:
    """Compares a datagram with plain sums, and packs it again."""
    size = number(data, 4)
    wanted: Answer = udp_datagram.EndOfInput
    if len(data) >= 8 and size < 8:
        wanted = udp_datagram.ShortLength
    elif len(data) >= max(size, 8):
        wanted = udp_datagram.WrongSum
        head = pseudo.source + pseudo.target + bytes([0, pseudo.protocol]) + pseudo.length.to_bytes(2, "big")
        if (inverted_sum(head + data[:6] + data[8:size]) or 0xFFFF) == number(data, 6):
            it = UdpDatagram(pseudo, number(data, 0), number(data, 2), data[8:size])
            assert it.pack() == data[:size]
            wanted = it, size
    assert said(lambda: UdpDatagram.parse(data, pseudo)) == wanted, data.hex()


def right(data: bytes, at: int, found: int) -> bytes:
    """Returns bytes with their checksum at its place, and one time in four with another bit."""
    made = bytearray(data[:at] + found.to_bytes(2, "big") + data[at + 2 :])
    if random.getrandbits(2) == 0:
        made[random.randrange(len(made))] ^= 1 << random.randrange(8)
    return bytes(made[: random.randint(0, len(made))] if random.getrandbits(3) == 0 else made)


for line in sys.stdin:
    name, digits = line.split()
    row = bytes.fromhex(digits)
    for cut in range(len(row) + 1):
        {"icmp_message": check_icmp, "ipv4_packet": check_ipv4}[name](row[:cut])
random.seed(1)
for _ in range(10000):
    body = bytes([random.choice([0, 8]), *random.randbytes(random.randint(7, 40))])
    check_icmp(right(body, 2, inverted_sum(body[:2] + body[4:])))
    words = random.randint(5, 15)
    body = bytes([0x40 | words, *random.randbytes(5), random.getrandbits(7), *random.randbytes(4 * words - 7)])
    check_ipv4(right(body, 10, inverted_sum(body[:10] + body[12:])) + random.randbytes(random.randint(0, 3)))
    pseudo = Ipv4Pseudo(random.randbytes(4), random.randbytes(4), random.getrandbits(8), random.getrandbits(16))
    count = random.randint(0, 40)
    body = random.randbytes(4) + (8 + count).to_bytes(2, "big") + random.randbytes(2 + count)
    head = pseudo.source + pseudo.target + bytes([0, pseudo.protocol]) + pseudo.length.to_bytes(2, "big")
    check_udp(pseudo, right(body, 6, inverted_sum(head + body[:6] + body[8:]) or 0xFFFF))
try:
    Ipv4Packet(0, 0, 0, False, False, 0, 0, 0, bytes(4), bytes(4), bytes(3)).pack()
except ipv4_packet.DoesNotFit as it:
    assert str(it).startswith("options"), it
print(calls, "calls")
