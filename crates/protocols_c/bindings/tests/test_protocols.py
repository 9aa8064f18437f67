"""Calls the library with the rows of standard input, on each line the name of a format and bytes in hex, and with random
values. Plain shifts say what is right. Prints the number of calls."""
from __future__ import annotations

import random
import sys
from typing import Callable

from protocols import coap_header, ethernet_header, icmp_header, mqtt_header, report_block, rtcp_receiver_report
from protocols import socks_login, stun_header
from protocols.coap_header import CoapHeader, Message
from protocols.ethernet_header import EthernetHeader, EtherType
from protocols.icmp_gateway import IcmpGateway
from protocols.icmp_header import Body, BodyEcho, BodyEchoReply, BodyOther, BodyRedirect, IcmpHeader
from protocols.icmp_ids import IcmpIds
from protocols.mqtt_header import MqttHeader, Packet
from protocols.report_block import ReportBlock
from protocols.rtcp_receiver_report import RtcpReceiverReport
from protocols.socks_login import SocksLogin
from protocols.stun_header import StunHeader
from protocols.vlan_tag import VlanTag

calls = 0
Answer = tuple[object, int] | type[ValueError]


def parsed(parse: Callable[[bytes], tuple[object, int]], data: bytes) -> Answer:
    """Returns the fields and the number of their bytes, or the class of the exception."""
    global calls
    calls += 1
    try:
        return parse(data)
    except ValueError as it:
        return type(it)


def packed(
    it: CoapHeader | MqttHeader | EthernetHeader | IcmpHeader | RtcpReceiverReport | SocksLogin | StunHeader,
) -> bytes | type[ValueError]:
    """Returns the bytes, or the class of the exception."""
    global calls
    calls += 1
    try:
        return it.pack()
    except ValueError as error:
        return type(error)


def mqtt_fields(b: bytes) -> Answer:
    """Returns what a parse of an MQTT header is to return."""
    if not b:
        return mqtt_header.EndOfInput
    if not b[0] >> 4:
        return mqtt_header.NoPacket
    found = 0
    for k, one in enumerate(b[1:]):
        found |= (one & 127) << 7 * k
        if one < 128:
            if found >> 32:
                return mqtt_header.BadNumber
            it = MqttHeader(Packet(b[0] >> 4), bool(b[0] & 8), b[0] >> 1 & 3, bool(b[0] & 1), found)
            return it, k + 2
        if k == 4:
            return mqtt_header.BadNumber
    return mqtt_header.EndOfInput


def mqtt_bytes(it: MqttHeader) -> bytes:
    """Returns the bytes of an MQTT header."""
    out, left = [it.kind << 4 | it.again << 3 | it.quality << 1 | it.retain], it.remaining
    while left > 127:
        out.append(left & 127 | 128)
        left >>= 7
    return bytes([*out, left])


def ethernet_fields(b: bytes) -> Answer:
    """Returns what a parse of an Ethernet header is to return."""
    size = 18 if b[12:14] == b"\x81\x00" else 14
    if len(b) < size:
        return ethernet_header.EndOfInput
    kind, bits, tag = int.from_bytes(b[12:14], "big"), int.from_bytes(b[14:18], "big"), None
    if size == 18:
        tag = VlanTag(bits >> 29, bool(bits >> 28 & 1), bits >> 16 & 4095, bits & 65535)
    return EthernetHeader(b[:6], b[6:12], EtherType(kind) if kind in list(EtherType) else kind, tag), size


def coap_fields(b: bytes) -> Answer:
    """Returns what a parse of a CoAP header is to return."""
    if b and b[0] >> 6 != 1:
        return coap_header.OtherVersion
    size = 4 + (b[0] & 15) if b else 4
    if len(b) < size:
        return coap_header.EndOfInput
    return CoapHeader(Message(b[0] >> 4 & 3), b[1] >> 5, b[1] & 31, b[2] << 8 | b[3], b[4:size]), size


def icmp_fields(b: bytes) -> Answer:
    """Returns what a parse of an ICMP header is to return."""
    size = 8 if b[:1] in (b"\x00", b"\x05", b"\x08") else 4
    if len(b) < size:
        return icmp_header.EndOfInput
    ids, body = IcmpIds(int.from_bytes(b[4:6], "big"), int.from_bytes(b[6:8], "big")), b[0]
    cases: dict[int, Body] = {0: BodyEchoReply(ids), 5: BodyRedirect(IcmpGateway(b[4:8])), 8: BodyEcho(ids)}
    return IcmpHeader(b[1], b[2] << 8 | b[3], cases.get(body, BodyOther(body))), size


def socks_fields(b: bytes) -> Answer:
    """Returns what a parse of the login of SOCKS is to return."""
    if b and b[0] != 1:
        return socks_login.OtherVersion
    second = 2 + b[1] if len(b) > 1 else 2
    size = second + 1 + b[second] if len(b) > second else 256
    if len(b) < size:
        return socks_login.EndOfInput
    return SocksLogin(b[2:second], b[second + 1 : size]), size


def stun_fields(b: bytes) -> Answer:
    """Returns what a parse of the header of STUN is to return."""
    if b and b[0] > 63:
        return stun_header.NoStun
    if len(b) > 7 and b[4:8] != b"\x21\x12\xa4\x42":
        return stun_header.NoCookie
    if len(b) < StunHeader.SIZE:
        return stun_header.EndOfInput
    return StunHeader(b[0] << 8 | b[1], b[2] << 8 | b[3], b[8:20]), StunHeader.SIZE


def block_fields(b: bytes) -> ReportBlock:
    """Returns the fields of the bytes of a report block."""
    words = [int.from_bytes(b[k : k + 4], "big") for k in range(0, 24, 4)]
    lost = words[1] & 0xFFFFFF
    return ReportBlock(words[0], words[1] >> 24, lost - (lost >> 23 << 24), *words[2:])


def parsed_block(data: bytes) -> ReportBlock | type[ValueError]:
    """Returns the fields of the bytes of a report block, or the class of the exception."""
    found = parsed(lambda it: (ReportBlock.parse(it), 24), data)
    if isinstance(found, tuple):
        assert isinstance(found[0], ReportBlock)
        return found[0]
    return found


def rtcp_fields(b: bytes) -> Answer:
    """Returns what a parse of a receiver report is to return."""
    if b and b[0] >> 6 != 2:
        return rtcp_receiver_report.OtherVersion
    if len(b) > 1 and b[1] != 201:
        return rtcp_receiver_report.OtherPacket
    size = 8 + 24 * (b[0] & 31) if b else 8
    if len(b) < size:
        return rtcp_receiver_report.EndOfInput
    reports = [block_fields(b[k : k + 24]) for k in range(8, size, 24)]
    ssrc = int.from_bytes(b[4:8], "big")
    return RtcpReceiverReport(bool(b[0] >> 5 & 1), b[2] << 8 | b[3], ssrc, reports), size


def rtcp_bytes(it: RtcpReceiverReport) -> bytes:
    """Returns the bytes of a receiver report."""
    words = [0x80000000 | it.padding << 29 | len(it.reports) << 24 | 201 << 16 | it.length, it.ssrc]
    for one in it.reports:
        lost = one.fraction_lost << 24 | one.lost & 0xFFFFFF
        words += [one.ssrc, lost, one.highest, one.jitter, one.last_report, one.delay]
    return b"".join(word.to_bytes(4, "big") for word in words)


def check_messages(name: str, data: bytes) -> None:
    """Parses bytes with a choice, a size or parts, and packs their fields again."""
    if name == "report_block" and len(data) < ReportBlock.SIZE:
        assert parsed_block(data) is report_block.EndOfInput, data
    elif name == "report_block":
        assert parsed_block(data) == block_fields(data) and block_fields(data).pack() == data[:24], data
    if name == "rtcp_receiver_report":
        report = parsed(RtcpReceiverReport.parse, data)
        assert report == rtcp_fields(data), data
        if isinstance(report, tuple) and isinstance(report[0], RtcpReceiverReport):
            assert packed(report[0]) == data[: report[1]], data
    if name == "icmp_header":
        icmp = parsed(IcmpHeader.parse, data)
        assert icmp == icmp_fields(data), data
        if isinstance(icmp, tuple) and isinstance(icmp[0], IcmpHeader):
            assert packed(icmp[0]) == data[: icmp[1]], data
    if name == "stun_header":
        stun = parsed(lambda it: (StunHeader.parse(it), StunHeader.SIZE), data)
        assert stun == stun_fields(data), data
        if isinstance(stun, tuple) and isinstance(stun[0], StunHeader):
            assert packed(stun[0]) == data[: StunHeader.SIZE], data
    if name == "socks_login":
        found = parsed(SocksLogin.parse, data)
        assert found == socks_fields(data), data
        if isinstance(found, tuple) and isinstance(found[0], SocksLogin):
            assert packed(found[0]) == data[: found[1]], data


def check(name: str, data: bytes) -> None:
    """Parses bytes, and packs their fields again."""
    check_messages(name, data)
    if name == "coap_header":
        coap = parsed(CoapHeader.parse, data)
        assert coap == coap_fields(data), data
        if isinstance(coap, tuple) and isinstance(coap[0], CoapHeader):
            assert packed(coap[0]) == data[: coap[1]], data
    if name == "mqtt_header":
        assert parsed(MqttHeader.parse, data) == mqtt_fields(data), data
    if name == "ethernet_header":
        found = parsed(EthernetHeader.parse, data)
        assert found == ethernet_fields(data), data
        if isinstance(found, tuple) and isinstance(found[0], EthernetHeader):
            assert packed(found[0]) == data[: found[1]], data


def check_mqtt() -> None:
    """Packs random fields, some of which do not fit, and parses them again."""
    it = MqttHeader(random.choice(list(Packet)), random.random() < 0.5, random.randint(0, 4), False, 0)
    it.remaining = random.getrandbits(random.randint(1, 33))
    data = packed(it)
    if it.quality > 3 or it.remaining >> 32:
        assert data is mqtt_header.DoesNotFit, it
    else:
        assert isinstance(data, bytes) and data == mqtt_bytes(it), it
        assert parsed(MqttHeader.parse, data + b"\xff") == (it, len(data)), it


def check_ethernet() -> None:
    """Packs random fields, some of which do not fit, and parses them again."""
    kind = random.choice([0x8100, EtherType.IPV4, 0x88CC])
    tag = VlanTag(random.randint(0, 8), True, random.getrandbits(12), random.getrandbits(16))
    it = EthernetHeader(random.randbytes(6), random.randbytes(6), kind, tag if random.random() < 0.5 else None)
    data = packed(it)
    if (kind == 0x8100) != (it.tag is not None) or it.tag and it.tag.priority > 7:
        assert data is ethernet_header.DoesNotFit, it
    else:
        assert isinstance(data, bytes) and parsed(EthernetHeader.parse, data + b"\xff") == (it, len(data)), it


def check_coap() -> None:
    """Packs random fields, some of which do not fit, and parses them again."""
    token = random.randbytes(random.randint(0, 16))
    it = CoapHeader(random.choice(list(Message)), random.randint(0, 8), 3, random.getrandbits(16), token)
    data = packed(it)
    if it.class_ > 7 or len(token) > 15:
        assert data is coap_header.DoesNotFit, it
    else:
        assert isinstance(data, bytes) and parsed(CoapHeader.parse, data + b"\xff") == (it, len(data)), it


def check_icmp() -> None:
    """Packs random choices, some of which do not fit, and parses them again."""
    ids, other = IcmpIds(random.getrandbits(16), random.randint(0, 65536)), random.randint(0, 257)
    cases: list[Body] = [BodyEcho(ids), BodyEchoReply(ids), BodyRedirect(IcmpGateway(random.randbytes(4)))]
    it = IcmpHeader(1, random.getrandbits(16), random.choice([*cases, BodyOther(other), BodyOther(5)]))
    data = packed(it)
    wide = isinstance(it.body, BodyEcho | BodyEchoReply) and ids.sequence > 65535
    if wide or isinstance(it.body, BodyOther) and (it.body.number in (0, 5, 8) or it.body.number > 255):
        assert data is icmp_header.DoesNotFit, it
    else:
        assert isinstance(data, bytes) and parsed(IcmpHeader.parse, data + b"\xff") == (it, len(data)), it


def check_rtcp() -> None:
    """Packs random report blocks, some of which do not fit, and parses them again."""
    reports = list[ReportBlock]()
    for _ in range(random.choice([0, 1, 2, random.randint(0, 32)])):
        lost = random.getrandbits(24) - 2**23
        if random.random() < 0.02:
            lost = random.choice([2**23, -(2**23) - 1])
        words = [random.getrandbits(32) for _ in range(5)]
        reports.append(ReportBlock(words[0], random.getrandbits(8), lost, *words[1:]))
    it = RtcpReceiverReport(random.random() < 0.5, random.randint(0, 65535), random.getrandbits(32), reports)
    data = packed(it)
    if len(reports) > 31 or any(not -(2**23) <= one.lost < 2**23 for one in reports):
        assert data is rtcp_receiver_report.DoesNotFit, it
    else:
        assert isinstance(data, bytes) and data == rtcp_bytes(it), it
        assert parsed(RtcpReceiverReport.parse, data + b"\xff") == (it, len(data)), it


def check_socks() -> None:
    """Packs random bytes, some of which do not fit, and parses them again."""
    it = SocksLogin(
        random.randbytes(random.choice([0, 5, 255, 256])), random.randbytes(random.choice([0, 7, 255, 300]))
    )
    data = packed(it)
    if len(it.name) > 255 or len(it.password) > 255:
        assert data is socks_login.DoesNotFit, it
    else:
        assert isinstance(data, bytes) and parsed(SocksLogin.parse, data + b"\xff") == (it, len(data)), it


random.seed(1)
for line in sys.stdin:
    format_, digits = line.split()
    row = bytes.fromhex(digits)
    for length in range(len(row) + 1):
        check(format_, row[:length])
for _ in range(10000):
    check("mqtt_header", random.randbytes(random.randint(0, 8)))
    check("ethernet_header", random.randbytes(12) + random.choice([b"\x81\x00", b"\x08\x00"]) + random.randbytes(4))
    check("coap_header", bytes([random.getrandbits(6) | 64, *random.randbytes(random.randint(0, 19))]))
    check_mqtt()
    check_ethernet()
    check_coap()
    check("icmp_header", bytes([random.randint(0, 9), *random.randbytes(random.randint(0, 9))]))
    name = random.randbytes(random.randint(0, 12))
    login = bytes([1, len(name), *name, random.randint(0, 12), *random.randbytes(12)])
    check("socks_login", login[: random.randint(0, len(login))])
    check_icmp()
    check_socks()
    head = bytes([random.getrandbits(2) | 0x80 | random.getrandbits(1) << 5, random.choice([201, 201, 201, 200])])
    check("rtcp_receiver_report", head + random.randbytes(random.randint(0, 79)))
    cookie = random.choice([b"\x21\x12\xa4\x42", b"\x21\x12\xa4\x42", random.randbytes(4)])
    message = bytes([random.choice([0, 1, 63, 64]), *random.randbytes(3), *cookie, *random.randbytes(14)])
    check("stun_header", message[: random.randint(0, len(message))])
    check("report_block", random.randbytes(random.choice([24, 25, random.randint(0, 23)])))
    for _ in range(10):
        check_rtcp()
try:
    EthernetHeader(bytes(6), bytes(6), 0x8100, VlanTag(8, True, 1, 1)).pack()
except ethernet_header.DoesNotFit as it:
    assert str(it) == "tag.priority: 8 is not from 0 to 7"
try:
    EthernetHeader(bytes(5), bytes(6), 0x8100, None).pack()
except ethernet_header.DoesNotFit as it:
    assert str(it) == "target: 5 bytes, and not 6"
try:
    RtcpReceiverReport(False, 7, 5, [ReportBlock(1, 0, 2**23, 0, 0, 0, 0)]).pack()
except rtcp_receiver_report.DoesNotFit as it:
    assert str(it) == "reports[0].lost: 8388608 is not from -8388608 to 8388607"
print(calls, "calls")
