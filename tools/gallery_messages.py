"""Random messages of more protocols, and the fields of tshark for them: more cases of `tools/test_protocols`."""
from __future__ import annotations

import struct
from random import Random
from typing import Any

from protocol_messages import RAW_IP, Message, Values, case_of, summed, to_port
from protocols import Made

Json = Any


# ---- random messages


def modbus(r: Random, function: int, data: bytes, asks: bool) -> Made:
    """A message of Modbus/TCP in a segment to or from its port."""
    body = struct.pack(">3H2B", r.getrandbits(16), 0, 2 + len(data), r.getrandbits(8), function) + data
    port = r.randrange(1024, 1 << 16)
    ports = (port, 502) if asks else (502, port)
    tcp = struct.pack(">2H2I2B3H", *ports, 1, 1, 0x50, 0x18, 1024, 0, 0)
    ip = struct.pack(">2B3H2BH", 0x45, 0, 40 + len(body), 0, 0, 64, 6, 0) + b"\x0a" + r.randbytes(3) + b"\x0a\0\0\1"
    return Made(body, before=ip + tcp)


def modbus_request(r: Random) -> Made:
    """A request that reads or writes coils or registers."""
    function = r.choice((1, 2, 3, 4, 5, 6, 15, 16))
    if function < 7:
        return modbus(r, function, struct.pack(">2H", r.getrandbits(16), r.randrange(1, 100)), True)
    count = r.randrange(1, 20)
    values = r.randbytes((count + 7) // 8 if function == 15 else 2 * count)
    return modbus(r, function, struct.pack(">2HB", r.getrandbits(16), count, len(values)) + values, True)


def modbus_response(r: Random) -> Made:
    """A response to such a request."""
    function = r.choice((1, 2, 3, 4, 5, 6, 15, 16))
    if function < 5:
        values = r.randbytes(2 * r.randrange(1, 20))
        return modbus(r, function, bytes([len(values)]) + values, False)
    return modbus(r, function, struct.pack(">2H", r.getrandbits(16), r.randrange(1, 100)), False)


def modbus_exception(r: Random) -> Made:
    """A response that refuses a request."""
    return modbus(r, 0x80 | r.choice((1, 2, 3, 4, 5, 6, 15, 16)), bytes([r.randrange(1, 12)]), False)


def netflow(r: Random) -> Made:
    """A datagram of NetFlow with up to 30 flows."""
    flows = b"".join(r.randbytes(36) + b"\0" + r.randbytes(9) + bytes(2) for _ in range(r.randrange(1, 31)))
    head = struct.pack(">2H", 5, len(flows) // 48) + r.randbytes(20)
    return to_port(2055, head + flows)


def igmp(data: bytes) -> Made:
    """A message of IGMP with its checksum, in a packet of IPv4."""
    ip = struct.pack(">2B3H2BH2I", 0x45, 0, 20 + len(data), 0, 0, 1, 2, 0, 0x0A000001, 0xE0000016)
    return Made(summed(data, 2), before=ip)


def igmp_message(r: Random) -> Made:
    """A message of IGMP, version 2."""
    head = bytes([r.choice((0x11, 0x16, 0x17)), r.randrange(1, 256), 0, 0])
    return igmp(head + bytes([224 + r.randrange(16)]) + r.randbytes(3))


def igmp_report(r: Random) -> Made:
    """A report of IGMP, version 3."""
    groups = [r.randbytes(4 * r.randrange(4)) for _ in range(r.randrange(5))]
    data = struct.pack(">4BI", 0x22, 0, 0, 0, len(groups))
    for sources in groups:
        more = r.randbytes(4 * r.choice((0, 0, 1, 2)))
        data += (
            struct.pack(">2BH", r.randrange(1, 7), len(more) // 4, len(sources) // 4) + r.randbytes(4) + sources + more
        )
    return igmp(data)


def igmp_query(r: Random) -> Made:
    """A query of IGMP, version 3."""
    sources = r.randbytes(4 * r.randrange(5))
    head = bytes([0x11, r.randrange(1, 256), 0, 0]) + r.randbytes(4) + bytes([r.getrandbits(4), r.getrandbits(8)])
    return igmp(head + struct.pack(">H", len(sources) // 4) + sources)


def options(r: Random) -> bytes:
    """The options of an IPv6 packet, and padding to a length of 6 more than a multiple of 8.

    The last one is no single byte, since tshark does not show one.
    """
    found = b"".join(r.choice((b"\0", b"\5\2" + r.randbytes(2), b"\1\3\0\0\0")) for _ in range(r.randrange(3)))
    missing = (4 - len(found)) % 8
    return found + bytes([1, missing]) + bytes(missing)


def ipv6_headers(r: Random) -> Made:
    """An IPv6 packet with some of its headers in the recommended order, after which nothing follows."""
    kinds = [it for it in (0, 60, 43, 44) if r.getrandbits(1)]
    first, data = (*kinds, 59)[0], b""
    for kind, after in zip(kinds, (*kinds[1:], 59)):
        if kind in (0, 60):
            found = options(r)
            data += bytes([after, len(found) // 8]) + found
        elif kind == 43:
            words = r.randrange(3)
            data += struct.pack(">4B", after, words, r.choice((253, 254)), 0) + r.randbytes(4 + 8 * words)
        else:
            data += struct.pack(">2BHI", after, 0, r.getrandbits(16) & 0xFFF9, r.getrandbits(32))
    fragment = bytes(8) * (44 in kinds)
    head = struct.pack(">IH2B", 6 << 28 | r.getrandbits(28), len(data + fragment), first, r.getrandbits(8))
    return Made(head + b"\x20" + r.randbytes(15) + b"\x20" + r.randbytes(15) + data, fragment)


def rtp(r: Random) -> Made:
    """The header of an RTP packet, and some payload."""
    sources, extended = r.randrange(16), r.getrandbits(1)
    head = bytes([0x80 | extended << 4 | sources, r.getrandbits(1) << 7 | r.randrange(112, 128)]) + r.randbytes(
        10 + 4 * sources
    )
    if extended:
        words = r.randrange(5)
        head += struct.pack(">2H", r.randrange(0x1100, 0xBEDE), words) + r.randbytes(4 * words)
    return Made(head, r.randbytes(8))


def rtp_datagram(r: Random) -> Made:
    """An RTP packet with its payload."""
    made = rtp(r)
    return Made(made.header + r.randbytes(r.randrange(1, 40)))


def ccsds(r: Random) -> Made:
    """A space packet with the time of its data."""
    data = b"\x40" + r.randbytes(6 + r.randrange(40))
    first, second = 0x800 | r.getrandbits(1) << 12 | r.getrandbits(11), r.getrandbits(16)
    return Made(struct.pack(">3H", first, second, len(data) - 1) + data)


def blocks(r: Random) -> bytes:
    """Blocks of bytes of a GIF file, and the empty one."""
    found = [r.randbytes(r.choice((1, 4, 40, 255))) for _ in range(r.randrange(3))]
    return b"".join(bytes([len(it)]) + it for it in [*found, b""])


def colors(r: Random) -> tuple[int, bytes]:
    """The flags of a table of colours of a GIF file, and the table."""
    bits, there = r.randrange(4), r.getrandbits(1)
    return there << 7 | bits, r.randbytes(3 << bits + 1) * there


def gif(r: Random) -> Made:
    """A GIF file with extensions and images whose pixels are no codes. The last one is an image: tshark shows 20 bytes or more."""
    flags, table = colors(r)
    head = b"GIF8" + r.choice((b"7a", b"9a")) + struct.pack("<2H", r.getrandbits(16), r.getrandbits(16))
    data = head + bytes([flags | r.getrandbits(4) << 3, r.getrandbits(8), r.getrandbits(8)]) + table
    for left in reversed(range(r.randrange(1, 6))):
        if left and r.getrandbits(1):
            data += bytes([0x21, r.choice((0xF9, 0xFE, 0xFF, 1))]) + blocks(r)
            continue
        flags, table = colors(r)
        place = struct.pack("<4H", *(r.getrandbits(16) for _ in range(4)))
        data += (
            b"\x2c" + place + bytes([flags | r.getrandbits(2) << 5]) + table + bytes([r.randrange(2, 9)]) + blocks(r)
        )
    return Made(data + b"\x3b")


# ---- the values of the fields of tshark


def modbus_values(record: Json) -> Values:
    """A request or a response of Modbus; tshark shows values of registers as numbers, and those of coils that are read as bits."""
    case, held = case_of(record["body"])
    kind = case.removeprefix("Write").removeprefix("Wrote").removeprefix("Read")
    written = {"Coil": 5, "Register": 6, "Coils": 15, "Registers": 16}
    functions = {"Coils": 1, "Inputs": 2, "Registers": 3, "InputRegisters": 4}
    function = (written if case.startswith("Wr") else functions)[kind]
    place, data = held.get("range", held), held.get("values", held).get("data", "")
    count = [place[it] for it in ("count",) if it in place]
    return {
        "mbtcp.trans_id": [record["transaction"]],
        "mbtcp.unit_id": [record["unit"]],
        "modbus.func_code": [function],
        "modbus.reference_num": [place[it] for it in ("first", "place") if it in place],
        "modbus.bit_cnt": count if function in (1, 2, 15) else [],
        "modbus.word_cnt": count if function in (3, 4, 16) else [],
        "modbus.byte_cnt": [len(data) // 2] * bool(data),
        "modbus.regval_uint16": [int(data[k : k + 4], 16) for k in range(0, len(data) * (function in (3, 4, 16)), 4)],
        "modbus.data": [f"{held['value']:04x}"] if function in (5, 6) else [data] * bool(function == 15 and data),
    }


def modbus_exception_values(record: Json) -> Values:
    """A response of Modbus that refuses a request."""
    names = ("IllegalFunction", "IllegalAddress", "IllegalValue", "DeviceFailure", "Acknowledge", "DeviceBusy")
    codes = {it: k for k, it in enumerate(names, 1)} | {"MemoryParity": 8, "NoPath": 10, "NoResponse": 11}
    code = record["code"]
    return {
        "mbtcp.trans_id": [record["transaction"]],
        "mbtcp.unit_id": [record["unit"]],
        "modbus.func_code": [record["function"]],
        "modbus.exception_code": [code["Other"] if isinstance(code, dict) else codes[code]],
    }


def dotted(data: str | int) -> str:
    """Returns an address of IPv4 as text."""
    found = bytes.fromhex(data) if isinstance(data, str) else data.to_bytes(4, "big")
    return ".".join(str(it) for it in found)


def netflow_values(record: Json) -> Values:
    """A datagram of NetFlow; tshark shows the uptimes as seconds."""
    flows = record["flows"]
    values: Values = {"cflow.count": [len(flows)], "cflow.sysuptime": [seconds(record["uptime"])]}
    for name, field in (
        ("unix_secs", "seconds"),
        ("unix_nsecs", "nanos"),
        ("sequence", "sequence"),
        ("engine_type", "engine_type"),
        ("engine_id", "engine_id"),
        ("samplingmode", "sampling"),
        ("samplerate", "interval"),
    ):
        values[f"cflow.{name}"] = [record[field]]
    for name, field in (("srcaddr", "source"), ("dstaddr", "target"), ("nexthop", "hop")):
        values[f"cflow.{name}"] = [dotted(it[field]) for it in flows]
    for name, field in (("timestart", "first"), ("timeend", "last")):
        values[f"cflow.{name}"] = [seconds(it[field]) for it in flows]
    for name, field in (
        ("inputint", "input"),
        ("outputint", "output"),
        ("packets", "packets"),
        ("octets", "octets"),
        ("srcport", "source_port"),
        ("dstport", "target_port"),
        ("tcpflags", "flags"),
        ("protocol", "protocol"),
        ("tos", "service"),
        ("srcas", "source_as"),
        ("dstas", "target_as"),
        ("srcmask", "source_mask"),
        ("dstmask", "target_mask"),
    ):
        values[f"cflow.{name}"] = [it[field] for it in flows]
    return values


def seconds(millis: int) -> str:
    """Returns a number of milliseconds as tshark shows a time."""
    return f"{millis // 1000}.{millis % 1000:03}000000"


def igmp_message_values(record: Json) -> Values:
    """A message of IGMP, version 2; tshark shows that its checksum is right."""
    return {
        "igmp.type": [{"Query": 0x11, "Report": 0x16, "Leave": 0x17}[record["kind"]]],
        "igmp.max_resp": [record["time"]],
        "igmp.maddr": [dotted(record["group"])],
        "igmp.checksum.status": [1],
    }


def igmp_report_values(record: Json) -> Values:
    """A report of IGMP; tshark shows that its checksum is right."""
    groups = record["groups"]
    kinds = ("IsIncluded", "IsExcluded", "ToInclude", "ToExclude", "Allow", "Block")
    return {
        "igmp.num_grp_recs": [len(groups)],
        "igmp.record_type": [1 + kinds.index(it["kind"]) for it in groups],
        "igmp.aux_data_len": [len(it["more"]) // 8 for it in groups],
        "igmp.num_src": [len(it["sources"]) for it in groups],
        "igmp.maddr": [dotted(it["group"]) for it in groups],
        "igmp.saddr": [dotted(source) for it in groups for source in it["sources"]],
        "igmp.aux_data": [it["more"] for it in groups if it["more"]],
        "igmp.checksum.status": [1],
    }


def igmp_query_values(record: Json) -> Values:
    """A query of IGMP; tshark shows that its checksum is right, and a time from 128 on as what it means."""
    time = record["time"]
    return {
        "igmp.max_resp": [time if time < 128 else (16 + (time & 15)) << (time >> 4 & 7) + 3],
        "igmp.maddr": [dotted(record["group"])],
        "igmp.s": [int(record["silent"])],
        "igmp.qrv": [record["robustness"]],
        "igmp.qqic": [record["interval"]],
        "igmp.num_src": [len(record["sources"])],
        "igmp.saddr": [dotted(it) for it in record["sources"]],
        "igmp.checksum.status": [1],
    }


def chain(record: Json) -> dict[str, tuple[int, Json]]:
    """Returns the headers of an IPv6 packet, each with the number of the header after it."""
    numbers = {"HopByHop": 0, "Routing": 43, "Fragment": 44, "Destination": 60}
    found = dict[str, tuple[int, Json]]()
    case, held = case_of(record["next"])
    while case != "Other":
        after = case_of(held["next"]) if "next" in held else ("Other", held["following"])
        found[case] = (after[1] if after[0] == "Other" else numbers[after[0]]), held
        case, held = after
    return found


def ipv6_headers_values(record: Json) -> Values:
    """The headers of an IPv6 packet."""
    numbers = {"HopByHop": 0, "Routing": 43, "Fragment": 44, "Destination": 60}
    case, held = case_of(record["next"])
    found = chain(record)
    values: Values = {"ipv6.flow": [record["flow"]], "ipv6.plen": [record["length"]]}
    values["ipv6.nxt"] = [held if case == "Other" else numbers[case]]
    for name, wanted in (
        ("hopopts", "HopByHop"),
        ("dstopts", "Destination"),
        ("routing", "Routing"),
        ("fraghdr", "Fragment"),
    ):
        values[f"ipv6.{name}.nxt"] = [found[wanted][0]] if wanted in found else []
    parts = [it for _, part in found.values() for it in part.get("options", {}).get("options", [])]
    kinds = {"Pad1": 0, "Padding": 1, "RouterAlert": 5, "Jumbo": 194}
    values["ipv6.opt.type"] = [kinds[it["kind"]] for it in parts]
    values["ipv6.opt.length"] = [len(it["data"]["data"]) // 2 for it in parts if it["data"]]
    for name, wanted, field in (
        ("routing.type", "Routing", "kind"),
        ("routing.segleft", "Routing", "left"),
        ("fraghdr.offset", "Fragment", "offset"),
        ("fraghdr.more", "Fragment", "more"),
        ("fraghdr.ident", "Fragment", "id"),
    ):
        values[f"ipv6.{name}"] = [int(found[wanted][1][field])] if wanted in found else []
    routes = [found["Routing"][1]["data"]] if "Routing" in found else []
    values["ipv6.routing.unknown_data"] = routes
    return values


def rtp_head(record: Json, sources: list[int | str]) -> Values:
    """The fields of each RTP packet."""
    values: Values = {"rtp.cc": [len(sources)], "rtp.csrc.item": sources}
    for name, field in (
        ("padding", "padding"),
        ("marker", "marker"),
        ("p_type", "payload_type"),
        ("seq", "sequence"),
        ("timestamp", "timestamp"),
        ("ssrc", "ssrc"),
    ):
        values[f"rtp.{name}"] = [int(record[field])]
    return values


def words(data: str) -> list[int | str]:
    """Returns bytes as numbers of 32 bits."""
    return [int(data[k : k + 8], 16) for k in range(0, len(data), 8)]


def rtp_datagram_values(record: Json) -> Values:
    """An RTP packet with its payload."""
    case, body = case_of(record["body"])
    data = body.get("data", "")
    values = rtp_head(record, words(record["csrc"]))
    values["rtp.ext"] = [int(case == "Extended")]
    values["rtp.ext.profile"] = [body["profile"]] if case == "Extended" else []
    values["rtp.ext.len"] = [len(data) // 8] if case == "Extended" else []
    return values | {"rtp.hdr_ext": words(data), "rtp.payload": [body["payload"]]}


def rtp_values(record: Json) -> Values:
    """The header of an RTP packet."""
    extension = record["extension"]
    values = rtp_head(record, list(record["csrc"]))
    values["rtp.ext"] = [int(extension is not None)]
    data = extension["data"] if extension else ""
    values["rtp.ext.profile"] = [extension["profile"]] if extension else []
    values["rtp.ext.len"] = [len(data) // 8] if extension else []
    return values | {"rtp.hdr_ext": words(data)}


def ccsds_values(record: Json) -> Values:
    """A space packet, of which tshark shows the first header; it expects another time after that."""
    return {
        "ccsds.type": [int(record["telecommand"])],
        "ccsds.secheader": [1],
        "ccsds.apid": [record["apid"]],
        "ccsds.seqflag": [record["sequence"]],
        "ccsds.seqnum": [record["number"]],
        "ccsds.length": [6 + len(record["data"]) // 2],
    }


def table_of(colors: list[Json]) -> list[int | str]:
    """A table of colours of a GIF file as its bytes, or nothing if it has none."""
    return ["".join(f"{it['red']:02x}{it['green']:02x}{it['blue']:02x}" for it in colors)] * bool(colors)


def gif_values(record: Json) -> Values:
    """A GIF file.

    tshark shows the bits of an image under the name of those of the file, `sorted` of a file of version 89a alone, and for an
    image another bit in its place.
    """
    found = [case_of(it["body"]) for it in record["parts"]]
    images = [held for case, held in found if case == "Image"]
    values: Values = {}
    values["image-gif.version"] = ["GIF" + bytes.fromhex(record["version"]).decode()]
    values["image-gif.extension.label"] = [held["label"] for case, held in found if case == "Extension"]
    for name, field in (
        ("screen.width", "width"),
        ("screen.height", "height"),
        ("global.color_map.present", "has_colors"),
        ("global.color_bpp", "resolution"),
        ("image_background_index", "background"),
    ):
        values[f"image-gif.{name}"] = [int(record[field])]
    values["image-gif.global.color_map"] = table_of(record["colors"])
    for name, field in (
        ("image.left", "left"),
        ("image.top", "top"),
        ("image.width", "width"),
        ("image.height", "height"),
        ("image.code_size", "minimum_bits"),
        ("local.color_map.present", "has_colors"),
    ):
        values[f"image-gif.{name}"] = [int(it[field]) for it in images]
    values["image-gif.local.color_map"] = [table for it in images for table in table_of(it["colors"])]
    values["image-gif.global.bpp"] = [it["color_bits"] for it in (record, *images)]
    values["image-gif.global.color_map.ordered"] = [int(record["sorted"])] * (record["version"] == b"89a".hex())
    values["image-gif.data_block"] = [it for _, held in found if held for it in (*held["data"], "<none>")]
    return values


GALLERY = {
    "modbus_request": Message(RAW_IP, modbus_request, modbus_values),
    "modbus_response": Message(RAW_IP, modbus_response, modbus_values),
    "modbus_exception": Message(RAW_IP, modbus_exception, modbus_exception_values),
    "netflow_export": Message(RAW_IP, netflow, netflow_values),
    "igmp_message": Message(RAW_IP, igmp_message, igmp_message_values),
    "igmp_report": Message(RAW_IP, igmp_report, igmp_report_values),
    "igmp_query": Message(RAW_IP, igmp_query, igmp_query_values),
    "ipv6_headers": Message("ipv6", ipv6_headers, ipv6_headers_values),
    "ccsds_packet": Message("ccsds", ccsds, ccsds_values),
    "rtp_packet": Message("rtp", rtp, rtp_values),
    "rtp_datagram": Message("rtp", rtp_datagram, rtp_datagram_values),
    "gif_file": Message("image-gif", gif, gif_values),
}
