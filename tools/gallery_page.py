"""The page of the gallery: how far protocols are described, where their code is proved, and what they lack."""

from __future__ import annotations

import glob
import os
from dataclasses import dataclass

import gallery

PAGE = "docs/made/GALLERY.md"
HEAD = """# The gallery of protocols

How far protocols in use are described, and what of it is proved. `.ci/gallery` makes this page of `tools/gallery_page.py` and the descriptions, and the gate compares it: run `.ci/gallery --write` after a change.

- **In the gate**: the code is in a crate, and the gate proves it from nothing.
- **Once**: `tools/prove_gallery` proved the printed code of a description in `tools/shown`, and noted its sum. The gate prints the code again and compares the sum; it does not prove it again.
- **Printed**: code is printed, but no proof of it is noted.
- **Shown**: `./format --show` and `--pack` read and write it. No code is printed.

*Whole* means that all that the first column names is described; the last column has what the protocol lacks beyond that, or what is missing of it.

*Compared* is the number of fields of 1,000 random records of each description for which TShark 4.0 (of AV1: ffmpeg 5.1) shows what `./format --show` prints, by `tools/test_protocols 1000`. No field differs. TShark reads no ADS-B, GPS subframes, ADTS or WAV, which `tools/test_show` compares with ffprobe; [FORMATS.md](../FORMATS.md) has what was compared of ADTS and FLAC.
"""
ORDER = ("in the gate", "once", "printed", "shown")


@dataclass(frozen=True, slots=True)
class Protocol:
    """A protocol, its descriptions, whether they are all of it, and the one thing that it lacks."""

    name: str
    descriptions: str
    whole: bool
    lacks: str = ""


# The fields of 1,000 random records that tshark 4.0, or ffmpeg 5.1 of AV1, shows alike: `tools/test_protocols 1000`.
FIELDS = {
    "arp_packet": 5000, "av1_sequence": 34033, "can_frame": 4000, "can_packet": 4911, "ccsds_packet": 6000,
    "client_hello": 14137, "coap_message": 7264, "dhcp_message": 18972, "dns_message": 24681, "dns_typed_message":
    16086, "eapol_packet": 5504, "ethernet_frame": 7028, "ethernet_header": 4316, "gif_file": 30164, "gre_packet": 6983, "h264_high_pps": 16000, "h264_sps":
    41659, "icmp_datagram": 3971, "icmp_message": 6000, "igmp_message": 4000, "igmp_query": 9010, "igmp_report":
    13840, "ipv4_packet": 8000, "ipv6_header": 8000, "ipv6_headers": 11705, "j1939_frame": 6000, "lldp_unit": 12490,
    "mac_frame": 12011, "mac_header": 10751, "macsec_frame": 9948, "modbus_exception": 4000, "modbus_request": 6617, "modbus_response": 7247, "mp3_header":
    12000, "mpls_stack": 11872, "mqtt_header": 2234, "mqtt_packet": 4605, "netflow_export": 288288, "ntp_message":
    6000, "ntp_packet": 13000, "pcap_file": 9748, "ppp_frame": 3000, "png_file": 12608, "quic_long_header": 4627, "quic_packet": 4432,
    "quic_retry": 4910, "radius_packet": 9936, "rip_message": 28742, "rtcp_compound": 38161, "rtp_datagram": 18723, "rtp_packet": 17152,
    "stun_header": 3000, "tcp_header": 16000, "tcp_segment": 6255, "tftp_data": 3000, "tftp_request": 3000, "tls_record": 3509,
    "ts_header": 7000, "ts_pat": 47458, "udp_datagram": 5000, "vrrp_advertisement": 8517, "vxlan_packet": 5000,
    "wifi_frame": 14058,
}  # fmt: skip

# The protocols that the gallery was asked for.
WANTED = (
    Protocol("IPv4 with options and checksum", "ipv4_packet", True),
    Protocol(
        "IPv6 with hop-by-hop, routing and fragment headers",
        "ipv6_header messages/ipv6_headers",
        True,
        "headers in another order than the recommended one: a part that holds itself",
    ),
    Protocol(
        "TCP with options",
        "tcp_header tcp_segment",
        True,
        "the checksum with typed options: parts of a stated size before a rest",
    ),
    Protocol("UDP", "udp_datagram", True),
    Protocol("ICMP", "icmp_message messages/icmp_datagram", True),
    Protocol("ARP", "arp_packet", True),
    Protocol("Ethernet with VLAN", "ethernet_header vlan_tag messages/ethernet_frame", True),
    Protocol(
        "DNS messages: names with pointers, records by type",
        "dns_message dns/dns_typed_message",
        True,
        "what a pointer refers to: a place to go back to",
    ),
    Protocol("NTP", "ntp_packet messages/ntp_message", True),
    Protocol(
        "RTP",
        "rtp_packet messages/rtp_datagram",
        True,
        "padding apart from the payload: the last byte states its size",
    ),
    Protocol("RTCP", "rtcp_compound", True, "the prefix of a private item, which is bytes of its text; padding"),
    Protocol("TLS records and ClientHello", "tls_record hello tls/client_hello", True),
    Protocol(
        "QUIC long headers",
        "quic_long_header quic_stream messages/quic_packet messages/quic_retry",
        True,
    ),
    Protocol("MQTT", "mqtt_header mqtt_packet", True),
    Protocol(
        "CoAP",
        "coap_message",
        False,
        "options: a number that adds to the one before it, and sizes with more bytes",
    ),
    Protocol("Modbus", "messages/modbus_request messages/modbus_response messages/modbus_exception", True),
    Protocol(
        "CAN",
        "can_frame messages/can_packet",
        True,
        "the bits on the wire: CRC-15 over bits that are no whole bytes",
    ),
    Protocol("J1939", "j1939_frame", True),
    Protocol(
        "802.15.4, versions 0 and 1",
        "messages/mac_header messages/mac_frame",
        True,
        "security headers and commands by type",
    ),
    Protocol(
        "CCSDS with secondary header",
        "messages/ccsds_packet messages/ccsds_time",
        True,
        "a secondary header of any size before the data: one size over several lines",
    ),
    Protocol("GPS L1 subframes", "messages/gps_subframe", False, "parity, and bits that the word before inverts"),
    Protocol("ADS-B with its CRC", "adsb_frame", True),
    Protocol("MP3 frame headers", "mp3_header", True),
    Protocol("ADTS", "adts_header", True),
    Protocol("FLAC metadata blocks", "flac_metadata", True),
    Protocol("WAV", "wav_file messages/wav_chunks", True),
    Protocol("GIF", "gif_comment gif_file", True),
    Protocol("PNG chunks with CRC", "png_file", True),
    Protocol(
        "H.264 SPS and PPS",
        "video/h264_sps video/h264_high_pps",
        False,
        "scaling lists: a list that ends by the sum of its items; slice groups",
    ),
    Protocol(
        "AV1 sequence headers",
        "video/av1_sequence",
        False,
        "decoder models: numbers of as many bits as an earlier number states",
    ),
    Protocol(
        "MPEG-TS with PAT and PMT",
        "ts_header ts_pat ts_program_map",
        True,
    ),
)
# Further ones.
OTHERS = (
    Protocol("IGMP, versions 2 and 3", "messages/igmp_message messages/igmp_query messages/igmp_report", True),
    Protocol("NetFlow, version 5", "messages/netflow_export", True),
    Protocol("TFTP requests and data", "tftp_request tftp_data", True),
    Protocol("EAP over IEEE 802.1X", "eapol_packet", True),
    Protocol("SOCKS login", "socks_login", True),
    Protocol("STUN headers", "stun_header", True),
    Protocol("MPLS", "messages/mpls_stack", True),
    Protocol("LLDP", "messages/lldp_unit", True),
    Protocol("DHCP", "messages/dhcp_message", True),
    Protocol("RADIUS", "messages/radius_packet", True),
    Protocol("VRRP, version 2", "messages/vrrp_advertisement", True),
    Protocol("RIP, version 2", "messages/rip_message", True),
    Protocol("pcap files", "messages/pcap_file", True),
    Protocol("VXLAN", "messages/vxlan_packet", True),
    Protocol("MACsec", "messages/macsec_frame", True),
    Protocol("PPP", "messages/ppp_frame", True),
    Protocol("802.11 data frames in the clear", "messages/wifi_frame", True, "the control of high throughput"),
    Protocol("GRE", "messages/gre_packet", True, "that the checksum is right: it is in an optional part"),
)


def state_of(name: str, proved: dict[str, gallery.Proof]) -> str:
    """Returns what is proved of a description."""
    if glob.glob(f"crates/*/formats/{name}.fields"):
        return ORDER[0]
    if name in proved:
        return ORDER[1]
    return ORDER[3] if gallery.refusal(name) else ORDER[2]


def is_proved(protocol: Protocol, proved: dict[str, gallery.Proof]) -> bool:
    """Returns true if a protocol is described whole, and all its descriptions are proved."""
    return protocol.whole and all(state_of(it, proved) in ORDER[:2] for it in protocol.descriptions.split())


def row(protocol: Protocol, proved: dict[str, gallery.Proof]) -> str:
    """Returns the line of a protocol."""
    found: dict[str, list[str]] = {}
    for it in protocol.descriptions.split():
        found.setdefault(state_of(it, proved), []).append(f"`{os.path.basename(it)}`")
    code = "; ".join(f"{state}: {', '.join(found[state])}" for state in ORDER if state in found)
    whole = "whole" if is_proved(protocol, proved) else "in part" if not protocol.whole else "whole, not proved"
    fields = sum(FIELDS.get(os.path.basename(it), 0) for it in protocol.descriptions.split())
    return f"| {protocol.name} | {whole} | {code} | {f'{fields:,}' if fields else 'none'} | {protocol.lacks} |"


def rows(protocols: tuple[Protocol, ...], proved: dict[str, gallery.Proof]) -> str:
    """Returns the table of protocols."""
    head = "| Protocol | Described | Code | Compared | What it lacks |\n|---|---|---|---|---|\n"
    return head + "".join(f"{row(it, proved)}\n" for it in protocols)


def listed(names: list[str]) -> str:
    """Returns the names of descriptions, by folder, as lines of a list."""
    folders: dict[str, list[str]] = {}
    for it in names:
        folders.setdefault(os.path.dirname(gallery.path_of(it)), []).append(f"`{os.path.basename(it)}`")
    return "".join(f"- `{folder}`: {', '.join(found)}\n" for folder, found in folders.items())


def page() -> str:
    """Returns the page."""
    proved = gallery.proofs()
    refused = {it: why for it in gallery.names() if (why := gallery.refusal(it))}
    printed = [it for it in gallery.names() if it not in refused and it not in proved]
    whole = [sum(is_proved(it, proved) for it in protocols) for protocols in (WANTED, OTHERS)]
    reasons = "".join(f"| `{name}` | {why} |\n" for name, why in refused.items())
    parts = [
        HEAD,
        f"Of {len(WANTED)} protocols {whole[0]} are described whole and proved, and {whole[1]} of {len(OTHERS)} others.\n",
        "## The protocols\n",
        rows(WANTED, proved),
        "## Others\n",
        rows(OTHERS, proved),
        f"## Proved once\n\n{len(proved)} descriptions, parts among them.\n",
        listed(sorted(proved)),
        *([f"## Printed, not proved\n\n{listed(printed)}"] if printed else []),
        "## Without printed code\n",
        f"| Description | Why `./format` refuses it |\n|---|---|\n{reasons}",
    ]
    return "\n".join(parts)
