//! Calls the library with the rows of standard input, on each line the name of a format and bytes in hex, and with random
//! values. Plain shifts say what is right. Prints the number of calls.

use protocols::coap_header::{CoapError, CoapHeader, Message};
use protocols::ethernet_header::{EtherType, EthernetHeader, EthernetHeaderError};
use protocols::icmp_gateway::IcmpGateway;
use protocols::icmp_header::{Body, IcmpHeader, IcmpHeaderError};
use protocols::icmp_ids::IcmpIds;
use protocols::mqtt_header::{MqttError, MqttHeader, Packet};
use protocols::report_block::{ReportBlock, ReportBlockError};
use protocols::rtcp_receiver_report::{ReceiverReportError, RtcpReceiverReport};
use protocols::socks_login::{SocksLogin, SocksLoginError};
use protocols::stun_header::{StunHeader, StunHeaderError};
use protocols::vlan_tag::VlanTag;
use std::io::BufRead;

/// The numbers of a generator.
struct Random(u64);

impl Random {
    fn next(&mut self) -> u64 {
        self.0 ^= self.0 << 13;
        self.0 ^= self.0 >> 7;
        self.0 ^= self.0 << 17;
        self.0
    }
}

const PACKETS: [Packet; 15] = [
    Packet::Connect,
    Packet::ConnAck,
    Packet::Publish,
    Packet::PubAck,
    Packet::PubRec,
    Packet::PubRel,
    Packet::PubComp,
    Packet::Subscribe,
    Packet::SubAck,
    Packet::Unsubscribe,
    Packet::UnsubAck,
    Packet::PingReq,
    Packet::PingResp,
    Packet::Disconnect,
    Packet::Auth,
];

/// What a parse of an MQTT header is to return.
fn mqtt_wanted(b: &[u8]) -> Result<(MqttHeader, usize), MqttError> {
    let first = *b.first().ok_or(MqttError::EndOfInput)?;
    let kind = usize::from(first >> 4).checked_sub(1).ok_or(MqttError::NoPacket)?;
    let mut sum = 0u64;
    for (k, one) in b[1..].iter().enumerate() {
        sum |= u64::from(one & 127) << (7 * k);
        if *one < 128 {
            let it = MqttHeader {
                kind: PACKETS[kind],
                again: first & 8 != 0,
                quality: first >> 1 & 3,
                retain: first & 1 != 0,
                remaining: u32::try_from(sum).map_err(|_| MqttError::BadNumber)?,
            };
            return Ok((it, k + 2));
        }
        if k == 4 {
            return Err(MqttError::BadNumber);
        }
    }
    Err(MqttError::EndOfInput)
}

/// The bytes of an MQTT header.
fn mqtt_bytes(it: &MqttHeader) -> Vec<u8> {
    let flags = u8::from(it.again) << 3 | it.quality << 1 | u8::from(it.retain);
    let mut bytes = vec![it.kind.number() << 4 | flags];
    let mut left = it.remaining;
    while left > 127 {
        bytes.push(left as u8 | 128);
        left >>= 7;
    }
    bytes.push(left as u8);
    bytes
}

/// What a parse of an Ethernet header is to return.
fn ethernet_wanted(b: &[u8]) -> Result<(EthernetHeader, usize), EthernetHeaderError> {
    let tagged = b.len() > 13 && b[12..14] == [0x81, 0];
    let size = if tagged { 18 } else { 14 };
    if b.len() < size {
        return Err(EthernetHeaderError::EndOfInput);
    }
    let number = |k: usize| u16::from(b[k]) << 8 | u16::from(b[k + 1]);
    let it = EthernetHeader {
        target: b[..6].try_into().unwrap(),
        source: b[6..12].try_into().unwrap(),
        kind: match number(12) {
            0x0800 => EtherType::Ipv4,
            0x0806 => EtherType::Arp,
            0x8100 => EtherType::Vlan,
            0x86DD => EtherType::Ipv6,
            other => EtherType::Other(other),
        },
        tag: tagged.then(|| VlanTag {
            priority: b[14] >> 5,
            drop_eligible: b[14] >> 4 & 1 == 1,
            vlan: number(14) & 4095,
            kind: number(16),
        }),
    };
    Ok((it, size))
}

/// What a parse of a CoAP header is to return.
fn coap_wanted(b: &[u8]) -> Result<(CoapHeader, usize), CoapError> {
    let first = *b.first().ok_or(CoapError::EndOfInput)?;
    if first >> 6 != 1 {
        return Err(CoapError::OtherVersion);
    }
    let size = 4 + usize::from(first & 15);
    let it = CoapHeader {
        kind: match first >> 4 & 3 {
            0 => Message::Confirmable,
            1 => Message::NonConfirmable,
            2 => Message::Acknowledgement,
            _ => Message::Reset,
        },
        token: b.get(4..size).ok_or(CoapError::EndOfInput)?.to_vec(),
        class: b[1] >> 5,
        detail: b[1] & 31,
        id: u16::from(b[2]) << 8 | u16::from(b[3]),
    };
    Ok((it, size))
}

/// What a parse of an ICMP header is to return.
fn icmp_wanted(b: &[u8]) -> Result<(IcmpHeader, usize), IcmpHeaderError> {
    let kind = *b.first().ok_or(IcmpHeaderError::EndOfInput)?;
    let size = if matches!(kind, 0 | 5 | 8) { 8 } else { 4 };
    let b = b.get(..size).ok_or(IcmpHeaderError::EndOfInput)?;
    let number = |k: usize| u16::from(b[k]) << 8 | u16::from(b[k + 1]);
    let it = IcmpHeader {
        code: b[1],
        checksum: number(2),
        body: match kind {
            0 => Body::EchoReply(IcmpIds { identifier: number(4), sequence: number(6) }),
            5 => Body::Redirect(IcmpGateway { address: b[4..].try_into().unwrap() }),
            8 => Body::Echo(IcmpIds { identifier: number(4), sequence: number(6) }),
            other => Body::Other(other),
        },
    };
    Ok((it, size))
}

/// What a parse of the login of SOCKS is to return.
fn socks_wanted(b: &[u8]) -> Result<(SocksLogin, usize), SocksLoginError> {
    let end = || SocksLoginError::EndOfInput;
    if *b.first().ok_or_else(end)? != 1 {
        return Err(SocksLoginError::OtherVersion);
    }
    let second = 2 + usize::from(*b.get(1).ok_or_else(end)?);
    let name = b.get(2..second).ok_or_else(end)?.to_vec();
    let size = second + 1 + usize::from(*b.get(second).ok_or_else(end)?);
    let password = b.get(second + 1..size).ok_or_else(end)?.to_vec();
    Ok((SocksLogin { name, password }, size))
}

/// What a parse of the header of STUN is to return.
fn stun_wanted(b: &[u8]) -> Result<StunHeader, StunHeaderError> {
    match b {
        [64..=255, ..] => return Err(StunHeaderError::NoStun),
        [_, _, _, _, 0x21, 0x12, 0xA4, 0x42, ..] => {}
        [_, _, _, _, _, _, _, _, ..] => return Err(StunHeaderError::NoCookie),
        _ => {}
    }
    let b = b.get(..20).ok_or(StunHeaderError::EndOfInput)?;
    Ok(StunHeader {
        kind: u16::from(b[0]) << 8 | u16::from(b[1]),
        length: u16::from(b[2]) << 8 | u16::from(b[3]),
        id: b[8..].try_into().unwrap(),
    })
}

/// What a parse of a report block is to return.
fn block_wanted(b: &[u8]) -> Result<ReportBlock, ReportBlockError> {
    let b = b.get(..24).ok_or(ReportBlockError::EndOfInput)?;
    let word = |k: usize| u32::from_be_bytes(b[k..k + 4].try_into().unwrap());
    Ok(ReportBlock {
        ssrc: word(0),
        fraction_lost: b[4],
        lost: (word(4) << 8) as i32 >> 8,
        highest: word(8),
        jitter: word(12),
        last_report: word(16),
        delay: word(20),
    })
}

/// What a parse of a receiver report is to return.
fn rtcp_wanted(b: &[u8]) -> Result<(RtcpReceiverReport, usize), ReceiverReportError> {
    let first = *b.first().ok_or(ReceiverReportError::EndOfInput)?;
    if first >> 6 != 2 {
        return Err(ReceiverReportError::OtherVersion);
    }
    if *b.get(1).ok_or(ReceiverReportError::EndOfInput)? != 201 {
        return Err(ReceiverReportError::OtherPacket);
    }
    let size = 8 + 24 * usize::from(first & 31);
    let b = b.get(..size).ok_or(ReceiverReportError::EndOfInput)?;
    let word = |k: usize| u32::from_be_bytes(b[k..k + 4].try_into().unwrap());
    let it = RtcpReceiverReport {
        padding: first & 32 != 0,
        length: u16::from(b[2]) << 8 | u16::from(b[3]),
        ssrc: word(4),
        reports: (8..size).step_by(24).map(|k| block_wanted(&b[k..]).unwrap()).collect(),
    };
    Ok((it, size))
}

/// The bytes of a receiver report.
fn rtcp_bytes(it: &RtcpReceiverReport) -> Vec<u8> {
    let first = 0x80 | u8::from(it.padding) << 5 | it.reports.len() as u8;
    let mut bytes = vec![first, 201, (it.length >> 8) as u8, it.length as u8];
    bytes.extend(it.ssrc.to_be_bytes());
    for one in &it.reports {
        let lost = u32::from(one.fraction_lost) << 24 | one.lost as u32 & 0xFF_FFFF;
        for word in [one.ssrc, lost, one.highest, one.jitter, one.last_report, one.delay] {
            bytes.extend(word.to_be_bytes());
        }
    }
    bytes
}

/// Tries a pack into buffers of all lengths up to 64.
fn packs<E: PartialEq + std::fmt::Debug>(
    pack: impl Fn(&mut [u8]) -> Result<usize, E>,
    right: Result<&[u8], E>,
    short: &E,
) -> u64 {
    for length in 0..=64 {
        let mut buffer = vec![0xEE; length];
        let mut after = buffer.clone();
        let answer = pack(&mut buffer);
        match &right {
            Err(error) => assert_eq!(answer.as_ref(), Err(error)),
            Ok(bytes) if length < bytes.len() => assert_eq!(answer.as_ref(), Err(short)),
            Ok(bytes) => {
                after[..bytes.len()].copy_from_slice(bytes);
                assert_eq!(answer, Ok(bytes.len()));
            }
        }
        assert_eq!(buffer, after);
    }
    65
}

/// Parses bytes, and packs their fields again.
fn parses(name: &str, bytes: &[u8]) -> u64 {
    if name == "mqtt_header" {
        let found = MqttHeader::parse(bytes);
        assert_eq!(found, mqtt_wanted(bytes));
        return found.map_or(1, |(it, _)| {
            1 + packs(|b| it.pack_into(b), Ok(&mqtt_bytes(&it)), &MqttError::NoRoom)
        });
    }
    if name == "coap_header" {
        let found = CoapHeader::parse(bytes);
        assert_eq!(found, coap_wanted(bytes));
        return found.map_or(1, |(it, size)| {
            1 + packs(|b| it.pack_into(b), Ok(&bytes[..size]), &CoapError::NoRoom)
        });
    }
    if name == "ethernet_header" {
        let found = EthernetHeader::parse(bytes);
        assert_eq!(found, ethernet_wanted(bytes));
        return found.map_or(1, |(it, size)| {
            1 + packs(|b| it.pack_into(b), Ok(&bytes[..size]), &EthernetHeaderError::NoRoom)
        });
    }
    if name == "icmp_header" {
        let found = IcmpHeader::parse(bytes);
        assert_eq!(found, icmp_wanted(bytes));
        return found.map_or(1, |(it, size)| {
            1 + packs(|b| it.pack_into(b), Ok(&bytes[..size]), &IcmpHeaderError::NoRoom)
        });
    }
    if name == "report_block" {
        let found = ReportBlock::parse(bytes);
        assert_eq!(found, block_wanted(bytes));
        return found.map_or(1, |it| {
            1 + packs(|b| it.pack_into(b), Ok(&bytes[..24]), &ReportBlockError::NoRoom)
        });
    }
    if name == "rtcp_receiver_report" {
        let found = RtcpReceiverReport::parse(bytes);
        assert_eq!(found, rtcp_wanted(bytes));
        return found.map_or(1, |(it, size)| {
            1 + packs(|b| it.pack_into(b), Ok(&bytes[..size]), &ReceiverReportError::NoRoom)
        });
    }
    if name == "stun_header" {
        let found = StunHeader::parse(bytes);
        assert_eq!(found, stun_wanted(bytes));
        return found.map_or(1, |it| {
            let other = StunHeader { kind: it.kind | 1 << 14, ..it };
            1 + packs(|b| it.pack_into(b), Ok(&bytes[..20]), &StunHeaderError::NoRoom)
                + packs(|b| other.pack_into(b), Err(StunHeaderError::DoesNotFit("kind")), &StunHeaderError::NoRoom)
        });
    }
    if name == "socks_login" {
        let found = SocksLogin::parse(bytes);
        assert_eq!(found, socks_wanted(bytes));
        return found.map_or(1, |(it, size)| {
            1 + packs(|b| it.pack_into(b), Ok(&bytes[..size]), &SocksLoginError::NoRoom)
        });
    }
    0
}

/// Packs random fields, some of which do not fit, and parses them again.
fn random_fields(random: &mut Random) -> u64 {
    let it = MqttHeader {
        kind: PACKETS[(random.next() % 15) as usize],
        again: random.next() & 1 == 1,
        quality: (random.next() % 5) as u8,
        retain: random.next() & 1 == 1,
        remaining: (random.next() >> (32 + random.next() % 32)) as u32,
    };
    if it.quality > 3 {
        return packs(|b| it.pack_into(b), Err(MqttError::DoesNotFit("quality")), &MqttError::NoRoom);
    }
    let bytes = it.pack().unwrap();
    assert_eq!(bytes, mqtt_bytes(&it));
    assert_eq!(MqttHeader::parse(&bytes), Ok((it, bytes.len())));
    let other = EthernetHeader {
        target: [1; 6],
        source: [2; 6],
        kind: EtherType::Arp,
        tag: Some(VlanTag { priority: 0, drop_eligible: false, vlan: 1, kind: 2 }),
    };
    assert_eq!(other.pack(), Err(EthernetHeaderError::DoesNotFit("tag")));
    let message = CoapHeader {
        kind: Message::Reset,
        class: 7,
        detail: 31,
        id: 1,
        token: vec![3; (random.next() % 18) as usize],
    };
    match message.pack() {
        Ok(bytes) => assert_eq!(CoapHeader::parse(&bytes), Ok((message, bytes.len()))),
        Err(error) => assert!(error == CoapError::DoesNotFit("token") && message.token.len() > 15),
    }
    5 + random_messages(random)
}

/// Packs random report blocks, some of which do not fit, and parses them again.
fn random_reports(random: &mut Random) -> u64 {
    let count = if random.next() % 8 == 0 { random.next() % 33 } else { random.next() % 3 };
    let reports: Vec<ReportBlock> = (0..count)
        .map(|_| ReportBlock {
            ssrc: random.next() as u32,
            fraction_lost: random.next() as u8,
            lost: if random.next() % 64 == 0 { 1 << 23 } else { random.next() as i32 >> 8 },
            highest: random.next() as u32,
            jitter: random.next() as u32,
            last_report: random.next() as u32,
            delay: random.next() as u32,
        })
        .collect();
    let fits = count < 32 && reports.iter().all(|it| it.lost < 1 << 23);
    let padding = random.next() & 1 == 1;
    let it = RtcpReceiverReport { padding, length: random.next() as u16, ssrc: random.next() as u32, reports };
    match it.pack() {
        Ok(bytes) => {
            assert!(fits && bytes == rtcp_bytes(&it));
            assert_eq!(RtcpReceiverReport::parse(&bytes), Ok((it, bytes.len())));
        }
        Err(error) => {
            let field = if count > 31 { "reports" } else { "reports.lost" };
            assert!(error == ReceiverReportError::DoesNotFit(field) && !fits);
        }
    }
    2
}

/// Packs random choices and bytes, some of which do not fit, and parses them again.
fn random_messages(random: &mut Random) -> u64 {
    let ids = IcmpIds { identifier: random.next() as u16, sequence: random.next() as u16 };
    let body = match random.next() % 4 {
        0 => Body::EchoReply(ids),
        1 => Body::Redirect(IcmpGateway { address: (random.next() as u32).to_be_bytes() }),
        2 => Body::Echo(ids),
        _ => Body::Other((random.next() % 12) as u8),
    };
    let it = IcmpHeader { code: 3, checksum: random.next() as u16, body };
    match it.pack() {
        Ok(bytes) => assert_eq!(IcmpHeader::parse(&bytes), Ok((it, bytes.len()))),
        Err(error) => {
            assert!(error == IcmpHeaderError::DoesNotFit("body") && matches!(body, Body::Other(0 | 5 | 8)));
        }
    }
    let login = SocksLogin {
        name: vec![1; (random.next() % 300) as usize],
        password: vec![2; (random.next() % 20) as usize],
    };
    match login.pack() {
        Ok(bytes) => assert_eq!(SocksLogin::parse(&bytes), Ok((login, bytes.len()))),
        Err(error) => assert!(error == SocksLoginError::DoesNotFit("name") && login.name.len() > 255),
    }
    4
}

fn main() {
    let mut random = Random(1);
    let mut calls = 0;
    for line in std::io::stdin().lock().lines() {
        let line = line.unwrap();
        let (name, digits) = line.split_once(' ').unwrap();
        let bytes: Vec<u8> = (0..digits.len() / 2)
            .map(|k| u8::from_str_radix(&digits[2 * k..2 * k + 2], 16).unwrap())
            .collect();
        calls += (0..=bytes.len()).map(|length| parses(name, &bytes[..length])).sum::<u64>();
    }
    for k in 0..10000 {
        let mut bytes = [random.next().to_be_bytes(), random.next().to_be_bytes(), random.next().to_be_bytes()].concat();
        if k % 2 == 0 {
            bytes[12..14].copy_from_slice(&[0x81, 0]);
        }
        let length = (random.next() % 20) as usize;
        calls += parses("mqtt_header", &bytes[..length % 9]) + parses("ethernet_header", &bytes[..length]);
        bytes[0] = 0x40 | bytes[0] & 63;
        calls += parses("coap_header", &bytes[..length]) + random_fields(&mut random);
        bytes[0] = if k % 4 == 0 { bytes[1] } else { bytes[0] % 10 };
        calls += parses("icmp_header", &bytes[..length % 10]);
        bytes[0] = if k % 4 == 0 { bytes[1] } else { 1 };
        bytes[1] %= 16;
        let second = 2 + usize::from(bytes[1]);
        bytes[second] %= 32;
        calls += parses("socks_login", &bytes[..length]);
        bytes[0] = if k % 8 == 0 { bytes[0] } else { 0x80 | bytes[0] & 0x21 };
        bytes[1] = if k % 8 == 1 { bytes[1] } else { 201 };
        let packet = [bytes.as_slice(), bytes.as_slice()].concat();
        calls += parses("rtcp_receiver_report", &packet[..length % 5 * 12]);
        calls += parses("report_block", &packet[length..length + length % 3 * 12]);
        let mut message = packet;
        message[0] &= if k % 8 == 0 { 255 } else { 63 };
        message[4..8].copy_from_slice(&[0x21, 0x12, 0xA4, if k % 4 == 0 { 0x43 } else { 0x42 }]);
        calls += parses("stun_header", &message[..length + 4]);
        calls += (0..10).map(|_| random_reports(&mut random)).sum::<u64>();
    }
    let error: Box<dyn std::error::Error> = Box::new(MqttError::NoPacket);
    assert_eq!(error.to_string(), "`kind` is not the number of a case of `Packet`");
    println!("{calls} calls");
}
