//! Calls the library with the rows of standard input, on each line the name of a format and bytes in hex, and with random
//! values. Plain sums say what is right. Prints the number of calls.

use network_messages::icmp_message::{Echo, IcmpMessage, IcmpMessageError};
use network_messages::ipv4_packet::{Ipv4Packet, Ipv4PacketError};
use network_messages::ipv4_pseudo::Ipv4Pseudo;
use network_messages::udp_datagram::{UdpDatagram, UdpDatagramError};
use std::io::BufRead;

/// The numbers of a generator.
struct Random(u64);

impl Random {
    fn next(&mut self) -> u64 {
        self.0 ^= self.0 << 13;
        self.0 ^= self.0 >> 7;
        self.0 ^= self.0 << 17;
        self.0
    }

    fn below(&mut self, most: usize) -> usize {
        (self.next() % most as u64) as usize
    }

    fn bytes(&mut self, count: usize) -> Vec<u8> {
        (0..count).map(|_| self.next() as u8).collect()
    }
}

fn two(b: &[u8], at: usize) -> u16 {
    u16::from_be_bytes([b[at], b[at + 1]])
}

/// Returns the inverted sum of the words of pieces of an even number of bytes each, but for the last one.
fn inverted_sum(pieces: &[&[u8]]) -> u16 {
    let words = pieces.iter().flat_map(|it| it.chunks(2));
    let mut sum: u64 = words.map(|it| u64::from(it[0]) << 8 | it.get(1).map_or(0, |low| u64::from(*low))).sum();
    while sum > 0xFFFF {
        sum = (sum & 0xFFFF) + (sum >> 16);
    }
    0xFFFF - sum as u16
}

fn icmp_wanted(b: &[u8]) -> Result<(IcmpMessage, usize), IcmpMessageError> {
    let kind = match b.first().ok_or(IcmpMessageError::EndOfInput)? {
        0 => Echo::Reply,
        8 => Echo::Request,
        _ => return Err(IcmpMessageError::NoEcho),
    };
    if b.len() < 8 {
        return Err(IcmpMessageError::EndOfInput);
    }
    if inverted_sum(&[&b[..2], &b[4..]]) != two(b, 2) {
        return Err(IcmpMessageError::WrongSum);
    }
    let it = IcmpMessage { kind, code: b[1], identifier: two(b, 4), sequence: two(b, 6), data: b[8..].to_vec() };
    Ok((it, b.len()))
}

fn ipv4_wanted(b: &[u8]) -> Result<(Ipv4Packet, usize), Ipv4PacketError> {
    let first = *b.first().ok_or(Ipv4PacketError::EndOfInput)?;
    let size = 4 * usize::from(first & 15);
    if first >> 4 != 4 {
        return Err(Ipv4PacketError::OtherVersion);
    }
    if b.get(6).is_some_and(|it| it & 0x80 != 0) {
        return Err(Ipv4PacketError::ReservedSet);
    }
    if b.len() >= 20 && size < 20 {
        return Err(Ipv4PacketError::ShortHeader);
    }
    if b.len() < size.max(20) {
        return Err(Ipv4PacketError::EndOfInput);
    }
    if inverted_sum(&[&b[..10], &b[12..size]]) != two(b, 10) {
        return Err(Ipv4PacketError::WrongSum);
    }
    let it = Ipv4Packet {
        service: b[1],
        length: two(b, 2),
        id: two(b, 4),
        keep_whole: b[6] & 0x40 != 0,
        more: b[6] & 0x20 != 0,
        offset: two(b, 6) & 0x1FFF,
        ttl: b[8],
        protocol: b[9],
        source: b[12..16].try_into().unwrap(),
        target: b[16..20].try_into().unwrap(),
        options: b[20..size].to_vec(),
    };
    Ok((it, size))
}

fn udp_wanted(b: &[u8], pseudo: &Ipv4Pseudo) -> Result<(UdpDatagram, usize), UdpDatagramError> {
    if b.len() < 8 {
        return Err(UdpDatagramError::EndOfInput);
    }
    let size = usize::from(two(b, 4));
    if size < 8 {
        return Err(UdpDatagramError::ShortLength);
    }
    if b.len() < size {
        return Err(UdpDatagramError::EndOfInput);
    }
    if udp_sum(b, size, pseudo) != two(b, 6) {
        return Err(UdpDatagramError::WrongSum);
    }
    let it = UdpDatagram { pseudo: pseudo.clone(), source: two(b, 0), target: two(b, 2), data: b[8..size].to_vec() };
    Ok((it, size))
}

fn udp_sum(b: &[u8], size: usize, pseudo: &Ipv4Pseudo) -> u16 {
    let head = [&pseudo.source[..], &pseudo.target[..], &[0, pseudo.protocol], &pseudo.length.to_be_bytes()].concat();
    match inverted_sum(&[&head, &b[..6], &b[8..size]]) {
        0 => 0xFFFF,
        sum => sum,
    }
}

/// Compares a message of a format with what plain sums say, and packs it again.
fn parses(name: &str, b: &[u8]) -> u64 {
    if name == "icmp_message" {
        let wanted = icmp_wanted(b);
        assert_eq!(IcmpMessage::parse(b), wanted);
        return wanted.map_or(1, |(it, _)| { assert_eq!(it.pack().as_deref(), Ok(b)); 2 });
    }
    let wanted = ipv4_wanted(b);
    assert_eq!(Ipv4Packet::parse(b), wanted);
    wanted.map_or(1, |(it, size)| { assert_eq!(it.pack().as_deref(), Ok(&b[..size])); 2 })
}

fn parses_udp(b: &[u8], pseudo: &Ipv4Pseudo) -> u64 {
    let wanted = udp_wanted(b, pseudo);
    assert_eq!(UdpDatagram::parse(b, pseudo), wanted);
    wanted.map_or(1, |(it, size)| { assert_eq!(it.pack().as_deref(), Ok(&b[..size])); 2 })
}

/// Returns bytes with their checksum at its place, and some of them with another bit, or cut.
fn right(random: &mut Random, mut b: Vec<u8>, at: usize, sum: u16) -> Vec<u8> {
    b[at..at + 2].copy_from_slice(&sum.to_be_bytes());
    if random.below(4) == 0 {
        let place = random.below(b.len());
        b[place] ^= 1 << random.below(8);
    }
    if random.below(8) == 0 {
        let length = random.below(b.len());
        b.truncate(length);
    }
    b
}

fn main() {
    let mut random = Random(88172645463325252);
    let mut calls = 0;
    for line in std::io::stdin().lock().lines() {
        let line = line.unwrap();
        let (name, digits) = line.split_once(' ').unwrap();
        let bytes: Vec<u8> = (0..digits.len() / 2)
            .map(|k| u8::from_str_radix(&digits[2 * k..2 * k + 2], 16).unwrap())
            .collect();
        calls += (0..=bytes.len()).map(|length| parses(name, &bytes[..length])).sum::<u64>();
    }
    for _ in 0..20000 {
        let count = random.below(40);
        let mut icmp = random.bytes(8 + count);
        icmp[0] = 8 * (icmp[0] & 1);
        let sum = inverted_sum(&[&icmp[..2], &icmp[4..]]);
        calls += parses("icmp_message", &right(&mut random, icmp, 2, sum));
        let words = 5 + random.below(11);
        let mut ipv4 = random.bytes(4 * words);
        ipv4[0] = 0x40 | words as u8;
        ipv4[6] &= 0x7F;
        let sum = inverted_sum(&[&ipv4[..10], &ipv4[12..]]);
        calls += parses("ipv4_packet", &right(&mut random, ipv4, 10, sum));
        let ends = random.bytes(11);
        let pseudo = Ipv4Pseudo {
            source: ends[..4].try_into().unwrap(),
            target: ends[4..8].try_into().unwrap(),
            protocol: ends[8],
            length: two(&ends, 9),
        };
        let mut udp = random.bytes(8 + count);
        udp[4..6].copy_from_slice(&(8 + count as u16).to_be_bytes());
        let sum = udp_sum(&udp, 8 + count, &pseudo);
        calls += parses_udp(&right(&mut random, udp, 6, sum), &pseudo);
    }
    println!("{calls} calls");
}
