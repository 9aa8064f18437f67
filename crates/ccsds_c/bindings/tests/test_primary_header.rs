//! Calls the library with the rows of standard input, a row of bytes in hex on each line, and with random values. Plain
//! shifts say what is right. Prints the number of calls.

use ccsds::primary_header::{PrimaryHeader, PrimaryHeaderError};
use std::io::BufRead;

/// The numbers of a generator.
struct Random(u64);

impl Random {
    fn next(&mut self) -> u64 {
        self.0 ^= self.0 << 13;
        self.0 ^= self.0 >> 7;
        self.0 ^= self.0 << 17;
        self.0
    }
}

/// What a parse is to return.
fn wanted(b: &[u8]) -> Result<PrimaryHeader, PrimaryHeaderError> {
    if b.first().is_some_and(|it| it >> 5 != 0) {
        return Err(PrimaryHeaderError::WrongVersion);
    }
    if b.len() < 6 {
        return Err(PrimaryHeaderError::EndOfInput);
    }
    Ok(PrimaryHeader {
        telecommand: b[0] >> 4 & 1 == 1,
        secondary: b[0] >> 3 & 1 == 1,
        apid: u16::from(b[0] & 7) << 8 | u16::from(b[1]),
        sequence: b[2] >> 6,
        count: u16::from(b[2] & 63) << 8 | u16::from(b[3]),
        length: u16::from(b[4]) << 8 | u16::from(b[5]),
    })
}

/// Packs fields into buffers of all lengths up to 8.
fn packs(it: &PrimaryHeader, bytes: Result<&[u8], &'static str>) -> u64 {
    for length in 0..=8 {
        let mut buffer = vec![0xEE; length];
        let mut after = buffer.clone();
        let answer = match bytes {
            Err(field) => Err(PrimaryHeaderError::DoesNotFit(field)),
            Ok(_) if length < 6 => Err(PrimaryHeaderError::NoRoom),
            Ok(bytes) => {
                after[..6].copy_from_slice(bytes);
                Ok(6)
            }
        };
        assert_eq!(it.pack_into(&mut buffer), answer);
        assert_eq!(buffer, after);
    }
    9
}

/// Parses the first bytes of a row.
fn parses(bytes: &[u8]) -> u64 {
    let found = PrimaryHeader::parse(bytes);
    assert_eq!(found, wanted(bytes));
    found.map_or(1, |it| 1 + packs(&it, Ok(&bytes[..6])))
}

/// Packs random fields, some of which do not fit, and parses them again.
fn random_fields(random: &mut Random) -> u64 {
    let wide = random.next() % 8;
    let it = PrimaryHeader {
        telecommand: random.next() & 1 == 1,
        secondary: random.next() & 1 == 1,
        apid: random.next() as u16 & if wide == 0 { 0xFFFF } else { 2047 },
        sequence: random.next() as u8 & if wide == 1 { 255 } else { 3 },
        count: random.next() as u16 & if wide == 2 { 0xFFFF } else { 16383 },
        length: random.next() as u16,
    };
    let misfits = [("apid", it.apid > 2047), ("sequence", it.sequence > 3), ("count", it.count > 16383)];
    if let Some((field, _)) = misfits.into_iter().find(|it| it.1) {
        return packs(&it, Err(field));
    }
    let bytes = it.pack().unwrap();
    assert_eq!(wanted(&bytes), Ok(it));
    assert_eq!(PrimaryHeader::parse(&bytes), Ok(it));
    2 + packs(&it, Ok(&bytes))
}

fn main() {
    let mut random = Random(1);
    let mut calls = 0;
    for line in std::io::stdin().lock().lines() {
        let line = line.unwrap();
        let bytes: Vec<u8> = (0..line.len() / 2)
            .map(|k| u8::from_str_radix(&line[2 * k..2 * k + 2], 16).unwrap())
            .collect();
        calls += (0..=bytes.len())
            .map(|length| parses(&bytes[..length]))
            .sum::<u64>();
    }
    for k in 0..20000 {
        let mut bytes = random.next().to_be_bytes();
        bytes[0] &= if k % 4 == 0 { 255 } else { 31 };
        calls += parses(&bytes[..6]) + random_fields(&mut random);
    }
    let error: Box<dyn std::error::Error> = Box::new(PrimaryHeaderError::WrongVersion);
    assert_eq!(error.to_string(), "the version is not 0");
    println!("{calls} calls");
}
