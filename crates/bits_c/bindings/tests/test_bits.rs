//! Calls the reader and the writer in both orders at random places. A list of bits says what is right, and the tables of
//! H.264 say what exponential Golomb numbers are. Prints the number of calls.

use bits::error::Error;
use bits::reader::Reader;
use bits::writer::Writer;

/// Table 9-2 of H.264: the bits of the first numbers; and table 9-3: the signed numbers in their order.
const UE: [&str; 10] = ["1", "010", "011", "00100", "00101", "00110", "00111", "0001000", "0001001", "0001010"];
const SE: [i32; 10] = [0, 1, -1, 2, -2, 3, -3, 4, -4, 5];

/// The numbers of a generator.
struct Random(u64);

impl Random {
    fn next(&mut self) -> u64 {
        self.0 ^= self.0 << 13;
        self.0 ^= self.0 >> 7;
        self.0 ^= self.0 << 17;
        self.0
    }

    fn below(&mut self, limit: u64) -> u64 {
        self.next() % limit
    }
}

/// Returns the bits of bytes.
fn bits_of(bytes: &[u8], low: bool) -> Vec<bool> {
    let bit = |k: usize| bytes[k / 8] >> (if low { k % 8 } else { 7 - k % 8 }) & 1 == 1;
    (0..8 * bytes.len()).map(bit).collect()
}

/// Returns the bits of a number.
fn word(value: u64, width: u32, low: bool) -> Vec<bool> {
    (0..width).map(|k| value >> (if low { k } else { width - 1 - k }) & 1 == 1).collect()
}

/// Returns the number of bits.
fn number(bits: &[bool], low: bool) -> u64 {
    let shift = |k: usize| if low { k } else { bits.len() - 1 - k };
    bits.iter().enumerate().map(|(k, bit)| u64::from(*bit) << shift(k)).sum()
}

/// Returns the bits of an exponential Golomb number.
fn golomb(value: u32, low: bool) -> Vec<bool> {
    let more = u64::from(value) + 1;
    let zeros = more.ilog2();
    let rest = word(more, zeros, low);
    [vec![false; zeros as usize], vec![true], rest].concat()
}

/// A write, and the read that gives its value back.
#[derive(Debug)]
enum Call {
    Unsigned(u32, u64),
    Signed(u32, i64),
    Bytes(Vec<u8>),
    Unary(bool, u64),
    Ue(u32),
    Se(i32),
}

/// Returns a random call.
fn call(random: &mut Random) -> Call {
    let width = random.below(66) as u32;
    let value = random.next() >> random.below(64);
    match random.below(6) {
        0 => Call::Unsigned(width, value),
        1 => Call::Signed(width, value as i64 >> random.below(64)),
        2 => Call::Bytes((0..random.below(6)).map(|_| random.next() as u8).collect()),
        3 => Call::Unary(random.below(2) == 1, random.below(140)),
        4 => Call::Ue([value as u32, u32::MAX - random.below(2) as u32][random.below(2) as usize]),
        _ => Call::Se([value as i32, i32::MIN + random.below(2) as i32][random.below(2) as usize]),
    }
}

/// Returns the bits that a call is to write, or its error.
fn wanted(it: &Call, low: bool) -> Result<Vec<bool>, Error> {
    match it {
        Call::Unsigned(width, _) if *width > 64 => Err(Error::Width),
        Call::Signed(width, _) if *width == 0 || *width > 64 => Err(Error::Width),
        Call::Unsigned(width, value) if *width < 64 && value >> width != 0 => Err(Error::DoesNotFit),
        Call::Signed(width, value) if ![0, -1].contains(&(value >> (width - 1))) => Err(Error::DoesNotFit),
        Call::Ue(u32::MAX) | Call::Se(i32::MIN) => Err(Error::DoesNotFit),
        Call::Unsigned(width, value) => Ok(word(*value, *width, low)),
        Call::Signed(width, value) => Ok(word(*value as u64, *width, low)),
        Call::Bytes(bytes) => Ok(bits_of(bytes, low)),
        Call::Unary(stop, count) => Ok([vec![!stop; *count as usize], vec![*stop]].concat()),
        Call::Ue(value) => Ok(golomb(*value, low)),
        Call::Se(value) if *value > 0 => Ok(golomb(2 * *value as u32 - 1, low)),
        Call::Se(value) => Ok(golomb(2 * value.unsigned_abs(), low)),
    }
}

/// Makes a write.
fn write(writer: &mut Writer, it: &Call, low: bool) -> Result<(), Error> {
    match (it, low) {
        (Call::Unsigned(width, value), false) => writer.write_unsigned(*width, *value),
        (Call::Unsigned(width, value), true) => writer.write_unsigned_le(*width, *value),
        (Call::Signed(width, value), false) => writer.write_signed(*width, *value),
        (Call::Signed(width, value), true) => writer.write_signed_le(*width, *value),
        (Call::Bytes(bytes), false) => writer.write_bytes(bytes),
        (Call::Bytes(bytes), true) => writer.write_bytes_le(bytes),
        (Call::Unary(stop, count), false) => writer.write_unary(*stop, *count),
        (Call::Unary(stop, count), true) => writer.write_unary_le(*stop, *count),
        (Call::Ue(value), false) => writer.write_ue(*value),
        (Call::Ue(value), true) => writer.write_ue_le(*value),
        (Call::Se(value), false) => writer.write_se(*value),
        (Call::Se(value), true) => writer.write_se_le(*value),
    }
}

/// Reads the value of a call, and tests it.
fn read(reader: &mut Reader, it: &Call, low: bool) {
    match (it, low) {
        (Call::Unsigned(width, value), false) => assert_eq!(reader.read_unsigned(*width), Ok(*value)),
        (Call::Unsigned(width, value), true) => assert_eq!(reader.read_unsigned_le(*width), Ok(*value)),
        (Call::Signed(width, value), false) => assert_eq!(reader.read_signed(*width), Ok(*value)),
        (Call::Signed(width, value), true) => assert_eq!(reader.read_signed_le(*width), Ok(*value)),
        (Call::Bytes(bytes), _) => {
            let mut found = vec![0; bytes.len()];
            assert_eq!(if low { reader.read_bytes_le(&mut found) } else { reader.read_bytes(&mut found) }, Ok(()));
            assert_eq!(&found, bytes);
        }
        (Call::Unary(stop, count), false) => assert_eq!(reader.read_unary(*stop), Ok(*count)),
        (Call::Unary(stop, count), true) => assert_eq!(reader.read_unary_le(*stop), Ok(*count)),
        (Call::Ue(value), false) => assert_eq!(reader.read_ue(), Ok(*value)),
        (Call::Ue(value), true) => assert_eq!(reader.read_ue_le(), Ok(*value)),
        (Call::Se(value), false) => assert_eq!(reader.read_se(), Ok(*value)),
        (Call::Se(value), true) => assert_eq!(reader.read_se_le(), Ok(*value)),
    }
}

/// Makes a write at a random place of random bytes, and reads its value back.
fn there_and_back(random: &mut Random, low: bool) {
    let it = call(random);
    let mut buffer: Vec<u8> = (0..random.below(30)).map(|_| random.next() as u8).collect();
    let mut after = bits_of(&buffer, low);
    let at = random.below(after.len() as u64 + 9);
    let (start, room) = (at as usize, after.len());
    let mut wanted = wanted(&it, low);
    if wanted.as_ref().is_ok_and(|word| start + word.len() > room) {
        wanted = Err(Error::NoRoom);
    }
    let mut writer = Writer::new(&mut buffer);
    writer.seek(at);
    assert_eq!(write(&mut writer, &it, low), wanted.as_ref().map(|_| ()).map_err(|error| *error), "{it:?}");
    let end = start + wanted.as_ref().map_or(0, Vec::len);
    assert_eq!((writer.written(), writer.room()), (end as u64, room.saturating_sub(end) as u64));
    if let Ok(word) = &wanted {
        after[start..end].copy_from_slice(word);
    }
    assert_eq!(bits_of(&buffer, low), after, "{it:?}");
    if wanted.is_ok() {
        let mut reader = Reader::new(&buffer);
        assert_eq!(reader.seek(at), Ok(()));
        read(&mut reader, &it, low);
        assert_eq!((reader.at(), reader.left()), (end as u64, (room - end) as u64));
    }
}

/// Reads at a random place of bytes, of which many are 0, and tests the errors.
fn reads(random: &mut Random, low: bool) {
    let bytes: Vec<u8> = (0..random.below(30)).map(|_| (random.next() >> random.below(64)) as u8).collect();
    let bits = bits_of(&bytes, low);
    let at = random.below(bits.len() as u64 + 1);
    let left = &bits[at as usize..];
    let width = random.below(66) as usize;
    let mut reader = Reader::new(&bytes);
    assert_eq!(reader.skip(at), Ok(()));
    let wanted = match width {
        65 => Err(Error::Width),
        _ if width > left.len() => Err(Error::EndOfInput),
        _ => Ok(number(&left[..width], low)),
    };
    let mut once = reader.clone();
    let found = if low { once.read_unsigned_le(width as u32) } else { once.read_unsigned(width as u32) };
    assert_eq!(found, wanted);
    let zeros = left.iter().take_while(|bit| !**bit).count();
    let wanted = match zeros {
        32.. => Err(Error::TooLong),
        _ if 2 * zeros + 1 > left.len() => Err(Error::EndOfInput),
        _ => Ok(((1 << zeros) - 1 + number(&left[zeros + 1..2 * zeros + 1], low)) as u32),
    };
    let mut once = reader.clone();
    assert_eq!(if low { once.read_ue_le() } else { once.read_ue() }, wanted);
    let wanted = if zeros < left.len() { Ok(zeros as u64) } else { Err(Error::EndOfInput) };
    assert_eq!(if low { reader.read_unary_le(true) } else { reader.read_unary(true) }, wanted);
    assert_eq!(reader.seek(bits.len() as u64 + 1), Err(Error::EndOfInput));
    reader.align();
    assert_eq!(reader.at() % 8, 0);
}

/// Reads and writes the rows of the tables.
fn tables() {
    for (value, code) in UE.iter().enumerate() {
        let bytes = (u16::from_str_radix(code, 2).unwrap() << (16 - code.len())).to_be_bytes();
        assert_eq!(Reader::new(&bytes).read_ue(), Ok(value as u32));
        assert_eq!(Reader::new(&bytes).read_se(), Ok(SE[value]));
        let mut buffer = [0; 2];
        assert_eq!(Writer::new(&mut buffer).write_ue(value as u32), Ok(()));
        assert_eq!(buffer, bytes);
        buffer = [0; 2];
        assert_eq!(Writer::new(&mut buffer).write_se(SE[value]), Ok(()));
        assert_eq!(buffer, bytes);
    }
}

fn main() {
    let mut random = Random(88172645463325252);
    tables();
    for turn in 0..100000 {
        there_and_back(&mut random, turn % 2 == 0);
        reads(&mut random, turn % 2 == 0);
    }
    let mut writer = [0xff; 2];
    let mut writer = Writer::new(&mut writer);
    assert_eq!((writer.write_unsigned(3, 0), writer.align(), writer.align_le()), (Ok(()), Ok(()), Ok(())));
    assert_eq!(writer.written(), 8);
    assert_eq!(Error::TooLong.to_string(), "the number begins with more than 31 zeros");
    println!("{} calls", 200000 + 4 * UE.len());
}
