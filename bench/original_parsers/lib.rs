//! Parsers and writers of formats over the Rust crate; README.md lists them. Module `limit` does the same work without
//! any crate.
use bitstream_io::{
    BE, BitCount, BitRead, BitReader, BitRecorder, BitWrite, BitWriter, ByteRead, ByteReader, CheckedUnsigned,
    Endianness, FromBitStream, LE, ToBitStream,
};
use std::io::{self, BufReader, BufWriter, Cursor, SeekFrom, Write};

mod limit;

/// The result of a failed call.
const REFUSED: u64 = u64::MAX;
fn mix(sum: u64, value: u64) -> u64 {
    sum.wrapping_mul(31).wrapping_add(value)
}

fn next(state: u64) -> u64 {
    state.wrapping_mul(6364136223846793005).wrapping_add(1442695040888963407)
}

fn slice<'a>(data: *const u8, len: usize) -> &'a [u8] {
    // SAFETY: the caller passes a slice of that length (README.md).
    unsafe { std::slice::from_raw_parts(data, len) }
}

fn slice_mut<'a>(data: *mut u8, len: usize) -> &'a mut [u8] {
    // SAFETY: as above, and nothing else uses it during the call.
    unsafe { std::slice::from_raw_parts_mut(data, len) }
}

macro_rules! reads {
    ($($orig:literal $name:ident = $f:ident;)*) => {$(
        #[unsafe(export_name = $orig)]
        pub extern "C" fn $name(order: u32, data: *const u8, len: usize, count: u64) -> u64 {
            if order == 0 { $f::<BE>(slice(data, len), count).unwrap_or(REFUSED) }
            else { $f::<LE>(slice(data, len), count).unwrap_or(REFUSED) }
        }
    )*};
}

macro_rules! writes {
    ($($orig:literal $name:ident = $f:ident;)*) => {$(
        #[unsafe(export_name = $orig)]
        pub extern "C" fn $name(order: u32, count: u64, seed: u64, out: *mut u8, len: usize) -> u64 {
            if order == 0 { $f::<BE>(count, seed, slice_mut(out, len)).unwrap_or(REFUSED) }
            else { $f::<LE>(count, seed, slice_mut(out, len)).unwrap_or(REFUSED) }
        }
    )*};
}

reads! {
    "orig_read_golomb" orig_read_golomb = read_golomb;
    "orig_read_protocol" orig_read_protocol = read_protocol;
    "orig_read_packed" orig_read_packed = read_packed;
    "orig_read_adts" orig_read_adts = read_adts;
    "orig_read_rice" orig_read_rice = read_rice;
    "orig_read_parse" orig_read_parse = read_parse;
    "orig_read_checked" orig_read_checked = read_checked;
    "orig_read_seek" orig_read_seek = read_seek;
    "orig_read_skip" orig_read_skip = read_skip;
    "orig_read_const13" orig_read_const13 = read_const13;
    "orig_read_var13" orig_read_var13 = read_var13;
    "orig_read_unary60" orig_read_unary60 = read_unary60;
    "orig_read_bufreader" orig_read_bufreader = read_bufreader;
    "orig_read_cursor" orig_read_cursor = read_cursor;
    "orig_read_bytevec" orig_read_bytevec = read_bytevec;
    "orig_read_symbols" orig_read_symbols = read_symbols;
    "orig_read_flags" orig_read_flags = read_flags;
    "orig_read_pcm16" orig_read_pcm16 = read_pcm16;
}

writes! {
    "orig_write_golomb" orig_write_golomb = write_golomb;
    "orig_write_protocol" orig_write_protocol = write_protocol;
    "orig_write_packed" orig_write_packed = write_packed;
    "orig_write_adts" orig_write_adts = write_adts;
    "orig_write_rice" orig_write_rice = write_rice;
    "orig_write_build" orig_write_build = write_build;
    "orig_write_const13" orig_write_const13 = write_const13;
    "orig_write_vec" orig_write_vec = write_vec;
    "orig_write_unary60" orig_write_unary60 = write_unary60;
    "orig_write_bufwriter" orig_write_bufwriter = write_bufwriter;
    "orig_write_record" orig_write_record = write_record;
    "orig_write_symbols" orig_write_symbols = write_symbols;
}

#[inline]
fn ue<R: BitRead>(r: &mut R) -> io::Result<u32> {
    let zeros = r.read_unary::<1>()?;
    if zeros > 31 {
        return Err(io::ErrorKind::InvalidData.into());
    }
    let rest: u32 = r.read_var(zeros)?;
    Ok((1u32 << zeros) - 1 + rest)
}

#[inline]
fn se<R: BitRead>(r: &mut R) -> io::Result<i32> {
    let place = ue(r)?;
    let half = (place / 2) as i32;
    Ok(if place % 2 == 1 { half + 1 } else { -half })
}

#[inline]
fn w_ue<W: BitWrite>(w: &mut W, value: u32) -> io::Result<()> {
    let more = value + 1;
    let zeros = 31 - more.leading_zeros();
    w.write_unary::<1>(zeros)?;
    w.write_var(zeros, more - (1 << zeros))
}

fn read_golomb<E: Endianness>(data: &[u8], count: u64) -> io::Result<u64> {
    let mut r = BitReader::<_, E>::new(data);
    let mut sum = 0;
    for _ in 0..count {
        sum = mix(sum, u64::from(r.read::<8, u8>()?));
        sum = mix(sum, u64::from(r.read::<8, u8>()?));
        sum = mix(sum, u64::from(r.read::<8, u8>()?));
        for _ in 0..6 {
            sum = mix(sum, u64::from(ue(&mut r)?));
        }
        sum = mix(sum, u64::from(r.read_bit()?));
        sum = mix(sum, u64::from(ue(&mut r)?));
        sum = mix(sum, u64::from(ue(&mut r)?));
        sum = mix(sum, u64::from(r.read_bit()?));
        sum = mix(sum, u64::from(r.read_bit()?));
        sum = mix(sum, se(&mut r)? as i64 as u64);
    }
    Ok(sum)
}

fn write_golomb<E: Endianness>(count: u64, seed: u64, out: &mut [u8]) -> io::Result<u64> {
    let len = out.len();
    let mut w = BitWriter::<_, E>::new(out);
    let mut s = seed;
    for _ in 0..count {
        s = next(s);
        w.write::<8, u8>((s >> 56) as u8)?;
        w.write::<8, u8>((s >> 48) as u8)?;
        w.write::<8, u8>((s >> 40) as u8)?;
        for k in 0..6u32 {
            w_ue(&mut w, ((s >> (8 * k)) % 32) as u32)?;
        }
        w.write_bit(s >> 63 == 1)?;
        w_ue(&mut w, (s >> 57) as u32)?;
        w_ue(&mut w, ((s >> 50) % 128) as u32)?;
        w.write_bit(s >> 62 & 1 == 1)?;
        w.write_bit(s >> 61 & 1 == 1)?;
        w_ue(&mut w, ((s >> 44) % 64) as u32)?;
    }
    w.byte_align()?;
    Ok((len - w.into_writer().len()) as u64)
}

fn read_protocol<E: Endianness>(data: &[u8], count: u64) -> io::Result<u64> {
    let mut r = BitReader::<_, E>::new(data);
    let mut sum = 0;
    for _ in 0..count {
        let version = r.read::<4, u8>()?;
        let ihl = r.read::<4, u8>()?;
        let dscp = r.read::<6, u8>()?;
        let ecn = r.read::<2, u8>()?;
        let total = r.read::<16, u16>()?;
        let id = r.read::<16, u16>()?;
        let reserved = r.read_bit()?;
        let df = r.read_bit()?;
        let mf = r.read_bit()?;
        let offset = r.read::<13, u16>()?;
        let ttl = r.read::<8, u8>()?;
        let proto = r.read::<8, u8>()?;
        let check = r.read::<16, u16>()?;
        let src = r.read::<32, u32>()?;
        let dst = r.read::<32, u32>()?;
        let sport = r.read::<16, u16>()?;
        let dport = r.read::<16, u16>()?;
        let seq = r.read::<32, u32>()?;
        let off = r.read::<4, u8>()?;
        let fl = r.read::<12, u16>()?;
        for v in [
            u64::from(version),
            ihl.into(),
            dscp.into(),
            ecn.into(),
            total.into(),
            id.into(),
            reserved.into(),
            df.into(),
            mf.into(),
            offset.into(),
            ttl.into(),
            proto.into(),
            check.into(),
            src.into(),
            dst.into(),
            sport.into(),
            dport.into(),
            seq.into(),
            off.into(),
            fl.into(),
        ] {
            sum = mix(sum, v);
        }
    }
    Ok(sum)
}

fn write_protocol<E: Endianness>(count: u64, seed: u64, out: &mut [u8]) -> io::Result<u64> {
    let len = out.len();
    let mut w = BitWriter::<_, E>::new(out);
    let mut s = seed;
    for _ in 0..count {
        s = next(s);
        w.write::<4, u8>((s >> 60) as u8)?;
        w.write::<4, u8>((s >> 56 & 15) as u8)?;
        w.write::<6, u8>((s >> 50 & 63) as u8)?;
        w.write::<2, u8>((s >> 48 & 3) as u8)?;
        w.write::<16, u16>((s >> 32) as u16)?;
        w.write::<16, u16>((s >> 16) as u16)?;
        w.write_bit(s >> 63 == 1)?;
        w.write_bit(s >> 62 & 1 == 1)?;
        w.write_bit(s >> 61 & 1 == 1)?;
        w.write::<13, u16>((s >> 51) as u16)?;
        w.write::<8, u8>((s >> 40) as u8)?;
        w.write::<8, u8>((s >> 32) as u8)?;
        w.write::<16, u16>((s >> 24) as u16)?;
        w.write::<32, u32>((s >> 32) as u32)?;
        w.write::<32, u32>(s as u32)?;
        w.write::<16, u16>((s >> 20) as u16)?;
        w.write::<16, u16>((s >> 28) as u16)?;
        w.write::<32, u32>((s >> 16) as u32)?;
        w.write::<4, u8>((s >> 40 & 15) as u8)?;
        w.write::<12, u16>((s >> 52) as u16)?;
    }
    w.byte_align()?;
    Ok((len - w.into_writer().len()) as u64)
}

fn read_packed<E: Endianness>(data: &[u8], count: u64) -> io::Result<u64> {
    let mut r = BitReader::<_, E>::new(data);
    let mut sum = 0;
    for _ in 0..count {
        let a = r.read::<3, u8>()?;
        let b = r.read::<5, u8>()?;
        let c = r.read_bit()?;
        let d = r.read::<11, u16>()?;
        let e = r.read::<7, u8>()?;
        let f = r.read_bit()?;
        let g = r.read_bit()?;
        let h = r.read::<2, u8>()?;
        let i = r.read::<9, u16>()?;
        let j = r.read::<17, u32>()?;
        let k = r.read::<33, u64>()?;
        let l = r.read::<6, u8>()?;
        let m = r.read_bit()?;
        let n = r.read_bit()?;
        let o = r.read::<4, u8>()?;
        let p = r.read::<10, u16>()?;
        let q = r.read::<23, u32>()?;
        let t = r.read::<5, u8>()?;
        let u = r.read_bit()?;
        let v = r.read::<3, u8>()?;
        for x in [
            u64::from(a),
            b.into(),
            c.into(),
            d.into(),
            e.into(),
            f.into(),
            g.into(),
            h.into(),
            i.into(),
            j.into(),
            k,
            l.into(),
            m.into(),
            n.into(),
            o.into(),
            p.into(),
            q.into(),
            t.into(),
            u.into(),
            v.into(),
        ] {
            sum = mix(sum, x);
        }
    }
    Ok(sum)
}

fn write_packed<E: Endianness>(count: u64, seed: u64, out: &mut [u8]) -> io::Result<u64> {
    let len = out.len();
    let mut w = BitWriter::<_, E>::new(out);
    let mut s = seed;
    for _ in 0..count {
        s = next(s);
        w.write::<3, u8>((s >> 61) as u8)?;
        w.write::<5, u8>((s >> 59) as u8)?;
        w.write_bit(s >> 63 == 1)?;
        w.write::<11, u16>((s >> 53) as u16)?;
        w.write::<7, u8>((s >> 57) as u8)?;
        w.write_bit(s >> 62 & 1 == 1)?;
        w.write_bit(s >> 61 & 1 == 1)?;
        w.write::<2, u8>((s >> 62) as u8)?;
        w.write::<9, u16>((s >> 55) as u16)?;
        w.write::<17, u32>((s >> 47) as u32)?;
        w.write::<33, u64>(s >> 31)?;
        w.write::<6, u8>((s >> 58) as u8)?;
        w.write_bit(s >> 60 & 1 == 1)?;
        w.write_bit(s >> 59 & 1 == 1)?;
        w.write::<4, u8>((s >> 60) as u8)?;
        w.write::<10, u16>((s >> 54) as u16)?;
        w.write::<23, u32>((s >> 41) as u32)?;
        w.write::<5, u8>((s >> 59) as u8)?;
        w.write_bit(s >> 58 & 1 == 1)?;
        w.write::<3, u8>((s >> 61) as u8)?;
    }
    w.byte_align()?;
    Ok((len - w.into_writer().len()) as u64)
}

fn read_adts<E: Endianness>(data: &[u8], count: u64) -> io::Result<u64> {
    let mut r = BitReader::<_, E>::new(data);
    let mut sum = 0;
    for _ in 0..count {
        r.read_const::<12, 0xFFF, io::Error>(io::Error::from(io::ErrorKind::InvalidData))?;
        let mpeg2 = r.read_bit()?;
        r.read_const::<2, 0, io::Error>(io::Error::from(io::ErrorKind::InvalidData))?;
        let absent = r.read_bit()?;
        let profile = r.read::<2, u8>()?;
        let frequency = r.read::<4, u8>()?;
        let private = r.read_bit()?;
        let channels = r.read::<3, u8>()?;
        let original = r.read_bit()?;
        let home = r.read_bit()?;
        let id = r.read_bit()?;
        let start = r.read_bit()?;
        let length = r.read::<13, u16>()?;
        let fullness = r.read::<11, u16>()?;
        let blocks = r.read::<2, u8>()?;
        for v in [
            u64::from(mpeg2),
            absent.into(),
            profile.into(),
            frequency.into(),
            private.into(),
            channels.into(),
            original.into(),
            home.into(),
            id.into(),
            start.into(),
            length.into(),
            fullness.into(),
            blocks.into(),
        ] {
            sum = mix(sum, v);
        }
        r.skip(8 * (u32::from(length) - 7))?;
    }
    Ok(sum)
}

fn write_adts<E: Endianness>(count: u64, seed: u64, out: &mut [u8]) -> io::Result<u64> {
    let len = out.len();
    let mut w = BitWriter::<_, E>::new(out);
    let mut s = seed;
    let payload = [0xA5u8; 128];
    for _ in 0..count {
        s = next(s);
        let body = (s >> 57) as usize;
        w.write_const::<12, 0xFFF>()?;
        w.write_bit(s >> 63 == 1)?;
        w.write_const::<2, 0>()?;
        w.write_bit(s >> 62 & 1 == 1)?;
        w.write::<2, u8>((s >> 62) as u8)?;
        w.write::<4, u8>((s >> 60) as u8)?;
        w.write_bit(s >> 61 & 1 == 1)?;
        w.write::<3, u8>((s >> 61) as u8)?;
        w.write_bit(s >> 60 & 1 == 1)?;
        w.write_bit(s >> 59 & 1 == 1)?;
        w.write_bit(s >> 58 & 1 == 1)?;
        w.write_bit(s >> 57 & 1 == 1)?;
        w.write::<13, u16>(body as u16 + 7)?;
        w.write::<11, u16>((s >> 53) as u16)?;
        w.write::<2, u8>((s >> 62) as u8)?;
        w.write_bytes(&payload[..body])?;
    }
    w.byte_align()?;
    Ok((len - w.into_writer().len()) as u64)
}

fn read_rice<E: Endianness>(data: &[u8], count: u64) -> io::Result<u64> {
    let mut r = BitReader::<_, E>::new(data);
    let mut sum = 0;
    let k = 5 + (count >> 60) as u32;
    for _ in 0..count {
        let high = r.read_unary::<1>()?;
        let low: u32 = r.read_var(k)?;
        sum = mix(sum, (high << k | low).into());
    }
    Ok(sum)
}

fn write_rice<E: Endianness>(count: u64, seed: u64, out: &mut [u8]) -> io::Result<u64> {
    let len = out.len();
    let mut w = BitWriter::<_, E>::new(out);
    let mut s = seed;
    let k = 5 + (count >> 60) as u32;
    for _ in 0..count {
        s = next(s);
        // The high part is the number of leading zeros of random bits.
        let high = (s | 1 << 30).leading_zeros();
        w.write_unary::<1>(high)?;
        w.write_var(k, ((s >> 20) % 32) as u32)?;
    }
    w.byte_align()?;
    Ok((len - w.into_writer().len()) as u64)
}

struct Header {
    size: u16,
    kind: u8,
    last: bool,
    time: u16,
}

impl FromBitStream for Header {
    type Error = io::Error;
    fn from_reader<R: BitRead + ?Sized>(r: &mut R) -> io::Result<Self> {
        Ok(Header {
            size: r.read::<13, _>()?,
            kind: r.read::<3, _>()?,
            last: r.read::<1, bool>()?,
            time: r.read::<15, _>()?,
        })
    }
}

impl ToBitStream for Header {
    type Error = io::Error;
    fn to_writer<W: BitWrite + ?Sized>(&self, w: &mut W) -> io::Result<()> {
        w.write::<13, _>(self.size)?;
        w.write::<3, _>(self.kind)?;
        w.write::<1, bool>(self.last)?;
        w.write::<15, _>(self.time)
    }
}

fn read_parse<E: Endianness>(data: &[u8], count: u64) -> io::Result<u64> {
    let mut r = BitReader::<_, E>::new(data);
    let mut sum = 0;
    for _ in 0..count {
        let h: Header = r.parse()?;
        sum = mix(mix(mix(mix(sum, h.size.into()), h.kind.into()), h.last.into()), h.time.into());
    }
    Ok(sum)
}

fn header(s: u64) -> Header {
    Header { size: (s >> 51) as u16, kind: (s >> 61) as u8, last: s >> 63 == 1, time: (s >> 49) as u16 }
}

fn write_build<E: Endianness>(count: u64, seed: u64, out: &mut [u8]) -> io::Result<u64> {
    let len = out.len();
    let mut w = BitWriter::<_, E>::new(out);
    let mut s = seed;
    for _ in 0..count {
        s = next(s);
        w.build(&header(s))?;
    }
    w.byte_align()?;
    Ok((len - w.into_writer().len()) as u64)
}

fn read_checked<E: Endianness>(data: &[u8], count: u64) -> io::Result<u64> {
    let mut r = BitReader::<_, E>::new(data);
    let mut sum = 0;
    for _ in 0..count {
        let v: CheckedUnsigned<16, u16> = r.read_checked(BitCount::new::<11>())?;
        sum = mix(sum, v.into_value().into());
    }
    Ok(sum)
}

fn read_seek<E: Endianness>(data: &[u8], count: u64) -> io::Result<u64> {
    let most = 8 * data.len() as u64 - 11;
    let mut r = BitReader::<_, E>::new(Cursor::new(data));
    let (mut sum, mut s) = (0, 1);
    for _ in 0..count {
        s = next(s);
        r.seek_bits(SeekFrom::Start((s >> 20) % most))?;
        sum = mix(sum, r.read_var::<u32>(11)?.into());
    }
    Ok(sum)
}

fn read_skip<E: Endianness>(data: &[u8], count: u64) -> io::Result<u64> {
    let mut r = BitReader::<_, E>::new(data);
    let mut sum = 0;
    for _ in 0..count {
        r.skip(20_003)?;
        sum = mix(sum, r.read_bit()?.into());
    }
    Ok(sum)
}

fn read_const13<E: Endianness>(data: &[u8], count: u64) -> io::Result<u64> {
    let mut r = BitReader::<_, E>::new(data);
    let mut sum = 0;
    for _ in 0..count {
        sum = mix(sum, r.read::<13, u16>()?.into());
    }
    Ok(sum)
}

fn read_bufreader<E: Endianness>(data: &[u8], count: u64) -> io::Result<u64> {
    let mut r = BitReader::<_, E>::new(BufReader::new(data));
    let mut sum = 0;
    for _ in 0..count {
        sum = mix(sum, r.read_var::<u16>(13)?.into());
    }
    Ok(sum)
}

fn read_cursor<E: Endianness>(data: &[u8], count: u64) -> io::Result<u64> {
    let mut r = BitReader::<_, E>::new(Cursor::new(data));
    let mut sum = 0;
    for _ in 0..count {
        sum = mix(sum, r.read_var::<u16>(13)?.into());
    }
    Ok(sum)
}

fn read_bytevec<E: Endianness>(data: &[u8], count: u64) -> io::Result<u64> {
    let mut r = ByteReader::<_, E>::new(data);
    let mut sum = 0;
    for _ in 0..count {
        let v = r.read_to_vec(64)?;
        sum = mix(mix(sum, v[0].into()), v[63].into());
    }
    Ok(sum)
}

fn read_flags<E: Endianness>(data: &[u8], count: u64) -> io::Result<u64> {
    let mut r = BitReader::<_, E>::new(data);
    let mut sum = 0;
    for _ in 0..count {
        for f in r.read::<1, [bool; 8]>()? {
            sum = mix(sum, f.into());
        }
    }
    Ok(sum)
}

fn read_pcm16<E: Endianness>(data: &[u8], count: u64) -> io::Result<u64> {
    let mut r = BitReader::<_, E>::new(data);
    let mut sum = 0;
    for _ in 0..count {
        sum = mix(sum, r.read_signed_var::<i32>(16)? as i64 as u64);
    }
    Ok(sum)
}

fn write_const13<E: Endianness>(count: u64, seed: u64, out: &mut [u8]) -> io::Result<u64> {
    let len = out.len();
    let mut w = BitWriter::<_, E>::new(out);
    let mut s = seed;
    for _ in 0..count {
        s = next(s);
        w.write::<13, u16>((s >> 51) as u16)?;
    }
    w.byte_align()?;
    Ok((len - w.into_writer().len()) as u64)
}

fn write_vec<E: Endianness>(count: u64, seed: u64, out: &mut [u8]) -> io::Result<u64> {
    let mut w = BitWriter::<_, E>::new(Vec::new());
    let mut s = seed;
    for _ in 0..count {
        s = next(s);
        w.write_var::<u16>(13, (s >> 51) as u16)?;
    }
    w.byte_align()?;
    let v = w.into_writer();
    out[0] = v[0];
    out[1] = v[v.len() - 1];
    Ok(v.len() as u64)
}

fn write_bufwriter<E: Endianness>(count: u64, seed: u64, out: &mut [u8]) -> io::Result<u64> {
    let mut w = BitWriter::<_, E>::new(BufWriter::new(out));
    let mut s = seed;
    for _ in 0..count {
        s = next(s);
        w.write_var::<u16>(13, (s >> 51) as u16)?;
    }
    w.byte_align()?;
    w.into_writer().flush()?;
    Ok((13 * count).div_ceil(8))
}

/// Records 4 KiB an item, as numbers of 13 bits, and plays them back.
fn write_record<E: Endianness>(count: u64, seed: u64, out: &mut [u8]) -> io::Result<u64> {
    let mut s = seed;
    let mut total = 0;
    for _ in 0..count {
        let mut record = BitRecorder::<u32, E>::new();
        for _ in 0..2520 {
            s = next(s);
            record.write_var::<u16>(13, (s >> 51) as u16)?;
        }
        let mut w = BitWriter::<_, E>::new(&mut *out);
        record.playback(&mut w)?;
        w.byte_align()?;
        total += u64::from(record.written());
    }
    Ok(total)
}

/// A prefix code of 24 symbols, with code words of 3 to 8 bits.
struct Codes;
impl bitstream_io::huffman::FromBits for Codes {
    type Symbol = u8;
    fn from_bits<F, E>(mut next: F) -> Result<u8, E>
    where
        F: FnMut() -> Result<bool, E>,
    {
        bitstream_io::compile_read_tree_nodes!(
            next,
            [
                [[3, [[[[21, 20], 16], 11], 7]], [2, [6, [[15, [19, [23, 22]]], 10]]]],
                [[1, [5, [[14, [18, 17]], 9]]], [0, [4, [[13, 12], 8]]]]
            ]
        )
    }
}

/// The code words, first bit first.
pub(crate) const WORDS: [(u8, &str); 24] = [
    (0, "110"),
    (1, "100"),
    (2, "010"),
    (3, "000"),
    (4, "1110"),
    (5, "1010"),
    (6, "0110"),
    (7, "0011"),
    (8, "11111"),
    (9, "10111"),
    (10, "01111"),
    (11, "00101"),
    (12, "111101"),
    (13, "111100"),
    (14, "101100"),
    (15, "011100"),
    (16, "001001"),
    (17, "1011011"),
    (18, "1011010"),
    (19, "0111010"),
    (20, "0010001"),
    (21, "0010000"),
    (22, "01110111"),
    (23, "01110110"),
];
fn read_symbols<E: Endianness>(data: &[u8], count: u64) -> io::Result<u64> {
    let mut r = BitReader::<_, E>::new(data);
    let mut sum = 0;
    for _ in 0..count {
        sum = mix(sum, r.read_huffman::<Codes>()?.into());
    }
    Ok(sum)
}

/// Writes symbols by a loop over the bits of each code word. The crate's macro expands to 2^depth copies of the code
/// that writes a code word, and takes gigabytes to compile for this tree.
fn write_symbols<E: Endianness>(count: u64, seed: u64, out: &mut [u8]) -> io::Result<u64> {
    let len = out.len();
    let mut w = BitWriter::<_, E>::new(out);
    let mut s = seed;
    for _ in 0..count {
        s = next(s);
        for b in WORDS[(((s >> 40) % 24) * ((s >> 32) % 24) / 24) as usize].1.bytes() {
            w.write_bit(b == b'1')?;
        }
    }
    w.byte_align()?;
    Ok((len - w.into_writer().len()) as u64)
}

fn read_var13<E: Endianness>(data: &[u8], count: u64) -> io::Result<u64> {
    let mut r = BitReader::<_, E>::new(data);
    let mut sum = 0;
    let width = 13 + (count >> 60) as u32;
    for _ in 0..count {
        sum = mix(sum, r.read_var::<u16>(width)?.into());
    }
    Ok(sum)
}

fn read_unary60<E: Endianness>(data: &[u8], count: u64) -> io::Result<u64> {
    let mut r = BitReader::<_, E>::new(data);
    let mut sum = 0;
    for _ in 0..count {
        sum = mix(sum, r.read_unary::<1>()?.into());
    }
    Ok(sum)
}

fn write_unary60<E: Endianness>(count: u64, seed: u64, out: &mut [u8]) -> io::Result<u64> {
    let len = out.len();
    let mut w = BitWriter::<_, E>::new(out);
    let mut s = seed;
    for _ in 0..count {
        s = next(s);
        w.write_unary::<1>((s >> 32) as u32 % 60)?;
    }
    w.byte_align()?;
    Ok((len - w.into_writer().len()) as u64)
}
