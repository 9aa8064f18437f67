//! The benchmark's functions of single calls over the Rust crate; README.md lists them.
//! With the feature `twin` they have the names of the port's functions.
use bitstream_io::huffman::{FromBits, ToBits};
use bitstream_io::{
    BE, BitRead, BitReader, BitRecorder, BitWrite, BitWriter, BitsWritten, ByteRead, ByteReader, ByteWrite, ByteWriter,
    Endianness, LE, define_huffman_tree,
};
use std::io::{self, BufReader, BufWriter, Write};
use std::num::NonZero;

mod codes;

define_huffman_tree!(Codes : u8 = [[[4, 3], 2], [1, 0]]);

/// The result of a failed call.
const REFUSED: u64 = u64::MAX;

fn mix(sum: u64, value: u64) -> u64 {
    sum.wrapping_mul(31).wrapping_add(value)
}

fn next(state: u64) -> u64 {
    state.wrapping_mul(6364136223846793005).wrapping_add(1442695040888963407)
}

fn slice<'a>(data: *const u8, len: usize) -> &'a [u8] {
    // SAFETY: the caller passes a slice of that length (README.md).
    unsafe { std::slice::from_raw_parts(data, len) }
}

fn slice_mut<'a>(data: *mut u8, len: usize) -> &'a mut [u8] {
    // SAFETY: as above, and nothing else uses it during the call.
    unsafe { std::slice::from_raw_parts_mut(data, len) }
}

/// Runs `$body` in the order of bits that `$order` names.
macro_rules! in_order {
    ($order:expr, $E:ident => $body:expr) => {
        if $order == 0 {
            type $E = BE;
            $body.unwrap_or(REFUSED)
        } else {
            type $E = LE;
            $body.unwrap_or(REFUSED)
        }
    };
}

macro_rules! exports {
    ($($orig:literal $bench:literal fn $name:ident($($arg:ident: $t:ty),*) $body:block)*) => {$(
        #[cfg_attr(feature = "twin", unsafe(export_name = $bench))]
        #[cfg_attr(not(feature = "twin"), unsafe(export_name = $orig))]
        pub extern "C" fn $name($($arg: $t),*) -> u64 $body
    )*};
}

exports! {
    "orig_read_bits" "bench_read_bits"
    fn read_bits(order: u32, data: *const u8, len: usize, count: u64) {
        in_order!(order, E => bits_in::<E>(slice(data, len), count))
    }
    "orig_read_unsigned" "bench_read_unsigned"
    fn read_unsigned(order: u32, width: u32, data: *const u8, len: usize, count: u64) {
        in_order!(order, E => unsigned_in::<E>(width, slice(data, len), count))
    }
    "orig_read_signed" "bench_read_signed"
    fn read_signed(order: u32, width: u32, data: *const u8, len: usize, count: u64) {
        in_order!(order, E => signed_in::<E>(width, slice(data, len), count))
    }
    "orig_read_bytes" "bench_read_bytes"
    fn read_bytes(order: u32, skip: u32, data: *const u8, len: usize, out: *mut u8, out_len: usize, count: u64) {
        in_order!(order, E => bytes_in::<E>(skip, slice(data, len), slice_mut(out, out_len), count))
    }
    "orig_read_unary" "bench_read_unary"
    fn read_unary(order: u32, stop: u32, data: *const u8, len: usize, count: u64) {
        in_order!(order, E => unary_in::<E>(stop, slice(data, len), count))
    }
    "orig_read_vbr" "bench_read_vbr"
    fn read_vbr(order: u32, field: u32, data: *const u8, len: usize, count: u64) {
        in_order!(order, E => vbr_in::<E>(field, slice(data, len), count))
    }
    "orig_read_flac_header" "bench_read_flac_header"
    fn read_flac_header(data: *const u8, len: usize, count: u64) {
        flac_in(slice(data, len), count).unwrap_or(REFUSED)
    }
    "orig_skip" "bench_skip"
    fn skip(order: u32, step: u32, data: *const u8, len: usize, count: u64) {
        in_order!(order, E => skip_in::<E>(step, slice(data, len), count))
    }
    "orig_write_bits" "bench_write_bits"
    fn write_bits(order: u32, count: u64, seed: u64, out: *mut u8, out_len: usize) {
        in_order!(order, E => bits_out::<E>(count, seed, slice_mut(out, out_len)))
    }
    "orig_write_unsigned" "bench_write_unsigned"
    fn write_unsigned(order: u32, width: u32, count: u64, seed: u64, out: *mut u8, out_len: usize) {
        in_order!(order, E => unsigned_out::<E>(width, count, seed, slice_mut(out, out_len)))
    }
    "orig_write_signed" "bench_write_signed"
    fn write_signed(order: u32, width: u32, count: u64, seed: u64, out: *mut u8, out_len: usize) {
        in_order!(order, E => signed_out::<E>(width, count, seed, slice_mut(out, out_len)))
    }
    "orig_write_bytes" "bench_write_bytes"
    fn write_bytes(order: u32, skip: u32, data: *const u8, len: usize, count: u64, out: *mut u8, out_len: usize) {
        in_order!(order, E => bytes_out::<E>(skip, slice(data, len), count, slice_mut(out, out_len)))
    }
    "orig_write_unary" "bench_write_unary"
    fn write_unary(order: u32, stop: u32, limit: u32, count: u64, seed: u64, out: *mut u8, out_len: usize) {
        in_order!(order, E => unary_out::<E>(stop, limit, count, seed, slice_mut(out, out_len)))
    }
    "orig_write_vbr" "bench_write_vbr"
    fn write_vbr(order: u32, field: u32, bits: u32, count: u64, seed: u64, out: *mut u8, out_len: usize) {
        in_order!(order, E => vbr_out::<E>(field, bits, count, seed, slice_mut(out, out_len)))
    }
    "orig_write_flac_header" "bench_write_flac_header"
    fn write_flac_header(count: u64, seed: u64, out: *mut u8, out_len: usize) {
        flac_out(count, seed, slice_mut(out, out_len)).unwrap_or(REFUSED)
    }
    "orig_read_prefix" "bench_read_prefix"
    fn read_prefix(order: u32, data: *const u8, len: usize, count: u64) {
        in_order!(order, E => prefix_in::<E>(slice(data, len), count))
    }
    "orig_read_code" "bench_read_code"
    fn read_code(order: u32, code: u32, data: *const u8, len: usize, count: u64) {
        in_order!(order, E => code_in::<E>(code, slice(data, len), count))
    }
    "orig_write_code" "bench_write_code"
    fn write_code(order: u32, code: u32, data: *const u8, len: usize, count: u64, out: *mut u8, out_len: usize) {
        in_order!(order, E => code_out::<E>(code, &slice(data, len)[..count as usize], slice_mut(out, out_len)))
    }
    "orig_write_indexed" "bench_write_indexed"
    fn write_indexed(order: u32, code: u32, data: *const u8, len: usize, count: u64, out: *mut u8, out_len: usize) {
        in_order!(order, E => code_out::<E>(code, &slice(data, len)[..count as usize], slice_mut(out, out_len)))
    }
    "orig_write_prefix" "bench_write_prefix"
    fn write_prefix(order: u32, count: u64, seed: u64, out: *mut u8, out_len: usize) {
        in_order!(order, E => prefix_out::<E>(count, seed, slice_mut(out, out_len)))
    }
    "orig_read_buffered" "bench_read_buffered"
    fn read_buffered(order: u32, data: *const u8, len: usize, count: u64) {
        in_order!(order, E => buffered_in::<E>(slice(data, len), count))
    }
    "orig_write_buffered" "bench_write_buffered"
    fn write_buffered(order: u32, count: u64, seed: u64, out: *mut u8, out_len: usize) {
        in_order!(order, E => buffered_out::<E>(count, seed, slice_mut(out, out_len)))
    }
    "orig_read_fields" "bench_read_fields"
    fn read_fields(order: u32, data: *const u8, len: usize, count: u64) {
        in_order!(order, E => fields_in::<E>(slice(data, len), count))
    }
    "orig_read_array" "bench_read_array"
    fn read_array(order: u32, data: *const u8, len: usize, count: u64) {
        in_order!(order, E => array_in::<E>(slice(data, len), count))
    }
    "orig_read_value" "bench_read_value"
    fn read_value(order: u32, data: *const u8, len: usize, count: u64) {
        in_order!(order, E => value_in::<E>(slice(data, len), count))
    }
    "orig_read_vec" "bench_read_vec"
    fn read_vec(order: u32, skip: u32, bytes: usize, data: *const u8, len: usize, count: u64) {
        in_order!(order, E => vec_in::<E>(skip, bytes, slice(data, len), count))
    }
    "orig_write_fields" "bench_write_fields"
    fn write_fields(order: u32, count: u64, seed: u64, out: *mut u8, out_len: usize) {
        in_order!(order, E => fields_out::<E>(count, seed, slice_mut(out, out_len)))
    }
    "orig_write_array" "bench_write_array"
    fn write_array(order: u32, count: u64, seed: u64, out: *mut u8, out_len: usize) {
        in_order!(order, E => array_out::<E>(count, seed, slice_mut(out, out_len)))
    }
    "orig_write_value" "bench_write_value"
    fn write_value(order: u32, count: u64, seed: u64, out: *mut u8, out_len: usize) {
        in_order!(order, E => value_out::<E>(count, seed, slice_mut(out, out_len)))
    }
    "orig_count" "bench_count"
    fn count(count: u64, seed: u64) {
        counted(count, seed).unwrap_or(REFUSED)
    }
    "orig_record" "bench_record"
    fn record(order: u32, count: u64, seed: u64, out: *mut u8, out_len: usize) {
        in_order!(order, E => recorded::<E>(count, seed, slice_mut(out, out_len)))
    }
}

fn bits_in<E: Endianness>(data: &[u8], count: u64) -> io::Result<u64> {
    let mut r = BitReader::<_, E>::new(data);
    let mut sum = 0;
    for _ in 0..count {
        sum = mix(sum, u64::from(r.read_bit()?));
    }
    Ok(sum)
}

fn unsigned_in<E: Endianness>(width: u32, data: &[u8], count: u64) -> io::Result<u64> {
    let mut r = BitReader::<_, E>::new(data);
    let mut sum = 0;
    for _ in 0..count {
        sum = if width <= 64 {
            mix(sum, r.read_unsigned_var::<u64>(width)?)
        } else {
            let value = r.read_unsigned_var::<u128>(width)?;
            mix(mix(sum, value as u64), (value >> 64) as u64)
        };
    }
    Ok(sum)
}

fn signed_in<E: Endianness>(width: u32, data: &[u8], count: u64) -> io::Result<u64> {
    let mut r = BitReader::<_, E>::new(data);
    let mut sum = 0;
    for _ in 0..count {
        sum = mix(sum, r.read_signed_var::<i64>(width)? as u64);
    }
    Ok(sum)
}

fn bytes_in<E: Endianness>(skip: u32, data: &[u8], out: &mut [u8], count: u64) -> io::Result<u64> {
    let mut r = BitReader::<_, E>::new(data);
    r.skip(skip)?;
    let mut sum = 0;
    for _ in 0..count {
        r.read_bytes(out)?;
        sum = mix(mix(sum, u64::from(out[0])), u64::from(out[out.len() - 1]));
    }
    Ok(sum)
}

fn unary_in<E: Endianness>(stop: u32, data: &[u8], count: u64) -> io::Result<u64> {
    let mut r = BitReader::<_, E>::new(data);
    let mut sum = 0;
    for _ in 0..count {
        let k = if stop == 0 { r.read_unary::<0>()? } else { r.read_unary::<1>()? };
        sum = mix(sum, u64::from(k));
    }
    Ok(sum)
}

fn vbr_in<E: Endianness>(field: u32, data: &[u8], count: u64) -> io::Result<u64> {
    let mut r = BitReader::<_, E>::new(data);
    let mut sum = 0;
    for _ in 0..count {
        let v = if field == 4 { r.read_unsigned_vbr::<4, u64>()? } else { r.read_unsigned_vbr::<8, u64>()? };
        sum = mix(sum, v);
    }
    Ok(sum)
}

fn flac_in(data: &[u8], count: u64) -> io::Result<u64> {
    let mut r = BitReader::<_, BE>::new(data);
    let mut sum = 0;
    for _ in 0..count {
        sum = mix(sum, u64::from(r.read_to::<u16>()?));
        sum = mix(sum, u64::from(r.read_to::<u16>()?));
        sum = mix(sum, u64::from(r.read::<24, u32>()?));
        sum = mix(sum, u64::from(r.read::<24, u32>()?));
        sum = mix(sum, u64::from(r.read::<20, u32>()?));
        sum = mix(sum, u64::from(r.read::<3, NonZero<u8>>()?.get()));
        sum = mix(sum, u64::from(r.read::<5, NonZero<u8>>()?.get()));
        sum = mix(sum, r.read::<36, u64>()?);
        let mut md5 = [0; 16];
        r.read_bytes(&mut md5)?;
        sum = mix(mix(sum, u64::from(md5[0])), u64::from(md5[15]));
    }
    Ok(sum)
}

fn skip_in<E: Endianness>(step: u32, data: &[u8], count: u64) -> io::Result<u64> {
    let mut r = BitReader::<_, E>::new(data);
    let mut sum = 0;
    for _ in 0..count {
        r.skip(step)?;
        sum = mix(sum, u64::from(r.read_bit()?));
    }
    Ok(sum)
}

/// Aligns to a byte, and returns the number of bytes written.
fn written<E: Endianness>(mut w: BitWriter<&mut [u8], E>, out_len: usize) -> io::Result<u64> {
    w.byte_align()?;
    Ok((out_len - w.into_writer().len()) as u64)
}

fn bits_out<E: Endianness>(count: u64, seed: u64, out: &mut [u8]) -> io::Result<u64> {
    let len = out.len();
    let mut w = BitWriter::<_, E>::new(out);
    let mut state = seed;
    for _ in 0..count {
        state = next(state);
        w.write_bit(state >> 63 == 1)?;
    }
    written(w, len)
}

fn unsigned_out<E: Endianness>(width: u32, count: u64, seed: u64, out: &mut [u8]) -> io::Result<u64> {
    let len = out.len();
    let mut w = BitWriter::<_, E>::new(out);
    let mut state = seed;
    for _ in 0..count {
        state = next(state);
        if width <= 64 {
            w.write_unsigned_var::<u64>(width, state >> (64 - width))?;
        } else {
            w.write_unsigned_var::<u128>(width, u128::from(state) << (width - 64))?;
        }
    }
    written(w, len)
}

fn signed_out<E: Endianness>(width: u32, count: u64, seed: u64, out: &mut [u8]) -> io::Result<u64> {
    let len = out.len();
    let mut w = BitWriter::<_, E>::new(out);
    let mut state = seed;
    for _ in 0..count {
        state = next(state);
        w.write_signed_var::<i64>(width, state as i64 >> (64 - width))?;
    }
    written(w, len)
}

fn bytes_out<E: Endianness>(skip: u32, data: &[u8], count: u64, out: &mut [u8]) -> io::Result<u64> {
    let len = out.len();
    let mut w = BitWriter::<_, E>::new(out);
    w.pad(skip)?;
    for _ in 0..count {
        w.write_bytes(data)?;
    }
    written(w, len)
}

fn unary_out<E: Endianness>(stop: u32, limit: u32, count: u64, seed: u64, out: &mut [u8]) -> io::Result<u64> {
    let len = out.len();
    let mut w = BitWriter::<_, E>::new(out);
    let mut state = seed;
    for _ in 0..count {
        state = next(state);
        let k = (state >> 32) as u32 % limit;
        if stop == 0 {
            w.write_unary::<0>(k)?;
        } else {
            w.write_unary::<1>(k)?;
        }
    }
    written(w, len)
}

fn vbr_out<E: Endianness>(field: u32, bits: u32, count: u64, seed: u64, out: &mut [u8]) -> io::Result<u64> {
    let len = out.len();
    let mut w = BitWriter::<_, E>::new(out);
    let mut state = seed;
    for _ in 0..count {
        state = next(state);
        let v = state >> (64 - bits);
        if field == 4 {
            w.write_unsigned_vbr::<4, u64>(v)?;
        } else {
            w.write_unsigned_vbr::<8, u64>(v)?;
        }
    }
    written(w, len)
}

fn flac_out(count: u64, seed: u64, out: &mut [u8]) -> io::Result<u64> {
    let len = out.len();
    let mut w = BitWriter::<_, BE>::new(out);
    let mut state = seed;
    let md5 = [0x5Au8; 16];
    for _ in 0..count {
        state = next(state);
        w.write_from::<u16>((state >> 48) as u16)?;
        w.write_from::<u16>((state >> 32) as u16)?;
        w.write::<24, u32>((state >> 40) as u32)?;
        w.write::<24, u32>((state >> 30) as u32 & 0xFF_FFFF)?;
        w.write::<20, u32>((state >> 44) as u32)?;
        w.write::<3, NonZero<u8>>(NonZero::new((state >> 61) as u8 + 1).unwrap())?;
        w.write::<5, NonZero<u8>>(NonZero::new((state >> 59) as u8 + 1).unwrap())?;
        w.write::<36, u64>(state >> 28)?;
        w.write_bytes(&md5)?;
    }
    written(w, len)
}

fn buffered_in<E: Endianness>(data: &[u8], count: u64) -> io::Result<u64> {
    let mut r = BitReader::<_, E>::new(BufReader::new(data));
    let mut sum = 0;
    for _ in 0..count {
        sum = mix(sum, r.read_var::<u16>(13)?.into());
    }
    Ok(sum)
}

fn buffered_out<E: Endianness>(count: u64, seed: u64, out: &mut [u8]) -> io::Result<u64> {
    let mut w = BitWriter::<_, E>::new(BufWriter::new(out));
    let mut s = seed;
    for _ in 0..count {
        s = next(s);
        w.write_var::<u16>(13, (s >> 51) as u16)?;
    }
    w.byte_align()?;
    w.into_writer().flush()?;
    Ok((13 * count).div_ceil(8))
}

fn fields_in<E: Endianness>(data: &[u8], count: u64) -> io::Result<u64> {
    let mut r = BitReader::<_, E>::new(data);
    let mut sum = 0;
    for _ in 0..count {
        sum = mix(sum, u64::from(r.read::<13, u16>()?));
        sum = mix(sum, u64::from(r.read::<3, u8>()?));
        sum = mix(sum, r.read::<7, i8>()? as i64 as u64);
        sum = mix(sum, u64::from(r.read::<1, bool>()?));
        sum = mix(sum, r.read::<40, u64>()?);
    }
    Ok(sum)
}

fn fields_out<E: Endianness>(count: u64, seed: u64, out: &mut [u8]) -> io::Result<u64> {
    let len = out.len();
    let mut w = BitWriter::<_, E>::new(out);
    let mut state = seed;
    for _ in 0..count {
        state = next(state);
        w.write::<13, u16>((state >> 51) as u16)?;
        w.write::<3, u8>((state >> 61) as u8)?;
        w.write::<7, i8>((state as i64 >> 57) as i8)?;
        w.write::<1, bool>(state >> 63 == 1)?;
        w.write::<40, u64>(state >> 24)?;
    }
    written(w, len)
}

fn array_in<E: Endianness>(data: &[u8], count: u64) -> io::Result<u64> {
    let mut r = BitReader::<_, E>::new(data);
    let mut sum = 0;
    for _ in 0..count {
        for value in r.read::<12, [u16; 8]>()? {
            sum = mix(sum, u64::from(value));
        }
    }
    Ok(sum)
}

fn array_out<E: Endianness>(count: u64, seed: u64, out: &mut [u8]) -> io::Result<u64> {
    let len = out.len();
    let mut w = BitWriter::<_, E>::new(out);
    let mut state = seed;
    for _ in 0..count {
        state = next(state);
        w.write::<12, [u16; 8]>([(state >> 52) as u16; 8])?;
    }
    written(w, len)
}

fn value_in<E: Endianness>(data: &[u8], count: u64) -> io::Result<u64> {
    let mut r = ByteReader::<_, E>::new(data);
    let mut sum = 0;
    for _ in 0..count {
        sum = mix(sum, u64::from(r.read::<u32>()?));
        sum = mix(sum, u64::from(r.read::<u16>()?));
    }
    Ok(sum)
}

fn value_out<E: Endianness>(count: u64, seed: u64, out: &mut [u8]) -> io::Result<u64> {
    let len = out.len();
    let mut w = ByteWriter::<_, E>::new(out);
    let mut state = seed;
    for _ in 0..count {
        state = next(state);
        w.write::<u32>((state >> 32) as u32)?;
        w.write::<u16>((state >> 48) as u16)?;
    }
    Ok((len - w.into_writer().len()) as u64)
}

fn vec_in<E: Endianness>(skip: u32, bytes: usize, data: &[u8], count: u64) -> io::Result<u64> {
    let mut r = BitReader::<_, E>::new(data);
    let mut sum = 0;
    r.skip(skip)?;
    for _ in 0..count {
        let read = r.read_to_vec(bytes)?;
        sum = mix(mix(sum, u64::from(read[0])), u64::from(read[bytes - 1]));
    }
    Ok(sum)
}

fn prefix_in<E: Endianness>(data: &[u8], count: u64) -> io::Result<u64> {
    let mut r = BitReader::<_, E>::new(data);
    let mut sum = 0;
    for _ in 0..count {
        sum = mix(sum, u64::from(r.read_huffman::<Codes>()?));
    }
    Ok(sum)
}

fn symbols_in<C: FromBits<Symbol = u16>, E: Endianness>(data: &[u8], count: u64) -> io::Result<u64> {
    let mut r = BitReader::<_, E>::new(data);
    let mut sum = 0;
    for _ in 0..count {
        sum = mix(sum, u64::from(r.read_huffman::<C>()?));
    }
    Ok(sum)
}

fn code_in<E: Endianness>(code: u32, data: &[u8], count: u64) -> io::Result<u64> {
    match code {
        0 => symbols_in::<codes::Flat8, E>(data, count),
        1 => symbols_in::<codes::Skewed8, E>(data, count),
        2 => symbols_in::<codes::Flat24, E>(data, count),
        3 => symbols_in::<codes::Skewed24, E>(data, count),
        4 => symbols_in::<codes::Flat288, E>(data, count),
        _ => symbols_in::<codes::Skewed288, E>(data, count),
    }
}

fn symbols_out<C: ToBits<Symbol = u16>, E: Endianness>(symbols: &[u8], out: &mut [u8]) -> io::Result<u64> {
    let out_len = out.len();
    let mut w = BitWriter::<_, E>::new(out);
    for symbol in symbols {
        w.write_huffman::<C>(u16::from(*symbol))?;
    }
    written(w, out_len)
}

fn code_out<E: Endianness>(code: u32, symbols: &[u8], out: &mut [u8]) -> io::Result<u64> {
    match code {
        0 => symbols_out::<codes::Flat8, E>(symbols, out),
        1 => symbols_out::<codes::Skewed8, E>(symbols, out),
        2 => symbols_out::<codes::Flat24, E>(symbols, out),
        _ => symbols_out::<codes::Skewed24, E>(symbols, out),
    }
}

fn prefix_out<E: Endianness>(count: u64, seed: u64, out: &mut [u8]) -> io::Result<u64> {
    let len = out.len();
    let mut w = BitWriter::<_, E>::new(out);
    let mut state = seed;
    for _ in 0..count {
        state = next(state);
        w.write_huffman::<Codes>(((state >> 32) % 5) as u8)?;
    }
    written(w, len)
}

fn counted(count: u64, seed: u64) -> io::Result<u64> {
    let mut w = BitsWritten::<u64>::new();
    let mut state = seed;
    for _ in 0..count {
        state = next(state);
        w.write_unsigned_var::<u32>(13, (state >> 51) as u32)?;
        w.write_unary::<1>((state >> 32) as u32 % 60)?;
        w.write_unsigned_vbr::<4, u64>(state >> 50)?;
        w.write_bytes(&[0x5A; 16])?;
    }
    Ok(w.written())
}

fn recorded<E: Endianness>(count: u64, seed: u64, out: &mut [u8]) -> io::Result<u64> {
    let len = out.len();
    let mut record = BitRecorder::<u64, E>::new();
    let mut state = seed;
    for _ in 0..count {
        state = next(state);
        record.write_unsigned_var::<u32>(13, (state >> 51) as u32)?;
    }
    let mut w = BitWriter::<_, E>::new(out);
    w.pad(3)?;
    record.playback(&mut w)?;
    written(w, len)
}
