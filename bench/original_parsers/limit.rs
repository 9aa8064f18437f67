//! The limit: the same work over bytes in memory without any crate, in safe Rust and with the same results.
//!
//! There is a cursor (a position in bits, and one load of 8 bytes a read), a buffer of 64 bits that 8 bytes refill, whole
//! records that are tested for the end once, and a writer that stores 8 bytes a number. The writer overwrites up to
//! 7 bytes after what it has written.
use super::{REFUSED, WORDS, mix, next, slice, slice_mut};
use std::marker::PhantomData;

/// A failed call. The kind of its error does not matter here.
struct Refused;

type Done<T> = Result<T, Refused>;

trait Order {
    const BE: bool;

    /// Returns the bits of 8 bytes: the first bit is bit 63 in BE, and bit 0 in LE.
    #[inline(always)]
    fn bits(bytes: [u8; 8]) -> u64 {
        if Self::BE { u64::from_be_bytes(bytes) } else { u64::from_le_bytes(bytes) }
    }

    /// Drops the first n bits, 0 to 63.
    #[inline(always)]
    fn behind(bits: u64, n: u32) -> u64 {
        if Self::BE { bits << n } else { bits >> n }
    }

    /// Returns the number in the first n bits, 1 to 64.
    #[inline(always)]
    fn front(bits: u64, n: u32) -> u64 {
        if Self::BE { bits >> (64 - n) } else { bits & (u64::MAX >> (64 - n)) }
    }

    /// Counts the zeros before the first 1.
    #[inline(always)]
    fn zeros(bits: u64) -> u32 {
        if Self::BE { bits.leading_zeros() } else { bits.trailing_zeros() }
    }
}

struct Be;
struct Le;

impl Order for Be {
    const BE: bool = true;
}

impl Order for Le {
    const BE: bool = false;
}

trait Reader<'a> {
    type Order: Order;

    fn over(data: &'a [u8]) -> Self;

    /// Reads n bits, 0 to 56.
    fn read(&mut self, n: u32) -> Done<u64>;

    /// Counts the zeros up to the next 1.
    fn unary(&mut self) -> Done<u32>;

    /// Reads a symbol by a table of the length and the symbol for each 8 bits.
    fn symbol(&mut self, table: &[(u8, u8); 256]) -> Done<u8>;

    #[inline(always)]
    fn bit(&mut self) -> Done<u64> {
        self.read(1)
    }
}

/// A cursor: a position in bits.
struct Cursor<'a, O> {
    data: &'a [u8],
    at: usize,
    order: PhantomData<O>,
}

impl<O: Order> Cursor<'_, O> {
    /// Loads at least 57 bits from the position on, or all that are left, followed by zeros.
    #[inline(always)]
    fn window(&self) -> u64 {
        let byte = self.at / 8;
        let bytes = match self.data.get(byte..).and_then(|rest| rest.first_chunk::<8>()) {
            Some(bytes) => *bytes,
            None => self.last(byte),
        };
        O::behind(O::bits(bytes), (self.at % 8) as u32)
    }

    #[cold]
    #[inline(never)]
    fn last(&self, byte: usize) -> [u8; 8] {
        let mut bytes = [0u8; 8];
        let rest = self.data.get(byte..).unwrap_or(&[]);
        let n = rest.len().min(8);
        bytes[..n].copy_from_slice(&rest[..n]);
        bytes
    }

    /// Moves to the position, unless it is after the end.
    #[inline(always)]
    fn go(&mut self, place: usize) -> Done<()> {
        if place > self.data.len() * 8 {
            return Err(Refused);
        }
        self.at = place;
        Ok(())
    }
}

impl<'a, O: Order> Reader<'a> for Cursor<'a, O> {
    type Order = O;

    #[inline(always)]
    fn over(data: &'a [u8]) -> Self {
        Cursor { data, at: 0, order: PhantomData }
    }

    #[inline(always)]
    fn read(&mut self, n: u32) -> Done<u64> {
        let window = self.window();
        if n > 56 {
            return Err(Refused);
        }
        self.go(self.at + n as usize)?;
        Ok(if n == 0 { 0 } else { O::front(window, n) })
    }

    #[inline(always)]
    fn bit(&mut self) -> Done<u64> {
        let (at, byte) = (self.at % 8, *self.data.get(self.at / 8).ok_or(Refused)?);
        self.at += 1;
        Ok(u64::from(if O::BE { byte >> (7 - at) & 1 } else { byte >> at & 1 }))
    }

    #[inline(always)]
    fn unary(&mut self) -> Done<u32> {
        let mut before = 0;
        loop {
            let window = self.window();
            if window != 0 {
                let zeros = O::zeros(window);
                self.go(self.at + zeros as usize + 1)?;
                return Ok(before + zeros);
            }
            let held = 64 - self.at % 8;
            self.go(self.at + held)?;
            before += held as u32;
        }
    }

    #[inline(always)]
    fn symbol(&mut self, table: &[(u8, u8); 256]) -> Done<u8> {
        let (n, symbol) = table[O::front(self.window(), 8) as usize];
        self.go(self.at + usize::from(n))?;
        Ok(symbol)
    }
}

/// A buffer of 64 bits. After the valid bits it may hold more of the same bytes.
struct Buffered<'a, O> {
    data: &'a [u8],
    buffer: u64,
    bits: u32,
    order: PhantomData<O>,
}

impl<O: Order> Buffered<'_, O> {
    #[inline(always)]
    fn fill(&mut self) {
        if let Some(bytes) = self.data.first_chunk::<8>() {
            let bits = O::bits(*bytes);
            self.buffer |= if O::BE { bits >> self.bits } else { bits << self.bits };
            self.data = &self.data[(63 - self.bits) as usize / 8..];
            self.bits |= 56;
        } else {
            self.fill_last();
        }
    }

    #[cold]
    #[inline(never)]
    fn fill_last(&mut self) {
        while self.bits <= 55
            && let Some((byte, rest)) = self.data.split_first()
        {
            self.buffer |= u64::from(*byte) << if O::BE { 56 - self.bits } else { self.bits };
            self.data = rest;
            self.bits += 8;
        }
    }
}

impl<'a, O: Order> Reader<'a> for Buffered<'a, O> {
    type Order = O;

    #[inline(always)]
    fn over(data: &'a [u8]) -> Self {
        Buffered { data, buffer: 0, bits: 0, order: PhantomData }
    }

    #[inline(always)]
    fn read(&mut self, n: u32) -> Done<u64> {
        if n > 56 {
            return Err(Refused);
        }
        if self.bits < n {
            self.fill();
            if self.bits < n {
                return Err(Refused);
            }
        }
        let value = if n == 0 { 0 } else { O::front(self.buffer, n) };
        self.buffer = O::behind(self.buffer, n);
        self.bits -= n;
        Ok(value)
    }

    #[inline(always)]
    fn unary(&mut self) -> Done<u32> {
        let mut before = 0;
        loop {
            if self.bits < 40 {
                self.fill();
            }
            if self.bits == 0 {
                return Err(Refused);
            }
            let zeros = O::zeros(self.buffer);
            if zeros < self.bits {
                self.buffer = O::behind(O::behind(self.buffer, zeros), 1);
                self.bits -= zeros + 1;
                return Ok(before + zeros);
            }
            before += self.bits;
            (self.buffer, self.bits) = (0, 0);
        }
    }

    #[inline(always)]
    fn symbol(&mut self, table: &[(u8, u8); 256]) -> Done<u8> {
        if self.bits < 8 {
            self.fill();
        }
        let (n, symbol) = table[O::front(self.buffer, 8) as usize];
        let n = u32::from(n);
        if self.bits < n {
            return Err(Refused);
        }
        self.buffer = O::behind(self.buffer, n);
        self.bits -= n;
        Ok(symbol)
    }
}

/// The bytes of one record. If the widths are constant, the compiler knows each position.
struct Record<'a, O, const N: usize> {
    bytes: &'a [u8; N],
    at: usize,
    order: PhantomData<O>,
}

impl<'a, O: Order, const N: usize> Reader<'a> for Record<'a, O, N> {
    type Order = O;

    fn over(_data: &'a [u8]) -> Self {
        unreachable!("a record is made of its bytes")
    }

    #[inline(always)]
    fn read(&mut self, n: u32) -> Done<u64> {
        let mut eight = [0u8; 8];
        let from = (self.at / 8).min(N.saturating_sub(8));
        eight[..N.min(8)].copy_from_slice(&self.bytes[from..from + N.min(8)]);
        let value = O::front(O::behind(O::bits(eight), (self.at - 8 * from) as u32), n);
        self.at += n as usize;
        Ok(value)
    }

    fn unary(&mut self) -> Done<u32> {
        Err(Refused)
    }

    fn symbol(&mut self, _table: &[(u8, u8); 256]) -> Done<u8> {
        Err(Refused)
    }
}

/// Reads items one after another.
#[inline(always)]
fn items<'a, R: Reader<'a>>(data: &'a [u8], count: u64, item: impl Fn(&mut R, u64) -> Done<u64>) -> Done<u64> {
    let mut reader = R::over(data);
    let mut sum = 0;
    for _ in 0..count {
        sum = item(&mut reader, sum)?;
    }
    Ok(sum)
}

/// Reads records of N bytes, each tested for the end once. `item` also returns how many bytes to skip after it.
#[inline(always)]
fn records<'a, O: Order + 'a, const N: usize>(
    data: &'a [u8],
    count: u64,
    item: impl Fn(&mut Record<'a, O, N>, u64) -> Done<(u64, usize)>,
) -> Done<u64> {
    let mut data = data;
    let mut sum = 0;
    for _ in 0..count {
        let (record, rest) = data.split_first_chunk::<N>().ok_or(Refused)?;
        let (mixed, skipped) = item(&mut Record { bytes: record, at: 0, order: PhantomData }, sum)?;
        sum = mixed;
        data = rest.get(skipped..).ok_or(Refused)?;
    }
    Ok(sum)
}

#[inline(always)]
fn mix_all<const N: usize>(sum: u64, values: [u64; N]) -> u64 {
    values.into_iter().fold(sum, mix)
}

#[inline(always)]
fn protocol<'a, R: Reader<'a>>(r: &mut R, sum: u64) -> Done<u64> {
    let first = [
        r.read(4)?,
        r.read(4)?,
        r.read(6)?,
        r.read(2)?,
        r.read(16)?,
        r.read(16)?,
        r.bit()?,
        r.bit()?,
        r.bit()?,
        r.read(13)?,
    ];
    let second = [
        r.read(8)?,
        r.read(8)?,
        r.read(16)?,
        r.read(32)?,
        r.read(32)?,
        r.read(16)?,
        r.read(16)?,
        r.read(32)?,
        r.read(4)?,
        r.read(12)?,
    ];
    Ok(mix_all(mix_all(sum, first), second))
}

#[inline(always)]
fn packed<'a, R: Reader<'a>>(r: &mut R, sum: u64) -> Done<u64> {
    let first = [
        r.read(3)?,
        r.read(5)?,
        r.bit()?,
        r.read(11)?,
        r.read(7)?,
        r.bit()?,
        r.bit()?,
        r.read(2)?,
        r.read(9)?,
        r.read(17)?,
    ];
    let second = [
        r.read(33)?,
        r.read(6)?,
        r.bit()?,
        r.bit()?,
        r.read(4)?,
        r.read(10)?,
        r.read(23)?,
        r.read(5)?,
        r.bit()?,
        r.read(3)?,
    ];
    Ok(mix_all(mix_all(sum, first), second))
}

#[inline(always)]
fn adts<'a, R: Reader<'a>>(r: &mut R, sum: u64) -> Done<(u64, usize)> {
    if r.read(12)? != 0xFFF {
        return Err(Refused);
    }
    let mpeg2 = r.bit()?;
    if r.read(2)? != 0 {
        return Err(Refused);
    }
    let first = [mpeg2, r.bit()?, r.read(2)?, r.read(4)?, r.bit()?, r.read(3)?, r.bit()?, r.bit()?, r.bit()?, r.bit()?];
    let (length, last) = (r.read(13)?, [r.read(11)?, r.read(2)?]);
    Ok((mix_all(mix(mix_all(sum, first), length), last), (length as usize).saturating_sub(7)))
}

#[inline(always)]
fn parse<'a, R: Reader<'a>>(r: &mut R, sum: u64) -> Done<u64> {
    Ok(mix_all(sum, [r.read(13)?, r.read(3)?, r.bit()?, r.read(15)?]))
}

#[inline(always)]
fn flags<'a, R: Reader<'a>>(r: &mut R, sum: u64) -> Done<u64> {
    Ok(mix_all(sum, [r.bit()?, r.bit()?, r.bit()?, r.bit()?, r.bit()?, r.bit()?, r.bit()?, r.bit()?]))
}

#[inline(always)]
fn pcm16<'a, R: Reader<'a>>(r: &mut R, sum: u64) -> Done<u64> {
    Ok(mix(sum, r.read(16)? as i16 as u64))
}

#[inline(always)]
fn ue<'a, R: Reader<'a>>(r: &mut R) -> Done<u64> {
    let zeros = r.unary()?;
    if zeros > 31 {
        return Err(Refused);
    }
    Ok((1 << zeros) - 1 + r.read(zeros)?)
}

#[inline(always)]
fn golomb<'a, R: Reader<'a>>(r: &mut R, sum: u64) -> Done<u64> {
    let mut sum = mix_all(sum, [r.read(8)?, r.read(8)?, r.read(8)?]);
    for _ in 0..6 {
        sum = mix(sum, ue(r)?);
    }
    sum = mix_all(sum, [r.bit()?, ue(r)?, ue(r)?, r.bit()?, r.bit()?]);
    let place = ue(r)?;
    Ok(mix(sum, if place % 2 == 1 { place / 2 + 1 } else { (place / 2).wrapping_neg() }))
}

/// Reads numbers of a width that the compiler does not know.
#[inline(always)]
fn var13<'a, R: Reader<'a>>(data: &'a [u8], count: u64) -> Done<u64> {
    let width = 13 + (count >> 60) as u32;
    items::<R>(data, count, |r, sum| Ok(mix(sum, r.read(width)?)))
}

#[inline(always)]
fn rice<'a, R: Reader<'a>>(data: &'a [u8], count: u64) -> Done<u64> {
    let width = 5 + (count >> 60) as u32;
    items::<R>(data, count, |r, sum| Ok(mix(sum, u64::from(r.unary()?) << width | r.read(width)?)))
}

#[inline(always)]
fn symbols<'a, R: Reader<'a>>(data: &'a [u8], count: u64) -> Done<u64> {
    let mut table = [(0u8, 0u8); 256];
    for (symbol, _) in WORDS {
        let (n, word) = word::<R::Order>(symbol);
        for free in 0..1u32 << (8 - n) {
            let bits = if R::Order::BE { word << (8 - n) | free } else { free << n | word };
            table[bits as usize] = (n as u8, symbol);
        }
    }
    items::<R>(data, count, |r, sum| Ok(mix(sum, r.symbol(&table)?.into())))
}

/// Returns the length and the number of a symbol's code word.
fn word<O: Order>(symbol: u8) -> (u32, u32) {
    let word = WORDS[usize::from(symbol)].1;
    let bit = |place: usize| if O::BE { word.len() - 1 - place } else { place };
    let number = word.bytes().enumerate().map(|(place, digit)| u32::from(digit == b'1') << bit(place)).sum();
    (word.len() as u32, number)
}

/// A writer: a queue of fewer than 8 bits, and one store of 8 bytes a number.
struct Storing<'a, O> {
    out: &'a mut [u8],
    written: usize,
    queue: u64,
    queued: u32,
    order: PhantomData<O>,
}

impl<O: Order> Storing<'_, O> {
    /// Writes n bits, 0 to 56.
    #[inline(always)]
    fn write(&mut self, n: u32, value: u64) -> Done<()> {
        if n > 56 || value >> n != 0 {
            return Err(Refused);
        }
        let word = if !O::BE {
            self.queue | value << self.queued
        } else if n == 0 {
            self.queue
        } else {
            self.queue | value << (64 - n) >> self.queued
        };
        let total = self.queued + n;
        let bytes = total / 8;
        let eight = if O::BE { word.to_be_bytes() } else { word.to_le_bytes() };
        if let Some(room) = self.out.get_mut(self.written..).and_then(|rest| rest.first_chunk_mut::<8>()) {
            *room = eight;
        } else {
            self.last(&eight[..bytes as usize])?;
        }
        self.written += bytes as usize;
        self.queued = total % 8;
        self.queue = O::behind(word, 8 * bytes);
        Ok(())
    }

    #[cold]
    #[inline(never)]
    fn last(&mut self, bytes: &[u8]) -> Done<()> {
        let room = self.out.get_mut(self.written..self.written + bytes.len()).ok_or(Refused)?;
        room.copy_from_slice(bytes);
        Ok(())
    }

    #[inline(always)]
    fn unary(&mut self, mut value: u32) -> Done<()> {
        while value > 55 {
            self.write(55, 0)?;
            value -= 55;
        }
        self.write(value + 1, if O::BE { 1 } else { 1 << value })
    }

    #[inline(always)]
    fn ue(&mut self, value: u64) -> Done<()> {
        let more = value as u32 + 1;
        let zeros = 31 - more.leading_zeros();
        self.unary(zeros)?;
        self.write(zeros, (more - (1 << zeros)).into())
    }
}

/// Writes items, each made from a state.
#[inline(always)]
fn written<O: Order>(
    count: u64,
    seed: u64,
    out: &mut [u8],
    item: impl Fn(&mut Storing<O>, u64) -> Done<()>,
) -> Done<u64> {
    let mut writer = Storing { out, written: 0, queue: 0, queued: 0, order: PhantomData };
    let mut state = seed;
    for _ in 0..count {
        state = next(state);
        item(&mut writer, state)?;
    }
    writer.write((8 - writer.queued) % 8, 0)?;
    Ok(writer.written as u64)
}

/// Writes fields, each a number of bits of the state from a position on.
macro_rules! fields {
    ($w:ident, $s:ident, $($n:literal $from:literal),*) => {
        $($w.write($n, $s >> $from & ((1 << $n) - 1))?;)*
    };
}

#[inline(always)]
fn write_packed<O: Order>(w: &mut Storing<O>, s: u64) -> Done<()> {
    fields!(w, s, 3 61, 5 59, 1 63, 11 53, 7 57, 1 62, 1 61, 2 62, 9 55, 17 47);
    fields!(w, s, 33 31, 6 58, 1 60, 1 59, 4 60, 10 54, 23 41, 5 59, 1 58, 3 61);
    Ok(())
}

#[inline(always)]
fn write_protocol<O: Order>(w: &mut Storing<O>, s: u64) -> Done<()> {
    fields!(w, s, 4 60, 4 56, 6 50, 2 48, 16 32, 16 16, 1 63, 1 62, 1 61, 13 51);
    fields!(w, s, 8 40, 8 32, 16 24, 32 32, 32 0, 16 20, 16 28, 32 16, 4 40, 12 52);
    Ok(())
}

#[inline(always)]
fn write_golomb<O: Order>(w: &mut Storing<O>, s: u64) -> Done<()> {
    fields!(w, s, 8 56, 8 48, 8 40);
    for k in 0..6 {
        w.ue((s >> (8 * k)) % 32)?;
    }
    fields!(w, s, 1 63);
    w.ue(s >> 57)?;
    w.ue((s >> 50) % 128)?;
    fields!(w, s, 1 62, 1 61);
    w.ue((s >> 44) % 64)
}

#[inline(always)]
fn write_rice<O: Order>(count: u64, seed: u64, out: &mut [u8]) -> Done<u64> {
    let width = 5 + (count >> 60) as u32;
    written::<O>(count, seed, out, |w, s| {
        w.unary((s | 1 << 30).leading_zeros())?;
        w.write(width, (s >> 20) % 32)
    })
}

#[inline(always)]
fn write_symbols<O: Order>(count: u64, seed: u64, out: &mut [u8]) -> Done<u64> {
    let words: [(u32, u32); 32] =
        std::array::from_fn(|symbol| if symbol < 24 { word::<O>(symbol as u8) } else { (0, 0) });
    written::<O>(count, seed, out, |w, s| {
        let (n, word) = words[(((s >> 40) % 24) * ((s >> 32) % 24) / 24) as usize];
        w.write(n, word.into())
    })
}

macro_rules! reads {
    ($($export:literal $name:ident |$data:ident, $count:ident, $O:ident| $body:expr;)*) => {$(
        #[unsafe(export_name = $export)]
        pub extern "C" fn $name(order: u32, data: *const u8, len: usize, count: u64) -> u64 {
            #[inline(always)]
            fn run<$O: Order>($data: &[u8], $count: u64) -> Done<u64> {
                $body
            }
            let data = slice(data, len);
            if order == 0 { run::<Be>(data, count) } else { run::<Le>(data, count) }.unwrap_or(REFUSED)
        }
    )*};
}

macro_rules! writes {
    ($($export:literal $name:ident |$count:ident, $seed:ident, $out:ident, $O:ident| $body:expr;)*) => {$(
        #[unsafe(export_name = $export)]
        pub extern "C" fn $name(order: u32, count: u64, seed: u64, out: *mut u8, len: usize) -> u64 {
            #[inline(always)]
            fn run<$O: Order>($count: u64, $seed: u64, $out: &mut [u8]) -> Done<u64> {
                $body
            }
            let out = slice_mut(out, len);
            if order == 0 { run::<Be>(count, seed, out) } else { run::<Le>(count, seed, out) }.unwrap_or(REFUSED)
        }
    )*};
}

reads! {
    "cursor_read_golomb" cursor_golomb |d, n, O| items::<Cursor<O>>(d, n, golomb);
    "buffer_read_golomb" buffer_golomb |d, n, O| items::<Buffered<O>>(d, n, golomb);
    "cursor_read_rice" cursor_rice |d, n, O| rice::<Cursor<O>>(d, n);
    "buffer_read_rice" buffer_rice |d, n, O| rice::<Buffered<O>>(d, n);
    "cursor_read_unary60" cursor_unary60 |d, n, O| items::<Cursor<O>>(d, n, |r, sum| Ok(mix(sum, r.unary()?.into())));
    "buffer_read_unary60" buffer_unary60 |d, n, O| items::<Buffered<O>>(d, n, |r, sum| Ok(mix(sum, r.unary()?.into())));
    "cursor_read_const13" cursor_const13 |d, n, O| items::<Cursor<O>>(d, n, |r, sum| Ok(mix(sum, r.read(13)?)));
    "buffer_read_const13" buffer_const13 |d, n, O| items::<Buffered<O>>(d, n, |r, sum| Ok(mix(sum, r.read(13)?)));
    "cursor_read_var13" cursor_var13 |d, n, O| var13::<Cursor<O>>(d, n);
    "buffer_read_var13" buffer_var13 |d, n, O| var13::<Buffered<O>>(d, n);
    "cursor_read_symbols" cursor_symbols |d, n, O| symbols::<Cursor<O>>(d, n);
    "buffer_read_symbols" buffer_symbols |d, n, O| symbols::<Buffered<O>>(d, n);
    "record_read_protocol" record_protocol |d, n, O| records::<O, 30>(d, n, |r, sum| Ok((protocol(r, sum)?, 0)));
    "record_read_packed" record_packed |d, n, O| records::<O, 18>(d, n, |r, sum| Ok((packed(r, sum)?, 0)));
    "record_read_adts" record_adts |d, n, O| records::<O, 7>(d, n, adts);
    "record_read_parse" record_parse |d, n, O| records::<O, 4>(d, n, |r, sum| Ok((parse(r, sum)?, 0)));
    "record_read_flags" record_flags |d, n, O| records::<O, 1>(d, n, |r, sum| Ok((flags(r, sum)?, 0)));
    "record_read_pcm16" record_pcm16 |d, n, O| records::<O, 2>(d, n, |r, sum| Ok((pcm16(r, sum)?, 0)));
    "buffer_read_protocol" buffer_protocol |d, n, O| items::<Buffered<O>>(d, n, protocol);
    "buffer_read_packed" buffer_packed |d, n, O| items::<Buffered<O>>(d, n, packed);
    "buffer_read_parse" buffer_parse |d, n, O| items::<Buffered<O>>(d, n, parse);
    "buffer_read_flags" buffer_flags |d, n, O| items::<Buffered<O>>(d, n, flags);
    "buffer_read_pcm16" buffer_pcm16 |d, n, O| items::<Buffered<O>>(d, n, pcm16);
}

writes! {
    "store_write_golomb" store_golomb |n, seed, out, O| written::<O>(n, seed, out, write_golomb);
    "store_write_protocol" store_protocol |n, seed, out, O| written::<O>(n, seed, out, write_protocol);
    "store_write_packed" store_packed |n, seed, out, O| written::<O>(n, seed, out, write_packed);
    "store_write_rice" store_rice |n, seed, out, O| write_rice::<O>(n, seed, out);
    "store_write_const13" store_const13 |n, seed, out, O| written::<O>(n, seed, out, |w, s| w.write(13, s >> 51));
    "store_write_symbols" store_symbols |n, seed, out, O| write_symbols::<O>(n, seed, out);
}
