//! A reader of bits over bytes in memory.
//!
//! A method whose name ends in `_le` takes the lowest bit of each byte first, and the lowest bit of a number first. The
//! others take the highest first.

use crate::error::{done, Error};
use core::marker::PhantomData;

#[repr(C)]
struct Unsigned {
    status: i32,
    value: u64,
}

#[repr(C)]
struct Signed {
    status: i32,
    value: i64,
}

/// A reader of bits over bytes.
#[repr(C)]
#[derive(Clone, Debug)]
pub struct Reader<'a> {
    bytes: *const u8,
    length: usize,
    at: u64,
    lent: PhantomData<&'a [u8]>,
}

// SAFETY: a reader is a shared slice and a number.
unsafe impl Send for Reader<'_> {}
// SAFETY: its methods that take `&self` only read.
unsafe impl Sync for Reader<'_> {}

extern "C" {
    fn proved_bits_read_unsigned(reader: &mut Reader, width: u32) -> Unsigned;
    fn proved_bits_read_signed(reader: &mut Reader, width: u32) -> Signed;
    fn proved_bits_read_bytes(reader: &mut Reader, buffer: *mut u8, length: usize) -> i32;
    fn proved_bits_read_unary(reader: &mut Reader, stop: bool) -> Unsigned;
    fn proved_bits_read_ue(reader: &mut Reader) -> Unsigned;
    fn proved_bits_read_se(reader: &mut Reader) -> Signed;
    fn proved_bits_read_unsigned_le(reader: &mut Reader, width: u32) -> Unsigned;
    fn proved_bits_read_signed_le(reader: &mut Reader, width: u32) -> Signed;
    fn proved_bits_read_bytes_le(reader: &mut Reader, buffer: *mut u8, length: usize) -> i32;
    fn proved_bits_read_unary_le(reader: &mut Reader, stop: bool) -> Unsigned;
    fn proved_bits_read_ue_le(reader: &mut Reader) -> Unsigned;
    fn proved_bits_read_se_le(reader: &mut Reader) -> Signed;
    fn proved_bits_skip(reader: &mut Reader, count: u64) -> i32;
    fn proved_bits_align(reader: &mut Reader);
    fn proved_bits_seek(reader: &mut Reader, at: u64) -> i32;
    fn proved_bits_left(reader: &Reader) -> u64;
}

// The layout that the proved functions have.
const _: () = assert!(core::mem::size_of::<Reader>() == 24);
const _: () = assert!(core::mem::offset_of!(Reader, at) == 16);

impl<'a> Reader<'a> {
    /// Returns a reader at the first bit of the bytes.
    pub fn new(bytes: &'a [u8]) -> Reader<'a> {
        Reader {
            bytes: bytes.as_ptr(),
            length: bytes.len(),
            at: 0,
            lent: PhantomData,
        }
    }

    /// Reads a number of `width` bits, 0 to 64, the highest bit first.
    ///
    /// # Errors
    ///
    /// `Width`; else `EndOfInput`.
    pub fn read_unsigned(&mut self, width: u32) -> Result<u64, Error> {
        // SAFETY: the reader's pointer and length are a slice's.
        let read = unsafe { proved_bits_read_unsigned(self, width) };
        done(read.status)?;
        Ok(read.value)
    }

    /// Reads a signed number of `width` bits, 1 to 64, the highest bit first.
    ///
    /// # Errors
    ///
    /// `Width`; else `EndOfInput`.
    pub fn read_signed(&mut self, width: u32) -> Result<i64, Error> {
        // SAFETY: the reader's pointer and length are a slice's.
        let read = unsafe { proved_bits_read_signed(self, width) };
        done(read.status)?;
        Ok(read.value)
    }

    /// Reads bytes into a buffer, until it is full, the highest bit first. After an error the buffer is as before.
    ///
    /// # Errors
    ///
    /// `EndOfInput`.
    pub fn read_bytes(&mut self, buffer: &mut [u8]) -> Result<(), Error> {
        // SAFETY: the pointers and lengths are those of two slices, of which the buffer is borrowed mutably.
        done(unsafe { proved_bits_read_bytes(self, buffer.as_mut_ptr(), buffer.len()) })
    }

    /// Reads a unary number, the highest bit first: the bits before the first bit that is `stop`, and that bit.
    ///
    /// # Errors
    ///
    /// `EndOfInput`.
    pub fn read_unary(&mut self, stop: bool) -> Result<u64, Error> {
        // SAFETY: the reader's pointer and length are a slice's.
        let read = unsafe { proved_bits_read_unary(self, stop) };
        done(read.status)?;
        Ok(read.value)
    }

    /// Reads an exponential Golomb number, the highest bit first. It is below 2^32 - 1.
    ///
    /// # Errors
    ///
    /// `TooLong` for more than 31 zeros; else `EndOfInput`.
    pub fn read_ue(&mut self) -> Result<u32, Error> {
        // SAFETY: the reader's pointer and length are a slice's.
        let read = unsafe { proved_bits_read_ue(self) };
        done(read.status)?;
        Ok(read.value as u32)
    }

    /// Reads a signed exponential Golomb number, the highest bit first.
    ///
    /// # Errors
    ///
    /// `TooLong` for more than 31 zeros; else `EndOfInput`.
    pub fn read_se(&mut self) -> Result<i32, Error> {
        // SAFETY: the reader's pointer and length are a slice's.
        let read = unsafe { proved_bits_read_se(self) };
        done(read.status)?;
        Ok(read.value as i32)
    }

    /// Reads a number of `width` bits, 0 to 64, the lowest bit first.
    ///
    /// # Errors
    ///
    /// `Width`; else `EndOfInput`.
    pub fn read_unsigned_le(&mut self, width: u32) -> Result<u64, Error> {
        // SAFETY: the reader's pointer and length are a slice's.
        let read = unsafe { proved_bits_read_unsigned_le(self, width) };
        done(read.status)?;
        Ok(read.value)
    }

    /// Reads a signed number of `width` bits, 1 to 64, the lowest bit first.
    ///
    /// # Errors
    ///
    /// `Width`; else `EndOfInput`.
    pub fn read_signed_le(&mut self, width: u32) -> Result<i64, Error> {
        // SAFETY: the reader's pointer and length are a slice's.
        let read = unsafe { proved_bits_read_signed_le(self, width) };
        done(read.status)?;
        Ok(read.value)
    }

    /// Reads bytes into a buffer, until it is full, the lowest bit first. After an error the buffer is as before.
    ///
    /// # Errors
    ///
    /// `EndOfInput`.
    pub fn read_bytes_le(&mut self, buffer: &mut [u8]) -> Result<(), Error> {
        // SAFETY: the pointers and lengths are those of two slices, of which the buffer is borrowed mutably.
        done(unsafe { proved_bits_read_bytes_le(self, buffer.as_mut_ptr(), buffer.len()) })
    }

    /// Reads a unary number, the lowest bit first: the bits before the first bit that is `stop`, and that bit.
    ///
    /// # Errors
    ///
    /// `EndOfInput`.
    pub fn read_unary_le(&mut self, stop: bool) -> Result<u64, Error> {
        // SAFETY: the reader's pointer and length are a slice's.
        let read = unsafe { proved_bits_read_unary_le(self, stop) };
        done(read.status)?;
        Ok(read.value)
    }

    /// Reads an exponential Golomb number, the lowest bit first. It is below 2^32 - 1.
    ///
    /// # Errors
    ///
    /// `TooLong` for more than 31 zeros; else `EndOfInput`.
    pub fn read_ue_le(&mut self) -> Result<u32, Error> {
        // SAFETY: the reader's pointer and length are a slice's.
        let read = unsafe { proved_bits_read_ue_le(self) };
        done(read.status)?;
        Ok(read.value as u32)
    }

    /// Reads a signed exponential Golomb number, the lowest bit first.
    ///
    /// # Errors
    ///
    /// `TooLong` for more than 31 zeros; else `EndOfInput`.
    pub fn read_se_le(&mut self) -> Result<i32, Error> {
        // SAFETY: the reader's pointer and length are a slice's.
        let read = unsafe { proved_bits_read_se_le(self) };
        done(read.status)?;
        Ok(read.value as i32)
    }

    /// Passes over `count` bits.
    ///
    /// # Errors
    ///
    /// `EndOfInput`.
    pub fn skip(&mut self, count: u64) -> Result<(), Error> {
        // SAFETY: the reader's pointer and length are a slice's.
        done(unsafe { proved_bits_skip(self, count) })
    }

    /// Goes on to the next whole byte.
    pub fn align(&mut self) {
        // SAFETY: the reader's pointer and length are a slice's.
        unsafe { proved_bits_align(self) }
    }

    /// Goes to the bit after the first `at` bits.
    ///
    /// # Errors
    ///
    /// `EndOfInput` if there are fewer bits.
    pub fn seek(&mut self, at: u64) -> Result<(), Error> {
        // SAFETY: the reader's pointer and length are a slice's.
        done(unsafe { proved_bits_seek(self, at) })
    }

    /// Returns the number of bits that are left.
    pub fn left(&self) -> u64 {
        // SAFETY: the reader's pointer and length are a slice's.
        unsafe { proved_bits_left(self) }
    }

    /// Returns the number of bits that were read.
    pub fn at(&self) -> u64 {
        self.at
    }
}
