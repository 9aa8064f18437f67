//! A writer of bits into a buffer. It leaves all other bits of the buffer as they were.
//!
//! A method whose name ends in `_le` takes the lowest bit of each byte first, and the lowest bit of a number first. The
//! others take the highest first.

use crate::error::{done, Error};
use core::marker::PhantomData;

/// A writer of bits into a buffer.
#[repr(C)]
#[derive(Debug)]
pub struct Writer<'a> {
    bytes: *mut u8,
    length: usize,
    at: u64,
    lent: PhantomData<&'a mut [u8]>,
}

// SAFETY: a writer is a slice that is borrowed mutably, and a number.
unsafe impl Send for Writer<'_> {}
// SAFETY: its methods that take `&self` only read.
unsafe impl Sync for Writer<'_> {}

extern "C" {
    fn proved_bits_write_unsigned(writer: &mut Writer, width: u32, value: u64) -> i32;
    fn proved_bits_write_signed(writer: &mut Writer, width: u32, value: i64) -> i32;
    fn proved_bits_write_bytes(writer: &mut Writer, bytes: *const u8, length: usize) -> i32;
    fn proved_bits_write_unary(writer: &mut Writer, stop: bool, value: u64) -> i32;
    fn proved_bits_write_ue(writer: &mut Writer, value: u32) -> i32;
    fn proved_bits_write_se(writer: &mut Writer, value: i32) -> i32;
    fn proved_bits_write_align(writer: &mut Writer) -> i32;
    fn proved_bits_write_unsigned_le(writer: &mut Writer, width: u32, value: u64) -> i32;
    fn proved_bits_write_signed_le(writer: &mut Writer, width: u32, value: i64) -> i32;
    fn proved_bits_write_bytes_le(writer: &mut Writer, bytes: *const u8, length: usize) -> i32;
    fn proved_bits_write_unary_le(writer: &mut Writer, stop: bool, value: u64) -> i32;
    fn proved_bits_write_ue_le(writer: &mut Writer, value: u32) -> i32;
    fn proved_bits_write_se_le(writer: &mut Writer, value: i32) -> i32;
    fn proved_bits_write_align_le(writer: &mut Writer) -> i32;
    fn proved_bits_room(writer: &Writer) -> u64;
}

// The layout that the proved functions have.
const _: () = assert!(core::mem::size_of::<Writer>() == 24);
const _: () = assert!(core::mem::offset_of!(Writer, at) == 16);

impl<'a> Writer<'a> {
    /// Returns a writer at the first bit of the buffer.
    pub fn new(buffer: &'a mut [u8]) -> Writer<'a> {
        Writer {
            bytes: buffer.as_mut_ptr(),
            length: buffer.len(),
            at: 0,
            lent: PhantomData,
        }
    }

    /// Writes a number of `width` bits, 0 to 64, the highest bit first.
    ///
    /// # Errors
    ///
    /// `Width`; else `DoesNotFit`; else `NoRoom`.
    pub fn write_unsigned(&mut self, width: u32, value: u64) -> Result<(), Error> {
        // SAFETY: the writer's pointer and length are a slice's, which it borrows mutably.
        done(unsafe { proved_bits_write_unsigned(self, width, value) })
    }

    /// Writes a signed number of `width` bits, 1 to 64, the highest bit first.
    ///
    /// # Errors
    ///
    /// `Width`; else `DoesNotFit`; else `NoRoom`.
    pub fn write_signed(&mut self, width: u32, value: i64) -> Result<(), Error> {
        // SAFETY: the writer's pointer and length are a slice's, which it borrows mutably.
        done(unsafe { proved_bits_write_signed(self, width, value) })
    }

    /// Writes bytes, the highest bit first.
    ///
    /// # Errors
    ///
    /// `NoRoom`.
    pub fn write_bytes(&mut self, bytes: &[u8]) -> Result<(), Error> {
        // SAFETY: the pointers and lengths are those of two slices, of which the writer's is borrowed mutably.
        done(unsafe { proved_bits_write_bytes(self, bytes.as_ptr(), bytes.len()) })
    }

    /// Writes a unary number, the highest bit first: `value` bits that are not `stop`, and then the bit `stop`.
    ///
    /// # Errors
    ///
    /// `NoRoom`.
    pub fn write_unary(&mut self, stop: bool, value: u64) -> Result<(), Error> {
        // SAFETY: the writer's pointer and length are a slice's, which it borrows mutably.
        done(unsafe { proved_bits_write_unary(self, stop, value) })
    }

    /// Writes an exponential Golomb number, the highest bit first.
    ///
    /// # Errors
    ///
    /// `DoesNotFit` for 2^32 - 1; else `NoRoom`.
    pub fn write_ue(&mut self, value: u32) -> Result<(), Error> {
        // SAFETY: the writer's pointer and length are a slice's, which it borrows mutably.
        done(unsafe { proved_bits_write_ue(self, value) })
    }

    /// Writes a signed exponential Golomb number, the highest bit first.
    ///
    /// # Errors
    ///
    /// `DoesNotFit` for -2^31; else `NoRoom`.
    pub fn write_se(&mut self, value: i32) -> Result<(), Error> {
        // SAFETY: the writer's pointer and length are a slice's, which it borrows mutably.
        done(unsafe { proved_bits_write_se(self, value) })
    }

    /// Writes zeros up to a whole byte, the highest bit first.
    ///
    /// # Errors
    ///
    /// `NoRoom`.
    pub fn align(&mut self) -> Result<(), Error> {
        // SAFETY: the writer's pointer and length are a slice's, which it borrows mutably.
        done(unsafe { proved_bits_write_align(self) })
    }

    /// Writes a number of `width` bits, 0 to 64, the lowest bit first.
    ///
    /// # Errors
    ///
    /// `Width`; else `DoesNotFit`; else `NoRoom`.
    pub fn write_unsigned_le(&mut self, width: u32, value: u64) -> Result<(), Error> {
        // SAFETY: the writer's pointer and length are a slice's, which it borrows mutably.
        done(unsafe { proved_bits_write_unsigned_le(self, width, value) })
    }

    /// Writes a signed number of `width` bits, 1 to 64, the lowest bit first.
    ///
    /// # Errors
    ///
    /// `Width`; else `DoesNotFit`; else `NoRoom`.
    pub fn write_signed_le(&mut self, width: u32, value: i64) -> Result<(), Error> {
        // SAFETY: the writer's pointer and length are a slice's, which it borrows mutably.
        done(unsafe { proved_bits_write_signed_le(self, width, value) })
    }

    /// Writes bytes, the lowest bit first.
    ///
    /// # Errors
    ///
    /// `NoRoom`.
    pub fn write_bytes_le(&mut self, bytes: &[u8]) -> Result<(), Error> {
        // SAFETY: the pointers and lengths are those of two slices, of which the writer's is borrowed mutably.
        done(unsafe { proved_bits_write_bytes_le(self, bytes.as_ptr(), bytes.len()) })
    }

    /// Writes a unary number, the lowest bit first: `value` bits that are not `stop`, and then the bit `stop`.
    ///
    /// # Errors
    ///
    /// `NoRoom`.
    pub fn write_unary_le(&mut self, stop: bool, value: u64) -> Result<(), Error> {
        // SAFETY: the writer's pointer and length are a slice's, which it borrows mutably.
        done(unsafe { proved_bits_write_unary_le(self, stop, value) })
    }

    /// Writes an exponential Golomb number, the lowest bit first.
    ///
    /// # Errors
    ///
    /// `DoesNotFit` for 2^32 - 1; else `NoRoom`.
    pub fn write_ue_le(&mut self, value: u32) -> Result<(), Error> {
        // SAFETY: the writer's pointer and length are a slice's, which it borrows mutably.
        done(unsafe { proved_bits_write_ue_le(self, value) })
    }

    /// Writes a signed exponential Golomb number, the lowest bit first.
    ///
    /// # Errors
    ///
    /// `DoesNotFit` for -2^31; else `NoRoom`.
    pub fn write_se_le(&mut self, value: i32) -> Result<(), Error> {
        // SAFETY: the writer's pointer and length are a slice's, which it borrows mutably.
        done(unsafe { proved_bits_write_se_le(self, value) })
    }

    /// Writes zeros up to a whole byte, the lowest bit first.
    ///
    /// # Errors
    ///
    /// `NoRoom`.
    pub fn align_le(&mut self) -> Result<(), Error> {
        // SAFETY: the writer's pointer and length are a slice's, which it borrows mutably.
        done(unsafe { proved_bits_write_align_le(self) })
    }

    /// Returns the number of bits that the buffer has room for.
    pub fn room(&self) -> u64 {
        // SAFETY: the writer's pointer and length are a slice's, which it borrows mutably.
        unsafe { proved_bits_room(self) }
    }

    /// Returns the number of bits that were written.
    pub fn written(&self) -> u64 {
        self.at
    }

    /// Goes to the bit after the first `at` bits, to write other bits in place of those there.
    pub fn seek(&mut self, at: u64) {
        self.at = at;
    }
}
