//! Made by `./format --c` from ../network_messages/formats/udp_datagram.fields: edit that file and make this one anew.
//!
//! A datagram of UDP over IPv4, with its checksum (RFC 768).
//!
//! ```text
//!  0                   1                   2                   3
//!  0 1 2 3 4 5 6 7 8 9 0 1 2 3 4 5 6 7 8 9 0 1 2 3 4 5 6 7 8 9 0 1
//! +-+-+-+-+-+-+-+-+-+-+-+-+-+-+-+-+-+-+-+-+-+-+-+-+-+-+-+-+-+-+-+-+
//! |             source            |             target            |
//! +-+-+-+-+-+-+-+-+-+-+-+-+-+-+-+-+-+-+-+-+-+-+-+-+-+-+-+-+-+-+-+-+
//! |           data_bytes          |        stored_sum16_udp       |
//! +-+-+-+-+-+-+-+-+-+-+-+-+-+-+-+-+-+-+-+-+-+-+-+-+-+-+-+-+-+-+-+-+
//! /                  data (data_bytes - 8 bytes)                  /
//! +-+-+-+-+-+-+-+-+-+-+-+-+-+-+-+-+-+-+-+-+-+-+-+-+-+-+-+-+-+-+-+-+
//! ```

use crate::ipv4_pseudo::{Ipv4Pseudo, Ipv4PseudoC};
extern crate alloc;
use alloc::vec;
use alloc::vec::Vec;

/// A datagram of UDP over IPv4, with its checksum (RFC 768).
#[derive(Clone, Debug, PartialEq, Eq, Hash)]
pub struct UdpDatagram {
    /// The fields of the header of IPv4 that the checksum covers.
    pub pseudo: Ipv4Pseudo,
    /// The port of the sender.
    pub source: u16,
    /// The port of the receiver.
    pub target: u16,
    /// The data. At most 65527 bytes.
    pub data: Vec<u8>,
}

/// The reason why no `UdpDatagram` was parsed or packed.
#[derive(Clone, Copy, Debug, PartialEq, Eq, Hash)]
pub enum UdpDatagramError {
    /// The bytes end before the fields do.
    EndOfInput,
    /// The buffer is too short.
    NoRoom,
    /// The field of this name has a value that the format does not allow.
    DoesNotFit(&'static str),
    /// The size of `data` is below the 8 bytes that it counts too.
    ShortLength,
    /// The checksum is not that of the datagram.
    WrongSum,
}

impl core::fmt::Display for UdpDatagramError {
    fn fmt(&self, f: &mut core::fmt::Formatter<'_>) -> core::fmt::Result {
        f.write_str(match self {
            UdpDatagramError::EndOfInput => "the bytes end before the fields do",
            UdpDatagramError::NoRoom => "the buffer is too short",
            UdpDatagramError::ShortLength => "the size of `data` is below the 8 bytes that it counts too",
            UdpDatagramError::WrongSum => "the checksum is not that of the datagram",
            UdpDatagramError::DoesNotFit(field) => {
                return write!(f, "`{field}` has a value that the format does not allow")
            }
        })
    }
}

impl core::error::Error for UdpDatagramError {}

fn done(status: i32) -> Result<(), UdpDatagramError> {
    match status {
        0 => Ok(()),
        2 => Err(UdpDatagramError::NoRoom),
        6 => Err(UdpDatagramError::ShortLength),
        7 => Err(UdpDatagramError::WrongSum),
        _ => Err(UdpDatagramError::EndOfInput),
    }
}

#[repr(C)]
#[derive(Clone, Copy)]
pub(crate) struct UdpDatagramC {
    pub(crate) pseudo: Ipv4PseudoC,
    pub(crate) source: u16,
    pub(crate) target: u16,
    pub(crate) data: usize,
}

impl UdpDatagramC {
    #[allow(dead_code)]
    pub(crate) const ZERO: UdpDatagramC = UdpDatagramC {
        pseudo: Ipv4PseudoC::ZERO,
        source: 0,
        target: 0,
        data: 0,
    };

    pub(crate) fn new(value: &UdpDatagram) -> UdpDatagramC {
        UdpDatagramC {
            pseudo: Ipv4PseudoC::new(&value.pseudo),
            source: value.source,
            target: value.target,
            data: value.data.len(),
        }
    }

    pub(crate) fn fields(&self, data_items: Vec<u8>) -> Result<UdpDatagram, &'static str> {
        Ok(UdpDatagram {
            pseudo: self.pseudo.fields()?,
            source: self.source,
            target: self.target,
            data: data_items,
        })
    }
}

#[repr(C)]
struct Parsed {
    status: i32,
    taken: usize,
    value: UdpDatagramC,
}

#[repr(C)]
struct Packed {
    status: i32,
    written: usize,
}

extern "C" {
    fn proved_udp_datagram_parse(bytes: *const u8, length: usize, data_items: *mut u8, data_count: usize, pseudo: &Ipv4PseudoC) -> Parsed;
    fn proved_udp_datagram_pack(value: &UdpDatagramC, data_items: *const u8, data_count: usize, buffer: *mut u8, length: usize) -> Packed;
    fn misfit_of_udp_datagram(value: &UdpDatagramC, data_items: *const u8, data_count: usize) -> *const core::ffi::c_char;
}

/// Returns the name of a field of C, or an empty text if there is none.
///
/// # Safety
///
/// `name` is null or a text that stays as it is.
unsafe fn named(name: *const core::ffi::c_char) -> &'static str {
    if name.is_null() {
        return "";
    }
    // SAFETY: as above.
    unsafe { core::ffi::CStr::from_ptr(name) }.to_str().unwrap_or_default()
}

// The layout that the proved functions have.
const _: () = assert!(core::mem::size_of::<UdpDatagramC>() == 24);
const _: () = assert!(core::mem::offset_of!(UdpDatagramC, data) == 16);

impl UdpDatagram {
    /// Parses the fields at the start of `bytes`, and returns them with the number of bytes that
    /// they take.
    ///
    /// # Errors
    ///
    /// The first in the order of the bits: `ShortLength`, `WrongSum`; `EndOfInput` if the bytes end
    /// before the fields do, if nothing in them is refused.
    pub fn parse(bytes: &[u8], pseudo: &Ipv4Pseudo) -> Result<(UdpDatagram, usize), UdpDatagramError> {
        let mut data_items = Vec::new();
        loop {
            // SAFETY: the pointers and the lengths are those of slices, of which the later ones are borrowed mutably.
            let parsed = unsafe { proved_udp_datagram_parse(bytes.as_ptr(), bytes.len(), data_items.as_mut_ptr(), data_items.len(), &Ipv4PseudoC::new(pseudo)) };
            match parsed.status {
                5 => data_items = vec![0; parsed.taken],
                status => {
                    done(status)?;
                    data_items.truncate(parsed.value.data);
                    let fields = parsed.value.fields(data_items).map(|it| (it, parsed.taken));
                    return fields.map_err(UdpDatagramError::DoesNotFit);
                }
            }
        }
    }

    /// Writes the fields to the first bytes of a buffer, and zeros up to a whole byte, and returns
    /// the number of these bytes. The other bytes stay as they were. After an error all bytes are
    /// as before.
    ///
    /// # Errors
    ///
    /// `DoesNotFit` if a field has a value that the format does not allow; else `NoRoom` if the
    /// buffer is too short.
    pub fn pack_into(&self, buffer: &mut [u8]) -> Result<usize, UdpDatagramError> {
        let value = UdpDatagramC::new(self);
        // SAFETY: the pointer and the length are a slice's, which is borrowed mutably.
        let packed = unsafe { proved_udp_datagram_pack(&value, self.data.as_ptr(), self.data.len(), buffer.as_mut_ptr(), buffer.len()) };
        if packed.status == 3 {
            // SAFETY: as above; the name is null or a constant of the library.
            return Err(UdpDatagramError::DoesNotFit(unsafe { named(misfit_of_udp_datagram(&value, self.data.as_ptr(), self.data.len())) }));
        }
        done(packed.status)?;
        Ok(packed.written)
    }

    /// Returns the bytes of the fields.
    ///
    /// # Errors
    ///
    /// `DoesNotFit` if a field has a value that the format does not allow.
    pub fn pack(&self) -> Result<Vec<u8>, UdpDatagramError> {
        let mut bytes = vec![0; 64];
        loop {
            match self.pack_into(&mut bytes) {
                Err(UdpDatagramError::NoRoom) => bytes = vec![0; 2 * bytes.len()],
                Err(error) => return Err(error),
                Ok(written) => {
                    bytes.truncate(written);
                    return Ok(bytes);
                }
            }
        }
    }
}
