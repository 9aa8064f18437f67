//! Made by `./format --c` from ../protocols/formats/ethernet_header.fields: edit that file and make this one anew.
//!
//! The header of an Ethernet frame with an EtherType (IEEE 802.3, section 3.1.1).
//!
//! ```text
//!  0                   1                   2                   3
//!  0 1 2 3 4 5 6 7 8 9 0 1 2 3 4 5 6 7 8 9 0 1 2 3 4 5 6 7 8 9 0 1
//! +-+-+-+-+-+-+-+-+-+-+-+-+-+-+-+-+-+-+-+-+-+-+-+-+-+-+-+-+-+-+-+-+
//! |                             target                            |
//! +-+-+-+-+-+-+-+-+-+-+-+-+-+-+-+-+-+-+-+-+-+-+-+-+-+-+-+-+-+-+-+-+
//! |                               |                               |
//! +-+-+-+-+-+-+-+-+-+-+-+-+-+-+-+-+-+-+-+-+-+-+-+-+-+-+-+-+-+-+-+-+
//! |                             source                            |
//! +-+-+-+-+-+-+-+-+-+-+-+-+-+-+-+-+-+-+-+-+-+-+-+-+-+-+-+-+-+-+-+-+
//! |              kind             |
//! +-+-+-+-+-+-+-+-+-+-+-+-+-+-+-+-+-+-+-+-+-+-+-+-+-+-+-+-+-+-+-+-+
//! /                 tag (VlanTag, if it is there)                 /
//! +-+-+-+-+-+-+-+-+-+-+-+-+-+-+-+-+-+-+-+-+-+-+-+-+-+-+-+-+-+-+-+-+
//! ```

use crate::vlan_tag::{VlanTag, VlanTagC};
extern crate alloc;
use alloc::vec;
use alloc::vec::Vec;

/// The header of an Ethernet frame with an EtherType (IEEE 802.3, section 3.1.1).
#[derive(Clone, Copy, Debug, PartialEq, Eq, Hash)]
pub struct EthernetHeader {
    /// The address of the receiver.
    pub target: [u8; 6],
    /// The address of the sender.
    pub source: [u8; 6],
    /// The EtherType of what follows.
    pub kind: EtherType,
    /// The tag for a virtual network. It is there if, and only if, `kind == Vlan`.
    pub tag: Option<VlanTag>,
}

/// The EtherType of what follows.
#[derive(Clone, Copy, Debug, PartialEq, Eq, Hash)]
pub enum EtherType {
    /// Encoded as 2048.
    Ipv4,
    /// Encoded as 2054.
    Arp,
    /// Encoded as 33024.
    Vlan,
    /// Encoded as 34525.
    Ipv6,
    /// Another number below 2^16. With the number of a case above it packs as that case.
    Other(u16),
}

impl EtherType {
    pub(crate) fn of(number: u16) -> Option<EtherType> {
        match number {
            2048 => Some(EtherType::Ipv4),
            2054 => Some(EtherType::Arp),
            33024 => Some(EtherType::Vlan),
            34525 => Some(EtherType::Ipv6),
            _ => Some(EtherType::Other(number)),
        }
    }

    /// Returns the number.
    pub fn number(self) -> u16 {
        match self {
            EtherType::Ipv4 => 2048,
            EtherType::Arp => 2054,
            EtherType::Vlan => 33024,
            EtherType::Ipv6 => 34525,
            EtherType::Other(number) => number,
        }
    }
}

/// The reason why no `EthernetHeader` was parsed or packed.
#[derive(Clone, Copy, Debug, PartialEq, Eq, Hash)]
pub enum EthernetHeaderError {
    /// The bytes end before the fields do.
    EndOfInput,
    /// The buffer is too short.
    NoRoom,
    /// The field of this name has a value that the format does not allow.
    DoesNotFit(&'static str),
}

impl core::fmt::Display for EthernetHeaderError {
    fn fmt(&self, f: &mut core::fmt::Formatter<'_>) -> core::fmt::Result {
        f.write_str(match self {
            EthernetHeaderError::EndOfInput => "the bytes end before the fields do",
            EthernetHeaderError::NoRoom => "the buffer is too short",
            EthernetHeaderError::DoesNotFit(field) => {
                return write!(f, "`{field}` has a value that the format does not allow")
            }
        })
    }
}

impl core::error::Error for EthernetHeaderError {}

fn done(status: i32) -> Result<(), EthernetHeaderError> {
    match status {
        0 => Ok(()),
        2 => Err(EthernetHeaderError::NoRoom),
        _ => Err(EthernetHeaderError::EndOfInput),
    }
}

#[repr(C)]
#[derive(Clone, Copy)]
pub(crate) struct EthernetHeaderC {
    pub(crate) target: [u8; 6],
    pub(crate) source: [u8; 6],
    pub(crate) kind: u16,
    pub(crate) has_tag: u8,
    pub(crate) tag: VlanTagC,
}

impl EthernetHeaderC {
    #[allow(dead_code)]
    pub(crate) const ZERO: EthernetHeaderC = EthernetHeaderC {
        target: [0; 6],
        source: [0; 6],
        kind: 0,
        has_tag: 0,
        tag: VlanTagC::ZERO,
    };

    pub(crate) fn new(value: &EthernetHeader) -> EthernetHeaderC {
        EthernetHeaderC {
            target: value.target,
            source: value.source,
            kind: value.kind.number(),
            has_tag: u8::from(value.tag.is_some()),
            tag: value.tag.as_ref().map_or(VlanTagC::ZERO, VlanTagC::new),
        }
    }

    pub(crate) fn fields(&self) -> Result<EthernetHeader, &'static str> {
        Ok(EthernetHeader {
            target: self.target,
            source: self.source,
            kind: EtherType::of(self.kind).ok_or("kind")?,
            tag: if self.has_tag == 0 { None } else { Some(self.tag.fields()?) },
        })
    }
}

#[repr(C)]
struct Parsed {
    status: i32,
    taken: usize,
    value: EthernetHeaderC,
}

#[repr(C)]
struct Packed {
    status: i32,
    written: usize,
}

extern "C" {
    fn proved_ethernet_header_parse(bytes: *const u8, length: usize) -> Parsed;
    fn proved_ethernet_header_pack(value: &EthernetHeaderC, buffer: *mut u8, length: usize) -> Packed;
    fn ethernet_header_misfit(value: &EthernetHeaderC) -> *const core::ffi::c_char;
}

/// Returns the name of a field of C, or an empty text if there is none.
///
/// # Safety
///
/// `name` is null or a text that stays as it is.
unsafe fn named(name: *const core::ffi::c_char) -> &'static str {
    if name.is_null() {
        return "";
    }
    // SAFETY: as above.
    unsafe { core::ffi::CStr::from_ptr(name) }.to_str().unwrap_or_default()
}

// The layout that the proved functions have.
const _: () = assert!(core::mem::size_of::<EthernetHeaderC>() == 22);
const _: () = assert!(core::mem::offset_of!(EthernetHeaderC, tag) == 16);

impl EthernetHeader {
    /// Parses the fields at the start of `bytes`, and returns them with the number of bytes that
    /// they take.
    ///
    /// # Errors
    ///
    /// `EndOfInput` if the bytes end before the fields do.
    pub fn parse(bytes: &[u8]) -> Result<(EthernetHeader, usize), EthernetHeaderError> {
        // SAFETY: the pointer and the length are a slice's.
        let parsed = unsafe { proved_ethernet_header_parse(bytes.as_ptr(), bytes.len()) };
        done(parsed.status)?;
        let fields = parsed.value.fields().map(|it| (it, parsed.taken));
        fields.map_err(EthernetHeaderError::DoesNotFit)
    }

    /// Writes the fields to the first bytes of a buffer, and zeros up to a whole byte, and returns
    /// the number of these bytes. The other bytes stay as they were. After an error all bytes are
    /// as before.
    ///
    /// # Errors
    ///
    /// `DoesNotFit` if a field has a value that the format does not allow; else `NoRoom` if the
    /// buffer is too short.
    pub fn pack_into(&self, buffer: &mut [u8]) -> Result<usize, EthernetHeaderError> {
        let value = EthernetHeaderC::new(self);
        // SAFETY: the pointer and the length are a slice's, which is borrowed mutably.
        let packed = unsafe { proved_ethernet_header_pack(&value, buffer.as_mut_ptr(), buffer.len()) };
        if packed.status == 3 {
            // SAFETY: as above; the name is null or a constant of the library.
            return Err(EthernetHeaderError::DoesNotFit(unsafe { named(ethernet_header_misfit(&value)) }));
        }
        done(packed.status)?;
        Ok(packed.written)
    }

    /// Returns the bytes of the fields.
    ///
    /// # Errors
    ///
    /// `DoesNotFit` if a field has a value that the format does not allow.
    pub fn pack(&self) -> Result<Vec<u8>, EthernetHeaderError> {
        let mut bytes = vec![0; 64];
        loop {
            match self.pack_into(&mut bytes) {
                Err(EthernetHeaderError::NoRoom) => bytes = vec![0; 2 * bytes.len()],
                Err(error) => return Err(error),
                Ok(written) => {
                    bytes.truncate(written);
                    return Ok(bytes);
                }
            }
        }
    }
}
