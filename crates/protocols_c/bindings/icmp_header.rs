//! Made by `./format --c` from ../protocols/formats/icmp_header.fields: edit that file and make this one anew.
//!
//! The first bytes of an ICMP message (RFC 792).
//!
//! ```text
//!  0                   1                   2                   3
//!  0 1 2 3 4 5 6 7 8 9 0 1 2 3 4 5 6 7 8 9 0 1 2 3 4 5 6 7 8 9 0 1
//! +-+-+-+-+-+-+-+-+-+-+-+-+-+-+-+-+-+-+-+-+-+-+-+-+-+-+-+-+-+-+-+-+
//! |    body_tag   |      code     |            checksum           |
//! +-+-+-+-+-+-+-+-+-+-+-+-+-+-+-+-+-+-+-+-+-+-+-+-+-+-+-+-+-+-+-+-+
//! /           body (EchoReply, Redirect, Echo or Other)           /
//! +-+-+-+-+-+-+-+-+-+-+-+-+-+-+-+-+-+-+-+-+-+-+-+-+-+-+-+-+-+-+-+-+
//! ```

use crate::icmp_ids::{IcmpIds, IcmpIdsC};
use crate::icmp_gateway::{IcmpGateway, IcmpGatewayC};
extern crate alloc;
use alloc::vec;
use alloc::vec::Vec;

/// The first bytes of an ICMP message (RFC 792).
#[derive(Clone, Copy, Debug, PartialEq, Eq, Hash)]
pub struct IcmpHeader {
    /// The code, which refines the type.
    pub code: u8,
    /// The checksum of the message.
    pub checksum: u16,
    /// The type of the message, and what follows the checksum. After another type nothing is read.
    pub body: Body,
}

/// The type of the message, and what follows the checksum. After another type nothing is read.
#[derive(Clone, Copy, Debug, PartialEq, Eq, Hash)]
pub enum Body {
    /// The case of the number 0.
    EchoReply(IcmpIds),
    /// The case of the number 5.
    Redirect(IcmpGateway),
    /// The case of the number 8.
    Echo(IcmpIds),
    /// Another number below 2^8, with nothing after it. No number of a case above fits.
    Other(u8),
}

/// The reason why no `IcmpHeader` was parsed or packed.
#[derive(Clone, Copy, Debug, PartialEq, Eq, Hash)]
pub enum IcmpHeaderError {
    /// The bytes end before the fields do.
    EndOfInput,
    /// The buffer is too short.
    NoRoom,
    /// The field of this name has a value that the format does not allow.
    DoesNotFit(&'static str),
}

impl core::fmt::Display for IcmpHeaderError {
    fn fmt(&self, f: &mut core::fmt::Formatter<'_>) -> core::fmt::Result {
        f.write_str(match self {
            IcmpHeaderError::EndOfInput => "the bytes end before the fields do",
            IcmpHeaderError::NoRoom => "the buffer is too short",
            IcmpHeaderError::DoesNotFit(field) => {
                return write!(f, "`{field}` has a value that the format does not allow")
            }
        })
    }
}

impl core::error::Error for IcmpHeaderError {}

fn done(status: i32) -> Result<(), IcmpHeaderError> {
    match status {
        0 => Ok(()),
        2 => Err(IcmpHeaderError::NoRoom),
        _ => Err(IcmpHeaderError::EndOfInput),
    }
}

#[repr(C)]
#[derive(Clone, Copy)]
pub(crate) struct IcmpHeaderC {
    pub(crate) code: u8,
    pub(crate) checksum: u16,
    pub(crate) body_case: u32,
    pub(crate) body_echo_reply: IcmpIdsC,
    pub(crate) body_redirect: IcmpGatewayC,
    pub(crate) body_echo: IcmpIdsC,
    pub(crate) body_other: u8,
}

impl IcmpHeaderC {
    #[allow(dead_code)]
    pub(crate) const ZERO: IcmpHeaderC = IcmpHeaderC {
        code: 0,
        checksum: 0,
        body_case: 0,
        body_echo_reply: IcmpIdsC::ZERO,
        body_redirect: IcmpGatewayC::ZERO,
        body_echo: IcmpIdsC::ZERO,
        body_other: 0,
    };

    pub(crate) fn new(value: &IcmpHeader) -> IcmpHeaderC {
        IcmpHeaderC {
            code: value.code,
            checksum: value.checksum,
            body_case: match value.body {
                Body::EchoReply(_) => 0,
                Body::Redirect(_) => 1,
                Body::Echo(_) => 2,
                Body::Other(_) => 3,
            },
            body_echo_reply: if let Body::EchoReply(it) = &value.body { IcmpIdsC::new(it) } else { IcmpIdsC::ZERO },
            body_redirect: if let Body::Redirect(it) = &value.body { IcmpGatewayC::new(it) } else { IcmpGatewayC::ZERO },
            body_echo: if let Body::Echo(it) = &value.body { IcmpIdsC::new(it) } else { IcmpIdsC::ZERO },
            body_other: if let Body::Other(it) = &value.body { *it } else { 0 },
        }
    }

    pub(crate) fn fields(&self) -> Result<IcmpHeader, &'static str> {
        Ok(IcmpHeader {
            code: self.code,
            checksum: self.checksum,
            body: match self.body_case {
                0 => Body::EchoReply(self.body_echo_reply.fields()?),
                1 => Body::Redirect(self.body_redirect.fields()?),
                2 => Body::Echo(self.body_echo.fields()?),
                3 => Body::Other(self.body_other),
                _ => return Err("body"),
            },
        })
    }
}

#[repr(C)]
struct Parsed {
    status: i32,
    taken: usize,
    value: IcmpHeaderC,
}

#[repr(C)]
struct Packed {
    status: i32,
    written: usize,
}

extern "C" {
    fn proved_icmp_header_parse(bytes: *const u8, length: usize) -> Parsed;
    fn proved_icmp_header_pack(value: &IcmpHeaderC, buffer: *mut u8, length: usize) -> Packed;
    fn misfit_of_icmp_header(value: &IcmpHeaderC) -> *const core::ffi::c_char;
}

/// Returns the name of a field of C, or an empty text if there is none.
///
/// # Safety
///
/// `name` is null or a text that stays as it is.
unsafe fn named(name: *const core::ffi::c_char) -> &'static str {
    if name.is_null() {
        return "";
    }
    // SAFETY: as above.
    unsafe { core::ffi::CStr::from_ptr(name) }.to_str().unwrap_or_default()
}

// The layout that the proved functions have.
const _: () = assert!(core::mem::size_of::<IcmpHeaderC>() == 24);
const _: () = assert!(core::mem::offset_of!(IcmpHeaderC, body_other) == 20);

impl IcmpHeader {
    /// Parses the fields at the start of `bytes`, and returns them with the number of bytes that
    /// they take.
    ///
    /// # Errors
    ///
    /// `EndOfInput` if the bytes end before the fields do.
    pub fn parse(bytes: &[u8]) -> Result<(IcmpHeader, usize), IcmpHeaderError> {
        // SAFETY: the pointer and the length are a slice's.
        let parsed = unsafe { proved_icmp_header_parse(bytes.as_ptr(), bytes.len()) };
        done(parsed.status)?;
        let fields = parsed.value.fields().map(|it| (it, parsed.taken));
        fields.map_err(IcmpHeaderError::DoesNotFit)
    }

    /// Writes the fields to the first bytes of a buffer, and zeros up to a whole byte, and returns
    /// the number of these bytes. The other bytes stay as they were. After an error all bytes are
    /// as before.
    ///
    /// # Errors
    ///
    /// `DoesNotFit` if a field has a value that the format does not allow; else `NoRoom` if the
    /// buffer is too short.
    pub fn pack_into(&self, buffer: &mut [u8]) -> Result<usize, IcmpHeaderError> {
        let value = IcmpHeaderC::new(self);
        // SAFETY: the pointer and the length are a slice's, which is borrowed mutably.
        let packed = unsafe { proved_icmp_header_pack(&value, buffer.as_mut_ptr(), buffer.len()) };
        if packed.status == 3 {
            // SAFETY: as above; the name is null or a constant of the library.
            return Err(IcmpHeaderError::DoesNotFit(unsafe { named(misfit_of_icmp_header(&value)) }));
        }
        done(packed.status)?;
        Ok(packed.written)
    }

    /// Returns the bytes of the fields.
    ///
    /// # Errors
    ///
    /// `DoesNotFit` if a field has a value that the format does not allow.
    pub fn pack(&self) -> Result<Vec<u8>, IcmpHeaderError> {
        let mut bytes = vec![0; 64];
        loop {
            match self.pack_into(&mut bytes) {
                Err(IcmpHeaderError::NoRoom) => bytes = vec![0; 2 * bytes.len()],
                Err(error) => return Err(error),
                Ok(written) => {
                    bytes.truncate(written);
                    return Ok(bytes);
                }
            }
        }
    }
}
