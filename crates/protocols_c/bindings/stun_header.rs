//! Made by `./format --c` from ../protocols/formats/stun_header.fields: edit that file and make this one anew.
//!
//! The header of a message of STUN (RFC 8489, section 5).
//!
//! ```text
//!  0                   1                   2                   3
//!  0 1 2 3 4 5 6 7 8 9 0 1 2 3 4 5 6 7 8 9 0 1 2 3 4 5 6 7 8 9 0 1
//! +-+-+-+-+-+-+-+-+-+-+-+-+-+-+-+-+-+-+-+-+-+-+-+-+-+-+-+-+-+-+-+-+
//! | =0|            kind           |             length            |
//! +-+-+-+-+-+-+-+-+-+-+-+-+-+-+-+-+-+-+-+-+-+-+-+-+-+-+-+-+-+-+-+-+
//! |                           =554869826                          |
//! +-+-+-+-+-+-+-+-+-+-+-+-+-+-+-+-+-+-+-+-+-+-+-+-+-+-+-+-+-+-+-+-+
//! |                          id (3 rows)                          |
//! +-+-+-+-+-+-+-+-+-+-+-+-+-+-+-+-+-+-+-+-+-+-+-+-+-+-+-+-+-+-+-+-+
//! ```

/// The header of a message of STUN (RFC 8489, section 5).
#[derive(Clone, Copy, Debug, PartialEq, Eq, Hash)]
pub struct StunHeader {
    /// The method and the class of the message. Below 2^14.
    pub kind: u16,
    /// The number of bytes after the header.
    pub length: u16,
    /// The transaction.
    pub id: [u8; 12],
}

/// The reason why no `StunHeader` was parsed or packed.
#[derive(Clone, Copy, Debug, PartialEq, Eq, Hash)]
pub enum StunHeaderError {
    /// The bytes end before the fields do.
    EndOfInput,
    /// The buffer is too short.
    NoRoom,
    /// The field of this name has a value that the format does not allow.
    DoesNotFit(&'static str),
    /// The first two bits are not 0.
    NoStun,
    /// The magic cookie is not 0x2112A442.
    NoCookie,
}

impl core::fmt::Display for StunHeaderError {
    fn fmt(&self, f: &mut core::fmt::Formatter<'_>) -> core::fmt::Result {
        f.write_str(match self {
            StunHeaderError::EndOfInput => "the bytes end before the fields do",
            StunHeaderError::NoRoom => "the buffer is too short",
            StunHeaderError::NoStun => "the first two bits are not 0",
            StunHeaderError::NoCookie => "the magic cookie is not 0x2112A442",
            StunHeaderError::DoesNotFit(field) => {
                return write!(f, "`{field}` has a value that the format does not allow")
            }
        })
    }
}

impl core::error::Error for StunHeaderError {}

fn done(status: i32) -> Result<(), StunHeaderError> {
    match status {
        0 => Ok(()),
        2 => Err(StunHeaderError::NoRoom),
        5 => Err(StunHeaderError::NoStun),
        6 => Err(StunHeaderError::NoCookie),
        _ => Err(StunHeaderError::EndOfInput),
    }
}

#[repr(C)]
#[derive(Clone, Copy)]
pub(crate) struct StunHeaderC {
    pub(crate) kind: u16,
    pub(crate) length: u16,
    pub(crate) id: [u8; 12],
}

impl StunHeaderC {
    #[allow(dead_code)]
    pub(crate) const ZERO: StunHeaderC = StunHeaderC {
        kind: 0,
        length: 0,
        id: [0; 12],
    };

    pub(crate) fn new(value: &StunHeader) -> StunHeaderC {
        StunHeaderC {
            kind: value.kind,
            length: value.length,
            id: value.id,
        }
    }

    pub(crate) fn fields(&self) -> Result<StunHeader, &'static str> {
        Ok(StunHeader {
            kind: self.kind,
            length: self.length,
            id: self.id,
        })
    }
}

#[repr(C)]
struct Parsed {
    status: i32,
    value: StunHeaderC,
}

#[repr(C)]
struct Packed {
    status: i32,
    written: usize,
}

extern "C" {
    fn proved_stun_header_parse(bytes: *const u8, length: usize) -> Parsed;
    fn proved_stun_header_pack(value: &StunHeaderC, buffer: *mut u8, length: usize) -> Packed;
    fn stun_header_misfit(value: &StunHeaderC) -> *const core::ffi::c_char;
}

/// Returns the name of a field of C, or an empty text if there is none.
///
/// # Safety
///
/// `name` is null or a text that stays as it is.
unsafe fn named(name: *const core::ffi::c_char) -> &'static str {
    if name.is_null() {
        return "";
    }
    // SAFETY: as above.
    unsafe { core::ffi::CStr::from_ptr(name) }.to_str().unwrap_or_default()
}

// The layout that the proved functions have.
const _: () = assert!(core::mem::size_of::<StunHeaderC>() == 16);
const _: () = assert!(core::mem::offset_of!(StunHeaderC, id) == 4);

impl StunHeader {
    /// The bytes that the fields take.
    pub const SIZE: usize = 20;

    /// Parses the fields at the start of `bytes`.
    ///
    /// # Errors
    ///
    /// The first in the order of the bits: `NoStun`, `NoCookie`; `EndOfInput` for fewer than 20
    /// bytes, if nothing in them is refused.
    pub fn parse(bytes: &[u8]) -> Result<StunHeader, StunHeaderError> {
        // SAFETY: the pointer and the length are a slice's.
        let parsed = unsafe { proved_stun_header_parse(bytes.as_ptr(), bytes.len()) };
        done(parsed.status)?;
        parsed.value.fields().map_err(StunHeaderError::DoesNotFit)
    }

    /// Writes the fields to the first 20 bytes of a buffer, and returns 20. The other bytes stay as
    /// they were. After an error all bytes are as before.
    ///
    /// # Errors
    ///
    /// `DoesNotFit` if a field has a value that the format does not allow; else `NoRoom` for fewer
    /// than 20 bytes.
    pub fn pack_into(&self, buffer: &mut [u8]) -> Result<usize, StunHeaderError> {
        let value = StunHeaderC::new(self);
        // SAFETY: the pointer and the length are a slice's, which is borrowed mutably.
        let packed = unsafe { proved_stun_header_pack(&value, buffer.as_mut_ptr(), buffer.len()) };
        if packed.status == 3 {
            // SAFETY: as above; the name is null or a constant of the library.
            return Err(StunHeaderError::DoesNotFit(unsafe { named(stun_header_misfit(&value)) }));
        }
        done(packed.status)?;
        Ok(packed.written)
    }

    /// Returns the 20 bytes of the fields.
    ///
    /// # Errors
    ///
    /// `DoesNotFit` if a field has a value that the format does not allow.
    pub fn pack(&self) -> Result<[u8; 20], StunHeaderError> {
        let mut bytes = [0; 20];
        self.pack_into(&mut bytes)?;
        Ok(bytes)
    }
}
