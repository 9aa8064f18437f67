//! Made by `./format --c` from ../protocols/formats/coap_header.fields: edit that file and make this one anew.
//!
//! The header of a CoAP message and its token (RFC 7252, section 3).
//!
//! ```text
//!  0                   1                   2                   3
//!  0 1 2 3 4 5 6 7 8 9 0 1 2 3 4 5 6 7 8 9 0 1 2 3 4 5 6 7 8 9 0 1
//! +-+-+-+-+-+-+-+-+-+-+-+-+-+-+-+-+-+-+-+-+-+-+-+-+-+-+-+-+-+-+-+-+
//! | =1|kin|token_c|class|  detail |               id              |
//! +-+-+-+-+-+-+-+-+-+-+-+-+-+-+-+-+-+-+-+-+-+-+-+-+-+-+-+-+-+-+-+-+
//! /                   token (token_count bytes)                   /
//! +-+-+-+-+-+-+-+-+-+-+-+-+-+-+-+-+-+-+-+-+-+-+-+-+-+-+-+-+-+-+-+-+
//! ```

extern crate alloc;
use alloc::vec;
use alloc::vec::Vec;

/// The header of a CoAP message and its token (RFC 7252, section 3).
#[derive(Clone, Debug, PartialEq, Eq, Hash)]
pub struct CoapHeader {
    /// The kind of the message.
    pub kind: Message,
    /// The class of the code: a request, or how it went. Below 2^3.
    pub class: u8,
    /// The method of a request, or the detail of a response. Below 2^5.
    pub detail: u8,
    /// The number that an acknowledgement shares with its message.
    pub id: u16,
    /// The bytes that a response shares with its request. Fewer than 2^4.
    pub token: Vec<u8>,
}

/// The kind of the message.
#[derive(Clone, Copy, Debug, PartialEq, Eq, Hash)]
pub enum Message {
    /// Encoded as 0.
    Confirmable,
    /// Encoded as 1.
    NonConfirmable,
    /// Encoded as 2.
    Acknowledgement,
    /// Encoded as 3.
    Reset,
}

impl Message {
    pub(crate) fn of(number: u8) -> Option<Message> {
        match number {
            0 => Some(Message::Confirmable),
            1 => Some(Message::NonConfirmable),
            2 => Some(Message::Acknowledgement),
            3 => Some(Message::Reset),
            _ => None,
        }
    }

    /// Returns the number.
    pub fn number(self) -> u8 {
        match self {
            Message::Confirmable => 0,
            Message::NonConfirmable => 1,
            Message::Acknowledgement => 2,
            Message::Reset => 3,
        }
    }
}

/// The reason why no `CoapHeader` was parsed or packed.
#[derive(Clone, Copy, Debug, PartialEq, Eq, Hash)]
pub enum CoapError {
    /// The bytes end before the fields do.
    EndOfInput,
    /// The buffer is too short.
    NoRoom,
    /// The field of this name has a value that the format does not allow.
    DoesNotFit(&'static str),
    /// The version is not 1.
    OtherVersion,
}

impl core::fmt::Display for CoapError {
    fn fmt(&self, f: &mut core::fmt::Formatter<'_>) -> core::fmt::Result {
        f.write_str(match self {
            CoapError::EndOfInput => "the bytes end before the fields do",
            CoapError::NoRoom => "the buffer is too short",
            CoapError::OtherVersion => "the version is not 1",
            CoapError::DoesNotFit(field) => {
                return write!(f, "`{field}` has a value that the format does not allow")
            }
        })
    }
}

impl core::error::Error for CoapError {}

fn done(status: i32) -> Result<(), CoapError> {
    match status {
        0 => Ok(()),
        2 => Err(CoapError::NoRoom),
        6 => Err(CoapError::OtherVersion),
        _ => Err(CoapError::EndOfInput),
    }
}

#[repr(C)]
#[derive(Clone, Copy)]
pub(crate) struct CoapHeaderC {
    pub(crate) kind: u8,
    pub(crate) class: u8,
    pub(crate) detail: u8,
    pub(crate) id: u16,
    pub(crate) token: usize,
}

impl CoapHeaderC {
    #[allow(dead_code)]
    pub(crate) const ZERO: CoapHeaderC = CoapHeaderC {
        kind: 0,
        class: 0,
        detail: 0,
        id: 0,
        token: 0,
    };

    pub(crate) fn new(value: &CoapHeader) -> CoapHeaderC {
        CoapHeaderC {
            kind: value.kind.number(),
            class: value.class,
            detail: value.detail,
            id: value.id,
            token: value.token.len(),
        }
    }

    pub(crate) fn fields(&self, token_items: Vec<u8>) -> Result<CoapHeader, &'static str> {
        Ok(CoapHeader {
            kind: Message::of(self.kind).ok_or("kind")?,
            class: self.class,
            detail: self.detail,
            id: self.id,
            token: token_items,
        })
    }
}

#[repr(C)]
struct Parsed {
    status: i32,
    taken: usize,
    value: CoapHeaderC,
}

#[repr(C)]
struct Packed {
    status: i32,
    written: usize,
}

extern "C" {
    fn proved_coap_header_parse(bytes: *const u8, length: usize, token_items: *mut u8, token_count: usize) -> Parsed;
    fn proved_coap_header_pack(value: &CoapHeaderC, token_items: *const u8, token_count: usize, buffer: *mut u8, length: usize) -> Packed;
    fn misfit_of_coap_header(value: &CoapHeaderC, token_items: *const u8, token_count: usize) -> *const core::ffi::c_char;
}

/// Returns the name of a field of C, or an empty text if there is none.
///
/// # Safety
///
/// `name` is null or a text that stays as it is.
unsafe fn named(name: *const core::ffi::c_char) -> &'static str {
    if name.is_null() {
        return "";
    }
    // SAFETY: as above.
    unsafe { core::ffi::CStr::from_ptr(name) }.to_str().unwrap_or_default()
}

// The layout that the proved functions have.
const _: () = assert!(core::mem::size_of::<CoapHeaderC>() == 16);
const _: () = assert!(core::mem::offset_of!(CoapHeaderC, token) == 8);

impl CoapHeader {
    /// Parses the fields at the start of `bytes`, and returns them with the number of bytes that
    /// they take.
    ///
    /// # Errors
    ///
    /// The first in the order of the bits: `OtherVersion`; `EndOfInput` if the bytes end before the
    /// fields do, if nothing in them is refused.
    pub fn parse(bytes: &[u8]) -> Result<(CoapHeader, usize), CoapError> {
        let mut token_items = Vec::new();
        loop {
            // SAFETY: the pointers and the lengths are those of slices, of which the later ones are borrowed mutably.
            let parsed = unsafe { proved_coap_header_parse(bytes.as_ptr(), bytes.len(), token_items.as_mut_ptr(), token_items.len()) };
            match parsed.status {
                5 => token_items = vec![0; parsed.taken],
                status => {
                    done(status)?;
                    token_items.truncate(parsed.value.token);
                    let fields = parsed.value.fields(token_items).map(|it| (it, parsed.taken));
                    return fields.map_err(CoapError::DoesNotFit);
                }
            }
        }
    }

    /// Writes the fields to the first bytes of a buffer, and zeros up to a whole byte, and returns
    /// the number of these bytes. The other bytes stay as they were. After an error all bytes are
    /// as before.
    ///
    /// # Errors
    ///
    /// `DoesNotFit` if a field has a value that the format does not allow; else `NoRoom` if the
    /// buffer is too short.
    pub fn pack_into(&self, buffer: &mut [u8]) -> Result<usize, CoapError> {
        let value = CoapHeaderC::new(self);
        // SAFETY: the pointer and the length are a slice's, which is borrowed mutably.
        let packed = unsafe { proved_coap_header_pack(&value, self.token.as_ptr(), self.token.len(), buffer.as_mut_ptr(), buffer.len()) };
        if packed.status == 3 {
            // SAFETY: as above; the name is null or a constant of the library.
            return Err(CoapError::DoesNotFit(unsafe { named(misfit_of_coap_header(&value, self.token.as_ptr(), self.token.len())) }));
        }
        done(packed.status)?;
        Ok(packed.written)
    }

    /// Returns the bytes of the fields.
    ///
    /// # Errors
    ///
    /// `DoesNotFit` if a field has a value that the format does not allow.
    pub fn pack(&self) -> Result<Vec<u8>, CoapError> {
        let mut bytes = vec![0; 64];
        loop {
            match self.pack_into(&mut bytes) {
                Err(CoapError::NoRoom) => bytes = vec![0; 2 * bytes.len()],
                Err(error) => return Err(error),
                Ok(written) => {
                    bytes.truncate(written);
                    return Ok(bytes);
                }
            }
        }
    }
}
