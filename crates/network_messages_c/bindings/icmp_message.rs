//! Made by `./format --c` from ../network_messages/formats/icmp_message.fields: edit that file and make this one anew.
//!
//! An echo or an echo reply of ICMP, with its checksum (RFC 792).
//!
//! ```text
//!  0                   1                   2                   3
//!  0 1 2 3 4 5 6 7 8 9 0 1 2 3 4 5 6 7 8 9 0 1 2 3 4 5 6 7 8 9 0 1
//! +-+-+-+-+-+-+-+-+-+-+-+-+-+-+-+-+-+-+-+-+-+-+-+-+-+-+-+-+-+-+-+-+
//! |      kind     |      code     |          stored_sum16         |
//! +-+-+-+-+-+-+-+-+-+-+-+-+-+-+-+-+-+-+-+-+-+-+-+-+-+-+-+-+-+-+-+-+
//! |           identifier          |            sequence           |
//! +-+-+-+-+-+-+-+-+-+-+-+-+-+-+-+-+-+-+-+-+-+-+-+-+-+-+-+-+-+-+-+-+
//! /                    data (bytes to the end)                    /
//! +-+-+-+-+-+-+-+-+-+-+-+-+-+-+-+-+-+-+-+-+-+-+-+-+-+-+-+-+-+-+-+-+
//! ```

extern crate alloc;
use alloc::vec;
use alloc::vec::Vec;

/// An echo or an echo reply of ICMP, with its checksum (RFC 792).
#[derive(Clone, Debug, PartialEq, Eq, Hash)]
pub struct IcmpMessage {
    /// The message.
    pub kind: Echo,
    /// The code, which is 0.
    pub code: u8,
    /// Which program asks.
    pub identifier: u16,
    /// The number of the message.
    pub sequence: u16,
    /// The data, which the reply repeats. All bytes up to the end. At most 4294967295 are packed.
    pub data: Vec<u8>,
}

/// The message.
#[derive(Clone, Copy, Debug, PartialEq, Eq, Hash)]
pub enum Echo {
    /// Encoded as 0.
    Reply,
    /// Encoded as 8.
    Request,
}

impl Echo {
    pub(crate) fn of(number: u8) -> Option<Echo> {
        match number {
            0 => Some(Echo::Reply),
            8 => Some(Echo::Request),
            _ => None,
        }
    }

    /// Returns the number.
    pub fn number(self) -> u8 {
        match self {
            Echo::Reply => 0,
            Echo::Request => 8,
        }
    }
}

/// The reason why no `IcmpMessage` was parsed or packed.
#[derive(Clone, Copy, Debug, PartialEq, Eq, Hash)]
pub enum IcmpMessageError {
    /// The bytes end before the fields do.
    EndOfInput,
    /// The buffer is too short.
    NoRoom,
    /// The field of this name has a value that the format does not allow.
    DoesNotFit(&'static str),
    /// `kind` is not the number of a case of `Echo`.
    NoEcho,
    /// The checksum is not that of the message.
    WrongSum,
}

impl core::fmt::Display for IcmpMessageError {
    fn fmt(&self, f: &mut core::fmt::Formatter<'_>) -> core::fmt::Result {
        f.write_str(match self {
            IcmpMessageError::EndOfInput => "the bytes end before the fields do",
            IcmpMessageError::NoRoom => "the buffer is too short",
            IcmpMessageError::NoEcho => "`kind` is not the number of a case of `Echo`",
            IcmpMessageError::WrongSum => "the checksum is not that of the message",
            IcmpMessageError::DoesNotFit(field) => {
                return write!(f, "`{field}` has a value that the format does not allow")
            }
        })
    }
}

impl core::error::Error for IcmpMessageError {}

fn done(status: i32) -> Result<(), IcmpMessageError> {
    match status {
        0 => Ok(()),
        2 => Err(IcmpMessageError::NoRoom),
        6 => Err(IcmpMessageError::NoEcho),
        7 => Err(IcmpMessageError::WrongSum),
        _ => Err(IcmpMessageError::EndOfInput),
    }
}

#[repr(C)]
#[derive(Clone, Copy)]
pub(crate) struct IcmpMessageC {
    pub(crate) kind: u8,
    pub(crate) code: u8,
    pub(crate) identifier: u16,
    pub(crate) sequence: u16,
    pub(crate) data: usize,
}

impl IcmpMessageC {
    #[allow(dead_code)]
    pub(crate) const ZERO: IcmpMessageC = IcmpMessageC {
        kind: 0,
        code: 0,
        identifier: 0,
        sequence: 0,
        data: 0,
    };

    pub(crate) fn new(value: &IcmpMessage) -> IcmpMessageC {
        IcmpMessageC {
            kind: value.kind.number(),
            code: value.code,
            identifier: value.identifier,
            sequence: value.sequence,
            data: value.data.len(),
        }
    }

    pub(crate) fn fields(&self, data_items: Vec<u8>) -> Result<IcmpMessage, &'static str> {
        Ok(IcmpMessage {
            kind: Echo::of(self.kind).ok_or("kind")?,
            code: self.code,
            identifier: self.identifier,
            sequence: self.sequence,
            data: data_items,
        })
    }
}

#[repr(C)]
struct Parsed {
    status: i32,
    taken: usize,
    value: IcmpMessageC,
}

#[repr(C)]
struct Packed {
    status: i32,
    written: usize,
}

extern "C" {
    fn proved_icmp_message_parse(bytes: *const u8, length: usize, data_items: *mut u8, data_count: usize) -> Parsed;
    fn proved_icmp_message_pack(value: &IcmpMessageC, data_items: *const u8, data_count: usize, buffer: *mut u8, length: usize) -> Packed;
    fn misfit_of_icmp_message(value: &IcmpMessageC, data_items: *const u8, data_count: usize) -> *const core::ffi::c_char;
}

/// Returns the name of a field of C, or an empty text if there is none.
///
/// # Safety
///
/// `name` is null or a text that stays as it is.
unsafe fn named(name: *const core::ffi::c_char) -> &'static str {
    if name.is_null() {
        return "";
    }
    // SAFETY: as above.
    unsafe { core::ffi::CStr::from_ptr(name) }.to_str().unwrap_or_default()
}

// The layout that the proved functions have.
const _: () = assert!(core::mem::size_of::<IcmpMessageC>() == 16);
const _: () = assert!(core::mem::offset_of!(IcmpMessageC, data) == 8);

impl IcmpMessage {
    /// Parses `bytes` as the fields, and returns them with the number of bytes that they take.
    ///
    /// # Errors
    ///
    /// The first in the order of the bits: `NoEcho`, `WrongSum`; `EndOfInput` if the bytes end
    /// before the fields do, if nothing in them is refused.
    pub fn parse(bytes: &[u8]) -> Result<(IcmpMessage, usize), IcmpMessageError> {
        let mut data_items = vec![0; bytes.len()];
        loop {
            // SAFETY: the pointers and the lengths are those of slices, of which the later ones are borrowed mutably.
            let parsed = unsafe { proved_icmp_message_parse(bytes.as_ptr(), bytes.len(), data_items.as_mut_ptr(), data_items.len()) };
            match parsed.status {
                5 => data_items = vec![0; parsed.taken],
                status => {
                    done(status)?;
                    data_items.truncate(parsed.value.data);
                    let fields = parsed.value.fields(data_items).map(|it| (it, parsed.taken));
                    return fields.map_err(IcmpMessageError::DoesNotFit);
                }
            }
        }
    }

    /// Writes the fields to the first bytes of a buffer, and zeros up to a whole byte, and returns
    /// the number of these bytes. The other bytes stay as they were. After an error all bytes are
    /// as before.
    ///
    /// # Errors
    ///
    /// `DoesNotFit` if a field has a value that the format does not allow; else `NoRoom` if the
    /// buffer is too short.
    pub fn pack_into(&self, buffer: &mut [u8]) -> Result<usize, IcmpMessageError> {
        let value = IcmpMessageC::new(self);
        // SAFETY: the pointer and the length are a slice's, which is borrowed mutably.
        let packed = unsafe { proved_icmp_message_pack(&value, self.data.as_ptr(), self.data.len(), buffer.as_mut_ptr(), buffer.len()) };
        if packed.status == 3 {
            // SAFETY: as above; the name is null or a constant of the library.
            return Err(IcmpMessageError::DoesNotFit(unsafe { named(misfit_of_icmp_message(&value, self.data.as_ptr(), self.data.len())) }));
        }
        done(packed.status)?;
        Ok(packed.written)
    }

    /// Returns the bytes of the fields.
    ///
    /// # Errors
    ///
    /// `DoesNotFit` if a field has a value that the format does not allow.
    pub fn pack(&self) -> Result<Vec<u8>, IcmpMessageError> {
        let mut bytes = vec![0; 64];
        loop {
            match self.pack_into(&mut bytes) {
                Err(IcmpMessageError::NoRoom) => bytes = vec![0; 2 * bytes.len()],
                Err(error) => return Err(error),
                Ok(written) => {
                    bytes.truncate(written);
                    return Ok(bytes);
                }
            }
        }
    }
}
