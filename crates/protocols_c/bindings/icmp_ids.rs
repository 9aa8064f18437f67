//! Made by `./format --c` from ../protocols/formats/icmp_ids.fields: edit that file and make this one anew.
//!
//! The numbers that identify an echo.
//!
//! ```text
//!  0                   1                   2                   3
//!  0 1 2 3 4 5 6 7 8 9 0 1 2 3 4 5 6 7 8 9 0 1 2 3 4 5 6 7 8 9 0 1
//! +-+-+-+-+-+-+-+-+-+-+-+-+-+-+-+-+-+-+-+-+-+-+-+-+-+-+-+-+-+-+-+-+
//! |           identifier          |            sequence           |
//! +-+-+-+-+-+-+-+-+-+-+-+-+-+-+-+-+-+-+-+-+-+-+-+-+-+-+-+-+-+-+-+-+
//! ```

/// The numbers that identify an echo.
#[derive(Clone, Copy, Debug, PartialEq, Eq, Hash)]
pub struct IcmpIds {
    /// The number that a reply shares with its request.
    pub identifier: u16,
    /// The number of the request among its sender's requests.
    pub sequence: u16,
}

/// The reason why no `IcmpIds` was parsed or packed.
#[derive(Clone, Copy, Debug, PartialEq, Eq, Hash)]
pub enum IcmpIdsError {
    /// The bytes end before the fields do.
    EndOfInput,
    /// The buffer is too short.
    NoRoom,
    /// The field of this name has a value that the format does not allow.
    DoesNotFit(&'static str),
}

impl core::fmt::Display for IcmpIdsError {
    fn fmt(&self, f: &mut core::fmt::Formatter<'_>) -> core::fmt::Result {
        f.write_str(match self {
            IcmpIdsError::EndOfInput => "the bytes end before the fields do",
            IcmpIdsError::NoRoom => "the buffer is too short",
            IcmpIdsError::DoesNotFit(field) => {
                return write!(f, "`{field}` has a value that the format does not allow")
            }
        })
    }
}

impl core::error::Error for IcmpIdsError {}

fn done(status: i32) -> Result<(), IcmpIdsError> {
    match status {
        0 => Ok(()),
        2 => Err(IcmpIdsError::NoRoom),
        _ => Err(IcmpIdsError::EndOfInput),
    }
}

#[repr(C)]
#[derive(Clone, Copy)]
pub(crate) struct IcmpIdsC {
    pub(crate) identifier: u16,
    pub(crate) sequence: u16,
}

impl IcmpIdsC {
    #[allow(dead_code)]
    pub(crate) const ZERO: IcmpIdsC = IcmpIdsC {
        identifier: 0,
        sequence: 0,
    };

    pub(crate) fn new(value: &IcmpIds) -> IcmpIdsC {
        IcmpIdsC {
            identifier: value.identifier,
            sequence: value.sequence,
        }
    }

    pub(crate) fn fields(&self) -> Result<IcmpIds, &'static str> {
        Ok(IcmpIds {
            identifier: self.identifier,
            sequence: self.sequence,
        })
    }
}

#[repr(C)]
struct Parsed {
    status: i32,
    value: IcmpIdsC,
}

#[repr(C)]
struct Packed {
    status: i32,
    written: usize,
}

extern "C" {
    fn proved_icmp_ids_parse(bytes: *const u8, length: usize) -> Parsed;
    fn proved_icmp_ids_pack(value: &IcmpIdsC, buffer: *mut u8, length: usize) -> Packed;
    fn icmp_ids_misfit(value: &IcmpIdsC) -> *const core::ffi::c_char;
}

/// Returns the name of a field of C, or an empty text if there is none.
///
/// # Safety
///
/// `name` is null or a text that stays as it is.
unsafe fn named(name: *const core::ffi::c_char) -> &'static str {
    if name.is_null() {
        return "";
    }
    // SAFETY: as above.
    unsafe { core::ffi::CStr::from_ptr(name) }.to_str().unwrap_or_default()
}

// The layout that the proved functions have.
const _: () = assert!(core::mem::size_of::<IcmpIdsC>() == 4);
const _: () = assert!(core::mem::offset_of!(IcmpIdsC, sequence) == 2);

impl IcmpIds {
    /// The bytes that the fields take.
    pub const SIZE: usize = 4;

    /// Parses the fields at the start of `bytes`.
    ///
    /// # Errors
    ///
    /// `EndOfInput` for fewer than 4 bytes.
    pub fn parse(bytes: &[u8]) -> Result<IcmpIds, IcmpIdsError> {
        // SAFETY: the pointer and the length are a slice's.
        let parsed = unsafe { proved_icmp_ids_parse(bytes.as_ptr(), bytes.len()) };
        done(parsed.status)?;
        parsed.value.fields().map_err(IcmpIdsError::DoesNotFit)
    }

    /// Writes the fields to the first 4 bytes of a buffer, and returns 4. The other bytes stay as
    /// they were. After an error all bytes are as before.
    ///
    /// # Errors
    ///
    /// `DoesNotFit` if a field has a value that the format does not allow; else `NoRoom` for fewer
    /// than 4 bytes.
    pub fn pack_into(&self, buffer: &mut [u8]) -> Result<usize, IcmpIdsError> {
        let value = IcmpIdsC::new(self);
        // SAFETY: the pointer and the length are a slice's, which is borrowed mutably.
        let packed = unsafe { proved_icmp_ids_pack(&value, buffer.as_mut_ptr(), buffer.len()) };
        if packed.status == 3 {
            // SAFETY: as above; the name is null or a constant of the library.
            return Err(IcmpIdsError::DoesNotFit(unsafe { named(icmp_ids_misfit(&value)) }));
        }
        done(packed.status)?;
        Ok(packed.written)
    }

    /// Returns the 4 bytes of the fields.
    ///
    /// # Errors
    ///
    /// `DoesNotFit` if a field has a value that the format does not allow.
    pub fn pack(&self) -> Result<[u8; 4], IcmpIdsError> {
        let mut bytes = [0; 4];
        self.pack_into(&mut bytes)?;
        Ok(bytes)
    }
}
