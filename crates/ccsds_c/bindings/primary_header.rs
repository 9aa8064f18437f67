//! Made by `./format --c` from ../bitstream_callers/formats/primary_header.fields: edit that file and make this one anew.
//!
//! The primary header of a CCSDS space packet.
//!
//! ```text
//!  0                   1                   2                   3
//!  0 1 2 3 4 5 6 7 8 9 0 1 2 3 4 5 6 7 8 9 0 1 2 3 4 5 6 7 8 9 0 1
//! +-+-+-+-+-+-+-+-+-+-+-+-+-+-+-+-+-+-+-+-+-+-+-+-+-+-+-+-+-+-+-+-+
//! |  =0 |t|s|         apid        |seq|           count           |
//! +-+-+-+-+-+-+-+-+-+-+-+-+-+-+-+-+-+-+-+-+-+-+-+-+-+-+-+-+-+-+-+-+
//! |             length            |
//! +-+-+-+-+-+-+-+-+-+-+-+-+-+-+-+-+
//! ```

/// The primary header of a CCSDS space packet.
#[derive(Clone, Copy, Debug, PartialEq, Eq, Hash)]
pub struct PrimaryHeader {
    /// True if the packet is a telecommand, and not telemetry.
    pub telecommand: bool,
    /// True if a secondary header follows.
    pub secondary: bool,
    /// The application of the packet. Below 2^11.
    pub apid: u16,
    /// The sequence flags. Below 2^2.
    pub sequence: u8,
    /// The number of the packet in its sequence. Below 2^14.
    pub count: u16,
    /// The number of bytes in the data field, minus 1.
    pub length: u16,
}

/// The reason why no `PrimaryHeader` was parsed or packed.
#[derive(Clone, Copy, Debug, PartialEq, Eq, Hash)]
pub enum PrimaryHeaderError {
    /// The bytes end before the fields do.
    EndOfInput,
    /// The buffer is too short.
    NoRoom,
    /// The field of this name has a value that the format does not allow.
    DoesNotFit(&'static str),
    /// The version is not 0.
    WrongVersion,
}

impl core::fmt::Display for PrimaryHeaderError {
    fn fmt(&self, f: &mut core::fmt::Formatter<'_>) -> core::fmt::Result {
        f.write_str(match self {
            PrimaryHeaderError::EndOfInput => "the bytes end before the fields do",
            PrimaryHeaderError::NoRoom => "the buffer is too short",
            PrimaryHeaderError::WrongVersion => "the version is not 0",
            PrimaryHeaderError::DoesNotFit(field) => {
                return write!(f, "`{field}` has a value that the format does not allow")
            }
        })
    }
}

impl core::error::Error for PrimaryHeaderError {}

fn done(status: i32) -> Result<(), PrimaryHeaderError> {
    match status {
        0 => Ok(()),
        2 => Err(PrimaryHeaderError::NoRoom),
        5 => Err(PrimaryHeaderError::WrongVersion),
        _ => Err(PrimaryHeaderError::EndOfInput),
    }
}

#[repr(C)]
#[derive(Clone, Copy)]
pub(crate) struct PrimaryHeaderC {
    pub(crate) telecommand: u8,
    pub(crate) secondary: u8,
    pub(crate) apid: u16,
    pub(crate) sequence: u8,
    pub(crate) count: u16,
    pub(crate) length: u16,
}

impl PrimaryHeaderC {
    #[allow(dead_code)]
    pub(crate) const ZERO: PrimaryHeaderC = PrimaryHeaderC {
        telecommand: 0,
        secondary: 0,
        apid: 0,
        sequence: 0,
        count: 0,
        length: 0,
    };

    pub(crate) fn new(value: &PrimaryHeader) -> PrimaryHeaderC {
        PrimaryHeaderC {
            telecommand: u8::from(value.telecommand),
            secondary: u8::from(value.secondary),
            apid: value.apid,
            sequence: value.sequence,
            count: value.count,
            length: value.length,
        }
    }

    pub(crate) fn fields(&self) -> Result<PrimaryHeader, &'static str> {
        Ok(PrimaryHeader {
            telecommand: self.telecommand != 0,
            secondary: self.secondary != 0,
            apid: self.apid,
            sequence: self.sequence,
            count: self.count,
            length: self.length,
        })
    }
}

#[repr(C)]
struct Parsed {
    status: i32,
    value: PrimaryHeaderC,
}

#[repr(C)]
struct Packed {
    status: i32,
    written: usize,
}

extern "C" {
    fn proved_primary_header_parse(bytes: *const u8, length: usize) -> Parsed;
    fn proved_primary_header_pack(value: &PrimaryHeaderC, buffer: *mut u8, length: usize) -> Packed;
    fn primary_header_misfit(value: &PrimaryHeaderC) -> *const core::ffi::c_char;
}

/// Returns the name of a field of C, or an empty text if there is none.
///
/// # Safety
///
/// `name` is null or a text that stays as it is.
unsafe fn named(name: *const core::ffi::c_char) -> &'static str {
    if name.is_null() {
        return "";
    }
    // SAFETY: as above.
    unsafe { core::ffi::CStr::from_ptr(name) }.to_str().unwrap_or_default()
}

// The layout that the proved functions have.
const _: () = assert!(core::mem::size_of::<PrimaryHeaderC>() == 10);
const _: () = assert!(core::mem::offset_of!(PrimaryHeaderC, length) == 8);

impl PrimaryHeader {
    /// The bytes that the fields take.
    pub const SIZE: usize = 6;

    /// Parses the fields at the start of `bytes`.
    ///
    /// # Errors
    ///
    /// The first in the order of the bits: `WrongVersion`; `EndOfInput` for fewer than 6 bytes, if
    /// nothing in them is refused.
    pub fn parse(bytes: &[u8]) -> Result<PrimaryHeader, PrimaryHeaderError> {
        // SAFETY: the pointer and the length are a slice's.
        let parsed = unsafe { proved_primary_header_parse(bytes.as_ptr(), bytes.len()) };
        done(parsed.status)?;
        parsed.value.fields().map_err(PrimaryHeaderError::DoesNotFit)
    }

    /// Writes the fields to the first 6 bytes of a buffer, and returns 6. The other bytes stay as
    /// they were. After an error all bytes are as before.
    ///
    /// # Errors
    ///
    /// `DoesNotFit` if a field has a value that the format does not allow; else `NoRoom` for fewer
    /// than 6 bytes.
    pub fn pack_into(&self, buffer: &mut [u8]) -> Result<usize, PrimaryHeaderError> {
        let value = PrimaryHeaderC::new(self);
        // SAFETY: the pointer and the length are a slice's, which is borrowed mutably.
        let packed = unsafe { proved_primary_header_pack(&value, buffer.as_mut_ptr(), buffer.len()) };
        if packed.status == 3 {
            // SAFETY: as above; the name is null or a constant of the library.
            return Err(PrimaryHeaderError::DoesNotFit(unsafe { named(primary_header_misfit(&value)) }));
        }
        done(packed.status)?;
        Ok(packed.written)
    }

    /// Returns the 6 bytes of the fields.
    ///
    /// # Errors
    ///
    /// `DoesNotFit` if a field has a value that the format does not allow.
    pub fn pack(&self) -> Result<[u8; 6], PrimaryHeaderError> {
        let mut bytes = [0; 6];
        self.pack_into(&mut bytes)?;
        Ok(bytes)
    }
}
