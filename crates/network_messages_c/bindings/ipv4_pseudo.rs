//! Made by `./format --c` from ../network_messages/formats/ipv4_pseudo.fields: edit that file and make this one anew.
//!
//! The fields of a header of IPv4 that the checksums of UDP and TCP cover (RFC 768; RFC 9293, section 3.1).
//!
//! ```text
//!  0                   1                   2                   3
//!  0 1 2 3 4 5 6 7 8 9 0 1 2 3 4 5 6 7 8 9 0 1 2 3 4 5 6 7 8 9 0 1
//! +-+-+-+-+-+-+-+-+-+-+-+-+-+-+-+-+-+-+-+-+-+-+-+-+-+-+-+-+-+-+-+-+
//! |                             source                            |
//! +-+-+-+-+-+-+-+-+-+-+-+-+-+-+-+-+-+-+-+-+-+-+-+-+-+-+-+-+-+-+-+-+
//! |                             target                            |
//! +-+-+-+-+-+-+-+-+-+-+-+-+-+-+-+-+-+-+-+-+-+-+-+-+-+-+-+-+-+-+-+-+
//! |       0       |    protocol   |             length            |
//! +-+-+-+-+-+-+-+-+-+-+-+-+-+-+-+-+-+-+-+-+-+-+-+-+-+-+-+-+-+-+-+-+
//! ```

/// The fields of a header of IPv4 that the checksums of UDP and TCP cover (RFC 768; RFC 9293,
/// section 3.1).
#[derive(Clone, Copy, Debug, PartialEq, Eq, Hash)]
pub struct Ipv4Pseudo {
    /// The sender.
    pub source: [u8; 4],
    /// The receiver.
    pub target: [u8; 4],
    /// The protocol.
    pub protocol: u8,
    /// The bytes of the datagram or the segment.
    pub length: u16,
}

/// The reason why no `Ipv4Pseudo` was parsed or packed.
#[derive(Clone, Copy, Debug, PartialEq, Eq, Hash)]
pub enum Ipv4PseudoError {
    /// The bytes end before the fields do.
    EndOfInput,
    /// The buffer is too short.
    NoRoom,
    /// The field of this name has a value that the format does not allow.
    DoesNotFit(&'static str),
}

impl core::fmt::Display for Ipv4PseudoError {
    fn fmt(&self, f: &mut core::fmt::Formatter<'_>) -> core::fmt::Result {
        f.write_str(match self {
            Ipv4PseudoError::EndOfInput => "the bytes end before the fields do",
            Ipv4PseudoError::NoRoom => "the buffer is too short",
            Ipv4PseudoError::DoesNotFit(field) => {
                return write!(f, "`{field}` has a value that the format does not allow")
            }
        })
    }
}

impl core::error::Error for Ipv4PseudoError {}

fn done(status: i32) -> Result<(), Ipv4PseudoError> {
    match status {
        0 => Ok(()),
        2 => Err(Ipv4PseudoError::NoRoom),
        _ => Err(Ipv4PseudoError::EndOfInput),
    }
}

#[repr(C)]
#[derive(Clone, Copy)]
pub(crate) struct Ipv4PseudoC {
    pub(crate) source: [u8; 4],
    pub(crate) target: [u8; 4],
    pub(crate) protocol: u8,
    pub(crate) length: u16,
}

impl Ipv4PseudoC {
    #[allow(dead_code)]
    pub(crate) const ZERO: Ipv4PseudoC = Ipv4PseudoC {
        source: [0; 4],
        target: [0; 4],
        protocol: 0,
        length: 0,
    };

    pub(crate) fn new(value: &Ipv4Pseudo) -> Ipv4PseudoC {
        Ipv4PseudoC {
            source: value.source,
            target: value.target,
            protocol: value.protocol,
            length: value.length,
        }
    }

    pub(crate) fn fields(&self) -> Result<Ipv4Pseudo, &'static str> {
        Ok(Ipv4Pseudo {
            source: self.source,
            target: self.target,
            protocol: self.protocol,
            length: self.length,
        })
    }
}

#[repr(C)]
struct Parsed {
    status: i32,
    value: Ipv4PseudoC,
}

#[repr(C)]
struct Packed {
    status: i32,
    written: usize,
}

extern "C" {
    fn proved_ipv4_pseudo_parse(bytes: *const u8, length: usize) -> Parsed;
    fn proved_ipv4_pseudo_pack(value: &Ipv4PseudoC, buffer: *mut u8, length: usize) -> Packed;
    fn ipv4_pseudo_misfit(value: &Ipv4PseudoC) -> *const core::ffi::c_char;
}

/// Returns the name of a field of C, or an empty text if there is none.
///
/// # Safety
///
/// `name` is null or a text that stays as it is.
unsafe fn named(name: *const core::ffi::c_char) -> &'static str {
    if name.is_null() {
        return "";
    }
    // SAFETY: as above.
    unsafe { core::ffi::CStr::from_ptr(name) }.to_str().unwrap_or_default()
}

// The layout that the proved functions have.
const _: () = assert!(core::mem::size_of::<Ipv4PseudoC>() == 12);
const _: () = assert!(core::mem::offset_of!(Ipv4PseudoC, length) == 10);

impl Ipv4Pseudo {
    /// The bytes that the fields take.
    pub const SIZE: usize = 12;

    /// Parses the fields at the start of `bytes`.
    ///
    /// # Errors
    ///
    /// `EndOfInput` for fewer than 12 bytes.
    pub fn parse(bytes: &[u8]) -> Result<Ipv4Pseudo, Ipv4PseudoError> {
        // SAFETY: the pointer and the length are a slice's.
        let parsed = unsafe { proved_ipv4_pseudo_parse(bytes.as_ptr(), bytes.len()) };
        done(parsed.status)?;
        parsed.value.fields().map_err(Ipv4PseudoError::DoesNotFit)
    }

    /// Writes the fields to the first 12 bytes of a buffer, and returns 12. The other bytes stay as
    /// they were. After an error all bytes are as before.
    ///
    /// # Errors
    ///
    /// `DoesNotFit` if a field has a value that the format does not allow; else `NoRoom` for fewer
    /// than 12 bytes.
    pub fn pack_into(&self, buffer: &mut [u8]) -> Result<usize, Ipv4PseudoError> {
        let value = Ipv4PseudoC::new(self);
        // SAFETY: the pointer and the length are a slice's, which is borrowed mutably.
        let packed = unsafe { proved_ipv4_pseudo_pack(&value, buffer.as_mut_ptr(), buffer.len()) };
        if packed.status == 3 {
            // SAFETY: as above; the name is null or a constant of the library.
            return Err(Ipv4PseudoError::DoesNotFit(unsafe { named(ipv4_pseudo_misfit(&value)) }));
        }
        done(packed.status)?;
        Ok(packed.written)
    }

    /// Returns the 12 bytes of the fields.
    ///
    /// # Errors
    ///
    /// `DoesNotFit` if a field has a value that the format does not allow.
    pub fn pack(&self) -> Result<[u8; 12], Ipv4PseudoError> {
        let mut bytes = [0; 12];
        self.pack_into(&mut bytes)?;
        Ok(bytes)
    }
}
