//! Made by `./format --c` from ../protocols/formats/icmp_gateway.fields: edit that file and make this one anew.
//!
//! The router of a redirect.
//!
//! ```text
//!  0                   1                   2                   3
//!  0 1 2 3 4 5 6 7 8 9 0 1 2 3 4 5 6 7 8 9 0 1 2 3 4 5 6 7 8 9 0 1
//! +-+-+-+-+-+-+-+-+-+-+-+-+-+-+-+-+-+-+-+-+-+-+-+-+-+-+-+-+-+-+-+-+
//! |                            address                            |
//! +-+-+-+-+-+-+-+-+-+-+-+-+-+-+-+-+-+-+-+-+-+-+-+-+-+-+-+-+-+-+-+-+
//! ```

/// The router of a redirect.
#[derive(Clone, Copy, Debug, PartialEq, Eq, Hash)]
pub struct IcmpGateway {
    /// The IPv4 address of the router.
    pub address: [u8; 4],
}

/// The reason why no `IcmpGateway` was parsed or packed.
#[derive(Clone, Copy, Debug, PartialEq, Eq, Hash)]
pub enum IcmpGatewayError {
    /// The bytes end before the fields do.
    EndOfInput,
    /// The buffer is too short.
    NoRoom,
    /// The field of this name has a value that the format does not allow.
    DoesNotFit(&'static str),
}

impl core::fmt::Display for IcmpGatewayError {
    fn fmt(&self, f: &mut core::fmt::Formatter<'_>) -> core::fmt::Result {
        f.write_str(match self {
            IcmpGatewayError::EndOfInput => "the bytes end before the fields do",
            IcmpGatewayError::NoRoom => "the buffer is too short",
            IcmpGatewayError::DoesNotFit(field) => {
                return write!(f, "`{field}` has a value that the format does not allow")
            }
        })
    }
}

impl core::error::Error for IcmpGatewayError {}

fn done(status: i32) -> Result<(), IcmpGatewayError> {
    match status {
        0 => Ok(()),
        2 => Err(IcmpGatewayError::NoRoom),
        _ => Err(IcmpGatewayError::EndOfInput),
    }
}

#[repr(C)]
#[derive(Clone, Copy)]
pub(crate) struct IcmpGatewayC {
    pub(crate) address: [u8; 4],
}

impl IcmpGatewayC {
    #[allow(dead_code)]
    pub(crate) const ZERO: IcmpGatewayC = IcmpGatewayC {
        address: [0; 4],
    };

    pub(crate) fn new(value: &IcmpGateway) -> IcmpGatewayC {
        IcmpGatewayC {
            address: value.address,
        }
    }

    pub(crate) fn fields(&self) -> Result<IcmpGateway, &'static str> {
        Ok(IcmpGateway {
            address: self.address,
        })
    }
}

#[repr(C)]
struct Parsed {
    status: i32,
    value: IcmpGatewayC,
}

#[repr(C)]
struct Packed {
    status: i32,
    written: usize,
}

extern "C" {
    fn proved_icmp_gateway_parse(bytes: *const u8, length: usize) -> Parsed;
    fn proved_icmp_gateway_pack(value: &IcmpGatewayC, buffer: *mut u8, length: usize) -> Packed;
    fn icmp_gateway_misfit(value: &IcmpGatewayC) -> *const core::ffi::c_char;
}

/// Returns the name of a field of C, or an empty text if there is none.
///
/// # Safety
///
/// `name` is null or a text that stays as it is.
unsafe fn named(name: *const core::ffi::c_char) -> &'static str {
    if name.is_null() {
        return "";
    }
    // SAFETY: as above.
    unsafe { core::ffi::CStr::from_ptr(name) }.to_str().unwrap_or_default()
}

// The layout that the proved functions have.
const _: () = assert!(core::mem::size_of::<IcmpGatewayC>() == 4);
const _: () = assert!(core::mem::offset_of!(IcmpGatewayC, address) == 0);

impl IcmpGateway {
    /// The bytes that the fields take.
    pub const SIZE: usize = 4;

    /// Parses the fields at the start of `bytes`.
    ///
    /// # Errors
    ///
    /// `EndOfInput` for fewer than 4 bytes.
    pub fn parse(bytes: &[u8]) -> Result<IcmpGateway, IcmpGatewayError> {
        // SAFETY: the pointer and the length are a slice's.
        let parsed = unsafe { proved_icmp_gateway_parse(bytes.as_ptr(), bytes.len()) };
        done(parsed.status)?;
        parsed.value.fields().map_err(IcmpGatewayError::DoesNotFit)
    }

    /// Writes the fields to the first 4 bytes of a buffer, and returns 4. The other bytes stay as
    /// they were. After an error all bytes are as before.
    ///
    /// # Errors
    ///
    /// `DoesNotFit` if a field has a value that the format does not allow; else `NoRoom` for fewer
    /// than 4 bytes.
    pub fn pack_into(&self, buffer: &mut [u8]) -> Result<usize, IcmpGatewayError> {
        let value = IcmpGatewayC::new(self);
        // SAFETY: the pointer and the length are a slice's, which is borrowed mutably.
        let packed = unsafe { proved_icmp_gateway_pack(&value, buffer.as_mut_ptr(), buffer.len()) };
        if packed.status == 3 {
            // SAFETY: as above; the name is null or a constant of the library.
            return Err(IcmpGatewayError::DoesNotFit(unsafe { named(icmp_gateway_misfit(&value)) }));
        }
        done(packed.status)?;
        Ok(packed.written)
    }

    /// Returns the 4 bytes of the fields.
    ///
    /// # Errors
    ///
    /// `DoesNotFit` if a field has a value that the format does not allow.
    pub fn pack(&self) -> Result<[u8; 4], IcmpGatewayError> {
        let mut bytes = [0; 4];
        self.pack_into(&mut bytes)?;
        Ok(bytes)
    }
}
