//! Made by `./format --c` from ../protocols/formats/socks_login.fields: edit that file and make this one anew.
//!
//! The name and the password of a user, as a client of SOCKS sends them (RFC 1929, section 2).
//!
//! ```text
//!  0                   1                   2                   3
//!  0 1 2 3 4 5 6 7 8 9 0 1 2 3 4 5 6 7 8 9 0 1 2 3 4 5 6 7 8 9 0 1
//! +-+-+-+-+-+-+-+-+-+-+-+-+-+-+-+-+
//! |       =1      |   name_bytes  |
//! +-+-+-+-+-+-+-+-+-+-+-+-+-+-+-+-+-+-+-+-+-+-+-+-+-+-+-+-+-+-+-+-+
//! /                    name (name_bytes bytes)                    /
//! +-+-+-+-+-+-+-+-+-+-+-+-+-+-+-+-+-+-+-+-+-+-+-+-+-+-+-+-+-+-+-+-+
//! | password_bytes|
//! +-+-+-+-+-+-+-+-+-+-+-+-+-+-+-+-+-+-+-+-+-+-+-+-+-+-+-+-+-+-+-+-+
//! /                password (password_bytes bytes)                /
//! +-+-+-+-+-+-+-+-+-+-+-+-+-+-+-+-+-+-+-+-+-+-+-+-+-+-+-+-+-+-+-+-+
//! ```

extern crate alloc;
use alloc::vec;
use alloc::vec::Vec;

/// The name and the password of a user, as a client of SOCKS sends them (RFC 1929, section 2).
#[derive(Clone, Debug, PartialEq, Eq, Hash)]
pub struct SocksLogin {
    /// The name. At most 255 bytes.
    pub name: Vec<u8>,
    /// The password. At most 255 bytes.
    pub password: Vec<u8>,
}

/// The reason why no `SocksLogin` was parsed or packed.
#[derive(Clone, Copy, Debug, PartialEq, Eq, Hash)]
pub enum SocksLoginError {
    /// The bytes end before the fields do.
    EndOfInput,
    /// The buffer is too short.
    NoRoom,
    /// The field of this name has a value that the format does not allow.
    DoesNotFit(&'static str),
    /// The version of this message is not 1.
    OtherVersion,
}

impl core::fmt::Display for SocksLoginError {
    fn fmt(&self, f: &mut core::fmt::Formatter<'_>) -> core::fmt::Result {
        f.write_str(match self {
            SocksLoginError::EndOfInput => "the bytes end before the fields do",
            SocksLoginError::NoRoom => "the buffer is too short",
            SocksLoginError::OtherVersion => "the version of this message is not 1",
            SocksLoginError::DoesNotFit(field) => {
                return write!(f, "`{field}` has a value that the format does not allow")
            }
        })
    }
}

impl core::error::Error for SocksLoginError {}

fn done(status: i32) -> Result<(), SocksLoginError> {
    match status {
        0 => Ok(()),
        2 => Err(SocksLoginError::NoRoom),
        7 => Err(SocksLoginError::OtherVersion),
        _ => Err(SocksLoginError::EndOfInput),
    }
}

#[repr(C)]
#[derive(Clone, Copy)]
pub(crate) struct SocksLoginC {
    pub(crate) name: usize,
    pub(crate) password: usize,
}

impl SocksLoginC {
    #[allow(dead_code)]
    pub(crate) const ZERO: SocksLoginC = SocksLoginC {
        name: 0,
        password: 0,
    };

    pub(crate) fn new(value: &SocksLogin) -> SocksLoginC {
        SocksLoginC {
            name: value.name.len(),
            password: value.password.len(),
        }
    }

    pub(crate) fn fields(&self, name_items: Vec<u8>, password_items: Vec<u8>) -> Result<SocksLogin, &'static str> {
        Ok(SocksLogin {
            name: name_items,
            password: password_items,
        })
    }
}

#[repr(C)]
struct Parsed {
    status: i32,
    taken: usize,
    value: SocksLoginC,
}

#[repr(C)]
struct Packed {
    status: i32,
    written: usize,
}

extern "C" {
    fn proved_socks_login_parse(bytes: *const u8, length: usize, name_items: *mut u8, name_count: usize, password_items: *mut u8, password_count: usize) -> Parsed;
    fn proved_socks_login_pack(value: &SocksLoginC, name_items: *const u8, name_count: usize, password_items: *const u8, password_count: usize, buffer: *mut u8, length: usize) -> Packed;
    fn misfit_of_socks_login(value: &SocksLoginC, name_items: *const u8, name_count: usize, password_items: *const u8, password_count: usize) -> *const core::ffi::c_char;
}

/// Returns the name of a field of C, or an empty text if there is none.
///
/// # Safety
///
/// `name` is null or a text that stays as it is.
unsafe fn named(name: *const core::ffi::c_char) -> &'static str {
    if name.is_null() {
        return "";
    }
    // SAFETY: as above.
    unsafe { core::ffi::CStr::from_ptr(name) }.to_str().unwrap_or_default()
}

// The layout that the proved functions have.
const _: () = assert!(core::mem::size_of::<SocksLoginC>() == 16);
const _: () = assert!(core::mem::offset_of!(SocksLoginC, password) == 8);

impl SocksLogin {
    /// Parses the fields at the start of `bytes`, and returns them with the number of bytes that
    /// they take.
    ///
    /// # Errors
    ///
    /// The first in the order of the bits: `OtherVersion`; `EndOfInput` if the bytes end before the
    /// fields do, if nothing in them is refused.
    pub fn parse(bytes: &[u8]) -> Result<(SocksLogin, usize), SocksLoginError> {
        let mut name_items = Vec::new();
        let mut password_items = Vec::new();
        loop {
            // SAFETY: the pointers and the lengths are those of slices, of which the later ones are borrowed mutably.
            let parsed = unsafe { proved_socks_login_parse(bytes.as_ptr(), bytes.len(), name_items.as_mut_ptr(), name_items.len(), password_items.as_mut_ptr(), password_items.len()) };
            match parsed.status {
                5 => name_items = vec![0; parsed.taken],
                6 => password_items = vec![0; parsed.taken],
                status => {
                    done(status)?;
                    name_items.truncate(parsed.value.name);
                    password_items.truncate(parsed.value.password);
                    let fields = parsed.value.fields(name_items, password_items).map(|it| (it, parsed.taken));
                    return fields.map_err(SocksLoginError::DoesNotFit);
                }
            }
        }
    }

    /// Writes the fields to the first bytes of a buffer, and zeros up to a whole byte, and returns
    /// the number of these bytes. The other bytes stay as they were. After an error all bytes are
    /// as before.
    ///
    /// # Errors
    ///
    /// `DoesNotFit` if a field has a value that the format does not allow; else `NoRoom` if the
    /// buffer is too short.
    pub fn pack_into(&self, buffer: &mut [u8]) -> Result<usize, SocksLoginError> {
        let value = SocksLoginC::new(self);
        // SAFETY: the pointer and the length are a slice's, which is borrowed mutably.
        let packed = unsafe { proved_socks_login_pack(&value, self.name.as_ptr(), self.name.len(), self.password.as_ptr(), self.password.len(), buffer.as_mut_ptr(), buffer.len()) };
        if packed.status == 3 {
            // SAFETY: as above; the name is null or a constant of the library.
            return Err(SocksLoginError::DoesNotFit(unsafe { named(misfit_of_socks_login(&value, self.name.as_ptr(), self.name.len(), self.password.as_ptr(), self.password.len())) }));
        }
        done(packed.status)?;
        Ok(packed.written)
    }

    /// Returns the bytes of the fields.
    ///
    /// # Errors
    ///
    /// `DoesNotFit` if a field has a value that the format does not allow.
    pub fn pack(&self) -> Result<Vec<u8>, SocksLoginError> {
        let mut bytes = vec![0; 64];
        loop {
            match self.pack_into(&mut bytes) {
                Err(SocksLoginError::NoRoom) => bytes = vec![0; 2 * bytes.len()],
                Err(error) => return Err(error),
                Ok(written) => {
                    bytes.truncate(written);
                    return Ok(bytes);
                }
            }
        }
    }
}
