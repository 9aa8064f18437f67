//! Made by `./format --c` from ../protocols/formats/vlan_tag.fields: edit that file and make this one anew.
//!
//! The tag of a virtual network, after its EtherType 0x8100 (IEEE 802.1Q, section 9.6).
//!
//! ```text
//!  0                   1                   2                   3
//!  0 1 2 3 4 5 6 7 8 9 0 1 2 3 4 5 6 7 8 9 0 1 2 3 4 5 6 7 8 9 0 1
//! +-+-+-+-+-+-+-+-+-+-+-+-+-+-+-+-+-+-+-+-+-+-+-+-+-+-+-+-+-+-+-+-+
//! |prior|d|          vlan         |              kind             |
//! +-+-+-+-+-+-+-+-+-+-+-+-+-+-+-+-+-+-+-+-+-+-+-+-+-+-+-+-+-+-+-+-+
//! ```

/// The tag of a virtual network, after its EtherType 0x8100 (IEEE 802.1Q, section 9.6).
#[derive(Clone, Copy, Debug, PartialEq, Eq, Hash)]
pub struct VlanTag {
    /// The priority code point. Below 2^3.
    pub priority: u8,
    /// True if the frame may be dropped first.
    pub drop_eligible: bool,
    /// The identifier of the network. Below 2^12.
    pub vlan: u16,
    /// The EtherType of what follows.
    pub kind: u16,
}

/// The reason why no `VlanTag` was parsed or packed.
#[derive(Clone, Copy, Debug, PartialEq, Eq, Hash)]
pub enum VlanTagError {
    /// The bytes end before the fields do.
    EndOfInput,
    /// The buffer is too short.
    NoRoom,
    /// The field of this name has a value that the format does not allow.
    DoesNotFit(&'static str),
}

impl core::fmt::Display for VlanTagError {
    fn fmt(&self, f: &mut core::fmt::Formatter<'_>) -> core::fmt::Result {
        f.write_str(match self {
            VlanTagError::EndOfInput => "the bytes end before the fields do",
            VlanTagError::NoRoom => "the buffer is too short",
            VlanTagError::DoesNotFit(field) => {
                return write!(f, "`{field}` has a value that the format does not allow")
            }
        })
    }
}

impl core::error::Error for VlanTagError {}

fn done(status: i32) -> Result<(), VlanTagError> {
    match status {
        0 => Ok(()),
        2 => Err(VlanTagError::NoRoom),
        _ => Err(VlanTagError::EndOfInput),
    }
}

#[repr(C)]
#[derive(Clone, Copy)]
pub(crate) struct VlanTagC {
    pub(crate) priority: u8,
    pub(crate) drop_eligible: u8,
    pub(crate) vlan: u16,
    pub(crate) kind: u16,
}

impl VlanTagC {
    #[allow(dead_code)]
    pub(crate) const ZERO: VlanTagC = VlanTagC {
        priority: 0,
        drop_eligible: 0,
        vlan: 0,
        kind: 0,
    };

    pub(crate) fn new(value: &VlanTag) -> VlanTagC {
        VlanTagC {
            priority: value.priority,
            drop_eligible: u8::from(value.drop_eligible),
            vlan: value.vlan,
            kind: value.kind,
        }
    }

    pub(crate) fn fields(&self) -> Result<VlanTag, &'static str> {
        Ok(VlanTag {
            priority: self.priority,
            drop_eligible: self.drop_eligible != 0,
            vlan: self.vlan,
            kind: self.kind,
        })
    }
}

#[repr(C)]
struct Parsed {
    status: i32,
    value: VlanTagC,
}

#[repr(C)]
struct Packed {
    status: i32,
    written: usize,
}

extern "C" {
    fn proved_vlan_tag_parse(bytes: *const u8, length: usize) -> Parsed;
    fn proved_vlan_tag_pack(value: &VlanTagC, buffer: *mut u8, length: usize) -> Packed;
    fn vlan_tag_misfit(value: &VlanTagC) -> *const core::ffi::c_char;
}

/// Returns the name of a field of C, or an empty text if there is none.
///
/// # Safety
///
/// `name` is null or a text that stays as it is.
unsafe fn named(name: *const core::ffi::c_char) -> &'static str {
    if name.is_null() {
        return "";
    }
    // SAFETY: as above.
    unsafe { core::ffi::CStr::from_ptr(name) }.to_str().unwrap_or_default()
}

// The layout that the proved functions have.
const _: () = assert!(core::mem::size_of::<VlanTagC>() == 6);
const _: () = assert!(core::mem::offset_of!(VlanTagC, kind) == 4);

impl VlanTag {
    /// The bytes that the fields take.
    pub const SIZE: usize = 4;

    /// Parses the fields at the start of `bytes`.
    ///
    /// # Errors
    ///
    /// `EndOfInput` for fewer than 4 bytes.
    pub fn parse(bytes: &[u8]) -> Result<VlanTag, VlanTagError> {
        // SAFETY: the pointer and the length are a slice's.
        let parsed = unsafe { proved_vlan_tag_parse(bytes.as_ptr(), bytes.len()) };
        done(parsed.status)?;
        parsed.value.fields().map_err(VlanTagError::DoesNotFit)
    }

    /// Writes the fields to the first 4 bytes of a buffer, and returns 4. The other bytes stay as
    /// they were. After an error all bytes are as before.
    ///
    /// # Errors
    ///
    /// `DoesNotFit` if a field has a value that the format does not allow; else `NoRoom` for fewer
    /// than 4 bytes.
    pub fn pack_into(&self, buffer: &mut [u8]) -> Result<usize, VlanTagError> {
        let value = VlanTagC::new(self);
        // SAFETY: the pointer and the length are a slice's, which is borrowed mutably.
        let packed = unsafe { proved_vlan_tag_pack(&value, buffer.as_mut_ptr(), buffer.len()) };
        if packed.status == 3 {
            // SAFETY: as above; the name is null or a constant of the library.
            return Err(VlanTagError::DoesNotFit(unsafe { named(vlan_tag_misfit(&value)) }));
        }
        done(packed.status)?;
        Ok(packed.written)
    }

    /// Returns the 4 bytes of the fields.
    ///
    /// # Errors
    ///
    /// `DoesNotFit` if a field has a value that the format does not allow.
    pub fn pack(&self) -> Result<[u8; 4], VlanTagError> {
        let mut bytes = [0; 4];
        self.pack_into(&mut bytes)?;
        Ok(bytes)
    }
}
