//! Made by `./format --c` from ../network_messages/formats/ipv4_packet.fields: edit that file and make this one anew.
//!
//! The header of an IPv4 packet with its options and its checksum (RFC 791, section 3.1).
//!
//! ```text
//!  0                   1                   2                   3
//!  0 1 2 3 4 5 6 7 8 9 0 1 2 3 4 5 6 7 8 9 0 1 2 3 4 5 6 7 8 9 0 1
//! +-+-+-+-+-+-+-+-+-+-+-+-+-+-+-+-+-+-+-+-+-+-+-+-+-+-+-+-+-+-+-+-+
//! |   =4  |options|    service    |             length            |
//! +-+-+-+-+-+-+-+-+-+-+-+-+-+-+-+-+-+-+-+-+-+-+-+-+-+-+-+-+-+-+-+-+
//! |               id              |=|k|m|          offset         |
//! +-+-+-+-+-+-+-+-+-+-+-+-+-+-+-+-+-+-+-+-+-+-+-+-+-+-+-+-+-+-+-+-+
//! |      ttl      |    protocol   |          stored_sum16         |
//! +-+-+-+-+-+-+-+-+-+-+-+-+-+-+-+-+-+-+-+-+-+-+-+-+-+-+-+-+-+-+-+-+
//! |                             source                            |
//! +-+-+-+-+-+-+-+-+-+-+-+-+-+-+-+-+-+-+-+-+-+-+-+-+-+-+-+-+-+-+-+-+
//! |                             target                            |
//! +-+-+-+-+-+-+-+-+-+-+-+-+-+-+-+-+-+-+-+-+-+-+-+-+-+-+-+-+-+-+-+-+
//! /             options (4 * options_bytes - 20 bytes)            /
//! +-+-+-+-+-+-+-+-+-+-+-+-+-+-+-+-+-+-+-+-+-+-+-+-+-+-+-+-+-+-+-+-+
//! ```

extern crate alloc;
use alloc::vec;
use alloc::vec::Vec;

/// The header of an IPv4 packet with its options and its checksum (RFC 791, section 3.1).
#[derive(Clone, Debug, PartialEq, Eq, Hash)]
pub struct Ipv4Packet {
    /// The class of service, and the congestion mark.
    pub service: u8,
    /// The bytes of the packet, with this header.
    pub length: u16,
    /// The packet that a fragment belongs to.
    pub id: u16,
    /// True if the packet must not be fragmented.
    pub keep_whole: bool,
    /// True if more fragments follow.
    pub more: bool,
    /// The place of the fragment, in units of 8 bytes. Below 2^13.
    pub offset: u16,
    /// The number of routers that may still forward it.
    pub ttl: u8,
    /// The protocol of the payload.
    pub protocol: u8,
    /// The sender.
    pub source: [u8; 4],
    /// The receiver.
    pub target: [u8; 4],
    /// The options. At most 40 bytes, a multiple of 4.
    pub options: Vec<u8>,
}

/// The reason why no `Ipv4Packet` was parsed or packed.
#[derive(Clone, Copy, Debug, PartialEq, Eq, Hash)]
pub enum Ipv4PacketError {
    /// The bytes end before the fields do.
    EndOfInput,
    /// The buffer is too short.
    NoRoom,
    /// The field of this name has a value that the format does not allow.
    DoesNotFit(&'static str),
    /// The version is not 4.
    OtherVersion,
    /// The reserved bit is set.
    ReservedSet,
    /// The size of `options` is below the 20 bytes that it counts too.
    ShortHeader,
    /// The checksum is not that of the header.
    WrongSum,
}

impl core::fmt::Display for Ipv4PacketError {
    fn fmt(&self, f: &mut core::fmt::Formatter<'_>) -> core::fmt::Result {
        f.write_str(match self {
            Ipv4PacketError::EndOfInput => "the bytes end before the fields do",
            Ipv4PacketError::NoRoom => "the buffer is too short",
            Ipv4PacketError::OtherVersion => "the version is not 4",
            Ipv4PacketError::ReservedSet => "the reserved bit is set",
            Ipv4PacketError::ShortHeader => "the size of `options` is below the 20 bytes that it counts too",
            Ipv4PacketError::WrongSum => "the checksum is not that of the header",
            Ipv4PacketError::DoesNotFit(field) => {
                return write!(f, "`{field}` has a value that the format does not allow")
            }
        })
    }
}

impl core::error::Error for Ipv4PacketError {}

fn done(status: i32) -> Result<(), Ipv4PacketError> {
    match status {
        0 => Ok(()),
        2 => Err(Ipv4PacketError::NoRoom),
        6 => Err(Ipv4PacketError::OtherVersion),
        7 => Err(Ipv4PacketError::ReservedSet),
        8 => Err(Ipv4PacketError::ShortHeader),
        9 => Err(Ipv4PacketError::WrongSum),
        _ => Err(Ipv4PacketError::EndOfInput),
    }
}

#[repr(C)]
#[derive(Clone, Copy)]
pub(crate) struct Ipv4PacketC {
    pub(crate) service: u8,
    pub(crate) length: u16,
    pub(crate) id: u16,
    pub(crate) keep_whole: u8,
    pub(crate) more: u8,
    pub(crate) offset: u16,
    pub(crate) ttl: u8,
    pub(crate) protocol: u8,
    pub(crate) source: [u8; 4],
    pub(crate) target: [u8; 4],
    pub(crate) options: usize,
}

impl Ipv4PacketC {
    #[allow(dead_code)]
    pub(crate) const ZERO: Ipv4PacketC = Ipv4PacketC {
        service: 0,
        length: 0,
        id: 0,
        keep_whole: 0,
        more: 0,
        offset: 0,
        ttl: 0,
        protocol: 0,
        source: [0; 4],
        target: [0; 4],
        options: 0,
    };

    pub(crate) fn new(value: &Ipv4Packet) -> Ipv4PacketC {
        Ipv4PacketC {
            service: value.service,
            length: value.length,
            id: value.id,
            keep_whole: u8::from(value.keep_whole),
            more: u8::from(value.more),
            offset: value.offset,
            ttl: value.ttl,
            protocol: value.protocol,
            source: value.source,
            target: value.target,
            options: value.options.len(),
        }
    }

    pub(crate) fn fields(&self, options_items: Vec<u8>) -> Result<Ipv4Packet, &'static str> {
        Ok(Ipv4Packet {
            service: self.service,
            length: self.length,
            id: self.id,
            keep_whole: self.keep_whole != 0,
            more: self.more != 0,
            offset: self.offset,
            ttl: self.ttl,
            protocol: self.protocol,
            source: self.source,
            target: self.target,
            options: options_items,
        })
    }
}

#[repr(C)]
struct Parsed {
    status: i32,
    taken: usize,
    value: Ipv4PacketC,
}

#[repr(C)]
struct Packed {
    status: i32,
    written: usize,
}

extern "C" {
    fn proved_ipv4_packet_parse(bytes: *const u8, length: usize, options_items: *mut u8, options_count: usize) -> Parsed;
    fn proved_ipv4_packet_pack(value: &Ipv4PacketC, options_items: *const u8, options_count: usize, buffer: *mut u8, length: usize) -> Packed;
    fn misfit_of_ipv4_packet(value: &Ipv4PacketC, options_items: *const u8, options_count: usize) -> *const core::ffi::c_char;
}

/// Returns the name of a field of C, or an empty text if there is none.
///
/// # Safety
///
/// `name` is null or a text that stays as it is.
unsafe fn named(name: *const core::ffi::c_char) -> &'static str {
    if name.is_null() {
        return "";
    }
    // SAFETY: as above.
    unsafe { core::ffi::CStr::from_ptr(name) }.to_str().unwrap_or_default()
}

// The layout that the proved functions have.
const _: () = assert!(core::mem::size_of::<Ipv4PacketC>() == 32);
const _: () = assert!(core::mem::offset_of!(Ipv4PacketC, options) == 24);

impl Ipv4Packet {
    /// Parses the fields at the start of `bytes`, and returns them with the number of bytes that
    /// they take.
    ///
    /// # Errors
    ///
    /// The first in the order of the bits: `OtherVersion`, `ReservedSet`, `ShortHeader`,
    /// `WrongSum`; `EndOfInput` if the bytes end before the fields do, if nothing in them is
    /// refused.
    pub fn parse(bytes: &[u8]) -> Result<(Ipv4Packet, usize), Ipv4PacketError> {
        let mut options_items = Vec::new();
        loop {
            // SAFETY: the pointers and the lengths are those of slices, of which the later ones are borrowed mutably.
            let parsed = unsafe { proved_ipv4_packet_parse(bytes.as_ptr(), bytes.len(), options_items.as_mut_ptr(), options_items.len()) };
            match parsed.status {
                5 => options_items = vec![0; parsed.taken],
                status => {
                    done(status)?;
                    options_items.truncate(parsed.value.options);
                    let fields = parsed.value.fields(options_items).map(|it| (it, parsed.taken));
                    return fields.map_err(Ipv4PacketError::DoesNotFit);
                }
            }
        }
    }

    /// Writes the fields to the first bytes of a buffer, and zeros up to a whole byte, and returns
    /// the number of these bytes. The other bytes stay as they were. After an error all bytes are
    /// as before.
    ///
    /// # Errors
    ///
    /// `DoesNotFit` if a field has a value that the format does not allow; else `NoRoom` if the
    /// buffer is too short.
    pub fn pack_into(&self, buffer: &mut [u8]) -> Result<usize, Ipv4PacketError> {
        let value = Ipv4PacketC::new(self);
        // SAFETY: the pointer and the length are a slice's, which is borrowed mutably.
        let packed = unsafe { proved_ipv4_packet_pack(&value, self.options.as_ptr(), self.options.len(), buffer.as_mut_ptr(), buffer.len()) };
        if packed.status == 3 {
            // SAFETY: as above; the name is null or a constant of the library.
            return Err(Ipv4PacketError::DoesNotFit(unsafe { named(misfit_of_ipv4_packet(&value, self.options.as_ptr(), self.options.len())) }));
        }
        done(packed.status)?;
        Ok(packed.written)
    }

    /// Returns the bytes of the fields.
    ///
    /// # Errors
    ///
    /// `DoesNotFit` if a field has a value that the format does not allow.
    pub fn pack(&self) -> Result<Vec<u8>, Ipv4PacketError> {
        let mut bytes = vec![0; 64];
        loop {
            match self.pack_into(&mut bytes) {
                Err(Ipv4PacketError::NoRoom) => bytes = vec![0; 2 * bytes.len()],
                Err(error) => return Err(error),
                Ok(written) => {
                    bytes.truncate(written);
                    return Ok(bytes);
                }
            }
        }
    }
}
