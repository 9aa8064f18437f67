//! Made by `./format --c` from ../protocols/formats/mqtt_header.fields: edit that file and make this one anew.
//!
//! The fixed header of an MQTT packet (MQTT 3.1.1, section 2.2).
//!
//! ```text
//!  0                   1                   2                   3
//!  0 1 2 3 4 5 6 7 8 9 0 1 2 3 4 5 6 7 8 9 0 1 2 3 4 5 6 7 8 9 0 1
//! +-+-+-+-+-+-+-+-+
//! |  kind |a|qua|r|
//! +-+-+-+-+-+-+-+-+-+-+-+-+-+-+-+-+-+-+-+-+-+-+-+-+-+-+-+-+-+-+-+-+
//! /                  remaining (groups of 8 bits)                 /
//! +-+-+-+-+-+-+-+-+-+-+-+-+-+-+-+-+-+-+-+-+-+-+-+-+-+-+-+-+-+-+-+-+
//! ```

extern crate alloc;
use alloc::vec;
use alloc::vec::Vec;

/// The fixed header of an MQTT packet (MQTT 3.1.1, section 2.2).
#[derive(Clone, Copy, Debug, PartialEq, Eq, Hash)]
pub struct MqttHeader {
    /// The kind of the packet.
    pub kind: Packet,
    /// True if the packet was sent before, if it is `Publish`.
    pub again: bool,
    /// The quality of service, if the packet is `Publish`. Below 2^2.
    pub quality: u8,
    /// True if the server is to keep the message, if the packet is `Publish`.
    pub retain: bool,
    /// The number of bytes that follow.
    pub remaining: u32,
}

/// The kind of the packet.
#[derive(Clone, Copy, Debug, PartialEq, Eq, Hash)]
pub enum Packet {
    /// Encoded as 1.
    Connect,
    /// Encoded as 2.
    ConnAck,
    /// Encoded as 3.
    Publish,
    /// Encoded as 4.
    PubAck,
    /// Encoded as 5.
    PubRec,
    /// Encoded as 6.
    PubRel,
    /// Encoded as 7.
    PubComp,
    /// Encoded as 8.
    Subscribe,
    /// Encoded as 9.
    SubAck,
    /// Encoded as 10.
    Unsubscribe,
    /// Encoded as 11.
    UnsubAck,
    /// Encoded as 12.
    PingReq,
    /// Encoded as 13.
    PingResp,
    /// Encoded as 14.
    Disconnect,
    /// Encoded as 15.
    Auth,
}

impl Packet {
    pub(crate) fn of(number: u8) -> Option<Packet> {
        match number {
            1 => Some(Packet::Connect),
            2 => Some(Packet::ConnAck),
            3 => Some(Packet::Publish),
            4 => Some(Packet::PubAck),
            5 => Some(Packet::PubRec),
            6 => Some(Packet::PubRel),
            7 => Some(Packet::PubComp),
            8 => Some(Packet::Subscribe),
            9 => Some(Packet::SubAck),
            10 => Some(Packet::Unsubscribe),
            11 => Some(Packet::UnsubAck),
            12 => Some(Packet::PingReq),
            13 => Some(Packet::PingResp),
            14 => Some(Packet::Disconnect),
            15 => Some(Packet::Auth),
            _ => None,
        }
    }

    /// Returns the number.
    pub fn number(self) -> u8 {
        match self {
            Packet::Connect => 1,
            Packet::ConnAck => 2,
            Packet::Publish => 3,
            Packet::PubAck => 4,
            Packet::PubRec => 5,
            Packet::PubRel => 6,
            Packet::PubComp => 7,
            Packet::Subscribe => 8,
            Packet::SubAck => 9,
            Packet::Unsubscribe => 10,
            Packet::UnsubAck => 11,
            Packet::PingReq => 12,
            Packet::PingResp => 13,
            Packet::Disconnect => 14,
            Packet::Auth => 15,
        }
    }
}

/// The reason why no `MqttHeader` was parsed or packed.
#[derive(Clone, Copy, Debug, PartialEq, Eq, Hash)]
pub enum MqttError {
    /// The bytes end before the fields do.
    EndOfInput,
    /// The buffer is too short.
    NoRoom,
    /// The field of this name has a value that the format does not allow.
    DoesNotFit(&'static str),
    /// A number of variable width is too large, or ends in a group of 0 behind others.
    BadNumber,
    /// `kind` is not the number of a case of `Packet`.
    NoPacket,
}

impl core::fmt::Display for MqttError {
    fn fmt(&self, f: &mut core::fmt::Formatter<'_>) -> core::fmt::Result {
        f.write_str(match self {
            MqttError::EndOfInput => "the bytes end before the fields do",
            MqttError::NoRoom => "the buffer is too short",
            MqttError::BadNumber => "a number of variable width is too large, or ends in a group of 0 behind others",
            MqttError::NoPacket => "`kind` is not the number of a case of `Packet`",
            MqttError::DoesNotFit(field) => {
                return write!(f, "`{field}` has a value that the format does not allow")
            }
        })
    }
}

impl core::error::Error for MqttError {}

fn done(status: i32) -> Result<(), MqttError> {
    match status {
        0 => Ok(()),
        2 => Err(MqttError::NoRoom),
        5 => Err(MqttError::BadNumber),
        6 => Err(MqttError::NoPacket),
        _ => Err(MqttError::EndOfInput),
    }
}

#[repr(C)]
#[derive(Clone, Copy)]
pub(crate) struct MqttHeaderC {
    pub(crate) kind: u8,
    pub(crate) again: u8,
    pub(crate) quality: u8,
    pub(crate) retain: u8,
    pub(crate) remaining: u32,
}

impl MqttHeaderC {
    #[allow(dead_code)]
    pub(crate) const ZERO: MqttHeaderC = MqttHeaderC {
        kind: 0,
        again: 0,
        quality: 0,
        retain: 0,
        remaining: 0,
    };

    pub(crate) fn new(value: &MqttHeader) -> MqttHeaderC {
        MqttHeaderC {
            kind: value.kind.number(),
            again: u8::from(value.again),
            quality: value.quality,
            retain: u8::from(value.retain),
            remaining: value.remaining,
        }
    }

    pub(crate) fn fields(&self) -> Result<MqttHeader, &'static str> {
        Ok(MqttHeader {
            kind: Packet::of(self.kind).ok_or("kind")?,
            again: self.again != 0,
            quality: self.quality,
            retain: self.retain != 0,
            remaining: self.remaining,
        })
    }
}

#[repr(C)]
struct Parsed {
    status: i32,
    taken: usize,
    value: MqttHeaderC,
}

#[repr(C)]
struct Packed {
    status: i32,
    written: usize,
}

extern "C" {
    fn proved_mqtt_header_parse(bytes: *const u8, length: usize) -> Parsed;
    fn proved_mqtt_header_pack(value: &MqttHeaderC, buffer: *mut u8, length: usize) -> Packed;
    fn mqtt_header_misfit(value: &MqttHeaderC) -> *const core::ffi::c_char;
}

/// Returns the name of a field of C, or an empty text if there is none.
///
/// # Safety
///
/// `name` is null or a text that stays as it is.
unsafe fn named(name: *const core::ffi::c_char) -> &'static str {
    if name.is_null() {
        return "";
    }
    // SAFETY: as above.
    unsafe { core::ffi::CStr::from_ptr(name) }.to_str().unwrap_or_default()
}

// The layout that the proved functions have.
const _: () = assert!(core::mem::size_of::<MqttHeaderC>() == 8);
const _: () = assert!(core::mem::offset_of!(MqttHeaderC, remaining) == 4);

impl MqttHeader {
    /// Parses the fields at the start of `bytes`, and returns them with the number of bytes that
    /// they take.
    ///
    /// # Errors
    ///
    /// The first in the order of the bits: `NoPacket`, `BadNumber`; `EndOfInput` if the bytes end
    /// before the fields do, if nothing in them is refused.
    pub fn parse(bytes: &[u8]) -> Result<(MqttHeader, usize), MqttError> {
        // SAFETY: the pointer and the length are a slice's.
        let parsed = unsafe { proved_mqtt_header_parse(bytes.as_ptr(), bytes.len()) };
        done(parsed.status)?;
        let fields = parsed.value.fields().map(|it| (it, parsed.taken));
        fields.map_err(MqttError::DoesNotFit)
    }

    /// Writes the fields to the first bytes of a buffer, and zeros up to a whole byte, and returns
    /// the number of these bytes. The other bytes stay as they were. After an error all bytes are
    /// as before.
    ///
    /// # Errors
    ///
    /// `DoesNotFit` if a field has a value that the format does not allow; else `NoRoom` if the
    /// buffer is too short.
    pub fn pack_into(&self, buffer: &mut [u8]) -> Result<usize, MqttError> {
        let value = MqttHeaderC::new(self);
        // SAFETY: the pointer and the length are a slice's, which is borrowed mutably.
        let packed = unsafe { proved_mqtt_header_pack(&value, buffer.as_mut_ptr(), buffer.len()) };
        if packed.status == 3 {
            // SAFETY: as above; the name is null or a constant of the library.
            return Err(MqttError::DoesNotFit(unsafe { named(mqtt_header_misfit(&value)) }));
        }
        done(packed.status)?;
        Ok(packed.written)
    }

    /// Returns the bytes of the fields.
    ///
    /// # Errors
    ///
    /// `DoesNotFit` if a field has a value that the format does not allow.
    pub fn pack(&self) -> Result<Vec<u8>, MqttError> {
        let mut bytes = vec![0; 64];
        loop {
            match self.pack_into(&mut bytes) {
                Err(MqttError::NoRoom) => bytes = vec![0; 2 * bytes.len()],
                Err(error) => return Err(error),
                Ok(written) => {
                    bytes.truncate(written);
                    return Ok(bytes);
                }
            }
        }
    }
}
