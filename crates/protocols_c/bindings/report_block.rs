//! Made by `./format --c` from ../protocols/formats/report_block.fields: edit that file and make this one anew.
//!
//! A receiver's report on one source of RTP (RFC 3550, section 6.4.1).
//!
//! ```text
//!  0                   1                   2                   3
//!  0 1 2 3 4 5 6 7 8 9 0 1 2 3 4 5 6 7 8 9 0 1 2 3 4 5 6 7 8 9 0 1
//! +-+-+-+-+-+-+-+-+-+-+-+-+-+-+-+-+-+-+-+-+-+-+-+-+-+-+-+-+-+-+-+-+
//! |                              ssrc                             |
//! +-+-+-+-+-+-+-+-+-+-+-+-+-+-+-+-+-+-+-+-+-+-+-+-+-+-+-+-+-+-+-+-+
//! | fraction_lost |                      lost                     |
//! +-+-+-+-+-+-+-+-+-+-+-+-+-+-+-+-+-+-+-+-+-+-+-+-+-+-+-+-+-+-+-+-+
//! |                            highest                            |
//! +-+-+-+-+-+-+-+-+-+-+-+-+-+-+-+-+-+-+-+-+-+-+-+-+-+-+-+-+-+-+-+-+
//! |                             jitter                            |
//! +-+-+-+-+-+-+-+-+-+-+-+-+-+-+-+-+-+-+-+-+-+-+-+-+-+-+-+-+-+-+-+-+
//! |                          last_report                          |
//! +-+-+-+-+-+-+-+-+-+-+-+-+-+-+-+-+-+-+-+-+-+-+-+-+-+-+-+-+-+-+-+-+
//! |                             delay                             |
//! +-+-+-+-+-+-+-+-+-+-+-+-+-+-+-+-+-+-+-+-+-+-+-+-+-+-+-+-+-+-+-+-+
//! ```

/// A receiver's report on one source of RTP (RFC 3550, section 6.4.1).
#[derive(Clone, Copy, Debug, PartialEq, Eq, Hash)]
pub struct ReportBlock {
    /// The source.
    pub ssrc: u32,
    /// The part of the packets that was lost since the last report, in units of 1/256.
    pub fraction_lost: u8,
    /// The number of packets that were lost in all. From -8388608 to 8388607.
    pub lost: i32,
    /// The highest sequence number that was received, after the number of its cycles.
    pub highest: u32,
    /// The variation of the time between packets, in units of the RTP timestamp.
    pub jitter: u32,
    /// The middle bits of the NTP timestamp of the source's last report.
    pub last_report: u32,
    /// The time since that report, in units of 2^-16 seconds.
    pub delay: u32,
}

/// The reason why no `ReportBlock` was parsed or packed.
#[derive(Clone, Copy, Debug, PartialEq, Eq, Hash)]
pub enum ReportBlockError {
    /// The bytes end before the fields do.
    EndOfInput,
    /// The buffer is too short.
    NoRoom,
    /// The field of this name has a value that the format does not allow.
    DoesNotFit(&'static str),
}

impl core::fmt::Display for ReportBlockError {
    fn fmt(&self, f: &mut core::fmt::Formatter<'_>) -> core::fmt::Result {
        f.write_str(match self {
            ReportBlockError::EndOfInput => "the bytes end before the fields do",
            ReportBlockError::NoRoom => "the buffer is too short",
            ReportBlockError::DoesNotFit(field) => {
                return write!(f, "`{field}` has a value that the format does not allow")
            }
        })
    }
}

impl core::error::Error for ReportBlockError {}

fn done(status: i32) -> Result<(), ReportBlockError> {
    match status {
        0 => Ok(()),
        2 => Err(ReportBlockError::NoRoom),
        _ => Err(ReportBlockError::EndOfInput),
    }
}

#[repr(C)]
#[derive(Clone, Copy)]
pub(crate) struct ReportBlockC {
    pub(crate) ssrc: u32,
    pub(crate) fraction_lost: u8,
    pub(crate) lost: i32,
    pub(crate) highest: u32,
    pub(crate) jitter: u32,
    pub(crate) last_report: u32,
    pub(crate) delay: u32,
}

impl ReportBlockC {
    #[allow(dead_code)]
    pub(crate) const ZERO: ReportBlockC = ReportBlockC {
        ssrc: 0,
        fraction_lost: 0,
        lost: 0,
        highest: 0,
        jitter: 0,
        last_report: 0,
        delay: 0,
    };

    pub(crate) fn new(value: &ReportBlock) -> ReportBlockC {
        ReportBlockC {
            ssrc: value.ssrc,
            fraction_lost: value.fraction_lost,
            lost: value.lost,
            highest: value.highest,
            jitter: value.jitter,
            last_report: value.last_report,
            delay: value.delay,
        }
    }

    pub(crate) fn fields(&self) -> Result<ReportBlock, &'static str> {
        Ok(ReportBlock {
            ssrc: self.ssrc,
            fraction_lost: self.fraction_lost,
            lost: self.lost,
            highest: self.highest,
            jitter: self.jitter,
            last_report: self.last_report,
            delay: self.delay,
        })
    }
}

#[repr(C)]
struct Parsed {
    status: i32,
    value: ReportBlockC,
}

#[repr(C)]
struct Packed {
    status: i32,
    written: usize,
}

extern "C" {
    fn proved_report_block_parse(bytes: *const u8, length: usize) -> Parsed;
    fn proved_report_block_pack(value: &ReportBlockC, buffer: *mut u8, length: usize) -> Packed;
    fn report_block_misfit(value: &ReportBlockC) -> *const core::ffi::c_char;
}

/// Returns the name of a field of C, or an empty text if there is none.
///
/// # Safety
///
/// `name` is null or a text that stays as it is.
unsafe fn named(name: *const core::ffi::c_char) -> &'static str {
    if name.is_null() {
        return "";
    }
    // SAFETY: as above.
    unsafe { core::ffi::CStr::from_ptr(name) }.to_str().unwrap_or_default()
}

// The layout that the proved functions have.
const _: () = assert!(core::mem::size_of::<ReportBlockC>() == 28);
const _: () = assert!(core::mem::offset_of!(ReportBlockC, delay) == 24);

impl ReportBlock {
    /// The bytes that the fields take.
    pub const SIZE: usize = 24;

    /// Parses the fields at the start of `bytes`.
    ///
    /// # Errors
    ///
    /// `EndOfInput` for fewer than 24 bytes.
    pub fn parse(bytes: &[u8]) -> Result<ReportBlock, ReportBlockError> {
        // SAFETY: the pointer and the length are a slice's.
        let parsed = unsafe { proved_report_block_parse(bytes.as_ptr(), bytes.len()) };
        done(parsed.status)?;
        parsed.value.fields().map_err(ReportBlockError::DoesNotFit)
    }

    /// Writes the fields to the first 24 bytes of a buffer, and returns 24. The other bytes stay as
    /// they were. After an error all bytes are as before.
    ///
    /// # Errors
    ///
    /// `DoesNotFit` if a field has a value that the format does not allow; else `NoRoom` for fewer
    /// than 24 bytes.
    pub fn pack_into(&self, buffer: &mut [u8]) -> Result<usize, ReportBlockError> {
        let value = ReportBlockC::new(self);
        // SAFETY: the pointer and the length are a slice's, which is borrowed mutably.
        let packed = unsafe { proved_report_block_pack(&value, buffer.as_mut_ptr(), buffer.len()) };
        if packed.status == 3 {
            // SAFETY: as above; the name is null or a constant of the library.
            return Err(ReportBlockError::DoesNotFit(unsafe { named(report_block_misfit(&value)) }));
        }
        done(packed.status)?;
        Ok(packed.written)
    }

    /// Returns the 24 bytes of the fields.
    ///
    /// # Errors
    ///
    /// `DoesNotFit` if a field has a value that the format does not allow.
    pub fn pack(&self) -> Result<[u8; 24], ReportBlockError> {
        let mut bytes = [0; 24];
        self.pack_into(&mut bytes)?;
        Ok(bytes)
    }
}
