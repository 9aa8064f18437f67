//! Made by `./format --c` from ../protocols/formats/rtcp_receiver_report.fields: edit that file and make this one anew.
//!
//! A receiver report of RTCP, with its report blocks (RFC 3550, section 6.4.2).
//!
//! ```text
//!  0                   1                   2                   3
//!  0 1 2 3 4 5 6 7 8 9 0 1 2 3 4 5 6 7 8 9 0 1 2 3 4 5 6 7 8 9 0 1
//! +-+-+-+-+-+-+-+-+-+-+-+-+-+-+-+-+-+-+-+-+-+-+-+-+-+-+-+-+-+-+-+-+
//! | =2|p|reports_c|      =201     |             length            |
//! +-+-+-+-+-+-+-+-+-+-+-+-+-+-+-+-+-+-+-+-+-+-+-+-+-+-+-+-+-+-+-+-+
//! |                              ssrc                             |
//! +-+-+-+-+-+-+-+-+-+-+-+-+-+-+-+-+-+-+-+-+-+-+-+-+-+-+-+-+-+-+-+-+
//! /             reports (reports_count of ReportBlock)            /
//! +-+-+-+-+-+-+-+-+-+-+-+-+-+-+-+-+-+-+-+-+-+-+-+-+-+-+-+-+-+-+-+-+
//! ```

use crate::report_block::{ReportBlock, ReportBlockC};
extern crate alloc;
use alloc::vec;
use alloc::vec::Vec;

/// A receiver report of RTCP, with its report blocks (RFC 3550, section 6.4.2).
#[derive(Clone, Debug, PartialEq, Eq, Hash)]
pub struct RtcpReceiverReport {
    /// True if there is padding at the end of the packet.
    pub padding: bool,
    /// The 32-bit words of the packet, less 1.
    pub length: u16,
    /// The receiver.
    pub ssrc: u32,
    /// The report blocks, one for each source. Fewer than 2^5.
    pub reports: Vec<ReportBlock>,
}

/// The reason why no `RtcpReceiverReport` was parsed or packed.
#[derive(Clone, Copy, Debug, PartialEq, Eq, Hash)]
pub enum ReceiverReportError {
    /// The bytes end before the fields do.
    EndOfInput,
    /// The buffer is too short.
    NoRoom,
    /// The field of this name has a value that the format does not allow.
    DoesNotFit(&'static str),
    /// The version is not 2.
    OtherVersion,
    /// The packet is no receiver report.
    OtherPacket,
}

impl core::fmt::Display for ReceiverReportError {
    fn fmt(&self, f: &mut core::fmt::Formatter<'_>) -> core::fmt::Result {
        f.write_str(match self {
            ReceiverReportError::EndOfInput => "the bytes end before the fields do",
            ReceiverReportError::NoRoom => "the buffer is too short",
            ReceiverReportError::OtherVersion => "the version is not 2",
            ReceiverReportError::OtherPacket => "the packet is no receiver report",
            ReceiverReportError::DoesNotFit(field) => {
                return write!(f, "`{field}` has a value that the format does not allow")
            }
        })
    }
}

impl core::error::Error for ReceiverReportError {}

fn done(status: i32) -> Result<(), ReceiverReportError> {
    match status {
        0 => Ok(()),
        2 => Err(ReceiverReportError::NoRoom),
        6 => Err(ReceiverReportError::OtherVersion),
        7 => Err(ReceiverReportError::OtherPacket),
        _ => Err(ReceiverReportError::EndOfInput),
    }
}

#[repr(C)]
#[derive(Clone, Copy)]
pub(crate) struct RtcpReceiverReportC {
    pub(crate) padding: u8,
    pub(crate) length: u16,
    pub(crate) ssrc: u32,
    pub(crate) reports: usize,
}

impl RtcpReceiverReportC {
    #[allow(dead_code)]
    pub(crate) const ZERO: RtcpReceiverReportC = RtcpReceiverReportC {
        padding: 0,
        length: 0,
        ssrc: 0,
        reports: 0,
    };

    pub(crate) fn new(value: &RtcpReceiverReport) -> RtcpReceiverReportC {
        RtcpReceiverReportC {
            padding: u8::from(value.padding),
            length: value.length,
            ssrc: value.ssrc,
            reports: value.reports.len(),
        }
    }

    pub(crate) fn fields(&self, reports_items: Vec<ReportBlockC>) -> Result<RtcpReceiverReport, &'static str> {
        Ok(RtcpReceiverReport {
            padding: self.padding != 0,
            length: self.length,
            ssrc: self.ssrc,
            reports: reports_items.iter().map(ReportBlockC::fields).collect::<Result<Vec<_>, _>>()?,
        })
    }
}

#[repr(C)]
struct Parsed {
    status: i32,
    taken: usize,
    value: RtcpReceiverReportC,
}

#[repr(C)]
struct Packed {
    status: i32,
    written: usize,
}

extern "C" {
    fn proved_rtcp_receiver_report_parse(bytes: *const u8, length: usize, reports_items: *mut ReportBlockC, reports_count: usize) -> Parsed;
    fn proved_rtcp_receiver_report_pack(value: &RtcpReceiverReportC, reports_items: *const ReportBlockC, reports_count: usize, buffer: *mut u8, length: usize) -> Packed;
    fn misfit_of_rtcp_receiver_report(value: &RtcpReceiverReportC, reports_items: *const ReportBlockC, reports_count: usize) -> *const core::ffi::c_char;
}

/// Returns the name of a field of C, or an empty text if there is none.
///
/// # Safety
///
/// `name` is null or a text that stays as it is.
unsafe fn named(name: *const core::ffi::c_char) -> &'static str {
    if name.is_null() {
        return "";
    }
    // SAFETY: as above.
    unsafe { core::ffi::CStr::from_ptr(name) }.to_str().unwrap_or_default()
}

// The layout that the proved functions have.
const _: () = assert!(core::mem::size_of::<RtcpReceiverReportC>() == 16);
const _: () = assert!(core::mem::offset_of!(RtcpReceiverReportC, reports) == 8);

impl RtcpReceiverReport {
    /// Parses the fields at the start of `bytes`, and returns them with the number of bytes that
    /// they take.
    ///
    /// # Errors
    ///
    /// The first in the order of the bits: `OtherVersion`, `OtherPacket`; `EndOfInput` if the bytes
    /// end before the fields do, if nothing in them is refused.
    pub fn parse(bytes: &[u8]) -> Result<(RtcpReceiverReport, usize), ReceiverReportError> {
        let mut reports_items = Vec::new();
        loop {
            // SAFETY: the pointers and the lengths are those of slices, of which the later ones are borrowed mutably.
            let parsed = unsafe { proved_rtcp_receiver_report_parse(bytes.as_ptr(), bytes.len(), reports_items.as_mut_ptr(), reports_items.len()) };
            match parsed.status {
                5 => reports_items = vec![ReportBlockC::ZERO; parsed.taken],
                status => {
                    done(status)?;
                    reports_items.truncate(parsed.value.reports);
                    let fields = parsed.value.fields(reports_items).map(|it| (it, parsed.taken));
                    return fields.map_err(ReceiverReportError::DoesNotFit);
                }
            }
        }
    }

    /// Writes the fields to the first bytes of a buffer, and zeros up to a whole byte, and returns
    /// the number of these bytes. The other bytes stay as they were. After an error all bytes are
    /// as before.
    ///
    /// # Errors
    ///
    /// `DoesNotFit` if a field has a value that the format does not allow; else `NoRoom` if the
    /// buffer is too short.
    pub fn pack_into(&self, buffer: &mut [u8]) -> Result<usize, ReceiverReportError> {
        let value = RtcpReceiverReportC::new(self);
        let reports_items: Vec<ReportBlockC> = self.reports.iter().map(ReportBlockC::new).collect();
        // SAFETY: the pointer and the length are a slice's, which is borrowed mutably.
        let packed = unsafe { proved_rtcp_receiver_report_pack(&value, reports_items.as_ptr(), reports_items.len(), buffer.as_mut_ptr(), buffer.len()) };
        if packed.status == 3 {
            // SAFETY: as above; the name is null or a constant of the library.
            return Err(ReceiverReportError::DoesNotFit(unsafe { named(misfit_of_rtcp_receiver_report(&value, reports_items.as_ptr(), reports_items.len())) }));
        }
        done(packed.status)?;
        Ok(packed.written)
    }

    /// Returns the bytes of the fields.
    ///
    /// # Errors
    ///
    /// `DoesNotFit` if a field has a value that the format does not allow.
    pub fn pack(&self) -> Result<Vec<u8>, ReceiverReportError> {
        let mut bytes = vec![0; 64];
        loop {
            match self.pack_into(&mut bytes) {
                Err(ReceiverReportError::NoRoom) => bytes = vec![0; 2 * bytes.len()],
                Err(error) => return Err(error),
                Ok(written) => {
                    bytes.truncate(written);
                    return Ok(bytes);
                }
            }
        }
    }
}
