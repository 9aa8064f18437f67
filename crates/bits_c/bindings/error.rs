//! The error of a call.

/// The reason why bits were not read or written. The reader, or the writer and its buffer, is as before.
#[derive(Clone, Copy, Debug, PartialEq, Eq, Hash)]
pub enum Error {
    /// Fewer bits are left.
    EndOfInput,
    /// More than 64 bits, or a signed number of no bits.
    Width,
    /// The buffer has fewer bits left.
    NoRoom,
    /// The number has more bits.
    DoesNotFit,
    /// An exponential Golomb number begins with more than 31 zeros.
    TooLong,
}

impl core::fmt::Display for Error {
    fn fmt(&self, f: &mut core::fmt::Formatter<'_>) -> core::fmt::Result {
        f.write_str(match self {
            Error::EndOfInput => "fewer bits are left",
            Error::Width => "more than 64 bits, or a signed number of no bits",
            Error::NoRoom => "the buffer has fewer bits left",
            Error::DoesNotFit => "the number has more bits",
            Error::TooLong => "the number begins with more than 31 zeros",
        })
    }
}

impl core::error::Error for Error {}

pub(crate) fn done(status: i32) -> Result<(), Error> {
    match status {
        0 => Ok(()),
        1 => Err(Error::EndOfInput),
        2 => Err(Error::Width),
        4 => Err(Error::NoRoom),
        5 => Err(Error::DoesNotFit),
        _ => Err(Error::TooLong),
    }
}
