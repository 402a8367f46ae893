//! What goes wrong, by name.

use crate::codes::{ActivateError, DefaultError, StateFault, TableError};
use core::fmt;

/// An outcome of the library that gives no answer, or a file that can't be read.
///
/// A text that a sign refuses is no error of [`Sign::check`](crate::Sign::check): its verdict says why. It is one for the calls that draw it.
/// Likewise a command that is refused has a [`Reply`](crate::Reply), of which [`obeyed`](crate::Reply::obeyed) makes an error.
#[derive(Debug)]
#[non_exhaustive]
pub enum Error {
    /// The file can't be read.
    #[cfg(feature = "std")]
    File(std::io::Error),
    /// The sign refuses the text.
    TextRefused,
    /// Memory was refused. The same call may succeed later.
    NoMemory,
    /// The octets aren't a sign file; `signctl sign` says where they are wrong.
    NoSignFile,
    /// The sign file can be read, but its sign is outside a limit.
    SignFault,
    /// The text has no page of this number.
    NoPage,
    /// The text has 4,294,967,296 octets or more, and isn't judged.
    TextTooLong,
    /// The sign is sound, but the message table of its sign file is outside a limit.
    TableFault,
    /// The octets of an activation code aren't 12, or those of an end code 5.
    BadLength,
    /// The number names no default.
    NoDefault,
    /// The sign has no font of this number.
    NoFont,
    /// The side of a pixel of a film isn't 1 to 16, or its seconds aren't 1 to 600.
    BadValue,
    /// The film would have more than 64,000,000 octets.
    LargeFilm,
    /// The text begins anew after more than ten minutes; a film of so many seconds may be asked for.
    LongFilm,
    /// The message table refuses a command, or has no such message.
    Refused(TableError),
    /// The message isn't shown.
    NotShown(ActivateError),
    /// The sign refuses a default.
    NotSet(DefaultError),
    /// The octets give the controller no state.
    NotRestored(StateFault),
    /// The library has answered with an outcome that this call hasn't.
    Outcome(u8),
}

impl fmt::Display for Error {
    fn fmt(&self, to: &mut fmt::Formatter<'_>) -> fmt::Result {
        match self {
            #[cfg(feature = "std")]
            Error::File(fault) => write!(to, "the file can't be read: {fault}"),
            Error::TextRefused => to.write_str("the sign refuses the text"),
            Error::NoMemory => to.write_str("memory was refused"),
            Error::NoSignFile => to.write_str("the octets can't be read as a sign file"),
            Error::SignFault => to.write_str("the sign of the sign file is outside its limits"),
            Error::NoPage => to.write_str("the text has no such page"),
            Error::TextTooLong => to.write_str("the text has 2^32 octets or more"),
            Error::TableFault => to.write_str("the message table of the sign file is outside its limits"),
            Error::BadLength => to.write_str("the code hasn't the length that it must have"),
            Error::NoDefault => to.write_str("no default has this number"),
            Error::NoFont => to.write_str("the sign has no such font"),
            Error::BadValue => to.write_str("a number is outside its range"),
            Error::LargeFilm => to.write_str("the film would have more than 64,000,000 octets"),
            Error::LongFilm => to.write_str("the text begins anew after more than ten minutes"),
            Error::Refused(why) => write!(to, "the message table refuses the command: {why}"),
            Error::NotShown(why) => write!(to, "the message isn't shown: {why}"),
            Error::NotSet(why) => write!(to, "the sign refuses the default: {why}"),
            Error::NotRestored(why) => write!(to, "the saved octets aren't taken: {why}"),
            Error::Outcome(outcome) => write!(to, "the library answers with the outcome {outcome}"),
        }
    }
}

#[cfg(feature = "std")]
impl std::error::Error for Error {
    fn source(&self) -> Option<&(dyn std::error::Error + 'static)> {
        match self {
            Error::File(fault) => Some(fault),
            Error::Refused(why) => Some(why),
            Error::NotShown(why) => Some(why),
            Error::NotSet(why) => Some(why),
            Error::NotRestored(why) => Some(why),
            _ => None,
        }
    }
}

/// The error of an outcome, if it is one.
pub(crate) fn done(outcome: u8) -> Result<(), Error> {
    Err(match outcome {
        0 => return Ok(()),
        1 => Error::TextRefused,
        2 => Error::NoMemory,
        3 => Error::NoSignFile,
        4 => Error::SignFault,
        6 => Error::NoPage,
        7 => Error::TextTooLong,
        8 => Error::TableFault,
        10 => Error::BadLength,
        11 => Error::NoDefault,
        12 => Error::NoFont,
        13 => Error::BadValue,
        14 => Error::LargeFilm,
        15 => Error::LongFilm,
        outcome => Error::Outcome(outcome),
    })
}
