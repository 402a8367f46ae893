//! The enumerations of NTCIP 1203 that the library takes and answers with.

use crate::ffi;
use crate::sign::told;
use alloc::string::String;
use core::fmt;

/// An enumeration by its numbers.
macro_rules! codes {
    ($(#[$about:meta])* $name:ident { $($(#[$said:meta])* $variant:ident = $number:literal),* $(,)? }) => {
        $(#[$about])*
        #[derive(Clone, Copy, Debug, PartialEq, Eq, Hash)]
        #[non_exhaustive]
        pub enum $name {
            $($(#[$said])* $variant,)*
            /// A number that this crate has no name for.
            Unlisted(u8),
        }

        impl $name {
            /// The number.
            pub fn number(self) -> u8 {
                match self {
                    $($name::$variant => $number,)*
                    $name::Unlisted(number) => number,
                }
            }
        }

        impl From<u8> for $name {
            fn from(number: u8) -> $name {
                match number {
                    $($number => $name::$variant,)*
                    number => $name::Unlisted(number),
                }
            }
        }

        impl From<$name> for u8 {
            fn from(code: $name) -> u8 {
                code.number()
            }
        }
    };
}

/// Enumerations that say what is wrong: errors, with the words of each.
macro_rules! errors {
    ($($name:ident $kind:literal { $($variant:ident: $words:literal),* $(,)? })*) => {$(
        impl $name {
            /// The sentence that the library has for it, which `Display` writes too, or `None` if the number has none.
            pub fn sentence(self) -> Option<String> {
                let octets = told(64, |told: &mut [u8], count: &mut usize| {
                    // SAFETY: what is written is borrowed by this call alone.
                    unsafe { ffi::latsefur_sentence($kind, self.number(), told.as_mut_ptr(), told.len(), count) }
                });
                octets.ok().map(|octets| String::from_utf8_lossy(&octets).into_owned())
            }
        }

        impl fmt::Display for $name {
            fn fmt(&self, to: &mut fmt::Formatter<'_>) -> fmt::Result {
                match self {
                    $($name::$variant => to.write_str($words),)*
                    $name::Unlisted(number) => write!(to, "the number {number}, which has no name"),
                }
            }
        }

        #[cfg(feature = "std")]
        impl std::error::Error for $name {}
    )*};
}

codes! {
    /// What is wrong with a text (dmsMultiSyntaxError).
    MultiError {
        /// other
        Other = 1,
        /// none: nothing is wrong
        None = 2,
        /// unsupportedTag
        UnsupportedTag = 3,
        /// unsupportedTagValue
        UnsupportedTagValue = 4,
        /// textTooBig
        TextTooBig = 5,
        /// fontNotDefined
        FontNotDefined = 6,
        /// characterNotDefined
        CharacterNotDefined = 7,
        /// tagConflict
        TagConflict = 11,
        /// tooManyPages
        TooManyPages = 12,
        /// fontVersionID
        FontVersionId = 13,
    }
}

codes! {
    /// The kinds of memory that a message may be in (dmsMessageMemoryType).
    Memory {
        /// permanent
        Permanent = 2,
        /// changeable
        Changeable = 3,
        /// currentBuffer
        CurrentBuffer = 5,
        /// blank
        Blank = 7,
    }
}

codes! {
    /// What a host may ask of a message's status (dmsMessageStatus).
    Request {
        /// modifyReq
        Modify = 6,
        /// validateReq
        Validate = 7,
        /// notUsedReq
        NotUsed = 8,
    }
}

codes! {
    /// The status of a message (dmsMessageStatus).
    Status {
        /// notUsed
        NotUsed = 1,
        /// modifying
        Modifying = 2,
        /// validating
        Validating = 3,
        /// valid
        Valid = 4,
        /// error
        Error = 5,
    }
}

codes! {
    /// What the sign found when it judged a message (dmsValidateMessageError).
    ValidateError {
        /// other
        Other = 1,
        /// none
        None = 2,
        /// beacons
        Beacons = 3,
        /// pixelService
        PixelService = 4,
        /// syntaxMULTI
        SyntaxMulti = 5,
    }
}

codes! {
    /// Why a message isn't shown (dmsActivateMsgError).
    ActivateError {
        /// other
        Other = 1,
        /// none
        None = 2,
        /// priority
        Priority = 3,
        /// messageStatus
        MessageStatus = 4,
        /// messageMemoryType
        MessageMemoryType = 5,
        /// messageNumber
        MessageNumber = 6,
        /// messageCRC
        MessageCrc = 7,
        /// syntaxMULTI
        SyntaxMulti = 8,
    }
}

codes! {
    /// Why the message table refuses a command.
    TableError {
        /// the memory type isn't one of [`Memory`]
        MemoryType = 1,
        /// there is no message of this number
        Number = 2,
        /// messages of this memory type aren't written
        ReadOnly = 3,
        /// the message's status doesn't take this
        WrongState = 4,
        /// the value is outside its range
        BadValue = 5,
        /// the text or the owner is too long
        TooLong = 6,
        /// the table has no room left for it
        NoSpace = 7,
    }
}

codes! {
    /// Why octets give a controller no state.
    StateFault {
        /// there are fewer or more octets than there should be
        Length = 1,
        /// they are of another version
        Version = 2,
        /// their CRC-32 isn't theirs
        Checksum = 3,
        /// a number is outside its range
        Value = 4,
        /// a text is too long
        TooLong = 5,
        /// the texts would pass the budget
        NoSpace = 6,
        /// the table has another number of messages
        Slots = 7,
        /// the sign refuses the defaults
        Defaults = 8,
        /// the sign refuses the text of the display
        Text = 9,
    }
}

codes! {
    /// Why the sign refuses a default.
    DefaultError {
        /// the value is outside its range
        BadValue = 9,
        /// the sign has no such font
        NoFont = 10,
    }
}

codes! {
    /// Why the sign shows what it shows (dmsMsgSourceMode).
    SourceMode {
        /// other
        Other = 1,
        /// central
        Central = 8,
        /// endDuration
        EndDuration = 14,
    }
}

codes! {
    /// The defaults of a sign (group multiCfg).
    DefaultField {
        /// the number of the font
        Font = 1,
        /// where lines stand
        Line = 2,
        /// where groups of lines stand
        Page = 3,
        /// how long a page is shown, in tenths of a second
        PageOn = 4,
        /// how long the sign is dark after it, in tenths of a second
        PageOff = 5,
        /// how long flashing text is shown, in tenths of a second
        FlashOn = 6,
        /// how long it is dark, in tenths of a second
        FlashOff = 7,
        /// the colour of text
        Fore = 8,
        /// the colour of the page
        Back = 9,
    }
}

errors! {
    MultiError 4 {
        Other: "another fault",
        None: "nothing is wrong with the text",
        UnsupportedTag: "the sign doesn't support the tag",
        UnsupportedTagValue: "the sign doesn't support the value of the tag",
        TextTooBig: "the text is too big for the sign",
        FontNotDefined: "the sign has no such font",
        CharacterNotDefined: "the font has no such character",
        TagConflict: "the tag conflicts with another one",
        TooManyPages: "the text has too many pages",
        FontVersionId: "the font has another version",
    }

    ValidateError 2 {
        Other: "another fault",
        None: "nothing is wrong with the message",
        Beacons: "the sign can't do what the message asks of its beacons",
        PixelService: "the sign can't do what the message asks of its pixel service",
        SyntaxMulti: "the text of the message is wrong",
    }

    ActivateError 3 {
        Other: "another fault",
        None: "nothing is wrong with the activation",
        Priority: "what is shown has a higher priority",
        MessageStatus: "the message isn't valid",
        MessageMemoryType: "there is no such memory type",
        MessageNumber: "there is no message of this number",
        MessageCrc: "the message has another CRC",
        SyntaxMulti: "the text of the message is wrong",
    }

    TableError 1 {
        MemoryType: "there is no such memory type",
        Number: "there is no message of this number",
        ReadOnly: "messages of this memory type aren't written",
        WrongState: "the status of the message doesn't take this",
        BadValue: "the value is outside its range",
        TooLong: "the text or the owner is too long",
        NoSpace: "the table has no room left for it",
    }

    StateFault 6 {
        Length: "there are fewer or more octets than there should be",
        Version: "they are of another version",
        Checksum: "their CRC-32 isn't theirs",
        Value: "a number is outside its range",
        TooLong: "a text is too long",
        NoSpace: "the texts would pass the budget",
        Slots: "the table has another number of messages",
        Defaults: "the sign refuses the defaults",
        Text: "the sign refuses the text of the display",
    }

    DefaultError 5 {
        BadValue: "the value is outside its range",
        NoFont: "the sign has no such font",
    }
}
