//! A controller, which keeps the messages of one sign and what the sign shows.

use crate::codes::{ActivateError, DefaultError, DefaultField, Memory, MultiError, Request, SourceMode, Status, TableError, ValidateError};
use crate::error::{done, Error};
use crate::ffi::{self, Handle};
use crate::picture::{stride, Picture, Plane, Shown};
use crate::sign::{Sign, Verdict};
use alloc::vec;
use alloc::vec::Vec;
use core::cell::UnsafeCell;
use core::fmt;
use core::ptr::null_mut;

/// The most octets of a text in the table of any sign.
const MOST_TEXT: usize = 4096;
/// The most octets of an owner.
const MOST_OWNER: usize = 127;

/// The reply to a command. It is written as `signctl run` does.
///
/// A command that is refused has a reply too, so each is looked at, or [`obeyed`](Reply::obeyed) is asked for an error.
#[must_use = "a command that is refused has a reply too; `obeyed` makes an error of it"]
#[derive(Clone, Copy, Debug, PartialEq, Eq)]
#[non_exhaustive]
pub enum Reply {
    /// The command was obeyed.
    Done,
    /// The message table refuses the command, and nothing has changed.
    Refused(TableError),
    /// No message waits to be judged.
    Idle,
    /// A message was judged.
    Worked {
        /// Its number among the changeable ones.
        number: u16,
        /// What it became: valid or error.
        status: Status,
        /// The register after it.
        validate_error: ValidateError,
        /// The register after it.
        multi_error: MultiError,
        /// The octet of that error, counted from 0.
        multi_position: u16,
    },
    /// The message is shown.
    Shown,
    /// The message isn't shown, and the display keeps what it shows.
    NotShown(ActivateError),
    /// The sign refuses the default.
    NotSet(DefaultError),
    /// Time has passed.
    Ticked,
    /// Time has passed, and a duration has ended.
    Ended,
}

impl Reply {
    fn of(facts: ffi::Reply) -> Reply {
        match facts.kind {
            1 => Reply::Refused(facts.code.into()),
            2 => Reply::Idle,
            3 => Reply::Worked {
                number: facts.number,
                status: facts.status.into(),
                validate_error: facts.validate_error.into(),
                multi_error: facts.multi_error.into(),
                multi_position: facts.multi_position,
            },
            4 => Reply::Shown,
            5 => Reply::NotShown(facts.code.into()),
            6 => Reply::NotSet(facts.code.into()),
            7 => Reply::Ticked,
            8 => Reply::Ended,
            _ => Reply::Done,
        }
    }

    /// Whether the command was obeyed, for `?`.
    ///
    /// ```
    /// use latsefur::{Controller, Error, Memory, Request, Sign, TableError};
    ///
    /// fn write(controller: &mut Controller, text: &str) -> Result<(), Error> {
    ///     controller.request(Memory::Changeable, 1, Request::Modify)?.obeyed()?;
    ///     controller.set_multi(Memory::Changeable, 1, text)?.obeyed()
    /// }
    ///
    /// let mut controller = Controller::new(&Sign::from_file("../../signs/sample.toml")?)?;
    /// write(&mut controller, "A")?;
    /// assert!(matches!(write(&mut controller, &"A".repeat(99)), Err(Error::Refused(TableError::TooLong))));
    /// # Ok::<(), Error>(())
    /// ```
    ///
    /// A reply that nobody looks at has a warning:
    ///
    /// ```compile_fail
    /// #![deny(unused_must_use)]
    /// # use latsefur::{Controller, Error, Sign};
    /// fn clear(controller: &mut Controller) -> Result<(), Error> {
    ///     controller.clear()?;
    ///     Ok(())
    /// }
    /// ```
    ///
    /// # Errors
    ///
    /// [`Error::Refused`], [`Error::NotShown`] and [`Error::NotSet`], of the replies with these names.
    pub fn obeyed(self) -> Result<(), Error> {
        match self {
            Reply::Refused(why) => Err(Error::Refused(why)),
            Reply::NotShown(why) => Err(Error::NotShown(why)),
            Reply::NotSet(why) => Err(Error::NotSet(why)),
            _ => Ok(()),
        }
    }
}

impl fmt::Display for Reply {
    fn fmt(&self, to: &mut fmt::Formatter<'_>) -> fmt::Result {
        match self {
            Reply::Done => to.write_str("done"),
            Reply::Refused(why) => write!(to, "refused {}", why.number()),
            Reply::Idle => to.write_str("idle"),
            Reply::Worked { number, status, validate_error, multi_error, multi_position } => {
                let (status, validate, multi) = (status.number(), validate_error.number(), multi_error.number());
                write!(to, "worked {number} {status} {validate} {multi} {multi_position}")
            }
            Reply::Shown => to.write_str("shown"),
            Reply::NotShown(why) => write!(to, "not shown {}", why.number()),
            Reply::NotSet(why) => write!(to, "refused {}", why.number()),
            Reply::Ticked => to.write_str("ticked"),
            Reply::Ended => to.write_str("ended"),
        }
    }
}

/// A message of the table (object dmsMessageTable).
#[derive(Clone, Debug, PartialEq, Eq)]
pub struct Message {
    /// Its status.
    pub status: Status,
    /// Its run-time priority, 1 to 255.
    pub priority: u8,
    /// Its beacon, 0 or 1.
    pub beacon: u8,
    /// Its pixel service, 0 or 1.
    pub pixel_service: u8,
    /// Its CRC; 0 of a blank message.
    pub crc: u16,
    /// Its owner, at most 127 octets.
    pub owner: Vec<u8>,
    /// Its text.
    pub text: Vec<u8>,
}

/// The state of the sign.
#[derive(Clone, Copy, Debug, PartialEq, Eq)]
pub struct Report {
    /// Tenths of a second since the display began to show the message; `u64::MAX` may stand for more.
    pub clock: u64,
    /// Octets that texts and owners may still take (dmsFreeChangeableMemory).
    pub free: u32,
    /// The address of who asked for the message (dmsMsgRequesterID).
    pub requester: u32,
    /// Changeable messages that are used (dmsNumChangeableMsg).
    pub used: u16,
    /// The memory type of the message that is shown (dmsMsgTableSource).
    pub shown_memory: Memory,
    /// Its number.
    pub shown_number: u16,
    /// Its CRC; 0 of a blank message.
    pub crc: u16,
    /// Its run-time priority.
    pub priority: u8,
    /// Minutes left, rounded up; 65,535 has no end (dmsMessageTimeRemaining).
    pub remaining: u16,
    /// Why it is shown.
    pub mode: SourceMode,
    /// The register of the last activation.
    pub activate: ActivateError,
    /// The register of the last validation.
    pub validate: ValidateError,
    /// The register of the last text that was judged.
    pub multi: MultiError,
    /// The octet of its error, counted from 0.
    pub position: u16,
}

/// The defaults in force (group multiCfg). Times are in tenths of a second.
#[derive(Clone, Copy, Debug, PartialEq, Eq)]
#[allow(missing_docs)]
pub struct Defaults {
    pub font: u8,
    pub line: u8,
    pub page: u8,
    pub page_on: u8,
    pub page_off: u8,
    pub flash_on: u8,
    pub flash_off: u8,
    pub fore: u8,
    pub back: u8,
}

/// What the display shows now.
#[derive(Clone, Debug, PartialEq, Eq)]
pub struct Frame {
    /// The page, or `None` in the off time of one.
    pub shown: Option<Shown>,
    /// Which pixels have the colour that was asked for.
    pub plane: Plane,
}

/// What the display shows now, in its colours.
#[derive(Clone, Debug, PartialEq, Eq)]
pub struct Display {
    /// The page, or `None` in the off time of one.
    pub shown: Option<Shown>,
    /// The colour of every pixel.
    pub picture: Picture,
}

/// The limits of a message table.
#[derive(Clone, Copy, Debug, PartialEq, Eq)]
pub struct Table {
    /// Octets of all texts and owners together.
    pub bytes: u32,
    /// Changeable messages (dmsMaxChangeableMsg).
    pub slots: u16,
    /// Octets of one text.
    pub max_string: u16,
    /// Permanent messages (dmsNumPermanentMsg).
    pub permanents: u8,
}

/// A font of a sign (object fontTable).
#[derive(Clone, Copy, Debug, PartialEq, Eq)]
pub struct Font {
    /// Its version; 0 is none.
    pub version: u16,
    /// Its number, 1 to 255.
    pub number: u8,
    /// Rows, in pixels.
    pub height: u8,
    /// Columns between two characters, in pixels.
    pub char_spacing: u8,
    /// Rows between two lines, in pixels.
    pub line_spacing: u8,
}

/// Which message is shown, for how long, and who asks (dmsActivateMessage).
///
/// It is made of its fields, or of its 12 octets:
///
/// ```
/// use latsefur::{message_crc, ActivationCode, Error, Memory};
///
/// let code = ActivationCode {
///     duration: 1,
///     priority: 255,
///     memory: Memory::Changeable,
///     number: 1,
///     crc: message_crc("A", 0, 0),
///     requester: [127, 0, 0, 1],
/// };
/// assert_eq!(ActivationCode::from([0, 1, 255, 3, 0, 1, 0x9a, 0x66, 127, 0, 0, 1]), code);
/// assert_eq!(ActivationCode::try_from(&code.octets()[..])?, code);
/// assert!(matches!(ActivationCode::try_from(&code.octets()[1..]), Err(Error::BadLength)));
/// # Ok::<(), Error>(())
/// ```
#[derive(Clone, Copy, Debug, PartialEq, Eq)]
pub struct ActivationCode {
    /// In minutes; 65,535 has no end.
    pub duration: u16,
    /// The activate priority.
    pub priority: u8,
    /// The memory type.
    pub memory: Memory,
    /// The number of the message.
    pub number: u16,
    /// Its CRC, as of [`message_crc`].
    pub crc: u16,
    /// The address of who asks.
    pub requester: [u8; 4],
}

impl ActivationCode {
    /// The 12 octets of the code, the high octet of each number first.
    pub fn octets(&self) -> [u8; 12] {
        let ([d0, d1], [n0, n1], [c0, c1]) = (self.duration.to_be_bytes(), self.number.to_be_bytes(), self.crc.to_be_bytes());
        let [r0, r1, r2, r3] = self.requester;
        [d0, d1, self.priority, self.memory.number(), n0, n1, c0, c1, r0, r1, r2, r3]
    }
}

impl From<[u8; 12]> for ActivationCode {
    fn from([d0, d1, priority, memory, n0, n1, c0, c1, requester @ ..]: [u8; 12]) -> ActivationCode {
        let (duration, memory) = (u16::from_be_bytes([d0, d1]), memory.into());
        ActivationCode { duration, priority, memory, number: u16::from_be_bytes([n0, n1]), crc: u16::from_be_bytes([c0, c1]), requester }
    }
}

impl TryFrom<&[u8]> for ActivationCode {
    type Error = Error;

    /// [`Error::BadLength`] for another number of octets.
    fn try_from(octets: &[u8]) -> Result<ActivationCode, Error> {
        <[u8; 12]>::try_from(octets).map(ActivationCode::from).map_err(|_| Error::BadLength)
    }
}

/// The message that follows a duration (dmsEndDurationMessage).
///
/// It is made of its fields, or of its 5 octets:
///
/// ```
/// use latsefur::{EndCode, Memory};
///
/// let blank = EndCode { memory: Memory::Blank, number: 1, crc: 0 };
/// assert_eq!(EndCode::from([7, 0, 1, 0, 0]), blank);
/// assert_eq!(EndCode::try_from(&blank.octets()[..])?, blank);
/// # Ok::<(), latsefur::Error>(())
/// ```
#[derive(Clone, Copy, Debug, PartialEq, Eq)]
pub struct EndCode {
    /// The memory type.
    pub memory: Memory,
    /// The number of the message.
    pub number: u16,
    /// Its CRC, as of [`message_crc`].
    pub crc: u16,
}

impl EndCode {
    /// The 5 octets of the code, the high octet of each number first.
    pub fn octets(&self) -> [u8; 5] {
        let ([n0, n1], [c0, c1]) = (self.number.to_be_bytes(), self.crc.to_be_bytes());
        [self.memory.number(), n0, n1, c0, c1]
    }
}

impl From<[u8; 5]> for EndCode {
    fn from([memory, n0, n1, c0, c1]: [u8; 5]) -> EndCode {
        EndCode { memory: memory.into(), number: u16::from_be_bytes([n0, n1]), crc: u16::from_be_bytes([c0, c1]) }
    }
}

impl TryFrom<&[u8]> for EndCode {
    type Error = Error;

    /// [`Error::BadLength`] for another number of octets.
    fn try_from(octets: &[u8]) -> Result<EndCode, Error> {
        <[u8; 5]>::try_from(octets).map(EndCode::from).map_err(|_| Error::BadLength)
    }
}

/// The CRC of a message's text, beacon and pixel service (dmsMessageCRC), which an activation code has.
///
/// ```
/// assert_eq!(latsefur::message_crc("A", 0, 0), 0x9a66);
/// ```
pub fn message_crc(text: impl AsRef<[u8]>, beacon: u8, pixel_service: u8) -> u16 {
    let text = text.as_ref();
    // SAFETY: the octets are those of a slice.
    unsafe { ffi::latsefur_message_crc(text.as_ptr(), text.len(), beacon, pixel_service) }
}

/// The controller of a sign: its message table, what the sign shows, its clock and its defaults. `docs/messages.md` says what each command does.
///
/// Nothing runs between calls: time passes by [`tick`](Controller::tick) alone. It may go to another thread, and is used by one at a time. Its
/// memory is given back when it is dropped. Commands take it mutably, and questions don't, though those that draw count their steps. Messages
/// are numbered from 1; any number is taken, and the reply says what the controller thinks of it. Texts and owners are octets: `&[u8]`, `&str`,
/// `Vec<u8>` and the like. Codes are an [`ActivationCode`] and an [`EndCode`]. The library needs 64 KiB of stack to make the controller, and 8 KiB
/// for any other call.
///
/// ```
/// use latsefur::{message_crc, ActivationCode, Controller, Memory, Reply, Request, Sign};
///
/// let sign = Sign::from_file("../../signs/portable.toml")?;
/// let mut controller = Controller::new(&sign)?;
/// let (memory, text) = (Memory::Changeable, "ROAD[np]WORK");
/// controller.request(memory, 1, Request::Modify)?.obeyed()?;
/// controller.set_multi(memory, 1, text)?.obeyed()?;
/// controller.request(memory, 1, Request::Validate)?.obeyed()?;
/// assert_eq!(controller.work()?.to_string(), "worked 1 4 2 2 0");
/// let code = ActivationCode {
///     duration: 1,
///     priority: 255,
///     memory,
///     number: 1,
///     crc: message_crc(text, 0, 0),
///     requester: [127, 0, 0, 1],
/// };
/// assert_eq!(controller.message(memory, 1)?.crc, code.crc);
/// controller.activate(code)?.obeyed()?;
/// assert_eq!(controller.tick(599)?, Reply::Ticked);
/// assert_eq!(controller.tick(1)?, Reply::Ended);
/// # Ok::<(), latsefur::Error>(())
/// ```
///
/// It isn't shared by threads:
///
/// ```compile_fail
/// fn shared(_: impl Sync) {}
/// let sign = latsefur::Sign::from_file("../../signs/portable.toml").unwrap();
/// shared(latsefur::Controller::new(&sign).unwrap());
/// ```
#[derive(Debug)]
pub struct Controller {
    /// A cell, since questions share the controller, and the library takes a handle that it may write.
    handle: UnsafeCell<Handle>,
    width: u16,
    height: u16,
}

// SAFETY: what the handle holds may go to another thread between calls. Each call has it alone: its cell keeps the type from being `Sync`, no call
// of the library calls back, and no reference to the handle outlives a call.
unsafe impl Send for Controller {}

impl Drop for Controller {
    fn drop(&mut self) {
        // SAFETY: the handle was made by `new` alone, has no copy, and isn't used after this.
        unsafe { ffi::latsefur_controller_free(self.handle.get_mut()) }
    }
}

impl Controller {
    /// The controller of a sign.
    ///
    /// # Errors
    ///
    /// [`Error::TableFault`] if the message table of the sign file is outside a limit, and [`Error::NoMemory`]. No other call takes memory of the
    /// library.
    pub fn new(sign: &Sign) -> Result<Controller, Error> {
        let handle = UnsafeCell::new(Handle { held: null_mut(), full: 0 });
        let mut made = Controller { handle, width: sign.width(), height: sign.height() };
        // SAFETY: the octets are those of a slice; the handle is zeros, and is borrowed by this call alone.
        done(unsafe { ffi::latsefur_controller_new(sign.file().as_ptr(), sign.file().len(), made.handle.get_mut()) })?;
        Ok(made)
    }

    /// A command, whose call borrows the handle and the reply alone.
    fn ask(&mut self, call: impl FnOnce(&mut Handle, &mut ffi::Reply) -> u8) -> Result<Reply, Error> {
        let mut facts = ffi::Reply::default();
        done(call(self.handle.get_mut(), &mut facts))?;
        Ok(Reply::of(facts))
    }

    /// Asks for a status. A message waits until [`work`](Controller::work) judges it.
    ///
    /// A memory type is no status:
    ///
    /// ```compile_fail
    /// # use latsefur::{Controller, Memory, Sign};
    /// # let mut controller = Controller::new(&Sign::from_file("../../signs/sample.toml").unwrap()).unwrap();
    /// let _ = controller.request(Memory::Changeable, 1, Memory::Blank);
    /// ```
    ///
    /// # Errors
    ///
    /// None comes of a sound library, here and wherever nothing else is said.
    pub fn request(&mut self, memory: Memory, number: u16, status: Request) -> Result<Reply, Error> {
        let (memory, status) = (memory.number(), status.number());
        // SAFETY: the handle and the reply are borrowed by this call alone.
        self.ask(|handle, reply| unsafe { ffi::latsefur_request(handle, memory, number, status, reply) })
    }

    /// Sets the text.
    ///
    /// # Errors
    ///
    /// As [`request`](Controller::request).
    pub fn set_multi(&mut self, memory: Memory, number: u16, text: impl AsRef<[u8]>) -> Result<Reply, Error> {
        let (memory, text) = (memory.number(), text.as_ref());
        // SAFETY: the octets are those of a slice; the handle and the reply are borrowed by this call alone.
        self.ask(|handle, reply| unsafe { ffi::latsefur_set_multi(handle, memory, number, text.as_ptr(), text.len(), reply) })
    }

    /// Sets the owner, of at most 127 octets.
    ///
    /// # Errors
    ///
    /// As [`request`](Controller::request).
    pub fn set_owner(&mut self, memory: Memory, number: u16, owner: impl AsRef<[u8]>) -> Result<Reply, Error> {
        let (memory, owner) = (memory.number(), owner.as_ref());
        // SAFETY: the octets are those of a slice; the handle and the reply are borrowed by this call alone.
        self.ask(|handle, reply| unsafe { ffi::latsefur_set_owner(handle, memory, number, owner.as_ptr(), owner.len(), reply) })
    }

    /// Sets the run-time priority, 1 to 255.
    ///
    /// # Errors
    ///
    /// As [`request`](Controller::request).
    pub fn set_priority(&mut self, memory: Memory, number: u16, value: u8) -> Result<Reply, Error> {
        let memory = memory.number();
        // SAFETY: the handle and the reply are borrowed by this call alone.
        self.ask(|handle, reply| unsafe { ffi::latsefur_set_priority(handle, memory, number, value, reply) })
    }

    /// Sets the beacon, 0 or 1.
    ///
    /// # Errors
    ///
    /// As [`request`](Controller::request).
    pub fn set_beacon(&mut self, memory: Memory, number: u16, value: u8) -> Result<Reply, Error> {
        let memory = memory.number();
        // SAFETY: the handle and the reply are borrowed by this call alone.
        self.ask(|handle, reply| unsafe { ffi::latsefur_set_beacon(handle, memory, number, value, reply) })
    }

    /// Sets the pixel service, 0 or 1.
    ///
    /// # Errors
    ///
    /// As [`request`](Controller::request).
    pub fn set_pixel_service(&mut self, memory: Memory, number: u16, value: u8) -> Result<Reply, Error> {
        let memory = memory.number();
        // SAFETY: the handle and the reply are borrowed by this call alone.
        self.ask(|handle, reply| unsafe { ffi::latsefur_set_pixel_service(handle, memory, number, value, reply) })
    }

    /// Empties every slot.
    ///
    /// # Errors
    ///
    /// As [`request`](Controller::request).
    pub fn clear(&mut self) -> Result<Reply, Error> {
        // SAFETY: the handle and the reply are borrowed by this call alone.
        self.ask(|handle, reply| unsafe { ffi::latsefur_clear(handle, reply) })
    }

    /// Judges the message that waits.
    ///
    /// # Errors
    ///
    /// As [`request`](Controller::request).
    pub fn work(&mut self) -> Result<Reply, Error> {
        // SAFETY: the handle and the reply are borrowed by this call alone.
        self.ask(|handle, reply| unsafe { ffi::latsefur_work(handle, reply) })
    }

    /// Shows a message.
    ///
    /// An end code, or octets that may have any length, are no activation code:
    ///
    /// ```compile_fail
    /// # use latsefur::{Controller, EndCode, Memory, Sign};
    /// # let mut controller = Controller::new(&Sign::from_file("../../signs/sample.toml").unwrap()).unwrap();
    /// let _ = controller.activate(EndCode { memory: Memory::Blank, number: 1, crc: 0 });
    /// ```
    ///
    /// # Errors
    ///
    /// As [`request`](Controller::request).
    pub fn activate(&mut self, code: ActivationCode) -> Result<Reply, Error> {
        let code = code.octets();
        // SAFETY: the octets are those of an array; the handle and the reply are borrowed by this call alone.
        self.ask(|handle, reply| unsafe { ffi::latsefur_activate(handle, code.as_ptr(), code.len(), reply) })
    }

    /// Names the message that follows a duration. It is checked when the duration ends.
    ///
    /// # Errors
    ///
    /// As [`request`](Controller::request).
    pub fn set_end(&mut self, code: EndCode) -> Result<Reply, Error> {
        let code = code.octets();
        // SAFETY: the octets are those of an array; the handle and the reply are borrowed by this call alone.
        self.ask(|handle, reply| unsafe { ffi::latsefur_set_end(handle, code.as_ptr(), code.len(), reply) })
    }

    /// Lets tenths of a second pass.
    ///
    /// # Errors
    ///
    /// As [`request`](Controller::request).
    pub fn tick(&mut self, tenths: u32) -> Result<Reply, Error> {
        // SAFETY: the handle and the reply are borrowed by this call alone.
        self.ask(|handle, reply| unsafe { ffi::latsefur_tick(handle, tenths, reply) })
    }

    /// Sets a default.
    ///
    /// # Errors
    ///
    /// [`Error::NoDefault`] if the number names none.
    pub fn set_default(&mut self, field: DefaultField, value: u8) -> Result<Reply, Error> {
        // SAFETY: the handle and the reply are borrowed by this call alone.
        self.ask(|handle, reply| unsafe { ffi::latsefur_set_default(handle, field.number(), value, reply) })
    }

    /// The state of the sign.
    ///
    /// # Errors
    ///
    /// As [`request`](Controller::request).
    pub fn report(&self) -> Result<Report, Error> {
        let mut facts = ffi::Report::default();
        // SAFETY: the handle and the report are borrowed by this call alone.
        done(unsafe { ffi::latsefur_report(self.handle.get(), &mut facts) })?;
        Ok(Report {
            clock: facts.clock,
            free: facts.free,
            requester: facts.requester,
            used: facts.used,
            shown_memory: facts.shown_memory.into(),
            shown_number: facts.shown_number,
            crc: facts.crc,
            priority: facts.priority,
            remaining: facts.remaining,
            mode: facts.mode.into(),
            activate: facts.activate.into(),
            validate: facts.validate.into(),
            multi: facts.multi.into(),
            position: facts.position,
        })
    }

    /// A message. Number 1 of [`Memory::CurrentBuffer`] is what the display shows.
    ///
    /// # Errors
    ///
    /// [`Error::Refused`], if there is no such message.
    pub fn message(&self, memory: Memory, number: u16) -> Result<Message, Error> {
        let (mut facts, mut text, mut owner) = (ffi::Message::default(), vec![0; MOST_TEXT], vec![0; MOST_OWNER]);
        let (text_at, owner_at) = (text.as_mut_ptr(), owner.as_mut_ptr());
        // SAFETY: the buffers have these lengths; they, the facts and the handle are borrowed by this call alone.
        let outcome =
            unsafe { ffi::latsefur_row(self.handle.get(), memory.number(), number, &mut facts, text_at, MOST_TEXT, owner_at, MOST_OWNER) };
        if outcome == 1 {
            return Err(Error::Refused(facts.code.into()));
        }
        done(outcome)?;
        text.truncate(facts.multi);
        owner.truncate(facts.owner);
        Ok(Message {
            status: facts.status.into(),
            priority: facts.priority,
            beacon: facts.beacon,
            pixel_service: facts.pixel,
            crc: facts.crc,
            owner,
            text,
        })
    }

    /// The defaults in force.
    ///
    /// # Errors
    ///
    /// As [`request`](Controller::request).
    pub fn defaults(&self) -> Result<Defaults, Error> {
        let mut facts = ffi::Defaults::default();
        // SAFETY: the handle and the defaults are borrowed by this call alone.
        done(unsafe { ffi::latsefur_defaults(self.handle.get(), &mut facts) })?;
        let ffi::Defaults { font, line, page, page_on, page_off, flash_on, flash_off, fore, back } = facts;
        Ok(Defaults { font, line, page, page_on, page_off, flash_on, flash_off, fore, back })
    }

    /// What the display shows now, and which pixels have a colour; none has one above 9.
    ///
    /// # Errors
    ///
    /// As [`request`](Controller::request).
    pub fn frame(&self, colour: u8) -> Result<Frame, Error> {
        let mut facts = ffi::Shown::default();
        let mut octets = vec![0; stride(self.width) * usize::from(self.height)];
        // SAFETY: the plane has this length; it, what is shown and the handle are borrowed by this call alone.
        done(unsafe { ffi::latsefur_frame(self.handle.get(), colour, &mut facts, octets.as_mut_ptr(), octets.len()) })?;
        Ok(Frame { shown: Shown::of(facts), plane: Plane { width: self.width, octets } })
    }

    /// What the display shows now, in its colours.
    ///
    /// # Errors
    ///
    /// As [`request`](Controller::request).
    pub fn colours(&self) -> Result<Display, Error> {
        let mut facts = ffi::Shown::default();
        let mut colours = vec![0; usize::from(self.width) * usize::from(self.height)];
        // SAFETY: the colours have this length; they, what is shown and the handle are borrowed by this call alone.
        done(unsafe { ffi::latsefur_colours(self.handle.get(), &mut facts, colours.as_mut_ptr(), colours.len()) })?;
        Ok(Display { shown: Shown::of(facts), picture: Picture { width: self.width, colours } })
    }

    /// For how many tenths of a second, at most `most`, what the display shows stays as it is if no command comes.
    ///
    /// # Errors
    ///
    /// As [`request`](Controller::request).
    pub fn next_change(&self, most: u32) -> Result<u32, Error> {
        let mut tenths = 0;
        // SAFETY: the handle and the tenths are borrowed by this call alone.
        done(unsafe { ffi::latsefur_next_change(self.handle.get(), most, &mut tenths) })?;
        Ok(tenths)
    }

    /// The limits of the message table.
    ///
    /// # Errors
    ///
    /// As [`request`](Controller::request).
    pub fn table(&self) -> Result<Table, Error> {
        let mut facts = ffi::Table::default();
        // SAFETY: the handle and the table are borrowed by this call alone.
        done(unsafe { ffi::latsefur_held_table(self.handle.get(), &mut facts) })?;
        let ffi::Table { bytes, slots, max_string, permanents } = facts;
        Ok(Table { bytes, slots, max_string, permanents })
    }

    /// The font of a number.
    ///
    /// # Errors
    ///
    /// [`Error::NoFont`] if the sign has none.
    pub fn font(&self, number: u8) -> Result<Font, Error> {
        let mut facts = ffi::Font::default();
        // SAFETY: the handle and the font are borrowed by this call alone.
        done(unsafe { ffi::latsefur_held_font(self.handle.get(), number, &mut facts) })?;
        let ffi::Font { version, number, height, char_spacing, line_spacing } = facts;
        Ok(Font { version, number, height, char_spacing, line_spacing })
    }

    /// The verdict on a text, as [`Sign::check`] gives it, but by the defaults in force, and without a look at the sign file.
    ///
    /// # Errors
    ///
    /// [`Error::TextTooLong`].
    pub fn check(&self, text: impl AsRef<[u8]>) -> Result<Verdict, Error> {
        let text = text.as_ref();
        let mut facts = ffi::Verdict::default();
        // SAFETY: the octets are those of a slice; the handle and the verdict are borrowed by this call alone.
        let outcome = unsafe { ffi::latsefur_held_check(self.handle.get(), text.as_ptr(), text.len(), &mut facts) };
        if outcome != 1 {
            done(outcome)?;
        }
        Verdict::of(facts)
    }

    /// The colour of every pixel of a page of a text, by the defaults in force. What the display shows stays.
    ///
    /// # Errors
    ///
    /// [`Error::TextRefused`], [`Error::NoPage`] and [`Error::TextTooLong`].
    pub fn colours_of_page(&self, text: impl AsRef<[u8]>, page: u8, phase: u64) -> Result<Picture, Error> {
        let text = text.as_ref();
        let mut colours = vec![0; usize::from(self.width) * usize::from(self.height)];
        let (colours_at, len) = (colours.as_mut_ptr(), colours.len());
        // SAFETY: the octets are those of a slice, and the colours have this length; they and the handle are borrowed by this call alone.
        done(unsafe {
            ffi::latsefur_held_colours_of_page(self.handle.get(), text.as_ptr(), text.len(), page, phase, colours_at, len)
        })?;
        Ok(Picture { width: self.width, colours })
    }

    /// Which pixels of a page of a text have a colour, by the defaults in force. What the display shows stays.
    ///
    /// # Errors
    ///
    /// [`Error::TextRefused`], [`Error::NoPage`] and [`Error::TextTooLong`].
    pub fn plane_of_page(&self, text: impl AsRef<[u8]>, page: u8, colour: u8, phase: u64) -> Result<Plane, Error> {
        let text = text.as_ref();
        let mut octets = vec![0; stride(self.width) * usize::from(self.height)];
        let (plane_at, len) = (octets.as_mut_ptr(), octets.len());
        // SAFETY: the octets are those of a slice, and the plane has this length; it and the handle are borrowed by this call alone.
        done(unsafe {
            ffi::latsefur_held_plane_of_page(self.handle.get(), text.as_ptr(), text.len(), page, phase, colour, plane_at, len)
        })?;
        Ok(Plane { width: self.width, octets })
    }

    /// The steps that were counted; `u64::MAX` may stand for more.
    ///
    /// # Errors
    ///
    /// As [`request`](Controller::request).
    pub fn steps(&self) -> Result<u64, Error> {
        let mut steps = 0;
        // SAFETY: the handle and the count are borrowed by this call alone.
        done(unsafe { ffi::latsefur_steps(self.handle.get(), &mut steps) })?;
        Ok(steps)
    }

    /// The messages, what the display shows and since when, the defaults and the codes, as octets that [`restore`](Controller::restore)
    /// takes after a loss of power.
    ///
    /// ```
    /// use latsefur::{Controller, Sign};
    ///
    /// let sign = Sign::from_file("../../signs/portable.toml")?;
    /// let (mut controller, mut other) = (Controller::new(&sign)?, Controller::new(&sign)?);
    /// controller.tick(7)?.obeyed()?;
    /// let saved = controller.save()?;
    /// other.restore(&saved)?;
    /// assert_eq!(other.save()?, saved);
    /// assert!(other.restore(&saved[1..]).is_err());
    /// # Ok::<(), latsefur::Error>(())
    /// ```
    ///
    /// # Errors
    ///
    /// As [`request`](Controller::request).
    pub fn save(&self) -> Result<Vec<u8>, Error> {
        let (mut size, mut count) = (0, 0);
        // SAFETY: the handle and the size are borrowed by this call alone.
        done(unsafe { ffi::latsefur_save_size(self.handle.get(), &mut size) })?;
        let mut octets = vec![0; size];
        // SAFETY: the octets have this length; they, the count and the handle are borrowed by this call alone.
        done(unsafe { ffi::latsefur_save(self.handle.get(), octets.as_mut_ptr(), octets.len(), &mut count) })?;
        octets.truncate(count);
        Ok(octets)
    }

    /// Restores what a controller of the same sign file has saved. If it isn't taken, only the count of steps has changed.
    ///
    /// # Errors
    ///
    /// [`Error::NotRestored`].
    pub fn restore(&mut self, octets: impl AsRef<[u8]>) -> Result<(), Error> {
        let octets = octets.as_ref();
        let mut fault = 0;
        // SAFETY: the octets are those of a slice; the handle and the fault are borrowed by this call alone.
        let outcome = unsafe { ffi::latsefur_restore(self.handle.get(), octets.as_ptr(), octets.len(), &mut fault) };
        if outcome == 1 {
            return Err(Error::NotRestored(fault.into()));
        }
        done(outcome)
    }

    /// A number that rises whenever more than the time has changed of what [`save`](Controller::save) saves; `u64::MAX` may stand for more.
    ///
    /// # Errors
    ///
    /// As [`request`](Controller::request).
    pub fn revision(&self) -> Result<u64, Error> {
        let mut revision = 0;
        // SAFETY: the handle and the number are borrowed by this call alone.
        done(unsafe { ffi::latsefur_revision(self.handle.get(), &mut revision) })?;
        Ok(revision)
    }

    /// The message that follows a duration, as [`set_end`](Controller::set_end) has set it.
    ///
    /// # Errors
    ///
    /// As [`request`](Controller::request).
    pub fn end(&self) -> Result<EndCode, Error> {
        let mut code = [0; 5];
        // SAFETY: the octets are those of an array; they and the handle are borrowed by this call alone.
        done(unsafe { ffi::latsefur_end(self.handle.get(), code.as_mut_ptr(), code.len()) })?;
        Ok(EndCode::from(code))
    }
}
