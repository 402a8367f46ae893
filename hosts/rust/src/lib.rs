//! What a roadside message sign of NTCIP 1203 v03 says to a message in MULTI, and the pages that it shows, by a library whose code is proved to
//! do what its definitions say.
//!
//! [`Sign`] judges texts and draws their pages, and [`Controller`] keeps messages and shows them. All times are in tenths of a second; pages,
//! rows, columns and octets count from 0, and messages from 1.
//!
//! ```
//! let sign = latsefur::Sign::from_file("../../signs/portable.toml")?;
//! println!("{}", sign.check("ROAD[nl]WORK[nl]AHEAD")?); // ok 1
//! # Ok::<(), latsefur::Error>(())
//! ```
//!
//! Without the feature `std`, which is there by default, the crate needs `core` and `alloc` alone. A sign then comes from octets, and errors are
//! values with words.
#![cfg_attr(not(feature = "std"), no_std)]
#![deny(unsafe_op_in_unsafe_fn)]

extern crate alloc;

mod codes;
mod controller;
mod error;
mod ffi;
mod picture;
mod sign;

pub use codes::{ActivateError, DefaultError, DefaultField, Memory, MultiError, Request, SourceMode, StateFault, Status, TableError, ValidateError};
pub use controller::{message_crc, ActivationCode, Controller, Defaults, Display, EndCode, Font, Frame, Message, Reply, Report, Table};
pub use error::Error;
pub use picture::{Picture, Plane, Shown};
pub use sign::{Sign, Verdict};

/// The version of the library, which is that of `hosts/latsefur.h`. It rises with each change of that header.
pub fn library_version() -> u32 {
    // SAFETY: it takes nothing.
    unsafe { ffi::latsefur_version() }
}
