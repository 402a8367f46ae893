//! A sign, which judges texts and draws their pages.

use crate::codes::MultiError;
use crate::error::{done, Error};
use crate::ffi;
use crate::picture::{stride, Picture, Plane, Shown};
use alloc::string::String;
use alloc::vec;
use alloc::vec::Vec;
use core::fmt;

/// What a sign says to a text.
#[must_use]
#[derive(Clone, Copy, Debug, PartialEq, Eq)]
pub enum Verdict {
    /// The sign accepts the text.
    Accepted {
        /// How many pages it has, 1 to 255.
        pages: u8,
        /// The time of all pages together, lit and dark, in tenths of a second. With one page or a cycle of 0, page 0 is always shown.
        cycle: u32,
    },
    /// The sign refuses the text.
    Refused {
        /// Why (dmsMultiSyntaxError).
        error: MultiError,
        /// The first octet of the first item that offends, counted from 0 (dmsMultiSyntaxErrorPosition).
        at: usize,
    },
}

impl Verdict {
    /// Whether the sign accepts the text.
    pub fn is_accepted(self) -> bool {
        matches!(self, Verdict::Accepted { .. })
    }

    pub(crate) fn of(facts: ffi::Verdict) -> Result<Verdict, Error> {
        match facts.outcome {
            1 => Ok(Verdict::Refused { error: facts.code.into(), at: facts.at }),
            outcome => done(outcome).map(|()| Verdict::Accepted { pages: facts.pages, cycle: facts.cycle }),
        }
    }
}

/// Writes it as `signctl check` does.
impl fmt::Display for Verdict {
    fn fmt(&self, to: &mut fmt::Formatter<'_>) -> fmt::Result {
        match self {
            Verdict::Accepted { pages, .. } => write!(to, "ok {pages}"),
            Verdict::Refused { error, at } => write!(to, "error {} {at}", error.number()),
        }
    }
}

/// A sign by the octets of its sign file, which `docs/signs.md` describes.
///
/// It never changes, and threads may share it. Each call reads the sign file anew, so many texts go into one [`check_all`](Sign::check_all).
/// Texts and files are octets: `&[u8]`, `&str`, `Vec<u8>` and the like. Clocks, phases and other times are in tenths of a second. A clock counts
/// from the moment at which the text is first shown, and a phase from the moment at which its page is. Pages count from 0.
///
/// Any call may have [`Error::NoMemory`], and one with a text [`Error::TextTooLong`]. The thread needs 64 KiB of stack.
///
/// ```
/// let sign = latsefur::Sign::from_file("../../signs/portable.toml")?;
/// assert_eq!(sign.check("ROAD[nl]WORK[nl]AHEAD")?.to_string(), "ok 1");
/// assert_eq!(sign.check(b"CONGESTION")?.to_string(), "error 5 8");
/// # Ok::<(), latsefur::Error>(())
/// ```
#[derive(Clone, Debug)]
pub struct Sign {
    file: Vec<u8>,
    facts: ffi::SignFacts,
}

impl Sign {
    /// The sign of a sign file.
    ///
    /// # Errors
    ///
    /// [`Error::NoSignFile`] if the octets aren't one, [`Error::SignFault`] if the sign is outside a limit.
    pub fn new(file: impl AsRef<[u8]>) -> Result<Sign, Error> {
        Sign::of(file.as_ref().to_vec())
    }

    fn of(file: Vec<u8>) -> Result<Sign, Error> {
        let mut sign = Sign { file, facts: ffi::SignFacts::default() };
        // SAFETY: the octets are those of a slice, and the facts are borrowed by this call alone.
        done(unsafe { ffi::latsefur_sign(sign.file.as_ptr(), sign.file.len(), &mut sign.facts) })?;
        Ok(sign)
    }

    /// The sign of a file.
    ///
    /// # Errors
    ///
    /// [`Error::File`] if it can't be read, and those of [`new`](Sign::new).
    #[cfg(feature = "std")]
    pub fn from_file(path: impl AsRef<std::path::Path>) -> Result<Sign, Error> {
        Sign::of(std::fs::read(path).map_err(Error::File)?)
    }

    /// The octets of the sign file.
    pub fn file(&self) -> &[u8] {
        &self.file
    }

    /// How many pixels a row has, 1 to 1,024.
    pub fn width(&self) -> u16 {
        self.facts.width
    }

    /// How many rows the sign has, 1 to 128.
    pub fn height(&self) -> u16 {
        self.facts.height
    }

    /// How many pages a message may have, 1 to 255.
    pub fn max_pages(&self) -> u8 {
        self.facts.max_pages
    }

    /// Whether the sign has the ten colours; else a pixel is lit or dark.
    pub fn is_classic(&self) -> bool {
        self.facts.classic == 1
    }

    /// The verdict on a text. Whether a message table has room for it is another question.
    ///
    /// # Errors
    ///
    /// Those of the type.
    pub fn check(&self, text: impl AsRef<[u8]>) -> Result<Verdict, Error> {
        let text = text.as_ref();
        let mut facts = ffi::Verdict::default();
        // SAFETY: the octets are those of slices, and the verdict is borrowed by this call alone.
        let outcome = unsafe { ffi::latsefur_check(self.file.as_ptr(), self.file.len(), text.as_ptr(), text.len(), &mut facts) };
        if outcome != 1 {
            done(outcome)?;
        }
        Verdict::of(facts)
    }

    /// The verdicts on these texts, in their order. The sign file is read once.
    ///
    /// ```
    /// let sign = latsefur::Sign::from_file("../../signs/sample.toml")?;
    /// let verdicts = sign.check_all(&["A", "B", "A[np]I"])?;
    /// assert_eq!(verdicts.iter().filter(|verdict| verdict.is_accepted()).count(), 2);
    /// # Ok::<(), latsefur::Error>(())
    /// ```
    ///
    /// # Errors
    ///
    /// Those of the type.
    pub fn check_all<T: AsRef<[u8]>>(&self, texts: &[T]) -> Result<Vec<Verdict>, Error> {
        let slices = texts.iter().map(AsRef::as_ref);
        let given: Vec<ffi::Text> = slices.map(|text| ffi::Text { octets: text.as_ptr(), length: text.len() }).collect();
        let mut told = vec![ffi::Verdict::default(); given.len()];
        // SAFETY: the octets, the texts and the verdicts are those of slices, and the verdicts are borrowed by this call alone.
        done(unsafe {
            ffi::latsefur_check_all(self.file.as_ptr(), self.file.len(), given.as_ptr(), given.len(), told.as_mut_ptr(), told.len())
        })?;
        told.into_iter().map(Verdict::of).collect()
    }

    /// The page of a text that is shown at a clock, or `None` in the off time of a page.
    ///
    /// # Errors
    ///
    /// [`Error::TextRefused`], and those of the type.
    pub fn shown(&self, text: impl AsRef<[u8]>, clock: u64) -> Result<Option<Shown>, Error> {
        let text = text.as_ref();
        let mut facts = ffi::Shown::default();
        // SAFETY: the octets are those of slices, and what is written is borrowed by this call alone.
        done(unsafe { ffi::latsefur_shown_at(self.file.as_ptr(), self.file.len(), text.as_ptr(), text.len(), clock, &mut facts) })?;
        Ok(Shown::of(facts))
    }

    /// The colour of every pixel at a clock.
    ///
    /// ```
    /// let sign = latsefur::Sign::from_file("../../signs/sample.toml")?;
    /// assert_eq!(sign.colours(b"A[np]I", 30)?.colour(2, 5), Some(1));
    /// # Ok::<(), latsefur::Error>(())
    /// ```
    ///
    /// # Errors
    ///
    /// [`Error::TextRefused`], and those of the type.
    pub fn colours(&self, text: impl AsRef<[u8]>, clock: u64) -> Result<Picture, Error> {
        let text = text.as_ref();
        let mut colours = vec![0; usize::from(self.width()) * usize::from(self.height())];
        let (file, len) = (self.file.as_ptr(), self.file.len());
        // SAFETY: the octets are those of slices, and the colours are borrowed by this call alone.
        done(unsafe { ffi::latsefur_colours_at(file, len, text.as_ptr(), text.len(), clock, colours.as_mut_ptr(), colours.len()) })?;
        Ok(Picture { width: self.width(), colours })
    }

    /// The colour of every pixel of a page, at a phase. The phase matters for flashing text alone, and may be longer than the page is shown.
    ///
    /// # Errors
    ///
    /// [`Error::TextRefused`], [`Error::NoPage`] if the text has no such page, and those of the type.
    pub fn colours_of_page(&self, text: impl AsRef<[u8]>, page: u8, phase: u64) -> Result<Picture, Error> {
        let text = text.as_ref();
        let mut colours = vec![0; usize::from(self.width()) * usize::from(self.height())];
        let (file, len) = (self.file.as_ptr(), self.file.len());
        // SAFETY: the octets are those of slices, and the colours are borrowed by this call alone.
        done(unsafe {
            ffi::latsefur_colours_of_page(file, len, text.as_ptr(), text.len(), page, phase, colours.as_mut_ptr(), colours.len())
        })?;
        Ok(Picture { width: self.width(), colours })
    }

    /// The pictures of all pages of a text, each at its phase 0.
    ///
    /// # Errors
    ///
    /// [`Error::TextRefused`], and those of the type.
    pub fn pages(&self, text: impl AsRef<[u8]>) -> Result<Vec<Picture>, Error> {
        let text = text.as_ref();
        match self.check(text)? {
            Verdict::Accepted { pages, .. } => (0..pages).map(|page| self.colours_of_page(text, page, 0)).collect(),
            Verdict::Refused { .. } => Err(Error::TextRefused),
        }
    }

    /// Which pixels have a colour at a clock; none has one above 9.
    ///
    /// # Errors
    ///
    /// [`Error::TextRefused`], and those of the type.
    pub fn plane(&self, text: impl AsRef<[u8]>, colour: u8, clock: u64) -> Result<Plane, Error> {
        let text = text.as_ref();
        let mut octets = vec![0; stride(self.width()) * usize::from(self.height())];
        let (file, len) = (self.file.as_ptr(), self.file.len());
        // SAFETY: the octets are those of slices, and the plane is borrowed by this call alone.
        done(unsafe {
            ffi::latsefur_plane_at(file, len, text.as_ptr(), text.len(), clock, colour, octets.as_mut_ptr(), octets.len())
        })?;
        Ok(Plane { width: self.width(), octets })
    }

    /// Which pixels of a page have a colour, at a phase.
    ///
    /// # Errors
    ///
    /// [`Error::TextRefused`], [`Error::NoPage`] if the text has no such page, and those of the type.
    pub fn plane_of_page(&self, text: impl AsRef<[u8]>, page: u8, colour: u8, phase: u64) -> Result<Plane, Error> {
        let text = text.as_ref();
        let mut octets = vec![0; stride(self.width()) * usize::from(self.height())];
        let (file, len) = (self.file.as_ptr(), self.file.len());
        // SAFETY: the octets are those of slices, and the plane is borrowed by this call alone.
        done(unsafe {
            ffi::latsefur_plane_of_page(file, len, text.as_ptr(), text.len(), page, phase, colour, octets.as_mut_ptr(), octets.len())
        })?;
        Ok(Plane { width: self.width(), octets })
    }

    /// What the sign says to a text and why, as `signctl explain --format json` tells it: a line of JSON, which `docs/explain.schema.json`
    /// describes. With `pictures` each page has its picture. A text of more than 4,096 octets isn't judged.
    ///
    /// ```
    /// let sign = latsefur::Sign::from_file("../../signs/sample.toml")?;
    /// assert!(sign.explain("AAAA", false)?.contains("\"name\":\"textTooBig\""));
    /// # Ok::<(), latsefur::Error>(())
    /// ```
    ///
    /// # Errors
    ///
    /// Those of the type.
    pub fn explain(&self, text: impl AsRef<[u8]>, pictures: bool) -> Result<String, Error> {
        let text = text.as_ref();
        let (file, len) = (self.file.as_ptr(), self.file.len());
        let record = told(4096, |told: &mut [u8], count: &mut usize| {
            // SAFETY: the octets are those of slices, and what is written is borrowed by this call alone.
            unsafe {
                ffi::latsefur_explain(file, len, text.as_ptr(), text.len(), u8::from(pictures), told.as_mut_ptr(), told.len(), count)
            }
        })?;
        Ok(String::from_utf8_lossy(&record).into_owned())
    }

    /// A text as it plays, over and over, as a file in GIF: until it begins anew, or for its first seconds, 1 to 600. A pixel is a square of
    /// `side` by `side` points, 1 to 16.
    ///
    /// ```
    /// let sign = latsefur::Sign::from_file("../../signs/sample.toml")?;
    /// assert!(sign.film("A[np]I", 4, None)?.starts_with(b"GIF89a"));
    /// # Ok::<(), latsefur::Error>(())
    /// ```
    ///
    /// # Errors
    ///
    /// [`Error::TextRefused`], [`Error::BadValue`], [`Error::LargeFilm`], [`Error::LongFilm`], and those of the type.
    pub fn film(&self, text: impl AsRef<[u8]>, side: u8, seconds: Option<u16>) -> Result<Vec<u8>, Error> {
        let text = text.as_ref();
        let (file, len) = (self.file.as_ptr(), self.file.len());
        let long = match seconds {
            None => 0,
            Some(0) => return Err(Error::BadValue),
            Some(count) => count,
        };
        told(65536, |film: &mut [u8], count: &mut usize| {
            // SAFETY: the octets are those of slices, and what is written is borrowed by this call alone.
            unsafe { ffi::latsefur_film(file, len, text.as_ptr(), text.len(), side, long, film.as_mut_ptr(), film.len(), count) }
        })
    }
}

/// What a call tells that says how much room it needs: at first it has this much.
pub(crate) fn told(room: usize, mut call: impl FnMut(&mut [u8], &mut usize) -> u8) -> Result<Vec<u8>, Error> {
    let (mut octets, mut count) = (vec![0; room], 0);
    let mut outcome = call(&mut octets, &mut count);
    if outcome == 5 {
        octets = vec![0; count];
        outcome = call(&mut octets, &mut count);
    }
    done(outcome)?;
    octets.truncate(count);
    Ok(octets)
}
