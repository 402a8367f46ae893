//! Judges messages on a sign, or shows their pages: a host in Rust.
//!
//! ```text
//! judge SIGN_FILE                the verdict on each line of standard input, as `signctl check` writes it
//! judge --draw CLOCK SIGN_FILE   the page at a clock, in tenths of a second, as `signctl show --clock CLOCK --colour 1` draws it
//! judge --colours SIGN_FILE      the page at clock 0, with the digit of its colour for each pixel
//! ```
//!
//! A message is a line. It ends with a line feed, and a carriage return before that is dropped. Verdicts alone come from one call.

use std::io::{self, BufWriter, Read, Write};

/// As many octets of a message are judged as signctl judges.
const MAX_TEXT: usize = 4096;

/// Six of the exports, as `hosts/latsefur.h` has them, behind a type that keeps what they ask of a host but the stack: slices are never null, and what
/// is written is borrowed by the call alone. `latsefur_plane_of_page` and `latsefur_colours_of_page` are like those `_at` a clock, with a
/// page and a phase in its place.
mod latsefur {
    #[repr(C)]
    #[derive(Clone, Copy, Debug, Default)]
    pub struct SignFacts {
        pub width: u16,
        pub height: u16,
        pub max_pages: u8,
        pub classic: u8,
    }

    #[repr(C)]
    #[derive(Clone, Copy, Debug, Default)]
    pub struct Verdict {
        pub at: usize,
        pub cycle: u32,
        pub outcome: u8,
        pub code: u8,
        pub pages: u8,
    }

    #[repr(C)]
    #[derive(Clone, Copy, Debug, Default)]
    pub struct Shown {
        pub phase: u64,
        pub page: u8,
        pub is_on: u8,
    }

    pub const DONE: u8 = 0;
    pub const REFUSED: u8 = 1;

    type Octets = *const u8;

    /// A text among several.
    #[repr(C)]
    struct Text {
        octets: Octets,
        length: usize,
    }

    #[link(name = "latsefur", kind = "static")]
    extern "C" {
        fn latsefur_sign(sign_file: Octets, sign_file_len: usize, facts: *mut SignFacts) -> u8;
        fn latsefur_check(
            sign_file: Octets,
            sign_file_len: usize,
            text: Octets,
            text_len: usize,
            verdict: *mut Verdict,
        ) -> u8;
        fn latsefur_check_all(
            sign_file: Octets,
            sign_file_len: usize,
            texts: *const Text,
            texts_len: usize,
            verdicts: *mut Verdict,
            verdicts_len: usize,
        ) -> u8;
        fn latsefur_shown_at(
            sign_file: Octets,
            sign_file_len: usize,
            text: Octets,
            text_len: usize,
            clock: u64,
            shown: *mut Shown,
        ) -> u8;
        fn latsefur_plane_at(
            sign_file: Octets,
            sign_file_len: usize,
            text: Octets,
            text_len: usize,
            clock: u64,
            colour: u8,
            plane: *mut u8,
            plane_len: usize,
        ) -> u8;
        fn latsefur_colours_at(
            sign_file: Octets,
            sign_file_len: usize,
            text: Octets,
            text_len: usize,
            clock: u64,
            colours: *mut u8,
            colours_len: usize,
        ) -> u8;
    }

    /// An outcome that gives no answer.
    #[derive(Clone, Copy, Debug)]
    pub struct Fault(pub u8);

    impl std::fmt::Display for Fault {
        fn fmt(&self, to: &mut std::fmt::Formatter<'_>) -> std::fmt::Result {
            to.write_str(match self.0 {
                1 => "the text is refused",
                2 => "out of memory",
                3 => "the sign file can't be read",
                4 => "the sign is outside its limits",
                5 => "the buffer is too small",
                6 => "no such page",
                7 => "the text is too long",
                _ => "an outcome that this program doesn't know",
            })
        }
    }

    impl std::error::Error for Fault {}

    fn done(outcome: u8) -> Result<(), Fault> {
        if outcome == DONE {
            Ok(())
        } else {
            Err(Fault(outcome))
        }
    }

    /// A sign, by the octets of its sign file. Threads may share it.
    pub struct Sign {
        file: Vec<u8>,
        pub facts: SignFacts,
    }

    impl Sign {
        pub fn new(file: Vec<u8>) -> Result<Sign, Fault> {
            let mut facts = SignFacts::default();
            done(unsafe { latsefur_sign(file.as_ptr(), file.len(), &mut facts) })?;
            Ok(Sign { file, facts })
        }

        /// The verdict on a text.
        pub fn check(&self, text: &[u8]) -> Result<Verdict, Fault> {
            let mut verdict = Verdict::default();
            match unsafe {
                latsefur_check(
                    self.file.as_ptr(),
                    self.file.len(),
                    text.as_ptr(),
                    text.len(),
                    &mut verdict,
                )
            } {
                DONE | REFUSED => Ok(verdict),
                outcome => Err(Fault(outcome)),
            }
        }

        /// The verdicts on texts, for which the sign file is read once. A text that is too long has that in its verdict.
        pub fn check_all(&self, texts: &[&[u8]]) -> Result<Vec<Verdict>, Fault> {
            let given: Vec<Text> = texts
                .iter()
                .map(|text| Text {
                    octets: text.as_ptr(),
                    length: text.len(),
                })
                .collect();
            let mut verdicts = vec![Verdict::default(); texts.len()];
            done(unsafe {
                latsefur_check_all(
                    self.file.as_ptr(),
                    self.file.len(),
                    given.as_ptr(),
                    given.len(),
                    verdicts.as_mut_ptr(),
                    verdicts.len(),
                )
            })?;
            Ok(verdicts)
        }

        /// What is shown of an accepted text at a clock.
        pub fn shown_at(&self, text: &[u8], clock: u64) -> Result<Shown, Fault> {
            let mut shown = Shown::default();
            done(unsafe {
                latsefur_shown_at(
                    self.file.as_ptr(),
                    self.file.len(),
                    text.as_ptr(),
                    text.len(),
                    clock,
                    &mut shown,
                )
            })?;
            Ok(shown)
        }

        /// How many octets a row of a plane has.
        pub fn stride(&self) -> usize {
            (usize::from(self.facts.width) + 7) / 8
        }

        /// The plane of a colour of an accepted text at a clock: eight pixels an octet, from the highest bit on.
        pub fn plane_at(&self, text: &[u8], clock: u64, colour: u8) -> Result<Vec<u8>, Fault> {
            let mut plane = vec![0; self.stride() * usize::from(self.facts.height)];
            done(unsafe {
                latsefur_plane_at(
                    self.file.as_ptr(),
                    self.file.len(),
                    text.as_ptr(),
                    text.len(),
                    clock,
                    colour,
                    plane.as_mut_ptr(),
                    plane.len(),
                )
            })?;
            Ok(plane)
        }

        /// The colours of an accepted text at a clock, an octet a pixel.
        pub fn colours_at(&self, text: &[u8], clock: u64) -> Result<Vec<u8>, Fault> {
            let mut colours =
                vec![0; usize::from(self.facts.width) * usize::from(self.facts.height)];
            done(unsafe {
                latsefur_colours_at(
                    self.file.as_ptr(),
                    self.file.len(),
                    text.as_ptr(),
                    text.len(),
                    clock,
                    colours.as_mut_ptr(),
                    colours.len(),
                )
            })?;
            Ok(colours)
        }
    }
}

use latsefur::{Sign, Verdict, DONE};

type Outcome = Result<(), Box<dyn std::error::Error>>;

#[derive(Clone, Copy)]
enum Mode {
    Check,
    Draw(u64),
    Colours,
}

/// Writes what the sign shows of an accepted text at a clock: the page, and the rows of its picture.
fn write_shown(out: &mut impl Write, sign: &Sign, text: &[u8], clock: u64) -> Outcome {
    let shown = sign.shown_at(text, clock)?;
    if shown.is_on == 1 {
        writeln!(out, "page {} phase {}", shown.page, shown.phase)?;
    } else {
        writeln!(out, "off")?;
    }
    Ok(())
}

fn write_plane(out: &mut impl Write, sign: &Sign, text: &[u8], clock: u64) -> Outcome {
    for row in sign.plane_at(text, clock, 1)?.chunks(sign.stride()) {
        let lit = |column: usize| row[column / 8] >> (7 - column % 8) & 1 == 1;
        let signs: String = (0..usize::from(sign.facts.width))
            .map(|column| if lit(column) { '#' } else { '.' })
            .collect();
        writeln!(out, "{signs}")?;
    }
    Ok(())
}

fn write_colours(out: &mut impl Write, sign: &Sign, text: &[u8]) -> Outcome {
    for row in sign
        .colours_at(text, 0)?
        .chunks(usize::from(sign.facts.width))
    {
        let digits: String = row.iter().map(|colour| char::from(b'0' + colour)).collect();
        writeln!(out, "{digits}")?;
    }
    Ok(())
}

/// Writes the answer to a message with this verdict.
fn answer(
    out: &mut impl Write,
    sign: &Sign,
    text: &[u8],
    verdict: &Verdict,
    mode: Mode,
) -> Outcome {
    if text.len() > MAX_TEXT {
        writeln!(out, "too long")?;
        return Ok(());
    }
    if verdict.outcome != DONE {
        writeln!(out, "error {} {}", verdict.code, verdict.at)?;
        return Ok(());
    }
    match mode {
        Mode::Check => Ok(writeln!(out, "ok {}", verdict.pages)?),
        Mode::Draw(clock) => {
            write_shown(out, sign, text, clock)?;
            write_plane(out, sign, text, clock)
        }
        Mode::Colours => {
            write_shown(out, sign, text, 0)?;
            write_colours(out, sign, text)
        }
    }
}

fn judge(mode: Mode, path: &str) -> Outcome {
    let sign = Sign::new(std::fs::read(path)?)?;
    let mut input = Vec::new();
    io::stdin().lock().read_to_end(&mut input)?;
    let mut out = BufWriter::new(io::stdout().lock());
    let mut lines = input.split(|octet| *octet == b'\n');
    if lines.next_back().is_some_and(|rest| !rest.is_empty()) {
        return Err("the last line has no line feed".into());
    }
    let texts: Vec<&[u8]> = lines
        .map(|line| line.strip_suffix(b"\r").unwrap_or(line))
        .collect();
    let verdicts = match mode {
        Mode::Check => sign.check_all(&texts)?,
        _ => texts
            .iter()
            .map(|text| sign.check(text))
            .collect::<Result<_, _>>()?,
    };
    for (text, verdict) in texts.iter().zip(&verdicts) {
        answer(&mut out, &sign, text, verdict, mode)?;
    }
    Ok(out.flush()?)
}

fn main() {
    let words: Vec<String> = std::env::args().skip(1).collect();
    let words: Vec<&str> = words.iter().map(String::as_str).collect();
    let (mode, path) = match words[..] {
        [path] => (Some(Mode::Check), path),
        ["--colours", path] => (Some(Mode::Colours), path),
        ["--draw", clock, path] => (clock.parse().ok().map(Mode::Draw), path),
        _ => (None, ""),
    };
    let Some(mode) = mode else {
        eprintln!("usage: judge [--draw CLOCK | --colours] SIGN_FILE < MESSAGES");
        std::process::exit(2);
    };
    if let Err(fault) = judge(mode, path) {
        eprintln!("judge: {fault}");
        std::process::exit(1);
    }
}
