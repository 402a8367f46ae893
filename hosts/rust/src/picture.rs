//! Pictures: the colour of each pixel, or which pixels have one colour.

use alloc::string::String;
use alloc::vec::Vec;
use core::fmt;

/// The colour of every pixel, 0 to 9: black, red, yellow, green, cyan, blue, magenta, white, orange, amber. On a sign of one colour a lit pixel
/// is 1 and a dark one 0.
#[derive(Clone, Debug, PartialEq, Eq)]
pub struct Picture {
    pub(crate) width: u16,
    pub(crate) colours: Vec<u8>,
}

impl Picture {
    /// The colours, row by row from the top and each row from the left.
    pub fn colours(&self) -> &[u8] {
        &self.colours
    }

    /// The rows from the top, a colour a pixel.
    pub fn rows(&self) -> impl Iterator<Item = &[u8]> {
        self.colours.chunks(usize::from(self.width))
    }

    /// The colour of a pixel, if the sign has it. Rows and columns count from 0.
    pub fn colour(&self, row: u16, column: u16) -> Option<u8> {
        let columns = self.rows().nth(usize::from(row))?;
        columns.get(usize::from(column)).copied()
    }
}

/// Writes the rows as lines, with a digit for each pixel.
impl fmt::Display for Picture {
    fn fmt(&self, to: &mut fmt::Formatter<'_>) -> fmt::Result {
        let lines: Vec<String> = self.rows().map(|row| row.iter().map(|colour| char::from(b'0' + colour % 10)).collect()).collect();
        to.write_str(&lines.join("\n"))
    }
}

/// Which pixels have one colour.
#[derive(Clone, Debug, PartialEq, Eq)]
pub struct Plane {
    pub(crate) width: u16,
    pub(crate) octets: Vec<u8>,
}

impl Plane {
    /// (width + 7) / 8 octets for each row, from the top. The leftmost pixel is the highest bit of the first octet of its row, and a bit is 1 if
    /// its pixel has the colour. Spare bits at the end of a row are 0.
    pub fn octets(&self) -> &[u8] {
        &self.octets
    }

    /// Whether a pixel has the colour, if the sign has the pixel. Rows and columns count from 0.
    pub fn lit(&self, row: u16, column: u16) -> Option<bool> {
        let octets = self.octets.chunks(stride(self.width)).nth(usize::from(row))?;
        (column < self.width).then(|| octets[usize::from(column / 8)] >> (7 - column % 8) & 1 == 1)
    }
}

/// Writes the rows as lines, with `#` for a pixel of the colour and `.` for any other, as `signctl show` draws them.
impl fmt::Display for Plane {
    fn fmt(&self, to: &mut fmt::Formatter<'_>) -> fmt::Result {
        let drawn = |octets: &[u8]| -> String {
            let lit = |column: u16| octets[usize::from(column / 8)] >> (7 - column % 8) & 1 == 1;
            (0..self.width).map(|column| if lit(column) { '#' } else { '.' }).collect()
        };
        let lines: Vec<String> = self.octets.chunks(stride(self.width)).map(drawn).collect();
        to.write_str(&lines.join("\n"))
    }
}

/// How many octets a row of a plane has.
pub(crate) fn stride(width: u16) -> usize {
    usize::from(width).div_ceil(8)
}

/// A page that is shown.
#[derive(Clone, Copy, Debug, PartialEq, Eq)]
pub struct Shown {
    /// The page, from 0.
    pub page: u8,
    /// The tenths of a second since it began.
    pub phase: u64,
}

impl Shown {
    pub(crate) fn of(facts: crate::ffi::Shown) -> Option<Shown> {
        (facts.is_on == 1).then_some(Shown { page: facts.page, phase: facts.phase })
    }
}

impl fmt::Display for Shown {
    fn fmt(&self, to: &mut fmt::Formatter<'_>) -> fmt::Result {
        write!(to, "page {} phase {}", self.page, self.phase)
    }
}
