//! The refusals, and what a call answers.

use core::fmt;

/// Why a call was refused. The numbers are the documents'; docs/DRAWING.md has the conditions in full.
#[derive(Clone, Copy, PartialEq, Eq, PartialOrd, Ord, Hash, Debug)]
#[repr(u32)]
pub enum Refusal {
    Length = 1,
    Kind = 2,
    Field = 3,
    Unfit = 4,
    Short = 5,
    Limit = 6,
    Argument = 7,
    NoCell = 8,
    AlreadySplit = 9,
    Smallest = 10,
    Room = 11,
    Broken = 12,
    Curve = 13,
}

impl Refusal {
    /// Each refusal, in the order of the numbers.
    pub const ALL: [Refusal; 13] = [
        Refusal::Length,
        Refusal::Kind,
        Refusal::Field,
        Refusal::Unfit,
        Refusal::Short,
        Refusal::Limit,
        Refusal::Argument,
        Refusal::NoCell,
        Refusal::AlreadySplit,
        Refusal::Smallest,
        Refusal::Room,
        Refusal::Broken,
        Refusal::Curve,
    ];

    /// The documents' number of a refusal, from 1 on.
    pub const fn number(self) -> u32 {
        self as u32
    }

    /// The refusal of a number, if there is one.
    ///
    /// ```
    /// use zones::Refusal;
    ///
    /// assert_eq!(Refusal::from_number(5), Some(Refusal::Short));
    /// assert_eq!(Refusal::from_number(0), None);
    /// ```
    pub fn from_number(number: u32) -> Option<Refusal> {
        Refusal::ALL
            .into_iter()
            .find(|refusal| refusal.number() == number)
    }

    /// What the refusal says, in a few words.
    pub const fn text(self) -> &'static str {
        match self {
            Refusal::Length => "the length of the file is no multiple of 16, or it has over 4,096 records",
            Refusal::Kind => "unknown kind of record",
            Refusal::Field => "a field is out of range, or an unnamed byte is not zero",
            Refusal::Unfit => "the record does not fit where it stands, or a group is open at the end",
            Refusal::Short => "a contour of under 3 corners",
            Refusal::Limit => "the 65th area, the 2,049th corner or the 9th open group",
            Refusal::Argument => {
                "an argument is out of range: unequal tables of x and y, a position, a depth limit, a pixel row, first pixel or buffer"
            }
            Refusal::NoCell => "there is no cell of this number",
            Refusal::AlreadySplit => "the cell is already split",
            Refusal::Smallest => "the cell has side 1",
            Refusal::Room => "a table is too short for the whole result",
            Refusal::Broken => {
                "a number in the tables is out of range, or the drawing or stream in them breaks the grammar"
            }
            Refusal::Curve => "a curve's x or y are not in order, or it spans over 4,096 units",
        }
    }

    /// Whether the place of this refusal, from [`read`](crate::read), is the number of a record.
    pub const fn at_record(self) -> bool {
        matches!(
            self,
            Refusal::Kind
                | Refusal::Field
                | Refusal::Unfit
                | Refusal::Short
                | Refusal::Limit
                | Refusal::Curve
        )
    }
}

impl fmt::Display for Refusal {
    fn fmt(&self, out: &mut fmt::Formatter<'_>) -> fmt::Result {
        out.write_str(self.text())
    }
}

/// A refusal and its place: the record, the index of the position in a run, the index of the pixel in the call, else 0.
#[derive(Clone, Copy, PartialEq, Eq, Hash, Debug)]
pub struct Refused {
    pub refusal: Refusal,
    pub place: u32,
}

impl fmt::Display for Refused {
    fn fmt(&self, out: &mut fmt::Formatter<'_>) -> fmt::Result {
        let Refused { refusal, place } = self;
        write!(out, "refused {} at {place}: {refusal}", refusal.number())
    }
}

impl core::error::Error for Refused {}

/// The high half of an answer is the refusal's number, 0 if the call was accepted; the low half is the place or the result.
pub(crate) fn answer(answer: u64) -> Result<u32, Refused> {
    let (high, low) = ((answer >> 32) as u32, answer as u32);
    if high == 0 {
        return Ok(low);
    }
    let refusal =
        Refusal::from_number(high).expect("the library gives the documents' numbers alone");
    Err(Refused {
        refusal,
        place: low,
    })
}
