//! One record of a drawing: its sixteen bytes (docs/DRAWING.md) and what they say.

use zones::{Area, FillRule, Role, RECORD_BYTES};

pub type Bytes = [u8; RECORD_BYTES];

#[derive(Clone, Copy, PartialEq, Eq, Debug)]
pub enum Corner {
    First = 2,
    Next = 3,
    Control = 7,
}

#[derive(Clone, Copy, PartialEq, Eq, Debug)]
pub enum Delimiter {
    Open = 4,
    Bar = 5,
    Close = 6,
}

impl Delimiter {
    pub const ALL: [Delimiter; 3] = [Delimiter::Open, Delimiter::Bar, Delimiter::Close];

    pub const fn word(self) -> &'static str {
        match self {
            Delimiter::Open => "(",
            Delimiter::Bar => "|",
            Delimiter::Close => ")",
        }
    }
}

#[derive(Clone, Copy, PartialEq, Eq, Debug)]
pub enum Record {
    Area(Area),
    Corner { kind: Corner, x: u32, y: u32 },
    Delimiter(Delimiter),
}

impl Record {
    pub fn clip(fill: FillRule) -> Record {
        Record::Area(Area {
            role: Role::Clip,
            fill,
            alpha: 0,
            colour: [0; 3],
            material: 0,
        })
    }

    pub fn bytes(&self) -> Bytes {
        let mut bytes = [0; RECORD_BYTES];
        match *self {
            Record::Area(area) => {
                let role = u8::from(area.role == Role::Clip);
                let rule = u8::from(area.fill == FillRule::EvenOdd);
                bytes[..4].copy_from_slice(&[1, role, rule, area.alpha]);
                bytes[4..7].copy_from_slice(&area.colour);
                bytes[8..10].copy_from_slice(&area.material.to_le_bytes());
            }
            Record::Corner { kind, x, y } => {
                bytes[0] = kind as u8;
                bytes[4..8].copy_from_slice(&x.to_le_bytes());
                bytes[8..12].copy_from_slice(&y.to_le_bytes());
            }
            Record::Delimiter(delimiter) => bytes[0] = delimiter as u8,
        }
        bytes
    }

    /// What bytes say, if words can say it: no byte that has no name is other than zero, and a clip area is a fill rule alone.
    pub fn of(bytes: &Bytes) -> Option<Record> {
        let record = match bytes[0] {
            1 => area(bytes)?,
            2 => corner(Corner::First, bytes),
            3 => corner(Corner::Next, bytes),
            7 => corner(Corner::Control, bytes),
            kind => {
                let mut all = Delimiter::ALL.into_iter();
                Record::Delimiter(all.find(|delimiter| *delimiter as u8 == kind)?)
            }
        };
        Some(record).filter(|record| record.bytes() == *bytes)
    }
}

fn area(bytes: &Bytes) -> Option<Record> {
    let fill = match bytes[2] {
        0 => FillRule::NonZero,
        1 => FillRule::EvenOdd,
        _ => return None,
    };
    match bytes[1] {
        0 => Some(Record::Area(Area {
            role: Role::Paint,
            fill,
            alpha: bytes[3],
            colour: [bytes[4], bytes[5], bytes[6]],
            material: u16::from_le_bytes([bytes[8], bytes[9]]),
        })),
        1 => Some(Record::clip(fill)),
        _ => None,
    }
}

fn corner(kind: Corner, bytes: &Bytes) -> Record {
    let number =
        |at: usize| u32::from_le_bytes([bytes[at], bytes[at + 1], bytes[at + 2], bytes[at + 3]]);
    Record::Corner {
        kind,
        x: number(4),
        y: number(8),
    }
}
