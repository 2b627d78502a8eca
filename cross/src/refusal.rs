//! The refusals, each row of the table by a name of its own.

#[derive(Clone, Copy, Debug, PartialEq, Eq)]
pub enum Refusal {
    /// The result area is not of 12 bytes.
    Area,
    Length,
    Edition,
    Tablets,
    Values,
    Bodies,
    /// The file ends inside the contents.
    ContentsCut {
        length: usize,
    },
    /// An entry has another offset than the expected one.
    Offset {
        entry: usize,
    },
    /// An entry counts more than 256 records.
    Count {
        entry: usize,
    },
    /// An entry's body passes the end of the file.
    BodyCut {
        entry: usize,
    },
    /// Bytes follow the last body.
    Surplus {
        end: usize,
    },
    Record {
        place: usize,
        kind: u8,
    },
    Trace,
    Room,
    Depth,
}

impl Refusal {
    pub fn number(self) -> u32 {
        match self {
            Refusal::Length => 1,
            Refusal::Edition => 2,
            Refusal::Tablets => 3,
            Refusal::Values => 4,
            Refusal::Bodies => 5,
            Refusal::ContentsCut { .. }
            | Refusal::Offset { .. }
            | Refusal::Count { .. }
            | Refusal::BodyCut { .. }
            | Refusal::Surplus { .. } => 6,
            Refusal::Record { .. } => 7,
            Refusal::Trace => 8,
            Refusal::Area | Refusal::Room => 9,
            Refusal::Depth => 10,
        }
    }

    /// The byte of the file that the refusal points at.
    pub fn place(self) -> u32 {
        let place = match self {
            Refusal::Tablets => 1,
            Refusal::Values => 2,
            Refusal::Bodies => 3,
            Refusal::ContentsCut { length } => length,
            Refusal::Offset { entry } | Refusal::Count { entry } | Refusal::BodyCut { entry } => {
                entry
            }
            Refusal::Surplus { end } => end,
            Refusal::Record { place, .. } => place,
            _ => 0,
        };
        u32::try_from(place).expect("a file of 65,535 bytes has no such place")
    }
}
