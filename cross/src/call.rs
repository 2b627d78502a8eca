//! The whole call: from what is lent to it to the status and the final bytes.

use crate::file::{self, MOST_RECORDS};
use crate::model::{Event, MOST_TABLETS};
use crate::refusal::Refusal;
use crate::walk::{Walked, longest, walk};
use crate::wrong::Wrong;

pub const AREA: usize = 12;

/// The room that is always enough, for 256 writes on 8 tablets.
pub const MOST_ROOM: usize = 2 * (MOST_RECORDS + MOST_TABLETS * MOST_RECORDS);

/// What a caller lends and asks. The bytes of room and area are those they
/// hold before the call.
#[derive(Clone)]
pub struct Call {
    pub file: Vec<u8>,
    pub trace: u32,
    pub budget: u32,
    pub room: Vec<u8>,
    pub area: Vec<u8>,
    /// Whether empty memory is lent as a null pointer.
    pub null: bool,
}

/// What a caller finds after the call.
#[derive(PartialEq, Eq)]
pub struct Outcome {
    pub status: u32,
    pub file: Vec<u8>,
    pub room: Vec<u8>,
    pub area: Vec<u8>,
}

pub enum Answer {
    Explained { points: u32, events: Vec<Event> },
    Unexplained { points: u32 },
    Undecided { budget: u32 },
    Refused(Refusal),
}

/// The answer of the other implementation.
pub fn answer(call: &Call, wrong: Wrong) -> Answer {
    judge(call, wrong).unwrap_or_else(Answer::Refused)
}

/// The outcome of the other implementation.
pub fn outcome(call: &Call, wrong: Wrong) -> Outcome {
    answer(call, wrong).outcome(call, wrong)
}

fn judge(call: &Call, wrong: Wrong) -> Result<Answer, Refusal> {
    if call.area.len() != AREA {
        return Err(Refusal::Area);
    }
    let traces = file::read(&call.file)?;
    let trace = traces.trace(call.trace)?;
    if call.room.len() < 2 * longest(traces.tablets, trace) {
        return Err(Refusal::Room);
    }
    let budget = call.budget;
    match walk(traces.tablets, trace, budget, wrong) {
        Walked::Explained { points, events } => {
            let points = points - u32::from(wrong == Wrong::EndNotCounted);
            Ok(Answer::Explained { points, events })
        }
        Walked::Unexplained { points } => Ok(Answer::Unexplained { points }),
        Walked::Undecided if wrong == Wrong::SpentIsUnexplained => {
            Ok(Answer::Unexplained { points: budget })
        }
        Walked::Undecided => Ok(Answer::Undecided { budget }),
        Walked::TooDeep => Err(Refusal::Depth),
    }
}

impl Answer {
    pub fn status(&self) -> u32 {
        match self {
            Answer::Explained { .. } => 0,
            Answer::Unexplained { .. } => 1,
            Answer::Undecided { .. } => 2,
            Answer::Refused(refusal) => 10 + refusal.number(),
        }
    }

    /// The memory of the caller once this answer is laid into it.
    pub fn outcome(&self, call: &Call, wrong: Wrong) -> Outcome {
        Outcome {
            status: self.status(),
            file: call.file.clone(),
            room: self.room(call, wrong),
            area: self.area(call),
        }
    }

    fn room(&self, call: &Call, wrong: Wrong) -> Vec<u8> {
        let mut room = call.room.clone();
        if let Answer::Explained { events, .. } = self {
            let shown: Vec<u8> = events.iter().flat_map(|event| event.bytes()).collect();
            room[..shown.len()].copy_from_slice(&shown);
            if wrong == Wrong::RoomCleared {
                room[shown.len()..].fill(0);
            }
        }
        room
    }

    fn area(&self, call: &Call) -> Vec<u8> {
        let numbers = match self {
            Answer::Explained { points, events } => [*points, length(events), 0],
            Answer::Unexplained { points } => [*points, 0, 0],
            Answer::Undecided { budget } => [*budget, 0, 0],
            Answer::Refused(Refusal::Area) => return call.area.clone(),
            Answer::Refused(refusal) => [0, 0, refusal.place()],
        };
        numbers.into_iter().flat_map(u32::to_le_bytes).collect()
    }
}

fn length(events: &[Event]) -> u32 {
    u32::try_from(events.len()).expect("an explanation is never that long")
}
