//! The check of a trace file, which reads it whole: refusals 1 to 8.

use crate::model::Event;
use crate::refusal::Refusal;
use std::ops::Range;

pub const RECORD: usize = 12;
const ENTRY: usize = 4;
const MOST_BYTES: usize = 65_535;
pub const MOST_RECORDS: usize = 256;

/// What the contents say: the numbers of the header and where each body lies.
pub struct Contents {
    pub tablets: u8,
    pub values: u8,
    pub bodies: Vec<Range<usize>>,
}

/// All traces of a good file.
pub struct Traces {
    pub tablets: u8,
    pub values: u8,
    pub traces: Vec<Vec<Event>>,
}

impl Traces {
    /// The asked trace; they are numbered from 1.
    pub fn trace(&self, number: u32) -> Result<&[Event], Refusal> {
        let index = usize::try_from(number).ok().and_then(|n| n.checked_sub(1));
        let trace = index.and_then(|index| self.traces.get(index));
        trace.map(Vec::as_slice).ok_or(Refusal::Trace)
    }
}

/// Reads every record of the file; refusals 1 to 7.
pub fn read(file: &[u8]) -> Result<Traces, Refusal> {
    let Contents {
        tablets,
        values,
        bodies,
    } = contents(file)?;
    let mut traces = Vec::new();
    for body in bodies {
        let mut trace = Vec::new();
        for place in body.step_by(RECORD) {
            let bytes = &file[place..place + RECORD];
            let kind = bytes[0];
            let event = record(bytes, tablets, values);
            trace.push(event.ok_or(Refusal::Record { place, kind })?);
        }
        traces.push(trace);
    }
    Ok(Traces {
        tablets,
        values,
        traces,
    })
}

/// Reads the header and the contents; refusals 1 to 6.
pub fn contents(file: &[u8]) -> Result<Contents, Refusal> {
    if file.len() < 4 || file.len() > MOST_BYTES {
        return Err(Refusal::Length);
    }
    let (edition, tablets, values, count) = (file[0], file[1], file[2], file[3]);
    if edition != 1 {
        return Err(Refusal::Edition);
    }
    if !(1..=8).contains(&tablets) {
        return Err(Refusal::Tablets);
    }
    if !(1..=64).contains(&values) {
        return Err(Refusal::Values);
    }
    if !(1..=16).contains(&count) {
        return Err(Refusal::Bodies);
    }
    let bodies = bodies(file, usize::from(count))?;
    Ok(Contents {
        tablets,
        values,
        bodies,
    })
}

/// Follows the entries, each of which must go on where the one before ended.
fn bodies(file: &[u8], count: usize) -> Result<Vec<Range<usize>>, Refusal> {
    let mut end = 4 + ENTRY * count;
    if file.len() < end {
        return Err(Refusal::ContentsCut { length: file.len() });
    }
    let mut bodies = Vec::new();
    for entry in (4..end).step_by(ENTRY) {
        let offset = pair(file, entry);
        let records = pair(file, entry + 2);
        if offset != end {
            return Err(Refusal::Offset { entry });
        }
        if records > MOST_RECORDS {
            return Err(Refusal::Count { entry });
        }
        end += RECORD * records;
        if end > file.len() {
            return Err(Refusal::BodyCut { entry });
        }
        bodies.push(offset..end);
    }
    if end < file.len() {
        return Err(Refusal::Surplus { end });
    }
    Ok(bodies)
}

fn pair(file: &[u8], place: usize) -> usize {
    usize::from(file[place]) + 256 * usize::from(file[place + 1])
}

/// The event that a record stands for, if it keeps to the row of its kind.
pub fn record(bytes: &[u8], tablets: u8, values: u8) -> Option<Event> {
    let (head, set) = bytes.split_at(4);
    let set = u64::from_le_bytes(set.try_into().ok()?);
    let &[kind, tablet, new, seen] = head else {
        return None;
    };
    let at_tablet = (1..=tablets).contains(&tablet) && set == 0;
    let nowhere = tablet == 0 && new == 0;
    match kind {
        1 if at_tablet && new == 0 && seen < values => Some(Event::Read { tablet, seen }),
        2 if at_tablet && new < values && seen < values => Some(Event::Write { tablet, new, seen }),
        3 if nowhere && seen < values && set & !disputable(values) == 0 => Some(Event::Stabilize {
            seen,
            conflicts: set,
        }),
        4 if nowhere && seen == 0 && set == 0 => Some(Event::StabilizeFailed),
        _ => None,
    }
}

/// The values a conflict set may hold: all but 0.
fn disputable(values: u8) -> u64 {
    (1..values).fold(0, |set, value| set | 1 << value)
}
