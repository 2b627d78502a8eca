//! Counts what the compared calls were like, and asks for enough of each kind.

use crate::call::{AREA, Answer, Call};
use crate::draw::{Drawn, Edge};
use crate::file::{self, MOST_RECORDS, Traces};
use crate::model::Event;
use crate::refusal::Refusal;
use crate::walk::longest;
use std::collections::BTreeMap;

/// The number of calls that the minimums below are stated for.
const STATED_FOR: u64 = 200_000;

/// The rows of the table, each with its minimum in 200,000 calls; 0 is none.
const ROWS: &[(&str, u64)] = &[
    ("explained", 25_000),
    ("unexplained", 15_000),
    ("undecided", 15_000),
    ("refusal 1", 2_000),
    ("refusal 2", 1_000),
    ("refusal 3", 700),
    ("refusal 4", 700),
    ("refusal 5", 600),
    ("refusal 6", 8_000),
    ("refusal 6, file ends inside the contents", 700),
    ("refusal 6, offset not the expected one", 3_000),
    ("refusal 6, count over 256", 1_000),
    ("refusal 6, body passes the end", 1_500),
    ("refusal 6, bytes after the last body", 1_300),
    ("refusal 7", 7_000),
    ("refusal 7, READ", 2_500),
    ("refusal 7, WRITE", 2_500),
    ("refusal 7, STABILIZE", 1_000),
    ("refusal 7, STABILIZE failed", 250),
    ("refusal 7, no kind", 800),
    ("refusal 8", 5_000),
    ("refusal 9", 10_000),
    ("refusal 10", 0),
    ("explained, three writes or more", 15_000),
    ("unexplained, three writes or more", 7_000),
    ("undecided, three writes or more", 10_000),
    ("explained, 100 points or more", 3_000),
    ("unexplained, 100 points or more", 1_300),
    ("explained, with steps taken back", 2_500),
    ("explained, with a conflict", 2_500),
    ("area not of 12 bytes", 3_000),
    ("room too short", 8_000),
    ("room one byte too short", 3_000),
    ("room exactly enough", 40_000),
    ("file is null", 200),
    ("room is null", 2_500),
    ("area is null", 300),
    ("budget 0", 2_500),
    ("budget one below the count", 5_000),
    ("budget equal to the count", 10_000),
    ("budget one above the count", 8_000),
    ("budget 2^32 - 1", 5_000),
    ("n = 1", 9_000),
    ("n = 2", 20_000),
    ("n = 3", 14_000),
    ("n = 4", 4_500),
    ("n = 5", 4_500),
    ("n = 6", 4_500),
    ("n = 7", 4_500),
    ("n = 8", 9_000),
    ("v = 1", 6_000),
    ("v = 64", 6_000),
    ("k = 16", 6_000),
    ("trace of no records", 1_200),
    ("trace of 256 records", 2_500),
    ("explanation of 500 events or more", 700),
    ("explanation of 2,000 events or more", 60),
    ("trace number 0", 1_200),
    ("trace number k", 50_000),
    ("trace number k + 1", 1_200),
    ("trace number 257", 1_500),
    ("trace number 2^32 - 1", 1_200),
];

pub struct Tally {
    counts: BTreeMap<&'static str, u64>,
}

impl Tally {
    pub fn new() -> Tally {
        Tally {
            counts: ROWS.iter().map(|&(row, _)| (row, 0)).collect(),
        }
    }

    pub fn note(&mut self, drawn: &Drawn, answer: &Answer) {
        for row in rows(drawn, answer) {
            let count = self.counts.get_mut(row.as_str());
            *count.expect("every kind of call has its row") += 1;
        }
    }

    /// The table for so many calls: what was counted and what had to be.
    pub fn table(&self, calls: u64) -> String {
        let mut lines = vec![format!("{:42}{:>9}{:>9}", "calls", calls, "minimum")];
        for &(row, stated) in ROWS {
            let minimum = match scaled(stated, calls) {
                0 => "-".to_string(),
                minimum => minimum.to_string(),
            };
            lines.push(format!("{row:42}{:>9}{minimum:>9}", self.counts[row]));
        }
        lines.join("\n")
    }

    /// The rows that fall short of their minimum for so many calls.
    pub fn short(&self, calls: u64) -> Vec<&'static str> {
        let rows = ROWS.iter();
        rows.filter(|&&(row, stated)| self.counts[row] < scaled(stated, calls))
            .map(|&(row, _)| row)
            .collect()
    }
}

fn scaled(stated: u64, calls: u64) -> u64 {
    (u128::from(stated) * u128::from(calls) / u128::from(STATED_FOR)) as u64
}

/// The rows that a call belongs to.
fn rows(drawn: &Drawn, answer: &Answer) -> Vec<String> {
    let call = &drawn.call;
    let mut rows = answer_rows(answer);
    rows.extend(memory_rows(call).map(String::from));
    if let Ok(traces) = file::read(&call.file) {
        rows.extend(file_rows(&traces));
        rows.extend(number_row(call.trace, traces.traces.len() as u32));
        if let Ok(trace) = traces.trace(call.trace) {
            let need = 2 * longest(traces.tablets, trace);
            rows.extend(trace_rows(call, need, trace).map(String::from));
            rows.extend(writes_row(trace, answer));
        }
    }
    if !matches!(answer, Answer::Refused(_)) {
        rows.extend(edge_row(drawn.edge).map(String::from));
    }
    rows
}

fn answer_rows(answer: &Answer) -> Vec<String> {
    let word = word(answer);
    let mut rows = vec![word.clone()];
    match answer {
        Answer::Explained { points, events } => {
            rows.extend(explanation_rows(*points, events).map(String::from));
        }
        Answer::Unexplained { points } if *points >= 100 => {
            rows.push(format!("{word}, 100 points or more"));
        }
        Answer::Refused(refusal) => {
            let detail = refusal_detail(*refusal);
            rows.extend(detail.map(|detail| format!("{word}, {detail}")));
        }
        _ => {}
    }
    rows
}

fn explanation_rows(points: u32, events: &[Event]) -> impl Iterator<Item = &'static str> {
    let is_conflict =
        |event: &Event| matches!(event, Event::Stabilize { conflicts, .. } if *conflicts != 0);
    marked([
        (points >= 100, "explained, 100 points or more"),
        (
            points as usize > events.len() + 1,
            "explained, with steps taken back",
        ),
        (events.iter().any(is_conflict), "explained, with a conflict"),
        (events.len() >= 500, "explanation of 500 events or more"),
        (events.len() >= 2_000, "explanation of 2,000 events or more"),
    ])
}

/// The rows whose mark is true.
fn marked<const N: usize>(rows: [(bool, &'static str); N]) -> impl Iterator<Item = &'static str> {
    rows.into_iter()
        .filter(|(mark, _)| *mark)
        .map(|(_, row)| row)
}

fn word(answer: &Answer) -> String {
    match answer {
        Answer::Explained { .. } => "explained".to_string(),
        Answer::Unexplained { .. } => "unexplained".to_string(),
        Answer::Undecided { .. } => "undecided".to_string(),
        Answer::Refused(refusal) => format!("refusal {}", refusal.number()),
    }
}

/// Which row of refusal 6 or which kind of record of refusal 7 it was.
fn refusal_detail(refusal: Refusal) -> Option<&'static str> {
    match refusal {
        Refusal::ContentsCut { .. } => Some("file ends inside the contents"),
        Refusal::Offset { .. } => Some("offset not the expected one"),
        Refusal::Count { .. } => Some("count over 256"),
        Refusal::BodyCut { .. } => Some("body passes the end"),
        Refusal::Surplus { .. } => Some("bytes after the last body"),
        Refusal::Record { kind: 1, .. } => Some("READ"),
        Refusal::Record { kind: 2, .. } => Some("WRITE"),
        Refusal::Record { kind: 3, .. } => Some("STABILIZE"),
        Refusal::Record { kind: 4, .. } => Some("STABILIZE failed"),
        Refusal::Record { .. } => Some("no kind"),
        _ => None,
    }
}

fn memory_rows(call: &Call) -> impl Iterator<Item = &'static str> {
    marked([
        (call.area.len() != AREA, "area not of 12 bytes"),
        (call.null && call.file.is_empty(), "file is null"),
        (call.null && call.room.is_empty(), "room is null"),
        (call.null && call.area.is_empty(), "area is null"),
    ])
}

fn file_rows(traces: &Traces) -> Vec<String> {
    let mut rows = vec![format!("n = {}", traces.tablets)];
    if traces.values == 1 || traces.values == 64 {
        rows.push(format!("v = {}", traces.values));
    }
    if traces.traces.len() == 16 {
        rows.push("k = 16".to_string());
    }
    rows
}

fn number_row(number: u32, bodies: u32) -> Option<String> {
    let name = match number {
        0 => "0",
        257 => "257",
        u32::MAX => "2^32 - 1",
        _ if number == bodies => "k",
        _ if number == bodies + 1 => "k + 1",
        _ => return None,
    };
    Some(format!("trace number {name}"))
}

/// What is told of a trace that is there: its length and its room.
fn trace_rows(call: &Call, need: usize, trace: &[Event]) -> impl Iterator<Item = &'static str> {
    let room = call.room.len();
    marked([
        (trace.is_empty(), "trace of no records"),
        (trace.len() == MOST_RECORDS, "trace of 256 records"),
        (room < need, "room too short"),
        (room + 1 == need, "room one byte too short"),
        (room == need && need > 0, "room exactly enough"),
    ])
}

fn writes_row(trace: &[Event], answer: &Answer) -> Option<String> {
    let writes = trace.iter().filter(|event| event.is_write()).count();
    let walked = !matches!(answer, Answer::Refused(_));
    (writes >= 3 && walked).then(|| format!("{}, three writes or more", word(answer)))
}

fn edge_row(edge: Edge) -> Option<&'static str> {
    match edge {
        Edge::Zero => Some("budget 0"),
        Edge::OneBelow => Some("budget one below the count"),
        Edge::Equal => Some("budget equal to the count"),
        Edge::OneAbove => Some("budget one above the count"),
        Edge::Largest => Some("budget 2^32 - 1"),
        Edge::Elsewhere => None,
    }
}
