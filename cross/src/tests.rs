//! The evenings and files that the specification works out by hand. Both the
//! library and the other implementation have to give the results stated there.

use crate::call::{AREA, Call, Outcome, outcome};
use crate::library;
use crate::model::Event::{self, StabilizeFailed};
use crate::sheet::{Sheet, record};
use crate::wrong::Wrong;

fn r(tablet: u8, seen: u8) -> Event {
    Event::Read { tablet, seen }
}

fn w(tablet: u8, new: u8, seen: u8) -> Event {
    Event::Write { tablet, new, seen }
}

fn s(seen: u8, set: &[u8]) -> Event {
    let conflicts = set.iter().fold(0, |set, value| set | 1 << value);
    Event::Stabilize { seen, conflicts }
}

/// Trace 1 of a file with values 0 to 3 and one body, with room to spare.
fn call(tablets: u8, trace: &[Event], budget: u32) -> Call {
    let sheet = Sheet {
        tablets,
        values: 4,
        bodies: vec![trace.iter().copied().map(record).collect()],
    };
    lent(sheet.encode(), 1, budget, 200)
}

fn lent(file: Vec<u8>, trace: u32, budget: u32, room: usize) -> Call {
    Call {
        file,
        trace,
        budget,
        room: vec![0xee; room],
        area: vec![0xee; AREA],
        null: false,
    }
}

/// The outcome that both sides have to share.
fn shared(call: &Call) -> Outcome {
    let other = outcome(call, Wrong::Nothing);
    assert!(other == library::outcome(call), "the two sides differ");
    other
}

/// Asserts the status and the three numbers of the area.
fn assert_gives(call: &Call, status: u32, numbers: [u32; 3]) {
    let outcome = shared(call);
    let area: Vec<u8> = numbers.into_iter().flat_map(u32::to_le_bytes).collect();
    assert_eq!((outcome.status, outcome.area), (status, area));
    if status != 0 {
        assert_eq!(outcome.room, call.room);
    }
}

fn assert_explained(tablets: u8, trace: &[Event], points: u32, events: u32) {
    assert_gives(&call(tablets, trace, 1_000), 0, [points, events, 0]);
}

fn assert_unexplained(tablets: u8, trace: &[Event], points: u32) {
    assert_gives(&call(tablets, trace, 1_000), 1, [points, 0, 0]);
}

fn evening_d() -> [Event; 2] {
    [w(1, 1, 0), s(1, &[])]
}

/// The file of evening D, byte by byte.
fn file_d() -> Vec<u8> {
    let mut file = vec![1, 1, 2, 1, 8, 0, 2, 0];
    file.extend([2, 1, 1, 0, 0, 0, 0, 0, 0, 0, 0, 0]);
    file.extend([3, 0, 0, 1, 0, 0, 0, 0, 0, 0, 0, 0]);
    file
}

#[test]
fn evenings_a_to_k() {
    assert_explained(2, &[], 1, 0);
    assert_explained(1, &[r(1, 0)], 2, 1);
    assert_unexplained(1, &[r(1, 1)], 1);
    assert_explained(1, &evening_d(), 4, 3);
    assert_unexplained(1, &[StabilizeFailed], 1);
    let f = [w(1, 1, 0), w(2, 2, 1), r(1, 2), w(2, 3, 2), s(3, &[])];
    assert_explained(2, &f, 12, 11);
    let g = [w(2, 2, 0), w(1, 1, 2), r(1, 1), StabilizeFailed];
    assert_unexplained(2, &g, 13);
    assert_unexplained(1, &[w(1, 2, 0), w(1, 0, 2), r(1, 2)], 7);
    assert_explained(2, &[w(1, 1, 0), w(2, 2, 0), s(1, &[2])], 7, 6);
    assert_explained(2, &[w(1, 1, 0), w(2, 1, 0), s(1, &[])], 7, 6);
    let k = [w(1, 1, 0), r(2, 1), w(2, 2, 1), w(1, 0, 1), s(0, &[2])];
    assert_explained(2, &k, 11, 10);
}

#[test]
fn evenings_that_tell_the_wrong_models() {
    assert_explained(1, &[w(1, 0, 0), s(0, &[])], 4, 3);
    assert_unexplained(2, &[w(1, 0, 0), r(1, 1)], 3);
    assert_unexplained(2, &[w(1, 0, 0), w(2, 1, 0), r(1, 2)], 13);
    assert_explained(2, &[w(1, 1, 0), w(1, 0, 1), r(2, 1)], 10, 5);
    assert_explained(2, &[w(1, 1, 0), w(2, 0, 0), s(1, &[])], 7, 6);
    assert_unexplained(2, &[w(1, 1, 0), w(2, 2, 0), s(1, &[])], 14);
}

#[test]
fn explanations_lie_at_the_front_of_the_room() {
    let d = shared(&call(1, &evening_d(), 4)).room;
    assert_eq!(d[..6], [2, 1, 5, 1, 3, 0]);
    assert!(d[6..].iter().all(|&byte| byte == 0xee));
    let i = shared(&call(2, &[w(1, 1, 0), w(2, 2, 0), s(1, &[2])], 7)).room;
    assert_eq!(i[..12], [2, 1, 2, 2, 5, 1, 5, 2, 6, 2, 3, 0]);
    assert!(i[12..].iter().all(|&byte| byte == 0xee));
}

#[test]
fn budgets() {
    assert_gives(&call(1, &evening_d(), 3), 2, [3, 0, 0]);
    assert_gives(&call(1, &evening_d(), 4), 0, [4, 3, 0]);
    assert_gives(&call(1, &[StabilizeFailed], 0), 2, [0, 0, 0]);
    assert_gives(&call(1, &[StabilizeFailed], 1), 1, [1, 0, 0]);
}

#[test]
fn rooms_and_areas() {
    assert_gives(&lent(file_d(), 1, 4, 6), 0, [4, 3, 0]);
    assert_gives(&lent(file_d(), 1, 4, 5), 19, [0, 0, 0]);
    for length in [0, 11, 13] {
        let mut call = lent(file_d(), 1, 4, 6);
        call.area = vec![0xee; length];
        let outcome = shared(&call);
        assert_eq!(outcome.status, 19);
        assert_eq!((outcome.room, outcome.area), (call.room, call.area));
    }
}

#[test]
fn the_file_of_d_and_its_damaged_forms() {
    assert_eq!(Sheet::decode(&file_d()).map(|d| d.encode()), Some(file_d()));
    let short = file_d()[..31].to_vec();
    assert_gives(&lent(short, 1, 4, 6), 16, [0, 0, 4]);
    let long = [file_d(), vec![0]].concat();
    assert_gives(&lent(long, 1, 4, 6), 16, [0, 0, 32]);
    let mut unseen = file_d();
    unseen[23] = 2;
    assert_gives(&lent(unseen, 1, 4, 6), 17, [0, 0, 20]);
}

#[test]
fn refusals_of_the_header_and_the_trace_number() {
    assert_gives(&lent(Vec::new(), 1, 4, 6), 11, [0, 0, 0]);
    for (place, status) in [(0, 12), (1, 13), (2, 14), (3, 15)] {
        for byte in [0, 65] {
            let mut file = file_d();
            file[place] = byte;
            assert_gives(&lent(file, 1, 4, 6), status, [0, 0, place as u32]);
        }
    }
    for number in [0, 2, 257, u32::MAX] {
        assert_gives(&lent(file_d(), number, 4, 6), 18, [0, 0, 0]);
    }
}
