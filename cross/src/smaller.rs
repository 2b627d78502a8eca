//! Smaller files for the shrinking of calls.

use crate::file::RECORD;
use crate::sheet::{Record, Sheet};
use std::collections::BTreeSet;
use std::ops::Range;

/// Stretches are halved so often, which leaves single records of any body.
const HALVINGS: usize = 10;

/// Smaller things, made one by one as they are tried.
pub type Smaller<'a, T> = Box<dyn Iterator<Item = T> + 'a>;

/// Files that are smaller than this one, each with the number by which the
/// asked trace is asked there.
pub fn files(file: &[u8], trace: u32) -> Smaller<'_, (Vec<u8>, u32)> {
    match Sheet::decode(file) {
        Some(sheet) => {
            let sheets = smaller_bodies(sheet.clone()).chain(smaller_header(sheet.clone()));
            let files = sheets.map(move |sheet| (sheet.encode(), trace));
            Box::new(fewer_bodies(sheet, trace).chain(files))
        }
        None => Box::new(smaller_bytes(file).map(move |file| (file, trace))),
    }
}

/// All bodies but one, which is not the asked one.
fn fewer_bodies(sheet: Sheet, trace: u32) -> impl Iterator<Item = (Vec<u8>, u32)> {
    let bodies = sheet.bodies.len() as u32;
    let spare = (1..=bodies).filter(move |&body| body != trace);
    spare.map(move |body| {
        let mut fewer = sheet.clone();
        fewer.bodies.remove(body as usize - 1);
        let moved = body < trace && trace <= bodies;
        (fewer.encode(), trace - u32::from(moved))
    })
}

/// The sheet with one of its bodies made smaller.
fn smaller_bodies(sheet: Sheet) -> impl Iterator<Item = Sheet> {
    (0..sheet.bodies.len()).flat_map(move |body| {
        let sheet = sheet.clone();
        let records = sheet.bodies[body].clone();
        let bodies = fewer(records.clone())
            .chain(renamed(records.clone(), 1..2))
            .chain(renamed(records.clone(), 2..4))
            .chain(lowered_records(records));
        bodies.map(move |records| {
            let mut smaller = sheet.clone();
            smaller.bodies[body] = records;
            smaller
        })
    })
}

/// The sheet with fewer tablets or values.
fn smaller_header(sheet: Sheet) -> impl Iterator<Item = Sheet> {
    [(1, 0), (0, 1)].into_iter().map(move |(tablets, values)| {
        let mut smaller = sheet.clone();
        smaller.tablets -= tablets;
        smaller.values -= values;
        smaller
    })
}

/// Stretches of so many items: all, halves, quarters, and so on.
fn stretches(length: usize) -> impl Iterator<Item = Range<usize>> {
    std::iter::successors(Some(length), |stretch| Some(stretch / 2))
        .take_while(|&stretch| stretch > 0)
        .take(HALVINGS)
        .flat_map(move |stretch| {
            let starts = (0..length).step_by(stretch);
            starts.map(move |start| start..length.min(start + stretch))
        })
}

/// The items without one stretch of them.
fn fewer<T: Clone>(items: Vec<T>) -> impl Iterator<Item = Vec<T>> {
    let cuts = stretches(items.len());
    cuts.map(move |cut| [&items[..cut.start], &items[cut.end..]].concat())
}

/// The records with one number of these fields changed into a smaller one
/// wherever it stands.
fn renamed(records: Vec<Record>, fields: Range<usize>) -> impl Iterator<Item = Vec<Record>> {
    let used: BTreeSet<u8> = records
        .iter()
        .flat_map(|record| record[fields.clone()].to_vec())
        .collect();
    let pairs = used
        .into_iter()
        .flat_map(|large| (0..large).map(move |small| (large, small)));
    pairs.map(move |(large, small)| {
        let mut renamed = records.clone();
        for byte in renamed.iter_mut().flat_map(|r| &mut r[fields.clone()]) {
            *byte = if *byte == large { small } else { *byte };
        }
        renamed
    })
}

/// The records with one byte of one of them lowered.
fn lowered_records(records: Vec<Record>) -> impl Iterator<Item = Vec<Record>> {
    let lowered = |bytes: Vec<u8>| bytes.as_chunks::<RECORD>().0.to_vec();
    lowered_bytes(records.concat()).map(lowered)
}

/// Smaller bytes for what has not the form of a file.
fn smaller_bytes(file: &[u8]) -> impl Iterator<Item = Vec<u8>> {
    fewer(file.to_vec())
        .chain(blanked(file))
        .chain(lowered_bytes(file.to_vec()))
}

/// The bytes with one stretch of them made 0.
fn blanked(bytes: &[u8]) -> impl Iterator<Item = Vec<u8>> {
    let marked = move |stretch: &Range<usize>| bytes[stretch.clone()].iter().any(|&byte| byte > 0);
    stretches(bytes.len()).filter(marked).map(move |stretch| {
        let mut blanked = bytes.to_vec();
        blanked[stretch].fill(0);
        blanked
    })
}

/// The bytes with one of them lowered.
fn lowered_bytes(bytes: Vec<u8>) -> impl Iterator<Item = Vec<u8>> {
    (0..3 * bytes.len()).filter_map(move |turn| {
        let (place, way) = (turn / 3, turn % 3);
        let byte = bytes[place];
        let lower = [0, byte / 2, byte.saturating_sub(1)][way];
        (lower < byte).then(|| {
            let mut lowered = bytes.clone();
            lowered[place] = lower;
            lowered
        })
    })
}
