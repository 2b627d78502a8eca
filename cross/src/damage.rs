//! Spoils trace files, so that every row of refusals 1 to 7 is met.

use crate::dice::Dice;
use crate::file::RECORD;
use crate::sheet::{Record, Sheet};

/// The bytes of the sheet with one fault, now and then with two.
pub fn damaged(dice: &mut Dice, mut sheet: Sheet) -> Vec<u8> {
    let faults = dice.pick(&[
        (1, 0),
        (1, 0),
        (1, 0),
        (1, 1),
        (0, 1),
        (0, 1),
        (0, 1),
        (0, 2),
    ]);
    for _ in 0..faults.0 {
        spoil_sheet(dice, &mut sheet);
    }
    let mut bytes = sheet.encode();
    for _ in 0..faults.1 {
        spoil_bytes(dice, &mut bytes, sheet.bodies.len());
    }
    bytes
}

/// A fault that leaves the offsets right.
fn spoil_sheet(dice: &mut Dice, sheet: &mut Sheet) {
    let body = dice.below(sheet.bodies.len());
    match dice.below(16) {
        0 => sheet.tablets -= 1,
        1 => sheet.values -= 1,
        2 => sheet.bodies[body].resize(257, [4, 0, 0, 0, 0, 0, 0, 0, 0, 0, 0, 0]),
        _ => {
            let (tablets, values) = (sheet.tablets, sheet.values);
            let records = &mut sheet.bodies[body];
            if records.is_empty() {
                records.push([1, 1, 0, 0, 0, 0, 0, 0, 0, 0, 0, 0]);
            }
            let record = dice.below(records.len());
            spoil_record(dice, &mut records[record], tablets, values);
        }
    }
}

/// Changes one field, mostly to the first number beyond its row.
fn spoil_record(dice: &mut Dice, record: &mut Record, tablets: u8, values: u8) {
    match dice.below(5) {
        0 => record[0] = dice.pick(&[0, 1, 2, 3, 4, 5, 6, 255]),
        1 => record[1] = dice.pick(&[0, 1, tablets, tablets + 1, 255]),
        2 => record[2] = dice.pick(&[0, 1, values - 1, values, 255]),
        3 => record[3] = dice.pick(&[0, 1, values - 1, values, 255]),
        _ => {
            let bit = dice.pick(&[0, 1, values - 1, values.min(63), 63]);
            record[4 + usize::from(bit / 8)] ^= 1 << (bit % 8);
        }
    }
}

/// A fault in the bytes of a file that had so many bodies when it was whole.
fn spoil_bytes(dice: &mut Dice, bytes: &mut Vec<u8>, bodies: usize) {
    let length = bytes.len();
    let contents = 4 + 4 * bodies;
    let entry = 4 + 4 * dice.below(bodies);
    match dice.below(16) {
        0 => bytes.truncate(dice.below(4)),
        1 => bytes.resize(65_534 + dice.below(4), 0),
        2 => bytes.truncate(dice.below(contents)),
        3..=4 => bytes.truncate(dice.below(length + 1)),
        5 => bytes.extend(vec![0; 1 + dice.below(2 * RECORD)]),
        _ if length < contents => {}
        6 => bytes[0] = dice.pick(&[0, 2, 255]),
        7 => bytes[1] = dice.pick(&[0, 1, 8, 9, 255]),
        8 => bytes[2] = dice.pick(&[0, 1, 64, 65, 255]),
        9 => bytes[3] = dice.pick(&[0, 1, 16, 17, 255]),
        10..=11 => spoil_pair(dice, &mut bytes[entry..entry + 2]),
        12 => spoil_pair(dice, &mut bytes[entry + 2..entry + 4]),
        13 => open_gap(dice, bytes, entry),
        _ => bytes[dice.below(length)] = dice.byte(),
    }
}

/// Changes an offset or a count, mostly by little.
fn spoil_pair(dice: &mut Dice, pair: &mut [u8]) {
    let number = u16::from_le_bytes([pair[0], pair[1]]);
    let spoiled = match dice.below(6) {
        0 => number.wrapping_add(1),
        1 => number.wrapping_sub(1),
        2 => number.wrapping_add(RECORD as u16),
        3 => number ^ 256,
        4 => dice.pick(&[0, 256, 257, 65_535]),
        _ => dice.throw() as u16,
    };
    pair.copy_from_slice(&spoiled.to_le_bytes());
}

/// Leaves bytes free before a body, to which its entry then points rightly.
fn open_gap(dice: &mut Dice, bytes: &mut Vec<u8>, entry: usize) {
    let offset = u16::from_le_bytes([bytes[entry], bytes[entry + 1]]);
    let gap = 1 + dice.below(RECORD) as u16;
    let moved = offset.wrapping_add(gap).to_le_bytes();
    bytes[entry..entry + 2].copy_from_slice(&moved);
    let from = usize::from(offset).min(bytes.len());
    bytes.splice(from..from, vec![0; usize::from(gap)]);
}
