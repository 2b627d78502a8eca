//! Times the library against the other implementation on the kept evenings.

use crate::call::{AREA, Call, MOST_ROOM, Outcome};
use crate::wrong::Wrong;
use crate::{call, library, report};
use std::fs;
use std::path::Path;
use std::time::Instant;

/// The evenings that are kept for measuring.
pub const EVENINGS: &str = concat!(env!("CARGO_MANIFEST_DIR"), "/evenings");

const BUDGET: u32 = 3_000_000;
const ROUNDS: usize = 7;

/// Trace 1 of a file with room and budget enough for every kept evening.
pub fn evening(file: Vec<u8>) -> Call {
    Call {
        file,
        trace: 1,
        budget: BUDGET,
        room: vec![0; MOST_ROOM],
        area: vec![0; AREA],
        null: false,
    }
}

pub fn speed() -> Result<(), String> {
    println!(
        "{:16}{:>15}{:>22}{:>22}   answer",
        "evening", "library/other", "library, points/s", "other, points/s"
    );
    for path in evenings()? {
        let file = fs::read(&path).map_err(|error| format!("{}: {error}", path.display()))?;
        let name = path.file_stem().unwrap_or_default().to_string_lossy();
        line(&name, &evening(file))?;
    }
    println!("Each is the best of {ROUNDS} rounds, taken in turn; above 1 the other is faster.");
    Ok(())
}

fn evenings() -> Result<Vec<Box<Path>>, String> {
    let folder = fs::read_dir(EVENINGS).map_err(|error| format!("{EVENINGS}: {error}"))?;
    let mut paths: Vec<Box<Path>> = folder
        .filter_map(|entry| Some(entry.ok()?.path().into_boxed_path()))
        .filter(|path| path.extension().is_some_and(|ending| ending == "trace"))
        .collect();
    paths.sort();
    Ok(paths)
}

fn line(name: &str, call: &Call) -> Result<(), String> {
    let other = |call: &Call| call::outcome(call, Wrong::Nothing);
    let answer = library::outcome(call);
    if answer != other(call) {
        return Err(report::difference(call, Wrong::Nothing));
    }
    let points = f64::from(first_number(&answer.area));
    let repeats = (f64::from(BUDGET) / points).ceil();
    let (mut best_library, mut best_other) = (f64::MAX, f64::MAX);
    for _ in 0..ROUNDS {
        best_library = best_library.min(seconds(call, repeats, library::outcome));
        best_other = best_other.min(seconds(call, repeats, other));
    }
    println!(
        "{name:16}{:>15.2}{:>22.0}{:>22.0}   {}",
        best_library / best_other,
        points * repeats / best_library,
        points * repeats / best_other,
        report::outcome(&answer),
    );
    Ok(())
}

/// The time that so many calls take together.
fn seconds(call: &Call, repeats: f64, side: impl Fn(&Call) -> Outcome) -> f64 {
    let start = Instant::now();
    for _ in 0..repeats as u64 {
        std::hint::black_box(side(call));
    }
    start.elapsed().as_secs_f64()
}

fn first_number(area: &[u8]) -> u32 {
    u32::from_le_bytes([area[0], area[1], area[2], area[3]])
}
