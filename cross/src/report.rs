//! Puts calls and outcomes into words.

use crate::call::{AREA, Call, Outcome};
use crate::file;
use crate::library;
use crate::sheet::{Sheet, hex};
use crate::shrink::shrink;
use crate::{call, wrong::Wrong};

/// The call in full, both outcomes, and the smallest call that still shows the
/// difference.
pub fn difference(call: &Call, wrong: Wrong) -> String {
    let small = shrunken(call, wrong);
    format!(
        "the first difference:\n{}\n{}\nshrunken:\n{}\n{}\n  {}",
        asked(call),
        sides(call, wrong),
        asked(&small),
        sides(&small, wrong),
        notation(&small),
    )
}

/// The smallest call found in which the library and the other still differ.
pub fn shrunken(call: &Call, wrong: Wrong) -> Call {
    shrink(call.clone(), |call| {
        let library = library::outcome(call);
        let other = call::outcome(call, wrong);
        (library != other).then_some((library.status, other.status))
    })
}

fn asked(call: &Call) -> String {
    format!(
        "  file of {} bytes {}\n  \
         trace {}, budget {}, room of {} bytes, area of {} bytes, null where empty: {}",
        call.file.len(),
        hex(&call.file),
        call.trace,
        call.budget,
        call.room.len(),
        call.area.len(),
        call.null,
    )
}

/// Both outcomes and the first byte in which each memory differs.
pub fn sides(call: &Call, wrong: Wrong) -> String {
    let library = library::outcome(call);
    let other = call::outcome(call, wrong);
    let mut lines = vec![
        format!("  library: {}", outcome(&library)),
        format!("  other:   {}", outcome(&other)),
    ];
    for (name, before, one, two) in [
        ("file", &call.file, &library.file, &other.file),
        ("room", &call.room, &library.room, &other.room),
        ("area", &call.area, &library.area, &other.area),
    ] {
        if let Some(at) = (0..before.len()).find(|&at| one[at] != two[at]) {
            lines.push(format!(
                "  {name} from byte {at}: library {:02x}, other {:02x}, before the call {:02x}",
                one[at], two[at], before[at],
            ));
        }
    }
    lines.join("\n")
}

/// The status in words with the three numbers of the area.
pub fn outcome(outcome: &Outcome) -> String {
    let status = match outcome.status {
        0 => "explained".to_string(),
        1 => "unexplained".to_string(),
        2 => "undecided".to_string(),
        refused => format!("status {refused}"),
    };
    if outcome.area.len() != AREA {
        return format!("{status}, area {}", hex(&outcome.area));
    }
    let (numbers, _) = <[u8]>::as_chunks(&outcome.area);
    let [points, events, place] = [0, 1, 2].map(|at| u32::from_le_bytes(numbers[at]));
    format!("{status}, points {points}, events {events}, place {place}")
}

/// The asked trace in the notation of the worked evenings.
pub fn notation(call: &Call) -> String {
    let Some(sheet) = Sheet::decode(&call.file) else {
        let refusal = file::contents(&call.file).map_or_else(|refusal| refusal.number(), |_| 0);
        return format!("no trace, for the file has refusal {refusal}");
    };
    let asked = (call.trace as usize).wrapping_sub(1);
    if asked >= sheet.bodies.len() {
        return format!("trace {} of {}", call.trace, sheet.bodies.len());
    }
    format!(
        "n = {}, v = {}, budget {}, room {}: {}",
        sheet.tablets,
        sheet.values,
        call.budget,
        call.room.len(),
        sheet.notation(asked),
    )
}
