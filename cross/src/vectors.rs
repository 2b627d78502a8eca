//! Runs recorded calls through the library and the other implementation.

use crate::call::{self, Call, Outcome};
use crate::dice::Dice;
use crate::json::{self, Object};
use crate::library;
use crate::report;
use crate::wrong::Wrong;
use std::fs;

pub fn vectors(path: &str) -> Result<(), String> {
    let text = fs::read_to_string(path).map_err(|error| format!("{path}: {error}"))?;
    let mut agreed = 0;
    for (index, line) in text.lines().enumerate() {
        let number = index + 1;
        let object = json::object(line).map_err(|error| format!("line {number}: {error}"))?;
        let (call, expected) =
            recorded(&object, number).ok_or(format!("line {number} is not a recorded call"))?;
        let sides = [
            ("library", library::outcome(&call)),
            ("other", call::outcome(&call, Wrong::Nothing)),
        ];
        for (name, found) in sides {
            if found != expected {
                return Err(unlike(number, &call, &expected, name, &found));
            }
        }
        agreed += 1;
    }
    println!("{agreed} recorded calls: the library and the other agree with every one.");
    Ok(())
}

/// The call of a line and the outcome it records. Room and area start with
/// bytes of chance.
fn recorded(line: &Object, number: usize) -> Option<(Call, Outcome)> {
    let dice = &mut Dice::new(0, number as u64);
    let call = Call {
        file: line.bytes("file")?,
        trace: line.number("trace")?,
        budget: line.number("budget")?,
        room: dice.bytes(line.number("room")? as usize),
        area: dice.bytes(line.number("area_len")? as usize),
        null: dice.chance(1, 2),
    };
    let events = line.bytes("events")?;
    let mut room = call.room.clone();
    room.get_mut(..events.len())?.copy_from_slice(&events);
    let area = if line.is_null("area") {
        call.area.clone()
    } else {
        line.bytes("area")?
    };
    let expected = Outcome {
        status: line.number("status")?,
        file: call.file.clone(),
        room,
        area,
    };
    Some((call, expected))
}

fn unlike(number: usize, call: &Call, expected: &Outcome, name: &str, found: &Outcome) -> String {
    format!(
        "line {number}, {}\n  recorded: {}\n  {name}: {}",
        report::notation(call),
        report::outcome(expected),
        report::outcome(found),
    )
}
