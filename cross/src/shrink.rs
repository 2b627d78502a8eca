//! Makes a call smaller as long as the two sides still differ in it.

use crate::call::{self, Answer, Call};
use crate::file;
use crate::smaller::{self, Smaller};
use crate::walk::longest;
use crate::wrong::Wrong;

/// Smaller calls are not tried where a walk of this many points is not enough.
const PATIENCE: u32 = 20_000;

/// The smallest call found in which the two sides still differ. `difference`
/// gives the two statuses of a call where they do.
///
/// A smaller file may show another difference than the one before it. Budget
/// and memory are lowered only after that and keep the statuses, for a low
/// budget would turn most differences into one of undecided calls.
pub fn shrink(call: Call, difference: impl Fn(&Call) -> Option<(u32, u32)>) -> Call {
    let differs = |call: &Call| bearable(call) && difference(call).is_some();
    let eased = with_budget(&call, PATIENCE);
    let mut call = if differs(&eased) { eased } else { call };
    loop {
        let statuses = difference(&call);
        let keeps = |smaller: &Call| difference(smaller) == statuses;
        let smaller = change_file(&call)
            .find(differs)
            .or_else(|| lower_budget(&call).chain(change_memory(&call)).find(keeps));
        match smaller {
            Some(smaller) => call = smaller,
            None => return call,
        }
    }
}

/// Whether both sides will come to an answer soon.
fn bearable(call: &Call) -> bool {
    call.budget <= PATIENCE || !matches!(soon(call), Answer::Undecided { .. })
}

/// The answer to the call with a budget that is soon spent.
fn soon(call: &Call) -> Answer {
    call::answer(&with_budget(call, PATIENCE), Wrong::Nothing)
}

fn lower_budget(call: &Call) -> Smaller<'_, Call> {
    let budgets = [call.budget / 2, call.budget.saturating_sub(1)];
    let lower = budgets.into_iter().filter(|&budget| budget < call.budget);
    Box::new(lower.map(|budget| with_budget(call, budget)))
}

fn with_budget(call: &Call, budget: u32) -> Call {
    Call {
        budget,
        ..call.clone()
    }
}

/// The call on smaller files, with the room as much too long or too short as it
/// was; the budget stays, or keeps its distance from the count.
fn change_file(call: &Call) -> Smaller<'_, Call> {
    let files = smaller::files(&call.file, call.trace);
    Box::new(files.flat_map(|(file, trace)| {
        let mut smaller = Call {
            file,
            trace,
            ..call.clone()
        };
        if let (Some(before), Some(after)) = (need(call), need(&smaller)) {
            let saved = before.saturating_sub(after);
            let length = smaller.room.len().saturating_sub(saved);
            smaller.room.truncate(length);
        }
        let fitted = fitted(call, &smaller);
        std::iter::once(smaller).chain(fitted)
    }))
}

/// The smaller call with a budget that is lower by as much as its count.
fn fitted(call: &Call, smaller: &Call) -> Option<Call> {
    let saved = count(call)?.checked_sub(count(smaller)?)?;
    Some(with_budget(smaller, call.budget.checked_sub(saved)?))
}

fn count(call: &Call) -> Option<u32> {
    match soon(call) {
        Answer::Explained { points, .. } | Answer::Unexplained { points } => Some(points),
        _ => None,
    }
}

/// The room that the asked trace needs.
fn need(call: &Call) -> Option<usize> {
    let traces = file::read(&call.file).ok()?;
    let trace = traces.trace(call.trace).ok()?;
    Some(2 * longest(traces.tablets, trace))
}

/// Shorter room, and no null pointers.
fn change_memory(call: &Call) -> Smaller<'_, Call> {
    let length = call.room.len();
    let lengths = [length / 2, length.saturating_sub(1)];
    let shorter = lengths.into_iter().filter(move |&room| room < length);
    let rooms = shorter.map(|length| Call {
        room: call.room[..length].to_vec(),
        ..call.clone()
    });
    let plain = call.null.then(|| Call {
        null: false,
        ..call.clone()
    });
    Box::new(rooms.chain(plain))
}
