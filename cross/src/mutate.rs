//! Shows that random calls tell every fault from the library.

use crate::call::{self, Call};
use crate::draw::draw;
use crate::library;
use crate::report;
use crate::wrong::{FAULTS, Wrong};

/// Every fault has to be told within so many calls.
const WITHIN: u64 = 2_000;

/// A faulty walk may need far more points than the right one, so no budget is
/// larger than this.
const MOST_BUDGET: u32 = 20_000;

pub fn mutate(seed: u64) -> Result<(), String> {
    let mut untold = Vec::new();
    for (wrong, name) in FAULTS {
        let telling: Vec<u64> = (1..=WITHIN)
            .filter(|&number| tells(&numbered(seed, number), wrong))
            .collect();
        match telling.first() {
            Some(&first) => {
                let calls = telling.len();
                println!("{name}: first told by call {first}, in all by {calls} of {WITHIN}");
                let small = report::shrunken(&numbered(seed, first), wrong);
                println!("  {}", report::notation(&small));
                println!("{}", report::sides(&small, wrong));
            }
            None => untold.push(name),
        }
    }
    if !untold.is_empty() {
        return Err(format!("not told within {WITHIN} calls: {untold:?}"));
    }
    let faults = FAULTS.len();
    println!("all {faults} faults told from the library, each within {WITHIN} calls.");
    Ok(())
}

fn numbered(seed: u64, number: u64) -> Call {
    let mut call = draw(seed, number).call;
    call.budget = call.budget.min(MOST_BUDGET);
    call
}

fn tells(call: &Call, wrong: Wrong) -> bool {
    library::outcome(call) != call::outcome(call, wrong)
}
