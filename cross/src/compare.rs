//! Compares the library and the other implementation in random calls.

use crate::call;
use crate::draw::draw;
use crate::library;
use crate::report;
use crate::tally::Tally;
use crate::wrong::Wrong;

/// Compares so many calls, shows the table and asks for its minimums.
pub fn compare(count: u64, seed: u64) -> Result<(), String> {
    let tally = run(count, seed)?;
    println!("{}", tally.table(count));
    println!("Refusal 10 is believed never to occur and so has no minimum.");
    let short = tally.short(count);
    if !short.is_empty() {
        return Err(format!("too few calls of these kinds: {short:?}"));
    }
    println!("{count} calls of seed {seed}: no difference, every minimum met.");
    Ok(())
}

/// Compares so many calls and asks for nothing more.
pub fn small(count: u64) -> Result<(), String> {
    run(count, 1)?;
    println!("{count} calls: no difference.");
    Ok(())
}

fn run(count: u64, seed: u64) -> Result<Tally, String> {
    let mut tally = Tally::new();
    let stride = (count / 20).max(1);
    for number in 1..=count {
        let drawn = draw(seed, number);
        let answer = call::answer(&drawn.call, Wrong::Nothing);
        let other = answer.outcome(&drawn.call, Wrong::Nothing);
        if library::outcome(&drawn.call) != other {
            println!("{}", report::difference(&drawn.call, Wrong::Nothing));
            return Err(format!("call {number} of seed {seed} differs"));
        }
        tally.note(&drawn, &answer);
        if number % stride == 0 {
            println!("{number} of {count} calls compared");
        }
    }
    Ok(tally)
}
