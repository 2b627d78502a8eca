//! A second implementation of the explaining call, written from the
//! specification alone, and its comparison with the project's library.

mod call;
mod compare;
mod damage;
mod dice;
mod draw;
mod evenings;
mod file;
mod json;
mod library;
mod model;
mod mutate;
mod refusal;
mod report;
mod sheet;
mod shrink;
mod smaller;
mod speed;
mod stack;
mod tally;
#[cfg(test)]
mod tests;
mod vectors;
mod walk;
mod wrong;

use std::process::ExitCode;

const USAGE: &str = "\
compare [COUNT] [SEED]  compares random calls and asks for enough of each kind
mutate [SEED]           shows that random calls tell every fault
vectors [PATH]          runs recorded calls
speed                   times both sides in turn
stack                   finds the stack of the deep evening
small [COUNT]           compares a few random calls, for a memory checker
within BYTES            answers the file on standard input on such a stack";

const RECORDED: &str = concat!(env!("CARGO_MANIFEST_DIR"), "/../tools/calls.jsonl");

fn main() -> ExitCode {
    let words: Vec<String> = std::env::args().skip(1).collect();
    let words: Vec<&str> = words.iter().map(String::as_str).collect();
    match run(&words) {
        Ok(()) => ExitCode::SUCCESS,
        Err(error) => {
            eprintln!("{error}");
            ExitCode::FAILURE
        }
    }
}

fn run(words: &[&str]) -> Result<(), String> {
    match *words {
        ["compare"] => compare::compare(200_000, 1),
        ["compare", count] => compare::compare(number(count)?, 1),
        ["compare", count, seed] => compare::compare(number(count)?, number(seed)?),
        ["mutate"] => mutate::mutate(1),
        ["mutate", seed] => mutate::mutate(number(seed)?),
        ["vectors"] => vectors::vectors(RECORDED),
        ["vectors", path] => vectors::vectors(path),
        ["speed"] => speed::speed(),
        ["stack"] => stack::stack(),
        ["small"] => compare::small(2_000),
        ["small", count] => compare::small(number(count)?),
        ["within", bytes] => stack::within(number(bytes)? as usize),
        _ => Err(USAGE.to_string()),
    }
}

fn number(word: &str) -> Result<u64, String> {
    word.parse()
        .map_err(|_| format!("{word} is not a number\n{USAGE}"))
}
