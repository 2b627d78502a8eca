//! Finds how much stack the deep evening takes in the library.
//!
//! A child process makes the call in a thread with a given stack; if the stack
//! is too small the child dies. Halving finds the smallest that is enough, to
//! the page.

use crate::library;
use crate::sheet::Sheet;
use crate::speed::{EVENINGS, evening};
use std::io::{Read, Write};
use std::process::{Command, Stdio};
use std::{env, fs, io, thread};

const PAGE: usize = 4_096;
const LEAST_PAGES: usize = 4;
const MOST_PAGES: usize = 16_384;
const ALLOWED: usize = 1 << 20;

pub fn stack() -> Result<(), String> {
    let file = fs::read(format!("{EVENINGS}/deep.trace")).map_err(|error| error.to_string())?;
    let deep = Sheet::decode(&file).ok_or("deep.trace is not a trace file")?;
    let records = deep.bodies[0].len();
    let mut taken = Vec::new();
    println!(
        "{:24}{:>8}{:>28}",
        "evening", "events", "smallest stack enough, KB"
    );
    for (name, length) in [
        ("no record", 0),
        ("first half", records / 2),
        ("whole", records),
    ] {
        let mut part = deep.clone();
        part.bodies[0].truncate(length);
        let file = part.encode();
        let events = events(&file);
        let bytes = smallest(&file)?;
        println!("{name:24}{events:>8}{:>28}", bytes / 1_024);
        taken.push((events, bytes));
    }
    let ((half_events, half), (all_events, all)) = (taken[1], taken[2]);
    let level = (all - half) as f64 / f64::from(all_events - half_events);
    let within = if all <= ALLOWED { "is" } else { "is NOT" };
    println!(
        "The deep evening takes {} KB, about {level:.0} bytes a level; it {within} within 1 MB.",
        all / 1_024
    );
    if all > ALLOWED {
        return Err("the deep evening takes more than 1 MB of stack".to_string());
    }
    Ok(())
}

/// The events of the explanation of a file's first trace.
fn events(file: &[u8]) -> u32 {
    let area = library::outcome(&evening(file.to_vec())).area;
    u32::from_le_bytes([area[4], area[5], area[6], area[7]])
}

/// The smallest stack, in whole pages, on which the call comes back.
fn smallest(file: &[u8]) -> Result<usize, String> {
    let (mut low, mut high) = (LEAST_PAGES, MOST_PAGES);
    if !survives(file, high * PAGE)? {
        return Err(format!("{} KB are not enough", high * PAGE / 1_024));
    }
    while low < high {
        let middle = (low + high) / 2;
        if survives(file, middle * PAGE)? {
            high = middle;
        } else {
            low = middle + 1;
        }
    }
    Ok(high * PAGE)
}

/// Whether a child process makes the call on a stack of so many bytes.
fn survives(file: &[u8], bytes: usize) -> Result<bool, String> {
    run_child(file, bytes).map_err(|error| format!("the child process: {error}"))
}

fn run_child(file: &[u8], bytes: usize) -> io::Result<bool> {
    let mut child = Command::new(env::current_exe()?)
        .args(["within", &bytes.to_string()])
        .stdin(Stdio::piped())
        .stderr(Stdio::null())
        .spawn()?;
    if let Some(mut input) = child.stdin.take() {
        input.write_all(file)?;
    }
    Ok(child.wait()?.success())
}

/// The child's part: answers the file on standard input on such a stack.
pub fn within(bytes: usize) -> Result<(), String> {
    let mut file = Vec::new();
    io::stdin()
        .read_to_end(&mut file)
        .map_err(|error| error.to_string())?;
    let call = evening(file);
    let caller = thread::Builder::new()
        .stack_size(bytes)
        .spawn(move || library::outcome(&call).status)
        .map_err(|error| error.to_string())?;
    match caller.join() {
        Ok(0) => Ok(()),
        Ok(status) => Err(format!("status {status}")),
        Err(_) => Err("the call did not come back".to_string()),
    }
}
