//! Draws whole calls: a file, good or damaged, and what is asked of it.

use crate::call::{AREA, Call, MOST_ROOM};
use crate::damage::damaged;
use crate::dice::Dice;
use crate::evenings::Drawer;
use crate::file;
use crate::model::Event;
use crate::sheet::{self, Sheet};
use crate::walk::{Walked, longest, walk};
use crate::wrong::Wrong;

/// How a budget lies to the count of the asked trace.
#[derive(Clone, Copy, PartialEq, Eq)]
pub enum Edge {
    Zero,
    OneBelow,
    Equal,
    OneAbove,
    Largest,
    Elsewhere,
}

pub struct Drawn {
    pub call: Call,
    pub edge: Edge,
}

/// The numbered call of a seed.
pub fn draw(seed: u64, number: u64) -> Drawn {
    let dice = &mut Dice::new(seed, number);
    let sheet = sheet(dice);
    let trace = trace_number(dice, sheet.bodies.len() as u32);
    let file = if dice.chance(1, 4) {
        damaged(dice, sheet)
    } else {
        sheet.encode()
    };
    let asked = file::read(&file).and_then(|traces| {
        let asked = traces.trace(trace)?;
        Ok((traces.tablets, asked.to_vec()))
    });
    let (budget, edge) = match &asked {
        Ok((tablets, asked)) => budget(dice, *tablets, asked),
        Err(_) => (dice.throw() as u32, Edge::Elsewhere),
    };
    let need = asked.map_or(24, |(tablets, asked)| 2 * longest(tablets, &asked));
    let room_length = room_length(dice, need);
    let area_length = area_length(dice);
    let call = Call {
        file,
        trace,
        budget,
        room: dice.bytes(room_length),
        area: dice.bytes(area_length),
        null: dice.chance(1, 2),
    };
    Drawn { call, edge }
}

fn sheet(dice: &mut Dice) -> Sheet {
    let tablets = dice.pick(&[1, 1, 2, 2, 2, 2, 2, 3, 3, 3, 4, 5, 6, 7, 8, 8]);
    let values = match dice.below(12) {
        0 => 1,
        1 => 64,
        2 => 1 + dice.below(64) as u8,
        _ => 2 + dice.below(6) as u8,
    };
    let bodies = match dice.below(12) {
        0 => 16,
        1 => 1 + dice.below(16),
        2..=4 => 1 + dice.below(4),
        _ => 1,
    };
    let mut drawer = Drawer {
        dice,
        tablets,
        values,
    };
    let bodies = (0..bodies)
        .map(|_| drawer.trace().into_iter().map(sheet::record).collect())
        .collect();
    Sheet {
        tablets,
        values,
        bodies,
    }
}

/// Mostly a trace that is there; else a number just or far outside, or one
/// that would be there if its upper bytes were lost.
fn trace_number(dice: &mut Dice, bodies: u32) -> u32 {
    match dice.below(64) {
        0 => 0,
        1 => bodies + 1,
        2 => 257,
        3 => u32::MAX,
        4 => dice.pick(&[256 + bodies, 65_536 + bodies]),
        5..=16 => bodies,
        _ => 1 + dice.below(bodies as usize) as u32,
    }
}

/// A budget, mostly near the count. The count is searched for only so far, and
/// a trace that is undecided by then never gets a large budget.
fn budget(dice: &mut Dice, tablets: u8, trace: &[Event]) -> (u32, Edge) {
    let cap = if dice.chance(1, 32) { 100_000 } else { 10_000 };
    let count = match walk(tablets, trace, cap, Wrong::Nothing) {
        Walked::Explained { points, .. } | Walked::Unexplained { points } => points,
        _ => return (capped(dice, cap), Edge::Elsewhere),
    };
    match dice.below(20) {
        0 => (0, Edge::Zero),
        1..=2 => (count - 1, Edge::OneBelow),
        3..=6 => (count, Edge::Equal),
        7..=9 => (count + 1, Edge::OneAbove),
        10..=11 => (u32::MAX, Edge::Largest),
        12..=13 => (dice.below(count as usize) as u32, Edge::Elsewhere),
        _ => (count + dice.below(1_000) as u32, Edge::Elsewhere),
    }
}

fn capped(dice: &mut Dice, cap: u32) -> u32 {
    match dice.below(4) {
        0 => cap,
        1 => dice.below(cap as usize) as u32,
        _ => dice.below(100) as u32,
    }
}

fn room_length(dice: &mut Dice, need: usize) -> usize {
    match dice.below(24) {
        0 => need.saturating_sub(1),
        1 => dice.below(need + 1),
        2 => 0,
        3..=7 => need + 1 + dice.below(40),
        8 => MOST_ROOM,
        _ => need,
    }
}

fn area_length(dice: &mut Dice) -> usize {
    match dice.below(160) {
        0 => AREA - 1,
        1 => AREA + 1,
        2 => 0,
        3 => dice.below(AREA),
        4 => dice.pick(&[16, 24, 268]),
        _ => AREA,
    }
}
