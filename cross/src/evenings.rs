//! Draws traces: honest ones, disturbed ones, random ones and deep ones.

use crate::dice::Dice;
use crate::file::MOST_RECORDS;
use crate::model::{Event, State};
use crate::wrong::Wrong;

/// Draws traces for one number of tablets and one number of values.
pub struct Drawer<'a> {
    pub dice: &'a mut Dice,
    pub tablets: u8,
    pub values: u8,
}

impl Drawer<'_> {
    pub fn trace(&mut self) -> Vec<Event> {
        match self.dice.below(20) {
            0..=8 => self.honest(),
            9..=14 => self.disturbed(),
            15..=18 => self.random(),
            _ => self.deep(),
        }
    }

    /// Mostly short, so that whole trees are walked; sometimes the longest.
    fn length(&mut self) -> usize {
        match self.dice.below(40) {
            0 => MOST_RECORDS,
            1..=2 => self.dice.below(MOST_RECORDS + 1),
            3..=5 => self.dice.below(4),
            6..=13 => self.dice.below(25),
            _ => 3 + self.dice.below(8),
        }
    }

    fn tablet(&mut self) -> u8 {
        1 + self.dice.below(self.tablets.into()) as u8
    }

    /// Mostly one of a few small values, so that equal ones meet.
    fn value(&mut self) -> u8 {
        match self.dice.below(16) {
            0 => self.values - 1,
            1 => self.dice.below(self.values.into()) as u8,
            _ => self.dice.below(self.values.min(4).into()) as u8,
        }
    }

    /// What is seen while the model runs with random hidden events.
    fn honest(&mut self) -> Vec<Event> {
        let length = self.length();
        let haste = self.dice.below(4);
        let mut state = State::first(self.tablets);
        let mut trace = Vec::new();
        while trace.len() < length {
            if self.dice.chance(haste, 4) {
                state = self.hidden(state).unwrap_or(state);
            }
            let last = trace.len() + 1 == length;
            if self.dice.chance(if last { 5 } else { 1 }, 10) {
                state = self.settled(state);
                trace.push(state.rest());
                continue;
            }
            let event = self.local(&state);
            state = happened(state, event);
            trace.push(event);
        }
        trace
    }

    /// A read or a write that fits the tablet it happens at.
    fn local(&mut self, state: &State) -> Event {
        let tablet = self.tablet();
        let seen = state.local(tablet);
        let new = if self.dice.chance(1, 8) {
            seen
        } else {
            self.value()
        };
        if self.dice.chance(1, 2) {
            Event::Write { tablet, new, seen }
        } else {
            Event::Read { tablet, seen }
        }
    }

    /// The state after some hidden event, if one is possible.
    fn hidden(&mut self, state: State) -> Option<State> {
        let ups = (1..=self.tablets).map(|tablet| Event::Up { tablet });
        let downs = (1..=self.tablets).map(|tablet| Event::Down { tablet });
        let next: Vec<State> = ups
            .chain(downs)
            .filter_map(|event| state.after(event, Wrong::Nothing))
            .collect();
        (!next.is_empty()).then(|| self.dice.pick(&next))
    }

    /// The state once no hidden event is possible: all fresh and clean.
    fn settled(&mut self, mut state: State) -> State {
        while let Some(next) = self.hidden(state) {
            state = next;
        }
        state
    }

    /// An honest trace with one observation changed: an early one, any one or
    /// the last.
    fn disturbed(&mut self) -> Vec<Event> {
        let mut trace = self.honest();
        if trace.is_empty() {
            trace.push(self.observation());
        }
        let place = match self.dice.below(4) {
            0..=1 => self.dice.below(trace.len().min(6)),
            2 => self.dice.below(trace.len()),
            _ => trace.len() - 1,
        };
        trace[place] = self.changed(trace[place]);
        trace
    }

    fn changed(&mut self, event: Event) -> Event {
        match (event, self.dice.below(4)) {
            (_, 0) => self.observation(),
            (Event::Read { tablet, .. }, _) => Event::Read {
                tablet,
                seen: self.value(),
            },
            (Event::Write { tablet, new, .. }, 1) => Event::Write {
                tablet,
                new,
                seen: self.value(),
            },
            (Event::Write { tablet, seen, .. }, _) => Event::Write {
                tablet,
                new: self.value(),
                seen,
            },
            (Event::Stabilize { seen, conflicts }, 1) => Event::Stabilize {
                seen,
                conflicts: conflicts ^ self.conflicts(),
            },
            (Event::Stabilize { seen, conflicts }, 2) => Event::Stabilize {
                seen,
                conflicts: conflicts & conflicts.wrapping_sub(1),
            },
            (Event::Stabilize { conflicts, .. }, _) => Event::Stabilize {
                seen: self.value(),
                conflicts,
            },
            _ => Event::StabilizeFailed,
        }
    }

    /// A conflict set of one value, or none where only 0 could be in it.
    fn conflicts(&mut self) -> u64 {
        1 << self.value() & !1
    }

    /// Any observation that a file may hold.
    fn observation(&mut self) -> Event {
        let (tablet, new, seen) = (self.tablet(), self.value(), self.value());
        match self.dice.below(16) {
            0 => Event::StabilizeFailed,
            1..=3 => Event::Stabilize {
                seen,
                conflicts: self.conflicts() | self.conflicts(),
            },
            4..=9 => Event::Read { tablet, seen },
            _ => Event::Write { tablet, new, seen },
        }
    }

    fn random(&mut self) -> Vec<Event> {
        (0..self.length()).map(|_| self.observation()).collect()
    }

    /// Two tablets write in turn and each sees the write before it, so that
    /// nearly every write has to be uploaded and taken down everywhere.
    fn deep(&mut self) -> Vec<Event> {
        let writers = match self.dice.below(3) {
            0 => [self.tablet(), self.tablet()],
            _ => [self.tablets.max(2) - 1, self.tablets],
        };
        let length = match self.dice.below(3) {
            0 => MOST_RECORDS,
            _ => self.dice.below(MOST_RECORDS + 1),
        };
        let fresh_values = (self.values - 1).clamp(1, 6);
        let mut trace = Vec::new();
        let mut seen = 0;
        for turn in 0..length {
            let new = match self.values {
                1 => 0,
                _ => 1 + turn as u8 % fresh_values,
            };
            let tablet = writers[turn % 2];
            trace.push(Event::Write { tablet, new, seen });
            seen = new;
        }
        if self.dice.chance(1, 3) && !trace.is_empty() {
            let last = trace.len() - 1;
            trace[last] = self.observation();
        }
        trace
    }
}

fn happened(state: State, event: Event) -> State {
    state
        .after(event, Wrong::Nothing)
        .expect("an honest observation is possible")
}
