//! The synchroniser model: its state and what each event does to it.

use crate::wrong::Wrong;
use std::fmt;

pub const MOST_TABLETS: usize = 8;

/// Something that happens. The first four are observed and make up traces,
/// the last two are hidden.
#[derive(Clone, Copy, Debug, PartialEq, Eq)]
pub enum Event {
    Read { tablet: u8, seen: u8 },
    Write { tablet: u8, new: u8, seen: u8 },
    Stabilize { seen: u8, conflicts: u64 },
    StabilizeFailed,
    Up { tablet: u8 },
    Down { tablet: u8 },
}

impl Event {
    /// The kind and the tablet, as an explanation shows them in the room.
    pub fn bytes(self) -> [u8; 2] {
        match self {
            Event::Read { tablet, .. } => [1, tablet],
            Event::Write { tablet, .. } => [2, tablet],
            Event::Stabilize { .. } => [3, 0],
            Event::StabilizeFailed => [4, 0],
            Event::Up { tablet } => [5, tablet],
            Event::Down { tablet } => [6, tablet],
        }
    }

    pub fn is_write(self) -> bool {
        matches!(self, Event::Write { .. })
    }
}

impl fmt::Display for Event {
    fn fmt(&self, out: &mut fmt::Formatter) -> fmt::Result {
        match *self {
            Event::Read { tablet, seen } => write!(out, "R{tablet} {seen}"),
            Event::Write { tablet, new, seen } => write!(out, "W{tablet} {new}<{seen}"),
            Event::Stabilize { seen, conflicts } => {
                let members: Vec<String> = (0..64)
                    .filter(|value| conflicts >> value & 1 == 1)
                    .map(|value| value.to_string())
                    .collect();
                write!(out, "S({seen},{{{}}})", members.join(","))
            }
            Event::StabilizeFailed => write!(out, "SF"),
            Event::Up { tablet } => write!(out, "U{tablet}"),
            Event::Down { tablet } => write!(out, "D{tablet}"),
        }
    }
}

#[derive(Clone, Copy)]
struct Tablet {
    local: u8,
    fresh: bool,
    dirty: bool,
}

/// The server, the conflict set (bit i stands for value i) and the tablets.
#[derive(Clone, Copy)]
pub struct State {
    server: u8,
    conflicts: u64,
    count: usize,
    tablets: [Tablet; MOST_TABLETS],
}

impl State {
    /// All values 0, no conflicts, every tablet fresh and clean.
    pub fn first(tablets: u8) -> State {
        let blank = Tablet {
            local: 0,
            fresh: true,
            dirty: false,
        };
        State {
            server: 0,
            conflicts: 0,
            count: usize::from(tablets),
            tablets: [blank; MOST_TABLETS],
        }
    }

    /// The state after the event, if the event is possible.
    pub fn after(&self, event: Event, wrong: Wrong) -> Option<State> {
        match event {
            Event::Read { tablet, seen } => self.read(index(tablet), seen, wrong),
            Event::Write { tablet, new, seen } => self.write(index(tablet), new, seen, wrong),
            Event::Stabilize { seen, conflicts } => self.stabilize(seen, conflicts, wrong),
            Event::StabilizeFailed => None,
            Event::Up { tablet } => self.up(index(tablet), wrong),
            Event::Down { tablet } => self.down(index(tablet), wrong),
        }
    }

    pub fn local(&self, tablet: u8) -> u8 {
        self.tablets[index(tablet)].local
    }

    /// The STABILIZE that would be observed if the state were at rest.
    pub fn rest(&self) -> Event {
        Event::Stabilize {
            seen: self.server,
            conflicts: self.conflicts,
        }
    }

    fn read(&self, t: usize, seen: u8, wrong: Wrong) -> Option<State> {
        let possible = self.tablets[t].local == seen || wrong == Wrong::ReadIgnoresValue;
        possible.then_some(*self)
    }

    fn write(&self, t: usize, new: u8, seen: u8, wrong: Wrong) -> Option<State> {
        if self.tablets[t].local != seen {
            return None;
        }
        let mut next = *self;
        next.tablets[t].local = new;
        next.tablets[t].dirty |= new != seen || wrong != Wrong::SameValueIsNoWrite;
        Some(next)
    }

    fn stabilize(&self, seen: u8, conflicts: u64, wrong: Wrong) -> Option<State> {
        let mut tablets = self.tablets[..self.count].iter();
        let quiet = tablets.all(|tablet| {
            (tablet.fresh || wrong == Wrong::StabilizeWhileStale)
                && (!tablet.dirty || wrong == Wrong::StabilizeWhileDirty)
        });
        let agreed = if wrong == Wrong::ConflictsInside {
            conflicts & !self.conflicts == 0
        } else {
            conflicts == self.conflicts
        };
        (quiet && agreed && self.server == seen).then_some(*self)
    }

    fn up(&self, t: usize, wrong: Wrong) -> Option<State> {
        if !self.tablets[t].dirty {
            return None;
        }
        let mut next = *self;
        next.tablets[t].dirty = false;
        if self.tablets[t].fresh {
            next.publish(t, wrong);
        } else {
            next.dispute(t, wrong);
        }
        Some(next)
    }

    /// An upload from a fresh tablet: news for the server and all others.
    fn publish(&mut self, t: usize, wrong: Wrong) {
        let local = self.tablets[t].local;
        if local == self.server && wrong != Wrong::EqualUpMakesStale {
            return;
        }
        self.server = local;
        for (other, tablet) in self.tablets[..self.count].iter_mut().enumerate() {
            tablet.fresh &= other == t || wrong == Wrong::OthersStayFresh;
        }
    }

    /// An upload from a stale tablet: at most a new member of the conflict set.
    fn dispute(&mut self, t: usize, wrong: Wrong) {
        let local = self.tablets[t].local;
        let known = local == self.server && wrong != Wrong::ConflictsWithItself;
        let missing = local == 0 && wrong != Wrong::StaleZeroJoins;
        if wrong == Wrong::StaleUpOverwrites {
            self.server = local;
        } else if !known && !missing {
            self.conflicts |= 1 << local;
        }
        self.tablets[t].fresh = wrong == Wrong::FreshAfterStaleUp;
    }

    fn down(&self, t: usize, wrong: Wrong) -> Option<State> {
        let tablet = self.tablets[t];
        if tablet.fresh || (tablet.dirty && wrong != Wrong::DownWhileDirty) {
            return None;
        }
        let mut next = *self;
        next.tablets[t].fresh = true;
        next.tablets[t].dirty = false;
        if wrong != Wrong::DownKeepsLocal {
            next.tablets[t].local = self.server;
        }
        Some(next)
    }
}

/// Tablets are numbered from 1.
fn index(tablet: u8) -> usize {
    usize::from(tablet) - 1
}
