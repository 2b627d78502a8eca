//! The ordered walk over the points of a trace, with a path held on the heap.

use crate::model::{Event, State};
use crate::wrong::Wrong;

/// How a walk ends.
pub enum Walked {
    Explained { points: u32, events: Vec<Event> },
    Unexplained { points: u32 },
    Undecided,
    TooDeep,
}

/// The most events a sequence for this trace should ever hold.
pub fn longest(tablets: u8, trace: &[Event]) -> usize {
    let writes = trace.iter().filter(|event| event.is_write()).count();
    trace.len() + usize::from(tablets) * writes
}

/// A point on the path from the root: where it stands and what it tries next.
struct Point {
    state: State,
    used: usize,
    choice: u8,
}

impl Point {
    fn new(state: State, used: usize) -> Point {
        Point {
            state,
            used,
            choice: 0,
        }
    }
}

/// The trace that is walked.
struct Walk<'a> {
    tablets: u8,
    trace: &'a [Event],
    wrong: Wrong,
}

/// Visits points in order until the first end, the last point, the budget or
/// the depth bound.
pub fn walk(tablets: u8, trace: &[Event], budget: u32, wrong: Wrong) -> Walked {
    if budget == 0 {
        return Walked::Undecided;
    }
    let walk = Walk {
        tablets,
        trace,
        wrong,
    };
    let bound = walk.bound();
    let mut points = 1;
    let mut events = Vec::new();
    let mut path = vec![Point::new(State::first(tablets), 0)];
    while let Some(point) = path.last_mut() {
        if point.used == trace.len() {
            return Walked::Explained { points, events };
        }
        let Some((event, child)) = walk.next_child(point) else {
            path.pop();
            events.pop();
            continue;
        };
        if points == budget {
            return Walked::Undecided;
        }
        if events.len() == bound {
            return Walked::TooDeep;
        }
        points += 1;
        events.push(event);
        path.push(child);
    }
    Walked::Unexplained { points }
}

impl Walk<'_> {
    fn bound(&self) -> usize {
        let bound = longest(self.tablets, self.trace);
        if self.wrong == Wrong::BoundTooSmall && self.trace.iter().any(|event| event.is_write()) {
            return bound - usize::from(self.tablets);
        }
        bound
    }

    /// The next child of the point that is possible, with the event to it.
    fn next_child(&self, point: &mut Point) -> Option<(Event, Point)> {
        while point.choice <= 2 * self.tablets {
            let event = self.event(point.used, point.choice);
            point.choice += 1;
            if let Some(state) = point.state.after(event, self.wrong) {
                let observed = !matches!(event, Event::Up { .. } | Event::Down { .. });
                let used = point.used + usize::from(observed);
                return Some((event, Point::new(state, used)));
            }
        }
        None
    }

    /// The choices of a point in order: the observation, then every UP, then
    /// every DOWN.
    fn event(&self, used: usize, choice: u8) -> Event {
        let n = self.tablets;
        let choice = match self.wrong {
            Wrong::ObservationLast => (choice + 1) % (2 * n + 1),
            Wrong::DownsFirst if choice > n => choice - n,
            Wrong::DownsFirst if choice > 0 => choice + n,
            _ => choice,
        };
        match choice {
            0 => self.trace[used],
            tablet if tablet <= n => Event::Up { tablet },
            above => Event::Down { tablet: above - n },
        }
    }
}
