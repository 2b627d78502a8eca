//! The faults that `mutate` puts into the other implementation, one at a time.
//!
//! Each fault is asked for at the one place it concerns. Everywhere else the
//! commands run with `Wrong::Nothing`.

#[derive(Clone, Copy, Debug, PartialEq, Eq)]
pub enum Wrong {
    Nothing,
    FreshAfterStaleUp,
    StaleUpOverwrites,
    OthersStayFresh,
    ConflictsWithItself,
    StabilizeWhileStale,
    ReadIgnoresValue,
    DownKeepsLocal,
    DownWhileDirty,
    SameValueIsNoWrite,
    ConflictsInside,
    StaleZeroJoins,
    EqualUpMakesStale,
    StabilizeWhileDirty,
    DownsFirst,
    ObservationLast,
    SpentIsUnexplained,
    EndNotCounted,
    BoundTooSmall,
    RoomCleared,
}

/// Every fault with its name in words: fourteen of the model, five of the walk.
pub const FAULTS: [(Wrong, &str); 19] = [
    (Wrong::FreshAfterStaleUp, "fresh after a stale UP"),
    (
        Wrong::StaleUpOverwrites,
        "a stale UP overwrites the server value",
    ),
    (
        Wrong::OthersStayFresh,
        "a fresh UP leaves the others as they are",
    ),
    (
        Wrong::ConflictsWithItself,
        "a stale UP of the server value joins the set",
    ),
    (
        Wrong::StabilizeWhileStale,
        "STABILIZE without the fresh test",
    ),
    (Wrong::ReadIgnoresValue, "READ of any value"),
    (Wrong::DownKeepsLocal, "DOWN keeps the local value"),
    (Wrong::DownWhileDirty, "DOWN at a dirty tablet"),
    (
        Wrong::SameValueIsNoWrite,
        "a write of the same value is no write",
    ),
    (
        Wrong::ConflictsInside,
        "C need only lie inside the conflict set",
    ),
    (Wrong::StaleZeroJoins, "a stale UP of 0 joins the set"),
    (
        Wrong::EqualUpMakesStale,
        "a fresh UP of the server value makes stale",
    ),
    (
        Wrong::StabilizeWhileDirty,
        "STABILIZE without the clean test",
    ),
    (Wrong::DownsFirst, "DOWNs tried before UPs"),
    (Wrong::ObservationLast, "the observation tried last"),
    (
        Wrong::SpentIsUnexplained,
        "a spent budget called unexplained",
    ),
    (Wrong::EndNotCounted, "the end not counted as a point"),
    (Wrong::BoundTooSmall, "depth bound one write too small"),
    (Wrong::RoomCleared, "room past the last event cleared"),
];
