//! The refusals, and what to do about each.
use std::fmt;

/// Why a call gave no result, with the place where it varies: in bytes from the file's first, unless the case says otherwise.
#[derive(Clone, Copy, Debug, PartialEq, Eq)]
pub enum Refusal {
    Ended(u64),
    Malformed(u64),
    WrongKind,
    OutsideLimits(u64),
    Trailing(u64),
    BadRow(u64),
    Crowded(u64),
    WrongFigure(u64),
    NoBlock,
    /// The entries needed.
    ShortWork(u64),
    /// The bytes or entries needed.
    ShortOutput(u64),
    /// 0 for s, 1 for k, 2 for b.
    BadOrder(u64),
    Unjoinable,
    BadWish,
    OutOfService(u64),
    BadCounts,
    TooManySets,
    BadRounds,
    /// The event's index.
    EarlierEvent(u64),
    /// The event's index.
    BadEvent(u64),
    SharedFeeder(u64),
}

use Refusal::*;

impl Refusal {
    /// The refusal with this number and place, as an answer's first two numbers have them.
    pub fn of(number: u64, place: u64) -> Option<Refusal> {
        Some(match number {
            1 => Ended(place),
            2 => Malformed(place),
            3 => WrongKind,
            4 => OutsideLimits(place),
            5 => Trailing(place),
            6 => BadRow(place),
            7 => Crowded(place),
            8 => WrongFigure(place),
            9 => NoBlock,
            10 => ShortWork(place),
            11 => ShortOutput(place),
            12 => BadOrder(place),
            13 => Unjoinable,
            14 => BadWish,
            15 => OutOfService(place),
            16 => BadCounts,
            17 => TooManySets,
            18 => BadRounds,
            19 => EarlierEvent(place),
            20 => BadEvent(place),
            21 => SharedFeeder(place),
            _ => return None,
        })
    }

    /// The number that the documents give it.
    pub fn number(self) -> u64 {
        match self {
            Ended(_) => 1,
            Malformed(_) => 2,
            WrongKind => 3,
            OutsideLimits(_) => 4,
            Trailing(_) => 5,
            BadRow(_) => 6,
            Crowded(_) => 7,
            WrongFigure(_) => 8,
            NoBlock => 9,
            ShortWork(_) => 10,
            ShortOutput(_) => 11,
            BadOrder(_) => 12,
            Unjoinable => 13,
            BadWish => 14,
            OutOfService(_) => 15,
            BadCounts => 16,
            TooManySets => 17,
            BadRounds => 18,
            EarlierEvent(_) => 19,
            BadEvent(_) => 20,
            SharedFeeder(_) => 21,
        }
    }

    /// Its place, 0 where none is named.
    pub fn place(self) -> u64 {
        match self {
            Ended(p) | Malformed(p) | OutsideLimits(p) | Trailing(p) | BadRow(p) | Crowded(p) | WrongFigure(p) => p,
            ShortWork(p) | ShortOutput(p) | BadOrder(p) | OutOfService(p) => p,
            EarlierEvent(p) | BadEvent(p) | SharedFeeder(p) => p,
            WrongKind | NoBlock | Unjoinable | BadWish | BadCounts | TooManySets | BadRounds => 0,
        }
    }

    fn what_to_do(self) -> &'static str {
        match self {
            Ended(_) => "the input ends too early: fetch the file again, or mend a count in its head that is too large",
            Malformed(_) => "a number has more than four bytes: the file was damaged there",
            WrongKind => "not this kind of file: a pack begins with 1 or 4, a placement with 2, 3, 5 or 6, bare rows with 7",
            OutsideLimits(_) => "a number is outside its limits: mend it",
            Trailing(_) => "bytes after the end: the file was joined with another, or a count in its head is too small",
            BadRow(_) => "a row is not ascending or names a node that is not there: mend the row",
            Crowded(_) => "too many rows hold the same nodes: mend the block table, or raise its bound",
            WrongFigure(_) => "the figure is not the formula's: plan again",
            NoBlock => "no block in any layer below s: take a pack with blocks there, or a larger s",
            ShortWork(_) => "the working slice is too short: lend as many entries as the place says",
            ShortOutput(_) => "the output is too short: lend as many bytes or entries as the place says",
            BadOrder(_) => "s, k or b (place 0, 1, 2) is outside its limits: mend the order",
            Unjoinable => {
                "the packs can't be joined: take packs of one r, with at most 255 nodes together, in each layer mu's whose \
                 least common multiple (of packs with blocks there) is at most 4,096, and at most 4,096 blocks, each \
                 counted multiple / mu times"
            }
            BadWish => "a wish is 0 or above 4,096: mend it",
            OutOfService(_) => "a row names a node out of service: take the node off the list, or make the row of others",
            BadCounts => "no split has these counts: let them sum to b, with records only in layers below s that have blocks",
            TooManySets => "too many sets of nodes to go through: the figure and the curve still hold",
            BadRounds => "the game is for 1 to 3 rounds (q), q+2 to 10 nodes, in kind 6 feeders, and at most 256 records",
            EarlierEvent(_) => "an event is earlier than the one before: put the log in order",
            BadEvent(_) => "an event names no node, or changes nothing: an event is missing, or the log is another site's",
            SharedFeeder(_) => "a row has two nodes on one feeder: make it of nodes on different feeders",
        }
    }
}

impl fmt::Display for Refusal {
    fn fmt(&self, f: &mut fmt::Formatter<'_>) -> fmt::Result {
        write!(f, "refused {} {}: {}", self.number(), self.place(), self.what_to_do())
    }
}

impl std::error::Error for Refusal {}
