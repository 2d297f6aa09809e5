//! The planner's calls for Rust, and what they are tested with.
//!
//! - [`linked`]: the declarations of the archive and a safe wrapper over them (feature `archive`).
//! - [`model`]: a second implementation of document 01 with requests L1 to L3, L5 and L7, from these alone.
//! - [`desk_model`]: a second open desk of requests L6 and L8, upon that model.
//! - [`several_model`]: a second choice for several desks under one overtime limit, upon that model.
//! - [`latest_model`]: a second search for the latest free minute, upon that model.
//! - [`month_model`]: a second report of a month of days, upon that model.
//! - [`books`]: a seeded maker of books, sound and damaged.

pub mod books;
pub mod desk_model;
pub mod latest_model;
#[cfg(feature = "archive")]
pub mod linked;
pub mod model;
pub mod month_model;
pub mod several_model;

/// The version of the boundary, as in `include/jelvaksna.h`.
pub const VERSION: &str = "2.3";

/// The most opening minutes.
pub const MAX_OPENING: u32 = 30;

/// The latest free minute of a desk.
pub const MAX_FREE: u32 = 10_000_000;

/// The least and the most pages an hour.
pub const MIN_PACE: u32 = 4;
pub const MAX_PACE: u32 = 120;

/// The words of an open desk.
pub const DESK_WORDS: usize = 1_288;

/// The most desks of a bureau, its latest closing minute and its greatest overtime limit.
pub const MAX_DESKS: usize = 8;
pub const MAX_CLOSING: u32 = 20_000_000;
pub const MAX_LIMIT: u32 = 200_000_000;

/// The numbers of the refusals.
pub mod refusal {
    pub const CUT: u32 = 1;
    pub const KIND: u32 = 2;
    pub const RANGE: u32 = 3;
    pub const TWICE: u32 = 4;
    pub const FULL: u32 = 5;
    pub const COUNT: u32 = 6;
    pub const TAIL: u32 = 7;
    pub const DISORDER: u32 = 8;
    pub const NARROW: u32 = 9;
    pub const NOT_POSTING: u32 = 10;
    pub const UNLISTED: u32 = 11;
    pub const UNKEPT: u32 = 12;
    pub const CROSSED: u32 = 13;
    pub const DONE: u32 = 14;
    pub const EARLY: u32 = 15;
    pub const OVERTIME: u32 = 16;
    pub const UNREACHABLE: u32 = 17;
}

/// Which books are accepted, and which plans are listed of them.
#[derive(Clone, Copy, Debug, PartialEq, Eq)]
pub enum Profile {
    /// The ordering rule: no two rows disagree; every plan.
    OrderingRule,
    /// First come, first due: no two rows cross; one plan.
    FirstCome,
}

/// Why a call is turned down, and where.
#[derive(Clone, Copy, Debug, PartialEq, Eq)]
pub struct Refusal {
    pub number: u32,
    pub place: usize,
}

/// Why several desks are turned down, and the desk that it concerns, from 1; 0 where it concerns none.
#[derive(Clone, Copy, Debug, PartialEq, Eq)]
pub struct RefusalAtDesk {
    pub refusal: Refusal,
    pub desk: u32,
}

/// The end and the worst lateness of an order.
#[derive(Clone, Copy, Debug, PartialEq, Eq, PartialOrd, Ord)]
pub struct Pair {
    pub end: u32,
    pub late: i32,
}

impl Pair {
    /// Both numbers no greater than the other's, and one smaller.
    pub fn beats(self, other: Pair) -> bool {
        self.end <= other.end && self.late <= other.late && self != other
    }
}

/// What is answered where a desk is opened: its rows, and its minute.
#[derive(Clone, Copy, Debug, PartialEq, Eq)]
pub struct Opened {
    pub rows: usize,
    pub minute: u32,
}

/// What a start answers: the desk's new minute, and the worst lateness so far.
#[derive(Clone, Copy, Debug, PartialEq, Eq)]
pub struct Moved {
    pub minute: u32,
    pub worst: i32,
}

/// What is answered for several desks: the least lateness, and the sum of the overtimes.
#[derive(Clone, Copy, Debug, PartialEq, Eq)]
pub struct Chosen {
    pub late: i32,
    pub overtime: u32,
}

/// How late the desk can open: the latest free minute, and the end and the worst lateness of the order from
/// there.
#[derive(Clone, Copy, Debug, PartialEq, Eq)]
pub struct Latest {
    pub minute: u32,
    pub end: u32,
    pub late: i32,
}

/// The word of a kind with a value.
pub const fn word(kind: u32, value: u32) -> u32 {
    kind << 29 | value
}
