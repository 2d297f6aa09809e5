//! A second opinion on how late the desk can open, as a plain program upon the model of a book.
//!
//! No minute is tried for an order: it has a latest free minute of its own, which is found from its last row
//! to its first. Of few rows every order is gone through. Of many, an order that keeps what is wanted leads
//! to its own latest minute, and the minute after that to the next order, until there is none.

use crate::model::{refuse, Day, Row};
use crate::refusal::{NARROW, UNREACHABLE};
use crate::{Latest, Pair, Refusal, MAX_FREE};

/// A wanted end and a wanted worst lateness.
#[derive(Clone, Copy, Debug, PartialEq, Eq, PartialOrd, Ord)]
pub struct Wanted {
    pub end: i32,
    pub late: i32,
}

impl Wanted {
    pub const fn new(end: i32, late: i32) -> Self {
        Wanted { end, late }
    }

    /// Both numbers are at most the wanted ones.
    pub fn kept_by(self, pair: Pair) -> bool {
        i64::from(pair.end) <= i64::from(self.end) && pair.late <= self.late
    }
}

/// The same rows from another free minute.
pub fn from_minute(day: &Day, minute: u32) -> Day {
    Day::of_rows(day.opening, minute.into(), day.rows.clone())
}

/// The latest minute at which a row can start that has to be done by a minute and no later than is wanted;
/// none if it is released after that.
fn latest_start(day: &Day, row: &Row, by: i64, wanted: Wanted) -> Option<i64> {
    let done = by.min(row.due + i64::from(wanted.late));
    let start = done - day.opening - row.length;
    (start >= row.release).then_some(start)
}

/// A minute at which a row can start as a free minute.
fn free_minute(start: i64) -> u32 {
    start.min(MAX_FREE.into()) as u32
}

/// The latest free minute from which this order of the rows, counted from 1, keeps both.
pub fn latest_of_order(day: &Day, order: &[u32], wanted: Wanted) -> Option<u32> {
    let mut by = i64::from(wanted.end);
    for &row in order.iter().rev() {
        by = latest_start(day, &day.rows[row as usize - 1], by, wanted)?;
    }
    Some(free_minute(by))
}

/// The latest of all orders, by trying every order, each from its last row to its first. For few rows.
pub fn latest_of_every_order(day: &Day, wanted: Wanted) -> Option<u32> {
    fn go(day: &Day, left: u32, by: i64, wanted: Wanted) -> Option<i64> {
        if left == 0 {
            return Some(by);
        }
        let rows = day.rows.iter().enumerate();
        let rows = rows.filter(|(i, _)| left & 1 << i != 0);
        // The latest with this row last.
        let of_last = |(i, row): (usize, &Row)| {
            let start = latest_start(day, row, by, wanted)?;
            go(day, left & !(1 << i), start, wanted)
        };
        rows.filter_map(of_last).max()
    }
    let all = (1 << day.rows.len()) - 1;
    go(day, all, wanted.end.into(), wanted).map(free_minute)
}

/// The order for the wanted lateness from a free minute, if it keeps the wanted end as well. No order that
/// keeps that lateness ends sooner.
fn order_from(day: &Day, minute: u32, wanted: Wanted) -> Option<(Pair, Vec<u32>)> {
    let given = from_minute(day, minute).order_for_bound(wanted.late);
    given.filter(|(pair, _)| wanted.kept_by(*pair))
}

/// The latest free minute, by as many orders as lead to it from minute 0, each of them later than the one
/// before: a later free minute never helps.
pub fn latest_by_steps(day: &Day, wanted: Wanted) -> Option<u32> {
    let (mut latest, mut minute) = (None, 0);
    while let Some((_, order)) = order_from(day, minute, wanted) {
        latest = latest_of_order(day, &order, wanted);
        minute = latest.expect("it keeps both from a minute") + 1;
        if minute > MAX_FREE {
            break;
        }
    }
    latest
}

/// What is answered with this latest free minute, and the order.
pub fn answer_at(day: &Day, minute: u32, wanted: Wanted) -> (Latest, Vec<u32>) {
    let given = order_from(day, minute, wanted);
    let (Pair { end, late }, order) = given.expect("an order that keeps both");
    (Latest { minute, end, late }, order)
}

/// The call on an accepted book.
pub fn latest_free_into(day: &Day, wanted: Wanted, result: &mut [u32]) -> Result<Latest, Refusal> {
    if result.len() < day.rows.len() {
        return refuse(NARROW, 0);
    }
    let Some(minute) = latest_by_steps(day, wanted) else {
        return refuse(UNREACHABLE, 0);
    };
    let (latest, order) = answer_at(day, minute, wanted);
    result[..order.len()].copy_from_slice(&order);
    Ok(latest)
}

/// The call on a lent book.
pub fn latest_free(
    opening: u32,
    book: &[u32],
    wanted: Wanted,
    result: &mut [u32],
) -> Result<Latest, Refusal> {
    latest_free_into(&Day::read(opening, book)?, wanted, result)
}
