//! A second opinion on the month of request L12, as a plain program upon the model of a book,
//! written from docs/MONTH.md and the papers and from nothing else.
//!
//! The input is taken apart whole before any day is judged. Idle minutes are added place by place,
//! and all sums have 64 bits.

use crate::model::Day;
use crate::Pair;
use std::fmt::{self, Display};

pub const MAX_DAYS: usize = 31;
/// The most words of a book and of a posting in the layout: one more than any that is accepted.
pub const MAX_BOOK: usize = 1_028;
pub const MAX_POSTING: usize = 257;
/// The opening minutes that every posting is judged with.
const OPENING: u32 = 0;

/// A day as it comes in: a book and the rows, counted from 1, in the order that was posted.
#[derive(Clone, Debug, PartialEq, Eq)]
pub struct PostedDay {
    pub book: Vec<u32>,
    pub posting: Vec<u32>,
}

// ---- The layout ----

impl PostedDay {
    /// The day in the layout: book and posting, each behind its length.
    pub fn words(&self) -> Vec<u32> {
        let length = |words: &[u32]| words.len() as u32;
        let (book, posting) = (&self.book[..], &self.posting[..]);
        [&[length(book)], book, &[length(posting)], posting].concat()
    }
}

/// The input that has these days one after another.
pub fn bytes(days: &[PostedDay]) -> Vec<u8> {
    let words = days.iter().flat_map(PostedDay::words);
    words.flat_map(u32::to_le_bytes).collect()
}

/// Takes a length of at most so many words, and the words, off the front of the rest.
fn part(rest: &mut &[u32], most: usize) -> Option<Vec<u32>> {
    let (&length, after) = rest.split_first()?;
    let length = length as usize;
    if length > most || length > after.len() {
        return None;
    }
    let (words, after) = after.split_at(length);
    *rest = after;
    Some(words.to_vec())
}

/// The days of an input; none if it is not 0 to 31 whole days in the layout.
pub fn days_in(input: &[u8]) -> Option<Vec<PostedDay>> {
    if !input.len().is_multiple_of(4) {
        return None;
    }
    let words = input.chunks_exact(4);
    let words: Vec<u32> = words
        .map(|bytes| u32::from_le_bytes(bytes.try_into().unwrap()))
        .collect();
    let (mut rest, mut days) = (&words[..], Vec::new());
    while !rest.is_empty() {
        if days.len() == MAX_DAYS {
            return None;
        }
        let book = part(&mut rest, MAX_BOOK)?;
        let posting = part(&mut rest, MAX_POSTING)?;
        days.push(PostedDay { book, posting });
    }
    Some(days)
}

// ---- A day ----

/// What an accepted day adds to the month.
#[derive(Clone, Copy, Debug, PartialEq, Eq)]
pub struct Judged {
    pub beaten: bool,
    pub idle: i64,
    pub late: i64,
}

/// The idle minutes of an order, place by place: release minus the desk's minute where that is
/// positive.
pub fn idle(day: &Day, order: &[u32]) -> i64 {
    let (mut minute, mut idle) = (day.free, 0);
    for &row in order {
        let row = &day.rows[row as usize - 1];
        if row.release > minute {
            idle += row.release - minute;
            minute = row.release;
        }
        minute += day.opening + row.length;
    }
    idle
}

impl PostedDay {
    /// What the day adds; none if it is refused, by its book or by its posting.
    pub fn judged(&self) -> Option<Judged> {
        let day = Day::read(OPENING, &self.book).ok()?;
        let (pair, beaten_by) = day.verdict(&self.posting).ok()?;
        Some(Judged {
            beaten: beaten_by.is_some(),
            idle: idle(&day, &self.posting),
            late: pair.late.into(),
        })
    }

    /// The same said once more: every row once is the rows sorted, idle minutes are those between
    /// free minute and end that no row takes, and beaten is beaten by any order, listed or not. For
    /// few rows.
    pub fn judged_by_every_order(&self) -> Option<Judged> {
        let day = Day::read(OPENING, &self.book).ok()?;
        let mut sorted = self.posting.clone();
        sorted.sort();
        if !sorted.into_iter().eq(1..=day.rows.len() as u32) {
            return None;
        }
        let pair @ Pair { end, late } = day.pair_of(&self.posting);
        let taken = day.rows.iter().map(|row| day.opening + row.length);
        Some(Judged {
            beaten: day.every_pair().iter().any(|other| other.beats(pair)),
            idle: i64::from(end) - day.free - taken.sum::<i64>(),
            late: late.into(),
        })
    }
}

// ---- The report ----

/// What is reported of a month.
#[derive(Clone, Copy, Debug, Default, PartialEq, Eq)]
pub struct Report {
    pub days: i64,
    pub accepted: i64,
    pub beaten: i64,
    pub idle: i64,
    pub late: i64,
}

impl Report {
    pub fn of(days: &[PostedDay]) -> Report {
        let mut report = Report::default();
        for day in days {
            report.days += 1;
            if let Some(Judged { beaten, idle, late }) = day.judged() {
                report.accepted += 1;
                report.beaten += i64::from(beaten);
                report.idle += idle;
                report.late += late;
            }
        }
        report
    }

    /// The mean of the worst latenesses rounded down, and the remainder; none if no day is
    /// accepted.
    pub fn mean(&self) -> Option<(i64, i64)> {
        let (late, accepted) = (self.late, self.accepted);
        // By a divisor above 0 this rounds down, also below 0.
        (accepted > 0).then(|| (late.div_euclid(accepted), late.rem_euclid(accepted)))
    }
}

/// All lines.
impl Display for Report {
    fn fmt(&self, f: &mut fmt::Formatter) -> fmt::Result {
        let Report {
            days,
            accepted,
            beaten,
            idle,
            late,
        } = self;
        let refused = days - accepted;
        writeln!(f, "days {days} accepted {accepted} refused {refused}")?;
        writeln!(f, "beaten {beaten}")?;
        writeln!(f, "idle {idle}")?;
        writeln!(f, "late {late}")?;
        match self.mean() {
            Some((mean, remainder)) => writeln!(f, "mean {mean} remainder {remainder}"),
            None => Ok(()),
        }
    }
}

/// All that `month` prints for this standard input.
pub fn month(input: &[u8]) -> String {
    match days_in(input) {
        Some(days) => Report::of(&days).to_string(),
        None => "refused\n".to_string(),
    }
}
