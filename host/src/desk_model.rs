//! A second opinion on the open desk: request L6, with the opening minutes of request L7 and the changes
//! of pace of request L8, as a plain program upon the model of a book.
//!
//! It knows nothing of the words that hold a desk. What is planned on a desk is planned as a day of
//! the rows left alone that begins at the desk's minute.

use crate::model::{length, place_of_row, refuse, Day, Row};
use crate::refusal::*;
use crate::{Moved, Opened, Pair, Refusal, MAX_PACE, MIN_PACE};
use std::cell::OnceCell;

/// No row is started later.
pub const LATEST_START: i64 = 20_000_000;

/// A desk that was opened with a book, after some starts and changes of pace.
#[derive(Clone, Debug)]
pub struct Desk {
    /// The opening minutes that it was opened with.
    pub opening: i64,
    /// All rows that it was opened with: those done with the lengths that they had then, those left
    /// with their lengths by the reader who sits there now.
    pub rows: Vec<Row>,
    /// The numbers of the rows left, from 1, rising.
    pub left: Vec<u32>,
    pub minute: i64,
    /// None until a row is done.
    pub worst: Option<i64>,
    rest: OnceCell<Day>,
}

impl Desk {
    /// Opens a desk with a book, or says which of the conditions 1 to 8 turns that down.
    pub fn open(opening: u32, book: &[u32]) -> Result<Desk, Refusal> {
        let day = Day::read(opening, book)?;
        Ok(Desk {
            opening: day.opening,
            left: (1..=day.rows.len() as u32).collect(),
            minute: day.free,
            rows: day.rows,
            worst: None,
            rest: OnceCell::new(),
        })
    }

    /// What is answered where it is opened.
    pub fn opened(&self) -> Opened {
        Opened {
            rows: self.rows.len(),
            minute: self.minute as u32,
        }
    }

    /// The row of a number from 1 on.
    pub fn row(&self, number: u32) -> &Row {
        &self.rows[number as usize - 1]
    }

    /// Starts a row at a minute: 11 if there is no such row, 14 if it was started before, 15 if the
    /// minute is before the desk's or the release, or past the latest.
    pub fn start(&mut self, number: u32, minute: u32) -> Result<Moved, Refusal> {
        if number == 0 || number as usize > self.rows.len() {
            return refuse(UNLISTED, self.rows.len());
        }
        if !self.left.contains(&number) {
            return refuse(DONE, number as usize);
        }
        let (row, minute) = (*self.row(number), i64::from(minute));
        if minute < self.minute || minute < row.release || minute > LATEST_START {
            return refuse(EARLY, 0);
        }
        let end = minute + self.opening + row.length;
        let late = end - row.due;
        let worst = self.worst.map_or(late, |worst| worst.max(late));
        self.left.retain(|&left| left != number);
        self.minute = end;
        self.worst = Some(worst);
        self.rest = OnceCell::new();
        Ok(Moved {
            minute: end as u32,
            worst: worst as i32,
        })
    }

    /// Another reader sits down: the rows left are read at another pace from here on, and everything
    /// else stays, all dues too. 3 if there is no such pace; 8 if a row left then disagrees with one
    /// above it that is left, at the number word that the earliest such row has in the book.
    pub fn pace(&mut self, pace: u32) -> Result<(), Refusal> {
        if !(MIN_PACE..=MAX_PACE).contains(&pace) {
            return refuse(RANGE, 0);
        }
        let mut rows = self.rows.clone();
        for &number in &self.left {
            let row = &mut rows[number as usize - 1];
            row.length = length(row.pages, pace.into());
        }
        let row = |number: u32| &rows[number as usize - 1];
        for (i, &number) in self.left.iter().enumerate() {
            for &above in &self.left[..i] {
                if row(number).disagrees(row(above)) {
                    return refuse(DISORDER, place_of_row(number as usize));
                }
            }
        }
        self.rows = rows;
        self.rest = OnceCell::new();
        Ok(())
    }

    /// The rows left as a day of their own.
    pub fn rest(&self) -> &Day {
        self.rest.get_or_init(|| {
            let rows = self.left.iter().map(|&number| *self.row(number));
            Day::of_rows(self.opening, self.minute, rows.collect())
        })
    }

    /// The listed plans of the rows left; with none left, none.
    pub fn list(&self) -> &[Pair] {
        match self.left.len() {
            0 => &[],
            _ => self.rest().list(),
        }
    }

    /// The list by its definition: the pairs of orders of the rows left that no order beats, by rising
    /// end. For few rows.
    pub fn list_by_definition(&self) -> Vec<Pair> {
        match self.left.len() {
            0 => Vec::new(),
            _ => self.rest().list_by_definition(),
        }
    }

    /// The list into a result buffer; how many plans.
    pub fn list_into(&self, result: &mut [u32]) -> Result<usize, Refusal> {
        if result.len() < 2 * self.left.len() {
            return refuse(NARROW, 0);
        }
        for (words, pair) in result.chunks_exact_mut(2).zip(self.list()) {
            words.copy_from_slice(&[pair.end, pair.late as u32]);
        }
        Ok(self.list().len())
    }

    /// The order of a listed plan into a result buffer, in the numbers that the rows have.
    pub fn order_of_plan_into(&self, plan: u32, result: &mut [u32]) -> Result<Pair, Refusal> {
        let plans = self.list().len();
        if plan == 0 || plan as usize > plans {
            return refuse(UNLISTED, plans);
        }
        if result.len() < self.left.len() {
            return refuse(NARROW, 0);
        }
        let (pair, order) = self.rest().order_of_plan(plan as usize);
        for (word, place) in result.iter_mut().zip(order) {
            *word = self.left[place as usize - 1];
        }
        Ok(pair)
    }

    /// The pair of an order of all rows left.
    pub fn pair_of(&self, order: &[u32]) -> Pair {
        let (mut minute, mut worst) = (self.minute, i64::MIN);
        for &number in order {
            let row = self.row(number);
            minute = minute.max(row.release) + self.opening + row.length;
            worst = worst.max(minute - row.due);
        }
        Pair {
            end: minute as u32,
            late: worst as i32,
        }
    }
}
