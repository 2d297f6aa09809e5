//! A second opinion on several desks under one overtime limit, as a plain program upon the model of a book.
//!
//! Every listed lateness of any desk is tried, the least first: the first one at which the plans that the
//! desks then take keep the limit is the answer.

use crate::model::Day;
use crate::refusal::{NARROW, OVERTIME, RANGE};
use crate::{Chosen, Pair, Refusal, RefusalAtDesk, MAX_CLOSING, MAX_DESKS, MAX_LIMIT, MAX_OPENING};
use std::collections::BTreeSet;

/// The desks of a bureau, their books accepted.
#[derive(Clone, Debug)]
pub struct Bureau {
    pub days: Vec<Day>,
    pub closings: Vec<u32>,
}

fn refuse<T>(number: u32) -> Result<T, RefusalAtDesk> {
    let refusal = Refusal { number, place: 0 };
    Err(RefusalAtDesk { refusal, desk: 0 })
}

/// How far an end passes closing, or 0.
pub fn overtime(closing: u32, end: u32) -> u64 {
    u64::from(end.saturating_sub(closing))
}

/// Whether something is lent amiss, before any book is looked at.
fn amiss(opening: u32, books: &[u32], lengths: &[u32], closings: &[u32], limit: u32) -> bool {
    let words: u64 = lengths.iter().map(|&length| u64::from(length)).sum();
    opening > MAX_OPENING
        || !(1..=MAX_DESKS).contains(&lengths.len())
        || closings.len() != lengths.len()
        || words != books.len() as u64
        || closings.iter().any(|&closing| closing > MAX_CLOSING)
        || limit > MAX_LIMIT
}

impl Bureau {
    /// Reads the books desk by desk; their lengths add up to the run.
    fn read(
        opening: u32,
        books: &[u32],
        lengths: &[u32],
        closings: &[u32],
    ) -> Result<Bureau, RefusalAtDesk> {
        let (mut days, mut rest) = (Vec::new(), books);
        for (desk, &length) in (1..).zip(lengths) {
            let (book, after) = rest.split_at(length as usize);
            let at_desk = |refusal| RefusalAtDesk { refusal, desk };
            days.push(Day::read(opening, book).map_err(at_desk)?);
            rest = after;
        }
        let closings = closings.to_vec();
        Ok(Bureau { days, closings })
    }

    /// The rows of all desks.
    pub fn rows(&self) -> usize {
        self.days.iter().map(|day| day.rows.len()).sum()
    }

    /// The worst latenesses of all listed plans of all desks, rising.
    pub fn latenesses(&self) -> BTreeSet<i32> {
        let plans = self.days.iter().flat_map(|day| day.list());
        plans.map(|plan| plan.late).collect()
    }

    /// Each desk's first plan that is no later at worst, counted from 1, and the sum of their overtimes;
    /// none where a desk has no such plan.
    pub fn within(&self, late: i32) -> Option<(Vec<usize>, u64)> {
        let (mut plans, mut sum) = (Vec::new(), 0);
        for (day, &closing) in self.days.iter().zip(&self.closings) {
            let first = day.list().iter().position(|plan| plan.late <= late)?;
            sum += overtime(closing, day.list()[first].end);
            plans.push(first + 1);
        }
        Some((plans, sum))
    }

    /// The sums of overtimes of the plans within each listed lateness that every desk can keep.
    pub fn sums(&self) -> BTreeSet<u64> {
        let latenesses = self.latenesses().into_iter();
        let within = latenesses.filter_map(|late| self.within(late));
        within.map(|(_, sum)| sum).collect()
    }

    /// The least lateness at which the limit is kept, and the plan that each desk then takes.
    pub fn choose(&self, limit: u32) -> Option<(Chosen, Vec<usize>)> {
        for late in self.latenesses() {
            if let Some((plans, sum)) = self.within(late) {
                if sum <= u64::from(limit) {
                    let overtime = sum as u32;
                    return Some((Chosen { late, overtime }, plans));
                }
            }
        }
        None
    }

    /// The choice into a result buffer: the orders of the plans, desk after desk.
    pub fn choose_into(&self, limit: u32, result: &mut [u32]) -> Result<Chosen, RefusalAtDesk> {
        if result.len() < self.rows() {
            return refuse(NARROW);
        }
        let Some((chosen, plans)) = self.choose(limit) else {
            return refuse(OVERTIME);
        };
        let orders = self.days.iter().zip(plans);
        let orders = orders.flat_map(|(day, plan)| day.order_of_plan(plan).1);
        for (word, row) in result.iter_mut().zip(orders) {
            *word = row;
        }
        Ok(chosen)
    }

    /// The sum of the overtimes and the greatest worst lateness of every choice of an order for each desk,
    /// listed or not, each such pair once, by trying every order of every desk. For few rows.
    pub fn every_choice(&self) -> BTreeSet<(u64, i32)> {
        let mut choices = BTreeSet::from([(0, i32::MIN)]);
        for (day, &closing) in self.days.iter().zip(&self.closings) {
            let of_desk = |Pair { end, late }| (overtime(closing, end), late);
            let orders: BTreeSet<_> = day.every_pair().into_iter().map(of_desk).collect();
            let mut more = BTreeSet::new();
            for &(sum, worst) in &choices {
                for &(over, late) in &orders {
                    more.insert((sum + over, worst.max(late)));
                }
            }
            choices = more;
        }
        choices
    }
}

/// The call on lent runs.
pub fn choose(
    opening: u32,
    books: &[u32],
    lengths: &[u32],
    closings: &[u32],
    limit: u32,
    result: &mut [u32],
) -> Result<Chosen, RefusalAtDesk> {
    if amiss(opening, books, lengths, closings, limit) {
        return refuse(RANGE);
    }
    Bureau::read(opening, books, lengths, closings)?.choose_into(limit, result)
}
