//! What the tests of several desks share: bureaus by chance, limits that tell choices apart, and a bureau
//! worked through.
#![allow(dead_code)]

use jelvaksna::books::{self, Draft, Rng};
use jelvaksna::model::Day;
use jelvaksna::refusal::OVERTIME;
use jelvaksna::several_model::Bureau;
use jelvaksna::{Chosen, Refusal, RefusalAtDesk, MAX_DESKS, MAX_LIMIT};
use std::collections::BTreeSet;
use std::ops::RangeInclusive;

/// The books of the desks, and the bureau that they make with closing minutes by chance.
pub fn of_days(rng: &mut Rng, opening: u32, days: &[Draft]) -> (Vec<Vec<u32>>, Bureau) {
    let books: Vec<Vec<u32>> = days.iter().map(Draft::words).collect();
    let read = |book: &Vec<u32>| Day::read(opening, book).expect("accepted");
    let days: Vec<Day> = books.iter().map(read).collect();
    let closing = |day: &Day| books::closing(rng, day.list());
    let closings = days.iter().map(closing).collect();
    (books, Bureau { days, closings })
}

/// A bureau of desks with so many rows.
pub fn some_bureau(rng: &mut Rng, opening: u32, rows: &[usize]) -> (Vec<Vec<u32>>, Bureau) {
    let days = books::bureau(rng, opening, rows);
    of_days(rng, opening, &days)
}

/// Numbers of rows for one desk to the most.
pub fn some_desks(rng: &mut Rng, mut rows: impl FnMut(&mut Rng) -> usize) -> Vec<usize> {
    (0..1 + rng.below(MAX_DESKS)).map(|_| rows(rng)).collect()
}

/// Numbers of rows so few that every choice of orders can be tried.
pub fn few_rows(rng: &mut Rng) -> Vec<usize> {
    let desks = 1 + rng.below(4);
    let most = [6, 5, 5, 4][desks - 1];
    (0..desks).map(|_| 1 + rng.below(most)).collect()
}

/// Each of these sums as a limit, with the limits next to it; the least limit and the greatest.
pub fn limits_around(sums: impl IntoIterator<Item = u64>) -> BTreeSet<u32> {
    let around = |sum: u64| [sum.saturating_sub(1), sum, sum + 1];
    let limits = sums.into_iter().flat_map(around);
    let limits = limits.map(|limit| limit.min(MAX_LIMIT.into()) as u32);
    limits.chain([0, MAX_LIMIT]).collect()
}

/// The least lateness of all choices that keep a limit.
pub fn least_kept(choices: &BTreeSet<(u64, i32)>, limit: u32) -> Option<i32> {
    let kept = choices.iter().take_while(|choice| choice.0 <= limit.into());
    kept.map(|choice| choice.1).min()
}

pub fn refused_at<T>(desk: u32, number: u32, place: usize) -> Result<T, RefusalAtDesk> {
    let refusal = Refusal { number, place };
    Err(RefusalAtDesk { refusal, desk })
}

/// Three desks: plans (491, 6) and (492, 0); (503, 15), (504, 14), (506, 13) and (509, 5); (500, -47) and
/// (503, -53).
pub fn three_desks() -> [Vec<u32>; 3] {
    let first = [(901, 481, 1, 485), (902, 480, 10, 492)];
    let second = [
        (903, 481, 1, 486),
        (904, 484, 1, 489),
        (905, 488, 1, 493),
        (906, 480, 20, 504),
    ];
    let third = [(907, 483, 2, 0), (908, 480, 8, 0)];
    [
        Draft::of(480, 60, &first).words(),
        Draft::of(480, 60, &second).words(),
        Draft::of(480, 30, &third).of_class(0).words(),
    ]
}

/// The lengths of their books, and closing minutes that they all pass.
pub const THREE_LENGTHS: [u32; 3] = [11, 19, 11];
pub const THREE_CLOSINGS: [u32; 3] = [490, 500, 501];

/// What is chosen for them under every limit up to 200, and the orders; a result that holds 77 is left so
/// where the limit cannot be kept.
type Worked = (RangeInclusive<u32>, Result<Chosen, RefusalAtDesk>, [u32; 8]);

pub fn three_desks_worked() -> [Worked; 6] {
    let chosen = |late, overtime| Ok(Chosen { late, overtime });
    [
        (0..=3, refused_at(0, OVERTIME, 0), [77; 8]),
        (4..=4, chosen(15, 4), [2, 1, 4, 1, 2, 3, 2, 1]),
        (5..=6, chosen(14, 5), [2, 1, 1, 4, 2, 3, 2, 1]),
        (7..=9, chosen(13, 7), [2, 1, 1, 2, 4, 3, 2, 1]),
        (10..=10, chosen(6, 10), [2, 1, 1, 2, 3, 4, 2, 1]),
        (11..=200, chosen(5, 11), [1, 2, 1, 2, 3, 4, 2, 1]),
    ]
}
