//! The archive against the model with every lent buffer between pages that cannot be touched.

mod common;

use common::{compare_fenced, each_call, fence::Fences, Case, Effort};
use jelvaksna::books::{self, Draft, Rng};
use jelvaksna::model::MAX_ROWS;
use jelvaksna::Profile;

fn fenced(
    profile: Profile,
    test: &'static str,
    count: u64,
    effort: Effort,
    make: impl Fn(&mut Rng, Case) -> Vec<u32>,
) {
    let mut fences = Fences::new();
    let compare =
        |case, book: &[u32], day: &_, call: &_| compare_fenced(case, book, day, call, &mut fences);
    each_call(profile, test, count, effort, make, compare);
}

/// Makes a day of so many rows, for so many opening minutes.
type Maker = fn(&mut Rng, u32, usize) -> Draft;

fn short(profile: Profile, test: &'static str, make: Maker) {
    let count = 600 * books::times();
    fenced(profile, test, count, Effort::All, |rng, case| {
        let rows = 1 + rng.below(10);
        let book = make(rng, case.accepted_opening(), rows).words();
        match case.case % 2 {
            0 => book,
            _ => books::damaged(rng, &book),
        }
    });
}

#[test]
fn short_books() {
    short(Profile::OrderingRule, "short books", books::accepted);
    short(Profile::FirstCome, "first come, short", |rng, _, rows| {
        books::first_come(rng, rows)
    });
}

fn long(profile: Profile, test: &'static str, make: Maker) {
    let count = 30 * books::times();
    fenced(profile, test, count, Effort::Few, |rng, case| {
        let rows = match case.case % 2 {
            0 => MAX_ROWS,
            _ => 100 + rng.below(157),
        };
        let book = make(rng, case.accepted_opening(), rows).words();
        match case.case % 3 {
            0 => books::damaged(rng, &book),
            _ => book,
        }
    });
}

#[test]
fn long_books() {
    long(Profile::OrderingRule, "long books", |rng, opening, rows| {
        books::typical_day(rng, opening, rows).varied(rng)
    });
    long(Profile::FirstCome, "first come, long", |rng, _, rows| {
        books::first_come(rng, rows)
    });
}

/// Every prefix of a book, as long as the buffer that holds it.
#[test]
fn every_cut() {
    let day = books::several_plans(&mut Rng::new(3), 0, 12);
    let come = books::steady_day(&mut Rng::new(3), 12);
    for (profile, test, day) in [
        (Profile::OrderingRule, "cuts", day.clone()),
        (Profile::OrderingRule, "cuts in a class", day.of_class(2)),
        (Profile::FirstCome, "first come, cuts", come),
    ] {
        let book = day.words();
        let count = book.len() as u64 + 1;
        fenced(profile, test, count, Effort::All, |_, case| {
            book[..case.case as usize].to_vec()
        });
    }
}
