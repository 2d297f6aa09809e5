//! What the tests of the latest free minute share: days of few rows, wanted numbers that tell, and days worked
//! through.
#![allow(dead_code)]

use jelvaksna::books::{self, Draft, Rng};
use jelvaksna::latest_model::{from_minute, Wanted};
use jelvaksna::model::Day;
use jelvaksna::refusal::UNREACHABLE;
use jelvaksna::{Latest, Pair, Refusal, MAX_FREE};
use std::collections::BTreeSet;

/// Numbers at both ends of 32 bits, and about 0.
pub const FAR: [i32; 7] = [i32::MIN, i32::MIN + 1, -1, 0, 1, i32::MAX - 1, i32::MAX];

/// A day of so few rows that every order can be tried, most often one with several plans or with gaps
/// between its releases.
pub fn few_rows(rng: &mut Rng, opening: u32, most: usize) -> Draft {
    let rows = 1 + rng.below(most);
    match rng.below(5) {
        0 => books::several_plans(rng, opening, rows).varied(rng),
        1 => books::contests(rng, opening, rows).varied(rng),
        2 if rows > 1 => books::many_plans(opening, rows).shuffled(rng),
        _ => books::accepted(rng, opening, rows),
    }
}

/// Free minutes that tell: both ends of their range, the day's own, minutes about a release, and about the
/// last start of a row that is to be done when it is due.
pub fn telling_minutes(rng: &mut Rng, day: &Day) -> BTreeSet<u32> {
    let last = i64::from(MAX_FREE);
    let mut minutes = vec![0, last, day.free];
    for _ in 0..3 {
        let row = day.rows[rng.below(day.rows.len())];
        minutes.push(row.release + rng.range(-2, 2));
        minutes.push(row.due - day.opening - row.length + rng.range(-2, 2));
    }
    let within = minutes.into_iter().map(|minute| minute.clamp(0, last));
    within.map(|minute| minute as u32).collect()
}

/// The pairs of some orders from free minutes that tell: the soonest that is as late as may be, and others
/// that are less late.
pub fn some_pairs(rng: &mut Rng, day: &Day) -> Vec<Pair> {
    let mut pairs = Vec::new();
    for minute in telling_minutes(rng, day) {
        let from = from_minute(day, minute);
        let mut bound = i32::MAX;
        for _ in 0..1 + rng.below(4) {
            let Some((pair, _)) = from.order_for_bound(bound) else {
                break;
            };
            pairs.push(pair);
            bound = pair.late - 1;
        }
    }
    pairs
}

/// Each of these pairs as wanted numbers, with those next to it, and with a number of it far away.
pub fn wanted_around(pairs: &[Pair]) -> BTreeSet<Wanted> {
    let mut wanted = BTreeSet::new();
    for &Pair { end, late } in pairs {
        let end = end as i32;
        for (more, later) in (-1..=1).flat_map(|more| (-1..=1).map(move |later| (more, later))) {
            wanted.insert(Wanted::new(end + more, late + later));
        }
        for far in FAR {
            wanted.insert(Wanted::new(end, far));
            wanted.insert(Wanted::new(far, late));
        }
    }
    for end in FAR {
        wanted.extend(FAR.map(|late| Wanted::new(end, late)));
    }
    wanted
}

/// So many of these by chance.
pub fn some_of<T>(rng: &mut Rng, all: impl IntoIterator<Item = T>, most: usize) -> Vec<T> {
    let mut some: Vec<T> = all.into_iter().collect();
    rng.shuffle(&mut some);
    some.truncate(most);
    some
}

// ---- Days worked through ----

/// What is answered, and the order.
type Told = (Result<Latest, Refusal>, Vec<u32>);

/// Opening minutes, the wanted end and the wanted lateness, and what is told.
type Worked = (u32, (i32, i32), Told);

fn found(minute: u32, end: u32, late: i32, order: &[u32]) -> Told {
    (Ok(Latest { minute, end, late }), order.to_vec())
}

fn unreachable() -> Told {
    let (number, place) = (UNREACHABLE, 0);
    (Err(Refusal { number, place }), Vec::new())
}

/// The worked days of two, three and four rows, free at 0, each with what is wanted of it.
pub fn worked_days() -> [(Draft, Vec<Worked>); 3] {
    let two = [(901, 1, 1, 5), (902, 0, 10, 12)];
    let three = [two[0], two[1], (903, 20, 5, 27)];
    let four = [two[0], two[1], (903, 101, 1, 104), (904, 100, 20, 122)];
    let most = i32::MAX;
    let at_the_latest = found(10_000_000, 10_000_011, 9_999_999, &[1, 2]);
    let of_two = vec![
        // Row 1 from 1 to 2, row 2 to 12, which is when it is due.
        (0, (12, 0), found(1, 12, 0, &[1, 2])),
        (0, (most, 0), found(1, 12, 0, &[1, 2])),
        (0, (12, most), found(1, 12, 0, &[1, 2])),
        (0, (12, -1), unreachable()),
        (0, (most, -1), unreachable()),
        // Row 2 first, so that no minute is idle.
        (0, (11, 6), found(0, 11, 6, &[2, 1])),
        (0, (11, most), found(0, 11, 6, &[2, 1])),
        (0, (11, 5), unreachable()),
        (0, (10, most), unreachable()),
        (0, (-1, most), unreachable()),
        (0, (i32::MIN, i32::MIN), unreachable()),
        // From minute 1 on no minute is idle in any case, and row 1 is due first.
        (0, (25, 3), found(4, 15, 3, &[1, 2])),
        (0, (25, 100), found(14, 25, 13, &[1, 2])),
        (0, (most, most), at_the_latest),
        // Each row takes minutes to open: from 1 to 5 to 18, or from 0 to 13 to 17.
        (3, (18, 6), found(1, 18, 6, &[1, 2])),
        (3, (17, 12), found(0, 17, 12, &[2, 1])),
        (3, (17, 11), unreachable()),
        (3, (most, 5), unreachable()),
        (30, (72, 60), found(1, 72, 60, &[1, 2])),
        (30, (71, 66), found(0, 71, 66, &[2, 1])),
        (30, (71, 65), unreachable()),
    ];
    let of_three = vec![
        // Row 3 is released at 20, and the desk idles before it: no order ends before 25.
        (0, (25, 0), found(1, 25, 0, &[1, 2, 3])),
        (0, (25, 3), found(4, 25, 3, &[1, 2, 3])),
        (0, (25, 6), found(7, 25, 6, &[1, 2, 3])),
        // From 9 rows 1 and 2 are done at 20, and from 10 at 21.
        (0, (25, 100), found(9, 25, 8, &[1, 2, 3])),
        (0, (26, 100), found(10, 26, 9, &[1, 2, 3])),
        (0, (24, most), unreachable()),
        (0, (25, -1), unreachable()),
        (3, (28, 6), found(1, 28, 6, &[1, 2, 3])),
    ];
    let of_four = vec![
        (0, (122, 0), found(1, 122, 0, &[1, 2, 3, 4])),
        (0, (122, 4), found(5, 122, 4, &[1, 2, 3, 4])),
        (0, (121, 17), found(18, 121, 17, &[1, 2, 4, 3])),
        (0, (121, 16), unreachable()),
        // Rows 1 and 2 may wait in the gap before 100, up to 89.
        (0, (121, 49), found(50, 121, 49, &[1, 2, 4, 3])),
        (0, (121, 100), found(89, 121, 88, &[1, 2, 4, 3])),
        (3, (128, 6), found(1, 128, 6, &[1, 2, 3, 4])),
    ];
    [
        (Draft::of(0, 60, &two), of_two),
        (Draft::of(0, 60, &three), of_three),
        (Draft::of(0, 60, &four), of_four),
    ]
}
