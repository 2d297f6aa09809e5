//! Changes of pace on an open desk of the archive, against the model and against a reckoning on the words
//! themselves. Series lend every run between pages that cannot be touched.
//!
//! `JELVAKSNA_SEED` sets the seed, `JELVAKSNA_TIMES` multiplies the number of cases.

mod common;
#[path = "common/desks.rs"]
mod desks;
#[path = "common/kit.rs"]
mod kit;

use common::fence::{Fences, Side};
use common::layout::{COUNT, DUES, MARKS, MINUTE, OPENING, PAGES, RELEASES, TIMES, WORST};
use common::{refused, Case};
use desks::{
    calls_by_chance, covers_the_rest, good_start, list, order_of_plan, row_left, series, some_desk,
    some_pace, some_run, start_of, stays_within, with_its_pace, Call, Manner, Series,
};
use jelvaksna::books::{self, Draft, Rng, PACES, REFUSED_PACES};
use jelvaksna::desk_model::LATEST_START;
use jelvaksna::linked::{desk, Answer};
use jelvaksna::model::{Day, MAX_ROWS};
use jelvaksna::refusal::{DISORDER, EARLY, RANGE};
use jelvaksna::{Moved, Pair, Refusal, DESK_WORDS, MAX_OPENING, MAX_PACE, MIN_PACE};
use kit::Counts;
use std::ops::RangeInclusive;

const EVERY_PACE: RangeInclusive<u32> = MIN_PACE..=MAX_PACE;

// ---- A change of pace, reckoned on the words ----

/// The rows left, counted from 1, of words that hold a desk.
fn left_in(words: &[u32]) -> Vec<usize> {
    let rows = 1..=words[COUNT] as usize;
    rows.filter(|row| words[MARKS + row] == 0).collect()
}

/// The reading time to the nearest minute, an exact half going up. (No other quotient is so near to a half
/// that a double could not tell.)
fn nearest_minute(pages: u32, pace: u32) -> u32 {
    (60.0 * f64::from(pages) / f64::from(pace)).round() as u32
}

/// The pairs of rows left that disagree at a pace, the upper one first; by the lower one, then the upper.
fn at_odds(words: &[u32], pace: u32) -> Vec<(usize, usize)> {
    let left = left_in(words);
    let due = |row: usize| i64::from(words[DUES + row]);
    let reach = |row: usize| {
        i64::from(words[RELEASES + row]) + i64::from(nearest_minute(words[PAGES + row], pace))
    };
    let mut pairs = Vec::new();
    for (i, &row) in left.iter().enumerate() {
        for &above in &left[..i] {
            let dues = due(row) - due(above);
            let spares = dues - (reach(row) - reach(above));
            if dues.signum() * spares.signum() == 1 {
                pairs.push((above, row));
            }
        }
    }
    pairs
}

/// Whether words are a desk in the eyes of a change of pace: it looks at the pages too.
fn is_desk(words: &[u32]) -> bool {
    if words.len() < DESK_WORDS {
        return false;
    }
    let worst = i64::from(words[WORST]) - (1 << 31);
    let head = (1..=256).contains(&words[COUNT])
        && words[MINUTE] <= 20_030_030
        && words[OPENING] <= 30
        && (words[WORST] == 0 || (-19_999_999..=20_030_030).contains(&worst));
    head && (1..=words[COUNT] as usize).all(|row| {
        let length = i64::from(words[TIMES + row]) - i64::from(words[OPENING]);
        words[RELEASES + row] <= 10_000_000
            && (1..=30_000).contains(&length)
            && words[DUES + row] <= 20_000_000
            && words[MARKS + row] <= 1
            && (1..=2_000).contains(&words[PAGES + row])
    })
}

/// The answer to a change of pace on any words, and the words after it.
fn paced(words: &[u32], pace: u32) -> (Answer, Vec<u32>) {
    let refuse = |number, place| (refused(Refusal { number, place }), words.to_vec());
    if !is_desk(words) || !EVERY_PACE.contains(&pace) {
        return refuse(RANGE, 0);
    }
    if let Some((_, row)) = at_odds(words, pace).first() {
        return refuse(DISORDER, 2 + 4 * (row - 1));
    }
    let mut after = words.to_vec();
    for row in left_in(words) {
        after[TIMES + row] = words[OPENING] + nearest_minute(words[PAGES + row], pace);
    }
    (Answer::default(), after)
}

impl Series<'_> {
    /// A change of pace, held to what is reckoned on the words besides.
    fn pace(&mut self, pace: u32) -> Answer {
        let (want, words) = paced(&self.words, pace);
        let answer = self.call(Call::Pace { pace });
        let same = answer == want && self.words == words;
        self.hold(same, || format!("on the words: {want:?}"));
        answer
    }

    /// Starts a row at the earliest minute.
    fn start(&mut self, row: u32) {
        let start = start_of(&self.model, row);
        assert_eq!(self.call(start).refusal, 0);
    }
}

fn refusal<T>(number: u32, place: usize) -> Result<T, Refusal> {
    Err(Refusal { number, place })
}

// ---- Days ----

/// A day whose rows are all of one class, in any sequence.
fn of_one_class(rng: &mut Rng, opening: u32, rows: usize) -> Draft {
    let day = match rng.below(4) {
        0 => books::several_plans(rng, opening, rows),
        1 => books::contests(rng, opening, rows),
        2 => books::ties(rng, rows),
        _ => books::typical_day(rng, opening, rows),
    };
    day.of_class(rng.below(8) as u32).shuffled(rng)
}

/// A day, and paces for it: one that outlasts changes to these; one of a class, where most changes set rows
/// at odds; or any.
fn some_day(rng: &mut Rng, opening: u32, rows: usize, i: u64) -> (Draft, Vec<u32>) {
    match i % 4 {
        0 | 1 => {
            let (day, paces) = books::lasting(rng, opening, rows);
            let own = day.pace as u32;
            (day, [&paces[..], &[own]].concat())
        }
        2 => with_its_pace(of_one_class(rng, opening, rows)),
        _ => with_its_pace(books::accepted(rng, opening, rows)),
    }
}

// ---- Histories ----

/// Any calls, changes of pace among them, each against the model with every word.
fn any_calls(test: &'static str, number: u64, rows: RangeInclusive<i64>) -> Counts {
    let make = |rng: &mut Rng, opening, i| {
        let rows = rng.range(*rows.start(), *rows.end()) as usize;
        some_day(rng, opening, rows, i)
    };
    series(test, number * books::times(), make, |rows| 6 + 3 * rows)
}

#[test]
fn short_desks() {
    let counts = any_calls("changes on short desks", 4_000, 1..=14);
    for number in [0, RANGE, DISORDER] {
        counts.at_least(1_500, format!("pace {number}"));
    }
    counts.at_least(8_000, "start after a change");
    counts.at_least(500, "list of several plans after a change");
    counts.at_least(1_000, "pace of no row");
    counts.at_least(100, "pace past the latest start");
}

#[test]
fn middling_desks() {
    let counts = any_calls("changes on middling desks", 300, 15..=60);
    for number in [0, RANGE, DISORDER] {
        counts.at_least(300, format!("pace {number}"));
    }
    counts.at_least(3_000, "start after a change");
    counts.at_least(200, "list of several plans after a change");
}

#[test]
fn long_desks() {
    let counts = any_calls("changes on long desks", 16, 100..=256);
    for number in [0, RANGE, DISORDER] {
        counts.at_least(50, format!("pace {number}"));
    }
    counts.at_least(500, "start after a change");
    counts.at_least(20, "list of several plans after a change");
}

/// Every row is started, up to 256, with changes of pace in between, also such as are refused. With no row
/// left every pace is accepted and changes no word.
#[test]
fn to_the_last_row() {
    let (mut fences, mut counts) = (Fences::new(), Counts::default());
    let lengths = (1..=12).chain([30, 80, 200, 255, 256]);
    let desks = 136 * books::times() as usize;
    for (i, rows) in lengths.cycle().take(desks).enumerate() {
        let case = Case::new("changes to the last row", i as u64).accepted();
        let mut rng = case.rng();
        let (day, paces) = some_day(&mut rng, case.opening, rows, i as u64 / 17);
        let mut series = Series::open(case, &mut fences, day.words(), i % 3);
        let manner = rng.pick(&[Manner::Any, Manner::Steady]);
        while !series.model.left.is_empty() {
            if rng.one_in(2) {
                let before = series.words.clone();
                let pace = some_pace(&mut rng, &paces);
                let number = series.pace(pace).refusal;
                counts.add(format!("change {number}"));
                counts.add_if(series.words != before, "change of a length");
            }
            let call = match rng.below(2) {
                0 => list(&mut rng, &series.model),
                _ => order_of_plan(&mut rng, &series.model),
            };
            series.call(call);
            let row = row_left(&mut rng, &series.model, manner);
            series.start(row);
            counts.add_if(series.repaced, "start after a change");
        }
        let before = series.words.clone();
        for pace in EVERY_PACE {
            assert_eq!(series.pace(pace), Answer::default());
            assert_eq!(series.words, before);
        }
        for pace in REFUSED_PACES {
            assert_eq!(series.pace(pace).refusal, RANGE);
        }
        series.settle();
    }
    println!("changes to the last row: {desks} desks, {:?}", counts.0);
    counts.at_least(1_000, "change 0");
    counts.at_least(300, "change 8");
    counts.at_least(200, "change 3");
    counts.at_least(600, "change of a length");
    counts.at_least(3_000, "start after a change");
}

/// After every change and every start of small desks: the list covers each order of the rest, and the plans
/// are the pairs that no order beats.
#[test]
fn every_order_of_the_rest() {
    let (mut fences, mut counts) = (Fences::new(), Counts::default());
    for i in 0..700 * books::times() {
        let case = Case::new("every order after a change", i).accepted();
        let mut rng = case.rng();
        let rows = 2 + rng.below(5);
        let (day, paces) = some_day(&mut rng, case.opening, rows, i);
        let mut series = Series::open(case, &mut fences, day.words(), 0);
        while !series.model.left.is_empty() && series.model.minute <= LATEST_START {
            let plans = series.model.list().len();
            let pace = some_pace(&mut rng, &paces);
            let number = series.pace(pace).refusal;
            counts.add(format!("change {number}"));
            covers_the_rest(&mut series);
            if series.repaced {
                counts.add("desk after a change");
                let now = series.model.list().len();
                counts.add_if(now > 1, "desk of several plans after a change");
                counts.add_if(now != plans, "change of the count of plans");
            }
            let manner = rng.pick(&[Manner::Any, Manner::Steady]);
            let start = good_start(&mut rng, &series.model, manner);
            assert_eq!(series.call(start).refusal, 0);
        }
        series.settle();
    }
    println!("every order after a change: {:?}", counts.0);
    counts.at_least(500, "change 0");
    counts.at_least(200, "change 8");
    counts.at_least(500, "desk after a change");
    counts.at_least(100, "desk of several plans after a change");
    counts.at_least(40, "change of the count of plans");
}

// ---- The same pace ----

/// The book's own pace changes no word, whatever rows are done. A pace that was accepted changes no word
/// when it comes again, and the book's pace after it gives back every word.
#[test]
fn the_pace_that_the_desk_has() {
    let (mut fences, mut counts) = (Fences::new(), Counts::default());
    for i in 0..1_200 * books::times() {
        let case = Case::new("the pace that the desk has", i).accepted();
        let mut rng = case.rng();
        let rows = books::some_rows(&mut rng, MAX_ROWS);
        let (day, paces) = some_day(&mut rng, case.opening, rows, i);
        let own = day.pace as u32;
        let mut series = Series::open(case, &mut fences, day.words(), 0);
        for _ in 0..3 {
            let before = series.words.clone();
            assert_eq!(series.pace(own), Answer::default());
            assert_eq!(series.words, before, "{case:?}: the book's own pace");
            counts.add("the book's own pace");
            let pace = rng.pick(&paces);
            if series.pace(pace).refusal == 0 {
                let after = series.words.clone();
                assert_eq!(series.pace(pace), Answer::default());
                assert_eq!(series.words, after, "{case:?}: the same pace again");
                counts.add_if(after != before, "the same pace again");
                assert_eq!(series.pace(own), Answer::default());
                assert_eq!(series.words, before, "{case:?}: the book's pace again");
                counts.add_if(after != before, "the book's pace again");
            }
            if series.model.left.is_empty() || series.model.minute > LATEST_START {
                break;
            }
            let row = rng.pick(&series.model.left);
            series.start(row);
        }
    }
    println!("the pace that the desk has: {:?}", counts.0);
    counts.at_least(2_000, "the book's own pace");
    counts.at_least(500, "the same pace again");
    counts.at_least(500, "the book's pace again");
}

/// Every count of pages at every pace: the nearest minute, an exact half going up. All rows are due at the
/// same minute, so no two ever disagree.
#[test]
fn every_length() {
    let mut fences = Fences::new();
    let (mut lengths, mut halves) = (0, 0);
    for (i, first) in (1..=2_000).step_by(MAX_ROWS).enumerate() {
        let pages: Vec<i64> = (first..=2_000).take(MAX_ROWS).collect();
        let rows: Vec<_> = (1..)
            .zip(&pages)
            .map(|(row, &pages)| (row, 7, pages, 900))
            .collect();
        let case = Case::new("every length", i as u64).accepted();
        let mut series = Series::open(case, &mut fences, Draft::of(0, 60, &rows).words(), 0);
        // One row in three is done, and keeps its length.
        let done = |row: usize| row.is_multiple_of(3);
        for row in (1..=rows.len()).filter(|&row| done(row)) {
            series.start(row as u32);
        }
        for pace in EVERY_PACE {
            assert_eq!(series.pace(pace), Answer::default());
            for (row, &pages) in (1..).zip(&pages) {
                let length = i64::from(series.words[TIMES + row]) - i64::from(case.opening);
                if done(row) {
                    assert_eq!(length, pages, "at 60 pages an hour");
                    continue;
                }
                let (pace, twice) = (i64::from(pace), 2 * 60 * pages);
                assert!(pace * (2 * length - 1) <= twice && twice < pace * (2 * length + 1));
                lengths += 1;
                halves += u64::from(twice == pace * (2 * length - 1));
            }
        }
        for pace in (0..MIN_PACE)
            .chain(MAX_PACE + 1..300)
            .chain((9..32).map(|bit| 1 << bit))
        {
            let answer = series.pace(pace);
            assert_eq!((answer.refusal, answer.place), (RANGE, 0), "{pace}");
        }
    }
    println!("every length: {lengths} lengths, {halves} of exact halves");
    assert!(lengths > 150_000 && halves > 2_000);
}

// ---- Rows that disagree ----

/// With one row left, or none, no change is refused for disorder, where it was with more.
#[test]
fn one_row_left_or_none() {
    let (mut fences, mut counts) = (Fences::new(), Counts::default());
    for i in 0..150 * books::times() {
        let case = Case::new("one row left or none", i).accepted();
        let mut rng = case.rng();
        let rows = 2 + rng.below(7);
        let day = match i % 3 {
            0 => books::accepted(&mut rng, case.opening, rows),
            _ => of_one_class(&mut rng, case.opening, rows),
        };
        let mut series = Series::open(case, &mut fences, day.words(), 0);
        let at_odds = EVERY_PACE.filter(|&pace| series.pace(pace).refusal == DISORDER);
        let at_odds: Vec<u32> = at_odds.collect();
        while series.model.left.len() > 1 {
            let row = rng.pick(&series.model.left);
            series.start(row);
        }
        for left in [1, 0] {
            assert_eq!(series.model.left.len(), left);
            for pace in EVERY_PACE {
                assert_eq!(series.pace(pace), Answer::default());
                counts.add_if(at_odds.contains(&pace), "accepted after all");
            }
            if left == 1 && series.model.minute <= LATEST_START {
                let row = series.model.left[0];
                series.start(row);
            } else {
                break;
            }
        }
        counts.add_if(series.model.left.is_empty(), "desk with no row left");
        series.settle();
    }
    println!("one row left or none: {:?}", counts.0);
    counts.at_least(5_000, "accepted after all");
    counts.at_least(100, "desk with no row left");
}

/// The place of a refusal is that of the row in the book, whatever rows above it are done: it is not where
/// the row would stand in a book of the rows left.
#[test]
fn the_place_counts_all_rows() {
    let (mut fences, mut counts) = (Fences::new(), Counts::default());
    for i in 0..1_500 * books::times() {
        let case = Case::new("the place counts all rows", i).accepted();
        let mut rng = case.rng();
        let rows = 3 + rng.below(14);
        let day = match i % 3 {
            0 => books::accepted(&mut rng, case.opening, rows),
            _ => of_one_class(&mut rng, case.opening, rows),
        };
        let mut series = Series::open(case, &mut fences, day.words(), 0);
        for _ in 0..1 + rng.below(rows - 2) {
            let row = rng.pick(&series.model.left);
            series.start(row);
        }
        for pace in PACES {
            let before = series.words.clone();
            let answer = series.pace(pace);
            if answer.refusal != DISORDER {
                assert_eq!(answer, Answer::default());
                continue;
            }
            assert_eq!(series.words, before);
            let (above, row) = at_odds(&before, pace)[0];
            let left = left_in(&before);
            let among = |row| 1 + left.iter().position(|&other| other == row).unwrap();
            counts.add("refused 8");
            counts.add_if(among(row) != row, "with a done row above");
            let between = row - above > among(row) - among(above);
            counts.add_if(between, "with a done row between the two");
            // With all rows left, an earlier row would be at odds with one above it.
            let mut all = before.clone();
            all[MARKS + 1..=MARKS + rows].fill(0);
            let earlier = at_odds(&all, pace)[0].1 < row;
            counts.add_if(earlier, "later than with all rows left");
            assert_eq!(answer.place, 2 + 4 * (row - 1));
        }
        series.settle();
    }
    println!("the place counts all rows: {:?}", counts.0);
    counts.at_least(2_000, "refused 8");
    counts.at_least(1_500, "with a done row above");
    counts.at_least(500, "with a done row between the two");
    counts.at_least(500, "later than with all rows left");
}

/// Rows done are not looked at: a change that is refused is accepted once a row of every pair that disagrees
/// is done, and no sooner.
#[test]
fn accepted_once_a_row_is_done() {
    let (mut fences, mut counts) = (Fences::new(), Counts::default());
    for i in 0..600 * books::times() {
        let case = Case::new("accepted once a row is done", i).accepted();
        let mut rng = case.rng();
        let rows = 3 + rng.below(8);
        let day = of_one_class(&mut rng, case.opening, rows);
        let mut series = Series::open(case, &mut fences, day.words(), 0);
        let pace = rng.pick(&PACES);
        loop {
            let pairs = at_odds(&series.words, pace);
            let answer = series.pace(pace);
            let Some(&(above, below)) = pairs.first() else {
                assert_eq!(answer, Answer::default());
                let left = series.model.left.len();
                counts.add_if(left > 1 && left < rows, "accepted with rows left");
                break;
            };
            assert_eq!(answer.refusal, DISORDER);
            counts.add("refused 8");
            series.start(rng.pick(&[above, below]) as u32);
        }
        series.settle();
    }
    println!("accepted once a row is done: {:?}", counts.0);
    counts.at_least(500, "refused 8");
    counts.at_least(200, "accepted with rows left");
}

/// A class gives a due when the desk is opened, and no change works it out again. So rows of classes come to
/// disagree where, in a book of the new pace, they would not.
#[test]
fn dues_of_a_class_stay() {
    let (mut fences, mut counts) = (Fences::new(), Counts::default());
    for i in 0..1_500 * books::times() {
        let case = Case::new("dues of a class stay", i).accepted();
        let mut rng = case.rng();
        let rows = 2 + rng.below(12);
        let day = match i % 3 {
            0 => books::accepted(&mut rng, case.opening, rows),
            _ => of_one_class(&mut rng, case.opening, rows),
        };
        if day.rows.iter().all(|row| row.class.is_none()) {
            continue;
        }
        let mut series = Series::open(case, &mut fences, day.words(), 0);
        let dues = |words: &[u32]| words[DUES + 1..=DUES + rows].to_vec();
        let opened = dues(&series.words);
        for _ in 0..4 {
            let pace = rng.pick(&PACES);
            let before = series.words.clone();
            let answer = series.pace(pace);
            assert_eq!(dues(&series.words), opened, "{case:?}");
            let mut other = day.clone();
            other.pace = pace.into();
            let at_new_pace = Day::read(case.opening, &other.words());
            if answer.refusal == DISORDER {
                let agrees = at_new_pace.is_ok();
                counts.add_if(agrees, "refused 8, not so in a book of that pace");
                counts.add_if(!agrees, "refused 8, in a book of that pace too");
                continue;
            }
            let worked_out = |day: Day| day.rows.iter().map(|row| row.due as u32).collect();
            let other_dues = at_new_pace
                .map(worked_out)
                .is_ok_and(|dues: Vec<u32>| dues != opened);
            counts.add_if(
                series.words != before && other_dues,
                "accepted, with other dues in a book of that pace",
            );
        }
        series.settle();
    }
    println!("dues of a class stay: {:?}", counts.0);
    counts.at_least(1_000, "refused 8, not so in a book of that pace");
    counts.at_least(50, "refused 8, in a book of that pace too");
    counts.at_least(300, "accepted, with other dues in a book of that pace");
}

/// Opening minutes do not count where rows are tested, and stay: with every opening a change gives the same
/// answer, and the same lengths beside the opening.
#[test]
fn every_opening() {
    let (mut fences, mut counts) = (Fences::new(), Counts::default());
    for i in 0..40 * books::times() {
        let case = Case::new("changes with every opening", i);
        let mut rng = case.rng();
        let rows = 2 + rng.below(10);
        let (day, paces) = some_day(&mut rng, 0, rows, i);
        let paces: Vec<u32> = (0..6).map(|_| some_pace(&mut rng, &paces)).collect();
        let done = 1 + rng.below(rows) as u32;
        let mut first = Vec::new();
        for opening in 0..=MAX_OPENING {
            let case = case.with_opening(opening);
            let mut series = Series::open(case, &mut fences, day.words(), 0);
            let mut told = Vec::new();
            for (k, &pace) in paces.iter().enumerate() {
                if k == 3 && series.model.minute <= LATEST_START {
                    series.start(done);
                }
                let answer = series.pace(pace);
                let times = &series.words[TIMES + 1..=TIMES + rows];
                let lengths: Vec<u32> = times.iter().map(|time| time - opening).collect();
                assert_eq!(series.words[OPENING], opening);
                told.push((answer, lengths));
                counts.add(format!("change {}", answer.refusal));
            }
            if opening == 0 {
                first = told.clone();
            }
            assert_eq!(told, first, "{case:?}");
            series.settle();
        }
    }
    println!("changes with every opening: {:?}", counts.0);
    for number in [0, RANGE, DISORDER] {
        counts.at_least(300, format!("change {number}"));
    }
}

// ---- Runs that are no desk ----

/// The calls that do not look at the pages, on a desk of so many rows left: a start, the list and an order.
fn calls_without_pages(words: &[u32]) -> Vec<Call> {
    let left = left_in(words);
    let row = left.first().copied().unwrap_or(1);
    let minute = words[MINUTE].max(words[RELEASES + row]);
    vec![
        Call::Start {
            row: row as u32,
            minute,
        },
        Call::List {
            len: 2 * left.len(),
        },
        Call::OrderOfPlan {
            plan: 1,
            len: left.len(),
        },
    ]
}

/// A desk with a row, left or done, of no pages or too many has no change of pace, and stays a desk for the
/// other calls, which give what they gave.
#[test]
fn pages_out_of_range() {
    let (mut fences, mut counts) = (Fences::new(), Counts::default());
    for i in 0..150 * books::times() {
        let case = Case::new("pages out of range", i);
        let mut rng = case.rng();
        let sound = some_desk(&mut rng);
        let rows = sound[COUNT] as usize;
        // Every row of a short desk, some of a long one; then words of the column that no row has.
        let some: Vec<usize> = match rows {
            1..=12 => (1..=rows).collect(),
            _ => (0..4)
                .map(|_| 1 + rng.below(rows))
                .chain([1, rows])
                .collect(),
        };
        let beyond = (rows + 1..=MAX_ROWS).take(1);
        for row in some.into_iter().chain(beyond) {
            for pages in [0, 1, 2_000, 2_001, 1 << 16, 1 << 31, u32::MAX] {
                let mut words = sound.clone();
                words[PAGES + row] = pages;
                let pace = rng.pick(&PACES);
                let number = stays_within(case, &mut fences, &words, Call::Pace { pace });
                let (want, after) = paced(&words, pace);
                let have = Call::Pace { pace }.of_archive(&mut fences, Side::End, &words);
                assert_eq!(have, (want, after), "{case:?}, row {row}, {pages} pages");
                let fit = row > rows || (1..=2_000).contains(&pages);
                assert!(fit || number == RANGE, "{case:?}, row {row}, {pages} pages");
                let done = row <= rows && words[MARKS + row] == 1;
                counts.add_if(!fit && done, "refused for a row done");
                counts.add_if(!fit && !done, "refused for a row left");
                counts.add_if(fit && number == 0, "accepted");
                for call in calls_without_pages(&words) {
                    let (answer, mut after) = call.of_archive(&mut fences, Side::End, &words);
                    let (want, want_after) = call.of_archive(&mut fences, Side::Start, &sound);
                    if let Call::Start { .. } = call {
                        assert_eq!(after[PAGES + row], pages);
                        after[PAGES + row] = sound[PAGES + row];
                    }
                    assert_eq!((answer, after), (want, want_after), "{case:?}, {call:?}");
                    counts.add(format!("another call {}", answer.refusal));
                }
            }
        }
    }
    println!("pages out of range: {:?}", counts.0);
    counts.at_least(300, "refused for a row done");
    counts.at_least(1_000, "refused for a row left");
    counts.at_least(300, "accepted");
    counts.at_least(5_000, "another call 0");
}

/// A desk that version 2.0 left has no pages. It goes on to its last row, and every change of its pace is
/// refused.
#[test]
fn a_desk_of_2_0() {
    let (mut fences, mut starts, mut refusals) = (Fences::new(), 0, 0);
    for i in 0..150 * books::times() {
        let case = Case::new("a desk of 2.0", i).accepted();
        let mut rng = case.rng();
        let rows = books::some_rows(&mut rng, 40);
        let book = books::accepted(&mut rng, case.opening, rows).words();
        let mut series = Series::open(case, &mut fences, book, 0);
        let mut old = series.words.clone();
        old[PAGES + 1..].fill(0);
        loop {
            for pace in PACES.into_iter().chain(REFUSED_PACES) {
                let before = old.clone();
                assert_eq!(desk::pace(&mut old, pace), refusal(RANGE, 0));
                assert_eq!(old, before);
                refusals += 1;
            }
            assert_eq!(desk::plans(&old), desk::plans(&series.words));
            let left = series.model.left.len();
            for plan in 1..=series.model.list().len() as u32 {
                let (mut one, mut other) = (vec![0; left], vec![0; left]);
                let told = desk::order_of_plan(&old, plan, &mut one);
                let want = desk::order_of_plan(&series.words, plan, &mut other);
                assert_eq!((told, one), (want, other));
            }
            if left == 0 || series.model.minute > LATEST_START {
                break;
            }
            let start = good_start(&mut rng, &series.model, Manner::Any);
            let Call::Start { row, minute } = start else {
                unreachable!("a start");
            };
            let want = series.call(start);
            let moved = desk::start(&mut old, row, minute).expect("accepted");
            assert_eq!((moved.minute, moved.worst), (want.minute, want.late));
            assert_eq!(old[..=PAGES], series.words[..=PAGES]);
            assert_eq!(old[PAGES + 1..], [0; MAX_ROWS]);
            starts += 1;
        }
    }
    println!("a desk of 2.0: {starts} starts, {refusals} changes refused");
    assert!(starts > 500 && refusals > 10_000);
}

/// A change of pace on any words gives what is reckoned on them: runs by chance, runs that differ little
/// from a desk, and desks with other pages.
#[test]
fn any_words() {
    let (mut fences, mut counts) = (Fences::new(), Counts::default());
    for i in 0..4_000 * books::times() {
        let case = Case::new("changes on any words", i);
        let mut rng = case.rng();
        let mut words = some_run(&mut rng, i);
        if i.is_multiple_of(3) && words.len() >= DESK_WORDS {
            for _ in 0..1 + rng.below(4) {
                let row = 1 + rng.below((words[COUNT] as usize).clamp(1, MAX_ROWS));
                words[PAGES + row] = rng.pick(&[0, 1, 2, 40, 1_999, 2_000, 2_001]);
            }
        }
        for pace in [rng.pick(&PACES), rng.pick(&PACES), rng.pick(&REFUSED_PACES)] {
            let call = Call::Pace { pace };
            let number = stays_within(case, &mut fences, &words, call);
            let have = call.of_archive(&mut fences, Side::End, &words);
            assert_eq!(have, paced(&words, pace), "{case:?}, {call:?}");
            counts.add(format!("change {number}"));
            counts.add_if(number == 0 && have.1 != words, "change of a length");
        }
    }
    println!("changes on any words: {:?}", counts.0);
    for number in [0, RANGE, DISORDER] {
        counts.at_least(1_000, format!("change {number}"));
    }
    counts.at_least(800, "change of a length");
}

// ---- Limits, and desks by hand ----

/// Past the latest start no row can be started, but the pace can be changed, up to the latest end that a desk
/// can have.
#[test]
fn past_the_latest_start() {
    let mut fences = Fences::new();
    for (opening, stand, ends) in [
        (0, 20_030_000, [20_285_000, 27_680_000]),
        (MAX_OPENING, 20_030_030, [20_292_680, 27_687_680]),
    ] {
        let case = Case::new("changes past the latest start", 0).with_opening(opening);
        let book = books::latest_book().words();
        let mut series = Series::open(case, &mut fences, book, 3);
        let minute = LATEST_START as u32;
        let answer = series.call(Call::Start { row: 9, minute });
        assert_eq!((answer.minute, answer.late), (stand, stand as i32));
        for (pace, end) in [MAX_PACE, MIN_PACE].into_iter().zip(ends) {
            assert_eq!(series.pace(pace), Answer::default());
            assert_eq!(
                (series.words[MINUTE], series.model.minute),
                (stand, stand.into())
            );
            assert_eq!(series.call(Call::List { len: 510 }).count, 1);
            let answer = series.call(Call::OrderOfPlan { plan: 1, len: 255 });
            assert_eq!((answer.end, answer.late), (end, end as i32));
            assert_eq!(series.call(Call::Start { row: 1, minute }).refusal, EARLY);
        }
        series.settle();
    }
}

/// Desks with a change in any manner of run: longer runs keep their further words, shorter ones every word.
#[test]
fn longer_and_shorter_runs() {
    let (mut fences, mut counts) = (Fences::new(), Counts::default());
    for i in 0..100 * books::times() {
        let case = Case::new("changes in longer runs", i).accepted();
        let mut rng = case.rng();
        let rows = books::some_rows(&mut rng, MAX_ROWS);
        let (day, paces) = some_day(&mut rng, case.opening, rows, i);
        let more = rng.pick(&[1, 2, 40, 256, 2_000]);
        let mut series = Series::open(case, &mut fences, day.words(), more);
        calls_by_chance(&mut rng, &mut series, &mut counts, 12, &paces);
        for len in [0, 1, 8, 1_031, 1_032, DESK_WORDS - 1] {
            let mut short = series.words[..len].to_vec();
            let told = desk::pace(&mut short, rng.pick(&paces));
            assert_eq!(
                (told, &short[..]),
                (refusal(RANGE, 0), &series.words[..len])
            );
        }
        series.settle();
    }
    println!("changes in longer runs: {:?}", counts.0);
    counts.at_least(100, "pace 0");
}

/// A day of class rows (number, release, pages), all of class 0, free from minute 0 at 60 pages an hour.
fn class_0(rows: &[(u32, i64, i64)]) -> Vec<u32> {
    let rows: Vec<_> = rows.iter().map(|row| (row.0, row.1, row.2, 0)).collect();
    Draft::of(0, 60, &rows).of_class(0).words()
}

/// The plans of a desk, each with its order.
fn plans(words: &[u32]) -> Vec<(u32, i32, Vec<u32>)> {
    let plans = desk::plans(words).expect("a list");
    let left = left_in(words).len();
    (1..)
        .zip(plans)
        .map(|(plan, Pair { end, late })| {
            let mut order = vec![0; left];
            let told = desk::order_of_plan(words, plan, &mut order);
            assert_eq!(told, Ok(Pair { end, late }));
            (end, late, order)
        })
        .collect()
}

/// The typed wrapper on small days.
#[test]
fn the_wrapper() {
    let mut words = [0; DESK_WORDS];
    let moved = |minute, worst| Ok(Moved { minute, worst });
    assert_eq!(desk::pace(&mut words, 60), refusal(RANGE, 0));
    assert_eq!(desk::pace(&mut [], 60), refusal(RANGE, 0));

    // Lengths of 2 and 1 at 60 pages an hour, dues of 62 and 63. At 30 they are 4 and 2, and spares of 58
    // and 59 are left: the row that is due first has less.
    let book = class_0(&[(901, 0, 2), (902, 2, 1)]);
    desk::open(0, &book, &mut words).expect("accepted");
    let opened = words;
    for pace in REFUSED_PACES {
        assert_eq!(desk::pace(&mut words, pace), refusal(RANGE, 0));
    }
    assert_eq!(desk::pace(&mut words, 30), refusal(DISORDER, 6));
    assert_eq!(words, opened);
    // Once the first is done, only the second is left.
    assert_eq!(desk::start(&mut words, 1, 0), moved(2, -60));
    assert_eq!(desk::pace(&mut words, 30), Ok(()));
    assert_eq!(desk::start(&mut words, 2, 2), moved(4, -59));
    for pace in EVERY_PACE {
        assert_eq!(desk::pace(&mut words, pace), Ok(()));
    }

    // At 120 pages an hour 1 page takes half a minute, and 2 take 1: both lengths are 1. Dues of 61 and 62.
    let book = class_0(&[(901, 0, 1), (902, 0, 2)]);
    desk::open(30, &book, &mut words).expect("accepted");
    assert_eq!(desk::pace(&mut words, 120), refusal(DISORDER, 6));

    // A third row, due at 64, agrees with either: the first one done, two are left.
    let book = class_0(&[(901, 0, 2), (902, 2, 1), (903, 2, 2)]);
    desk::open(0, &book, &mut words).expect("accepted");
    assert_eq!(desk::pace(&mut words, 30), refusal(DISORDER, 6));
    assert_eq!(desk::start(&mut words, 1, 0), moved(2, -60));
    assert_eq!(plans(&words), [(5, -59, vec![2, 3])]);
    assert_eq!(desk::pace(&mut words, 30), Ok(()));
    assert_eq!(plans(&words), [(8, -56, vec![2, 3])]);

    // A done row above the two that disagree, and one between them: the place is that in the book.
    let book = class_0(&[(901, 0, 1), (902, 0, 2), (903, 2, 1)]);
    desk::open(0, &book, &mut words).expect("accepted");
    assert_eq!(desk::start(&mut words, 1, 0), moved(1, -60));
    assert_eq!(desk::pace(&mut words, 30), refusal(DISORDER, 10));
    let book = class_0(&[(901, 0, 2), (902, 0, 1), (903, 2, 1)]);
    desk::open(0, &book, &mut words).expect("accepted");
    assert_eq!(desk::start(&mut words, 2, 0), moved(1, -60));
    assert_eq!(desk::pace(&mut words, 30), refusal(DISORDER, 10));
}

/// Other plans at another pace.
#[test]
fn other_plans() {
    let mut words = [0; DESK_WORDS];
    // At half the pace row 2 takes until row 1 is released, and nothing has to wait for it: two plans
    // before, one after.
    let book = class_0(&[(901, 2, 1), (902, 0, 1), (903, 1, 4)]);
    desk::open(0, &book, &mut words).expect("accepted");
    let before = [(6, -57, vec![2, 3, 1]), (7, -58, vec![2, 1, 3])];
    assert_eq!(plans(&words), before);
    assert_eq!(desk::pace(&mut words, 30), Ok(()));
    assert_eq!(plans(&words), [(12, -53, vec![2, 1, 3])]);
    assert_eq!(desk::pace(&mut words, 60), Ok(()));
    assert_eq!(plans(&words), before);

    // One plan before and after, of other orders.
    let rows = [(901, 0, 4, 2), (902, 2, 1, 1), (903, 0, 1, 0)];
    desk::open(0, &Draft::of(0, 60, &rows).words(), &mut words).expect("accepted");
    assert_eq!(plans(&words), [(6, 5, vec![3, 1, 2])]);
    assert_eq!(desk::pace(&mut words, 30), Ok(()));
    assert_eq!(plans(&words), [(12, 10, vec![3, 2, 1])]);

    // One plan before, two after.
    let rows = [(901, 1, 6, 3), (902, 0, 1, 0), (903, 3, 1, 1)];
    desk::open(0, &Draft::of(0, 60, &rows).words(), &mut words).expect("accepted");
    assert_eq!(plans(&words), [(8, 7, vec![2, 1, 3])]);
    assert_eq!(desk::pace(&mut words, 30), Ok(()));
    let after = [(16, 15, vec![2, 1, 3]), (17, 14, vec![2, 3, 1])];
    assert_eq!(plans(&words), after);
}
