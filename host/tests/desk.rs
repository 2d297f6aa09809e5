//! The open desk of the archive against the model: series of calls, every order of the rest of small
//! desks, and runs of words that are no desk. Every run that is lent lies between pages that cannot be
//! touched, and a desk that is lent for reading on pages that cannot be written.
//!
//! `JELVAKSNA_SEED` sets the seed, `JELVAKSNA_TIMES` multiplies the number of series.

mod common;
#[path = "common/desks.rs"]
mod desks;
#[path = "common/kit.rs"]
mod kit;

use common::fence::{Fences, Side};
use common::layout::{DUES, OPENING, PAGES, RELEASES, TIMES};
use common::{fault, filled, spelled, Case};
use desks::{
    came_up, covers_the_rest, good_start, opened, opened_by_model, row_left, series, some_desk,
    some_run, start_of, stays_within, with_its_pace, Call, Manner, Series,
};
use jelvaksna::books::{self, Draft, Rng, OPENINGS, PACES, REFUSED_OPENINGS, REFUSED_PACES};
use jelvaksna::desk_model::LATEST_START;
use jelvaksna::linked::{desk, Answer};
use jelvaksna::model::MAX_ROWS;
use jelvaksna::refusal::{DONE, EARLY, NARROW, RANGE, UNLISTED};
use jelvaksna::{Moved, Opened, Pair, Refusal, DESK_WORDS, MAX_OPENING};
use kit::Counts;

// ---- Series ----

#[test]
fn short_desks() {
    let make = |rng: &mut Rng, opening, _| {
        let rows = 1 + rng.below(12);
        with_its_pace(books::accepted(rng, opening, rows))
    };
    let number = 4_000 * books::times();
    let counts = series("short desks", number, make, |rows| 4 + 3 * rows);
    came_up(&counts, 2_000);
    counts.at_least(100, "list of no row");
    counts.at_least(100, "list past the latest start");
    counts.at_least(100, "pace of no row");
    counts.at_least(100, "pace past the latest start");
    counts.at_least(2_000, "with opening minutes");
}

#[test]
fn middling_desks() {
    let make = |rng: &mut Rng, opening, _| {
        let rows = rng.range(13, 48) as usize;
        with_its_pace(books::accepted(rng, opening, rows))
    };
    let number = 300 * books::times();
    let counts = series("middling desks", number, make, |rows| 2 * rows);
    came_up(&counts, 400);
}

#[test]
fn long_desks() {
    let make = |rng: &mut Rng, opening, i| with_its_pace(books::long(rng, opening, i));
    let number = 40 * books::times();
    let counts = series("long desks", number, make, |_| 80);
    came_up(&counts, 40);
}

/// Days with a plan for each row, as they are, then unsorted and in a class.
#[test]
fn desks_of_many_plans() {
    let day = |rng: &mut Rng, opening, rows: usize, i: u64| {
        let day = books::many_plans(opening, rows);
        with_its_pace(match i % 2 {
            0 => day,
            _ => day.of_class(i as u32 / 2 % 8).shuffled(rng),
        })
    };
    let make = |rng: &mut Rng, opening, i: u64| day(rng, opening, 2 + i as usize % 40, i / 40);
    let counts = series("many plans", 160 * books::times(), make, |rows| 6 + rows);
    counts.at_least(150, "list of several plans after a start");
    let rows = [64, 100, MAX_ROWS];
    let make = |rng: &mut Rng, opening, i: u64| day(rng, opening, rows[i as usize / 2], i);
    series("very many plans", 6, make, |_| 12);
}

/// Each row is started at the earliest minute. With none left the list has no plans, and an order is
/// refused 11 at 0.
#[test]
fn to_the_last_row() {
    let mut fences = Fences::new();
    let lengths = (1..=16).chain([40, 100, 255, 256]);
    for (i, rows) in lengths.cycle().take(60).enumerate() {
        let case = Case::new("to the last row", i as u64).accepted();
        let mut rng = case.rng();
        let day = books::typical_day(&mut rng, case.opening, rows);
        let book = day.varied(&mut rng).words();
        let mut series = Series::open(case, &mut fences, book, i % 2);
        for left in (1..=rows).rev() {
            series.call(Call::List { len: 2 * left });
            series.call(Call::OrderOfPlan { plan: 1, len: left });
            let row = row_left(&mut rng, &series.model, Manner::Any);
            let start = start_of(&series.model, row);
            assert_eq!(series.call(start).refusal, 0);
        }
        for len in [0, 1, 512] {
            let answer = series.call(Call::List { len });
            assert_eq!(answer, Answer::default());
            for plan in [0, 1, 2, u32::MAX] {
                let answer = series.call(Call::OrderOfPlan { plan, len });
                assert_eq!((answer.refusal, answer.place), (UNLISTED, 0));
            }
        }
        assert_eq!(series.accepted.len(), rows);
        series.settle();
    }
}

// ---- Every order of the rest ----

#[test]
fn every_order_of_the_rest() {
    let (mut fences, mut states, mut several) = (Fences::new(), 0, 0);
    for i in 0..900 * books::times() {
        let case = Case::new("every order of the rest", i).accepted();
        let mut rng = case.rng();
        let rows = 1 + rng.below(6);
        let day = match i % 3 {
            0 if rows > 1 => books::many_plans(case.opening, rows).shuffled(&mut rng),
            1 => books::several_plans(&mut rng, case.opening, rows).varied(&mut rng),
            _ => books::accepted(&mut rng, case.opening, rows),
        };
        let mut series = Series::open(case, &mut fences, day.words(), 0);
        while !series.model.left.is_empty() {
            covers_the_rest(&mut series);
            states += 1;
            let started = !series.accepted.is_empty();
            several += u64::from(started && series.model.list().len() > 1);
            if series.model.minute > LATEST_START {
                break;
            }
            let manner = rng.pick(&[Manner::Any, Manner::Steady]);
            let call = good_start(&mut rng, &series.model, manner);
            assert_eq!(series.call(call).refusal, 0);
        }
        series.settle();
    }
    println!("every order of the rest: {states} desks, {several} of several plans after a start");
    assert!(several > 100);
}

// ---- Desks that are opened ----

/// Books sound and damaged, opening minutes accepted and refused, runs of every length: a run that is
/// refused keeps every word; one that is opened keeps nothing of what it held, and the words after the
/// desk.
#[test]
fn runs_that_are_opened() {
    let (mut fences, mut counts) = (Fences::new(), Counts::default());
    for i in 0..3_000 * books::times() {
        let case = Case::new("runs that are opened", i);
        let mut rng = case.rng();
        let rows = books::some_rows(&mut rng, MAX_ROWS);
        let sound = books::accepted(&mut rng, case.accepted_opening(), rows).words();
        let book = match i % 6 {
            0 => books::damaged(&mut rng, &sound),
            1 => books::disagreeing(&mut rng, rows.max(2)).words(),
            2 => books::random_words(&mut rng, 40),
            _ => sound,
        };
        fault::watch(case, &book);
        let any = rng.below(DESK_WORDS);
        let len = rng.pick(&[0, 1, any, 1287, 1288, 1288, 1289, 1300, 2_000]);
        for (side, run) in [(Side::End, filled(len)), (Side::Start, vec![u32::MAX; len])] {
            let (want, want_words, _) = opened_by_model(case.opening, &book, &run);
            let (have, after) = opened(&mut fences, side, case.opening, &book, &run);
            assert_eq!(have, want, "{case:?}, a run of {len}, {}", spelled(&book));
            assert_eq!(after, want_words, "{case:?}, a run of {len}");
            counts.add(format!("open {}", have.refusal));
            counts.add_if(case.opening > MAX_OPENING, "refused for the opening");
        }
    }
    println!("runs that are opened: {:?}", counts.0);
    for number in [0, 1, 2, 8, NARROW] {
        counts.at_least(60, format!("open {number}"));
    }
    counts.at_least(300, "refused for the opening");
}

// ---- Runs that are no desk ----

/// Starts, changes of pace, lists and orders that suit nothing in particular.
fn calls_on_anything(rng: &mut Rng) -> [Call; 5] {
    let row = match rng.below(3) {
        0 => rng.next() as u32,
        _ => rng.below(260) as u32,
    };
    let minute = match rng.below(4) {
        0 => rng.next() as u32,
        1 => LATEST_START as u32 + rng.below(3) as u32 - 1,
        _ => rng.below(LATEST_START as usize) as u32,
    };
    let plan = rng.pick(&[0, 1, 1, 2, 200, u32::MAX]);
    let len = rng.pick(&[0, 1, 2, 12, 256, 511, 512, 512, 512, 512, 600]);
    let first = |minute| Call::Start { row: 1, minute };
    let pace = match rng.below(4) {
        0 => rng.pick(&REFUSED_PACES),
        _ => rng.pick(&PACES),
    };
    [
        Call::Start { row, minute },
        first(LATEST_START as u32),
        Call::Pace { pace },
        Call::List { len },
        Call::OrderOfPlan { plan, len },
    ]
}

#[test]
fn runs_that_are_no_desk() {
    let (mut fences, mut counts) = (Fences::new(), Counts::default());
    for i in 0..5_000 * books::times() {
        let case = Case::new("runs that are no desk", i);
        let mut rng = case.rng();
        let words = some_run(&mut rng, i);
        for call in calls_on_anything(&mut rng) {
            let number = stays_within(case, &mut fences, &words, call);
            counts.add(format!("refused {number}"));
        }
    }
    println!("runs that are no desk: {:?}", counts.0);
    counts.at_least(2_000, format!("refused {RANGE}"));
    counts.at_least(2_000, "refused 0");
}

/// Every part of a desk from its start that is shorter, and runs of one word over and over.
#[test]
fn short_and_plain_runs() {
    let mut fences = Fences::new();
    let case = Case::new("short runs", 0);
    let mut rng = case.rng();
    let words = some_desk(&mut rng);
    for len in 0..DESK_WORDS {
        for call in calls_on_anything(&mut rng) {
            let number = stays_within(case, &mut fences, &words[..len], call);
            assert_eq!(number, RANGE, "{call:?} on {len} words");
        }
    }
    for word in [0, u32::MAX, 1 << 31] {
        for len in [DESK_WORDS, DESK_WORDS + 9] {
            for call in calls_on_anything(&mut rng) {
                let number = stays_within(case, &mut fences, &vec![word; len], call);
                assert_eq!(number, RANGE, "{call:?} on words of {word}");
            }
        }
    }
}

// ---- Limits, and desks by hand ----

/// A start at the latest minute: then no row can be started, and the list and its orders go on, up to
/// the latest end and lateness that a desk can have.
fn past_the_latest_start(opening: u32, stand: u32, end: u32) {
    let mut fences = Fences::new();
    let case = Case::new("past the latest start", 0).with_opening(opening);
    let book = books::latest_book().words();
    let mut series = Series::open(case, &mut fences, book, 3);
    let (latest, row) = (LATEST_START as u32, 77);
    let start = |minute| Call::Start { row, minute };
    assert_eq!(series.call(start(latest + 1)).refusal, EARLY);
    let answer = series.call(start(latest));
    assert_eq!((answer.minute, answer.late), (stand, stand as i32));
    for minute in [0, latest, latest + 1, stand - 1, stand, stand + 1] {
        for (row, number) in [(1, EARLY), (256, EARLY), (row, DONE), (257, UNLISTED)] {
            assert_eq!(series.call(Call::Start { row, minute }).refusal, number);
        }
    }
    assert_eq!(series.call(Call::List { len: 510 }).count, 1);
    let answer = series.call(Call::OrderOfPlan { plan: 1, len: 255 });
    assert_eq!((answer.end, answer.late), (end, end as i32));
    assert_eq!(series.call(Call::List { len: 509 }).refusal, NARROW);
    series.settle();
}

#[test]
fn past_the_latest_start_with_the_most_opening_minutes() {
    past_the_latest_start(MAX_OPENING, 20_030_030, 27_687_680);
}

#[test]
fn past_the_latest_start_with_none() {
    past_the_latest_start(0, 20_030_000, 27_680_000);
}

/// The words of a desk hold the opening and, of each row, release, opening plus length, due and pages.
/// With another opening, or another time of a row, they are a desk exactly if each row then has a length
/// that a row can have.
#[test]
fn the_opening_in_the_words() {
    let mut fences = Fences::new();
    let case = Case::new("the opening in the words", 0);
    let book = Draft::of(5, 4, &[(1, 9, 1, 40_000), (2, 0, 2_000, 50_000)]).words();
    let start = Call::Start { row: 1, minute: 9 };
    let order = Call::OrderOfPlan { plan: 1, len: 2 };
    let pace = Call::Pace { pace: 4 };
    for opening in OPENINGS {
        let mut words = vec![u32::MAX; DESK_WORDS];
        desk::open(opening, &book, &mut words).expect("accepted");
        assert_eq!(words[OPENING], opening);
        for (i, row) in (1..).zip([[9, 15, 40_000, 1], [0, 30_000, 50_000, 2_000]]) {
            let [release, time, due, pages] =
                [RELEASES, TIMES, DUES, PAGES].map(|column| words[column + i]);
            assert_eq!([release, time - opening, due, pages], row);
        }
        for other in (0..50).chain(REFUSED_OPENINGS) {
            let mut changed = words.clone();
            changed[OPENING] = other;
            let lengths = [15, 30_000].map(|length| opening + length);
            let fit = |time: u32| (1..=30_000).contains(&(i64::from(time) - i64::from(other)));
            let is_desk = other <= MAX_OPENING && lengths.into_iter().all(fit);
            for call in [start, pace, Call::List { len: 4 }, order] {
                let number = stays_within(case, &mut fences, &changed, call);
                assert_eq!(
                    number,
                    if is_desk { 0 } else { RANGE },
                    "{opening}, {other}"
                );
            }
        }
        for (length, number) in [(0, RANGE), (1, 0), (30_000, 0), (30_001, RANGE)] {
            let mut changed = words.clone();
            changed[TIMES + 1] = opening + length;
            for call in [start, pace] {
                assert_eq!(stays_within(case, &mut fences, &changed, call), number);
            }
        }
    }
}

/// The worst lateness so far: below 0 as long as all is early, from its least on; it never falls.
#[test]
fn worst_so_far() {
    let mut fences = Fences::new();
    let days = [
        (
            (0, 0),
            vec![(1, 0, 1, 20_000_000), (2, 0, 1, 20_000_000)],
            vec![(2, 0, -19_999_999)],
        ),
        (
            (0, 0),
            vec![(1, 0, 1, 100), (2, 0, 2, 100), (3, 0, 3, 100)],
            vec![(1, 0, -99), (3, 50, -47), (2, 98, 0)],
        ),
        (
            (5, 0),
            vec![(1, 0, 1, 50), (2, 160, 1, 200)],
            vec![(1, 59, 10), (2, 160, 10)],
        ),
        (
            (0, 0),
            vec![(1, 0, 60, 70), (2, 0, 61, 71)],
            vec![(1, 9, -1), (2, 69, 59)],
        ),
        // The second day again, each row with 4 minutes and with 30 to open.
        (
            (0, 4),
            vec![(1, 0, 1, 100), (2, 0, 2, 100), (3, 0, 3, 100)],
            vec![(1, 0, -95), (3, 50, -43), (2, 98, 4)],
        ),
        (
            (0, 30),
            vec![(1, 0, 1, 100), (2, 0, 2, 100), (3, 0, 3, 100)],
            vec![(1, 0, -69), (3, 50, -17), (2, 98, 30)],
        ),
    ];
    for (i, ((free, opening), rows, starts)) in days.into_iter().enumerate() {
        let case = Case::new("worst so far", i as u64).with_opening(opening);
        let book = Draft::of(free, 60, &rows).words();
        let mut series = Series::open(case, &mut fences, book, 0);
        for (row, minute, worst) in starts {
            let answer = series.call(Call::Start { row, minute });
            assert_eq!((answer.refusal, answer.late), (0, worst));
            let len = 2 * series.model.left.len();
            series.call(Call::List { len });
        }
        series.settle();
    }
}

/// The typed wrapper on the first worked day, its long row first; then the same with opening minutes.
#[test]
fn the_wrapper() {
    let rows = [(901, 1, 1, 5), (902, 0, 10, 12)];
    let book = Draft::of(0, 60, &rows).words();
    let pair = |end, late| Pair { end, late };
    let refusal = |number, place| Refusal { number, place };
    let mut words = [0; DESK_WORDS];
    assert_eq!(desk::plans(&words), Err(refusal(RANGE, 0)));
    let short = &mut words[..DESK_WORDS - 1];
    assert_eq!(desk::open(0, &book, short), Err(refusal(NARROW, 0)));
    // The opening minutes are looked at before the book, and that before the run.
    assert_eq!(desk::open(31, &book, short), Err(refusal(RANGE, 0)));
    assert_eq!(desk::open(31, &[], short), Err(refusal(RANGE, 0)));
    let told = desk::open(0, &book, &mut words);
    assert_eq!(told, Ok(Opened { rows: 2, minute: 0 }));
    assert_eq!(desk::plans(&words), Ok(vec![pair(11, 6), pair(12, 0)]));

    let start = |words: &mut [u32], row, minute| desk::start(words, row, minute);
    assert_eq!(start(&mut words, 3, 0), Err(refusal(UNLISTED, 2)));
    assert_eq!(start(&mut words, 1, 0), Err(refusal(EARLY, 0)));
    let moved = |minute, worst| Moved { minute, worst };
    assert_eq!(start(&mut words, 2, 0), Ok(moved(10, -2)));
    assert_eq!(start(&mut words, 2, 10), Err(refusal(DONE, 2)));
    assert_eq!(start(&mut words, 1, 9), Err(refusal(EARLY, 0)));

    assert_eq!(desk::plans(&words), Ok(vec![pair(11, 6)]));
    let mut order = [0];
    let told = desk::order_of_plan(&words, 1, &mut order);
    assert_eq!((told, order), (Ok(pair(11, 6)), [1]));
    assert_eq!(desk::list(&words, &mut order), Err(refusal(NARROW, 0)));
    assert_eq!(start(&mut words, 1, 12), Ok(moved(13, 8)));
    assert_eq!(desk::plans(&words), Ok(vec![]));

    let told = desk::open(3, &book, &mut words);
    assert_eq!(told, Ok(Opened { rows: 2, minute: 0 }));
    assert_eq!(desk::plans(&words), Ok(vec![pair(17, 12), pair(18, 6)]));
    assert_eq!(start(&mut words, 2, 0), Ok(moved(13, 1)));
    assert_eq!(start(&mut words, 1, 12), Err(refusal(EARLY, 0)));
    assert_eq!(desk::plans(&words), Ok(vec![pair(17, 12)]));
    assert_eq!(start(&mut words, 1, 13), Ok(moved(17, 12)));
}
