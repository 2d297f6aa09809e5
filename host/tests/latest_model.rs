//! The model of the latest free minute: days worked through, its refusals one after another, and small days
//! by every order, from every minute and by steps. Needs no archive.

#[path = "common/kit.rs"]
mod kit;
#[path = "common/wanted.rs"]
mod wanted;

use jelvaksna::books::{self, Draft, Rng, OPENINGS, REFUSED_OPENINGS};
use jelvaksna::latest_model::{
    answer_at, from_minute, latest_by_steps, latest_free, latest_of_every_order, latest_of_order,
    Wanted,
};
use jelvaksna::model::Day;
use jelvaksna::refusal::{CUT, DISORDER, NARROW, RANGE, TAIL, UNREACHABLE};
use jelvaksna::{word, Latest, Refusal, MAX_FREE};
use kit::{sequences, Counts};
use wanted::{few_rows, some_of, some_pairs, telling_minutes, wanted_around, worked_days};

#[test]
fn days_worked_through() {
    for (draft, worked) in worked_days() {
        for (opening, (end, late), (told, order)) in worked {
            // The free word is not used.
            for free in [0, 1, 9, MAX_FREE] {
                let day = Draft {
                    free: free.into(),
                    ..draft.clone()
                };
                let mut result = vec![77; day.rows.len() + 2];
                let wanted = Wanted::new(end, late);
                let given = latest_free(opening, &day.words(), wanted, &mut result);
                assert_eq!(given, told, "{wanted:?}, opening {opening}, free {free}");
                let mut want = order.clone();
                want.resize(result.len(), 77);
                assert_eq!(result, want, "{wanted:?}, opening {opening}, free {free}");
            }
        }
    }
}

/// One refusal after another, the later ones behind the earlier.
#[test]
fn the_sequence_of_refusals() {
    let sound = Draft::of(0, 60, &[(901, 1, 1, 5), (902, 0, 10, 12)]).words();
    let wanted = |end, late| Wanted::new(end, late);
    let refused = |number, place| Err(Refusal { number, place });
    let told = |opening, book: &[u32], end, late, len| {
        latest_free(opening, book, wanted(end, late), &mut [0; 4][..len])
    };
    let (late, tail) = (
        [&[word(1, MAX_FREE + 1)], &sound[1..]].concat(),
        [&sound[..], &[0]].concat(),
    );
    let mut odd = sound.clone();
    odd[9] = word(6, 14);
    for (end, late_by) in [(12, 0), (-1, -1)] {
        for len in 0..=4 {
            for opening in REFUSED_OPENINGS {
                for book in [&sound[..], &[], &late, &tail, &odd] {
                    assert_eq!(told(opening, book, end, late_by, len), refused(RANGE, 0));
                }
            }
            assert_eq!(told(0, &[], end, late_by, len), refused(CUT, 0));
            assert_eq!(told(0, &sound[..9], end, late_by, len), refused(CUT, 9));
            assert_eq!(told(0, &late, end, late_by, len), refused(RANGE, 0));
            assert_eq!(told(0, &tail, end, late_by, len), refused(TAIL, 11));
            assert_eq!(told(0, &odd, end, late_by, len), refused(DISORDER, 6));
        }
    }
    // Then the result, and last what is wanted.
    for len in 0..2 {
        assert_eq!(told(0, &sound, 11, 5, len), refused(NARROW, 0));
        assert_eq!(told(0, &sound, 12, 0, len), refused(NARROW, 0));
    }
    assert_eq!(told(0, &sound, 11, 5, 2), refused(UNREACHABLE, 0));
    let (minute, end, late) = (1, 12, 0);
    assert_eq!(told(0, &sound, 12, 0, 2), Ok(Latest { minute, end, late }));
}

/// Some order from this minute keeps both, by trying every order from the first row to the last.
fn allowed(day: &Day, minute: u32, wanted: Wanted) -> bool {
    let pairs = from_minute(day, minute).every_pair();
    pairs.into_iter().any(|pair| wanted.kept_by(pair))
}

/// An order's own latest minute: from there it keeps both, from the minute after it does not.
fn hold_orders(day: &Day, wanted: Wanted, counts: &mut Counts) {
    let rows: Vec<u32> = (1..=day.rows.len() as u32).collect();
    let mut latest = None;
    for order in sequences(&rows) {
        let keeps = |minute| wanted.kept_by(from_minute(day, minute).pair_of(&order));
        let own = latest_of_order(day, &order, wanted);
        match own {
            Some(minute) => {
                assert!(minute <= MAX_FREE && keeps(0) && keeps(minute), "{day:?}");
                assert!(minute == MAX_FREE || !keeps(minute + 1), "{day:?}");
                counts.add("order that keeps both");
            }
            None => assert!(!keeps(0), "{day:?}, {wanted:?}, {order:?}"),
        }
        latest = latest.max(own);
    }
    assert_eq!(latest, latest_of_every_order(day, wanted), "{wanted:?}");
}

/// Of small days, with wanted numbers about pairs that orders have from many minutes: both models find the
/// same minute, up to which every minute allows it by every order from first row to last, and after which
/// none does; the order keeps both, and no order that keeps the lateness ends sooner.
#[test]
fn every_order() {
    let mut counts = Counts::default();
    for i in 0..1_000 * books::times() {
        let mut rng = Rng::for_case(books::seed(), "every order, latest minute", i);
        let opening = rng.pick(&OPENINGS);
        let draft = few_rows(&mut rng, opening, 6);
        let day = Day::read(opening, &draft.words()).expect("accepted");
        let pairs = some_pairs(&mut rng, &day);
        let pairs = some_of(&mut rng, pairs, 3);
        for wanted in wanted_around(&pairs) {
            let context = format!("case {i}, {wanted:?}, {day:?}");
            let latest = latest_of_every_order(&day, wanted);
            assert_eq!(latest, latest_by_steps(&day, wanted), "{context}");
            if rng.one_in(20) && day.rows.len() < 6 {
                hold_orders(&day, wanted, &mut counts);
            }
            let mut minutes = telling_minutes(&mut rng, &day);
            if let Some(minute) = latest {
                minutes.extend([minute, (minute + 1).min(MAX_FREE), minute / 2]);
            }
            for minute in some_of(&mut rng, minutes, 3) {
                let so = latest.is_some_and(|latest| minute <= latest);
                assert_eq!(
                    allowed(&day, minute, wanted),
                    so,
                    "minute {minute}, {context}"
                );
                counts.add("minute");
            }
            let Some(minute) = latest else {
                counts.add("unreachable");
                continue;
            };
            let (Latest { end, late, .. }, order) = answer_at(&day, minute, wanted);
            let from = from_minute(&day, minute);
            let pair = from.pair_of(&order);
            assert_eq!((pair.end, pair.late), (end, late), "{context}");
            let every = from.every_pair();
            let soonest = every.iter().find(|pair| pair.late <= wanted.late);
            assert_eq!(soonest.map(|pair| pair.end), Some(end), "{context}");
            // Short of the latest minute of all, one of the two numbers is reached.
            let reached = (end as i32 == wanted.end, late == wanted.late);
            assert!(minute == MAX_FREE || reached != (false, false), "{context}");
            counts.add("found");
            counts.add_if(reached == (true, false), "end reached");
            counts.add_if(reached == (false, true), "lateness reached");
            counts.add_if(reached == (true, true), "both reached");
            counts.add_if(minute == 0, "minute 0");
            counts.add_if(minute == MAX_FREE, "the latest minute of all");
            let idle = minute > 0 && from_minute(&day, minute - 1).pair_of(&order) == pair;
            counts.add_if(idle, "minute that is not felt");
        }
    }
    println!("every order, latest minute: {:?}", counts.0);
    counts.at_least(20_000, "found");
    counts.at_least(20_000, "unreachable");
    counts.at_least(100_000, "minute");
    counts.at_least(10_000, "order that keeps both");
    for what in ["end reached", "lateness reached", "both reached"] {
        counts.at_least(2_000, what);
    }
    counts.at_least(200, "minute 0");
    counts.at_least(2_000, "the latest minute of all");
    counts.at_least(2_000, "minute that is not felt");
}

/// Of days in a morning, one minute after another: the last that allows it is the answer. The desk cannot open
/// after the wanted end.
#[test]
fn every_minute_of_a_morning() {
    let mut counts = Counts::default();
    for i in 0..150 * books::times() {
        let mut rng = Rng::for_case(books::seed(), "a morning, latest minute", i);
        let (opening, rows) = (rng.pick(&[0, 0, 1, 7]), 2 + rng.below(4));
        let draft = match rng.one_in(2) {
            true => books::several_plans(&mut rng, opening, rows),
            false => books::contests(&mut rng, opening, rows),
        };
        let day = Day::read(opening, &draft.words()).expect("accepted");
        for _ in 0..6 {
            let from = from_minute(&day, rng.below(120) as u32);
            let pair = rng.pick(from.list());
            let wanted = Wanted {
                end: pair.end as i32 + rng.range(-1, 2) as i32,
                late: pair.late + rng.range(-1, 2) as i32,
            };
            let mut minutes = (0..=wanted.end as u32).rev();
            let last = minutes.find(|&minute| allowed(&day, minute, wanted));
            assert_eq!(latest_by_steps(&day, wanted), last, "case {i}, {wanted:?}");
            match last {
                Some(_) => counts.add("found"),
                None => counts.add("unreachable"),
            }
        }
    }
    println!("a morning, latest minute: {:?}", counts.0);
    counts.at_least(400, "found");
    counts.at_least(50, "unreachable");
}
