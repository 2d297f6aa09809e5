//! Opening minutes in the archive: such as are refused, before anything else is looked at; every number of
//! them; idle minutes, openings and lengths, which make up the end; and that they are as good as lengths
//! that are so much longer.

mod common;

use common::layout::PAGES;
use common::{calls, compare, fail, fault, filled, refused, Call, Case, Effort, PROFILES};
use jelvaksna::books::{self, Draft, REFUSED_OPENINGS};
use jelvaksna::desk_model::Desk;
use jelvaksna::linked::desk;
use jelvaksna::{refusal, word, Refusal, DESK_WORDS, MAX_OPENING};

/// The calls that are told an opening, on a book of two rows: in their right, and with every fault that
/// is looked for after the book.
fn calls_of_two_rows() -> Vec<Call> {
    let mut calls = Vec::new();
    for len in [0, 1, 2, 3, 4, 9] {
        calls.push(Call::List { len });
        for bound in [i32::MIN, 0, i32::MAX] {
            calls.push(Call::OrderForBound { bound, len });
        }
        for plan in [0, 1, 9, u32::MAX] {
            calls.push(Call::OrderOfPlan { plan, len });
        }
    }
    for posting in [vec![], vec![1], vec![2, 1], vec![0, 0], vec![1, 2, 3]] {
        calls.push(Call::Verdict { posting });
    }
    calls
}

/// Outside 0 to 30 every call that is told an opening is refused 3 at 0, whatever else is wrong: books
/// that are refused, also 3 at 0, buffers that are too short, numbers of no plan, postings of no order.
/// Nothing is written.
#[test]
fn refused_before_anything_else() {
    let sound = Draft::of(0, 60, &[(901, 0, 1, 20), (902, 1, 10, 21)]).words();
    let mut late = sound.clone();
    late[0] = word(1, 10_000_001);
    let full = books::latest_book().words();
    let mut rng = Case::new("refused before anything else", 0).rng();
    let mut made = 0;
    for profile in PROFILES {
        let of = Case::of(profile, "refused before anything else", 0);
        let clash = of.clashing_day(&mut rng, 2).words();
        let any = books::random_words(&mut rng, 40);
        let tail = [&sound[..], &[0]].concat();
        let books: [&[u32]; 8] = [
            &sound,
            &[],
            &[0; 9],
            &sound[..7],
            &tail,
            &late,
            &clash,
            &any,
        ];
        for opening in REFUSED_OPENINGS {
            let case = Case::of(profile, "refused before anything else", made);
            let case = case.with_opening(opening);
            for book in books.into_iter().chain([&full[..], &full[..1_026]]) {
                for call in calls_of_two_rows() {
                    compare(case, book, &case.read(book), &call);
                    let (answer, words) = call.outcome(case, book);
                    let (number, place) = (refusal::RANGE, 0);
                    assert_eq!(answer, refused(Refusal { number, place }), "{call:?}");
                    assert_eq!(words, filled(words.len()), "{call:?}");
                    made += 1;
                }
                // Told no opening, this call looks at the book.
                let row = Call::RowPlace { row: 2 };
                compare(case, book, &case.read(book), &row);
            }
            let row = Call::RowPlace { row: 2 }.outcome(case, &sound).0;
            assert_eq!((row.refusal, row.place), (0, 6));
        }
    }
    println!("refused before anything else: {made} calls");
}

/// Every number of opening minutes that is accepted, and some that are not.
#[test]
fn every_opening() {
    for profile in PROFILES {
        for opening in (0..=MAX_OPENING + 20).chain((5..32).map(|bit| 1 << bit)) {
            for i in 0..8 * books::times() {
                let case = Case::of(profile, "every opening", i).with_opening(opening);
                let mut rng = case.rng();
                let rows = 1 + rng.below(9);
                let book = case.day(&mut rng, rows).words();
                let day = case.read(&book);
                assert_eq!(day.is_ok(), opening <= 30);
                for call in calls(&mut rng, &day, Effort::Few) {
                    compare(case, &book, &day, &call);
                }
            }
        }
    }
}

/// Of any posting: the free minute, the idle minutes, an opening for each row and the lengths make up the
/// end.
#[test]
fn idle_plus_openings_plus_lengths() {
    let test = "idle plus openings plus lengths";
    let (mut postings, mut idling) = (0, 0);
    for (i, profile) in (0..6_000 * books::times()).flat_map(|i| PROFILES.map(|p| (i, p))) {
        let case = Case::of(profile, test, i).accepted();
        let mut rng = case.rng();
        let rows = books::some_rows(&mut rng, 256);
        let draft = case.day(&mut rng, rows);
        let (book, opening) = (draft.words(), i64::from(case.opening));
        fault::watch(case, &book);
        for _ in 0..3 {
            let mut posting: Vec<u32> = (1..=rows as u32).collect();
            rng.shuffle(&mut posting);
            let (mut minute, mut idle, mut lengths) = (draft.free, 0, 0);
            for &row in &posting {
                let row = &draft.rows[row as usize - 1];
                let length = draft.reach(row) - row.release;
                idle += (row.release - minute).max(0);
                lengths += length;
                minute = minute.max(row.release) + opening + length;
            }
            let end = i64::from(case.posted(&book, &posting).end);
            let sum = idle + rows as i64 * opening + lengths;
            if sum != end - draft.free {
                let what = format!("  idle {idle}, lengths {lengths}, end {end}");
                fail(case, &book, &posting, &what);
            }
            postings += 1;
            idling += u64::from(idle > 0);
        }
    }
    println!("{test}: {postings} postings, {idling} with idle minutes");
    assert!(idling > postings / 4 && idling < postings);
}

/// Opening minutes are as good as lengths that are so much longer, with the same dues: every call gives
/// the same, of accepted books and of such as are refused for their rows.
#[test]
fn as_good_as_longer_lengths() {
    let test = "as good as longer lengths";
    let (mut made, mut several, mut clashes) = (0, 0, 0);
    for (i, profile) in (0..3_000 * books::times()).flat_map(|i| PROFILES.map(|p| (i, p))) {
        let case = Case::of(profile, test, i).accepted();
        let mut rng = case.rng();
        let rows = 2 + rng.below(20);
        let draft = match i % 6 {
            0 => case.clashing_day(&mut rng, rows),
            _ => case.day(&mut rng, rows),
        };
        let Some(longer) = draft.lengthened(case.opening) else {
            continue;
        };
        let (book, longer) = (draft.words(), longer.words());
        fault::watch(case, &book);
        let day = case.read(&book);
        for call in calls(&mut rng, &day, Effort::Few) {
            let one = call.outcome(case, &book);
            let other = call.outcome(case.with_opening(0), &longer);
            if one != other {
                let what = format!("  {one:?}\n  with longer lengths {other:?}");
                fail(case, &book, &call, &what);
            }
        }
        let plans = day.as_ref().map_or(0, |day| day.list().len());
        made += u64::from(case.opening > 0);
        several += u64::from(case.opening > 0 && plans > 1);
        clashes += u64::from(plans == 0);
    }
    println!("{test}: {made} books with opening minutes, {several} of several plans, {clashes} refused for their rows");
    assert!(made > 2_000 && several > 200 && clashes > 500);
}

/// The same of an open desk, whose words then differ in the opening and the pages alone.
#[test]
fn a_desk_as_good_as_one_of_longer_lengths() {
    let test = "a desk as good as one of longer lengths";
    let (mut desks, mut several) = (0, 0);
    for i in 0..600 * books::times() {
        let case = Case::new(test, i).accepted();
        let mut rng = case.rng();
        let rows = 1 + rng.below(12);
        let draft = case.day(&mut rng, rows);
        let Some(longer) = draft.lengthened(case.opening) else {
            continue;
        };
        let (book, longer) = (draft.words(), longer.words());
        fault::watch(case, &book);
        let mut model = Desk::open(case.opening, &book).expect("accepted");
        let (mut one, mut other) = ([0; DESK_WORDS], [0; DESK_WORDS]);
        let told = desk::open(case.opening, &book, &mut one);
        assert_eq!(told, desk::open(0, &longer, &mut other));
        while !model.left.is_empty() {
            let differ = |&place: &usize| one[place] != other[place];
            let places = (0..=PAGES).filter(differ).count();
            assert_eq!(places, usize::from(case.opening > 0), "{case:?}");
            let plans = desk::plans(&one).expect("a list");
            assert_eq!(Ok(&plans), desk::plans(&other).as_ref(), "{case:?}");
            several += u64::from(plans.len() > 1 && case.opening > 0);
            for plan in 1..=plans.len() as u32 {
                let (mut a, mut b) = ([0; 12], [0; 12]);
                let told = desk::order_of_plan(&one, plan, &mut a);
                assert_eq!(told, desk::order_of_plan(&other, plan, &mut b), "{case:?}");
                assert_eq!(a, b, "{case:?}");
            }
            let row = rng.pick(&model.left);
            let ready = model.minute.max(model.row(row).release);
            let minute = (ready + rng.pick(&[0, 0, 1, 20])) as u32;
            let moved = model.start(row, minute);
            assert_eq!(desk::start(&mut one, row, minute), moved, "{case:?}");
            assert_eq!(desk::start(&mut other, row, minute), moved, "{case:?}");
        }
        desks += u64::from(case.opening > 0);
    }
    println!("{test}: {desks} desks with opening minutes, {several} lists of several plans");
    assert!(desks > 300 && several > 100);
}
