//! The archive against the model: every call, on books long and short, accepted and damaged, with
//! guard words around every result buffer.
//!
//! `JELVAKSNA_SEED` sets the seed, `JELVAKSNA_TIMES` multiplies the number of books.

mod common;

use common::{calls, compare, each_call, Call, Case, Effort};
use jelvaksna::books::{self, Draft, Rng, OPENINGS, REFUSED_OPENINGS};
use jelvaksna::model::{Day, MAX_ROWS};
use jelvaksna::refusal::{CUT, RANGE, UNLISTED};
use jelvaksna::{linked, word, Pair, Profile, Refusal};

fn books(
    test: &'static str,
    count: u64,
    effort: Effort,
    make: impl FnMut(&mut Rng, Case) -> Vec<u32>,
) {
    each_call(Profile::OrderingRule, test, count, effort, make, compare);
}

/// All the calls that suit one book.
fn compare_all(case: Case, book: &[u32], effort: Effort) {
    let day = case.read(book);
    for call in calls(&mut case.rng(), &day, effort) {
        compare(case, book, &day, &call);
    }
}

#[test]
fn short_books() {
    let count = 8_000 * books::times();
    books("short books", count, Effort::All, |rng, case| {
        let rows = 1 + rng.below(12);
        books::accepted(rng, case.accepted_opening(), rows).words()
    });
}

#[test]
fn middling_books() {
    let count = 800 * books::times();
    books("middling books", count, Effort::All, |rng, case| {
        let rows = rng.range(13, 48) as usize;
        books::accepted(rng, case.accepted_opening(), rows).words()
    });
}

#[test]
fn long_books() {
    let count = 120 * books::times();
    books("long books", count, Effort::Few, |rng, case| {
        books::long(rng, case.accepted_opening(), case.case).words()
    });
}

#[test]
fn books_with_a_plan_for_each_row() {
    // Each day as it is, then unsorted and in a class.
    let day = |rng: &mut Rng, case: Case, rows: usize| {
        let day = books::many_plans(case.accepted_opening(), rows);
        match case.case % 2 {
            0 => day,
            _ => day.of_class(case.case as u32 / 2 % 8).shuffled(rng),
        }
    };
    books("many plans", 96, Effort::All, |rng, case| {
        day(rng, case, case.case as usize / 4 + 2).words()
    });
    let long = [64, 100, MAX_ROWS];
    books("very many plans", 12, Effort::Few, |rng, case| {
        day(rng, case, long[case.case as usize / 4]).words()
    });
}

#[test]
fn disagreeing_books() {
    let count = 6_000 * books::times();
    books("disagreeing books", count, Effort::Few, |rng, case| {
        let rows = match case.case % 50 {
            0 => MAX_ROWS,
            _ => 2 + rng.below(39),
        };
        books::disagreeing(rng, rows).words()
    });
}

#[test]
fn damaged_books() {
    let count = 40_000 * books::times();
    books("damaged books", count, Effort::Few, |rng, case| {
        let rows = 1 + rng.below(10);
        let book = books::accepted(rng, case.accepted_opening(), rows).words();
        books::damaged(rng, &book)
    });
}

#[test]
fn damaged_long_books() {
    let count = 1_500 * books::times();
    books("damaged long books", count, Effort::Few, |rng, case| {
        let rows = match case.case % 4 {
            0 => MAX_ROWS,
            _ => 1 + rng.below(MAX_ROWS),
        };
        let day = books::typical_day(rng, case.accepted_opening(), rows);
        let book = day.varied(rng).words();
        books::damaged(rng, &book)
    });
}

#[test]
fn random_words() {
    let count = 20_000 * books::times();
    books("random words", count, Effort::Few, |rng, _| {
        let most = rng.pick(&[3, 12, 40, 1100]);
        books::random_words(rng, most)
    });
}

/// Every word of small books, and the word after row 256, with every kind and telling values; every
/// cut of full books.
#[test]
fn every_place() {
    let test = "every place";
    let rows = [(901, 1, 1, 5), (902, 0, 10, 12), (903, 20, 5, 27)];
    let dues = Draft::of(0, 60, &rows);
    let classes = dues.clone().of_class(1);
    // A class row between due rows, unsorted.
    let rows = [(903, 20, 5, 140), (902, 0, 10, 130), (901, 1, 1, 130)];
    let mut between = Draft::of(0, 60, &rows);
    between.rows[1].class = Some(1);
    let mut values = vec![
        0, 1, 2, 3, 4, 5, 6, 7, 8, 9, 12, 119, 120, 121, 901, 902, 1_999, 2_000, 2_001,
    ];
    values.extend([
        10_000_000,
        10_000_001,
        20_000_000,
        20_000_001,
        (1 << 29) - 1,
    ]);
    let mut made = 0;
    let mut check = |book: &[u32]| {
        compare_all(Case::new(test, made), book, Effort::Few);
        made += 1;
    };
    for day in [dues, classes, between] {
        let sound = day.words();
        assert!(Day::read(0, &sound).is_ok());
        for at in 0..sound.len() {
            for kind in 0..8 {
                for &value in &values {
                    let mut book = sound.clone();
                    book[at] = word(kind, value);
                    check(&book);
                    book.push(book[at]);
                    check(&book);
                }
            }
        }
    }
    let full = books::typical_day(&mut Rng::new(1), 0, MAX_ROWS);
    for full in [full.clone().of_class(3).words(), full.words()] {
        for len in 0..=full.len() {
            check(&full[..len]);
        }
    }
    let full = full.words();
    // After row 256: every kind, with numbers that stand in the book and numbers that do not.
    let at = full.len() - 1;
    values.extend([
        255,
        256,
        257,
        full[2] & 0x1fff_ffff,
        full[at - 4] & 0x1fff_ffff,
    ]);
    for kind in 0..8 {
        for &value in &values {
            let mut book = full.clone();
            book[at] = word(kind, value);
            check(&book);
            book.extend(&full[at - 3..]);
            check(&book);
        }
    }
    println!("{test}: {made} books");
}

/// Every class, at the limits of pace, release and pages: a row's due shows in its lateness, and in
/// the dues that another row may have.
#[test]
fn every_class() {
    let test = "every class";
    let mut made = 0;
    for class in 0..8 {
        for (pace, release, pages) in [
            (60, 0, 1),
            (40, 100, 7),
            (120, 10_000_000, 1),
            (4, 10_000_000, 2_000),
        ] {
            let one = Draft::of(0, pace, &[(901, release, pages, 0)]).of_class(class);
            let due = one.rows[0].due;
            let mut days = vec![one.clone()];
            // The same row once more, due or class, above and below it.
            for other in [due - 1, due, due + 1] {
                let rows = [(901, release, pages, due), (902, release, pages, other)];
                let mut day = Draft::of(0, pace, &rows);
                day.rows[0].class = Some(class);
                days.push(day.clone());
                day.rows.swap(0, 1);
                days.push(day);
            }
            for other in 0..8 {
                let rows = [(901, release, pages, due), (902, release, pages, 0)];
                let mut day = Draft::of(0, pace, &rows).of_class(class);
                day.rows[1].class = Some(other);
                days.push(day);
            }
            for day in days {
                compare_all(Case::new(test, made), &day.words(), Effort::All);
                made += 1;
            }
            for opening in OPENINGS {
                let plans = linked::plans(opening, &one.words()).unwrap();
                assert_eq!(plans[0].late as i64, plans[0].end as i64 - due);
            }
        }
    }
    println!("{test}: {made} books");
}

/// Every row, every plan and every bound near a lateness, on a few days.
#[test]
fn every_number() {
    let test = "every number";
    for i in 0..40 {
        let case = Case::new(test, i).accepted();
        let mut rng = case.rng();
        let rows = 1 + rng.below(30);
        let book = books::several_plans(&mut rng, case.opening, rows)
            .varied(&mut rng)
            .words();
        let day = case.read(&book);
        let read = day.as_ref().expect("accepted");
        let (rows, plans) = (read.rows.len(), read.list().to_vec());
        for row in 0..rows as u32 + 3 {
            compare(case, &book, &day, &Call::RowPlace { row });
        }
        for plan in 0..plans.len() as u32 + 3 {
            let len = rows;
            compare(case, &book, &day, &Call::OrderOfPlan { plan, len });
        }
        for bound in plans.iter().flat_map(|p| p.late - 2..=p.late + 2) {
            let len = rows;
            compare(case, &book, &day, &Call::OrderForBound { bound, len });
        }
        for len in 0..2 * rows + 3 {
            compare(case, &book, &day, &Call::List { len });
        }
    }
}

/// The worked days of document 01 and of the requests, to whose answers tests/model.rs holds the
/// model.
#[test]
fn worked_days() {
    let two = [(901, 1, 1, 5), (902, 0, 10, 12)];
    let three = [two[0], two[1], (903, 20, 5, 27)];
    let four = [two[0], two[1], (903, 101, 1, 104), (904, 100, 20, 122)];
    let days = [
        Draft::of(0, 60, &two),
        Draft::of(0, 60, &three),
        Draft::of(0, 60, &[two[0], (902, 0, 10, 13)]),
        Draft::of(0, 60, &[two[0], (902, 0, 10, 14)]),
        Draft::of(7, 60, &[(1, 3, 4, 10)]),
        Draft::of(0, 60, &[(1, 0, 2, 5), (2, 0, 2, 5)]),
        Draft::of(0, 40, &[(1, 0, 7, 11)]),
        Draft::of(0, 50, &[(1, 0, 1, 1)]),
        Draft::of(0, 60, &four),
        Draft::of(0, 60, &[]),
        Draft::of(0, 60, &two).of_class(0),
        Draft::of(0, 60, &four).of_class(7),
        // Rows as they arrive: unsorted, at odds with a row that is not the one above, ties.
        Draft::of(0, 60, &[two[1], two[0]]),
        Draft::of(0, 60, &[three[2], three[0], three[1]]),
        Draft::of(0, 60, &[two[0], three[2], (902, 0, 10, 14)]),
        Draft::of(0, 60, &[(902, 0, 10, 14), three[2], two[0]]),
        Draft::of(10, 60, &[(1, 0, 10, 50), (2, 5, 2, 50)]),
        Draft::of(10, 60, &[(1, 0, 10, 50), (2, 5, 5, 50)]),
        Draft::of(0, 60, &[(1, 0, 10, 14), (2, 1, 3, 9), (3, 1, 1, 9)]),
        // Reading times between whole minutes: the two rows at another pace, and exact halves.
        Draft::of(0, 50, &[two[0], (902, 0, 8, 12)]),
        Draft::of(0, 50, &[two[0], (902, 0, 8, 13)]),
        Draft::of(0, 50, &[two[0], (902, 0, 8, 14)]),
        Draft::of(0, 40, &[(1, 1, 1, 0), (2, 0, 7, 0)]).of_class(1),
    ];
    for (i, draft) in days.iter().enumerate() {
        for opening in OPENINGS.into_iter().chain(REFUSED_OPENINGS) {
            let case = Case::new("worked days", i as u64).with_opening(opening);
            let book = draft.words();
            let day = case.read(&book);
            compare_all(case, &book, Effort::All);
            for bound in -3..20 {
                for len in 0..5 {
                    compare(case, &book, &day, &Call::OrderForBound { bound, len });
                }
            }
            for posting in [[1, 2, 3], [2, 1, 3], [3, 2, 1], [1, 1, 2], [1, 2, 4]] {
                let posting = posting.to_vec();
                compare(case, &book, &day, &Call::Verdict { posting });
            }
        }
    }
}

/// Every length that a book can have, as the end of its only row, and in the due of a class.
#[test]
fn every_length() {
    let mut rows = 0;
    for pace in 4..=120 {
        for pages in 1..=2_000 {
            let case = Case::new("every length", rows);
            let day = Draft::of(0, pace, &[(1, 5, pages, 7)]);
            for book in [day.words(), day.of_class(0).words()] {
                compare(case, &book, &case.read(&book), &Call::List { len: 2 });
            }
            rows += 1;
        }
    }
    println!("every length: {rows} rows, each with a due and with a class");
}

/// The latest end and lateness that a book can have, and the earliest work.
#[test]
fn limits() {
    for (i, (opening, draft, pair)) in books::at_the_limits().into_iter().enumerate() {
        let case = Case::new("limits", i as u64).with_opening(opening);
        let book = draft.words();
        assert_eq!(case.read(&book).unwrap().list(), [pair]);
        compare_all(case, &book, Effort::All);
    }
}

/// The typed wrapper on the first worked day, with no opening minutes and with some.
#[test]
fn the_wrapper() {
    let rows = [(901, 1, 1, 5), (902, 0, 10, 12)];
    let book = Draft::of(0, 60, &rows).words();
    let pair = |end, late| Pair { end, late };
    let refusal = |number, place| Refusal { number, place };
    let plans = linked::plans(0, &book).unwrap();
    assert_eq!(plans, [pair(11, 6), pair(12, 0)]);
    let mut order = [0; 2];
    let given = linked::order_for_bound(0, &book, 5, &mut order);
    assert_eq!((given, order), (Ok(pair(12, 0)), [1, 2]));
    let given = linked::order_of_plan(0, &book, 1, &mut order);
    assert_eq!((given, order), (Ok(pair(11, 6)), [2, 1]));
    assert_eq!(linked::verdict(0, &book, &[1, 2]), Ok((pair(12, 0), None)));

    // Each row takes 3 minutes more: 0 to 13 to 17, or 1 to 5 to 18.
    let plans = linked::plans(3, &book).unwrap();
    assert_eq!(plans, [pair(17, 12), pair(18, 6)]);
    let given = linked::order_for_bound(3, &book, 11, &mut order);
    assert_eq!((given, order), (Ok(pair(18, 6)), [1, 2]));
    let given = linked::order_of_plan(3, &book, 1, &mut order);
    assert_eq!((given, order), (Ok(pair(17, 12)), [2, 1]));
    assert_eq!(linked::verdict(3, &book, &[1, 2]), Ok((pair(18, 6), None)));
    assert_eq!(linked::plans(31, &book), Err(refusal(RANGE, 0)));
    assert_eq!(linked::plans(31, &[]), Err(refusal(RANGE, 0)));

    let words = linked::row_words(&book, 2).unwrap();
    assert!(std::ptr::eq(words, &book[6..10]));
    let classes = Draft::of(0, 60, &rows).of_class(0).words();
    let plans = linked::plans(0, &classes).unwrap();
    assert_eq!(plans, [pair(11, -51), pair(12, -58)]);
    assert_eq!(linked::row_words(&classes, 2).unwrap()[3], word(0, 0));
    assert_eq!(linked::row_words(&book, 3), Err(refusal(UNLISTED, 2)));
    assert_eq!(linked::plans(0, &[]), Err(refusal(CUT, 0)));
}
