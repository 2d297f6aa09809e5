//! The archive against the model in the calls of the profile "first come, first due", with guard
//! words around every result buffer.
//!
//! `JELVAKSNA_SEED` sets the seed, `JELVAKSNA_TIMES` multiplies the number of books.

mod common;
#[path = "common/kit.rs"]
mod kit;

use common::{calls, compare, each_call, Call, Case, Effort};
use jelvaksna::books::{self, Draft, Rng};
use jelvaksna::linked::first_come;
use jelvaksna::model::{Day, MAX_ROWS};
use jelvaksna::{refusal, word, Pair, Profile};

fn case(test: &'static str, case: u64) -> Case {
    Case::of(Profile::FirstCome, test, case)
}

fn books(
    test: &'static str,
    count: u64,
    effort: Effort,
    make: impl FnMut(&mut Rng, Case) -> Vec<u32>,
) {
    let count = count * books::times();
    each_call(Profile::FirstCome, test, count, effort, make, compare);
}

/// All the calls that suit one book.
fn compare_all(case: Case, book: &[u32], effort: Effort) {
    let day = case.read(book);
    for call in calls(&mut case.rng(), &day, effort) {
        compare(case, book, &day, &call);
    }
}

#[test]
fn short_books() {
    books("first come, short books", 20_000, Effort::All, |rng, _| {
        let rows = 1 + rng.below(12);
        books::first_come(rng, rows).words()
    });
}

#[test]
fn middling_books() {
    books(
        "first come, middling books",
        2_000,
        Effort::All,
        |rng, _| {
            let rows = rng.range(13, 48) as usize;
            books::first_come(rng, rows).words()
        },
    );
}

#[test]
fn long_books() {
    books("first come, long books", 400, Effort::Few, |rng, case| {
        let rows = match case.case % 3 {
            0 => MAX_ROWS,
            _ => rng.range(49, MAX_ROWS as i64) as usize,
        };
        books::first_come(rng, rows).words()
    });
}

#[test]
fn crossing_books() {
    books("crossing books", 10_000, Effort::Few, |rng, case| {
        let rows = match case.case % 50 {
            0 => MAX_ROWS,
            _ => 2 + rng.below(39),
        };
        books::crossing(rng, rows).words()
    });
}

/// Books for the other calls: most of them cross.
#[test]
fn books_of_the_other_rule() {
    books(
        "first come, other rule",
        10_000,
        Effort::Few,
        |rng, case| {
            let rows = 1 + rng.below(8);
            match case.case % 4 {
                0 => books::accepted(rng, case.accepted_opening(), rows),
                1 => books::disagreeing(rng, rows + 1),
                _ => books::of_both_rules(rng, rows).varied(rng),
            }
            .words()
        },
    );
}

#[test]
fn damaged_books() {
    books("first come, damaged", 40_000, Effort::Few, |rng, case| {
        let rows = match case.case % 40 {
            0 => MAX_ROWS - rng.below(3),
            _ => 1 + rng.below(10),
        };
        let book = books::first_come(rng, rows).words();
        books::damaged(rng, &book)
    });
}

#[test]
fn random_words() {
    books("first come, random words", 10_000, Effort::Few, |rng, _| {
        let most = rng.pick(&[3, 12, 40, 1100]);
        books::random_words(rng, most)
    });
}

/// Every word of a small book with every kind and telling values, every cut of a full one.
#[test]
fn every_place() {
    let test = "first come, every place";
    let mut day = Draft::of(
        0,
        60,
        &[(901, 20, 5, 140), (902, 0, 10, 130), (903, 0, 1, 8)],
    );
    day.rows[1].class = Some(1);
    let sound = day.words();
    let values = [
        0,
        1,
        2,
        4,
        5,
        7,
        8,
        9,
        19,
        20,
        21,
        120,
        121,
        129,
        130,
        131,
        139,
        140,
        141,
        901,
        902,
        2_000,
        2_001,
        10_000_000,
        10_000_001,
        20_000_000,
        20_000_001,
        0x1fff_ffff,
    ];
    let mut made = 0;
    let mut check = |book: &[u32]| {
        compare_all(case(test, made), book, Effort::Few);
        made += 1;
    };
    assert!(Day::read_as(Profile::FirstCome, 0, &sound).is_ok());
    for at in 0..sound.len() {
        for kind in 0..8 {
            for value in values {
                let mut book = sound.clone();
                book[at] = word(kind, value);
                check(&book);
            }
        }
    }
    let full = books::steady_day(&mut Rng::new(1), MAX_ROWS).words();
    for len in 0..=full.len() {
        check(&full[..len]);
    }
    println!("{test}: {made} books");
}

/// The verdict on every order of few rows, and every number near those that count.
#[test]
fn every_number() {
    let test = "first come, every number";
    let mut made = 0;
    for i in 0..300 * books::times() {
        let case = case(test, i).accepted();
        let mut rng = case.rng();
        let rows = 1 + rng.below(5);
        let book = books::first_come(&mut rng, rows).words();
        let day = case.read(&book);
        let late = day.as_ref().expect("accepted").list()[0].late;
        let mut check = |call: Call| {
            compare(case, &book, &day, &call);
            made += 1;
        };
        let numbers: Vec<u32> = (1..=rows as u32).collect();
        for posting in kit::sequences(&numbers) {
            check(Call::Verdict { posting });
        }
        for row in 0..rows as u32 + 3 {
            check(Call::RowPlace { row });
        }
        for len in 0..2 * rows + 3 {
            check(Call::List { len });
            for plan in 0..4 {
                check(Call::OrderOfPlan { plan, len });
            }
            for bound in late - 2..=late + 2 {
                check(Call::OrderForBound { bound, len });
            }
        }
    }
    println!("{test}: {made} calls");
}

/// The latest end and lateness that a book can have, and the earliest work.
#[test]
fn limits() {
    for (i, (opening, draft, pair)) in books::at_the_limits().into_iter().enumerate() {
        let case = case("first come, limits", i as u64).with_opening(opening);
        let book = draft.words();
        assert_eq!(case.read(&book).unwrap().list(), [pair]);
        compare_all(case, &book, Effort::All);
    }
}

/// The typed wrapper on a day of two rows, with no opening minutes and with some.
#[test]
fn the_wrapper() {
    let book = Draft::of(0, 60, &[(901, 1, 1, 20), (902, 0, 10, 12)]).words();
    let pair = |end, late| Pair { end, late };
    // The plan: 0 to 10 to 11, or 0 to 13 to 17; the posting: 1 to 2 to 12, or 1 to 5 to 18.
    for (opening, plan, posting) in [
        (0, pair(11, -2), pair(12, 0)),
        (3, pair(17, 1), pair(18, 6)),
    ] {
        assert_eq!(first_come::plans(opening, &book).unwrap(), [plan]);
        let mut order = [0; 2];
        let given = first_come::order_for_bound(opening, &book, 5, &mut order);
        assert_eq!((given, order), (Ok(plan), [2, 1]));
        let given = first_come::order_of_plan(opening, &book, 1, &mut order);
        assert_eq!((given, order), (Ok(plan), [2, 1]));
        let verdict = first_come::verdict(opening, &book, &[1, 2]);
        assert_eq!(verdict, Ok((posting, Some(1))));
    }
    let told = first_come::plans(31, &book).unwrap_err();
    assert_eq!((told.number, told.place), (refusal::RANGE, 0));
    let words = first_come::row_words(&book, 2).unwrap();
    assert!(std::ptr::eq(words, &book[6..10]));
    let crossed = Draft::of(0, 60, &[(901, 1, 1, 5), (902, 0, 10, 12)]).words();
    let told = first_come::plans(0, &crossed).unwrap_err();
    assert_eq!((told.number, told.place), (refusal::CROSSED, 6));
}
