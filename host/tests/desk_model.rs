//! The model of the open desk against requests L6 to L8: worked starts and changes of pace, and small desks
//! against every way of finishing the rest. Needs no archive.

#[path = "common/kit.rs"]
mod kit;

use jelvaksna::books::{self, Draft, Rng, OPENINGS, PACES, REFUSED_OPENINGS, REFUSED_PACES};
use jelvaksna::desk_model::Desk;
use jelvaksna::model::{Day, Row};
use jelvaksna::refusal::{DISORDER, DONE, EARLY, NARROW, RANGE, UNLISTED};
use jelvaksna::{Moved, Opened, Pair, Refusal, MAX_PACE, MIN_PACE};

fn opened(opening: u32, free: i64, rows: &[(u32, i64, i64, i64)]) -> Desk {
    Desk::open(opening, &Draft::of(free, 60, rows).words()).expect("accepted")
}

fn moved<T>(minute: u32, worst: i32) -> Result<Moved, T> {
    Ok(Moved { minute, worst })
}

fn refused<T>(number: u32, place: usize) -> Result<T, Refusal> {
    Err(Refusal { number, place })
}

fn pair(end: u32, late: i32) -> Pair {
    Pair { end, late }
}

/// The first worked day of document 01, its long row first.
#[test]
fn a_worked_desk() {
    let mut desk = opened(0, 0, &[(901, 1, 1, 5), (902, 0, 10, 12)]);
    assert_eq!(desk.opened(), Opened { rows: 2, minute: 0 });
    assert_eq!(desk.list(), [pair(11, 6), pair(12, 0)]);
    // Number before done, done before early.
    assert_eq!(desk.start(0, 0), refused(UNLISTED, 2));
    assert_eq!(desk.start(3, 20_000_001), refused(UNLISTED, 2));
    assert_eq!(desk.start(1, 0), refused(EARLY, 0));
    assert_eq!(desk.start(2, 20_000_001), refused(EARLY, 0));
    assert_eq!(desk.start(2, 0), moved(10, -2));
    assert_eq!(desk.start(2, 0), refused(DONE, 2));
    assert_eq!(desk.start(2, 20_000_001), refused(DONE, 2));
    assert_eq!(desk.start(1, 9), refused(EARLY, 0));

    // Measured by the rows left, in their own numbers.
    assert_eq!(desk.list(), [pair(11, 6)]);
    assert_eq!(desk.list_into(&mut [0]), refused(NARROW, 0));
    let mut order = [0];
    assert_eq!(desk.order_of_plan_into(1, &mut order), Ok(pair(11, 6)));
    assert_eq!(order, [1]);
    assert_eq!(desk.order_of_plan_into(2, &mut []), refused(UNLISTED, 1));
    assert_eq!(desk.order_of_plan_into(1, &mut []), refused(NARROW, 0));

    assert_eq!(desk.start(1, 12), moved(13, 8));
    assert_eq!(desk.list_into(&mut []), Ok(0));
    assert_eq!(desk.order_of_plan_into(1, &mut []), refused(UNLISTED, 0));
}

/// The same with 3 opening minutes: a row ends at its start plus opening plus length, and a start moves
/// the desk there.
#[test]
fn a_worked_desk_with_opening_minutes() {
    let rows = [(901, 1, 1, 5), (902, 0, 10, 12)];
    let mut desk = opened(3, 0, &rows);
    assert_eq!(desk.opened(), Opened { rows: 2, minute: 0 });
    assert_eq!(desk.list(), [pair(17, 12), pair(18, 6)]);
    assert_eq!(desk.start(1, 0), refused(EARLY, 0));
    assert_eq!(desk.start(1, 2), moved(6, 1));
    assert_eq!(desk.start(2, 5), refused(EARLY, 0));
    assert_eq!(desk.list(), [pair(19, 7)]);
    assert_eq!(desk.start(2, 6), moved(19, 7));
    assert_eq!(desk.list(), []);
    // Before the book is looked at.
    for opening in REFUSED_OPENINGS {
        for book in [Draft::of(0, 60, &rows).words(), vec![], vec![0; 9]] {
            assert_eq!(
                Desk::open(opening, &book).err(),
                refused::<()>(RANGE, 0).err()
            );
        }
    }
}

/// A desk of rows of class 0 with number, release and pages, free from minute 0 at 60 pages an hour.
fn class_0(rows: &[(u32, i64, i64)]) -> Desk {
    let rows: Vec<_> = rows.iter().map(|row| (row.0, row.1, row.2, 0)).collect();
    let book = Draft::of(0, 60, &rows).of_class(0).words();
    Desk::open(0, &book).expect("accepted")
}

/// The plans of the rows left, each with its order.
fn plans(desk: &Desk) -> Vec<(u32, i32, Vec<u32>)> {
    let plans = (1..).zip(desk.list());
    plans
        .map(|(plan, &Pair { end, late })| {
            let mut order = vec![0; desk.left.len()];
            let told = desk.order_of_plan_into(plan, &mut order);
            assert_eq!(told, Ok(pair(end, late)));
            (end, late, order)
        })
        .collect()
}

/// Two rows of one class: at 30 pages an hour the one that is due first has less spare, 58 and 59 minutes.
#[test]
fn a_worked_change_that_is_refused() {
    let mut desk = class_0(&[(901, 0, 2), (902, 2, 1)]);
    assert_eq!([desk.row(1).due, desk.row(2).due], [62, 63]);
    for pace in REFUSED_PACES {
        assert_eq!(desk.pace(pace), refused(RANGE, 0));
    }
    assert_eq!(desk.pace(30), refused(DISORDER, 6));
    assert_eq!([desk.row(1).length, desk.row(2).length], [2, 1]);
    // The pace that it has is no other.
    assert_eq!(desk.pace(60), Ok(()));
    assert_eq!([desk.row(1).length, desk.row(2).length], [2, 1]);
    assert_eq!(desk.start(1, 0), moved(2, -60));
    assert_eq!(desk.pace(30), Ok(()));
    // What is done keeps its length, and every row its due.
    assert_eq!([desk.row(1).length, desk.row(2).length], [2, 2]);
    assert_eq!([desk.row(1).due, desk.row(2).due], [62, 63]);
    assert_eq!((desk.minute, desk.worst), (2, Some(-60)));
    assert_eq!(desk.start(2, 2), moved(4, -59));
    for pace in MIN_PACE..=MAX_PACE {
        assert_eq!(desk.pace(pace), Ok(()));
    }
    assert_eq!([desk.row(1).length, desk.row(2).length], [2, 2]);

    // Exact halves go up: at 120 pages an hour 1 page takes a minute, as 2 do.
    let mut desk = class_0(&[(901, 0, 1), (902, 0, 2)]);
    assert_eq!(desk.pace(120), refused(DISORDER, 6));

    // Of three rows, where either of the first two agrees with the third.
    let mut desk = class_0(&[(901, 0, 2), (902, 2, 1), (903, 2, 2)]);
    assert_eq!(desk.pace(30), refused(DISORDER, 6));
    assert_eq!(desk.start(1, 0), moved(2, -60));
    assert_eq!(plans(&desk), [(5, -59, vec![2, 3])]);
    assert_eq!(desk.pace(30), Ok(()));
    assert_eq!(plans(&desk), [(8, -56, vec![2, 3])]);
}

/// The place is that of the row in the book, with a row done above the two or between them.
#[test]
fn the_place_of_a_refused_change() {
    let mut desk = class_0(&[(901, 0, 1), (902, 0, 2), (903, 2, 1)]);
    assert_eq!(desk.start(1, 0), moved(1, -60));
    assert_eq!(desk.pace(30), refused(DISORDER, 10));
    let mut desk = class_0(&[(901, 0, 2), (902, 0, 1), (903, 2, 1)]);
    assert_eq!(desk.start(2, 0), moved(1, -60));
    assert_eq!(desk.pace(30), refused(DISORDER, 10));
    // The earliest row of those that disagree: 2 with 1, 4 with 3, then with row 1 done 4 alone.
    let mut desk = class_0(&[(901, 0, 2), (902, 2, 1), (903, 0, 4), (904, 4, 3)]);
    assert_eq!(desk.pace(30), refused(DISORDER, 6));
    assert_eq!(desk.start(1, 0), moved(2, -60));
    assert_eq!(desk.pace(30), refused(DISORDER, 14));
}

/// Other plans at another pace: two before and one after, one of another order, one before and two after.
#[test]
fn other_plans_at_another_pace() {
    let mut desk = class_0(&[(901, 2, 1), (902, 0, 1), (903, 1, 4)]);
    let before = [(6, -57, vec![2, 3, 1]), (7, -58, vec![2, 1, 3])];
    assert_eq!(plans(&desk), before);
    assert_eq!(desk.pace(30), Ok(()));
    assert_eq!(plans(&desk), [(12, -53, vec![2, 1, 3])]);
    assert_eq!(desk.pace(60), Ok(()));
    assert_eq!(plans(&desk), before);

    let mut desk = opened(0, 0, &[(901, 0, 4, 2), (902, 2, 1, 1), (903, 0, 1, 0)]);
    assert_eq!(plans(&desk), [(6, 5, vec![3, 1, 2])]);
    assert_eq!(desk.pace(30), Ok(()));
    assert_eq!(plans(&desk), [(12, 10, vec![3, 2, 1])]);

    let mut desk = opened(0, 0, &[(901, 1, 6, 3), (902, 0, 1, 0), (903, 3, 1, 1)]);
    assert_eq!(plans(&desk), [(8, 7, vec![2, 1, 3])]);
    assert_eq!(desk.pace(30), Ok(()));
    let after = [(16, 15, vec![2, 1, 3]), (17, 14, vec![2, 3, 1])];
    assert_eq!(plans(&desk), after);
}

/// The latest minute, end and lateness of a desk.
#[test]
fn the_limits() {
    for (opening, stand, end) in [(0, 20_030_000, 27_680_000), (30, 20_030_030, 27_687_680)] {
        let mut desk = Desk::open(opening, &books::latest_book().words()).expect("accepted");
        assert_eq!(desk.start(256, 20_000_001), refused(EARLY, 0));
        assert_eq!(desk.start(256, 20_000_000), moved(stand, stand as i32));
        assert_eq!(desk.list(), [pair(end, end as i32)]);
        // The pace can be changed all the same, and back.
        assert_eq!(desk.pace(120), Ok(()));
        assert_eq!(desk.minute, i64::from(stand));
        let sooner = end - 255 * 29_000;
        assert_eq!(desk.list(), [pair(sooner, sooner as i32)]);
        assert_eq!(desk.pace(4), Ok(()));
        assert_eq!(desk.list(), [pair(end, end as i32)]);
    }
}

/// The worst lateness so far never falls, and is none until a row is done.
#[test]
fn the_worst_so_far() {
    let mut desk = opened(0, 0, &[(1, 0, 1, 100), (2, 0, 2, 100), (3, 0, 3, 100)]);
    assert_eq!(desk.worst, None);
    assert_eq!(desk.start(1, 0), moved(1, -99));
    assert_eq!(desk.start(3, 50), moved(53, -47));
    assert_eq!(desk.start(2, 98), moved(100, 0));
    let mut desk = opened(0, 5, &[(1, 0, 1, 50), (2, 160, 1, 200)]);
    assert_eq!(desk.start(1, 59), moved(60, 10));
    assert_eq!(desk.start(2, 160), moved(161, 10));
}

/// The list is that of all orders of the rest, and each order of a plan attains it: the last one's order.
fn holds_of_every_order(desk: &Desk, context: &str) -> Vec<u32> {
    assert_eq!(desk.list(), desk.list_by_definition(), "{context}");
    let mut order = vec![0; desk.left.len()];
    for (plan, &pair) in (1..).zip(desk.list()) {
        let told = desk.order_of_plan_into(plan, &mut order);
        assert_eq!((told, desk.pair_of(&order)), (Ok(pair), pair), "{context}");
        let mut rows = order.clone();
        rows.sort();
        assert_eq!(rows, desk.left, "{context}");
    }
    order
}

/// After every start the list is that of all orders of the rest, and each order of a plan attains it.
#[test]
fn every_order_of_the_rest() {
    let mut counts = kit::Counts::default();
    for i in 0..1_500 * books::times() {
        let mut rng = Rng::for_case(books::seed(), "desk model", i);
        let opening = rng.pick(&OPENINGS);
        let rows = 1 + rng.below(6);
        let day = match i % 2 {
            0 if rows > 1 => books::many_plans(opening, rows).shuffled(&mut rng),
            _ => books::accepted(&mut rng, opening, rows),
        };
        let mut desk = Desk::open(opening, &day.words()).expect("accepted");
        while !desk.left.is_empty() {
            let order = holds_of_every_order(&desk, &format!("desk {i}: {desk:?}"));
            let several = desk.list().len() > 1 && desk.worst.is_some();
            counts.add_if(several, "several plans");
            counts.add_if(
                several && opening > 0,
                "several plans, with opening minutes",
            );
            // As the last plan has it, or any row.
            let number = match rng.below(3) {
                0 => rng.pick(&desk.left),
                _ => order[0],
            };
            let ready = desk.minute.max(desk.row(number).release);
            let minute = ready + rng.pick(&[0, 0, 0, 1, 7, 60]);
            desk.start(number, minute as u32).expect("accepted");
        }
        assert_eq!(desk.list(), []);
    }
    counts.at_least(150, "several plans");
    counts.at_least(100, "several plans, with opening minutes");
}

/// The nearest minute by its distance: of all minutes the one that is least far from the reading time, and
/// of two the later.
fn nearest_minute(pages: i64, pace: i64) -> i64 {
    let about = 60 * pages / pace;
    let far = |minute: &i64| (60 * pages - pace * minute).abs();
    (about..=about + 1).rev().min_by_key(far).expect("two")
}

/// A change of pace by what it does: the rows after it, or the row that is refused, counted from 1.
fn changed(desk: &Desk, pace: u32) -> Result<Vec<Row>, usize> {
    let mut rows = desk.rows.clone();
    for &number in &desk.left {
        let row = &mut rows[number as usize - 1];
        row.length = nearest_minute(row.pages, pace.into());
    }
    let row = |number: u32| rows[number as usize - 1];
    let spare = |row: Row| row.due - row.release - row.length;
    let at_odds = |a: u32, b: u32| {
        let (due, spare) = (row(a).due - row(b).due, spare(row(a)) - spare(row(b)));
        due.signum() * spare.signum() == 1
    };
    let above = |number: u32| desk.left.iter().filter(move |&&other| other < number);
    let bad = |&number: &u32| above(number).any(|&other| at_odds(number, other));
    match desk.left.iter().copied().find(bad) {
        Some(number) => Err(number as usize),
        None => Ok(rows),
    }
}

/// Starts and changes of pace by turns: each change is what it does, a refused one nothing; nothing but the
/// lengths of the rows left moves; and after each the list is that of all orders of the rest.
#[test]
fn every_change_of_pace() {
    let mut counts = kit::Counts::default();
    for i in 0..1_500 * books::times() {
        let mut rng = Rng::for_case(books::seed(), "desk model, changes", i);
        let opening = rng.pick(&OPENINGS);
        let rows = 1 + rng.below(6);
        let (day, paces) = match i % 3 {
            0 | 1 => books::lasting(&mut rng, opening, rows),
            _ => {
                let day = books::accepted(&mut rng, opening, rows);
                (day, [(); 3].map(|()| rng.pick(&PACES)))
            }
        };
        let mut desk = Desk::open(opening, &day.words()).expect("accepted");
        let mut repaced = false;
        while !desk.left.is_empty() {
            let before = desk.clone();
            let pace = rng.pick(&paces);
            let told = desk.pace(pace);
            let context = format!("desk {i}, pace {pace}: {before:?}");
            match changed(&before, pace) {
                Ok(rows) => {
                    assert_eq!((told, &desk.rows), (Ok(()), &rows), "{context}");
                    repaced |= desk.rows != before.rows;
                }
                Err(row) => {
                    assert_eq!(told, refused(DISORDER, 4 * row - 2), "{context}");
                    assert_eq!(desk.rows, before.rows, "{context}");
                    assert!(i % 3 == 2, "{context}");
                }
            }
            let rest = |desk: &Desk| (desk.left.clone(), desk.minute, desk.worst, desk.opening);
            assert_eq!(rest(&desk), rest(&before), "{context}");
            let order = holds_of_every_order(&desk, &context);
            counts.add(format!("change {}", told.map_or_else(|r| r.number, |()| 0)));
            counts.add_if(desk.rows != before.rows, "change of a length");
            let several = repaced && desk.list().len() > 1;
            counts.add_if(several, "several plans after a change");
            let number = match rng.below(3) {
                0 => rng.pick(&desk.left),
                _ => order[0],
            };
            let ready = desk.minute.max(desk.row(number).release);
            let minute = ready + rng.pick(&[0, 0, 0, 1, 7, 60]);
            desk.start(number, minute as u32).expect("accepted");
        }
    }
    println!("every change of pace: {:?}", counts.0);
    counts.at_least(2_000, "change 0");
    counts.at_least(200, "change 8");
    counts.at_least(1_000, "change of a length");
    counts.at_least(300, "several plans after a change");
}

/// A desk is opened with dues that a class gave at the book's pace. Rows of one class agree in a book of any
/// pace, and on a desk come to disagree: dues are not worked out again.
#[test]
fn dues_of_a_class_stay() {
    let mut refusals = 0;
    for i in 0..500 * books::times() {
        let mut rng = Rng::for_case(books::seed(), "desk model, classes", i);
        let rows = 2 + rng.below(10);
        let mut day = books::typical_day(&mut rng, 0, rows).of_class(i as u32 % 8);
        let mut desk = Desk::open(0, &day.words()).expect("accepted");
        let pace = rng.pick(&PACES);
        let before = desk.clone();
        let told = desk.pace(pace);
        let dues = |desk: &Desk| desk.rows.iter().map(|row| row.due).collect::<Vec<_>>();
        assert_eq!(dues(&desk), dues(&before));
        day.pace = pace.into();
        assert!(Day::read(0, &day.words()).is_ok());
        refusals += u64::from(told.is_err());
    }
    println!("dues of a class stay: {refusals} changes refused");
    assert!(refusals > 200);
}
