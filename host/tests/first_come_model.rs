//! The model of the profile "first come, first due" against its text, against trying every order,
//! and the maker of its books against what it promises. Needs no archive.

#[path = "common/kit.rs"]
mod kit;

use jelvaksna::books::{self, Draft, DraftRow, Rng, OPENINGS};
use jelvaksna::model::Day;
use jelvaksna::{word, Pair, Profile, Refusal};
use kit::{sequences, Counts};
use std::collections::BTreeSet;

fn read(book: &[u32]) -> Result<Day, Refusal> {
    Day::read_as(Profile::FirstCome, 0, book)
}

fn day(draft: &Draft) -> Day {
    day_with(0, draft)
}

/// An accepted day with opening minutes.
fn day_with(opening: u32, draft: &Draft) -> Day {
    Day::read_as(Profile::FirstCome, opening, &draft.words()).expect("an accepted day")
}

fn pair(end: u32, late: i32) -> Pair {
    Pair { end, late }
}

fn refused<T>(number: u32, place: usize) -> Result<T, Refusal> {
    Err(Refusal { number, place })
}

/// What refuses a book: number and place.
fn refusal(book: &[u32]) -> Option<(u32, usize)> {
    read(book).err().map(|r| (r.number, r.place))
}

/// A desk free from minute 0 at 60 pages an hour, and rows of release, pages (and so minutes) and
/// due, numbered from 901.
fn rows_of(rows: &[(i64, i64, i64)]) -> Draft {
    let number = |(i, &(release, pages, due))| (901 + i as u32, release, pages, due);
    let rows: Vec<_> = rows.iter().enumerate().map(number).collect();
    Draft::of(0, 60, &rows)
}

#[test]
fn two_rows_cross_where_one_is_released_earlier_and_due_later() {
    for release in 8..=12 {
        for due in 48..=52 {
            let cross = release < 10 && due > 50 || release > 10 && due < 50;
            for rows in sequences(&[(10, 4, 50), (release, 9, due)]) {
                let book = rows_of(&rows).words();
                assert_eq!(refusal(&book), cross.then_some((13, 6)), "{rows:?}");
            }
        }
    }
    // The dues of classes: 80 at release 10, beside 79, 80 and 81 at release 11.
    for (pages, cross) in [(8, true), (9, false), (10, false)] {
        let classes = rows_of(&[(10, 10, 0), (11, pages, 0)]).of_class(0);
        assert_eq!(refusal(&classes.words()), cross.then_some((13, 6)));
    }
}

#[test]
fn the_earliest_row_that_crosses() {
    // The second row crosses the first; the third crosses neither.
    let (one, other, third) = ((1, 1, 20), (2, 10, 14), (20, 5, 27));
    let told = |rows: &[(i64, i64, i64)]| refusal(&rows_of(rows).words());
    for rows in sequences(&[one, other, third]) {
        let later = if rows[2] == third { 6 } else { 10 };
        assert_eq!(told(&rows), Some((13, later)));
    }
    // A hundred rows between them that cross neither.
    let apart = [vec![one], vec![third; 100], vec![other, third]].concat();
    assert_eq!(told(&apart), Some((13, 2 + 4 * 101)));
    // Two more that cross each other alone. Where rows 3 and 4 both cross a row above, row 3 is told.
    let (a, b) = ((42, 1, 54), (43, 10, 45));
    assert_eq!(told(&[a, one, third, b]), Some((13, 14)));
    assert_eq!(told(&[a, one, other, b]), Some((13, 10)));
    assert_eq!(told(&[a, one, b, other]), Some((13, 10)));
    // Row 1 crosses every other row, the others none.
    let late = (0, 1, 1_000);
    assert_eq!(told(&[late, one, third, a]), Some((13, 6)));
    assert_eq!(told(&[one, third, a, late]), Some((13, 14)));
}

#[test]
fn the_one_plan_goes_by_release_then_due_then_row() {
    // Released at 3, 5, 5, 5 and 9; two of those at 5 are due alike, the long one above.
    let rows = [(9, 1, 40), (5, 7, 30), (5, 2, 30), (5, 4, 20), (3, 1, 20)];
    let day = day(&rows_of(&rows));
    // 3 to 4, 5 to 9, to 16, to 18, to 19.
    let plan = (pair(19, -11), vec![5, 4, 2, 3, 1]);
    assert_eq!(day.list(), [plan.0]);
    assert_eq!(day.order_of_plan(1), plan);
    assert_eq!(day.order_for_bound(-11), Some(plan.clone()));
    assert_eq!(day.order_for_bound(i32::MAX), Some(plan));
    assert_eq!(day.order_for_bound(-12), None);
    // A desk that is free late changes nothing about the order.
    let mut late = rows_of(&rows);
    late.free = 100;
    let plan = (pair(115, 85), vec![5, 4, 2, 3, 1]);
    assert_eq!(self::day(&late).order_of_plan(1), plan);
    // Nor do opening minutes. 3 to 7, to 14, to 24, to 29, to 33.
    let plan = (pair(33, -1), vec![5, 4, 2, 3, 1]);
    assert_eq!(day_with(3, &rows_of(&rows)).order_of_plan(1), plan);
}

#[test]
fn accepted_by_one_rule_by_both_or_by_neither() {
    let either = |rows: &[(i64, i64, i64)]| {
        let book = rows_of(rows).words();
        let other = Day::read(0, &book).err().map(|r| r.number);
        (refusal(&book).map(|r| r.0), other)
    };
    assert_eq!(either(&[(1, 1, 5), (0, 10, 12)]), (Some(13), None));
    assert_eq!(either(&[(1, 1, 20), (0, 10, 12)]), (None, Some(8)));
    assert_eq!(either(&[(1, 1, 5), (0, 10, 14)]), (Some(13), Some(8)));
    assert_eq!(either(&[(0, 10, 12), (1, 10, 13)]), (None, None));
    // Both are there at minute 10 and due at 50: by release here, by release plus length there.
    let both = Draft::of(10, 60, &[(901, 0, 10, 50), (902, 5, 2, 50)]);
    let standard = Day::read(0, &both.words()).unwrap();
    assert_eq!(day(&both).order_of_plan(1), (pair(22, -28), vec![1, 2]));
    assert_eq!(standard.order_of_plan(1), (pair(22, -28), vec![2, 1]));
}

#[test]
fn refusals_in_their_sequence() {
    // The rows cross: after every other test of the words, before every test of what is asked.
    let crossed = rows_of(&[(0, 10, 12), (1, 1, 5)]).words();
    let with = |at: usize, new: u32| {
        let mut book = crossed.clone();
        book[at] = new;
        refusal(&book)
    };
    assert_eq!(refusal(&crossed), Some((13, 6)));
    assert_eq!(refusal(&[&crossed[..], &[0]].concat()), Some((7, 11)));
    assert_eq!(refusal(&crossed[..10]), Some((1, 10)));
    assert_eq!(with(10, word(7, 3)), Some((6, 10)));
    assert_eq!(with(8, word(5, 0)), Some((3, 8)));
    assert_eq!(with(6, word(3, 901)), Some((4, 6)));
    let day = day(&rows_of(&[(1, 1, 20), (0, 10, 12)]));
    let mut two = [7; 2];
    assert_eq!(day.list_into(&mut [0; 3]), refused(9, 0));
    assert_eq!(day.order_for_bound_into(-3, &mut [0; 1]), refused(9, 0));
    assert_eq!(day.order_for_bound_into(-3, &mut two), refused(12, 0));
    for plan in [0, 2, 3, u32::MAX] {
        assert_eq!(day.order_of_plan_into(plan, &mut [0; 1]), refused(11, 1));
    }
    assert_eq!(day.order_of_plan_into(1, &mut [0; 1]), refused(9, 0));
    assert_eq!(two, [7; 2]);
    assert_eq!(day.verdict(&[1]), refused(10, 1));
    assert_eq!(day.verdict(&[2, 2]), refused(10, 1));
    assert_eq!(day.row_place(3), refused(11, 2));
    assert_eq!(day.row_place(2), Ok(6));
    // One plan, and room for two in the list.
    let mut list = [7; 5];
    assert_eq!(day.list_into(&mut list), Ok(1));
    assert_eq!(list, [11, -2i32 as u32, 7, 7, 7]);
    assert_eq!(day.verdict(&[2, 1]), Ok((pair(11, -2), None)));
    assert_eq!(day.verdict(&[1, 2]), Ok((pair(12, 0), Some(1))));
}

/// The pair of an order, as the desk goes through it: each row takes opening plus length.
fn gone_through(opening: u32, draft: &Draft, order: &[u32]) -> Pair {
    let (mut minute, mut worst) = (draft.free, i64::MIN);
    for &row in order {
        let row = &draft.rows[row as usize - 1];
        minute = minute.max(row.release) + i64::from(opening) + draft.reach(row) - row.release;
        worst = worst.max(minute - row.due);
    }
    pair(minute as u32, worst as i32)
}

/// The one plan is no later than any order, in its end and at worst; bounds and verdicts by their
/// definitions, the verdict on every posting.
fn against_every_order(test: &str, books: u64, least: usize, most: usize) {
    let seed = books::seed();
    let (mut postings, mut beaten, mut unkept) = (0, 0, 0);
    for case in 0..books {
        let mut rng = Rng::for_case(seed, test, case);
        let rows = rng.range(least as i64, most as i64) as usize;
        let opening = rng.pick(&OPENINGS);
        let draft = books::first_come(&mut rng, rows);
        let context = format!("seed {seed:#x}, {test}, case {case}, opening {opening}: {draft:?}");
        let day = day_with(opening, &draft);
        let (plan, order) = day.order_of_plan(1);
        assert_eq!(day.list(), [plan], "{context}");
        assert_eq!(gone_through(opening, &draft, &order), plan, "{context}");
        let numbers: Vec<u32> = (1..=rows as u32).collect();
        for posting in sequences(&numbers) {
            let told = gone_through(opening, &draft, &posting);
            let no_later = plan.end <= told.end && plan.late <= told.late;
            assert!(no_later, "{posting:?}, {context}");
            let by = (told != plan).then_some(1);
            assert_eq!(day.verdict(&posting), Ok((told, by)), "{context}");
            // For the lateness of any order as bound: the one plan keeps it too.
            let kept = day.order_for_bound(told.late);
            assert_eq!(kept, Some((plan, order.clone())), "{context}");
            postings += 1;
            beaten += u64::from(by.is_some());
        }
        unkept += u64::from(day.order_for_bound(plan.late - 1).is_none());
    }
    println!("{test}: seed {seed:#x}, {books} books of {least} to {most} rows, {postings} postings, {beaten} beaten");
    assert_eq!(unkept, books);
    assert!(beaten > postings / 4 && beaten < postings);
}

#[test]
fn every_order_of_few_rows() {
    against_every_order("first come, few rows", 3_000 * books::times(), 1, 6);
}

#[test]
fn every_order_of_seven_rows() {
    against_every_order("first come, seven rows", 60 * books::times(), 7, 7);
}

/// Where both rules accept a book both list the same.
#[test]
fn both_rules_list_the_same() {
    let seed = books::seed();
    let mut other_order = 0;
    for case in 0..3_000 * books::times() {
        let mut rng = Rng::for_case(seed, "both rules", case);
        let rows = books::some_rows(&mut rng, 256);
        let opening = rng.pick(&OPENINGS);
        let draft = books::of_both_rules(&mut rng, rows).shuffled(&mut rng);
        let context = format!("seed {seed:#x}, case {case}, opening {opening}: {draft:?}");
        let standard = Day::read(opening, &draft.words()).expect(&context);
        let day = day_with(opening, &draft);
        assert_eq!(day.list(), standard.list(), "{context}");
        other_order += u64::from(day.order_of_plan(1) != standard.order_of_plan(1));
    }
    println!("both rules: seed {seed:#x}, {other_order} with another order");
    assert!(other_order > 100);
}

/// The pairs of rows that cross, counted from 0, by the later of the two.
fn crossing(rows: &[DraftRow]) -> Vec<(usize, usize)> {
    let pairs = (0..rows.len()).flat_map(|later| (0..later).map(move |earlier| (earlier, later)));
    let cross = |&(a, b): &(usize, usize)| {
        let (release, due) = (rows[a].release - rows[b].release, rows[a].due - rows[b].due);
        release.signum() * due.signum() == -1
    };
    pairs.filter(cross).collect()
}

fn count_accepted(counts: &mut Counts, draft: &Draft, day: &Day) {
    let rows = &draft.rows;
    let some = |is: fn(&DraftRow, &DraftRow) -> bool| {
        let above = |(i, row)| rows[..i].iter().any(|above| is(above, row));
        rows.iter().enumerate().any(above)
    };
    let releases = some(|a, b| a.release == b.release && a.due != b.due);
    counts.add_if(releases, "equal releases of different dues");
    let dues = some(|a, b| a.release != b.release && a.due == b.due);
    counts.add_if(dues, "equal dues of different releases");
    let alike = |a: &DraftRow, b: &DraftRow| (a.release, a.due) == (b.release, b.due);
    counts.add_if(some(alike), "equal releases and dues");
    let pages = some(|a, b| (a.release, a.due, a.pages) == (b.release, b.due, b.pages));
    counts.add_if(pages, "equal rows");
    counts.add_if(rows.len() == 1, "1 row");
    counts.add_if(rows.len() > 100, "over 100 rows");
    let (order, late) = (day.order_of_plan(1).1, day.list()[0].late);
    counts.add_if(late < 0, "early");
    counts.add_if(late > 0, "late");
    counts.add_if(order.is_sorted() && rows.len() > 1, "as they stand");
    counts.add_if(!order.is_sorted(), "another order than they stand in");
    let latest = rows.iter().any(|row| row.release == 10_000_000);
    counts.add_if(latest, "the latest release");
    let latest = rows.iter().any(|row| row.due == 20_000_000);
    counts.add_if(latest, "the latest due");
    let classes: BTreeSet<_> = rows.iter().map(|row| row.class).collect();
    for class in classes.iter().flatten() {
        counts.add(format!("class {class}"));
    }
    counts.add_if(classes.len() > 2, "several classes");
    let one = rows.len() > 1 && classes.len() == 1 && day.has_classes();
    counts.add_if(one, "one class");
    let other = Day::read(0, &draft.words());
    counts.add_if(other.is_ok() && rows.len() > 1, "accepted by both rules");
    counts.add_if(other.is_err(), "accepted by the profile alone");
}

#[test]
fn the_maker_makes_what_it_says() {
    let seed = books::seed();
    let mut counts = Counts::default();
    for case in 0..4_000 {
        let mut rng = Rng::for_case(seed, "first come maker", case);
        let rows = match case {
            0..=255 => case as usize + 1,
            _ => books::some_rows(&mut rng, 48),
        };
        let draft = books::first_come(&mut rng, rows);
        let context = format!("seed {seed:#x}, case {case}: {draft:?}");
        let day = read(&draft.words()).expect(&context);
        let dues = draft.rows.iter().map(|row| row.due);
        assert!(dues.eq(day.rows.iter().map(|row| row.due)), "{context}");
        assert!(crossing(&draft.rows).is_empty(), "{context}");
        count_accepted(&mut counts, &draft, &day);
        for _ in 0..4 {
            match read(&books::damaged(&mut rng, &draft.words())) {
                Ok(_) => counts.add("damaged, yet accepted"),
                Err(refusal) => counts.add(format!("refused {}", refusal.number)),
            }
        }
    }
    println!("first come maker: seed {seed:#x}, {:?}", counts.0);
    for what in [
        "equal releases of different dues",
        "equal dues of different releases",
        "equal releases and dues",
        "equal rows",
        "1 row",
        "over 100 rows",
        "early",
        "late",
        "as they stand",
        "another order than they stand in",
        "the latest release",
        "the latest due",
        "several classes",
        "one class",
        "accepted by both rules",
        "accepted by the profile alone",
        "damaged, yet accepted",
    ] {
        counts.at_least(100, what);
    }
    for class in 0..8 {
        counts.at_least(100, format!("class {class}"));
    }
    for number in (1..=7).chain([13]) {
        counts.at_least(100, format!("refused {number}"));
    }
}

/// Two rows cross, or two and two others, and nothing else is wrong.
#[test]
fn the_maker_of_crossing() {
    let seed = books::seed();
    let mut counts = Counts::default();
    for case in 0..4_000 {
        let mut rng = Rng::for_case(seed, "crossing", case);
        let rows = match case {
            0..=254 => case as usize + 2,
            _ => rng.range(2, 48) as usize,
        };
        let draft = books::crossing(&mut rng, rows);
        let context = format!("seed {seed:#x}, case {case}: {draft:?}");
        let pairs = crossing(&draft.rows);
        match pairs[..] {
            [_] => {}
            [(a, b), (c, d)] => assert_eq!(BTreeSet::from([a, b, c, d]).len(), 4, "{context}"),
            _ => panic!("{context}"),
        }
        let (above, told) = pairs[0];
        assert_eq!(
            refusal(&draft.words()),
            Some((13, 2 + 4 * told)),
            "{context}"
        );
        counts.add_if(told - above == 1, "neighbours");
        counts.add_if(told - above > 8, "far apart");
        counts.add_if(pairs.len() > 1, "a later row too");
        counts.add_if(pairs.len() == 1, "once");
        let classes = draft.rows.iter().any(|row| row.class.is_some());
        counts.add_if(classes, "beside class rows");
    }
    println!("maker of crossing: seed {seed:#x}, {:?}", counts.0);
    for what in [
        "neighbours",
        "far apart",
        "a later row too",
        "once",
        "beside class rows",
    ] {
        counts.at_least(200, what);
    }
}
