//! The model against the days of document 01, the classes of request L1, the rows as they arrive of
//! request L2, the nearest minute of request L3 and the opening minutes of request L7, against trying
//! every order, and the book maker against what it promises. Needs no archive.

#[path = "common/kit.rs"]
mod kit;

use jelvaksna::books::{self, Draft, DraftRow, Rng, OPENINGS, REFUSED_OPENINGS};
use jelvaksna::model::{self, Day, Row};
use jelvaksna::{word, Pair, Profile, Refusal};
use kit::{sequences, Counts};
use std::collections::BTreeSet;

fn m1() -> Draft {
    Draft::of(0, 60, &[(901, 1, 1, 5), (902, 0, 10, 12)])
}

fn m2() -> Draft {
    Draft::of(0, 60, &[(901, 1, 1, 5), (902, 0, 10, 12), (903, 20, 5, 27)])
}

fn m13() -> Draft {
    let rows = [
        (1, 1, 1, 5),
        (2, 0, 10, 12),
        (3, 101, 1, 104),
        (4, 100, 20, 122),
    ];
    Draft::of(0, 60, &rows)
}

fn day(draft: &Draft) -> Day {
    day_with(0, draft)
}

/// An accepted day with opening minutes.
fn day_with(opening: u32, draft: &Draft) -> Day {
    Day::read(opening, &draft.words()).expect("an accepted day")
}

fn pair(end: u32, late: i32) -> Pair {
    Pair { end, late }
}

fn refused<T>(number: u32, place: usize) -> Result<T, Refusal> {
    Err(Refusal { number, place })
}

/// What refuses a book: number and place.
fn refusal(book: &[u32]) -> Option<(u32, usize)> {
    Day::read(0, book).err().map(|r| (r.number, r.place))
}

/// The book of a desk free from minute 0 at 60 pages an hour, and rows of release, pages (and so
/// minutes) and last word.
fn book_of(rows: &[(u32, u32, u32)]) -> Vec<u32> {
    let mut book = vec![word(1, 0), word(2, 60)];
    for (i, &(release, pages, last)) in rows.iter().enumerate() {
        book.extend([
            word(3, 901 + i as u32),
            word(4, release),
            word(5, pages),
            last,
        ]);
    }
    book.push(word(7, rows.len() as u32));
    book
}

/// What refuses the book of two rows, the same whichever of them comes first.
fn in_either_order(one: (u32, u32, u32), other: (u32, u32, u32)) -> Option<(u32, usize)> {
    let refused = refusal(&book_of(&[one, other]));
    assert_eq!(refused, refusal(&book_of(&[other, one])));
    refused
}

fn class(class: u32) -> u32 {
    word(0, class)
}

fn due(due: u32) -> u32 {
    word(6, due)
}

fn bytes(book: &[u32]) -> Vec<u8> {
    book.iter().flat_map(|word| word.to_le_bytes()).collect()
}

/// What `slate` prints of a day.
fn printed(draft: &Draft) -> String {
    model::slate(&bytes(&draft.words()))
}

#[test]
fn m1_both_plans_as_slate_prints_them() {
    let text = "rows 2 plans 2\n\
                plan 1 end 11 late 6 order 902 901\n\
                plan 2 end 12 late 0 order 901 902\n";
    assert_eq!(printed(&m1()), text);
}

#[test]
fn m2_to_m6_three_rows() {
    let day = day(&m2());
    assert_eq!(day.list(), [pair(25, 0)]);
    assert_eq!(day.order_of_plan(1), (pair(25, 0), vec![1, 2, 3]));
    let text = "rows 3 plans 1\nplan 1 end 25 late 0 order 901 902 903\n";
    assert_eq!(printed(&m2()), text);
    assert_eq!(day.order_for_bound(6), Some((pair(25, 6), vec![2, 1, 3])));
    assert_eq!(day.order_for_bound(0), Some((pair(25, 0), vec![1, 2, 3])));
    assert_eq!(day.order_for_bound_into(-1, &mut [0; 3]), refused(12, 0));
    assert_eq!(day.verdict(&[2, 1, 3]), Ok((pair(25, 6), Some(1))));
    assert_eq!(day.verdict(&[1, 2, 3]), Ok((pair(25, 0), None)));
}

#[test]
fn m7_m8_rows_that_agree_and_disagree() {
    let mut draft = m1();
    draft.rows[1].due = 13;
    assert!(Day::read(0, &draft.words()).is_ok());
    draft.rows[1].due = 14;
    assert_eq!(
        Day::read(0, &draft.words()).err(),
        refused::<()>(8, 6).err()
    );
}

#[test]
fn m9_to_m12_single_rows_and_ties() {
    let m9 = day(&Draft::of(7, 60, &[(1, 3, 4, 10)]));
    assert_eq!(m9.list(), [pair(11, 1)]);
    let m10 = day(&Draft::of(0, 60, &[(1, 0, 2, 5), (2, 0, 2, 5)]));
    assert_eq!(m10.list(), [pair(4, -1)]);
    assert_eq!(m10.order_of_plan(1).1, [1, 2]);
    assert_eq!(model::length(7, 40), 11);
    assert_eq!(model::length(1, 50), 1);
}

/// Every length that a book can have, held to what nearest means: no other minute is nearer to the
/// reading time, and none as near is later.
#[test]
fn lengths_are_the_nearest_minutes() {
    let (mut halves, mut least, mut most) = (0, i64::MAX, 0);
    for pace in 4..=120 {
        for pages in 1..=2_000 {
            let length = model::length(pages, pace);
            let apart = |minutes: i64| (minutes * pace - pages * 60).abs();
            let context = format!("{pages} pages at pace {pace}: {length}");
            assert!(apart(length) <= apart(length - 1), "{context}");
            assert!(apart(length) < apart(length + 1), "{context}");
            halves += u64::from(apart(length) == apart(length - 1));
            (least, most) = (least.min(length), most.max(length));
        }
    }
    println!("lengths: {halves} exact halves, from {least} to {most}");
    assert_eq!((least, most), (1, 30_000));
    assert!(halves > 1_000);
}

#[test]
fn m13_a_last_plan_without_a_comparison() {
    let day = day(&m13());
    assert_eq!(day.list(), [pair(121, 17), pair(122, 0)]);
    assert_eq!(day.order_of_plan(1).1, [2, 1, 4, 3]);
    assert_eq!(day.order_of_plan(2).1, [1, 2, 3, 4]);
}

#[test]
fn unmarked_days() {
    let reading = |book: &[u32]| Day::read(0, book).map(|day| day.rows.len());
    assert_eq!(
        reading(&[word(1, 0), word(2, 60), word(7, 0)]),
        refused(2, 2)
    );
    let rows: Vec<_> = (0..257).map(|i| (i, 0, 1, 5)).collect();
    assert_eq!(reading(&Draft::of(0, 60, &rows[..256]).words()), Ok(256));
    assert_eq!(reading(&Draft::of(0, 60, &rows).words()), refused(5, 1026));
}

#[test]
fn refusals_in_their_sequence() {
    let sound = m2().words();
    let with = |at: usize, new: u32| {
        let mut book = sound.clone();
        book[at] = new;
        refusal(&book)
    };
    assert_eq!(refusal(&[]), Some((1, 0)));
    for n in 0..sound.len() {
        assert_eq!(refusal(&sound[..n]), Some((1, n)));
    }
    assert_eq!(with(0, word(1, 10_000_001)), Some((3, 0)));
    assert_eq!(with(1, word(2, 3)), Some((3, 1)));
    assert_eq!(with(1, word(2, 121)), Some((3, 1)));
    assert_eq!(with(3, word(4, 10_000_001)), Some((3, 3)));
    assert_eq!(with(4, word(5, 0)), Some((3, 4)));
    assert_eq!(with(4, word(5, 2_001)), Some((3, 4)));
    assert_eq!(with(5, word(6, 20_000_001)), Some((3, 5)));
    assert_eq!(with(6, word(3, 901)), Some((4, 6)));
    assert_eq!(with(10, word(3, 901)), Some((4, 10)));
    // Kind before range; an end word only after a whole row; a class word where no due is due.
    assert_eq!(with(4, word(6, 0x1fff_ffff)), Some((2, 4)));
    assert_eq!(with(4, word(7, 1)), Some((2, 4)));
    assert_eq!(with(2, 0), Some((2, 2)));
    assert_eq!(with(6, word(4, 0)), Some((2, 6)));
    assert_eq!(with(14, word(7, 2)), Some((6, 14)));
    // An end word after row 1: count first, tail only where the count is right.
    assert_eq!(with(6, word(7, 3)), Some((6, 6)));
    assert_eq!(with(6, word(7, 1)), Some((7, 7)));
    // A row that disagrees, alone, and with a tail before it in the sequence.
    assert_eq!(with(9, word(6, 4)), Some((8, 6)));
    let mut book = sound.clone();
    book[9] = word(6, 4);
    book.push(0);
    assert_eq!(refusal(&book), Some((7, 15)));
    // Row 257 is refused before its number is compared.
    let mut rows: Vec<_> = (0..257).map(|i| (i, 0, 1, 5)).collect();
    rows[256].0 = 0;
    let full = Draft::of(0, 60, &rows).words();
    assert_eq!(refusal(&full), Some((5, 1026)));
    assert_eq!(refusal(&full[..1027]), Some((5, 1026)));
    assert_eq!(refusal(&full[..1026]), Some((1, 1026)));
}

#[test]
fn refusals_of_calls() {
    let day = day(&m1());
    let mut two = [7; 2];
    assert_eq!(day.list_into(&mut [0; 3]), refused(9, 0));
    assert_eq!(day.order_for_bound_into(-1, &mut [0; 1]), refused(9, 0));
    assert_eq!(day.order_for_bound_into(-1, &mut two), refused(12, 0));
    assert_eq!(day.order_of_plan_into(3, &mut [0; 1]), refused(11, 2));
    assert_eq!(day.order_of_plan_into(0, &mut two), refused(11, 2));
    assert_eq!(day.order_of_plan_into(2, &mut [0; 1]), refused(9, 0));
    assert_eq!(two, [7; 2]);
    assert_eq!(day.verdict(&[]), refused(10, 0));
    assert_eq!(day.verdict(&[1]), refused(10, 1));
    assert_eq!(day.verdict(&[1, 2, 3]), refused(10, 2));
    assert_eq!(day.verdict(&[3, 1]), refused(10, 0));
    assert_eq!(day.verdict(&[1, 1]), refused(10, 1));
    assert_eq!(day.verdict(&[1, 0]), refused(10, 1));
    assert_eq!(day.row_place(2), Ok(6));
    assert_eq!(day.row_place(0), refused(11, 2));
    assert_eq!(day.row_place(3), refused(11, 2));
}

#[test]
fn slate_bytes() {
    let sound = bytes(&m1().words());
    for odd in 1..=3 {
        let text = format!("refused 1 at {}\n", sound.len() / 4 - 1);
        assert_eq!(model::slate(&sound[..sound.len() - odd]), text);
        let mut longer = sound.clone();
        longer.extend(vec![0; odd]);
        assert_eq!(model::slate(&longer), "refused 1 at 11\n");
    }
    assert_eq!(model::slate(&[]), "refused 1 at 0\n");
    assert_eq!(model::slate(&[9]), "refused 1 at 0\n");
    // A full book, then words beyond the 1,028 that are looked at, odd bytes with them.
    let rows: Vec<_> = (0..256).map(|i| (i, 0, 1, 5)).collect();
    let full = bytes(&Draft::of(0, 60, &rows).words());
    assert!(model::slate(&full).starts_with("rows 256 plans 1\nplan 1 "));
    let longer = |n: usize| [&full[..], &vec![0; n]].concat();
    assert_eq!(model::slate(&longer(3)), "refused 1 at 1027\n");
    for more in [4, 5, 7, 8, 4001] {
        assert_eq!(model::slate(&longer(more)), "refused 7 at 1027\n");
    }
}

#[test]
fn m1_m2_m13_in_every_sequence() {
    for draft in [m1(), m2(), m13()] {
        for rows in sequences(&draft.rows) {
            let arrived = Draft { rows, ..draft };
            assert_eq!(printed(&arrived), printed(&draft), "{arrived:?}");
        }
    }
}

#[test]
fn two_rows_disagree_where_due_and_spare_are_both_smaller() {
    // Due 50 and spare 30, beside rows of the same or another due and spare.
    let beside = |due: u32, spare: u32| {
        let one = (10, 10, word(6, 50));
        in_either_order(one, (due - spare - 4, 4, word(6, due)))
    };
    for due in 48..=52 {
        for spare in 28..=32 {
            let disagree = due < 50 && spare < 30 || due > 50 && spare > 30;
            assert_eq!(beside(due, spare), disagree.then_some((8, 6)));
        }
    }
    // Due 0 and spare -20, beside spares of -19 to -21.
    let beside = |pages: u32, last: u32| in_either_order((10, 10, due(0)), (10, pages, last));
    assert_eq!(beside(9, due(0)), None);
    assert_eq!(beside(12, due(1)), None);
    assert_eq!(beside(11, due(1)), None);
    assert_eq!(beside(10, due(1)), Some((8, 6)));
}

#[test]
fn the_earliest_row_that_disagrees() {
    // M8's rows disagree; the third agrees with both.
    let (one, other, third) = ((1, 1, due(5)), (0, 10, due(14)), (20, 5, due(27)));
    for rows in sequences(&[one, other, third]) {
        let later = if rows[2] == third { 6 } else { 10 };
        assert_eq!(refusal(&book_of(&rows)), Some((8, later)));
    }
    // A hundred rows between them that agree with both.
    let apart = [vec![one], vec![third; 100], vec![other, third]].concat();
    assert_eq!(refusal(&book_of(&apart)), Some((8, 2 + 4 * 101)));
    // Two more that disagree with each other alone. Where rows 3 and 4 both disagree with a row
    // above, row 3 is told.
    let (a, b) = ((43, 1, due(45)), (42, 10, due(54)));
    assert_eq!(refusal(&book_of(&[a, one, third, b])), Some((8, 14)));
    assert_eq!(refusal(&book_of(&[a, one, other, b])), Some((8, 10)));
    assert_eq!(refusal(&book_of(&[a, one, b, other])), Some((8, 10)));
    assert_eq!(refusal(&book_of(&[one, a, b, other])), Some((8, 10)));
    // Row 1 disagrees with every other row, the others with none.
    let late = (0, 1, due(1_000));
    assert_eq!(refusal(&book_of(&[late, one, third, a])), Some((8, 6)));
    assert_eq!(refusal(&book_of(&[one, third, a, late])), Some((8, 14)));
}

#[test]
fn equal_dues_go_by_release_plus_length() {
    // Both are there at minute 10, due at 50. The sums are 10 and 7.
    let rows = [(901, 0, 10, 50), (902, 5, 2, 50)];
    for rows in sequences(&rows) {
        let text = "rows 2 plans 1\nplan 1 end 22 late -28 order 902 901\n";
        assert_eq!(printed(&Draft::of(10, 60, &rows)), text);
    }
    // The minute at which a row can start comes before: 901 at 10, 902 at 11, with sums 20 and 13.
    for rows in sequences(&[(901, 0, 20, 50), (902, 11, 2, 50)]) {
        let text = "rows 2 plans 1\nplan 1 end 32 late -18 order 901 902\n";
        assert_eq!(printed(&Draft::of(10, 60, &rows)), text);
    }
}

#[test]
fn equal_dues_and_sums_go_by_row() {
    // The sums are 10, 10, 10 and 8.
    let rows = [(901, 0, 10, 50), (902, 5, 5, 50), (903, 9, 1, 50)];
    for mut rows in sequences(&rows) {
        let order = day(&Draft::of(10, 60, &rows)).order_of_plan(1);
        assert_eq!(order, (pair(26, -24), vec![1, 2, 3]));
        rows.push((904, 7, 1, 50));
        let order = day(&Draft::of(10, 60, &rows)).order_of_plan(1);
        assert_eq!(order, (pair(27, -23), vec![4, 1, 2, 3]));
    }
}

/// The tie rule where the second pick is taken, and in what follows either pick.
#[test]
fn ties_in_both_blocks() {
    // The long row can start at 0, the short ones at 1; their sums are 4 and 2.
    for rows in sequences(&[(901, 0, 10, 14), (902, 1, 3, 9), (903, 1, 1, 9)]) {
        let text = "rows 3 plans 2\n\
                    plan 1 end 14 late 5 order 901 903 902\n\
                    plan 2 end 15 late 1 order 903 902 901\n";
        assert_eq!(printed(&Draft::of(0, 60, &rows)), text);
    }
    // Two short rows alike.
    for rows in sequences(&[(901, 0, 10, 14), (902, 1, 3, 9), (903, 1, 3, 9)]) {
        let short: Vec<_> = rows.iter().map(|row| row.0).filter(|&n| n != 901).collect();
        let text = format!(
            "rows 3 plans 2\n\
             plan 1 end 16 late 7 order 901 {0} {1}\n\
             plan 2 end 17 late 3 order {0} {1} 901\n",
            short[0], short[1]
        );
        assert_eq!(printed(&Draft::of(0, 60, &rows)), text);
    }
}

#[test]
fn each_class_has_its_margin() {
    let margins = [60, 120, 480, 1_440, 4_320, 10_080, 20_160, 43_200];
    for (i, margin) in margins.into_iter().enumerate() {
        let one = book_of(&[(100, 11, class(i as u32))]);
        let day = Day::read(0, &one).unwrap();
        let row = day.rows[0];
        assert_eq!((row.due, row.class), (111 + margin, Some(i as u32)));
        assert_eq!(day.list(), [pair(111, -margin as i32)]);
        // The same due in a word of its own is no class.
        let row = Day::read(0, &book_of(&[(100, 11, due(row.due as u32))]))
            .unwrap()
            .rows[0];
        assert_eq!((row.due, row.class), (111 + margin, None));
    }
    // The margin is added to the rounded length: of 10 1/2, 1 1/5 and 1/2 minutes, and the latest due.
    let of = |pace: u32, release: u32, pages: u32, class: u32| {
        let mut book = book_of(&[(release, pages, word(0, class))]);
        book[1] = word(2, pace);
        Day::read(0, &book).unwrap().rows[0].due
    };
    assert_eq!(of(40, 0, 7, 0), 71);
    assert_eq!(of(50, 0, 1, 0), 61);
    assert_eq!(of(120, 0, 1, 0), 61);
    assert_eq!(of(4, 10_000_000, 2_000, 7), 10_073_200);
}

#[test]
fn m1_in_a_class() {
    let book = m1().of_class(0).words();
    assert_eq!(book, book_of(&[(1, 1, class(0)), (0, 10, class(0))]));
    let text = "rows 2 plans 2\n\
                plan 1 end 11 late -51 order 902 901\n\
                plan 2 end 12 late -58 order 901 902\n";
    assert_eq!(model::slate(&bytes(&book)), text);
}

#[test]
fn class_words_refused() {
    let sound = book_of(&[(1, 1, class(2)), (0, 10, class(2)), (20, 5, due(500))]);
    assert_eq!(refusal(&sound), None);
    let with = |at: usize, new: u32| {
        let mut book = sound.clone();
        book[at] = new;
        refusal(&book)
    };
    for last in [5, 9, 13] {
        for value in [8, 9, 60, 1 << 28, (1 << 29) - 1] {
            assert_eq!(with(last, class(value)), Some((3, last)));
        }
        for kind in [1, 2, 3, 4, 5, 7] {
            for value in [0, 3, 7, 8, (1 << 29) - 1] {
                assert_eq!(with(last, word(kind, value)), Some((2, last)));
            }
        }
        assert_eq!(refusal(&sound[..last]), Some((1, last)));
    }
    // Kind 0 at any other place.
    for at in (0..sound.len()).filter(|at| ![5, 9, 13].contains(at)) {
        for value in [0, 1, 7, 8, (1 << 29) - 1] {
            assert_eq!(with(at, class(value)), Some((2, at)));
        }
    }
}

#[test]
fn class_rows_and_due_rows() {
    // Both rows have release plus length 20; class 1 has a margin of 120.
    let after = |above: u32, last: u32| in_either_order((10, 10, above), (15, 5, last));
    assert_eq!(after(class(1), class(1)), None);
    assert_eq!(after(class(1), due(140)), None);
    assert_eq!(after(class(1), due(139)), Some((8, 6)));
    assert_eq!(after(class(1), due(141)), Some((8, 6)));
    assert_eq!(after(due(140), class(1)), None);
    assert_eq!(after(due(139), class(1)), Some((8, 6)));
    assert_eq!(after(due(141), class(1)), Some((8, 6)));
    assert_eq!(after(class(1), class(0)), Some((8, 6)));
    assert_eq!(after(class(1), class(2)), Some((8, 6)));
    // A lower class once release plus length has grown by what the margin falls: 60 minutes here.
    let later = |release: u32, last: u32| in_either_order((10, 10, class(1)), (release, 5, last));
    assert_eq!(later(75, class(0)), None);
    assert_eq!(later(74, class(0)), Some((8, 6)));
    assert_eq!(later(10_000, class(0)), None);
    // A higher class never, however late.
    assert_eq!(later(10_000_000, class(2)), Some((8, 6)));
    assert_eq!(later(75, due(140)), None);
    assert_eq!(later(75, due(200)), None);
    assert_eq!(later(75, due(201)), Some((8, 6)));
    // Range comes before disorder, and tail too.
    let book = book_of(&[(10, 10, class(1)), (15, 5, class(8))]);
    assert_eq!(refusal(&book), Some((3, 9)));
    let mut book = book_of(&[(10, 10, class(1)), (15, 5, class(2))]);
    book.push(class(0));
    assert_eq!(refusal(&book), Some((7, 11)));
}

/// Rows of one class are accepted in any sequence, whatever their releases and pages.
#[test]
fn one_class_is_accepted_in_any_order() {
    let seed = books::seed();
    let (mut sorted, mut unsorted) = (0, 0);
    for case in 0..6_000 * books::times() {
        let mut rng = Rng::for_case(seed, "one class", case);
        let count = rng.pick(&[1, 2, 3, 5, 8, 20, 256]);
        let last_release = rng.pick(&[0, 3, 100, 2_000, 10_000_000]);
        let last_page = rng.pick(&[1, 2, 10, 2_000]);
        let row = |number| {
            let (release, pages) = (rng.range(0, last_release), rng.range(1, last_page));
            (number, release, pages, 0)
        };
        let rows: Vec<_> = (0..count).map(row).collect();
        let draft = Draft::of(rng.range(0, 500), rng.range(4, 120), &rows);
        let mut draft = draft.of_class(rng.below(8) as u32);
        if rng.one_in(3) {
            draft.rows.sort_by_key(|row| row.due);
        }
        let day = Day::read(0, &draft.words());
        let day = day.unwrap_or_else(|r| panic!("seed {seed:#x}, case {case}: {r:?} {draft:?}"));
        match day.is_sorted() {
            true => sorted += 1,
            false => unsorted += 1,
        }
    }
    println!("one class: seed {seed:#x}, {sorted} books sorted, {unsorted} not");
    assert!(sorted > 2_000 && unsorted > 2_000);
}

/// A row's record and the words at its place say the same class or due.
#[test]
fn row_words_give_back_the_class() {
    let seed = books::seed();
    let mut by_class = [0; 8];
    for case in 0..1_000 {
        let mut rng = Rng::for_case(seed, "row words", case);
        let rows = books::some_rows(&mut rng, 48);
        let book = books::accepted(&mut rng, 0, rows).words();
        let day = Day::read(0, &book).unwrap();
        for (i, row) in day.rows.iter().enumerate() {
            let place = day.row_place(i as u32 + 1).unwrap();
            let last = match row.class {
                Some(class) => word(0, class),
                None => word(6, row.due as u32),
            };
            assert_eq!(book[place..place + 4][3], last, "seed {seed:#x}, {case}");
            if let Some(class) = row.class {
                by_class[class as usize] += 1;
            }
        }
    }
    println!("row words: seed {seed:#x}, rows by class {by_class:?}");
    assert!(by_class.iter().all(|&rows| rows > 100));
}

// ---- Opening minutes ----

#[test]
fn worked_days_with_opening_minutes() {
    // 0 to 11 to 13, or 1 to 3 to 14; 0 to 40 to 71, or 1 to 32 to 72.
    let plans = [
        (1, [pair(13, 8), pair(14, 2)]),
        (30, [pair(71, 66), pair(72, 60)]),
    ];
    for (opening, pairs) in plans {
        let day = day_with(opening, &m1());
        assert_eq!(day.list(), pairs);
        assert_eq!(day.order_of_plan(1), (pairs[0], vec![2, 1]));
        assert_eq!(day.order_of_plan(2), (pairs[1], vec![1, 2]));
        assert_eq!(
            day.order_for_bound(pairs[0].late - 1),
            Some((pairs[1], vec![1, 2]))
        );
        assert_eq!(day.verdict(&[2, 1]), Ok((pairs[0], None)));
    }
    // With 10 the desk has no idle minute before the third row, so that the order of the other two
    // moves the end: 0 to 20 to 31 to 46, or 1 to 12 to 32 to 47.
    let day = day_with(10, &m2());
    assert_eq!(day.list(), [pair(46, 26), pair(47, 20)]);
    assert_eq!(day.verdict(&[1, 3, 2]), Ok((pair(55, 43), Some(1))));
    // A row alone.
    assert_eq!(
        day_with(30, &Draft::of(7, 60, &[(1, 3, 4, 10)])).list(),
        [pair(41, 31)]
    );
    assert_eq!(
        day_with(30, &Draft::of(7, 60, &[(1, 50, 4, 10)])).list(),
        [pair(84, 74)]
    );
    for (opening, draft, pair) in books::at_the_limits() {
        assert_eq!(day_with(opening, &draft).list(), [pair]);
    }
}

#[test]
fn an_opening_outside_is_refused_before_the_book_is_looked_at() {
    let sound = m1().words();
    let books = [
        &sound[..],
        &[],
        &[0; 3],
        &sound[..5],
        &[word(1, 10_000_001)],
    ];
    for profile in [Profile::OrderingRule, Profile::FirstCome] {
        for (opening, book) in REFUSED_OPENINGS
            .iter()
            .flat_map(|&o| books.map(|book| (o, book)))
        {
            let told = Day::read_as(profile, opening, book).err();
            assert_eq!(told, refused::<()>(3, 0).err());
        }
    }
    for opening in OPENINGS {
        assert!(Day::read(opening, &sound).is_ok());
        assert_eq!(Day::read(opening, &[]).err(), refused::<()>(1, 0).err());
    }
}

/// Dues of classes, spares, disorder and crossing are what they are without.
#[test]
fn opening_minutes_change_no_row_and_no_refusal_of_a_book() {
    let seed = books::seed();
    let (mut accepted, mut refused) = (0, 0);
    for case in 0..2_000 * books::times() {
        let mut rng = Rng::for_case(seed, "opening, rows", case);
        let rows = 2 + rng.below(12);
        let book = match case % 5 {
            0 => books::disagreeing(&mut rng, rows).words(),
            1 => books::crossing(&mut rng, rows).words(),
            2 => books::first_come(&mut rng, rows).words(),
            3 => books::accepted(&mut rng, 0, rows).words(),
            _ => {
                let book = books::accepted(&mut rng, 0, rows).words();
                books::damaged(&mut rng, &book)
            }
        };
        for profile in [Profile::OrderingRule, Profile::FirstCome] {
            let rows = |opening| Day::read_as(profile, opening, &book).map(|day| day.rows);
            let plain = rows(0);
            for opening in OPENINGS {
                assert_eq!(
                    rows(opening),
                    plain,
                    "seed {seed:#x}, case {case}: {book:?}"
                );
            }
            accepted += u64::from(plain.is_ok());
            refused += u64::from(plain.is_err());
        }
    }
    println!("opening, rows: seed {seed:#x}, {accepted} books accepted, {refused} refused");
    assert!(accepted > 1_000 && refused > 1_000);
}

/// Opening minutes are as good as lengths that are so much longer, with the same dues: the same pairs,
/// orders and verdicts, the same refusals.
#[test]
fn an_opening_is_as_good_as_longer_lengths() {
    let seed = books::seed();
    let (mut accepted, mut several, mut refused) = (0, 0, 0);
    for case in 0..4_000 * books::times() {
        let mut rng = Rng::for_case(seed, "longer lengths", case);
        let (opening, rows) = (rng.pick(&OPENINGS), 2 + rng.below(14));
        let (profile, draft) = match case % 8 {
            0 => (Profile::OrderingRule, books::disagreeing(&mut rng, rows)),
            1 => (Profile::FirstCome, books::crossing(&mut rng, rows)),
            2 | 3 => (Profile::FirstCome, books::first_come(&mut rng, rows)),
            _ => (
                Profile::OrderingRule,
                books::accepted(&mut rng, opening, rows),
            ),
        };
        let Some(longer) = draft.lengthened(opening) else {
            continue;
        };
        let context = format!("seed {seed:#x}, case {case}, opening {opening}: {draft:?}");
        let day = Day::read_as(profile, opening, &draft.words());
        let longer = Day::read_as(profile, 0, &longer.words());
        let (day, longer) = match (day, longer) {
            (Ok(day), Ok(longer)) => (day, longer),
            (day, longer) => {
                assert!(day.is_err() && day.err() == longer.err(), "{context}");
                refused += 1;
                continue;
            }
        };
        assert_eq!(day.list(), longer.list(), "{context}");
        for plan in 1..=day.list().len() {
            assert_eq!(
                day.order_of_plan(plan),
                longer.order_of_plan(plan),
                "{context}"
            );
            let bound = day.list()[plan - 1].late + rng.range(-2, 2) as i32;
            let (one, other) = (day.order_for_bound(bound), longer.order_for_bound(bound));
            assert_eq!(one, other, "{context}");
        }
        let mut posting: Vec<u32> = (1..=rows as u32).collect();
        rng.shuffle(&mut posting);
        assert_eq!(day.verdict(&posting), longer.verdict(&posting), "{context}");
        accepted += u64::from(opening > 0);
        several += u64::from(opening > 0 && day.list().len() > 1);
    }
    println!("longer lengths: seed {seed:#x}, {accepted} books with opening minutes, {several} with several plans, {refused} refused");
    assert!(accepted > 1_500 && several > 200 && refused > 500);
}

/// The model's method against the definitions, by trying every order.
fn against_every_order(test: &str, books: u64, least: usize, most: usize) {
    let seed = books::seed();
    let (mut several, mut unkept, mut classed, mut unsorted) = (0, 0, 0, 0);
    let mut opened = 0;
    for case in 0..books {
        let mut rng = Rng::for_case(seed, test, case);
        let rows = rng.range(least as i64, most as i64) as usize;
        let opening = rng.pick(&OPENINGS);
        let draft = books::accepted(&mut rng, opening, rows);
        let context = format!("seed {seed:#x}, {test}, case {case}, opening {opening}: {draft:?}");
        let day = day_with(opening, &draft);
        let every = day.every_pair();
        assert_eq!(day.list(), day.list_by_definition(), "{context}");
        several += u64::from(day.list().len() > 1);
        opened += u64::from(day.list().len() > 1 && opening > 0);
        classed += u64::from(day.has_classes());
        unsorted += u64::from(!day.is_sorted());
        let mut bounds = vec![i32::MIN, i32::MAX, -1, 0, 1];
        bounds.extend(every.iter().take(40).flat_map(|p| [p.late - 1, p.late]));
        for bound in bounds {
            // An order keeps the bound, and none that keeps it ends sooner.
            let soonest = every.iter().find(|pair| pair.late <= bound);
            let given = day.order_for_bound(bound);
            assert_eq!(
                given.as_ref().map(|given| given.0.end),
                soonest.map(|pair| pair.end),
                "bound {bound}, {context}"
            );
            let Some((pair, order)) = given else {
                unkept += 1;
                continue;
            };
            assert!(pair.late <= bound, "bound {bound}, {context}");
            let mut sorted = order.clone();
            sorted.sort();
            assert!(sorted.iter().copied().eq(1..=rows as u32), "{context}");
            assert_eq!(day.pair_of(&order), pair, "bound {bound}, {context}");
        }
        for (i, pair) in day.list().iter().enumerate() {
            assert_eq!(day.order_of_plan(i + 1).0, *pair, "{context}");
        }
        let mut posting: Vec<u32> = (1..=rows as u32).collect();
        rng.shuffle(&mut posting);
        let (pair, plan) = day.verdict(&posting).unwrap();
        let beaten = every.iter().any(|other| other.beats(pair));
        assert_eq!(plan.is_some(), beaten, "{posting:?}, {context}");
    }
    println!(
        "{test}: seed {seed:#x}, {books} books of {least} to {most} rows, {several} with several plans, \
         {opened} of them with opening minutes, {classed} with class rows, {unsorted} unsorted, \
         {unkept} unkept bounds"
    );
    assert!(several > books / 20 && unkept > 0 && classed > books / 5 && unsorted > books / 4);
    assert!(opened > several / 2);
}

#[test]
fn every_order_of_few_rows() {
    against_every_order("few rows", 3_000 * books::times(), 1, 6);
}

#[test]
fn every_order_of_seven_rows() {
    against_every_order("seven rows", 400 * books::times(), 7, 7);
}

#[test]
fn every_order_of_eight_rows() {
    against_every_order("eight rows", 60 * books::times(), 8, 8);
}

#[test]
fn every_plan_of_the_days_with_many() {
    assert_eq!(books::most_plans(0), 230);
    for opening in OPENINGS {
        let most = books::most_plans(opening);
        for rows in (2..=8).chain([32, 128, most - 1, most, most + 1, 256]) {
            let draft = books::many_plans(opening, rows);
            let sorted = day_with(opening, &draft);
            let unsorted = day_with(opening, &draft.shuffled(&mut Rng::new(rows as u64)));
            assert_eq!(sorted.list().len(), rows.min(most));
            assert_eq!(unsorted.list(), sorted.list());
            if rows < 8 {
                assert_eq!(sorted.list(), sorted.list_by_definition());
            }
        }
    }
}

/// The pairs of rows that disagree, counted from 0, by the later of the two, in a book that passes
/// the tests 1 to 7.
fn at_odds(book: &[u32]) -> Vec<(usize, usize)> {
    let value = |place: usize| book[place] & 0x1fff_ffff;
    let due_and_spare = |place: usize| {
        let length = model::length(value(place + 2).into(), value(1).into());
        let reach = i64::from(value(place + 1)) + length;
        let last = value(place + 3);
        let due = match book[place + 3] >> 29 {
            0 => reach + model::MARGINS[last as usize],
            _ => last.into(),
        };
        (due, due - reach)
    };
    let places = (2..book.len() - 1).step_by(4);
    let rows: Vec<(i64, i64)> = places.map(due_and_spare).collect();
    let pairs = (0..rows.len()).flat_map(|later| (0..later).map(move |earlier| (earlier, later)));
    let disagree = |&(a, b): &(usize, usize)| {
        let (due, spare) = (rows[a].0 - rows[b].0, rows[a].1 - rows[b].1);
        due.signum() * spare.signum() == 1
    };
    pairs.filter(disagree).collect()
}

/// What decides the ties in the orders of the plans, release plus length or the row.
fn count_ties(counts: &mut Counts, day: &Day) {
    let mut kinds = BTreeSet::new();
    for plan in 1..=day.list().len() {
        let order = day.order_of_plan(plan).1;
        let mut minute = day.free;
        for i in 0..order.len() {
            kinds.extend(ties_at(day, minute, &order[i..]));
            let row = day.rows[order[i] as usize - 1];
            minute = minute.max(row.release) + day.opening + row.length;
        }
    }
    for kind in kinds {
        counts.add(kind);
    }
}

/// What decides that the first of these rows is taken before the others. Of those that can start as
/// soon and are due as soon, none has a smaller sum, and none the same sum and a smaller row.
fn ties_at(day: &Day, minute: i64, rows: &[u32]) -> Vec<String> {
    let row = |number: u32| day.rows[number as usize - 1];
    let ready = |number: u32| minute.max(row(number).release);
    let (taken, left) = (rows[0], &rows[1..]);
    let pick = match left.iter().any(|&other| ready(other) < ready(taken)) {
        true => "second",
        false => "first",
    };
    let mut kinds = Vec::new();
    for &other in left {
        if (ready(other), row(other).due) != (ready(taken), row(taken).due) {
            continue;
        }
        let (sum, others) = (row(taken).reach(), row(other).reach());
        assert!((sum, taken) < (others, other), "{day:?}");
        if taken > other {
            kinds.push(format!("a {pick} pick by release plus length"));
        }
        if sum == others {
            kinds.push(format!("a {pick} pick by row"));
        }
        if sum == others && row(taken).release != row(other).release {
            kinds.push("a pick by row, of different releases".to_string());
        }
    }
    kinds
}

fn count_accepted(counts: &mut Counts, day: &Day) {
    let rows = &day.rows;
    let plans = day.list();
    counts.add_if(rows.len() > 100, "over 100 rows");
    counts.add(match plans.len() {
        1 => "1 plan",
        2 => "2 plans",
        3 => "3 plans",
        4..=9 => "4 to 9 plans",
        _ => "10 plans and more",
    });
    counts.add_if(plans.iter().any(|pair| pair.late < 0), "early");
    let times: i64 = rows.iter().map(|row| day.opening + row.length).sum();
    counts.add_if(i64::from(plans[0].end) > day.free + times, "idle");
    let some = |is: fn(&Row, &Row) -> bool| {
        let above = |(i, row)| rows[..i].iter().any(|above| is(above, row));
        rows.iter().enumerate().any(above)
    };
    counts.add_if(some(|a, b| a.due == b.due), "equal dues");
    let spares = some(|a, b| a.due == b.due && a.reach() != b.reach());
    counts.add_if(spares, "equal dues of different spares");
    let releases = some(|a, b| a.reach() == b.reach() && a.release != b.release);
    counts.add_if(releases, "equal sums of different releases");
    counts.add_if(day.is_sorted(), "sorted");
    counts.add_if(!day.is_sorted(), "unsorted");
}

fn count_classes(counts: &mut Counts, day: &Day) {
    let classes: BTreeSet<_> = day.rows.iter().filter_map(|row| row.class).collect();
    for class in &classes {
        counts.add(format!("class {class}"));
    }
    counts.add_if(day.has_classes(), "class rows");
    let several = day.has_classes() && day.list().len() > 1;
    counts.add_if(several, "class rows, several plans");
    counts.add_if(classes.len() > 1, "several classes");
    let all = day.rows.iter().all(|row| row.class.is_some());
    let one = day.rows.len() > 1 && classes.len() == 1 && all;
    counts.add_if(one, "one class");
    counts.add_if(one && !day.is_sorted(), "one class, unsorted");
    let next_to = |above: bool, row: bool| {
        let pair = |w: &[Row]| (w[0].class.is_some(), w[1].class.is_some()) == (above, row);
        day.rows.windows(2).any(pair)
    };
    counts.add_if(next_to(true, false), "a due row after a class row");
    counts.add_if(next_to(false, true), "a class row after a due row");
}

fn count_refused(counts: &mut Counts, book: &[u32], refusal: Refusal) {
    let Refusal { number, place } = refusal;
    counts.add(format!("refused {number}"));
    if place > 20 {
        counts.add(format!("refused {number} beyond place 20"));
    }
    // What of it has to do with classes.
    let name = match place {
        0 => "free",
        1 => "pace",
        _ if place % 4 == 2 && place + 1 == book.len() => "end",
        _ => ["number", "release", "pages", "last"][(place - 2) % 4],
    };
    let class = book.get(place).filter(|&word| word >> 29 == 0);
    match (number, name, class) {
        (1, "last", _) => counts.add("cut at a row's last word"),
        (2, "last", _) => counts.add("another kind at a row's last word"),
        (2, _, Some(_)) => counts.add(format!("kind 0 at the {name} word")),
        (3, _, Some(8)) => counts.add("refused class 8"),
        (3, _, Some(0x1fff_ffff)) => counts.add("refused class of all bits"),
        (3, _, Some(_)) => counts.add("refused class between"),
        (8, ..) => count_disorder(counts, book, place),
        _ => {}
    }
}

/// The pairs that disagree in a book that is refused for it. The earliest row that disagrees with
/// any above it is told.
fn count_disorder(counts: &mut Counts, book: &[u32], place: usize) {
    let pairs = at_odds(book);
    let (_, told) = pairs[0];
    assert_eq!(place, 2 + 4 * told);
    let above: Vec<usize> = pairs.iter().filter(|p| p.1 == told).map(|p| p.0).collect();
    let not_above = !above.contains(&(told - 1));
    counts.add_if(not_above, "disorder, not with the row above");
    counts.add_if(pairs.len() == 1, "disorder of two rows");
    let far = pairs.len() == 1 && told - above[0] > 8;
    counts.add_if(far, "disorder of two rows far apart");
    let later = pairs.iter().any(|pair| pair.1 > told);
    counts.add_if(later, "disorder, of a later row too");
    let of_class = |row: usize| book[4 * row + 5] >> 29 == 0;
    let classed = of_class(told) || above.iter().any(|&row| of_class(row));
    counts.add_if(classed, "disorder with a class row");
}

#[test]
fn the_maker_makes_what_it_says() {
    let seed = books::seed();
    let mut counts = Counts::default();
    for case in 0..4_000 {
        let mut rng = Rng::for_case(seed, "maker", case);
        let rows = match case {
            0..=255 => case as usize + 1,
            _ => books::some_rows(&mut rng, 48),
        };
        let opening = rng.pick(&OPENINGS);
        let draft = books::accepted(&mut rng, opening, rows);
        let book = draft.words();
        let day = Day::read(opening, &book);
        let day = day.unwrap_or_else(|r| panic!("seed {seed:#x}, case {case}: {r:?} {draft:?}"));
        assert!(at_odds(&book).is_empty(), "seed {seed:#x}, case {case}");
        count_accepted(&mut counts, &day);
        count_ties(&mut counts, &day);
        count_classes(&mut counts, &day);
        for _ in 0..4 {
            let book = books::damaged(&mut rng, &book);
            match Day::read(0, &book) {
                Ok(_) => {
                    assert!(at_odds(&book).is_empty(), "seed {seed:#x}, case {case}");
                    counts.add("damaged, yet accepted");
                }
                Err(refusal) => count_refused(&mut counts, &book, refusal),
            }
        }
    }
    println!("maker: seed {seed:#x}, {:?}", counts.0);
    for what in [
        "1 plan",
        "2 plans",
        "3 plans",
        "4 to 9 plans",
        "early",
        "idle",
        "equal dues",
        "equal dues of different spares",
        "equal sums of different releases",
        "a first pick by release plus length",
        "a first pick by row",
        "a pick by row, of different releases",
        "one class",
        "one class, unsorted",
        "several classes",
        "a due row after a class row",
        "a class row after a due row",
        "class rows, several plans",
        "cut at a row's last word",
        "another kind at a row's last word",
        "refused class 8",
        "refused class between",
        "refused class of all bits",
        "disorder with a class row",
        "disorder of two rows",
        "disorder, not with the row above",
        "disorder, of a later row too",
    ] {
        counts.at_least(100, what);
    }
    counts.at_least(20, "10 plans and more");
    counts.at_least(20, "a second pick by release plus length");
    counts.at_least(60, "a second pick by row");
    counts.at_least(1_200, "class rows");
    counts.at_least(1_200, "sorted");
    counts.at_least(1_600, "unsorted");
    for class in 0..8 {
        counts.at_least(100, format!("class {class}"));
    }
    for name in ["free", "pace", "number", "release", "pages", "end"] {
        counts.at_least(20, format!("kind 0 at the {name} word"));
    }
    for number in 1..=8 {
        counts.at_least(100, format!("refused {number}"));
        counts.at_least(40, format!("refused {number} beyond place 20"));
    }
}

/// Two rows disagree, or two and two others, and nothing else is wrong.
#[test]
fn the_maker_of_disorder() {
    let seed = books::seed();
    let mut counts = Counts::default();
    for case in 0..4_000 {
        let mut rng = Rng::for_case(seed, "disorder", case);
        let rows = match case {
            0..=254 => case as usize + 2,
            _ => rng.range(2, 48) as usize,
        };
        let draft = books::disagreeing(&mut rng, rows);
        let book = draft.words();
        let context = format!("seed {seed:#x}, case {case}: {draft:?}");
        let refusal = Day::read(0, &book).expect_err(&context);
        assert_eq!(refusal.number, 8, "{context}");
        match at_odds(&book)[..] {
            [_] => {}
            [(a, b), (c, d)] => assert_eq!(BTreeSet::from([a, b, c, d]).len(), 4, "{context}"),
            _ => panic!("{context}"),
        }
        count_disorder(&mut counts, &book, refusal.place);
    }
    println!("maker of disorder: seed {seed:#x}, {:?}", counts.0);
    for what in [
        "disorder with a class row",
        "disorder, not with the row above",
        "disorder, of a later row too",
        "disorder of two rows far apart",
    ] {
        counts.at_least(200, what);
    }
}

/// A book and its sorted rows give the same plans in the same orders, the book turned about the same
/// plans, in the same orders unless rows are equal in due and in release plus length.
#[test]
fn the_sequence_of_rows_decides_ties_alone() {
    let seed = books::seed();
    let (mut unsorted, mut tied, mut by_row) = (0, 0, 0);
    for case in 0..3_000 * books::times() {
        let mut rng = Rng::for_case(seed, "sequence", case);
        let rows = books::some_rows(&mut rng, 48);
        let draft = match rng.below(3) {
            0 => books::ties(&mut rng, rows).varied(&mut rng),
            _ => books::accepted(&mut rng, 0, rows),
        };
        let context = format!("seed {seed:#x}, case {case}: {draft:?}");
        let text = printed(&draft);
        let key = |row: &DraftRow| (row.due, draft.reach(row));
        let mut sorted = draft.clone();
        sorted.rows.sort_by_key(key);
        assert_eq!(printed(&sorted), text, "{context}");
        let mut turned = draft.clone();
        turned.rows.reverse();
        assert_eq!(day(&turned).list(), day(&draft).list(), "{context}");
        let ties = sorted.rows.windows(2).any(|w| key(&w[0]) == key(&w[1]));
        let other = printed(&turned) != text;
        assert!(ties || !other, "{context}");
        unsorted += u64::from(!day(&draft).is_sorted());
        tied += u64::from(ties);
        by_row += u64::from(other);
    }
    println!("sequence: seed {seed:#x}, {unsorted} books unsorted, {tied} with ties, {by_row} with an order that goes by row");
    assert!(unsorted > 1_000 && tied > 1_000 && by_row > 500);
}
