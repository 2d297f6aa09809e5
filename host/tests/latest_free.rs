//! How late the desk can open, in the archive: small days against every order, made ones against the model,
//! rows whose answer is a sum, every refusal, and facts that hold of any day. Book and result are lent between
//! pages that cannot be touched.
//!
//! `JELVAKSNA_SEED` sets the seed, `JELVAKSNA_TIMES` multiplies the number of cases.

mod common;
#[path = "common/kit.rs"]
mod kit;
#[path = "common/wanted.rs"]
mod wanted;

use common::fence::{Fences, Side};
use common::{fail, fault, filled, of_pair, refused, told, with_free, Case};
use jelvaksna::books::{self, Draft, Rng, REFUSED_OPENINGS};
use jelvaksna::latest_model::{
    answer_at, from_minute, latest_free_into, latest_of_every_order, Wanted,
};
use jelvaksna::linked::{self, latest, Answer};
use jelvaksna::model::{Day, MAX_ROWS};
use jelvaksna::refusal::{
    COUNT, CUT, DISORDER, FULL, KIND, NARROW, RANGE, TAIL, TWICE, UNKEPT, UNREACHABLE,
};
use jelvaksna::{word, Latest, Pair, Refusal, MAX_FREE, MAX_OPENING};
use kit::Counts;
use wanted::{few_rows, some_of, some_pairs, telling_minutes, wanted_around, worked_days, FAR};

// ---- The call ----

/// The answer of a call, and the words of the result after it.
type Outcome = (Answer, Vec<u32>);

fn of_latest(Latest { minute, end, late }: Latest) -> Answer {
    Answer {
        minute,
        ..of_pair(Pair { end, late })
    }
}

/// The outcome of a call that is refused: the result of so many words is as it was.
fn refused_outcome(number: u32, place: usize, len: usize) -> Outcome {
    (refused(Refusal { number, place }), filled(len))
}

/// The outcome of a call with this answer and order: further words of the result are as they were.
fn found_outcome(latest: Latest, order: &[u32], len: usize) -> Outcome {
    let mut words = filled(len);
    words[..order.len()].copy_from_slice(order);
    (of_latest(latest), words)
}

/// What the model gives for a book as it reads it.
fn of_model(day: &Result<Day, Refusal>, wanted: Wanted, len: usize) -> Outcome {
    let mut words = filled(len);
    let given = match day {
        Ok(day) => latest_free_into(day, wanted, &mut words),
        Err(refusal) => Err(*refusal),
    };
    (told(given, of_latest), words)
}

/// A book that is lent, and the opening of its case.
#[derive(Clone, Copy)]
struct Lent<'b> {
    case: Case,
    book: &'b [u32],
}

impl Lent<'_> {
    /// What the archive gives, with a result of so many words.
    fn outcome(self, fences: &mut Fences, side: Side, wanted: Wanted, len: usize) -> Outcome {
        fault::watch(self.case, self.book);
        let Wanted { end, late } = wanted;
        let call = |book: &[u32], _: &[u32], result: &mut [u32]| {
            latest::plain::latest_free(self.case.opening, book, end, late, result)
        };
        let (answer, words, spilt) = fences.lend(side, self.book, &[], &filled(len), call);
        assert!(!spilt, "a word beside the result was changed");
        (answer, words)
    }

    /// The archive gives this, on either side of the fences.
    fn gives(self, fences: &mut Fences, wanted: Wanted, want: &Outcome) {
        for side in [Side::End, Side::Start] {
            let have = self.outcome(fences, side, wanted, want.1.len());
            if have != *want {
                let what = format!("  expected {want:?}\n  archive  {have:?}");
                fail(self.case, self.book, &wanted, &what);
            }
        }
    }
}

/// What is counted of an outcome.
fn count(counts: &mut Counts, day: &Day, wanted: Wanted, outcome: &Outcome) {
    let (answer, words) = outcome;
    counts.add(format!("call {}", answer.refusal));
    if answer.refusal != 0 {
        return;
    }
    counts.add_if(answer.minute == 0, "minute 0");
    counts.add_if(answer.minute == MAX_FREE, "the latest minute of all");
    counts.add_if(answer.late < 0, "early work");
    counts.add_if(answer.end as i32 == wanted.end, "end reached");
    counts.add_if(answer.late == wanted.late, "lateness reached");
    if answer.minute > 0 {
        // The order has the same pair from the minute before: that minute is idle.
        let before = from_minute(day, answer.minute - 1).pair_of(&words[..day.rows.len()]);
        let idle = (before.end, before.late) == (answer.end, answer.late);
        counts.add_if(idle, "minute that is not felt");
    }
}

// ---- Every order ----

/// Of small days, with wanted numbers about pairs that orders have from many minutes, and with numbers at both
/// ends of 32 bits: the minute is the latest of every order, and refused exactly if no order has one.
#[test]
fn every_order() {
    let (mut fences, mut counts) = (Fences::new(), Counts::default());
    for i in 0..700 * books::times() {
        let case = Case::new("every order, latest minute", i).accepted();
        let mut rng = case.rng();
        let draft = few_rows(&mut rng, case.opening, 7);
        let book = draft.words();
        let day = case.read(&book).expect("accepted");
        let lent = Lent { case, book: &book };
        let rows = day.rows.len();
        counts.add(format!("day of {rows} rows"));
        counts.add_if(day.list().len() > 1, "day of several plans");
        counts.add_if(case.opening > 0, "day with opening minutes");
        let pairs = some_pairs(&mut rng, &day);
        let pairs = some_of(&mut rng, pairs, 5);
        let len = rows + rng.pick(&[0, 0, 1, 9]);
        for wanted in wanted_around(&pairs) {
            let want = match latest_of_every_order(&day, wanted) {
                Some(minute) => {
                    let (latest, order) = answer_at(&day, minute, wanted);
                    found_outcome(latest, &order, len)
                }
                None => refused_outcome(UNREACHABLE, 0, len),
            };
            lent.gives(&mut fences, wanted, &want);
            count(&mut counts, &day, wanted, &want);
        }
    }
    println!("every order, latest minute: {:?}", counts.0);
    for rows in 1..=7 {
        counts.at_least(60, format!("day of {rows} rows"));
    }
    counts.at_least(100, "day of several plans");
    counts.at_least(350, "day with opening minutes");
    counts.at_least(20_000, "call 0");
    counts.at_least(20_000, "call 17");
    counts.at_least(5_000, "end reached");
    counts.at_least(5_000, "lateness reached");
    counts.at_least(5_000, "early work");
    counts.at_least(400, "minute 0");
    counts.at_least(4_000, "the latest minute of all");
    counts.at_least(4_000, "minute that is not felt");
}

// ---- Against the model ----

/// Made days with every opening, wanted numbers that tell, and results that fit, are longer or too short: the
/// same answer and the same words.
fn against_the_model(
    test: &'static str,
    number: u64,
    each: usize,
    make: impl Fn(&mut Rng, u32, u64) -> Draft,
) -> Counts {
    let (mut fences, mut counts) = (Fences::new(), Counts::default());
    let number = number * books::times();
    for i in 0..number {
        let case = Case::new(test, i).with_opening((i % (u64::from(MAX_OPENING) + 1)) as u32);
        let mut rng = case.rng();
        let book = make(&mut rng, case.opening, i).words();
        let day = case.read(&book);
        let lent = Lent { case, book: &book };
        let read = day.as_ref().expect("accepted");
        let rows = read.rows.len();
        counts.add_if(read.has_classes(), "day with class rows");
        counts.add_if(!read.is_sorted(), "day with unsorted rows");
        counts.add_if(rows == MAX_ROWS, "day of 256 rows");
        let pairs = some_pairs(&mut rng, read);
        let pairs = some_of(&mut rng, pairs, each);
        for wanted in some_of(&mut rng, wanted_around(&pairs), 2 * each) {
            let len = match rng.below(12) {
                0 => rng.below(rows),
                1 | 2 => rows + 1 + rng.below(40),
                _ => rows,
            };
            let want = of_model(&day, wanted, len);
            lent.gives(&mut fences, wanted, &want);
            count(&mut counts, read, wanted, &want);
        }
        // Of a pair that an order has from some minute, that minute or a later one is answered.
        for &Pair { end, late } in &pairs {
            let wanted = Wanted::new(end as i32, late);
            let want = of_model(&day, wanted, rows);
            assert_eq!(want.0.refusal, 0);
            lent.gives(&mut fences, wanted, &want);
            count(&mut counts, read, wanted, &want);
        }
    }
    let seed = books::seed();
    println!("{test}: seed {seed:#x}, {number} days, {:?}", counts.0);
    let least = number as usize * each / 4;
    counts.at_least(2 * least, "call 0");
    counts.at_least(least, "call 17");
    counts.at_least(least / 4, "call 9");
    counts
}

#[test]
fn short_days() {
    let counts = against_the_model("short days, latest minute", 2_500, 8, |rng, opening, _| {
        let rows = 1 + rng.below(14);
        books::accepted(rng, opening, rows)
    });
    counts.at_least(500, "day with class rows");
    counts.at_least(500, "day with unsorted rows");
    counts.at_least(200, "minute 0");
    counts.at_least(2_000, "the latest minute of all");
    counts.at_least(5_000, "minute that is not felt");
}

#[test]
fn middling_days() {
    let test = "middling days, latest minute";
    let counts = against_the_model(test, 310, 8, |rng, opening, i| {
        let rows = rng.range(15, 60) as usize;
        match i % 3 {
            0 => books::several_plans(rng, opening, rows).varied(rng),
            1 => books::contests(rng, opening, rows).varied(rng),
            _ => books::accepted(rng, opening, rows),
        }
    });
    counts.at_least(500, "minute that is not felt");
}

#[test]
fn long_days() {
    let counts = against_the_model("long days, latest minute", 93, 6, |rng, opening, i| {
        books::long(rng, opening, i)
    });
    counts.at_least(30, "day of 256 rows");
    counts.at_least(50, "minute that is not felt");
}

/// Days with a plan for each row, up to some 230.
#[test]
fn days_of_many_plans() {
    let test = "days of many plans, latest minute";
    against_the_model(test, 93, 6, |rng, opening, i| {
        let rows = match i % 10 {
            0 => MAX_ROWS,
            _ => rng.range(2, 80) as usize,
        };
        let day = books::many_plans(opening, rows);
        match rng.below(3) {
            0 => day,
            1 => day.of_class(rng.below(3) as u32).shuffled(rng),
            _ => day.promised_later(rng.range(0, 40)).shuffled(rng),
        }
    });
}

// ---- Rows whose answer is a sum ----

/// The outcome for rows that all have one release and one due: they are taken as they stand, and the latest
/// start is what the wanted numbers leave, unless that is before the release.
fn of_rows_alike(opening: u32, draft: &Draft, wanted: Wanted) -> Outcome {
    let (rows, row) = (draft.rows.len(), draft.rows[0]);
    let times = rows as i64 * (i64::from(opening) + draft.reach(&row) - row.release);
    let by = i64::from(wanted.end).min(row.due + i64::from(wanted.late));
    let minute = (by - times).min(MAX_FREE.into());
    if by - times < row.release {
        return refused_outcome(UNREACHABLE, 0, rows);
    }
    let end = minute.max(row.release) + times;
    let latest = Latest {
        minute: minute as u32,
        end: end as u32,
        late: (end - row.due) as i32,
    };
    let order: Vec<u32> = (1..=rows as u32).collect();
    found_outcome(latest, &order, rows)
}

/// Rows alike with wanted numbers about the soonest end and the latest one, and far from them.
fn hold_rows_alike(fences: &mut Fences, counts: &mut Counts, case: Case, draft: &Draft) {
    let book = draft.words();
    let lent = Lent { case, book: &book };
    let row = draft.rows[0];
    let time = i64::from(case.opening) + draft.reach(&row) - row.release;
    let times = draft.rows.len() as i64 * time;
    let (soonest, latest) = (row.release + times, i64::from(MAX_FREE) + times);
    for end in [soonest - 1, soonest, soonest + 1, latest - 1, latest] {
        let (end, late) = (end as i32, (end - row.due) as i32);
        let mut some = vec![(end, late), (end, late - 1), (end - 1, late)];
        some.extend([i32::MAX, i32::MIN].map(|far| (end, far)));
        some.extend(FAR.map(|far| (far, late)));
        for (end, late) in some {
            let wanted = Wanted::new(end, late);
            let want = of_rows_alike(case.opening, draft, wanted);
            lent.gives(fences, wanted, &want);
            counts.add(format!("call {}", want.0.refusal));
            let minute = (want.0.refusal == 0).then_some(want.0.minute);
            counts.add_if(minute == Some(0), "minute 0");
            counts.add_if(minute == Some(MAX_FREE), "the latest minute of all");
        }
    }
}

/// One row to 256 rows alike, early and late, short and long.
#[test]
fn rows_alike() {
    let (mut fences, mut counts) = (Fences::new(), Counts::default());
    let releases = [0, 1, 480, 9_999_999, 10_000_000];
    let dues = [0, 1, 500, 10_000_000, 20_000_000];
    for (i, count) in (0..).zip([1, 2, 3, 40, 255, MAX_ROWS as u32]) {
        for (j, opening) in [0, 1, 29, MAX_OPENING].into_iter().enumerate() {
            for (release, due) in releases.iter().flat_map(|r| dues.map(|due| (*r, due))) {
                for (k, (pace, pages)) in [(60, 1), (4, 2_000), (40, 7)].into_iter().enumerate() {
                    // Of many rows some of these only.
                    if count > 3 && !(j + k + release as usize + due as usize).is_multiple_of(7) {
                        continue;
                    }
                    let rows: Vec<_> = (0..count).map(|n| (n, release, pages, due)).collect();
                    let case = Case::new("rows alike", i).with_opening(opening);
                    let draft = Draft::of(0, pace, &rows);
                    hold_rows_alike(&mut fences, &mut counts, case, &draft);
                    counts.add(format!("{count} rows"));
                }
            }
        }
    }
    println!("rows alike: {:?}", counts.0);
    counts.at_least(10_000, "call 0");
    counts.at_least(10_000, "call 17");
    counts.at_least(500, "minute 0");
    counts.at_least(3_000, "the latest minute of all");
    counts.at_least(20, "256 rows");
}

/// The latest end and lateness that a book can have: from the latest minute. A minute less is not reached.
#[test]
fn the_latest_book() {
    let mut fences = Fences::new();
    for (i, (opening, draft, Pair { end, late })) in (0..).zip(books::at_the_limits()) {
        let case = Case::new("the latest book", i).with_opening(opening);
        let (book, rows) = (draft.words(), draft.rows.len());
        let lent = Lent { case, book: &book };
        let end = end as i32;
        for wanted in [
            Wanted::new(end, late),
            Wanted::new(i32::MAX, late),
            Wanted::new(end, i32::MAX),
        ] {
            let want = of_rows_alike(opening, &draft, wanted);
            // The third day is one early row, with its pair from minute 0.
            let minute = if i < 2 { MAX_FREE } else { 0 };
            assert_eq!((want.0.refusal, want.0.minute), (0, minute));
            assert_eq!((want.0.end as i32, want.0.late), (end, late));
            lent.gives(&mut fences, wanted, &want);
        }
        for wanted in [
            Wanted::new(end - 1, i32::MAX),
            Wanted::new(i32::MAX, late - 1),
        ] {
            lent.gives(&mut fences, wanted, &refused_outcome(UNREACHABLE, 0, rows));
        }
    }
}

/// Rows alike, a gap, and rows alike that are released after it, all due at one minute: the desk can open as
/// late as lets the first rows be done when the gap ends. From every minute up to that they have one pair.
#[test]
fn a_gap_in_the_day() {
    let (mut fences, mut counts) = (Fences::new(), Counts::default());
    for i in 0..400 * books::times() {
        let case = Case::new("a gap in the day", i).accepted();
        let mut rng = case.rng();
        let opening = i64::from(case.opening);
        let (first, pages) = (1 + rng.below(20), rng.range(1, 40));
        let (after, pages_after) = (1 + rng.below(20), rng.range(1, 40));
        let (release, gap) = (rng.pick(&[0, 0, 5, 480]), rng.pick(&[0, 1, 2, 60, 5_000]));
        let later = release + first as i64 * (opening + pages) + gap;
        let end = later + after as i64 * (opening + pages_after);
        let due = rng.range(0, 20_000);
        let mut rows = vec![(release, pages); first];
        rows.resize(first + after, (later, pages_after));
        rng.shuffle(&mut rows);
        let row = |(number, (release, pages))| (number, release, pages, due);
        let rows: Vec<_> = (901..).zip(rows).map(row).collect();
        let draft = Draft::of(rng.range(0, 1_000), 60, &rows);
        let (book, len) = (draft.words(), rows.len());
        let lent = Lent { case, book: &book };

        let pair = Pair {
            end: end as u32,
            late: (end - due) as i32,
        };
        let (latest, order) = ((release + gap) as u32, by_release(&draft));
        let from = |minute| case.posted(&with_free(&book, minute), &order);
        for minute in [0, latest / 2, latest.saturating_sub(1), latest] {
            assert_eq!(from(minute), pair, "{case:?}");
        }
        assert_ne!(from(latest + 1), pair, "{case:?}");

        let (end, late) = (pair.end as i32, pair.late);
        for (end, late) in [(end, late), (end, i32::MAX), (i32::MAX, late)] {
            let wanted = Wanted::new(end, late);
            let want = of_model(&case.read(&book), wanted, len);
            assert_eq!(want.0.minute, latest, "{case:?}");
            assert_eq!((want.0.end, want.0.late), (pair.end, pair.late));
            lent.gives(&mut fences, wanted, &want);
        }
        // With a minute more the desk can open a minute later; a minute less is not reached.
        let one_more = Wanted::new(end + 1, i32::MAX);
        let (answer, _) = lent.outcome(&mut fences, Side::Start, one_more, len);
        assert_eq!((answer.refusal, answer.minute), (0, latest + 1), "{case:?}");
        for (end, late) in [(end - 1, i32::MAX), (i32::MAX, late - 1)] {
            let want = refused_outcome(UNREACHABLE, 0, len);
            lent.gives(&mut fences, Wanted::new(end, late), &want);
        }
        counts.add(format!("gap of {gap}"));
    }
    println!("a gap in the day: {:?}", counts.0);
    for gap in [0, 1, 2, 60, 5_000] {
        counts.at_least(40, format!("gap of {gap}"));
    }
}

/// The rows of an accepted book.
fn rows_of(book: &[u32]) -> usize {
    (book.len() - 3) / 4
}

/// The rows as they are released.
fn by_release(draft: &Draft) -> Vec<u32> {
    let mut order: Vec<u32> = (1..=draft.rows.len() as u32).collect();
    order.sort_by_key(|&row| draft.rows[row as usize - 1].release);
    order
}

// ---- Refusals ----

/// Wanted numbers that are reached on any day, and such as are not on any.
const REACHED: Wanted = Wanted::new(i32::MAX, i32::MAX);
const NOT_REACHED: [Wanted; 3] = [
    Wanted::new(-1, i32::MAX),
    Wanted::new(i32::MAX, i32::MIN),
    Wanted::new(i32::MIN, i32::MIN),
];

/// Any of these, or numbers by chance.
fn some_wanted(rng: &mut Rng) -> Wanted {
    match rng.below(6) {
        0 | 1 => REACHED,
        2 => rng.pick(&NOT_REACHED),
        _ => Wanted::new(
            (rng.next() as i32) >> rng.below(32),
            (rng.next() as i32) >> rng.below(32),
        ),
    }
}

/// Outside 0 to 30 the opening is refused 3 at 0, whatever else is wrong: the book, the result, what is wanted.
#[test]
fn opening_minutes_before_anything_else() {
    let (mut fences, mut made) = (Fences::new(), 0);
    let sound = Draft::of(0, 60, &[(901, 1, 1, 5), (902, 0, 10, 12)]).words();
    let late = with_free(&sound, MAX_FREE + 1);
    let tail = [&sound[..], &[0]].concat();
    let full = books::latest_book().words();
    let mut rng = Case::new("opening minutes before anything else", 0).rng();
    let clash = books::disagreeing(&mut rng, 2).words();
    let books: [&[u32]; 8] = [
        &sound,
        &[],
        &[0; 9],
        &sound[..7],
        &tail,
        &late,
        &clash,
        &full,
    ];
    for opening in (0..=MAX_OPENING + 20).chain(REFUSED_OPENINGS) {
        for book in books {
            let case = Case::new("opening minutes before anything else", made);
            let case = case.with_opening(opening);
            let lent = Lent { case, book };
            let day = case.read(book);
            for wanted in NOT_REACHED.into_iter().chain([REACHED]) {
                for len in [0, 1, 2, 3, MAX_ROWS] {
                    let want = of_model(&day, wanted, len);
                    if opening > 30 {
                        assert_eq!(want, refused_outcome(RANGE, 0, len));
                    }
                    lent.gives(&mut fences, wanted, &want);
                    made += 1;
                }
            }
        }
    }
    println!("opening minutes before anything else: {made} calls");
}

/// A book that is refused, for any reason: as the order for a bound refuses it, whatever is wanted, with any
/// result.
#[test]
fn a_book_that_is_refused() {
    let (mut fences, mut counts) = (Fences::new(), Counts::default());
    for i in 0..6_000 * books::times() {
        let case = Case::new("a book that is refused, latest minute", i).accepted();
        let mut rng = case.rng();
        let rows = match i % 100 {
            0 => MAX_ROWS,
            _ => 2 + rng.below(12),
        };
        let book = match 1 + i as u32 % 8 {
            DISORDER => books::disagreeing(&mut rng, rows).words(),
            way => {
                let mut book = case.day(&mut rng, rows).words();
                books::damage(&mut rng, &mut book, way);
                book
            }
        };
        let alone = linked::order_for_bound(case.opening, &book, 0, &mut [0; MAX_ROWS]);
        let Err(Refusal { number, place }) = alone else {
            continue;
        };
        if number == UNKEPT {
            continue;
        }
        let lent = Lent { case, book: &book };
        for len in [0, rows, MAX_ROWS] {
            let wanted = some_wanted(&mut rng);
            let want = refused_outcome(number, place, len);
            assert_eq!(want, of_model(&case.read(&book), wanted, len));
            lent.gives(&mut fences, wanted, &want);
        }
        counts.add(format!("refused {number}"));
    }
    println!("a book that is refused, latest minute: {:?}", counts.0);
    for number in [CUT, KIND, RANGE, TWICE, FULL, COUNT, TAIL, DISORDER] {
        counts.at_least(200, format!("refused {number}"));
    }
}

/// Any words, damaged books and books with a bit flipped, with any opening and result.
#[test]
fn any_words() {
    let (mut fences, mut counts) = (Fences::new(), Counts::default());
    for i in 0..12_000 * books::times() {
        let case = Case::new("any words, latest minute", i);
        let mut rng = case.rng();
        let rows = 1 + rng.below(10);
        let mut book = case.day(&mut rng, rows).words();
        match i % 4 {
            0 => book = books::random_words(&mut rng, 60),
            1 => book = books::damaged(&mut rng, &book),
            2 => {
                let at = rng.below(book.len());
                book[at] ^= 1 << rng.below(32);
            }
            _ => {}
        }
        let wanted = some_wanted(&mut rng);
        let len = rng.pick(&[0, rows - 1, rows, rows, rows + 3]);
        let want = of_model(&case.read(&book), wanted, len);
        let lent = Lent { case, book: &book };
        lent.gives(&mut fences, wanted, &want);
        counts.add(format!("call {}", want.0.refusal));
    }
    println!("any words, latest minute: {:?}", counts.0);
    for number in [
        0,
        CUT,
        KIND,
        RANGE,
        TWICE,
        COUNT,
        TAIL,
        DISORDER,
        NARROW,
        UNREACHABLE,
    ] {
        counts.at_least(50, format!("call {number}"));
    }
}

/// A result with a word fewer than there are rows is refused 9, before what is wanted is looked for; of a
/// longer one the further words are kept. 17 leaves every word.
#[test]
fn results_of_every_length() {
    let (mut fences, mut counts) = (Fences::new(), Counts::default());
    for i in 0..150 * books::times() {
        let case = Case::new("results of every length, latest minute", i).accepted();
        let mut rng = case.rng();
        let rows = match i % 50 {
            0 => MAX_ROWS,
            _ => books::some_rows(&mut rng, 40),
        };
        let book = case.day(&mut rng, rows).words();
        let day = case.read(&book);
        let read = day.as_ref().expect("accepted");
        let pairs = some_pairs(&mut rng, read);
        let Pair { end, late } = rng.pick(&pairs);
        let wanted = Wanted::new(end as i32, late);
        let lent = Lent { case, book: &book };
        let not = rng.pick(&NOT_REACHED);
        for (wanted, number) in [(wanted, 0), (not, UNREACHABLE)] {
            for len in 0..=rows + 3 {
                let want = match len < rows {
                    true => refused_outcome(NARROW, 0, len),
                    false => of_model(&day, wanted, len),
                };
                assert!(len < rows || want.0.refusal == number);
                lent.gives(&mut fences, wanted, &want);
                counts.add(format!("call {}", want.0.refusal));
            }
        }
    }
    println!("results of every length, latest minute: {:?}", counts.0);
    counts.at_least(500, "call 0");
    counts.at_least(500, "call 17");
    counts.at_least(2_000, "call 9");
}

// ---- Facts ----

/// A day by chance of 1 to 256 rows, many of them with several plans.
fn day_of_facts(rng: &mut Rng, case: Case) -> Draft {
    let rows = books::some_rows(rng, MAX_ROWS);
    match rng.below(3) {
        0 => books::several_plans(rng, case.opening, rows).varied(rng),
        1 => books::contests(rng, case.opening, rows).varied(rng),
        _ => case.day(rng, rows),
    }
}

/// What the archive's order for a bound gives of the book with another free word: answer and words.
fn for_bound(case: Case, book: &[u32], minute: u32, bound: i32, len: usize) -> Outcome {
    let (book, mut words) = (with_free(book, minute), filled(len));
    let answer = linked::plain::order_for_bound(case.opening, &book, bound, &mut words);
    (answer, words)
}

/// The answer's order and pair are those of the order for the bound from the minute answered. From every
/// minute up to there the order for the bound keeps the wanted end, and from any later one it does not, or no
/// order keeps the bound. The verdict on the order says the same pair. Short of the latest minute of all, one
/// of the wanted numbers is reached: with a minute to spare in both, the desk could open a minute later.
#[test]
fn the_order_for_the_bound() {
    let (mut fences, mut counts) = (Fences::new(), Counts::default());
    for i in 0..600 * books::times() {
        let case = Case::new("the order for the bound", i).accepted();
        let mut rng = case.rng();
        let book = day_of_facts(&mut rng, case).words();
        let day = case.read(&book).expect("accepted");
        let rows = day.rows.len();
        let pairs = some_pairs(&mut rng, &day);
        let pairs = some_of(&mut rng, pairs, 4);
        for wanted in some_of(&mut rng, wanted_around(&pairs), 10) {
            let lent = Lent { case, book: &book };
            let (answer, words) = lent.outcome(&mut fences, Side::End, wanted, rows);
            let keeps = |minute: u32| {
                let (order, _) = for_bound(case, &book, minute, wanted.late, rows);
                order.refusal == 0 && order.end as i32 <= wanted.end
            };
            let hold = |so: bool, what: &str| {
                if !so {
                    let what = format!("  {what}\n  archive {answer:?} {words:?}");
                    fail(case, &book, &wanted, &what);
                }
            };
            let mut minutes = telling_minutes(&mut rng, &day);
            counts.add(format!("call {}", answer.refusal));
            if answer.refusal != 0 {
                let want = refused_outcome(UNREACHABLE, 0, rows);
                hold((answer, words.clone()) == want, "refused otherwise");
                let none = minutes.iter().all(|&minute| !keeps(minute));
                hold(none, "refused, and a minute allows it");
                continue;
            }
            let (order, its_words) = for_bound(case, &book, answer.minute, wanted.late, rows);
            let same = Answer {
                minute: answer.minute,
                ..order
            };
            hold(answer == same && words == its_words, "another order");
            let own = case.posted(&with_free(&book, answer.minute), &words);
            hold((own.end, own.late) == (answer.end, answer.late), "its pair");
            minutes.extend([answer.minute, answer.minute.saturating_sub(1)]);
            minutes.insert((answer.minute + 1).min(MAX_FREE));
            for &minute in &minutes {
                hold(keeps(minute) == (minute <= answer.minute), "the minutes");
                counts.add("minute");
                counts.add_if(minute > answer.minute, "minute past the answer");
            }
            let reached = answer.end as i32 == wanted.end || answer.late == wanted.late;
            hold(answer.minute == MAX_FREE || reached, "a minute to spare");
        }
    }
    println!("the order for the bound: {:?}", counts.0);
    counts.at_least(1_500, "call 0");
    counts.at_least(1_500, "call 17");
    counts.at_least(10_000, "minute");
    counts.at_least(3_000, "minute past the answer");
}

/// The free word is not used: with any in range the same answer and words come. Out of range it is refused 3 at
/// 0, and of another kind 2 at 0, as in any call.
#[test]
fn the_free_word() {
    let (mut fences, mut counts) = (Fences::new(), Counts::default());
    for i in 0..800 * books::times() {
        let case = Case::new("the free word", i).accepted();
        let mut rng = case.rng();
        let mut book = day_of_facts(&mut rng, case).words();
        let rows = rows_of(&book);
        let day = case.read(&book).expect("accepted");
        let pairs = some_pairs(&mut rng, &day);
        let Pair { end, late } = rng.pick(&pairs);
        let wanted = match rng.below(4) {
            0 => some_wanted(&mut rng),
            _ => Wanted::new(end as i32, late),
        };
        if rng.one_in(6) {
            book = books::damaged(&mut rng, &book);
            if book.is_empty() {
                continue;
            }
        }
        let from_zero = with_free(&book, 0);
        let lent = Lent {
            case,
            book: &from_zero,
        };
        let want = lent.outcome(&mut fences, Side::End, wanted, rows);
        counts.add(format!("call {}", want.0.refusal));
        let any = rng.range(0, MAX_FREE.into()) as u32;
        let after = (want.0.minute + 1).min(MAX_FREE);
        for free in [1, want.0.minute, after, any, MAX_FREE - 1, MAX_FREE] {
            let other = with_free(&book, free);
            let lent = Lent { case, book: &other };
            lent.gives(&mut fences, wanted, &want);
            let later = want.0.refusal == 0 && free > want.0.minute;
            counts.add_if(later, "free later than the answer");
        }
        for free in [MAX_FREE + 1, MAX_FREE + 2, (1 << 29) - 1] {
            let other = with_free(&book, free);
            let lent = Lent { case, book: &other };
            lent.gives(&mut fences, wanted, &refused_outcome(RANGE, 0, rows));
        }
        for kind in [0, 2, 3, 4, 5, 6, 7] {
            let other = [&[word(kind, 9)], &book[1..]].concat();
            let lent = Lent { case, book: &other };
            lent.gives(&mut fences, wanted, &refused_outcome(KIND, 0, rows));
        }
    }
    println!("the free word: {:?}", counts.0);
    counts.at_least(400, "call 0");
    counts.at_least(50, "call 17");
    counts.at_least(1_000, "free later than the answer");
}

/// A later wanted end or a greater wanted lateness never gives an earlier minute; nor is it refused where less
/// was reached.
#[test]
fn more_is_allowed() {
    let (mut fences, mut counts) = (Fences::new(), Counts::default());
    for i in 0..250 * books::times() {
        let case = Case::new("more is allowed", i).accepted();
        let mut rng = case.rng();
        let book = day_of_facts(&mut rng, case).words();
        let day = case.read(&book).expect("accepted");
        let pairs = some_pairs(&mut rng, &day);
        let pairs = some_of(&mut rng, pairs, 3);
        let around = wanted_around(&pairs);
        let mut ends = some_of(&mut rng, around.iter().map(|wanted| wanted.end), 5);
        let mut lates = some_of(&mut rng, around.iter().map(|wanted| wanted.late), 5);
        ends.sort();
        lates.sort();
        let lent = Lent { case, book: &book };
        // A minute, or none, which is less than any.
        let mut minute = |end, late| {
            let (answer, _) =
                lent.outcome(&mut fences, Side::End, Wanted::new(end, late), MAX_ROWS);
            (answer.refusal == 0).then_some(answer.minute)
        };
        let mut least = vec![None; lates.len()];
        for &end in &ends {
            let mut before = None;
            for (least, &late) in least.iter_mut().zip(&lates) {
                let minute = minute(end, late);
                let wanted = Wanted::new(end, late);
                if minute < before || minute < *least {
                    let what = format!("  {minute:?}, less: {before:?}, {least:?}");
                    fail(case, &book, &wanted, &what);
                }
                counts.add_if(minute > before && minute > *least, "later minute");
                (before, *least) = (minute, minute);
                counts.add("minute");
            }
        }
    }
    println!("more is allowed: {:?}", counts.0);
    counts.at_least(4_000, "minute");
    counts.at_least(500, "later minute");
}

// ---- Days worked through ----

/// The typed wrapper on the worked days, from their own free minute and others, and a refusal of each kind.
#[test]
fn the_wrapper() {
    for (draft, worked) in worked_days() {
        let (book, rows) = (draft.words(), draft.rows.len());
        for (opening, (end, late), (told, order)) in worked {
            for free in [0, 5, MAX_FREE] {
                let book = with_free(&book, free);
                let mut result = vec![77; rows + 1];
                let given = linked::latest_free(opening, &book, end, late, &mut result);
                assert_eq!(given, told, "end {end}, late {late}, opening {opening}");
                let mut want = order.clone();
                want.resize(rows + 1, 77);
                assert_eq!(result, want, "end {end}, late {late}, opening {opening}");
            }
        }
    }
    let book = worked_days()[0].0.words();
    let refused = |number, place| Err(Refusal { number, place });
    let mut result = [77; 2];
    let mut told = |opening, book: &[u32], end, late, len| {
        linked::latest_free(opening, book, end, late, &mut result[..len])
    };
    assert_eq!(told(31, &book, 12, 0, 2), refused(RANGE, 0));
    assert_eq!(told(31, &[], 12, 0, 0), refused(RANGE, 0));
    assert_eq!(told(0, &[], 12, 0, 2), refused(CUT, 0));
    assert_eq!(told(0, &book[..9], 12, 0, 2), refused(CUT, 9));
    let late = with_free(&book, MAX_FREE + 1);
    assert_eq!(told(0, &late, 12, 0, 2), refused(RANGE, 0));
    let tail = [&book[..], &[0]].concat();
    assert_eq!(told(0, &tail, 12, 0, 2), refused(TAIL, 11));
    let mut odd = book.clone();
    odd[9] = word(6, 14);
    assert_eq!(told(0, &odd, 12, 0, 2), refused(DISORDER, 6));
    assert_eq!(told(0, &book, 12, 0, 1), refused(NARROW, 0));
    assert_eq!(told(0, &book, 11, 5, 1), refused(NARROW, 0));
    assert_eq!(told(0, &book, 11, 5, 2), refused(UNREACHABLE, 0));
    assert_eq!(result, [77; 2]);
}
