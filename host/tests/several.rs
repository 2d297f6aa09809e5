//! Several desks of the archive under one overtime limit: small bureaus against every choice of orders, made
//! ones against the model, every refusal, and facts that hold of any. Every run is lent between pages that
//! cannot be touched.
//!
//! `JELVAKSNA_SEED` sets the seed, `JELVAKSNA_TIMES` multiplies the number of cases.

#[path = "common/bureaus.rs"]
mod bureaus;
mod common;
#[path = "common/kit.rs"]
mod kit;

use bureaus::{
    few_rows, least_kept, limits_around, of_days, refused_at, some_bureau, some_desks, three_desks,
    three_desks_worked, THREE_CLOSINGS, THREE_LENGTHS,
};
use common::fence::{Fences, Side};
use common::{fail, fault, filled, refused, Case};
use jelvaksna::books::{self, Draft, Rng, REFUSED_OPENINGS};
use jelvaksna::linked::{self, several, Answer};
use jelvaksna::model::MAX_ROWS;
use jelvaksna::refusal::{COUNT, CUT, DISORDER, KIND, NARROW, OVERTIME, RANGE, TAIL, TWICE};
use jelvaksna::several_model::{self, overtime, Bureau};
use jelvaksna::{
    word, Chosen, Pair, RefusalAtDesk, MAX_CLOSING, MAX_DESKS, MAX_LIMIT, MAX_OPENING,
};
use kit::Counts;

// ---- The call ----

/// What the call is lent and told, but for the result.
#[derive(Clone)]
struct Lent {
    opening: u32,
    books: Vec<u32>,
    lengths: Vec<u32>,
    closings: Vec<u32>,
    limit: u32,
}

/// The answer of a call, and the words of the result after it.
type Outcome = (Answer, Vec<u32>);

fn answer_of(told: Result<Chosen, RefusalAtDesk>) -> Answer {
    match told {
        Ok(Chosen { late, overtime }) => Answer {
            late,
            overtime,
            ..Answer::default()
        },
        Err(RefusalAtDesk { refusal, desk }) => Answer {
            desk,
            ..refused(refusal)
        },
    }
}

/// The outcome of a call that is refused: the result of so many words is as it was.
fn refused_outcome(desk: u32, number: u32, place: usize, len: usize) -> Outcome {
    (answer_of(refused_at(desk, number, place)), filled(len))
}

impl Lent {
    fn of(opening: u32, books: &[Vec<u32>], closings: &[u32], limit: u32) -> Self {
        Lent {
            opening,
            books: books.concat(),
            lengths: books.iter().map(|book| book.len() as u32).collect(),
            closings: closings.to_vec(),
            limit,
        }
    }

    /// What the archive gives, with a result of so many words.
    fn of_archive(&self, fences: &mut Fences, side: Side, len: usize) -> Outcome {
        let lent = [&self.books[..], &self.lengths, &self.closings];
        let call = |[books, lengths, closings]: [&[u32]; 3], result: &mut [u32]| {
            several::plain::choose(self.opening, books, lengths, closings, self.limit, result)
        };
        let (answer, words, spilt) = fences.lend_three(side, lent, &filled(len), call);
        assert!(!spilt, "a word beside the result was changed");
        (answer, words)
    }

    /// What the model gives.
    fn of_model(&self, len: usize) -> Outcome {
        let mut words = filled(len);
        let told = several_model::choose(
            self.opening,
            &self.books,
            &self.lengths,
            &self.closings,
            self.limit,
            &mut words,
        );
        (answer_of(told), words)
    }

    /// The archive gives this, on either side of the fences.
    fn gives(&self, case: Case, fences: &mut Fences, want: &Outcome) {
        fault::watch(case, &self.books);
        for side in [Side::End, Side::Start] {
            let have = self.of_archive(fences, side, want.1.len());
            if have != *want {
                let told = (self.opening, &self.lengths, &self.closings, self.limit);
                let what = format!("  wanted  {want:?}\n  archive {have:?}");
                fail(case, &self.books, &told, &what);
            }
        }
    }
}

/// The plans of a desk with their orders.
type Plans = Vec<(Pair, Vec<u32>)>;

/// The plans of each desk as the archive lists them.
fn listed(opening: u32, books: &[Vec<u32>]) -> Vec<Plans> {
    let of_book = |book: &Vec<u32>| {
        let plans = linked::plans(opening, book).expect("accepted");
        let with_order = |(plan, pair)| {
            let mut order = vec![0; rows_of(book)];
            let told = linked::order_of_plan(opening, book, plan, &mut order);
            assert_eq!(told, Ok(pair));
            (pair, order)
        };
        (1..).zip(plans).map(with_order).collect()
    };
    books.iter().map(of_book).collect()
}

/// The rows of an accepted book.
fn rows_of(book: &[u32]) -> usize {
    (book.len() - 3) / 4
}

/// What is answered where each desk takes its first listed plan within a lateness, which some desk's plan
/// attains: the sum of their overtimes, and their orders one after another in a result of so many words.
fn of_first_plans(listed: &[Plans], closings: &[u32], late: i32, len: usize) -> Outcome {
    let (mut words, mut at, mut sum) = (filled(len), 0, 0);
    let mut worst = i32::MIN;
    for (plans, &closing) in listed.iter().zip(closings) {
        let first = plans.iter().find(|(pair, _)| pair.late <= late);
        let (pair, order) = first.expect("a plan within");
        words[at..at + order.len()].copy_from_slice(order);
        at += order.len();
        sum += overtime(closing, pair.end);
        worst = worst.max(pair.late);
    }
    assert_eq!(worst, late);
    let overtime = sum as u32;
    (answer_of(Ok(Chosen { late, overtime })), words)
}

// ---- Every choice of orders ----

/// Of small bureaus, under limits about each sum that any choice of orders comes to: the answer is the least
/// lateness of all choices that keep the limit, the orders attain it, the sum is theirs, and the limit is
/// refused exactly if no choice keeps it.
#[test]
fn every_choice_of_orders() {
    let (mut fences, mut counts) = (Fences::new(), Counts::default());
    for i in 0..3_000 * books::times() {
        let case = Case::new("every choice of orders", i).accepted();
        let mut rng = case.rng();
        let rows = few_rows(&mut rng);
        let (books, bureau) = some_bureau(&mut rng, case.opening, &rows);
        let listed = listed(case.opening, &books);
        for (day, plans) in bureau.days.iter().zip(&listed) {
            for (pair, order) in plans {
                let mut rows = order.clone();
                rows.sort();
                assert!(rows.into_iter().eq(1..=day.rows.len() as u32));
                assert_eq!(day.pair_of(order), *pair);
            }
        }
        let choices = bureau.every_choice();
        let plans: usize = listed.iter().map(Vec::len).sum();
        counts.add(format!("{} desks", rows.len()));
        counts.add_if(plans > rows.len() + 2, "bureau of many plans");
        let len = bureau.rows() + rng.pick(&[0, 0, 1, 9]);
        for limit in limits_around(choices.iter().map(|choice| choice.0)) {
            let least = least_kept(&choices, limit);
            let want = match least {
                Some(late) => of_first_plans(&listed, &bureau.closings, late, len),
                None => refused_outcome(0, OVERTIME, 0, len),
            };
            assert!(want.0.overtime <= limit);
            let lent = Lent::of(case.opening, &books, &bureau.closings, limit);
            lent.gives(case, &mut fences, &want);
            counts.add(format!("limit {}", want.0.refusal));
            let tells = least > least_kept(&choices, MAX_LIMIT);
            counts.add_if(tells, "limit that tells");
            counts.add_if(least.is_some_and(|late| late < 0), "least lateness below 0");
        }
        counts.add_if(case.opening > 0, "bureau with opening minutes");
    }
    println!("every choice of orders: {:?}", counts.0);
    for desks in 1..=4 {
        counts.at_least(500, format!("{desks} desks"));
    }
    counts.at_least(1_000, "bureau of many plans");
    counts.at_least(1_500, "bureau with opening minutes");
    counts.at_least(50_000, "limit 0");
    counts.at_least(2_000, "limit 16");
    counts.at_least(4_000, "limit that tells");
    counts.at_least(4_000, "least lateness below 0");
}

// ---- Against the model ----

/// Sums for limits to be set about: the least, the most, and some.
fn some_sums(rng: &mut Rng, bureau: &Bureau) -> Vec<u64> {
    let mut sums: Vec<u64> = bureau.sums().into_iter().collect();
    let ends = [sums[0], sums[sums.len() - 1]];
    rng.shuffle(&mut sums);
    sums.truncate(3);
    sums.extend(ends);
    sums
}

/// Bureaus by chance with every opening, under limits that tell, with results that fit, are longer or too
/// short: the same answer and the same words.
fn against_the_model(
    test: &'static str,
    number: u64,
    make: impl Fn(&mut Rng, u32, u64) -> Vec<Draft>,
) -> Counts {
    let (mut fences, mut counts) = (Fences::new(), Counts::default());
    let number = number * books::times();
    for i in 0..number {
        let case = Case::new(test, i).with_opening((i % (u64::from(MAX_OPENING) + 1)) as u32);
        let mut rng = case.rng();
        let days = make(&mut rng, case.opening, i);
        let (books, bureau) = of_days(&mut rng, case.opening, &days);
        let (desks, rows) = (books.len(), bureau.rows());
        counts.add(format!("{desks} desks"));
        let classed = bureau.days.iter().any(|day| day.has_classes());
        counts.add_if(classed, "bureau with class rows");
        let several = bureau.days.iter().filter(|day| day.list().len() > 1);
        counts.add_if(
            several.count() > 1,
            "bureau with several desks of several plans",
        );
        for limit in limits_around(some_sums(&mut rng, &bureau)) {
            let len = match rng.below(8) {
                0 => rng.below(rows),
                1 => rows + 1 + rng.below(40),
                _ => rows,
            };
            let mut words = filled(len);
            let told = bureau.choose_into(limit, &mut words);
            let lent = Lent::of(case.opening, &books, &bureau.closings, limit);
            let want = (answer_of(told), words);
            lent.gives(case, &mut fences, &want);
            counts.add(format!("call {}", want.0.refusal));
            if let Ok(Chosen { late, .. }) = told {
                let tells = bureau.choose(MAX_LIMIT) != bureau.choose(limit);
                counts.add_if(tells, "limit that tells");
                // The orders for the answer as a bound, which those of the plans may differ from.
                let for_bound = bureau.days.iter().flat_map(|day| {
                    let within = day.order_for_bound(late);
                    within.expect("a plan within").1
                });
                let differs = !for_bound.eq(want.1[..rows].iter().copied());
                counts.add_if(differs, "order that is not the answer's as a bound");
            }
        }
    }
    let seed = books::seed();
    println!("{test}: seed {seed:#x}, {number} bureaus, {:?}", counts.0);
    counts.at_least(number as usize, "call 0");
    for refusal in [NARROW, OVERTIME] {
        counts.at_least(number as usize / 8, format!("call {refusal}"));
    }
    counts
}

#[test]
fn short_desks() {
    let counts = against_the_model("short desks", 3_000, |rng, opening, _| {
        let rows = some_desks(rng, |rng| 1 + rng.below(14));
        books::bureau(rng, opening, &rows)
    });
    for desks in 1..=MAX_DESKS {
        counts.at_least(200, format!("{desks} desks"));
    }
    counts.at_least(500, "bureau with class rows");
    counts.at_least(1_000, "bureau with several desks of several plans");
    counts.at_least(4_000, "limit that tells");
    counts.at_least(50, "order that is not the answer's as a bound");
}

#[test]
fn middling_desks() {
    let counts = against_the_model("middling desks", 200, |rng, opening, _| {
        let rows = some_desks(rng, |rng| rng.range(15, 60) as usize);
        books::bureau(rng, opening, &rows)
    });
    counts.at_least(50, "bureau with several desks of several plans");
    counts.at_least(200, "limit that tells");
}

/// Typical days and others of up to 256 rows at up to 8 desks; some bureaus are full.
#[test]
fn long_desks() {
    let counts = against_the_model("long desks", 40, |rng, opening, i| match i % 4 {
        0 => (0..MAX_DESKS)
            .map(|_| books::typical_day(rng, opening, MAX_ROWS).varied(rng))
            .collect(),
        _ => (0..1 + rng.below(MAX_DESKS) as u64)
            .map(|desk| books::long(rng, opening, i + desk))
            .collect(),
    });
    counts.at_least(10, format!("{MAX_DESKS} desks"));
}

/// Days with a plan for each row at every desk, up to some 230, their latenesses shifted against each other.
#[test]
fn desks_of_many_plans() {
    let counts = against_the_model("desks of many plans", 60, |rng, opening, i| {
        let rows = match i % 20 {
            0 => vec![MAX_ROWS; [1, 4, MAX_DESKS][i as usize / 20 % 3]],
            _ => some_desks(rng, |rng| rng.range(2, 60) as usize),
        };
        let day = |&rows: &usize| {
            let day = books::many_plans(opening, rows);
            match rng.below(3) {
                0 => day,
                1 => day.of_class(rng.below(3) as u32).shuffled(rng),
                _ => {
                    let later = rng.range(0, 40);
                    day.promised_later(later).shuffled(rng)
                }
            }
        };
        rows.iter().map(day).collect()
    });
    counts.at_least(30, "bureau with several desks of several plans");
    counts.at_least(200, "limit that tells");
}

// ---- Lent amiss: refused 3 at 0, desk 0 ----

const PAST_CLOSING: [u32; 4] = [MAX_CLOSING + 1, MAX_CLOSING + 2, 1 << 31, u32::MAX];
const PAST_LIMIT: [u32; 4] = [MAX_LIMIT + 1, MAX_LIMIT + 2, 1 << 31, u32::MAX];

/// What makes a sound bureau of two desks and more one that is lent amiss.
type Fault = fn(&mut Rng, &mut Lent);

/// Any of these words.
fn any<'w>(rng: &mut Rng, words: &'w mut [u32]) -> &'w mut u32 {
    &mut words[rng.below(words.len())]
}

const FAULTS: [(&str, Fault); 17] = [
    ("opening minutes", |rng, lent| {
        lent.opening = rng.pick(&REFUSED_OPENINGS)
    }),
    ("nothing", |_, lent| {
        lent.books.clear();
        lent.lengths.clear();
        lent.closings.clear()
    }),
    ("no desks", |_, lent| {
        lent.lengths.clear();
        lent.closings.clear()
    }),
    ("too many desks", |rng, lent| {
        let desks = MAX_DESKS + 1 + rng.below(3);
        lent.lengths.resize(desks, 0);
        lent.closings.resize(desks, 0)
    }),
    ("a late closing minute", |rng, lent| {
        *any(rng, &mut lent.closings) = rng.pick(&PAST_CLOSING)
    }),
    ("a great limit", |rng, lent| {
        lent.limit = rng.pick(&PAST_LIMIT)
    }),
    ("a closing minute fewer", |_, lent| {
        lent.closings.pop();
    }),
    ("a closing minute more", |_, lent| lent.closings.push(0)),
    ("no closing minute", |_, lent| lent.closings.clear()),
    ("a length fewer", |_, lent| {
        lent.lengths.pop();
    }),
    ("a length more", |_, lent| lent.lengths.push(0)),
    ("a word fewer", |_, lent| {
        lent.books.pop();
    }),
    ("a word more", |_, lent| lent.books.push(0)),
    ("a smaller length", |rng, lent| {
        let length = any(rng, &mut lent.lengths);
        *length = length.wrapping_sub(1)
    }),
    ("a greater length", |rng, lent| {
        let length = any(rng, &mut lent.lengths);
        *length = length.wrapping_add(1)
    }),
    // These add up to the run in 32 bits.
    ("lengths of 2^31 more", |_, lent| {
        for length in &mut lent.lengths[..2] {
            *length = length.wrapping_add(1 << 31);
        }
    }),
    ("a length below 0", |rng, lent| {
        let less = lent.lengths[0].wrapping_add(1 + rng.below(9) as u32);
        lent.lengths[0] = lent.lengths[0].wrapping_sub(less);
        lent.lengths[1] = lent.lengths[1].wrapping_add(less)
    }),
];

/// A sound bureau of two desks and more, under the greatest limit, and its rows.
fn sound_bureau(rng: &mut Rng, opening: u32) -> (Lent, usize) {
    let desks = 2 + rng.below(MAX_DESKS - 1);
    let rows: Vec<usize> = (0..desks).map(|_| 1 + rng.below(5)).collect();
    let (books, bureau) = some_bureau(rng, opening, &rows);
    let lent = Lent::of(opening, &books, &bureau.closings, MAX_LIMIT);
    (lent, bureau.rows())
}

/// Whatever is lent amiss is told before any book is looked at, and before the result: 3 at 0, desk 0.
#[test]
fn lent_amiss() {
    let (mut fences, mut counts) = (Fences::new(), Counts::default());
    for i in 0..150 * books::times() {
        let case = Case::new("lent amiss", i).accepted();
        let mut rng = case.rng();
        let (sound, rows) = sound_bureau(&mut rng, case.opening);
        let accepted = sound.of_model(rows);
        assert_eq!(accepted.0.refusal, 0);
        sound.gives(case, &mut fences, &accepted);
        for (name, fault) in FAULTS {
            let mut lent = sound.clone();
            fault(&mut rng, &mut lent);
            let amiss = |len| refused_outcome(0, RANGE, 0, len);
            lent.gives(case, &mut fences, &amiss(rows));
            // With books that are none, and with no result.
            let garbage = rng.pick(&[0, u32::MAX, 1 << 29]);
            lent.books.fill(garbage);
            lent.gives(case, &mut fences, &amiss(rows));
            lent.gives(case, &mut fences, &amiss(0));
            counts.add(name);
        }
        // Several at once, which may make up for each other.
        for _ in 0..6 {
            let mut lent = sound.clone();
            for _ in 0..2 + rng.below(2) {
                if lent.lengths.len() > 1 && !lent.closings.is_empty() {
                    rng.pick(&FAULTS).1(&mut rng, &mut lent);
                }
            }
            let want = lent.of_model(rows);
            lent.gives(case, &mut fences, &want);
            counts.add(format!("several at once, {}", want.0.refusal));
        }
    }
    println!("lent amiss: {:?}", counts.0);
}

/// One desk to eight, the last closing minute of each, the greatest limit and every opening up to 30 are
/// taken; no desk, nine, a closing minute or a limit more, and 31 are not.
#[test]
fn the_most_that_may_be_lent() {
    let (mut fences, mut taken, mut amiss) = (Fences::new(), 0, 0);
    let rows = [(901, 1, 1, 5), (902, 0, 10, 12)];
    let book = Draft::of(0, 60, &rows).words();
    let case = Case::new("the most that may be lent", 0).with_opening(0);
    for desks in 0..=MAX_DESKS + 1 {
        let sound = Lent::of(0, &vec![book.clone(); desks], &vec![11; desks], MAX_LIMIT);
        let mut some = vec![sound.clone()];
        for limit in [0, 1, MAX_LIMIT - 1].into_iter().chain(PAST_LIMIT) {
            some.push(Lent {
                limit,
                ..sound.clone()
            });
        }
        for opening in 0..=MAX_OPENING + 10 {
            some.push(Lent {
                opening,
                ..sound.clone()
            });
        }
        for closing in [0, MAX_CLOSING - 1, MAX_CLOSING]
            .into_iter()
            .chain(PAST_CLOSING)
        {
            for desk in 0..desks {
                let mut lent = sound.clone();
                lent.closings[desk] = closing;
                some.push(lent);
            }
        }
        for lent in some {
            let fits = (1..=MAX_DESKS).contains(&desks)
                && lent.limit <= 200_000_000
                && lent.opening <= 30
                && lent.closings.iter().all(|&closing| closing <= 20_000_000);
            let want = lent.of_model(2 * desks);
            assert_eq!(want.0.refusal == RANGE, !fits);
            lent.gives(case, &mut fences, &want);
            taken += u64::from(fits);
            amiss += u64::from(!fits);
        }
    }
    println!("the most that may be lent: {taken} taken, {amiss} amiss");
}

// ---- Books that are refused ----

/// A book that is refused at any desk, for any reason: its desk is told, and the place within its book, which
/// are those of the book alone. Of two the first is told. So it is with any limit and any result.
#[test]
fn a_book_that_is_refused() {
    let (mut fences, mut counts) = (Fences::new(), Counts::default());
    for i in 0..6_000 * books::times() {
        let case = Case::new("a book that is refused", i).accepted();
        let mut rng = case.rng();
        let desk = i as usize / 8 % MAX_DESKS;
        let desks = desk + 1 + rng.below(MAX_DESKS - desk);
        let rows: Vec<usize> = (0..desks).map(|_| 1 + rng.below(6)).collect();
        let (mut books, bureau) = some_bureau(&mut rng, case.opening, &rows);
        let spoil = |rng: &mut Rng, book: &mut Vec<u32>, way: u32| match way {
            DISORDER => {
                let rows = 2 + rng.below(6);
                *book = books::disagreeing(rng, rows).words();
            }
            _ => books::damage(rng, book, way),
        };
        spoil(&mut rng, &mut books[desk], 1 + i as u32 % 8);
        let alone = linked::plain::list(case.opening, &books[desk], &mut [0; 2 * MAX_ROWS]);
        if alone.refusal == 0 {
            continue;
        }
        let after = desks - desk - 1;
        if after > 0 && rng.one_in(2) {
            let (other, way) = (desk + 1 + rng.below(after), 1 + rng.below(8));
            spoil(&mut rng, &mut books[other], way as u32);
            counts.add("two books spoilt");
        }
        let limit = rng.pick(&[0, 1, 100, MAX_LIMIT]);
        let lent = Lent::of(case.opening, &books, &bureau.closings, limit);
        for len in [bureau.rows(), 0] {
            let want = refused_outcome(desk as u32 + 1, alone.refusal, alone.place, len);
            lent.gives(case, &mut fences, &want);
            assert_eq!(want, lent.of_model(len));
        }
        counts.add(format!("{} at desk {}", alone.refusal, desk + 1));
    }
    println!("a book that is refused: {:?}", counts.0);
    for desk in 1..=MAX_DESKS {
        for number in CUT..=DISORDER {
            counts.at_least(20, format!("{number} at desk {desk}"));
        }
    }
    counts.at_least(1_000, "two books spoilt");
}

/// Each book is its own part of the run: with the border between two sound books at any other word the first
/// is cut there, or has a tail where the second should begin. A book of no words is cut at 0.
#[test]
fn every_border() {
    let (mut fences, mut borders) = (Fences::new(), 0);
    for i in 0..30 * books::times() {
        let case = Case::new("every border", i).accepted();
        let mut rng = case.rng();
        let rows = some_desks(&mut rng, |rng| 1 + rng.below(6));
        let (books, bureau) = some_bureau(&mut rng, case.opening, &rows);
        let sound = Lent::of(case.opening, &books, &bureau.closings, MAX_LIMIT);
        let rows = bureau.rows();
        for desk in 0..books.len() - 1 {
            let first = sound.lengths[desk];
            let both = first + sound.lengths[desk + 1];
            for border in (0..=both).filter(|&border| border != first) {
                let mut lent = sound.clone();
                (lent.lengths[desk], lent.lengths[desk + 1]) = (border, both - border);
                let (number, place) = match border < first {
                    true => (CUT, border),
                    false => (TAIL, first),
                };
                let want = refused_outcome(desk as u32 + 1, number, place as usize, rows);
                lent.gives(case, &mut fences, &want);
                borders += 1;
            }
        }
        for desk in (0..=books.len()).filter(|_| books.len() < MAX_DESKS) {
            let mut lent = sound.clone();
            lent.lengths.insert(desk, 0);
            lent.closings.insert(desk, 0);
            let want = refused_outcome(desk as u32 + 1, CUT, 0, rows);
            lent.gives(case, &mut fences, &want);
        }
    }
    println!("every border: {borders} borders");
    assert!(borders > 2_000);
}

/// Runs of any words with any lengths, damaged runs of sound books, and borders that are moved.
#[test]
fn any_words() {
    let (mut fences, mut counts) = (Fences::new(), Counts::default());
    for i in 0..12_000 * books::times() {
        let case = Case::new("several desks of any words", i);
        let mut rng = case.rng();
        let (mut lent, rows) = sound_bureau(&mut rng, case.accepted_opening());
        lent.opening = case.opening;
        lent.limit = rng.pick(&[0, 3, 1_000, MAX_LIMIT, MAX_LIMIT, rng.clone().next() as u32]);
        match i % 4 {
            0 => {
                // Any words, and lengths that take them up.
                lent.books = books::random_words(&mut rng, 60);
                let mut rest = lent.books.len() as u32;
                for length in lent.lengths.iter_mut().skip(1) {
                    *length = rng.below(rest as usize + 1) as u32;
                    rest -= *length;
                }
                lent.lengths[0] = rest;
            }
            1 => {
                let words = lent.books.len();
                lent.books = books::damaged(&mut rng, &lent.books);
                // The last book has what was added, or lacks what was taken.
                let last = lent.lengths.last_mut().expect("a desk");
                *last = last.wrapping_add((lent.books.len() as u32).wrapping_sub(words as u32));
            }
            2 => {
                let (one, other) = (rng.below(lent.lengths.len()), rng.below(lent.lengths.len()));
                let step = rng.pick(&[0, 1, 4, 8]);
                lent.lengths[one] = lent.lengths[one].wrapping_add(step);
                lent.lengths[other] = lent.lengths[other].wrapping_sub(step);
            }
            _ => {
                let at = rng.below(lent.books.len());
                lent.books[at] ^= 1 << rng.below(32);
            }
        }
        let len = rng.pick(&[0, rows.saturating_sub(1), rows, rows, rows + 3]);
        let want = lent.of_model(len);
        lent.gives(case, &mut fences, &want);
        counts.add(format!("call {}", want.0.refusal));
    }
    println!("several desks of any words: {:?}", counts.0);
    for number in [
        0, CUT, KIND, RANGE, TWICE, COUNT, TAIL, DISORDER, NARROW, OVERTIME,
    ] {
        counts.at_least(50, format!("call {number}"));
    }
}

// ---- The result, and the limit ----

/// A result with a word fewer than there are rows is refused 9 after all books and before the limit; of a
/// longer one the further words are kept.
#[test]
fn results_of_every_length() {
    let (mut fences, mut counts) = (Fences::new(), Counts::default());
    for i in 0..250 * books::times() {
        let case = Case::new("results of every length", i).accepted();
        let mut rng = case.rng();
        let rows = some_desks(&mut rng, |rng| 1 + rng.below(5));
        let (mut books, bureau) = some_bureau(&mut rng, case.opening, &rows);
        let least = some_sums(&mut rng, &bureau).into_iter().min();
        // The least sum of overtimes, and one minute less where there is one.
        let kept = least.expect("a sum") as u32;
        let rows = bureau.rows();
        for limit in kept.saturating_sub(1)..=kept {
            let lent = Lent::of(case.opening, &books, &bureau.closings, limit);
            for len in 0..=rows + 3 {
                let want = match len < rows {
                    true => refused_outcome(0, NARROW, 0, len),
                    false => lent.of_model(len),
                };
                let number = if limit < kept { OVERTIME } else { 0 };
                assert!(len < rows || want.0.refusal == number);
                lent.gives(case, &mut fences, &want);
                counts.add(format!("call {}", want.0.refusal));
            }
        }
        // The last book is still looked at.
        let last = books.last_mut().expect("a desk");
        last.pop();
        let (desk, place) = (bureau.days.len() as u32, last.len());
        let lent = Lent::of(case.opening, &books, &bureau.closings, 0);
        for len in 0..=rows {
            let want = refused_outcome(desk, CUT, place, len);
            lent.gives(case, &mut fences, &want);
        }
    }
    println!("results of every length: {:?}", counts.0);
    for number in [0, NARROW, OVERTIME] {
        counts.at_least(500, format!("call {number}"));
    }
}

// ---- Facts ----

/// The outcome that the archive gives, and holds to twice.
fn told(case: Case, fences: &mut Fences, lent: &Lent, len: usize) -> Outcome {
    fault::watch(case, &lent.books);
    let outcome = lent.of_archive(fences, Side::End, len);
    lent.gives(case, fences, &outcome);
    outcome
}

/// A bureau by chance under the greatest limit, its books, and its rows.
fn bureau_of_facts(rng: &mut Rng, case: Case) -> (Lent, Vec<Vec<u32>>, usize) {
    let rows = some_desks(rng, |rng| books::some_rows(rng, 60));
    let (books, bureau) = some_bureau(rng, case.opening, &rows);
    let lent = Lent::of(case.opening, &books, &bureau.closings, MAX_LIMIT);
    (lent, books, bureau.rows())
}

/// The greatest lateness of the desks' last plans, which are as little late as a desk can be.
fn latest_last_plan(listed: &[Plans]) -> i32 {
    let last = listed.iter().map(|plans| plans[plans.len() - 1].0.late);
    last.max().expect("a desk")
}

/// A desk by itself that closes when all is done takes its last listed plan, with no overtime; so under the
/// limit 0 too.
#[test]
fn one_desk_that_closes_late() {
    let (mut fences, mut several) = (Fences::new(), 0);
    for i in 0..600 * books::times() {
        let case = Case::new("one desk that closes late", i).accepted();
        let mut rng = case.rng();
        let rows = books::some_rows(&mut rng, MAX_ROWS);
        let books = [books::bureau(&mut rng, case.opening, &[rows])[0].words()];
        let plans = listed(case.opening, &books).remove(0);
        let (Pair { late, .. }, order) = plans[plans.len() - 1].clone();
        let want = (answer_of(Ok(Chosen { late, overtime: 0 })), order);
        for limit in [0, MAX_LIMIT] {
            let lent = Lent::of(case.opening, &books, &[MAX_CLOSING], limit);
            lent.gives(case, &mut fences, &want);
        }
        several += u64::from(plans.len() > 1);
    }
    println!("one desk that closes late: {several} of several plans");
    assert!(several > 200);
}

/// No sum of overtimes passes the greatest limit: the answer under it is the lateness of the desk whose last
/// plan is latest. Where no desk has overtime the limit 0 gives the same.
#[test]
fn the_greatest_limit() {
    let (mut fences, mut counts) = (Fences::new(), Counts::default());
    for i in 0..500 * books::times() {
        let case = Case::new("the greatest limit", i).accepted();
        let mut rng = case.rng();
        let (mut lent, books, rows) = bureau_of_facts(&mut rng, case);
        let listed = listed(case.opening, &books);
        let late = latest_last_plan(&listed);
        let want = of_first_plans(&listed, &lent.closings, late, rows);
        lent.gives(case, &mut fences, &want);
        // A desk that could be less late than that, and is not.
        let first = |plans: &Plans| plans[0].0.late <= late && plans.len() > 1;
        counts.add_if(listed.iter().any(first), "desk that takes an earlier plan");
        counts.add_if(want.0.overtime > 0, "overtime");
        lent.closings.fill(MAX_CLOSING);
        let want = of_first_plans(&listed, &lent.closings, late, rows);
        assert_eq!(want.0.overtime, 0);
        for limit in [0, MAX_LIMIT] {
            lent.limit = limit;
            lent.gives(case, &mut fences, &want);
        }
    }
    println!("the greatest limit: {:?}", counts.0);
    counts.at_least(100, "desk that takes an earlier plan");
    counts.at_least(300, "overtime");
}

/// A greater limit never gives a greater lateness, and no limit a greater sum than itself. The sum that is
/// told, as the limit, gives the same again; a minute less gives a greater lateness or is refused.
#[test]
fn a_greater_limit() {
    let (mut fences, mut counts) = (Fences::new(), Counts::default());
    for i in 0..500 * books::times() {
        let case = Case::new("a greater limit", i).accepted();
        let mut rng = case.rng();
        let (mut lent, books, rows) = bureau_of_facts(&mut rng, case);
        let listed = listed(case.opening, &books);
        // From the greatest limit down, each time a minute below the sum, as long as there are choices.
        let mut least = latest_last_plan(&listed) - 1;
        loop {
            let outcome = told(case, &mut fences, &lent, rows);
            let answer = outcome.0;
            if answer.refusal == OVERTIME {
                assert_eq!(outcome, refused_outcome(0, OVERTIME, 0, rows));
                counts.add("limit that cannot be kept");
                break;
            }
            let want = of_first_plans(&listed, &lent.closings, answer.late, rows);
            assert_eq!(outcome, want, "{case:?}");
            assert!(
                answer.late > least && answer.overtime <= lent.limit,
                "{case:?}"
            );
            for limit in [answer.overtime, answer.overtime / 2 + lent.limit / 2] {
                if (answer.overtime..=lent.limit).contains(&limit) {
                    let between = Lent {
                        limit,
                        ..lent.clone()
                    };
                    between.gives(case, &mut fences, &outcome);
                }
            }
            counts.add("limit");
            least = answer.late;
            if answer.overtime == 0 {
                counts.add("no overtime");
                break;
            }
            lent.limit = answer.overtime - 1;
        }
    }
    println!("a greater limit: {:?}", counts.0);
    counts.at_least(1_000, "limit");
    counts.at_least(200, "limit that cannot be kept");
    counts.at_least(50, "no overtime");
}

/// Desks lent in another sequence have the same answer, and each the same order.
#[test]
fn desks_in_another_sequence() {
    let (mut fences, mut counts) = (Fences::new(), Counts::default());
    for i in 0..300 * books::times() {
        let case = Case::new("desks in another sequence", i).accepted();
        let mut rng = case.rng();
        let (mut lent, books, rows) = bureau_of_facts(&mut rng, case);
        let most = told(case, &mut fences, &lent, rows).0.overtime;
        lent.limit = rng.range(0, most.into()) as u32;
        let (answer, words) = told(case, &mut fences, &lent, rows);
        let mut desks: Vec<usize> = (0..books.len()).collect();
        rng.shuffle(&mut desks);
        let other: Vec<Vec<u32>> = desks.iter().map(|&desk| books[desk].clone()).collect();
        let closings: Vec<u32> = desks.iter().map(|&desk| lent.closings[desk]).collect();
        let other = Lent::of(case.opening, &other, &closings, lent.limit);
        let begins = |desk: usize| books[..desk].iter().map(|book| rows_of(book)).sum();
        let order = |&desk: &usize| words[begins(desk)..begins(desk + 1)].to_vec();
        let turned = match answer.refusal {
            0 => desks.iter().flat_map(order).collect(),
            _ => words.clone(),
        };
        other.gives(case, &mut fences, &(answer, turned));
        counts.add(format!("call {}", answer.refusal));
        counts.add_if(!desks.is_sorted(), "another sequence");
    }
    println!("desks in another sequence: {:?}", counts.0);
    counts.at_least(100, "call 0");
    counts.at_least(200, "another sequence");
}

/// The latest end at every desk, of which each minute is overtime: the greatest limit is more than that.
#[test]
fn the_most_overtime() {
    let mut fences = Fences::new();
    let (opening, day, Pair { end, late }) = &books::at_the_limits()[0];
    let case = Case::new("the most overtime", 0).with_opening(*opening);
    let books = vec![day.words(); MAX_DESKS];
    let order: Vec<u32> = (1..=MAX_ROWS as u32).collect();
    let orders = [&order[..]; MAX_DESKS].concat();
    let len = orders.len();
    for closing in [0, 1, end - 1, *end, MAX_CLOSING] {
        let sum = 8 * end.saturating_sub(closing);
        let chosen = Chosen {
            late: *late,
            overtime: sum,
        };
        let want = (answer_of(Ok(chosen)), orders.clone());
        for limit in [sum, sum + 1, MAX_LIMIT] {
            let lent = Lent::of(*opening, &books, &[closing; MAX_DESKS], limit);
            lent.gives(case, &mut fences, &want);
        }
        if sum > 0 {
            let lent = Lent::of(*opening, &books, &[closing; MAX_DESKS], sum - 1);
            lent.gives(case, &mut fences, &refused_outcome(0, OVERTIME, 0, len));
        }
    }
    assert_eq!(8 * end, 141_501_440);
}

/// The typed wrapper on a bureau worked through, and a refusal of each kind.
#[test]
fn the_wrapper() {
    let books = three_desks();
    let lent = books.concat();
    for (limits, want, orders) in three_desks_worked() {
        for limit in limits {
            let mut result = [77; 8];
            let told = several::choose(
                0,
                &lent,
                &THREE_LENGTHS,
                &THREE_CLOSINGS,
                limit,
                &mut result,
            );
            assert_eq!((told, result), (want, orders), "limit {limit}");
        }
    }
    let mut result = [77; 8];
    let mut told = |opening, books: &[u32], lengths: &[u32], len| {
        several::choose(
            opening,
            books,
            lengths,
            &THREE_CLOSINGS,
            9,
            &mut result[..len],
        )
    };
    assert_eq!(told(31, &lent, &THREE_LENGTHS, 8), refused_at(0, RANGE, 0));
    assert_eq!(told(0, &lent, &[11, 30], 8), refused_at(0, RANGE, 0));
    assert_eq!(told(0, &lent, &[11, 18, 12], 8), refused_at(2, CUT, 18));
    assert_eq!(told(0, &lent, &[12, 18, 11], 8), refused_at(1, TAIL, 11));
    let mut odd = lent.clone();
    odd[31] = word(2, 3);
    assert_eq!(told(0, &odd, &THREE_LENGTHS, 8), refused_at(3, RANGE, 1));
    assert_eq!(told(0, &lent, &THREE_LENGTHS, 7), refused_at(0, NARROW, 0));
    let chosen = Chosen {
        late: 13,
        overtime: 7,
    };
    assert_eq!(told(0, &lent, &THREE_LENGTHS, 8), Ok(chosen));
}
