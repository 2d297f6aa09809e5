//! A million inputs on the path that `slate` takes, with no opening minutes: bytes to words, then the
//! archive's list and a row, and for a good part of the accepted ones all that `slate` would print.
//! Then `slate` itself, and `scribe` on the days of examples/.

mod common;
#[path = "common/programs.rs"]
mod programs;

use common::{compare, fail, fault, Accepted, Call, Case};
use jelvaksna::books::{self, Rng};
use jelvaksna::model::{self, Day, MAX_ROWS};
use jelvaksna::{linked, refusal};
use programs::{run, TOP};
use std::fmt::Write;

/// What `slate` prints, from the archive's answers alone.
fn printed(words: &[u32]) -> String {
    let mut list = [0; 2 * MAX_ROWS];
    let plans = match linked::list(0, words, &mut list) {
        Ok(plans) => plans,
        Err(no) => return format!("refused {} at {}\n", no.number, no.place),
    };
    let mut rows = 0;
    while linked::row_words(words, rows + 1).is_ok() {
        rows += 1;
    }
    let mut text = format!("rows {rows} plans {plans}\n");
    for plan in 1..=plans {
        let mut order = vec![0; rows as usize];
        let pair = linked::order_of_plan(0, words, plan as u32, &mut order).expect("a listed plan");
        assert_eq!(list[2 * plan - 2..2 * plan], [pair.end, pair.late as u32]);
        write!(
            text,
            "plan {plan} end {} late {} order",
            pair.end, pair.late
        )
        .unwrap();
        for row in order {
            let number = linked::row_words(words, row).expect("a row")[0] & 0x1fff_ffff;
            write!(text, " {number}").unwrap();
        }
        text.push('\n');
    }
    text
}

/// Counts of what became of the inputs.
#[derive(Default)]
struct Tally {
    odd: u64,
    accepted: Accepted,
    refused: [u64; 9],
}

fn look(case: Case, rng: &mut Rng, input: &[u8], tally: &mut Tally) {
    let words = match model::slate_words(input) {
        Ok(words) => words,
        Err(no) => {
            // Refused before the core is asked; the whole words are no book to fault on either.
            assert_eq!((no.number, no.place), (refusal::CUT, input.len() / 4));
            tally.odd += 1;
            input
                .chunks_exact(4)
                .map(|bytes| u32::from_le_bytes(bytes.try_into().unwrap()))
                .collect()
        }
    };
    let day = case.read(&words);
    match &day {
        Ok(day) => tally.accepted.count(&words, day),
        Err(no) => tally.refused[no.number as usize] += 1,
    }
    compare(case, &words, &day, &Call::List { len: 2 * MAX_ROWS });
    let rows = day.as_ref().map_or(4, |day| day.rows.len());
    let row = rng.below(rows + 2) as u32;
    compare(case, &words, &day, &Call::RowPlace { row });
    if input.len().is_multiple_of(4) && rng.one_in(if day.is_ok() { 4 } else { 16 }) {
        fault::watch(case, &words);
        let (want, have) = (model::slate(input), printed(&words));
        if want != have {
            fail(
                case,
                &words,
                &"slate",
                &format!("model:\n{want}archive:\n{have}"),
            );
        }
    }
}

/// Bytes of a book, now and then with odd bytes after it or without its last ones.
fn bytes(rng: &mut Rng, book: &[u32]) -> Vec<u8> {
    let mut bytes: Vec<u8> = book.iter().flat_map(|word| word.to_le_bytes()).collect();
    if rng.one_in(40) {
        bytes.truncate(bytes.len().saturating_sub(rng.below(4)));
        bytes.extend((0..rng.below(4)).map(|_| 7));
    }
    bytes
}

fn inputs(test: &'static str, count: u64, mut make: impl FnMut(&mut Rng, u64) -> Vec<u8>) {
    let mut tally = Tally::default();
    for i in 0..count {
        let case = Case::new(test, i).with_opening(0);
        let mut rng = case.rng();
        let input = make(&mut rng, i);
        look(case, &mut rng, &input, &mut tally);
    }
    let seed = books::seed();
    let Tally {
        odd,
        accepted,
        refused,
    } = tally;
    println!("{test}: seed {seed:#x}, {count} inputs, {odd} with odd bytes, {accepted}, refused 1 to 8: {:?}", &refused[1..]);
    accepted.check(test);
}

/// 300,000 inputs of random bytes and words.
#[test]
fn random_inputs() {
    inputs("random inputs", 300_000 * books::times(), |rng, i| {
        let most = match i % 64 {
            0 => 1100,
            1..=8 => 60,
            _ => 16,
        };
        if rng.one_in(3) {
            let len = rng.below(4 * most + 4);
            return (0..len).map(|_| rng.next() as u8).collect();
        }
        let words = books::random_words(rng, most);
        bytes(rng, &words)
    });
}

/// 350,000 inputs: short books, damaged.
#[test]
fn mutated_inputs() {
    inputs("mutated inputs", 350_000 * books::times(), |rng, _| {
        let rows = 1 + rng.below(7);
        let book = books::accepted(rng, 0, rows).words();
        let book = books::damaged(rng, &book);
        bytes(rng, &book)
    });
}

/// 345,000 inputs: a pool of books with single bytes changed, bits flipped, parts joined.
#[test]
fn spliced_inputs() {
    let test = "spliced inputs";
    let mut rng = Case::new(test, u64::MAX).rng();
    let pool: Vec<Vec<u8>> = (0..200)
        .map(|i| {
            let rows = 1 + i % 9;
            let book = books::accepted(&mut rng, 0, rows).words();
            book.iter().flat_map(|word| word.to_le_bytes()).collect()
        })
        .collect();
    inputs(test, 345_000 * books::times(), |rng, _| {
        let mut input = pool[rng.below(pool.len())].clone();
        if rng.one_in(4) {
            let other = &pool[rng.below(pool.len())];
            let (a, b) = (rng.below(input.len()), rng.below(other.len()));
            input.truncate(a / 4 * 4);
            input.extend(&other[b / 4 * 4..]);
        }
        for _ in 0..rng.pick(&[0, 1, 1, 1, 2, 4]) {
            let at = rng.below(input.len());
            match rng.below(3) {
                0 => input[at] = rng.next() as u8,
                1 => input[at] ^= 1 << rng.below(8),
                _ => input[at] = rng.pick(&[0, 1, 0x7f, 0x80, 0xff]),
            }
        }
        if rng.one_in(50) {
            input.truncate(rng.below(input.len() + 1));
        }
        input
    });
}

/// 5,000 inputs: long books, damaged, and inputs past the words that are looked at.
#[test]
fn long_inputs() {
    inputs("long inputs", 5_000 * books::times(), |rng, i| {
        let rows = match i % 3 {
            0 => MAX_ROWS,
            _ => 1 + rng.below(MAX_ROWS),
        };
        let mut book = books::typical_day(rng, 0, rows).varied(rng).words();
        if !rng.one_in(8) {
            book = books::damaged(rng, &book);
        }
        bytes(rng, &book)
    });
}

/// The proved program itself on some hundred inputs.
#[test]
fn the_program() {
    let test = "slate";
    let count = 400 * books::times();
    let mut accepted = Accepted::default();
    for i in 0..count {
        let case = Case::new(test, i);
        let mut rng = case.rng();
        let rows = match i % 20 {
            0 => MAX_ROWS,
            _ => books::some_rows(&mut rng, 60),
        };
        let mut book = books::accepted(&mut rng, 0, rows).words();
        if rng.one_in(3) {
            book = books::damaged(&mut rng, &book);
        }
        if let Ok(day) = Day::read(0, &book) {
            accepted.count(&book, &day);
        }
        let mut input = bytes(&mut rng, &book);
        if rng.one_in(20) {
            input.extend(vec![0; rng.below(9_000)]);
        }
        let have = String::from_utf8_lossy(&run(test, &input)).into_owned();
        let want = model::slate(&input);
        if want != have {
            let what = format!("{} bytes, model:\n{want}slate:\n{have}", input.len());
            fail(case, &book, &"slate", &what);
        }
    }
    println!("{test}: {count} inputs to target/bin/slate, {accepted}");
    assert!(accepted.classed > count / 10 && accepted.unsorted > count / 10);
}

/// The days of examples/: `scribe` makes the books that stand beside them, and `slate` lists plans.
#[test]
fn the_examples() {
    let mut days = 0;
    for entry in std::fs::read_dir(format!("{TOP}/examples")).unwrap() {
        let path = entry.unwrap().path();
        if path.extension().is_some_and(|ending| ending == "day") {
            let book = std::fs::read(path.with_extension("book")).expect("a book beside the day");
            assert_eq!(run("scribe", &std::fs::read(&path).unwrap()), book);
            let have = String::from_utf8(run("slate", &book)).unwrap();
            assert_eq!(have, model::slate(&book));
            assert!(have.starts_with("rows "), "{path:?}: {have}");
            days += 1;
        }
    }
    assert!(days > 2);
}
