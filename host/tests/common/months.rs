//! What the tests of the month share: the example of docs/MONTH.md, months with all that is printed
//! of them, inputs that are no months, and months by chance.
#![allow(dead_code)]

use crate::kit::Counts;
use jelvaksna::books::{self, Draft, Rng};
use jelvaksna::model::{Day, MARGINS, MAX_ROWS};
use jelvaksna::month_model::{
    bytes, days_in, idle, PostedDay, Report, MAX_BOOK, MAX_DAYS, MAX_POSTING,
};
use jelvaksna::word;

/// The bytes of words, lowest first.
pub fn bytes_of(words: &[u32]) -> Vec<u8> {
    words.iter().flat_map(|word| word.to_le_bytes()).collect()
}

// ---- The example of docs/MONTH.md ----

/// The bytes and the lines that the document shows.
pub struct Example {
    pub input: Vec<u8>,
    pub printed: String,
}

/// The example as the document has it: hexadecimal words and printed lines stand four blanks in.
/// Each day stands where the document says, and the bytes are as many.
pub fn example() -> Example {
    let path = concat!(env!("CARGO_MANIFEST_DIR"), "/../docs/MONTH.md");
    let text = std::fs::read_to_string(path).expect("docs/MONTH.md");
    let (mut input, mut printed, mut days) = (Vec::new(), String::new(), 0);
    let (_, example) = text.split_once("## An example").expect("an example");
    let (example, _) = example.split_once("\n## ").expect("a section after it");
    for line in example.lines() {
        if let Some(start) = line.strip_prefix("Day ") {
            let place = start.split_once("at byte ").expect("where it stands").1;
            let place = place.split(':').next().unwrap();
            assert_eq!(place.parse(), Ok(input.len()), "{line}");
            days += 1;
        }
        let Some(shown) = line.strip_prefix("    ") else {
            continue;
        };
        let words: Vec<&str> = shown.split_whitespace().collect();
        let is_hex = |word: &&str| word.len() == 8 && word.bytes().all(|b| b.is_ascii_hexdigit());
        if words.iter().all(is_hex) {
            for word in words {
                let word = u32::from_str_radix(word, 16).unwrap();
                input.extend(word.to_be_bytes());
            }
        } else {
            printed += &format!("{shown}\n");
        }
    }
    let said = format!("Four days, {} bytes:", input.len());
    assert!(days == 4 && example.contains(&said), "{said}");
    Example { input, printed }
}

// ---- Months with all that is printed of them ----

/// A book and a posting, each behind its length.
pub fn posted(book: &[u32], posting: &[u32]) -> Vec<u8> {
    let (words, rows) = (book.len() as u32, posting.len() as u32);
    bytes_of(&[&[words], book, &[rows], posting].concat())
}

/// The worked day of two rows. Posted as 2 1 it ends at 11, 6 late; as 1 2 at 12, a minute idle and
/// nothing late. Both are listed.
pub fn two() -> Vec<u32> {
    Draft::of(0, 60, &[(901, 1, 1, 5), (902, 0, 10, 12)]).words()
}

/// The worked day of three rows. Posted as 2 1 3 it is beaten: 9 minutes idle, 6 late.
fn three() -> Vec<u32> {
    let rows = [(901, 1, 1, 5), (902, 0, 10, 12), (903, 20, 5, 27)];
    Draft::of(0, 60, &rows).words()
}

/// The worked day of four rows. Its plans are (121, 17) and (122, 0).
fn four() -> Vec<u32> {
    let rows = [
        (901, 1, 1, 5),
        (902, 0, 10, 12),
        (903, 101, 1, 104),
        (904, 100, 20, 122),
    ];
    Draft::of(0, 60, &rows).words()
}

/// A day of one row, free at 0, a page a minute: idle up to the release.
fn one(release: i64, pages: i64, due: i64) -> Vec<u8> {
    posted(
        &Draft::of(0, 60, &[(901, release, pages, due)]).words(),
        &[1],
    )
}

/// A day without idle minutes that is so late, or early if negative.
fn late_by(late: i64) -> Vec<u8> {
    one(0, late.max(0) + 1, (-late).max(0) + 1)
}

/// A day of which two rows disagree, with a sound posting.
fn disordered() -> Vec<u8> {
    let rows = [(901, 1, 1, 5), (902, 0, 10, 14)];
    posted(&Draft::of(0, 60, &rows).words(), &[1, 2])
}

/// The most rows, a minute each, and all of them in their order.
fn most_rows() -> (Vec<u32>, Vec<u32>) {
    let rows: Vec<_> = (0..256).map(|number| (number, 0, 1, 256)).collect();
    (Draft::of(0, 60, &rows).words(), (1..=256).collect())
}

/// A month and all that is printed of it.
type Stored = (&'static str, Vec<u8>, &'static str);

/// Months of whole days.
pub fn stored_months() -> Vec<Stored> {
    let mut all = months_of_one_day();
    all.extend(refused_days());
    all.extend(months_of_several_days());
    all.extend(means());
    all.extend(greatest_totals());
    all
}

fn months_of_one_day() -> Vec<Stored> {
    let class = Draft::of(0, 60, &[(911, 5, 3, 0)]).of_class(0).words();
    let equal = Draft::of(0, 60, &[(1, 0, 2, 5), (2, 0, 2, 5)]).words();
    let unsorted = Draft::of(0, 60, &[(902, 0, 10, 12), (901, 1, 1, 5)]).words();
    // The plans are (10, 4) and (11, 3).
    let rows = [(901, 0, 7, 8), (902, 2, 2, 6), (903, 0, 1, 4)];
    let short_and_long = Draft::of(0, 60, &rows).words();
    let of_free = |free, release, pages, due| {
        let day = Draft::of(free, 60, &[(901, release, pages, due)]);
        posted(&day.words(), &[1])
    };
    let of_pace = |pace, pages| {
        let day = Draft::of(0, pace, &[(901, 0, pages, 20)]);
        posted(&day.words(), &[1])
    };
    let (most, all) = most_rows();
    vec![
        (
            "no day",
            vec![],
            "days 0 accepted 0 refused 0\nbeaten 0\nidle 0\nlate 0\n",
        ),
        (
            "the first of two plans",
            posted(&two(), &[2, 1]),
            "days 1 accepted 1 refused 0\nbeaten 0\nidle 0\nlate 6\nmean 6 remainder 0\n",
        ),
        (
            "the second of two plans",
            posted(&two(), &[1, 2]),
            "days 1 accepted 1 refused 0\nbeaten 0\nidle 1\nlate 0\nmean 0 remainder 0\n",
        ),
        (
            "another order with a plan's pair",
            posted(&equal, &[2, 1]),
            "days 1 accepted 1 refused 0\nbeaten 0\nidle 0\nlate -1\nmean -1 remainder 0\n",
        ),
        (
            "beaten by the only plan, which is not idle for longer",
            posted(&three(), &[2, 1, 3]),
            "days 1 accepted 1 refused 0\nbeaten 1\nidle 9\nlate 6\nmean 6 remainder 0\n",
        ),
        (
            "the only plan",
            posted(&three(), &[1, 2, 3]),
            "days 1 accepted 1 refused 0\nbeaten 0\nidle 9\nlate 0\nmean 0 remainder 0\n",
        ),
        (
            "beaten by the second plan only",
            posted(&four(), &[2, 1, 3, 4]),
            "days 1 accepted 1 refused 0\nbeaten 1\nidle 90\nlate 6\nmean 6 remainder 0\n",
        ),
        (
            "beaten by the first plan only",
            posted(&short_and_long, &[1, 2, 3]),
            "days 1 accepted 1 refused 0\nbeaten 1\nidle 0\nlate 6\nmean 6 remainder 0\n",
        ),
        (
            "beaten by both plans",
            posted(&four(), &[2, 4, 1, 3]),
            "days 1 accepted 1 refused 0\nbeaten 1\nidle 90\nlate 116\nmean 116 remainder 0\n",
        ),
        (
            "beaten, and idle for longer than any plan",
            posted(&four(), &[4, 3, 2, 1]),
            "days 1 accepted 1 refused 0\nbeaten 1\nidle 100\nlate 127\nmean 127 remainder 0\n",
        ),
        (
            "two stretches idle, in another order than the plan's",
            posted(&four(), &[1, 2, 4, 3]),
            "days 1 accepted 1 refused 0\nbeaten 0\nidle 89\nlate 17\nmean 17 remainder 0\n",
        ),
        (
            "a desk that is free after the release",
            of_free(7, 3, 4, 10),
            "days 1 accepted 1 refused 0\nbeaten 0\nidle 0\nlate 1\nmean 1 remainder 0\n",
        ),
        (
            "a desk that is free before the release",
            of_free(7, 10, 4, 10),
            "days 1 accepted 1 refused 0\nbeaten 0\nidle 3\nlate 4\nmean 4 remainder 0\n",
        ),
        (
            "a row of a class, due 60 minutes after it could be read",
            posted(&class, &[1]),
            "days 1 accepted 1 refused 0\nbeaten 0\nidle 5\nlate -60\nmean -60 remainder 0\n",
        ),
        (
            "rows as they arrive",
            posted(&unsorted, &[1, 2]),
            "days 1 accepted 1 refused 0\nbeaten 0\nidle 0\nlate 6\nmean 6 remainder 0\n",
        ),
        (
            "an exact half goes up: 7 pages at pace 40 take 11 minutes",
            of_pace(40, 7),
            "days 1 accepted 1 refused 0\nbeaten 0\nidle 0\nlate -9\nmean -9 remainder 0\n",
        ),
        (
            "less than a half goes down: 1 page at pace 50 takes a minute",
            of_pace(50, 1),
            "days 1 accepted 1 refused 0\nbeaten 0\nidle 0\nlate -19\nmean -19 remainder 0\n",
        ),
        (
            "the most rows: a book of 1,027 words and a posting of 256",
            posted(&most, &all),
            "days 1 accepted 1 refused 0\nbeaten 0\nidle 0\nlate 0\nmean 0 remainder 0\n",
        ),
    ]
}

/// Each way that a day can be refused, before a day that is accepted.
fn refused_days() -> Vec<Stored> {
    const ALONE: &str = "days 1 accepted 0 refused 1\nbeaten 0\nidle 0\nlate 0\n";
    const BEFORE: &str =
        "days 2 accepted 1 refused 1\nbeaten 1\nidle 9\nlate 6\nmean 6 remainder 0\n";
    let mut refused = vec![("refused 8", disordered())];
    let (two, (most, rows)) = (two(), most_rows());
    let changed = |place: usize, word: u32| {
        let mut book = two.clone();
        book[place] = word;
        posted(&book, &[2, 1])
    };
    refused.extend([
        ("refused 1", posted(&two[..10], &[2, 1])),
        ("refused 2", changed(4, word(6, 1))),
        ("refused 3", changed(1, word(2, 121))),
        ("refused 3 for a class", changed(5, word(0, 8))),
        ("refused 4", changed(6, word(3, 901))),
        ("refused 6", changed(10, word(7, 3))),
        ("refused 7", posted(&[&two[..], &[0]].concat(), &[2, 1])),
    ]);
    // Row 257 would begin at place 1,026.
    let opened = [&most[..1_026], &[word(3, 999)]].concat();
    let tail = [&most[..], &[word(7, 256)]].concat();
    refused.extend([
        ("refused 5", posted(&opened, &rows)),
        (
            "1,028 words, refused 5",
            posted(&[&opened[..], &[word(4, 0)]].concat(), &rows),
        ),
        ("1,028 words, refused 7", posted(&tail, &rows)),
        ("1,028 words of nothing", posted(&[0; 1_028], &[1])),
        ("1,028 words and 257", posted(&[0; 1_028], &[1; 257])),
        ("no word of a book", posted(&[], &[1])),
        ("no word at all", posted(&[], &[])),
    ]);
    let one_too_many = [&rows[..], &[257]].concat();
    refused.extend([
        ("refused 10: row 1 twice", posted(&two, &[1, 1])),
        ("refused 10: row 2 twice", posted(&two, &[2, 2])),
        ("refused 10: row 2 is not there", posted(&two, &[1])),
        ("refused 10: no row", posted(&two, &[])),
        ("refused 10: row 0", posted(&two, &[2, 0])),
        ("refused 10: row 3 of 2", posted(&two, &[3, 1])),
        ("refused 10: three of 2", posted(&two, &[2, 1, 3])),
        ("refused 10: one again at the end", posted(&two, &[2, 1, 2])),
        ("refused 10: order numbers", posted(&two, &[902, 901])),
        ("refused 10: far too large", posted(&two, &[2, u32::MAX])),
        (
            "refused 10: too large for 16 bits",
            posted(&two, &[2, 0x1_0001]),
        ),
        (
            "refused 10: too large for 31 bits",
            posted(&two, &[2, 0x8000_0001]),
        ),
        ("refused 10: 257 entries", posted(&most, &one_too_many)),
        ("refused 10: 255 entries", posted(&most, &rows[..255])),
        (
            "refused 10: one of 256 twice",
            posted(&most, &[&rows[..255], &[1]].concat()),
        ),
    ]);
    let sound = posted(&three(), &[2, 1, 3]);
    let each = refused.into_iter().flat_map(|(name, day)| {
        let before = [&day[..], &sound].concat();
        let after = [&sound[..], &day].concat();
        let between = [(name, before, BEFORE), (name, after, BEFORE)];
        [(name, day, ALONE)].into_iter().chain(between)
    });
    each.collect()
}

fn months_of_several_days() -> Vec<Stored> {
    let three = posted(&three(), &[2, 1, 3]);
    let refused = disordered();
    let rising = (0..31).map(|minute| one(minute, 1, 0)).collect::<Vec<_>>();
    vec![
        (
            "two listed plans of one book",
            [posted(&two(), &[2, 1]), posted(&two(), &[1, 2])].concat(),
            "days 2 accepted 2 refused 0\nbeaten 0\nidle 1\nlate 6\nmean 3 remainder 0\n",
        ),
        (
            "the same day twice is two days",
            [&three[..], &three].concat(),
            "days 2 accepted 2 refused 0\nbeaten 2\nidle 18\nlate 12\nmean 6 remainder 0\n",
        ),
        (
            "31 days, each idle a minute longer",
            rising.concat(),
            "days 31 accepted 31 refused 0\nbeaten 0\nidle 465\nlate 496\nmean 16 remainder 0\n",
        ),
        (
            "30 days, each idle a minute longer",
            rising[1..].concat(),
            "days 30 accepted 30 refused 0\nbeaten 0\nidle 465\nlate 495\nmean 16 remainder 15\n",
        ),
        (
            "31 beaten days",
            three.repeat(31),
            "days 31 accepted 31 refused 0\nbeaten 31\nidle 279\nlate 186\nmean 6 remainder 0\n",
        ),
        (
            "31 refused days",
            refused.repeat(31),
            "days 31 accepted 0 refused 31\nbeaten 0\nidle 0\nlate 0\n",
        ),
        (
            "31 days without a word",
            posted(&[], &[]).repeat(31),
            "days 31 accepted 0 refused 31\nbeaten 0\nidle 0\nlate 0\n",
        ),
        (
            "31 of the longest days",
            posted(&[0; 1_028], &[1; 257]).repeat(31),
            "days 31 accepted 0 refused 31\nbeaten 0\nidle 0\nlate 0\n",
        ),
        (
            "the first of 31 days is accepted",
            [&three[..], &refused.repeat(30)].concat(),
            "days 31 accepted 1 refused 30\nbeaten 1\nidle 9\nlate 6\nmean 6 remainder 0\n",
        ),
        (
            "the last of 31 days is accepted",
            [&refused.repeat(30)[..], &three].concat(),
            "days 31 accepted 1 refused 30\nbeaten 1\nidle 9\nlate 6\nmean 6 remainder 0\n",
        ),
        (
            "the first of 31 days is refused",
            [&refused[..], &three.repeat(30)].concat(),
            "days 31 accepted 30 refused 1\nbeaten 30\nidle 270\nlate 180\nmean 6 remainder 0\n",
        ),
        (
            "the last of 31 days is refused",
            [&three.repeat(30)[..], &refused].concat(),
            "days 31 accepted 30 refused 1\nbeaten 30\nidle 270\nlate 180\nmean 6 remainder 0\n",
        ),
    ]
}

fn means() -> Vec<Stored> {
    let month = |days: &[i64]| days.iter().flat_map(|&late| late_by(late)).collect();
    let with_refused = [month(&[-20, 3]), disordered(), month(&[-19, -21])].concat();
    let of_31 = |most, one| [late_by(most).repeat(30), late_by(one)].concat();
    vec![
        (
            "a sum of -57 over 4",
            month(&[-20, 3, -19, -21]),
            "days 4 accepted 4 refused 0\nbeaten 0\nidle 0\nlate -57\nmean -15 remainder 3\n",
        ),
        (
            "a sum of -57 over 4, and a refused day",
            with_refused,
            "days 5 accepted 4 refused 1\nbeaten 0\nidle 0\nlate -57\nmean -15 remainder 3\n",
        ),
        (
            "a sum of 57 over 4",
            month(&[20, -3, 19, 21]),
            "days 4 accepted 4 refused 0\nbeaten 0\nidle 0\nlate 57\nmean 14 remainder 1\n",
        ),
        (
            "a sum of -60 over 4",
            month(&[-20, 3, -19, -24]),
            "days 4 accepted 4 refused 0\nbeaten 0\nidle 0\nlate -60\nmean -15 remainder 0\n",
        ),
        (
            "a sum of 60 over 4",
            month(&[20, -3, 19, 24]),
            "days 4 accepted 4 refused 0\nbeaten 0\nidle 0\nlate 60\nmean 15 remainder 0\n",
        ),
        (
            "a sum of 0",
            month(&[6, -7, 1]),
            "days 3 accepted 3 refused 0\nbeaten 0\nidle 0\nlate 0\nmean 0 remainder 0\n",
        ),
        (
            "a sum of -1 over 1",
            month(&[-1]),
            "days 1 accepted 1 refused 0\nbeaten 0\nidle 0\nlate -1\nmean -1 remainder 0\n",
        ),
        (
            "a sum of -1 over 2",
            month(&[0, -1]),
            "days 2 accepted 2 refused 0\nbeaten 0\nidle 0\nlate -1\nmean -1 remainder 1\n",
        ),
        (
            "a sum of -2 over 2",
            month(&[0, -2]),
            "days 2 accepted 2 refused 0\nbeaten 0\nidle 0\nlate -2\nmean -1 remainder 0\n",
        ),
        (
            "a sum of 1 over 2",
            month(&[0, 1]),
            "days 2 accepted 2 refused 0\nbeaten 0\nidle 0\nlate 1\nmean 0 remainder 1\n",
        ),
        (
            "a sum of -1 over 31",
            of_31(0, -1),
            "days 31 accepted 31 refused 0\nbeaten 0\nidle 0\nlate -1\nmean -1 remainder 30\n",
        ),
        (
            "a sum of -32 over 31",
            of_31(-1, -2),
            "days 31 accepted 31 refused 0\nbeaten 0\nidle 0\nlate -32\nmean -2 remainder 30\n",
        ),
        (
            "a sum of -30 over 31",
            of_31(-1, 0),
            "days 31 accepted 31 refused 0\nbeaten 0\nidle 0\nlate -30\nmean -1 remainder 1\n",
        ),
        (
            "a sum of 61 over 31",
            of_31(1, 31),
            "days 31 accepted 31 refused 0\nbeaten 0\nidle 0\nlate 61\nmean 1 remainder 30\n",
        ),
        (
            "a sum of 30 over 31",
            of_31(1, 0),
            "days 31 accepted 31 refused 0\nbeaten 0\nidle 0\nlate 30\nmean 0 remainder 30\n",
        ),
    ]
}

/// 31 of the latest days, free as late as may be or idle as long as may be, and 31 of the earliest.
fn greatest_totals() -> Vec<Stored> {
    let latest = books::latest_book();
    let all: Vec<u32> = (1..=256).collect();
    let from_0 = Draft {
        free: 0,
        ..latest.clone()
    };
    let latest = posted(&latest.words(), &all).repeat(31);
    let idle = posted(&from_0.words(), &all).repeat(31);
    let earliest = one(0, 1, 20_000_000);
    let mut uneven = earliest.repeat(30);
    uneven.extend(one(0, 2, 20_000_000));
    vec![
        (
            "the latest days",
            latest,
            "days 31 accepted 31 refused 0\nbeaten 0\nidle 0\nlate 548080000\n\
             mean 17680000 remainder 0\n",
        ),
        (
            "the latest days, idle for as long as can be",
            idle,
            "days 31 accepted 31 refused 0\nbeaten 0\nidle 310000000\nlate 548080000\n\
             mean 17680000 remainder 0\n",
        ),
        (
            "the earliest days",
            earliest.repeat(31),
            "days 31 accepted 31 refused 0\nbeaten 0\nidle 0\nlate -619999969\n\
             mean -19999999 remainder 0\n",
        ),
        (
            "the earliest days but for a minute",
            uneven,
            "days 31 accepted 31 refused 0\nbeaten 0\nidle 0\nlate -619999968\n\
             mean -19999999 remainder 1\n",
        ),
    ]
}

/// Inputs that are not 0 to 31 whole days in the layout: `refused` is all that is printed of each.
pub fn broken() -> Vec<(String, Vec<u8>)> {
    let two = two();
    let whole = posted(&two, &[2, 1]);
    let refused = posted(&[], &[]);
    let mut all: Vec<(String, Vec<u8>)> = Vec::new();
    let mut add = |name: String, parts: &[&[u8]]| all.push((name, parts.concat()));

    // Odd bytes: alone, after a day, inside a word of the book and of the posting.
    for odd in 1..=3 {
        for byte in [0, 1, 0xff] {
            add(format!("{odd} bytes {byte} alone"), &[&vec![byte; odd]]);
        }
        let zeros = vec![0; odd];
        add(format!("a day and {odd} bytes"), &[&whole, &zeros]);
        add(format!("a short day and {odd} bytes"), &[&refused, &zeros]);
        for place in [4, 8, 44, 48, 52, 56] {
            let name = format!("{odd} bytes into the word at byte {place}");
            add(name, &[&whole[..place + odd]]);
        }
        for place in [0, 4, 24, 48, 52, 56, 60] {
            let (before, after) = whole.split_at(place);
            let name = format!("{odd} bytes more at byte {place}");
            add(name, &[before, &zeros, after]);
        }
    }

    // An input that stops at the end of a word inside a day.
    for days in [0, 1, 30] {
        let before = whole.repeat(days);
        for (what, end) in [
            ("after the book's length", 4),
            ("inside the book", 24),
            ("before the book's last word", 44),
            ("before the posting's length", 48),
            ("before the posting", 52),
            ("inside the posting", 56),
        ] {
            let name = format!("{days} days and one that stops {what}");
            add(name, &[&before, &whole[..end]]);
        }
    }

    // Lengths above the limits, with as many words as they say where that can be, and with fewer.
    for days in [0, 1, 30] {
        let before = whole.repeat(days);
        for (length, words) in [
            (1_029, 1_029),
            (1_030, 1_030),
            (1_029, 0),
            (2_056, 2_056),
            (0xffff, 0xffff),
            (0x1_0000, 0x1_0000),
            // Right in the low bits only.
            (0x1_000b, 11),
            (0x4000_000b, 11),
            (0x8000_000b, 11),
            (0x4000_0000, 0),
            (0x8000_0000, 0),
            (0xffff_ffff, 11),
            (0xffff_ffff, 0),
            // The length with its highest byte first.
            (0x0b00_0000, 11),
        ] {
            let mut book = two.clone();
            book.resize(words, 0);
            let (length, book) = (bytes_of(&[length]), bytes_of(&book));
            let name = format!("{days} days and a book of {length:?}, {words} are there");
            let posting = bytes_of(&[2, 2, 1]);
            add(name, &[&before, &length, &book, &posting]);
        }
        for (length, words) in [
            (258, 258),
            (259, 259),
            (258, 0),
            (514, 514),
            (1_028, 1_028),
            (0xffff, 0xffff),
            (0x1_0002, 2),
            (0x4000_0002, 2),
            (0x8000_0002, 2),
            (0x4000_0000, 0),
            (0x8000_0000, 0),
            (0xffff_ffff, 2),
            (0xffff_ffff, 0),
            (0x0200_0000, 2),
        ] {
            let mut posting = vec![2, 1];
            posting.resize(words, 0);
            let (length, posting) = (bytes_of(&[length]), bytes_of(&posting));
            let name = format!("{days} days and a posting of {length:?}, {words} are there");
            add(name, &[&before, &whole[..48], &length, &posting]);
        }
    }

    // A 32nd day: whole, broken, or begun.
    let longest = posted(&[0; 1_028], &[1; 257]);
    for (days, what) in [
        (&whole, "days"),
        (&refused, "short days"),
        (&longest, "longest days"),
    ] {
        let before = days.repeat(31);
        for (next, more) in [
            ("a day", whole.clone()),
            ("a short day", refused.clone()),
            ("two days", whole.repeat(2)),
            ("one of the longest", longest.clone()),
            ("1,000 days", whole.repeat(1_000)),
            ("a day that stops", whole[..40].to_vec()),
            ("a length", whole[..4].to_vec()),
            ("a length of 0", vec![0; 4]),
            ("a length of 1,029", bytes_of(&[1_029])),
            ("a length of 2^32 - 1", bytes_of(&[u32::MAX])),
            ("a byte 0", vec![0]),
            ("a byte 255", vec![0xff]),
            ("2 bytes", vec![0; 2]),
            ("3 bytes", vec![0; 3]),
            ("5 bytes", vec![0; 5]),
        ] {
            add(format!("31 {what} and {next}"), &[&before, &more]);
        }
    }

    // Inputs far past the longest month.
    for size in [65_536, 159_588, 159_592, 1_000_001] {
        add(format!("{size} bytes 0"), &[&vec![0; size]]);
        add(format!("{size} bytes 255"), &[&vec![0xff; size]]);
    }
    all
}

/// What a number of bytes 0 is: days of two lengths of 0, up to 31 of them.
pub fn printed_of_zeros(size: usize) -> String {
    match (size / 8, size % 8) {
        (days @ 0..=31, 0) => {
            format!("days {days} accepted 0 refused {days}\nbeaten 0\nidle 0\nlate 0\n")
        }
        _ => "refused\n".to_string(),
    }
}

// ---- Months by chance ----

/// A month of 0 to 31 days of which now and then one is long.
pub fn some_month(rng: &mut Rng) -> Vec<PostedDay> {
    let days = match rng.below(10) {
        0 => rng.pick(&[0, 1, MAX_DAYS - 1, MAX_DAYS]),
        1 if rng.one_in(2) => MAX_DAYS,
        1..=4 => 1 + rng.below(6),
        5..=7 => rng.below(MAX_DAYS + 1),
        _ => 1 + rng.below(16),
    };
    // Some months have no day or nearly no day that is refused, some hardly one that is not.
    let refused_in_100 = rng.pick(&[0, 0, 5, 15, 30, 60, 100]);
    let day = |_| {
        let most = if rng.one_in(80) { MAX_ROWS } else { 60 };
        some_day(rng, most, refused_in_100)
    };
    (0..days).map(day).collect()
}

/// A day, accepted or refused, of at most so many rows: of as many if that is the most.
pub fn some_day(rng: &mut Rng, most: usize, refused_in_100: i64) -> PostedDay {
    let rows = match most {
        MAX_ROWS => MAX_ROWS,
        _ => books::some_rows(rng, most),
    };
    if rng.range(1, 100) > refused_in_100 {
        let book = some_draft(rng, rows).words();
        let day = Day::read(0, &book).expect("accepted");
        let posting = some_posting(rng, &day);
        return PostedDay { book, posting };
    }
    match rng.below(5) {
        // By the posting alone.
        0 | 1 => {
            let book = some_draft(rng, rows).words();
            let posting = no_posting(rng, rows);
            PostedDay { book, posting }
        }
        // By the book alone: the posting has every row once.
        2 if rows > 1 => {
            let book = books::disagreeing(rng, rows).words();
            let posting = any_order(rng, rows);
            PostedDay { book, posting }
        }
        // By the book, or by both, or not at all.
        2 | 3 => {
            let book = some_draft(rng, rows).words();
            let mut book = books::damaged(rng, &book);
            book.truncate(MAX_BOOK);
            let posting = match rng.one_in(2) {
                true => any_order(rng, rows),
                false => no_posting(rng, rows),
            };
            PostedDay { book, posting }
        }
        _ => {
            let most = rng.pick(&[0, 3, 40, MAX_BOOK]);
            let book = books::random_words(rng, most);
            let posting = no_posting(rng, rows);
            PostedDay { book, posting }
        }
    }
}

/// An accepted day of many kinds.
pub fn some_draft(rng: &mut Rng, rows: usize) -> Draft {
    match rng.below(12) {
        0 => books::several_plans(rng, 0, rows).varied(rng),
        1 => books::contests(rng, 0, rows).varied(rng),
        2 => books::typical_day(rng, 0, rows).varied(rng),
        3 => {
            let class = rng.below(MARGINS.len()) as u32;
            books::accepted(rng, 0, rows).of_class(class)
        }
        4 if (2..100).contains(&rows) => books::many_plans(0, rows).shuffled(rng),
        5 if rows == MAX_ROWS => books::latest_book(),
        5 => books::of_both_rules(rng, rows).shuffled(rng),
        _ => books::accepted(rng, 0, rows),
    }
}

/// Every row once, by chance.
fn any_order(rng: &mut Rng, rows: usize) -> Vec<u32> {
    let mut order: Vec<u32> = (1..=rows as u32).collect();
    rng.shuffle(&mut order);
    order
}

/// An order of the rows: a plan's, nearly that, or any.
pub fn some_posting(rng: &mut Rng, day: &Day) -> Vec<u32> {
    let rows = day.rows.len();
    match rng.below(8) {
        0..=2 => day.order_of_plan(1 + rng.below(day.list().len())).1,
        3 | 4 => {
            let mut near = day.order_of_plan(1 + rng.below(day.list().len())).1;
            let at = rng.below(rows);
            near.swap(at, (at + 1) % rows);
            near
        }
        5 => (1..=rows as u32).collect(),
        _ => any_order(rng, rows),
    }
}

/// Entries that are not every row once: too few, too many, a row twice, or one that is no row.
fn no_posting(rng: &mut Rng, rows: usize) -> Vec<u32> {
    let mut posting = any_order(rng, rows);
    let at = rng.below(rows);
    match rng.below(8) {
        0 => posting.truncate(at),
        1 => posting.push(1 + at as u32),
        2 => posting.push(rows as u32 + 1),
        3 => posting.resize(MAX_POSTING, 1),
        4 if rows > 1 => posting[at] = posting[(at + 1) % rows],
        5 => posting[at] = rows as u32 + 1,
        6 => posting[at] = rng.pick(&[1 << 31 | 1, u32::MAX, 0x1_0001, 1 << 24]),
        _ => posting[at] = 0,
    }
    posting
}

/// An input changed at least once: cut, longer, with other lengths, or in any byte. It may be no
/// month then, or another.
pub fn damaged(rng: &mut Rng, days: &[PostedDay]) -> Vec<u8> {
    let mut lengths = Vec::new();
    let mut at = 0;
    for day in days {
        lengths.push((at, MAX_BOOK));
        at += 4 + 4 * day.book.len();
        lengths.push((at, MAX_POSTING));
        at += 4 + 4 * day.posting.len();
    }
    let mut input = bytes(days);
    for _ in 0..rng.pick(&[1, 1, 1, 2]) {
        let len = input.len();
        match rng.below(10) {
            0 => input.truncate(rng.below(len + 1)),
            1 => input.truncate(rng.below(len + 1) / 4 * 4),
            2 => input.extend(vec![rng.next() as u8; 1 + rng.below(4)]),
            3 => {
                let words = books::random_words(rng, 6);
                input.extend(bytes_of(&words));
            }
            4 | 5 if !lengths.is_empty() => {
                // A length: by the least step, at its limit, or far away.
                let (at, most) = rng.pick(&lengths);
                let Some(word) = input.get_mut(at..at + 4) else {
                    continue;
                };
                let most = most as u32;
                let length = u32::from_le_bytes((&*word).try_into().unwrap());
                let near = [length.wrapping_add(1), length.wrapping_sub(1)];
                let far = [0, most, most + 1, length + (1 << 30), u32::MAX];
                let all = [&near[..], &near, &far, &[length.swap_bytes()]].concat();
                word.copy_from_slice(&rng.pick(&all).to_le_bytes());
            }
            6 if len > 0 => {
                input.remove(rng.below(len));
            }
            7 => input.insert(rng.below(len + 1), rng.next() as u8),
            // All days once more: too many, or not.
            8 => input.extend(bytes(days)),
            _ if len > 0 => input[rng.below(len)] = rng.next() as u8,
            _ => input.push(0),
        }
    }
    input
}

/// The input in pieces of odd sizes, at most some dozens.
pub fn pieces<'i>(rng: &mut Rng, input: &'i [u8]) -> Vec<&'i [u8]> {
    let most = rng.pick(&[1, 2, 3, 5, 7, 63, 1_021, 4_095, 4_097]);
    let most = most.max(input.len() / 24);
    let (mut pieces, mut rest) = (Vec::new(), input);
    while !rest.is_empty() {
        let (piece, after) = rest.split_at(rest.len().min(1 + rng.below(most)));
        pieces.push(piece);
        rest = after;
    }
    pieces
}

/// Counts what an input is like.
pub fn count(counts: &mut Counts, input: &[u8]) {
    let Some(days) = days_in(input) else {
        counts.add("input refused");
        return;
    };
    counts.add("month");
    counts.add_if(days.is_empty(), "month of no day");
    counts.add_if(days.len() == MAX_DAYS, "month of 31 days");
    let mut report = Report::default();
    for PostedDay { book, posting } in &days {
        let Ok(day) = Day::read(0, book) else {
            counts.add("refused by the book");
            counts.add_if(book.len() == MAX_BOOK, "book of 1,028 words");
            continue;
        };
        let Ok((pair, beaten_by)) = day.verdict(posting) else {
            counts.add("refused by the posting");
            counts.add_if(posting.len() == MAX_POSTING, "posting of 257 entries");
            continue;
        };
        report.accepted += 1;
        report.late += i64::from(pair.late);
        counts.add("accepted");
        counts.add_if(beaten_by.is_some(), "beaten");
        counts.add_if(idle(&day, posting) > 0, "idle");
        counts.add_if(day.list().len() > 1, "several plans");
        counts.add_if(day.has_classes(), "with class rows");
        counts.add_if(!day.is_sorted(), "unsorted");
        counts.add_if(day.rows.len() == MAX_ROWS, "256 rows");
    }
    counts.add_if(report.late < 0, "negative total");
    match report.mean() {
        Some((_, 0)) => counts.add_if(report.accepted > 1, "remainder 0 of several"),
        Some(_) if report.late < 0 => counts.add("remainder of a negative total"),
        Some(_) => counts.add("remainder of a positive total"),
        None => counts.add("no mean"),
    }
}
