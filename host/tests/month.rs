//! `month` itself: months with all that is printed of them, the example of docs/MONTH.md, inputs
//! that are no months, the days in any order, and thousands of months against the model. Then
//! `month_scribe`. Needs the two programs, and no archive.

#[path = "common/kit.rs"]
mod kit;
#[path = "common/months.rs"]
mod months;
#[path = "common/programs.rs"]
mod programs;

use jelvaksna::books::{self, Draft, Rng};
use jelvaksna::model::Day;
use jelvaksna::month_model::{self, bytes, PostedDay, MAX_BOOK, MAX_DAYS, MAX_POSTING};
use kit::{sequences, Counts};
use months::{
    broken, count, damaged, example, pieces, posted, printed_of_zeros, some_draft, some_month,
    some_posting, stored_months, two,
};
use programs::{output, run, run_on_file, TOP};

/// What `month` prints.
fn printed(input: &[u8]) -> String {
    text_of(run("month", input))
}

fn text_of(printed: Vec<u8>) -> String {
    String::from_utf8(printed).expect("text")
}

fn file(path: &str) -> Vec<u8> {
    std::fs::read(format!("{TOP}/{path}")).expect(path)
}

fn case(test: &str, i: u64) -> Rng {
    Rng::for_case(books::seed(), test, i)
}

#[test]
fn stored_outputs() {
    let months = stored_months();
    for (name, input, want) in &months {
        assert_eq!(printed(input), *want, "{name}");
    }
    let broken = broken();
    for (name, input) in &broken {
        assert_eq!(printed(input), "refused\n", "{name}");
    }
    let (months, broken) = (months.len(), broken.len());
    println!("stored outputs: {months} months, {broken} inputs that are none");
}

/// The bytes and lines of the document, and the files that it names.
#[test]
fn the_example() {
    let example = example();
    assert_eq!(file("examples/week.month"), example.input);
    assert_eq!(printed(&example.input), example.printed);
    let of_file = run_on_file("month", &format!("{TOP}/examples/week.month"));
    assert_eq!(text_of(of_file), example.printed);
    assert_eq!(
        run("month_scribe", &file("examples/week.days")),
        example.input
    );
}

/// The example cut off at every byte, a month only where a day ends; and any number of bytes 0.
#[test]
fn every_cut() {
    let input = example().input;
    let mut months = 0;
    for size in 0..=input.len() {
        let have = printed(&input[..size]);
        let whole = [0, 60, 100, 180, 240].contains(&size);
        assert_eq!(have == "refused\n", !whole, "{size} bytes: {have}");
        assert_eq!(have, month_model::month(&input[..size]), "{size} bytes");
        months += usize::from(whole);
    }
    assert_eq!(months, 5);
    for size in 0..=320 {
        assert_eq!(printed(&vec![0; size]), printed_of_zeros(size), "{size}");
    }
}

/// Every length of a book and of a posting, to some past the limits, with as many words as it says.
/// The day counts, and so does the one after it.
#[test]
fn every_length() {
    let after = posted(&two(), &[2, 1]);
    let counted = "days 2 accepted 1 refused 1\nbeaten 0\nidle 0\nlate 6\nmean 6 remainder 0\n";
    let want = |taken| if taken { counted } else { "refused\n" };
    for length in 0..=MAX_BOOK + 8 {
        let input = [posted(&vec![7; length], &[1]), after.clone()].concat();
        assert_eq!(printed(&input), want(length <= MAX_BOOK), "book {length}");
    }
    for length in 0..=MAX_POSTING + 8 {
        let input = [posted(&[7], &vec![1; length]), after.clone()].concat();
        let want = want(length <= MAX_POSTING);
        assert_eq!(printed(&input), want, "posting {length}");
    }
}

/// The days in another order: not a byte of the report changes. All orders of the example, some
/// orders of months by chance.
#[test]
fn days_in_any_order() {
    let example = example();
    let days = month_model::days_in(&example.input).expect("a month");
    let orders = sequences(&[0, 1, 2, 3]);
    assert_eq!(orders.len(), 24);
    for order in orders {
        let shuffled: Vec<_> = order.iter().map(|&i: &usize| days[i].clone()).collect();
        let have = printed(&bytes(&shuffled));
        assert_eq!(have, example.printed, "days {order:?}");
    }
    let (test, mut counts) = ("days in any order", Counts::default());
    for i in 0..100 * books::times() {
        let mut rng = case(test, i);
        let mut days = some_month(&mut rng);
        let want = printed(&bytes(&days));
        for _ in 0..4 {
            let before = days.clone();
            match rng.below(3) {
                0 => days.reverse(),
                1 if !days.is_empty() => days.rotate_left(1),
                _ => rng.shuffle(&mut days),
            }
            let have = printed(&bytes(&days));
            assert_eq!(have, want, "seed {:#x}, case {i}", books::seed());
            counts.add_if(days != before, "another order");
        }
        counts.add_if(want.contains("mean"), "month with a mean");
    }
    println!("{test}: {:?}", counts.0);
    counts.at_least(200, "another order");
    counts.at_least(50, "month with a mean");
}

/// The model's bytes, or the whole case.
fn compare(test: &str, i: u64, input: &[u8], have: String) {
    let want = month_model::month(input);
    if want != have {
        panic!(
            "DIFFERENCE\n  JELVAKSNA_SEED={:#x}, test '{test}', case {i}\n  input {input:02x?}\n\
             model:\n{want}month:\n{have}",
            books::seed()
        );
    }
}

/// 3,200 months by chance and inputs made of them, one in eight handed over in pieces.
#[test]
fn months_by_chance() {
    let (test, mut counts) = ("months by chance", Counts::default());
    for i in 0..3_200 * books::times() {
        let mut rng = case(test, i);
        let days = some_month(&mut rng);
        let input = match rng.one_in(5) {
            true => damaged(&mut rng, &days),
            false => bytes(&days),
        };
        let have = match i % 8 {
            0 => {
                let pieces = pieces(&mut rng, &input);
                counts.add_if(pieces.len() > 1, "handed over in pieces");
                text_of(output("month", &pieces).stdout)
            }
            _ => printed(&input),
        };
        compare(test, i, &input, have);
        count(&mut counts, &input);
    }
    println!("{test}: seed {:#x}, {:?}", books::seed(), counts.0);
    counts.at_least(2_000, "month");
    counts.at_least(300, "input refused");
    counts.at_least(300, "handed over in pieces");
    counts.at_least(30, "month of no day");
    counts.at_least(100, "month of 31 days");
    counts.at_least(10_000, "accepted");
    counts.at_least(3_000, "refused by the book");
    counts.at_least(3_000, "refused by the posting");
    counts.at_least(20, "book of 1,028 words");
    counts.at_least(200, "posting of 257 entries");
    counts.at_least(2_000, "beaten");
    counts.at_least(2_000, "idle");
    counts.at_least(2_000, "several plans");
    counts.at_least(2_000, "with class rows");
    counts.at_least(2_000, "unsorted");
    counts.at_least(100, "256 rows");
    counts.at_least(300, "negative total");
    counts.at_least(200, "remainder of a negative total");
    counts.at_least(200, "remainder of a positive total");
    counts.at_least(20, "remainder 0 of several");
    counts.at_least(200, "no mean");
}

/// Months of long days only, up to 31 of the most rows, whole or in pieces.
#[test]
fn long_months() {
    let (test, mut counts) = ("long months", Counts::default());
    for i in 0..12 * books::times() {
        let mut rng = case(test, i);
        let days = if i % 3 == 0 {
            MAX_DAYS
        } else {
            1 + rng.below(8)
        };
        let day = |k| {
            let book = books::long(&mut rng, 0, i + k as u64).words();
            let day = Day::read(0, &book).expect("accepted");
            let posting = some_posting(&mut rng, &day);
            PostedDay { book, posting }
        };
        let input = bytes(&(0..days).map(day).collect::<Vec<_>>());
        let pieces = pieces(&mut rng, &input);
        compare(test, i, &input, text_of(output("month", &pieces).stdout));
        compare(test, i, &input, printed(&input));
        count(&mut counts, &input);
    }
    println!("{test}: {:?}", counts.0);
    counts.at_least(100, "accepted");
    counts.at_least(40, "256 rows");
    counts.at_least(4, "month of 31 days");
}

// ---- month_scribe ----

/// A line with blanks before, between and after its words, and now and then a comment.
fn line(rng: &mut Rng, words: &[String], text: &mut String) {
    let blank = |rng: &mut Rng| rng.pick(&[" ", " ", "  ", "\t", " \t  "]);
    if rng.one_in(4) {
        *text += blank(rng);
    }
    for (i, word) in words.iter().enumerate() {
        if i > 0 {
            *text += blank(rng);
        }
        *text += word;
    }
    if rng.one_in(6) {
        *text += blank(rng);
    }
    if rng.one_in(6) {
        *text += rng.pick(&["#", "# row 1 2 3 4", "## posted 7", "# free\t0 # pace"]);
    }
    *text += rng.pick(&["\n", "\n", "\n", "\n", "\r\n"]);
    if rng.one_in(8) {
        *text += rng.pick(&["\n", " \n", "\t\r\n", "# free 7\n", "   # posted\n\n"]);
    }
}

/// A day as a text: the book's words by name, and the posting by the order numbers of its rows.
fn write_day(rng: &mut Rng, day: &Draft, posting: &[u32], text: &mut String) {
    let named = |name: &str, values: &[i64]| -> Vec<String> {
        let values = values.iter().map(|value| value.to_string());
        [name.to_string()].into_iter().chain(values).collect()
    };
    line(rng, &named("free", &[day.free]), text);
    line(rng, &named("pace", &[day.pace]), text);
    for row in &day.rows {
        let mut words = named("row", &[row.number.into(), row.release, row.pages]);
        match row.class {
            Some(class) => words.extend(["class".to_string(), class.to_string()]),
            None => words.push(row.due.to_string()),
        }
        line(rng, &words, text);
    }
    let number = |&row: &u32| i64::from(day.rows[row as usize - 1].number);
    let numbers: Vec<i64> = posting.iter().map(number).collect();
    line(rng, &named("posted", &numbers), text);
}

/// A posting of rows that are there: each once, or some of them twice or not at all.
fn rows_posted(rng: &mut Rng, rows: usize) -> Vec<u32> {
    let mut posting: Vec<u32> = (1..=rows as u32).collect();
    rng.shuffle(&mut posting);
    match rng.below(8) {
        0 => posting.truncate(1 + rng.below(rows)),
        1 => posting[rng.below(rows)] = 1,
        2 => posting.push(1),
        _ => {}
    }
    posting
}

/// Texts with comments and blanks: the bytes of the month, order numbers turned into row numbers.
#[test]
fn texts_by_chance() {
    let (test, mut counts) = ("texts by chance", Counts::default());
    for i in 0..300 * books::times() {
        let mut rng = case(test, i);
        let (mut text, mut days) = (String::new(), Vec::new());
        if rng.one_in(2) {
            text += "# a month\n\n";
        }
        for _ in 0..rng.pick(&[1, 1, 2, 3, 5, 12, MAX_DAYS]) {
            let rows = 1 + rng.below(12);
            let day = some_draft(&mut rng, rows);
            let posting = rows_posted(&mut rng, day.rows.len());
            if text.len() < 50_000 {
                write_day(&mut rng, &day, &posting, &mut text);
                let book = day.words();
                days.push(PostedDay { book, posting });
            }
        }
        if rng.one_in(4) {
            text.truncate(text.trim_end_matches('\n').len());
        }
        let input = bytes(&days);
        let pieces = match i % 4 {
            0 => pieces(&mut rng, text.as_bytes()),
            _ => vec![text.as_bytes()],
        };
        let output = output("month_scribe", &pieces);
        let said = String::from_utf8_lossy(&output.stderr).into_owned();
        assert!(output.stdout == input, "case {i}: {said}\n{text}");
        assert_eq!(said, "", "case {i}\n{text}");
        count(&mut counts, &input);
    }
    println!("{test}: {:?}", counts.0);
    counts.at_least(300, "month");
    counts.at_least(1_000, "accepted");
    counts.at_least(200, "refused by the posting");
    counts.at_least(10, "month of 31 days");
    counts.at_least(200, "with class rows");
}

/// Texts with a wrong line: it is named, and nothing is written, not even of the days before it.
#[test]
fn wrong_texts() {
    let day = "free 0\npace 60\nrow 901 1 1 5 # a row\nrow 902 0 10 12\nposted 902 901\n";
    assert_eq!(run("month_scribe", day.as_bytes()), posted(&two(), &[2, 1]));
    let wrong = [
        // A word that no line begins with.
        (1, "desk 0\n"),
        (2, "free 0\nspeed 60\n"),
        (4, "free 0\npace 60\nrow 901 1 1 5\npost 901\n"),
        // Lines in another sequence.
        (1, "pace 60\n"),
        (1, "row 901 1 1 5\n"),
        (1, "posted 901\n"),
        (2, "free 0\nfree 0\n"),
        (2, "free 0\nrow 901 1 1 5\n"),
        (2, "free 0\nposted 901\n"),
        (3, "free 0\npace 60\npace 60\n"),
        (3, "free 0\npace 60\nposted\n"),
        (3, "free 0\npace 60\nfree 0\n"),
        (4, "free 0\npace 60\nrow 901 1 1 5\nfree 0\n"),
        (4, "free 0\npace 60\nrow 901 1 1 5\npace 60\n"),
        // Numbers that are missing, too many, no numbers or too large.
        (1, "free\npace 60\n"),
        (1, "free 0 0\n"),
        (1, "free -1\n"),
        (2, "free 0\npace x\n"),
        (2, "free 0\npace 536870912\n"),
        (3, "free 0\npace 60\nrow 901 1 1\n"),
        (3, "free 0\npace 60\nrow 901 1 1 5 5\n"),
        (3, "free 0\npace 60\nrow 901 1 1 class\n"),
        (3, "free 0\npace 60\nrow 901 1 1 kind 1\n"),
        (3, "free 0\npace 60\nrow 9o1 1 1 5\n"),
        (4, "free 0\npace 60\nrow 901 1 1 5\nposted 9o1\n"),
        (4, "free 0\npace 60\nrow 901 1 1 5\nposted 901, 901\n"),
        (4, "free 0\npace 60\nrow 901 1 1 5\nposted 536870912\n"),
        // An order number that no row of the day has, though one of the day before has it; a line
        // after posted.
        (4, "free 0\npace 60\nrow 903 1 1 5\nposted 903 901\n"),
        (
            5,
            "free 0\npace 60\nrow 901 1 1 5\nposted 901\nposted 901\n",
        ),
        (
            5,
            "free 0\npace 60\nrow 901 1 1 5\nposted 901\nrow 902 0 10 12\n",
        ),
        (5, "free 0\npace 60\nrow 901 1 1 5\nposted 901\npace 60\n"),
    ];
    let lines = day.lines().count();
    for (place, text) in wrong {
        for (before, place) in [
            (String::new(), place),
            (day.to_string(), lines + place),
            (format!("# days\n\n{day}\n# one more\n"), lines + 4 + place),
            (day.repeat(30), 30 * lines + place),
        ] {
            for after in ["", day] {
                let text = format!("{before}{text}{after}");
                let output = output("month_scribe", &[text.as_bytes()]);
                let said = String::from_utf8_lossy(&output.stderr).into_owned();
                assert_eq!(output.stdout, b"", "{text}");
                let named = said.starts_with(&format!("line {place}: "));
                assert!(named, "line {place} of\n{text}\n{said}");
            }
        }
    }
    // Days that are not whole.
    for cut in 1..lines {
        let kept: Vec<&str> = day.lines().take(cut).collect();
        for before in ["", day] {
            let text = format!("{before}{}\n", kept.join("\n"));
            let output = output("month_scribe", &[text.as_bytes()]);
            let said = String::from_utf8_lossy(&output.stderr).into_owned();
            assert_eq!(output.stdout, b"", "{text}");
            assert!(said.starts_with("line "), "{text}\n{said}");
        }
    }
}

/// Texts at the edges of what is taken: what is written, or the whole of what is said.
#[test]
fn texts_at_the_edges() {
    let said = |text: &str| {
        let output = output("month_scribe", &[text.as_bytes()]);
        assert_eq!(output.stdout, b"");
        String::from_utf8(output.stderr).expect("plain text")
    };
    let head = "free 0\npace 60\nrow 901 1 1 5\nrow 902 0 10 12\n";
    // No day, and a posting of none; the first of two rows with one number; 31 days.
    for text in ["", "\n", "# nothing\r\n\t \n"] {
        assert_eq!(said(text), "", "{text:?}");
    }
    let day = format!("{head}posted\n");
    assert_eq!(run("month_scribe", day.as_bytes()), posted(&two(), &[]));
    let twice = "free 0\r\npace 60\r\nrow 901 1 1 5\r\nrow 901 0 10 12\r\nposted 901 901\r\n";
    let written = run("month_scribe", twice.as_bytes());
    assert_eq!(written[written.len() - 8..], [1, 0, 0, 0, 1, 0, 0, 0]);
    let month = run("month_scribe", day.repeat(MAX_DAYS).as_bytes());
    assert_eq!(month, posted(&two(), &[]).repeat(MAX_DAYS));
    let longest = format!("{head}posted{}\n", " 902".repeat(257));
    let written = run("month_scribe", longest.as_bytes());
    assert_eq!(written, posted(&two(), &[2; 257]));
    // One more of each, and the longest text.
    let more = format!("{head}posted{}\n", " 902".repeat(258));
    let many = day.repeat(MAX_DAYS + 1);
    for (text, what) in [
        (
            &more,
            "line 5: too many numbers: a posted line has 257 at most\n",
        ),
        (&many, "line 156: too many days: 31 is the most\n"),
    ] {
        assert_eq!(said(text), what);
    }
    let no_row = format!("{head}posted 902 903\n");
    assert_eq!(said(&no_row), "line 5: no row of the day has number 903\n");
    assert_eq!(said(head), "line 5: the day ends without posted\n");
    let room = 1_048_575 - day.len();
    let full = format!("{day}{}", "#".repeat(room));
    assert_eq!(run("month_scribe", full.as_bytes()), posted(&two(), &[]));
    let over = "the text is too long: 1048575 bytes is the most\n";
    assert_eq!(said(&format!("{full}#")), over);
}
