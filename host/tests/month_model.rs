//! The model of the month: months with all that is printed of them, the example of docs/MONTH.md,
//! and small months against a second opinion that takes the input apart byte by byte, tries every
//! order and looks for the mean. Needs no archive and no program.

#[path = "common/kit.rs"]
mod kit;
#[path = "common/months.rs"]
mod months;

use jelvaksna::books::{self, Rng};
use jelvaksna::model::{Day, Row, MAX_ROWS};
use jelvaksna::month_model::{bytes, days_in, idle, month, PostedDay, Report, MAX_DAYS};
use jelvaksna::Pair;
use kit::{sequences, Counts};
use months::{
    broken, count, damaged, example, printed_of_zeros, some_day, some_month, stored_months,
};

#[test]
fn stored_outputs() {
    for (name, input, want) in stored_months() {
        assert_eq!(month(&input), want, "{name}");
        let days = days_in(&input).expect("whole days");
        assert_eq!(bytes(&days), input, "{name}");
    }
    for (name, input) in broken() {
        assert_eq!(month(&input), "refused\n", "{name}");
        assert_eq!(days_in(&input), None, "{name}");
    }
    for size in 0..=1_000 {
        assert_eq!(month(&vec![0; size]), printed_of_zeros(size), "{size}");
    }
}

/// The example, and its days in every order.
#[test]
fn the_example() {
    let example = example();
    assert_eq!(month(&example.input), example.printed);
    let days = days_in(&example.input).expect("a month");
    for order in sequences(&[0, 1, 2, 3]) {
        let days: Vec<_> = order.iter().map(|&i: &usize| days[i].clone()).collect();
        assert_eq!(month(&bytes(&days)), example.printed, "days {order:?}");
    }
    let each: Vec<_> = days.iter().map(PostedDay::judged).collect();
    let told = |day: usize| each[day].map(|day| (day.beaten, day.idle, day.late));
    assert_eq!(told(0), Some((false, 0, 6)));
    assert_eq!(told(1), Some((false, 20, -74)));
    assert_eq!(told(2), Some((true, 9, 6)));
    assert_eq!(told(3), None);
}

// ---- A second opinion ----

/// A word at the front of the bytes, and what is behind it.
fn first_word(bytes: &[u8]) -> Option<(usize, &[u8])> {
    let &[a, b, c, d, ref rest @ ..] = bytes else {
        return None;
    };
    let value = [d, c, b, a]
        .iter()
        .fold(0, |sum, &byte| 256 * sum + usize::from(byte));
    Some((value, rest))
}

/// So many words at the front of the bytes, and what is behind them.
fn first_words(many: usize, bytes: &[u8]) -> Option<(Vec<u32>, &[u8])> {
    if many == 0 {
        return Some((Vec::new(), bytes));
    }
    let (mut words, last) = first_words(many - 1, bytes)?;
    let (word, rest) = first_word(last)?;
    words.push(word as u32);
    Some((words, rest))
}

/// The days at the front of the bytes, if there are no more than so many and nothing is left.
fn whole_days(most: usize, bytes: &[u8]) -> Option<Vec<(Vec<u32>, Vec<u32>)>> {
    if bytes.is_empty() {
        return Some(Vec::new());
    }
    let most = most.checked_sub(1)?;
    let (words, rest) = first_word(bytes).filter(|(words, _)| *words < 1_029)?;
    let (book, rest) = first_words(words, rest)?;
    let (rows, rest) = first_word(rest).filter(|(rows, _)| *rows < 258)?;
    let (posting, rest) = first_words(rows, rest)?;
    let mut days = whole_days(most, rest)?;
    days.insert(0, (book, posting));
    Some(days)
}

/// The ends of rows, one after another from a free minute.
fn ends(free: i64, rows: &[&Row]) -> Vec<i64> {
    let Some((last, before)) = rows.split_last() else {
        return Vec::new();
    };
    let mut ends = ends(free, before);
    let minute = ends.last().copied().unwrap_or(free);
    ends.push(minute.max(last.release) + last.length);
    ends
}

/// Beaten, idle minutes and worst lateness of a day that is accepted: by the ends of its rows.
/// `every` gives pairs of orders: the posting is beaten if one of them beats it.
fn judged(book: &[u32], posting: &[u32], every: fn(&Day) -> Vec<Pair>) -> Option<(bool, i64, i64)> {
    let day = Day::read(0, book).ok()?;
    let times = |row: u32| posting.iter().filter(|&&entry| entry == row).count();
    let rows = 1..=day.rows.len() as u32;
    let once = rows.clone().all(|row| times(row) == 1);
    if !once || !posting.iter().all(|entry| rows.contains(entry)) {
        return None;
    }
    let order: Vec<&Row> = posting
        .iter()
        .map(|&row| &day.rows[row as usize - 1])
        .collect();
    let ends = ends(day.free, &order);
    let late = order.iter().zip(&ends).map(|(row, end)| end - row.due);
    let (end, late) = (*ends.last()?, late.max()?);
    let lengths: i64 = day.rows.iter().map(|row| row.length).sum();
    let idle = end - lengths - day.free;
    let beats = |pair: &Pair| {
        let (other_end, other_late) = (i64::from(pair.end), i64::from(pair.late));
        let worse = other_end > end || other_late > late;
        !worse && other_end + other_late < end + late
    };
    Some((every(&day).iter().any(beats), idle, late))
}

/// The only quotient and remainder, by trying every remainder.
fn mean(sum: i64, days: i64) -> Option<(i64, i64)> {
    let mut found = (0..days).filter(|rest| (sum - rest) % days == 0);
    let rest = found.next()?;
    assert_eq!(found.next(), None);
    Some(((sum - rest) / days, rest))
}

/// All that is printed, word by word.
fn second_opinion(input: &[u8], every: fn(&Day) -> Vec<Pair>) -> String {
    let Some(days) = whole_days(31, input) else {
        return "refused\n".to_string();
    };
    let all = days.len() as i64;
    let days = days.iter();
    let told: Vec<_> = days
        .filter_map(|(book, order)| judged(book, order, every))
        .collect();
    let accepted = told.len() as i64;
    let beaten = told.iter().filter(|day| day.0).count() as i64;
    let (idle, late) = told
        .iter()
        .fold((0, 0), |sum, day| (sum.0 + day.1, sum.1 + day.2));
    let mut lines = vec![
        vec![
            ("days", all),
            ("accepted", accepted),
            ("refused", all - accepted),
        ],
        vec![("beaten", beaten)],
        vec![("idle", idle)],
        vec![("late", late)],
    ];
    if let Some((mean, rest)) = mean(late, accepted) {
        lines.push(vec![("mean", mean), ("remainder", rest)]);
    }
    let line = |line: Vec<(&str, i64)>| {
        let words = line.iter().map(|(word, value)| format!("{word} {value}"));
        words.collect::<Vec<_>>().join(" ") + "\n"
    };
    lines.into_iter().map(line).collect()
}

/// The pairs of every order if the rows are few. Damage now and then makes many of them.
fn every_or_listed(day: &Day) -> Vec<Pair> {
    match day.rows.len() {
        0..=8 => day.every_pair(),
        _ => day.list().to_vec(),
    }
}

/// 6,000 months of days so small that every order can be tried, one in four damaged.
#[test]
fn every_order() {
    let (test, mut counts) = ("every order, month", Counts::default());
    for i in 0..6_000 * books::times() {
        let mut rng = Rng::for_case(books::seed(), test, i);
        let most = if i % 4 == 0 { MAX_DAYS } else { 8 };
        let refused_in_100 = rng.pick(&[0, 10, 40, 100]);
        let mut days = Vec::new();
        for _ in 0..rng.below(most + 1) {
            let day = some_day(&mut rng, 6, refused_in_100);
            if day.book.len() < 40 {
                let again = day.judged_by_every_order();
                assert_eq!(day.judged(), again, "case {i}, {day:?}");
            }
            days.push(day);
        }
        let input = match rng.one_in(4) {
            true => damaged(&mut rng, &days),
            false => bytes(&days),
        };
        let want = second_opinion(&input, every_or_listed);
        assert_eq!(month(&input), want, "case {i}, {input:02x?}");
        count(&mut counts, &input);
    }
    println!("{test}: {:?}", counts.0);
    counts.at_least(4_000, "month");
    counts.at_least(800, "input refused");
    counts.at_least(10_000, "accepted");
    counts.at_least(2_000, "beaten");
    counts.at_least(2_000, "several plans");
    counts.at_least(5_000, "idle");
    counts.at_least(2_000, "refused by the book");
    counts.at_least(2_000, "refused by the posting");
    counts.at_least(500, "remainder of a negative total");
    counts.at_least(500, "remainder of a positive total");
    counts.at_least(300, "no mean");
}

/// Months of longer days: the same second opinion with the listed plans, and the days shuffled.
#[test]
fn longer_days() {
    let (test, mut counts) = ("longer days, month", Counts::default());
    for i in 0..600 * books::times() {
        let mut rng = Rng::for_case(books::seed(), test, i);
        let mut days = some_month(&mut rng);
        let input = bytes(&days);
        assert_eq!(days_in(&input).as_ref(), Some(&days));
        let want = second_opinion(&input, |day| day.list().to_vec());
        assert_eq!(month(&input), want, "case {i}, {input:02x?}");
        let report = Report::of(&days);
        rng.shuffle(&mut days);
        assert_eq!(Report::of(&days), report, "case {i}");
        count(&mut counts, &input);
    }
    println!("{test}: {:?}", counts.0);
    counts.at_least(2_000, "accepted");
    counts.at_least(20, "256 rows");
    counts.at_least(20, "month of 31 days");
}

/// Idle plus all lengths is end minus free minute, for every order of small days and some of long
/// ones.
#[test]
fn idle_minutes() {
    let (test, mut counts) = ("idle minutes", Counts::default());
    for i in 0..400 * books::times() {
        let mut rng = Rng::for_case(books::seed(), test, i);
        let rows = if i % 20 == 0 {
            MAX_ROWS
        } else {
            1 + rng.below(6)
        };
        let draft = months::some_draft(&mut rng, rows);
        let day = Day::read(0, &draft.words()).expect("accepted");
        let plain: Vec<u32> = (1..=day.rows.len() as u32).collect();
        let orders = match plain.len() {
            0..=5 => sequences(&plain),
            _ => (0..20)
                .map(|_| {
                    let mut order = plain.clone();
                    rng.shuffle(&mut order);
                    order
                })
                .collect(),
        };
        let lengths: i64 = day.rows.iter().map(|row| row.length).sum();
        for order in orders {
            let idle = idle(&day, &order);
            let end = i64::from(day.pair_of(&order).end);
            assert_eq!(idle + lengths, end - day.free, "case {i}, {order:?}");
            assert!(idle >= 0);
            counts.add("order");
            counts.add_if(idle > 0, "idle");
        }
    }
    println!("{test}: {:?}", counts.0);
    counts.at_least(5_000, "order");
    counts.at_least(2_000, "idle");
}
