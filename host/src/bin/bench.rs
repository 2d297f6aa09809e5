//! How long the calls take, the archive beside the model: same books, same machine, one run.
//!
//!     cargo run --offline --release --manifest-path host/Cargo.toml --bin bench
//!
//! Prints tables for docs/BENCHMARKS.md. It asserts equal answers, and nothing about times.

use jelvaksna::books::{self, Draft, Rng};
use jelvaksna::latest_model::{self, from_minute, Wanted};
use jelvaksna::model::{self, Day, MAX_ROWS};
use jelvaksna::month_model::{self, PostedDay, MAX_DAYS};
use jelvaksna::refusal::UNREACHABLE;
use jelvaksna::several_model::Bureau;
use jelvaksna::{linked, linked::desk, linked::several, word};
use jelvaksna::{Latest, Pair, Profile, DESK_WORDS, MAX_DESKS, MAX_FREE, MAX_PACE, MIN_PACE};
use std::fs::{self, File};
use std::hint::black_box;
use std::process::Command;
use std::time::{Duration, Instant};

const SIZES: [usize; 4] = [8, 32, 128, 256];
const PLANS: [usize; 5] = [2, 8, 32, 128, 230];
const DESKS: [usize; 3] = [8, 30, 256];
const RUNS: usize = 9;
/// The opening minutes that the calls are told: none.
const OPENING: u32 = 0;
const CALLS: [&str; 4] = [
    "list",
    "order for a bound",
    "verdict",
    "row (reading alone)",
];

/// How often to call so that a run is long enough to be timed.
fn repeats<T>(call: &mut impl FnMut() -> T) -> u32 {
    let start = Instant::now();
    let mut calls = 0;
    while calls < 10_000 && start.elapsed() < Duration::from_millis(8) {
        black_box(call());
        calls += 1;
    }
    calls
}

/// Microseconds a call.
fn run<T>(call: &mut impl FnMut() -> T, repeats: u32) -> f64 {
    let start = Instant::now();
    for _ in 0..repeats {
        black_box(call());
    }
    start.elapsed().as_secs_f64() * 1e6 / f64::from(repeats)
}

fn median(mut times: Vec<f64>) -> f64 {
    times.sort_by(f64::total_cmp);
    times[times.len() / 2]
}

/// Median microseconds of a call on the archive and on the model, run by turns.
fn time<T>(mut archive: impl FnMut() -> T, mut model: impl FnMut() -> T) -> (f64, f64) {
    let (of_archive, of_model) = (repeats(&mut archive), repeats(&mut model));
    let mut times = (Vec::new(), Vec::new());
    for _ in 0..RUNS {
        times.0.push(run(&mut archive, of_archive));
        times.1.push(run(&mut model, of_model));
    }
    (median(times.0), median(times.1))
}

/// The times of the calls of [`CALLS`] on one book.
fn measure(book: &[u32], day: &Day) -> [(f64, f64); CALLS.len()] {
    let rows = day.rows.len();
    let Pair { late: bound, .. } = day.list()[day.list().len() / 2];
    let posting: Vec<u32> = (1..=rows as u32).collect();
    let (mut a, mut b) = ([0; 2 * MAX_ROWS], [0; 2 * MAX_ROWS]);

    assert_eq!(
        linked::list(OPENING, book, &mut a),
        model::list(OPENING, book, &mut b)
    );
    assert_eq!(
        linked::order_for_bound(OPENING, book, bound, &mut a),
        model::order_for_bound(OPENING, book, bound, &mut b)
    );
    assert_eq!(a, b);
    assert_eq!(
        linked::verdict(OPENING, book, &posting),
        model::verdict(OPENING, book, &posting)
    );

    let list = time(
        || linked::list(OPENING, black_box(book), &mut a),
        || model::list(OPENING, black_box(book), &mut b),
    );
    let order = time(
        || linked::order_for_bound(OPENING, black_box(book), bound, &mut a),
        || model::order_for_bound(OPENING, black_box(book), bound, &mut b),
    );
    let verdict = time(
        || linked::verdict(OPENING, black_box(book), &posting),
        || model::verdict(OPENING, black_box(book), &posting),
    );
    let row = time(
        || linked::row_words(black_box(book), 1).map(|words| words.len()),
        || model::row_place(Profile::OrderingRule, black_box(book), 1),
    );
    [list, order, verdict, row]
}

/// The list of the profile "first come, first due".
fn first_come(seed: u64) {
    println!("\nThe list of the profile:\n");
    println!("| day | rows | archive µs | model µs | archive / model |");
    println!("|---|---:|---:|---:|---:|");
    for name in ["typical", "typical, unsorted"] {
        for rows in SIZES {
            let mut rng = Rng::for_case(seed, "bench", 3);
            let mut day = books::steady_day(&mut rng, rows);
            if name != "typical" {
                day = day.shuffled(&mut rng);
            }
            let book = day.words();
            let of_model = |result: &mut [u32]| {
                Day::read_as(Profile::FirstCome, OPENING, black_box(&book))?.list_into(result)
            };
            let (mut a, mut b) = ([0; 2 * MAX_ROWS], [0; 2 * MAX_ROWS]);
            assert_eq!(linked::first_come::list(OPENING, &book, &mut a), Ok(1));
            assert_eq!((of_model(&mut b), a), (Ok(1), b));
            let (archive, model) = time(
                || linked::first_come::list(OPENING, black_box(&book), &mut a),
                || of_model(&mut b),
            );
            println!(
                "| {name} | {rows} | {archive:.2} | {model:.2} | {:.3} |",
                archive / model
            );
        }
    }
}

/// A start on a copy of a desk, beside the copy alone; and the start that is refused since its row is
/// done, beside one on a run that is too short.
fn starts(opened: &[u32], row: u32, minute: u32) -> [(f64, f64); 2] {
    let (mut one, mut other) = (opened.to_vec(), opened.to_vec());
    assert!(desk::start(&mut one, row, minute).is_ok());
    let start = time(
        || {
            one.copy_from_slice(black_box(opened));
            desk::start(&mut one, row, minute).is_ok()
        },
        || {
            other.copy_from_slice(black_box(opened));
            black_box(&mut other).is_empty()
        },
    );
    let short = &mut other[1..];
    let refused = time(
        || desk::start(black_box(&mut one), row, minute).is_ok(),
        || desk::start(black_box(short), row, minute).is_ok(),
    );
    [start, refused]
}

/// A change of pace that leaves every word, to the pace that the desk has, and one that is refused since
/// rows come to disagree; each beside a start that is refused since its row is done.
fn changes(opened: &[u32], own: u32, row: u32, minute: u32) -> [(f64, f64); 2] {
    let (mut one, mut other) = (opened.to_vec(), opened.to_vec());
    desk::start(&mut other, row, minute).expect("accepted");
    let mut refused = |&pace: &u32| desk::pace(&mut opened.to_vec(), pace).is_err();
    let at_odds = (MIN_PACE..=MAX_PACE).find(&mut refused);
    [own, at_odds.expect("a pace that sets rows at odds")].map(|pace| {
        let times = time(
            || desk::pace(black_box(&mut one), pace).is_ok(),
            || desk::start(black_box(&mut other), row, minute).is_ok(),
        );
        assert_eq!(one, opened);
        times
    })
}

/// The calls of the open desk, each beside what it is to be measured by.
fn open_desk(name: &str, day: &Draft) {
    let (book, rows) = (day.words(), day.rows.len());
    let (mut opened, mut again) = ([0; DESK_WORDS], [0; DESK_WORDS]);
    let minute = desk::open(OPENING, &book, &mut opened)
        .expect("accepted")
        .minute;
    let (mut a, mut b) = ([0; 2 * MAX_ROWS], [0; 2 * MAX_ROWS]);
    assert_eq!(
        desk::list(&opened, &mut a),
        linked::list(OPENING, &book, &mut b)
    );
    assert_eq!(a, b);
    desk::order_of_plan(&opened, 1, &mut a).expect("listed");
    let release = day.rows[a[0] as usize - 1].release as u32;
    let (row, minute) = (a[0], minute.max(release));
    let [start, refused] = starts(&opened, row, minute);
    let [pace, at_odds] = changes(&opened, day.pace as u32, row, minute);
    let open = time(
        || desk::open(OPENING, black_box(&book), &mut again).is_ok(),
        || linked::row_words(black_box(&book), 1).is_ok(),
    );
    let list = time(
        || desk::list(black_box(&opened), &mut a),
        || linked::list(OPENING, black_box(&book), &mut b),
    );
    let order = time(
        || desk::order_of_plan(black_box(&opened), 1, &mut a),
        || linked::order_of_plan(OPENING, black_box(&book), 1, &mut b),
    );
    for (call, beside, (of_call, of_beside)) in [
        ("open", "reading the book alone", open),
        ("start, on a copy", "the copy alone", start),
        ("start, refused 14", "refused 3 for its length", refused),
        ("pace, the same again", "start, refused 14", pace),
        ("pace, refused 8", "start, refused 14", at_odds),
        ("list", "list of the book", list),
        ("order of plan 1", "the same of the book", order),
    ] {
        println!("| {name} | {rows} | {call} | {of_call:.3} | {beside} | {of_beside:.3} |");
    }
}

/// The call on several desks, beside the lists of their books. Each desk closes at the end of its middle
/// plan, and the limit is half-way between the least overtime of a choice and that of the least late one.
fn several_desks(name: &str, days: &[Draft]) {
    let books: Vec<Vec<u32>> = days.iter().map(Draft::words).collect();
    let read = |book: &Vec<u32>| Day::read(OPENING, book).expect("an accepted day");
    let read: Vec<Day> = books.iter().map(read).collect();
    let middle = |day: &Day| day.list()[day.list().len() / 2].end;
    let bureau = Bureau {
        closings: read.iter().map(middle).collect(),
        days: read,
    };
    let plans: usize = bureau.days.iter().map(|day| day.list().len()).sum();
    let sums: Vec<u64> = bureau.sums().into_iter().collect();
    let limit = ((sums[0] + sums[sums.len() - 1]) / 2) as u32;

    let (lent, closings) = (books.concat(), &bureau.closings);
    let lengths: Vec<u32> = books.iter().map(|book| book.len() as u32).collect();
    let (mut a, mut b) = ([0; MAX_DESKS * MAX_ROWS], [0; MAX_DESKS * MAX_ROWS]);
    assert_eq!(
        several::choose(OPENING, &lent, &lengths, closings, limit, &mut a),
        bureau.choose_into(limit, &mut b)
    );
    assert_eq!(a, b);
    let (call, lists) = time(
        || several::choose(OPENING, black_box(&lent), &lengths, closings, limit, &mut a).is_ok(),
        || {
            let mut books = black_box(&books).iter();
            books.all(|book| linked::list(OPENING, book, &mut b).is_ok())
        },
    );
    let rows = days[0].rows.len();
    println!(
        "| {name} | {rows} | {plans} | {call:.2} | {lists:.2} | {:.3} |",
        call / lists
    );
}

/// The call for the latest free minute, beside one order for the wanted lateness, from the minute answered.
/// Wanted are the numbers of the book's middle plan, each an hour later; then an end that is a minute too soon
/// for any order, which is refused.
fn latest_minute(name: &str, day: &Draft) {
    let (book, rows) = (day.words(), day.rows.len());
    let read = Day::read(OPENING, &book).expect("an accepted day");
    let plans = read.list().len();
    let Pair { end, late } = read.list()[plans / 2];
    let soonest = from_minute(&read, 0).order_for_bound(i32::MAX);
    let soonest = soonest.expect("an order").0.end as i32;
    for wanted in [
        Wanted::new(end as i32 + 60, late + 60),
        Wanted::new(soonest - 1, i32::MAX),
    ] {
        let (mut a, mut b) = ([0; MAX_ROWS], [0; MAX_ROWS]);
        let Wanted { end, late } = wanted;
        let told = linked::latest_free(OPENING, &book, end, late, &mut a);
        let model = latest_model::latest_free(OPENING, &book, wanted, &mut b);
        assert_eq!((told, a), (model, b));
        let (minute, answer) = match told {
            Ok(Latest { minute, .. }) => (minute, format!("{minute}")),
            Err(refusal) => (0, format!("refused {}", refusal.number)),
        };
        let inside = minute > 0 && minute < MAX_FREE;
        assert!(inside || told.is_err_and(|refusal| refusal.number == UNREACHABLE));
        let from_there = [&[word(1, minute)], &book[1..]].concat();
        let (call, order) = time(
            || linked::latest_free(OPENING, black_box(&book), end, late, &mut a).is_ok(),
            || linked::order_for_bound(OPENING, black_box(&from_there), late, &mut b).is_ok(),
        );
        println!(
            "| {name} | {rows} | {plans} | {answer} | {call:.2} | {order:.2} | {:.1} |",
            call / order
        );
    }
}

/// What `month` prints for a file, as a process of its own.
fn month(path: &str) -> Vec<u8> {
    let program = concat!(env!("CARGO_MANIFEST_DIR"), "/../target/bin/month");
    let input = File::open(path).expect("a month");
    let output = Command::new(program).stdin(input).output();
    output.expect("run 'host/build.sh month' first").stdout
}

/// `month` as a whole process on the most days of one book, each posted in the sequence of its
/// rows, beside the process on a month of no day and beside as many verdicts.
fn whole_month(name: &str, day: &Draft) {
    let (book, rows) = (day.words(), day.rows.len());
    let posting: Vec<u32> = (1..=rows as u32).collect();
    let days = vec![PostedDay { book, posting }; MAX_DAYS];
    let input = month_model::bytes(&days);
    let file = |name: &str, bytes: &[u8]| {
        let path = std::env::temp_dir().join(format!("{}-{name}", std::process::id()));
        fs::write(&path, bytes).expect("a file");
        path.into_os_string().into_string().expect("a plain name")
    };
    let (whole, none) = (file("31.month", &input), file("0.month", &[]));
    assert_eq!(month(&whole), month_model::month(&input).into_bytes());
    let verdicts = || {
        let accepted = |day: &&PostedDay| linked::verdict(OPENING, &day.book, &day.posting).is_ok();
        black_box(&days).iter().filter(accepted).count()
    };
    assert_eq!(verdicts(), MAX_DAYS);
    let (process, calls) = time(|| month(&whole).len(), verdicts);
    let (start, _) = time(|| month(&none).len(), || 0);
    println!("| {name} | {rows} | {process:.0} | {start:.0} | {calls:.0} |");
    for path in [whole, none] {
        fs::remove_file(path).expect("the file is there");
    }
}

fn main() {
    let seed = books::seed();
    println!("Microseconds a call, median of {RUNS} runs, seed {seed:#x}. Below 1 in the last column: the archive is faster.\n");
    println!("| day | rows | plans | call | archive µs | model µs | archive / model |");
    println!("|---|---:|---:|---|---:|---:|---:|");
    let typical =
        |rows: usize| books::typical_day(&mut Rng::for_case(seed, "bench", 1), OPENING, rows);
    let unsorted = |rows: usize| typical(rows).shuffled(&mut Rng::for_case(seed, "bench", 2));
    let days: [(&str, &dyn Fn(usize) -> Draft); 3] = [
        ("typical", &typical),
        ("typical, unsorted", &unsorted),
        ("worst", &|rows| books::many_plans(OPENING, rows)),
    ];
    let mut growth = Vec::new();
    for (name, make) in days {
        let mut all = Vec::new();
        for rows in SIZES {
            let book = make(rows).words();
            let day = Day::read(OPENING, &book).expect("an accepted day");
            let plans = day.list().len();
            let times = measure(&book, &day);
            for (call, (archive, model)) in CALLS.iter().zip(times) {
                println!(
                    "| {name} | {rows} | {plans} | {call} | {archive:.2} | {model:.2} | {:.3} |",
                    archive / model
                );
            }
            all.push(times);
        }
        growth.push((name, all));
    }
    println!("\nThe list of 256 rows as its plans grow in number:\n");
    println!("| plans | archive µs | model µs | model / archive |");
    println!("|---:|---:|---:|---:|");
    for plans in PLANS {
        let book = books::plans_among(OPENING, MAX_ROWS, plans).words();
        let (mut a, mut b) = ([0; 2 * MAX_ROWS], [0; 2 * MAX_ROWS]);
        assert_eq!(
            linked::list(OPENING, &book, &mut a),
            model::list(OPENING, &book, &mut b)
        );
        assert_eq!(a, b);
        let (archive, model) = time(
            || linked::list(OPENING, black_box(&book), &mut a),
            || model::list(OPENING, black_box(&book), &mut b),
        );
        println!(
            "| {plans} | {archive:.2} | {model:.2} | {:.1} |",
            model / archive
        );
    }
    first_come(seed);
    println!("\nThe open desk, no row done, each call beside another:\n");
    println!("| day | rows | call | µs | beside | µs |");
    println!("|---|---:|---|---:|---|---:|");
    for (name, make) in days {
        for rows in DESKS {
            open_desk(name, &make(rows));
        }
    }
    println!("\nSeveral desks, {MAX_DESKS} of them, beside the lists of their books:\n");
    println!("| day | rows of a desk | plans of all | call µs | lists µs | call / lists |");
    println!("|---|---:|---:|---:|---:|---:|");
    for (name, _) in days {
        for rows in DESKS {
            // A day of its own for each desk; the worst one is promised a minute later at each.
            let day = |desk: usize| {
                let mut rng = Rng::for_case(seed, "bench, several desks", desk as u64);
                match name {
                    "worst" => books::many_plans(OPENING, rows).promised_later(desk as i64),
                    "typical" => books::typical_day(&mut rng, OPENING, rows),
                    _ => books::typical_day(&mut rng, OPENING, rows).shuffled(&mut rng),
                }
            };
            several_desks(name, &(0..MAX_DESKS).map(day).collect::<Vec<_>>());
        }
    }
    println!("\nHow late the desk can open, beside one order for a bound:\n");
    println!("| day | rows | plans | latest free minute | call µs | order µs | call / order |");
    println!("|---|---:|---:|---:|---:|---:|---:|");
    for (name, make) in days {
        for rows in DESKS {
            latest_minute(name, &make(rows));
        }
    }
    println!("\n`month` on {MAX_DAYS} days, beside a month of no day and {MAX_DAYS} verdicts:\n");
    println!("| day | rows | month µs | no day µs | verdicts µs |");
    println!("|---|---:|---:|---:|---:|");
    for (name, make) in days {
        for rows in DESKS {
            whole_month(name, &make(rows));
        }
    }
    println!("\nHow the archive's time grows with the rows (and the model's):\n");
    println!("| day | call | 8 to 32 | 32 to 128 | 128 to 256 |");
    println!("|---|---|---:|---:|---:|");
    for (name, all) in growth {
        for (i, call) in CALLS.iter().enumerate() {
            print!("| {name} | {call} |");
            for step in all.windows(2) {
                let (archive, model) = (step[1][i].0 / step[0][i].0, step[1][i].1 / step[0][i].1);
                print!(" × {archive:.1} (× {model:.1}) |");
            }
            println!();
        }
    }
}
