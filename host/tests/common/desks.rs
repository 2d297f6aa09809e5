//! What the tests of the open desk share: calls on it as data, series of them on a desk of the archive
//! beside one of the model, calls by chance, and calls on runs that may be no desk.
#![allow(dead_code)]

use crate::common::fence::{Fences, Side};
use crate::common::layout::words_of;
use crate::common::{self, fault, filled, of_pair, refused, told, Case};
use crate::kit::{self, Counts};
use jelvaksna::books::{self, Draft, Rng, OPENINGS, PACES, REFUSED_PACES};
use jelvaksna::desk_model::{Desk, LATEST_START};
use jelvaksna::linked::desk::{self, plain};
use jelvaksna::linked::Answer;
use jelvaksna::model::MAX_ROWS;
use jelvaksna::refusal::{DISORDER, DONE, EARLY, NARROW, RANGE, UNLISTED};
use jelvaksna::{Moved, Opened, Pair, Refusal, DESK_WORDS, MAX_PACE, MIN_PACE};

/// One call on an open desk. `len` is the length of the result buffer.
#[derive(Clone, Copy, Debug)]
pub enum Call {
    Start { row: u32, minute: u32 },
    Pace { pace: u32 },
    List { len: usize },
    OrderOfPlan { plan: u32, len: usize },
}

/// The answer of a call, and the run that it was lent for writing, after it.
type Outcome = (Answer, Vec<u32>);

impl Call {
    /// What the archive gives for a run that is lent as a desk.
    pub fn of_archive(self, fences: &mut Fences, side: Side, words: &[u32]) -> Outcome {
        let (answer, after, spilt) = match self {
            Call::Start { row, minute } => fences.lend(side, &[], &[], words, |_, _, d| {
                plain::start(d, row, minute)
            }),
            Call::Pace { pace } => {
                fences.lend(side, &[], &[], words, |_, _, d| plain::pace(d, pace))
            }
            Call::List { len } => {
                fences.lend(side, words, &[], &filled(len), |d, _, r| plain::list(d, r))
            }
            Call::OrderOfPlan { plan, len } => {
                fences.lend(side, words, &[], &filled(len), |d, _, r| {
                    plain::order_of_plan(d, plan, r)
                })
            }
        };
        assert!(!spilt, "{self:?}: a word beside what is lent was changed");
        (answer, after)
    }

    /// What the model gives for its desk, whose words are lent in a run with more words or without; a
    /// start or a change of pace moves it.
    fn of_model(self, desk: &mut Desk, run: &[u32]) -> Outcome {
        match self {
            Call::Start { row, minute } => {
                let answer = told(desk.start(row, minute), |Moved { minute, worst }| Answer {
                    minute,
                    late: worst,
                    ..Answer::default()
                });
                (answer, run_of(desk, run))
            }
            Call::Pace { pace } => {
                let answer = told(desk.pace(pace), |()| Answer::default());
                (answer, run_of(desk, run))
            }
            Call::List { len } => {
                let mut result = filled(len);
                let answer = told(desk.list_into(&mut result), |count| Answer {
                    count,
                    ..Answer::default()
                });
                (answer, result)
            }
            Call::OrderOfPlan { plan, len } => {
                let mut result = filled(len);
                let answer = told(desk.order_of_plan_into(plan, &mut result), of_pair);
                (answer, result)
            }
        }
    }

    /// Whether it may write the desk.
    fn moves(self) -> bool {
        matches!(self, Call::Start { .. } | Call::Pace { .. })
    }
}

/// The words of a desk in the place of what a run has there; its further words as they are.
fn run_of(desk: &Desk, run: &[u32]) -> Vec<u32> {
    [&words_of(desk), &run[DESK_WORDS..]].concat()
}

/// What a run gives that is opened with a book, by the model: the answer, the run after it, and the desk.
pub fn opened_by_model(
    opening: u32,
    book: &[u32],
    run: &[u32],
) -> (Answer, Vec<u32>, Option<Desk>) {
    let narrow = Refusal {
        number: NARROW,
        place: 0,
    };
    match Desk::open(opening, book) {
        Err(refusal) => (refused(refusal), run.to_vec(), None),
        Ok(_) if run.len() < DESK_WORDS => (refused(narrow), run.to_vec(), None),
        Ok(desk) => {
            let Opened { rows, minute } = desk.opened();
            let answer = Answer {
                count: rows,
                minute,
                ..Answer::default()
            };
            (answer, run_of(&desk, run), Some(desk))
        }
    }
}

/// A run that the archive opens with a book: the answer, and the run after it.
pub fn opened(fences: &mut Fences, side: Side, opening: u32, book: &[u32], run: &[u32]) -> Outcome {
    let open = |b: &[u32], _: &[u32], d: &mut [u32]| plain::open(opening, b, d);
    let (answer, after, spilt) = fences.lend(side, book, &[], run, open);
    assert!(!spilt, "open: a word beside the desk was changed");
    (answer, after)
}

/// A desk of the archive beside one of the model, and what was called on them.
pub struct Series<'f> {
    pub case: Case,
    fences: &'f mut Fences,
    pub book: Vec<u32>,
    /// The run that holds the archive's desk, and sometimes more words.
    pub words: Vec<u32>,
    pub model: Desk,
    calls: Vec<Call>,
    /// The starts and changes of pace that were accepted.
    pub accepted: Vec<Call>,
    /// Whether an accepted change of pace gave a row left another length.
    pub repaced: bool,
}

impl<'f> Series<'f> {
    /// Opens both with an accepted book and the case's opening minutes, the archive's in a run of so
    /// many words more than it needs.
    pub fn open(case: Case, fences: &'f mut Fences, book: Vec<u32>, more: usize) -> Self {
        fault::watch(case, &book);
        let run = filled(DESK_WORDS + more);
        let (want, want_words, model) = opened_by_model(case.opening, &book, &run);
        let (have, words) = opened(fences, Side::End, case.opening, &book, &run);
        let series = Series {
            case,
            fences,
            book,
            words,
            model: model.expect("an accepted book and opening"),
            calls: Vec::new(),
            accepted: Vec::new(),
            repaced: false,
        };
        series.hold_outcome((want, &want_words), (have, &series.words));
        series
    }

    /// Prints the series and fails, unless it is so.
    pub fn hold(&self, so: bool, what: impl FnOnce() -> String) {
        if !so {
            let what = format!("  {}", what());
            common::fail(self.case, &self.book, &self.calls, &what);
        }
    }

    /// The same answer and the same words.
    fn hold_outcome(&self, want: (Answer, &[u32]), have: (Answer, &[u32])) {
        self.hold(want.0 == have.0, || {
            format!("model {:?}\n  archive {:?}", want.0, have.0)
        });
        let differ = || (0..want.1.len()).filter(|&i| want.1[i] != have.1[i]);
        self.hold(want.1 == have.1, || {
            let places: Vec<usize> = differ().collect();
            let of = |words: &[u32]| places.iter().map(|&i| words[i]).collect::<Vec<_>>();
            let (model, archive) = (of(want.1), of(have.1));
            format!("words at {places:?}\n  model {model:?}\n  archive {archive:?}")
        });
    }

    /// One call on both: the same answer, and the same words of the run that is lent for writing, which
    /// is the result or the desk. So a call that is refused leaves every word of the desk, and an accepted
    /// one writes what the model's desk says and no other word.
    pub fn call(&mut self, call: Call) -> Answer {
        let side = [Side::End, Side::Start][self.calls.len() % 2];
        self.calls.push(call);
        let (want, want_words) = call.of_model(&mut self.model, &self.words);
        let (have, have_words) = call.of_archive(self.fences, side, &self.words);
        self.hold_outcome((want, &want_words), (have, &have_words));
        if call.moves() && have.refusal == 0 {
            self.repaced |= matches!(call, Call::Pace { .. }) && have_words != self.words;
            self.accepted.push(call);
            self.words = have_words;
        }
        have
    }

    /// The desk is, word for word, one opened anew on which the accepted starts and changes of pace
    /// alone were called.
    pub fn settle(&mut self) {
        let other = vec![u32::MAX; DESK_WORDS];
        let (side, opening) = (Side::Start, self.case.opening);
        let (_, mut anew) = opened(self.fences, side, opening, &self.book, &other);
        for &call in &self.accepted {
            let (answer, after) = call.of_archive(self.fences, side, &anew);
            assert_eq!(answer.refusal, 0, "{call:?}");
            anew = after;
        }
        let same = self.words[..DESK_WORDS] == anew[..];
        self.hold(same, || {
            "another desk than the accepted starts and changes give".to_string()
        });
    }
}

// ---- Calls by chance ----

/// How rows are started: any row left, now and then late; or the first of the last plan, in time, so
/// that the rest has several plans more often.
#[derive(Clone, Copy, PartialEq, Eq)]
pub enum Manner {
    Any,
    Steady,
}

/// A row left that a plan has first, or any row left.
pub fn row_left(rng: &mut Rng, desk: &Desk, manner: Manner) -> u32 {
    let plans = desk.list().len();
    let plan = match rng.below(3) {
        _ if manner == Manner::Steady => plans,
        0 => plans,
        1 => 1 + rng.below(plans),
        _ => return rng.pick(&desk.left),
    };
    let mut order = vec![0; desk.left.len()];
    let told = desk.order_of_plan_into(plan as u32, &mut order);
    told.expect("a listed plan");
    order[0]
}

/// A start of a row at the earliest minute.
pub fn start_of(desk: &Desk, row: u32) -> Call {
    let minute = desk.minute.max(desk.row(row).release) as u32;
    Call::Start { row, minute }
}

/// A start that is accepted, unless the desk is past the latest minute.
pub fn good_start(rng: &mut Rng, desk: &Desk, manner: Manner) -> Call {
    let row = row_left(rng, desk, manner);
    let ready = desk.minute.max(desk.row(row).release);
    let minute = match rng.below(60) {
        _ if manner == Manner::Steady => ready,
        0 => LATEST_START - rng.pick(&[0, 0, 1, 15, 40_000]),
        1..=10 => ready + rng.pick(&[1, 5, 60, 1_000]),
        _ => ready,
    };
    let minute = minute.clamp(ready, ready.max(LATEST_START)) as u32;
    Call::Start { row, minute }
}

/// A start of no row, of a row that is done, or at a minute that is too early or too late.
pub fn bad_start(rng: &mut Rng, desk: &Desk) -> Call {
    let rows = desk.rows.len() as u32;
    let done: Vec<u32> = (1..=rows).filter(|row| !desk.left.contains(row)).collect();
    let row = match rng.below(4) {
        0 => rng.pick(&[0, rows + 1, rows + 2, 257, 1 << 30, 1 << 31, u32::MAX]),
        1 if !done.is_empty() => rng.pick(&done),
        _ if !desk.left.is_empty() => rng.pick(&desk.left),
        _ => rng.pick(&done),
    };
    let release = match (1..=rows).contains(&row) {
        true => desk.row(row).release,
        false => 0,
    };
    let minute = match rng.below(8) {
        0 | 1 => desk.minute - 1,
        2 | 3 => release - 1,
        4 => 0,
        5 => LATEST_START + 1,
        6 => i64::from(rng.next() as u32),
        _ => i64::from(rng.pick(&[LATEST_START as u32 + 2, 1 << 30, 1 << 31, u32::MAX])),
    };
    let minute = minute.max(0) as u32;
    Call::Start { row, minute }
}

/// A pace to change to, as often as not one of these; now and then one that there is not.
pub fn some_pace(rng: &mut Rng, paces: &[u32]) -> u32 {
    match rng.below(10) {
        0 => rng.pick(&REFUSED_PACES),
        1..=3 => rng.pick(&PACES),
        4 => rng.range(MIN_PACE.into(), MAX_PACE.into()) as u32,
        _ => rng.pick(paces),
    }
}

/// A length that fits exactly, is one short, or is more.
fn some_len(rng: &mut Rng, exact: usize) -> usize {
    match rng.below(6) {
        0 | 1 => exact.saturating_sub(1),
        2 => rng.pick(&[0, exact / 2, exact + 33, 2 * MAX_ROWS]),
        3 => exact + 1,
        _ => exact,
    }
}

pub fn list(rng: &mut Rng, desk: &Desk) -> Call {
    let len = some_len(rng, 2 * desk.left.len());
    Call::List { len }
}

pub fn order_of_plan(rng: &mut Rng, desk: &Desk) -> Call {
    let (left, plans) = (desk.left.len(), desk.list().len());
    let plan = match rng.below(4) {
        0 => rng.pick(&[0, plans as u32 + 1, left as u32 + 1, 1 << 31, u32::MAX]),
        1 => plans as u32,
        _ => 1 + rng.below(plans.max(1)) as u32,
    };
    let len = some_len(rng, left);
    Call::OrderOfPlan { plan, len }
}

/// Any call; changes of pace as often as not to one of these.
pub fn any_call(rng: &mut Rng, desk: &Desk, manner: Manner, paces: &[u32]) -> Call {
    match rng.below(12) {
        0..=3 if !desk.left.is_empty() => good_start(rng, desk, manner),
        0..=5 => bad_start(rng, desk),
        6 | 7 => list(rng, desk),
        8 | 9 => order_of_plan(rng, desk),
        _ => Call::Pace {
            pace: some_pace(rng, paces),
        },
    }
}

// ---- Series ----

/// What came up in the series of a test.
fn count(counts: &mut Counts, call: Call, answer: Answer, series: &Series) {
    let desk = &series.model;
    let name = match call {
        Call::Start { .. } => "start",
        Call::Pace { .. } => "pace",
        Call::List { .. } => "list",
        Call::OrderOfPlan { .. } => "order",
    };
    counts.add(format!("{name} {}", answer.refusal));
    if answer.refusal == 0 {
        let started = matches!(call, Call::Start { .. });
        let listed = matches!(call, Call::List { .. });
        let paced = matches!(call, Call::Pace { .. });
        counts.add_if(started && answer.late < 0, "start, worst below 0");
        counts.add_if(started && series.repaced, "start after a change");
        let done = desk.worst.is_some();
        let several = listed && answer.count > 1;
        counts.add_if(several && done, "list of several plans after a start");
        counts.add_if(
            several && series.repaced,
            "list of several plans after a change",
        );
        counts.add_if(listed && answer.count == 0, "list of no row");
        counts.add_if(paced && desk.left.is_empty(), "pace of no row");
        let past = desk.minute > LATEST_START;
        counts.add_if(
            listed && past && answer.count > 0,
            "list past the latest start",
        );
        counts.add_if(
            paced && past && !desk.left.is_empty(),
            "pace past the latest start",
        );
    }
}

/// Makes calls by chance on a desk that was opened.
pub fn calls_by_chance(
    rng: &mut Rng,
    series: &mut Series,
    counts: &mut Counts,
    calls: usize,
    paces: &[u32],
) {
    let manner = rng.pick(&[Manner::Any, Manner::Steady]);
    for _ in 0..calls {
        let call = any_call(rng, &series.model, manner, paces);
        let answer = series.call(call);
        count(counts, call, answer, series);
    }
}

/// Opens desks with made books and makes calls by chance on each. The maker is told the opening minutes;
/// it gives a day, and paces that changes often go to.
pub fn series(
    test: &'static str,
    number: u64,
    make: impl Fn(&mut Rng, u32, u64) -> (Draft, Vec<u32>),
    calls: impl Fn(usize) -> usize,
) -> Counts {
    let (mut fences, mut counts) = (Fences::new(), Counts::default());
    for i in 0..number {
        let case = Case::new(test, i).accepted();
        let mut rng = case.rng();
        let (day, paces) = make(&mut rng, case.opening, i);
        counts.add_if(case.opening > 0, "with opening minutes");
        let more = rng.pick(&[0, 0, 1, 40]);
        let mut series = Series::open(case, &mut fences, day.words(), more);
        let calls = calls(day.rows.len());
        calls_by_chance(&mut rng, &mut series, &mut counts, calls, &paces);
        series.settle();
    }
    println!(
        "{test}: seed {:#x}, {number} series, {:?}",
        books::seed(),
        counts.0
    );
    counts
}

/// The day with its own pace and those next to it.
pub fn with_its_pace(day: Draft) -> (Draft, Vec<u32>) {
    let pace = day.pace as u32;
    let near = [pace - 1, pace, pace + 1].map(|pace| pace.clamp(MIN_PACE, MAX_PACE));
    (day, near.to_vec())
}

/// Every answer and every refusal came up, most of them often.
pub fn came_up(counts: &Counts, often: usize) {
    for number in [0, UNLISTED, DONE, EARLY] {
        counts.at_least(often, format!("start {number}"));
    }
    for number in [0, NARROW] {
        counts.at_least(often, format!("list {number}"));
        counts.at_least(often, format!("order {number}"));
    }
    counts.at_least(often, format!("order {UNLISTED}"));
    for number in [0, RANGE, DISORDER] {
        counts.at_least(often / 8, format!("pace {number}"));
    }
    counts.at_least(often / 8, "start, worst below 0");
    counts.at_least(often / 4, "start after a change");
    counts.at_least(often / 20, "list of several plans after a start");
}

// ---- Every order of the rest ----

/// The list beside all orders of the rows left: for every order a plan is no worse in both, and the
/// plans are the pairs that no order beats. Each plan's order has every row left and attains the plan.
pub fn covers_the_rest(series: &mut Series) {
    let left = series.model.left.len();
    series.call(Call::List { len: 2 * left });
    let plans = desk::plans(&series.words).expect("a list");
    let orders = kit::sequences(&series.model.left);
    let pairs: Vec<Pair> = orders.iter().map(|o| series.model.pair_of(o)).collect();
    let no_worse = |a: &Pair, b: &Pair| a.end <= b.end && a.late <= b.late;
    let cover = |pair: &Pair| plans.iter().any(|plan| no_worse(plan, pair));
    series.hold(pairs.iter().all(cover), || {
        format!("{plans:?} cover not all of {pairs:?}")
    });
    let by_definition = series.model.list_by_definition();
    series.hold(plans == by_definition, || {
        format!("{plans:?}, of all orders {by_definition:?}")
    });
    for (i, plan) in plans.iter().enumerate() {
        let mut order = vec![0; left];
        let told = desk::order_of_plan(&series.words, i as u32 + 1, &mut order);
        let attained = told == Ok(*plan) && orders.contains(&order);
        let attained = attained && series.model.pair_of(&order) == *plan;
        series.hold(attained, || {
            format!("{plan:?}, its order {order:?}, {told:?}")
        });
    }
}

// ---- Runs that may be no desk ----

/// A call on any words, twice: no fault, one of its refusals or an answer, both times the same; a
/// refusal says nothing else and leaves every word; an answer leaves the words that it may not write.
pub fn stays_within(case: Case, fences: &mut Fences, words: &[u32], call: Call) -> u32 {
    fault::watch(case, words);
    let (answer, after) = call.of_archive(fences, Side::End, words);
    let again = call.of_archive(fences, Side::Start, words);
    let say = || format!("case {}, {call:?}, {answer:?}", case.case);
    assert_eq!((answer, &after), (again.0, &again.1), "{}", say());
    let (lent, numbers, most) = match call {
        Call::Start { .. } => (
            words.to_vec(),
            &[RANGE, UNLISTED, DONE, EARLY][..],
            DESK_WORDS,
        ),
        Call::Pace { .. } => (words.to_vec(), &[RANGE, DISORDER][..], DESK_WORDS),
        Call::List { len } => (filled(len), &[RANGE, NARROW][..], 2 * answer.count),
        Call::OrderOfPlan { len, .. } => (filled(len), &[RANGE, UNLISTED, NARROW][..], MAX_ROWS),
    };
    if answer.refusal == 0 {
        let most = most.min(lent.len());
        assert_eq!(after[most..], lent[most..], "{}", say());
        return 0;
    }
    assert!(numbers.contains(&answer.refusal), "{}", say());
    assert_eq!(after, lent, "{}", say());
    let (number, place) = (answer.refusal, answer.place);
    assert_eq!(answer, refused(Refusal { number, place }), "{}", say());
    let may_be = match number {
        RANGE | NARROW | EARLY => place == 0,
        // The number word of a row from the second on.
        DISORDER => place % 4 == 2 && (6..4 * MAX_ROWS).contains(&place),
        _ => place <= MAX_ROWS,
    };
    assert!(may_be, "{}", say());
    number
}

/// The words of a desk that was opened, after some starts and changes of pace.
pub fn some_desk(rng: &mut Rng) -> Vec<u32> {
    let opening = rng.pick(&OPENINGS);
    let rows = books::some_rows(rng, MAX_ROWS);
    let book = books::accepted(rng, opening, rows).words();
    let mut words = vec![0; DESK_WORDS];
    let mut model = Desk::open(opening, &book).expect("accepted");
    let told = desk::open(opening, &book, &mut words);
    assert_eq!(told, Ok(model.opened()));
    for _ in 0..rng.below(rows.min(8) + 1) {
        let row = rng.pick(&model.left);
        let minute = model.minute.max(model.row(row).release) as u32;
        let want = model.start(row, minute);
        assert_eq!(desk::start(&mut words, row, minute), want);
        if rng.one_in(3) {
            let pace = rng.pick(&PACES);
            assert_eq!(desk::pace(&mut words, pace), model.pace(pace));
        }
    }
    assert_eq!(words, words_of(&model));
    words
}

/// A run of words by chance, and runs that differ little from a desk.
pub fn some_run(rng: &mut Rng, i: u64) -> Vec<u32> {
    if i.is_multiple_of(5) {
        let len = rng.pick(&[0, 1, 600, 1287, 1288, 1288, 1400]);
        let limit = rng.pick(&[2, 256, 30_000, 10_000_000, 1 << 32]);
        return (0..len).map(|_| (rng.next() % limit) as u32).collect();
    }
    let mut words = some_desk(rng);
    let changes = rng.pick(&[1, 1, 1, 2, 5]);
    for _ in 0..changes {
        // Half of them near a multiple of 256, where even a desk of few rows has something.
        let at = match rng.below(2) {
            0 => rng.below(DESK_WORDS),
            _ => 256 * rng.below(5) + rng.below(24),
        };
        let (old, other) = (words[at], words[rng.below(DESK_WORDS)]);
        let step = rng.pick(&[1, 2, 60]);
        let telling = [
            0, 1, 2, 30, 31, 256, 257, 2_000, 2_001, 30_000, 30_001, 30_030, 30_031, 10_000_001,
            20_030_030, 20_030_031,
        ];
        words[at] = match rng.below(6) {
            0 => rng.next() as u32,
            1 => old.wrapping_add(step),
            2 => old.wrapping_sub(step),
            3 => old ^ 1 << rng.below(32),
            4 => other,
            _ => rng.pick(&telling),
        };
    }
    words
}
