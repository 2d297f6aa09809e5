//! What the tests of the archive share: calls as data, the model's answer to each, the comparison
//! between guard words or guard pages, and a report where the archive faults.
#![allow(dead_code)]

pub mod fault;
pub mod fence;
pub mod layout;

use jelvaksna::books::{self, Draft, Rng, OPENINGS};
use jelvaksna::linked::{self, first_come::plain as first_come, plain as standard, Answer};
use jelvaksna::model::{self, Day};
use jelvaksna::{word, Pair, Profile, Refusal, MAX_OPENING};

/// One call on a book that is lent beside it. `len` is the length of the result buffer.
#[derive(Clone, Debug)]
pub enum Call {
    List { len: usize },
    OrderForBound { bound: i32, len: usize },
    OrderOfPlan { plan: u32, len: usize },
    Verdict { posting: Vec<u32> },
    RowPlace { row: u32 },
}

impl Call {
    fn len(&self) -> usize {
        match *self {
            Call::List { len }
            | Call::OrderForBound { len, .. }
            | Call::OrderOfPlan { len, .. } => len,
            _ => 0,
        }
    }

    /// The archive's answer, and the words of the result buffer after the call.
    pub fn outcome(&self, case: Case, book: &[u32]) -> (Answer, Vec<u32>) {
        let mut words = filled(self.len());
        let answer = self.of_archive(case, book, self.posting(), &mut words);
        (answer, words)
    }

    fn posting(&self) -> &[u32] {
        match self {
            Call::Verdict { posting } => posting,
            _ => &[],
        }
    }

    /// The archive's answer. `posting` is the call's posting, where it is lent.
    fn of_archive(&self, case: Case, book: &[u32], posting: &[u32], result: &mut [u32]) -> Answer {
        let opening = case.opening;
        macro_rules! answer {
            ($of:ident) => {
                match *self {
                    Call::List { .. } => $of::list(opening, book, result),
                    Call::OrderForBound { bound, .. } => {
                        $of::order_for_bound(opening, book, bound, result)
                    }
                    Call::OrderOfPlan { plan, .. } => {
                        $of::order_of_plan(opening, book, plan, result)
                    }
                    Call::Verdict { .. } => $of::verdict(opening, book, posting),
                    Call::RowPlace { row } => $of::row_place(book, row),
                }
            };
        }
        match case.profile {
            Profile::OrderingRule => answer!(standard),
            Profile::FirstCome => answer!(first_come),
        }
    }

    /// The answer that the model calls for, on a book as the model reads it.
    fn of_model(
        &self,
        case: Case,
        book: &[u32],
        day: &Result<Day, Refusal>,
        result: &mut [u32],
    ) -> Answer {
        let day = match (day, self) {
            (Ok(day), _) => day,
            // The one call that is told no opening, and so does not refuse it.
            (Err(_), &Call::RowPlace { row }) if case.opening > MAX_OPENING => {
                return told(model::row_place(case.profile, book, row), of_place)
            }
            (Err(refusal), _) => return refused(*refusal),
        };
        match self {
            Call::List { .. } => told(day.list_into(result), |count| Answer {
                count,
                ..Answer::default()
            }),
            Call::OrderForBound { bound, .. } => {
                told(day.order_for_bound_into(*bound, result), of_pair)
            }
            Call::OrderOfPlan { plan, .. } => told(day.order_of_plan_into(*plan, result), of_pair),
            Call::Verdict { posting } => told(day.verdict(posting), |(pair, plan)| Answer {
                count: plan.unwrap_or(0),
                ..of_pair(pair)
            }),
            Call::RowPlace { row } => told(day.row_place(*row), of_place),
        }
    }
}

fn of_place(place: usize) -> Answer {
    Answer {
        place,
        ..Answer::default()
    }
}

pub fn refused(refusal: Refusal) -> Answer {
    Answer {
        refusal: refusal.number,
        place: refusal.place,
        ..Answer::default()
    }
}

pub fn told<T>(outcome: Result<T, Refusal>, of: impl FnOnce(T) -> Answer) -> Answer {
    outcome.map_or_else(refused, of)
}

pub fn of_pair(pair: Pair) -> Answer {
    Answer {
        end: pair.end,
        late: pair.late,
        ..Answer::default()
    }
}

pub const PROFILES: [Profile; 2] = [Profile::OrderingRule, Profile::FirstCome];

/// Which case of which test is running, for the report of a failure; the profile it calls, and the
/// opening minutes that the calls are told.
#[derive(Clone, Copy, Debug)]
pub struct Case {
    pub profile: Profile,
    pub opening: u32,
    pub seed: u64,
    pub test: &'static str,
    pub case: u64,
}

impl Case {
    pub fn new(test: &'static str, case: u64) -> Self {
        Case::of(Profile::OrderingRule, test, case)
    }

    /// With opening minutes by chance, now and then such that are refused.
    pub fn of(profile: Profile, test: &'static str, case: u64) -> Self {
        let seed = books::seed();
        let opening = books::opening(&mut Rng::for_case(!seed, test, case), 12);
        Case {
            profile,
            opening,
            seed,
            test,
            case,
        }
    }

    /// The same case with other opening minutes.
    pub fn with_opening(self, opening: u32) -> Self {
        Case { opening, ..self }
    }

    /// The same case with opening minutes that are accepted.
    pub fn accepted(self) -> Self {
        self.with_opening(self.accepted_opening())
    }

    /// The opening minutes for a maker of days, if need be other ones that are accepted.
    pub fn accepted_opening(&self) -> u32 {
        match self.opening {
            0..=MAX_OPENING => self.opening,
            _ => OPENINGS[self.case as usize % OPENINGS.len()],
        }
    }

    /// An accepted day of the profile.
    pub fn day(&self, rng: &mut Rng, rows: usize) -> Draft {
        match self.profile {
            Profile::OrderingRule => books::accepted(rng, self.accepted_opening(), rows),
            Profile::FirstCome => books::first_come(rng, rows),
        }
    }

    /// A day of which two rows disagree, or cross.
    pub fn clashing_day(&self, rng: &mut Rng, rows: usize) -> Draft {
        match self.profile {
            Profile::OrderingRule => books::disagreeing(rng, rows),
            Profile::FirstCome => books::crossing(rng, rows),
        }
    }

    /// The plans that the archive lists.
    pub fn plans(&self, book: &[u32]) -> Result<Vec<Pair>, Refusal> {
        fault::watch(*self, book);
        match self.profile {
            Profile::OrderingRule => linked::plans(self.opening, book),
            Profile::FirstCome => linked::first_come::plans(self.opening, book),
        }
    }

    /// The end and the worst lateness of a posting, as the archive's verdict tells them.
    pub fn posted(&self, book: &[u32], posting: &[u32]) -> Pair {
        fault::watch(*self, book);
        let told = match self.profile {
            Profile::OrderingRule => linked::verdict(self.opening, book, posting),
            Profile::FirstCome => linked::first_come::verdict(self.opening, book, posting),
        };
        told.expect("a posting").0
    }

    /// The book as the model reads it.
    pub fn read(&self, book: &[u32]) -> Result<Day, Refusal> {
        Day::read_as(self.profile, self.opening, book)
    }

    pub fn rng(&self) -> Rng {
        Rng::for_case(self.seed, self.test, self.case)
    }
}

/// The book with another free word.
pub fn with_free(book: &[u32], free: u32) -> Vec<u32> {
    [&[word(1, free)], &book[1..]].concat()
}

/// The book as kinds and values.
pub fn spelled(book: &[u32]) -> String {
    let words: Vec<String> = book
        .iter()
        .map(|word| format!("{}:{}", word >> 29, word & 0x1fff_ffff))
        .collect();
    format!(
        "{} words [{}]\n  as words {book:?}",
        book.len(),
        words.join(" ")
    )
}

/// Prints a case whole and fails.
pub fn fail(case: Case, book: &[u32], call: &dyn std::fmt::Debug, what: &str) -> ! {
    panic!(
        "DIFFERENCE\n  JELVAKSNA_SEED={:#x}, test '{}', case {}\n  book {}\n  call {call:?}, {:?}, opening {}\n{what}",
        case.seed,
        case.test,
        case.case,
        spelled(book),
        case.profile,
        case.opening
    );
}

/// The guard words around a result buffer, and what the buffer holds before the call.
const MARGIN: usize = 9;

pub fn filled(len: usize) -> Vec<u32> {
    (0..len as u32)
        .map(|i| 0xC3A5_0000 ^ i.wrapping_mul(0x9E37))
        .collect()
}

/// One call on the archive and on the model: the same answer, the same result words, and not a word
/// beside the result buffer changed.
pub fn compare(case: Case, book: &[u32], day: &Result<Day, Refusal>, call: &Call) {
    fault::watch(case, book);
    let within = MARGIN..MARGIN + call.len();
    let mut want_words = filled(call.len() + 2 * MARGIN);
    let mut have_words = want_words.clone();
    let want = call.of_model(case, book, day, &mut want_words[within.clone()]);
    let have = call.of_archive(case, book, call.posting(), &mut have_words[within]);
    settle(case, book, call, (want, &want_words), (have, &have_words));
}

fn settle(case: Case, book: &[u32], call: &Call, want: (Answer, &[u32]), have: (Answer, &[u32])) {
    if want.0 != have.0 {
        let what = format!("  model   {:?}\n  archive {:?}", want.0, have.0);
        fail(case, book, call, &what);
    }
    if want.1 != have.1 {
        let at = (0..want.1.len()).find(|&i| want.1[i] != have.1[i]);
        let what = format!(
            "  both answer {:?}\n  words differ at {} of the result (negative: before it)\n  model   {:?}\n  archive {:?}",
            want.0,
            at.unwrap() as i64 - MARGIN as i64,
            want.1,
            have.1
        );
        fail(case, book, call, &what);
    }
}

/// The same with every lent buffer against a page that cannot be touched: at its end, then at its
/// start. Book and posting cannot be written either.
pub fn compare_fenced(
    case: Case,
    book: &[u32],
    day: &Result<Day, Refusal>,
    call: &Call,
    fences: &mut fence::Fences,
) {
    fault::watch(case, book);
    let mut want_words = filled(call.len());
    let want = call.of_model(case, book, day, &mut want_words);
    for side in [fence::Side::End, fence::Side::Start] {
        let fresh = filled(call.len());
        let lent = call.posting();
        let (have, have_words, spilt) = fences.lend(side, book, lent, &fresh, |b, p, r| {
            call.of_archive(case, b, p, r)
        });
        settle(case, book, call, (want, &want_words), (have, &have_words));
        if spilt {
            fail(case, book, call, "  a word beside the result was changed");
        }
    }
}

/// How many calls to make on a book.
#[derive(Clone, Copy, PartialEq, Eq)]
pub enum Effort {
    Few,
    All,
}

/// What the accepted books of a test are like.
#[derive(Default)]
pub struct Accepted {
    books: u64,
    /// Of more than one row.
    several: u64,
    pub classed: u64,
    /// With a reading time of an exact half over whole minutes.
    halves: u64,
    pub unsorted: u64,
    /// With opening minutes.
    opened: u64,
}

impl Accepted {
    pub fn count(&mut self, book: &[u32], day: &Day) {
        self.books += 1;
        self.several += u64::from(day.rows.len() > 1);
        self.classed += u64::from(day.has_classes());
        self.halves += u64::from(books::has_half(book));
        self.unsorted += u64::from(!day.is_sorted());
        self.opened += u64::from(day.opening > 0);
    }

    /// If there are more than a few, a good part has class rows, a good part unsorted rows, and some
    /// have exact halves.
    pub fn check(&self, test: &str) {
        assert!(self.books < 20 || self.classed > self.books / 6, "{test}");
        assert!(self.books < 200 || self.halves > self.books / 60, "{test}");
        let enough = self.several < 20 || self.unsorted > self.several / 6;
        assert!(enough, "{test}");
    }
}

impl std::fmt::Display for Accepted {
    fn fmt(&self, f: &mut std::fmt::Formatter) -> std::fmt::Result {
        let Accepted {
            books,
            several,
            classed,
            halves,
            unsorted,
            opened,
        } = self;
        write!(
            f,
            "{books} accepted, {several} of several rows, {classed} with class rows, \
             {halves} with exact halves, {unsorted} unsorted, {opened} with opening minutes"
        )
    }
}

/// Makes books and hands each call of the profile that suits them to `compare`.
pub fn each_call(
    profile: Profile,
    test: &'static str,
    count: u64,
    effort: Effort,
    mut make: impl FnMut(&mut Rng, Case) -> Vec<u32>,
    mut compare: impl FnMut(Case, &[u32], &Result<Day, Refusal>, &Call),
) {
    let (mut made, mut plans, mut accepted) = (0, 0, Accepted::default());
    let mut unopened = 0;
    for i in 0..count {
        let case = Case::of(profile, test, i);
        unopened += u64::from(case.opening > MAX_OPENING);
        let mut rng = case.rng();
        let book = make(&mut rng, case);
        let day = case.read(&book);
        for call in calls(&mut rng, &day, effort) {
            compare(case, &book, &day, &call);
            made += 1;
        }
        if let Ok(day) = &day {
            accepted.count(&book, day);
            plans = plans.max(day.list().len());
        }
    }
    let seed = books::seed();
    println!(
        "{test}: seed {seed:#x}, {count} books, {accepted}, at most {plans} plans, \
         {unopened} refused for the opening, {made} calls"
    );
    accepted.check(test);
    assert!(accepted.books < 100 || accepted.opened > accepted.books / 2);
    assert!(count < 200 || unopened > count / 30);
}

/// Calls that suit a book: buffers that fit, that are one too short, longer or empty, bounds around
/// the plans' latenesses, plans and rows that are there or not, postings good and bad.
pub fn calls(rng: &mut Rng, day: &Result<Day, Refusal>, effort: Effort) -> Vec<Call> {
    let Ok(day) = day else {
        return calls_on_a_refused_book(rng);
    };
    let rows = day.rows.len();
    let plans = day.list();
    let all = effort == Effort::All;
    let mut calls = Vec::new();

    let list_lens = [
        2 * rows,
        2 * rows - 1,
        2 * rows + 1,
        0,
        2 * rows + 40,
        rows,
        1,
    ];
    for &len in &list_lens[..if all { 7 } else { 3 }] {
        calls.push(Call::List { len });
    }

    let some_len = |rng: &mut Rng| match rng.below(6) {
        0 => rows - 1,
        1 => rows + 1,
        2 => rng.pick(&[0, 1, 2 * rows, rows + 33]),
        _ => rows,
    };
    let mut bounds = vec![i32::MAX, i32::MIN];
    for _ in 0..if all { 6.min(plans.len()) } else { 1 } {
        let late = plans[rng.below(plans.len())].late;
        bounds.extend([late - 1, late, late + 1]);
    }
    if all {
        let last = plans[plans.len() - 1].late;
        bounds.extend([
            plans[0].late,
            last,
            last - 1,
            -1,
            0,
            1,
            i32::MIN + 1,
            i32::MAX - 1,
        ]);
        bounds.push(rng.next() as i32);
        bounds.push((rng.next() as i32) >> rng.below(32));
    }
    for bound in bounds {
        let len = some_len(rng);
        calls.push(Call::OrderForBound { bound, len });
    }
    for len in [rows - 1, 0] {
        // Narrow comes before unkept.
        let bound = i32::MIN;
        calls.push(Call::OrderForBound { bound, len });
    }

    let mut asked = vec![1, plans.len() as u32 + 1];
    if all {
        asked.extend([0, plans.len() as u32, u32::MAX, 257, 1 << 31]);
        asked.extend([rng.next() as u32, 1 + rng.below(plans.len()) as u32]);
    }
    for plan in asked {
        let len = some_len(rng);
        calls.push(Call::OrderOfPlan { plan, len });
    }
    // Unlisted comes before narrow.
    calls.push(Call::OrderOfPlan { plan: 0, len: 0 });

    for posting in postings(rng, day, all) {
        calls.push(Call::Verdict { posting });
    }

    let rows = rows as u32;
    for row in [
        1,
        rows,
        rows + 1,
        0,
        u32::MAX,
        1 << 30,
        1 + rng.below(rows as usize) as u32,
    ] {
        calls.push(Call::RowPlace { row });
    }
    calls
}

fn postings(rng: &mut Rng, day: &Day, all: bool) -> Vec<Vec<u32>> {
    let rows = day.rows.len();
    let plans = day.list().len();
    let plain: Vec<u32> = (1..=rows as u32).collect();
    let mut random = plain.clone();
    rng.shuffle(&mut random);
    let planned = day.order_of_plan(1 + rng.below(plans)).1;
    let mut postings = vec![random.clone(), planned.clone()];
    let mut near = planned.clone();
    let at = rng.below(rows);
    near.swap(at, (at + 1) % rows);
    postings.push(near);
    if all {
        postings.push(plain.clone());
        postings.push(plain.iter().rev().copied().collect());
        postings.push(day.order_of_plan(1).1);
        postings.push(day.order_of_plan(plans).1);
    }
    // Not postings.
    postings.push(random[1..].to_vec());
    postings.push([&random[..], &[1]].concat());
    postings.push(Vec::new());
    // The length is tested before the entries.
    postings.push([&[0], &random[..]].concat());
    postings.push(vec![0; rows - 1]);
    for wrong in [0, rows as u32 + 1, u32::MAX, random[rng.below(rows)]] {
        let mut posting = random.clone();
        posting[rng.below(rows)] = wrong;
        postings.push(posting);
    }
    if all {
        postings.push([&random[..], &random[..]].concat());
        let any = |_| rng.below(rows + 2) as u32;
        postings.push((0..rows).map(any).collect());
    }
    postings
}

fn calls_on_a_refused_book(rng: &mut Rng) -> Vec<Call> {
    let mut calls = Vec::new();
    for len in [0, 512] {
        calls.push(Call::List { len });
    }
    let (bound, plan) = (rng.next() as i32, rng.below(4) as u32);
    let len = rng.pick(&[0, 1, 8, 256]);
    calls.push(Call::OrderForBound { bound, len });
    calls.push(Call::OrderOfPlan { plan, len });
    let posting = (1..=rng.below(5) as u32).collect();
    calls.push(Call::Verdict { posting });
    let row = rng.below(4) as u32;
    calls.push(Call::RowPlace { row });
    calls
}
