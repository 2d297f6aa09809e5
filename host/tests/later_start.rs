//! A later start in the archive: of one book and two free minutes, each plan of the later list is met by
//! one of the earlier list with both numbers no greater, and each plan of the earlier list by one of the
//! later list with both at most the difference larger. Books that differ in the free word alone are
//! accepted or refused alike. A posting's pair moves by no more than the difference, nor does the list of
//! an open desk whose next row is started later.

mod common;

use common::{fail, fault, with_free, Case, PROFILES};
use jelvaksna::books::{self, Draft, Rng};
use jelvaksna::desk_model::Desk;
use jelvaksna::linked::desk;
use jelvaksna::{refusal, Pair, Refusal, DESK_WORDS, MAX_FREE};

/// The plans that the archive lists from a free minute.
fn plans(case: Case, book: &[u32], free: u32) -> Result<Vec<Pair>, Refusal> {
    case.plans(&with_free(book, free))
}

/// Both numbers of the second pair are at most so many minutes larger.
fn within(minutes: u32, pair: Pair, other: Pair) -> bool {
    let minutes = i64::from(minutes);
    i64::from(other.end) <= i64::from(pair.end) + minutes
        && i64::from(other.late) <= i64::from(pair.late) + minutes
}

/// Each plan of the first list is met by one of the second within so many minutes.
fn met(minutes: u32, plans: &[Pair], others: &[Pair]) -> bool {
    let meets = |&plan: &Pair| others.iter().any(|&other| within(minutes, plan, other));
    plans.iter().all(meets)
}

/// What was seen of lists from two minutes.
#[derive(Default, Debug)]
struct Seen {
    pairs: u64,
    several: u64,
    /// The same list from both minutes.
    unmoved: u64,
    /// Lists of more, and of fewer plans from the later minute.
    more: u64,
    fewer: u64,
    /// A difference that cannot be a minute smaller, and one that is not felt whole.
    whole: u64,
    part: u64,
}

impl Seen {
    /// Both facts, and the first and the last plan, of two lists.
    fn lists(&mut self, case: Case, book: &[u32], from: [(u32, &[Pair]); 2]) {
        let [(free, earlier), (later, after)] = from;
        let minutes = later - free;
        let says = |what: &str| {
            let what = format!("  {what}\n  from {free}: {earlier:?}\n  from {later}: {after:?}");
            fail(case, book, &(free, later), &what);
        };
        if !met(0, after, earlier) {
            says("a plan of the later list is not met by the earlier list");
        }
        if !met(minutes, earlier, after) {
            says("a plan of the earlier list is not met by the later list");
        }
        let between = |a: i64, b: i64| a <= b && b <= a + i64::from(minutes);
        let (first, last) = (|l: &[Pair]| l[0].end, |l: &[Pair]| l[l.len() - 1].late);
        if !between(first(earlier).into(), first(after).into()) {
            says("the soonest end");
        }
        if !between(last(earlier).into(), last(after).into()) {
            says("the least lateness");
        }
        self.pairs += 1;
        self.several += u64::from(earlier.len() > 1 || after.len() > 1);
        self.unmoved += u64::from(earlier == after);
        self.more += u64::from(after.len() > earlier.len());
        self.fewer += u64::from(after.len() < earlier.len());
        match met(minutes - 1, earlier, after) {
            false => self.whole += 1,
            true => self.part += 1,
        }
    }

    /// Every two of the lists, each from its minute; the minutes rise.
    fn each_two(&mut self, case: Case, book: &[u32], lists: Vec<(u32, Vec<Pair>)>) {
        for (at, (later, after)) in lists.iter().enumerate() {
            for (minute, earlier) in &lists[..at] {
                self.lists(case, book, [(*minute, earlier), (*later, after)]);
            }
        }
    }
}

/// Free minutes that tell: both ends of their range, the day's own, releases and dues and what lies beside
/// them, ends of the plans, and minutes by chance, near and far.
fn free_minutes(rng: &mut Rng, draft: &Draft, plans: &[Pair]) -> Vec<u32> {
    let mut minutes = vec![0, i64::from(MAX_FREE), draft.free];
    for _ in 0..4 {
        let row = draft.rows[rng.below(draft.rows.len())];
        let beside = rng.range(-2, 2);
        minutes.extend([row.release + beside, row.due + beside]);
        let plan = plans[rng.below(plans.len())];
        minutes.push(i64::from(plan.end) - rng.range(0, 40));
        minutes.push(draft.free + (1 << rng.below(12)));
    }
    minutes.push(rng.range(0, MAX_FREE.into()));
    minutes.retain(|minute| (0..=MAX_FREE.into()).contains(minute));
    minutes.sort_unstable();
    minutes.dedup();
    minutes.into_iter().map(|minute| minute as u32).collect()
}

/// Thousands of days of 1 to 256 rows, each from some 15 free minutes, every two of which are compared.
#[test]
fn lists_from_two_minutes() {
    let test = "lists from two minutes";
    let mut seen = Seen::default();
    for (i, profile) in (0..5_000 * books::times()).flat_map(|i| PROFILES.map(|p| (i, p))) {
        let case = Case::of(profile, test, i).accepted();
        let mut rng = case.rng();
        let rows = books::some_rows(&mut rng, 256);
        let draft = case.day(&mut rng, rows);
        let book = draft.words();
        let own = plans(case, &book, draft.free as u32).expect("accepted");
        let list = |free: u32| (free, plans(case, &book, free).expect("accepted"));
        let minutes = free_minutes(&mut rng, &draft, &own);
        seen.each_two(case, &book, minutes.into_iter().map(list).collect());
    }
    println!("{test}: {seen:?}");
    assert!(seen.pairs > 100_000 && seen.several > seen.pairs / 20);
    assert!(seen.unmoved > 1_000 && seen.more > 100 && seen.fewer > 1_000);
    assert!(seen.whole > 10_000 && seen.part > 10_000);
}

/// Small days of several plans from every minute of a morning, so that every difference comes, minute by
/// minute.
#[test]
fn every_minute_of_a_morning() {
    let test = "every minute of a morning";
    let mut seen = Seen::default();
    for i in 0..1_000 * books::times() {
        let case = Case::new(test, i).accepted();
        let mut rng = case.rng();
        let rows = 3 + rng.below(10);
        let draft = match rng.one_in(2) {
            true => books::contests(&mut rng, case.opening, rows),
            false => books::several_plans(&mut rng, case.opening, rows),
        };
        let book = draft.words();
        let begins = (draft.free as u32).saturating_sub(20);
        let list = |free: u32| (free, plans(case, &book, free).expect("accepted"));
        seen.each_two(case, &book, (begins..begins + 80).map(list).collect());
    }
    println!("{test}: {seen:?}");
    assert!(seen.several > 10_000 && seen.more > 1_000 && seen.fewer > 1_000);
    assert!(seen.unmoved > 1_000 && seen.whole > 1_000 && seen.part > 1_000);
}

/// With a free word in range a book is accepted, or refused with the same number and place, whatever the
/// minute: sound books, books whose rows clash, damaged ones. Past the range it is refused 3 at 0.
#[test]
fn accepted_or_refused_alike() {
    let test = "accepted or refused alike";
    let (mut taken, mut turned) = (0, [0; 14]);
    for (i, profile) in (0..3_000 * books::times()).flat_map(|i| PROFILES.map(|p| (i, p))) {
        let case = Case::of(profile, test, i).accepted();
        let mut rng = case.rng();
        let rows = 2 + rng.below(12);
        let draft = match i % 4 {
            0 => case.clashing_day(&mut rng, rows),
            _ => case.day(&mut rng, rows),
        };
        let mut book = draft.words();
        if i % 4 > 1 {
            book = books::damaged(&mut rng, &book);
        }
        if book.is_empty() {
            continue;
        }
        let refusal = plans(case, &book, 0).err();
        let any = rng.range(0, MAX_FREE.into()) as u32;
        for free in [1, 60, any, MAX_FREE - 1, MAX_FREE] {
            let other = plans(case, &book, free).err();
            if other != refusal {
                let what = format!("  from 0 {refusal:?}\n  from {free} {other:?}");
                fail(case, &book, &free, &what);
            }
        }
        for free in [MAX_FREE + 1, MAX_FREE + 2, (1 << 29) - 1] {
            let (number, place) = (refusal::RANGE, 0);
            assert_eq!(plans(case, &book, free), Err(Refusal { number, place }));
        }
        match refusal {
            None => taken += 1,
            Some(Refusal { number, .. }) => turned[number as usize] += 1,
        }
    }
    println!("{test}: {taken} accepted, refused by number {turned:?}");
    assert!(taken > 1_000 && [1, 2, 3, 4, 6, 7, 8, 13].iter().all(|&n| turned[n] > 20));
}

/// A posting that is kept as it was posted: from a later minute it ends no sooner and is no less late, and
/// both numbers are at most the difference larger.
#[test]
fn a_posting_from_two_minutes() {
    let test = "a posting from two minutes";
    let (mut postings, mut moved) = (0, 0);
    for (i, profile) in (0..4_000 * books::times()).flat_map(|i| PROFILES.map(|p| (i, p))) {
        let case = Case::of(profile, test, i).accepted();
        let mut rng = case.rng();
        let rows = books::some_rows(&mut rng, 256);
        let draft = case.day(&mut rng, rows);
        let book = draft.words();
        let mut posting: Vec<u32> = (1..=rows as u32).collect();
        rng.shuffle(&mut posting);
        let pair = |free: u32| case.posted(&with_free(&book, free), &posting);
        let own = plans(case, &book, draft.free as u32).expect("accepted");
        let minutes = free_minutes(&mut rng, &draft, &own);
        for two in minutes.windows(2) {
            let (earlier, later) = (pair(two[0]), pair(two[1]));
            let difference = two[1] - two[0];
            if !within(0, later, earlier) || !within(difference, earlier, later) {
                let what = format!("  from {two:?}: {earlier:?}, {later:?}");
                fail(case, &book, &posting, &what);
            }
            postings += 1;
            moved += u64::from(earlier != later);
        }
    }
    println!("{test}: {postings} postings, {moved} moved");
    assert!(moved > postings / 10 && moved < postings);
}

/// On an open desk: the next row started at two minutes; the lists of the rest.
#[test]
fn the_next_row_at_two_minutes() {
    let test = "the next row at two minutes";
    let mut seen = Seen::default();
    for i in 0..1_500 * books::times() {
        let case = Case::new(test, i).accepted();
        let mut rng = case.rng();
        let rows = 2 + rng.below(12);
        let draft = case.day(&mut rng, rows);
        let book = draft.words();
        fault::watch(case, &book);
        let mut model = Desk::open(case.opening, &book).expect("accepted");
        let mut words = [0; DESK_WORDS];
        desk::open(case.opening, &book, &mut words).expect("accepted");
        while model.left.len() > 1 {
            let row = rng.pick(&model.left);
            let ready = model.minute.max(model.row(row).release) as u32;
            let started = |minute: u32| {
                let mut words = words;
                desk::start(&mut words, row, minute).expect("a start");
                desk::plans(&words).expect("a list")
            };
            let minutes = [0, 1, 7, 60, 1_000].map(|minutes| ready + minutes);
            let lists = minutes.map(|minute| (minute, started(minute)));
            seen.each_two(case, &book, lists.to_vec());
            model.start(row, ready).expect("a start");
            desk::start(&mut words, row, ready).expect("a start");
        }
    }
    println!("{test}: {seen:?}");
    assert!(seen.several > 1_000 && seen.unmoved > 100 && seen.whole > 1_000);
}

/// The numbers that docs/AUDIT.md shows.
#[test]
fn the_example_of_the_audit() {
    let four = [
        (901, 1, 1, 5),
        (902, 0, 10, 12),
        (903, 101, 1, 104),
        (904, 100, 20, 122),
    ];
    let two = [(901, 0, 5, 9), (902, 2, 1, 7)];
    let case = Case::new("the example of the audit", 0).with_opening(0);
    let lists = |rows: &[(u32, i64, i64, i64)], free: u32| -> Vec<(u32, i32)> {
        let plans = plans(case, &Draft::of(0, 60, rows).words(), free).expect("accepted");
        plans.iter().map(|plan| (plan.end, plan.late)).collect()
    };
    assert_eq!(lists(&four, 0), [(121, 17), (122, 0)]);
    assert_eq!(lists(&four, 1), [(121, 17), (122, 0)]);
    assert_eq!(lists(&four, 5), [(121, 17), (122, 4)]);
    assert_eq!(lists(&four, 50), [(121, 49)]);
    assert_eq!(lists(&two, 0), [(6, -1)]);
    assert_eq!(lists(&two, 1), [(7, 0), (8, -1)]);
    assert_eq!(lists(&two, 2), [(8, -1)]);
}
