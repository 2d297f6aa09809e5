//! A second opinion: document 01 with the classes of request L1, the rows as they arrive of
//! request L2, the nearest minute of request L3, the profile of request L5 and the opening minutes of
//! request L7 as a plain program, written from these papers and from nothing else.
//!
//! It keeps their sequence of tests and their words (desk, picks, run, blocks), calculates in
//! 64 bits, and looks for nothing faster than plain scans.

use crate::refusal::*;
use crate::{Pair, Profile, Refusal, MAX_OPENING};
use std::cell::OnceCell;
use std::fmt::Write;

pub const MAX_ROWS: usize = 256;
/// `slate` looks at no more words than these.
pub const SLATE_WORDS: usize = 1028;
/// The minutes that each class, from 0, leaves a row beyond its release and length.
pub const MARGINS: [i64; 8] = [60, 120, 480, 1_440, 4_320, 10_080, 20_160, 43_200];

/// In place of a due word only.
const KIND_CLASS: u32 = 0;
const KIND_FREE: u32 = 1;
const KIND_PACE: u32 = 2;
const KIND_NUMBER: u32 = 3;
const KIND_RELEASE: u32 = 4;
const KIND_PAGES: u32 = 5;
const KIND_DUE: u32 = 6;
const KIND_END: u32 = 7;

/// One record of the table.
#[derive(Clone, Copy, Debug, PartialEq, Eq)]
pub struct Row {
    pub number: u32,
    pub release: i64,
    pub pages: i64,
    pub length: i64,
    /// As written, or worked out from the class.
    pub due: i64,
    pub class: Option<u32>,
}

impl Row {
    /// Release plus length.
    pub fn reach(&self) -> i64 {
        self.release + self.length
    }

    fn spare(&self) -> i64 {
        self.due - self.reach()
    }

    /// One of the two has the smaller due and also the smaller spare.
    pub(crate) fn disagrees(&self, other: &Row) -> bool {
        let less = |a: &Row, b: &Row| a.due < b.due && a.spare() < b.spare();
        less(self, other) || less(other, self)
    }

    /// One of the two has the smaller release and also the larger due.
    fn crosses(&self, other: &Row) -> bool {
        let around = |a: &Row, b: &Row| a.release < b.release && a.due > b.due;
        around(self, other) || around(other, self)
    }
}

/// An accepted book: the desk's free minute and the table; and the minutes that each row takes to open.
#[derive(Clone, Debug)]
pub struct Day {
    profile: Profile,
    pub opening: i64,
    pub free: i64,
    pub rows: Vec<Row>,
    listed: OnceCell<Vec<Pair>>,
}

pub(crate) fn refuse<T>(number: u32, place: usize) -> Result<T, Refusal> {
    Err(Refusal { number, place })
}

fn kind(word: u32) -> u32 {
    word >> 29
}

fn value(word: u32) -> u32 {
    word & 0x1fff_ffff
}

// ---- Reading: refusals 1 to 8 and 13 ----

/// The value of the word at `place`, where a word of this kind and range is due.
fn due_word(book: &[u32], place: usize, due: u32, from: u32, to: u32) -> Result<i64, Refusal> {
    let Some(&word) = book.get(place) else {
        return refuse(CUT, book.len());
    };
    if kind(word) != due {
        return refuse(KIND, place);
    }
    if value(word) < from || value(word) > to {
        return refuse(RANGE, place);
    }
    Ok(value(word) as i64)
}

/// Refuses the earliest row that is at odds with any row above it.
fn pair_test(
    rows: &[Row],
    number: u32,
    at_odds: impl Fn(&Row, &Row) -> bool,
) -> Result<(), Refusal> {
    for (i, row) in rows.iter().enumerate() {
        if rows[..i].iter().any(|above| at_odds(row, above)) {
            return refuse(number, place_of_row(i + 1));
        }
    }
    Ok(())
}

impl Day {
    /// The desk's free minute and the rows, or which of the conditions 1 to 7 turns the book down.
    fn table(book: &[u32]) -> Result<(i64, Vec<Row>), Refusal> {
        let free = due_word(book, 0, KIND_FREE, 0, 10_000_000)?;
        let pace = due_word(book, 1, KIND_PACE, 4, 120)?;
        let mut rows: Vec<Row> = Vec::new();
        let mut place = 2;
        loop {
            let Some(&word) = book.get(place) else {
                return refuse(CUT, book.len());
            };
            let after_a_row = !rows.is_empty();
            if kind(word) == KIND_END && after_a_row {
                if value(word) as usize != rows.len() {
                    return refuse(COUNT, place);
                }
                break;
            }
            if kind(word) != KIND_NUMBER {
                return refuse(KIND, place);
            }
            if rows.len() == MAX_ROWS {
                return refuse(FULL, place);
            }
            let number = value(word);
            if rows.iter().any(|row| row.number == number) {
                return refuse(TWICE, place);
            }
            let release = due_word(book, place + 1, KIND_RELEASE, 0, 10_000_000)?;
            let pages = due_word(book, place + 2, KIND_PAGES, 1, 2_000)?;
            let length = length(pages, pace);
            let last_kind = book.get(place + 3).map(|&word| kind(word));
            let (due, class) = if last_kind == Some(KIND_CLASS) {
                let class = due_word(book, place + 3, KIND_CLASS, 0, 7)?;
                let margin = MARGINS[class as usize];
                (release + length + margin, Some(class as u32))
            } else {
                let due = due_word(book, place + 3, KIND_DUE, 0, 20_000_000)?;
                (due, None)
            };
            rows.push(Row {
                number,
                release,
                pages,
                length,
                due,
                class,
            });
            place += 4;
        }
        if place + 1 < book.len() {
            return refuse(TAIL, place + 1);
        }
        Ok((free, rows))
    }

    /// Reads a book, or says which of the conditions 1 to 8 turns it down.
    pub fn read(opening: u32, book: &[u32]) -> Result<Day, Refusal> {
        Day::read_as(Profile::OrderingRule, opening, book)
    }

    /// Reads a book by the rule of a profile. The opening is looked at before the book.
    pub fn read_as(profile: Profile, opening: u32, book: &[u32]) -> Result<Day, Refusal> {
        if opening > MAX_OPENING {
            return refuse(RANGE, 0);
        }
        let (free, rows) = Day::table(book)?;
        match profile {
            Profile::OrderingRule => pair_test(&rows, DISORDER, Row::disagrees)?,
            Profile::FirstCome => pair_test(&rows, CROSSED, Row::crosses)?,
        }
        Ok(Day::of(profile, opening.into(), free, rows))
    }

    fn of(profile: Profile, opening: i64, free: i64, rows: Vec<Row>) -> Day {
        Day {
            profile,
            opening,
            free,
            rows,
            listed: OnceCell::new(),
        }
    }

    /// Rows of an accepted book, from any minute on.
    pub fn of_rows(opening: i64, free: i64, rows: Vec<Row>) -> Day {
        Day::of(Profile::OrderingRule, opening, free, rows)
    }

    /// Whether any row has a class.
    pub fn has_classes(&self) -> bool {
        self.rows.iter().any(|row| row.class.is_some())
    }

    /// Whether the rows stand by rising due, and by rising release plus length at one due; in the
    /// profile by rising release, and by rising due at one release.
    pub fn is_sorted(&self) -> bool {
        self.rows.is_sorted_by_key(|row| match self.profile {
            Profile::OrderingRule => (row.due, row.reach()),
            Profile::FirstCome => (row.release, row.due),
        })
    }
}

/// The reading time, pages times 60 divided by pace, to the nearest minute, an exact half going up.
pub fn length(pages: i64, pace: i64) -> i64 {
    let whole = pages * 60 / pace;
    let over = pages * 60 % pace;
    if 2 * over < pace {
        whole
    } else {
        whole + 1
    }
}

/// Where the number word of a row stands, rows counted from 1.
pub(crate) fn place_of_row(row: usize) -> usize {
    2 + 4 * (row - 1)
}

// ---- The desk ----

/// A desk at work: what is done, what is left, and the worst lateness so far.
#[derive(Clone)]
struct Desk<'d> {
    opening: i64,
    rows: &'d [Row],
    minute: i64,
    /// Indices of the rows left over, rising.
    left: Vec<usize>,
    /// Indices of the rows done, in their order.
    done: Vec<usize>,
    worst: Option<i64>,
}

impl<'d> Desk<'d> {
    fn new(day: &'d Day) -> Self {
        Desk {
            opening: day.opening,
            rows: &day.rows,
            minute: day.free,
            left: (0..day.rows.len()).collect(),
            done: Vec::new(),
            worst: None,
        }
    }

    /// When a row left over can start.
    fn ready(&self, row: usize) -> i64 {
        self.minute.max(self.rows[row].release)
    }

    /// What the picks go by: ready minute, then due, then release plus length, then row.
    fn rank(&self, row: usize) -> (i64, i64, i64, usize) {
        let (due, reach) = (self.rows[row].due, self.rows[row].reach());
        (self.ready(row), due, reach, row)
    }

    /// The first pick, and the second if more than one row is left.
    fn picks(&self) -> (usize, Option<usize>) {
        let mut first = self.rank(self.left[0]);
        let mut second = None;
        for &row in &self.left[1..] {
            let rank = self.rank(row);
            if rank < first {
                second = Some(first);
                first = rank;
            } else if second.is_none_or(|second| rank < second) {
                second = Some(rank);
            }
        }
        (first.3, second.map(|rank| rank.3))
    }

    /// Does a row next, which takes opening plus length; its lateness.
    fn take(&mut self, row: usize) -> i64 {
        self.minute = self.ready(row) + self.opening + self.rows[row].length;
        self.left.retain(|&other| other != row);
        self.done.push(row);
        let late = self.minute - self.rows[row].due;
        self.worst = Some(self.worst.map_or(late, |worst| worst.max(late)));
        late
    }

    /// Takes first picks as long as the desk is decided. False at the first lateness above the bound.
    fn run(&mut self, bound: i64) -> bool {
        while !self.left.is_empty() {
            let (first, second) = self.picks();
            if second.is_some_and(|second| self.rows[first].due > self.rows[second].due) {
                break;
            }
            if self.take(first) > bound {
                return false;
            }
        }
        true
    }

    /// The desk after this pick and the run from there, if all of that block keeps the bound.
    fn block(&self, pick: usize, bound: i64) -> Option<Desk<'d>> {
        let mut desk = self.clone();
        (desk.take(pick) <= bound && desk.run(bound)).then_some(desk)
    }

    fn pair(&self) -> Pair {
        Pair {
            end: u32::try_from(self.minute).unwrap(),
            late: i32::try_from(self.worst.expect("a row is done")).unwrap(),
        }
    }

    /// The rows done, counted from 1.
    fn order(&self) -> Vec<u32> {
        self.done.iter().map(|&row| row as u32 + 1).collect()
    }
}

// ---- The order for a bound, the list, the verdict ----

impl Day {
    fn desk_for_bound(&self, bound: i32) -> Option<Desk<'_>> {
        match self.profile {
            Profile::OrderingRule => self.desk_by_blocks(bound.into()),
            Profile::FirstCome => Some(self.desk_first_come()).filter(|d| d.pair().late <= bound),
        }
    }

    /// The one plan of the profile: by release, then due, then row.
    fn desk_first_come(&self) -> Desk<'_> {
        let mut desk = Desk::new(self);
        let mut order = desk.left.clone();
        order.sort_by_key(|&row| (self.rows[row].release, self.rows[row].due, row));
        for row in order {
            desk.take(row);
        }
        desk
    }

    fn desk_by_blocks(&self, bound: i64) -> Option<Desk<'_>> {
        let mut desk = Desk::new(self);
        if !desk.run(bound) {
            return None;
        }
        while !desk.left.is_empty() {
            let (first, second) = desk.picks();
            desk = match desk.block(first, bound) {
                Some(after) => after,
                None => desk.block(second?, bound)?,
            };
        }
        Some(desk)
    }

    /// The order for a bound with its pair, or nothing where the bound is unkept.
    pub fn order_for_bound(&self, bound: i32) -> Option<(Pair, Vec<u32>)> {
        self.desk_for_bound(bound)
            .map(|desk| (desk.pair(), desk.order()))
    }

    /// The listed plans, found by ever smaller bounds.
    pub fn list(&self) -> &[Pair] {
        self.listed.get_or_init(|| {
            let mut plans: Vec<Pair> = Vec::new();
            let mut bound = i32::MAX;
            while let Some(desk) = self.desk_for_bound(bound) {
                let pair = desk.pair();
                // A smaller lateness at no later end beats the plan before.
                if plans.last().is_some_and(|before| pair.beats(*before)) {
                    plans.pop();
                }
                plans.push(pair);
                bound = pair.late - 1;
            }
            plans
        })
    }

    /// The order of a listed plan, counted from 1: the order for its lateness as bound.
    pub fn order_of_plan(&self, plan: usize) -> (Pair, Vec<u32>) {
        self.order_for_bound(self.list()[plan - 1].late)
            .expect("an order keeps a listed lateness")
    }

    /// The pair of an order of all rows, counted from 1.
    pub fn pair_of(&self, order: &[u32]) -> Pair {
        let mut desk = Desk::new(self);
        for &row in order {
            desk.take(row as usize - 1);
        }
        desk.pair()
    }

    /// The pairs of all orders, each once, by trying every order. For few rows.
    pub fn every_pair(&self) -> Vec<Pair> {
        fn go(day: &Day, left: u32, minute: i64, worst: i64, pairs: &mut Vec<Pair>) {
            if left == 0 {
                pairs.push(Pair {
                    end: minute as u32,
                    late: worst as i32,
                });
            }
            for (i, row) in day.rows.iter().enumerate() {
                if left & 1 << i != 0 {
                    let end = minute.max(row.release) + day.opening + row.length;
                    go(day, left & !(1 << i), end, worst.max(end - row.due), pairs);
                }
            }
        }
        let mut pairs = Vec::new();
        go(
            self,
            (1 << self.rows.len()) - 1,
            self.free,
            i64::from(i32::MIN),
            &mut pairs,
        );
        pairs.sort();
        pairs.dedup();
        pairs
    }

    /// The list by its definition: the pairs that no order beats, by rising end. For few rows.
    pub fn list_by_definition(&self) -> Vec<Pair> {
        let pairs = self.every_pair();
        let unbeaten = |pair: &&Pair| !pairs.iter().any(|other| other.beats(**pair));
        pairs.iter().filter(unbeaten).copied().collect()
    }
}

// ---- The calls on an accepted book: refusals 9 to 12 ----

impl Day {
    /// The list into a result buffer; how many plans.
    pub fn list_into(&self, result: &mut [u32]) -> Result<usize, Refusal> {
        if result.len() < 2 * self.rows.len() {
            return refuse(NARROW, 0);
        }
        for (i, pair) in self.list().iter().enumerate() {
            result[2 * i] = pair.end;
            result[2 * i + 1] = pair.late as u32;
        }
        Ok(self.list().len())
    }

    /// The order for a bound into a result buffer.
    pub fn order_for_bound_into(&self, bound: i32, result: &mut [u32]) -> Result<Pair, Refusal> {
        if result.len() < self.rows.len() {
            return refuse(NARROW, 0);
        }
        let Some((pair, order)) = self.order_for_bound(bound) else {
            return refuse(UNKEPT, 0);
        };
        result[..order.len()].copy_from_slice(&order);
        Ok(pair)
    }

    /// The order of a listed plan into a result buffer.
    pub fn order_of_plan_into(&self, plan: u32, result: &mut [u32]) -> Result<Pair, Refusal> {
        let plans = self.list().len();
        if plan == 0 || plan as usize > plans {
            return refuse(UNLISTED, plans);
        }
        if result.len() < self.rows.len() {
            return refuse(NARROW, 0);
        }
        let (pair, order) = self.order_of_plan(plan as usize);
        result[..order.len()].copy_from_slice(&order);
        Ok(pair)
    }

    /// The pair of a posting, and the first listed plan that beats it, counted from 1.
    pub fn verdict(&self, posting: &[u32]) -> Result<(Pair, Option<usize>), Refusal> {
        let rows = self.rows.len();
        if posting.len() != rows {
            return refuse(NOT_POSTING, posting.len().min(rows));
        }
        for (place, entry) in posting.iter().enumerate() {
            let no_row = *entry == 0 || *entry as usize > rows;
            if no_row || posting[..place].contains(entry) {
                return refuse(NOT_POSTING, place);
            }
        }
        let pair = self.pair_of(posting);
        let beaten_by = self.list().iter().position(|plan| plan.beats(pair));
        Ok((pair, beaten_by.map(|i| i + 1)))
    }

    /// The place of a row's number word.
    pub fn row_place(&self, row: u32) -> Result<usize, Refusal> {
        if row == 0 || row as usize > self.rows.len() {
            return refuse(UNLISTED, self.rows.len());
        }
        Ok(place_of_row(row as usize))
    }
}

// ---- The calls on a lent book ----

pub fn list(opening: u32, book: &[u32], result: &mut [u32]) -> Result<usize, Refusal> {
    Day::read(opening, book)?.list_into(result)
}

pub fn order_for_bound(
    opening: u32,
    book: &[u32],
    bound: i32,
    result: &mut [u32],
) -> Result<Pair, Refusal> {
    Day::read(opening, book)?.order_for_bound_into(bound, result)
}

pub fn order_of_plan(
    opening: u32,
    book: &[u32],
    plan: u32,
    result: &mut [u32],
) -> Result<Pair, Refusal> {
    Day::read(opening, book)?.order_of_plan_into(plan, result)
}

pub fn verdict(
    opening: u32,
    book: &[u32],
    posting: &[u32],
) -> Result<(Pair, Option<usize>), Refusal> {
    Day::read(opening, book)?.verdict(posting)
}

/// Works out no ends, so it is told no opening.
pub fn row_place(profile: Profile, book: &[u32], row: u32) -> Result<usize, Refusal> {
    Day::read_as(profile, 0, book)?.row_place(row)
}

// ---- What slate prints ----

/// The words that `slate` looks at, or the refusal of odd bytes.
pub fn slate_words(input: &[u8]) -> Result<Vec<u32>, Refusal> {
    if input.len() < 4 * SLATE_WORDS && !input.len().is_multiple_of(4) {
        return refuse(CUT, input.len() / 4);
    }
    let words = input.chunks_exact(4).take(SLATE_WORDS);
    Ok(words
        .map(|bytes| u32::from_le_bytes(bytes.try_into().unwrap()))
        .collect())
}

/// All that `slate` prints for this standard input, with no opening minutes.
pub fn slate(input: &[u8]) -> String {
    let day = match slate_words(input).and_then(|book| Day::read(0, &book)) {
        Ok(day) => day,
        Err(Refusal { number, place }) => return format!("refused {number} at {place}\n"),
    };
    let plans = day.list().len();
    let mut text = format!("rows {} plans {plans}\n", day.rows.len());
    for plan in 1..=plans {
        let (Pair { end, late }, order) = day.order_of_plan(plan);
        write!(text, "plan {plan} end {end} late {late} order").unwrap();
        for row in order {
            write!(text, " {}", day.rows[row as usize - 1].number).unwrap();
        }
        text.push('\n');
    }
    text
}
