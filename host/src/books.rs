//! A seeded maker of books: accepted days of many shapes, and books damaged in every way that the
//! papers name.
//!
//! Two rows disagree if one has the smaller due and also the smaller spare. The makers below add row
//! after row so that the due never falls and the spare never rises: no two of these rows disagree,
//! and any rows of which no two disagree can be sorted so. A last step lets the rows arrive in
//! another sequence. A class row's spare is the margin of its class, so rows of one class never
//! disagree.

use crate::model::{length, MARGINS, MAX_ROWS};
use crate::{word, Pair, MAX_CLOSING, MAX_OPENING, MAX_PACE, MIN_PACE};
use std::ops::Range;

/// The seed of a test run: `JELVAKSNA_SEED` (decimal, or hexadecimal after 0x), or a fixed one.
pub fn seed() -> u64 {
    let Ok(text) = std::env::var("JELVAKSNA_SEED") else {
        return 0x01d_e5c;
    };
    match text.strip_prefix("0x") {
        Some(hex) => u64::from_str_radix(hex, 16),
        None => text.parse(),
    }
    .expect("JELVAKSNA_SEED is a number of 64 bits")
}

/// How much longer than usual the tests run: `JELVAKSNA_TIMES`, or 1.
pub fn times() -> u64 {
    std::env::var("JELVAKSNA_TIMES").map_or(1, |text| text.parse().expect("a whole number"))
}

/// A small generator of pseudo-random numbers (splitmix64).
#[derive(Clone, Debug)]
pub struct Rng(u64);

impl Rng {
    pub fn new(seed: u64) -> Self {
        Rng(seed)
    }

    /// The generator of one case of a test, so that each case stands by itself.
    pub fn for_case(seed: u64, test: &str, case: u64) -> Self {
        let mut rng = Rng(seed);
        for byte in test.bytes() {
            rng.0 = rng.next() ^ u64::from(byte);
        }
        Rng(rng.next() ^ case.wrapping_mul(0x2545_f491_4f6c_dd1d))
    }

    #[allow(clippy::should_implement_trait)]
    pub fn next(&mut self) -> u64 {
        self.0 = self.0.wrapping_add(0x9e37_79b9_7f4a_7c15);
        let mut z = self.0;
        z = (z ^ z >> 30).wrapping_mul(0xbf58_476d_1ce4_e5b9);
        z = (z ^ z >> 27).wrapping_mul(0x94d0_49bb_1331_11eb);
        z ^ z >> 31
    }

    /// From 0 to `n` - 1.
    pub fn below(&mut self, n: usize) -> usize {
        (self.next() % n as u64) as usize
    }

    /// From `a` to `b`, both included.
    pub fn range(&mut self, a: i64, b: i64) -> i64 {
        a + (self.next() % (b - a + 1) as u64) as i64
    }

    /// True once in `n` times.
    pub fn one_in(&mut self, n: usize) -> bool {
        self.below(n) == 0
    }

    pub fn pick<T: Copy>(&mut self, from: &[T]) -> T {
        from[self.below(from.len())]
    }

    pub fn shuffle<T>(&mut self, items: &mut [T]) {
        for i in (1..items.len()).rev() {
            items.swap(i, self.below(i + 1));
        }
    }
}

/// Opening minutes that are accepted.
pub const OPENINGS: [u32; 6] = [0, 1, 2, 7, 29, MAX_OPENING];

/// Opening minutes that are refused.
pub const REFUSED_OPENINGS: [u32; 4] = [MAX_OPENING + 1, MAX_OPENING + 2, 1 << 31, u32::MAX];

/// Opening minutes, once in so many times such that are refused.
pub fn opening(rng: &mut Rng, refused_one_in: usize) -> u32 {
    match rng.one_in(refused_one_in) {
        true => rng.pick(&REFUSED_OPENINGS),
        false => rng.pick(&OPENINGS),
    }
}

/// Paces that a desk may change to, whose reading times are often exact halves and often not.
pub const PACES: [u32; 12] = [4, 5, 7, 16, 24, 30, 40, 50, 61, 80, 119, MAX_PACE];

/// Paces that are refused.
pub const REFUSED_PACES: [u32; 7] = [0, 1, MIN_PACE - 1, MAX_PACE + 1, 1 << 29, 1 << 31, u32::MAX];

/// A day before it is put into words.
#[derive(Clone, Debug)]
pub struct Draft {
    pub free: i64,
    pub pace: i64,
    pub rows: Vec<DraftRow>,
}

#[derive(Clone, Copy, Debug)]
pub struct DraftRow {
    pub number: u32,
    pub release: i64,
    pub pages: i64,
    /// Worked out where there is a class.
    pub due: i64,
    /// Put into words in place of the due.
    pub class: Option<u32>,
}

impl DraftRow {
    /// Release and due so much later; the spare stays as it is.
    fn put_off(&mut self, minutes: i64) {
        self.release += minutes;
        self.due += minutes;
    }
}

impl Draft {
    /// A day from rows of number, release, pages, due.
    pub fn of(free: i64, pace: i64, rows: &[(u32, i64, i64, i64)]) -> Self {
        let mut day = Draft::empty(free, pace);
        for (i, &(number, release, pages, due)) in rows.iter().enumerate() {
            day.push(release, pages, due);
            day.rows[i].number = number;
        }
        day
    }

    fn empty(free: i64, pace: i64) -> Self {
        let rows = Vec::new();
        Draft { free, pace, rows }
    }

    /// The book of the day.
    pub fn words(&self) -> Vec<u32> {
        let mut book = vec![word(1, self.free as u32), word(2, self.pace as u32)];
        for row in &self.rows {
            book.push(word(3, row.number));
            book.push(word(4, row.release as u32));
            book.push(word(5, row.pages as u32));
            book.push(match row.class {
                Some(class) => word(0, class),
                None => word(6, row.due as u32),
            });
        }
        book.push(word(7, self.rows.len() as u32));
        book
    }

    /// The same day with all rows of one class. Any day is accepted so.
    pub fn of_class(mut self, class: u32) -> Self {
        let pace = self.pace;
        for row in &mut self.rows {
            row.due = row.release + length(row.pages, pace) + MARGINS[class as usize];
            row.class = Some(class);
        }
        self
    }

    /// The same releases and dues with lengths that are so many minutes longer, at 60 pages an hour,
    /// where a page takes a minute; none if a row would have too many pages.
    pub fn lengthened(&self, minutes: u32) -> Option<Draft> {
        let longer = |row: &DraftRow| DraftRow {
            pages: self.length(row) + i64::from(minutes),
            class: None,
            ..*row
        };
        let rows: Vec<DraftRow> = self.rows.iter().map(longer).collect();
        let fit = rows.iter().all(|row| row.pages <= MOST_PAGES);
        let (free, pace) = (self.free, 60);
        fit.then_some(Draft { free, pace, rows })
    }

    /// The same rows in a sequence by chance.
    pub fn shuffled(mut self, rng: &mut Rng) -> Self {
        rng.shuffle(&mut self.rows);
        self
    }

    /// The same day with every due so many minutes later, as far as dues reach. No row has a class then.
    pub fn promised_later(mut self, minutes: i64) -> Self {
        let dues = || self.rows.iter().map(|row| row.due);
        let least = -dues().min().unwrap_or(0);
        let most = LAST_DUE - dues().max().unwrap_or(LAST_DUE);
        let minutes = minutes.min(most).max(least);
        for row in &mut self.rows {
            (row.due, row.class) = (row.due + minutes, None);
        }
        self
    }

    /// A sorted day made one of many: with classes or without, its rows in any sequence.
    pub fn varied(self, rng: &mut Rng) -> Self {
        self.with_classes(rng).arriving(rng)
    }

    /// Three days in ten as they are, four shuffled; the others with their rows by release, the last
    /// one first, or one row out of its place.
    fn arriving(mut self, rng: &mut Rng) -> Self {
        match rng.below(10) {
            0..=2 => {}
            3..=6 => return self.shuffled(rng),
            7 => self.rows.sort_by_key(|row| row.release),
            8 => self.rows.reverse(),
            _ => {
                let row = self.rows.remove(rng.below(self.rows.len()));
                let to = rng.below(self.rows.len() + 1);
                self.rows.insert(to, row);
            }
        }
        self
    }

    /// One sorted day in two as it is; the others with new dues, most with class rows: all of one
    /// class, or of falling classes and with due rows before, among and after them. Still sorted.
    fn with_classes(mut self, rng: &mut Rng) -> Self {
        match rng.below(6) {
            0..=2 => return self,
            3 => return self.of_class(rng.below(MARGINS.len()) as u32),
            _ => {}
        }
        // Rows that could be of a class but have a due word instead.
        let dues_in_100 = rng.pick(&[0, 20, 50, 80]);
        let falls_one_in = rng.pick(&[2, 4, 10, 40]);
        let mut spare = rng.pick(&MARGINS) + rng.pick(&[0, 0, 0, 1, 45, 3_000]);
        for i in 0..self.rows.len() {
            if i > 0 && rng.one_in(falls_one_in) {
                spare = self.less_spare(rng, i, spare);
            }
            let reach = self.reach(&self.rows[i]);
            let row = &mut self.rows[i];
            row.due = reach + spare;
            let class = MARGINS.iter().position(|&margin| margin == spare);
            if class.is_some() && rng.range(1, 100) > dues_in_100 {
                row.class = class.map(|class| class as u32);
            }
        }
        self
    }

    /// A smaller spare for a row and those after it, such that the due does not fall: the margin of
    /// a lower class, for which these rows may have to be released later, or any that will do.
    fn less_spare(&mut self, rng: &mut Rng, row: usize, spare: i64) -> i64 {
        let room = self.reach(&self.rows[row]) - self.reach(&self.rows[row - 1]);
        if rng.one_in(4) {
            return spare - rng.range(0, room.min(100));
        }
        let lower = MARGINS.iter().rev().find(|&&margin| margin < spare);
        let Some(&margin) = lower else {
            return spare;
        };
        let later = (spare - margin - room).max(0);
        let fits = |row: &DraftRow| row.release + later <= LAST_RELEASE;
        if !self.rows[row..].iter().all(fits) {
            return spare;
        }
        for row in &mut self.rows[row..] {
            row.release += later;
        }
        margin
    }

    /// A sorted day with its dues no later than they were, or rows released later, such that no two
    /// rows disagree: at its own pace, and at any of these with the same dues.
    fn agreeing_at(mut self, paces: &[u32]) -> Self {
        let paces: Vec<i64> = paces.iter().map(|&pace| pace.into()).collect();
        let paces = [&[self.pace], &paces[..]].concat();
        // The least spare above at each pace. No spare may be more than that.
        let mut least = vec![LAST_DUE; paces.len()];
        let mut due = 0;
        for row in &mut self.rows {
            let reach = |pace: i64| row.release + length(row.pages, pace);
            let both = least.iter().zip(&paces);
            let most = both.map(|(spare, &pace)| spare + reach(pace)).min();
            let most = most.expect("a pace");
            row.release += (due - most).max(0);
            row.due = row.due.min(most).max(due);
            due = row.due;
            for (spare, &pace) in least.iter_mut().zip(&paces) {
                *spare = due - row.release - length(row.pages, pace);
            }
        }
        self
    }

    fn length(&self, row: &DraftRow) -> i64 {
        length(row.pages, self.pace)
    }

    /// Release plus length.
    pub fn reach(&self, row: &DraftRow) -> i64 {
        row.release + self.length(row)
    }

    fn push(&mut self, release: i64, pages: i64, due: i64) {
        self.rows.push(DraftRow {
            number: self.rows.len() as u32,
            release,
            pages,
            due,
            class: None,
        });
    }

    /// Adds a row with a due no smaller and a spare no greater than the last one's. What is asked for
    /// is bent into the limits: an earlier release is moved later, and `slack` of 0 to 100 says where
    /// between these two the due shall lie (0: due as above, 100: spare as above).
    fn add(&mut self, release: i64, pages: i64, slack: i64) {
        let above = *self.rows.last().expect("a first row stands");
        let reach = self.reach(&above);
        let (mut release, mut pages) = (release.max(reach - length(pages, self.pace)), pages);
        if release > LAST_RELEASE {
            // The row above once more.
            (release, pages) = (above.release, above.pages);
        }
        let spare = above.due - reach;
        let most = (spare + release + length(pages, self.pace)).min(LAST_DUE);
        let due = above.due + (most - above.due) * slack / 100;
        self.push(release, pages, due);
    }

    /// Makes two rows of this part of a sorted day disagree with each other and with no other row.
    fn set_at_odds(&mut self, rng: &mut Rng, part: Range<usize>) {
        let place = part.start + rng.below(part.len() - 1);
        let most = rng.pick(&[1, 1, 2, 60]);
        // The rows above have so much more spare than these two, the rows below are due so much later.
        for row in &mut self.rows[..place] {
            row.class = None;
            row.due += most;
        }
        for row in &mut self.rows[place..] {
            row.put_off(most);
        }
        for row in &mut self.rows[place + 2..] {
            row.put_off(most);
        }
        let one = self.rows[place];
        let (due, spare) = (rng.range(1, most), rng.range(1, most));
        self.rows[place + 1] = DraftRow {
            number: self.rows[place + 1].number,
            release: one.release + due - spare,
            due: one.due + due,
            class: None,
            ..one
        };
    }

    /// Gives the rows numbers of their own.
    fn number(&mut self, rng: &mut Rng) {
        const TOP: u32 = (1 << 29) - 1;
        // An odd factor and a shift are one to one on 29 bits.
        let (factor, shift) = (rng.next() as u32 | 1, rng.next() as u32);
        let plain = rng.one_in(3);
        for (i, row) in self.rows.iter_mut().enumerate() {
            row.number = match plain {
                true => 901 + i as u32,
                false => (i as u32).wrapping_mul(factor).wrapping_add(shift) & TOP,
            };
        }
        if rng.one_in(4) {
            let (low, high) = (rng.below(self.rows.len()), rng.below(self.rows.len()));
            if low != high && !self.rows.iter().any(|r| r.number == 0 || r.number == TOP) {
                self.rows[low].number = 0;
                self.rows[high].number = TOP;
            }
        }
    }
}

const LAST_RELEASE: i64 = 10_000_000;
const LAST_DUE: i64 = 20_000_000;
const MOST_PAGES: i64 = 2_000;

// ---- Books of the ordering rule ----
//
// Makers that leave the desk idle now and then, so that there are choices, are told the opening minutes
// that the day is planned with.

/// The i-th of a series of long days, accepted ones: 49 rows to the most, of each make.
pub fn long(rng: &mut Rng, opening: u32, i: u64) -> Draft {
    let rows = match i % 3 {
        0 => MAX_ROWS,
        _ => rng.range(49, MAX_ROWS as i64) as usize,
    };
    match i % 4 {
        0 => typical_day(rng, opening, rows).varied(rng),
        1 => contests(rng, opening, rows).varied(rng),
        _ => accepted(rng, opening, rows),
    }
}

/// A day of so many rows, of a shape chosen at random: crowded or idle, early or late, with ties,
/// with rows of one length or of many, at the limits or far from them, with class rows or without,
/// sorted or not.
pub fn accepted(rng: &mut Rng, opening: u32, rows: usize) -> Draft {
    let day = match rng.below(8) {
        0 => limits(rng, rows),
        _ => within_limits(rng, opening, rows),
    };
    day.varied(rng)
}

/// A sorted day of due rows with room for later releases and dues.
fn within_limits(rng: &mut Rng, opening: u32, rows: usize) -> Draft {
    match rng.below(9) {
        0 | 1 => several_plans(rng, opening, rows),
        2 | 3 => contests(rng, opening, rows),
        4 => typical_day(rng, opening, rows),
        5 => ties(rng, rows),
        _ => mixed(rng, rows),
    }
}

/// An accepted day of due rows, and three paces of readers who can take it over at any time: no two rows
/// disagree at its own pace, nor at any of these with the dues that they have. One day in two is made to
/// have several plans at each of them.
pub fn lasting(rng: &mut Rng, opening: u32, rows: usize) -> (Draft, [u32; 3]) {
    let any = |rng: &mut Rng, most: i64| [(); 3].map(|()| rng.range(MIN_PACE.into(), most) as u32);
    let (day, paces) = match rng.one_in(2) {
        true => {
            let paces = any(rng, MAX_PACE.into());
            (long_among_short(rng, opening, rows, &paces), paces)
        }
        false => {
            let day = within_limits(rng, opening, rows);
            let paces = any(rng, day.pace);
            (day, paces)
        }
    };
    (day.agreeing_at(&paces).arriving(rng), paces)
}

/// A day of two rows and more that is refused for disorder alone: two rows disagree, and in one day
/// of two (from four rows on) two others do. Unsorted, they may stand far apart.
pub fn disagreeing(rng: &mut Rng, rows: usize) -> Draft {
    let day = within_limits(rng, 0, rows).with_classes(rng);
    day.upset(rng, Draft::set_at_odds).arriving(rng)
}

/// Number of rows of a short, middling or long day.
pub fn some_rows(rng: &mut Rng, most: usize) -> usize {
    match rng.below(8) {
        0 => 1 + rng.below(most),
        1..=3 => 1 + rng.below(most.min(8)),
        4 | 5 => 1 + rng.below(most.min(16)),
        _ => 1 + rng.below(most.min(40)),
    }
}

fn mixed(rng: &mut Rng, rows: usize) -> Draft {
    let pace = match rng.below(4) {
        0 => rng.range(4, 120),
        _ => rng.pick(&[4, 7, 16, 30, 40, 50, 60, 60, 60, 61, 119, 120]),
    };
    let most_pages = rng.pick(&[1, 2, 5, 12, 12, 40, 200]);
    let long_one_in = rng.pick(&[2, 3, 5, 10, 50]);
    let long_pages = rng.pick(&[10, 30, 100, 400]);
    // The mean step of release plus length: below a row's length the desk is crowded, above it idles.
    let step = rng.pick(&[0, 1, 2, 5, 12, 40, 150, 1000]);
    let slack = rng.pick(&[0, 50, 95, 100, 100]);
    let first_release = rng.pick(&[0, 0, 3, 100, 1_000_000]);
    let free = match rng.below(4) {
        0 => first_release + rng.range(0, 200),
        1 => 0,
        _ => (first_release + rng.range(-30, 30)).max(0),
    };
    let mut day = Draft::empty(free, pace);
    let pages = rng.range(1, most_pages);
    let spare = rng.pick(&[-20, -1, 0, 1, 3, 20, 300, 10_000]);
    let due = (first_release + length(pages, pace) + spare).max(0);
    day.push(first_release, pages, due);
    while day.rows.len() < rows {
        let above = *day.rows.last().unwrap();
        let reach = day.reach(&above);
        if rng.one_in(12) {
            // A tie: the same again.
            day.add(above.release, above.pages, 100);
            continue;
        }
        let pages = match rng.one_in(long_one_in) {
            true => rng.range(1, long_pages),
            false => rng.range(1, most_pages),
        };
        let step = if rng.one_in(10) {
            step * 10
        } else {
            rng.range(0, step)
        };
        let long = length(pages, pace);
        let slack = if rng.one_in(6) {
            rng.range(0, 100)
        } else {
            slack
        };
        day.add((reach + step - long).max(0), pages, slack);
    }
    day.number(rng);
    day
}

/// Days at the limits of the values: late desks, late releases, slow paces, thick transcripts.
fn limits(rng: &mut Rng, rows: usize) -> Draft {
    let free = rng.pick(&[0, LAST_RELEASE, LAST_RELEASE - 1]);
    let mut day = Draft::empty(free, rng.pick(&[4, 4, 5, 120]));
    day.push(
        rng.pick(&[0, 0, LAST_RELEASE, LAST_RELEASE - 40_000]),
        rng.pick(&[1, 2, 2_000]),
        rng.pick(&[0, 0, 1, 30_000, 1_000_000, LAST_DUE]),
    );
    while day.rows.len() < rows {
        let release = match rng.below(4) {
            0 => LAST_RELEASE - rng.range(0, 50),
            1 => rng.range(0, LAST_RELEASE),
            _ => day.rows.last().unwrap().release + rng.range(0, 3),
        };
        let pages = rng.pick(&[1, 1, 2, 1_999, 2_000]);
        day.add(release.min(LAST_RELEASE), pages, rng.pick(&[0, 100]));
    }
    day.number(rng);
    day
}

/// Rows that tie: few dues, at one due few sums of release and length, and one sum from releases
/// early and late.
pub fn ties(rng: &mut Rng, rows: usize) -> Draft {
    let pace = rng.pick(&[30, 60, 60, 120]);
    let most_pages = rng.pick(&[2, 4, 12]);
    let start = length(most_pages, pace) + rng.range(0, 20);
    let mut day = Draft::empty(rng.pick(&[0, start, start + 20]), pace);
    day.push(start, 1, start + rng.range(0, 60));
    while day.rows.len() < rows {
        let reach = day.reach(day.rows.last().unwrap());
        let (later, slack) = match rng.below(5) {
            0 | 1 => (0, 0),
            2 | 3 => (rng.range(1, 3), 0),
            _ => (rng.range(1, 9), rng.pick(&[50, 100])),
        };
        let pages = rng.range(1, most_pages);
        day.add(reach + later - length(pages, pace), pages, slack);
    }
    day.number(rng);
    day
}

/// One long row and short ones whose gaps grow by chance, so that there are often several plans. In
/// one day of two some of the short ones share release and due, so that second picks tie.
pub fn several_plans(rng: &mut Rng, opening: u32, rows: usize) -> Draft {
    let pace = rng.pick(&[4, 8, 10, 20, 40, 60]);
    let time = |pages: i64| i64::from(opening) + length(pages, pace);
    let spare = rng.range(-40, 200);
    let shared = rng.one_in(2);
    let mut day = Draft::empty(rng.range(0, 20), pace);
    let mut gap = rng.range(1, 3);
    let release = day.free + gap;
    day.push(release, 1, (release + length(1, pace) + spare).max(0));
    // When the desk is through with the short rows if it does them as they come.
    let mut minute = release + time(1);
    while day.rows.len() + 1 < rows {
        if shared && rng.one_in(2) {
            let above = *day.rows.last().unwrap();
            let pages = above.pages + rng.range(0, 1);
            day.add(above.release, pages, 0);
            minute += time(pages);
        } else {
            gap = (gap + rng.pick(&[0, 0, 1, 1, 2, -1])).max(0);
            day.add(minute + gap, 1, 100);
            minute += gap + time(1);
        }
    }
    if rows > 1 {
        // Long enough to be released before the shorts, where the pages allow it.
        let pages = ((minute - day.free) * pace / 60 + rng.range(1, 5)).clamp(1, MOST_PAGES);
        day.add(day.free, pages, 100);
    }
    day.number(rng);
    day
}

/// Short rows with growing gaps, and a long one that is there before them: the gaps are left at the slowest
/// of these paces too, and the long row outlasts the short ones at the fastest too, where the pages allow
/// it. So there are several plans at each.
fn long_among_short(rng: &mut Rng, opening: u32, rows: usize, paces: &[u32]) -> Draft {
    let slowest = paces.iter().min().copied().map_or(60, i64::from);
    let fastest = paces.iter().max().copied().map_or(60, i64::from);
    let mut day = Draft::empty(rng.range(0, 20), rng.pick(paces).into());
    let spare = rng.range(0, 200);
    let (mut minute, mut gap) = (day.free, 0);
    let mut add = |release: i64, pages: i64| {
        let due = release + length(pages, day.pace) + spare;
        day.push(release, pages, due);
    };
    for _ in 1..rows {
        gap += rng.pick(&[0, 1, 1, 2]);
        add(minute + gap, 1);
        minute += gap + i64::from(opening) + length(1, slowest);
    }
    let pages = minute * fastest / 60 + rng.range(1, 5);
    add(0, pages.clamp(1, MOST_PAGES));
    day.number(rng);
    day
}

/// Short rows with growing gaps, time and again a long one that was there before them: a choice
/// after a choice, most of them open again once the one before is settled.
pub fn contests(rng: &mut Rng, opening: u32, rows: usize) -> Draft {
    let opening = i64::from(opening);
    let pace = rng.pick(&[30, 60, 60, 120]);
    let spare = rng.range(-5, 60);
    let every = rng.range(2, 9) as usize;
    let start = rng.range(0, 300);
    let mut day = Draft::empty(start, pace);
    let release = start + rng.range(1, 4);
    let reach = release + length(1, pace);
    day.push(release, 1, (reach + spare).max(0));
    // When the desk would be through with the row above that it starts at its release, and where the
    // busy desk would be by now.
    let mut through = reach + opening;
    let mut busy = start + opening + length(1, pace);
    while day.rows.len() < rows {
        let i = day.rows.len();
        if i.is_multiple_of(every) {
            // A long row that the desk could have started before the shorts above.
            let pages = rng.range(2, 12) * pace / 60 + (through - busy).max(1) * pace / 60;
            let pages = pages.clamp(1, MOST_PAGES);
            day.add(busy.min(through), pages, 100);
        } else {
            let gap = rng.range(0, 2 + (i % every) as i64);
            day.add(through + gap, 1, 100);
        }
        through = day.reach(&day.rows[i]) + opening;
        busy = busy.max(start) + opening + day.length(&day.rows[i]);
    }
    day.number(rng);
    day
}

/// The short and the long row of [`many_plans`]: 1 page and 2,000 pages at pace 4.
const SHORT: i64 = 15;
const LONG: i64 = 30_000;

/// The most rows for which [`many_plans`] has a plan for each row: 230 with no opening minutes.
pub fn most_plans(opening: u32) -> usize {
    let (opening, mut minute, mut shorts) = (i64::from(opening), 0, 0);
    loop {
        let gap = shorts + 1;
        minute += gap + opening + SHORT;
        // Done last, the long row has to be less late than the last short one that it can hold up.
        if minute + opening >= LONG + 2 * opening - gap {
            return 1 + shorts as usize;
        }
        shorts = gap;
    }
}

/// A day with as many plans as rows, up to the most; further rows come last and add no plan.
///
/// One long row (2,000 pages at pace 4: 30,000 minutes) is there from the start, and short ones (1
/// page: 15 minutes) are released so that the desk, if it does them as they come, idles 1, 2, 3 ..
/// minutes before them. The long row fits in before any of them, or last. The later it is done, the
/// more idle minutes; but the row that it holds up is then the one that came after the longer gap,
/// and less late. That is a plan for each of these choices. The gaps may not outlast the long row, so
/// there are at most 229, and fewer the longer each row takes to open. The further rows are released
/// when the busy desk would be through.
pub fn many_plans(opening: u32, rows: usize) -> Draft {
    plans_among(opening, rows, rows.min(most_plans(opening)))
}

/// The same with fewer plans than rows: the rows past the first `plans` come last and add no plan.
pub fn plans_among(opening: u32, rows: usize, plans: usize) -> Draft {
    assert!((2..=MAX_ROWS).contains(&rows));
    assert!((2..=rows.min(most_plans(opening))).contains(&plans));
    let (opening, shorts) = (i64::from(opening), plans as i64 - 1);
    let mut day = Draft::empty(0, 4);
    // No row has any spare.
    let mut add = |release: i64, pages: i64| day.push(release, pages, release + length(pages, 4));
    let mut minute = 0;
    for gap in 1..=shorts {
        add(minute + gap, 1);
        minute += gap + opening + SHORT;
    }
    add(0, 2_000);
    for _ in plans..rows {
        add(opening + LONG + (opening + SHORT) * shorts, 1);
    }
    day
}

fn typical_pages(rng: &mut Rng) -> i64 {
    match rng.below(10) {
        0 => rng.range(30, 120),
        1..=3 => rng.range(10, 30),
        _ => rng.range(1, 10),
    }
}

/// A day as a bureau may have it: steady work of mixed sizes, some idle minutes, dues some hours
/// after the work could be done, and now and then a shorter promise.
pub fn typical_day(rng: &mut Rng, opening: u32, rows: usize) -> Draft {
    let pace = rng.range(20, 40);
    let mut arrivals = Vec::new();
    let mut minute = 480;
    for _ in 0..rows {
        arrivals.push((minute, typical_pages(rng)));
        // A little more than the mean time of a row between two of them.
        minute += rng.range(0, 62 * 60 / pace + 2 * i64::from(opening));
    }
    arrivals.sort_by_key(|&(release, pages)| release + length(pages, pace));
    let mut day = Draft::empty(480, pace);
    let (release, pages) = arrivals[0];
    day.push(release, pages, release + length(pages, pace) + 600);
    for &(release, pages) in &arrivals[1..] {
        let slack = if rng.one_in(20) { 50 } else { 100 };
        day.add(release, pages, slack);
    }
    day.number(rng);
    day
}

// ---- Several desks ----

/// A day for each desk of a bureau, of so many rows: days of any shape; days of which most have several
/// plans; or one such day for all, promised a little sooner or later, so that plans of many desks are about
/// as late.
pub fn bureau(rng: &mut Rng, opening: u32, rows: &[usize]) -> Vec<Draft> {
    let choices = |rng: &mut Rng, rows: usize| match rng.below(4) {
        0 => several_plans(rng, opening, rows),
        2.. if rows > 1 => many_plans(opening, rows),
        _ => contests(rng, opening, rows),
    };
    let kind = rng.below(3);
    let one = choices(rng, rows[0]);
    let each = rows.iter().map(|&rows| match kind {
        0 => accepted(rng, opening, rows),
        1 => choices(rng, rows).varied(rng),
        _ => {
            let later = rng.range(-4, 4);
            one.clone().promised_later(later).arriving(rng)
        }
    });
    each.collect()
}

/// A closing minute for a desk with these plans: most often about the end of one, so that some pass it.
pub fn closing(rng: &mut Rng, plans: &[Pair]) -> u32 {
    let end = i64::from(rng.pick(plans).end);
    let last = i64::from(MAX_CLOSING);
    let minute = match rng.below(10) {
        0 => rng.pick(&[0, 1, last - 1, last]),
        1 => end + rng.range(-100, 100),
        _ => end + rng.range(-3, 3),
    };
    minute.clamp(0, last) as u32
}

// ---- Books of the profile ----
//
// Rows cross if one has the smaller release and also the larger due. By release, and by due at one
// release, the rows of a book without crossing have rising dues, and the makers add them so.

/// A day of so many rows of which no two cross, of a shape chosen at random.
pub fn first_come(rng: &mut Rng, rows: usize) -> Draft {
    let day = match rng.below(8) {
        0 => latest(rng, rows),
        _ => rising(rng, rows),
    };
    day.arriving(rng)
}

/// A day that is refused for crossing alone: two rows of it cross, and in one day of two (from four
/// rows on) two others do. Unsorted, they may stand far apart.
pub fn crossing(rng: &mut Rng, rows: usize) -> Draft {
    rising(rng, rows).upset(rng, Draft::cross).arriving(rng)
}

/// A sorted day with room for later releases and dues.
fn rising(rng: &mut Rng, rows: usize) -> Draft {
    match rng.below(8) {
        0 => steady_day(rng, rows),
        1 => of_both_rules(rng, rows),
        2 => one_class(rng, rows),
        _ => steps(rng, rows),
    }
}

/// Releases and dues that rise by steps of their own, many of them 0; equal rows; rows with a class
/// wherever its due is no smaller than the one above.
fn steps(rng: &mut Rng, rows: usize) -> Draft {
    let pace = rng.pick(&[4, 7, 30, 40, 60, 60, 61, 120]);
    let most_pages = rng.pick(&[1, 2, 5, 12, 40, 200]);
    let (releases, dues) = (rng.pick(&STEPS), rng.pick(&STEPS));
    let classes_in_100 = rng.pick(&[0, 20, 60]);
    let (mut release, mut pages) = (rng.pick(&[0, 0, 3, 100, 1_000_000]), 1);
    let mut due = (release + rng.pick(&[-30, 0, 1, 60, 600])).max(0);
    let mut day = Draft::empty((release + rng.range(-30, 200)).max(0), pace);
    while day.rows.len() < rows {
        let again = !day.rows.is_empty() && rng.one_in(8);
        if !again {
            release += step(rng, releases);
            due += step(rng, dues);
            pages = rng.range(1, most_pages);
        }
        day.push(release, pages, due);
        if rng.range(1, 100) <= classes_in_100 {
            let class = rng.below(MARGINS.len()) as u32;
            due = day.class_last(class).unwrap_or(due);
        }
    }
    day.number(rng);
    day
}

const STEPS: [i64; 6] = [0, 1, 3, 12, 60, 1_000];

/// As often 0 as not, otherwise up to `most`, now and then ten times that.
fn step(rng: &mut Rng, most: i64) -> i64 {
    match rng.below(20) {
        0..=9 => 0,
        10 => 10 * most,
        _ => rng.range(0, most),
    }
}

/// Rows of one class, each released late enough to be due no sooner than the one above.
fn one_class(rng: &mut Rng, rows: usize) -> Draft {
    let pace = rng.pick(&[30, 40, 60, 120]);
    let (most_pages, releases) = (rng.pick(&[1, 5, 40]), rng.pick(&STEPS));
    let mut day = Draft::empty(rng.range(0, 100), pace);
    let (mut release, mut reach) = (rng.range(0, 100), 0);
    while day.rows.len() < rows {
        let pages = rng.range(1, most_pages);
        let least = reach - length(pages, pace);
        release = (release + step(rng, releases)).max(least);
        reach = release + length(pages, pace);
        day.push(release, pages, 0);
    }
    day.number(rng);
    day.of_class(rng.below(MARGINS.len()) as u32)
}

/// Days of the latest end and lateness that a book can have, with opening minutes and without, and of
/// the earliest work, with the pair of their one plan in either profile.
pub fn at_the_limits() -> [(u32, Draft, Pair); 3] {
    let pair = |end, late| Pair { end, late };
    let early = Draft::of(0, 60, &[(0, 0, 1, 20_000_000)]);
    [
        (MAX_OPENING, latest_book(), pair(17_687_680, 17_687_680)),
        (0, latest_book(), pair(17_680_000, 17_680_000)),
        (0, early, pair(1, -19_999_999)),
    ]
}

/// The most rows of the longest length, released as late as the desk is free, due at 0.
pub fn latest_book() -> Draft {
    let rows: Vec<_> = (0..MAX_ROWS as u32)
        .map(|number| (number, LAST_RELEASE, 2_000, 0))
        .collect();
    Draft::of(LAST_RELEASE, 4, &rows)
}

/// A sorted day of which no two rows cross and no two disagree either.
pub fn of_both_rules(rng: &mut Rng, rows: usize) -> Draft {
    let pace = rng.pick(&[30, 40, 60, 120]);
    let (most_pages, releases) = (rng.pick(&[1, 5, 40]), rng.pick(&STEPS));
    let mut day = Draft::empty(rng.range(0, 100), pace);
    let release = rng.range(0, 100);
    day.push(release, 1, release + rng.range(0, 600));
    while day.rows.len() < rows {
        let release = day.rows.last().unwrap().release + step(rng, releases);
        let pages = rng.range(1, most_pages);
        day.add(release, pages, rng.pick(&[0, 50, 100, 100]));
    }
    day.number(rng);
    day
}

/// A sorted day up to the latest release and the latest due, with long rows and a late desk.
fn latest(rng: &mut Rng, rows: usize) -> Draft {
    let free = rng.pick(&[0, LAST_RELEASE - 1, LAST_RELEASE]);
    let mut day = Draft::empty(free, rng.pick(&[4, 4, 5, 120]));
    let before = rng.pick(&[0, 1, 50]);
    let (mut release, mut due) = match rng.below(3) {
        0 => (0, 0),
        1 => (LAST_RELEASE - before, 0),
        _ => (LAST_RELEASE - before, LAST_DUE - before),
    };
    while day.rows.len() < rows {
        let by = rng.pick(&[0, 0, 1, LAST_RELEASE / 2]);
        release = (release + by).min(LAST_RELEASE);
        due = (due + rng.pick(&[0, 1, by])).min(LAST_DUE);
        day.push(release, rng.pick(&[1, 2, 1_999, 2_000]), due);
    }
    day.number(rng);
    day
}

/// A day as a bureau of the profile may have it: steady work of mixed sizes, by release, promised
/// within some hours and never sooner than what came before.
pub fn steady_day(rng: &mut Rng, rows: usize) -> Draft {
    let pace = rng.range(20, 40);
    let (mut minute, mut due) = (480, 0);
    let mut day = Draft::empty(minute, pace);
    for _ in 0..rows {
        due = due.max(minute + rng.pick(&[240, 480, 480, 600]));
        day.push(minute, typical_pages(rng), due);
        minute += rng.range(0, 62 * 60 / pace);
    }
    day.number(rng);
    day
}

impl Draft {
    /// Makes two rows clash and, in one day of two from four rows on, two others.
    fn upset(mut self, rng: &mut Rng, clash: fn(&mut Draft, &mut Rng, Range<usize>)) -> Self {
        let rows = self.rows.len();
        let half = rows / 2;
        if half > 1 && rng.one_in(2) {
            clash(&mut self, rng, 0..half);
            clash(&mut self, rng, half..rows);
        } else {
            clash(&mut self, rng, 0..rows);
        }
        self
    }

    /// Gives the last row a class, if it is then due no sooner than before: when.
    fn class_last(&mut self, class: u32) -> Option<i64> {
        let row = self.rows.last()?;
        let due = self.reach(row) + MARGINS[class as usize];
        if due < row.due {
            return None;
        }
        let row = self.rows.last_mut()?;
        (row.due, row.class) = (due, Some(class));
        Some(due)
    }

    /// Makes two rows of this part of a sorted day cross each other and no other row.
    fn cross(&mut self, rng: &mut Rng, part: Range<usize>) {
        let place = part.start + rng.below(part.len() - 1);
        let most = rng.pick(&[1, 1, 2, 60]);
        // The rows below are released and due so much later.
        for row in &mut self.rows[place + 1..] {
            row.put_off(most);
        }
        let one = self.rows[place];
        let other = &mut self.rows[place + 1];
        other.release = one.release + rng.range(1, most);
        (other.due, other.class) = (one.due, None);
        let one = &mut self.rows[place];
        one.due += rng.range(1, most);
        one.class = None;
    }
}

// ---- Damage ----

/// The kinds and limits of the words, by kind.
const RANGES: [(u32, u32, u32); 6] = [
    (0, 0, 7),
    (1, 0, 10_000_000),
    (2, 4, 120),
    (4, 0, 10_000_000),
    (5, 1, 2_000),
    (6, 0, 20_000_000),
];
const TOP: u32 = (1 << 29) - 1;

/// Damages a book at least once; it may be refused for another reason than was meant, or stay sound.
pub fn damaged(rng: &mut Rng, book: &[u32]) -> Vec<u32> {
    let mut book = book.to_vec();
    let blows = rng.pick(&[1, 1, 1, 1, 2, 2, 3]);
    for _ in 0..blows {
        let way = 1 + rng.below(WAYS) as u32;
        damage(rng, &mut book, way);
    }
    book
}

/// The number of ways of [`damage`]: those of the refusals 1 to 8, and nine more.
pub const WAYS: usize = 17;

/// Damages a book: `way` 1 to 8 aims at the refusal of that number.
pub fn damage(rng: &mut Rng, book: &mut Vec<u32>, way: u32) {
    let len = book.len();
    if len < 7 {
        book.push(rng.next() as u32);
        return;
    }
    let rows = (len - 3) / 4;
    let at = rng.below(len);
    match way {
        1 => book.truncate(at),
        2 => {
            let other = 1 + rng.below(7) as u32;
            book[at] = (book[at] >> 29 ^ other) << 29 | book[at] & TOP;
            if rng.one_in(4) {
                book[at] = word(7, (at.saturating_sub(2) / 4) as u32);
            }
        }
        3 => {
            // The first word from here on that has a range.
            let ranged = (at..len).chain(0..at).find_map(|i| {
                let kind = book[i] >> 29;
                let range = RANGES.iter().find(|range| range.0 == kind)?;
                Some((i, *range))
            });
            if let Some((i, (kind, from, to))) = ranged {
                let far = TOP - rng.below(1_000) as u32;
                let above = rng.pick(&[to + 1, to + 2, far, TOP]);
                let below = from.saturating_sub(1);
                let wrong = if rng.one_in(2) { above } else { below };
                book[i] = word(kind, wrong);
            }
        }
        4 if rows >= 2 => {
            let later = 1 + rng.below(rows - 1);
            let earlier = rng.below(later);
            book[2 + 4 * later] = book[2 + 4 * earlier];
        }
        5 => {
            // Rows like the last one, up to row 257 and sometimes beyond.
            let last: Vec<u32> = book[len - 5..len - 1].to_vec();
            book.pop();
            let goal = rng.pick(&[256, 257, 257, 258]);
            let mut number = rng.next() as u32 & TOP;
            while (book.len() - 2) / 4 < goal {
                number = (number + 1) & TOP;
                book.push(word(3, number));
                book.extend(&last[1..]);
            }
            if goal > MAX_ROWS && rng.one_in(3) {
                // Row 257 has the number of an earlier row besides.
                book[2 + 4 * MAX_ROWS] = book[2 + 4 * rng.below(MAX_ROWS)];
            }
            if rng.one_in(3) {
                book.truncate(1027 + rng.below(3));
            } else {
                book.push(word(7, goal as u32));
            }
        }
        6 => {
            let count = book[len - 1] & TOP;
            let wrong = [0, count + 1, count.wrapping_sub(1), count + 256, TOP];
            book[len - 1] = word(7, rng.pick(&wrong) & TOP);
        }
        7 => {
            let more = rng.pick(&[1, 1, 2, 5, 300]);
            for _ in 0..more {
                let next = match rng.below(3) {
                    0 => rng.next() as u32,
                    1 => book[len - 1],
                    _ => book[rng.below(len)],
                };
                book.push(next);
            }
        }
        8 if rows >= 2 => {
            // A due moved: by the least step, or by far.
            let row = rng.below(rows);
            let due = &mut book[5 + 4 * row];
            let step = rng.pick(&[1, 1, 2, 50, 100_000]);
            *due = match rng.one_in(2) {
                true => due.wrapping_add(step),
                false => due.wrapping_sub(step),
            };
        }
        9 => {
            // Bits that flip.
            for _ in 0..rng.pick(&[1, 1, 2, 8]) {
                book[rng.below(len)] ^= 1 << rng.below(32);
            }
        }
        10 => {
            book.remove(at);
        }
        11 => {
            let new = match rng.below(2) {
                0 => rng.next() as u32,
                _ => book[rng.below(len)],
            };
            book.insert(at, new);
        }
        12 => {
            let other = rng.below(len);
            book.swap(at, other);
        }
        13 if rows >= 2 => {
            // The releases, the pages or the last words of two rows changed about.
            let (a, b, word) = (rng.below(rows), rng.below(rows), 3 + rng.below(3));
            book.swap(4 * a + word, 4 * b + word);
        }
        14 => {
            // A value of its kind changed, within the range or not.
            let limit = rng.pick(&[2, 20, 2_100, TOP]);
            book[at] = word(book[at] >> 29, rng.next() as u32 % limit);
        }
        15 => {
            // A class word in place of a row's last word, within the range or not.
            let class = rng.pick(&[0, 1, 2, 3, 4, 5, 6, 7, 7, 8, 8, 9, 256, TOP, TOP]);
            book[5 + 4 * rng.below(rows)] = word(0, class);
        }
        16 => {
            // A class word anywhere, and more often than elsewhere in place of the end word.
            let at = if rng.one_in(4) { len - 1 } else { at };
            book[at] = word(0, rng.pick(&[0, 1, 7, 8, book[at] & TOP]));
        }
        _ => book[at] = rng.next() as u32,
    }
}

/// Whether some row of an accepted book has a reading time of an exact half over whole minutes.
pub fn has_half(book: &[u32]) -> bool {
    let pace = book[1] & TOP;
    let rows = book[2..book.len() - 1].chunks_exact(4);
    rows.map(|row| row[2] & TOP)
        .any(|pages| 2 * (pages * 60 % pace) == pace)
}

/// Words by chance: all of them, or only the values in a sequence of the right kinds.
pub fn random_words(rng: &mut Rng, most: usize) -> Vec<u32> {
    let len = rng.below(most + 1);
    let right_kinds = rng.one_in(2);
    let limit = rng.pick(&[1, 10, 100, 2_000, TOP]);
    (0..len)
        .map(|i| {
            let any = rng.next() as u32;
            match (right_kinds, i) {
                (false, _) => any,
                (true, 0) => word(1, any % limit),
                (true, 1) => word(2, 4 + any % limit.min(130)),
                (true, i) if i + 1 == len && rng.one_in(2) => word(7, (i as u32 - 2) / 4),
                (true, i) if i % 4 == 1 && rng.one_in(2) => word(0, any % limit.min(9)),
                (true, i) => word(3 + (i as u32 - 2) % 4, 1 + any % limit),
            }
        })
        .collect()
}
