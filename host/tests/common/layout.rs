//! How the archive lays out the words of a desk. That is its own affair and may change with a version;
//! tests that look at each word go by this.

use jelvaksna::desk_model::Desk;
use jelvaksna::DESK_WORDS;

pub const COUNT: usize = 0;
pub const MINUTE: usize = 1;
/// Raised by 2^31; 0 as long as no row is done.
pub const WORST: usize = 2;
pub const OPENING: usize = 3;

// The columns: row i, counted from 1, has the word i places after each of these.
pub const RELEASES: usize = 7;
/// Opening plus length.
pub const TIMES: usize = 263;
pub const DUES: usize = 519;
/// 1 where the row is done.
pub const MARKS: usize = 775;
pub const PAGES: usize = 1_031;

/// The words that hold a desk of the model.
pub fn words_of(desk: &Desk) -> Vec<u32> {
    let mut words = vec![0; DESK_WORDS];
    words[COUNT] = desk.rows.len() as u32;
    words[MINUTE] = desk.minute as u32;
    words[WORST] = desk.worst.map_or(0, |worst| (worst + (1 << 31)) as u32);
    words[OPENING] = desk.opening as u32;
    for (i, row) in (1..).zip(&desk.rows) {
        words[RELEASES + i] = row.release as u32;
        words[TIMES + i] = (desk.opening + row.length) as u32;
        words[DUES + i] = row.due as u32;
        words[MARKS + i] = u32::from(!desk.left.contains(&(i as u32)));
        words[PAGES + i] = row.pages as u32;
    }
    words
}
