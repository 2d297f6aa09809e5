//! Buffers between pages that cannot be touched: an access past either end of what is lent faults.

use std::ffi::{c_int, c_void};

const PAGE: usize = 4096;
/// Pages of a buffer, and of the first run that a call is lent, which may be the books of several desks.
const PAGES: usize = 4;
const FIRST_PAGES: usize = 10;

const PROT_NONE: c_int = 0;
const PROT_READ: c_int = 1;
const PROT_READ_WRITE: c_int = 3;
const MAP_PRIVATE: c_int = 0x02;
const MAP_ANONYMOUS: c_int = 0x20;

extern "C" {
    fn mmap(
        at: *mut c_void,
        len: usize,
        prot: c_int,
        flags: c_int,
        file: c_int,
        offset: i64,
    ) -> *mut c_void;
    fn mprotect(at: *mut c_void, len: usize, prot: c_int) -> c_int;
}

/// Which end of a buffer lies against the untouchable page.
#[derive(Clone, Copy, Debug, PartialEq, Eq)]
pub enum Side {
    Start,
    End,
}

/// Pages with an untouchable page on either side. They are never unmapped.
struct Fence {
    words: *mut u32,
    pages: usize,
}

impl Fence {
    fn new(pages: usize, prot: c_int) -> Self {
        let len = (pages + 2) * PAGE;
        // SAFETY: a new mapping of its own, of which only the inner pages are opened.
        unsafe {
            let flags = MAP_PRIVATE | MAP_ANONYMOUS;
            let at = mmap(std::ptr::null_mut(), len, PROT_NONE, flags, -1, 0);
            assert!(at as isize != -1, "mmap failed");
            let words = at.cast::<u8>().add(PAGE).cast();
            let fence = Fence { words, pages };
            fence.open(prot);
            fence
        }
    }

    fn open(&self, prot: c_int) {
        // SAFETY: the inner pages of this mapping.
        let failed = unsafe { mprotect(self.words.cast(), self.pages * PAGE, prot) };
        assert_eq!(failed, 0, "mprotect failed");
    }

    fn all(&mut self) -> &mut [u32] {
        // SAFETY: the inner pages, lent with `self`.
        unsafe { std::slice::from_raw_parts_mut(self.words, self.pages * PAGE / 4) }
    }

    fn span(&self, side: Side, len: usize) -> std::ops::Range<usize> {
        let words = self.pages * PAGE / 4;
        match side {
            Side::Start => 0..len,
            Side::End => words - len..words,
        }
    }

    /// Puts the words against a fence, readable only, unless they are there already.
    fn hold(&mut self, side: Side, words: &[u32]) -> &[u32] {
        let span = self.span(side, words.len());
        if self.all()[span.clone()] != *words {
            self.open(PROT_READ_WRITE);
            self.all()[span.clone()].copy_from_slice(words);
            self.open(PROT_READ);
        }
        &self.all()[span]
    }
}

/// A fence for each buffer of a call.
pub struct Fences {
    lent: [Fence; 3],
    result: Fence,
}

const REST: u32 = 0x5EED_F00D;

impl Fences {
    pub fn new() -> Self {
        Fences {
            lent: [FIRST_PAGES, PAGES, PAGES].map(|pages| Fence::new(pages, PROT_READ)),
            result: Fence::new(PAGES, PROT_READ_WRITE),
        }
    }

    /// Makes a call on copies behind fences. Gives what the call gives, the result words after it,
    /// and whether a word of the result's pages outside the result changed.
    pub fn lend<T>(
        &mut self,
        side: Side,
        book: &[u32],
        posting: &[u32],
        result: &[u32],
        call: impl FnOnce(&[u32], &[u32], &mut [u32]) -> T,
    ) -> (T, Vec<u32>, bool) {
        let three = [book, posting, &[]];
        self.lend_three(side, three, result, |[b, p, _], r| call(b, p, r))
    }

    /// The same for a call that is lent three runs beside the result.
    pub fn lend_three<T>(
        &mut self,
        side: Side,
        lent: [&[u32]; 3],
        result: &[u32],
        call: impl FnOnce([&[u32]; 3], &mut [u32]) -> T,
    ) -> (T, Vec<u32>, bool) {
        let mut runs: [&[u32]; 3] = [&[]; 3];
        for ((run, fence), words) in runs.iter_mut().zip(&mut self.lent).zip(lent) {
            *run = fence.hold(side, words);
        }
        let at = self.result.span(side, result.len());
        let words = self.result.all();
        words.fill(REST);
        words[at.clone()].copy_from_slice(result);
        let told = call(runs, &mut words[at.clone()]);
        let after = words[at.clone()].to_vec();
        let spilt = words[..at.start].iter().any(|&word| word != REST)
            || words[at.end..].iter().any(|&word| word != REST);
        (told, after, spilt)
    }
}
