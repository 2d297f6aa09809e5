//! The archive's calls: the declarations, each call with its plain answer, and a typed wrapper.
//!
//! `opening` is always the minutes that each row takes to open, from 0 to [`crate::MAX_OPENING`].

use crate::{Chosen, Latest, Moved, Opened, Pair, Refusal, RefusalAtDesk};

/// What every call answers. Fields that a case does not speak of are 0.
#[repr(C)]
#[derive(Clone, Copy, Debug, Default, PartialEq, Eq)]
pub struct Answer {
    pub place: usize,
    pub count: usize,
    pub refusal: u32,
    pub end: u32,
    pub late: i32,
    pub minute: u32,
    pub desk: u32,
    pub overtime: u32,
}

const _: () = assert!(
    std::mem::size_of::<Answer>() == 40
        && std::mem::offset_of!(Answer, count) == 8
        && std::mem::offset_of!(Answer, refusal) == 16
        && std::mem::offset_of!(Answer, end) == 20
        && std::mem::offset_of!(Answer, late) == 24
        && std::mem::offset_of!(Answer, minute) == 28
        && std::mem::offset_of!(Answer, desk) == 32
        && std::mem::offset_of!(Answer, overtime) == 36
);

/// The exported functions, as include/jelvaksna.h declares them.
pub mod raw {
    use super::Answer;

    extern "C" {
        pub fn jelvaksna_list(
            opening: u32,
            book: *const u32,
            book_len: usize,
            result: *mut u32,
            result_len: usize,
        ) -> Answer;
        pub fn jelvaksna_order_for_bound(
            opening: u32,
            book: *const u32,
            book_len: usize,
            bound: i32,
            result: *mut u32,
            result_len: usize,
        ) -> Answer;
        pub fn jelvaksna_order_of_plan(
            opening: u32,
            book: *const u32,
            book_len: usize,
            plan: u32,
            result: *mut u32,
            result_len: usize,
        ) -> Answer;
        pub fn jelvaksna_verdict(
            opening: u32,
            book: *const u32,
            book_len: usize,
            posting: *const u32,
            posting_len: usize,
        ) -> Answer;
        pub fn jelvaksna_row_place(book: *const u32, book_len: usize, row: u32) -> Answer;
        pub fn jelvaksna_first_come_list(
            opening: u32,
            book: *const u32,
            book_len: usize,
            result: *mut u32,
            result_len: usize,
        ) -> Answer;
        pub fn jelvaksna_first_come_order_for_bound(
            opening: u32,
            book: *const u32,
            book_len: usize,
            bound: i32,
            result: *mut u32,
            result_len: usize,
        ) -> Answer;
        pub fn jelvaksna_first_come_order_of_plan(
            opening: u32,
            book: *const u32,
            book_len: usize,
            plan: u32,
            result: *mut u32,
            result_len: usize,
        ) -> Answer;
        pub fn jelvaksna_first_come_verdict(
            opening: u32,
            book: *const u32,
            book_len: usize,
            posting: *const u32,
            posting_len: usize,
        ) -> Answer;
        pub fn jelvaksna_first_come_row_place(
            book: *const u32,
            book_len: usize,
            row: u32,
        ) -> Answer;
        pub fn jelvaksna_desk_open(
            opening: u32,
            book: *const u32,
            book_len: usize,
            desk: *mut u32,
            desk_len: usize,
        ) -> Answer;
        pub fn jelvaksna_desk_start(
            desk: *mut u32,
            desk_len: usize,
            row: u32,
            minute: u32,
        ) -> Answer;
        pub fn jelvaksna_desk_pace(desk: *mut u32, desk_len: usize, pace: u32) -> Answer;
        pub fn jelvaksna_desk_list(
            desk: *const u32,
            desk_len: usize,
            result: *mut u32,
            result_len: usize,
        ) -> Answer;
        pub fn jelvaksna_desk_order_of_plan(
            desk: *const u32,
            desk_len: usize,
            plan: u32,
            result: *mut u32,
            result_len: usize,
        ) -> Answer;
        pub fn jelvaksna_several(
            opening: u32,
            books: *const u32,
            books_len: usize,
            lengths: *const u32,
            lengths_len: usize,
            closings: *const u32,
            closings_len: usize,
            limit: u32,
            result: *mut u32,
            result_len: usize,
        ) -> Answer;
        pub fn jelvaksna_latest_free(
            opening: u32,
            book: *const u32,
            book_len: usize,
            wanted_end: i32,
            wanted_late: i32,
            result: *mut u32,
            result_len: usize,
        ) -> Answer;
    }
}

fn told<T>(answer: Answer, of: impl FnOnce(Answer) -> T) -> Result<T, Refusal> {
    match answer.refusal {
        0 => Ok(of(answer)),
        number => Err(Refusal {
            number,
            place: answer.place,
        }),
    }
}

fn pair(answer: Answer) -> Pair {
    Pair {
        end: answer.end,
        late: answer.late,
    }
}

/// The pairs of a list, two words each.
fn pairs(list: &[u32]) -> Vec<Pair> {
    list.chunks_exact(2)
        .map(|p| Pair {
            end: p[0],
            late: p[1] as i32,
        })
        .collect()
}

/// The safe calls over five of the exported functions.
macro_rules! calls {
    ($list:ident, $order_for_bound:ident, $order_of_plan:ident, $verdict:ident, $row_place:ident) => {
        /// The calls on slices, with the answer as it comes.
        pub mod plain {
            use $crate::linked::{raw, Answer};

            pub fn list(opening: u32, book: &[u32], result: &mut [u32]) -> Answer {
                // SAFETY: both slices are live and aligned for the call, and `result` is lent alone.
                unsafe {
                    raw::$list(
                        opening,
                        book.as_ptr(),
                        book.len(),
                        result.as_mut_ptr(),
                        result.len(),
                    )
                }
            }

            pub fn order_for_bound(
                opening: u32,
                book: &[u32],
                bound: i32,
                result: &mut [u32],
            ) -> Answer {
                // SAFETY: as for `list`.
                unsafe {
                    raw::$order_for_bound(
                        opening,
                        book.as_ptr(),
                        book.len(),
                        bound,
                        result.as_mut_ptr(),
                        result.len(),
                    )
                }
            }

            pub fn order_of_plan(
                opening: u32,
                book: &[u32],
                plan: u32,
                result: &mut [u32],
            ) -> Answer {
                // SAFETY: as for `list`.
                unsafe {
                    raw::$order_of_plan(
                        opening,
                        book.as_ptr(),
                        book.len(),
                        plan,
                        result.as_mut_ptr(),
                        result.len(),
                    )
                }
            }

            pub fn verdict(opening: u32, book: &[u32], posting: &[u32]) -> Answer {
                // SAFETY: both slices are live and aligned for the call; neither is written.
                unsafe {
                    raw::$verdict(
                        opening,
                        book.as_ptr(),
                        book.len(),
                        posting.as_ptr(),
                        posting.len(),
                    )
                }
            }

            pub fn row_place(book: &[u32], row: u32) -> Answer {
                // SAFETY: the slice is live and aligned for the call.
                unsafe { raw::$row_place(book.as_ptr(), book.len(), row) }
            }
        }

        /// Writes the listed plans, two words each, and gives how many there are.
        pub fn list(opening: u32, book: &[u32], result: &mut [u32]) -> Result<usize, Refusal> {
            told(plain::list(opening, book, result), |a| a.count)
        }

        /// Writes the order for a bound, one row number a word, and gives its pair.
        pub fn order_for_bound(
            opening: u32,
            book: &[u32],
            bound: i32,
            result: &mut [u32],
        ) -> Result<Pair, Refusal> {
            told(plain::order_for_bound(opening, book, bound, result), pair)
        }

        /// Writes the order of a listed plan, counted from 1, and gives its pair.
        pub fn order_of_plan(
            opening: u32,
            book: &[u32],
            plan: u32,
            result: &mut [u32],
        ) -> Result<Pair, Refusal> {
            told(plain::order_of_plan(opening, book, plan, result), pair)
        }

        /// The pair of a posted order, and the first listed plan that beats it.
        pub fn verdict(
            opening: u32,
            book: &[u32],
            posting: &[u32],
        ) -> Result<(Pair, Option<usize>), Refusal> {
            told(plain::verdict(opening, book, posting), |a| {
                (pair(a), (a.count != 0).then_some(a.count))
            })
        }

        /// The four words of a row, counted from 1, out of the book that was lent.
        pub fn row_words(book: &[u32], row: u32) -> Result<&[u32], Refusal> {
            told(plain::row_place(book, row), |a| a.place).map(|place| &book[place..place + 4])
        }

        /// The listed plans as pairs.
        pub fn plans(opening: u32, book: &[u32]) -> Result<Vec<Pair>, Refusal> {
            // Two words for each row: a book's rows take four words each.
            let mut result = vec![0; book.len() / 2];
            let count = list(opening, book, &mut result)?;
            Ok(pairs(&result[..2 * count]))
        }
    };
}

calls!(
    jelvaksna_list,
    jelvaksna_order_for_bound,
    jelvaksna_order_of_plan,
    jelvaksna_verdict,
    jelvaksna_row_place
);

/// The calls of the profile "first come, first due".
pub mod first_come {
    use super::{pair, pairs, told};
    use crate::{Pair, Refusal};

    calls!(
        jelvaksna_first_come_list,
        jelvaksna_first_come_order_for_bound,
        jelvaksna_first_come_order_of_plan,
        jelvaksna_first_come_verdict,
        jelvaksna_first_come_row_place
    );
}

/// The calls of the open desk: on a run of [`crate::DESK_WORDS`] words or more.
pub mod desk {
    use super::{pair, pairs, told, Moved, Opened, Pair, Refusal};
    use crate::model::MAX_ROWS;

    /// The calls on slices, with the answer as it comes.
    pub mod plain {
        use crate::linked::{raw, Answer};

        pub fn open(opening: u32, book: &[u32], desk: &mut [u32]) -> Answer {
            // SAFETY: both slices are live and aligned for the call, and `desk` is lent alone.
            unsafe {
                raw::jelvaksna_desk_open(
                    opening,
                    book.as_ptr(),
                    book.len(),
                    desk.as_mut_ptr(),
                    desk.len(),
                )
            }
        }

        pub fn start(desk: &mut [u32], row: u32, minute: u32) -> Answer {
            // SAFETY: the slice is live and aligned for the call, and lent alone.
            unsafe { raw::jelvaksna_desk_start(desk.as_mut_ptr(), desk.len(), row, minute) }
        }

        pub fn pace(desk: &mut [u32], pace: u32) -> Answer {
            // SAFETY: as for `start`.
            unsafe { raw::jelvaksna_desk_pace(desk.as_mut_ptr(), desk.len(), pace) }
        }

        pub fn list(desk: &[u32], result: &mut [u32]) -> Answer {
            // SAFETY: both slices are live and aligned for the call, and `result` is lent alone.
            unsafe {
                raw::jelvaksna_desk_list(
                    desk.as_ptr(),
                    desk.len(),
                    result.as_mut_ptr(),
                    result.len(),
                )
            }
        }

        pub fn order_of_plan(desk: &[u32], plan: u32, result: &mut [u32]) -> Answer {
            // SAFETY: as for `list`.
            unsafe {
                raw::jelvaksna_desk_order_of_plan(
                    desk.as_ptr(),
                    desk.len(),
                    plan,
                    result.as_mut_ptr(),
                    result.len(),
                )
            }
        }
    }

    /// Fills a desk from a book, which keeps the opening minutes, and gives the count of rows and the
    /// desk's minute.
    pub fn open(opening: u32, book: &[u32], desk: &mut [u32]) -> Result<Opened, Refusal> {
        told(plain::open(opening, book, desk), |a| Opened {
            rows: a.count,
            minute: a.minute,
        })
    }

    /// Starts a row at a minute, and gives the desk's new minute and the worst lateness so far.
    pub fn start(desk: &mut [u32], row: u32, minute: u32) -> Result<Moved, Refusal> {
        told(plain::start(desk, row, minute), |a| Moved {
            minute: a.minute,
            worst: a.late,
        })
    }

    /// Another reader sits down, with another pace: the rows left get their lengths by it, and all dues
    /// stay.
    pub fn pace(desk: &mut [u32], pace: u32) -> Result<(), Refusal> {
        told(plain::pace(desk, pace), |_| ())
    }

    /// Writes the listed plans of the rows left, two words each, and gives how many there are.
    pub fn list(desk: &[u32], result: &mut [u32]) -> Result<usize, Refusal> {
        told(plain::list(desk, result), |a| a.count)
    }

    /// Writes the order of a listed plan of the rows left, and gives its pair.
    pub fn order_of_plan(desk: &[u32], plan: u32, result: &mut [u32]) -> Result<Pair, Refusal> {
        told(plain::order_of_plan(desk, plan, result), pair)
    }

    /// The listed plans of the rows left as pairs.
    pub fn plans(desk: &[u32]) -> Result<Vec<Pair>, Refusal> {
        let mut result = [0; 2 * MAX_ROWS];
        let count = list(desk, &mut result)?;
        Ok(pairs(&result[..2 * count]))
    }
}

/// The call on several desks: the books end to end, the length of each in words, the closing minutes, and
/// the overtime limit of all.
pub mod several {
    use super::{told, Chosen, RefusalAtDesk};

    /// The call on slices, with the answer as it comes.
    pub mod plain {
        use crate::linked::{raw, Answer};

        pub fn choose(
            opening: u32,
            books: &[u32],
            lengths: &[u32],
            closings: &[u32],
            limit: u32,
            result: &mut [u32],
        ) -> Answer {
            // SAFETY: all slices are live and aligned for the call, and `result` is lent alone.
            unsafe {
                raw::jelvaksna_several(
                    opening,
                    books.as_ptr(),
                    books.len(),
                    lengths.as_ptr(),
                    lengths.len(),
                    closings.as_ptr(),
                    closings.len(),
                    limit,
                    result.as_mut_ptr(),
                    result.len(),
                )
            }
        }
    }

    /// Writes an order for each desk, desk after desk, one row number a word, and gives the least lateness
    /// that the limit allows and the sum of the overtimes.
    pub fn choose(
        opening: u32,
        books: &[u32],
        lengths: &[u32],
        closings: &[u32],
        limit: u32,
        result: &mut [u32],
    ) -> Result<Chosen, RefusalAtDesk> {
        let answer = plain::choose(opening, books, lengths, closings, limit, result);
        told(answer, |a| Chosen {
            late: a.late,
            overtime: a.overtime,
        })
        .map_err(|refusal| RefusalAtDesk {
            refusal,
            desk: answer.desk,
        })
    }
}

/// The call for the latest free minute.
pub mod latest {
    use super::{told, Latest, Refusal};

    /// The call on slices, with the answer as it comes.
    pub mod plain {
        use crate::linked::{raw, Answer};

        pub fn latest_free(
            opening: u32,
            book: &[u32],
            wanted_end: i32,
            wanted_late: i32,
            result: &mut [u32],
        ) -> Answer {
            // SAFETY: both slices are live and aligned for the call, and `result` is lent alone.
            unsafe {
                raw::jelvaksna_latest_free(
                    opening,
                    book.as_ptr(),
                    book.len(),
                    wanted_end,
                    wanted_late,
                    result.as_mut_ptr(),
                    result.len(),
                )
            }
        }
    }

    /// Writes the order for the wanted lateness from the latest free minute at which some order keeps both
    /// the wanted end and the wanted lateness, one row number a word, and gives that minute and the order's
    /// pair. The book's own free minute is not used.
    pub fn latest_free(
        opening: u32,
        book: &[u32],
        wanted_end: i32,
        wanted_late: i32,
        result: &mut [u32],
    ) -> Result<Latest, Refusal> {
        let answer = plain::latest_free(opening, book, wanted_end, wanted_late, result);
        told(answer, |a| Latest {
            minute: a.minute,
            end: a.end,
            late: a.late,
        })
    }
}

pub use latest::latest_free;
