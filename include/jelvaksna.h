/* jelvaksna: the certification desk and its plan list, for C and C++.
 *
 * One reader at one desk takes transcripts one after another. A day is lent as
 * a book of words; each call reads it afresh, keeps nothing, allocates nothing
 * and needs no setting up. The archive has no data that is written, so calls
 * may run at the same time on several threads. A desk that is opened with a
 * book carries its rows from then on, in words that the caller lends and keeps.
 * A bureau may lend the books of several desks at once.
 *
 * Link with libjelvaksna.a, which `host/build.sh jelvaksna` makes after it has
 * proved what each call does. This header is kept by hand; host/tests/header.rs
 * holds it to the exported functions.
 *
 * THE BOOK is a run of 32-bit words in the byte order of the machine. The top
 * three bits of a word are its kind, the low 29 bits its value:
 *
 *     kind  word                       value
 *     1     free minute of the desk    0 to 10,000,000
 *     2     pace, pages an hour        4 to 120
 *     3     order number of a row      any, but no number twice
 *     4     release of the row         0 to 10,000,000
 *     5     pages of the row           1 to 2,000
 *     6     due of the row             0 to 20,000,000
 *     0     class of the row           0 to 7, in place of its due
 *     7     end                        the count of rows
 *
 * in the sequence 1, 2, then 1 to 256 rows of 3, 4, 5 and either 6 or 0, then
 * 7, and nothing after it. Times are whole minutes. A row's length is its
 * reading time, pages * 60 / pace, to the nearest minute, an exact half going
 * up; it lies between 1 and 30,000. (Versions before 1.3 rounded up, so a list
 * may differ from theirs.) A row with a class word is due at release + length +
 * margin, with the margin of its class:
 *
 *     class    0    1    2      3      4       5       6       7
 *     margin  60  120  480  1,440  4,320  10,080  20,160  43,200
 *
 * A row's spare is due - release - length; where it has a class that is the
 * margin. Two rows disagree if one has the smaller due and also the smaller
 * spare. Rows may stand in any order, as long as no two of them disagree. Rows
 * of one class never do. The profile below has another rule in place of this.
 *
 * Word places count from 0. Rows, plans and the row numbers in an order or a
 * posting count from 1, in the sequence of the book; they are not the order
 * numbers of the kind 3 words.
 *
 * OPENING. The software takes some minutes to open each transcript, the same for
 * all: `opening`, from 0 to 30, is the first argument of the eleven calls that
 * work out ends or open a desk. A row ends at its start plus opening plus length.
 * Length is the reading time alone: spare and the due of a class do not count
 * opening, nor does the test which rows disagree. Outside 0 to 30 such a call is
 * refused RANGE at 0, before the book is looked at.
 *
 * From 1.x: pass 0 as the first argument of the nine of these calls that 1.5
 * had, and every answer is what 1.5 gave. A desk that 1.5 left is, word for
 * word, one that 2.0 opened with 0.
 *
 * A PLAN is a pair that some order of all rows attains, its end and its worst
 * lateness (the largest of end minus due; below 0 where all work is early),
 * such that no order has both numbers no greater and one of them smaller. The
 * list has all of them by rising end, so their lateness falls. It never has
 * more plans than the book has rows.
 *
 * A LATER START. Two books that differ in the free word alone, in range in both,
 * are accepted alike, or their lists are refused with one number and place.
 * Where the second is free d minutes later, each plan of its list is met by one
 * of the first list with both numbers no greater, and each plan of the first
 * list by one of its list with both at most d larger. It may list more plans or
 * fewer, so the plan that meets another may have another number.
 *
 * FIRST COME, FIRST DUE is a profile for books where a transcript released
 * earlier is never due later. It is chosen by calling it: each call, but those
 * of the open desk, that of several desks and that of the latest free minute,
 * has another of its name with first_come_ put in. Two rows cross if one has
 * the smaller release and also the larger due; the profile accepts rows in any
 * order, as long as no two of them cross, and whether they disagree does not
 * matter. Its list is one plan, with the rows by release, then due, then row:
 * no order of the rows ends sooner, and none has a smaller worst lateness. A
 * book may be accepted by the profile, by the other calls, by both or by
 * neither. Where both accept it they list the same plan, though its order may
 * differ.
 *
 * THE OPEN DESK is a run of JELVAKSNA_DESK_WORDS words or more that is filled
 * from a book when it is opened. It holds the rows with the pages of each,
 * which of them are done, the opening minutes that it was opened with, the
 * desk's minute, and the worst lateness so far: none until a row is done.
 * Later calls on it lend no book and are told no opening. A start takes a row
 * off the rows left. The list and the order of a plan are those of the rows
 * left, which keep their row numbers, from the desk's minute on; latenesses
 * are those of the rows left alone. The profile has no open desk. Words of a
 * longer run past those of the desk hold what they held, in every call.
 *
 * A CHANGE OF PACE is made where another reader sits down at an open desk. The
 * rows left get new lengths, from their pages by the new pace, to the nearest
 * minute as in a book. Nothing else moves: not the desk's minute, the worst
 * lateness so far, or anything of a row that is done; not the opening minutes,
 * and no due. A due that a class gave stays too, so the row's spare may no
 * longer be the margin, and rows of one class may come to disagree. A change
 * after which two rows left would disagree is refused, and the desk goes on at
 * its old pace. Rows done are not looked at: a change that is refused may be
 * accepted once another row is done, and with one row left or none no two
 * disagree. The pace that the desk has is accepted again, and changes no word.
 *
 * How the words are laid out is the library's own and may change with a
 * version; how many they are does not. On one version a desk may be copied,
 * stored and moved as plain words. Calls that write a desk (open, start, pace)
 * must not run at the same time as any other call on it; calls that only read
 * it (list, order of plan) may run at the same time as each other. A refused
 * call leaves the desk as it is, so it always holds what the accepted starts
 * and changes of pace alone give, in their order.
 *
 * A desk that 2.0 left stays open, but its pace cannot be changed (RANGE at 0):
 * it has no pages.
 *
 * A run that is shorter, or that a call can see to be no desk, is refused RANGE
 * at 0 and left as it is. But a run that was never opened, or that was written
 * to since, may also pass for a desk: what is said here of memory then holds,
 * and nothing else is promised.
 *
 * Ends and latenesses on a desk are at most 27,687,680 (on a book 17,687,680),
 * its minute at most 20,030,030. A start past minute 20,000,000 is refused
 * EARLY, so a desk whose own minute is past it can start nothing more; its
 * list, its orders and changes of its pace go on.
 *
 * SEVERAL DESKS. A bureau runs 1 to 8 desks, each with a book and a closing
 * minute, under one overtime limit. The overtime of a plan, as of any order, is
 * how far its end passes the closing minute of its desk, or 0. A plan is chosen
 * for each desk: their overtimes add up to at most the limit, and the greatest
 * worst lateness over all desks is the least with which that can be done. It is
 * the least among all orders of the rows of every desk, also orders that are on
 * no list: whatever order each desk might take, if the overtimes keep the
 * limit, some desk is at least that late. Each desk takes its first listed plan
 * whose worst lateness is at most that, though it may have one that is less
 * late; so none of its orders that are at most that late ends sooner.
 *
 * The books are lent end to end in one run, their lengths in words in a second,
 * the closing minutes in a third. Each book is read by itself, as its own part
 * of the run; no two of its rows may disagree. The profile has no such call.
 * One opening serves all desks. A refusal of a book has its desk, counted from
 * 1, and a place that counts within that desk's book. Any other concerns no
 * single book and has desk 0, place 0. The greatest limit is never refused
 * OVERTIME: no overtimes add up to more than 141,501,440.
 *
 * From 2.0 or 2.1: compile again, and change nothing else. The struct that
 * every call returns has two fields more at its end, 0 in every other call than
 * this one, so a caller that was compiled with their header must not be linked
 * with this version.
 *
 * HOW LATE CAN THE DESK OPEN. An order keeps a wanted end and a wanted worst
 * lateness if its own are at most these. The answer is the latest free minute,
 * from 0 to 10,000,000, from which some order keeps both. A later free minute
 * never helps: of the minutes of that range those up to the answer allow it,
 * and no other does. If not even free minute 0 allows it the call is refused
 * UNREACHABLE. The wanted numbers may be any; a negative end is never reached.
 *
 * The order given is that for the wanted lateness as a bound, from the minute
 * answered: the one that jelvaksna_order_for_bound gives, with its pair, of the
 * same book with that free minute. So it ends no later than any order that is
 * at most that late from there. A desk that would stand idle before a release
 * can open later at no cost: many free minutes may give one end and lateness,
 * and the last of them is answered.
 *
 * The book's own free word is read and tested as in any call, and not used:
 * books that differ in it alone, in range in both, have one answer and order.
 * No two rows may disagree. The profile has no such call.
 *
 * From 2.2: change nothing, and there is no need to compile again. This call is
 * all that is new; the struct is as it was.
 *
 * WHAT IS LENT. Pointers are aligned for uint32_t, their lengths count words,
 * and all those words can be read; those of `result`, and of the desk in a
 * call that writes one (open, start, pace), can also be written. What can be
 * written overlaps nothing else that is lent to the same call: no `result`
 * overlaps a desk, and no desk its book. Where a length is 0 the pointer may
 * be NULL. Only `result`, and the desk in these three calls, are ever written,
 * on success only, and only as far as each call says; further words of them
 * hold what they held. A refused call writes nothing.
 *
 * STACK. A call uses up to 52 KB of its caller's stack, that of several desks
 * up to 86 KB, as measured on x86-64; that there is room is not proved. In a
 * program that looks up memcpy where it is first called, the first call uses 2
 * KB more. Give a thread that calls 64 KB at least, for several desks 96 KB.
 *
 * THE SEQUENCE OF REFUSALS. A call that is told an opening, or lent a desk in
 * place of a book, begins with RANGE, at 0; that of several desks tests there
 * all that can be lent amiss; a change of pace then tests the pace, RANGE at 0
 * too. The words of the book are tested from the first on, at one word in the
 * sequence CUT, KIND, FULL, RANGE, TWICE, COUNT. Then come TAIL, DISORDER (in
 * the profile CROSSED), and of several desks the next book. Then come
 * NOT_POSTING, UNLISTED, DONE, EARLY, NARROW, UNKEPT (of the latest free minute
 * UNREACHABLE), OVERTIME. The first condition met is the one that is told.
 */
#ifndef JELVAKSNA_H
#define JELVAKSNA_H

#include <stddef.h>
#include <stdint.h>

#define JELVAKSNA_VERSION "2.3"

/* The refusals, and the place that comes with each. */
#define JELVAKSNA_CUT 1          /* the book stops where a word is due: its length */
#define JELVAKSNA_KIND 2         /* another kind is due here: the word */
#define JELVAKSNA_RANGE 3        /* a value outside its range: the word; the opening, a new pace, no desk, or desks lent amiss: 0 */
#define JELVAKSNA_TWICE 4        /* the number of an earlier row: the number word */
#define JELVAKSNA_FULL 5         /* a number word would open row 257: that word */
#define JELVAKSNA_COUNT 6        /* the end word differs from the rows read: that word */
#define JELVAKSNA_TAIL 7         /* a word follows the end word: that word */
#define JELVAKSNA_DISORDER 8     /* two rows (on a desk, rows left) disagree: number word of the first row that does with one above */
#define JELVAKSNA_NARROW 9       /* the result, or the run for a desk, is too short: 0 */
#define JELVAKSNA_NOT_POSTING 10 /* not every row once: see jelvaksna_verdict */
#define JELVAKSNA_UNLISTED 11    /* no row or plan of that number: how many there are */
#define JELVAKSNA_UNKEPT 12      /* no order keeps the bound: 0 */
#define JELVAKSNA_CROSSED 13     /* two rows cross: number word of the first row that does with one above */
#define JELVAKSNA_DONE 14        /* the row was started before: the row */
#define JELVAKSNA_EARLY 15       /* before the desk's minute or the release, or past 20,000,000: 0 */
#define JELVAKSNA_OVERTIME 16    /* no orders of the desks keep the limit: 0 */
#define JELVAKSNA_UNREACHABLE 17 /* no free minute lets an order keep the wanted end and lateness: 0 */

/* Limits. */
#define JELVAKSNA_MAX_OPENING 30       /* opening minutes */
#define JELVAKSNA_MAX_FREE 10000000    /* free minute of a desk */
#define JELVAKSNA_MIN_PACE 4           /* pages an hour, at least */
#define JELVAKSNA_MAX_PACE 120         /* pages an hour, at most */
#define JELVAKSNA_MAX_ROWS 256         /* words that any order fits in */
#define JELVAKSNA_MAX_LIST_WORDS 512   /* words that any list fits in */
#define JELVAKSNA_MAX_BOOK_WORDS 1027  /* words of the longest accepted book */
#define JELVAKSNA_DESK_WORDS 1288      /* words of an open desk */
#define JELVAKSNA_MAX_DESKS 8          /* desks of a bureau */
#define JELVAKSNA_MAX_CLOSING 20000000 /* closing minute of a desk */
#define JELVAKSNA_MAX_LIMIT 200000000  /* overtime limit of a bureau */

/* The word of a kind with a value; JELVAKSNA_WORD(0, 3) is class 3. */
#define JELVAKSNA_WORD(kind, value) ((uint32_t)(kind) << 29 | (uint32_t)(value))

#ifdef __cplusplus
extern "C" {
#endif

/* What every call answers. Fields that a case does not speak of are 0. */
typedef struct jelvaksna_answer {
    size_t place;      /* place of a refusal, or of a row's number word */
    size_t count;      /* count of plans or of a desk's rows, or the first plan that beats a posting */
    uint32_t refusal;  /* 0, or the refusal's number, 1 to 17; 8 never in the profile, 13 only there */
    uint32_t end;      /* end of the order or the posting */
    int32_t late;      /* its worst lateness; after a start, the worst so far; of several desks, the least */
    uint32_t minute;   /* the desk's minute, or the latest free minute */
    uint32_t desk;     /* the desk that a refusal concerns, from 1; 0 where none */
    uint32_t overtime; /* the sum of the overtimes */
} jelvaksna_answer;

/* The list. `result` has two words for each row of the book or more, whatever
 * the count of plans; each plan takes two: its end, and its worst lateness in
 * two's complement, so that (int32_t)result[1] is the first plan's lateness.
 * Answers `count`, the count of plans, at least 1.
 * Refused: 1 to 8, NARROW. */
jelvaksna_answer jelvaksna_list(uint32_t opening,
                                const uint32_t *book, size_t book_len,
                                uint32_t *result, size_t result_len);

/* The order for a lateness bound: an order of all rows with no row later than
 * the bound, which may be negative; it ends no later than any order that keeps
 * the bound. For the lateness of a listed plan it is that plan's order.
 * `result` has one word for each row or more and takes the row numbers. Answers
 * `end` and `late`, the order's own.
 * Refused: 1 to 8, NARROW, UNKEPT. */
jelvaksna_answer jelvaksna_order_for_bound(uint32_t opening,
                                           const uint32_t *book, size_t book_len,
                                           int32_t bound,
                                           uint32_t *result, size_t result_len);

/* The order of a listed plan, counted from 1. `result` as for a bound. Answers
 * `end` and `late`, the plan's pair.
 * Refused: 1 to 8, UNLISTED with the count of plans, NARROW. */
jelvaksna_answer jelvaksna_order_of_plan(uint32_t opening,
                                         const uint32_t *book, size_t book_len,
                                         uint32_t plan,
                                         uint32_t *result, size_t result_len);

/* The verdict on a posting, an order of rows made by hand. Answers its `end`
 * and `late`, and in `count` 0 if no order beats it, or else the first listed
 * plan with both numbers no greater and one smaller.
 * Refused: 1 to 8, NOT_POSTING. Its place is the smaller of posting_len and
 * the count of rows where these differ, otherwise the place in the posting,
 * from 0, of the first entry that is no row or came before. */
jelvaksna_answer jelvaksna_verdict(uint32_t opening,
                                   const uint32_t *book, size_t book_len,
                                   const uint32_t *posting, size_t posting_len);

/* Where a row stands, counted from 1. Answers `place`, the place of its number
 * word: the row's four words are book[place] to book[place + 3], the last of
 * them its due word or its class word. It works out no ends, so it is told no
 * opening.
 * Refused: 1 to 8, UNLISTED with the count of rows. */
jelvaksna_answer jelvaksna_row_place(const uint32_t *book, size_t book_len,
                                     uint32_t row);

/* The calls of the profile. Each does what the call without first_come_ in its
 * name does, with the same buffers, answer and refusals, but CROSSED in the
 * place of DISORDER. What follows from there being one plan stands at each.
 *
 * The list: `count` is 1. `result` has two words for each row all the same. */
jelvaksna_answer jelvaksna_first_come_list(uint32_t opening,
                                           const uint32_t *book, size_t book_len,
                                           uint32_t *result, size_t result_len);

/* The order for a lateness bound: that of the one plan, if it keeps the bound. */
jelvaksna_answer jelvaksna_first_come_order_for_bound(uint32_t opening,
                                                      const uint32_t *book, size_t book_len,
                                                      int32_t bound,
                                                      uint32_t *result, size_t result_len);

/* The order of a listed plan: of plan 1. Any other is UNLISTED with place 1. */
jelvaksna_answer jelvaksna_first_come_order_of_plan(uint32_t opening,
                                                    const uint32_t *book, size_t book_len,
                                                    uint32_t plan,
                                                    uint32_t *result, size_t result_len);

/* The verdict on a posting: `count` is 1 if the one plan beats it, otherwise 0. */
jelvaksna_answer jelvaksna_first_come_verdict(uint32_t opening,
                                              const uint32_t *book, size_t book_len,
                                              const uint32_t *posting, size_t posting_len);

/* Where a row stands. */
jelvaksna_answer jelvaksna_first_come_row_place(const uint32_t *book, size_t book_len,
                                                uint32_t row);

/* The calls of the open desk.
 *
 * Opens a desk with a book: all its rows are left, at the free minute. It
 * keeps `opening`, and the pages of each row. `desk` has JELVAKSNA_DESK_WORDS
 * words or more and may hold anything; so many of them are written. Answers
 * `count`, the count of rows, and `minute`, the desk's.
 * Refused: 1 to 8, NARROW. */
jelvaksna_answer jelvaksna_desk_open(uint32_t opening,
                                     const uint32_t *book, size_t book_len,
                                     uint32_t *desk, size_t desk_len);

/* Starts a row at a minute. The row is done, and the desk moves to that minute
 * plus opening plus the length that the row then has. Answers `minute`, the
 * desk's new one, and `late`, the worst lateness so far; it is below 0 where
 * every row done was early.
 * Refused: RANGE, UNLISTED with the count of all rows of the desk, DONE with
 * the row, EARLY. */
jelvaksna_answer jelvaksna_desk_start(uint32_t *desk, size_t desk_len,
                                      uint32_t row, uint32_t minute);

/* Changes the pace to `pace` pages an hour: the rows left get new lengths, and
 * nothing else moves, no due either. It may be called at any time, as often as
 * readers change, with no row left too. An accepted change answers 0 in every
 * field.
 * Refused: RANGE for the run; RANGE for a pace outside 4 to 120, at 0 as well;
 * DISORDER where two rows left disagree by their new lengths. Its place is
 * 4 * row - 2 with the first row left that disagrees with a row left above it:
 * where the row's number word stood in the book that the desk was opened with,
 * whatever rows are done. */
jelvaksna_answer jelvaksna_desk_pace(uint32_t *desk, size_t desk_len,
                                     uint32_t pace);

/* The list of the rows left. `result` as for a book's list, with two words for
 * each row left or more. Answers `count`, the count of plans: at least 1 as
 * long as a row is left, then 0.
 * Refused: RANGE, NARROW. */
jelvaksna_answer jelvaksna_desk_list(const uint32_t *desk, size_t desk_len,
                                     uint32_t *result, size_t result_len);

/* The order of a listed plan of the rows left, counted from 1. `result` has one
 * word for each row left or more and takes the row numbers. Answers `end` and
 * `late`, the plan's pair.
 * Refused: RANGE, UNLISTED with the count of plans, NARROW. */
jelvaksna_answer jelvaksna_desk_order_of_plan(const uint32_t *desk, size_t desk_len,
                                              uint32_t plan,
                                              uint32_t *result, size_t result_len);

/* The call of several desks.
 *
 * Chooses a plan for each desk of a bureau under one overtime limit. `books` has
 * the books of all desks end to end, `lengths` the length in words of each, and
 * `closings` the closing minute of each desk. `result` has one word for each row
 * of all books or more, and takes the orders of the plans desk after desk, each
 * as jelvaksna_order_of_plan gives it: row numbers count within the desk's book,
 * and an accepted book of n words has (n - 3) / 4 rows. Answers `late`, the least
 * lateness, and `overtime`, the sum of the overtimes.
 * Refused: RANGE at 0, desk 0, for an opening past 30, no desk or more than 8,
 * unequal counts of lengths and closing minutes, lengths that do not add up to
 * books_len (they are added without wrapping), a closing minute past 20,000,000
 * or a limit past 200,000,000. Then 1 to 8 with the desk, for the first book
 * that is refused; one of length 0 is CUT at 0. After all books NARROW, and last
 * OVERTIME, exactly if no orders of the desks keep the limit: both at 0, desk 0. */
jelvaksna_answer jelvaksna_several(uint32_t opening,
                                   const uint32_t *books, size_t books_len,
                                   const uint32_t *lengths, size_t lengths_len,
                                   const uint32_t *closings, size_t closings_len,
                                   uint32_t limit,
                                   uint32_t *result, size_t result_len);

/* The call of the latest free minute.
 *
 * How late the desk can open: the latest free minute from which some order ends
 * by `wanted_end` and is at most `wanted_late` late, both of which may be
 * negative. `result` has one word for each row or more and takes the row
 * numbers of the order for `wanted_late` as a bound from that minute on.
 * Answers `minute`, 0 to 10,000,000, and `end` and `late`, the order's own.
 * Refused: 1 to 8, NARROW, UNREACHABLE: exactly if not even free minute 0
 * allows it. */
jelvaksna_answer jelvaksna_latest_free(uint32_t opening,
                                       const uint32_t *book, size_t book_len,
                                       int32_t wanted_end, int32_t wanted_late,
                                       uint32_t *result, size_t result_len);

#ifdef __cplusplus
}
#endif

#endif
