/* A day of two transcripts: its plans, an order, a verdict and a row's words;
 * then the same day with minutes to open each transcript, with a class for each
 * row in place of its due, with the rows in the other sequence, at another pace,
 * and first come, first due.
 *
 *     cc -std=c11 -Iinclude host/c/example.c target/staticlib/libjelvaksna.a
 */
#include "expect.h"
#include "jelvaksna.h"
#include <inttypes.h>
#include <stdio.h>
#include <string.h>

_Static_assert(offsetof(jelvaksna_answer, place) == 0, "layout");
_Static_assert(offsetof(jelvaksna_answer, count) == 8, "layout");
_Static_assert(offsetof(jelvaksna_answer, refusal) == 16, "layout");
_Static_assert(offsetof(jelvaksna_answer, end) == 20, "layout");
_Static_assert(offsetof(jelvaksna_answer, late) == 24, "layout");
_Static_assert(offsetof(jelvaksna_answer, minute) == 28, "layout");
_Static_assert(offsetof(jelvaksna_answer, desk) == 32, "layout");
_Static_assert(offsetof(jelvaksna_answer, overtime) == 36, "layout");
_Static_assert(sizeof(jelvaksna_answer) == 40, "layout");

static void print_order(const uint32_t *order, size_t rows) {
    for (size_t i = 0; i < rows; i++)
        printf(" %" PRIu32, order[i]);
    putchar('\n');
}

int main(void) {
    /* Free from minute 0, 60 pages an hour; row: number, release, pages, due. */
    const uint32_t book[] = {
        JELVAKSNA_WORD(1, 0), JELVAKSNA_WORD(2, 60),
        JELVAKSNA_WORD(3, 901), JELVAKSNA_WORD(4, 1), JELVAKSNA_WORD(5, 1), JELVAKSNA_WORD(6, 5),
        JELVAKSNA_WORD(3, 902), JELVAKSNA_WORD(4, 0), JELVAKSNA_WORD(5, 10), JELVAKSNA_WORD(6, 12),
        JELVAKSNA_WORD(7, 2),
    };
    const size_t words = sizeof book / sizeof *book;
    uint32_t list[JELVAKSNA_MAX_LIST_WORDS];
    uint32_t order[JELVAKSNA_MAX_ROWS];

    /* The list, and the order of each plan. */
    jelvaksna_answer answer = jelvaksna_list(0, book, words, list, JELVAKSNA_MAX_LIST_WORDS);
    EXPECT(answer.refusal == 0 && answer.count == 2);
    for (size_t plan = 1; plan <= answer.count; plan++) {
        jelvaksna_answer of = jelvaksna_order_of_plan(0, book, words, (uint32_t)plan, order, 2);
        EXPECT(of.refusal == 0 && of.end == list[2 * plan - 2] && of.late == (int32_t)list[2 * plan - 1]);
        printf("plan %zu: end %" PRIu32 ", late %" PRId32 ", rows", plan, of.end, of.late);
        print_order(order, 2);
    }

    /* The soonest order that is at most 5 minutes late. */
    answer = jelvaksna_order_for_bound(0, book, words, 5, order, 2);
    EXPECT(answer.refusal == 0 && answer.end == 12 && answer.late == 0 && order[0] == 1 && order[1] == 2);
    printf("at most 5 late: end %" PRIu32 ", rows", answer.end);
    print_order(order, 2);

    /* No order is early throughout. */
    answer = jelvaksna_order_for_bound(0, book, words, -1, order, 2);
    EXPECT(answer.refusal == JELVAKSNA_UNKEPT && answer.place == 0);

    /* An order posted by hand. */
    const uint32_t posting[] = {2, 1};
    answer = jelvaksna_verdict(0, book, words, posting, 2);
    EXPECT(answer.refusal == 0 && answer.end == 11 && answer.late == 6 && answer.count == 0);
    printf("posting 2 1: end %" PRIu32 ", late %" PRId32 ", %s\n", answer.end, answer.late,
           answer.count == 0 ? "unbeaten" : "beaten");
    const uint32_t twice[] = {1, 1};
    answer = jelvaksna_verdict(0, book, words, twice, 2);
    EXPECT(answer.refusal == JELVAKSNA_NOT_POSTING && answer.place == 1);

    /* The words of row 2. */
    answer = jelvaksna_row_place(book, words, 2);
    EXPECT(answer.refusal == 0 && answer.place == 6);
    const uint32_t *row = book + answer.place;
    printf("row 2:");
    for (int i = 0; i < 4; i++)
        printf(" %" PRIu32, row[i] & 0x1fffffff);
    putchar('\n');
    answer = jelvaksna_row_place(book, words, 3);
    EXPECT(answer.refusal == JELVAKSNA_UNLISTED && answer.place == 2);

    /* Each transcript takes 3 minutes to open: 0 to 13 to 17, or 1 to 5 to 18. */
    answer = jelvaksna_list(3, book, words, list, JELVAKSNA_MAX_LIST_WORDS);
    EXPECT(answer.refusal == 0 && answer.count == 2 && list[0] == 17 && list[1] == 12 && list[2] == 18 && list[3] == 6);
    answer = jelvaksna_order_for_bound(3, book, words, 11, order, 2);
    EXPECT(answer.refusal == 0 && answer.end == 18 && answer.late == 6 && order[0] == 1 && order[1] == 2);
    printf("3 minutes to open each, at most 11 late: end %" PRIu32 ", rows", answer.end);
    print_order(order, 2);
    answer = jelvaksna_order_of_plan(3, book, words, 1, order, 2);
    EXPECT(answer.refusal == 0 && answer.end == 17 && answer.late == 12 && order[0] == 2 && order[1] == 1);
    answer = jelvaksna_verdict(3, book, words, posting, 2);
    EXPECT(answer.refusal == 0 && answer.end == 17 && answer.late == 12 && answer.count == 0);
    /* More than 30 are refused, before the book is looked at. */
    answer = jelvaksna_list(JELVAKSNA_MAX_OPENING + 1, NULL, 0, NULL, 0);
    EXPECT(answer.refusal == JELVAKSNA_RANGE && answer.place == 0);

    /* The same rows in class 0, due at 62 and 70: an hour to spare each. */
    uint32_t classes[sizeof book / sizeof *book];
    memcpy(classes, book, sizeof book);
    classes[5] = classes[9] = JELVAKSNA_WORD(0, 0);
    answer = jelvaksna_order_for_bound(0, classes, words, -55, order, 2);
    EXPECT(answer.refusal == 0 && answer.end == 12 && answer.late == -58 && order[0] == 1 && order[1] == 2);
    printf("in class 0, at least 55 early: end %" PRIu32 ", late %" PRId32 ", rows", answer.end, answer.late);
    print_order(order, 2);
    classes[9] = JELVAKSNA_WORD(0, 8);
    answer = jelvaksna_list(0, classes, words, list, JELVAKSNA_MAX_LIST_WORDS);
    EXPECT(answer.refusal == JELVAKSNA_RANGE && answer.place == 9);

    /* The rows in the other sequence: the same plan, in the numbers that the rows have now. */
    uint32_t turned[sizeof book / sizeof *book];
    memcpy(turned, book, sizeof book);
    memcpy(turned + 2, book + 6, 4 * sizeof *book);
    memcpy(turned + 6, book + 2, 4 * sizeof *book);
    answer = jelvaksna_order_for_bound(0, turned, words, 5, order, 2);
    EXPECT(answer.refusal == 0 && answer.end == 12 && answer.late == 0 && order[0] == 2 && order[1] == 1);
    printf("rows turned, at most 5 late: end %" PRIu32 ", rows", answer.end);
    print_order(order, 2);
    /* Due at 14, the long row has more spare than the one that is due at 5. */
    turned[5] = JELVAKSNA_WORD(6, 14);
    answer = jelvaksna_list(0, turned, words, list, JELVAKSNA_MAX_LIST_WORDS);
    EXPECT(answer.refusal == JELVAKSNA_DISORDER && answer.place == 6);

    /* At 50 pages an hour 1 page takes 1.2 minutes and 8 pages 9.6: lengths of 1 and 10, as before. */
    uint32_t slower[sizeof book / sizeof *book];
    memcpy(slower, book, sizeof book);
    slower[1] = JELVAKSNA_WORD(2, 50);
    slower[8] = JELVAKSNA_WORD(5, 8);
    answer = jelvaksna_order_for_bound(0, slower, words, 5, order, 2);
    EXPECT(answer.refusal == 0 && answer.end == 12 && answer.late == 0 && order[0] == 1 && order[1] == 2);
    printf("8 pages at pace 50, at most 5 late: end %" PRIu32 ", rows", answer.end);
    print_order(order, 2);

    /* First come, first due: the long row, released first, may not be due last. */
    answer = jelvaksna_first_come_list(0, book, words, list, JELVAKSNA_MAX_LIST_WORDS);
    EXPECT(answer.refusal == JELVAKSNA_CROSSED && answer.place == 6);
    /* With the short row due at 20 it is not. One plan, by release. */
    uint32_t come[sizeof book / sizeof *book];
    memcpy(come, book, sizeof book);
    come[5] = JELVAKSNA_WORD(6, 20);
    answer = jelvaksna_first_come_list(0, come, words, list, JELVAKSNA_MAX_LIST_WORDS);
    EXPECT(answer.refusal == 0 && answer.count == 1 && list[0] == 11 && (int32_t)list[1] == -2);
    answer = jelvaksna_first_come_order_of_plan(0, come, words, 1, order, 2);
    EXPECT(answer.refusal == 0 && answer.end == 11 && answer.late == -2 && order[0] == 2 && order[1] == 1);
    printf("first come, first due: end %" PRIu32 ", late %" PRId32 ", rows", answer.end, answer.late);
    print_order(order, 2);
    answer = jelvaksna_first_come_order_of_plan(0, come, words, 2, order, 2);
    EXPECT(answer.refusal == JELVAKSNA_UNLISTED && answer.place == 1);
    answer = jelvaksna_first_come_order_for_bound(0, come, words, -2, order, 2);
    EXPECT(answer.refusal == 0 && answer.end == 11 && answer.late == -2);
    answer = jelvaksna_first_come_order_for_bound(0, come, words, -3, order, 2);
    EXPECT(answer.refusal == JELVAKSNA_UNKEPT && answer.place == 0);
    const uint32_t by_row[] = {1, 2};
    answer = jelvaksna_first_come_verdict(0, come, words, by_row, 2);
    EXPECT(answer.refusal == 0 && answer.end == 12 && answer.late == 0 && answer.count == 1);
    answer = jelvaksna_first_come_list(3, come, words, list, JELVAKSNA_MAX_LIST_WORDS);
    EXPECT(answer.refusal == 0 && answer.count == 1 && list[0] == 17 && list[1] == 1);
    answer = jelvaksna_first_come_row_place(come, words, 2);
    EXPECT(answer.refusal == 0 && answer.place == 6);
    /* The other calls refuse it: the short row now has the later due and more spare. */
    answer = jelvaksna_list(0, come, words, list, JELVAKSNA_MAX_LIST_WORDS);
    EXPECT(answer.refusal == JELVAKSNA_DISORDER && answer.place == 6);

    /* A book that stops, and an empty one. */
    answer = jelvaksna_list(0, book, words - 1, list, JELVAKSNA_MAX_LIST_WORDS);
    EXPECT(answer.refusal == JELVAKSNA_CUT && answer.place == words - 1);
    answer = jelvaksna_row_place(NULL, 0, 1);
    EXPECT(answer.refusal == JELVAKSNA_CUT && answer.place == 0);
    answer = jelvaksna_list(0, NULL, 0, NULL, 0);
    EXPECT(answer.refusal == JELVAKSNA_CUT && answer.place == 0);

    /* A result one word too short is left as it was. */
    list[0] = list[2] = 77;
    answer = jelvaksna_list(0, book, words, list, 3);
    EXPECT(answer.refusal == JELVAKSNA_NARROW && list[0] == 77 && list[2] == 77);
    return 0;
}
