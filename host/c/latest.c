/* How late can the desk open? A supervisor says by when the desk must be done and
 * how late a transcript may be at most: the latest free minute, and the order from
 * there; a gap in the day, in which the desk may open later at no cost; what
 * cannot be reached from any minute; that the minute answered is the last; and
 * the same where each transcript takes minutes to open.
 *
 *     cc -std=c11 -Iinclude host/c/latest.c target/staticlib/libjelvaksna.a
 */
#include "expect.h"
#include "jelvaksna.h"
#include <inttypes.h>
#include <stdio.h>
#include <string.h>

enum { ROWS = 4, WORDS = 4 * ROWS + 3 };

/* Free from minute 480, 60 pages an hour; row: number, release, pages, due. */
static const uint32_t book[WORDS] = {
    JELVAKSNA_WORD(1, 480), JELVAKSNA_WORD(2, 60),
    JELVAKSNA_WORD(3, 901), JELVAKSNA_WORD(4, 481), JELVAKSNA_WORD(5, 1), JELVAKSNA_WORD(6, 485),
    JELVAKSNA_WORD(3, 902), JELVAKSNA_WORD(4, 480), JELVAKSNA_WORD(5, 10), JELVAKSNA_WORD(6, 492),
    JELVAKSNA_WORD(3, 903), JELVAKSNA_WORD(4, 541), JELVAKSNA_WORD(5, 1), JELVAKSNA_WORD(6, 544),
    JELVAKSNA_WORD(3, 904), JELVAKSNA_WORD(4, 540), JELVAKSNA_WORD(5, 20), JELVAKSNA_WORD(6, 562),
    JELVAKSNA_WORD(7, ROWS),
};

/* How late the desk can open, with the order from there, or what is wrong. */
static jelvaksna_answer ask(uint32_t opening, int32_t end, int32_t late, uint32_t *order) {
    jelvaksna_answer answer = jelvaksna_latest_free(opening, book, WORDS, end, late, order, ROWS);
    printf("opening %" PRIu32 ", done by %" PRId32 ", at most %" PRId32 " late: ", opening, end, late);
    if (answer.refusal != 0) {
        printf("refused %" PRIu32 " at %zu\n", answer.refusal, answer.place);
        return answer;
    }
    printf("open by %" PRIu32 ", end %" PRIu32 ", late %" PRId32 ", rows", answer.minute, answer.end, answer.late);
    for (size_t i = 0; i < ROWS; i++)
        printf(" %" PRIu32, order[i]);
    putchar('\n');
    EXPECT((int64_t)answer.end <= end && answer.late <= late);
    return answer;
}

static int is_order(const uint32_t *order, uint32_t a, uint32_t b, uint32_t c, uint32_t d) {
    return order[0] == a && order[1] == b && order[2] == c && order[3] == d;
}

int main(void) {
    uint32_t order[ROWS], other[ROWS], copy[WORDS];

    /* By 562 and nothing late: row 1 is released at 481, and row 2 must follow it at once. */
    jelvaksna_answer answer = ask(0, 562, 0, order);
    EXPECT(answer.refusal == 0 && answer.minute == 481 && answer.end == 562 && answer.late == 0);
    EXPECT(is_order(order, 1, 2, 3, 4));

    /* A minute sooner: row 4 has to go before row 3, which is then 17 late, and so may the others be. */
    answer = ask(0, 561, 17, order);
    EXPECT(answer.refusal == 0 && answer.minute == 498 && answer.end == 561 && answer.late == 17);
    EXPECT(is_order(order, 1, 2, 4, 3));
    answer = ask(0, 561, 16, order);
    EXPECT(answer.refusal == JELVAKSNA_UNREACHABLE && answer.place == 0 && answer.minute == 0);

    /* Late or not: the desk would stand idle before 540, and rows 1 and 2 may wait as long. */
    answer = ask(0, 561, 100, order);
    EXPECT(answer.refusal == 0 && answer.minute == 529 && answer.end == 561 && answer.late == 48);
    EXPECT(is_order(order, 1, 2, 4, 3));

    /* That minute is the last: with this free minute the order for the bound is the same, and from the
     * minute after it no order that keeps the bound ends by 561. */
    memcpy(copy, book, sizeof copy);
    copy[0] = JELVAKSNA_WORD(1, answer.minute);
    jelvaksna_answer of = jelvaksna_order_for_bound(0, copy, WORDS, 100, other, ROWS);
    EXPECT(of.refusal == 0 && of.end == answer.end && of.late == answer.late);
    EXPECT(memcmp(order, other, sizeof order) == 0);
    copy[0] = JELVAKSNA_WORD(1, answer.minute + 1);
    of = jelvaksna_order_for_bound(0, copy, WORDS, 100, other, ROWS);
    EXPECT(of.refusal == 0 && of.end == 562);

    /* The book's own free minute is not used, but it must be one. */
    for (uint32_t free = 0; free <= JELVAKSNA_MAX_FREE; free += JELVAKSNA_MAX_FREE / 4) {
        copy[0] = JELVAKSNA_WORD(1, free);
        of = jelvaksna_latest_free(0, copy, WORDS, 561, 100, other, ROWS);
        EXPECT(of.refusal == 0 && of.minute == 529 && of.end == 561 && of.late == 48);
        EXPECT(memcmp(order, other, sizeof order) == 0);
    }
    copy[0] = JELVAKSNA_WORD(1, JELVAKSNA_MAX_FREE + 1);
    of = jelvaksna_latest_free(0, copy, WORDS, 561, 100, other, ROWS);
    EXPECT(of.refusal == JELVAKSNA_RANGE && of.place == 0);

    /* Nothing ends before 561, and nothing before 0. Where all is allowed, the last free minute of all. */
    answer = ask(0, 560, INT32_MAX, order);
    EXPECT(answer.refusal == JELVAKSNA_UNREACHABLE && answer.place == 0);
    answer = ask(0, -1, INT32_MAX, order);
    EXPECT(answer.refusal == JELVAKSNA_UNREACHABLE && answer.place == 0);
    answer = ask(0, INT32_MAX, INT32_MAX, order);
    EXPECT(answer.refusal == 0 && answer.minute == JELVAKSNA_MAX_FREE && answer.end == JELVAKSNA_MAX_FREE + 32);

    /* Each transcript takes 2 minutes to open. */
    answer = ask(2, 570, 30, order);
    EXPECT(answer.refusal == 0 && answer.minute == 507 && answer.end == 565 && answer.late == 30);
    answer = ask(2, 562, 100, order);
    EXPECT(answer.refusal == JELVAKSNA_UNREACHABLE && answer.place == 0);

    /* The opening is looked at first, then the book, then the result, which is left as it was. */
    order[0] = order[ROWS - 1] = 77;
    answer = jelvaksna_latest_free(JELVAKSNA_MAX_OPENING + 1, NULL, 0, 562, 0, NULL, 0);
    EXPECT(answer.refusal == JELVAKSNA_RANGE && answer.place == 0);
    answer = jelvaksna_latest_free(0, NULL, 0, 562, 0, NULL, 0);
    EXPECT(answer.refusal == JELVAKSNA_CUT && answer.place == 0);
    answer = jelvaksna_latest_free(0, book, WORDS - 1, 562, 0, NULL, 0);
    EXPECT(answer.refusal == JELVAKSNA_CUT && answer.place == WORDS - 1);
    answer = jelvaksna_latest_free(0, book, WORDS, 560, 0, order, ROWS - 1);
    EXPECT(answer.refusal == JELVAKSNA_NARROW && answer.place == 0);
    answer = jelvaksna_latest_free(0, book, WORDS, 560, 0, order, ROWS);
    EXPECT(answer.refusal == JELVAKSNA_UNREACHABLE && order[0] == 77 && order[ROWS - 1] == 77);
    return 0;
}
