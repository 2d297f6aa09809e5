/* A bureau of three desks under one overtime limit: the plans of each desk; what
 * is chosen for ever smaller limits, desk by desk, down to one that no orders
 * keep; the same where each transcript takes minutes to open; and what else is
 * refused, with the desk that it concerns.
 *
 *     cc -std=c11 -Iinclude host/c/bureau.c target/staticlib/libjelvaksna.a
 */
#include "expect.h"
#include "jelvaksna.h"
#include <inttypes.h>
#include <stdio.h>

enum { DESKS = 3, ROWS = 8 };

/* The books end to end. Free minute, pages an hour; row: number, release, pages, due. */
static const uint32_t books[] = {
    /* The first desk, 11 words. */
    JELVAKSNA_WORD(1, 480), JELVAKSNA_WORD(2, 60),
    JELVAKSNA_WORD(3, 901), JELVAKSNA_WORD(4, 481), JELVAKSNA_WORD(5, 1), JELVAKSNA_WORD(6, 485),
    JELVAKSNA_WORD(3, 902), JELVAKSNA_WORD(4, 480), JELVAKSNA_WORD(5, 10), JELVAKSNA_WORD(6, 492),
    JELVAKSNA_WORD(7, 2),
    /* The second, 19 words. */
    JELVAKSNA_WORD(1, 480), JELVAKSNA_WORD(2, 60),
    JELVAKSNA_WORD(3, 903), JELVAKSNA_WORD(4, 481), JELVAKSNA_WORD(5, 1), JELVAKSNA_WORD(6, 486),
    JELVAKSNA_WORD(3, 904), JELVAKSNA_WORD(4, 484), JELVAKSNA_WORD(5, 1), JELVAKSNA_WORD(6, 489),
    JELVAKSNA_WORD(3, 905), JELVAKSNA_WORD(4, 488), JELVAKSNA_WORD(5, 1), JELVAKSNA_WORD(6, 493),
    JELVAKSNA_WORD(3, 906), JELVAKSNA_WORD(4, 480), JELVAKSNA_WORD(5, 20), JELVAKSNA_WORD(6, 504),
    JELVAKSNA_WORD(7, 4),
    /* The third, 11 words: rows of class 0, an hour to spare each. */
    JELVAKSNA_WORD(1, 480), JELVAKSNA_WORD(2, 30),
    JELVAKSNA_WORD(3, 907), JELVAKSNA_WORD(4, 483), JELVAKSNA_WORD(5, 2), JELVAKSNA_WORD(0, 0),
    JELVAKSNA_WORD(3, 908), JELVAKSNA_WORD(4, 480), JELVAKSNA_WORD(5, 8), JELVAKSNA_WORD(0, 0),
    JELVAKSNA_WORD(7, 2),
};
static const uint32_t lengths[DESKS] = {11, 19, 11};
static const uint32_t closings[DESKS] = {490, 500, 501};
static const size_t words = sizeof books / sizeof *books;

/* The plans of each desk, and how far each passes closing. */
static void print_plans(void) {
    const uint32_t *book = books;
    for (size_t desk = 0; desk < DESKS; book += lengths[desk++]) {
        uint32_t list[JELVAKSNA_MAX_LIST_WORDS];
        jelvaksna_answer answer = jelvaksna_list(0, book, lengths[desk], list, JELVAKSNA_MAX_LIST_WORDS);
        EXPECT(answer.refusal == 0);
        for (size_t plan = 1; plan <= answer.count; plan++) {
            const uint32_t end = list[2 * plan - 2];
            const int32_t late = (int32_t)list[2 * plan - 1];
            const uint32_t over = end > closings[desk] ? end - closings[desk] : 0;
            printf("desk %zu, plan %zu: end %" PRIu32 ", %" PRIu32 " over, late %" PRId32 "\n",
                   desk + 1, plan, end, over, late);
        }
    }
}

/* What is chosen under a limit, desk by desk, or what is wrong. */
static jelvaksna_answer choose(uint32_t opening, uint32_t limit, uint32_t *result) {
    jelvaksna_answer answer =
        jelvaksna_several(opening, books, words, lengths, DESKS, closings, DESKS, limit, result, ROWS);
    printf("opening %" PRIu32 ", limit %" PRIu32 ": ", opening, limit);
    if (answer.refusal != 0) {
        printf("refused %" PRIu32 " at %zu, desk %" PRIu32 "\n", answer.refusal, answer.place, answer.desk);
        return answer;
    }
    printf("late %" PRId32 ", overtime %" PRIu32 "\n", answer.late, answer.overtime);
    const uint32_t *book = books, *order = result;
    for (size_t desk = 0; desk < DESKS; desk++) {
        /* A row has four words in its book, and one in the result. */
        const size_t rows = (lengths[desk] - 3) / 4;
        jelvaksna_answer of = jelvaksna_verdict(opening, book, lengths[desk], order, rows);
        EXPECT(of.refusal == 0 && of.count == 0 && of.late <= answer.late);
        printf("  desk %zu: end %" PRIu32 ", late %" PRId32 ", rows", desk + 1, of.end, of.late);
        for (size_t i = 0; i < rows; i++)
            printf(" %" PRIu32, order[i]);
        putchar('\n');
        book += lengths[desk];
        order += rows;
    }
    return answer;
}

int main(void) {
    uint32_t result[ROWS];
    print_plans();

    /* Room for all: the second desk cannot be less late than 5, and the others need be no less late. The
     * third has a plan that is 53 early, and takes its first one. */
    jelvaksna_answer answer = choose(0, JELVAKSNA_MAX_LIMIT, result);
    EXPECT(answer.refusal == 0 && answer.late == 5 && answer.overtime == 11);
    EXPECT(result[0] == 1 && result[1] == 2 && result[2] == 1 && result[6] == 2 && result[7] == 1);
    answer = choose(0, 11, result);
    EXPECT(answer.refusal == 0 && answer.late == 5 && answer.overtime == 11);

    /* A minute less: the first desk may be 6 late. */
    answer = choose(0, 10, result);
    EXPECT(answer.refusal == 0 && answer.late == 6 && answer.overtime == 10);
    EXPECT(result[0] == 2 && result[1] == 1 && result[4] == 3 && result[5] == 4);

    /* Then the second desk has to end sooner. Not all of the limit is used. */
    answer = choose(0, 9, result);
    EXPECT(answer.refusal == 0 && answer.late == 13 && answer.overtime == 7);
    EXPECT(result[0] == 2 && result[1] == 1 && result[4] == 4 && result[5] == 3);
    answer = choose(0, 4, result);
    EXPECT(answer.refusal == 0 && answer.late == 15 && answer.overtime == 4);

    /* No orders of the desks keep this limit. */
    answer = choose(0, 3, result);
    EXPECT(answer.refusal == JELVAKSNA_OVERTIME && answer.place == 0 && answer.desk == 0);
    EXPECT(answer.late == 0 && answer.overtime == 0);

    /* Each transcript takes 2 minutes to open, at every desk. */
    answer = choose(2, 40, result);
    EXPECT(answer.refusal == 0 && answer.late == 9 && answer.overtime == 22);

    /* The books parted at other words: the second stops at its word 18. */
    const uint32_t other[DESKS] = {11, 18, 12};
    result[0] = result[ROWS - 1] = 77;
    answer = jelvaksna_several(0, books, words, other, DESKS, closings, DESKS, 9, result, ROWS);
    EXPECT(answer.refusal == JELVAKSNA_CUT && answer.place == 18 && answer.desk == 2);
    /* Lengths that do not add up, or a closing minute for no desk, concern no single book. */
    answer = jelvaksna_several(0, books, words - 1, lengths, DESKS, closings, DESKS, 9, result, ROWS);
    EXPECT(answer.refusal == JELVAKSNA_RANGE && answer.place == 0 && answer.desk == 0);
    answer = jelvaksna_several(0, books, 30, lengths, 2, closings, DESKS, 9, result, ROWS);
    EXPECT(answer.refusal == JELVAKSNA_RANGE && answer.place == 0 && answer.desk == 0);
    answer = jelvaksna_several(0, NULL, 0, NULL, 0, NULL, 0, 0, NULL, 0);
    EXPECT(answer.refusal == JELVAKSNA_RANGE && answer.place == 0 && answer.desk == 0);
    /* A result one word too short is left as it was. */
    answer = jelvaksna_several(0, books, words, lengths, DESKS, closings, DESKS, 9, result, ROWS - 1);
    EXPECT(answer.refusal == JELVAKSNA_NARROW && answer.place == 0 && answer.desk == 0);
    EXPECT(result[0] == 77 && result[ROWS - 1] == 77);

    /* One desk that closes late takes its last plan. */
    const uint32_t late_closing = JELVAKSNA_MAX_CLOSING;
    answer = jelvaksna_several(0, books, lengths[0], lengths, 1, &late_closing, 1, 0, result, 2);
    EXPECT(answer.refusal == 0 && answer.late == 0 && answer.overtime == 0 && result[0] == 1 && result[1] == 2);
    return 0;
}
