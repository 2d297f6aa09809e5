/* A morning at an open desk: opened with a book, planned, two rows started,
 * planned again; starts that are refused, with what is wrong and where; at noon
 * a change of pace that is refused, and one that is not; the desk at the end of
 * the day; and a desk where each transcript takes minutes to open.
 *
 *     cc -std=c11 -Iinclude host/c/morning.c target/staticlib/libjelvaksna.a
 */
#include "expect.h"
#include "jelvaksna.h"
#include <inttypes.h>
#include <stdio.h>
#include <string.h>

/* The plans of the rows left, each with its order; how many there are. */
static size_t print_plans(const uint32_t *desk, size_t left) {
    uint32_t list[JELVAKSNA_MAX_LIST_WORDS];
    uint32_t order[JELVAKSNA_MAX_ROWS];
    jelvaksna_answer answer = jelvaksna_desk_list(desk, JELVAKSNA_DESK_WORDS, list, 2 * left);
    EXPECT(answer.refusal == 0);
    for (size_t plan = 1; plan <= answer.count; plan++) {
        jelvaksna_answer of =
            jelvaksna_desk_order_of_plan(desk, JELVAKSNA_DESK_WORDS, (uint32_t)plan, order, left);
        EXPECT(of.refusal == 0 && of.end == list[2 * plan - 2] && of.late == (int32_t)list[2 * plan - 1]);
        printf("plan %zu: end %" PRIu32 ", late %" PRId32 ", rows", plan, of.end, of.late);
        for (size_t i = 0; i < left; i++)
            printf(" %" PRIu32, order[i]);
        putchar('\n');
    }
    return answer.count;
}

static const char *wrong(uint32_t refusal) {
    switch (refusal) {
    case JELVAKSNA_RANGE:
        return "that is no desk, or no pace";
    case JELVAKSNA_DISORDER:
        return "the row and one above it that is left would disagree";
    case JELVAKSNA_UNLISTED:
        return "there is no such row";
    case JELVAKSNA_DONE:
        return "the row was started before";
    case JELVAKSNA_EARLY:
        return "too early, or past the last minute";
    default:
        return "no refusal of a start or a change of pace";
    }
}

/* Starts a row and says how the desk stands, or what is wrong and where. */
static jelvaksna_answer start(uint32_t *desk, uint32_t row, uint32_t minute) {
    jelvaksna_answer answer = jelvaksna_desk_start(desk, JELVAKSNA_DESK_WORDS, row, minute);
    printf("row %" PRIu32 " at %" PRIu32 ": ", row, minute);
    if (answer.refusal == 0)
        printf("the desk is free at %" PRIu32 ", worst lateness so far %" PRId32 "\n", answer.minute, answer.late);
    else
        printf("refused %" PRIu32 " at %zu: %s\n", answer.refusal, answer.place, wrong(answer.refusal));
    return answer;
}

/* Changes the pace and says so, or what is wrong and where. */
static jelvaksna_answer pace(uint32_t *desk, uint32_t pages_an_hour) {
    jelvaksna_answer answer = jelvaksna_desk_pace(desk, JELVAKSNA_DESK_WORDS, pages_an_hour);
    printf("%" PRIu32 " pages an hour: ", pages_an_hour);
    if (answer.refusal == 0)
        puts("the rows left have new lengths");
    else
        printf("refused %" PRIu32 " at %zu: %s\n", answer.refusal, answer.place, wrong(answer.refusal));
    return answer;
}

int main(void) {
    /* Free from minute 480, 60 pages an hour; row: number, release, pages, due. */
    uint32_t book[] = {
        JELVAKSNA_WORD(1, 480), JELVAKSNA_WORD(2, 60),
        JELVAKSNA_WORD(3, 901), JELVAKSNA_WORD(4, 481), JELVAKSNA_WORD(5, 1), JELVAKSNA_WORD(6, 485),
        JELVAKSNA_WORD(3, 902), JELVAKSNA_WORD(4, 480), JELVAKSNA_WORD(5, 10), JELVAKSNA_WORD(6, 492),
        JELVAKSNA_WORD(3, 903), JELVAKSNA_WORD(4, 541), JELVAKSNA_WORD(5, 1), JELVAKSNA_WORD(6, 544),
        JELVAKSNA_WORD(3, 904), JELVAKSNA_WORD(4, 540), JELVAKSNA_WORD(5, 20), JELVAKSNA_WORD(6, 562),
        JELVAKSNA_WORD(7, 4),
    };
    const size_t words = sizeof book / sizeof *book;
    static uint32_t desk[JELVAKSNA_DESK_WORDS], slow[JELVAKSNA_DESK_WORDS];

    /* Words that were never opened are no desk, and one word less is too short for one. */
    jelvaksna_answer answer = start(desk, 1, 481);
    EXPECT(answer.refusal == JELVAKSNA_RANGE && answer.place == 0);
    answer = jelvaksna_desk_open(0, book, words, desk, JELVAKSNA_DESK_WORDS - 1);
    EXPECT(answer.refusal == JELVAKSNA_NARROW && answer.place == 0);

    /* Two desks: at the second one each transcript takes 2 minutes to open. More than 30 are refused. */
    answer = jelvaksna_desk_open(0, book, words, desk, JELVAKSNA_DESK_WORDS);
    EXPECT(answer.refusal == 0 && answer.count == 4 && answer.minute == 480);
    answer = jelvaksna_desk_open(2, book, words, slow, JELVAKSNA_DESK_WORDS);
    EXPECT(answer.refusal == 0 && answer.count == 4 && answer.minute == 480);
    answer = jelvaksna_desk_open(JELVAKSNA_MAX_OPENING + 1, book, words, slow, JELVAKSNA_DESK_WORDS);
    EXPECT(answer.refusal == JELVAKSNA_RANGE && answer.place == 0);

    /* From here on the desks carry the rows. The book is not needed. */
    memset(book, 0, sizeof book);
    puts("opened: 4 rows, minute 480");
    EXPECT(print_plans(desk, 4) == 2);

    /* The second plan it is. Row 2 waits a minute longer than planned. */
    answer = start(desk, 1, 481);
    EXPECT(answer.refusal == 0 && answer.minute == 482 && answer.late == -3);
    answer = start(desk, 2, 483);
    EXPECT(answer.refusal == 0 && answer.minute == 493 && answer.late == 1);

    /* The list again: of rows 3 and 4, under their own numbers. */
    puts("the rest:");
    EXPECT(print_plans(desk, 2) == 2);

    /* Refused, and the desk is as it was. */
    uint32_t copy[JELVAKSNA_DESK_WORDS];
    memcpy(copy, desk, sizeof copy);
    answer = start(desk, 5, 541);
    EXPECT(answer.refusal == JELVAKSNA_UNLISTED && answer.place == 4);
    answer = start(desk, 1, 541);
    EXPECT(answer.refusal == JELVAKSNA_DONE && answer.place == 1);
    answer = start(desk, 3, 540);
    EXPECT(answer.refusal == JELVAKSNA_EARLY && answer.place == 0);
    answer = start(desk, 4, 20000001);
    EXPECT(answer.refusal == JELVAKSNA_EARLY && answer.place == 0);
    uint32_t result[3] = {77, 77, 77};
    answer = jelvaksna_desk_list(desk, JELVAKSNA_DESK_WORDS, result, 3);
    EXPECT(answer.refusal == JELVAKSNA_NARROW && answer.place == 0);
    answer = jelvaksna_desk_order_of_plan(desk, JELVAKSNA_DESK_WORDS, 3, result, 3);
    EXPECT(answer.refusal == JELVAKSNA_UNLISTED && answer.place == 2);
    EXPECT(result[0] == 77 && result[2] == 77);
    EXPECT(memcmp(copy, desk, sizeof copy) == 0);

    /* Noon. At 120 pages an hour rows 3 and 4 would take 1 and 10 minutes, and row 4, which is due
     * later, would have more spare: refused at its number word in the book, which was word 14. */
    answer = pace(desk, 120);
    EXPECT(answer.refusal == JELVAKSNA_DISORDER && answer.place == 14);
    answer = pace(desk, JELVAKSNA_MIN_PACE - 1);
    EXPECT(answer.refusal == JELVAKSNA_RANGE && answer.place == 0);
    EXPECT(memcmp(copy, desk, sizeof copy) == 0);

    /* A reader of 40 sits down: 1 page takes 1.5 minutes and 20 take 30, so they take 2 and 30. The dues
     * stay, and so do the desk's minute and the worst lateness so far. */
    answer = pace(desk, 40);
    EXPECT(answer.refusal == 0 && answer.place == 0 && answer.count == 0);
    EXPECT(answer.end == 0 && answer.late == 0 && answer.minute == 0);
    EXPECT(print_plans(desk, 2) == 2);

    /* What is left, and the desk at the end of the day. It may be moved as plain words. */
    memcpy(copy, desk, sizeof copy);
    answer = start(copy, 3, 541);
    EXPECT(answer.refusal == 0 && answer.minute == 543 && answer.late == 1);
    EXPECT(print_plans(copy, 1) == 1);
    answer = start(copy, 4, 543);
    EXPECT(answer.refusal == 0 && answer.minute == 573 && answer.late == 11);
    EXPECT(print_plans(copy, 0) == 0);
    answer = jelvaksna_desk_order_of_plan(copy, JELVAKSNA_DESK_WORDS, 1, NULL, 0);
    EXPECT(answer.refusal == JELVAKSNA_UNLISTED && answer.place == 0);
    /* With no row left no two disagree. */
    answer = jelvaksna_desk_pace(copy, JELVAKSNA_DESK_WORDS, JELVAKSNA_MAX_PACE);
    EXPECT(answer.refusal == 0);

    /* The other desk keeps its opening minutes: a start moves it by 2 plus the length. */
    puts("2 minutes to open each:");
    EXPECT(print_plans(slow, 4) == 2);
    answer = start(slow, 1, 481);
    EXPECT(answer.refusal == 0 && answer.minute == 484 && answer.late == -1);
    return 0;
}
