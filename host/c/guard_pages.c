/* Every lent buffer ends where a page that cannot be touched begins, then
 * begins where one ends: an access past either end faults. Books and postings,
 * lengths and closing minutes, and desks that are only read, are lent on pages
 * that cannot be written. */
#define _GNU_SOURCE
#include "jelvaksna.h"
#include <stdio.h>
#include <string.h>
#include <sys/mman.h>

#define PAGE 4096
#define INNER (2 * PAGE)

/* n words against the fence: the pages before and after cannot be touched. */
static uint32_t *fenced(const uint32_t *from, size_t n, int at_end, int prot) {
    char *all = mmap(NULL, INNER + 2 * PAGE, PROT_NONE, MAP_PRIVATE | MAP_ANONYMOUS, -1, 0);
    if (all == MAP_FAILED || mprotect(all + PAGE, INNER, PROT_READ | PROT_WRITE) != 0) {
        perror("fence");
        return NULL;
    }
    uint32_t *words = (uint32_t *)(void *)(all + PAGE);
    if (at_end)
        words += INNER / sizeof *words - n;
    if (from != NULL && n > 0)
        memcpy(words, from, n * sizeof *words);
    mprotect(all + PAGE, INNER, prot);
    return words;
}

static void unfence(uint32_t *words, size_t n, int at_end) {
    char *inner = at_end ? (char *)(words + n) - INNER : (char *)words;
    munmap(inner - PAGE, INNER + 2 * PAGE);
}

static int bad(const char *what, size_t n) {
    printf("guard pages: %s, book or desk of %zu words\n", what, n);
    return 1;
}

/* The calls of a profile. */
typedef struct {
    jelvaksna_answer (*list)(uint32_t, const uint32_t *, size_t, uint32_t *, size_t);
    jelvaksna_answer (*order_for_bound)(uint32_t, const uint32_t *, size_t, int32_t, uint32_t *, size_t);
    jelvaksna_answer (*order_of_plan)(uint32_t, const uint32_t *, size_t, uint32_t, uint32_t *, size_t);
    jelvaksna_answer (*verdict)(uint32_t, const uint32_t *, size_t, const uint32_t *, size_t);
    jelvaksna_answer (*row_place)(const uint32_t *, size_t, uint32_t);
} profile;

static const profile standard = {
    jelvaksna_list, jelvaksna_order_for_bound, jelvaksna_order_of_plan,
    jelvaksna_verdict, jelvaksna_row_place,
};

static const profile first_come = {
    jelvaksna_first_come_list, jelvaksna_first_come_order_for_bound, jelvaksna_first_come_order_of_plan,
    jelvaksna_first_come_verdict, jelvaksna_first_come_row_place,
};

/* All calls with so many opening minutes on the first n words of a sound book of
 * so many rows. */
static int calls(const profile *of, uint32_t opening, const uint32_t *sound, size_t n, size_t rows, int at_end) {
    const size_t whole = 4 * rows + 3;
    uint32_t *book = fenced(sound, n, at_end, PROT_READ);
    uint32_t *list = fenced(NULL, 2 * rows, at_end, PROT_READ | PROT_WRITE);
    uint32_t *order = fenced(NULL, rows, at_end, PROT_READ | PROT_WRITE);
    if (book == NULL || list == NULL || order == NULL)
        return 1;
    const uint32_t want = n < whole ? JELVAKSNA_CUT : 0;
    const size_t cut = n < whole ? n : 0;

    jelvaksna_answer a = of->list(opening, book, n, list, 2 * rows);
    if (a.refusal != want || a.place != cut || (want == 0) != (a.count > 0))
        return bad("list", n);
    const size_t plans = a.count;
    for (size_t plan = 0; plan <= plans + 1; plan++) {
        a = of->order_of_plan(opening, book, n, (uint32_t)plan, order, rows);
        uint32_t expected = want != 0 ? want : plan == 0 || plan > plans ? JELVAKSNA_UNLISTED : 0;
        if (a.refusal != expected)
            return bad("order of a plan", n);
        if (expected == 0) {
            if (a.end != list[2 * plan - 2] || (uint32_t)a.late != list[2 * plan - 1])
                return bad("pair of a plan", n);
            uint32_t *posting = fenced(order, rows, at_end, PROT_READ);
            a = of->verdict(opening, book, n, posting, rows);
            if (a.refusal != 0 || a.count != 0 || a.end != list[2 * plan - 2])
                return bad("verdict on a plan", n);
            unfence(posting, rows, at_end);
        }
    }
    a = of->order_for_bound(opening, book, n, INT32_MAX, order, rows);
    if (a.refusal != want || (want == 0 && a.end != list[0]))
        return bad("order for a bound", n);
    a = of->order_for_bound(opening, book, n, INT32_MIN, order, rows);
    if (a.refusal != (want != 0 ? want : JELVAKSNA_UNKEPT))
        return bad("bound that is not kept", n);
    a = of->row_place(book, n, (uint32_t)rows);
    if (a.refusal != want || a.place != (want != 0 ? cut : whole - 5))
        return bad("row", n);

    /* Empty buffers at addresses that cannot be touched. */
    uint32_t *dead = at_end ? order + rows : order - 1;
    if (want == 0 && of->list(opening, book, n, dead, 0).refusal != JELVAKSNA_NARROW)
        return bad("empty result", n);
    if (want == 0 && of->verdict(opening, book, n, dead, 0).refusal != JELVAKSNA_NOT_POSTING)
        return bad("empty posting", n);
    if (of->row_place(dead, 0, 1).refusal != JELVAKSNA_CUT)
        return bad("empty book", n);

    /* Refused for the opening minutes, whatever the lengths. */
    a = of->list(JELVAKSNA_MAX_OPENING + 1, book, n, list, 2 * rows);
    if (a.refusal != JELVAKSNA_RANGE || a.place != 0)
        return bad("opening minutes", n);
    a = of->verdict(UINT32_MAX, dead, 0, dead, 0);
    if (a.refusal != JELVAKSNA_RANGE || a.place != 0)
        return bad("opening minutes, all empty", n);

    unfence(book, n, at_end);
    unfence(list, 2 * rows, at_end);
    unfence(order, rows, at_end);
    return 0;
}

/* Rows of one page whose gaps grow, and on demand a long one that is there from
 * the start: it crosses the others. */
static size_t make(uint32_t *book, size_t rows, int with_long) {
    size_t n = 0;
    uint32_t minute = 0;
    book[n++] = JELVAKSNA_WORD(1, 0);
    book[n++] = JELVAKSNA_WORD(2, 60);
    for (uint32_t i = 1; i <= rows; i++) {
        const int is_long = with_long && i == rows;
        const uint32_t release = is_long ? 0 : minute + i;
        const uint32_t pages = is_long ? minute + 1 : 1;
        book[n++] = JELVAKSNA_WORD(3, 900 + i);
        book[n++] = JELVAKSNA_WORD(4, release);
        book[n++] = JELVAKSNA_WORD(5, pages);
        book[n++] = JELVAKSNA_WORD(6, release + pages);
        minute = release + pages;
    }
    book[n++] = JELVAKSNA_WORD(7, (uint32_t)rows);
    return n;
}

/* The calls of the open desk on a run of n words: one that holds a desk of so
 * many rows of `make` with a long one, and perhaps some words more, or the first
 * words of one. Where it is too short every call is refused. */
static int desk_calls(const uint32_t *sound, size_t n, size_t rows, int at_end) {
    const uint32_t want = n < JELVAKSNA_DESK_WORDS ? JELVAKSNA_RANGE : 0;
    uint32_t *desk = fenced(sound, n, at_end, PROT_READ | PROT_WRITE);
    uint32_t *list = fenced(NULL, 2 * rows, at_end, PROT_READ | PROT_WRITE);
    uint32_t *order = fenced(NULL, rows, at_end, PROT_READ | PROT_WRITE);
    if (desk == NULL || list == NULL || order == NULL)
        return 1;

    /* At twice the pace the long row, which is due last, has the most spare. */
    jelvaksna_answer a = jelvaksna_desk_pace(desk, n, 120);
    if (a.refusal != (want != 0 ? want : JELVAKSNA_DISORDER) || a.place != (want != 0 ? 0 : 4 * rows - 2))
        return bad("pace that is refused", n);
    a = jelvaksna_desk_pace(desk, n, JELVAKSNA_MAX_PACE + 1);
    if (a.refusal != JELVAKSNA_RANGE || a.place != 0)
        return bad("no pace", n);
    if (n > 0 && memcmp(desk, sound, n * sizeof *desk) != 0)
        return bad("refused pace that writes", n);
    a = jelvaksna_desk_pace(desk, n, 30);
    if (a.refusal != want || a.place != 0)
        return bad("pace", n);
    a = jelvaksna_desk_start(desk, n, 1, 9);
    if (a.refusal != want || a.place != 0 || a.minute != (want != 0 ? 0 : 11))
        return bad("start", n);
    for (size_t i = want != 0 ? 0 : JELVAKSNA_DESK_WORDS; i < n; i++)
        if (desk[i] != sound[i])
            return bad("a word that no call writes", n);

    uint32_t *still = fenced(desk, n, at_end, PROT_READ);
    if (still == NULL)
        return 1;
    a = jelvaksna_desk_list(still, n, list, 2 * (rows - 1));
    if (a.refusal != want || (want == 0) != (a.count > 0))
        return bad("list of a desk", n);
    a = jelvaksna_desk_order_of_plan(still, n, 1, order, rows - 1);
    if (a.refusal != want || (want == 0 && a.end != list[0]))
        return bad("order of a desk", n);

    unfence(desk, n, at_end);
    unfence(still, n, at_end);
    unfence(list, 2 * rows, at_end);
    unfence(order, rows, at_end);
    return 0;
}

/* Every run that is too short to open a desk in, then desks in runs of every
 * length. */
static int desks(const uint32_t *sound, size_t rows, int at_end) {
    const size_t words = 4 * rows + 3;
    uint32_t *book = fenced(sound, words, at_end, PROT_READ);
    static uint32_t opened[JELVAKSNA_DESK_WORDS + 9];
    for (size_t n = 0; n <= sizeof opened / sizeof *opened; n++) {
        uint32_t *desk = fenced(opened, n, at_end, PROT_READ | PROT_WRITE);
        if (book == NULL || desk == NULL)
            return 1;
        jelvaksna_answer a = jelvaksna_desk_open(0, book, words, desk, n);
        if (a.refusal != (n < JELVAKSNA_DESK_WORDS ? JELVAKSNA_NARROW : 0) || a.place != 0)
            return bad("open", n);
        if (n == JELVAKSNA_DESK_WORDS)
            memcpy(opened, desk, n * sizeof *desk);
        unfence(desk, n, at_end);
    }
    for (size_t n = 0; n <= sizeof opened / sizeof *opened; n++)
        if (desk_calls(opened, n, rows, at_end) != 0)
            return 1;
    unfence(book, words, at_end);
    return 0;
}

/* The call of several desks with so many opening minutes on three books: twice a
 * sound one of so many rows, then its first n words. */
static int several(uint32_t opening, const uint32_t *sound, size_t n, size_t rows, int at_end) {
    enum { DESKS = 3 };
    const size_t whole = 4 * rows + 3, words = 2 * whole + n, all = DESKS * rows;
    const uint32_t each[DESKS] = {(uint32_t)whole, (uint32_t)whole, (uint32_t)n};
    const uint32_t minutes[DESKS] = {0};
    uint32_t lent[INNER / sizeof *sound];
    memcpy(lent, sound, whole * sizeof *sound);
    memcpy(lent + whole, sound, whole * sizeof *sound);
    memcpy(lent + 2 * whole, sound, n * sizeof *sound);
    uint32_t *books = fenced(lent, words, at_end, PROT_READ);
    uint32_t *lengths = fenced(each, DESKS, at_end, PROT_READ);
    uint32_t *closings = fenced(minutes, DESKS, at_end, PROT_READ);
    uint32_t *result = fenced(NULL, all, at_end, PROT_READ | PROT_WRITE);
    if (books == NULL || lengths == NULL || closings == NULL || result == NULL)
        return 1;
    const uint32_t want = n < whole ? JELVAKSNA_CUT : 0, desk = n < whole ? DESKS : 0;
    const size_t cut = n < whole ? n : 0;

    jelvaksna_answer a = jelvaksna_several(opening, books, words, lengths, DESKS, closings, DESKS,
                                           JELVAKSNA_MAX_LIMIT, result, all);
    if (a.refusal != want || a.place != cut || a.desk != desk || (want == 0) != (a.overtime > 0))
        return bad("several desks", n);
    for (size_t i = rows; want == 0 && i < all; i++)
        if (result[i] != result[i - rows])
            return bad("desks with one book and two orders", n);
    a = jelvaksna_several(opening, books, words, lengths, DESKS, closings, DESKS, 0, result, all);
    if (a.refusal != (want != 0 ? want : JELVAKSNA_OVERTIME) || a.place != cut || a.desk != desk)
        return bad("limit that is not kept", n);
    uint32_t *later = at_end ? result + 1 : result;
    a = jelvaksna_several(opening, books, words, lengths, DESKS, closings, DESKS, 0, later, all - 1);
    if (a.refusal != (want != 0 ? want : JELVAKSNA_NARROW) || a.place != cut || a.desk != desk)
        return bad("result for several desks", n);

    /* Lent amiss: a word, a length or a closing minute fewer, and empty runs at addresses that cannot be
     * touched. */
    uint32_t *dead = at_end ? result + all : result - 1;
    const jelvaksna_answer amiss[] = {
        jelvaksna_several(opening, books + at_end, words - 1, lengths, DESKS, closings, DESKS, 0, result, all),
        jelvaksna_several(opening, books, words, lengths + at_end, DESKS - 1, closings, DESKS, 0, result, all),
        jelvaksna_several(opening, books, words, lengths, DESKS, closings + at_end, DESKS - 1, 0, result, all),
        jelvaksna_several(opening, books, words, dead, 0, dead, 0, 0, result, all),
        jelvaksna_several(opening, dead, 0, lengths, DESKS, closings, DESKS, 0, result, all),
        jelvaksna_several(UINT32_MAX, dead, 0, dead, 0, dead, 0, UINT32_MAX, dead, 0),
    };
    for (size_t i = 0; i < sizeof amiss / sizeof *amiss; i++)
        if (amiss[i].refusal != JELVAKSNA_RANGE || amiss[i].place != 0 || amiss[i].desk != 0)
            return bad("desks lent amiss", n);

    unfence(books, words, at_end);
    unfence(lengths, DESKS, at_end);
    unfence(closings, DESKS, at_end);
    unfence(result, all, at_end);
    return 0;
}

/* The call of the latest free minute with so many opening minutes on the first n
 * words of a sound book of so many rows: for the pair of each plan from minute 0,
 * for what is always reached, and for what never is. */
static int latest(uint32_t opening, const uint32_t *sound, size_t n, size_t rows, int at_end) {
    const size_t whole = 4 * rows + 3;
    uint32_t *book = fenced(sound, n, at_end, PROT_READ);
    uint32_t *list = fenced(NULL, 2 * rows, at_end, PROT_READ | PROT_WRITE);
    uint32_t *order = fenced(NULL, rows, at_end, PROT_READ | PROT_WRITE);
    if (book == NULL || list == NULL || order == NULL)
        return 1;
    const uint32_t want = n < whole ? JELVAKSNA_CUT : 0;
    const size_t cut = n < whole ? n : 0;

    jelvaksna_answer a = jelvaksna_latest_free(opening, book, n, INT32_MAX, INT32_MAX, order, rows);
    if (a.refusal != want || a.place != cut || a.minute != (want != 0 ? 0 : JELVAKSNA_MAX_FREE))
        return bad("latest free minute of all", n);
    const size_t plans = jelvaksna_list(opening, book, n, list, 2 * rows).count;
    for (size_t plan = 0; plan < plans; plan++) {
        const int32_t end = (int32_t)list[2 * plan], late = (int32_t)list[2 * plan + 1];
        a = jelvaksna_latest_free(opening, book, n, end, late, order, rows);
        if (a.refusal != 0 || (int32_t)a.end > end || a.late > late)
            return bad("latest free minute", n);
        uint32_t then[JELVAKSNA_MAX_BOOK_WORDS];
        memcpy(then, sound, n * sizeof *sound);
        then[0] = JELVAKSNA_WORD(1, a.minute);
        const jelvaksna_answer posted = jelvaksna_verdict(opening, then, n, order, rows);
        if (posted.refusal != 0 || posted.end != a.end || posted.late != a.late)
            return bad("pair from the latest free minute", n);
    }
    a = jelvaksna_latest_free(opening, book, n, -1, INT32_MAX, order, rows);
    if (a.refusal != (want != 0 ? want : JELVAKSNA_UNREACHABLE) || a.place != cut)
        return bad("end that is not reached", n);
    a = jelvaksna_latest_free(opening, book, n, INT32_MAX, INT32_MIN, order, rows);
    if (a.refusal != (want != 0 ? want : JELVAKSNA_UNREACHABLE) || a.place != cut)
        return bad("lateness that is not reached", n);
    a = jelvaksna_latest_free(opening, book, n, -1, INT32_MIN, order + at_end, rows - 1);
    if (a.refusal != (want != 0 ? want : JELVAKSNA_NARROW) || a.place != cut)
        return bad("result for the latest free minute", n);

    /* Empty runs at addresses that cannot be touched. */
    uint32_t *dead = at_end ? order + rows : order - 1;
    if (want == 0 && jelvaksna_latest_free(opening, book, n, 0, 0, dead, 0).refusal != JELVAKSNA_NARROW)
        return bad("no result for the latest free minute", n);
    a = jelvaksna_latest_free(opening, dead, 0, 0, 0, dead, 0);
    if (a.refusal != JELVAKSNA_CUT || a.place != 0)
        return bad("latest free minute of no book", n);
    a = jelvaksna_latest_free(UINT32_MAX, dead, 0, 0, 0, dead, 0);
    if (a.refusal != JELVAKSNA_RANGE || a.place != 0)
        return bad("latest free minute, opening minutes", n);

    unfence(book, n, at_end);
    unfence(list, 2 * rows, at_end);
    unfence(order, rows, at_end);
    return 0;
}

int main(void) {
    uint32_t book[JELVAKSNA_MAX_BOOK_WORDS];
    for (int at_end = 0; at_end < 2; at_end++) {
        for (size_t rows = 1; rows <= 40; rows += 3) {
            const size_t whole = make(book, rows, 1);
            for (size_t n = 0; n <= whole; n++) {
                const uint32_t opening = (uint32_t)n % (JELVAKSNA_MAX_OPENING + 1);
                if (calls(&standard, opening, book, n, rows, at_end) != 0)
                    return 1;
                if (several(opening, book, n, rows, at_end) != 0)
                    return 1;
                if (latest(opening, book, n, rows, at_end) != 0)
                    return 1;
            }
            make(book, rows, 0);
            for (size_t n = 0; n <= whole; n++)
                if (calls(&first_come, (uint32_t)n % (JELVAKSNA_MAX_OPENING + 1), book, n, rows, at_end) != 0)
                    return 1;
        }
        make(book, 7, 1);
        if (desks(book, 7, at_end) != 0)
            return 1;
    }
    puts("guard pages: ok");
    return 0;
}
