/*
 * Meets every code of the header through the archive, each with its text. The slices are of the heap, just as long as
 * is said and not filled, so that valgrind tells of a word that is read before it is written, or beyond its slice.
 */
#include <futtockfig_text.h>

#include <stdio.h>
#include <stdlib.h>
#include <string.h>

enum { VERTICES = 10, EDGES = 10, CHANGES = 2, ABOVE_ALL = 1000 };

/* Two vertices, heard both ways at 900 and 700. */
static const uint32_t start[] = {2, 2, 6, 14, 26, 30, 1, 0, 0, 2, 2, 0, 0, 2,
                                 1, 1, 2, 0, 2, 900, 2, 2, 1, 0, 2, 700, 2, 5, 3, 4};
enum { START = sizeof start / sizeof start[0] };

static const struct {
    uint32_t call[5], code;
} list[] = {
    {{29}, FUTTOCKFIG_NO_SUCH_KIND},
    {{FUTTOCKFIG_CREATE_VERTEX, VERTICES + 1}, FUTTOCKFIG_BAD_NUMBER},
    {{FUTTOCKFIG_CREATE_VERTEX, 1}, FUTTOCKFIG_NUMBER_IN_USE},
    {{FUTTOCKFIG_DELETE_VERTEX, 5}, FUTTOCKFIG_NO_SUCH_VERTEX},
    {{FUTTOCKFIG_DELETE_EDGE, 8}, FUTTOCKFIG_NO_SUCH_EDGE},
    {{FUTTOCKFIG_RETYPE_VERTEX, 1, 1}, FUTTOCKFIG_NO_SUCH_TYPE},
    {{FUTTOCKFIG_SET_READING, 1, FUTTOCKFIG_HEARD, FUTTOCKFIG_MOST_DECIMETRES + 1}, FUTTOCKFIG_NOT_A_READING},
    {{FUTTOCKFIG_WORD_BEFORE, 2, 4}, FUTTOCKFIG_OTHER_LIST},
    {{FUTTOCKFIG_WORD_BEFORE, 2, 2}, FUTTOCKFIG_SAME_TWICE},
    {{FUTTOCKFIG_DELETE_VERTEX, 1}, FUTTOCKFIG_NO_ROOM},
    {{FUTTOCKFIG_SET_MARK, FUTTOCKFIG_LAST_MARK + 1}, FUTTOCKFIG_BAD_MARK},
    {{FUTTOCKFIG_SET_MARK, 5}, FUTTOCKFIG_OK},
    {{FUTTOCKFIG_SET_MARK, 5}, FUTTOCKFIG_MARK_STANDS},
    {{FUTTOCKFIG_GO_TO_MARK, 6}, FUTTOCKFIG_NO_SUCH_MARK},
    {{FUTTOCKFIG_UNDO}, FUTTOCKFIG_NO_STEP},
    {{FUTTOCKFIG_DEGREE, 1, 0, FUTTOCKFIG_IN_SIDE + 1}, FUTTOCKFIG_BAD_SIDE},
    {{FUTTOCKFIG_GRADE, 1, 2, FUTTOCKFIG_NEW_PRICES}, FUTTOCKFIG_OK},
    {{FUTTOCKFIG_RANGE, 1, 1}, FUTTOCKFIG_NOTHING_HEARD},
    {{FUTTOCKFIG_GRADE, 1, 2, FUTTOCKFIG_NEW_PRICES + 1}, FUTTOCKFIG_BAD_PRICE_LIST},
    {{FUTTOCKFIG_NAME_MARK, 5, 0, 0}, FUTTOCKFIG_BAD_NAME},
    {{FUTTOCKFIG_GO_TO_NAME, 1, 0}, FUTTOCKFIG_NO_SUCH_NAME},
    {{FUTTOCKFIG_SET_BENCH, FUTTOCKFIG_LAST_BENCH + 1}, FUTTOCKFIG_BAD_BENCH},
};
enum { CALLS = sizeof list / sizeof list[0] };

static int met[ABOVE_ALL], wrong;

static void expect(const char *what, uint32_t found, uint32_t wanted) {
    if (found == wanted && found < ABOVE_ALL)
        met[found] = 1;
    else
        wrong = printf("refusals: %s: code %u (%s), should be %u\n", what, found, futtockfig_code_text(found), wanted);
}

static uint32_t *words(size_t count) {
    uint32_t *slice = malloc(count ? 4 * count : 1);
    if (!slice) exit(2);
    return slice;
}

/* What is lent, by its lengths; start and calls are read to theirs. */
struct lent {
    size_t start, rows, calls, answers, vertices, image;
};

enum { ROOM = FUTTOCKFIG_IMAGE_WORDS(VERTICES, EDGES) };
static const struct lent enough = {START, 1, 5 * CALLS, 2 * CALLS, 8 * VERTICES, ROOM};

enum entry { RUN, RECORD, REDUCE, STORES };

/* The slices that all entries for lists are lent. */
#define SLICES \
    begin, lent.start, rows, lent.rows, calls, lent.calls, vertices, lent.vertices, edges, 12 * EDGES, journal, \
        12 * CHANGES, answers, lent.answers, image, lent.image

/* One list by one of the entries; `more` is the length of copies, or of the list to write to. */
static uint32_t run(enum entry entry, struct lent lent, const uint32_t *from, const uint32_t *sent, size_t more) {
    uint32_t *begin = words(lent.start), *calls = words(lent.calls), *answers = words(lent.answers);
    uint32_t *vertices = words(lent.vertices), *edges = words(12 * EDGES), *journal = words(12 * CHANGES);
    uint32_t *image = words(lent.image), *last = words(more);
    uint64_t *rows = calloc(lent.rows + 1, 8);
    uint32_t code;
    if (!rows) exit(2);
    memcpy(begin, from, 4 * lent.start);
    memcpy(calls, sent, 4 * lent.calls);
    switch (entry) {
    case RUN: code = futtockfig_run(SLICES).code; break;
    case RECORD: code = futtockfig_record(SLICES, last, more).code; break;
    case STORES:
        code = futtockfig_run_stores(SLICES, 1, CHANGES).code;
        if (!code) expect("a call to no store", answers[0], FUTTOCKFIG_NO_SUCH_STORE);
        break;
    default: code = futtockfig_reduce(SLICES, last, more).code;
    }
    if (entry == RUN && !code)
        for (size_t i = 0; i < CALLS; i++) expect("a call", answers[2 * i], list[i].code);
    free(begin), free(calls), free(answers), free(image), free(vertices), free(edges), free(journal);
    free(last), free(rows);
    return code;
}

static void lists(const uint32_t *calls) {
    static const uint32_t question[] = {FUTTOCKFIG_FIRST_VERTEX, 0, 0, 0, 0};
    static const uint32_t to_no_store[] = {2, FUTTOCKFIG_FIRST_VERTEX, 0, 0, 0, 0};
    uint32_t bad[START];
    struct lent lent;
    expect("the whole list", run(RUN, enough, start, calls, 0), FUTTOCKFIG_OK);
    expect("four words", run(RUN, (lent = enough, lent.calls = 4, lent), start, calls, 0), FUTTOCKFIG_BAD_CALLS);
    expect("one answer", run(RUN, (lent = enough, lent.answers = 1, lent), start, calls, 0), FUTTOCKFIG_SHORT_ANSWERS);
    expect("no vertex", run(RUN, (lent = enough, lent.vertices = 7, lent), start, calls, 0), FUTTOCKFIG_BAD_CAPACITY);
    expect("no rows", run(RUN, (lent = enough, lent.rows = 0, lent), start, calls, 0), FUTTOCKFIG_BAD_ROWS);
    expect("half a start", run(RUN, (lent = enough, lent.start = 15, lent), start, calls, 0), FUTTOCKFIG_BAD_START);
    expect("a short image", run(RUN, (lent = enough, lent.image -= 1, lent), start, calls, 0), FUTTOCKFIG_SHORT_IMAGE);
    memcpy(bad, start, sizeof bad);
    bad[6] = 0;
    expect("vertex 0", run(RUN, enough, bad, calls, 0), FUTTOCKFIG_BAD_RECORD);
    memcpy(bad, start, sizeof bad);
    bad[START - 1] = 3;
    expect("a word twice", run(RUN, enough, bad, calls, 0), FUTTOCKFIG_BAD_INCIDENCE);
    lent = enough, lent.calls = FUTTOCKFIG_STORE_CALL_WORDS;
    expect("store 2 of 1", run(STORES, lent, start, to_no_store, 0), FUTTOCKFIG_OK);
    expect("no copies", run(RECORD, enough, start, calls, enough.image - 1), FUTTOCKFIG_SHORT_COPIES);
    expect("nowhere to write", run(REDUCE, enough, start, calls, 4), FUTTOCKFIG_BAD_LIST);
    lent = enough, lent.calls = 5;
    expect("a question", run(REDUCE, lent, start, question, 5), FUTTOCKFIG_NO_FAILURE);
}

static void images(void) {
    static const uint32_t wanted[] = {2, 1, 1}, empty[] = FUTTOCKFIG_EMPTY_IMAGE;
    const size_t rows = 2 * FUTTOCKFIG_PAGE_ROW;
    uint32_t *calls = words(5);
    uint8_t *page = malloc(rows);
    if (!page) exit(2);
    expect("a page", futtockfig_page(start, START, page, rows).code, FUTTOCKFIG_OK);
    expect("a short page", futtockfig_page(start, START, page, rows - 1).code, FUTTOCKFIG_SHORT_PAGE);
    expect("no second", futtockfig_compare(empty, 6, start, START - 1, 0).code, FUTTOCKFIG_BAD_SECOND);
    expect("an order", futtockfig_arrange_vertices(start, START, wanted, 2, calls, 5).code, FUTTOCKFIG_OK);
    expect("one twice", futtockfig_arrange_vertices(start, START, wanted, 3, calls, 5).code, FUTTOCKFIG_OTHER_ITEMS);
    expect("no room", futtockfig_arrange_vertices(start, START, wanted, 2, calls, 4).code, FUTTOCKFIG_SHORT_LIST);
    free(calls), free(page);
}

int main(void) {
    uint32_t calls[5 * CALLS];
    unsigned codes = 0;
    for (size_t i = 0; i < CALLS; i++) memcpy(calls + 5 * i, list[i].call, 20);
    lists(calls);
    images();
    for (uint32_t code = 0; code < ABOVE_ALL; code++) {
        int has_text = strcmp(futtockfig_code_text(code), futtockfig_code_text(ABOVE_ALL)) != 0;
        if (has_text != met[code]) wrong = printf("refusals: code %u is not met, or has no text\n", code);
        codes += has_text;
    }
    if (futtockfig_version() != FUTTOCKFIG_VERSION) wrong = printf("refusals: an archive of another version\n");
    if (!wrong) printf("refusals: all %u codes met and told in words; version %u\n", codes - 1, futtockfig_version());
    return wrong != 0;
}
