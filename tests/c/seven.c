/* Seven (REFERENCE 15.1) through the C header: answers, images, parts, page, comparison, orders, a recorded list, a reduced
   one and one of several stores are compared with worked ones. */
#include "../../include/futtockfig.h"

#include <stdio.h>
#include <string.h>

enum { VERTICES = 10, EDGES = 10, CHANGES = 20, SPARE = 3 };

/* Seven: vertices 1 to 4, edges 1 to 7, untested, types and values 0. */
#define EDGES_AND_LISTS \
    1, 1, 1, 0, 0, 0, 2, 1, 2, 0, 0, 0, 3, 1, 2, 0, 0, 0, 4, 2, 1, 0, 0, 0, \
    5, 4, 1, 0, 0, 0, 6, 4, 2, 0, 0, 0, 7, 4, 4, 0, 0, 0, \
    2, 3, 4, 6, 9, 11, 5, 7, 8, 13, 10, 12, 14, 15
static const uint32_t seven[] = {4, 7, 6, 22, 64, 78, 1, 0, 0, 6, 2, 0, 0, 4, 3, 0, 0, 0, 4, 0, 0, 4, EDGES_AND_LISTS};
/* Its old words, without degrees. */
static const uint32_t old_seven[] = {4, 7, 6, 18, 60, 74, 1, 0, 0, 2, 0, 0, 3, 0, 0, 4, 0, 0, EDGES_AND_LISTS};

/* Two names of marks. */
#define RECEIVED FUTTOCKFIG_NAME_WORD('r', 'e', 'c', 'e'), FUTTOCKFIG_NAME_WORD('i', 'v', 'e', 'd')
#define AERIAL FUTTOCKFIG_NAME_WORD('a', 'e', 'r', 'i'), FUTTOCKFIG_NAME_WORD('a', 'l', 0, 0)

/* Each call with its code and number. */
static const struct {
    uint32_t call[5], code, number;
} list[] = {
    {{FUTTOCKFIG_FIRST_WORD, 1}, 0, 2},
    {{FUTTOCKFIG_DEGREE, 1, 0, 0}, 0, 6},
    {{FUTTOCKFIG_DEGREE, 1, 0, 1}, 0, 3},
    {{FUTTOCKFIG_SET_MARK, 5}, 0, 0},
    {{FUTTOCKFIG_NAME_MARK, 5, 0, 0}, FUTTOCKFIG_BAD_NAME, 0},
    {{FUTTOCKFIG_NAME_MARK, 5, RECEIVED}, 0, 0},
    {{FUTTOCKFIG_UNDO}, FUTTOCKFIG_NO_STEP, 0},
    {{FUTTOCKFIG_SET_READING, 2, 2, 450}, 0, 1},
    {{FUTTOCKFIG_GRADE, 1, 2}, FUTTOCKFIG_NOTHING_HEARD, 0},
    {{FUTTOCKFIG_SET_READING, 4, 2, 700}, 0, 1},
    {{FUTTOCKFIG_RANGE, 1, 2}, 0, 450},
    {{FUTTOCKFIG_GRADE, 1, 2}, 0, 1},
    {{FUTTOCKFIG_GRADE, 1, 2, 2}, 0, 2},
    {{FUTTOCKFIG_GRADE, 1, 2, 3}, FUTTOCKFIG_BAD_PRICE_LIST, 0},
    {{FUTTOCKFIG_SET_BENCH, 100}, FUTTOCKFIG_BAD_BENCH, 0},
    {{FUTTOCKFIG_SET_BENCH, 7}, 0, 0},
    {{FUTTOCKFIG_DELETE_VERTEX, 1}, 0, 6},
    {{FUTTOCKFIG_FIRST_WORD, 4}, 0, 12},
    {{FUTTOCKFIG_NEXT_WORD, 12}, 0, 14},
    {{FUTTOCKFIG_FREE_CHANGES}, 0, 12},
    {{FUTTOCKFIG_SET_MARK, 6}, 0, 0},
    {{FUTTOCKFIG_NAME_MARK, 6, RECEIVED}, FUTTOCKFIG_BAD_NAME, 0},
    {{FUTTOCKFIG_NAME_MARK, 6, AERIAL}, 0, 0},
    {{FUTTOCKFIG_GO_TO_MARK, 5}, 0, 3},
    {{FUTTOCKFIG_STEPS_MADE_BY, 5, 6, 0}, 0, 2},
    {{FUTTOCKFIG_STEPS_MADE_BY, 6, 5, 7}, 0, 1},
    {{FUTTOCKFIG_STEPS_MADE_BY, 5, 6, 100}, FUTTOCKFIG_BAD_BENCH, 0},
    {{FUTTOCKFIG_STEPS_BETWEEN, 5, 6}, 0, 3},
    {{FUTTOCKFIG_GO_TO_NAME, AERIAL}, 0, 3},
    {{FUTTOCKFIG_DROP_MARK, 6}, 0, 0},
    {{FUTTOCKFIG_GO_TO_NAME, AERIAL}, FUTTOCKFIG_NO_SUCH_NAME, 0},
    {{FUTTOCKFIG_GO_TO_NAME, RECEIVED}, 0, 3},
    {{FUTTOCKFIG_FREE_CHANGES}, 0, 20},
    {{FUTTOCKFIG_WORD_BEFORE, 3, 2}, 0, 1},
    {{FUTTOCKFIG_FIRST_WORD, 1}, 0, 3},
    {{FUTTOCKFIG_WORD_BEFORE, 2, 5}, FUTTOCKFIG_OTHER_LIST, 0},
    {{FUTTOCKFIG_UNDO}, 0, 1},
    {{29}, FUTTOCKFIG_NO_SUCH_KIND, 0},
    {{FUTTOCKFIG_MARKS_STANDING}, 0, 1},
};
enum { CALLS = sizeof list / sizeof list[0] };

static int wrong;

static void expect(const char *what, size_t at, size_t found, size_t wanted) {
    if (found == wanted) return;
    printf("seven: %s %zu is %zu, should be %zu\n", what, at, found, wanted);
    wrong = 1;
}

/* Orders of Seven: what the list begins with, and nothing of it where there is a code. */
static void arrange(void) {
    static const struct {
        uint32_t kind, vertex;
        size_t wanted_len, room;
        uint32_t wanted[8], code;
        size_t calls;
    } orders[] = {
        {FUTTOCKFIG_VERTEX_AFTER, 0, 4, 15, {3, 1, 4, 2}, FUTTOCKFIG_OK, 3},
        {FUTTOCKFIG_VERTEX_AFTER, 0, 4, 17, {1, 2, 3, 4}, FUTTOCKFIG_OK, 3},
        {FUTTOCKFIG_VERTEX_AFTER, 0, 4, 14, {3, 1, 4, 2}, FUTTOCKFIG_SHORT_LIST, 0},
        {FUTTOCKFIG_VERTEX_AFTER, 0, 4, 14, {3, 1, 4, 3}, FUTTOCKFIG_OTHER_ITEMS, 0},
        {FUTTOCKFIG_EDGE_AFTER, 0, 7, 30, {7, 1, 6, 2, 5, 3, 4}, FUTTOCKFIG_OK, 6},
        {FUTTOCKFIG_EDGE_AFTER, 0, 7, 30, {7, 1, 6, 2, 5, 3, 8}, FUTTOCKFIG_OTHER_ITEMS, 0},
        {FUTTOCKFIG_WORD_AFTER, 4, 4, 15, {15, 14, 12, 10}, FUTTOCKFIG_OK, 3},
        {FUTTOCKFIG_WORD_AFTER, 4, 4, 15, {10, 12, 14, 14}, FUTTOCKFIG_OTHER_ITEMS, 0},
        {FUTTOCKFIG_WORD_AFTER, 4, 4, 15, {11, 13, 14, 15}, FUTTOCKFIG_OTHER_ITEMS, 0},
        {FUTTOCKFIG_WORD_AFTER, 3, 0, 0, {0}, FUTTOCKFIG_OK, 0},
        {FUTTOCKFIG_WORD_AFTER, 5, 0, 0, {0}, FUTTOCKFIG_NO_SUCH_VERTEX, 0},
    };
    for (size_t i = 0; i < sizeof orders / sizeof orders[0]; i++) {
        const uint32_t *words = i % 2 ? old_seven : seven, *wanted = orders[i].wanted;
        size_t len = i % 2 ? sizeof old_seven / 4 : sizeof seven / 4, n = orders[i].wanted_len, room = orders[i].room;
        uint32_t calls[32];
        memset(calls, 0xff, sizeof calls);
        struct futtockfig_arrangement a = orders[i].kind == FUTTOCKFIG_VERTEX_AFTER ? futtockfig_arrange_vertices(words, len, wanted, n, calls, room)
            : orders[i].kind == FUTTOCKFIG_EDGE_AFTER                               ? futtockfig_arrange_edges(words, len, wanted, n, calls, room)
                                                      : futtockfig_arrange_words(words, len, orders[i].vertex, wanted, n, calls, room);
        expect("code of order", i, a.code, orders[i].code);
        expect("calls of order", i, a.calls, orders[i].calls);
        for (size_t k = 0; k < orders[i].calls; k++) {
            uint32_t due[5] = {orders[i].kind, wanted[k + 1], wanted[k], 0, 0};
            for (size_t j = 0; j < 5; j++) expect("word of an order's call", 5 * k + j, calls[5 * k + j], due[j]);
        }
        for (size_t j = 5 * orders[i].calls; j < 32; j++) expect("word behind an order's calls", j, calls[j], 0xffffffff);
    }
    uint32_t calls[1];
    struct futtockfig_arrangement a = futtockfig_arrange_words(seven, sizeof seven / 4 - 1, 5, seven, 0, calls, 0);
    expect("code of order, one word short,", 0, a.code, FUTTOCKFIG_BAD_START);
}

/* Two stores, Seven in old words and the empty graph, with one limit of 3 (REFERENCE 21.11). Each table, the answers and the
   image have a word more than the two parts, which stays. */
static void several(void) {
    enum { SHARED = 15, IMAGE = 2 * FUTTOCKFIG_IMAGE_WORDS(VERTICES, EDGES), START = sizeof old_seven / 4 };
    static const struct {
        uint32_t call[FUTTOCKFIG_STORE_CALL_WORDS], code, number;
    } shared[SHARED] = {
        {{1, FUTTOCKFIG_SET_VALUE, 1, 1}, 0, 1},
        {{2, FUTTOCKFIG_CREATE_VERTEX, 1, 0, 5}, 0, 1},
        {{1, FUTTOCKFIG_FREE_CHANGES}, 0, 1},
        {{1, FUTTOCKFIG_SET_VALUE, 1, 2}, 0, 1},
        {{2, FUTTOCKFIG_FREE_CHANGES}, 0, 0},
        {{2, FUTTOCKFIG_CREATE_VERTEX, 2}, FUTTOCKFIG_NO_ROOM, 0},
        {{1, FUTTOCKFIG_UNDO}, 0, 1},
        {{2, FUTTOCKFIG_CREATE_VERTEX, 2}, 0, 1},
        {{1, FUTTOCKFIG_REDO}, FUTTOCKFIG_NO_ROOM, 0},
        {{1, FUTTOCKFIG_FREE_CHANGES}, 0, 0},
        {{2, FUTTOCKFIG_UNDO}, 0, 1},
        {{1, FUTTOCKFIG_REDO}, 0, 1},
        {{3, FUTTOCKFIG_FREE_CHANGES}, FUTTOCKFIG_NO_SUCH_STORE, 0},
        {{0, 99}, FUTTOCKFIG_NO_SUCH_STORE, 0},
        {{1, 99}, FUTTOCKFIG_NO_SUCH_KIND, 0},
    };
    static uint32_t vertices[160 + 1], edges[240 + 1], journal[480 + 1], answers[2 * SHARED + 1], image[IMAGE + 1];
    uint32_t start[START + 10], calls[6 * SHARED];
    uint64_t rows[1] = {0};
    for (size_t i = 0; i < SHARED; i++) memcpy(calls + 6 * i, shared[i].call, 24);
    memset(vertices, 0xa5, sizeof vertices);
    memset(edges, 0xa5, sizeof edges);
    memset(journal, 0xa5, sizeof journal);
    memset(answers, 0xff, sizeof answers);
    memset(image, 0xff, sizeof image);
    memcpy(start, old_seven, sizeof old_seven);

    /* Lists that are refused: what stands behind Seven, the number of stores, and the words of calls and image. */
    static const struct {
        uint32_t behind[10];
        size_t behind_len, calls_len, image_len;
        uint32_t stores, code;
        size_t done;
    } refused[] = {
        {{1, 0, 6, 9, 9, 9, 0, 0, 0}, 9, 90, 252, 2, FUTTOCKFIG_BAD_RECORD, 80},
        {{1, 0, 6, 9, 9, 9, 0, 0, 0, 0}, 10, 90, 252, 2, FUTTOCKFIG_BAD_RECORD, 80},
        {{1, 0, 6, 9, 9, 9, 1, 0, 0, 0}, 10, 90, 252, 2, FUTTOCKFIG_BAD_START, 0},
        {{1, 0, 6, 9, 9, 9, 1, 0}, 8, 90, 252, 2, FUTTOCKFIG_BAD_START, 0},
        {{0, 0, 6, 6, 6}, 5, 90, 252, 2, FUTTOCKFIG_BAD_START, 0},
        {{0}, 0, 90, 252, 2, FUTTOCKFIG_BAD_START, 0},
        {{0, 0, 6, 6, 6, 6}, 6, 90, 252, 0, FUTTOCKFIG_BAD_CAPACITY, 0},
        {{0, 0, 6, 6, 6, 6}, 6, 90, 252, FUTTOCKFIG_MOST_STORES + 1, FUTTOCKFIG_BAD_CAPACITY, 0},
        {{0, 0, 6, 6, 6, 6}, 6, 90, 252, 0xffffffff, FUTTOCKFIG_BAD_CAPACITY, 0},
        {{0, 0, 6, 6, 6, 6}, 6, 85, 252, 2, FUTTOCKFIG_BAD_CALLS, 0},
        {{0, 0, 6, 6, 6, 6}, 6, 90, 251, 2, FUTTOCKFIG_SHORT_IMAGE, 0},
    };
    for (size_t i = 0; i < sizeof refused / sizeof refused[0]; i++) {
        memcpy(start + START, refused[i].behind, sizeof refused[i].behind);
        struct futtockfig_result r = futtockfig_run_stores(
            start, START + refused[i].behind_len, rows, 1, calls, refused[i].calls_len, vertices, 160, edges, 240, journal, 480, answers, 2 * SHARED, image,
            refused[i].image_len, refused[i].stores, 3);
        expect("code of refused stores", i, r.code, refused[i].code);
        expect("offset of refused stores", i, r.done, refused[i].done);
        expect("words of refused stores", i, r.words, 0);
    }
    for (size_t i = 0; i < sizeof vertices / 4; i++) expect("vertex word of refused stores", i, vertices[i], 0xa5a5a5a5);
    for (size_t i = 0; i < sizeof edges / 4; i++) expect("edge word of refused stores", i, edges[i], 0xa5a5a5a5);
    for (size_t i = 0; i < sizeof journal / 4; i++) expect("journal word of refused stores", i, journal[i], 0xa5a5a5a5);
    for (size_t i = 0; i < sizeof answers / 4; i++) expect("answer word of refused stores", i, answers[i], 0xffffffff);
    for (size_t i = 0; i < sizeof image / 4; i++) expect("image word of refused stores", i, image[i], 0xffffffff);

    memcpy(start + START, (const uint32_t[]){0, 0, 6, 6, 6, 6}, 24);
    struct futtockfig_result r = futtockfig_run_stores(
        start, START + 6, rows, 1, calls, 6 * SHARED, vertices, 161, edges, 241, journal, 481, answers, 2 * SHARED + 1, image, IMAGE + 1, 2, 3);
    expect("code of two stores", 0, r.code, FUTTOCKFIG_OK);
    expect("calls done by two stores", 0, r.done, SHARED);
    expect("words of two stores", 0, r.words, 78 + 10);
    for (size_t i = 0; i < SHARED; i++) {
        expect("code of a store's call", i, answers[2 * i], shared[i].code);
        expect("number of a store's call", i, answers[2 * i + 1], shared[i].number);
    }
    /* The first is Seven with the value 2 at vertex 1, word 8; the second has one vertex. */
    static const uint32_t second[] = {1, 0, 6, 10, 10, 10, 1, 0, 5, 0};
    for (size_t i = 0; i < IMAGE + 1; i++) {
        uint32_t wanted = i < 78 ? (i == 8 ? 2 : seven[i]) : i - IMAGE / 2 < 10 ? second[i - IMAGE / 2] : 0xffffffff;
        expect("image word of two stores", i, image[i], wanted);
    }
    expect("answer word beyond those of two stores", 0, answers[2 * SHARED], 0xffffffff);
    expect("vertex word behind two parts", 0, vertices[160], 0xa5a5a5a5);
    expect("edge word behind two parts", 0, edges[240], 0xa5a5a5a5);
    expect("journal word behind two parts", 0, journal[480], 0xa5a5a5a5);
}

int main(void) {
    static uint32_t vertices[8 * VERTICES], edges[12 * EDGES], journal[12 * CHANGES];
    static uint32_t calls[5 * CALLS], answers[2 * CALLS + SPARE], image[FUTTOCKFIG_IMAGE_WORDS(VERTICES, EDGES) + SPARE];
    uint64_t rows[1] = {0};
    size_t seven_len = sizeof seven / 4, image_len = sizeof image / 4, answers_len = sizeof answers / 4;
    memset(vertices, 0xa5, sizeof vertices);
    memset(edges, 0x5a, sizeof edges);
    memset(journal, 0xa5, sizeof journal);
    memset(answers, 0xff, sizeof answers);
    memset(image, 0xff, sizeof image);
    for (size_t i = 0; i < CALLS; i++) memcpy(calls + 5 * i, list[i].call, 20);

    /* A refused list writes nowhere. */
    struct futtockfig_result r = futtockfig_run(
        seven, seven_len, rows, 1, calls, 6, vertices, 8 * VERTICES, edges, 12 * EDGES, journal, 12 * CHANGES, answers, answers_len, image, image_len);
    expect("code of six words, result", 0, r.code, FUTTOCKFIG_BAD_CALLS);
    expect("calls done, result", 0, r.done, 0);
    expect("words, result", 0, r.words, 0);
    /* Seven with one word changed: a total, the edge offset of old words, the second of two equal numbers, an end that is
       no vertex, a degree, a word of another list. */
    static const struct {
        size_t at;
        uint32_t word, code;
        size_t done;
    } damage[] = {
        {5, 79, FUTTOCKFIG_BAD_START, 0},
        {3, 18, FUTTOCKFIG_BAD_START, 0},
        {10, 1, FUTTOCKFIG_BAD_RECORD, 10},
        {24, 5, FUTTOCKFIG_BAD_RECORD, 24},
        {21, 3, FUTTOCKFIG_BAD_RECORD, 21},
        {77, 5, FUTTOCKFIG_BAD_INCIDENCE, 77},
    };
    for (size_t i = 0; i < sizeof damage / sizeof damage[0]; i++) {
        uint32_t start[sizeof seven / 4];
        memcpy(start, seven, sizeof seven);
        start[damage[i].at] = damage[i].word;
        r = futtockfig_run(
            start, seven_len, rows, 1, calls, 5, vertices, 8 * VERTICES, edges, 12 * EDGES, journal, 12 * CHANGES, answers, answers_len, image, 0);
        expect("code of damage", i, r.code, damage[i].code);
        expect("offset of damage", i, r.done, damage[i].done);
        expect("words of damage", i, r.words, 0);
    }
    /* One word less than capacities 10 and 10 ask for, and what was enough for old words. */
    static const size_t short_of[] = {1, VERTICES};
    for (size_t i = 0; i < 2; i++) {
        r = futtockfig_run(
            seven, seven_len, rows, 1, calls, 5, vertices, 8 * VERTICES, edges, 12 * EDGES, journal, 12 * CHANGES, answers, answers_len, image,
            FUTTOCKFIG_IMAGE_WORDS(VERTICES, EDGES) - short_of[i]);
        expect("code of a short image", i, r.code, FUTTOCKFIG_SHORT_IMAGE);
    }
    for (size_t i = 0; i < 8 * VERTICES; i++) expect("vertex word", i, vertices[i], 0xa5a5a5a5);
    for (size_t i = 0; i < answers_len; i++) expect("answer word", i, answers[i], 0xffffffff);
    for (size_t i = 0; i < image_len; i++) expect("image word", i, image[i], 0xffffffff);

    r = futtockfig_run(
        seven, seven_len, rows, 1, calls, 5 * CALLS, vertices, 8 * VERTICES, edges, 12 * EDGES, journal, 12 * CHANGES, answers, answers_len, image, image_len);
    expect("code, result", 0, r.code, FUTTOCKFIG_OK);
    expect("calls done, result", 0, r.done, CALLS);
    expect("words, result", 0, r.words, seven_len);
    for (size_t i = 0; i < CALLS; i++) {
        expect("code of call", i, answers[2 * i], list[i].code);
        expect("number of call", i, answers[2 * i + 1], list[i].number);
    }
    /* All changes were taken back, so the image is Seven again. */
    for (size_t i = 0; i < seven_len; i++) expect("image word", i, image[i], seven[i]);
    for (size_t i = 2 * CALLS; i < answers_len; i++) expect("answer word beyond", i, answers[i], 0xffffffff);
    for (size_t i = seven_len; i < image_len; i++) expect("image word beyond", i, image[i], 0xffffffff);

    static const size_t parts[5][2] = {{0, 0}, {6, 16}, {22, 42}, {64, 14}, {0, 0}};
    static const size_t old_parts[5][2] = {{0, 0}, {6, 12}, {18, 42}, {60, 14}, {0, 0}};
    for (uint32_t part = 0; part < 5; part++) {
        struct futtockfig_span span = futtockfig_part(image, r.words, part);
        expect("length of part", part, span.len, parts[part][1]);
        expect("offset of part", part, span.offset, parts[part][0]);
        span = futtockfig_part(old_seven, sizeof old_seven / 4, part);
        expect("length of part of old words", part, span.len, old_parts[part][1]);
        expect("offset of part of old words", part, span.offset, old_parts[part][0]);
        span = futtockfig_part(image, r.words - 1, part);
        expect("length of part, one word short,", part, span.len, 0);
        expect("offset of part, one word short,", part, span.offset, 0);
    }
    /* An empty part has its offset too, so that it can be told from words without a sound header. */
    static const uint32_t lone[] = {1, 0, 6, 10, 10, 10, 5, 0, 7, 0};
    static const size_t lone_parts[5][2] = {{0, 0}, {6, 4}, {10, 0}, {10, 0}, {0, 0}};
    for (uint32_t part = 0; part < 5; part++) {
        struct futtockfig_span span = futtockfig_part(lone, 10, part);
        expect("length of part of one vertex", part, span.len, lone_parts[part][1]);
        expect("offset of part of one vertex", part, span.offset, lone_parts[part][0]);
    }

    /* The page of the image: each edge in a row, and a byte behind the rows that stays. */
    static const char rows_of_seven[] =
        "   1    1    1  0      -\n   2    1    2  0      -\n   3    1    2  0      -\n   4    2    1  0      -\n"
        "   5    4    1  0      -\n   6    4    2  0      -\n   7    4    4  0      -\n";
    enum { ROWS = 7 * FUTTOCKFIG_PAGE_ROW };
    uint8_t page[ROWS + 1];
    memset(page, '#', sizeof page);
    struct futtockfig_page_result p = futtockfig_page(image, r.words - 1, page, 0);
    expect("code of a page, one word short,", 0, p.code, FUTTOCKFIG_BAD_START);
    uint32_t number = image[10];
    image[10] = image[6];
    p = futtockfig_page(image, r.words, page, 0);
    expect("code of a page, a vertex twice,", 0, p.code, FUTTOCKFIG_BAD_RECORD);
    expect("bytes of a page, a vertex twice,", 0, p.bytes, 10);
    image[10] = number;
    number = image[9];
    image[9] = 5;
    p = futtockfig_page(image, r.words, page, 0);
    expect("code of a page, a wrong degree,", 0, p.code, FUTTOCKFIG_BAD_RECORD);
    expect("bytes of a page, a wrong degree,", 0, p.bytes, 9);
    image[9] = number;
    number = image[77];
    image[77] = image[76];
    p = futtockfig_page(image, r.words, page, 0);
    expect("code of a page, an incidence twice,", 0, p.code, FUTTOCKFIG_BAD_INCIDENCE);
    expect("bytes of a page, an incidence twice,", 0, p.bytes, 77);
    image[77] = number;
    p = futtockfig_page(image, r.words, page, ROWS - 1);
    expect("code of a page, one byte short,", 0, p.code, FUTTOCKFIG_SHORT_PAGE);
    expect("bytes of a page, one byte short,", 0, p.bytes, 0);
    for (size_t i = 0; i < sizeof page; i++) expect("page byte", i, page[i], '#');
    p = futtockfig_page(image, r.words, page, sizeof page);
    expect("code of a page", 0, p.code, FUTTOCKFIG_OK);
    expect("bytes of a page", 0, p.bytes, ROWS);
    for (size_t i = 0; i < ROWS; i++) expect("page byte", i, page[i], (uint8_t)rows_of_seven[i]);
    expect("page byte beyond", ROWS, page[ROWS], '#');
    p = futtockfig_page(old_seven, sizeof old_seven / 4, page, sizeof page);
    expect("bytes of the page of old words", 0, p.bytes, ROWS);
    for (size_t i = 0; i < ROWS; i++) expect("page byte of old words", i, page[i], (uint8_t)rows_of_seven[i]);

    /* The image beside its own old words; then with the second edge heard, whose record begins at word 28. */
    struct futtockfig_comparison c = futtockfig_compare(image, r.words, old_seven, sizeof old_seven / 4, 0);
    expect("code of a comparison", 0, c.code, FUTTOCKFIG_OK);
    expect("matched", 0, c.matched, 7);
    expect("agreeing", 0, c.agreeing, 7);
    expect("only in the first", 0, c.only_first, 0);
    expect("only in the second", 0, c.only_second, 0);
    image[32] = 2;
    image[33] = 40;
    c = futtockfig_compare(image, r.words, old_seven, sizeof old_seven / 4, 9999);
    expect("matched, one heard", 0, c.matched, 7);
    expect("agreeing, one heard", 0, c.agreeing, 6);
    image[32] = image[33] = 0;
    c = futtockfig_compare(image, r.words, image, r.words - 1, 0);
    expect("code, the second one word short,", 0, c.code, FUTTOCKFIG_BAD_SECOND);
    expect("matched, the second one word short,", 0, c.matched, 0);
    c = futtockfig_compare(image, r.words - 1, image, 0, 0);
    expect("code, the first one word short,", 0, c.code, FUTTOCKFIG_BAD_START);

    /* Old words start the same graph, and what is saved is new. */
    r = futtockfig_run(
        old_seven, sizeof old_seven / 4, rows, 1, calls, 0, vertices, 8 * VERTICES, edges, 12 * EDGES, journal, 12 * CHANGES, answers, answers_len,
        image, FUTTOCKFIG_IMAGE_WORDS(VERTICES, EDGES));
    expect("code, old words", 0, r.code, FUTTOCKFIG_OK);
    expect("words, old words", 0, r.words, seven_len);
    for (size_t i = 0; i < seven_len; i++) expect("image word, old words", i, image[i], seven[i]);

    arrange();

    /* A recorded list (REFERENCE 19.8): each step's copy at its stretch, a step that is cut among them; one word too few. */
    static const uint32_t recorded[] = {1, 1, 0, 7, 0, 17, 5, 0, 0, 0, 7, 1, 8, 0, 0, 19, 0, 0, 0, 0, 7, 1, 9, 0, 0, 21, 5, 0, 0, 0, 7, 1, 7, 0, 0};
    static const uint32_t empty[] = {0, 0, 6, 6, 6, 6}, recorded_numbers[] = {1, 0, 1, 1, 1, 1, 0};
    enum { STRETCH = FUTTOCKFIG_IMAGE_WORDS(1, 1), COPIES = 4 * STRETCH };
    uint32_t copies[COPIES], wanted[COPIES];
    for (size_t i = 0; i < COPIES; i++) copies[i] = wanted[i] = 77;
    r = futtockfig_record(empty, 6, rows, 1, recorded, 35, vertices, 8, edges, 12, journal, 60, answers, 14, image, STRETCH, copies, COPIES - 1);
    expect("code of a recorded list, one word short,", 0, r.code, FUTTOCKFIG_SHORT_COPIES);
    expect("calls done, one word short,", 0, r.done, 0);
    expect("words, one word short,", 0, r.words, 0);
    for (size_t i = 0; i < COPIES; i++) expect("copy word, one word short,", i, copies[i], 77);
    r = futtockfig_record(empty, 6, rows, 1, recorded, 35, vertices, 8, edges, 12, journal, 60, answers, 14, image, STRETCH, copies, COPIES);
    expect("code of a recorded list", 0, r.code, FUTTOCKFIG_OK);
    expect("words of a recorded list", 0, r.words, 10);
    expect("value at the end of a recorded list", 0, image[8], 7);
    for (size_t i = 0; i < 7; i++) {
        expect("code of recorded call", i, answers[2 * i], 0);
        expect("number of recorded call", i, answers[2 * i + 1], recorded_numbers[i]);
    }
    for (size_t k = 0; k < 3; k++) {
        memcpy(wanted + k * STRETCH, (const uint32_t[]){1, 0, 6, 10, 10, 10, 1, 0, (uint32_t)(7 + k), 0}, 40);
    }
    for (size_t i = 0; i < COPIES; i++) expect("copy word", i, copies[i], wanted[i]);

    /* A list reduced (REFERENCE 20.7): two calls of four are kept, words beyond them stay; then 115, 114 and 101. */
    static const uint32_t failing[] = {7, 1, 1, 0, 0, 2, 3, 0, 0, 0, 17, 5, 0, 0, 0, 2, 3, 0, 0, 0}, left[] = {2, 3, 0, 0, 0, 2, 3, 0, 0, 0};
    uint32_t kept[22];
    for (size_t i = 0; i < 22; i++) kept[i] = 77;
    struct futtockfig_reduction d = futtockfig_reduce(
        seven, seven_len, rows, 1, failing, 20, vertices, 8 * VERTICES, edges, 12 * EDGES, journal, 12 * CHANGES, answers, answers_len, image, image_len, kept, 22);
    expect("code of a reduction", 0, d.code, FUTTOCKFIG_OK);
    expect("calls kept", 0, d.kept, 2);
    expect("lists run", 0, d.runs, 5);
    for (size_t i = 0; i < 22; i++) expect("word of the reduced list", i, kept[i], i < 10 ? left[i] : 77);
    static const struct {
        uint32_t code;
        size_t words, room;
    } no_reduction[] = {{FUTTOCKFIG_NO_FAILURE, 5, 5}, {FUTTOCKFIG_BAD_LIST, 5, 4}, {FUTTOCKFIG_NO_FAILURE, 0, 0}, {FUTTOCKFIG_BAD_CALLS, 4, 5}};
    for (size_t i = 0; i < sizeof no_reduction / sizeof no_reduction[0]; i++) {
        static const uint32_t first[] = {FUTTOCKFIG_FIRST_VERTEX, 0, 0, 0, 0};
        d = futtockfig_reduce(
            seven, seven_len, rows, 1, first, no_reduction[i].words, vertices, 8 * VERTICES, edges, 12 * EDGES, journal, 12 * CHANGES, answers, answers_len,
            image, image_len, kept + 10, no_reduction[i].room);
        expect("code of no reduction", i, d.code, no_reduction[i].code);
        expect("calls kept of no reduction", i, d.kept, 0);
        expect("lists run of no reduction", i, d.runs, 0);
    }
    for (size_t i = 10; i < 22; i++) expect("word beyond the reduced list", i, kept[i], 77);

    several();

    if (!wrong) printf("seven: %d calls, a page, comparisons, orders, a list recorded, one reduced and one of two stores through the C header, as worked out\n", CALLS);
    return wrong;
}
