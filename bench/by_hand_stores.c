/*
 * Several stores with one limit by hand in C, over the store of by_hand.c, which is compiled here a second time: what
 * the compiler makes of one store alone stays as it is, and the step has one caller in both.
 */
#define BY_HAND_NO_RUN
#include "by_hand.c"

/* What going to a place ahead costs: the rows of the steps that are done again. */
static inline u32 rows_to(const struct store *s, u32 to) {
    u32 rows = 0;
    for (u32 i = s->place; i < to; i++) rows += s->journal[12 * (size_t)(s->used + rows) + 1];
    return rows;
}

/* Whether a redo, or a call to a mark or a name, needs more than is free. */
static inline int beyond(const struct store *s, const u32 *call, u32 free) {
    u32 mark;
    switch (call[0]) {
    case 20: return s->place < s->steps && rows_to(s, s->place + 1) > free;
    case 21: mark = call[1]; break;
    case 57: mark = holder(s, call[1], call[2]); break;
    default: return 0;
    }
    return mark - 1 < 64 && STANDS(mark) && rows_to(s, s->places[mark - 1]) > free;
}

struct futtockfig_result by_hand_run_stores(
    const u32 *start, size_t start_len, const u64 *rows, size_t rows_len, const u32 *calls, size_t calls_len,
    u32 *vertices, size_t vertices_len, u32 *edges, size_t edges_len, u32 *journal, size_t journal_len,
    u32 *answers, size_t answers_len, u32 *image, size_t image_len, u32 stores, u32 limit) {
    struct futtockfig_result r = {0, 0, 0};
    struct store all[FUTTOCKFIG_MOST_STORES];
    size_t at[FUTTOCKFIG_MOST_STORES], end = 0, count = calls_len / 6;
    if (calls_len % 6) { r.code = 101; return r; }
    if (answers_len < 2 * count) { r.code = 102; return r; }
    if (stores - 1 >= FUTTOCKFIG_MOST_STORES) { r.code = 103; return r; }
    size_t v = vertices_len / stores, e = edges_len / stores, t = journal_len / stores, n = image_len / stores;
    size_t vs = v / 8, es = e / 12, cs = t / 12;
    if (vs - 1 >= FUTTOCKFIG_MOST_VERTICES || es - 1 >= FUTTOCKFIG_MOST_EDGES || cs - 1 >= FUTTOCKFIG_MOST_CHANGES) { r.code = 103; return r; }
    if (rows_len - 1 >= 64) { r.code = 104; return r; }
    for (size_t i = 0; i < rows_len; i++)
        if (rows_len < 64 && rows[i] >> rows_len) { r.code = 104; return r; }
    for (u32 i = 0; i < stores; i++) {
        const u32 *words = start + end;
        size_t left = start_len - end, len = left < 6 ? 0 : words[5] < left ? words[5] : left;
        struct bad bad = check(words, len, (u32)vs, (u32)es, (u32)rows_len);
        if (bad.code) { r.code = bad.code; r.done = bad.code == 105 ? 0 : end + bad.at; return r; }
        at[i] = end;
        end += len;
    }
    if (end < start_len) { r.code = 105; return r; }
    if (n < FUTTOCKFIG_IMAGE_WORDS(vs, es)) { r.code = 106; return r; }
    u64 below[64];
    for (size_t i = 0; i < rows_len; i++) below[i] = rows[i] | (u64)1 << i | 1;
    for (size_t k = 0; k < rows_len; k++)
        for (size_t i = 0; i < rows_len; i++)
            if (below[i] >> k & 1) below[i] |= below[k];
    for (u32 i = 0; i < stores; i++) {
        struct store *s = &all[i];
        *s = (struct store){.vertices = vertices + i * v, .edges = edges + i * e, .journal = journal + i * t};
        s->vertex_capacity = (u32)vs;
        s->edge_capacity = (u32)es;
        s->types = (u32)rows_len;
        memcpy(s->below, below, 8 * rows_len);
        load(s, start + at[i]);
    }
    u32 room = limit;
    for (size_t k = 0; k < count; k++) {
        const u32 *call = calls + 6 * k;
        u32 *answer = answers + 2 * k;
        if (call[0] - 1 >= stores) {
            answer[0] = 21;
            answer[1] = 0;
            continue;
        }
        struct store *s = &all[call[0] - 1];
        u32 used = s->used, own = (u32)cs - used, free = own < room ? own : room;
        if (beyond(s, call + 1, free)) {
            answer[0] = 10;
            answer[1] = 0;
            continue;
        }
        s->change_capacity = used + free;
        step(s, call + 1, answer);
        room += used - s->used;
    }
    r.done = count;
    for (u32 i = 0; i < stores; i++) r.words += save(&all[i], image + i * n);
    return r;
}
