/*
 * The engine's data structure by hand in C, for comparison of speed: doubly linked lists in lent tables, a journal of
 * edits, marks as a 64-bit set with places and names. It answers what the engine answers.
 */
#include "../include/futtockfig.h"

#include <string.h>

#ifndef BY_HAND_RUN
#define BY_HAND_RUN by_hand_run
#define BY_HAND_PART by_hand_part
#define BY_HAND_PAGE by_hand_page
#endif

/* Else gcc compiles undo and redo as functions of their own. */
#define INLINE static inline __attribute__((always_inline))

typedef uint32_t u32;
typedef uint64_t u64;

/* Words of a vertex row. */
enum { V_LIVE, V_TYPE, V_VALUE, V_FIRST, V_LAST, V_SPARE, V_PREV, V_NEXT };
/* Words of an edge row: the half of the out word, then the half of the in word. */
enum { W_PREV, W_NEXT, W_THIS };
enum { E_ALPHA = 2, E_LIVE, E_TYPE, E_KIND, E_OMEGA = 8, E_DECIMETRES, E_PREV, E_NEXT };
/* Edits of the journal. A row is edit, rows of its step, then the edit's own words; word 11 is the bench. */
enum { INSERT_VERTEX, REMOVE_VERTEX, INSERT_EDGE, REMOVE_EDGE, SET_VERTEX, SET_EDGE, MOVE_VERTEX, MOVE_EDGE, MOVE_WORD };

struct store {
    u32 *restrict vertices;
    u32 *restrict edges;
    u32 *restrict journal;
    u32 vertex_capacity, edge_capacity, change_capacity, types;
    u32 vertex_first, vertex_last, edge_first, edge_last, vertex_count, edge_count;
    u32 place, steps, used; /* used: rows of steps 1 to place */
    u32 bench;              /* of later steps */
    u64 marks;
    u32 places[64];
    u32 names[64][2]; /* of standing marks; 0 0 is none */
    u64 below[64];
};

static inline u32 *vertex_row(const struct store *s, u32 v) { return s->vertices + 8 * (size_t)(v - 1); }
static inline u32 *edge_row(const struct store *s, u32 e) { return s->edges + 12 * (size_t)(e - 1); }
static inline u32 *half(const struct store *s, u32 w) { return s->edges + 6 * (size_t)(w - 2); }
static inline int no_vertex(const struct store *s, u32 v) { return v - 1 >= s->vertex_capacity || !vertex_row(s, v)[V_LIVE]; }
static inline int no_edge(const struct store *s, u32 e) { return e - 1 >= s->edge_capacity || !edge_row(s, e)[E_LIVE]; }

/* The three lists. `prev` 0 is the front. */

static inline void vertex_link(struct store *s, u32 v, u32 prev) {
    u32 next = prev ? vertex_row(s, prev)[V_NEXT] : s->vertex_first;
    u32 *row = vertex_row(s, v);
    row[V_PREV] = prev;
    row[V_NEXT] = next;
    if (prev) vertex_row(s, prev)[V_NEXT] = v; else s->vertex_first = v;
    if (next) vertex_row(s, next)[V_PREV] = v; else s->vertex_last = v;
}

static inline void vertex_unlink(struct store *s, u32 v) {
    u32 prev = vertex_row(s, v)[V_PREV], next = vertex_row(s, v)[V_NEXT];
    if (prev) vertex_row(s, prev)[V_NEXT] = next; else s->vertex_first = next;
    if (next) vertex_row(s, next)[V_PREV] = prev; else s->vertex_last = prev;
}

static inline void edge_link(struct store *s, u32 e, u32 prev) {
    u32 next = prev ? edge_row(s, prev)[E_NEXT] : s->edge_first;
    u32 *row = edge_row(s, e);
    row[E_PREV] = prev;
    row[E_NEXT] = next;
    if (prev) edge_row(s, prev)[E_NEXT] = e; else s->edge_first = e;
    if (next) edge_row(s, next)[E_PREV] = e; else s->edge_last = e;
}

static inline void edge_unlink(struct store *s, u32 e) {
    u32 prev = edge_row(s, e)[E_PREV], next = edge_row(s, e)[E_NEXT];
    if (prev) edge_row(s, prev)[E_NEXT] = next; else s->edge_first = next;
    if (next) edge_row(s, next)[E_PREV] = prev; else s->edge_last = prev;
}

static inline void word_link(struct store *s, u32 w, u32 v, u32 prev) {
    u32 *at = vertex_row(s, v), *row = half(s, w);
    u32 next = prev ? half(s, prev)[W_NEXT] : at[V_FIRST];
    row[W_PREV] = prev;
    row[W_NEXT] = next;
    row[W_THIS] = v;
    if (prev) half(s, prev)[W_NEXT] = w; else at[V_FIRST] = w;
    if (next) half(s, next)[W_PREV] = w; else at[V_LAST] = w;
}

static inline void word_unlink(struct store *s, u32 w) {
    u32 *row = half(s, w), *at = vertex_row(s, row[W_THIS]);
    u32 prev = row[W_PREV], next = row[W_NEXT];
    if (prev) half(s, prev)[W_NEXT] = next; else at[V_FIRST] = next;
    if (next) half(s, next)[W_PREV] = prev; else at[V_LAST] = prev;
}

/* The edits, in both directions. */

static inline void vertex_enter(struct store *s, const u32 *r) {
    u32 *row = vertex_row(s, r[2]);
    row[V_LIVE] = 1;
    row[V_TYPE] = r[3];
    row[V_VALUE] = r[4];
    row[V_FIRST] = 0;
    row[V_LAST] = 0;
    vertex_link(s, r[2], r[5]);
    s->vertex_count++;
}

static inline void vertex_leave(struct store *s, u32 v) {
    vertex_unlink(s, v);
    vertex_row(s, v)[V_LIVE] = 0;
    s->vertex_count--;
}

static inline void edge_enter(struct store *s, const u32 *r) {
    u32 *row = edge_row(s, r[2]);
    row[E_LIVE] = 1;
    row[E_TYPE] = r[5];
    row[E_KIND] = r[6];
    row[E_DECIMETRES] = r[7];
    edge_link(s, r[2], r[8]);
    word_link(s, 2 * r[2], r[3], r[9]);
    word_link(s, 2 * r[2] + 1, r[4], r[10]);
    s->edge_count++;
}

static inline void edge_leave(struct store *s, u32 e) {
    word_unlink(s, 2 * e + 1);
    word_unlink(s, 2 * e);
    edge_unlink(s, e);
    edge_row(s, e)[E_LIVE] = 0;
    s->edge_count--;
}

static inline void edge_fields(struct store *s, u32 e, const u32 *fields) {
    u32 *row = edge_row(s, e);
    row[E_TYPE] = fields[0];
    row[E_KIND] = fields[1];
    row[E_DECIMETRES] = fields[2];
}

static inline void vertex_fields(struct store *s, u32 v, const u32 *fields) {
    u32 *row = vertex_row(s, v);
    row[V_TYPE] = fields[0];
    row[V_VALUE] = fields[1];
}

INLINE void redo_row(struct store *s, const u32 *r) {
    switch (r[0]) {
    case INSERT_VERTEX: vertex_enter(s, r); break;
    case REMOVE_VERTEX: vertex_leave(s, r[2]); break;
    case INSERT_EDGE: edge_enter(s, r); break;
    case REMOVE_EDGE: edge_leave(s, r[2]); break;
    case SET_VERTEX: vertex_fields(s, r[2], r + 5); break;
    case SET_EDGE: edge_fields(s, r[2], r + 6); break;
    case MOVE_VERTEX: vertex_unlink(s, r[2]); vertex_link(s, r[2], r[4]); break;
    case MOVE_EDGE: edge_unlink(s, r[2]); edge_link(s, r[2], r[4]); break;
    default: word_unlink(s, r[2]); word_link(s, r[2], r[5], r[6]); break;
    }
}

INLINE void undo_row(struct store *s, const u32 *r) {
    switch (r[0]) {
    case INSERT_VERTEX: vertex_leave(s, r[2]); break;
    case REMOVE_VERTEX: vertex_enter(s, r); break;
    case INSERT_EDGE: edge_leave(s, r[2]); break;
    case REMOVE_EDGE: edge_enter(s, r); break;
    case SET_VERTEX: vertex_fields(s, r[2], r + 3); break;
    case SET_EDGE: edge_fields(s, r[2], r + 3); break;
    case MOVE_VERTEX: vertex_unlink(s, r[2]); vertex_link(s, r[2], r[3]); break;
    case MOVE_EDGE: edge_unlink(s, r[2]); edge_link(s, r[2], r[3]); break;
    default: word_unlink(s, r[2]); word_link(s, r[2], r[3], r[4]); break;
    }
}

INLINE void undo(struct store *s) {
    const u32 *r = s->journal + 12 * (size_t)s->used;
    u32 cost = (r - 12)[1];
    s->used -= cost;
    do {
        r -= 12;
        undo_row(s, r);
    } while (--cost);
    s->place--;
}

INLINE void redo(struct store *s) {
    const u32 *r = s->journal + 12 * (size_t)s->used;
    u32 cost = r[1];
    s->used += cost;
    do {
        redo_row(s, r);
        r += 12;
    } while (--cost);
    s->place++;
}

/* How many of the steps from place p on, up to place q, the bench made. */
static inline u32 made_by(const struct store *s, u32 p, u32 q, u32 bench) {
    const u32 *r = s->journal;
    u32 count = 0;
    for (u32 i = 0; i < q; i++, r += 12 * (size_t)r[1]) count += i >= p && r[11] == bench;
    return count;
}

/* The standing mark that has the name, or 0. */
static inline u32 holder(const struct store *s, u32 first, u32 second) {
    if (!(first | second)) return 0;
    for (u64 left = s->marks; left; left &= left - 1) {
        int i = __builtin_ctzll(left);
        if (s->names[i][0] == first && s->names[i][1] == second) return (u32)i + 1;
    }
    return 0;
}

/* A step begins: the steps after the place and the marks above it are cut. */
static inline void begin(struct store *s) {
    if (s->place < s->steps) {
        for (u64 left = s->marks; left; left &= left - 1) {
            int i = __builtin_ctzll(left);
            if (s->places[i] > s->place) s->marks &= ~((u64)1 << i);
        }
    }
    s->place++;
    s->steps = s->place;
}

static inline u32 *new_row(struct store *s, u32 edit, u32 cost) {
    u32 *r = s->journal + 12 * (size_t)s->used++;
    r[0] = edit;
    r[1] = cost;
    r[11] = s->bench;
    return r;
}

static inline void remove_edge(struct store *s, u32 e, u32 cost) {
    u32 *r = new_row(s, REMOVE_EDGE, cost), *row = edge_row(s, e);
    r[2] = e;
    r[3] = row[E_ALPHA];
    r[4] = row[E_OMEGA];
    r[5] = row[E_TYPE];
    r[6] = row[E_KIND];
    r[7] = row[E_DECIMETRES];
    r[8] = row[E_PREV];
    r[10] = half(s, 2 * e + 1)[W_PREV];
    word_unlink(s, 2 * e + 1);
    r[9] = half(s, 2 * e)[W_PREV];
    word_unlink(s, 2 * e);
    edge_unlink(s, e);
    row[E_LIVE] = 0;
    s->edge_count--;
}

static inline void set_vertex(struct store *s, u32 v, u32 type, u32 value) {
    u32 *r = new_row(s, SET_VERTEX, 1), *row = vertex_row(s, v);
    r[2] = v;
    r[3] = row[V_TYPE];
    r[4] = row[V_VALUE];
    r[5] = row[V_TYPE] = type;
    r[6] = row[V_VALUE] = value;
}

static inline void set_edge(struct store *s, u32 e, u32 type, u32 kind, u32 decimetres) {
    u32 *r = new_row(s, SET_EDGE, 1), *row = edge_row(s, e);
    r[2] = e;
    r[3] = row[E_TYPE];
    r[4] = row[E_KIND];
    r[5] = row[E_DECIMETRES];
    r[6] = row[E_TYPE] = type;
    r[7] = row[E_KIND] = kind;
    r[8] = row[E_DECIMETRES] = decimetres;
}

static inline void move_word(struct store *s, u32 w, u32 v, u32 beside, int after) {
    u32 *r = new_row(s, MOVE_WORD, 1), *row = half(s, w);
    r[2] = w;
    r[3] = row[W_THIS];
    r[4] = row[W_PREV];
    word_unlink(s, w);
    u32 prev = beside == 0 ? vertex_row(s, v)[V_LAST] : after ? beside : half(s, beside)[W_PREV];
    r[5] = v;
    r[6] = prev;
    word_link(s, w, v, prev);
}

static inline u32 cost_of_delete(const struct store *s, u32 v) {
    u32 cost = 1;
    for (u32 w = vertex_row(s, v)[V_FIRST]; w; w = half(s, w)[W_NEXT]) cost += !(w & 1) || edge_row(s, w / 2)[E_ALPHA] != v;
    return cost;
}

/* What the last tested word out to b, along the list of a, has heard, plus 1; 0 where nothing is heard. */
static inline u32 one_way(const struct store *s, u32 a, u32 b) {
    u32 last = 0;
    for (u32 w = vertex_row(s, a)[V_FIRST]; w; w = half(s, w)[W_NEXT]) {
        if (w & 1) continue;
        const u32 *row = edge_row(s, w / 2);
        if (row[E_OMEGA] == b && row[E_KIND]) last = row[E_KIND] == 2 ? row[E_DECIMETRES] + 1 : 0;
    }
    return last;
}

#define REFUSE(code_) do { answer[0] = (code_); answer[1] = 0; return; } while (0)
#define ANSWER(number_) do { answer[0] = 0; answer[1] = (number_); return; } while (0)
#define NEED_VERTEX(v_) do { if (no_vertex(s, v_)) REFUSE(4); } while (0)
#define NEED_EDGE(e_) do { if (no_edge(s, e_)) REFUSE(5); } while (0)
#define NEED_TYPE(t_) do { if ((t_) >= s->types) REFUSE(6); } while (0)
#define NEED_ROOM(cost_) do { if ((cost_) > s->change_capacity - s->used) REFUSE(10); } while (0)
/* A change that alters nothing answers 0 and is no step. */
#define UNLESS(same_) do { if (same_) ANSWER(0); } while (0)
#define NEED_MARK(m_) do { if ((m_) - 1 >= 64) REFUSE(11); } while (0)
#define STANDS(m_) (s->marks >> ((m_) - 1) & 1)

static inline void step(struct store *s, const u32 *call, u32 *answer) {
    u32 a = call[1], b = call[2], c = call[3], d = call[4], n, mark;
    switch (call[0]) {
    case 1: {
        if (a - 1 >= s->vertex_capacity) REFUSE(2);
        if (vertex_row(s, a)[V_LIVE]) REFUSE(3);
        NEED_TYPE(b);
        NEED_ROOM(1);
        begin(s);
        u32 *r = new_row(s, INSERT_VERTEX, 1);
        r[2] = a; r[3] = b; r[4] = c; r[5] = s->vertex_last;
        vertex_enter(s, r);
        ANSWER(1);
    }
    case 2: {
        NEED_VERTEX(a);
        u32 cost = cost_of_delete(s, a);
        NEED_ROOM(cost);
        begin(s);
        u32 w;
        while ((w = vertex_row(s, a)[V_FIRST])) remove_edge(s, w / 2, cost);
        u32 *r = new_row(s, REMOVE_VERTEX, cost), *row = vertex_row(s, a);
        r[2] = a; r[3] = row[V_TYPE]; r[4] = row[V_VALUE]; r[5] = row[V_PREV];
        vertex_leave(s, a);
        ANSWER(cost);
    }
    case 3: {
        if (a - 1 >= s->edge_capacity) REFUSE(2);
        if (edge_row(s, a)[E_LIVE]) REFUSE(3);
        NEED_VERTEX(b);
        NEED_VERTEX(c);
        NEED_TYPE(d);
        NEED_ROOM(1);
        begin(s);
        u32 *r = new_row(s, INSERT_EDGE, 1);
        r[2] = a; r[3] = b; r[4] = c; r[5] = d; r[6] = 0; r[7] = 0;
        r[8] = s->edge_last;
        r[9] = vertex_row(s, b)[V_LAST];
        r[10] = b == c ? 2 * a : vertex_row(s, c)[V_LAST];
        edge_enter(s, r);
        ANSWER(1);
    }
    case 4:
        NEED_EDGE(a);
        NEED_ROOM(1);
        begin(s);
        remove_edge(s, a, 1);
        ANSWER(1);
    case 5:
        NEED_VERTEX(a);
        NEED_TYPE(b);
        UNLESS(vertex_row(s, a)[V_TYPE] == b);
        NEED_ROOM(1);
        begin(s);
        set_vertex(s, a, b, vertex_row(s, a)[V_VALUE]);
        ANSWER(1);
    case 6:
        NEED_EDGE(a);
        NEED_TYPE(b);
        UNLESS(edge_row(s, a)[E_TYPE] == b);
        NEED_ROOM(1);
        begin(s);
        set_edge(s, a, b, edge_row(s, a)[E_KIND], edge_row(s, a)[E_DECIMETRES]);
        ANSWER(1);
    case 7:
        NEED_VERTEX(a);
        UNLESS(vertex_row(s, a)[V_VALUE] == b);
        NEED_ROOM(1);
        begin(s);
        set_vertex(s, a, vertex_row(s, a)[V_TYPE], b);
        ANSWER(1);
    case 8:
        NEED_EDGE(a);
        if (!(b <= 1 ? c == 0 : b == 2 && c <= 9999)) REFUSE(7);
        UNLESS(edge_row(s, a)[E_KIND] == b && edge_row(s, a)[E_DECIMETRES] == c);
        NEED_ROOM(1);
        begin(s);
        set_edge(s, a, edge_row(s, a)[E_TYPE], b, c);
        ANSWER(1);
    case 9:
    case 10:
        NEED_VERTEX(b);
        NEED_EDGE(a);
        UNLESS(vertex_row(s, b)[V_LAST] == 2 * a + (call[0] == 10));
        NEED_ROOM(1);
        begin(s);
        move_word(s, 2 * a + (call[0] == 10), b, 0, 0);
        ANSWER(1);
    case 11:
    case 12: {
        NEED_VERTEX(a);
        NEED_VERTEX(b);
        if (a == b) REFUSE(9);
        UNLESS(vertex_row(s, call[0] == 12 ? a : b)[V_PREV] == (call[0] == 12 ? b : a));
        NEED_ROOM(1);
        begin(s);
        u32 *r = new_row(s, MOVE_VERTEX, 1);
        r[2] = a;
        r[3] = vertex_row(s, a)[V_PREV];
        vertex_unlink(s, a);
        r[4] = call[0] == 12 ? b : vertex_row(s, b)[V_PREV];
        vertex_link(s, a, r[4]);
        ANSWER(1);
    }
    case 13:
    case 14: {
        NEED_EDGE(a);
        NEED_EDGE(b);
        if (a == b) REFUSE(9);
        UNLESS(edge_row(s, call[0] == 14 ? a : b)[E_PREV] == (call[0] == 14 ? b : a));
        NEED_ROOM(1);
        begin(s);
        u32 *r = new_row(s, MOVE_EDGE, 1);
        r[2] = a;
        r[3] = edge_row(s, a)[E_PREV];
        edge_unlink(s, a);
        r[4] = call[0] == 14 ? b : edge_row(s, b)[E_PREV];
        edge_link(s, a, r[4]);
        ANSWER(1);
    }
    case 15:
    case 16:
        NEED_EDGE(a / 2);
        NEED_EDGE(b / 2);
        if (half(s, a)[W_THIS] != half(s, b)[W_THIS]) REFUSE(8);
        if (a == b) REFUSE(9);
        UNLESS(half(s, call[0] == 16 ? a : b)[W_PREV] == (call[0] == 16 ? b : a));
        NEED_ROOM(1);
        begin(s);
        move_word(s, a, half(s, a)[W_THIS], b, call[0] == 16);
        ANSWER(1);
    case 17:
        NEED_MARK(a);
        if (STANDS(a)) REFUSE(12);
        s->marks |= (u64)1 << (a - 1);
        s->places[a - 1] = s->place;
        s->names[a - 1][0] = s->names[a - 1][1] = 0;
        ANSWER(0);
    case 18:
        NEED_MARK(a);
        if (!STANDS(a)) REFUSE(13);
        s->marks &= ~((u64)1 << (a - 1));
        ANSWER(0);
    case 19:
        if (s->place == 0) REFUSE(14);
        n = 1;
        goto back;
    case 20:
        if (s->place == s->steps) REFUSE(14);
        n = 1;
        goto on;
    case 21:
        NEED_MARK(a);
        if (!STANDS(a)) REFUSE(13);
        mark = a;
        goto go;
    case 22: {
        u32 place = s->place;
        s->place = s->steps = s->used = 0;
        s->marks = 0;
        ANSWER(place);
    }
    case 30: ANSWER(s->vertex_first);
    case 31: NEED_VERTEX(a); ANSWER(vertex_row(s, a)[V_NEXT]);
    case 32: ANSWER(s->edge_first);
    case 33: NEED_EDGE(a); ANSWER(edge_row(s, a)[E_NEXT]);
    case 34: NEED_VERTEX(a); ANSWER(vertex_row(s, a)[V_FIRST]);
    case 35: NEED_EDGE(a / 2); ANSWER(half(s, a)[W_NEXT]);
    case 36: NEED_EDGE(a); ANSWER(edge_row(s, a)[E_ALPHA]);
    case 37: NEED_EDGE(a); ANSWER(edge_row(s, a)[E_OMEGA]);
    case 38: NEED_EDGE(a / 2); ANSWER(half(s, a)[W_THIS]);
    case 39: NEED_EDGE(a / 2); ANSWER(half(s, a ^ 1)[W_THIS]);
    case 40: NEED_VERTEX(a); ANSWER(vertex_row(s, a)[V_TYPE]);
    case 41: NEED_EDGE(a); ANSWER(edge_row(s, a)[E_TYPE]);
    case 42: NEED_VERTEX(a); ANSWER(vertex_row(s, a)[V_VALUE]);
    case 43: NEED_EDGE(a); ANSWER(edge_row(s, a)[E_KIND]);
    case 44: NEED_EDGE(a); ANSWER(edge_row(s, a)[E_DECIMETRES]);
    case 45: {
        NEED_VERTEX(a);
        NEED_TYPE(b);
        if (c > 2) REFUSE(15);
        u32 count = 0;
        for (u32 w = vertex_row(s, a)[V_FIRST]; w; w = half(s, w)[W_NEXT]) {
            if (c != 0 && (w & 1) != c - 1) continue;
            count += s->below[edge_row(s, w / 2)[E_TYPE]] >> b & 1;
        }
        ANSWER(count);
    }
    case 46: {
        NEED_VERTEX(a);
        NEED_VERTEX(b);
        u32 v = vertex_row(s, a)[V_NEXT];
        while (v && v != b) v = vertex_row(s, v)[V_NEXT];
        ANSWER(v != 0);
    }
    case 47: {
        NEED_EDGE(a);
        NEED_EDGE(b);
        u32 e = edge_row(s, a)[E_NEXT];
        while (e && e != b) e = edge_row(s, e)[E_NEXT];
        ANSWER(e != 0);
    }
    case 48: {
        NEED_EDGE(a / 2);
        NEED_EDGE(b / 2);
        if (half(s, a)[W_THIS] != half(s, b)[W_THIS]) REFUSE(8);
        u32 w = half(s, a)[W_NEXT];
        while (w && w != b) w = half(s, w)[W_NEXT];
        ANSWER(w != 0);
    }
    case 49: {
        NEED_MARK(a);
        NEED_MARK(b);
        if (!STANDS(a) || !STANDS(b)) REFUSE(13);
        u32 p = s->places[a - 1], q = s->places[b - 1];
        ANSWER(p > q ? p - q : q - p);
    }
    case 50: ANSWER((u32)__builtin_popcountll(s->marks));
    case 51: ANSWER(s->change_capacity - s->used);
    case 52:
        NEED_TYPE(a);
        NEED_TYPE(b);
        ANSWER(s->below[a] >> b & 1);
    case 53:
    case 54: {
        NEED_VERTEX(a);
        NEED_VERTEX(b);
        u32 there = one_way(s, a, b), back = one_way(s, b, a);
        if (!there || !back) REFUSE(16);
        u32 range = (there < back ? there : back) - 1;
        if (call[0] == 53) ANSWER(range);
        if (c > 2) REFUSE(17);
        ANSWER(c == 2 ? range / 200 : range / 250);
    }
    case 56: {
        NEED_MARK(a);
        if (!STANDS(a)) REFUSE(13);
        mark = holder(s, b, c);
        if (!(b | c) || (mark && mark != a)) REFUSE(18);
        s->names[a - 1][0] = b;
        s->names[a - 1][1] = c;
        ANSWER(0);
    }
    case 57:
        mark = holder(s, a, b);
        if (!mark) REFUSE(19);
    go: /* one loop for each direction, whatever the kind */
        if (s->places[mark - 1] >= s->place) {
            n = s->places[mark - 1] - s->place;
            goto on;
        }
        n = s->place - s->places[mark - 1];
    back:
        for (u32 i = n; i; i--) undo(s);
        ANSWER(n);
    on:
        for (u32 i = n; i; i--) redo(s);
        ANSWER(n);
    case 58:
        if (a > 99) REFUSE(20);
        s->bench = a;
        ANSWER(0);
    case 59: {
        NEED_MARK(a);
        NEED_MARK(b);
        if (!STANDS(a) || !STANDS(b)) REFUSE(13);
        if (c > 99) REFUSE(20);
        u32 p = s->places[a - 1], q = s->places[b - 1];
        ANSWER(p < q ? made_by(s, p, q, c) : made_by(s, q, p, c));
    }
    default: REFUSE(1);
    }
}

/* Words of a vertex record, which the edge offset tells: 4, without the degree 3. 0 where the header is not sound. */
static u32 record_size(const u32 *words, size_t len) {
    if (len < 6) return 0;
    u64 v = words[0], e = words[1], edges = words[3];
    if (words[2] != 6 || words[4] != edges + 6 * e || words[5] != edges + 8 * e || words[5] != len) return 0;
    return edges == 6 + 4 * v ? 4 : edges == 6 + 3 * v ? 3 : 0;
}

/* What is bad in words that should be an image within the capacities: a code, 0 where they are one, and with 108 and 109
   the offset of the first bad word. Writes only to its own arrays. */
struct bad {
    u32 code;
    size_t at;
};

#define BAD(code, word) return (struct bad){code, (size_t)((word) - words)}

static struct bad check(const u32 *words, size_t len, u32 vertices, u32 edges, u32 types) {
    u32 degree[FUTTOCKFIG_MOST_VERTICES + 1]; /* 1 + degree, 0 where the vertex is missing */
    u32 this_of[2 * FUTTOCKFIG_MOST_EDGES + 2]; /* 0 where missing or used */
    u32 size = record_size(words, len);
    if (!size || words[0] > vertices || words[1] > edges || (!words[0] && words[1])) BAD(105, words);
    memset(degree, 0, 4 * ((size_t)vertices + 1));
    memset(this_of, 0, 8 * ((size_t)edges + 1));
    const u32 *end = words + words[3];
    for (const u32 *r = words + 6; r < end; r += size) {
        if (r[0] - 1 >= vertices || degree[r[0]]) BAD(108, r);
        if (r[1] >= types) BAD(108, r + 1);
        degree[r[0]] = 1;
    }
    end = words + words[4];
    for (const u32 *r = words + words[3]; r < end; r += 6) {
        if (r[0] - 1 >= edges || this_of[2 * r[0]]) BAD(108, r);
        if (r[1] > vertices || !degree[r[1]]) BAD(108, r + 1);
        if (r[2] > vertices || !degree[r[2]]) BAD(108, r + 2);
        if (r[3] >= types) BAD(108, r + 3);
        if (r[4] > 2) BAD(108, r + 4);
        if (r[5] > (r[4] == 2 ? 9999 : 0)) BAD(108, r + 5);
        this_of[2 * r[0]] = r[1];
        this_of[2 * r[0] + 1] = r[2];
        degree[r[1]]++;
        degree[r[2]]++;
    }
    end = words + words[3];
    if (size == 4) {
        for (const u32 *r = words + 6; r < end; r += 4)
            if (degree[r[0]] != r[3] + 1) BAD(108, r + 3);
    }
    const u32 *w = words + words[4];
    for (const u32 *r = words + 6; r < end; r += size) {
        for (u32 n = degree[r[0]]; n > 1; n--, w++) {
            if (*w > 2 * edges + 1 || this_of[*w] != r[0]) BAD(109, w);
            this_of[*w] = 0;
        }
    }
    return (struct bad){0, 0};
}

/* A list is as long as its record says; of old words, it ends where a word is another vertex's. */
static inline void load_as(struct store *s, const u32 *words, u32 size) {
    for (u32 v = 1; v <= s->vertex_capacity; v++) vertex_row(s, v)[V_LIVE] = 0;
    for (u32 e = 1; e <= s->edge_capacity; e++) edge_row(s, e)[E_LIVE] = 0;
    u32 prev = 0;
    const u32 *end = words + words[4];
    for (const u32 *r = words + words[3]; r < end; r += 6) {
        u32 *row = edge_row(s, r[0]);
        row[E_LIVE] = 1;
        row[E_ALPHA] = r[1];
        row[E_OMEGA] = r[2];
        row[E_TYPE] = r[3];
        row[E_KIND] = r[4];
        row[E_DECIMETRES] = r[5];
        row[E_PREV] = prev;
        row[E_NEXT] = r + 6 < end ? r[6] : 0;
        prev = r[0];
    }
    s->edge_first = words[1] ? words[words[3]] : 0;
    s->edge_last = prev;
    s->edge_count = words[1];
    prev = 0;
    const u32 *w = end, *last = words + words[5];
    end = words + words[3];
    for (const u32 *r = words + 6; r < end; r += size) {
        u32 *row = vertex_row(s, r[0]);
        row[V_LIVE] = 1;
        row[V_TYPE] = r[1];
        row[V_VALUE] = r[2];
        row[V_PREV] = prev;
        row[V_FIRST] = 0;
        if (prev) vertex_row(s, prev)[V_NEXT] = r[0]; else s->vertex_first = r[0];
        prev = r[0];
        u32 before = 0;
        if (size == 4) {
            last = w + r[3];
            if (w < last) {
                u32 x = row[V_FIRST] = *w;
                for (w++; w < last; w++) {
                    u32 *h = half(s, x);
                    h[W_PREV] = before;
                    before = x;
                    x = h[W_NEXT] = *w;
                }
                half(s, x)[W_PREV] = before;
                half(s, x)[W_NEXT] = 0;
                before = x;
            }
            row[V_LAST] = before;
            continue;
        }
        for (; w < last && half(s, *w)[W_THIS] == r[0]; w++) {
            half(s, *w)[W_PREV] = before;
            if (before) half(s, before)[W_NEXT] = *w; else row[V_FIRST] = *w;
            before = *w;
        }
        if (before) half(s, before)[W_NEXT] = 0;
        row[V_LAST] = before;
    }
    if (prev) vertex_row(s, prev)[V_NEXT] = 0;
    s->vertex_last = prev;
    s->vertex_count = words[0];
}

static void load(struct store *s, const u32 *words) {
    if (words[3] == 6 + 4 * words[0]) load_as(s, words, 4);
    else load_as(s, words, 3);
}

/* A degree is counted as its list is written. */
static size_t save(const struct store *s, u32 *restrict image) {
    u32 v = s->vertex_count, e = s->edge_count;
    image[0] = v;
    image[1] = e;
    image[2] = 6;
    image[3] = 6 + 4 * v;
    image[4] = 6 + 4 * v + 6 * e;
    image[5] = 6 + 4 * v + 8 * e;
    u32 *to = image + image[3], *record = image + 6;
    for (u32 n = s->edge_first; n; n = edge_row(s, n)[E_NEXT], to += 6) {
        const u32 *row = edge_row(s, n);
        to[0] = n;
        to[1] = row[E_ALPHA];
        to[2] = row[E_OMEGA];
        to[3] = row[E_TYPE];
        to[4] = row[E_KIND];
        to[5] = row[E_DECIMETRES];
    }
    for (u32 n = s->vertex_first; n; n = vertex_row(s, n)[V_NEXT], record += 4) {
        const u32 *row = vertex_row(s, n), *list = to;
        for (u32 w = row[V_FIRST]; w; w = half(s, w)[W_NEXT]) *to++ = w;
        record[0] = n;
        record[1] = row[V_TYPE];
        record[2] = row[V_VALUE];
        record[3] = (u32)(to - list);
    }
    return (size_t)(to - image);
}

#ifndef BY_HAND_NO_RUN
struct futtockfig_result BY_HAND_RUN(
    const u32 *start, size_t start_len, const u64 *rows, size_t rows_len, const u32 *calls, size_t calls_len,
    u32 *vertices, size_t vertices_len, u32 *edges, size_t edges_len, u32 *journal, size_t journal_len,
    u32 *answers, size_t answers_len, u32 *image, size_t image_len) {
    struct futtockfig_result r = {0, 0, 0};
    struct store s = {.vertices = vertices, .edges = edges, .journal = journal};
    size_t count = calls_len / 5, vs = vertices_len / 8, es = edges_len / 12, cs = journal_len / 12;
    if (calls_len % 5) { r.code = 101; return r; }
    if (answers_len < 2 * count) { r.code = 102; return r; }
    if (vs - 1 >= FUTTOCKFIG_MOST_VERTICES || es - 1 >= FUTTOCKFIG_MOST_EDGES || cs - 1 >= FUTTOCKFIG_MOST_CHANGES) { r.code = 103; return r; }
    if (rows_len - 1 >= 64) { r.code = 104; return r; }
    for (size_t i = 0; i < rows_len; i++)
        if (rows_len < 64 && rows[i] >> rows_len) { r.code = 104; return r; }
    s.vertex_capacity = (u32)vs;
    s.edge_capacity = (u32)es;
    s.change_capacity = (u32)cs;
    s.types = (u32)rows_len;
    struct bad bad = check(start, start_len, s.vertex_capacity, s.edge_capacity, s.types);
    if (bad.code) { r.code = bad.code; r.done = bad.at; return r; }
    if (image_len < FUTTOCKFIG_IMAGE_WORDS(vs, es)) { r.code = 106; return r; }
    for (size_t i = 0; i < rows_len; i++) s.below[i] = rows[i] | (u64)1 << i | 1;
    for (size_t k = 0; k < rows_len; k++)
        for (size_t i = 0; i < rows_len; i++)
            if (s.below[i] >> k & 1) s.below[i] |= s.below[k];
    load(&s, start);
    for (size_t i = 0; i < count; i++) step(&s, calls + 5 * i, answers + 2 * i);
    r.done = count;
    r.words = save(&s, image);
    return r;
}

struct futtockfig_span BY_HAND_PART(const u32 *words, size_t words_len, u32 part) {
    struct futtockfig_span span = {0, 0};
    if (record_size(words, words_len) && part - 1 < 3) {
        span.offset = words[1 + part];
        span.len = words[2 + part] - span.offset;
    }
    return span;
}

/* A number in the columns before end, with spaces before it. */
static void column(uint8_t *end, int width, u32 n) {
    do {
        *--end = (uint8_t)('0' + n % 10);
        n /= 10;
        width--;
    } while (n);
    memset(end - width, ' ', (size_t)width);
}

static void row(uint8_t *out, const u32 *e) {
    static const char *const words[] = {"     -", "silent"};
    memset(out, ' ', FUTTOCKFIG_PAGE_ROW - 1);
    column(out + 4, 4, e[0]);
    column(out + 9, 4, e[1]);
    column(out + 14, 4, e[2]);
    column(out + 17, 2, e[3]);
    if (e[4] < 2) memcpy(out + 18, words[e[4]], 6);
    else column(out + 24, 6, e[5]);
    out[24] = '\n';
}

struct futtockfig_page_result BY_HAND_PAGE(const u32 *words, size_t words_len, uint8_t *page, size_t page_len) {
    struct futtockfig_page_result r = {0, 0};
    struct bad bad = check(words, words_len, FUTTOCKFIG_MOST_VERTICES, FUTTOCKFIG_MOST_EDGES, FUTTOCKFIG_MOST_TYPES);
    if (bad.code) {
        r.code = bad.code;
        r.bytes = bad.at;
        return r;
    }
    size_t bytes = FUTTOCKFIG_PAGE_ROW * (size_t)words[1];
    if (page_len < bytes) {
        r.code = FUTTOCKFIG_SHORT_PAGE;
        return r;
    }
    const u32 *e = words + words[3];
    for (; r.bytes < bytes; r.bytes += FUTTOCKFIG_PAGE_ROW, e += 6) row(page + r.bytes, e);
    return r;
}
#endif
