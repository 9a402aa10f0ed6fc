/*
 * Futtockfig: an ordered graph with history and marks, kept in tables that the caller lends.
 * Link libfuttockfig.a (x86-64 Linux). It allocates nothing, reads and writes no file, and keeps nothing between calls.
 *
 * All words are unsigned, 32 bits; all figures are decimal.
 *
 * THE GRAPH
 *   A vertex has a number (1 to the vertex capacity), a type, and a value, which may be any word.
 *   An edge has a number (1 to the edge capacity), a start alpha and an end omega, both vertices, a type and a reading.
 *   A reading is two words, kind and decimetres: 0 0 untested, 1 0 silent, 2 D heard at D decimetres, D from 0 to 9,999.
 *   Vertices have an order (Vseq), and so have edges (Eseq).
 *   An oriented word is 2 * edge (out, seen from alpha) or 2 * edge + 1 (in, seen from omega). "this" is the vertex
 *   that it is seen from, "that" the other end. The list of a vertex holds, in an order of its own, each oriented
 *   word whose this is the vertex; both words of a loop are in it.
 *   There are n types, 0 to n - 1, at most 64. Bit t of row s declares type s below type t. Besides, each type is below
 *   itself and type 0, and what is below a type is below all that the type is below. Class t has the types below t.
 *
 * HISTORY
 *   Each accepted change (kinds 1 to 16) that alters the graph is a step. One after which every order, end, type, value
 *   and reading is what it was is none: it answers 0, writes nothing, and cuts no step and no mark. Undo and redo move
 *   the place by one step. A change made at an earlier place cuts the steps after it, and the marks that stand at places
 *   after it. A mark (1 to 64) records a place, and going to it brings back the graph held there. Commit forgets all
 *   steps and marks and keeps the graph. A step costs 1 change, deleting a vertex 1 + the number of distinct edges at
 *   it. Free changes are the journal's capacity less the costs of the steps up to the present place; with several stores
 *   they may be fewer (SEVERAL STORES, below).
 *   A standing mark may have a name, two words that are not both 0. No two standing marks have the same, and a name goes
 *   when its mark goes. A name may be any words; as text it is up to eight bytes, the first lowest in the first word,
 *   with zeros behind (FUTTOCKFIG_NAME_WORD).
 *   Each step carries the bench, 0 to 99, that was set when it was made, and keeps it as long as it is remembered, also
 *   when it is undone and redone. The bench that is set stays at a commit.
 */
#ifndef FUTTOCKFIG_H
#define FUTTOCKFIG_H

#include <stddef.h>
#include <stdint.h>

#ifdef __cplusplus
extern "C" {
#endif

/* What a caller sees; raised with every change to it (docs/CHANGES.md). */
#define FUTTOCKFIG_VERSION 17

/* Words a row in each table, and the most rows that a table may have. The fewest is 1. */
#define FUTTOCKFIG_VERTEX_WORDS 8
#define FUTTOCKFIG_EDGE_WORDS 12
#define FUTTOCKFIG_CHANGE_WORDS 12
#define FUTTOCKFIG_MOST_VERTICES 1000
#define FUTTOCKFIG_MOST_EDGES 4000
#define FUTTOCKFIG_MOST_CHANGES 20000
#define FUTTOCKFIG_MOST_TYPES 64

/* The most stores of one run. */
#define FUTTOCKFIG_MOST_STORES 8

/* Words a call, words a call to one of several stores, and words an answer. */
#define FUTTOCKFIG_CALL_WORDS 5
#define FUTTOCKFIG_STORE_CALL_WORDS 6
#define FUTTOCKFIG_ANSWER_WORDS 2

/* Four bytes of a name as a word: 'r', 'e', 'c', 'e' and 'i', 'v', 'e', 'd' are the two words of "received". */
#define FUTTOCKFIG_NAME_WORD(a, b, c, d) \
    ((uint32_t)(uint8_t)(a) | (uint32_t)(uint8_t)(b) << 8 | (uint32_t)(uint8_t)(c) << 16 | (uint32_t)(uint8_t)(d) << 24)

/* Bytes a row of a page. */
#define FUTTOCKFIG_PAGE_ROW 25

/* Words of the image of a graph with this many vertices and edges; with the capacities, what `image` must have. */
#define FUTTOCKFIG_IMAGE_WORDS(vertices, edges) ((size_t)6 + (size_t)4 * (vertices) + (size_t)8 * (edges))

/* The image of the graph without vertices, to begin an array of six words with; and the words of an image's header. */
#define FUTTOCKFIG_EMPTY_IMAGE {0, 0, 6, 6, 6, 6}
#define FUTTOCKFIG_HEADER_WORDS 6

/* Words of a record in an image: of a vertex, of a vertex in an old image, of an edge. */
#define FUTTOCKFIG_VERTEX_RECORD 4
#define FUTTOCKFIG_OLD_VERTEX_RECORD 3
#define FUTTOCKFIG_EDGE_RECORD 6

/* The highest mark, the highest bench, the most decimetres, and the bytes of a name. */
#define FUTTOCKFIG_LAST_MARK 64
#define FUTTOCKFIG_LAST_BENCH 99
#define FUTTOCKFIG_MOST_DECIMETRES 9999
#define FUTTOCKFIG_NAME_BYTES 8

/* Kinds of a reading. */
enum futtockfig_reading {
    FUTTOCKFIG_UNTESTED = 0,
    FUTTOCKFIG_SILENT = 1,
    FUTTOCKFIG_HEARD = 2
};

/* Which words of a list are counted (word c of kind 45). */
enum futtockfig_side {
    FUTTOCKFIG_BOTH_SIDES = 0,
    FUTTOCKFIG_OUT_SIDE = 1,
    FUTTOCKFIG_IN_SIDE = 2
};

/* Price lists (word c of kind 54); 0 is the old one too. */
enum futtockfig_price_list {
    FUTTOCKFIG_OLD_PRICES = 1,
    FUTTOCKFIG_NEW_PRICES = 2
};

/*
 * TO LINK AND TO CALL
 *   The archive needs memcpy and memset of the C library and nothing else. Every function is reentrant: it reads and
 *   writes what it is lent, and has no memory of its own but the stack. So threads may call at the same time, each
 *   with slices of its own.
 *   A slice has an address also where its length is 0. NULL is none, so it is not to be passed; an empty container
 *   may give it. Nothing is read there, so the address of anything aligned will do.
 *
 *   Stack that must be left          KB
 *   futtockfig_run, _reduce          64
 *   futtockfig_run_stores            64
 *   futtockfig_page, _compare        64
 *   futtockfig_arrange_..            64
 *   futtockfig_record               320
 *   futtockfig_part, _version         1
 */

/* The version of the archive, FUTTOCKFIG_VERSION of the header that it was built with. */
uint32_t futtockfig_version(void);

/*
 * Kinds of call. A call has five words, the kind and then a, b, c, d. A word that a kind does not use is ignored.
 * The comment gives the words used and the number answered.
 */
enum futtockfig_kind {
    /* Changes. The number answered is the cost, 0 where the change alters nothing. */
    FUTTOCKFIG_CREATE_VERTEX = 1,      /* a number, b type, c value; becomes last in Vseq */
    FUTTOCKFIG_DELETE_VERTEX = 2,      /* a vertex; first the edges of its list, then the vertex: one step */
    FUTTOCKFIG_CREATE_EDGE = 3,        /* a number, b alpha, c omega, d type; untested; becomes last in Eseq, its out word
                                          last in the list of alpha, then its in word last in the list of omega */
    FUTTOCKFIG_DELETE_EDGE = 4,        /* a edge */
    FUTTOCKFIG_RETYPE_VERTEX = 5,      /* a vertex, b type */
    FUTTOCKFIG_RETYPE_EDGE = 6,        /* a edge, b type */
    FUTTOCKFIG_SET_VALUE = 7,          /* a vertex, b value */
    FUTTOCKFIG_SET_READING = 8,        /* a edge, b reading kind, c decimetres */
    FUTTOCKFIG_SET_ALPHA = 9,          /* a edge, b vertex; the out word becomes last in the list of b, also where it was there */
    FUTTOCKFIG_SET_OMEGA = 10,         /* a edge, b vertex; the in word likewise */
    FUTTOCKFIG_VERTEX_BEFORE = 11,     /* a, b vertices; a is put directly before b in Vseq */
    FUTTOCKFIG_VERTEX_AFTER = 12,      /* directly after */
    FUTTOCKFIG_EDGE_BEFORE = 13,       /* a, b edges, in Eseq */
    FUTTOCKFIG_EDGE_AFTER = 14,
    FUTTOCKFIG_WORD_BEFORE = 15,       /* a, b oriented words of one list */
    FUTTOCKFIG_WORD_AFTER = 16,
    /* History. */
    FUTTOCKFIG_SET_MARK = 17,          /* a mark, 1 to 64; answers 0 */
    FUTTOCKFIG_DROP_MARK = 18,         /* a mark; answers 0 */
    FUTTOCKFIG_UNDO = 19,              /* answers 1 */
    FUTTOCKFIG_REDO = 20,              /* answers 1 */
    FUTTOCKFIG_GO_TO_MARK = 21,        /* a mark; answers the steps moved */
    FUTTOCKFIG_COMMIT = 22,            /* answers the place before it */
    /* Questions. 0 answers that there is none. */
    FUTTOCKFIG_FIRST_VERTEX = 30,
    FUTTOCKFIG_NEXT_VERTEX = 31,       /* a vertex */
    FUTTOCKFIG_FIRST_EDGE = 32,
    FUTTOCKFIG_NEXT_EDGE = 33,         /* a edge */
    FUTTOCKFIG_FIRST_WORD = 34,        /* a vertex */
    FUTTOCKFIG_NEXT_WORD = 35,         /* a oriented word */
    FUTTOCKFIG_ALPHA = 36,             /* a edge */
    FUTTOCKFIG_OMEGA = 37,             /* a edge */
    FUTTOCKFIG_THIS = 38,              /* a oriented word */
    FUTTOCKFIG_THAT = 39,              /* a oriented word */
    FUTTOCKFIG_VERTEX_TYPE = 40,       /* a vertex */
    FUTTOCKFIG_EDGE_TYPE = 41,         /* a edge */
    FUTTOCKFIG_VALUE = 42,             /* a vertex */
    FUTTOCKFIG_READING_KIND = 43,      /* a edge */
    FUTTOCKFIG_DECIMETRES = 44,        /* a edge */
    FUTTOCKFIG_DEGREE = 45,            /* a vertex, b class of edges, c 0 all, 1 out, 2 in; a loop counts twice in all */
    FUTTOCKFIG_VERTEX_IS_BEFORE = 46,  /* a, b vertices; 1 or 0, 0 for itself */
    FUTTOCKFIG_EDGE_IS_BEFORE = 47,    /* a, b edges */
    FUTTOCKFIG_WORD_IS_BEFORE = 48,    /* a, b oriented words of one list */
    FUTTOCKFIG_STEPS_BETWEEN = 49,     /* a, b marks */
    FUTTOCKFIG_MARKS_STANDING = 50,
    FUTTOCKFIG_FREE_CHANGES = 51,
    FUTTOCKFIG_IS_BELOW = 52,          /* a, b types; 1 or 0 */
    FUTTOCKFIG_RANGE = 53,             /* a, b vertices; the smaller of both ways. The way from a to b is what is heard on the
                                          last edge that is tested (kind 1 or 2) and goes out to b, in the order of
                                          a's list; a may equal b */
    FUTTOCKFIG_GRADE = 54,             /* a, b vertices, c price list: 0 and 1 the old, 2 the new; the grade of that range.
                                          Limits of the old list: 0, 250, 500, .. 9,750 (grades 0 to 39); of the new:
                                          0, 200, 400, .. 9,800 (0 to 49). The grade is the last of them that is not
                                          above the range, counted from 0 */
    /* Names of marks. Naming is no step: it cuts nothing, and undo does not take it back. */
    FUTTOCKFIG_NAME_MARK = 56,         /* a standing mark, b and c its name; one that it had is free then; answers 0 */
    FUTTOCKFIG_GO_TO_NAME = 57,        /* a and b a name; as kind 21 to the mark that has it; answers the steps moved */
    /* Benches. Setting one is no step either. */
    FUTTOCKFIG_SET_BENCH = 58,         /* a bench, 0 to 99, of the steps made from now on; 0 at first; answers 0 */
    FUTTOCKFIG_STEPS_MADE_BY = 59      /* a, b marks, c bench; how many of the steps that kind 49 counts the bench
                                          made. Over all benches these add up to the number of kind 49 */
};

/*
 * Codes. Where several apply to a call, the lowest is given. Of a list the first in turn is given: 101, 102, 103, 104,
 * then one of 105, 108 and 109, then 106.
 */
enum futtockfig_code {
    FUTTOCKFIG_OK = 0,
    /* Of one call. The call changes nothing, its number is 0, and the list goes on. */
    FUTTOCKFIG_NO_SUCH_KIND = 1,
    FUTTOCKFIG_BAD_NUMBER = 2,         /* kinds 1, 3: number 0 or above capacity */
    FUTTOCKFIG_NUMBER_IN_USE = 3,      /* kinds 1, 3 */
    FUTTOCKFIG_NO_SUCH_VERTEX = 4,     /* a vertex named is missing */
    FUTTOCKFIG_NO_SUCH_EDGE = 5,       /* an edge named is missing; an oriented word names its edge */
    FUTTOCKFIG_NO_SUCH_TYPE = 6,       /* some type or class that is named is not under n */
    FUTTOCKFIG_NOT_A_READING = 7,
    FUTTOCKFIG_OTHER_LIST = 8,         /* kinds 15, 16, 48: the words are seen from different vertices */
    FUTTOCKFIG_SAME_TWICE = 9,         /* kinds 11 to 16: a equals b */
    FUTTOCKFIG_NO_ROOM = 10,           /* a change that would alter the graph: its cost is above the free changes; with
                                          several stores also kinds 20, 21, 57: what they redo costs more than is free */
    FUTTOCKFIG_BAD_MARK = 11,          /* a mark named is not 1 to 64 */
    FUTTOCKFIG_MARK_STANDS = 12,       /* kind 17 */
    FUTTOCKFIG_NO_SUCH_MARK = 13,      /* kinds 18, 21, 49, 56, 59: some mark that is named is not standing */
    FUTTOCKFIG_NO_STEP = 14,           /* nothing to undo or redo */
    FUTTOCKFIG_BAD_SIDE = 15,          /* kind 45: c above 2 */
    FUTTOCKFIG_NOTHING_HEARD = 16,     /* kinds 53, 54: a way's last tested edge is silent, or it has none */
    FUTTOCKFIG_BAD_PRICE_LIST = 17,    /* kind 54: c above 2 */
    FUTTOCKFIG_BAD_NAME = 18,          /* kind 56: both words of the name are 0, or another standing mark has it */
    FUTTOCKFIG_NO_SUCH_NAME = 19,      /* kind 57: no standing mark has that name; two zeros are no mark's */
    FUTTOCKFIG_BAD_BENCH = 20,         /* kinds 58, 59: a bench above 99 */
    FUTTOCKFIG_NO_SUCH_STORE = 21,     /* only with several stores: the number is 0 or above theirs. It is looked at first,
                                          so no other code is told of such a call */
    /* Of the whole list. Nothing is run and nothing is written, tables included. */
    FUTTOCKFIG_BAD_CALLS = 101,        /* calls_len is not a multiple of 5, with several stores of 6 */
    FUTTOCKFIG_SHORT_ANSWERS = 102,    /* answers_len is under 2 a call */
    FUTTOCKFIG_BAD_CAPACITY = 103,     /* a capacity is 0 or above its limit; or stores is */
    FUTTOCKFIG_BAD_ROWS = 104,         /* no type row, over 64, or a bit n or above is set */
    FUTTOCKFIG_BAD_START = 105,        /* start: under six words; a length, offset or total that does not fit the
                                          counts, be it as new or as old words; a count above its capacity; edges and
                                          no vertex */
    FUTTOCKFIG_SHORT_IMAGE = 106,      /* image_len is under 6 + 4 * vertex capacity + 8 * edge capacity */
    FUTTOCKFIG_BAD_RECORD = 108,       /* start: a vertex or edge record is bad, its degree included; done is where */
    FUTTOCKFIG_BAD_INCIDENCE = 109,    /* start: all records are good, a list is bad; done is where */
    /* Of a page, beside 105, 108 and 109 of its words. */
    FUTTOCKFIG_SHORT_PAGE = 107,       /* page_len is under 25 an edge */
    /* Of a comparison, beside 105, 108 and 109 of the first's words. */
    FUTTOCKFIG_BAD_SECOND = 110,       /* the second's words are no image; the first's are */
    /* Of an order, beside 105, 108 and 109 of its words and FUTTOCKFIG_NO_SUCH_VERTEX. */
    FUTTOCKFIG_OTHER_ITEMS = 111,      /* wanted: not the items that are there, each once */
    FUTTOCKFIG_SHORT_LIST = 112,       /* list_len is under 5 for each wanted word but the first */
    /* Of a recorded list, after all codes of a list. */
    FUTTOCKFIG_SHORT_COPIES = 113,     /* more calls of kinds 1 to 16 than copies has stretches */
    /* Of a list to be reduced, after all codes of a list. */
    FUTTOCKFIG_BAD_LIST = 114,         /* over 20,000 calls, or list_len is under calls_len */
    FUTTOCKFIG_NO_FAILURE = 115        /* no call, or the last call is accepted */
};

/*
 * With 108 and 109 done is the offset of the first bad word of start, counted from 0 (the first vertex's number is word
 * 6): the first word that cannot come after those before it, where degrees come after all other words of records. In a
 * record that is a number 0, above its capacity or used by an earlier record of the same part; a type with no row; an
 * end that is no vertex of start; a reading kind above 2; decimetres that do not go with the kind. Values are never bad.
 * A degree is bad that is not the number of ends that the edges have at its vertex (a loop has both there); that of
 * record i, counted from 0, is word 9 + 4i. A list is as long as the edges have ends at its vertex; bad is a word that
 * does not belong there, or does and came earlier.
 */
struct futtockfig_result {
    uint32_t code; /* 0, or a code of the whole list */
    size_t done;   /* calls done, refused ones counted; with 108 and 109 an offset in start, with any other code 0 */
    size_t words;  /* words of image that are the graph at the end; 0 with a code */
};

/*
 * Runs a list of calls from the first to the last.
 *
 * start     the image of the graph to start from, new or old (AN IMAGE, below); for an empty graph 0 0 6 6 6 6
 * rows      the type rows, 1 to 64 of them
 * calls     five words a call; there is no limit on their number
 * vertices  table, 8 words a vertex; the capacity is vertices_len / 8, rounded down, 1 to 1,000
 * edges     table, 12 words an edge; the capacity is edges_len / 12, rounded down, 1 to 4,000
 * journal   table, 12 words a change; the capacity is journal_len / 12, rounded down, 1 to 20,000
 * answers   two words a call are written, code and number; words beyond them stay
 * image     the graph at the end is written as an image, always a new one; words beyond it stay
 *
 * The words found in the three tables, in answers and in image do not matter. After a run with code 0 the tables hold
 * words that mean nothing to the caller; they may be lent again as they are.
 *
 * The caller must see to it that
 * - each pointer is to as many words as its length says, is aligned for its type and is not NULL, also where the
 *   length is 0;
 * - vertices, edges, journal, answers and image overlap neither one another nor start, rows or calls;
 * - lengths are numbers of words (rows: of 64-bit rows), not of bytes;
 * - no other thread touches the lent slices during the run;
 * - the stack has some 64 KB left.
 */
struct futtockfig_result futtockfig_run(
    const uint32_t *start, size_t start_len,
    const uint64_t *rows, size_t rows_len,
    const uint32_t *calls, size_t calls_len,
    uint32_t *vertices, size_t vertices_len,
    uint32_t *edges, size_t edges_len,
    uint32_t *journal, size_t journal_len,
    uint32_t *answers, size_t answers_len,
    uint32_t *image, size_t image_len);

/*
 * SEVERAL STORES
 *   One run for up to 8 stores, which are numbered from 1. Each has a graph with its history, marks, names and bench, as
 *   if it were alone; what they have in common is the type rows, and a limit on the changes that all of them remember.
 *
 *   vertices, edges, journal and image are each cut into parts of length / stores words, rounded down, and store s has
 *   the s-th part of each. A part gives the store's capacities; what futtockfig_run asks of a length is asked of a part.
 *   Words behind the last part are not used and stay as they were. answers are not cut.
 *   start has the image of store 1, right behind it that of store 2, and so on. An image ends where its sixth word says
 *   and is judged by itself. The first that does not load gives 105, 108 or 109, also with words behind it; the offset is
 *   counted from the first word of start. It is 105 where there are fewer words than the sixth says, or no sixth. When
 *   all have loaded, words that are left over give 105.
 *   calls has six words a call: the store's number, then the five. limit may be any word.
 *
 *   The joint room is limit less the costs, over all stores, of the steps up to each one's present place. A store's free
 *   changes are the smaller of the joint room and what its own part of the journal leaves: kind 51 answers it, and it
 *   decides about FUTTOCKFIG_NO_ROOM. A redo, or going ahead to a mark or a name, needs room for the steps that it does
 *   again. Going back, undo and commit need none, and what they free is there for every store. Steps and marks ahead stay
 *   while there is no room to go there.
 *
 *   done counts all calls, also those to no store. words is the sum of the end images' lengths; each stands at the front
 *   of its part, and its sixth word is its length. Otherwise codes, turns, and what is written are as in futtockfig_run.
 *   With one store, and the journal's capacity as limit, so is every word but in one case: where words stand behind the
 *   first image of start and it has a bad record or list, the code here is 108 or 109, and there 105.
 *
 *   The caller's duties are those of futtockfig_run.
 */
struct futtockfig_result futtockfig_run_stores(
    const uint32_t *start, size_t start_len,
    const uint64_t *rows, size_t rows_len,
    const uint32_t *calls, size_t calls_len,
    uint32_t *vertices, size_t vertices_len,
    uint32_t *edges, size_t edges_len,
    uint32_t *journal, size_t journal_len,
    uint32_t *answers, size_t answers_len,
    uint32_t *image, size_t image_len,
    uint32_t stores, uint32_t limit);

/*
 * RECORDING
 *   Runs a list as futtockfig_run does and keeps the image after every step. Unless the code is FUTTOCKFIG_SHORT_COPIES,
 *   result, answers and image are those of futtockfig_run.
 *   copies is cut into stretches of FUTTOCKFIG_IMAGE_WORDS(vertex capacity, edge capacity) words; a rest that is shorter
 *   is none. Steps have numbers in the order in which they are made, from the first call to the last: one that is undone,
 *   cut or committed later keeps its own, and none is given twice. A refused change is no step, nor is one that alters
 *   nothing. The k-th step made, from 1, has the k-th stretch, which begins with the words of the graph after it, always
 *   a new image. All other words of copies stay as they were. Undo, redo and going to a mark load the copy of their place;
 *   no change is undone.
 *
 *   A list that futtockfig_run refuses gets its code and number. Then a list with more calls whose kind is 1 to 16,
 *   accepted or not, than copies has stretches gets FUTTOCKFIG_SHORT_COPIES, with done and words 0. A refused list writes
 *   nowhere, copies included.
 *
 *   The caller's duties are those of futtockfig_run; copies overlaps none of the others, and the stack has some 320 KB
 *   left: for each of 20,001 places the number of its copy and its rows stand there, 240 KB.
 */
struct futtockfig_result futtockfig_record(
    const uint32_t *start, size_t start_len,
    const uint64_t *rows, size_t rows_len,
    const uint32_t *calls, size_t calls_len,
    uint32_t *vertices, size_t vertices_len,
    uint32_t *edges, size_t edges_len,
    uint32_t *journal, size_t journal_len,
    uint32_t *answers, size_t answers_len,
    uint32_t *image, size_t image_len,
    uint32_t *copies, size_t copies_len);

/*
 * REDUCING A LIST
 *   A list that ends with a refused call is made small, and its last call keeps its code. First the whole list is run. Then
 *   come tries, runs of the list with one call left out: each call in turn, beginning with the first, but never the last.
 *   Where the last call has its code again, the call that was left out is gone: what remains is the list from then on, and
 *   the next try leaves out the first call of that. It ends when, of the list as it then is, every call but the last has
 *   been left out in vain: without any of them the last call has another code, or is accepted. Each run begins on a fresh
 *   store with start. For n calls up to 1 + n * (n - 1) / 2 lists are run.
 *
 *   The calls kept are written in their order to the front of list, five words each as sent; all other words of list stay
 *   as they were. image is only measured, and image_len must be what futtockfig_run asks.
 *
 *   A list that futtockfig_run refuses gets its code and number. Then comes FUTTOCKFIG_BAD_LIST, then FUTTOCKFIG_NO_FAILURE,
 *   both with 0 and 0. With a code no word of list is written; with NO_FAILURE and OK the tables and answers hold words
 *   that mean nothing to the caller, with any other code they stay as they were.
 *
 *   The caller's duties are those of futtockfig_run; list overlaps none of the others.
 */
struct futtockfig_reduction {
    uint32_t code; /* 0, a code of the whole list, 114 or 115 */
    size_t kept;   /* calls kept; with 108 and 109 an offset in start, with any other code 0 */
    size_t runs;   /* lists run; 0 with a code */
};

struct futtockfig_reduction futtockfig_reduce(
    const uint32_t *start, size_t start_len,
    const uint64_t *rows, size_t rows_len,
    const uint32_t *calls, size_t calls_len,
    uint32_t *vertices, size_t vertices_len,
    uint32_t *edges, size_t edges_len,
    uint32_t *journal, size_t journal_len,
    uint32_t *answers, size_t answers_len,
    const uint32_t *image, size_t image_len,
    uint32_t *list, size_t list_len);

/*
 * AN IMAGE
 *   6 words: vertex count V, edge count E, the offsets 6, 6 + 4V, 6 + 4V + 6E of the three parts, and the total
 *   6 + 4V + 8E, which is the number of words.
 *   Part 1, in Vseq order, 4 words a vertex: number, type, value, degree, which is the length of its list.
 *   Part 2, in Eseq order, 6 words an edge: number, alpha, omega, type, reading kind, decimetres.
 *   Part 3: the list of each vertex, in Vseq order, one after another. So a vertex's list begins at the third offset
 *   plus the degrees of the records before its own.
 *
 *   Up to version 8 a vertex had 3 words, without the degree; the offsets were 6, 6 + 3V, 6 + 3V + 6E and the total
 *   6 + 3V + 8E. Such words are still read wherever an image is, and no more written. The edge offset tells which they
 *   are; the third offset and the total must then be those of the same record. Without vertices the two do not differ.
 */
enum futtockfig_part_number {
    FUTTOCKFIG_VERTEX_PART = 1,
    FUTTOCKFIG_EDGE_PART = 2,
    FUTTOCKFIG_LIST_PART = 3
};

struct futtockfig_span {
    size_t offset; /* in words, from the first */
    size_t len;    /* in words */
};

/*
 * Where a part of an image lies: words[offset] to words[offset + len - 1]. Only the header is read: offset is the
 * header's offset of the part, also where the part is empty; part 1 has 4V words, of an old image 3V. Where length,
 * offsets or total do not fit the counts, or part is not 1, 2 or 3, offset and len are 0; no part of a sound header has
 * offset 0.
 * The pointer must not be NULL, also where words_len is 0.
 */
struct futtockfig_span futtockfig_part(const uint32_t *words, size_t words_len, uint32_t part);

/*
 * A PAGE
 *   An image's edges for reading on paper: for every edge, in Eseq order, a row of 25 bytes. Its number, alpha and
 *   omega have 4 columns each, its type has 2, its reading 6. A column is filled from the right, with spaces before the
 *   text and no leading zeros; one space stands between columns and one newline at the row's end. A reading is a hyphen
 *   for untested, the word silent, or the decimetres. Two images that give the same page have the same edges, in the
 *   same order.
 */
struct futtockfig_page_result {
    uint32_t code; /* 0, 105, 107, 108 or 109 */
    size_t bytes;  /* bytes of page that are the rows; with 108 and 109 an offset in words, with any other code 0 */
};

/*
 * Writes the page of an image, the same for new and for old words. The image may have up to 1,000 vertices, 4,000 edges
 * and 64 types; all other words get 105, 108 or 109, whatever the page: as a start does in a run with such capacities
 * and types, and with 108 and 109 bytes is the offset of the first bad word. The same words may be bad at another place
 * in a run, or not at all. Then a page that is too short for the rows gets FUTTOCKFIG_SHORT_PAGE.
 * With a code no byte of the page is written; else bytes behind the rows stay as they were. Nothing is added behind the
 * last newline, so a page is no C string. No edges are no bytes, and code 0, also where page_len is 0.
 *
 * The pointers must not be NULL, also where a length is 0; words is aligned for its type, page does not overlap it, and
 * no other thread touches either during the call. The stack has some 64 KB left.
 */
struct futtockfig_page_result futtockfig_page(const uint32_t *words, size_t words_len, uint8_t *page, size_t page_len);

/*
 * TWO IMAGES
 *   Two walks of one path, held against each other by their edges. An edge matches the one of the other image that has its
 *   number, its alpha and its omega; equal numbers with other ends, be they only exchanged, are no match. The readings of
 *   a match agree where both are untested, both silent, or both heard, no more decimetres apart than the tolerance. Types,
 *   values and orders make no difference, and neither do vertices.
 */
struct futtockfig_comparison {
    uint32_t code; /* 0, 105, 108, 109 or 110; with any but 0 the others are 0, and no offset is told */
    uint32_t matched;
    uint32_t agreeing;    /* of those matched */
    uint32_t only_first;  /* matched + only_first is the number of edges of the first */
    uint32_t only_second; /* likewise */
};

/*
 * Compares two images, each of new or of old words and as large as for a page. Where the first's words are no image the
 * code is 105, 108 or 109, whatever the second is; else where the second's are none, FUTTOCKFIG_BAD_SECOND. The other way
 * round, matched and agreeing stay and the last two change places, where the code is 0. Nothing is written.
 *
 * The pointers must not be NULL, also where a length is 0, and are aligned; both may be the same words, and no other
 * thread writes either during the call. The stack has some 64 KB left.
 */
struct futtockfig_comparison futtockfig_compare(
    const uint32_t *first, size_t first_len,
    const uint32_t *second, size_t second_len,
    uint32_t tolerance);

/*
 * AN ORDER
 *   Any order of an image's vertices, of its edges, or of one vertex's list can be had by calls: the second wanted item
 *   goes right behind the first, the third behind the second, and so on, by kind 12, 14 or 16, with c and d 0. Run on the
 *   same graph with as many free changes, all are accepted; then the items stand as wanted, and nothing else has changed.
 *   An item that stands right already has its call too, which alters nothing and costs nothing.
 */
struct futtockfig_arrangement {
    uint32_t code; /* 0, 4, 105, 108, 109, 111 or 112 */
    size_t calls;  /* one less than the wanted words, 0 where there are none; 0 with a code, and no offset is told */
};

/*
 * Writes the calls to the front of list, five words each; the words behind them stay. The image is read as for a page,
 * old or new: words that do not load get 105, 108 or 109. Then a vertex that is missing gets 4 (arrange_words only), then
 * wanted words that are not the items, each once, get 111, then a list that is too short gets 112. With a code no word is
 * written.
 *
 * The pointers must not be NULL, also where a length is 0; the slices are aligned, list overlaps no other, and no other
 * thread touches any during the call. The stack has some 64 KB left.
 */
struct futtockfig_arrangement futtockfig_arrange_vertices(
    const uint32_t *words, size_t words_len,
    const uint32_t *wanted, size_t wanted_len,
    uint32_t *list, size_t list_len);

struct futtockfig_arrangement futtockfig_arrange_edges(
    const uint32_t *words, size_t words_len,
    const uint32_t *wanted, size_t wanted_len,
    uint32_t *list, size_t list_len);

struct futtockfig_arrangement futtockfig_arrange_words(
    const uint32_t *words, size_t words_len,
    uint32_t vertex,
    const uint32_t *wanted, size_t wanted_len,
    uint32_t *list, size_t list_len);

#ifdef __cplusplus
}
#endif

#endif
