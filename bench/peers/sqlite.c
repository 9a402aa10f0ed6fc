/* The job in SQLite, in memory, in one transaction, by prepared statements. Undo is by the way that SQLite documents:
   triggers write the inverse statement's text into a table. Orders are ranks (REAL), as a user of SQL would keep
   them. Usage: sqlite MAKE EDITS GRAPH, two loads of loads.py and where to write the end graph. */
#include <sqlite3.h>
#include <stdint.h>
#include <stdio.h>
#include <stdlib.h>
#include <string.h>
#include <time.h>
static sqlite3 *db;
static double now(void) {
    struct timespec t;
    clock_gettime(CLOCK_THREAD_CPUTIME_ID, &t);
    return t.tv_sec + t.tv_nsec * 1e-9;
}
static void ex(const char *s) {
    char *e;
    if (sqlite3_exec(db, s, 0, 0, &e)) {
        printf("%s: %s\n", s, e);
        exit(1);
    }
}
static sqlite3_stmt *pr(const char *s) {
    sqlite3_stmt *q;
    if (sqlite3_prepare_v3(db, s, -1, SQLITE_PREPARE_PERSISTENT, &q, 0)) {
        printf("%s: %s\n", s, sqlite3_errmsg(db));
        exit(1);
    }
    return q;
}
#define I(q, n, v) sqlite3_bind_int64(q, n, v)
#define D(q, n, v) sqlite3_bind_double(q, n, v)
static void run(sqlite3_stmt *q) {
    int r = sqlite3_step(q);
    if (r != SQLITE_DONE && r != SQLITE_ROW) {
        printf("%s\n", sqlite3_errmsg(db));
        exit(1);
    }
    sqlite3_reset(q);
}
static double getd(sqlite3_stmt *q, double none) {
    double d = none;
    if (sqlite3_step(q) == SQLITE_ROW && sqlite3_column_type(q, 0) != SQLITE_NULL) d = sqlite3_column_double(q, 0);
    sqlite3_reset(q);
    return d;
}
typedef uint32_t u32;
static u32 *calls;
static size_t nc;
static u32 *start;
static uint64_t n[10];
static void load(const char *p) {
    FILE *f = fopen(p, "rb");
    if (!f || fread(n, 8, 10, f) != 10) exit(2);
    start = malloc(4 * n[0] + 4);
    if (fread(start, 4, n[0], f) != n[0]) exit(2);
    fseek(f, 8 * n[1], SEEK_CUR);
    calls = malloc(4 * n[2] + 4);
    if (fread(calls, 4, n[2], f) != n[2]) exit(2);
    nc = n[2] / 5;
    fclose(f);
}
static sqlite3_stmt *insv, *inse, *dele, *vt, *vv, *et, *er, *sa, *so, *vr, *erk, *ra, *ro, *vrank, *vbelow, *vabove,
    *erank, *ebelow, *eabove, *lastw, *wrank[2], *wbelow, *wabove, *wvert[2], *maxv, *maxe;
static double lastword(u32 v) {
    I(lastw, 1, v);
    I(lastw, 2, v);
    return getd(lastw, 0);
}
static void call(const u32 *c) {
    u32 k = c[0], a = c[1], b = c[2];
    switch (k) {
    case 1:
        I(insv, 1, a);
        I(insv, 2, b);
        I(insv, 3, c[3]);
        D(insv, 4, getd(maxv, 0) + 1);
        run(insv);
        break;
    case 3: {
        I(inse, 1, a);
        I(inse, 2, b);
        I(inse, 3, c[3]);
        I(inse, 4, c[4]);
        D(inse, 5, getd(maxe, 0) + 1);
        double r = lastword(b) + 1;
        D(inse, 6, r);
        double z = b == c[3] ? r + 1 : lastword(c[3]) + 1;
        D(inse, 7, z);
        run(inse);
        break;
    }
    case 4:
        I(dele, 1, a);
        run(dele);
        break;
    case 5:
        I(vt, 1, b);
        I(vt, 2, a);
        run(vt);
        break;
    case 7:
        I(vv, 1, b);
        I(vv, 2, a);
        run(vv);
        break;
    case 6:
        I(et, 1, b);
        I(et, 2, a);
        run(et);
        break;
    case 8:
        I(er, 1, b);
        I(er, 2, c[3]);
        I(er, 3, a);
        run(er);
        break;
    case 9:
        I(sa, 1, b);
        D(sa, 2, lastword(b) + 1);
        I(sa, 3, a);
        run(sa);
        break;
    case 10:
        I(so, 1, b);
        D(so, 2, lastword(b) + 1);
        I(so, 3, a);
        run(so);
        break;
    case 11:
    case 12: {
        I(vrank, 1, b);
        double r = getd(vrank, 0), s;
        sqlite3_stmt *q = k == 11 ? vbelow : vabove;
        D(q, 1, r);
        I(q, 2, a);
        s = getd(q, k == 11 ? r - 2 : r + 2);
        D(vr, 1, (r + s) / 2);
        I(vr, 2, a);
        run(vr);
        break;
    }
    case 13:
    case 14: {
        I(erank, 1, b);
        double r = getd(erank, 0), s;
        sqlite3_stmt *q = k == 13 ? ebelow : eabove;
        D(q, 1, r);
        I(q, 2, a);
        s = getd(q, k == 13 ? r - 2 : r + 2);
        D(erk, 1, (r + s) / 2);
        I(erk, 2, a);
        run(erk);
        break;
    }
    case 15:
    case 16: {
        sqlite3_stmt *w = wrank[b & 1];
        I(w, 1, b / 2);
        double r = getd(w, 0), s;
        sqlite3_stmt *wv = wvert[b & 1];
        I(wv, 1, b / 2);
        u32 v = (u32)getd(wv, 0);
        sqlite3_stmt *q = k == 15 ? wbelow : wabove;
        I(q, 1, v);
        D(q, 2, r);
        I(q, 3, a & 1 ? 0 : a / 2);
        I(q, 4, v);
        D(q, 5, r);
        I(q, 6, a & 1 ? a / 2 : 0);
        s = getd(q, k == 15 ? r - 2 : r + 2);
        sqlite3_stmt *u = a & 1 ? ro : ra;
        D(u, 1, (r + s) / 2);
        I(u, 2, a / 2);
        run(u);
        break;
    }
    default:
        printf("kind %u\n", k);
        exit(1);
    }
}
static sqlite3_stmt *seqmax, *range, *cut;
static long seq(void) { return (long)getd(seqmax, 0); }
static long *lo, *hi; /* the log of each step; after an undo, of its redo */
static void turn(long i) {
    static char *texts[64];
    int m = 0;
    I(range, 1, lo[i]);
    I(range, 2, hi[i]);
    while (sqlite3_step(range) == SQLITE_ROW) texts[m++] = strdup((const char *)sqlite3_column_text(range, 0));
    sqlite3_reset(range);
    I(cut, 1, lo[i]);
    I(cut, 2, hi[i]);
    run(cut);
    long s = seq();
    for (int j = 0; j < m; j++) {
        ex(texts[j]);
        free(texts[j]);
    }
    lo[i] = s + 1;
    hi[i] = seq();
}
int main(int ac, char **av) {
    if (ac != 4) return 2;
    load(av[1]);
    sqlite3_open(":memory:", &db);
    ex("pragma journal_mode=off; pragma synchronous=off; pragma locking_mode=exclusive;");
    ex("create table v(id integer primary key, type int, value int, rank real); create index vr on v(rank);"
       "create table e(id integer primary key, alpha int, omega int, type int, kind int, dm int, rank real, ar real, "
       "orr real); create index er on e(rank); create index ea on e(alpha, ar); create index eo on e(omega, orr);"
       "create table undolog(seq integer primary key autoincrement, sql text);");
    ex("create temp trigger v_i after insert on v begin insert into undolog values(null,'delete from v where "
       "id='||new.id); end;"
       "create temp trigger v_u after update on v begin insert into undolog values(null,'update v set "
       "type='||old.type||',value='||old.value||',rank='||printf('%!.17g',old.rank)||' where id='||old.id); end;"
       "create temp trigger e_i after insert on e begin insert into undolog values(null,'delete from e where "
       "id='||new.id); end;"
       "create temp trigger e_u after update on e begin insert into undolog values(null,'update e set "
       "alpha='||old.alpha||',omega='||old.omega||',type='||old.type||',kind='||old.kind||',dm='||old.dm||',rank='||"
       "printf('%!.17g',old.rank)||',ar='||printf('%!.17g',old.ar)||',orr='||printf('%!.17g',old.orr)||' where "
       "id='||old.id); end;"
       "create temp trigger e_d before delete on e begin insert into undolog values(null,'insert into e "
       "values('||old.id||','||old.alpha||','||old.omega||','||old.type||','||old.kind||','||old.dm||','||printf('%!."
       "17g',old.rank)||','||printf('%!.17g',old.ar)||','||printf('%!.17g',old.orr)||')'); end;");
    insv = pr("insert into v values(?,?,?,?)");
    inse = pr("insert into e values(?,?,?,?,0,0,?,?,?)");
    dele = pr("delete from e where id=?");
    vt = pr("update v set type=? where id=?");
    vv = pr("update v set value=? where id=?");
    et = pr("update e set type=? where id=?");
    er = pr("update e set kind=?, dm=? where id=?");
    sa = pr("update e set alpha=?, ar=? where id=?");
    so = pr("update e set omega=?, orr=? where id=?");
    vr = pr("update v set rank=? where id=?");
    erk = pr("update e set rank=? where id=?");
    ra = pr("update e set ar=? where id=?");
    ro = pr("update e set orr=? where id=?");
    vrank = pr("select rank from v where id=?");
    vbelow = pr("select rank from v where rank<? and id<>? order by rank desc limit 1");
    vabove = pr("select rank from v where rank>? and id<>? order by rank limit 1");
    erank = pr("select rank from e where id=?");
    ebelow = pr("select rank from e where rank<? and id<>? order by rank desc limit 1");
    eabove = pr("select rank from e where rank>? and id<>? order by rank limit 1");
    lastw = pr("select max(ifnull((select max(ar) from e where alpha=?),0), ifnull((select max(orr) from e where "
               "omega=?),0))");
    wrank[0] = pr("select ar from e where id=?");
    wrank[1] = pr("select orr from e where id=?");
    wvert[0] = pr("select alpha from e where id=?");
    wvert[1] = pr("select omega from e where id=?");
    wbelow = pr("select max(r) from (select max(ar) r from e where alpha=? and ar<? and id<>? union all select "
                "max(orr) r from e where omega=? and orr<? and id<>?)");
    wabove = pr("select min(r) from (select min(ar) r from e where alpha=? and ar>? and id<>? union all select "
                "min(orr) r from e where omega=? and orr>? and id<>?)");
    maxv = pr("select max(rank) from v");
    maxe = pr("select max(rank) from e");
    seqmax = pr("select max(seq) from undolog");
    range = pr("select sql from undolog where seq>=? and seq<=? order by seq desc");
    cut = pr("delete from undolog where seq>=? and seq<=?");
    double t = now();
    ex("begin");
    for (size_t i = 0; i < nc; i++) call(calls + 5 * i);
    ex("commit");
    double made = now() - t;
    /* the full graph that the edits start from */
    load(av[2]);
    ex("delete from e");
    ex("delete from v");
    ex("delete from undolog");
    ex("begin");
    const u32 *r = start + 6;
    for (u32 i = 0; i < start[0]; i++, r += 4) {
        I(insv, 1, r[0]);
        I(insv, 2, r[1]);
        I(insv, 3, r[2]);
        D(insv, 4, i + 1);
        run(insv);
    }
    static double wr[9000];
    const u32 *w = start + start[4];
    r = start + 6;
    for (u32 i = 0; i < start[0]; i++, r += 4)
        for (u32 j = 0; j < r[3]; j++) wr[*w++] = j + 1;
    sqlite3_stmt *full = pr("insert into e values(?,?,?,?,?,?,?,?,?)");
    r = start + start[3];
    for (u32 i = 0; i < start[1]; i++, r += 6) {
        for (int j = 0; j < 6; j++) I(full, j + 1, r[j]);
        D(full, 7, i + 1);
        D(full, 8, wr[2 * r[0]]);
        D(full, 9, wr[2 * r[0] + 1]);
        run(full);
    }
    ex("commit");
    ex("delete from undolog");
    lo = calloc(nc + 1, sizeof *lo);
    hi = calloc(nc + 1, sizeof *hi);
    ex("begin");
    t = now();
    long s = seq();
    for (size_t i = 0; i < nc; i++) {
        call(calls + 5 * i);
        lo[i] = s + 1;
        s = seq();
        hi[i] = s;
    }
    double edits = now() - t;
    double un = 0, re = 0;
    t = now();
    for (long i = (long)nc - 1; i >= 0; i--) turn(i);
    un = now() - t;
    t = now();
    for (long i = 0; i < (long)nc; i++) turn(i);
    re = now() - t;
    ex("commit");
    printf("| SQLite %s, undo by triggers | %.0f | %.0f | %.0f | %.0f |\n", sqlite3_libversion(), made * 1e6,
           edits * 1e6, un * 1e6, re * 1e6);
    FILE *f = fopen(av[3], "w");
    if (!f) return 2;
    sqlite3_stmt *q = pr("select id,type,value from v order by rank");
    while (sqlite3_step(q) == SQLITE_ROW)
        fprintf(f, "v %lld %lld %lld\n", sqlite3_column_int64(q, 0), sqlite3_column_int64(q, 1),
                sqlite3_column_int64(q, 2));
    q = pr("select id,alpha,omega,type,kind,dm from e order by rank");
    while (sqlite3_step(q) == SQLITE_ROW) {
        fprintf(f, "e");
        for (int j = 0; j < 6; j++) fprintf(f, " %lld", sqlite3_column_int64(q, j));
        fprintf(f, "\n");
    }
    q = pr("select w from (select v.rank vr, e.ar r, 2*e.id w from v join e on e.alpha=v.id union all select v.rank "
           "vr, e.orr r, 2*e.id+1 w from v join e on e.omega=v.id) order by vr, r");
    while (sqlite3_step(q) == SQLITE_ROW) fprintf(f, "w %lld\n", sqlite3_column_int64(q, 0));
    fclose(f);
}
