/* Times the engine on the loads of the peers: best of many runs, processor time.
   Usage: engine DIR, with the loads of loads.py in DIR. Writes the end graph to DIR/engine.graph. */
#include <stdint.h>
#include <stdio.h>
#include <stdlib.h>
#include <time.h>

#include "../../include/futtockfig.h"

static double now(void) {
    struct timespec t;
    clock_gettime(CLOCK_THREAD_CPUTIME_ID, &t);
    return 1e6 * (double)t.tv_sec + 1e-3 * (double)t.tv_nsec;
}

static void *filled(FILE *file, size_t count, size_t size) {
    void *words = calloc(count + 1, size);
    if (!words || (file && fread(words, size, count, file) != count)) exit(2);
    return words;
}

/* The end graph as text: a line for each vertex, edge and oriented word, in their orders. */
static void write_graph(const char *dir, const uint32_t *image) {
    char path[500];
    snprintf(path, sizeof path, "%s/engine.graph", dir);
    FILE *file = fopen(path, "w");
    if (!file) exit(2);
    const uint32_t *r = image + 6, *edges = image + image[3], *words = image + image[4], *end = image + image[5];
    for (; r < edges; r += 4) fprintf(file, "v %u %u %u\n", r[0], r[1], r[2]);
    for (; r < words; r += 6) fprintf(file, "e %u %u %u %u %u %u\n", r[0], r[1], r[2], r[3], r[4], r[5]);
    for (; r < end; r++) fprintf(file, "w %u\n", *r);
    fclose(file);
}

/* The best time of a load in µs. */
static double timed(const char *dir, const char *name, int graph) {
    char path[500];
    snprintf(path, sizeof path, "%s/%s.load", dir, name);
    FILE *file = fopen(path, "rb");
    uint64_t n[10];
    if (!file || fread(n, 8, 10, file) != 10) exit(2);
    uint32_t *start = filled(file, n[0], 4);
    uint64_t *rows = filled(file, n[1], 8);
    uint32_t *calls = filled(file, n[2], 4), *lent[5];
    for (int i = 0; i < 5; i++) lent[i] = filled(NULL, n[3 + i], 4);
    fclose(file);
    double best = 1e9;
    for (int i = 0; i < 300; i++) {
        double begun = now();
        struct futtockfig_result r = futtockfig_run(
            start, n[0], rows, n[1], calls, n[2], lent[0], n[3], lent[1], n[4], lent[2], n[5], lent[3], n[6], lent[4],
            n[7]);
        double time = now() - begun;
        if (r.code) exit(2);
        if (time < best) best = time;
    }
    if (graph) write_graph(dir, lent[4]);
    return best;
}

int main(int count, char **words) {
    if (count != 2) return 2;
    double make = timed(words[1], "make", 0), nothing = timed(words[1], "nothing", 0);
    double edits = timed(words[1], "edits", 0), undone = timed(words[1], "undone", 0);
    double redone = timed(words[1], "redone", 1);
    printf("| futtockfig | %.0f | %.0f | %.0f | %.0f |\n", make, edits - nothing, undone - edits, redone - undone);
}
