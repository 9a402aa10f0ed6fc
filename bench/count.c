/* Runs one load, a file of `bench --save`, once by the engine or by the C by hand, so that callgrind can count it.
   Usage: count FILE engine|gcc|kit */
#include <stdint.h>
#include <stdio.h>
#include <stdlib.h>
#include <string.h>

#include "../include/futtockfig.h"

typedef struct futtockfig_result run(
    const uint32_t *start, size_t start_len, const uint64_t *rows, size_t rows_len, const uint32_t *calls, size_t calls_len,
    uint32_t *vertices, size_t vertices_len, uint32_t *edges, size_t edges_len, uint32_t *journal, size_t journal_len,
    uint32_t *answers, size_t answers_len, uint32_t *image, size_t image_len);
typedef struct futtockfig_result run_stores(
    const uint32_t *start, size_t start_len, const uint64_t *rows, size_t rows_len, const uint32_t *calls, size_t calls_len,
    uint32_t *vertices, size_t vertices_len, uint32_t *edges, size_t edges_len, uint32_t *journal, size_t journal_len,
    uint32_t *answers, size_t answers_len, uint32_t *image, size_t image_len, uint32_t stores, uint32_t limit);
run by_hand_run, by_hand_kit_run;
run_stores by_hand_run_stores, by_hand_kit_run_stores;

static void *filled(FILE *file, size_t count, size_t size) {
    void *words = calloc(count + 1, size);
    if (!words || (file && fread(words, size, count, file) != count)) exit(2);
    return words;
}

int main(int count, char **words) {
    FILE *file = count == 3 ? fopen(words[1], "rb") : NULL;
    uint64_t n[10];
    if (!file || fread(n, 8, 10, file) != 10) return 2;
    uint32_t *start = filled(file, n[0], 4);
    uint64_t *rows = filled(file, n[1], 8);
    uint32_t *calls = filled(file, n[2], 4);
    uint32_t *lent[5];
    for (int i = 0; i < 5; i++) lent[i] = filled(NULL, n[3 + i], 4);
    run *one[] = {futtockfig_run, by_hand_run, by_hand_kit_run};
    run_stores *several[] = {futtockfig_run_stores, by_hand_run_stores, by_hand_kit_run_stores};
    int i = !strcmp(words[2], "gcc") ? 1 : !strcmp(words[2], "kit") ? 2 : 0;
    struct futtockfig_result r = n[8]
        ? several[i](start, n[0], rows, n[1], calls, n[2], lent[0], n[3], lent[1], n[4], lent[2], n[5], lent[3], n[6], lent[4], n[7], (uint32_t)n[8], (uint32_t)n[9])
        : one[i](start, n[0], rows, n[1], calls, n[2], lent[0], n[3], lent[1], n[4], lent[2], n[5], lent[3], n[6], lent[4], n[7]);
    return r.code != 0;
}
