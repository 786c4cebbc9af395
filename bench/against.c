/* Times of the library over those of an older one, both in this process, batch by batch in turn; medians.
   Each argument is a file that `bench --write` wrote: a function's id and a table, or 0 and a code. */
#include <stdint.h>
#include <stdio.h>
#include <stdlib.h>
#include <string.h>
#include <time.h>

#include "quetlapin.h"

uint64_t old_ifg_check(const uint8_t *, size_t);
uint64_t old_ifg_compile(const uint8_t *, size_t, uint16_t, uint8_t *, size_t);
uint64_t old_ifr_run(const uint8_t *, size_t, const uint64_t *, size_t, uint64_t *, size_t, uint64_t *, size_t);
uint64_t old_ifg_evaluate(const uint8_t *, size_t, uint16_t, const uint64_t *, size_t, uint8_t *, size_t, uint64_t *,
                          size_t, uint64_t *, size_t);

enum { ROUNDS = 801, CODE = 80000, WORK = 8192, OUT = 128 };

static uint8_t input[70000], code[CODE];
static uint64_t arguments[128], work[WORK], out[OUT];
static const uint8_t *bytes;
static size_t length, argument_count;
static uint16_t id;

static uint64_t call(const char *what, int old) {
    switch (what[0]) {
    case 'k':
        return old ? old_ifg_check(bytes, length) : ifg_check(bytes, length);
    case 'c':
        return old ? old_ifg_compile(bytes, length, id, code, CODE) : ifg_compile(bytes, length, id, code, CODE);
    case 'r':
        return (old ? old_ifr_run : ifr_run)(bytes, length, arguments, argument_count, work, WORK, out, OUT);
    default:
        return (old ? old_ifg_evaluate : ifg_evaluate)(bytes, length, id, arguments, argument_count, code, CODE, work,
                                                       WORK, out, OUT);
    }
}

static double now(void) {
    struct timespec t;
    clock_gettime(CLOCK_MONOTONIC, &t);
    return (double)t.tv_sec + 1e-9 * (double)t.tv_nsec;
}

static double batch(const char *what, int old, int count) {
    double start = now();
    for (int k = 0; k < count; k++) {
        call(what, old);
    }
    return (now() - start) / count;
}

static int order(const void *a, const void *b) {
    double x = *(const double *)a, y = *(const double *)b;
    return (x > y) - (x < y);
}

static void row(const char *name, const char *what, const char *label) {
    static double before[ROUNDS], after[ROUNDS], ratio[ROUNDS];
    double once = batch(what, 0, 3);
    int count = once < 1e-4 ? (int)(1e-4 / once) + 1 : 1;
    if (call(what, 0) != call(what, 1)) {
        printf("| %s | %s | answers differ | | |\n", label, name);
        return;
    }
    for (int k = 0; k < ROUNDS; k++) {
        before[k] = batch(what, 1, count);
        after[k] = batch(what, 0, count);
        ratio[k] = after[k] / before[k];
    }
    qsort(before, ROUNDS, sizeof *before, order);
    qsort(after, ROUNDS, sizeof *after, order);
    qsort(ratio, ROUNDS, sizeof *ratio, order);
    printf("| %s | %s | %.0f | %.0f | %.3f |\n", label, name, 1e9 * before[ROUNDS / 2], 1e9 * after[ROUNDS / 2],
           ratio[ROUNDS / 2]);
    fflush(stdout);
}

int main(int count, char **names) {
    for (int i = 0; i < 128; i++) {
        double x = 0.5 + i / 64.0;
        memcpy(&arguments[i], &x, sizeof x);
    }
    printf("| | | older, ns | library, ns | ratio |\n|---|---|--:|--:|--:|\n");
    for (int i = 1; i < count; i++) {
        FILE *file = fopen(names[i], "rb");
        if (file == NULL) {
            perror(names[i]);
            return 1;
        }
        size_t read = fread(input, 1, sizeof input, file);
        fclose(file);
        const char *name = strrchr(names[i], '/');
        name = (name == NULL ? names[i] : name + 1) + 3;
        bytes = input + 2;
        length = read - 2;
        id = (uint16_t)(input[0] | input[1] << 8);
        if (id == 0) {
            argument_count = bytes[5];
            row(name, "r", "run");
            continue;
        }
        row(name, "k", "check");
        if (ifg_compile(bytes, length, id, code, CODE) >> 32 == 0) {
            argument_count = code[5];
            row(name, "c", "compile");
            row(name, "e", "evaluate");
        }
    }
    return 0;
}
