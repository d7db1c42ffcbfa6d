/* The cost of two archives in one process, with calls in turn: pair FOLDER RUNS CASE
 * The functions of the one are named before_desk_.., those of the other after_desk_.. (run.sh renames them). FOLDER holds the tables that
 * `bench tables` writes. Prints the nanoseconds of a call before and after, and their ratio. */
#define _POSIX_C_SOURCE 200809L
#include <stdint.h>
#include <stdio.h>
#include <stdlib.h>
#include <string.h>
#include <time.h>

typedef uint32_t check_call(const uint8_t *, size_t, const uint8_t *, size_t, const uint8_t *, size_t, const uint8_t *, size_t, uint64_t *);
/* An archive from before F-7 has no parameters for the two sets. By the convention of x86-64 (System V) it leaves these arguments alone. */
typedef uint32_t fire_call(uint32_t, uint64_t, const uint8_t *, size_t, uint32_t, uint64_t *, uint64_t *, uint64_t *, uint64_t *);
typedef uint32_t categories_call(const uint8_t *, size_t, const uint8_t *, size_t, uint64_t *);
typedef void label_call(const uint8_t *, size_t, const uint8_t *, size_t, uint16_t, uint32_t *, uint32_t *, uint32_t *);

check_call before_desk_check, after_desk_check;
fire_call before_desk_fire, after_desk_fire;
categories_call before_desk_categories, after_desk_categories;
label_call before_desk_label, after_desk_label;

static check_call *const checks[2] = {before_desk_check, after_desk_check};
static fire_call *const fires[2] = {before_desk_fire, after_desk_fire};
static categories_call *const categories[2] = {before_desk_categories, after_desk_categories};
static label_call *const labels[2] = {before_desk_label, after_desk_label};

typedef struct {
    uint8_t *bytes;
    size_t length;
} table;

typedef struct {
    const char *name;
    char kind; /* t: tree, f: firing, c: categories, l: label */
    const char *files[4];
    uint32_t number; /* the transition or the action */
    uint32_t places;
    uint64_t marking;
} bench_case;

static const bench_case cases[] = {
    {"R", 't', {"r.ask", "r.net", "r.formulas", "r.tree"}, 0, 0, 0},
    {"trail", 't', {"trail.ask", "trail.net", "trail.formulas", "trail.tree"}, 0, 0, 0},
    {"chain", 't', {"chain.ask", "chain.net", "chain.formulas", "chain.tree"}, 0, 0, 0},
    {"and", 't', {"and.ask", "and.net", "and.formulas", "and.tree"}, 0, 0, 0},
    {"wide", 't', {"wide.ask", "wide.net", "wide.formulas", "wide.tree"}, 0, 0, 0},
    {"rings", 't', {"rings.ask", "rings.net", "rings.formulas", "rings.tree"}, 0, 0, 0},
    {"fire-r", 'f', {"r.net"}, 1, 3, 3},
    {"fire-64", 'f', {"large.net"}, 63, 64, UINT64_MAX},
    {"categories", 'c', {"full", "full"}, 0, 0, 0},
    {"label-small", 'l', {"small.1", "small.2"}, 5, 0, 0},
    {"label-first", 'l', {"full", "full"}, 10, 0, 0},
    {"label-middle", 'l', {"full", "full"}, 10000, 0, 0},
    {"label-last", 'l', {"full", "full"}, 20000, 0, 0},
    {"label-low", 'l', {"full", "full"}, 5, 0, 0},
    {"label-high", 'l', {"full", "full"}, 30000, 0, 0},
};

static void *need(void *found, const char *what)
{
    if (!found) {
        perror(what);
        exit(2);
    }
    return found;
}

static table read_table(const char *folder, const char *name)
{
    char path[4096];
    snprintf(path, sizeof path, "%s/%s", folder, name);
    FILE *file = need(fopen(path, "rb"), path);
    table read = {need(malloc(1 << 23), "room"), 0};
    read.length = fread(read.bytes, 1, 1 << 23, file);
    fclose(file);
    return read;
}

/* One call of the archive before (0) or after (1): a number made of all it gives. */
static uint64_t call(const bench_case *c, const table *t, int side)
{
    /* The sets of a granted firing are 0, so that an archive that does not write them gives the same. */
    uint64_t place = 0, marking = 0, missing = 0, occupied = 0;
    uint32_t number, file = 0, offset = 0, length = 0;
    switch (c->kind) {
    case 't':
        number = checks[side](t[0].bytes, t[0].length, t[1].bytes, t[1].length, t[2].bytes, t[2].length, t[3].bytes, t[3].length, &place);
        return number ^ place << 32;
    case 'f':
        number = fires[side](c->places, c->marking, t[0].bytes, t[0].length, c->number, &place, &marking, &missing, &occupied);
        return number ^ place << 32 ^ marking ^ missing << 8 ^ occupied << 16;
    case 'c':
        number = categories[side](t[0].bytes, t[0].length, t[1].bytes, t[1].length, &place);
        return number ^ place << 32;
    default:
        labels[side](t[0].bytes, t[0].length, t[1].bytes, t[1].length, (uint16_t)c->number, &file, &offset, &length);
        return file ^ (uint64_t)offset << 32 ^ length << 8;
    }
}

static double now(void)
{
    struct timespec time;
    clock_gettime(CLOCK_THREAD_CPUTIME_ID, &time);
    return time.tv_sec * 1e9 + time.tv_nsec;
}

static volatile uint64_t given;

static double timed(const bench_case *c, const table *t, int side, int times)
{
    double start = now();
    for (int i = 0; i < times; i++)
        given = call(c, t, side);
    return (now() - start) / times;
}

static int rising(const void *a, const void *b)
{
    double x = *(const double *)a, y = *(const double *)b;
    return (x > y) - (x < y);
}

int main(int count, char **arguments)
{
    const bench_case *c = cases, *end = cases + sizeof cases / sizeof cases[0];
    while (count == 4 && c < end && strcmp(c->name, arguments[3]) != 0)
        c++;
    int runs = count == 4 ? atoi(arguments[2]) : 0;
    if (runs < 1 || c == end) {
        fprintf(stderr, "pair FOLDER RUNS CASE\n");
        return 2;
    }
    table t[4] = {{0}};
    for (int i = 0; i < 4 && c->files[i]; i++)
        t[i] = read_table(arguments[1], c->files[i]);
    if (call(c, t, 0) != call(c, t, 1)) {
        fprintf(stderr, "%s: the two archives differ\n", c->name);
        return 1;
    }
    int times = 1;
    while (timed(c, t, 0, times) * times < 4e5)
        times *= 2;
    double *sides[2] = {need(malloc(runs * sizeof(double)), "room"), need(malloc(runs * sizeof(double)), "room")};
    for (int i = 0; i < runs; i++) {
        int first = i & 1;
        sides[first][i] = timed(c, t, first, times);
        sides[!first][i] = timed(c, t, !first, times);
    }
    qsort(sides[0], runs, sizeof(double), rising);
    qsort(sides[1], runs, sizeof(double), rising);
    double before = sides[0][runs / 2], after = sides[1][runs / 2];
    printf("%.1f %.1f %.3f\n", before, after, after / before);
}
