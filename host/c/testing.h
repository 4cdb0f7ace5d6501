/*
 * What the C tests share: check lines, lists lent, numbers drawn, and the rules that
 * several entries have, written from document 01 and from nothing else. A test
 * includes this before anything else.
 *
 * Every list that is only read is lent from memory that faults when it is written.
 * Every list ends where a page begins that faults when it is touched. A list that
 * is written holds guard values before the call, and so does the memory before it.
 */
#ifndef TESTING_H
#define TESTING_H

#define _DEFAULT_SOURCE
#include "mask.h"

#include <float.h>
#include <math.h>
#include <signal.h>
#include <stdarg.h>
#include <stdio.h>
#include <stdlib.h>
#include <string.h>
#include <sys/mman.h>
#include <unistd.h>

/* ---- The layout ---- */

#define AT(type, field, place) \
    _Static_assert(offsetof(type, field) == (place), #type "." #field " stands elsewhere")
#define SIZE(type, size) _Static_assert(sizeof(type) == (size), #type " has another size")

/*
 * Every list written has elements of 8 bytes, but for editions and the bytes of a record. They are
 * compared as words of 64 bits.
 */
SIZE(size_t, 8);
SIZE(double, 8);

/* ---- Checks ---- */

static unsigned checks, failed;

/* One line for each check. */
static inline void check(int ok, const char *format, ...)
{
    va_list words;
    checks++;
    failed += !ok;
    fputs(ok ? "ok   " : "FAIL ", stdout);
    va_start(words, format);
    vprintf(format, words);
    va_end(words);
    putchar('\n');
    fflush(stdout);
}

/* The last line, which counts the others. Answers the status: 0 where none failed. */
static inline int finish(const char *name)
{
    printf("%s: %u checks, %u failed\n", name, checks, failed);
    return failed != 0;
}

/* ---- Sizes, numbers and outlines of document 01 ---- */

enum { LEAST_VERTICES = 2, MOST_VERTICES = 1024, MOST_LAPS = 128 };

static const double T = 1.0 / 1024;
static const double LIMIT = 1073741824.0; /* 2^30 */
static const size_t HALF = (size_t)1 << 63;

/* The two squares of the sheet. */
static const double A[] = {0, 0, 0, 4, 0, 0, 4, 4, 0, 0, 4, 0};
static const double B[] = {2, 2, 0, 6, 2, 0, 6, 6, 0, 2, 6, 0};

/* ---- What refusals look at ---- */

/* "magnitude of any coordinate or bulge": at most 2^30, and finite. */
static inline int small(double a) { return isfinite(a) && fabs(a) <= LIMIT; }

static inline int small_list(const double *list, size_t len)
{
    for (size_t i = 0; i < len; i++)
        if (!small(list[i]))
            return 0;
    return 1;
}

/* "a list's length disagrees with its count", with no product that could overflow. */
static inline int right_length(size_t len, size_t width, size_t count)
{
    return len % width == 0 && len / width == count;
}

/* "an unknown mode, selector, source or yes/no code": of slices, their source and inverted. */
static inline int unknown_slice_code(const size_t *slice_at, size_t slices)
{
    for (size_t i = 0; i < slices; i++)
        if (slice_at[4 * i] < 1 || slice_at[4 * i] > 2 || slice_at[4 * i + 1] > 1)
            return 1;
    return 0;
}

/* What slices are refused for behind the numbers: 6, 7, 8, 14, or nothing. */
static inline uint32_t slices_refused(const size_t *slice_at, const uint32_t *slice_edition,
                                      size_t slices, const size_t *vc, const uint32_t *edition,
                                      mask_starts starts)
{
    for (size_t i = 0; i < slices; i++)
        if (slice_at[4 * i + 2] >= vc[slice_at[4 * i] - 1])
            return 6;
    for (size_t i = 0; i < slices; i++)
        if (slice_at[4 * i + 3] > vc[slice_at[4 * i] - 1])
            return 7;
    if (starts.pline2 > starts.pline1_overlapping ||
        starts.pline1_overlapping > starts.pline2_overlapping ||
        starts.pline2_overlapping > slices)
        return 8;
    for (size_t i = 0; i < slices; i++)
        if (slice_edition[i] != edition[slice_at[4 * i] - 1])
            return 14;
    return 0;
}

/* The two tolerances of request K6: of x and of y. */
typedef struct axes {
    double x, y;
} axes;

static inline axes both(double t) { return (axes){t, t}; }

/* "position tolerance: above 0, at most 1"; "number 4 covers either". */
static inline int right_tolerance(double t) { return isfinite(t) && t > 0 && t <= 1; }

static inline int right_tolerances(axes t) { return right_tolerance(t.x) && right_tolerance(t.y); }

/* Which of the two, x or y or both, gets another value. */
static inline axes spoiled(axes t, int which, double value)
{
    if (which != 1)
        t.x = value;
    if (which != 0)
        t.y = value;
    return t;
}

/* ---- Memory lent ---- */

enum {
    MOST_LISTS = 48,
    BEFORE = 8, /* guard values before a list */
    BEYOND = 64 /* at most so many elements beyond the need */
};

/* Of each list: its memory, and the page that faults at the end. */
static struct {
    char *pages, *end;
} lent[MOST_LISTS];

/* Of each list that is written, what is expected: guard values, and over them what is written. */
static struct {
    uint64_t *words;
    size_t len, used;
} want[MOST_LISTS];

static const char *outside_words;

static inline void outside(int number)
{
    ssize_t told = write(1, outside_words, strlen(outside_words));
    (void)number;
    (void)told;
    _exit(1);
}

/* From here on a fault ends the test with this line. */
static inline void watch(const char *words)
{
    outside_words = words;
    signal(SIGSEGV, outside);
    signal(SIGBUS, outside);
}

static inline void *pages_of(size_t size)
{
    char *pages = mmap(NULL, size, PROT_READ | PROT_WRITE,
                       MAP_PRIVATE | MAP_ANONYMOUS | MAP_NORESERVE, -1, 0);
    if (pages == MAP_FAILED) {
        perror("mmap");
        exit(1);
    }
    return pages;
}

/* Memory for a list that needs at most so many elements. BEFORE and BEYOND are added. */
static inline void make_list(int list, size_t most)
{
    size_t page = (size_t)sysconf(_SC_PAGESIZE);
    size_t size = ((most + BEFORE + BEYOND) * 8 + page - 1) / page * page;
    if (list >= MOST_LISTS)
        abort();
    lent[list].pages = pages_of(size + page);
    lent[list].end = lent[list].pages + size;
    if (mprotect(lent[list].end, page, PROT_NONE) != 0) {
        perror("mprotect");
        exit(1);
    }
    want[list].words = pages_of(size);
}

/* A list to be read. Where it has no element, the pointer is one that may not be read. */
static inline const void *lend_any(int list, const void *from, size_t bytes)
{
    char *pages = lent[list].pages, *to = lent[list].end - bytes;
    size_t size = (size_t)(lent[list].end - pages);
    if (mprotect(pages, size, PROT_READ | PROT_WRITE) != 0)
        exit(1);
    memcpy(to, from, bytes);
    if (mprotect(pages, size, PROT_READ) != 0)
        exit(1);
    return to;
}

/* A list to be read; NULL where it has no element. */
static inline const void *lend_bytes(int list, const void *from, size_t bytes)
{
    return bytes == 0 ? NULL : lend_any(list, from, bytes);
}

static inline const void *lend(int list, const void *from, size_t len)
{
    return lend_bytes(list, from, 8 * len);
}

/*
 * What a list to be written holds before the call: as numbers they are NaNs, quiet and
 * signalling ones of both signs, each with a payload of its own. They are written and
 * compared as bits.
 */
static const uint64_t NANS[] = {
    0xfff8a5a500000000, /* quiet, negative */
    0x7ff0000000000001, /* signalling, from the least payload on */
    0x7ff8000000000000, /* quiet, from no payload on */
    0xfff0000000000001, /* signalling, negative */
    0x7ff4a5a500000000, /* signalling */
    0x7ff7ffffffff0000, /* signalling, the largest payloads */
    0xfff7ffffffff0000, /* the same, negative */
    0x7fffffffffff0000, /* quiet, the largest payloads */
    0xffffffffffff0000  /* the same, negative; of a whole number: all bits set */
};
enum { NAN_COUNT = sizeof NANS / sizeof *NANS };

static int only_nan = -1; /* one of NANS in every place, and no other; all in turn where it is -1 */

/* What place i of a list holds, counted from BEFORE places before it on. */
static inline uint64_t guard_word(size_t i)
{
    return NANS[only_nan < 0 ? i % NAN_COUNT : (size_t)only_nan] + i % 0x10000;
}

static inline void guard(uint64_t *words, size_t len)
{
    for (size_t i = 0; i < BEFORE + len; i++)
        words[i] = guard_word(i);
}

/* A list to be written; NULL where it has no element. */
static inline void *lend_room(int list, size_t len)
{
    uint64_t *words = (uint64_t *)lent[list].end - len;
    guard(words - BEFORE, len);
    return len == 0 ? NULL : words;
}

/* What the last call left in a list. */
static inline const size_t *left(int list, size_t len)
{
    return (const size_t *)lent[list].end - len;
}

static inline const double *left_numbers(int list, size_t len)
{
    return (const double *)lent[list].end - len;
}

/* ---- The lists expected ---- */

static inline void expect(int list, size_t len)
{
    guard(want[list].words, len);
    want[list].len = len;
    want[list].used = 0;
}

static inline void put_word(int list, uint64_t word)
{
    want[list].words[BEFORE + want[list].used++] = word;
}

static inline void put(int list, const double *numbers, size_t count)
{
    for (size_t i = 0; i < count; i++) {
        uint64_t word;
        memcpy(&word, numbers + i, sizeof word);
        put_word(list, word);
    }
}

/* "room within the stated need but past the reported items holds +0 or 0" */
static inline void fill(int list, size_t need)
{
    while (want[list].used < need)
        put_word(list, 0);
}

/* The list that the call left is the one expected, with the guard values before and beyond it. */
static inline int as_expected(int list)
{
    const uint64_t *words = (const uint64_t *)lent[list].end - want[list].len - BEFORE;
    return memcmp(words, want[list].words, 8 * (BEFORE + want[list].len)) == 0;
}

/* ---- Lists of editions: elements of 4 bytes, lent, written and compared in the same way ---- */

enum { EDITION_COUNT = 5 };
static const uint32_t EDITIONS[EDITION_COUNT] = {0, 1, 0x80000000, UINT32_MAX - 1, UINT32_MAX};

static inline const uint32_t *lend_editions(int list, const uint32_t *from, size_t len)
{
    return lend_bytes(list, from, 4 * len);
}

static inline uint32_t guard_edition(size_t i)
{
    return (uint32_t)(guard_word(i) ^ guard_word(i) >> 32);
}

static inline void guard_editions(uint32_t *editions, size_t len)
{
    for (size_t i = 0; i < BEFORE + len; i++)
        editions[i] = guard_edition(i);
}

static inline uint32_t *lend_edition_room(int list, size_t len)
{
    uint32_t *editions = (uint32_t *)lent[list].end - len;
    guard_editions(editions - BEFORE, len);
    return len == 0 ? NULL : editions;
}

static inline const uint32_t *left_editions(int list, size_t len)
{
    return (const uint32_t *)lent[list].end - len;
}

static inline void expect_editions(int list, size_t len)
{
    guard_editions((uint32_t *)want[list].words, len);
    want[list].len = len;
    want[list].used = 0;
}

static inline void put_edition(int list, uint32_t edition)
{
    ((uint32_t *)want[list].words)[BEFORE + want[list].used++] = edition;
}

static inline void fill_editions(int list, size_t need)
{
    while (want[list].used < need)
        put_edition(list, 0);
}

static inline int editions_as_expected(int list)
{
    const uint32_t *editions = left_editions(list, want[list].len) - BEFORE;
    return memcmp(editions, want[list].words, 4 * (BEFORE + want[list].len)) == 0;
}

/* ---- Lists of bytes, in the same way ---- */

static inline void guard_bytes(uint8_t *bytes, size_t len)
{
    for (size_t i = 0; i < BEFORE + len; i++)
        bytes[i] = (uint8_t)(guard_word(i) ^ guard_word(i) >> 56 ^ 0xa5);
}

static inline uint8_t *lend_byte_room(int list, size_t len)
{
    uint8_t *bytes = (uint8_t *)lent[list].end - len;
    guard_bytes(bytes - BEFORE, len);
    return len == 0 ? NULL : bytes;
}

static inline const uint8_t *left_bytes(int list, size_t len)
{
    return (const uint8_t *)lent[list].end - len;
}

static inline void expect_bytes(int list, size_t len)
{
    guard_bytes((uint8_t *)want[list].words, len);
    want[list].len = len;
    want[list].used = 0;
}

static inline void put_byte(int list, uint8_t byte)
{
    ((uint8_t *)want[list].words)[BEFORE + want[list].used++] = byte;
}

static inline int bytes_as_expected(int list)
{
    const uint8_t *bytes = left_bytes(list, want[list].len) - BEFORE;
    return memcmp(bytes, want[list].words, BEFORE + want[list].len) == 0;
}

/* ---- Drawn numbers ---- */

static uint64_t seed; /* a test sets it before it draws */

/* splitmix64 */
static inline uint64_t draw(void)
{
    uint64_t z = (seed += 0x9e3779b97f4a7c15);
    z = (z ^ z >> 30) * 0xbf58476d1ce4e5b9;
    z = (z ^ z >> 27) * 0x94d049bb133111eb;
    return z ^ z >> 31;
}

/* Below n; any number where n is 0, which stands for 2^64. */
static inline size_t below(size_t n) { return (size_t)(n ? draw() % n : draw()); }

/* One case in `odds`. */
static inline int rarely(size_t odds) { return below(odds) == 0; }

/* A number near a: at it, at the distance t, or at the next number within t. */
static inline double near(double a, double t)
{
    switch (below(6)) {
    case 0:
        return a + t;
    case 1:
        return a - t;
    case 2:
        return nextafter(a + t, a);
    case 3:
        return nextafter(a - t, a);
    default:
        return a;
    }
}

/* A number that is refused. */
static inline double bad_number(void)
{
    const double list[] = {NAN, -NAN, INFINITY, -INFINITY, DBL_MAX, nextafter(LIMIT, INFINITY)};
    return list[below(sizeof list / sizeof *list)];
}

#endif
