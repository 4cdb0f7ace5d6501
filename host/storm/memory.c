/*
 * Lists lent to the archive. Each lies between two pages that may not be touched, and
 * touches one of them: by turns its end lies before one or its beginning after the other.
 * A list that is only read is lent from pages that may not be written: they are mapped
 * twice. A list that is written holds NaNs of every kind before the call, as does the
 * stretch beside it, and both are compared as bits.
 */
#include "storm.h"

#include <sys/mman.h>
#include <unistd.h>

_Thread_local list L[LISTS];

enum { PAGE = 4096, BESIDE = 64, TURNS = 64 };

static const struct {
    size_t element, most;
} SIZES[LISTS] = {
    [OUTLINE1] = {8, 3 * 1026},      [OUTLINE2] = {8, 3 * 1026},
    [HIT_AT] = {8, 2 * 514},         [HIT] = {8, 2 * 514},
    [LAP_AT] = {8, 7 * 130},         [LAP] = {8, 6 * 130},
    [LAP_EDITION] = {4, 130},        [SPLITS] = {8, 9 * 770},
    [CUT_AT] = {8, 3 * 780},         [CUT] = {8, 2 * 780},
    [CAND_AT1] = {8, 2 * 780},       [CAND1] = {8, 6 * 780},
    [CAND_EDITION1] = {4, 780},      [INSIDE1] = {1, 780},
    [CAND_AT2] = {8, 2 * 780},       [CAND2] = {8, 6 * 780},
    [CAND_EDITION2] = {4, 780},      [INSIDE2] = {1, 780},
    [PROBE] = {8, 6 * 780},          [SLICE_AT] = {8, 4 * 1820},
    [SLICE] = {8, 6 * 1820},         [SLICE_EDITION] = {4, 1820},
    [ENTERED] = {8, 4},              [SETTINGS] = {8, 60},
    [ROOM] = {8, 300000},            [ENDS] = {8, 1810},
    [CHAIN] = {8, 1810},             [CHAIN_ENDS] = {8, 1810},
    [CHAIN_HOW] = {8, 1810},         [AREAS] = {8, 1800},
    [KEPT] = {8, 1810},              [VERTICES] = {8, 3 * 1030 + 8},
    [BYTES] = {1, 5200},             [WHOLE] = {8, 2 * 1026},
    [POINTS] = {8, 2 * 9000},        [POINT_ENDS] = {8, 4100},
    [PUT_AT] = {8, 8},               [PUT] = {8, 10},
    [HANDLES] = {8, 900},            [LIST_AT] = {8, 4 * 900},
    [LIST] = {8, 6 * 900},           [LIST_EDITION] = {4, 900},
    [HELD] = {8, 1800},              [HELD_AT] = {8, 4 * 1800},
    [HELD_SLICE] = {8, 6 * 1800},    [HELD_EDITION] = {4, 1800},
};

/* As numbers: NaNs, quiet and signalling, of both signs, each with a payload of its own. */
static uint64_t *patterns;

static void make_patterns(void)
{
    static const uint64_t NANS[] = {0xfff8a5a500000000, 0x7ff0000000000001, 0x7ff8000000000000,
                                    0xfff0000000000001, 0x7ff4a5a500000000, 0x7ff7ffffffff0000,
                                    0xfff7ffffffff0000, 0x7fffffffffff0000, 0xffffffffffff0000};
    size_t count = 300000 + 64 + TURNS;
    uint64_t *made = malloc(8 * count);
    if (made == NULL)
        exit(2);
    for (size_t i = 0; i < count; i++)
        made[i] = NANS[i % 9] + (i * 257) % 0x10000;
    patterns = made;
}

static void *map(void *at, size_t size, int may, int flags, int file)
{
    void *pages = mmap(at, size, may, flags, file, 0);
    if (pages == MAP_FAILED) {
        perror("storm: mmap");
        exit(2);
    }
    return pages;
}

/* The pages of a file between two pages of nothing. */
static unsigned char *fenced(int file, size_t size, int may)
{
    unsigned char *all =
        map(NULL, size + 2 * PAGE, PROT_NONE, MAP_PRIVATE | MAP_ANONYMOUS | MAP_NORESERVE, -1);
    return map(all + PAGE, size, may, MAP_SHARED | MAP_FIXED, file);
}

void make_lists(void)
{
    if (patterns == NULL)
        make_patterns();
    for (int i = 0; i < LISTS; i++) {
        list *l = L + i;
        l->element = SIZES[i].element;
        l->most = SIZES[i].most;
        l->size = (l->element * l->most + BESIDE + PAGE - 1) / PAGE * PAGE;
        int file = memfd_create("storm", 0);
        if (file < 0 || ftruncate(file, (off_t)l->size) != 0)
            exit(2);
        l->open = fenced(file, l->size, PROT_READ | PROT_WRITE);
        l->shut = fenced(file, l->size, PROT_READ);
        close(file);
        l->own = calloc(l->most + 8, l->element);
        l->want = malloc(l->size + BESIDE);
        if (l->own == NULL || l->want == NULL)
            exit(2);
    }
}

/* ---- Of one call ---- */

static _Thread_local list *rooms[16];
static _Thread_local int room_count;

void begin_call(const char *entry)
{
    entry_now = entry;
    room_count = 0;
}

/* Where a list of so many bytes lies: before the page of nothing, or after the other. */
static size_t place(const list *l, size_t bytes) { return draw() & 1 ? l->size - bytes : 0; }

/* No element: any pointer will do, NULL or one that may not be read. */
static void *nowhere(list *l)
{
    switch (draw() & 3) {
    case 0:
        return NULL;
    case 1:
        return l->open + l->size;
    default:
        return (void *)(uintptr_t)1;
    }
}

const void *give(list_name name)
{
    list *l = L + name;
    size_t bytes = l->len * l->element, at;
    if (bytes == 0)
        return nowhere(l);
    at = place(l, bytes);
    memcpy(l->open + at, l->own, bytes);
    return l->shut + at;
}

static unsigned char *stretch(list *l, size_t bytes)
{
    size_t at = place(l, bytes);
    l->before = at == 0 ? 0 : BESIDE;
    l->stretch = bytes + BESIDE;
    l->at = l->open + at - l->before;
    memcpy(l->want, patterns + draw() % TURNS, l->stretch);
    rooms[room_count++] = l;
    return l->at + l->before;
}

void *open_room(list_name name)
{
    list *l = L + name;
    unsigned char *lent = stretch(l, l->len * l->element);
    memcpy(l->at, l->want, l->stretch);
    return l->len == 0 ? nowhere(l) : lent;
}

void *open_kept(list_name name)
{
    list *l = L + name;
    size_t bytes = l->len * l->element;
    unsigned char *lent = stretch(l, bytes);
    memcpy(l->want + l->before, l->own, bytes);
    memcpy(l->at, l->want, l->stretch);
    return l->len == 0 ? nowhere(l) : lent;
}

void *wanted(list_name name) { return L[name].want + L[name].before; }

const void *left(list_name name) { return L[name].at + L[name].before; }

/* Elements from one to before the other are 0. */
void zero_want(list_name name, size_t from, size_t to)
{
    if (from < to)
        memset((char *)wanted(name) + from * L[name].element, 0, (to - from) * L[name].element);
}

bool rooms_as_wanted(void)
{
    for (int i = 0; i < room_count; i++)
        if (memcmp(rooms[i]->at, rooms[i]->want, rooms[i]->stretch) != 0)
            return false;
    return true;
}

uint64_t digest_rooms(uint64_t digest)
{
    for (int i = 0; i < room_count; i++)
        for (size_t k = 0; k + 8 <= rooms[i]->stretch; k += 8) {
            uint64_t word;
            memcpy(&word, rooms[i]->at + k, 8);
            digest = (digest ^ word) * 0x9e3779b97f4a7c15;
            digest ^= digest >> 29;
        }
    return digest;
}
