/*
 * Calls the four entries of the store as a host does, and compares every answer with that
 * of a plain list, one for each party. One line for each check; the status is 0 where none
 * failed.
 *
 * The plain list below is written from requests K9 and K10 and from nothing else: it is an
 * array of live slices in the order put, and knows nothing of places. Every list lent ends where a
 * page begins that faults when it is touched, and a list that a call only reads is lent from
 * memory that faults when it is written.
 */
#include "testing.h"

AT(mask_handle_answer, refusal, 0);
AT(mask_handle_answer, handle, 8);
SIZE(mask_handle_answer, 16);
AT(mask_done_answer, refusal, 0);
SIZE(mask_done_answer, 4);
_Static_assert(MASK_STORE_PLACES == 1792, "the store has another number of places");
_Static_assert(MASK_STORE_SHARE == 896, "a party has another number of places");

enum { PLACES = MASK_STORE_PLACES, SHARE = MASK_STORE_SHARE, EXTRA = 8 };

/* ---- A slice, and the plain list ---- */

typedef struct slice {
    size_t at[4];
    double numbers[6];
    uint32_t edition;
} slice;

typedef struct plain {
    size_t count;
    size_t handles[SHARE];
    slice slices[SHARE];
} plain;

static size_t plain_find(const plain *p, size_t handle)
{
    size_t i = 0;
    while (i < p->count && p->handles[i] != handle)
        i++;
    return i;
}

/* "3 [..] source or yes/no code is unknown", "5 a number is not finite or is too large" */
static uint32_t slice_refusal(const slice *x)
{
    if ((x->at[0] != 1 && x->at[0] != 2) || x->at[1] > 1)
        return 3;
    return small_list(x->numbers, 6) ? 0 : 5;
}

/* "A put gives the lowest handle number, from 0, that no live slice has" */
static uint32_t plain_put(plain *p, const slice *x, size_t *handle)
{
    uint32_t number = slice_refusal(x);
    *handle = 0;
    if (number)
        return number;
    if (p->count == SHARE)
        return 20;
    while (plain_find(p, *handle) < p->count)
        ++*handle;
    p->handles[p->count] = *handle;
    p->slices[p->count++] = *x;
    return 0;
}

static uint32_t plain_release(plain *p, size_t handle)
{
    size_t i = plain_find(p, handle);
    if (i == p->count)
        return 21;
    p->count--;
    memmove(p->handles + i, p->handles + i + 1, (p->count - i) * sizeof *p->handles);
    memmove(p->slices + i, p->slices + i + 1, (p->count - i) * sizeof *p->slices);
    return 0;
}

/* ---- The store, lent ---- */

/* Memory that ends where a page begins that faults. */
typedef struct lending {
    char *pages, *end;
    size_t bytes;
} lending;

static void make(lending *m, size_t bytes)
{
    size_t page = (size_t)sysconf(_SC_PAGESIZE), size = (bytes + page - 1) / page * page;
    m->pages = pages_of(size + page);
    m->end = m->pages + size;
    m->bytes = bytes;
    if (mprotect(m->end, page, PROT_NONE) != 0)
        exit(1);
}

static void *start(const lending *m) { return m->end - m->bytes; }

static void protect(const lending *m, int how)
{
    if (mprotect(m->pages, (size_t)(m->end - m->pages), how) != 0)
        exit(1);
}

/* Whose calls are made, and what each party has. */
static uint32_t who;
static plain lives[2];
#define live lives[who]

static lending held, at, numbers, edition;
static lending handles, list_at, list, list_edition;

static lending *const store_lists[] = {&held, &at, &numbers, &edition};
static lending *const room_lists[] = {&handles, &list_at, &list, &list_edition};

/* From now on the store's list may be written, or only read. */
static void allow(int which, int how) { protect(store_lists[which], how); }

static void allow_all(int how)
{
    for (int i = 0; i < 4; i++)
        allow(i, how);
}

static mask_handle_answer call_put(const slice *x)
{
    return mask_store_put(start(&held), PLACES, start(&at), 4 * PLACES, start(&numbers), 6 * PLACES,
                          start(&edition), PLACES, who, x->at, 4, x->numbers, 6, x->edition);
}

static mask_done_answer call_release(size_t handle)
{
    return mask_store_release(start(&held), PLACES, start(&at), 4 * PLACES, start(&numbers),
                              6 * PLACES, start(&edition), PLACES, who, handle);
}

static mask_count_answer call_list(void)
{
    return mask_store_list(start(&held), PLACES, start(&at), 4 * PLACES, start(&numbers), 6 * PLACES,
                           start(&edition), PLACES, who, start(&handles), SHARE + EXTRA,
                           start(&list_at), 4 * (SHARE + EXTRA), start(&list), 6 * (SHARE + EXTRA),
                           start(&list_edition), SHARE + EXTRA);
}

static mask_done_answer call_compact(void)
{
    return mask_store_compact(start(&held), PLACES, start(&at), 4 * PLACES, start(&numbers),
                              6 * PLACES, start(&edition), PLACES, who);
}

/* ---- One call beside the plain list ---- */

static int put_right(const slice *x, size_t *handle)
{
    uint32_t number = plain_put(&live, x, handle);
    mask_handle_answer a = call_put(x);
    return a.refusal == number && a.handle == *handle;
}

static int release_right(size_t handle)
{
    mask_done_answer a = call_release(handle);
    return a.refusal == plain_release(&live, handle);
}

static int all_zero(const void *from, size_t bytes)
{
    const unsigned char *b = from;
    for (size_t i = 0; i < bytes; i++)
        if (b[i])
            return 0;
    return 1;
}

/* The list is the plain list, then zeros up to the need, and beyond it what was there. */
static int list_right(void)
{
    const size_t *h = start(&handles), *a = start(&list_at);
    const double *n = start(&list);
    const uint32_t *e = start(&list_edition);
    const size_t unit[] = {sizeof *h, 4 * sizeof *a, 6 * sizeof *n, sizeof *e};
    int ok = 1;
    for (int i = 0; i < 4; i++)
        memset(start(room_lists[i]), 0xa5, room_lists[i]->bytes);
    allow_all(PROT_READ);
    mask_count_answer c = call_list();
    allow_all(PROT_READ | PROT_WRITE);
    ok &= c.refusal == 0 && c.count == live.count;
    ok &= memcmp(h, live.handles, live.count * sizeof *h) == 0;
    for (size_t i = 0; i < live.count && ok; i++)
        ok &= memcmp(a + 4 * i, live.slices[i].at, unit[1]) == 0 &&
              memcmp(n + 6 * i, live.slices[i].numbers, unit[2]) == 0 && e[i] == live.slices[i].edition;
    for (int i = 0; i < 4; i++) {
        const char *first = start(room_lists[i]);
        ok &= all_zero(first + live.count * unit[i], (SHARE - live.count) * unit[i]);
        for (size_t k = SHARE * unit[i]; k < (SHARE + EXTRA) * unit[i]; k++)
            ok &= (unsigned char)first[k] == 0xa5;
    }
    return ok;
}

static int compact_right(void) { return call_compact().refusal == 0; }

/* ---- Drawn slices ---- */

static slice drawn_slice(void)
{
    slice x;
    x.at[0] = 1 + below(2);
    x.at[1] = below(2);
    x.at[2] = rarely(50) ? below(0) : below(1024);
    x.at[3] = rarely(50) ? below(0) : below(1025);
    for (int i = 0; i < 6; i++)
        x.numbers[i] = rarely(20) ? -0.0 : rarely(20) ? LIMIT : (double)below(4096) / 64 - 32;
    x.edition = rarely(4) ? (uint32_t)draw() : (uint32_t)below(4);
    return x;
}

static slice bad_slice(void)
{
    slice x = drawn_slice();
    const size_t codes[] = {2, 3, 4, HALF};
    switch (below(3)) {
    case 0:
        x.at[0] = rarely(2) ? 0 : codes[1 + below(3)];
        break;
    case 1:
        x.at[1] = codes[below(4)];
        break;
    default:
        x.numbers[below(6)] = bad_number();
        if (rarely(2))
            x.at[0] = 9; /* 3 comes first */
    }
    return x;
}

/* ---- What the store holds, byte for byte ---- */

static char *before[4];

static void remember(void)
{
    for (int i = 0; i < 4; i++)
        memcpy(before[i], start(store_lists[i]), store_lists[i]->bytes);
}

static int unchanged(void)
{
    for (int i = 0; i < 4; i++)
        if (memcmp(before[i], start(store_lists[i]), store_lists[i]->bytes) != 0)
            return 0;
    return 1;
}

static void empty(void)
{
    for (int i = 0; i < 4; i++)
        memset(start(store_lists[i]), 0, store_lists[i]->bytes);
    lives[0].count = lives[1].count = 0;
}

/* ---- The checks ---- */

static void first_steps(void)
{
    size_t h;
    slice x;
    int ok = 1;
    check(list_right(), "party %u: zeros are the empty store", who);
    for (size_t i = 0; i < 5; i++) {
        x = drawn_slice();
        ok &= put_right(&x, &h) && h == i;
    }
    check(ok && list_right(), "party %u: five slices get the handles 0 to 4", who);
    check(release_right(1) && release_right(3) && list_right(), "party %u: 1 and 3 are released", who);
    remember();
    check(release_right(3) && release_right(5) && release_right(SHARE) && release_right(HALF) && unchanged(),
          "party %u: a dead handle is 21, and nothing changes", who);
    x = drawn_slice();
    check(put_right(&x, &h) && h == 1 && list_right(), "party %u: the lowest handle is given again, last in the list", who);
    check(compact_right() && list_right(), "party %u: compaction changes neither list nor handles", who);
    check(memcmp((size_t *)start(&at) + 4 * SHARE * who, live.slices[0].at, sizeof live.slices[0].at) == 0 &&
              memcmp((double *)start(&numbers) + 6 * SHARE * who + 18, live.slices[3].numbers,
                     sizeof live.slices[3].numbers) == 0 &&
              all_zero((double *)start(&numbers) + 6 * SHARE * who + 24, (6 * SHARE - 24) * sizeof(double)),
          "party %u: the live slices stand at its first places, in the order put, and zeros behind them", who);
    x = drawn_slice();
    check(put_right(&x, &h) && h == 3 && list_right(), "party %u: and a put goes on as before", who);
}

static void fill_up(void)
{
    slice x;
    size_t h, n = 0;
    int ok = 1;
    while (live.count < SHARE && ok) {
        x = drawn_slice();
        ok &= put_right(&x, &h);
        n++;
    }
    check(ok && list_right(), "party %u: put until 896 are live", who);
    x = drawn_slice();
    remember();
    check(put_right(&x, &h) && unchanged(), "party %u: then 20, and nothing changes", who);
    x.at[0] = 0;
    check(put_right(&x, &h) && unchanged(), "party %u: 3 comes before 20", who);
    x.at[0] = 1;
    x.numbers[5] = NAN;
    check(put_right(&x, &h) && unchanged(), "party %u: 5 comes before 20", who);
    ok = release_right(700) && release_right(0) && release_right(SHARE - 1);
    for (int i = 0; i < 3; i++) {
        x = drawn_slice();
        ok &= put_right(&x, &h);
    }
    check(ok && live.count == SHARE && list_right(), "party %u: freed places are used again, without compaction", who);
    check(compact_right() && list_right(), "party %u: a full half is compacted", who);
    for (size_t i = 0; i < SHARE; i += 2)
        ok &= release_right(i);
    check(ok && list_right(), "party %u: every second slice is released", who);
}

static void lengths(void)
{
    slice x = drawn_slice();
    const long off[] = {-1, 1};
    int put = 1, release = 1, lists = 1, compact = 1, slices = 1, room = 1;
    remember();
    for (int i = 0; i < 4; i++)
        for (int k = 0; k < 2; k++) {
            size_t n[] = {PLACES, 4 * PLACES, 6 * PLACES, PLACES};
            n[i] += (size_t)off[k]; /* one too long is refused by its length: nothing is read */
            put &= mask_store_put(start(&held), n[0], start(&at), n[1], start(&numbers), n[2],
                                  start(&edition), n[3], 2, x.at, 4, x.numbers, 6, 0)
                       .refusal == 1;
            release &= mask_store_release(start(&held), n[0], start(&at), n[1], start(&numbers), n[2],
                                          start(&edition), n[3], 2, live.handles[0])
                           .refusal == 1;
            compact &= mask_store_compact(start(&held), n[0], start(&at), n[1], start(&numbers), n[2],
                                          start(&edition), n[3], 2)
                           .refusal == 1;
            lists &= mask_store_list(start(&held), n[0], start(&at), n[1], start(&numbers), n[2],
                                     start(&edition), n[3], 2, start(&handles), 0, start(&list_at), 0,
                                     start(&list), 0, start(&list_edition), 0)
                         .refusal == 1;
        }
    check(put && release && compact && lists && unchanged(), "lists of another length are 1, before all others, and nothing changes");
    x.at[0] = 0;
    slices &= mask_store_put(start(&held), PLACES, start(&at), 4 * PLACES, start(&numbers), 6 * PLACES,
                             start(&edition), PLACES, 2, x.at, 3, x.numbers, 6, 0)
                  .refusal == 1;
    slices &= mask_store_put(start(&held), PLACES, start(&at), 4 * PLACES, start(&numbers), 6 * PLACES,
                             start(&edition), PLACES, 2, x.at, 4, x.numbers, 5, 0)
                  .refusal == 1;
    slices &= mask_store_put(start(&held), PLACES, start(&at), 4 * PLACES, start(&numbers), 6 * PLACES,
                             start(&edition), PLACES, 2, NULL, 0, NULL, 0, 0)
                  .refusal == 1;
    check(slices && unchanged(), "a slice of other lengths is 1, before 3 and 22");
    for (int i = 0; i < 4; i++) {
        size_t n[] = {SHARE, 4 * SHARE, 6 * SHARE, SHARE};
        n[i]--;
        for (int k = 0; k < 4; k++)
            memset(start(room_lists[k]), 0xa5, room_lists[k]->bytes);
        mask_count_answer c = mask_store_list(start(&held), PLACES, start(&at), 4 * PLACES, start(&numbers),
                                              6 * PLACES, start(&edition), PLACES, 2, start(&handles), n[0],
                                              start(&list_at), n[1], start(&list), n[2], start(&list_edition), n[3]);
        room &= c.refusal == 9 && c.count == 0;
        for (int k = 0; k < 4; k++)
            for (size_t j = 0; j < room_lists[k]->bytes; j++)
                room &= ((unsigned char *)start(room_lists[k]))[j] == 0xa5;
    }
    check(room && unchanged(), "room for fewer than 896 slices is 9, before 22, and nothing is written");
}

/* What the party lists, whatever the lists hold, taken for its plain list: handles that differ. */
static int taken_as_listed(void)
{
    static unsigned char used[SHARE];
    mask_count_answer c = call_list();
    memset(used, 0, sizeof used);
    if (c.refusal != 0 || c.count > SHARE)
        return 0;
    live.count = c.count;
    for (size_t i = 0; i < c.count; i++) {
        size_t h = ((size_t *)start(&handles))[i];
        if (h >= SHARE || used[h]++)
            return 0;
        live.handles[i] = h;
        memcpy(live.slices[i].at, (size_t *)start(&list_at) + 4 * i, sizeof live.slices[i].at);
        memcpy(live.slices[i].numbers, (double *)start(&list) + 6 * i, sizeof live.slices[i].numbers);
        live.slices[i].edition = ((uint32_t *)start(&list_edition))[i];
    }
    return 1;
}

/* Whatever the lists hold at first, each half answers as a plain list does: as the one that it lists. */
static int anything(void)
{
    for (size_t i = 0; i < PLACES; i++) {
        size_t m = below(SHARE) * 2048 + below(SHARE) + 1;
        ((size_t *)start(&held))[i] = rarely(3) ? draw() : rarely(3) ? 0 : m;
        ((uint32_t *)start(&edition))[i] = (uint32_t)draw();
    }
    for (size_t i = 0; i < 4 * PLACES; i++)
        ((size_t *)start(&at))[i] = draw();
    for (size_t i = 0; i < 6 * PLACES; i++)
        ((uint64_t *)start(&numbers))[i] = draw();
    int ok = 1;
    for (who = 0; who < 2; who++)
        ok &= taken_as_listed();
    who = 0;
    return ok;
}

/* The half of the party that was not called is as it was. */
static int other_unchanged(void)
{
    for (int i = 0; i < 4; i++) {
        size_t half = store_lists[i]->bytes / 2, from = who ? 0 : half;
        if (memcmp(before[i] + from, (char *)start(store_lists[i]) + from, half) != 0)
            return 0;
    }
    return 1;
}

/* So many drawn calls; the list after some of them. */
static int history(unsigned calls, unsigned full, unsigned ours)
{
    int ok = 1;
    for (unsigned i = 0; i < calls && ok; i++) {
        size_t h;
        int watched = rarely(40);
        slice x = rarely(12) ? bad_slice() : drawn_slice();
        who = below(100) < ours ? 0 : 1;
        if (watched)
            remember();
        if (below(100) < full)
            ok &= put_right(&x, &h);
        else
            ok &= release_right(live.count && !rarely(10) ? live.handles[below(live.count)] : below(SHARE + 4));
        if (rarely(60))
            ok &= compact_right();
        if (watched)
            ok &= other_unchanged();
        if (rarely(25)) {
            who = (uint32_t)below(2);
            ok &= list_right();
        }
    }
    for (who = 0; who < 2; who++)
        ok &= list_right();
    who = 0;
    return ok;
}

/* Numbers 22, 20 and 21: an unknown party is 22 before the store is asked, and after what the call itself is refused by. */
static void unknown(void)
{
    const uint32_t parties[] = {2, 3, 0x80000000, 0xffffffff};
    slice x = drawn_slice(), bad = bad_slice();
    int ok = 1;
    remember();
    for (int i = 0; i < 4; i++) {
        who = parties[i];
        ok &= call_put(&x).refusal == 22 && call_put(&x).handle == 0;
        ok &= call_put(&bad).refusal == slice_refusal(&bad);
        ok &= call_release(0).refusal == 22 && call_release(HALF).refusal == 22;
        ok &= call_list().refusal == 22 && call_list().count == 0;
        ok &= call_compact().refusal == 22;
    }
    who = 0;
    check(ok && unchanged(), "an unknown party is 22, after 3 and 5 and before 20 and 21, and nothing changes");
}

/* One party full, the other not: each is answered by its own slices. */
static void apart(void)
{
    slice x = drawn_slice();
    size_t h;
    int ok = 1;
    who = 1;
    check(live.count < SHARE && put_right(&x, &h), "party 1 has room while party 0 is full");
    ok &= release_right(h);
    who = 0;
    while (live.count < SHARE)
        ok &= put_right(&x, &h);
    who = 1;
    while (live.count)
        ok &= release_right(live.handles[0]);
    remember();
    ok &= release_right(5) && unchanged();
    who = 0;
    check(ok && put_right(&x, &h) && list_right() && live.count == SHARE, "party 0 stays full while party 1 is emptied, and no handle of one is the other's");
    who = 1;
    check(list_right() && put_right(&x, &h) && h == 0, "party 1 begins at handle 0 again");
    remember();
    ok = compact_right() && other_unchanged();
    who = 0;
    check(ok && list_right(), "compaction by party 1 writes nothing in the half of party 0");
}

int main(void)
{
    watch("FAIL the library touched memory outside a list, or wrote one that it only reads\n");
    make(&held, PLACES * sizeof(size_t));
    make(&at, 4 * PLACES * sizeof(size_t));
    make(&numbers, 6 * PLACES * sizeof(double));
    make(&edition, PLACES * sizeof(uint32_t));
    make(&handles, (SHARE + EXTRA) * sizeof(size_t));
    make(&list_at, 4 * (SHARE + EXTRA) * sizeof(size_t));
    make(&list, 6 * (SHARE + EXTRA) * sizeof(double));
    make(&list_edition, (SHARE + EXTRA) * sizeof(uint32_t));
    for (int i = 0; i < 4; i++)
        before[i] = malloc(store_lists[i]->bytes);
    seed = 20260209;
    empty();
    for (who = 0; who < 2; who++) {
        first_steps();
        fill_up();
    }
    who = 0;
    lengths();
    unknown();
    for (slice x = drawn_slice(); live.count < SHARE;) {
        size_t h;
        if (!put_right(&x, &h))
            break;
    }
    unknown();
    apart();
    empty();
    check(history(8000, 55, 50), "8000 drawn calls of two parties from the empty store answer as two plain lists");
    empty();
    check(history(12000, 90, 70) && lives[0].count > SHARE / 2, "12000 drawn calls towards a full store do");
    int ok = 1;
    for (int i = 0; i < 20 && ok; i++)
        ok &= anything() && history(300, 50, 50);
    check(ok, "from any content of the lists, 20 histories do");
    return finish("store_test");
}
