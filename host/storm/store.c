/*
 * The store beside a plain list of each party, over long histories. The store's four lists
 * stay where they are from call to call, between pages that may not be touched, and a copy
 * of them stands aside: after each call every byte is compared that the call may not have
 * changed.
 */
#include "storm.h"

enum { PLACES = 1792, SHARE = 896, PARTS = 4 };

typedef struct kept {
    size_t handle, at[4];
    double numbers[6];
    uint32_t edition;
} kept;

static _Thread_local struct {
    kept slices[SHARE];
    size_t count;
} parties[2];

/* ---- The four lists ---- */

static const list_name STORE[PARTS] = {HELD, HELD_AT, HELD_SLICE, HELD_EDITION};
static const size_t WIDTH[PARTS] = {1, 4, 6, 1};
static _Thread_local unsigned char *now[PARTS]; /* where each lies: at the beginning or the end */
static _Thread_local bool made;

static size_t bytes_of(int part) { return L[STORE[part]].element * WIDTH[part] * PLACES; }

static void list_party(uint32_t party);

void begin_store(void)
{
    bool any = below(2);
    for (int i = 0; i < PARTS; i++) {
        list *l = L + STORE[i];
        now[i] = l->open + (below(2) ? l->size - bytes_of(i) : 0);
        memset(now[i], 0, bytes_of(i));
    }
    if (any) /* any content is some store */
        for (size_t k = 0; k < PLACES; k++)
            ((size_t *)now[0])[k] = below(3) == 0   ? (size_t)(draw() << below(12))
                                    : below(3) == 0 ? 0
                                                    : below(2000);
    for (int i = 0; i < PARTS; i++)
        memcpy(L[STORE[i]].own, now[i], bytes_of(i));
    parties[0].count = parties[1].count = 0;
    made = true;
    if (any) {
        list_party(0);
        list_party(1);
    }
}

/* The bytes of the other party are as before; those of this one too where nothing may change. */
static void unchanged(uint32_t party, bool whole)
{
    for (int i = 0; i < PARTS; i++) {
        size_t half = bytes_of(i) / 2;
        const unsigned char *own = L[STORE[i]].own;
        if (whole ? memcmp(now[i], own, 2 * half) != 0
                  : memcmp(now[i] + (1 - party) * half, own + (1 - party) * half, half) != 0)
            differs("the store: a byte changed that may not");
    }
}

static void keep_copy(uint32_t party)
{
    for (int i = 0; i < PARTS; i++) {
        size_t half = bytes_of(i) / 2;
        memcpy((unsigned char *)L[STORE[i]].own + party * half, now[i] + party * half, half);
    }
}

/* One list in a while has another length, which is 1. */
static bool draw_lengths(size_t len[PARTS])
{
    int wrong = rarely(32) ? (int)below(PARTS) : PARTS;
    for (int i = 0; i < PARTS; i++)
        len[i] = WIDTH[i] * PLACES;
    if (wrong < PARTS)
        len[wrong] -= 1 + below(5); /* never more than there is */
    return wrong == PARTS;
}

#define STORED (void *)now[0], len[0], (void *)now[1], len[1], (void *)now[2], len[2], (void *)now[3], len[3]

static uint32_t draw_party(void) { return rarely(32) ? (uint32_t)draw() | 2 : (uint32_t)below(2); }

/* ---- Put: refusals 1 3 5 22 20 ---- */

static size_t lowest_free(uint32_t party)
{
    bool used[SHARE + 1] = {false};
    size_t handle = 0;
    for (size_t i = 0; i < parties[party].count; i++)
        if (parties[party].slices[i].handle <= SHARE)
            used[parties[party].slices[i].handle] = true;
    while (used[handle])
        handle++;
    return handle;
}

void storm_put(void)
{
    size_t len[PARTS];
    uint32_t party = draw_party(), of = edition();
    bool lengths;
    begin_call("mask_store_put");
    if (!made || rarely(3000))
        begin_store();
    lengths = draw_lengths(len);
    size_t codes[4] = {1 + below(2), below(2), below(2) ? below(1024) : (size_t)draw(), below(9)};
    memcpy(U(PUT_AT), codes, sizeof codes);
    for (int i = 0; i < 6; i++)
        F(PUT)[i] = coordinate();
    LEN(PUT_AT) = 4;
    LEN(PUT) = 6;
    knob_list(PUT_AT, 4);
    knob_list(PUT, 6);
    if (rarely(8)) /* most histories go on; knobs that are left over touch these two lists alone */
        spoil();
    mask_handle_answer a = mask_store_put(STORED, party, READ(PUT_AT), READ(PUT), of);
    say(a.refusal);
    say(a.handle);
    uint32_t refusal = !lengths || LEN(PUT_AT) != 4 || LEN(PUT) != 6 ? 1
                       : (U(PUT_AT)[0] != 1 && U(PUT_AT)[0] != 2) || U(PUT_AT)[1] > 1 ? 3
                       : !all_in_range(F(PUT), 6)                                   ? 5
                       : party > 1                                                  ? 22
                       : parties[party].count == SHARE                              ? 20
                                                                                    : 0;
    size_t handle = refusal == 0 ? lowest_free(party) : 0;
    expect(refusal);
    expect(handle);
    unchanged(party & 1, refusal != 0);
    if (refusal == 0) {
        kept *k = parties[party].slices + parties[party].count++;
        k->handle = handle;
        memcpy(k->at, U(PUT_AT), sizeof k->at);
        memcpy(k->numbers, F(PUT), sizeof k->numbers);
        k->edition = of;
        keep_copy(party);
    }
    settle();
}

/* ---- Release: refusals 1 22 21 ---- */

void storm_release(void)
{
    size_t len[PARTS], handle, at;
    uint32_t party = draw_party();
    begin_call("mask_store_release");
    if (!made)
        begin_store();
    bool lengths = draw_lengths(len);
    size_t count = parties[party & 1].count;
    handle = count > 0 && below(6) ? parties[party & 1].slices[below(count)].handle
             : below(3)            ? below(900)
                                   : (size_t)draw() << below(12);
    mask_done_answer a = mask_store_release(STORED, party, handle);
    say(a.refusal);
    uint32_t refusal = !lengths ? 1 : party > 1 ? 22 : 0;
    for (at = 0; at < count && parties[party & 1].slices[at].handle != handle; at++)
        ;
    if (refusal == 0 && at == count)
        refusal = 21;
    expect(refusal);
    unchanged(party & 1, refusal != 0);
    if (refusal == 0) {
        kept *slices = parties[party].slices;
        memmove(slices + at, slices + at + 1, (count - at - 1) * sizeof *slices);
        parties[party].count--;
        keep_copy(party);
    }
    settle();
}

/* ---- List: refusals 1 9 22; no byte of the store changes ---- */

static void expect_slices(uint32_t party)
{
    for (size_t i = 0; i < parties[party].count; i++) {
        const kept *k = parties[party].slices + i;
        WANT_U(HANDLES)[i] = k->handle;
        memcpy(WANT_U(LIST_AT) + 4 * i, k->at, sizeof k->at);
        memcpy(WANT_F(LIST) + 6 * i, k->numbers, sizeof k->numbers);
        WANT_E(LIST_EDITION)[i] = k->edition;
    }
    zero_want(HANDLES, parties[party].count, SHARE);
    zero_want(LIST_AT, 4 * parties[party].count, 4 * SHARE);
    zero_want(LIST, 6 * parties[party].count, 6 * SHARE);
    zero_want(LIST_EDITION, parties[party].count, SHARE);
}

void storm_list(void)
{
    size_t len[PARTS];
    uint32_t party = draw_party();
    begin_call("mask_store_list");
    if (!made)
        begin_store();
    bool lengths = draw_lengths(len);
    LEN(HANDLES) = SHARE + (rarely(20) ? below(3) - 1 : 0);
    LEN(LIST_AT) = 4 * SHARE + (rarely(20) ? below(3) - 1 : 0);
    LEN(LIST) = 6 * SHARE + (rarely(20) ? below(3) - 1 : 0);
    LEN(LIST_EDITION) = SHARE + (rarely(20) ? below(3) - 1 : 0);
    mask_count_answer a = mask_store_list(STORED, party, WRITE(HANDLES), WRITE(LIST_AT), WRITE(LIST),
                                          WRITE(LIST_EDITION));
    say(a.refusal);
    say(a.count);
    uint32_t refusal = !lengths ? 1
                       : LEN(HANDLES) < SHARE || LEN(LIST_AT) < 4 * SHARE || LEN(LIST) < 6 * SHARE ||
                               LEN(LIST_EDITION) < SHARE
                           ? 9
                       : party > 1 ? 22
                                   : 0;
    expect(refusal);
    expect(refusal == 0 ? parties[party].count : 0);
    if (refusal == 0)
        expect_slices(party);
    unchanged(party & 1, true);
    settle();
}

/* A store of any content: what it lists is where the plain list begins. */
static void list_party(uint32_t party)
{
    static _Thread_local size_t handles[SHARE], at[4 * SHARE];
    static _Thread_local double numbers[6 * SHARE];
    static _Thread_local uint32_t editions[SHARE];
    size_t len[PARTS] = {PLACES, 4 * PLACES, 6 * PLACES, PLACES};
    mask_count_answer a = mask_store_list(STORED, party, handles, SHARE, at, 4 * SHARE, numbers,
                                          6 * SHARE, editions, SHARE);
    if (a.refusal != 0 || a.count > SHARE)
        differs("the store: some content is refused");
    for (size_t i = 0; i < a.count; i++) {
        kept *k = parties[party].slices + i;
        k->handle = handles[i];
        memcpy(k->at, at + 4 * i, sizeof k->at);
        memcpy(k->numbers, numbers + 6 * i, sizeof k->numbers);
        k->edition = editions[i];
        for (size_t j = 0; j < i; j++)
            if (handles[j] == handles[i])
                differs("the store: two live slices have one handle");
    }
    parties[party].count = a.count;
}

/* ---- Compact: refusals 1 22 ---- */

/* "the live slices stand at the first places, in the order put", and 0 behind them */
static void stand_in_order(uint32_t party)
{
    static const unsigned char zeros[48 * SHARE];
    size_t count = parties[party].count;
    for (size_t i = 0; i < count; i++) {
        const kept *k = parties[party].slices + i;
        size_t place = party * SHARE + i;
        if (memcmp(now[1] + 32 * place, k->at, 32) != 0 ||
            memcmp(now[2] + 48 * place, k->numbers, 48) != 0 ||
            memcmp(now[3] + 4 * place, &k->edition, 4) != 0)
            differs("the store: compaction left a slice at another place");
    }
    for (int i = 0; i < PARTS; i++) {
        size_t item = bytes_of(i) / PLACES, behind = item * (SHARE - count);
        if (behind > 0 && memcmp(now[i] + item * (party * SHARE + count), zeros, behind) != 0)
            differs("the store: compaction left something behind");
    }
}

void storm_compact(void)
{
    size_t len[PARTS];
    uint32_t party = draw_party();
    begin_call("mask_store_compact");
    if (!made)
        begin_store();
    bool lengths = draw_lengths(len);
    mask_done_answer a = mask_store_compact(STORED, party);
    say(a.refusal);
    uint32_t refusal = !lengths ? 1 : party > 1 ? 22 : 0;
    expect(refusal);
    unchanged(party & 1, refusal != 0);
    if (refusal == 0) {
        stand_in_order(party);
        keep_copy(party);
    }
    settle();
}
