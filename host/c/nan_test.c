/*
 * The bits of NaNs in lent room. The language that the entries are proved in has one
 * NaN, without payload, so what is proved of room that is not written says nothing of a
 * NaN's bits (docs/CONTRACTS.md). Here every room of the entries in ENTRIES holds NaNs,
 * quiet and signalling, of several payloads, and is compared as bits: beyond the need
 * after an accepted call, all of it after a refused one. NaNs among the numbers handed in
 * are refused, and leave the room as it was too. Rooms of editions hold bits of their own,
 * and are compared in the same way. Elsewhere: the rooms of mask_candidates_along in
 * cuts_test.c, the room of a replay in record_test.c, the room of the store's list in
 * host/storm.
 *
 * One line for each check; the status is 0 where none failed. How lists are lent, and
 * what they hold before a call, stands in testing.h.
 */
#include "testing.h"

/* ---- The calls, of the two squares; each list with room of the need and BEYOND_NEED more ---- */

enum { BEYOND_NEED = 11 };

enum {
    OUTLINE1,
    OUTLINE2,
    HIT_AT,
    HIT,
    LAP_AT,
    LAP,
    SPLITS,
    CAND_AT1,
    CAND1,
    INSIDE1,
    CAND_AT2,
    CAND2,
    INSIDE2,
    SLICE_AT,
    SLICE,
    AREAS,
    CAND_EDITION1,
    CAND_EDITION2,
    LAP_EDITION,
    SLICE_EDITION,
    FIRST_ROOM, /* from here on written */
    VERTICES = FIRST_ROOM,
    CUT_AT,
    CUT,
    CAND_AT,
    CAND,
    PROBE,
    CAND_EDITION,
    NEW_SLICE_AT,
    NEW_SLICE,
    NEW_SLICE_EDITION,
    ROOM,
    ENDS,
    CHAIN,
    CHAIN_ENDS,
    CHAIN_HOW,
    KEPT,
    STRAIGHT_AT,
    STRAIGHT,
    STRAIGHT_EDITION,
    LISTS
};

static struct {
    double outline1[12], outline2[12];
    size_t hit_at[4];
    double hit[4];
    size_t lap_at[7];
    double lap[6], splits[36];
    size_t cand_at1[4];
    double cand1[12];
    uint8_t inside1[2];
    size_t cand_at2[4];
    double cand2[12];
    uint8_t inside2[2];
    size_t slice_at[8];
    double slice[12], areas[3];
    mask_view view;
    size_t vc1, vc2, pline2;
    uint32_t source, mode, selector;
    uint32_t edition, cand_edition1[2], cand_edition2[2], lap_edition[1], slice_edition[2];
    double tolerance_x, tolerance_y, limit;
    size_t entered;
    size_t len[LISTS], need[LISTS];
} c;

/* Accepted by all: two crossings, and an overlap on A's first segment whose start is marked. */
static void begin(void)
{
    static const size_t hit_at[] = {1, 0, 2, 3}, lap_at[] = {0, 0, 0, 0, 0, 0, 0};
    static const double hit[] = {4, 2, 2, 4}, lap[] = {1, 0, 0, 0, 3, 0};
    static const size_t at1[] = {1, 1, 2, 3}, at2[] = {0, 3, 3, 1};
    static const double cand1[] = {4, 2, 0, 0, 2, 4, 2, 4, 0, 0, 4, 2};
    static const double cand2[] = {4, 2, 0, 0, 2, 4, 2, 4, 0, 0, 4, 2};
    static const size_t slice_at[] = {1, 0, 2, 3, 2, 0, 0, 3};
    static const double slice[] = {2, 4, 0, 0, 4, 2, 4, 2, 0, 0, 2, 4};
    static const double areas[] = {20, -1, -3};
    static const size_t lengths[LISTS] = {
        [OUTLINE1] = 12, [OUTLINE2] = 12, [HIT_AT] = 4, [HIT] = 4,     [LAP_AT] = 7,   [LAP] = 6,
        [SPLITS] = 36,   [CAND_AT1] = 4,  [CAND1] = 12, [INSIDE1] = 2, [CAND_AT2] = 4, [CAND2] = 12,
        [INSIDE2] = 2,   [SLICE_AT] = 8,  [SLICE] = 12, [AREAS] = 3,
        [CAND_EDITION1] = 2, [CAND_EDITION2] = 2, [LAP_EDITION] = 1, [SLICE_EDITION] = 2};
    static const size_t needs[LISTS] = {
        [VERTICES] = 15, [CUT_AT] = 12,       [CUT] = 8,        [CAND_AT] = 8, [CAND] = 24,
        [PROBE] = 24,    [NEW_SLICE_AT] = 24, [NEW_SLICE] = 36, [ROOM] = 27,   [ENDS] = 2,
        [CHAIN] = 2,     [CHAIN_ENDS] = 2,    [CHAIN_HOW] = 2,  [KEPT] = 3,
        [CAND_EDITION] = 4, [NEW_SLICE_EDITION] = 6, [STRAIGHT_AT] = 40, [STRAIGHT] = 60,
        [STRAIGHT_EDITION] = 10};
    memset(&c, 0, sizeof c);
    memcpy(c.outline1, A, sizeof A);
    memcpy(c.outline2, B, sizeof B);
    memcpy(c.hit_at, hit_at, sizeof hit_at);
    memcpy(c.hit, hit, sizeof hit);
    memcpy(c.lap_at, lap_at, sizeof lap_at);
    memcpy(c.lap, lap, sizeof lap);
    memcpy(c.cand_at1, at1, sizeof at1);
    memcpy(c.cand1, cand1, sizeof cand1);
    memcpy(c.cand_at2, at2, sizeof at2);
    memcpy(c.cand2, cand2, sizeof cand2);
    c.inside1[0] = c.inside2[1] = 1;
    memcpy(c.slice_at, slice_at, sizeof slice_at);
    memcpy(c.slice, slice, sizeof slice);
    memcpy(c.areas, areas, sizeof areas);
    c.view = (mask_view){2, 3, {2, 4, 0}, 0, {4, 2}, 1};
    c.vc1 = c.vc2 = 4;
    c.pline2 = 1;
    c.source = 1;
    c.tolerance_x = c.tolerance_y = T;
    c.limit = 2;
    c.entered = 2;
    memcpy(c.len, lengths, sizeof lengths);
    memcpy(c.need, needs, sizeof needs);
    for (int i = FIRST_ROOM; i < LISTS; i++)
        c.len[i] = c.need[i] + BEYOND_NEED;
}

#define READ(list, field) lend(list, c.field, c.len[list]), c.len[list]
#define READ_BYTES(list, field) lend_bytes(list, c.field, c.len[list]), c.len[list]
#define READ_EDITIONS(list, field) lend_editions(list, c.field, c.len[list]), c.len[list]
#define WRITTEN(list) lend_room(list, c.len[list]), c.len[list]
#define WRITTEN_EDITIONS(list) lend_edition_room(list, c.len[list]), c.len[list]

static uint32_t view_vertices(void)
{
    return mask_view_vertices(READ(OUTLINE1, outline1), c.vc1, c.view, WRITTEN(VERTICES)).refusal;
}

static uint32_t cut_order(void)
{
    return mask_cut_order(READ(OUTLINE1, outline1), c.vc1, c.source, READ(HIT_AT, hit_at),
                          READ(HIT, hit), 2, READ(LAP_AT, lap_at), READ(LAP, lap), 1,
                          c.tolerance_x, c.tolerance_y, WRITTEN(CUT_AT), WRITTEN(CUT))
        .refusal;
}

static uint32_t candidates(void)
{
    return mask_candidates(READ(OUTLINE1, outline1), c.vc1, c.edition, c.source,
                           READ(HIT_AT, hit_at), READ(HIT, hit), 2, READ(LAP_AT, lap_at),
                           READ(LAP, lap), 1, READ(SPLITS, splits), c.tolerance_x, c.tolerance_y,
                           WRITTEN(CAND_AT), WRITTEN(CAND), WRITTEN(PROBE),
                           WRITTEN_EDITIONS(CAND_EDITION))
        .refusal;
}

static uint32_t prune(void)
{
    return mask_prune(c.mode, 0, c.vc1, c.vc2, READ(CAND_AT1, cand_at1), READ(CAND1, cand1),
                      READ_EDITIONS(CAND_EDITION1, cand_edition1), READ_BYTES(INSIDE1, inside1), 2,
                      READ(CAND_AT2, cand_at2), READ(CAND2, cand2),
                      READ_EDITIONS(CAND_EDITION2, cand_edition2), READ_BYTES(INSIDE2, inside2), 2,
                      READ(LAP_AT, lap_at), READ(LAP, lap), READ_EDITIONS(LAP_EDITION, lap_edition),
                      1, WRITTEN(NEW_SLICE_AT), WRITTEN(NEW_SLICE),
                      WRITTEN_EDITIONS(NEW_SLICE_EDITION))
        .refusal;
}

static uint32_t straight_slices(void)
{
    return mask_straight_slices(
               c.mode, 0, READ(OUTLINE1, outline1), c.vc1, c.edition, READ(OUTLINE2, outline2), c.vc2,
               c.edition, READ(HIT_AT, hit_at), READ(HIT, hit), 2, READ(LAP_AT, lap_at),
               READ(LAP, lap), READ_EDITIONS(LAP_EDITION, lap_edition), 1, c.tolerance_x,
               c.tolerance_y, WRITTEN(STRAIGHT_AT), WRITTEN(STRAIGHT),
               WRITTEN_EDITIONS(STRAIGHT_EDITION))
        .refusal;
}

/* A record whose second setting has these numbers. All others are NaN: nothing looks at them. */
static const double *setting(double x, double y, double limit)
{
    static double settings[48];
    for (int i = 0; i < 48; i++)
        settings[i] = NAN;
    settings[3] = x;
    settings[4] = y;
    settings[5] = limit;
    return settings;
}

static uint32_t stitch(void)
{
    return mask_stitch(READ(OUTLINE1, outline1), c.vc1, c.edition, READ(OUTLINE2, outline2), c.vc2,
                       c.edition, READ(SLICE_AT, slice_at), READ(SLICE, slice),
                       READ_EDITIONS(SLICE_EDITION, slice_edition), 2, c.pline2, 2, 2, c.selector,
                       &c.entered, 1, setting(c.tolerance_x, c.tolerance_y, NAN), 48, 2,
                       WRITTEN(ROOM), WRITTEN(ENDS), WRITTEN(CHAIN), WRITTEN(CHAIN_ENDS),
                       WRITTEN(CHAIN_HOW))
        .refusal;
}

static uint32_t area_pass(void)
{
    return mask_area_pass(READ(AREAS, areas), 3, &c.entered, 1, setting(NAN, NAN, c.limit), 48, 2,
                          WRITTEN(KEPT))
        .refusal;
}

/* Of each entry: its rooms from one list to another, and the numbers that it is handed. */
static const struct {
    const char *name;
    uint32_t (*call)(void);
    int first, last;
    uint32_t numbers; /* a bit for each list of f64 that it reads */
} ENTRIES[] = {
    {"mask_view_vertices", view_vertices, VERTICES, VERTICES, 1u << OUTLINE1},
    {"mask_cut_order", cut_order, CUT_AT, CUT, 1u << OUTLINE1 | 1u << HIT | 1u << LAP},
    {"mask_candidates", candidates, CAND_AT, CAND_EDITION,
     1u << OUTLINE1 | 1u << HIT | 1u << LAP | 1u << SPLITS},
    {"mask_prune", prune, NEW_SLICE_AT, NEW_SLICE_EDITION, 1u << CAND1 | 1u << CAND2 | 1u << LAP},
    {"mask_stitch", stitch, ROOM, CHAIN_HOW, 1u << OUTLINE1 | 1u << OUTLINE2 | 1u << SLICE},
    {"mask_area_pass", area_pass, KEPT, KEPT, 1u << AREAS},
    {"mask_straight_slices", straight_slices, STRAIGHT_AT, STRAIGHT_EDITION,
     1u << OUTLINE1 | 1u << OUTLINE2 | 1u << HIT | 1u << LAP},
};
enum { ENTRY_COUNT = sizeof ENTRIES / sizeof *ENTRIES };

/* ---- What is compared, as bits ---- */

/* Whether place i of a room, counted from BEFORE places before it on, holds what it held. */
static int holds(int list, size_t i)
{
    const uint64_t held = guard_word(i);
    if (list == CAND_EDITION || list == NEW_SLICE_EDITION || list == STRAIGHT_EDITION)
        return left_editions(list, c.len[list] + BEFORE)[i] == guard_edition(i);
    return memcmp((const uint64_t *)lent[list].end - c.len[list] - BEFORE + i, &held, 8) == 0;
}

/* The places from `from` on, those before the list too where it is 0, hold what they held. */
static int untouched(int list, size_t from)
{
    for (size_t i = from == 0 ? 0 : BEFORE + from; i < BEFORE + c.len[list]; i++)
        if (!holds(list, i))
            return 0;
    return 1;
}

/* So do the places before the list, and none up to the need does. */
static int written(int list)
{
    for (size_t i = 0; i < BEFORE + c.need[list]; i++)
        if (holds(list, i) != (i < BEFORE))
            return 0;
    return 1;
}

static int all_untouched(int e)
{
    for (int list = ENTRIES[e].first; list <= ENTRIES[e].last; list++)
        if (!untouched(list, 0))
            return 0;
    return 1;
}

/* Accepted: written up to the need whatever stood there, and not beyond. */
static int accepted(int e)
{
    begin();
    if (ENTRIES[e].call() != MASK_ACCEPTED)
        return 0;
    for (int list = ENTRIES[e].first; list <= ENTRIES[e].last; list++)
        if (!written(list) || !untouched(list, c.need[list]))
            return 0;
    return 1;
}

/* ---- Refused calls ---- */

static int is_refused(int e, uint32_t number)
{
    return ENTRIES[e].call() == number && all_untouched(e);
}

/* Whether it is handed a tolerance, or a limit. */
static int has_tolerance(int e)
{
    return ENTRIES[e].call != prune && ENTRIES[e].call != view_vertices;
}

/* Each number that the entry gives, by one fault; 0 where it does not give this one. */
static int spoil(int e, uint32_t number)
{
    begin();
    switch (number) {
    case 1:
        c.len[OUTLINE1] = c.len[CAND1] = 11;
        c.len[AREAS] = 2;
        return 1;
    case 2:
        c.vc1 = c.len[OUTLINE1] = 0;
        return ENTRIES[e].call != area_pass;
    case 3:
        c.source = 3;
        c.view.inverted_direction = 2;
        c.mode = 4;
        c.selector = 2;
        return ENTRIES[e].call != area_pass;
    case 4:
        c.tolerance_y = 0;
        c.limit = -1;
        return has_tolerance(e);
    case 6:
        c.hit_at[0] = c.cand_at1[0] = c.slice_at[2] = c.view.start_index = 4;
        return ENTRIES[e].call != area_pass;
    case 7:
        c.cand_at1[1] = c.slice_at[3] = c.view.end_index_offset = c.lap_at[6] = 5;
        return ENTRIES[e].call == prune || ENTRIES[e].call == stitch ||
               ENTRIES[e].call == view_vertices || ENTRIES[e].call == straight_slices;
    case 8:
        c.pline2 = 3;
        return ENTRIES[e].call == stitch;
    case 14:
        c.slice_edition[1] = 1;
        return ENTRIES[e].call == stitch;
    case 16:
        c.entered = 1;
        return ENTRIES[e].call == stitch || ENTRIES[e].call == area_pass;
    case 18:
        c.hit[0] = 0.5;
        return ENTRIES[e].call == straight_slices;
    default:
        return 0;
    }
}

static int faults(int e)
{
    int tried = 0;
    for (uint32_t number = 1; number <= 18; number++)
        if (spoil(e, number)) {
            if (!is_refused(e, number))
                return 0;
            tried++;
        }
    return tried >= 2;
}

/* 9: each room one element short, in turn. */
static int short_rooms(int e)
{
    for (int list = ENTRIES[e].first; list <= ENTRIES[e].last; list++) {
        begin();
        c.len[list] = c.need[list] - 1;
        if (!is_refused(e, MASK_REFUSED_ROOM))
            return 0;
    }
    return 1;
}

static double *numbers_of(int list)
{
    switch (list) {
    case OUTLINE1:
        return c.outline1;
    case OUTLINE2:
        return c.outline2;
    case HIT:
        return c.hit;
    case LAP:
        return c.lap;
    case SPLITS:
        return c.splits;
    case CAND1:
        return c.cand1;
    case CAND2:
        return c.cand2;
    case SLICE:
        return c.slice;
    default:
        return c.areas;
    }
}

/* A NaN among the numbers handed in is 5, at the first and at the last place of each list; as
 * either tolerance or the limit it is 4. */
static int handed_in(int e, uint64_t bits)
{
    for (int list = 0; list < FIRST_ROOM; list++) {
        if (!(ENTRIES[e].numbers >> list & 1))
            continue;
        for (int last = 0; last < 2; last++) {
            begin();
            memcpy(numbers_of(list) + (last ? c.len[list] - 1 : 0), &bits, sizeof bits);
            if (!is_refused(e, MASK_REFUSED_NUMBER))
                return 0;
        }
    }
    for (int i = 0; ENTRIES[e].call == view_vertices && i < 2; i++) {
        begin();
        memcpy(i ? &c.view.end_point.y : &c.view.updated_start.bulge, &bits, sizeof bits);
        if (!is_refused(e, MASK_REFUSED_NUMBER))
            return 0;
    }
    if (!has_tolerance(e))
        return 1;
    for (int i = 0; i < 2; i++) {
        begin();
        memcpy(i ? &c.tolerance_y : &c.tolerance_x, &bits, sizeof bits);
        memcpy(&c.limit, &bits, sizeof bits);
        if (!is_refused(e, MASK_REFUSED_TOLERANCE))
            return 0;
    }
    return 1;
}

int main(void)
{
    for (int i = 0; i < LISTS; i++)
        make_list(i, 64);
    watch("FAIL an entry wrote to a list lent to be read, or left a list\n");
    for (int e = 0; e < ENTRY_COUNT; e++)
        for (only_nan = -1; only_nan < NAN_COUNT; only_nan++) {
            const char *name = ENTRIES[e].name;
            char held[64] = "NaNs of all kinds";
            uint64_t bits = NANS[only_nan < 0 ? 0 : only_nan];
            if (only_nan >= 0)
                snprintf(held, sizeof held, "%s NaNs from %016llx on",
                         bits >> 51 & 1 ? "quiet" : "signalling", (unsigned long long)bits);
            check(accepted(e), "%s, room of %s: accepted, all beyond the need stays, bit for bit",
                  name, held);
            check(faults(e), "%s, room of %s: refused by each number, all of it stays", name, held);
            check(short_rooms(e), "%s, room of %s: one element short, all of it stays", name, held);
            check(handed_in(e, bits + 1), "%s, room of %s: a NaN handed in, all of it stays", name,
                  held);
        }
    return finish("nan_test");
}
