/*
 * Calls mask_prune, mask_stitch and mask_area_pass as a host does, and compares every
 * answer and every list lent, bit for bit and to its last element, with what documents
 * 01 and 02 say. One line for each check; the status is 0 where none failed.
 *
 * The reference below is written from these documents and from nothing else. It needs
 * -ffp-contract=off: each sum is rounded once.
 *
 * How lists are lent, and what they hold before a call, stands in testing.h.
 */
#include "testing.h"

AT(mask_stitch_answer, refusal, 0);
AT(mask_stitch_answer, rounds, 8);
AT(mask_stitch_answer, loops, 16);
AT(mask_stitch_answer, chains, 24);
SIZE(mask_stitch_answer, 32);
AT(mask_starts, pline2, 0);
AT(mask_starts, pline1_overlapping, 8);
AT(mask_starts, pline2_overlapping, 16);
SIZE(mask_starts, 24);
AT(mask_count_answer, count, 8);
SIZE(mask_count_answer, 16);
AT(mask_prune_answer, refusal, 0);
AT(mask_prune_answer, slices, 8);
AT(mask_prune_answer, starts, 16);
SIZE(mask_prune_answer, 40);

/* ---- Sizes of document 01, and one more of each for the refusals ---- */

enum {
    MOST_CANDIDATES = 768,
    MOST_SLICES = 1792,
    VERTICES = MOST_VERTICES + 2,
    CANDIDATES = MOST_CANDIDATES + 2,
    LAPS = MOST_LAPS + 2,
    SLICES = MOST_SLICES + 2,
    ROOM = 3 * (1 + MOST_SLICES * (MOST_VERTICES + 1)) /* the greatest need */
};

/* ---- Drawn numbers: another generator than that of the other tests ---- */

static uint64_t draw64(void)
{
    seed ^= seed << 13;
    seed ^= seed >> 7;
    seed ^= seed << 17;
    return seed * 0x2545f4914f6cdd1d;
}

static size_t pick(size_t n) { return (size_t)((draw64() >> 33) % n); }

/* ---- Memory lent ---- */

enum {
    OUTLINE1,
    OUTLINE2,
    SLICE_AT,
    SLICE,
    AREAS,
    CAND_AT1,
    CAND1,
    INSIDE1,
    CAND_AT2,
    CAND2,
    INSIDE2,
    LAP_AT,
    LAP,
    SLICE_EDITION,
    CAND_EDITION1,
    CAND_EDITION2,
    LAP_EDITION,
    ENTERED,
    SETTINGS, /* read */
    VERTEX_ROOM,
    ENDS,
    CHAIN,
    CHAIN_ENDS,
    CHAIN_HOW,
    KEPT,
    NEW_SLICE_AT,
    NEW_SLICE,
    NEW_SLICE_EDITION, /* written */
    LISTS
};

static void make_room(void)
{
    for (int i = 0; i < LISTS; i++)
        make_list(i, i == VERTEX_ROOM ? ROOM : 6 * (SLICES + LAPS));
    watch("FAIL an entry wrote to a list lent to be read, or left a list\n");
}

/* ---- The record of settings, of which a call names one ---- */

enum { MOST_SETTINGS = 16, RECORD = 3 * MOST_SETTINGS };

typedef struct named {
    size_t entered, entered_len, settings_len, setting;
} named;

/* A setting among others. */
static const named SECOND = {3, 1, RECORD, 2};

/* "16 edition unknown": editions count from 1, and a count above 16 reads as 16 */
static int known(const named *n)
{
    return n->setting >= 1 && n->setting <= n->entered && n->setting <= MOST_SETTINGS;
}

/* The record's numbers, with these in the place of the setting that is named. All others are NaN:
   nothing looks at them. */
static const void *lend_settings(const named *n, double x, double y, double limit)
{
    const double these[] = {x, y, limit};
    double numbers[RECORD + 1];
    for (int i = 0; i <= RECORD; i++)
        numbers[i] = NAN;
    if (n->setting >= 1 && n->setting <= MOST_SETTINGS)
        memcpy(numbers + 3 * (n->setting - 1), these, sizeof these);
    return lend(SETTINGS, numbers, n->settings_len);
}

static const void *lend_entered(const named *n)
{
    const size_t entered[] = {n->entered, n->entered};
    return lend(ENTERED, entered, n->entered_len);
}

/* ---- A stitch: what the host has, and how much room it lends ---- */

typedef struct call {
    double outline[2][3 * VERTICES];
    size_t slice_at[4 * SLICES];
    double slice[6 * SLICES];
    uint32_t slice_edition[SLICES];
    size_t outline_len[2], slice_at_len, slice_len, slice_edition_len;
    size_t vc[2], slices;
    uint32_t edition[2];
    mask_starts starts;
    uint32_t selector;
    named named;
    axes tolerance;
    size_t room_len, ends_len, chain_len, chain_ends_len, chain_how_len;
} call;

static call c; /* the call that is being made ready */

static void begin(const double *outline1, size_t vc1, const double *outline2, size_t vc2,
                  uint32_t selector, double tolerance)
{
    memcpy(c.outline[0], outline1, 3 * vc1 * sizeof *outline1);
    memcpy(c.outline[1], outline2, 3 * vc2 * sizeof *outline2);
    c.vc[0] = vc1;
    c.vc[1] = vc2;
    c.edition[0] = 0;
    c.edition[1] = UINT32_MAX;
    c.slices = 0;
    c.selector = selector;
    c.tolerance = both(tolerance);
}

/* A slice: its start with a bulge, the end bulge, its end. It is of its outline's edition. */
static void add(size_t source, size_t inverted, size_t start, size_t offset, double x, double y,
                double bulge, double end_bulge, double end_x, double end_y)
{
    const size_t at[] = {source, inverted, start, offset};
    const double numbers[] = {x, y, bulge, end_bulge, end_x, end_y};
    memcpy(c.slice_at + 4 * c.slices, at, sizeof at);
    memcpy(c.slice + 6 * c.slices, numbers, sizeof numbers);
    c.slice_edition[c.slices++] = c.edition[source == 1 ? 0 : 1];
}

static void classes(size_t pline2, size_t pline1_overlapping, size_t pline2_overlapping)
{
    c.starts = (mask_starts){pline2, pline1_overlapping, pline2_overlapping};
}

/* "one vertex more than the sum of (offset + 1)", and none where there are no slices. */
static size_t vertices_needed(void)
{
    size_t need = c.slices != 0;
    for (size_t i = 0; i < c.slices; i++)
        need += c.slice_at[4 * i + 3] + 1;
    return need;
}

/* The lengths that the counts ask for; the room is the need and so much beyond it. */
static void measure(size_t beyond)
{
    c.outline_len[0] = 3 * c.vc[0];
    c.outline_len[1] = 3 * c.vc[1];
    c.slice_at_len = 4 * c.slices;
    c.slice_len = 6 * c.slices;
    c.slice_edition_len = c.slices;
    c.named = SECOND;
    c.room_len = 3 * vertices_needed() + beyond;
    c.ends_len = c.chain_len = c.chain_ends_len = c.chain_how_len = c.slices + beyond;
}

static mask_stitch_answer stitch(void)
{
    return mask_stitch(lend(OUTLINE1, c.outline[0], c.outline_len[0]), c.outline_len[0], c.vc[0],
                       c.edition[0], lend(OUTLINE2, c.outline[1], c.outline_len[1]),
                       c.outline_len[1], c.vc[1], c.edition[1],
                       lend(SLICE_AT, c.slice_at, c.slice_at_len), c.slice_at_len,
                       lend(SLICE, c.slice, c.slice_len), c.slice_len,
                       lend_editions(SLICE_EDITION, c.slice_edition, c.slice_edition_len),
                       c.slice_edition_len, c.slices, c.starts.pline2,
                       c.starts.pline1_overlapping, c.starts.pline2_overlapping, c.selector,
                       lend_entered(&c.named), c.named.entered_len,
                       lend_settings(&c.named, c.tolerance.x, c.tolerance.y, NAN),
                       c.named.settings_len, c.named.setting, lend_room(VERTEX_ROOM, c.room_len),
                       c.room_len, lend_room(ENDS, c.ends_len), c.ends_len,
                       lend_room(CHAIN, c.chain_len), c.chain_len,
                       lend_room(CHAIN_ENDS, c.chain_ends_len), c.chain_ends_len,
                       lend_room(CHAIN_HOW, c.chain_how_len), c.chain_how_len);
}

/* ---- The reference of the stitch: document 01 ---- */

/* How often each thing was met: a test that meets none shows nothing. */
enum {
    CLOSED,
    TOO_SMALL,
    NO_CANDIDATE,
    NOT_SELECTED, /* as the chains end */
    FORWARD,
    INVERTED,
    OFFSET_0,
    OFFSET_VC,
    WRAPPED,
    REPLACED,       /* an added vertex agrees with the last */
    REPLACED_FIRST, /* among the first slice's vertices */
    JOINED,         /* a slice follows */
    BOX_ONLY,       /* its start is in the box, but does not agree with the end */
    SEVERAL,        /* more than one candidate */
    OWN_START,      /* the chain's first slice among several, and another chosen */
    LOOP_OF_2,
    LOOPS_SEVERAL, /* more than one loop */
    REST,          /* room left to be cleared */
    TIGHT,         /* no vertex of the room was left at some moment */
    MINUS_ZERO,    /* a bulge -0 in a loop */
    KINDS
};

static const char *const KIND[KINDS] = {"closed",
                                        "too small",
                                        "no candidate",
                                        "none selected",
                                        "forward",
                                        "inverted",
                                        "offset 0",
                                        "offset vc",
                                        "wrapped",
                                        "bulge replaced",
                                        "bulge replaced in the first slice",
                                        "joined",
                                        "joined in the box only",
                                        "several candidates",
                                        "own start passed over",
                                        "loop of 2",
                                        "several loops",
                                        "room cleared",
                                        "room used up",
                                        "bulge -0"};

static unsigned met[KINDS];
static unsigned chosen[2][4][4]; /* selector, class, choice that was taken (3: none) */

static uint32_t refused(void)
{
    uint32_t number;
    if (!right_length(c.outline_len[0], 3, c.vc[0]) ||
        !right_length(c.outline_len[1], 3, c.vc[1]) || !right_length(c.slice_at_len, 4, c.slices) ||
        !right_length(c.slice_len, 6, c.slices) || c.slice_edition_len != c.slices ||
        c.slices > MOST_SLICES || c.named.entered_len != 1 || c.named.settings_len != RECORD)
        return 1;
    for (int o = 0; o < 2; o++)
        if (c.vc[o] < LEAST_VERTICES || c.vc[o] > MOST_VERTICES)
            return 2;
    if (c.selector > 1 || unknown_slice_code(c.slice_at, c.slices))
        return 3;
    if (!known(&c.named))
        return 16;
    if (!right_tolerances(c.tolerance))
        return 4;
    if (!small_list(c.outline[0], c.outline_len[0]) ||
        !small_list(c.outline[1], c.outline_len[1]) || !small_list(c.slice, c.slice_len))
        return 5;
    number = slices_refused(c.slice_at, c.slice_edition, c.slices, c.vc, c.edition, c.starts);
    if (number)
        return number;
    if (c.room_len < 3 * vertices_needed() || c.ends_len < c.slices || c.chain_len < c.slices ||
        c.chain_ends_len < c.slices || c.chain_how_len < c.slices)
        return 9;
    return 0;
}

/* Vertex k of slice i: "Vertices of a view". */
static mask_vertex ref_vertex(size_t i, size_t k)
{
    const size_t *at = c.slice_at + 4 * i, start = at[2], offset = at[3], vc = c.vc[at[0] - 1];
    const double *s = c.slice + 6 * i, *o = c.outline[at[0] - 1], *p, *q;
    if (at[1] == 0) {
        if (k == 0)
            return (mask_vertex){s[0], s[1], s[2]};
        if (k == offset + 1)
            return (mask_vertex){s[4], s[5], 0.0};
        p = o + 3 * ((start + k) % vc);
        return (mask_vertex){p[0], p[1], k == offset ? s[3] : p[2]};
    }
    if (k == 0)
        return (mask_vertex){s[4], s[5], -s[3]};
    if (k == offset + 1)
        return (mask_vertex){s[0], s[1], 0.0};
    p = o + 3 * ((start + offset - k + 1) % vc);
    q = o + 3 * ((start + offset - k) % vc);
    return (mask_vertex){p[0], p[1], k == offset ? -s[2] : -q[2]};
}

static int agree(mask_vertex a, mask_vertex b)
{
    return fabs(a.x - b.x) < c.tolerance.x && fabs(a.y - b.y) < c.tolerance.y;
}

static int in_box(mask_vertex end, mask_vertex p)
{
    double low_x = end.x - c.tolerance.x, high_x = end.x + c.tolerance.x;
    double low_y = end.y - c.tolerance.y, high_y = end.y + c.tolerance.y;
    return low_x <= p.x && p.x <= high_x && low_y <= p.y && p.y <= high_y;
}

/* 0 of outline 1, 1 of outline 2, 2 overlap of 1, 3 overlap of 2. */
static int class_of(size_t i)
{
    if (i < c.starts.pline2)
        return 0;
    if (i < c.starts.pline1_overlapping)
        return 1;
    return i < c.starts.pline2_overlapping ? 2 : 3;
}

/* The three choices in order: '1' and '2' of that outline, '*' any, '-' none. */
static const char CHOICES[2][4][4] = {
    {"21*", "12*", "21*", "12*"},
    {"2**", "1**", "21-", "12-"},
};

static mask_vertex *built; /* the chain's vertices */
static size_t built_count;

static void ref_append(size_t i, int first)
{
    const size_t *at = c.slice_at + 4 * i;
    met[at[1] ? INVERTED : FORWARD]++;
    met[OFFSET_0] += at[3] == 0;
    met[OFFSET_VC] += at[3] == c.vc[at[0] - 1];
    met[WRAPPED] += at[2] + at[3] >= c.vc[at[0] - 1];
    for (size_t k = 0; k < at[3] + 2; k++) {
        mask_vertex v = ref_vertex(i, k);
        if (built_count != 0 && agree(built[built_count - 1], v)) {
            built[built_count - 1].bulge = v.bulge;
            met[REPLACED]++;
            met[REPLACED_FIRST] += first;
        } else {
            built[built_count++] = v;
        }
    }
}

/* The answer and the five lists expected of a call that is not refused. */
static mask_stitch_answer ref_stitch(void)
{
    static unsigned char visited[SLICES];
    static mask_vertex starts[SLICES];
    static size_t fits[SLICES];
    mask_stitch_answer a = {0, 0, 0, 0};
    size_t need = vertices_needed(), finished = 0;
    memset(visited, 0, sizeof visited);
    for (size_t i = 0; i < c.slices; i++)
        starts[i] = ref_vertex(i, 0);
    for (size_t first = 0; first < c.slices; first++) {
        size_t current = first;
        unsigned how;
        if (visited[first])
            continue;
        built_count = 0;
        for (;;) {
            size_t count = 0, next = SIZE_MAX;
            int class = class_of(current), choice;
            visited[current] = 1;
            put_word(CHAIN, current);
            if (built_count != 0)
                built_count--;
            ref_append(current, current == first);
            met[TIGHT] += finished + built_count == need;
            a.rounds++;
            for (size_t j = first; j < c.slices; j++)
                if ((j == first || !visited[j]) && in_box(built[built_count - 1], starts[j]))
                    fits[count++] = j;
            how = NO_CANDIDATE;
            if (count == 0)
                break;
            met[SEVERAL] += count > 1;
            for (choice = 0; choice < 3 && next == SIZE_MAX; choice++) {
                char wanted = CHOICES[c.selector][class][choice];
                for (size_t f = 0; f < count && next == SIZE_MAX; f++)
                    if (wanted == '*' || (wanted == '1' && class_of(fits[f]) == 0) ||
                        (wanted == '2' && class_of(fits[f]) == 1))
                        next = fits[f];
            }
            chosen[c.selector][class][next == SIZE_MAX ? 3 : choice - 1]++;
            how = NOT_SELECTED;
            if (next == SIZE_MAX)
                break;
            met[OWN_START] += fits[0] == first && next != first;
            how = built_count < 3 ? TOO_SMALL : CLOSED;
            if (next == first)
                break;
            met[JOINED]++;
            met[BOX_ONLY] += !agree(built[built_count - 1], starts[next]);
            current = next;
        }
        met[how]++;
        if (how == CLOSED) {
            built_count--;
            met[LOOP_OF_2] += built_count == 2;
            for (size_t v = 0; v < built_count; v++) {
                const double numbers[] = {built[v].x, built[v].y, built[v].bulge};
                put(VERTEX_ROOM, numbers, 3);
                met[MINUS_ZERO] += built[v].bulge == 0 && signbit(built[v].bulge);
            }
            finished += built_count;
            put_word(ENDS, finished);
            a.loops++;
        }
        put_word(CHAIN_ENDS, want[CHAIN].used);
        put_word(CHAIN_HOW, how);
        a.chains++;
    }
    met[LOOPS_SEVERAL] += a.loops > 1;
    met[REST] += finished < need;
    fill(VERTEX_ROOM, 3 * need);
    fill(ENDS, c.slices);
    fill(CHAIN, c.slices);
    fill(CHAIN_ENDS, c.slices);
    fill(CHAIN_HOW, c.slices);
    return a;
}

/* Demand 3, of what the call left: n rounds, each slice once, each chain from its lowest number on,
   the chains by ascending first number. */
static int demand_3(mask_stitch_answer a)
{
    static unsigned char seen[SLICES];
    const size_t *chain = left(CHAIN, c.chain_len), *ends = left(CHAIN_ENDS, c.chain_ends_len);
    size_t from = 0, before = 0;
    memset(seen, 0, sizeof seen);
    if (a.rounds != c.slices || a.chains > c.slices || a.loops > a.chains)
        return 0;
    for (size_t i = 0; i < c.slices; i++)
        if (chain[i] >= c.slices || seen[chain[i]]++)
            return 0;
    for (size_t k = 0; k < a.chains; k++) {
        if (ends[k] <= from || ends[k] > c.slices || (k > 0 && chain[from] <= before))
            return 0;
        before = chain[from];
        for (size_t i = from; i < ends[k]; i++)
            if (chain[i] < before)
                return 0;
        from = ends[k];
    }
    return from == c.slices;
}

static mask_stitch_answer got;
static const char *difference; /* what differed in the last call, or NULL */

/* Makes the call and compares all of it. */
static int stitched(void)
{
    mask_stitch_answer a = {refused(), 0, 0, 0};
    expect(VERTEX_ROOM, c.room_len);
    expect(ENDS, c.ends_len);
    expect(CHAIN, c.chain_len);
    expect(CHAIN_ENDS, c.chain_ends_len);
    expect(CHAIN_HOW, c.chain_how_len);
    if (a.refusal == 0)
        a = ref_stitch();
    got = stitch();
    difference = NULL;
    if (got.refusal != a.refusal)
        difference = "refusal";
    else if (got.rounds != a.rounds)
        difference = "rounds";
    else if (!as_expected(CHAIN))
        difference = "chain";
    else if (got.chains != a.chains)
        difference = "chains";
    else if (!as_expected(CHAIN_ENDS))
        difference = "chain_ends";
    else if (!as_expected(CHAIN_HOW))
        difference = "chain_how";
    else if (got.loops != a.loops)
        difference = "loops";
    else if (!as_expected(ENDS))
        difference = "ends";
    else if (!as_expected(VERTEX_ROOM))
        difference = "room";
    else if (a.refusal == 0 && !demand_3(got))
        difference = "demand 3";
    return difference == NULL;
}

/* The same, also with no element and with several elements beyond the need. */
static int stitched_twice(void)
{
    measure(7);
    if (!stitched())
        return 0;
    measure(0);
    return stitched();
}

static size_t how(size_t chain) { return left(CHAIN_HOW, c.chain_how_len)[chain]; }

static void show(const call *call)
{
    printf("     selector %u tolerances %.17g %.17g starts %zu %zu %zu slices %zu\n", call->selector,
           call->tolerance.x, call->tolerance.y, call->starts.pline2, call->starts.pline1_overlapping,
           call->starts.pline2_overlapping, call->slices);
    printf("     editions %u %u\n", call->edition[0], call->edition[1]);
    for (int o = 0; o < 2; o++)
        for (size_t v = 0; v < call->vc[o] && v < 8; v++)
            printf("     outline %d: %.17g %.17g %.17g\n", o + 1, call->outline[o][3 * v],
                   call->outline[o][3 * v + 1], call->outline[o][3 * v + 2]);
    for (size_t i = 0; i < call->slices && i < 16; i++) {
        const size_t *at = call->slice_at + 4 * i;
        const double *s = call->slice + 6 * i;
        printf("     slice %zu: source %zu inverted %zu start %zu offset %zu edition %u: "
               "%.17g %.17g %.17g, %.17g, %.17g %.17g\n",
               i, at[0], at[1], at[2], at[3], call->slice_edition[i], s[0], s[1], s[2], s[3], s[4],
               s[5]);
    }
}

static void check_stitch(int more, const char *name)
{
    int ok = stitched_twice();
    check(ok && more, "stitch: %s%s%s", name, ok ? "" : ": ", ok ? "" : difference);
    if (!ok)
        show(&c);
}

/* ---- The sheet of two squares ---- */

static void union_of_squares(void)
{
    begin(A, 4, B, 4, 0, T);
    add(1, 0, 2, 3, 2, 4, 0, 0, 4, 2);
    add(2, 0, 0, 3, 4, 2, 0, 0, 2, 4);
    classes(1, 2, 2);
    measure(0);
}

static int one_loop(const double *loop, size_t vertices, size_t need)
{
    size_t len = c.room_len;
    int ok = stitched() && got.refusal == 0 && got.rounds == 2 && got.loops == 1 &&
             got.chains == 1 && vertices_needed() == need && how(0) == 0 && len == 3 * need &&
             left(ENDS, c.ends_len)[0] == vertices &&
             memcmp(left(VERTEX_ROOM, len), loop, 24 * vertices) == 0;
    for (size_t i = 3 * vertices; i < len; i++)
        ok = ok && left(VERTEX_ROOM, len)[i] == 0;
    return ok;
}

static void sheet(void)
{
    const double t3[] = {2, 4, 0, 0, 4, 0, 0, 0, 0, 4, 0, 0, 4, 2, 0, 6, 2, 0, 6, 6, 0, 2, 6, 0};
    const double t4[] = {4, 2, 0, 4, 4, 0, 2, 4, 0, 2, 2, 0};
    const double t5[] = {4, 2, -0.0, 4, 0, -0.0, 0, 0, -0.0, 0, 4, -0.0, 2, 4, 0, 2, 2, 0};
    union_of_squares();
    check(one_loop(t3, 8, 9), "T3 union: starts 1, 2, 2; 2 rounds; one loop of 8; room 9");
    c.room_len = 3 * 8;
    check(stitched() && got.refusal == 9, "T9 union with room 8: refusal 9");
    c.room_len = 3 * 9 - 1;
    check(stitched() && got.refusal == 9, "T9 one number short of room 9: refusal 9");

    begin(A, 4, B, 4, 0, T);
    add(1, 0, 1, 1, 4, 2, 0, 0, 2, 4);
    add(2, 0, 3, 1, 2, 4, 0, 0, 4, 2);
    classes(1, 2, 2);
    measure(0);
    check(one_loop(t4, 4, 5), "T4 intersection: loop (4,2) (4,4) (2,4) (2,2); room 5");

    begin(A, 4, B, 4, 1, T);
    add(1, 1, 2, 3, 2, 4, 0, 0, 4, 2);
    add(2, 0, 3, 1, 2, 4, 0, 0, 4, 2);
    classes(1, 2, 2);
    measure(0);
    check(one_loop(t5, 6, 7), "T5 first minus second: 6 vertices, four bulges -0; room 7");

    for (uint32_t selector = 0; selector < 2; selector++) {
        begin(A, 4, B, 4, selector, T);
        classes(0, 0, 0);
        measure(0);
        check(stitched() && got.refusal == 0 && got.rounds == 0 && got.loops == 0 &&
                  got.chains == 0,
              "T8 no slices, selector %u: 0 rounds, 0 loops, empty room accepted", selector);
        measure(5);
        check(stitched() && got.refusal == 0, "T8 no slices, selector %u: room lent is unchanged",
              selector);
    }
}

/* ---- Boundary inputs ---- */

static const double DUMMY[] = {-100, -100, 0.25, -200, -300, -0.5};

static void bare(uint32_t selector, double tolerance)
{
    begin(DUMMY, 2, DUMMY, 2, selector, tolerance);
}

/* A slice of offset 0 from one point to another. */
static void line(double x, double y, double to_x, double to_y)
{
    add(1, 0, 0, 0, x, y, 0.5, -0.25, to_x, to_y);
}

static void endings(void)
{
    bare(0, T);
    line(0, 0, 1, 0);
    classes(1, 1, 1);
    check_stitch(1, "n = 1: no candidate");
    check(got.chains == 1 && got.loops == 0 && how(0) == 2,
          "stitch: n = 1 ended with no candidate");

    bare(0, T);
    line(0, 0, T, 0);
    classes(1, 1, 1);
    check_stitch(1, "n = 1: closed in the box's side with 2 vertices: too small");
    check(got.chains == 1 && got.loops == 0 && how(0) == 1, "stitch: n = 1 ended too small");
    c.slice[4] = 0;
    check_stitch(1, "n = 1: one vertex, replaced: too small");
    check(how(0) == 1, "stitch: n = 1 of one vertex ended too small");

    for (size_t inverted = 0; inverted < 2; inverted++) {
        bare(0, T);
        add(1, inverted, 0, 1, 0, 0, 0.5, -0.25, 0, 0);
        classes(1, 1, 1);
        check_stitch(1, "n = 1: a loop of 2 vertices");
        check(got.loops == 1 && how(0) == 0 && left(ENDS, c.ends_len)[0] == 2,
              "stitch: n = 1 gave a loop of 2 vertices");
    }

    /* NotXor: an overlap does not go on to an overlap, nor to itself. */
    for (int class = 2; class < 4; class ++)
        for (uint32_t selector = 0; selector < 2; selector++) {
            bare(selector, T);
            add(1, 0, 0, 1, 0, 0, 0.5, -0.25, 0, 0);
            classes(0, 0, class == 2);
            check_stitch(1, "n = 1: an overlap that ends where it starts");
            check(how(0) == (selector ? 3 : 0) && got.loops == !selector,
                  "stitch: class %d, selector %u: %s", class, selector,
                  selector ? "no slice selected" : "closed");
        }

    bare(0, T);
    line(0, 0, 1, 0);
    line(1, 0, 0, 0);
    classes(2, 2, 2);
    check_stitch(1, "n = 2: a loop of 2 vertices");
    check(got.loops == 1 && got.chains == 1, "stitch: n = 2, one chain");
    c.slice[6] = 7;
    check_stitch(1, "n = 2: two chains");
    check(got.loops == 0 && got.chains == 2, "stitch: n = 2, two chains");

    /* A discarded chain's slices stay visited: 1 is used up by the chain of 0. */
    bare(0, T);
    line(0, 0, 1, 0);
    line(1, 0, 2, 0);
    line(2, 5, 1, 0);
    classes(3, 3, 3);
    check_stitch(1, "a discarded chain's slices stay visited");
    check(got.chains == 2 && left(CHAIN_ENDS, c.chain_ends_len)[0] == 2 && how(1) == 2,
          "stitch: the third slice finds no candidate");

    /* The four endings in one call, and the loops one after the other. */
    bare(1, T);
    add(1, 0, 0, 1, 0, 0, 0.5, -0.25, 0, 0);
    line(10, 0, 11, 0);
    line(20, 0, 20, 0);
    add(2, 1, 1, 2, 40, 0, 0.5, -0.25, 40, 0);
    add(1, 0, 0, 1, 30, 0, 0.5, -0.25, 30, 0);
    classes(3, 4, 4);
    check_stitch(1, "each of the four endings in one call");
    check(got.chains == 5 && got.loops == 2 && how(0) == 0 && how(1) == 2 && how(2) == 1 &&
              how(3) == 0 && how(4) == 3,
          "stitch: closed, no candidate, too small, closed, none selected");
}

/* Every class after every class, with any set of classes to choose from, for both selectors. */
static void table(void)
{
    unsigned cases = 0, bad = 0;
    for (uint32_t selector = 0; selector < 2; selector++)
        for (int from = 0; from < 4; from++)
            for (unsigned offered = 0; offered < 512; offered++) { /* up to two of each class */
                size_t count[4] = {1, 0, 0, 0};
                double own = offered >> 8 ? 0 : 20; /* and the chain's first slice */
                bare(selector, T);
                line(own, 0, 5, 0); /* leads to the slice that chooses */
                for (int class = 0; class < 4; class ++) {
                    unsigned some = offered >> 2 * class & 3;
                    if (class == from) {
                        line(5, 0, 0, 0);
                        count[class]++;
                    }
                    for (unsigned i = 0; i < (some == 3 ? 2 : some); i++, count[class]++)
                        line(0, 0, 9, class + 2 * i);
                }
                classes(count[0], count[0] + count[1], count[0] + count[1] + count[2]);
                cases++;
                bad += !stitched_twice();
            }
    check(bad == 0, "stitch: selector by class by what is offered: %u cases, %u differ", cases,
          bad);
}

static void sides(void)
{
    unsigned cases = 0, bad = 0, wrong = 0, rounded = 0;
    for (int k = 0; k < 600; k++) {
        double t = k % 3 == 0 ? 0.5 : k % 3 == 1 ? 1.0 / (double)(1 + pick(5000)) : 0x1p-30;
        double e = k == 0 ? 1 : (double)(int64_t)draw64() * 0x1p-63 * (k % 2 ? 3 : 0x1p29);
        for (int place = 0; place < 4; place++) { /* below, above; in x, in y */
            double side = place % 2 ? e + t : e - t, away = place % 2 ? INFINITY : -INFINITY;
            double starts[3] = {nextafter(side, e == side ? -away : e), side,
                                nextafter(side, away)};
            rounded += side - e != t && e - side != t;
            for (int i = 0; i < 3; i++) {
                double x = place < 2 ? e : 3, y = place < 2 ? 3 : e;
                if (e == side && i == 0)
                    continue;
                bare(0, t);
                /* the other axis has another tolerance, which makes no difference */
                c.tolerance = spoiled(c.tolerance, place < 2, cases % 2 ? t : t < 0.25 ? 1 : 1e-9);
                line(-7, 2000, x, y);
                line(place < 2 ? starts[i] : 3, place < 2 ? 3 : starts[i], -50, 77);
                classes(1, 2, 2);
                cases++;
                bad += !stitched_twice();
                wrong += got.chains != (i < 2 ? 1u : 2u);
            }
        }
    }
    check(bad == 0 && wrong == 0 && rounded > 100,
          "stitch: one ulp inside the box's side, on it, one outside: %u cases, %u rounded sides, "
          "%u differ",
          cases, rounded, bad + wrong);

    /* T10: with t = 0.5, x = 1 and x = 1.5 do not agree but are in each other's box. */
    bare(0, 0.5);
    line(0, 0, 1, 0);
    line(1.5, 0, 0, 5);
    line(0.25, 5.5, 0, 0);
    classes(3, 3, 3);
    check_stitch(1, "T10 a join at exactly t");
    check(got.chains == 1 && got.loops == 1, "stitch: T10 joined");
    for (int k = 0; k < 4; k++) {
        bare(0, 0.5);
        c.tolerance = (axes){0.5, 0.25};
        line(0, 0, 1, 0);
        line(k == 1 ? nextafter(1.5, 2) : 1.5, k == 2 ? nextafter(0.25, 1) : 0.25, 9, 9);
        classes(2, 2, 2);
        if (k == 3)
            c.tolerance = (axes){0.25, 0.5};
        check_stitch(1, "a join at exactly both tolerances, or not");
        check(got.chains == (k == 0 ? 1u : 2u), "stitch: x by the first, y by the second: %d", k);
    }
    bare(0, 0.5);
    add(1, 0, 0, 1, 0, 0, 0.5, -0.25, 0, 0);
    c.outline[0][3] = 0.5;
    c.outline[0][4] = 0;
    classes(1, 1, 1);
    check_stitch(1, "a vertex at exactly t from the last is added");
    check(got.loops == 1, "stitch: a vertex at exactly t counts");
    c.outline[0][3] = nextafter(0.5, 0);
    check_stitch(1, "a vertex one ulp nearer replaces the bulge");
    check(got.loops == 0 && how(0) == 1, "stitch: a vertex one ulp nearer does not count");
}

/* Offset = vc, each start, both directions, each slice inverted. */
static void whole_outlines(void)
{
    double outline[3 * 5];
    unsigned cases = 0, bad = 0, loops = 0;
    for (size_t vc = 2; vc <= 5; vc++)
        for (size_t start = 0; start < vc; start++)
            for (size_t offset = 0; offset <= vc; offset++)
                for (unsigned inverted = 0; inverted < 4; inverted++) {
                    for (size_t i = 0; i < 3 * vc; i++)
                        outline[i] = i % 3 == 2 ? (double)i / 8 - 0.5 : (double)(i * i % 7);
                    begin(outline, vc, outline, vc, inverted % 2, T);
                    add(1, inverted & 1, start, offset, 11, 12, 0.75, -0.0, 13, 14);
                    add(2, inverted >> 1, vc - 1 - start, offset, 13, 14, 0.0, 0.125, 11, 12);
                    if (inverted == 1 || inverted == 2) { /* end to start again */
                        double *s = c.slice + 6, x = s[0], y = s[1];
                        s[0] = s[4], s[1] = s[5], s[4] = x, s[5] = y;
                    }
                    classes(1, 2, 2);
                    cases++;
                    bad += !stitched_twice();
                    loops += got.loops == 1 && got.chains == 1;
                }
    check(bad == 0 && loops == cases,
          "stitch: offsets from 0 to vc, each start, forward and inverted: %u cases, %u differ",
          cases, bad);
}

static void most(void)
{
    const size_t n = MOST_SLICES;
    size_t loops;
    for (uint32_t selector = 0; selector < 2; selector++) {
        bare(selector, T);
        for (size_t i = 0; i < n; i++)
            line((double)i, 1, (double)((i + 1) % n), 1);
        classes(n, n, n);
        check_stitch(1, "1,792 slices: one chain, ascending");
        check(got.chains == 1 && got.loops == 1 && left(ENDS, c.ends_len)[0] == n,
              "stitch: one chain of 1,792 gave one loop of 1,792 vertices, selector %u", selector);

        bare(selector, T);
        for (size_t i = 0; i < n; i++)
            line((double)i, 1, (double)((i + n - 1) % n), 1);
        classes(n / 4, n / 2, n);
        check_stitch(1, "1,792 slices: from the last to the first, in classes 1, 2, overlap of 1");

        bare(selector, T);
        for (size_t i = 0; i < n; i++)
            line(2 * (double)i, 1, 2 * (double)i + 1, 1);
        classes(n / 4, n / 2, 3 * n / 4);
        check_stitch(1, "1,792 slices: chains of one, no candidate");
        check(got.chains == n && got.loops == 0, "stitch: 1,792 chains of one, selector %u",
              selector);

        bare(selector, T);
        for (size_t i = 0; i < n; i++)
            add(1 + i % 2, i / 2 % 2, i % 2, 1 + i % 2, 2 * (double)i, 1, 0, 0, 2 * (double)i, 1);
        classes(n / 2, n, n);
        check_stitch(1, "1,792 slices: loops of one");
        check(got.chains == n && got.loops == n, "stitch: 1,792 loops of one, selector %u",
              selector);

        bare(selector, T);
        for (size_t i = 0; i < n; i++)
            line(0, 0, 5, (double)i);
        classes(n / 4, n / 2, 3 * n / 4);
        check_stitch(1, "1,792 slices: all starts at one point, no end there");
        check(got.chains == n, "stitch: no candidate 1,792 times, selector %u", selector);

        for (int k = 0; k < 3; k++) {
            bare(selector, T);
            for (size_t i = 0; i < n; i++)
                add(1, i % 2, 0, 1, 0, 0, 0.5, -0.25, 0, 0);
            classes(k == 0   ? n
                    : k == 1 ? n / 2
                             : n / 4,
                    k == 2 ? n / 2 : n, k == 2 ? 3 * n / 4 : n);
            check_stitch(1, k == 0 ? "1,792 slices: all starts and ends at one point, one class"
                            : k == 1
                                ? "1,792 slices: all starts and ends at one point, two classes"
                                : "1,792 slices: all starts and ends at one point, four classes");
        }
        loops = got.loops;
        check(loops > 0, "stitch: all at one point, four classes, selector %u: %zu loops", selector,
              loops);
    }

    /* The greatest need: 1,792 slices that go all round outlines of 1,024 vertices. */
    bare(0, T);
    c.vc[0] = c.vc[1] = MOST_VERTICES;
    for (size_t i = 0; i < 3 * MOST_VERTICES; i++)
        c.outline[0][i] = c.outline[1][i] = (double)i;
    for (size_t i = 0; i < n; i++)
        add(1 + i % 2, i % 3 == 0, i % MOST_VERTICES, MOST_VERTICES, -5, -5, 0, 0, -5, -5);
    for (size_t i = 0; i < n; i++) { /* start i, end i + 1, whichever way round */
        double *s = c.slice + 6 * i, from = -5 - (double)i, to = -5 - (double)((i + 1) % n);
        s[i % 3 == 0 ? 4 : 0] = from;
        s[i % 3 == 0 ? 0 : 4] = to;
    }
    classes(n, n, n);
    check_stitch(1, "the greatest need: 1,792 slices of offset 1,024");
    check(got.chains == 1 && got.loops == 1 && c.room_len == ROOM &&
              left(ENDS, c.ends_len)[0] == ROOM / 3 - 1,
          "stitch: one loop of %d vertices", ROOM / 3 - 1);
}

/* ---- Refusals of the stitch ---- */

typedef struct fault {
    uint32_t number;
    int group; /* two faults of one group change the same thing */
    const char *name;
} fault;

enum {
    F_OUT1 = 1,
    F_OUT2,
    F_COUNT,
    F_AT,
    F_SLICE_LEN,
    F_SELECTOR,
    F_SOURCE,
    F_INVERTED,
    F_TOL,
    F_N1,
    F_N2,
    F_N3,
    F_START,
    F_OFFSET,
    F_STARTS,
    F_EDITION,
    F_ROOM,
    F_ENDS,
    F_CHAIN,
    F_CHAIN_ENDS,
    F_CHAIN_HOW,
    F_EDITION_LEN,
    F_ENTERED,
    F_SETTINGS,
    F_SETTING
};

static const fault FAULTS[] = {
    {1, F_OUT1, "outline 1 one long"},
    {1, F_OUT1, "outline 1 one short"},
    {1, F_OUT2, "outline 2 one long"},
    {1, F_OUT2, "outline 2 empty"},
    {1, F_AT, "slice_at one long"},
    {1, F_AT, "slice_at one short"},
    {1, F_SLICE_LEN, "slice one long"},
    {1, F_SLICE_LEN, "slice one short"},
    {1, F_COUNT, "slices one more"},
    {1, F_COUNT, "slices one less"},
    {1, F_COUNT, "slices SIZE_MAX"},
    {1, F_COUNT, "slices 2^63, lists empty"},
    {1, F_COUNT, "slices 1,793, lists as long"},
    {1, F_OUT1, "vc1 whose product wraps to 4"},
    {1, F_OUT2, "vc2 SIZE_MAX"},
    {1, F_OUT1, "vc1 2^63"},
    {2, F_OUT1, "outline 1 of 1"},
    {2, F_OUT1, "outline 1 of 0"},
    {2, F_OUT1, "outline 1 of 1,025"},
    {2, F_OUT2, "outline 2 of 1"},
    {2, F_OUT2, "outline 2 of 0"},
    {2, F_OUT2, "outline 2 of 1,025"},
    {3, F_SELECTOR, "selector 2"},
    {3, F_SELECTOR, "selector 2^32 - 1"},
    {3, F_SOURCE, "source 0"},
    {3, F_SOURCE, "source 3"},
    {3, F_SOURCE, "source 2^32 + 1"},
    {3, F_INVERTED, "inverted 2"},
    {3, F_INVERTED, "inverted 2^32"},
    {3, F_INVERTED, "inverted SIZE_MAX"},
    {4, F_TOL, "tolerance 0 of x"},
    {4, F_TOL, "tolerance -0 of y"},
    {4, F_TOL, "tolerance -T of x"},
    {4, F_TOL, "tolerance above 1 of y"},
    {4, F_TOL, "tolerance NaN of x"},
    {4, F_TOL, "tolerance inf of y"},
    {4, F_TOL, "tolerance -inf of x"},
    {5, F_N1, "outline 1 x NaN"},
    {5, F_N1, "outline 1 y above 2^30"},
    {5, F_N1, "outline 1 bulge -inf"},
    {5, F_N2, "outline 2 last bulge NaN"},
    {5, F_N2, "outline 2 last y inf"},
    {5, F_N2, "outline 2 last x below -2^30"},
    {5, F_N3, "slice x NaN"},
    {5, F_N3, "slice y inf"},
    {5, F_N3, "slice bulge above 2^30"},
    {5, F_N3, "slice end bulge NaN"},
    {5, F_N3, "slice end x -inf"},
    {5, F_N3, "last slice's end y below -2^30"},
    {6, F_START, "start vc1"},
    {6, F_START, "start SIZE_MAX"},
    {6, F_START, "last start vc2"},
    {7, F_OFFSET, "offset vc1 + 1"},
    {7, F_OFFSET, "offset SIZE_MAX"},
    {7, F_OFFSET, "last offset vc2 + 1"},
    {7, F_OFFSET, "offsets 2^63"},
    {8, F_STARTS, "pline2 above the next"},
    {8, F_STARTS, "pline1_overlapping above the next"},
    {8, F_STARTS, "pline2_overlapping above the slices"},
    {8, F_STARTS, "pline2 SIZE_MAX"},
    {8, F_STARTS, "all SIZE_MAX"},
    {14, F_EDITION, "the first slice of the edition after"},
    {14, F_EDITION, "the last slice of the edition before"},
    {14, F_EDITION, "the editions of the outlines exchanged"},
    {14, F_EDITION, "outline 1 of another edition"},
    {14, F_EDITION, "outline 2 of another edition"},
    {9, F_ROOM, "room one short"},
    {9, F_ROOM, "no room"},
    {9, F_ENDS, "ends one short"},
    {9, F_CHAIN, "chain one short"},
    {9, F_CHAIN_ENDS, "chain_ends one short"},
    {9, F_CHAIN_HOW, "chain_how one short"},
    {9, F_CHAIN_HOW, "no chain_how"},
    {1, F_EDITION_LEN, "slice_edition one long"},
    {1, F_EDITION_LEN, "slice_edition one short"},
    {1, F_EDITION_LEN, "no slice_edition"},
    {1, F_ENTERED, "entered empty"},
    {1, F_ENTERED, "entered one long"},
    {1, F_SETTINGS, "settings one short"},
    {1, F_SETTINGS, "settings one long"},
    {1, F_SETTINGS, "no settings"},
    {16, F_SETTING, "setting 0"},
    {16, F_SETTING, "the setting after the last"},
    {16, F_SETTING, "setting 17 of a count above 16"},
    {16, F_SETTING, "setting SIZE_MAX"},
    {16, F_SETTING, "an empty record"},
};
enum { FAULT_COUNT = sizeof FAULTS / sizeof *FAULTS };

static void spoil(int f)
{
    const double above = nextafter(LIMIT, INFINITY);
    switch (f) {
    case 0: c.outline_len[0]++; break;
    case 1: c.outline_len[0]--; break;
    case 2: c.outline_len[1]++; break;
    case 3: c.outline_len[1] = 0; break;
    case 4: c.slice_at_len++; break;
    case 5: c.slice_at_len--; break;
    case 6: c.slice_len++; break;
    case 7: c.slice_len--; break;
    case 8: c.slices++; break;
    case 9: c.slices--; break;
    case 10: c.slices = SIZE_MAX; break;
    case 11: c.slices = HALF, c.slice_at_len = c.slice_len = c.slice_edition_len = 0; break;
    case 12:
        c.slices = MOST_SLICES + 1, c.slice_at_len = 4 * c.slices, c.slice_len = 6 * c.slices;
        c.slice_edition_len = c.slices;
        break;
    case 13: c.vc[0] = (size_t)4 * 0xaaaaaaaaaaaaaaab, c.outline_len[0] = 4; break;
    case 14: c.vc[1] = SIZE_MAX; break;
    case 15: c.vc[0] = HALF; break;
    case 16: c.vc[0] = 1, c.outline_len[0] = 3; break;
    case 17: c.vc[0] = 0, c.outline_len[0] = 0; break;
    case 18: c.vc[0] = 1025, c.outline_len[0] = 3075; break;
    case 19: c.vc[1] = 1, c.outline_len[1] = 3; break;
    case 20: c.vc[1] = 0, c.outline_len[1] = 0; break;
    case 21: c.vc[1] = 1025, c.outline_len[1] = 3075; break;
    case 22: c.selector = 2; break;
    case 23: c.selector = UINT32_MAX; break;
    case 24: c.slice_at[4] = 0; break;
    case 25: c.slice_at[4] = 3; break;
    case 26: c.slice_at[0] = ((size_t)1 << 32) + 1; break;
    case 27: c.slice_at[5] = 2; break;
    case 28: c.slice_at[1] = (size_t)1 << 32; break;
    case 29: c.slice_at[5] = SIZE_MAX; break;
    case 30: c.tolerance.x = 0; break;
    case 31: c.tolerance.y = -0.0; break;
    case 32: c.tolerance.x = -T; break;
    case 33: c.tolerance.y = nextafter(1, 2); break;
    case 34: c.tolerance.x = NAN; break;
    case 35: c.tolerance.y = INFINITY; break;
    case 36: c.tolerance.x = -INFINITY; break;
    case 37: c.outline[0][0] = NAN; break;
    case 38: c.outline[0][1] = above; break;
    case 39: c.outline[0][2] = -INFINITY; break;
    case 40: c.outline[1][11] = NAN; break;
    case 41: c.outline[1][10] = INFINITY; break;
    case 42: c.outline[1][9] = -above; break;
    case 43: c.slice[0] = NAN; break;
    case 44: c.slice[1] = INFINITY; break;
    case 45: c.slice[2] = above; break;
    case 46: c.slice[9] = NAN; break;
    case 47: c.slice[10] = -INFINITY; break;
    case 48: c.slice[11] = -above; break;
    case 49: c.slice_at[2] = 4; break;
    case 50: c.slice_at[2] = SIZE_MAX; break;
    case 51: c.slice_at[6] = 4; break;
    case 52: c.slice_at[3] = 5; break;
    case 53: c.slice_at[3] = SIZE_MAX; break;
    case 54: c.slice_at[7] = 5; break;
    case 55: c.slice_at[3] = c.slice_at[7] = HALF; break;
    case 56: c.starts.pline2 = 3; break;
    case 57: c.starts.pline1_overlapping = 3; break;
    case 58: c.starts.pline2_overlapping = 3; break;
    case 59: c.starts.pline2 = SIZE_MAX; break;
    case 60: classes(SIZE_MAX, SIZE_MAX, SIZE_MAX); break;
    case 61: c.slice_edition[0]++; break;
    case 62: c.slice_edition[1]--; break;
    case 63: c.edition[0] = UINT32_MAX, c.edition[1] = 0; break;
    case 64: c.edition[0] = 0x80000000; break;
    case 65: c.edition[1] = UINT32_MAX - 1; break;
    case 66: c.room_len--; break;
    case 67: c.room_len = 0; break;
    case 68: c.ends_len--; break;
    case 69: c.chain_len--; break;
    case 70: c.chain_ends_len--; break;
    case 71: c.chain_how_len--; break;
    case 72: c.chain_how_len = 0; break;
    case 73: c.slice_edition_len++; break;
    case 74: c.slice_edition_len--; break;
    case 75: c.slice_edition_len = 0; break;
    case 76: c.named.entered_len = 0; break;
    case 77: c.named.entered_len = 2; break;
    case 78: c.named.settings_len--; break;
    case 79: c.named.settings_len++; break;
    case 80: c.named.settings_len = 0; break;
    case 81: c.named.setting = 0; break;
    case 82: c.named.setting = c.named.entered + 1; break;
    case 83: c.named.entered = SIZE_MAX, c.named.setting = MOST_SETTINGS + 1; break;
    case 84: c.named.setting = SIZE_MAX; break;
    case 85: c.named.entered = 0; break;
    default: abort();
    }
}

/* Where a number stands among the refusals: 14 after 8 and before 9, 16 before 4, the others in their
   order. */
static unsigned rank(uint32_t number) { return number == 14 ? 17 : number == 16 ? 7 : 2 * number; }

static void refusals(void)
{
    unsigned pairs = 0, bad = 0;
    for (int f = 0; f < FAULT_COUNT; f++) {
        union_of_squares();
        spoil(f);
        check(refused() == FAULTS[f].number && stitched() && got.refusal == FAULTS[f].number,
              "stitch: refusal %u alone: %s", FAULTS[f].number, FAULTS[f].name);
    }
    for (int f = 0; f < FAULT_COUNT; f++)
        for (int g = f + 1; g < FAULT_COUNT; g++) {
            uint32_t first = FAULTS[f].number;
            if (FAULTS[f].group == FAULTS[g].group ||
                ((g == 11 || g == 12) && f >= 4 && f <= 7)) /* both set the same lengths */
                continue;
            union_of_squares();
            spoil(g);
            spoil(f);
            if (rank(FAULTS[g].number) < rank(first))
                first = FAULTS[g].number;
            pairs++;
            if (refused() != first || !stitched() || got.refusal != first) {
                if (bad++ == 0)
                    printf("     %s, and %s: %u, not %u\n", FAULTS[f].name, FAULTS[g].name,
                           got.refusal, first);
            }
        }
    check(bad == 0, "stitch: the first of two refusals, 14 before 9 and 16 before 4: %u pairs, %u differ",
          pairs, bad);

    /* Just within. */
    union_of_squares();
    for (int which = 0; which < 3; which++) {
        static const char *const axis[] = {"of x", "of y", "of both"};
        c.tolerance = spoiled(both(T), which, 1);
        check(stitched() && got.refusal == 0, "stitch: tolerance 1 %s is accepted", axis[which]);
        c.tolerance = spoiled(both(T), which, 0x1p-1074);
        check(stitched() && got.refusal == 0, "stitch: the least tolerance %s is accepted",
              axis[which]);
        c.tolerance = spoiled(both(T), which, nextafter(1, 2));
        check(stitched() && got.refusal == 4, "stitch: a tolerance %s above 1 is refused: 4",
              axis[which]);
        c.tolerance = spoiled(both(T), which, 0);
        check(stitched() && got.refusal == 4, "stitch: tolerance 0 %s is refused: 4", axis[which]);
    }
    c.tolerance = both(T);
    c.outline[0][0] = LIMIT, c.outline[0][1] = -LIMIT, c.slice[2] = LIMIT, c.slice[11] = -LIMIT;
    check(stitched() && got.refusal == 0, "stitch: 2^30 and -2^30 are accepted");
    union_of_squares();
    classes(0, 0, 0);
    check(stitched() && got.refusal == 0, "stitch: starts 0, 0, 0 are accepted");
    classes(2, 2, 2);
    check(stitched() && got.refusal == 0, "stitch: starts n, n, n are accepted");
    begin(DUMMY, 2, DUMMY, 2, 0, T);
    classes(0, 0, 0);
    measure(0);
    c.starts.pline2_overlapping = 1;
    check(stitched() && got.refusal == 8, "stitch: no slices, a start of 1: refusal 8");
    classes(0, 0, 0);
    c.outline[0][5] = NAN;
    check(stitched() && got.refusal == 5, "stitch: no slices, an outline with NaN: refusal 5");
    begin(A, 4, DUMMY, 2, 0, T);
    add(2, 0, 2, 3, 0, 0, 0, 0, 1, 1);
    classes(1, 1, 1);
    measure(0);
    check(stitched() && got.refusal == 6, "stitch: an index is looked at on its own outline");
    c.slice_at[2] = 1;
    check(stitched() && got.refusal == 7, "stitch: an offset is looked at on its own outline");
}

/* ---- Editions ---- */

/* Editions that match, whatever they are, change nothing; one that differs is 14. */
static void editions(void)
{
    static double loop[3 * 9];
    unsigned cases = 0, wrong = 0;
    for (int i = 0; i < EDITION_COUNT; i++)
        for (int j = 0; j < EDITION_COUNT; j++) {
            union_of_squares();
            c.edition[0] = c.slice_edition[0] = EDITIONS[i];
            c.edition[1] = c.slice_edition[1] = EDITIONS[j];
            measure(4);
            wrong += !stitched() || got.refusal != 0;
            if (i + j == 0)
                memcpy(loop, left_numbers(VERTEX_ROOM, c.room_len), sizeof loop);
            wrong += memcmp(loop, left_numbers(VERTEX_ROOM, c.room_len), sizeof loop) != 0;
            for (int k = 0; k < EDITION_COUNT; k++) {
                c.slice_edition[0] = EDITIONS[k], c.slice_edition[1] = EDITIONS[j];
                wrong += !stitched() || got.refusal != (k == i ? 0 : 14);
                c.slice_edition[0] = EDITIONS[i], c.slice_edition[1] = EDITIONS[k];
                wrong += !stitched() || got.refusal != (k == j ? 0 : 14);
                cases += 2;
            }
        }
    check(wrong == 0,
          "editions: 0, 1, 2^31, 2^32 - 2 and 2^32 - 1 of each outline and each slice: the same loop "
          "where they match, else 14 and nothing written: %u cases, %u wrong",
          cases, wrong);
    begin(A, 4, B, 4, 0, T);
    classes(0, 0, 0);
    measure(0);
    c.edition[0] = 7;
    check(stitched() && got.refusal == 0, "editions: no slices: any editions are accepted");
    begin(A, 4, B, 4, 0, T);
    add(2, 0, 0, 3, 2, 2, 0, 0, 2, 2);
    c.edition[0] = 7;
    classes(0, 1, 1);
    measure(0);
    check(stitched() && got.refusal == 0,
          "editions: an outline that no slice is of may have any edition");
    for (size_t at = 0; at < MOST_SLICES; at += 255) {
        bare(0, T);
        for (size_t i = 0; i < MOST_SLICES; i++)
            line((double)i, 1, (double)i + 1, 1);
        classes(MOST_SLICES, MOST_SLICES, MOST_SLICES);
        measure(0);
        c.slice_edition[at] ^= 1u << at % 32;
        check(stitched() && got.refusal == 14, "editions: slice %zu of 1,792 differs in one bit: 14",
              at);
    }
}

/* ---- Drawn stitches ---- */

static double drawn_number(double step, size_t places)
{
    double x = step * (double)pick(places);
    if (pick(24) == 0)
        x = nextafter(x, pick(2) ? 10 : -10);
    return x;
}

static double drawn_bulge(void)
{
    static const double bulges[] = {0.0, -0.0, 0.5, -0.5, 1, -1, 0.25, 0.125};
    return bulges[pick(8)];
}

static void drawn_call(void)
{
    static const double tolerances[] = {1.0 / 1024, 0.5, 0.25, 1, 0.5, 0.125};
    size_t places = 2 + pick(4), n = pick(13), pool = 1 + pick(6), s[3];
    double step = pick(3) ? 0.5 : 1, px[8], py[8];
    c.selector = (uint32_t)pick(2);
    c.tolerance = both(tolerances[pick(6)]);
    if (pick(2))
        c.tolerance.y = tolerances[pick(6)];
    for (int o = 0; o < 2; o++) {
        c.edition[o] = EDITIONS[pick(EDITION_COUNT)];
        c.vc[o] = 2 + pick(4);
        for (size_t i = 0; i < 3 * c.vc[o]; i++)
            c.outline[o][i] = i % 3 == 2 ? drawn_bulge() : drawn_number(step, places);
    }
    for (size_t i = 0; i < pool; i++) {
        px[i] = drawn_number(step, places);
        py[i] = drawn_number(step, places);
    }
    c.slices = 0;
    for (size_t i = 0; i < n; i++) {
        size_t source = 1 + pick(2), vc = c.vc[source - 1], from = pick(pool), to = pick(pool);
        int near = pick(4) == 0;
        add(source, pick(2), pick(vc), pick(3) == 0 ? 0 : pick(vc + 1), px[from], py[from],
            drawn_bulge(), drawn_bulge(), near ? drawn_number(step, places) : px[to],
            near ? drawn_number(step, places) : py[to]);
    }
    for (int i = 0; i < 3; i++)
        s[i] = pick(n + 1);
    for (int i = 0; i < 2; i++)
        for (int j = 0; j < 2; j++)
            if (s[j] > s[j + 1]) {
                size_t one = s[j];
                s[j] = s[j + 1];
                s[j + 1] = one;
            }
    classes(s[0], s[1], s[2]);
    measure(pick(2) * pick(9));
    c.named.entered = pick(20);
    c.named.setting = pick(24) ? 1 + pick(c.named.entered ? c.named.entered : 1) : pick(20);
    if (c.named.entered == 0 && pick(8))
        c.named.entered = SIZE_MAX;
    if (pick(10) == 0 && n > 0)
        c.slice_edition[pick(n)] = EDITIONS[pick(EDITION_COUNT)];
    if (pick(10) == 0) { /* something short, long or out of range */
        size_t *lengths[] = {&c.outline_len[0],
                             &c.outline_len[1],
                             &c.slice_at_len,
                             &c.slice_len,
                             &c.slice_edition_len,
                             &c.room_len,
                             &c.ends_len,
                             &c.chain_len,
                             &c.chain_ends_len,
                             &c.chain_how_len,
                             &c.starts.pline2,
                             &c.starts.pline1_overlapping,
                             &c.starts.pline2_overlapping,
                             &c.named.entered_len,
                             &c.named.settings_len,
                             &c.named.setting};
        for (size_t k = 1 + pick(2); k > 0; k--) {
            size_t *length = lengths[pick(16)];
            if (pick(2) && n > 0)
                c.slice_at[4 * pick(n) + pick(4)] = pick(8);
            else if (pick(4) == 0 && n > 0)
                c.slice[pick(6 * n)] = pick(2) ? NAN : 0x1p31;
            else if (pick(8) == 0)
                c.tolerance = spoiled(c.tolerance, (int)pick(3), pick(2) ? 0 : 2);
            else
                *length = pick(2) || *length == 0 ? *length + 1 : *length - 1;
        }
    }
}

static void drawn(unsigned cases)
{
    static call least;
    static char what[32];
    unsigned bad = 0, other = 0, by_number[17] = {0};
    memset(met, 0, sizeof met);
    memset(chosen, 0, sizeof chosen);
    for (unsigned k = 0; k < cases; k++) {
        drawn_call();
        if (!stitched()) {
            if (bad++ == 0 || c.slices < least.slices) {
                least = c;
                snprintf(what, sizeof what, "%s", difference);
            }
        }
        if (got.refusal <= 9 || got.refusal == 14 || got.refusal == 16)
            by_number[got.refusal]++;
        else
            other++;
    }
    check(bad == 0, "stitch: drawn: %u cases, %u accepted, %u differ", cases, by_number[0], bad);
    if (bad != 0) {
        printf("     the smallest, in %s:\n", what);
        show(&least);
    }
    check(other == 0, "stitch: drawn: no number above 9 but 14 and 16");
    for (int n = 1; n < 17; n++)
        if (n != 2 && (n < 10 || n == 14 || n == 16))
            check(by_number[n] > 0, "stitch: drawn: refusal %d: %u", n, by_number[n]);
    for (int kind = 0; kind < KINDS; kind++)
        check(met[kind] > 0, "stitch: drawn: %s: %u", KIND[kind], met[kind]);
    for (int s = 0; s < 2; s++)
        for (int class = 0; class < 4; class ++)
            for (int choice = 0; choice < 4; choice++) {
                int never = (s == 1 && class < 2 && choice == 2) ||
                            (s == 1 && class > 1 && choice == 2) ||
                            (choice == 3 && !(s == 1 && class > 1));
                int ok = (chosen[s][class][choice] > 0) == !never;
                check(ok, "stitch: drawn: selector %d, class %d, choice %d: %u", s, class,
                      choice + 1, chosen[s][class][choice]);
            }
}

/* ---- The area pass ---- */

static struct {
    double areas[SLICES];
    size_t areas_len, loops, kept_len;
    named named;
    double limit;
} p;

static mask_count_answer passed;

static int area_passed(void)
{
    mask_count_answer a = {0, 0};
    int areas_ok = 1;
    expect(KEPT, p.kept_len);
    if (p.areas_len == p.loops)
        for (size_t i = 0; i < p.loops; i++)
            areas_ok = areas_ok && isfinite(p.areas[i]);
    if (p.areas_len != p.loops || p.loops > MOST_SLICES || p.named.entered_len != 1 ||
        p.named.settings_len != RECORD)
        a.refusal = 1;
    else if (!known(&p.named))
        a.refusal = 16;
    else if (!isfinite(p.limit) || p.limit < 0)
        a.refusal = 4;
    else if (!areas_ok)
        a.refusal = 5;
    else if (p.kept_len < p.loops)
        a.refusal = 9;
    else {
        for (size_t i = 0; i < p.loops; i++)
            if (!(fabs(p.areas[i]) < p.limit))
                put_word(KEPT, i);
        a.count = want[KEPT].used;
        fill(KEPT, p.loops);
    }
    passed = mask_area_pass(lend(AREAS, p.areas, p.areas_len), p.areas_len, p.loops,
                            lend_entered(&p.named), p.named.entered_len,
                            lend_settings(&p.named, NAN, NAN, p.limit), p.named.settings_len,
                            p.named.setting, lend_room(KEPT, p.kept_len), p.kept_len);
    return passed.refusal == a.refusal && passed.count == a.count && as_expected(KEPT);
}

static void pass(const double *areas, size_t loops, double limit, size_t beyond)
{
    memcpy(p.areas, areas, loops * sizeof *areas);
    p.areas_len = p.loops = loops;
    p.named = SECOND;
    p.limit = limit;
    p.kept_len = loops + beyond;
}

static void check_pass(uint32_t refusal, size_t count, const char *name)
{
    check(area_passed() && passed.refusal == refusal && passed.count == count, "area: %s", name);
}

static void area(void)
{
    const double zeros[] = {0.0, -0.0, -0x1p-1074, 0x1p-1074};
    const double holes[] = {-1, -0.5, 2, -0.0, -3, 0.5};
    double areas[] = {1, 0.5, 2, 1, 0, 3};
    unsigned bad = 0;
    pass(areas, 0, 0, 0);
    check_pass(0, 0, "no loops, no room");
    pass(areas, 0, 1, 4);
    check_pass(0, 0, "no loops, room unchanged");
    pass(areas, 1, 1, 0);
    check_pass(0, 1, "equal to the limit: kept");
    p.limit = nextafter(1, 2);
    check_pass(0, 0, "one ulp below the limit: dropped");
    p.limit = nextafter(1, 0);
    check_pass(0, 1, "one ulp above the limit: kept");
    pass(holes, 6, 1, 0);
    check_pass(0, 3, "a hole is kept by its size; exactly minus the limit is kept");
    p.limit = nextafter(1, 2);
    check_pass(0, 2, "one ulp below the limit in size, clockwise: dropped");
    pass(areas, 6, 1, 0);
    check_pass(0, 4, "kept by number, in order, the rest 0");
    pass(areas, 6, 1, 5);
    check_pass(0, 4, "room beyond the need unchanged");
    pass(areas, 6, 9, 1);
    check_pass(0, 0, "all dropped");
    pass(zeros, 4, 0.0, 0);
    check_pass(0, 4, "limit 0: all are kept");
    p.limit = -0.0;
    check_pass(0, 4, "limit -0 is accepted: the same");
    p.limit = DBL_MAX;
    check_pass(0, 0, "the greatest limit is accepted");
    p.areas[2] = DBL_MAX, p.areas[1] = -DBL_MAX;
    check_pass(0, 2, "the greatest areas are accepted, and kept whatever their sign");
    p.limit = 0x1p-1074;
    check_pass(0, 3, "the least limit");
    pass(areas, 6, NAN, 0);
    check_pass(4, 0, "limit NaN: 4");
    p.limit = INFINITY;
    check_pass(4, 0, "limit inf: 4");
    p.limit = -INFINITY;
    check_pass(4, 0, "limit -inf: 4");
    p.limit = -0x1p-1074;
    check_pass(4, 0, "limit below 0: 4");
    p.limit = 1;
    p.areas[5] = NAN;
    check_pass(5, 0, "last area NaN: 5");
    p.areas[5] = INFINITY;
    check_pass(5, 0, "last area inf: 5");
    p.areas[5] = -INFINITY;
    check_pass(5, 0, "last area -inf: 5");
    p.limit = -1;
    check_pass(4, 0, "4 before 5");
    p.kept_len = 5;
    check_pass(4, 0, "4 before 9");
    p.limit = 1;
    check_pass(5, 0, "5 before 9");
    p.areas[5] = 0;
    check_pass(9, 0, "room one short: 9");
    p.kept_len = 0;
    check_pass(9, 0, "no room: 9");
    p.loops = 5;
    check_pass(1, 0, "areas one long: 1 before 9");
    p.loops = 7;
    p.limit = NAN;
    check_pass(1, 0, "areas one short: 1 before 4");
    p.loops = SIZE_MAX;
    check_pass(1, 0, "loops SIZE_MAX: 1");
    p.loops = HALF, p.areas_len = 0;
    check_pass(1, 0, "loops 2^63, no areas: 1");
    memset(p.areas, 0, sizeof p.areas);
    p.loops = p.areas_len = p.kept_len = MOST_SLICES;
    p.limit = 0;
    check_pass(0, MOST_SLICES, "1,792 loops");
    p.loops = p.areas_len = p.kept_len = MOST_SLICES + 1;
    check_pass(1, 0, "1,793 loops: 1");
    p.areas[0] = NAN, p.kept_len = 0;
    check_pass(1, 0, "1,793 loops: 1 before 5 and 9");
    pass(areas, 6, 1, 0);
    p.named = (named){1, 1, RECORD, 1};
    check_pass(0, 4, "the first setting");
    p.named = (named){SIZE_MAX, 1, RECORD, 16};
    check_pass(0, 4, "the sixteenth, of a count above 16");
    p.limit = -1, p.areas[5] = NAN, p.kept_len = 0;
    p.named.setting = 17;
    check_pass(16, 0, "setting 17: 16 before 4, 5 and 9");
    p.named.setting = 0;
    check_pass(16, 0, "setting 0: 16");
    p.named = (named){0, 1, RECORD, 1};
    check_pass(16, 0, "an empty record: 16");
    p.named = (named){0, 0, RECORD, 1};
    check_pass(1, 0, "entered empty: 1 before 16");
    p.named = (named){0, 2, RECORD, 1};
    check_pass(1, 0, "entered one long: 1");
    p.named = (named){0, 1, RECORD - 1, 1};
    check_pass(1, 0, "settings one short: 1");
    p.named = (named){0, 1, RECORD + 1, 1};
    check_pass(1, 0, "settings one long: 1");
    p.named = (named){0, 1, RECORD, 1}, p.loops = 5;
    check_pass(1, 0, "areas one long: 1 before 16");
    p.named = SECOND;
    for (int k = 0; k < 5000; k++) {
        p.loops = p.areas_len = pick(k % 50 ? 12 : MOST_SLICES + 1);
        p.limit = pick(20) ? (double)pick(5) : (double[]){NAN, -1, -0.0, INFINITY}[pick(4)];
        p.kept_len = p.loops + pick(2) * pick(6);
        p.named = (named){pick(20), 1, RECORD, 1 + pick(17)};
        for (size_t i = 0; i < p.loops; i++)
            p.areas[i] = pick(3) ? (double)pick(5) : (double)pick(9) - 4.5;
        if (p.loops != 0 && pick(12) == 0)
            p.areas[pick(p.loops)] = (double[]){NAN, INFINITY, -INFINITY, -0.0}[pick(4)];
        if (pick(20) == 0)
            p.kept_len = pick(p.loops + 1);
        if (pick(30) == 0)
            p.areas_len = pick(12);
        bad += !area_passed();
    }
    check(bad == 0, "area: drawn: 5000 cases, %u differ", bad);
}


/* ---- Pruning: what the host has, and how much room it lends ---- */

typedef struct prune_call {
    uint32_t mode, opposing;
    size_t vc[2], count[2], laps;
    size_t cand_at[2][2 * CANDIDATES];
    double cand[2][6 * CANDIDATES];
    uint32_t cand_edition[2][CANDIDATES];
    uint8_t inside[2][CANDIDATES];
    size_t lap_at[7 * LAPS];
    double lap[6 * LAPS];
    uint32_t lap_edition[LAPS];
    size_t cand_at_len[2], cand_len[2], cand_edition_len[2], inside_len[2];
    size_t lap_at_len, lap_len, lap_edition_len;
    size_t slice_at_len, slice_len, slice_edition_len;
} prune_call;

static prune_call q;
static mask_prune_answer pruned;

static void prune_begin(uint32_t mode, uint32_t opposing, size_t vc1, size_t vc2)
{
    q.mode = mode;
    q.opposing = opposing;
    q.vc[0] = vc1;
    q.vc[1] = vc2;
    q.count[0] = q.count[1] = q.laps = 0;
}

/* A candidate of outline 1 (o is 0) or 2 (o is 1). */
static void candidate(int o, size_t start, size_t offset, double x, double y, double end_x,
                      double end_y, uint8_t inside)
{
    const double numbers[] = {x, y, 0, 0, end_x, end_y};
    size_t i = q.count[o]++;
    q.cand_at[o][2 * i] = start;
    q.cand_at[o][2 * i + 1] = offset;
    memcpy(q.cand[o] + 6 * i, numbers, sizeof numbers);
    q.cand_edition[o][i] = 0x10000u * (unsigned)(o + 1) + (uint32_t)i; /* each its own */
    q.inside[o][i] = inside;
}

static size_t prune_need(void) { return q.count[0] + q.count[1] + 2 * q.laps; }

static void prune_measure(size_t beyond)
{
    for (int o = 0; o < 2; o++) {
        q.cand_at_len[o] = 2 * q.count[o];
        q.cand_len[o] = 6 * q.count[o];
        q.cand_edition_len[o] = q.count[o];
        q.inside_len[o] = q.count[o];
    }
    q.lap_at_len = 7 * q.laps;
    q.lap_len = 6 * q.laps;
    q.lap_edition_len = q.laps;
    q.slice_at_len = 4 * prune_need() + beyond;
    q.slice_len = 6 * prune_need() + beyond;
    q.slice_edition_len = prune_need() + beyond;
}

/* The reference: "Pruning". */

static uint32_t prune_refused(void)
{
    for (int o = 0; o < 2; o++)
        if (!right_length(q.cand_at_len[o], 2, q.count[o]) ||
            !right_length(q.cand_len[o], 6, q.count[o]) || q.cand_edition_len[o] != q.count[o] ||
            q.inside_len[o] != q.count[o] || q.count[o] > MOST_CANDIDATES)
            return 1;
    if (!right_length(q.lap_at_len, 7, q.laps) || !right_length(q.lap_len, 6, q.laps) ||
        q.lap_edition_len != q.laps || q.laps > MOST_LAPS)
        return 1;
    for (int o = 0; o < 2; o++)
        if (q.vc[o] < LEAST_VERTICES || q.vc[o] > MOST_VERTICES)
            return 2;
    if (q.mode > 3 || q.opposing > 1)
        return 3;
    for (int o = 0; o < 2; o++)
        for (size_t i = 0; i < q.count[o]; i++)
            if (q.inside[o][i] > 1)
                return 3;
    for (size_t j = 0; j < q.laps; j++)
        if (q.lap_at[7 * j + 4] > 1)
            return 3;
    if (!small_list(q.cand[0], q.cand_len[0]) || !small_list(q.cand[1], q.cand_len[1]) ||
        !small_list(q.lap, q.lap_len))
        return 5;
    for (int o = 0; o < 2; o++)
        for (size_t i = 0; i < q.count[o]; i++)
            if (q.cand_at[o][2 * i] >= q.vc[o])
                return 6;
    for (size_t j = 0; j < q.laps; j++) {
        const size_t *at = q.lap_at + 7 * j;
        if (at[0] >= q.vc[0] || at[1] >= q.vc[1] || at[2] >= q.vc[0] || at[3] >= q.vc[1] ||
            at[5] >= q.vc[1])
            return 6;
    }
    for (int o = 0; o < 2; o++)
        for (size_t i = 0; i < q.count[o]; i++)
            if (q.cand_at[o][2 * i + 1] > q.vc[o])
                return 7;
    for (size_t j = 0; j < q.laps; j++)
        if (q.lap_at[7 * j + 6] > q.vc[1])
            return 7;
    if (q.slice_at_len < 4 * prune_need() || q.slice_len < 6 * prune_need() ||
        q.slice_edition_len < prune_need())
        return 9;
    return 0;
}

static void put_slice(size_t source, size_t inverted, size_t start, size_t offset,
                      const double *numbers, uint32_t edition)
{
    put_word(NEW_SLICE_AT, source);
    put_word(NEW_SLICE_AT, inverted);
    put_word(NEW_SLICE_AT, start);
    put_word(NEW_SLICE_AT, offset);
    put(NEW_SLICE, numbers, 6);
    put_edition(NEW_SLICE_EDITION, edition);
}

/* Of each mode: keep the inside of 1, the inside of 2, opposing wanted. */
static const uint32_t MODES[4][3] = {{0, 0, 0}, {1, 1, 0}, {0, 1, 1}, {1, 0, 1}};

static mask_prune_answer ref_prune(void)
{
    mask_prune_answer a = {0, 0, {0, 0, 0}};
    const uint32_t *mode = MODES[q.mode];
    size_t starts[2];
    for (int o = 0; o < 2; o++) {
        for (size_t i = 0; i < q.count[o]; i++)
            if (q.inside[o][i] == mode[o])
                put_slice((size_t)o + 1, o == 0 && mode[2] != q.opposing, q.cand_at[o][2 * i],
                          q.cand_at[o][2 * i + 1], q.cand[o] + 6 * i, q.cand_edition[o][i]);
        starts[o] = want[NEW_SLICE_AT].used / 4;
    }
    for (size_t j = 0; j < q.laps; j++)
        put_slice(2, q.lap_at[7 * j + 4], q.lap_at[7 * j + 5], q.lap_at[7 * j + 6], q.lap + 6 * j,
                  q.lap_edition[j]);
    a.starts = (mask_starts){starts[0], starts[1], want[NEW_SLICE_AT].used / 4};
    for (size_t j = 0; j < q.laps; j++)
        put_slice(2, 0, q.lap_at[7 * j + 5], q.lap_at[7 * j + 6], q.lap + 6 * j, q.lap_edition[j]);
    a.slices = want[NEW_SLICE_AT].used / 4;
    fill(NEW_SLICE_AT, 4 * prune_need());
    fill(NEW_SLICE, 6 * prune_need());
    fill_editions(NEW_SLICE_EDITION, prune_need());
    return a;
}

static int prune_same(void)
{
    mask_prune_answer a = {prune_refused(), 0, {0, 0, 0}};
    expect(NEW_SLICE_AT, q.slice_at_len);
    expect(NEW_SLICE, q.slice_len);
    expect_editions(NEW_SLICE_EDITION, q.slice_edition_len);
    if (a.refusal == 0)
        a = ref_prune();
    pruned = mask_prune(
        q.mode, q.opposing, q.vc[0], q.vc[1], lend(CAND_AT1, q.cand_at[0], q.cand_at_len[0]),
        q.cand_at_len[0], lend(CAND1, q.cand[0], q.cand_len[0]), q.cand_len[0],
        lend_editions(CAND_EDITION1, q.cand_edition[0], q.cand_edition_len[0]),
        q.cand_edition_len[0], lend_bytes(INSIDE1, q.inside[0], q.inside_len[0]), q.inside_len[0],
        q.count[0], lend(CAND_AT2, q.cand_at[1], q.cand_at_len[1]), q.cand_at_len[1],
        lend(CAND2, q.cand[1], q.cand_len[1]), q.cand_len[1],
        lend_editions(CAND_EDITION2, q.cand_edition[1], q.cand_edition_len[1]),
        q.cand_edition_len[1], lend_bytes(INSIDE2, q.inside[1], q.inside_len[1]), q.inside_len[1],
        q.count[1], lend(LAP_AT, q.lap_at, q.lap_at_len), q.lap_at_len,
        lend(LAP, q.lap, q.lap_len), q.lap_len,
        lend_editions(LAP_EDITION, q.lap_edition, q.lap_edition_len), q.lap_edition_len, q.laps,
        lend_room(NEW_SLICE_AT, q.slice_at_len), q.slice_at_len, lend_room(NEW_SLICE, q.slice_len),
        q.slice_len, lend_edition_room(NEW_SLICE_EDITION, q.slice_edition_len),
        q.slice_edition_len);
    return pruned.refusal == a.refusal && pruned.slices == a.slices &&
           pruned.starts.pline2 == a.starts.pline2 &&
           pruned.starts.pline1_overlapping == a.starts.pline1_overlapping &&
           pruned.starts.pline2_overlapping == a.starts.pline2_overlapping &&
           as_expected(NEW_SLICE_AT) && as_expected(NEW_SLICE) &&
           editions_as_expected(NEW_SLICE_EDITION);
}

/* What the last prune left is stitched: it is never refused, given room and the outlines' editions. */
static int stitch_pruned(uint32_t selector)
{
    c.slices = pruned.slices;
    memcpy(c.slice_at, left(NEW_SLICE_AT, q.slice_at_len), 32 * c.slices);
    memcpy(c.slice, left(NEW_SLICE, q.slice_len), 48 * c.slices);
    memcpy(c.slice_edition, left_editions(NEW_SLICE_EDITION, q.slice_edition_len), 4 * c.slices);
    c.starts = pruned.starts;
    c.selector = selector;
    measure(0);
    return stitched() && got.refusal == 0;
}

/* All candidates of an outline are of one edition, and the overlaps of outline 2's. */
static void prune_editions(uint32_t edition1, uint32_t edition2)
{
    c.edition[0] = edition1, c.edition[1] = edition2;
    for (int o = 0; o < 2; o++)
        for (size_t i = 0; i < q.count[o]; i++)
            q.cand_edition[o][i] = c.edition[o];
    for (size_t j = 0; j < q.laps; j++)
        q.lap_edition[j] = edition2;
}

/* The squares of the sheet: T1 and T2 are the candidates. */
static void prune_squares(uint32_t mode, uint32_t opposing)
{
    prune_begin(mode, opposing, 4, 4);
    candidate(0, 1, 1, 4, 2, 2, 4, 1);
    candidate(0, 2, 3, 2, 4, 4, 2, 0);
    candidate(1, 0, 3, 4, 2, 2, 4, 0);
    candidate(1, 3, 1, 2, 4, 4, 2, 1);
    prune_measure(0);
}

/* The same with an overlap, for the refusals. */
static void prune_with_lap(void)
{
    const size_t at[] = {0, 1, 2, 3, 1, 2, 4};
    const double numbers[] = {1, 2, 0.5, -0.0, 3, 4};
    prune_squares(2, 1);
    memcpy(q.lap_at, at, sizeof at);
    memcpy(q.lap, numbers, sizeof numbers);
    q.lap_edition[0] = UINT32_MAX;
    q.laps = 1;
    prune_measure(0);
}

enum {
    P_COUNT1 = 1,
    P_COUNT2,
    P_LAPS,
    P_LENGTHS,
    P_VC1,
    P_VC2,
    P_MODE,
    P_OPPOSING,
    P_INSIDE,
    P_LAP_OPPOSING,
    P_NUMBERS,
    P_INDEX,
    P_OFFSET,
    P_ROOM
};

static const fault PRUNE_FAULTS[] = {
    {1, P_COUNT1, "count1 one more"},
    {1, P_COUNT1, "count1 SIZE_MAX"},
    {1, P_COUNT1, "count1 2^63, lists empty"},
    {1, P_COUNT1, "count1 769, lists as long"},
    {1, P_COUNT2, "count2 one less"},
    {1, P_COUNT2, "count2 769, lists as long"},
    {1, P_LAPS, "laps one more"},
    {1, P_LAPS, "laps 129, lists as long"},
    {1, P_LAPS, "laps SIZE_MAX"},
    {1, P_LENGTHS, "cand_at1 one long"},
    {1, P_LENGTHS, "cand1 one long"},
    {1, P_LENGTHS, "inside1 one long"},
    {1, P_LENGTHS, "cand_at2 one long"},
    {1, P_LENGTHS, "cand2 one long"},
    {1, P_LENGTHS, "inside2 one long"},
    {1, P_LENGTHS, "lap_at one long"},
    {1, P_LENGTHS, "lap one long"},
    {2, P_VC1, "vc1 1"},
    {2, P_VC1, "vc1 1,025"},
    {2, P_VC1, "vc1 SIZE_MAX"},
    {2, P_VC2, "vc2 0"},
    {2, P_VC2, "vc2 1,025"},
    {3, P_MODE, "mode 4"},
    {3, P_MODE, "mode 2^32 - 1"},
    {3, P_OPPOSING, "opposing 2"},
    {3, P_INSIDE, "inside1 2"},
    {3, P_INSIDE, "last inside2 255"},
    {3, P_LAP_OPPOSING, "an overlap's opposing 2"},
    {3, P_LAP_OPPOSING, "an overlap's 2^32"},
    {5, P_NUMBERS, "cand1 NaN"},
    {5, P_NUMBERS, "a dropped candidate's end y inf"},
    {5, P_NUMBERS, "cand2 above 2^30"},
    {5, P_NUMBERS, "lap -inf"},
    {6, P_INDEX, "start of 1"},
    {6, P_INDEX, "start of 2"},
    {6, P_INDEX, "overlap's start on 1"},
    {6, P_INDEX, "overlap's start on 2"},
    {6, P_INDEX, "overlap's end on 1"},
    {6, P_INDEX, "overlap's end on 2"},
    {6, P_INDEX, "overlap's view start"},
    {7, P_OFFSET, "offset of 1"},
    {7, P_OFFSET, "offset of 2"},
    {7, P_OFFSET, "overlap's offset"},
    {7, P_OFFSET, "offset SIZE_MAX"},
    {9, P_ROOM, "slice_at one short"},
    {9, P_ROOM, "slice one short"},
    {9, P_ROOM, "no room"},
    {9, P_ROOM, "slice_edition one short"},
    {9, P_ROOM, "no slice_edition"},
    {1, P_LENGTHS, "cand_edition1 one long"},
    {1, P_LENGTHS, "cand_edition2 one short"},
    {1, P_LENGTHS, "lap_edition one long"},
    {1, P_LENGTHS, "no lap_edition"},
};
enum { PRUNE_FAULT_COUNT = sizeof PRUNE_FAULTS / sizeof *PRUNE_FAULTS };

static void prune_count(int o, size_t count)
{
    q.count[o] = count;
    q.cand_at_len[o] = 2 * count;
    q.cand_len[o] = 6 * count;
    q.cand_edition_len[o] = count;
    q.inside_len[o] = count;
}

static void prune_spoil(int f)
{
    switch (f) {
    case 0: q.count[0]++; break;
    case 1: q.count[0] = SIZE_MAX; break;
    case 2:
        prune_count(0, 0);
        q.count[0] = HALF;
        break;
    case 3: prune_count(0, MOST_CANDIDATES + 1); break;
    case 4: q.count[1]--; break;
    case 5: prune_count(1, MOST_CANDIDATES + 1); break;
    case 6: q.laps++; break;
    case 7:
        q.laps = MOST_LAPS + 1, q.lap_at_len = 7 * q.laps, q.lap_len = 6 * q.laps;
        q.lap_edition_len = q.laps;
        break;
    case 8: q.laps = SIZE_MAX; break;
    case 9: q.cand_at_len[0]++; break;
    case 10: q.cand_len[0]++; break;
    case 11: q.inside_len[0]++; break;
    case 12: q.cand_at_len[1]++; break;
    case 13: q.cand_len[1]++; break;
    case 14: q.inside_len[1]++; break;
    case 15: q.lap_at_len++; break;
    case 16: q.lap_len++; break;
    case 17: q.vc[0] = 1; break;
    case 18: q.vc[0] = 1025; break;
    case 19: q.vc[0] = SIZE_MAX; break;
    case 20: q.vc[1] = 0; break;
    case 21: q.vc[1] = 1025; break;
    case 22: q.mode = 4; break;
    case 23: q.mode = UINT32_MAX; break;
    case 24: q.opposing = 2; break;
    case 25: q.inside[0][0] = 2; break;
    case 26: q.inside[1][1] = 255; break;
    case 27: q.lap_at[4] = 2; break;
    case 28: q.lap_at[4] = (size_t)1 << 32; break;
    case 29: q.cand[0][6] = NAN; break;
    case 30: q.cand[0][5] = INFINITY; break;
    case 31: q.cand[1][9] = nextafter(LIMIT, INFINITY); break;
    case 32: q.lap[2] = -INFINITY; break;
    case 33: q.cand_at[0][2] = 4; break;
    case 34: q.cand_at[1][0] = SIZE_MAX; break;
    case 35: q.lap_at[0] = 4; break;
    case 36: q.lap_at[1] = 4; break;
    case 37: q.lap_at[2] = 4; break;
    case 38: q.lap_at[3] = SIZE_MAX; break;
    case 39: q.lap_at[5] = 4; break;
    case 40: q.cand_at[0][1] = 5; break;
    case 41: q.cand_at[1][3] = 5; break;
    case 42: q.lap_at[6] = 5; break;
    case 43: q.cand_at[0][3] = SIZE_MAX; break;
    case 44: q.slice_at_len--; break;
    case 45: q.slice_len--; break;
    case 46: q.slice_at_len = q.slice_len = 0; break;
    case 47: q.slice_edition_len--; break;
    case 48: q.slice_edition_len = 0; break;
    case 49: q.cand_edition_len[0]++; break;
    case 50: q.cand_edition_len[1]--; break;
    case 51: q.lap_edition_len++; break;
    case 52: q.lap_edition_len = 0; break;
    default: abort();
    }
}

static void prune_refusals(void)
{
    unsigned pairs = 0, bad = 0;
    for (int f = 0; f < PRUNE_FAULT_COUNT; f++) {
        uint32_t number = PRUNE_FAULTS[f].number;
        prune_with_lap();
        prune_spoil(f);
        check(prune_refused() == number && prune_same() && pruned.refusal == number,
              "prune: refusal %u alone: %s", number, PRUNE_FAULTS[f].name);
    }
    for (int f = 0; f < PRUNE_FAULT_COUNT; f++)
        for (int g = f + 1; g < PRUNE_FAULT_COUNT; g++) {
            uint32_t lowest = PRUNE_FAULTS[f].number;
            if (PRUNE_FAULTS[g].number < lowest)
                lowest = PRUNE_FAULTS[g].number;
            if (PRUNE_FAULTS[f].group == PRUNE_FAULTS[g].group)
                continue;
            prune_with_lap();
            prune_spoil(f);
            prune_spoil(g);
            pairs++;
            if (prune_refused() != lowest || !prune_same()) {
                if (bad++ == 0)
                    printf("     %s, and %s: %u, not %u\n", PRUNE_FAULTS[f].name,
                           PRUNE_FAULTS[g].name, pruned.refusal, lowest);
            }
        }
    check(bad == 0, "prune: the lowest of two refusals: %u pairs, %u differ", pairs, bad);
}

static void prune_drawn(unsigned cases)
{
    unsigned bad = 0, accepted = 0, stitches = 0, kinds[4][2] = {{0}};
    for (unsigned k = 0; k < cases; k++) {
        int big = k % 500 == 0;
        prune_begin((uint32_t)pick(4), (uint32_t)pick(2), 2 + pick(4), 2 + pick(4));
        q.count[0] = pick(big ? MOST_CANDIDATES + 1 : 7);
        q.count[1] = pick(big ? MOST_CANDIDATES + 1 : 7);
        q.laps = pick(big ? MOST_LAPS + 1 : 4);
        for (int o = 0; o < 2; o++) {
            for (size_t i = 0; i < q.count[o]; i++) {
                q.cand_at[o][2 * i] = pick(q.vc[o]);
                q.cand_at[o][2 * i + 1] = pick(q.vc[o] + 1);
                q.inside[o][i] = (uint8_t)pick(2);
            }
            for (size_t i = 0; i < 6 * q.count[o]; i++)
                q.cand[o][i] = pick(3) ? drawn_number(0.5, 4) : drawn_bulge();
        }
        prune_editions(EDITIONS[pick(EDITION_COUNT)], (uint32_t)draw64());
        if (k % 4 == 0) { /* any editions are copied; they are not stitched */
            for (int o = 0; o < 2; o++)
                for (size_t i = 0; i < q.count[o]; i++)
                    q.cand_edition[o][i] = (uint32_t)draw64();
            for (size_t j = 0; j < q.laps; j++)
                q.lap_edition[j] = (uint32_t)draw64();
        }
        for (size_t j = 0; j < q.laps; j++) {
            for (int i = 0; i < 7; i++)
                q.lap_at[7 * j + i] = i == 4   ? pick(2)
                                      : i == 6 ? pick(q.vc[1] + 1)
                                               : pick(q.vc[i < 4 && i % 2 == 0 ? 0 : 1]);
            for (int i = 0; i < 6; i++)
                q.lap[6 * j + i] = pick(3) ? drawn_number(0.5, 4) : drawn_bulge();
        }
        prune_measure(pick(2) * pick(9));
        if (pick(12) == 0) {
            size_t *lengths[] = {&q.cand_at_len[0],  &q.cand_len[1],         &q.inside_len[0],
                                 &q.inside_len[1],   &q.lap_at_len,          &q.lap_len,
                                 &q.slice_at_len,    &q.slice_len,           &q.slice_edition_len,
                                 &q.lap_edition_len, &q.cand_edition_len[0], &q.cand_edition_len[1]};
            size_t *length = lengths[pick(12)];
            if (pick(2))
                *length = *length == 0 ? 1 : *length - 1;
            else if (q.count[0] != 0 && pick(2))
                q.cand_at[0][pick(2 * q.count[0])] = pick(9);
            else if (q.laps != 0)
                q.lap_at[pick(7 * q.laps)] = pick(9);
        }
        bad += !prune_same();
        if (pruned.refusal == 0) {
            accepted++;
            kinds[q.mode][q.opposing]++;
            for (int o = 0; o < 2; o++) {
                c.vc[o] = q.vc[o];
                for (size_t i = 0; i < 3 * c.vc[o]; i++)
                    c.outline[o][i] = i % 3 == 2 ? drawn_bulge() : drawn_number(0.5, 4);
            }
            c.tolerance = both(k % 2 ? T : 0.5);
            if (pruned.slices <= prune_need() && k % 4 != 0) {
                stitches++;
                bad += !stitch_pruned(q.mode > 1);
            }
        }
    }
    check(bad == 0, "prune: drawn: %u cases, %u accepted, %u stitched, %u differ", cases, accepted,
          stitches, bad);
    for (int mode = 0; mode < 4; mode++)
        check(kinds[mode][0] > 0 && kinds[mode][1] > 0, "prune: drawn: mode %d: %u and %u opposing",
              mode, kinds[mode][0], kinds[mode][1]);
}

static void prune(void)
{
    static const size_t corners[4] = {8, 4, 6, 6}; /* of the loop of each mode */
    for (uint32_t mode = 0; mode < 4; mode++)
        for (uint32_t opposing = 0; opposing < 2; opposing++) {
            prune_squares(mode, opposing);
            check(prune_same() && pruned.refusal == 0 && pruned.slices == 2 &&
                      pruned.starts.pline2 == 1 && pruned.starts.pline1_overlapping == 2 &&
                      pruned.starts.pline2_overlapping == 2,
                  "prune: the two squares, mode %u, opposing %u: starts 1, 2, 2", mode, opposing);
            if (opposing == 0) {
                begin(A, 4, B, 4, 0, T);
                prune_editions(0, UINT32_MAX);
                check(prune_same() && stitch_pruned(mode > 1) && got.loops == 1 &&
                          left(ENDS, c.ends_len)[0] == corners[mode],
                      "prune: the two squares, mode %u: one loop of %zu when stitched", mode,
                      corners[mode]);
            }
            prune_with_lap();
            q.mode = mode, q.opposing = opposing;
            prune_measure(3);
            check(prune_same() && pruned.refusal == 0 && pruned.slices == 4 &&
                      left(NEW_SLICE_AT, q.slice_at_len)[9] == 1 &&
                      left(NEW_SLICE_AT, q.slice_at_len)[13] == 0,
                  "prune: with an opposing overlap, mode %u, opposing %u", mode, opposing);
            q.lap_at[4] = 0;
            check(prune_same() && left(NEW_SLICE_AT, q.slice_at_len)[9] == 0,
                  "prune: with an overlap that does not oppose, mode %u, opposing %u", mode,
                  opposing);
        }
    prune_begin(3, 1, 2, 1024);
    prune_measure(0);
    check(prune_same() && pruned.refusal == 0 && pruned.slices == 0, "prune: nothing, no room");
    prune_measure(4);
    check(prune_same() && pruned.refusal == 0, "prune: nothing, room unchanged");
    for (int all = 0; all < 2; all++) {
        prune_begin(1, 1, 1024, 2);
        for (int i = 0; i < MOST_CANDIDATES; i++) {
            candidate(0, (size_t)i, 1024, i, 0, 1, i, (uint8_t)all);
            candidate(1, (size_t)i % 2, 2, i, 0, 1, i, (uint8_t)all);
        }
        q.laps = MOST_LAPS;
        for (size_t i = 0; i < 7 * MOST_LAPS; i++)
            q.lap_at[i] = i % 7 == 6 ? 2 : i % 2;
        for (size_t i = 0; i < 6 * MOST_LAPS; i++)
            q.lap[i] = (double)i;
        for (size_t j = 0; j < MOST_LAPS; j++)
            q.lap_edition[j] = UINT32_MAX - (uint32_t)j;
        prune_measure(0);
        check(prune_same() && pruned.refusal == 0 &&
                  pruned.slices == (all ? MOST_SLICES : 2 * MOST_LAPS),
              "prune: the most of everything, %s kept", all ? "all" : "none");
    }
    prune_refusals();
    prune_drawn(10000);
}


int main(void)
{
    make_room();
    seed = 0x9e3779b97f4a7c15;
    built = pages_of((ROOM / 3 + 8) * sizeof *built);
    sheet();
    endings();
    table();
    sides();
    whole_outlines();
    most();
    refusals();
    editions();
    drawn(30000);
    area();
    prune();
    return finish("stitch_test");
}
