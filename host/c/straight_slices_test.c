/*
 * Calls mask_straight_slices as a host does, and compares every answer and every list lent,
 * bit for bit and to its last element, with what request K11 says: the slices are those that
 * mask_candidates of both outlines, mask_straight_winding and mask_prune give in turn. One
 * line for each check; the status is 0 where none failed.
 *
 * The refusals below are written from document 01 and request K11 and from nothing else. The
 * three in turn are the archive's own, which the other tests hold against document 01; what
 * stands between them, splits and inside answers, is written here from the request.
 *
 * How lists are lent, and what they hold before a call, stands in testing.h.
 */
#include "testing.h"

AT(mask_prune_answer, refusal, 0);
AT(mask_prune_answer, slices, 8);
AT(mask_prune_answer, starts, 16);
SIZE(mask_prune_answer, 40);

/* ---- Sizes of document 01, and one more of each for the refusals ---- */

enum {
    MOST_HITS = 512,
    MOST_CUTS = MOST_HITS + 2 * MOST_LAPS,
    VERTICES = MOST_VERTICES + 2,
    HITS = MOST_HITS + 2,
    LAPS = MOST_LAPS + 2,
    CUTS = HITS + 2 * LAPS,
    SLICES = 2 * CUTS + 2 * LAPS
};

static const double MOST = 400000000;

/* ---- A call: what the host has, and how much room it lends ---- */

typedef struct call {
    double outline[2][3 * VERTICES];
    size_t hit_at[2 * HITS];
    double hit[2 * HITS];
    size_t lap_at[7 * LAPS];
    double lap[6 * LAPS];
    uint32_t lap_edition[LAPS];
    size_t outline_len[2], hit_at_len, hit_len, lap_at_len, lap_len, lap_edition_len;
    size_t vc[2], hits, laps;
    uint32_t mode, opposing, edition[2];
    axes tolerance;
    size_t slice_at_len, slice_len, slice_edition_len;
} call;

static call c; /* the call that is being made ready */

static void begin(const double *outline1, size_t vc1, const double *outline2, size_t vc2,
                  uint32_t mode)
{
    memcpy(c.outline[0], outline1, 3 * vc1 * sizeof *outline1);
    memcpy(c.outline[1], outline2, 3 * vc2 * sizeof *outline2);
    c.vc[0] = vc1;
    c.vc[1] = vc2;
    c.hits = c.laps = 0;
    c.edition[0] = 0xed171001;
    c.edition[1] = 0xed171002;
    c.mode = mode;
    c.opposing = 0;
    c.tolerance = both(T);
}

/* A basic intersection. */
static void add_hit(size_t on1, size_t on2, double x, double y)
{
    size_t i = c.hits++;
    c.hit_at[2 * i] = on1;
    c.hit_at[2 * i + 1] = on2;
    c.hit[2 * i] = x;
    c.hit[2 * i + 1] = y;
}

/* A joined overlap, whose view starts with the overlap on outline 2. */
static void add_lap(size_t start1, size_t start2, size_t end1, size_t end2, size_t opposing,
                    size_t offset, mask_point start, mask_point end)
{
    const size_t at[] = {start1, start2, end1, end2, opposing, start2, offset};
    const double numbers[] = {start.x, start.y, 0, 0, end.x, end.y};
    memcpy(c.lap_at + 7 * c.laps, at, sizeof at);
    memcpy(c.lap + 6 * c.laps, numbers, sizeof numbers);
    c.lap_edition[c.laps] = (uint32_t)(77 + c.laps);
    c.laps++;
}

/* "(hits + 2 laps) of each outline plus 2 laps" */
static size_t need(void) { return 2 * (c.hits + 2 * c.laps) + 2 * c.laps; }

/* The lengths that the counts ask for; the room is the need and so much beyond it. */
static void measure(size_t beyond)
{
    size_t n = need();
    for (int i = 0; i < 2; i++)
        c.outline_len[i] = 3 * c.vc[i];
    c.hit_at_len = 2 * c.hits;
    c.hit_len = 2 * c.hits;
    c.lap_at_len = 7 * c.laps;
    c.lap_len = 6 * c.laps;
    c.lap_edition_len = c.laps;
    c.slice_at_len = 4 * n + beyond;
    c.slice_len = 6 * n + beyond;
    c.slice_edition_len = n + beyond;
}

/* ---- Memory lent ---- */

enum {
    OUTLINE1,
    OUTLINE2,
    HIT_AT,
    HIT,
    LAP_AT,
    LAP,
    LAP_EDITION,
    SLICE_AT,
    SLICE,
    SLICE_EDITION,
    LISTS
};

static void make_room(void)
{
    static const size_t most[LISTS] = {3 * VERTICES, 3 * VERTICES, 2 * HITS,   2 * HITS,   7 * LAPS,
                                       6 * LAPS,     LAPS,         4 * SLICES, 6 * SLICES, SLICES};
    for (int i = 0; i < LISTS; i++)
        make_list(i, most[i]);
    watch("FAIL the entry wrote to a list lent to be read, or left a list\n");
}

static mask_prune_answer straight_slices(void)
{
    return mask_straight_slices(
        c.mode, c.opposing, lend(OUTLINE1, c.outline[0], c.outline_len[0]), c.outline_len[0],
        c.vc[0], c.edition[0], lend(OUTLINE2, c.outline[1], c.outline_len[1]), c.outline_len[1],
        c.vc[1], c.edition[1], lend(HIT_AT, c.hit_at, c.hit_at_len), c.hit_at_len,
        lend(HIT, c.hit, c.hit_len), c.hit_len, c.hits, lend(LAP_AT, c.lap_at, c.lap_at_len),
        c.lap_at_len, lend(LAP, c.lap, c.lap_len), c.lap_len,
        lend_editions(LAP_EDITION, c.lap_edition, c.lap_edition_len), c.lap_edition_len, c.laps,
        c.tolerance.x, c.tolerance.y, lend_room(SLICE_AT, c.slice_at_len), c.slice_at_len,
        lend_room(SLICE, c.slice_len), c.slice_len,
        lend_edition_room(SLICE_EDITION, c.slice_edition_len), c.slice_edition_len);
}

/* What the last call left. */
static const size_t *slice_at(void) { return left(SLICE_AT, c.slice_at_len); }
static const double *slice(void) { return left_numbers(SLICE, c.slice_len); }
static const uint32_t *slice_edition(void)
{
    return left_editions(SLICE_EDITION, c.slice_edition_len);
}

/* ---- The refusals: document 01, request K11 ---- */

/* The index at place `at` of each item is below the vertex count. */
static int inside(const size_t *list, size_t width, size_t at, size_t count, size_t vc)
{
    for (size_t i = 0; i < count; i++)
        if (list[width * i + at] >= vc)
            return 0;
    return 1;
}

/* A whole number of microdegrees. What is not within 2^30 is refused before this is asked. */
static int whole(double a) { return fabs(a) <= MOST && floor(a) == a; }

/* Each item has so many numbers; `bulges` has a bit for each of them that is a bulge. */
static int straight_list(const double *list, size_t len, size_t width, unsigned bulges)
{
    for (size_t i = 0; i < len; i++)
        if (bulges >> (i % width) & 1 ? list[i] != 0 : !whole(list[i]))
            return 0;
    return 1;
}

enum { OUTLINE_BULGES = 1 << 2, NO_BULGES = 0, LAP_BULGES = 1 << 2 | 1 << 3 };

static uint32_t refused(void)
{
    if (!right_length(c.outline_len[0], 3, c.vc[0]) || !right_length(c.outline_len[1], 3, c.vc[1]) ||
        !right_length(c.hit_at_len, 2, c.hits) || !right_length(c.hit_len, 2, c.hits) ||
        !right_length(c.lap_at_len, 7, c.laps) || !right_length(c.lap_len, 6, c.laps) ||
        c.lap_edition_len != c.laps || c.hits > MOST_HITS || c.laps > MOST_LAPS)
        return 1;
    for (int i = 0; i < 2; i++)
        if (c.vc[i] < LEAST_VERTICES || c.vc[i] > MOST_VERTICES)
            return 2;
    if (c.mode > 3 || c.opposing > 1)
        return 3;
    for (size_t j = 0; j < c.laps; j++)
        if (c.lap_at[7 * j + 4] > 1)
            return 3;
    if (!right_tolerances(c.tolerance))
        return 4;
    if (!small_list(c.outline[0], c.outline_len[0]) || !small_list(c.outline[1], c.outline_len[1]) ||
        !small_list(c.hit, c.hit_len) || !small_list(c.lap, c.lap_len))
        return 5;
    if (!straight_list(c.outline[0], c.outline_len[0], 3, OUTLINE_BULGES) ||
        !straight_list(c.outline[1], c.outline_len[1], 3, OUTLINE_BULGES) ||
        !straight_list(c.hit, c.hit_len, 2, NO_BULGES) ||
        !straight_list(c.lap, c.lap_len, 6, LAP_BULGES))
        return 18;
    for (size_t i = 0; i < 2; i++)
        if (!inside(c.hit_at, 2, i, c.hits, c.vc[i]) || !inside(c.lap_at, 7, i, c.laps, c.vc[i]) ||
            !inside(c.lap_at, 7, 2 + i, c.laps, c.vc[i]))
            return 6;
    if (!inside(c.lap_at, 7, 5, c.laps, c.vc[1]))
        return 6;
    if (!inside(c.lap_at, 7, 6, c.laps, c.vc[1] + 1))
        return 7;
    if (c.slice_at_len / 4 < need() || c.slice_len / 6 < need() || c.slice_edition_len < need())
        return 9;
    return 0;
}

/* ---- The three in turn ---- */

typedef struct side {
    size_t cut_at[3 * CUTS], cand_at[2 * CUTS], count;
    double cut[2 * CUTS], splits[9 * CUTS], cand[6 * CUTS], probe[6 * CUTS];
    uint32_t cand_edition[CUTS];
    uint8_t inside[CUTS];
} side;

static side sides[2];

/* How often each thing was met: a test that meets none shows nothing. */
enum {
    INSIDE = 32, /* below stand the refusals */
    OUTSIDE,
    ON_EDGE, /* the midpoint of a candidate's two vertices */
    KEPT,
    NOT_KEPT,
    OPPOSED,
    INVERTED,
    MANY_CUTS,
    REST, /* room left to be cleared */
    KINDS
};

static unsigned met[KINDS];

/* "the parts keep their positions and have bulge +0" */
static void straight_splits(side *s, const double *outline)
{
    for (size_t p = 0; p < c.hits + 2 * c.laps; p++) {
        double *at = s->splits + 9 * p;
        const double *running = outline + 3 * s->cut_at[3 * p];
        if (p > 0 && s->cut_at[3 * (p - 1)] == s->cut_at[3 * p])
            running = s->cut + 2 * (p - 1);
        for (int part = 0; part < 3; part++) {
            memcpy(at + 3 * part, part == 0 ? running : s->cut + 2 * p, 2 * sizeof *at);
            at[3 * part + 2] = 0;
        }
    }
}

static void whole_outline(int64_t *to, const double *outline, size_t vc)
{
    for (size_t i = 0; i < vc; i++) {
        to[2 * i] = (int64_t)outline[3 * i];
        to[2 * i + 1] = (int64_t)outline[3 * i + 1];
    }
}

/* The point, in doubled coordinates, lies on an edge. */
static int on_edge(const int64_t *o, size_t vc, int64_t x, int64_t y)
{
    for (size_t i = 0; i < vc; i++) {
        size_t j = i + 1 == vc ? 0 : i + 1;
        int64_t x1 = 2 * o[2 * i], y1 = 2 * o[2 * i + 1], x2 = 2 * o[2 * j], y2 = 2 * o[2 * j + 1];
        __extension__ __int128 a = (__int128)(x2 - x1) * (y - y1), b = (__int128)(x - x1) * (y2 - y1);
        int64_t least_x = x1 < x2 ? x1 : x2, most_x = x1 < x2 ? x2 : x1;
        int64_t least_y = y1 < y2 ? y1 : y2, most_y = y1 < y2 ? y2 : y1;
        if (a == b && least_x <= x && x <= most_x && least_y <= y && y <= most_y)
            return 1;
    }
    return 0;
}

/* "by K8's winding numbers at the doubled midpoint of each candidate's two vertices in the other
 * outline": the doubled midpoint is their sum. */
static int ask_inside(side *s, const double *other, size_t vc)
{
    static int64_t o[2 * VERTICES];
    whole_outline(o, other, vc);
    for (size_t k = 0; k < s->count; k++) {
        const double *p = s->probe + 6 * k;
        int64_t x = (int64_t)p[0] + (int64_t)p[3], y = (int64_t)p[1] + (int64_t)p[4];
        mask_winding_answer a = mask_straight_winding(o, 2 * vc, vc, x, y);
        if (a.refusal)
            return 0;
        s->inside[k] = a.winding != 0;
        met[a.winding ? INSIDE : OUTSIDE]++;
        met[ON_EDGE] += on_edge(o, vc, x, y);
    }
    return 1;
}

static int cut_side(uint32_t source)
{
    side *s = &sides[source - 1];
    const double *o = c.outline[source - 1];
    size_t vc = c.vc[source - 1], n = c.hits + 2 * c.laps;
    mask_count_answer a =
        mask_cut_order(o, 3 * vc, vc, source, c.hit_at, c.hit_at_len, c.hit, c.hit_len, c.hits,
                       c.lap_at, c.lap_at_len, c.lap, c.lap_len, c.laps, c.tolerance.x,
                       c.tolerance.y, s->cut_at, 3 * n, s->cut, 2 * n);
    if (a.refusal)
        return 0;
    straight_splits(s, o);
    a = mask_candidates(o, 3 * vc, vc, c.edition[source - 1], source, c.hit_at, c.hit_at_len, c.hit,
                        c.hit_len, c.hits, c.lap_at, c.lap_at_len, c.lap, c.lap_len, c.laps,
                        s->splits, 9 * n, c.tolerance.x, c.tolerance.y, s->cand_at, 2 * n, s->cand,
                        6 * n, s->probe, 6 * n, s->cand_edition, n);
    s->count = a.count;
    return !a.refusal && ask_inside(s, c.outline[2 - source], c.vc[2 - source]);
}

/* What the three give; `came` is 0 where one of them refuses. */
static mask_prune_answer in_turn(int *came)
{
    static size_t at[4 * SLICES];
    static double numbers[6 * SLICES];
    static uint32_t editions[SLICES];
    const side *s1 = &sides[0], *s2 = &sides[1];
    mask_prune_answer a = {.refusal = 0};
    *came = cut_side(1) && cut_side(2);
    if (!*came)
        return a;
    a = mask_prune(c.mode, c.opposing, c.vc[0], c.vc[1], s1->cand_at, 2 * s1->count, s1->cand,
                   6 * s1->count, s1->cand_edition, s1->count, s1->inside, s1->count, s1->count,
                   s2->cand_at, 2 * s2->count, s2->cand, 6 * s2->count, s2->cand_edition, s2->count,
                   s2->inside, s2->count, s2->count, c.lap_at, c.lap_at_len, c.lap, c.lap_len,
                   c.lap_edition, c.lap_edition_len, c.laps, at, 4 * SLICES, numbers, 6 * SLICES,
                   editions, SLICES);
    *came = !a.refusal;
    for (size_t i = 0; i < a.slices; i++) {
        for (int k = 0; k < 4; k++)
            put_word(SLICE_AT, at[4 * i + k]);
        put(SLICE, numbers + 6 * i, 6);
        put_edition(SLICE_EDITION, editions[i]);
        met[INVERTED] += at[4 * i + 1] == 1;
    }
    met[KEPT] += (unsigned)a.starts.pline1_overlapping;
    met[NOT_KEPT] += (unsigned)(s1->count + s2->count - a.starts.pline1_overlapping);
    return a;
}

/* ---- Against them ---- */

static mask_prune_answer told;

static int same_answer(mask_prune_answer a, mask_prune_answer b)
{
    return a.refusal == b.refusal && a.slices == b.slices && a.starts.pline2 == b.starts.pline2 &&
           a.starts.pline1_overlapping == b.starts.pline1_overlapping &&
           a.starts.pline2_overlapping == b.starts.pline2_overlapping;
}

static void tell_numbers(const char *name, const double *list, size_t len)
{
    printf("     %s:", name);
    for (size_t i = 0; i < len && i < 60; i++)
        printf(" %.17g", list[i]);
    printf(len > 60 ? " ..\n" : "\n");
}

static void tell_counts(const char *name, const size_t *list, size_t len)
{
    printf("     %s:", name);
    for (size_t i = 0; i < len && i < 60; i++)
        printf(" %zu", list[i]);
    printf(len > 60 ? " ..\n" : "\n");
}

/* The call, so that it can be made again. */
static void tell(mask_prune_answer meant)
{
    printf("     refusal %u, slices %zu, expected %u, %zu; mode %u, opposing %u, hits %zu, laps %zu\n",
           (unsigned)told.refusal, told.slices, (unsigned)meant.refusal, meant.slices,
           (unsigned)c.mode, (unsigned)c.opposing, c.hits, c.laps);
    tell_numbers("outline1", c.outline[0], c.outline_len[0]);
    tell_numbers("outline2", c.outline[1], c.outline_len[1]);
    tell_counts("hit_at", c.hit_at, c.hit_at_len);
    tell_numbers("hit", c.hit, c.hit_len);
    tell_counts("lap_at", c.lap_at, c.lap_at_len);
    tell_numbers("lap", c.lap, c.lap_len);
}

/* The call's answer and lists are those of the three in turn, or its refusal and nothing written. */
static int right(void)
{
    mask_prune_answer meant = {.refusal = refused()};
    int came = 1;
    expect(SLICE_AT, c.slice_at_len);
    expect(SLICE, c.slice_len);
    expect_editions(SLICE_EDITION, c.slice_edition_len);
    if (!meant.refusal) {
        meant = in_turn(&came);
        met[REST] += meant.slices < need();
        fill(SLICE_AT, 4 * need());
        fill(SLICE, 6 * need());
        fill_editions(SLICE_EDITION, need());
    }
    told = straight_slices();
    if (came && same_answer(told, meant) && as_expected(SLICE_AT) && as_expected(SLICE) &&
        editions_as_expected(SLICE_EDITION))
        return 1;
    if (!came)
        puts("     one of the three refuses");
    tell(meant);
    return 0;
}

static int refuses(uint32_t number) { return right() && told.refusal == number; }
static int accepts(void) { return refuses(0); }

/* ---- The sheet: two squares ---- */

static void squares(uint32_t mode)
{
    begin(A, 4, B, 4, mode);
    add_hit(1, 0, 4, 2);
    add_hit(2, 3, 2, 4);
    measure(3);
}

static int slices_are(const size_t *at, const double *numbers, size_t count, mask_starts s)
{
    return accepts() && told.slices == count && memcmp(slice_at(), at, 4 * count * sizeof *at) == 0 &&
           memcmp(slice(), numbers, 6 * count * sizeof *numbers) == 0 &&
           told.starts.pline2 == s.pline2 && told.starts.pline1_overlapping == s.pline1_overlapping &&
           told.starts.pline2_overlapping == s.pline2_overlapping;
}

static void sheet(void)
{
    static const mask_starts starts = {1, 2, 2};
    static const size_t outer1[] = {1, 0, 2, 3}, inner1[] = {1, 0, 1, 1};
    static const size_t outer2[] = {2, 0, 0, 3}, inner2[] = {2, 0, 3, 1};
    static const double up1[] = {2, 4, 0, 0, 4, 2}, down1[] = {4, 2, 0, 0, 2, 4};
    static const double up2[] = {4, 2, 0, 0, 2, 4}, down2[] = {2, 4, 0, 0, 4, 2};
    size_t at[8];
    double numbers[12];
    static const char *const names[] = {"union", "intersection", "first minus second",
                                        "second minus first"};
    for (uint32_t mode = 0; mode < 4; mode++) {
        int in1 = mode == 1 || mode == 3, in2 = mode == 1 || mode == 2;
        memcpy(at, in1 ? inner1 : outer1, sizeof inner1);
        memcpy(at + 4, in2 ? inner2 : outer2, sizeof inner2);
        memcpy(numbers, in1 ? down1 : up1, sizeof down1);
        memcpy(numbers + 6, in2 ? down2 : up2, sizeof down2);
        at[1] = mode >= 2; /* "opposing wanted" differs from the outlines' own */
        squares(mode);
        check(slices_are(at, numbers, 2, starts) && slice_edition()[0] == c.edition[0] &&
                  slice_edition()[1] == c.edition[1],
              "sheet: the two squares, %s", names[mode]);
    }
    squares(2);
    c.opposing = 1;
    check(accepts() && slice_at()[1] == 0, "sheet: outlines that run in opposing directions");

    /* The square right of A: an overlap on A's segment 1, opposing. */
    for (uint32_t mode = 0; mode < 4; mode++) {
        static const double right_of_a[] = {4, 0, 0, 8, 0, 0, 8, 4, 0, 4, 4, 0};
        begin(A, 4, right_of_a, 4, mode);
        add_lap(1, 3, 1, 3, 1, 0, (mask_point){4, 4}, (mask_point){4, 0});
        measure(0);
        check(accepts() && told.slices >= 2 && slice_edition()[told.slices - 1] == 77,
              "overlap: squares that share an edge, %s", names[mode]);
    }
    begin(A, 4, B, 4, 0);
    measure(0);
    check(accepts() && told.slices == 0 && c.slice_at_len == 0, "no cuts: no slices, no room");
    measure(5);
    check(accepts() && told.slices == 0, "no cuts: no slices, room left as it was");
}

/* ---- Bulges of zero ---- */

static int is_zero(double a, int negative) { return a == 0 && !signbit(a) == !negative; }

static void zeros(void)
{
    squares(0);
    for (size_t i = 0; i < 4; i++)
        c.outline[0][3 * i + 2] = c.outline[1][3 * i + 2] = -0.0;
    check(accepts() && is_zero(slice()[2], 0) && is_zero(slice()[3], 0) && is_zero(slice()[8], 0),
          "bulge -0 in the outlines: accepted, and the parts have +0");

    /* A cut on vertex 2 of A: the walk to it ends with the bulge of the vertex before. */
    begin(A, 4, B, 4, 0);
    c.outline[0][3 * 1 + 2] = -0.0;
    add_hit(0, 0, 2, 0);
    add_hit(2, 3, 4, 4);
    measure(0);
    check(accepts() && right() && told.slices > 0 && is_zero(sides[0].cand[3], 1),
          "bulge -0: a walk that ends on a vertex has that of the vertex before");

    squares(0);
    add_lap(0, 0, 1, 0, 0, 0, (mask_point){2, 2}, (mask_point){4, 2});
    c.lap[2] = c.lap[3] = -0.0;
    measure(0);
    check(accepts() && told.slices >= 2 && is_zero(slice()[6 * told.slices - 4], 1) &&
              is_zero(slice()[6 * told.slices - 3], 1),
          "bulge -0 of an overlap: accepted, and copied");

    squares(0);
    c.outline[0][0] = c.outline[0][1] = -0.0;
    check(accepts(), "coordinate -0: accepted");
}

/* ---- Number 18 ---- */

typedef struct place {
    double *number;
    int is_bulge;
    const char *name;
} place;

/* Every kind of number that is lent. */
static size_t places(place *list)
{
    static const char *const names[] = {"outline 1", "outline 2", "intersection", "overlap"};
    double *const lists[] = {c.outline[0], c.outline[1], c.hit, c.lap};
    const size_t widths[] = {3, 3, 2, 6}, counts[] = {c.vc[0], c.vc[1], c.hits, c.laps};
    size_t n = 0;
    for (int k = 0; k < 4; k++)
        for (size_t i = 0; i < counts[k] * widths[k]; i++) {
            size_t at = i % widths[k];
            int bulge = k < 2 ? at == 2 : k == 3 && (at == 2 || at == 3);
            list[n++] = (place){lists[k] + i, bulge, names[k]};
        }
    return n;
}

static void one_of_each(void)
{
    squares(0);
    add_lap(0, 0, 1, 0, 0, 0, (mask_point){2, 2}, (mask_point){4, 2});
    measure(0);
}

/* The number in every place of its kind, one after the other, is refused with this. */
static int everywhere(double number, int bulges, uint32_t refusal)
{
    static place list[64];
    size_t n;
    int ok = 1;
    one_of_each();
    n = places(list);
    for (size_t i = 0; i < n && ok; i++) {
        double before = *list[i].number;
        if (list[i].is_bulge != bulges)
            continue;
        *list[i].number = number;
        ok = refuses(refusal);
        if (!ok)
            printf("     %.17g in %s, place %zu: refusal %u\n", number, list[i].name, i,
                   (unsigned)told.refusal);
        *list[i].number = before;
    }
    return ok;
}

static void straight(void)
{
    static const double far[] = {400000001, -400000001, 1073741824, -1073741824, 999999999};
    static const double broken[] = {0.5, -0.5, 0.25, 1.5, 5e-324, -5e-324, 1e-300, 399999999.5, 0.1};
    static const double bulges[] = {0.25, -0.25, 1, -1, 5e-324, 1e-300, 400000000, 1073741824};
    static const double outside[] = {NAN, INFINITY, -INFINITY, DBL_MAX, -DBL_MAX, 1073741825};
    int ok = 1;
    one_of_each();
    check(accepts(), "18: accepted without what follows");
    for (size_t i = 0; i < sizeof far / sizeof *far; i++)
        ok = ok && everywhere(far[i], 0, 18);
    ok = ok && everywhere(nextafter(MOST, INFINITY), 0, 18) && everywhere(LIMIT, 0, 18);
    check(ok, "18: 400,000,001 and beyond, up to 2^30, in each coordinate of each list");
    for (size_t i = 0; i < sizeof broken / sizeof *broken; i++)
        ok = ok && everywhere(broken[i], 0, 18);
    check(ok, "18: 0.5 and others that are not whole, in each coordinate of each list");
    for (size_t i = 0; i < sizeof bulges / sizeof *bulges; i++)
        ok = ok && everywhere(bulges[i], 1, 18);
    check(ok, "18: 0.25 and others, in each bulge of each list");
    for (size_t i = 0; i < sizeof outside / sizeof *outside; i++)
        ok = ok && everywhere(outside[i], 0, 5) && everywhere(outside[i], 1, 5);
    ok = ok && everywhere(nextafter(LIMIT, INFINITY), 0, 5) && everywhere(nextafter(-LIMIT, -INFINITY), 1, 5);
    check(ok, "5: what is not finite or beyond 2^30, in each place of each list");
    check(everywhere(MOST, 0, 0) && everywhere(-MOST, 0, 0) && everywhere(399999999, 0, 0) &&
              everywhere(-0.0, 0, 0) && everywhere(-0.0, 1, 0),
          "0: 400,000,000 with either sign in each coordinate, -0 in each place");
}

/* ---- Far out: midpoints at the end of K8's range ---- */

static void far_out(void)
{
    const double m = MOST;
    const double big[] = {-m, -m, 0, m, -m, 0, m, m, 0, -m, m, 0};
    const double thin[] = {-m, m - 1, 0, m, m, 0, m, m - 2, 0};
    for (uint32_t mode = 0; mode < 4; mode++) {
        begin(big, 4, thin, 3, mode);
        add_hit(1, 1, m, m - 1);
        add_hit(2, 0, m, m);
        add_hit(3, 2, -m, m - 1);
        measure(0);
        check(accepts(), "far out: cuts at 400,000,000, mode %u", (unsigned)mode);
    }
}

/* ---- Room ---- */

static void rooms(void)
{
    size_t *const lens[] = {&c.slice_at_len, &c.slice_len, &c.slice_edition_len};
    static const size_t widths[] = {4, 6, 1};
    int ok = 1;
    one_of_each();
    check(accepts() && c.slice_edition_len == 2 * (2 + 2) + 2, "room: exactly the need");
    for (size_t beyond = 1; beyond <= BEYOND; beyond++) {
        one_of_each();
        measure(beyond);
        ok = ok && accepts();
    }
    check(ok, "room: 1 to %d elements beyond the need are left as they were", BEYOND);
    for (int k = 0; k < 3; k++)
        for (size_t less = 1; less <= widths[k] * need(); less++) {
            one_of_each();
            *lens[k] -= less;
            ok = ok && refuses(9);
        }
    check(ok, "9: each list shorter than the need, by any length; nothing written");
    one_of_each();
    for (int k = 0; k < 3; k++)
        *lens[k] = 0;
    check(refuses(9), "9: no room at all");
}

/* ---- Editions ---- */

static void editions(void)
{
    int ok = 1;
    for (int i = 0; i < EDITION_COUNT; i++)
        for (int k = 0; k < EDITION_COUNT; k++) {
            one_of_each();
            c.edition[0] = EDITIONS[i];
            c.edition[1] = EDITIONS[k];
            c.lap_edition[0] = EDITIONS[(i + k) % EDITION_COUNT];
            ok = ok && accepts();
            for (size_t s = 0; ok && s < told.slices; s++)
                ok = slice_edition()[s] == (s < told.starts.pline2                ? c.edition[0]
                                            : s < told.starts.pline1_overlapping ? c.edition[1]
                                                                                  : c.lap_edition[0]);
        }
    check(ok, "editions: each slice has its outline's, each overlap its own");
}

/* ---- Refusals ---- */

typedef struct fault {
    uint32_t number;
    const char *what;
} fault;

static const fault faults[] = {
    {1, "outline 1 is one number short"},
    {1, "outline 2 is one number over"},
    {1, "hit_at is one element over"},
    {1, "hit is one number short"},
    {1, "lap_at is one element short"},
    {1, "lap is one number over"},
    {1, "lap_edition is one short"},
    {1, "513 intersections"},
    {1, "129 overlaps"},
    {2, "outline 1 has 1 vertex"},
    {2, "outline 2 has 1025 vertices"},
    {3, "mode 4"},
    {3, "opposing is 2"},
    {3, "an overlap's opposing is 2"},
    {4, "tolerance 0 of y"},
    {4, "tolerance above 1 of x"},
    {5, "a NaN in outline 1"},
    {5, "a number above 2^30 in outline 2, as a bulge"},
    {5, "an infinity in hit"},
    {5, "a NaN in lap, as an end bulge"},
    {18, "400,000,001 in outline 1"},
    {18, "0.5 in outline 2"},
    {18, "a bulge of 0.25 in outline 2"},
    {18, "0.5 in hit"},
    {18, "a bulge of 0.25 in lap"},
    {6, "an intersection's index equal to outline 1's vertex count"},
    {6, "an intersection's index equal to outline 2's vertex count"},
    {6, "an overlap's start index equal to outline 1's vertex count"},
    {6, "an overlap's end index equal to outline 2's vertex count"},
    {6, "an overlap's view starts at the vertex count"},
    {7, "an overlap's view has an offset above the vertex count"},
    {9, "slice_at is one short"},
    {9, "slice is one short"},
    {9, "slice_edition is one short"},
};

enum { FAULTS = sizeof faults / sizeof *faults };

/* Outlines of so many vertices in zigzag. */
static void make_outline(double *outline, size_t vc)
{
    for (size_t i = 0; i < vc; i++) {
        outline[3 * i] = (double)i;
        outline[3 * i + 1] = (double)(i % 2);
        outline[3 * i + 2] = 0;
    }
}

static void faulty(uint64_t set)
{
    static double zigzag[3 * VERTICES];
#define HAS(i) ((int)(set >> (i) & 1))
    size_t vc1 = HAS(9) ? 1 : 4, vc2 = HAS(10) ? 1025 : 5;
    make_outline(zigzag, vc2);
    begin(zigzag, vc1, zigzag, vc2, HAS(11) ? 4 : 2);
    for (size_t i = 0; i < (HAS(7) ? 513 : 2); i++)
        add_hit(0, 0, 1, 1);
    for (size_t j = 0; j < (HAS(8) ? 129 : 2); j++)
        add_lap(0, 0, 0, 0, 0, 0, (mask_point){0, 0}, (mask_point){1, 1});
    measure(0);
    c.outline_len[0] -= HAS(0);
    c.outline[1][3 * vc2] = 0;
    c.outline_len[1] += HAS(1);
    c.hit_at[2 * c.hits] = 0;
    c.hit_at_len += HAS(2);
    c.hit_len -= HAS(3);
    c.lap_at_len -= HAS(4);
    c.lap[6 * c.laps] = 0;
    c.lap_len += HAS(5);
    c.lap_edition_len -= HAS(6);
    c.opposing = HAS(12) ? 2 : 0;
    if (HAS(13))
        c.lap_at[7 + 4] = 2;
    if (HAS(14))
        c.tolerance.y = 0;
    if (HAS(15))
        c.tolerance.x = nextafter(1, 2);
    if (HAS(16))
        c.outline[0][1] = NAN;
    if (HAS(17))
        c.outline[1][5] = nextafter(LIMIT, INFINITY);
    if (HAS(18))
        c.hit[2] = INFINITY;
    if (HAS(19))
        c.lap[6 + 3] = NAN;
    if (HAS(20))
        c.outline[0][0] = 400000001;
    if (HAS(21))
        c.outline[1][4] = 0.5;
    if (HAS(22))
        c.outline[1][2] = 0.25;
    if (HAS(23))
        c.hit[1] = 0.5;
    if (HAS(24))
        c.lap[2] = 0.25;
    if (HAS(25))
        c.hit_at[2] = vc1;
    if (HAS(26))
        c.hit_at[2 + 1] = vc2;
    if (HAS(27))
        c.lap_at[7] = vc1;
    if (HAS(28))
        c.lap_at[7 + 3] = vc2;
    if (HAS(29))
        c.lap_at[7 + 5] = vc2;
    if (HAS(30))
        c.lap_at[7 + 6] = vc2 + 1;
    c.slice_at_len -= HAS(31);
    c.slice_len -= HAS(32);
    c.slice_edition_len -= HAS(33);
#undef HAS
}

/* The order of the refusals: 18 stands directly after 5. */
static unsigned rank(uint32_t number)
{
    static const uint32_t order[] = {1, 2, 3, 4, 5, 18, 6, 7, 9};
    unsigned at = 0;
    while (order[at] != number)
        at++;
    return at;
}

static uint32_t first_of(uint64_t set)
{
    uint32_t first = 0;
    for (unsigned i = 0; i < FAULTS; i++)
        if (set >> i & 1 && (first == 0 || rank(faults[i].number) < rank(first)))
            first = faults[i].number;
    return first;
}

static int answers(uint64_t set)
{
    faulty(set);
    if (refuses(first_of(set)))
        return 1;
    for (unsigned i = 0; i < FAULTS; i++)
        if (set >> i & 1)
            printf("     with %u: %s\n", (unsigned)faults[i].number, faults[i].what);
    return 0;
}

static void refusals(void)
{
    int ok = 1;
    check(answers(0), "refusals: accepted without the faults below");
    for (unsigned i = 0; i < FAULTS; i++)
        check(answers(UINT64_C(1) << i), "refusal %u: %s; nothing written",
              (unsigned)faults[i].number, faults[i].what);
    for (unsigned i = 0; i < FAULTS; i++)
        for (unsigned j = 0; j < i; j++)
            ok = ok && answers(UINT64_C(1) << i | UINT64_C(1) << j);
    check(ok, "refusals: of any two faults the first, 18 behind 5 and before 6; nothing written");
    ok = 1;
    for (unsigned i = 0; i < 4000; i++)
        ok = ok && answers(draw() & draw() & (i % 2 ? draw() : ~UINT64_C(0)) &
                           ((UINT64_C(1) << FAULTS) - 1));
    check(ok, "refusals: of 4000 drawn sets of faults the first; nothing written");
}

/* Counts near 2^64, with which no product may be worked out. */
static void lengths(void)
{
    static const size_t wild[] = {SIZE_MAX, SIZE_MAX - 1, (size_t)1 << 63, SIZE_MAX / 3 + 2,
                                  SIZE_MAX / 6 + 2, SIZE_MAX / 7 + 2};
    size_t *const counts[] = {&c.vc[0], &c.vc[1], &c.hits, &c.laps};
    int ok = 1;
    for (int k = 0; k < 4; k++)
        for (size_t i = 0; i < sizeof wild / sizeof *wild; i++) {
            one_of_each();
            *counts[k] = wild[i];
            ok = ok && refuses(1);
        }
    check(ok, "1: counts near 2^64");
    for (int k = 2; k < 4; k++)
        for (uint32_t code = 4; code != 0; code <<= 1) {
            one_of_each();
            *(k == 2 ? &c.mode : &c.opposing) = code;
            ok = ok && refuses(3);
        }
    check(ok, "3: any other mode, any other yes or no");
}

/* ---- The most ---- */

static void most(void)
{
    static double zigzag[3 * VERTICES];
    make_outline(zigzag, MOST_VERTICES);
    for (uint32_t mode = 0; mode < 4; mode++) {
        begin(zigzag, MOST_VERTICES, zigzag, MOST_VERTICES, mode);
        for (size_t i = 0; i < MOST_HITS; i++)
            add_hit(MOST_HITS - i, 2 * i, (double)(MOST_HITS - i), (double)(i % 3));
        for (size_t j = 0; j < MOST_LAPS; j++)
            add_lap(j, j + 1, j, j + 1, j % 2, j, (mask_point){(double)j, 0},
                    (mask_point){(double)j + 1, 1});
        measure(0);
        check(accepts() && need() == 1792, "the most: 1,024 vertices, 512 intersections, 128 overlaps, mode %u",
              (unsigned)mode);
    }
    begin(zigzag, MOST_VERTICES, B, 4, 0);
    for (size_t i = 0; i < MOST_HITS; i++)
        add_hit(7, 2, (double)(i * 7 % 512), (double)(i % 5));
    measure(0);
    check(accepts(), "the most: 512 intersections on one segment, many at equal distances");
}

/* Both sides of every size that an archive may have working lists for. */
static void sizes(void)
{
    static double zigzag[3 * VERTICES];
    int ok = 1;
    make_outline(zigzag, MOST_VERTICES);
    for (size_t hits = 0; hits <= 80 && ok; hits++)
        for (size_t laps = 0; laps < 3 && ok; laps++) {
            begin(zigzag, 2 + hits * 13 % 140, zigzag, 2 + laps * 29 % 140, (uint32_t)(hits % 4));
            for (size_t i = 0; i < hits; i++)
                add_hit(i % c.vc[0], i * 5 % c.vc[1], (double)(i % 9), (double)(i % 2));
            for (size_t j = 0; j < laps; j++)
                add_lap(j % c.vc[0], 0, j % c.vc[0], 1, j % 2, 1, (mask_point){0, 0},
                        (mask_point){(double)j + 2, 0});
            measure(hits % 3);
            ok = accepts();
        }
    check(ok, "sizes: 0 to 80 intersections with 0 to 2 overlaps");
    for (size_t vc = 2; vc <= MOST_VERTICES && ok; vc += vc < 140 ? 1 : 97) {
        begin(zigzag, vc, A, 4, 0);
        add_hit(0, 1, 0, 0);
        add_hit(vc - 1, 2, (double)vc - 1, 1);
        measure(0);
        ok = accepts();
        begin(A, 4, zigzag, vc, 1);
        add_hit(1, vc - 1, 3, 0);
        add_lap(0, 0, 2, vc - 1, 1, vc - 1, (mask_point){1, 1}, (mask_point){2, 0});
        measure(0);
        ok = ok && accepts();
    }
    check(ok, "sizes: outlines of 2 to 1,024 vertices");
}

/* ---- Drawn masks ---- */

enum { CASES = 60000 };

static double drawn_whole(double reach)
{
    double a = (double)below((size_t)(2 * reach + 1)) - reach;
    return a == 0 && rarely(2) ? -0.0 : a;
}

static double zero_bulge(void) { return rarely(4) ? -0.0 : 0.0; }

static size_t drawn_outline(double *o, double reach, int big)
{
    size_t vc = big ? 2 + below(MOST_VERTICES - 1) : 2 + below(8);
    for (size_t i = 0; i < vc; i++) {
        o[3 * i] = drawn_whole(reach);
        o[3 * i + 1] = drawn_whole(reach);
        o[3 * i + 2] = zero_bulge();
    }
    return vc;
}

/* A point on the segment, at its ends now and then, or anywhere. */
static mask_point drawn_point(const double *o, size_t vc, size_t segment, double reach)
{
    const double *v = o + 3 * segment, *w = o + 3 * ((segment + 1) % vc);
    switch (below(4)) {
    case 0:
        return (mask_point){v[0], v[1]};
    case 1:
        return (mask_point){w[0], w[1]};
    case 2: {
        double t = (double)below(5) / 4;
        return (mask_point){floor(v[0] + t * (w[0] - v[0])), floor(v[1] + t * (w[1] - v[1]))};
    }
    default:
        return (mask_point){drawn_whole(reach), drawn_whole(reach)};
    }
}

static double bad_whole(void)
{
    static const double list[] = {0.5, -0.25, 400000001, -400000001, 1e-300, 5e-324, 1073741824};
    return list[below(sizeof list / sizeof *list)];
}

static void drawn_faults(void)
{
    static place list[4096];
    size_t *const lens[] = {&c.outline_len[0], &c.outline_len[1], &c.hit_at_len,     &c.hit_len,
                            &c.lap_at_len,     &c.lap_len,        &c.lap_edition_len};
    size_t *const rooms[] = {&c.slice_at_len, &c.slice_len, &c.slice_edition_len};
    size_t *const counts[] = {&c.vc[0], &c.vc[1], &c.hits, &c.laps};
    size_t vc[2] = {c.vc[0], c.vc[1]}, hits = c.hits, laps = c.laps, k;
    if (vc[0] + vc[1] < 40) {
        k = places(list);
        if (rarely(8)) {
            place at = list[below(k)];
            *at.number = rarely(3) ? bad_number() : at.is_bulge && below(2) ? 0.25 : bad_whole();
        }
        if (rarely(16))
            *list[below(k)].number = bad_number();
    }
    if (rarely(16) && hits)
        c.hit_at[below(2 * hits)] = vc[below(2)] + below(2) * draw();
    if (rarely(16) && laps)
        c.lap_at[7 * below(laps) + below(7)] = vc[below(2)] + 1 + below(2) * draw();
    if (rarely(16) && laps)
        c.lap_at[7 * below(laps) + 6] = vc[1] + 1 + below(2) * (draw() >> 1);
    if (rarely(32))
        c.tolerance = spoiled(c.tolerance, (int)below(3), bad_number());
    if (rarely(32))
        *(below(2) ? &c.mode : &c.opposing) = below(2) ? 4 : (uint32_t)draw();
    if (rarely(16) && need())
        k = below(3), *rooms[k] -= 1 + below(*rooms[k]);
    if (rarely(32)) {
        k = below(7);
        *lens[k] = *lens[k] > 0 && below(2) ? *lens[k] - 1 : *lens[k] + 1;
    }
    if (rarely(64))
        *counts[below(4)] = below(2) ? HALF : SIZE_MAX - below(3);
}

static void drawn_call(void)
{
    static const double tolerances[] = {1.0 / 1024, 1, 0.5, 1e-5, 5e-324};
    static const double reaches[] = {1, 2, 4, 4, 4, 1000, 400000000};
    double reach = reaches[below(sizeof reaches / sizeof *reaches)];
    int big = rarely(300);
    size_t hits = big ? below(MOST_HITS + 1) : below(rarely(20) ? 40 : 7);
    size_t laps = big ? below(MOST_LAPS + 1) : below(3);
    for (int i = 0; i < 2; i++)
        c.vc[i] = drawn_outline(c.outline[i], reach, big && below(2));
    c.hits = c.laps = 0;
    c.mode = (uint32_t)below(4);
    c.opposing = (uint32_t)below(2);
    for (int i = 0; i < 2; i++)
        c.edition[i] = below(2) ? EDITIONS[below(EDITION_COUNT)] : (uint32_t)draw();
    c.tolerance = both(tolerances[below(5)]);
    if (below(2))
        c.tolerance.y = tolerances[below(5)];
    for (size_t i = 0; i < hits; i++) {
        size_t on1 = below(c.vc[0]), on2 = below(c.vc[1]), which = below(2);
        mask_point p = drawn_point(c.outline[which], c.vc[which], which ? on2 : on1, reach);
        add_hit(on1, on2, p.x, p.y);
    }
    for (size_t j = 0; j < laps; j++) {
        size_t s1 = below(c.vc[0]), s2 = below(c.vc[1]), e1 = below(c.vc[0]), e2 = below(c.vc[1]);
        mask_point p = drawn_point(c.outline[1], c.vc[1], s2, reach);
        mask_point q = drawn_point(c.outline[1], c.vc[1], e2, reach);
        add_lap(s1, s2, e1, e2, below(2), below(c.vc[1] + 1), p, q);
        c.lap[6 * j + 2] = zero_bulge();
        c.lap[6 * j + 3] = zero_bulge();
        c.lap_edition[j] = (uint32_t)draw();
    }
    measure(rarely(3) ? below(20) : below(2));
    if (rarely(3))
        drawn_faults();
}

static void drawn(void)
{
    static const struct {
        unsigned kind;
        const char *what;
    } kinds[] = {{0, "accepted"},
                 {1, "refusal 1"},
                 {3, "refusal 3"},
                 {4, "refusal 4"},
                 {5, "refusal 5"},
                 {18, "refusal 18"},
                 {6, "refusal 6"},
                 {7, "refusal 7"},
                 {9, "refusal 9"},
                 {INSIDE, "a candidate inside"},
                 {OUTSIDE, "a candidate outside"},
                 {ON_EDGE, "a midpoint on an edge"},
                 {KEPT, "a candidate that stays"},
                 {NOT_KEPT, "a candidate that goes"},
                 {OPPOSED, "an overlap that is opposing"},
                 {INVERTED, "a slice that is inverted"},
                 {MANY_CUTS, "more than 16 cuts"},
                 {REST, "room left to be cleared"}};
    int ok = 1;
    memset(met, 0, sizeof met);
    for (unsigned i = 0; i < CASES && ok; i++) {
        drawn_call();
        ok = right();
        if (!ok)
            printf("     case %u\n", i);
        met[told.refusal]++;
        if (told.refusal)
            continue;
        met[MANY_CUTS] += c.hits + 2 * c.laps > 16;
        for (size_t j = 0; j < c.laps; j++)
            met[OPPOSED] += c.lap_at[7 * j + 4] == 1;
    }
    check(ok, "%u drawn cases as the three in turn", (unsigned)CASES);
    for (unsigned i = 0; i < sizeof kinds / sizeof *kinds; i++)
        check(met[kinds[i].kind] >= 100, "among them %u times or more: %s", 100u, kinds[i].what);
}

/* Whole numbers that differ do so by 1 at least, and a tolerance is at most 1: points agree only where
 * they are equal, so no accepted tolerance gives other slices than another. */
static void tolerances(void)
{
    static const double list[] = {1, 1.0 / 1024, 5e-324};
    static size_t at[4 * SLICES + BEYOND];
    static double numbers[6 * SLICES + BEYOND];
    unsigned compared = 0;
    int ok = 1;
    for (unsigned i = 0; i < 4000 && ok; i++) {
        mask_prune_answer first;
        drawn_call();
        first = straight_slices();
        if (first.refusal)
            continue;
        memcpy(at, slice_at(), c.slice_at_len * sizeof *at);
        memcpy(numbers, slice(), c.slice_len * sizeof *numbers);
        c.tolerance = (axes){list[below(3)], list[below(3)]};
        told = straight_slices();
        ok = same_answer(told, first) && memcmp(at, slice_at(), c.slice_at_len * sizeof *at) == 0 &&
             memcmp(numbers, slice(), c.slice_len * sizeof *numbers) == 0;
        compared += told.slices > 0;
    }
    check(ok && compared >= 1000, "tolerances: of %u drawn calls the same slices by any others", compared);
}

int main(void)
{
    make_room();
    seed = 20260111;
    sheet();
    zeros();
    straight();
    far_out();
    rooms();
    editions();
    refusals();
    lengths();
    most();
    sizes();
    tolerances();
    drawn();
    return finish("straight_slices_test");
}
