/* Masks without arcs, in whole microdegrees: exact integers, worked out in 128 bits. */
#include "storm.h"

typedef __int128 wide;

/* Small numbers, so that points stand on edges and on lines through vertices; and large ones. */
static int64_t whole(void)
{
    size_t way = below(16);
    if (way < 12)
        return (int64_t)below(7) - 2;
    if (way < 14)
        return below(2) ? 400000000 : -400000000;
    return (int64_t)below(800000001) - 400000000;
}

/* The four corners of all, round and round: one round has the doubled area 1.28e18, so that
 * some fifteen rounds pass 64 bits. */
static void corners(int64_t *points, size_t vc, bool clockwise)
{
    static const int64_t CORNER[4][2] = {{-1, -1}, {1, -1}, {1, 1}, {-1, 1}};
    for (size_t i = 0; i < vc; i++)
        for (int k = 0; k < 2; k++)
            points[2 * i + k] = 400000000 * CORNER[(clockwise ? 4 * vc - i : i) % 4][k];
}

static size_t draw_whole(list_name name)
{
    size_t vc = 2 + count_to(1022);
    bool round = rarely(12);
    if (round)
        vc = 4 + below(100);
    for (size_t i = 0; i < 2 * vc; i++)
        I(name)[i] = whole();
    if (round)
        corners(I(name), vc, below(2));
    LEN(name) = 2 * vc;
    return vc;
}

static bool wholes_in_range(const int64_t *list, size_t len)
{
    for (size_t i = 0; i < len; i++)
        if (list[i] > 400000000 || list[i] < -400000000)
            return false;
    return true;
}

static uint32_t whole_refusal(size_t vc)
{
    return !long_as(LEN(WHOLE), 2, vc)                   ? 1
           : vc < 2 || vc > 1024                         ? 2
           : !wholes_in_range(I(WHOLE), LEN(WHOLE))      ? 18
                                                         : 0;
}

/* "plus 1 if y1 <= y < y2 and the point is strictly left, minus 1 if y2 <= y < y1 and strictly
 * right"; the point is in doubled coordinates, so the outline is doubled here. */
static int64_t winding_of(const int64_t *outline, size_t vc, int64_t x, int64_t y)
{
    int64_t sum = 0;
    for (size_t i = 0; i < vc; i++) {
        const int64_t *a = outline + 2 * i, *b = outline + 2 * ((i + 1) % vc);
        int64_t x1 = 2 * a[0], y1 = 2 * a[1], x2 = 2 * b[0], y2 = 2 * b[1];
        wide left = (wide)(x2 - x1) * (y - y1) - (wide)(x - x1) * (y2 - y1);
        if (y1 <= y && y < y2 && left > 0)
            sum++;
        if (y2 <= y && y < y1 && left < 0)
            sum--;
    }
    return sum;
}

static wide area_of(const int64_t *outline, size_t vc)
{
    wide sum = 0;
    for (size_t i = 0; i < vc; i++) {
        const int64_t *a = outline + 2 * i, *b = outline + 2 * ((i + 1) % vc);
        sum += (wide)a[0] * b[1] - (wide)b[0] * a[1];
    }
    return sum;
}

void storm_winding(void)
{
    begin_call("mask_straight_winding");
    size_t vc = draw_whole(WHOLE);
    int64_t x = whole() + whole(), y = whole() + whole();
    knob_list(WHOLE, 2);
    knob_count(&vc);
    knob_whole(&x);
    knob_whole(&y);
    spoil();
    mask_winding_answer a = mask_straight_winding(READ(WHOLE), vc, x, y);
    say(a.refusal);
    say((uint64_t)a.winding);
    uint32_t refusal = whole_refusal(vc);
    if (refusal == 0 && (x > 800000000 || x < -800000000 || y > 800000000 || y < -800000000))
        refusal = 18;
    expect(refusal);
    expect(refusal == 0 ? (uint64_t)winding_of(I(WHOLE), vc, x, y) : 0);
    settle();
}

void storm_area(void)
{
    begin_call("mask_straight_area");
    size_t vc = draw_whole(WHOLE);
    knob_list(WHOLE, 2);
    knob_count(&vc);
    spoil();
    mask_area_answer a = mask_straight_area(READ(WHOLE), vc);
    say(a.refusal);
    say(a.negative);
    say(a.high);
    say(a.low);
    uint32_t refusal = whole_refusal(vc);
    wide area = refusal == 0 ? area_of(I(WHOLE), vc) : 0;
    unsigned __int128 size = area < 0 ? -(unsigned __int128)area : (unsigned __int128)area;
    expect(refusal);
    expect(area < 0);
    expect((uint64_t)(size >> 64));
    expect((uint64_t)size);
    settle();
}

/* ---- The report: refusals 1 2 18 19 ---- */

void storm_report(void)
{
    begin_call("mask_straight_report");
    bool round = rarely(12);
    size_t loops = rarely(2000) ? 4096 + below(2) : round ? below(30) : count_to(200), end = 0;
    for (size_t i = 0; i < loops; i++) {
        size_t vc = loops > 200 ? 2 : round || rarely(40) ? 2 + below(30) : 2 + below(4);
        for (size_t k = 2 * end; k < 2 * (end + vc); k++)
            I(POINTS)[k] = whole();
        if (round)
            corners(I(POINTS) + 2 * end, vc, below(2));
        end += vc;
        U(POINT_ENDS)[i] = end;
    }
    LEN(POINTS) = 2 * end;
    LEN(POINT_ENDS) = loops;
    knob_list(POINTS, 2);
    knob_list(POINT_ENDS, 1);
    knob_count(&loops);
    spoil();
    mask_report_answer a = mask_straight_report(READ(POINTS), READ(POINT_ENDS), loops);
    say(a.refusal);
    say(a.count);
    say(a.zero);
    say(a.high);
    say(a.low);
    const size_t *ends = U(POINT_ENDS);
    uint32_t refusal =
        LEN(POINT_ENDS) != loops || !long_as(LEN(POINTS), 2, loops == 0 ? 0 : ends[loops - 1]) ? 1 : 0;
    size_t begin = 0, zero = 0;
    for (size_t i = 0; refusal == 0 && i < loops; begin = ends[i], i++)
        if (ends[i] < begin || ends[i] - begin < 2 || ends[i] - begin > 1024)
            refusal = 2;
    if (refusal == 0 && !wholes_in_range(I(POINTS), LEN(POINTS)))
        refusal = 18;
    if (refusal == 0 && loops > 4096)
        refusal = 19;
    unsigned __int128 total = 0;
    begin = 0;
    for (size_t i = 0; refusal == 0 && i < loops; begin = ends[i], i++) {
        wide area = area_of(I(POINTS) + 2 * begin, ends[i] - begin);
        total += area < 0 ? -(unsigned __int128)area : (unsigned __int128)area;
        zero += area == 0;
    }
    expect(refusal);
    expect(refusal == 0 ? loops : 0);
    expect(zero);
    expect((uint64_t)(total >> 64));
    expect((uint64_t)total);
    settle();
}

/* ---- One call for straight masks (request K11): refusals 1 2 3 4 5 18 6 7 9 ---- */

static bool is_whole(double a) { return fabs(a) <= 400000000 && a == trunc(a); }

static bool straight_outline(list_name name)
{
    for (size_t i = 0; i < LEN(name); i++)
        if (i % 3 == 2 ? F(name)[i] != 0 : !is_whole(F(name)[i]))
            return false;
    return true;
}

static bool straight_cuts(size_t hits, size_t laps)
{
    for (size_t i = 0; i < 2 * hits; i++)
        if (!is_whole(F(HIT)[i]))
            return false;
    for (size_t i = 0; i < 6 * laps; i++)
        if (i % 6 == 2 || i % 6 == 3 ? F(LAP)[i] != 0 : !is_whole(F(LAP)[i]))
            return false;
    return true;
}

static bool bad_indexes(size_t vc1, size_t vc2, size_t hits, size_t laps)
{
    for (size_t i = 0; i < hits; i++)
        if (U(HIT_AT)[2 * i] >= vc1 || U(HIT_AT)[2 * i + 1] >= vc2)
            return true;
    for (size_t i = 0; i < laps; i++) {
        const size_t *at = U(LAP_AT) + 7 * i;
        if (at[0] >= vc1 || at[1] >= vc2 || at[2] >= vc1 || at[3] >= vc2 || at[5] >= vc2)
            return true;
    }
    return false;
}

typedef struct at_once {
    uint32_t mode, opposing, edition1, edition2;
    size_t vc1, vc2, hits, laps;
    axes t;
} at_once;

static uint32_t at_once_refusal(const at_once *c)
{
    size_t need;
    if (!long_as(LEN(OUTLINE1), 3, c->vc1) || !long_as(LEN(OUTLINE2), 3, c->vc2) ||
        !long_as(LEN(HIT_AT), 2, c->hits) || !long_as(LEN(HIT), 2, c->hits) || c->hits > 512 ||
        !long_as(LEN(LAP_AT), 7, c->laps) || !long_as(LEN(LAP), 6, c->laps) || c->laps > 128 ||
        LEN(LAP_EDITION) != c->laps)
        return 1;
    if (c->vc1 < 2 || c->vc1 > 1024 || c->vc2 < 2 || c->vc2 > 1024)
        return 2;
    if (c->mode > 3 || c->opposing > 1)
        return 3;
    for (size_t i = 0; i < c->laps; i++)
        if (U(LAP_AT)[7 * i + 4] > 1)
            return 3;
    if (!good_tolerance(c->t.x) || !good_tolerance(c->t.y))
        return 4;
    if (!all_in_range(F(OUTLINE1), LEN(OUTLINE1)) || !all_in_range(F(OUTLINE2), LEN(OUTLINE2)) ||
        !all_in_range(F(HIT), LEN(HIT)) || !all_in_range(F(LAP), LEN(LAP)))
        return 5;
    if (!straight_outline(OUTLINE1) || !straight_outline(OUTLINE2) ||
        !straight_cuts(c->hits, c->laps))
        return 18;
    if (bad_indexes(c->vc1, c->vc2, c->hits, c->laps))
        return 6;
    for (size_t i = 0; i < c->laps; i++)
        if (U(LAP_AT)[7 * i + 6] > c->vc2)
            return 7;
    need = 2 * (c->hits + 2 * c->laps) + 2 * c->laps;
    if (LEN(SLICE_AT) < 4 * need || LEN(SLICE) < 6 * need || LEN(SLICE_EDITION) < need)
        return 9;
    return 0;
}

static void make_straight(list_name name)
{
    for (size_t i = 0; i < LEN(name); i++)
        F(name)[i] = i % 3 == 2 ? (below(8) ? 0.0 : -0.0) : (double)whole();
}

static void draw_at_once(at_once *c)
{
    cuts both = {0};
    c->mode = (uint32_t)below(4);
    c->opposing = (uint32_t)below(2);
    c->edition1 = edition();
    c->edition2 = edition();
    c->vc1 = draw_outline(OUTLINE1);
    c->vc2 = draw_outline(OUTLINE2);
    make_straight(OUTLINE1);
    make_straight(OUTLINE2);
    draw_cuts(&both, c->vc1, c->vc2);
    c->hits = both.hits;
    c->laps = both.laps;
    c->t = both.t;
    for (size_t i = 0; i < LEN(HIT); i++)
        F(HIT)[i] = (double)whole();
    for (size_t i = 0; i < LEN(LAP); i++)
        F(LAP)[i] = i % 6 == 2 || i % 6 == 3 ? 0.0 : (double)whole();
    for (size_t i = 0; i < c->laps; i++)
        E(LAP_EDITION)[i] = edition();
    LEN(LAP_EDITION) = c->laps;
    knob_list(LAP_EDITION, 1);
    size_t need = 2 * (c->hits + 2 * c->laps) + 2 * c->laps;
    knob_room(SLICE_AT, 4 * need);
    knob_room(SLICE, 6 * need);
    knob_room(SLICE_EDITION, need);
    knob_count(&c->vc1);
    knob_count(&c->vc2);
    knob_count(&c->hits);
    knob_count(&c->laps);
    knob_code(&c->mode);
    knob_code(&c->opposing);
    knob_number(&c->t.x);
    knob_number(&c->t.y);
}

enum { MOST = 768 };
typedef struct cut_side {
    size_t at[2 * MOST];
    double numbers[6 * MOST], probes[6 * MOST], splits[9 * MOST];
    uint32_t editions[MOST];
    uint8_t inside[MOST];
    cut order[MOST];
    size_t count;
} cut_side;

/* "the parts keep their positions and have bulge +0"; inside by the winding number of the other */
static void cut_straight(cut_side *s, list_name name, size_t vc, list_name other, size_t vc_other,
                         uint32_t source, uint32_t edition, const at_once *c)
{
    static _Thread_local int64_t wholes[2 * 1024];
    size_t n = ordered_cuts(F(name), vc, source, c->hits, c->laps, c->t, s->order);
    for (size_t i = 0; i < n; i++) {
        const cut *now = s->order + i, *before = now - 1;
        mask_vertex running = vertex_at(F(name), now->segment);
        double *split = s->splits + 9 * i;
        if (i > 0 && before->segment == now->segment)
            running = (mask_vertex){before->x, before->y, 0};
        split[0] = running.x;
        split[1] = running.y;
        split[3] = split[6] = now->x;
        split[4] = split[7] = now->y;
        split[2] = split[5] = split[8] = 0;
    }
    s->count = candidates_of(F(name), vc, s->order, n, s->splits, c->t, s->at, s->numbers, s->probes);
    for (size_t i = 0; i < vc_other; i++) {
        wholes[2 * i] = (int64_t)F(other)[3 * i];
        wholes[2 * i + 1] = (int64_t)F(other)[3 * i + 1];
    }
    for (size_t i = 0; i < s->count; i++) {
        const double *p = s->probes + 6 * i;
        s->inside[i] = winding_of(wholes, vc_other, (int64_t)p[0] + (int64_t)p[3],
                                  (int64_t)p[1] + (int64_t)p[4]) != 0;
        s->editions[i] = edition;
    }
}

void storm_straight_slices(void)
{
    static _Thread_local cut_side one, two;
    at_once c;
    begin_call("mask_straight_slices");
    draw_at_once(&c);
    spoil();
    mask_prune_answer a = mask_straight_slices(
        c.mode, c.opposing, READ(OUTLINE1), c.vc1, c.edition1, READ(OUTLINE2), c.vc2, c.edition2,
        READ(HIT_AT), READ(HIT), c.hits, READ(LAP_AT), READ(LAP), READ(LAP_EDITION), c.laps, c.t.x,
        c.t.y, WRITE(SLICE_AT), WRITE(SLICE), WRITE(SLICE_EDITION));
    say_pruned(a);
    uint32_t refusal = at_once_refusal(&c);
    expect(refusal);
    if (refusal == 0) {
        size_t need = 2 * (c.hits + 2 * c.laps) + 2 * c.laps;
        cut_straight(&one, OUTLINE1, c.vc1, OUTLINE2, c.vc2, 1, c.edition1, &c);
        cut_straight(&two, OUTLINE2, c.vc2, OUTLINE1, c.vc1, 2, c.edition2, &c);
        pruned p = prune_into(c.mode, c.opposing,
                              (side){one.at, one.numbers, one.editions, one.inside, one.count},
                              (side){two.at, two.numbers, two.editions, two.inside, two.count},
                              c.laps, WANT_U(SLICE_AT), WANT_F(SLICE), WANT_E(SLICE_EDITION));
        expect_pruned(p, need);
    } else {
        expect_zeros(4);
    }
    settle();
}
