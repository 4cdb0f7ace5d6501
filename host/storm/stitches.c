/*
 * The stitch: its refusals, its answer by document 01, and demand 3 read off the answer
 * alone: n rounds, each slice in exactly one chain, once; each chain begins with its lowest
 * number; chains ascend by first number.
 */
#include "storm.h"

/* ---- Drawn slices: they start and end at a few places, so that chains form ---- */

typedef struct places {
    size_t count;
    mask_point at[12];
} places;

static double around(double a, double t)
{
    double drawn = below(6) ? a : near_to(a, t);
    return in_range(drawn) ? drawn : a;
}

static void draw_slice(const stitching *s, const places *p, size_t i)
{
    size_t source = i < s->pline2 ? 1 : below(10) ? 2 : 1, vc = source == 1 ? s->vc1 : s->vc2;
    mask_point a = p->at[i % p->count], b = p->at[(below(8) ? i + 1 : below(p->count)) % p->count];
    size_t inverted = below(4) == 0, offset = below(3) ? below(vc < 3 ? vc + 1 : 3) : below(vc + 1);
    if (s->slices > 64)
        offset %= 12;
    if (inverted) {
        mask_point swap = a;
        a = b;
        b = swap;
    }
    size_t codes[4] = {source, inverted, below(vc), offset};
    double numbers[6] = {around(a.x, s->t.x), around(a.y, s->t.y), bulge(), bulge(),
                         around(b.x, s->t.x), around(b.y, s->t.y)};
    memcpy(U(SLICE_AT) + 4 * i, codes, sizeof codes);
    memcpy(F(SLICE) + 6 * i, numbers, sizeof numbers);
    E(SLICE_EDITION)[i] = source == 1 ? s->edition1 : s->edition2;
}

static size_t cut_to(list_name name, size_t vc, size_t most)
{
    if (vc <= most)
        return vc;
    LEN(name) = 3 * most;
    return most;
}

void draw_stitch(stitching *s, size_t most_vertices, size_t most_slices)
{
    places p = {1 + below(7), {{0, 0}}};
    memset(s, 0, sizeof *s);
    s->vc1 = cut_to(OUTLINE1, draw_outline(OUTLINE1), most_vertices + rarely(50));
    s->vc2 = cut_to(OUTLINE2, draw_outline(OUTLINE2), most_vertices + rarely(50));
    s->edition1 = edition();
    s->edition2 = edition();
    s->selector = (uint32_t)below(2);
    s->t = (axes){tolerance(), tolerance()};
    s->slices = below(3) ? below(8) : count_to(most_slices);
    s->pline2 = below(s->slices + 1);
    s->pline1_overlapping = s->pline2 + below(s->slices - s->pline2 + 1);
    s->pline2_overlapping = s->pline1_overlapping + below(s->slices - s->pline1_overlapping + 1);
    for (size_t i = 0; i < p.count; i++)
        p.at[i] = (mask_point){coordinate(), coordinate()};
    for (size_t i = 0; i < s->slices; i++)
        draw_slice(s, &p, i);
    LEN(SLICE_AT) = 4 * s->slices;
    LEN(SLICE) = 6 * s->slices;
    LEN(SLICE_EDITION) = s->slices;
    knob_list(SLICE_AT, 4);
    knob_list(SLICE, 6);
    knob_list(SLICE_EDITION, 1);
    knob_count(&s->vc1);
    knob_count(&s->vc2);
    knob_count(&s->slices);
    knob_count(&s->pline2);
    knob_count(&s->pline1_overlapping);
    knob_count(&s->pline2_overlapping);
    knob_code(&s->selector);
    if (rarely(16))
        s->edition1 = edition();
}

/* "1 + sum of (offset + 1) vertices (0 where there are no slices)" */
size_t stitch_need(const stitching *s)
{
    size_t need = s->slices == 0 ? 0 : 1;
    for (size_t i = 0; i < s->slices; i++)
        need += U(SLICE_AT)[4 * i + 3] + 1;
    return need;
}

void stitch_rooms(const stitching *s)
{
    knob_room(ROOM, 3 * stitch_need(s));
    knob_room(ENDS, s->slices);
    knob_room(CHAIN, s->slices);
    knob_room(CHAIN_ENDS, s->slices);
    knob_room(CHAIN_HOW, s->slices);
}

/* ---- The answer by document 01 ---- */

static mask_view slice_view(size_t i) { return view_of_slice(U(SLICE_AT) + 4 * i, F(SLICE) + 6 * i); }

static const double *slice_outline(size_t i, const stitching *s, size_t *vc)
{
    bool first = U(SLICE_AT)[4 * i] == 1;
    *vc = first ? s->vc1 : s->vc2;
    return F(first ? OUTLINE1 : OUTLINE2);
}

/* "Adding a vertex that agrees in position with the chain's last replaces only that last
 * one's bulge." */
static void add_slice(mask_vertex *chain, size_t *count, size_t i, const stitching *s)
{
    size_t vc;
    const double *outline = slice_outline(i, s, &vc);
    mask_view view = slice_view(i);
    for (size_t k = 0; k < view.end_index_offset + 2; k++) {
        mask_vertex v = vertex_of(outline, vc, &view, k), *last = chain + *count - 1;
        if (*count > 0 && agree(last->x, last->y, v.x, v.y, s->t))
            last->bulge = v.bulge;
        else
            chain[(*count)++] = v;
    }
}

static int class_of(size_t i, const stitching *s)
{
    return i < s->pline2               ? 0
           : i < s->pline1_overlapping ? 1
           : i < s->pline2_overlapping ? 2
                                       : 3;
}

/* The table of document 01: 0 and 1 are the outlines' own slices, 9 is any, 8 is none. */
static const int CHOICES[2][4][3] = {{{1, 0, 9}, {0, 1, 9}, {1, 0, 9}, {0, 1, 9}},
                                     {{1, 9, 9}, {0, 9, 9}, {1, 0, 8}, {0, 1, 8}}};

static bool in_box(mask_vertex end, mask_vertex p, axes t)
{
    return end.x - t.x <= p.x && p.x <= end.x + t.x && end.y - t.y <= p.y && p.y <= end.y + t.y;
}

enum { CLOSED, SMALL, NO_CANDIDATE, UNSELECTED, GOES_ON };

/* A round: which slice follows, or how the chain ends. */
static int round_of(const stitching *s, mask_vertex end, size_t first, size_t now,
                    const bool *visited, size_t *chosen)
{
    static _Thread_local size_t candidates[1800];
    size_t count = 0;
    for (size_t i = 0; i < s->slices; i++)
        if (!visited[i] || i == first) {
            size_t vc;
            const double *outline = slice_outline(i, s, &vc);
            mask_view view = slice_view(i);
            if (in_box(end, vertex_of(outline, vc, &view, 0), s->t))
                candidates[count++] = i;
        }
    if (count == 0)
        return NO_CANDIDATE;
    for (int choice = 0; choice < 3; choice++) {
        int wanted_class = CHOICES[s->selector][class_of(now, s)][choice];
        for (size_t i = 0; i < count; i++)
            if (wanted_class == 9 || class_of(candidates[i], s) == wanted_class) {
                *chosen = candidates[i];
                return *chosen == first ? CLOSED : GOES_ON;
            }
    }
    return UNSELECTED;
}

stitched stitch_into(const stitching *s)
{
    static _Thread_local bool visited[1800];
    static _Thread_local mask_vertex chain[100000];
    stitched done = {0, 0, 0};
    size_t vertices = 0, in_chains = 0;
    memset(visited, 0, s->slices);
    for (size_t first = 0; first < s->slices; first++) {
        size_t count = 0, now = first, next = 0;
        int how;
        if (visited[first])
            continue;
        visited[first] = true;
        add_slice(chain, &count, first, s);
        WANT_U(CHAIN)[in_chains++] = first;
        for (;;) {
            done.rounds++;
            how = round_of(s, chain[count - 1], first, now, visited, &next);
            if (how != GOES_ON)
                break;
            visited[next] = true;
            WANT_U(CHAIN)[in_chains++] = next;
            count--;
            add_slice(chain, &count, next, s);
            now = next;
        }
        if (how == CLOSED && count < 3)
            how = SMALL;
        if (how == CLOSED) {
            memcpy(WANT_F(ROOM) + 3 * vertices, chain, (count - 1) * sizeof *chain);
            vertices += count - 1;
            WANT_U(ENDS)[done.loops++] = vertices;
        }
        WANT_U(CHAIN_ENDS)[done.chains] = in_chains;
        WANT_U(CHAIN_HOW)[done.chains++] = (size_t)how;
    }
    zero_want(ROOM, 3 * vertices, 3 * stitch_need(s));
    zero_want(ENDS, done.loops, s->slices);
    zero_want(CHAIN_ENDS, done.chains, s->slices);
    zero_want(CHAIN_HOW, done.chains, s->slices);
    return done;
}

/* ---- Demand 3, from the answer alone ---- */

void demand_three(const stitching *s, uint64_t rounds, uint64_t loops, uint64_t chains)
{
    static _Thread_local uint8_t seen[1800];
    const size_t *chain = left(CHAIN), *ends = left(CHAIN_ENDS), *how = left(CHAIN_HOW);
    size_t begin = 0, closed = 0, before = 0;
    if (rounds != s->slices || chains > s->slices)
        differs("demand 3: the rounds are not the slices");
    memset(seen, 0, s->slices);
    for (size_t c = 0; c < chains; begin = ends[c], c++) {
        if (ends[c] <= begin || ends[c] > s->slices || how[c] > UNSELECTED)
            differs("demand 3: a chain is empty or ends nowhere");
        if (c > 0 && chain[begin] <= before)
            differs("demand 3: chains do not ascend by their first slice");
        before = chain[begin];
        for (size_t k = begin; k < ends[c]; k++)
            if (chain[k] >= s->slices || seen[chain[k]]++ || chain[k] < chain[begin])
                differs("demand 3: a slice stands twice, or a chain begins not with its lowest");
        closed += how[c] == CLOSED;
    }
    if (begin != s->slices || closed != loops)
        differs("demand 3: not every slice stands in a chain, or loops are not the closed chains");
}

/* ---- Refusals 1 2 3 16 4 5 6 7 8 14 9 ---- */

bool unknown_code(const stitching *s)
{
    if (s->selector > 1)
        return true;
    for (size_t i = 0; i < s->slices; i++)
        if ((U(SLICE_AT)[4 * i] != 1 && U(SLICE_AT)[4 * i] != 2) || U(SLICE_AT)[4 * i + 1] > 1)
            return true;
    return false;
}

uint32_t late_refusal(const stitching *s)
{
    for (int number = 6; number <= 7; number++)
        for (size_t i = 0; i < s->slices; i++) {
            const size_t *at = U(SLICE_AT) + 4 * i;
            size_t vc = at[0] == 1 ? s->vc1 : s->vc2;
            if (number == 6 ? at[2] >= vc : at[3] > vc)
                return (uint32_t)number;
        }
    if (s->pline2 > s->pline1_overlapping || s->pline1_overlapping > s->pline2_overlapping ||
        s->pline2_overlapping > s->slices)
        return 8;
    for (size_t i = 0; i < s->slices; i++)
        if (E(SLICE_EDITION)[i] != (U(SLICE_AT)[4 * i] == 1 ? s->edition1 : s->edition2))
            return 14;
    return 0;
}

static uint32_t stitch_refusal(const stitching *s, size_t setting)
{
    size_t known = U(ENTERED)[0] > 16 ? 16 : U(ENTERED)[0];
    if (!long_as(LEN(OUTLINE1), 3, s->vc1) || !long_as(LEN(OUTLINE2), 3, s->vc2) ||
        s->slices > 1792 || !long_as(LEN(SLICE_AT), 4, s->slices) ||
        !long_as(LEN(SLICE), 6, s->slices) || LEN(SLICE_EDITION) != s->slices ||
        LEN(ENTERED) != 1 || LEN(SETTINGS) != 48)
        return 1;
    if (s->vc1 < 2 || s->vc1 > 1024 || s->vc2 < 2 || s->vc2 > 1024)
        return 2;
    if (unknown_code(s))
        return 3;
    if (setting == 0 || setting > known)
        return 16;
    if (!good_tolerance(F(SETTINGS)[3 * setting - 3]) || !good_tolerance(F(SETTINGS)[3 * setting - 2]))
        return 4;
    if (!all_in_range(F(OUTLINE1), LEN(OUTLINE1)) || !all_in_range(F(OUTLINE2), LEN(OUTLINE2)) ||
        !all_in_range(F(SLICE), LEN(SLICE)))
        return 5;
    uint32_t late = late_refusal(s);
    if (late != 0)
        return late;
    if (LEN(ROOM) < 3 * stitch_need(s) || LEN(ENDS) < s->slices || LEN(CHAIN) < s->slices ||
        LEN(CHAIN_ENDS) < s->slices || LEN(CHAIN_HOW) < s->slices)
        return 9;
    return 0;
}

/* The tolerances stand in a record of settings, which is drawn for the call and put back. */
static size_t draw_setting(const stitching *s)
{
    size_t setting = 1 + below(16);
    for (int i = 0; i < 48; i++)
        F(SETTINGS)[i] = below(8) ? tolerance() : NAN; /* others are not looked at */
    F(SETTINGS)[3 * setting - 3] = s->t.x;
    F(SETTINGS)[3 * setting - 2] = s->t.y;
    U(ENTERED)[0] = rarely(20) ? setting - 1 : rarely(20) ? SIZE_MAX : setting + below(17 - setting);
    LEN(ENTERED) = 1;
    LEN(SETTINGS) = 48;
    knob_list(ENTERED, 1);
    knob_list(SETTINGS, 3);
    return rarely(40) ? (size_t)draw() << below(12) : setting;
}

void storm_stitch(void)
{
    stitching s;
    begin_call("mask_stitch");
    draw_stitch(&s, 1024, 1792);
    size_t kept_count = U(ENTERED)[0], setting;
    double kept[48];
    memcpy(kept, F(SETTINGS), sizeof kept);
    setting = draw_setting(&s);
    knob_count(&setting);
    stitch_rooms(&s);
    spoil();
    mask_stitch_answer a = mask_stitch(
        READ(OUTLINE1), s.vc1, s.edition1, READ(OUTLINE2), s.vc2, s.edition2, READ(SLICE_AT),
        READ(SLICE), READ(SLICE_EDITION), s.slices, s.pline2, s.pline1_overlapping,
        s.pline2_overlapping, s.selector, READ(ENTERED), READ(SETTINGS), setting, WRITE(ROOM),
        WRITE(ENDS), WRITE(CHAIN), WRITE(CHAIN_ENDS), WRITE(CHAIN_HOW));
    say(a.refusal);
    say(a.rounds);
    say(a.loops);
    say(a.chains);
    uint32_t refusal = stitch_refusal(&s, setting);
    expect(refusal);
    if (refusal == 0) {
        s.t = (axes){F(SETTINGS)[3 * setting - 3], F(SETTINGS)[3 * setting - 2]};
        stitched done = stitch_into(&s);
        if (a.refusal == 0)
            demand_three(&s, a.rounds, a.loops, a.chains);
        expect(done.rounds);
        expect(done.loops);
        expect(done.chains);
    } else {
        expect_zeros(3);
    }
    settle();
    memcpy(F(SETTINGS), kept, sizeof kept);
    U(ENTERED)[0] = kept_count;
}
