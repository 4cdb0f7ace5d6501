/* The entries on views: vertices, constructors, views that start anywhere, verdicts. */
#include "storm.h"

/* ---- Answers as words ---- */

static void say_vertex(mask_vertex v)
{
    say_number(v.x);
    say_number(v.y);
    say_number(v.bulge);
}

static void expect_vertex(mask_vertex v)
{
    expect_number(v.x);
    expect_number(v.y);
    expect_number(v.bulge);
}

static void say_view(mask_view_answer a)
{
    say(a.refusal);
    say(a.found);
    say(a.view.start_index);
    say(a.view.end_index_offset);
    say_vertex(a.view.updated_start);
    say_number(a.view.updated_end_bulge);
    say_number(a.view.end_point.x);
    say_number(a.view.end_point.y);
    say(a.view.inverted_direction);
}

static void expect_view(mask_view v)
{
    expect(1);
    expect(v.start_index);
    expect(v.end_index_offset);
    expect_vertex(v.updated_start);
    expect_number(v.updated_end_bulge);
    expect_number(v.end_point.x);
    expect_number(v.end_point.y);
    expect(v.inverted_direction);
}

enum { VIEW_FIELDS = 10 };

/* ---- The refusals of an outline ---- */

static bool wrong_length(list_name name, size_t vc) { return !long_as(LEN(name), 3, vc); }
static bool wrong_size(size_t vc) { return vc < 2 || vc > 1024; }
static bool bad_numbers(list_name name) { return !all_in_range(F(name), LEN(name)); }

/* ---- Vertices of a view: refusals 1 2 3 5 6 7, and 9 for all of them ---- */

static uint32_t view_refusal(size_t vc, const mask_view *view)
{
    if (wrong_length(OUTLINE1, vc))
        return 1;
    if (wrong_size(vc))
        return 2;
    if (view->inverted_direction > 1)
        return 3;
    if (bad_numbers(OUTLINE1) || !view_in_range(view))
        return 5;
    if (view->start_index >= vc)
        return 6;
    if (view->end_index_offset > vc)
        return 7;
    return 0;
}

void storm_view_vertex(void)
{
    size_t vc, index;
    mask_view view;
    begin_call("mask_view_vertex");
    vc = draw_outline(OUTLINE1);
    view = draw_view(F(OUTLINE1), vc);
    index = below(view.end_index_offset + 4);
    knob_count(&vc);
    knob_view(&view);
    knob_count(&index);
    spoil();
    mask_vertex_answer a = mask_view_vertex(READ(OUTLINE1), vc, view, index);
    say(a.refusal);
    say(a.found);
    say_vertex(a.vertex);
    uint32_t refusal = view_refusal(vc, &view);
    expect(refusal);
    if (refusal == 0 && index <= view.end_index_offset + 1) {
        expect(1);
        expect_vertex(vertex_of(F(OUTLINE1), vc, &view, index));
    } else {
        expect_zeros(4);
    }
    settle();
}

void storm_view_vertices(void)
{
    size_t vc, need;
    mask_view view;
    begin_call("mask_view_vertices");
    vc = draw_outline(OUTLINE1);
    view = draw_view(F(OUTLINE1), vc);
    knob_room(VERTICES, 3 * (view.end_index_offset + 2));
    knob_count(&vc);
    knob_view(&view);
    spoil();
    mask_count_answer a = mask_view_vertices(READ(OUTLINE1), vc, view, WRITE(VERTICES));
    say(a.refusal);
    say(a.count);
    uint32_t refusal = view_refusal(vc, &view);
    need = view.end_index_offset + 2;
    if (refusal == 0 && LEN(VERTICES) < 3 * need)
        refusal = 9;
    expect(refusal);
    expect(refusal == 0 ? need : 0);
    if (refusal == 0)
        for (size_t k = 0; k < need; k++) {
            mask_vertex v = vertex_of(F(OUTLINE1), vc, &view, k);
            memcpy(WANT_F(VERTICES) + 3 * k, &v, sizeof v);
        }
    settle();
}

/* ---- create: refusals 1 2 4 5 6 7 ---- */

mask_view created(const double *outline, size_t vc, size_t start, mask_point end, size_t at,
                  mask_vertex updated, size_t traverse, axes t, double split_bulge)
{
    mask_vertex v = vertex_at(outline, at);
    mask_view view = {start, traverse, updated, split_bulge, end, 0};
    if (agree(end.x, end.y, v.x, v.y, t)) {
        view.end_index_offset = traverse - 1;
        view.updated_end_bulge =
            traverse == 1 ? updated.bulge : vertex_at(outline, (at + vc - 1) % vc).bulge;
    }
    return view;
}

void storm_create(void)
{
    begin_call("mask_create");
    size_t vc = draw_outline(OUTLINE1), start = below(vc), at = below(vc), traverse = 1 + below(vc);
    mask_point end = draw_point(F(OUTLINE1), vc);
    mask_vertex updated = {coordinate(), coordinate(), bulge()};
    mask_split split = draw_split();
    axes t = {tolerance(), tolerance()};
    if (below(2))
        end = (mask_point){near_to(F(OUTLINE1)[3 * at], t.x), near_to(F(OUTLINE1)[3 * at + 1], t.y)};
    knob_count(&vc);
    knob_count(&start);
    knob_count(&at);
    knob_count(&traverse);
    knob_point(&end);
    knob_vertex(&updated);
    knob_split(&split);
    knob_number(&t.x);
    knob_number(&t.y);
    spoil();
    say_view(mask_create(READ(OUTLINE1), vc, start, end, at, updated, traverse, t.x, t.y, split));
    uint32_t refusal = wrong_length(OUTLINE1, vc)                     ? 1
                       : wrong_size(vc)                               ? 2
                       : !good_tolerance(t.x) || !good_tolerance(t.y) ? 4
                       : bad_numbers(OUTLINE1) || !point_in_range(end) ||
                               !vertex_in_range(updated) || !split_in_range(split)
                           ? 5
                       : start >= vc || at >= vc           ? 6
                       : traverse == 0 || traverse > vc    ? 7
                                                           : 0;
    expect(refusal);
    if (refusal == 0)
        expect_view(created(F(OUTLINE1), vc, start, end, at, updated, traverse, t,
                            split.updated_start.bulge));
    else
        expect_zeros(VIEW_FIELDS);
    settle();
}

/* ---- create_on_single_segment: refusals 1 2 4 5 6 ---- */

static void expect_single(size_t start, mask_vertex updated, mask_point end, axes t)
{
    if (agree(updated.x, updated.y, end.x, end.y, t))
        expect_zeros(VIEW_FIELDS);
    else
        expect_view((mask_view){start, 0, updated, updated.bulge, end, 0});
}

void storm_single(void)
{
    begin_call("mask_create_on_single_segment");
    size_t vc = draw_outline(OUTLINE1), start = below(vc);
    mask_point end = draw_point(F(OUTLINE1), vc);
    axes t = {tolerance(), tolerance()};
    mask_vertex updated = {near_to(end.x, t.x), near_to(end.y, t.y), bulge()};
    knob_count(&vc);
    knob_count(&start);
    knob_point(&end);
    knob_vertex(&updated);
    knob_number(&t.x);
    knob_number(&t.y);
    spoil();
    say_view(mask_create_on_single_segment(READ(OUTLINE1), vc, start, updated, end, t.x, t.y));
    uint32_t refusal = wrong_length(OUTLINE1, vc)                     ? 1
                       : wrong_size(vc)                               ? 2
                       : !good_tolerance(t.x) || !good_tolerance(t.y) ? 4
                       : bad_numbers(OUTLINE1) || !point_in_range(end) || !vertex_in_range(updated)
                           ? 5
                       : start >= vc ? 6
                                     : 0;
    expect(refusal);
    if (refusal == 0)
        expect_single(start, updated, end, t);
    else
        expect_zeros(VIEW_FIELDS);
    settle();
}

/* ---- from_entire_pline: refusals 1 2 3 5 ---- */

void storm_entire(void)
{
    begin_call("mask_from_entire_pline");
    size_t vc = draw_outline(OUTLINE1);
    uint32_t closed = (uint32_t)below(2);
    knob_count(&vc);
    knob_code(&closed);
    spoil();
    say_view(mask_from_entire_pline(READ(OUTLINE1), vc, closed));
    uint32_t refusal = wrong_length(OUTLINE1, vc) ? 1
                       : wrong_size(vc)           ? 2
                       : closed > 1               ? 3
                       : bad_numbers(OUTLINE1)    ? 5
                                                  : 0;
    expect(refusal);
    if (refusal == 0) {
        size_t offset = closed ? vc - 1 : vc - 2;
        mask_vertex next = vertex_at(F(OUTLINE1), (offset + 1) % vc);
        expect_view((mask_view){0, offset, vertex_at(F(OUTLINE1), 0),
                                vertex_at(F(OUTLINE1), offset).bulge, {next.x, next.y}, 0});
    } else {
        expect_zeros(VIEW_FIELDS);
    }
    settle();
}

/* ---- Views that start anywhere (request K5): refusals 1 2 3 4 5 6 15 ---- */

typedef struct anywhere {
    size_t vc, start, end;
    uint32_t closed;
    mask_point from, to;
    axes t;
    mask_split start_split, end_split;
} anywhere;

static void draw_anywhere(anywhere *a)
{
    a->vc = draw_outline(OUTLINE1);
    a->closed = (uint32_t)below(2);
    a->start = below(a->vc);
    a->end = below(3) ? below(a->vc) : a->start;
    if (!a->closed && a->start > a->end && below(4)) {
        size_t start = a->start;
        a->start = a->end;
        a->end = start;
    }
    a->from = draw_point(F(OUTLINE1), a->vc);
    a->to = below(4) ? draw_point(F(OUTLINE1), a->vc) : a->from;
    a->t = (axes){tolerance(), tolerance()};
    if (below(3) == 0) {
        mask_vertex next = vertex_at(F(OUTLINE1), (a->start + 1) % a->vc);
        a->from = (mask_point){near_to(next.x, a->t.x), near_to(next.y, a->t.y)};
    }
    a->start_split = draw_split();
    a->end_split = draw_split();
    if (below(2)) {
        a->end_split.updated_start.x = a->to.x;
        a->start_split.split_vertex.x = near_to(a->to.x, a->t.x);
        a->start_split.split_vertex.y = near_to(a->to.y, a->t.y);
    }
    knob_count(&a->vc);
    knob_code(&a->closed);
    knob_count(&a->start);
    knob_count(&a->end);
    knob_point(&a->from);
    knob_point(&a->to);
    knob_number(&a->t.x);
    knob_number(&a->t.y);
}

static void knob_splits(anywhere *a)
{
    knob_split(&a->start_split);
    knob_split(&a->end_split);
}

static uint32_t anywhere_refusal(const anywhere *a, bool has_end, bool has_splits)
{
    if (wrong_length(OUTLINE1, a->vc))
        return 1;
    if (wrong_size(a->vc))
        return 2;
    if (a->closed > 1)
        return 3;
    if (!good_tolerance(a->t.x) || !good_tolerance(a->t.y))
        return 4;
    if (bad_numbers(OUTLINE1) || !point_in_range(a->from) || (has_end && !point_in_range(a->to)))
        return 5;
    if (has_splits && (!split_in_range(a->start_split) || !split_in_range(a->end_split)))
        return 5;
    if (a->start >= a->vc || (has_end && a->end >= a->vc))
        return 6;
    if (has_end && !a->closed && a->start > a->end)
        return 15;
    return 0;
}

typedef struct span {
    size_t start, traverse;
    bool moved;
} span;

/* "a start point on the end of its segment moves forward unless an open outline can't; on one
 * segment the squared distances decide between no wrap and a full wrap, and equal distances
 * wrap" */
static span span_of(const anywhere *a)
{
    const double *outline = F(OUTLINE1);
    mask_vertex next = vertex_at(outline, (a->start + 1) % a->vc), first;
    span s = {a->start, 0, false};
    if ((a->closed || a->start < a->end) && agree(next.x, next.y, a->from.x, a->from.y, a->t))
        s = (span){(a->start + 1) % a->vc, 0, true};
    s.traverse = (a->end + a->vc - s.start) % a->vc;
    if (s.traverse == 0 && a->closed && !agree(a->from.x, a->from.y, a->to.x, a->to.y, a->t)) {
        first = vertex_at(outline, s.start);
        if (!(distance_squared(first.x, first.y, a->from.x, a->from.y) <
              distance_squared(first.x, first.y, a->to.x, a->to.y)))
            s.traverse = a->vc;
    }
    return s;
}

void storm_span(void)
{
    anywhere c;
    begin_call("mask_slice_span");
    draw_anywhere(&c);
    spoil();
    mask_span_answer a =
        mask_slice_span(READ(OUTLINE1), c.vc, c.closed, c.start, c.from, c.end, c.to, c.t.x, c.t.y);
    say(a.refusal);
    say(a.moved);
    say(a.start_index);
    say(a.traverse_count);
    uint32_t refusal = anywhere_refusal(&c, true, false);
    expect(refusal);
    if (refusal == 0) {
        span s = span_of(&c);
        expect(s.moved);
        expect(s.start);
        expect(s.traverse);
    } else {
        expect_zeros(3);
    }
    settle();
}

static void expect_slice_points(const anywhere *a)
{
    span s = span_of(a);
    const double *outline = F(OUTLINE1);
    mask_vertex first = vertex_at(outline, s.start), last = vertex_at(outline, a->end);
    mask_vertex running = s.moved ? first : a->start_split.split_vertex;
    if (s.traverse == 0) {
        expect_single(s.start, a->end_split.updated_start, a->to, a->t);
    } else if (s.traverse == 1 && agree(a->to.x, a->to.y, last.x, last.y, a->t) &&
               agree(running.x, running.y, a->to.x, a->to.y, a->t)) {
        expect_zeros(VIEW_FIELDS); /* "a traverse of 1 whose points agree gives no view" */
    } else {
        expect_view(created(outline, a->vc, s.start, a->to, a->end, running, s.traverse, a->t,
                            a->end_split.updated_start.bulge));
    }
}

void storm_slice_points(void)
{
    anywhere c;
    begin_call("mask_from_slice_points");
    draw_anywhere(&c);
    knob_splits(&c);
    spoil();
    say_view(mask_from_slice_points(READ(OUTLINE1), c.vc, c.closed, c.start, c.from, c.end, c.to,
                                    c.t.x, c.t.y, c.start_split, c.end_split));
    uint32_t refusal = anywhere_refusal(&c, true, true);
    expect(refusal);
    if (refusal == 0)
        expect_slice_points(&c);
    else
        expect_zeros(VIEW_FIELDS);
    settle();
}

/* The closed outline once round from the point. */
static void expect_round(const anywhere *a)
{
    const double *outline = F(OUTLINE1);
    mask_vertex next = vertex_at(outline, (a->start + 1) % a->vc), first;
    size_t start = agree(next.x, next.y, a->from.x, a->from.y, a->t) ? (a->start + 1) % a->vc : a->start;
    mask_view view = {start, a->vc, a->start_split.split_vertex, a->start_split.updated_start.bulge,
                      a->from, 0};
    first = vertex_at(outline, start);
    if (agree(first.x, first.y, a->from.x, a->from.y, a->t)) {
        view.end_index_offset = a->vc - 1;
        view.updated_end_bulge = vertex_at(outline, (start + a->vc - 1) % a->vc).bulge;
    }
    expect_view(view);
}

void storm_new_start(void)
{
    anywhere c;
    begin_call("mask_from_new_start");
    draw_anywhere(&c);
    knob_splits(&c);
    spoil();
    say_view(mask_from_new_start(READ(OUTLINE1), c.vc, c.closed, c.start, c.from, c.t.x, c.t.y,
                                 c.start_split, c.end_split));
    uint32_t refusal = anywhere_refusal(&c, false, true);
    expect(refusal);
    if (refusal != 0) {
        expect_zeros(VIEW_FIELDS);
    } else if (c.closed) {
        expect_round(&c);
    } else {
        mask_vertex last = vertex_at(F(OUTLINE1), c.vc - 1);
        c.end = c.vc - 1;
        c.to = (mask_point){last.x, last.y};
        expect_slice_points(&c);
    }
    settle();
}

/* ---- Verdicts: refusals 1 2 (too long) 3 5 6 (2 vertices or more), 14 ---- */

typedef struct asked {
    size_t vc;
    uint32_t edition, view_edition, start_on, end_on;
    mask_view view;
} asked;

static void draw_asked(asked *q)
{
    q->vc = draw_outline(OUTLINE1);
    q->view = draw_view(F(OUTLINE1), q->vc);
    if (below(2) == 0) { /* both ends at vertices of their segments, or by 1e-3 off */
        size_t last = (q->view.start_index + q->view.end_index_offset) % q->vc;
        mask_vertex a = vertex_at(F(OUTLINE1), q->view.start_index),
                    b = vertex_at(F(OUTLINE1), (last + below(2)) % q->vc);
        q->view.updated_start.x = near_to(a.x, 1e-3);
        q->view.updated_start.y = near_to(a.y, 1e-3);
        q->view.end_point = (mask_point){near_to(b.x, below(2) ? 1e-3 : 1e-5), near_to(b.y, 1e-5)};
        if (below(2))
            q->view.updated_end_bulge = near_to(q->view.updated_start.bulge, 1e-5);
    }
    q->edition = edition();
    q->view_edition = below(4) ? q->edition : edition();
    q->start_on = (uint32_t)below(2);
    q->end_on = (uint32_t)below(2);
    if (rarely(20)) {
        q->vc = below(2);
        LEN(OUTLINE1) = 3 * q->vc;
    }
    knob_count(&q->vc);
    knob_view(&q->view);
    knob_code(&q->start_on);
    knob_code(&q->end_on);
}

static uint32_t asked_refusal(const asked *q)
{
    if (wrong_length(OUTLINE1, q->vc))
        return 1;
    if (q->vc > 1024)
        return 2;
    if (q->view.inverted_direction > 1 || q->start_on > 1 || q->end_on > 1)
        return 3;
    if (bad_numbers(OUTLINE1) || !view_in_range(&q->view))
        return 5;
    if (q->vc >= 2 && q->view.start_index >= q->vc)
        return 6;
    return 0;
}

/* "near neither vertex of its segment": then the host's answer decides. */
static bool on_segment(size_t vc, size_t segment, mask_point p, uint32_t said)
{
    axes t = {1e-3, 1e-3};
    mask_vertex a = vertex_at(F(OUTLINE1), segment), b = vertex_at(F(OUTLINE1), (segment + 1) % vc);
    return agree(p.x, p.y, a.x, a.y, t) || agree(p.x, p.y, b.x, b.y, t) || said == 1;
}

static mask_verdict_answer verdict_of(const asked *q)
{
    mask_verdict_answer v;
    const mask_view *w = &q->view;
    mask_point start = {w->updated_start.x, w->updated_start.y};
    memset(&v, 0, sizeof v);
    if (q->vc < 2) {
        v.verdict = 1;
        return v;
    }
    if (w->end_index_offset > q->vc) {
        v.verdict = 2;
        v.offset = w->end_index_offset;
        v.source_length = q->vc;
        return v;
    }
    if (!on_segment(q->vc, w->start_index, start, q->start_on)) {
        v.verdict = 3;
        v.point = start;
        return v;
    }
    size_t last = (w->start_index + w->end_index_offset) % q->vc;
    mask_vertex at = vertex_at(F(OUTLINE1), last);
    if (!on_segment(q->vc, last, w->end_point, q->end_on)) {
        v.verdict = 4;
        v.point = w->end_point;
    } else if (agree(w->end_point.x, w->end_point.y, at.x, at.y, (axes){1e-5, 1e-5})) {
        v.verdict = 5;
        v.point = w->end_point;
        v.vertex = at;
    } else if (w->end_index_offset == 0 &&
               !(fabs(w->updated_end_bulge - w->updated_start.bulge) < 1e-5)) {
        v.verdict = 6;
        v.updated_bulge = w->updated_end_bulge;
        v.expected = w->updated_start.bulge;
    } else {
        v.verdict = 7;
    }
    return v;
}

static void expect_verdict(mask_verdict_answer v)
{
    expect(v.verdict);
    expect(v.offset);
    expect(v.source_length);
    expect_number(v.point.x);
    expect_number(v.point.y);
    expect_vertex(v.vertex);
    expect_number(v.updated_bulge);
    expect_number(v.expected);
}

/* The fields that both answers have. */
#define SAY_VERDICT(a) \
    do { \
        say((a).refusal); \
        say((a).verdict); \
        say((a).offset); \
        say((a).source_length); \
        say_number((a).point.x); \
        say_number((a).point.y); \
        say_vertex((a).vertex); \
        say_number((a).updated_bulge); \
        say_number((a).expected); \
    } while (0)

void storm_validate(void)
{
    asked q;
    begin_call("mask_validate_for_source");
    draw_asked(&q);
    spoil();
    mask_verdict_answer a = mask_validate_for_source(READ(OUTLINE1), q.vc, q.edition, q.view,
                                                     q.view_edition, q.start_on, q.end_on);
    SAY_VERDICT(a);
    uint32_t refusal = asked_refusal(&q);
    if (refusal == 0 && q.edition != q.view_edition)
        refusal = 14;
    expect(refusal);
    if (refusal == 0)
        expect_verdict(verdict_of(&q));
    else
        expect_zeros(10);
    settle();
}

void storm_reopen(void)
{
    asked q;
    begin_call("mask_reopen");
    draw_asked(&q);
    spoil();
    mask_reopen_answer a = mask_reopen(READ(OUTLINE1), q.vc, q.edition, q.view, q.view_edition,
                                       q.start_on, q.end_on);
    SAY_VERDICT(a);
    say(a.edition);
    uint32_t refusal = asked_refusal(&q);
    expect(refusal);
    if (refusal == 0) {
        mask_verdict_answer v = verdict_of(&q);
        expect_verdict(v);
        expect(v.verdict == 7 ? q.edition : q.view_edition);
    } else {
        expect_zeros(11);
    }
    settle();
}

/* ---- unmoved: refusals 1 2 3 5 6 7, of both outlines ---- */

void storm_unmoved(void)
{
    begin_call("mask_unmoved");
    size_t vc1 = draw_outline(OUTLINE1), vc2 = vc1;
    mask_view view = draw_view(F(OUTLINE1), vc1);
    if (below(4)) { /* the same outline, but for a vertex or none */
        memcpy(F(OUTLINE2), F(OUTLINE1), 8 * LEN(OUTLINE1));
        LEN(OUTLINE2) = LEN(OUTLINE1);
        if (below(3))
            F(OUTLINE2)[below(LEN(OUTLINE2))] = below(2) ? -0.0 : coordinate();
        knob_list(OUTLINE2, 3);
    } else {
        vc2 = draw_outline(OUTLINE2);
        view.start_index %= vc2;
        if (view.end_index_offset > vc2)
            view.end_index_offset = vc2;
    }
    knob_count(&vc1);
    knob_count(&vc2);
    knob_view(&view);
    spoil();
    mask_unmoved_answer a = mask_unmoved(READ(OUTLINE1), vc1, READ(OUTLINE2), vc2, view);
    say(a.refusal);
    say(a.unmoved);
    say(a.first);
    uint32_t refusal = wrong_length(OUTLINE1, vc1) || wrong_length(OUTLINE2, vc2) ? 1
                       : wrong_size(vc1) || wrong_size(vc2)                       ? 2
                       : view.inverted_direction > 1                              ? 3
                       : bad_numbers(OUTLINE1) || bad_numbers(OUTLINE2) || !view_in_range(&view)
                           ? 5
                       : view.start_index >= vc1 || view.start_index >= vc2           ? 6
                       : view.end_index_offset > vc1 || view.end_index_offset > vc2   ? 7
                                                                                      : 0;
    size_t first = 0;
    if (refusal == 0)
        for (size_t k = 0; first == 0 && k < view.end_index_offset + 2; k++) {
            mask_vertex one = vertex_of(F(OUTLINE1), vc1, &view, k);
            mask_vertex two = vertex_of(F(OUTLINE2), vc2, &view, k);
            if (memcmp(&one, &two, sizeof one) != 0)
                first = k;
        }
    expect(refusal);
    expect(refusal == 0 && first == 0);
    expect(first);
    settle();
}
