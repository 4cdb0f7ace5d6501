/*
 * Calls the three entries for views that start anywhere as a host does, and compares
 * every answer, bit for bit, with what request K5 says. One line for each check; the
 * status is 0 where none failed.
 *
 * The reference below is written from document 02 and, where that is short, from what
 * the Rust does. A host that splits makes one call of it: see `slice` and `restart`.
 *
 * Every list is lent from memory that faults when it is written, and that ends
 * where a page begins that faults when it is read.
 */
#include "testing.h"

AT(mask_span_answer, refusal, 0);
AT(mask_span_answer, moved, 4);
AT(mask_span_answer, start_index, 8);
AT(mask_span_answer, traverse_count, 16);
SIZE(mask_span_answer, 24);

/* ---- Equal to the bit ---- */

static int same(double a, double b) { return memcmp(&a, &b, sizeof a) == 0; }

static int same_vertex(mask_vertex a, mask_vertex b)
{
    return same(a.x, b.x) && same(a.y, b.y) && same(a.bulge, b.bulge);
}

static int same_span(mask_span_answer a, mask_span_answer b)
{
    return a.refusal == b.refusal && a.moved == b.moved && a.start_index == b.start_index &&
           a.traverse_count == b.traverse_count;
}

static int same_view(mask_view_answer a, mask_view_answer b)
{
    return a.refusal == b.refusal && a.found == b.found &&
           a.view.start_index == b.view.start_index &&
           a.view.end_index_offset == b.view.end_index_offset &&
           same_vertex(a.view.updated_start, b.view.updated_start) &&
           same(a.view.updated_end_bulge, b.view.updated_end_bulge) &&
           same(a.view.end_point.x, b.view.end_point.x) &&
           same(a.view.end_point.y, b.view.end_point.y) &&
           a.view.inverted_direction == b.view.inverted_direction;
}

/* ---- Outlines and calls ---- */

enum { OUTLINE };

typedef struct outline {
    const double *list; /* lent */
    size_t len;
    size_t vc;
} outline;

/* Lends `len` numbers, and says that they are `vc` vertices. A later call takes them back. */
static outline lend_outline(const double *from, size_t len, size_t vc)
{
    return (outline){lend_any(OUTLINE, from, len * sizeof *from), len, vc};
}

/* Two points, each with the index of its segment. */
typedef struct ends {
    uint32_t closed;
    size_t start_index;
    mask_point start_point;
    size_t end_index;
    mask_point end_point;
    axes tolerance;
} ends;

typedef struct splits {
    mask_split start, end;
} splits;

static mask_span_answer call_span(outline o, ends e)
{
    return mask_slice_span(o.list, o.len, o.vc, e.closed, e.start_index, e.start_point,
                           e.end_index, e.end_point, e.tolerance.x, e.tolerance.y);
}

static mask_view_answer call_slice(outline o, ends e, splits s)
{
    return mask_from_slice_points(o.list, o.len, o.vc, e.closed, e.start_index, e.start_point,
                                  e.end_index, e.end_point, e.tolerance.x, e.tolerance.y, s.start,
                                  s.end);
}

static mask_view_answer call_restart(outline o, ends e, splits s)
{
    return mask_from_new_start(o.list, o.len, o.vc, e.closed, e.start_index, e.start_point,
                               e.tolerance.x, e.tolerance.y, s.start, s.end);
}

/* ---- A host that splits: one call for the user ---- */

static mask_vertex at(outline o, size_t i)
{
    const double *v = o.list + 3 * (i % o.vc);
    return (mask_vertex){v[0], v[1], v[2]};
}

static mask_point place(mask_vertex v) { return (mask_point){v.x, v.y}; }

/* A host's split of the segment from a to b at p. */
typedef mask_split host(mask_vertex a, mask_vertex b, mask_point p);

static mask_split straight(mask_vertex a, mask_vertex b, mask_point p)
{
    (void)b;
    return (mask_split){a, {p.x, p.y, 0}};
}

/* What the span asks for. A start that moved is not split. */
static splits split(outline o, ends e, mask_span_answer span, host *host)
{
    splits s = {0};
    size_t first = span.start_index;
    if (!span.moved)
        s.start = host(at(o, first), at(o, first + 1), e.start_point);
    if (span.traverse_count != 0)
        s.end = host(at(o, e.end_index), at(o, e.end_index + 1), e.end_point);
    else
        s.end = host(span.moved ? at(o, first) : s.start.split_vertex, at(o, first + 1),
                     e.end_point);
    return s;
}

/* The view between two points. */
static mask_view_answer slice(outline o, ends e, host *host)
{
    mask_span_answer span = call_span(o, e);
    if (span.refusal != 0)
        return (mask_view_answer){.refusal = span.refusal};
    return call_slice(o, e, split(o, e, span, host));
}

/* The two points whose span a new start asks for. */
static ends new_ends(outline o, ends e)
{
    e.end_index = e.closed ? e.start_index : o.vc - 1;
    e.end_point = e.closed ? e.start_point : place(at(o, o.vc - 1));
    return e;
}

/* The view from a new start. */
static mask_view_answer restart(outline o, ends e, host *host)
{
    mask_span_answer span = call_span(o, new_ends(o, e));
    splits s = {0};
    if (span.refusal != 0)
        return (mask_view_answer){.refusal = span.refusal};
    if (e.closed)
        s.start = host(at(o, span.start_index), at(o, span.start_index + 1), e.start_point);
    else
        s = split(o, new_ends(o, e), span, host);
    return call_restart(o, e, s);
}

/* ---- The reference ---- */

static int agree(mask_point a, mask_point b, axes t)
{
    return fabs(a.x - b.x) < t.x && fabs(a.y - b.y) < t.y;
}

static double far(mask_point a, mask_point b)
{
    double dx = a.x - b.x, dy = a.y - b.y;
    return dx * dx + dy * dy;
}

static int small_point(mask_point p) { return small(p.x) && small(p.y); }

static int small_vertex(mask_vertex v) { return small(v.x) && small(v.y) && small(v.bulge); }

static int small_splits(splits s)
{
    return small_vertex(s.start.updated_start) && small_vertex(s.start.split_vertex) &&
           small_vertex(s.end.updated_start) && small_vertex(s.end.split_vertex);
}

/* 1 to 4, and 5 of the outline. */
static uint32_t shape_fault(outline o, ends e)
{
    if (!right_length(o.len, 3, o.vc))
        return 1;
    if (o.vc < LEAST_VERTICES || o.vc > MOST_VERTICES)
        return 2;
    if (e.closed > 1)
        return 3;
    if (!right_tolerances(e.tolerance))
        return 4;
    return small_list(o.list, o.len) ? 0 : 5;
}

/* "15 for that, after 6." */
static uint32_t index_fault(outline o, ends e)
{
    if (e.start_index >= o.vc || e.end_index >= o.vc)
        return 6;
    return e.closed == 0 && e.start_index > e.end_index ? 15 : 0;
}

/* An accepted call's span. */
static mask_span_answer spanned(outline o, ends e)
{
    mask_span_answer span = {.start_index = e.start_index};
    if ((e.closed || e.start_index < e.end_index) &&
        agree(place(at(o, e.start_index + 1)), e.start_point, e.tolerance)) {
        span.moved = 1;
        span.start_index = e.start_index + 1 == o.vc ? 0 : e.start_index + 1;
    }
    span.traverse_count = span.start_index <= e.end_index
                              ? e.end_index - span.start_index
                              : o.vc - span.start_index + e.end_index;
    if (span.traverse_count == 0 && e.closed &&
        !agree(e.start_point, e.end_point, e.tolerance)) {
        mask_point v = place(at(o, span.start_index));
        if (!(far(v, e.start_point) < far(v, e.end_point)))
            span.traverse_count = o.vc;
    }
    return span;
}

static mask_span_answer span_of(outline o, ends e)
{
    uint32_t fault = shape_fault(o, e);
    if (fault == 0 && (!small_point(e.start_point) || !small_point(e.end_point)))
        fault = 5;
    if (fault == 0)
        fault = index_fault(o, e);
    return fault ? (mask_span_answer){.refusal = fault} : spanned(o, e);
}

static mask_view_answer the_view(size_t start, size_t offset, mask_vertex first, double bulge,
                                 mask_point end)
{
    return (mask_view_answer){0, 1, {start, offset, first, bulge, end, 0}};
}

static mask_view_answer no_view(uint32_t refusal) { return (mask_view_answer){.refusal = refusal}; }

static mask_view_answer slice_of(outline o, ends e, splits s)
{
    mask_span_answer span = span_of(o, e);
    size_t n = span.traverse_count;
    mask_vertex first = span.moved ? at(o, span.start_index) : s.start.split_vertex;
    mask_vertex part = s.end.updated_start;
    if (span.refusal != 0 && span.refusal < 6)
        return no_view(span.refusal);
    if (!small_splits(s))
        return no_view(5);
    if (span.refusal != 0)
        return no_view(span.refusal);
    if (n == 0 && agree(place(part), e.end_point, e.tolerance))
        return no_view(0);
    if (n == 0)
        return the_view(span.start_index, 0, part, part.bulge, e.end_point);
    if (!agree(e.end_point, place(at(o, e.end_index)), e.tolerance))
        return the_view(span.start_index, n, first, part.bulge, e.end_point);
    if (n == 1 && agree(place(first), e.end_point, e.tolerance))
        return no_view(0);
    return the_view(span.start_index, n - 1, first,
                    n == 1 ? first.bulge : at(o, e.end_index + o.vc - 1).bulge, e.end_point);
}

static mask_view_answer restart_of(outline o, ends e, splits s)
{
    uint32_t fault = shape_fault(o, e);
    size_t i;
    if (fault == 0 && (!small_point(e.start_point) || !small_splits(s)))
        fault = 5;
    if (fault == 0 && e.start_index >= o.vc)
        fault = 6;
    if (fault != 0)
        return no_view(fault);
    if (!e.closed)
        return slice_of(o, new_ends(o, e), s);
    i = spanned(o, new_ends(o, e)).start_index;
    if (agree(place(at(o, i)), e.start_point, e.tolerance))
        return the_view(i, o.vc - 1, s.start.split_vertex, at(o, i + o.vc - 1).bulge,
                        e.start_point);
    return the_view(i, o.vc, s.start.split_vertex, s.start.updated_start.bulge, e.start_point);
}

/* ---- Every corner at its smallest input ---- */

/* Segment 0 runs from 0 to 4, segment 1 back. */
static const double LINE[] = {0, 0, 0, 4, 0, 0};

static ends on(uint32_t closed, size_t i, double p, size_t j, double q, double t)
{
    return (ends){closed, i, {p, 0}, j, {q, 0}, both(t)};
}

#define FINE {0.5, 0.5}
#define COARSE {1, 1}

/* The span, then the view: its offset, and where it starts and ends. */
static const struct {
    const char *what;
    ends e;
    uint32_t moved;
    size_t start, count;
    uint32_t found;
    size_t offset;
    double from;
} CORNERS[] = {
    {"an open start moves", {0, 0, {4, 0}, 1, {2, 0}, FINE}, 1, 1, 0, 1, 0, 4},
    {"one on the end's segment does not", {0, 1, {0, 0}, 1, {2, 0}, FINE}, 0, 1, 0, 1, 0, 0},
    {"a closed start moves on to vertex 0", {1, 1, {0, 0}, 1, {2, 0}, FINE}, 1, 0, 1, 1, 1, 0},
    {"a start moves off the end's segment", {1, 0, {4, 0}, 0, {2, 0}, FINE}, 1, 1, 1, 1, 1, 4},
    {"the nearer start does not wrap", {1, 0, {1, 0}, 0, {3, 0}, FINE}, 0, 0, 0, 1, 0, 1},
    {"the farther start wraps", {1, 0, {3, 0}, 0, {1, 0}, FINE}, 0, 0, 2, 1, 2, 3},
    {"equal distances wrap", {1, 0, {3, 0}, 0, {0, 3}, FINE}, 0, 0, 2, 1, 2, 3},
    {"a start that moved wraps", {1, 0, {4.75, 0}, 1, {3.5, 0}, COARSE}, 1, 1, 2, 1, 1, 4},
    {"one point does not wrap", {1, 0, {1, 0}, 0, {1, 0}, FINE}, 0, 0, 0, 0, 0, 0},
    {"points that agree do not wrap", {1, 0, {3, 0}, 0, {2.5, 0}, COARSE}, 0, 0, 0, 0, 0, 0},
    {"an open view runs backward", {0, 0, {3, 0}, 0, {1, 0}, FINE}, 0, 0, 0, 1, 0, 3},
    {"a traverse of 1 collapses", {0, 0, {3, 0}, 1, {3.5, 0}, COARSE}, 0, 0, 1, 0, 0, 0},
    {"also on a closed outline", {1, 0, {3, 0}, 1, {3.5, 0}, COARSE}, 0, 0, 1, 0, 0, 0},
    {"not off the end's vertex", {1, 0, {3, 0}, 1, {3, 0}, FINE}, 0, 0, 1, 1, 1, 3},
    {"a view ends on a vertex", {1, 0, {1, 0}, 1, {4, 0}, FINE}, 0, 0, 1, 1, 0, 1},
};

static void corners(void)
{
    outline o = lend_outline(LINE, 6, 2);
    for (size_t i = 0; i < sizeof CORNERS / sizeof *CORNERS; i++) {
        ends e = CORNERS[i].e;
        mask_span_answer span = {0, CORNERS[i].moved, CORNERS[i].start, CORNERS[i].count};
        mask_vertex first = {CORNERS[i].from, 0, 0};
        mask_view_answer view =
            CORNERS[i].found ? the_view(span.start_index, CORNERS[i].offset, first, 0, e.end_point)
                             : no_view(0);
        check(same_span(call_span(o, e), span) && same_view(slice(o, e, straight), view), "%s",
              CORNERS[i].what);
    }
}

/* "it is the updated start that is compared": of three vertices, the last close to the second. */
static void updated_start(void)
{
    const double near_one[] = {0, 0, 0, 4, 0, 0, 4.75, 0, 0};
    const double far_one[] = {0, 0, 0, 4, 0, 0, 5, 0, 0};
    outline o = lend_outline(near_one, 9, 3);
    check(same_view(slice(o, on(1, 0, 3.5, 2, 4.75, 1), straight), no_view(0)),
          "a start that moved onto a vertex which agrees with the end gives no view");
    o = lend_outline(far_one, 9, 3);
    check(same_view(slice(o, on(1, 0, 4.5, 2, 5.25, 1), straight),
                    the_view(1, 0, at(o, 1), 0, (mask_point){5.25, 0})),
          "a start that moved off the end's neighbourhood gives one");
}

/* Request K6: a start that is off its segment's end by 1/4 on both axes. */
static void axes_apart(void)
{
    static const axes tolerances[] = {{0.5, 0.5}, {0.5, 0.25}, {0.25, 0.5}};
    outline o = lend_outline(LINE, 6, 2);
    int ok = 1;
    for (size_t i = 0; i < 3; i++) {
        ends e = {1, 0, {4.25, 0.25}, 1, {2, 0}, tolerances[i]};
        mask_span_answer span = i == 0 ? (mask_span_answer){0, 1, 1, 0}
                                       : (mask_span_answer){0, 0, 0, 1};
        ok = ok && same_span(call_span(o, e), span);
    }
    check(ok, "a start moves where each axis is within its own tolerance");
}

static void new_starts(void)
{
    static const struct {
        const char *what;
        uint32_t closed;
        size_t i;
        double p;
        uint32_t found;
        size_t start, offset;
        double end;
    } cases[] = {
        {"inside a segment, once round", 1, 0, 1, 1, 0, 2, 1},
        {"on its first vertex, once round", 1, 0, 0, 1, 0, 1, 0},
        {"on its second vertex, once round", 1, 0, 4, 1, 1, 1, 4},
        {"on vertex 0 from the last segment", 1, 1, 0, 1, 0, 1, 0},
        {"open, inside a segment", 0, 0, 1, 1, 0, 0, 4},
        {"open, on its first vertex", 0, 0, 0, 1, 0, 0, 4},
        {"open, on its last vertex", 0, 0, 4, 0, 0, 0, 0},
        {"open, on its last vertex at the last index", 0, 1, 4, 0, 0, 0, 0},
        {"open, on the segment back to vertex 0", 0, 1, 2, 1, 1, 0, 4},
    };
    outline o = lend_outline(LINE, 6, 2);
    for (size_t k = 0; k < sizeof cases / sizeof *cases; k++) {
        ends e = on(cases[k].closed, cases[k].i, cases[k].p, 0, 0, T);
        mask_vertex first = {cases[k].p, 0, 0};
        mask_point end = {cases[k].end, 0};
        mask_view_answer view = cases[k].found
                                    ? the_view(cases[k].start, cases[k].offset, first, 0, end)
                                    : no_view(0);
        check(same_view(restart(o, e, straight), view), "a new start %s", cases[k].what);
    }
}

/* At its own first vertex an outline is whole, and elsewhere it has the same vertices in turn. */
static void whole(void)
{
    outline o = lend_outline(A, 12, 4);
    int ok = 1;
    for (uint32_t closed = 0; closed < 2; closed++)
        check(same_view(restart(o, on(closed, 0, 0, 0, 0, T), straight),
                        mask_from_entire_pline(o.list, o.len, o.vc, closed)),
              "%s outline from its own start is whole", closed ? "a closed" : "an open");
    for (size_t i = 0; i < 4; i++)
        for (int between = 0; between < 2; between++) {
            mask_vertex v = at(o, i), w = at(o, i + 1);
            mask_point p = {between ? (v.x + w.x) / 2 : v.x, between ? (v.y + w.y) / 2 : v.y};
            mask_view_answer r = restart(o, (ends){1, i, p, 0, {0, 0}, both(T)}, straight);
            ok = ok && r.found && r.view.end_index_offset == (between ? 4 : 3);
            for (size_t k = 1; k < 4; k++)
                ok = ok && same_vertex(mask_view_vertex(o.list, o.len, o.vc, r.view, k).vertex,
                                       at(o, i + k));
        }
    check(ok, "once round has every vertex, started elsewhere");
}

/* ---- Refusals ---- */

enum { LENGTH, SIZE_, CODE, TOLERANCE_X, TOLERANCE_Y, NUMBER, INDEX, BACK, FAULTS };

static const uint32_t NUMBERS[] = {1, 2, 3, 4, 4, 5, 6, 15};

/* A call with a set of faults. Where its index is at fault, an open outline runs back too. */
static ends faulty(unsigned set)
{
    ends e = on(0, 1, 1, 1, 2, 0.5);
    if (set >> CODE & 1)
        e.closed = 2;
    if (set >> TOLERANCE_X & 1)
        e.tolerance.x = 0;
    if (set >> TOLERANCE_Y & 1)
        e.tolerance.y = 0;
    if (set >> BACK & 1)
        e.start_index = 1, e.end_index = 0;
    if (set >> INDEX & 1)
        e.start_index = HALF;
    return e;
}

static void refusals(void)
{
    static const double one[] = {0, 0, 0};
    int spans = 1, slices = 1, starts = 1;
    for (unsigned set = 0; set < 1u << FAULTS; set++) {
        int with_number = set >> NUMBER & 1;
        ends e = faulty(set);
        splits s = {0};
        uint32_t lowest = 0;
        outline o = set >> SIZE_ & 1 ? lend_outline(one, 3, 1) : lend_outline(LINE, 6, 2);
        if (set >> LENGTH & 1)
            o.vc += 1;
        for (unsigned i = FAULTS; i-- > 0;)
            if (set >> i & 1)
                lowest = NUMBERS[i];
        if (with_number)
            s.end.split_vertex.bulge = NAN;
        spans = spans && (with_number || call_span(o, e).refusal == lowest);
        slices = slices && same_view(call_slice(o, e, s),
                                     lowest ? no_view(lowest) : slice_of(o, e, s));
        if (lowest != 15)
            starts = starts && same_view(call_restart(o, e, s),
                                         lowest ? no_view(lowest) : restart_of(o, e, s));
    }
    check(spans, "span: of any faults together the lowest number: 1, 2, 3, 4, 6, 15");
    check(slices, "slice: of any faults together the lowest number: 1, 2, 3, 4, 5, 6, 15");
    check(starts, "new start: of any faults together the lowest number: 1, 2, 3, 4, 5, 6");
}

/* Number 5 looks at every f64, also at what a call would not use. */
static void numbers(void)
{
    int ok = 1;
    outline o = lend_outline(LINE, 6, 2);
    for (unsigned i = 0; i < 16; i++) {
        ends e = on(1, 0, 1, 1, 2, 0.5);
        splits s = {0};
        double *all[] = {&e.start_point.x, &e.start_point.y, &e.end_point.x, &e.end_point.y};
        double *of_splits = &s.start.updated_start.x;
        *(i < 4 ? all[i] : of_splits + (i - 4)) = bad_number();
        ok = ok && same_view(call_slice(o, e, s), no_view(5));
        ok = ok && call_span(o, e).refusal == (i < 4 ? 5 : 0);
        ok = ok && call_restart(o, e, s).refusal == (i == 2 || i == 3 ? 0 : 5);
    }
    check(ok, "refusal 5: every number of the points and of both splits");
}

/* ---- Drawn calls ---- */

static double drawn_number(void) { return (double)below(9) - 4; }

static mask_vertex drawn_vertex(mask_point p)
{
    mask_vertex v = {p.x, p.y, (double)below(9) / 8 - 0.5};
    if (rarely(3))
        v.x = drawn_number(), v.y = drawn_number();
    return v;
}

static mask_point drawn_point(outline o, size_t i, axes t)
{
    mask_point p = place(at(o, i + below(2)));
    if (rarely(3))
        p.x = drawn_number(), p.y = drawn_number();
    return (mask_point){near(p.x, t.x), near(p.y, rarely(2) ? t.y : 0)};
}

static void drawn(void)
{
    enum { CASES = 200000 };
    static const double tolerances[] = {1.0 / 1024, 0.5, 1, 1e-5};
    static double list[3 * 8];
    int spans = 1, slices = 1, starts = 1;
    unsigned moved = 0, round = 0, none = 0, back = 0;
    for (unsigned i = 0; i < CASES && spans && slices && starts; i++) {
        axes t = both(tolerances[below(4)]);
        if (rarely(2))
            t.y = tolerances[below(4)];
        size_t vc = 2 + below(6);
        for (size_t k = 0; k < vc; k++) {
            mask_point p = {drawn_number(), drawn_number()};
            if (k && rarely(5))
                p = (mask_point){list[3 * k - 3], list[3 * k - 2]};
            mask_vertex v = drawn_vertex(p);
            memcpy(list + 3 * k, &v, sizeof v);
        }
        outline o = lend_outline(list, 3 * vc, vc);
        ends e = {rarely(2), below(vc), {0, 0}, below(vc), {0, 0}, t};
        e.start_point = drawn_point(o, e.start_index, t);
        e.end_point = rarely(6) ? e.start_point : drawn_point(o, e.end_index, t);
        splits s = {{drawn_vertex(e.start_point), drawn_vertex(e.start_point)},
                    {drawn_vertex(e.end_point), drawn_vertex(e.end_point)}};
        mask_span_answer span = span_of(o, e);
        mask_view_answer view = slice_of(o, e, s);
        spans = same_span(call_span(o, e), span);
        slices = same_view(call_slice(o, e, s), view);
        starts = same_view(call_restart(o, e, s), restart_of(o, e, s));
        moved += span.moved;
        back += span.refusal == 15;
        round += span.refusal == 0 && span.traverse_count == vc;
        none += view.refusal == 0 && !view.found;
    }
    check(spans, "span: %u drawn calls as the request says", (unsigned)CASES);
    check(slices, "slice: %u drawn calls as the request says", (unsigned)CASES);
    check(starts, "new start: %u drawn calls as the request says", (unsigned)CASES);
    check(moved >= 20000 && round >= 2000 && none >= 2000 && back >= 20000,
          "among them starts that moved, all the way round, no view, and refusal 15");
}

int main(void)
{
    watch("FAIL the library touched memory outside a list\n");
    make_list(OUTLINE, 3 * 8);
    seed = 20260115;
    corners();
    updated_start();
    axes_apart();
    new_starts();
    whole();
    refusals();
    numbers();
    drawn();
    return finish("starts_test");
}
