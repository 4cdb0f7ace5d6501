/*
 * Calls the entries over views as a host does, and compares every answer, bit for
 * bit, with what documents 01 and 02 say. One line for each check; the status is 0
 * where none failed.
 *
 * The reference below is written from these documents and from nothing else.
 *
 * Every list is lent from memory that faults when it is written, and that ends
 * where a page begins that faults when it is read.
 */
#include "testing.h"

/* ---- The layout ---- */

AT(mask_point, x, 0);
AT(mask_point, y, 8);
SIZE(mask_point, 16);

AT(mask_vertex, x, 0);
AT(mask_vertex, y, 8);
AT(mask_vertex, bulge, 16);
SIZE(mask_vertex, 24);

AT(mask_view, start_index, 0);
AT(mask_view, end_index_offset, 8);
AT(mask_view, updated_start, 16);
AT(mask_view, updated_end_bulge, 40);
AT(mask_view, end_point, 48);
AT(mask_view, inverted_direction, 64);
SIZE(mask_view, 72);

AT(mask_split, updated_start, 0);
AT(mask_split, split_vertex, 24);
SIZE(mask_split, 48);

AT(mask_vertex_answer, refusal, 0);
AT(mask_vertex_answer, found, 4);
AT(mask_vertex_answer, vertex, 8);
SIZE(mask_vertex_answer, 32);

AT(mask_view_answer, refusal, 0);
AT(mask_view_answer, found, 4);
AT(mask_view_answer, view, 8);
SIZE(mask_view_answer, 80);

AT(mask_verdict_answer, refusal, 0);
AT(mask_verdict_answer, verdict, 4);
AT(mask_verdict_answer, offset, 8);
AT(mask_verdict_answer, source_length, 16);
AT(mask_verdict_answer, point, 24);
AT(mask_verdict_answer, vertex, 40);
AT(mask_verdict_answer, updated_bulge, 64);
AT(mask_verdict_answer, expected, 72);
SIZE(mask_verdict_answer, 80);

AT(mask_reopen_answer, refusal, 0);
AT(mask_reopen_answer, verdict, 4);
AT(mask_reopen_answer, offset, 8);
AT(mask_reopen_answer, source_length, 16);
AT(mask_reopen_answer, point, 24);
AT(mask_reopen_answer, vertex, 40);
AT(mask_reopen_answer, updated_bulge, 64);
AT(mask_reopen_answer, expected, 72);
AT(mask_reopen_answer, edition, 80);
SIZE(mask_reopen_answer, 88);

AT(mask_unmoved_answer, refusal, 0);
AT(mask_unmoved_answer, unmoved, 4);
AT(mask_unmoved_answer, first, 8);
SIZE(mask_unmoved_answer, 16);

/* ---- Equal to the bit ---- */

static int same(double a, double b) { return memcmp(&a, &b, sizeof a) == 0; }

static int same_point(mask_point a, mask_point b) { return same(a.x, b.x) && same(a.y, b.y); }

static int same_vertex(mask_vertex a, mask_vertex b)
{
    return same(a.x, b.x) && same(a.y, b.y) && same(a.bulge, b.bulge);
}

static int same_view(mask_view a, mask_view b)
{
    return a.start_index == b.start_index && a.end_index_offset == b.end_index_offset &&
           same_vertex(a.updated_start, b.updated_start) &&
           same(a.updated_end_bulge, b.updated_end_bulge) &&
           same_point(a.end_point, b.end_point) && a.inverted_direction == b.inverted_direction;
}

static int same_vertex_answer(mask_vertex_answer a, mask_vertex_answer b)
{
    return a.refusal == b.refusal && a.found == b.found && same_vertex(a.vertex, b.vertex);
}

static int same_view_answer(mask_view_answer a, mask_view_answer b)
{
    return a.refusal == b.refusal && a.found == b.found && same_view(a.view, b.view);
}

static int same_verdict_answer(mask_verdict_answer a, mask_verdict_answer b)
{
    return a.refusal == b.refusal && a.verdict == b.verdict && a.offset == b.offset &&
           a.source_length == b.source_length && same_point(a.point, b.point) &&
           same_vertex(a.vertex, b.vertex) && same(a.updated_bulge, b.updated_bulge) &&
           same(a.expected, b.expected);
}

static int same_unmoved_answer(mask_unmoved_answer a, mask_unmoved_answer b)
{
    return a.refusal == b.refusal && a.unmoved == b.unmoved && a.first == b.first;
}

/* A refusal: its number, and all else 0. */
static mask_vertex_answer no_vertex(uint32_t refusal)
{
    return (mask_vertex_answer){.refusal = refusal};
}

static mask_view_answer no_view(uint32_t refusal) { return (mask_view_answer){.refusal = refusal}; }

static mask_verdict_answer no_verdict(uint32_t refusal)
{
    return (mask_verdict_answer){.refusal = refusal};
}

static mask_unmoved_answer no_unmoved(uint32_t refusal)
{
    return (mask_unmoved_answer){.refusal = refusal};
}

static mask_vertex_answer the_vertex(double x, double y, double bulge)
{
    return (mask_vertex_answer){.found = 1, .vertex = {x, y, bulge}};
}

static mask_view_answer the_view(mask_view v) { return (mask_view_answer){.found = 1, .view = v}; }

/* ---- Outlines ---- */

#define LONGEST (3 * (MOST_VERTICES + 1))

typedef struct outline {
    const double *list; /* lent */
    size_t len;
    size_t vc;
} outline;

enum { OUTLINE, WRITTEN, NEW_OUTLINE };

/* Lends `len` numbers, and says that they are `vc` vertices. A later call takes them back. */
static outline lend_outline(const double *from, size_t len, size_t vc)
{
    return (outline){lend_any(OUTLINE, from, len * sizeof *from), len, vc};
}

/* The same for an outline beside that one. */
static outline lend_new(const double *from, size_t len, size_t vc)
{
    return (outline){lend_any(NEW_OUTLINE, from, len * sizeof *from), len, vc};
}

/* A triangle, and A with bulges that differ. */
static const double TRIANGLE[] = {0, 0, 0.125, 4, 0, 0.25, 0, 4, 0.5};
static const double ARCS[] = {0, 0, 0.125, 4, 0, 0.25, 4, 4, -0.0, 0, 4, -0.5};

static outline square_a(void) { return lend_outline(A, 12, 4); }
static outline square_b(void) { return lend_outline(B, 12, 4); }
static outline triangle(void) { return lend_outline(TRIANGLE, 9, 3); }
static outline arcs(void) { return lend_outline(ARCS, 12, 4); }

/* ---- Calls over an outline ---- */

static mask_vertex_answer vertex(outline o, mask_view v, size_t index)
{
    return mask_view_vertex(o.list, o.len, o.vc, v, index);
}

typedef struct walk {
    size_t start_index;
    mask_point end_intersect;
    size_t intersect_index;
    mask_vertex updated_start;
    size_t traverse_count;
    axes tolerance;
    mask_split split;
} walk;

static mask_view_answer create(outline o, walk w)
{
    return mask_create(o.list, o.len, o.vc, w.start_index, w.end_intersect, w.intersect_index,
                       w.updated_start, w.traverse_count, w.tolerance.x, w.tolerance.y, w.split);
}

typedef struct piece {
    size_t start_index;
    mask_vertex updated_start;
    mask_point end_intersect;
    axes tolerance;
} piece;

static mask_view_answer single(outline o, piece p)
{
    return mask_create_on_single_segment(o.list, o.len, o.vc, p.start_index, p.updated_start,
                                         p.end_intersect, p.tolerance.x, p.tolerance.y);
}

static mask_view_answer entire(outline o, uint32_t closed)
{
    return mask_from_entire_pline(o.list, o.len, o.vc, closed);
}

/* How many verdicts were asked for with editions that differ, and of how many the answer was wrong. */
static unsigned reopened, reopened_wrong;

/*
 * The same call with two editions that differ: 14 where it was accepted; and reopening, which gives
 * the same verdict and the new edition where that is "valid", else the old one, and 0 where it is
 * refused. Whether all of that is so.
 */
static int with_other_edition(outline o, mask_view v, uint32_t start_on, uint32_t end_on,
                              mask_verdict_answer a, uint32_t edition, uint32_t own)
{
    mask_verdict_answer late =
        mask_validate_for_source(o.list, o.len, o.vc, edition, v, own, start_on, end_on);
    mask_reopen_answer r = mask_reopen(o.list, o.len, o.vc, edition, v, own, start_on, end_on);
    mask_verdict_answer verdict = {r.refusal, r.verdict, r.offset,        r.source_length,
                                   r.point,   r.vertex,  r.updated_bulge, r.expected};
    uint32_t left = a.refusal ? 0 : a.verdict == MASK_VERDICT_VALID ? edition : own;
    return same_verdict_answer(late, no_verdict(a.refusal ? a.refusal : MASK_REFUSED_EDITION)) &&
           same_verdict_answer(verdict, a) && r.edition == left;
}

/* With editions that match; and beside it with others. */
static mask_verdict_answer validate(outline o, mask_view v, uint32_t start_on, uint32_t end_on)
{
    uint32_t edition = EDITIONS[reopened % EDITION_COUNT];
    uint32_t own = EDITIONS[(reopened + 1 + reopened / EDITION_COUNT % (EDITION_COUNT - 1)) %
                            EDITION_COUNT];
    mask_verdict_answer a =
        mask_validate_for_source(o.list, o.len, o.vc, edition, v, edition, start_on, end_on);
    reopened++;
    reopened_wrong += !with_other_edition(o, v, start_on, end_on, a, edition, own);
    return a;
}

static mask_unmoved_answer unmoved(outline old, outline new, mask_view v)
{
    return mask_unmoved(old.list, old.len, old.vc, new.list, new.len, new.vc, v);
}

/* ---- The reference: document 01 ---- */

static int small_point(mask_point p) { return small(p.x) && small(p.y); }

static int small_vertex(mask_vertex v) { return small(v.x) && small(v.y) && small(v.bulge); }

static int small_view(mask_view v)
{
    return small_vertex(v.updated_start) && small(v.updated_end_bulge) && small_point(v.end_point);
}

static int yes_or_no(uint32_t code) { return code == 0 || code == 1; }

/* "Two numbers agree when abs(a - b) < tolerance, strictly." */
static int agree(double a, double b, double t) { return fabs(a - b) < t; }

/* "Two points agree when both coordinates do"; each with the tolerance of its axis. */
static int points_agree(mask_point a, mask_point b, axes t)
{
    return agree(a.x, b.x, t.x) && agree(a.y, b.y, t.y);
}

/* "Indexes wrap by the vertex count vc." */
static mask_vertex at(outline o, size_t i)
{
    const double *v = o.list + 3 * (i % o.vc);
    return (mask_vertex){v[0], v[1], v[2]};
}

static mask_point place(mask_vertex v) { return (mask_point){v.x, v.y}; }

static mask_vertex bulged(mask_vertex v, double bulge) { return (mask_vertex){v.x, v.y, bulge}; }

static mask_vertex ending(mask_point p, double bulge) { return (mask_vertex){p.x, p.y, bulge}; }

static mask_vertex forward(outline o, mask_view v, size_t k)
{
    size_t start = v.start_index, offset = v.end_index_offset;
    if (k == 0)
        return v.updated_start;
    if (k < offset)
        return at(o, start + k);
    if (k == offset)
        return bulged(at(o, start + offset), v.updated_end_bulge);
    return ending(v.end_point, 0.0);
}

static mask_vertex inverted(outline o, mask_view v, size_t k)
{
    size_t start = v.start_index, offset = v.end_index_offset;
    if (k == 0)
        return ending(v.end_point, -v.updated_end_bulge);
    if (k < offset)
        return bulged(at(o, start + offset - k + 1), -at(o, start + offset - k).bulge);
    if (k == offset)
        return bulged(at(o, start + 1), -v.updated_start.bulge);
    return bulged(v.updated_start, 0.0);
}

static mask_vertex_answer vertex_of(outline o, mask_view v, size_t k)
{
    mask_vertex_answer answer = {.found = 1};
    if (!right_length(o.len, 3, o.vc))
        return no_vertex(1);
    if (o.vc < LEAST_VERTICES || o.vc > MOST_VERTICES)
        return no_vertex(2);
    if (!yes_or_no(v.inverted_direction))
        return no_vertex(3);
    if (!small_list(o.list, o.len) || !small_view(v))
        return no_vertex(5);
    if (v.start_index >= o.vc)
        return no_vertex(6);
    if (v.end_index_offset > o.vc)
        return no_vertex(7);
    if (k > v.end_index_offset + 1)
        return no_vertex(0);
    answer.vertex = v.inverted_direction ? inverted(o, v, k) : forward(o, v, k);
    return answer;
}

/*
 * All vertices of a view, with room of `len` numbers: the refusals of one vertex, then 9 for room
 * smaller than the need, 3 numbers for each of offset + 2 vertices. Whether the answer and every
 * word of the room are as expected.
 */
static mask_count_answer told;

static int all_as_expected(outline o, mask_view v, size_t len)
{
    mask_count_answer wanted = {.refusal = vertex_of(o, v, 0).refusal};
    expect(WRITTEN, len);
    if (wanted.refusal == 0 && len / 3 < v.end_index_offset + 2)
        wanted.refusal = 9;
    if (wanted.refusal == 0) {
        wanted.count = v.end_index_offset + 2;
        for (size_t k = 0; k < wanted.count; k++) {
            mask_vertex at_k = v.inverted_direction ? inverted(o, v, k) : forward(o, v, k);
            put(WRITTEN, (double[]){at_k.x, at_k.y, at_k.bulge}, 3);
        }
    }
    told = mask_view_vertices(o.list, o.len, o.vc, v, lend_room(WRITTEN, len), len);
    return told.refusal == wanted.refusal && told.count == wanted.count && as_expected(WRITTEN);
}

static mask_view_answer created(outline o, walk w)
{
    mask_view v = {.start_index = w.start_index,
                   .updated_start = w.updated_start,
                   .end_point = w.end_intersect};
    if (!right_length(o.len, 3, o.vc))
        return no_view(1);
    if (o.vc < LEAST_VERTICES || o.vc > MOST_VERTICES)
        return no_view(2);
    if (!right_tolerances(w.tolerance))
        return no_view(4);
    if (!small_list(o.list, o.len) || !small_point(w.end_intersect) ||
        !small_vertex(w.updated_start) || !small_vertex(w.split.updated_start) ||
        !small_vertex(w.split.split_vertex))
        return no_view(5);
    if (w.start_index >= o.vc || w.intersect_index >= o.vc)
        return no_view(6);
    if (w.traverse_count == 0 || w.traverse_count > o.vc)
        return no_view(7);
    if (points_agree(w.end_intersect, place(at(o, w.intersect_index)), w.tolerance)) {
        v.end_index_offset = w.traverse_count - 1;
        v.updated_end_bulge = v.end_index_offset == 0
                                  ? w.updated_start.bulge
                                  : at(o, w.intersect_index + o.vc - 1).bulge;
    } else {
        v.end_index_offset = w.traverse_count;
        v.updated_end_bulge = w.split.updated_start.bulge;
    }
    return the_view(v);
}

static mask_view_answer singled(outline o, piece p)
{
    if (!right_length(o.len, 3, o.vc))
        return no_view(1);
    if (o.vc < LEAST_VERTICES || o.vc > MOST_VERTICES)
        return no_view(2);
    if (!right_tolerances(p.tolerance))
        return no_view(4);
    if (!small_list(o.list, o.len) || !small_vertex(p.updated_start) ||
        !small_point(p.end_intersect))
        return no_view(5);
    if (p.start_index >= o.vc)
        return no_view(6);
    if (points_agree(place(p.updated_start), p.end_intersect, p.tolerance))
        return no_view(0);
    return the_view((mask_view){.start_index = p.start_index,
                                .updated_start = p.updated_start,
                                .updated_end_bulge = p.updated_start.bulge,
                                .end_point = p.end_intersect});
}

static mask_view_answer entirely(outline o, uint32_t closed)
{
    size_t offset = closed ? o.vc - 1 : o.vc - 2;
    if (!right_length(o.len, 3, o.vc))
        return no_view(1);
    if (o.vc < LEAST_VERTICES || o.vc > MOST_VERTICES)
        return no_view(2);
    if (!yes_or_no(closed))
        return no_view(3);
    if (!small_list(o.list, o.len))
        return no_view(5);
    return the_view((mask_view){.end_index_offset = offset,
                                .updated_start = at(o, 0),
                                .updated_end_bulge = at(o, offset).bulge,
                                .end_point = place(at(o, offset + 1))});
}

/* Near one of the segment's two vertices, or the host's yes. */
static int on_segment(outline o, size_t i, mask_point p, uint32_t host)
{
    return points_agree(p, place(at(o, i)), both(1e-3)) ||
           points_agree(p, place(at(o, i + 1)), both(1e-3)) ||
           host == 1;
}

static mask_verdict_answer judged(outline o, mask_view v, uint32_t start_on, uint32_t end_on)
{
    mask_verdict_answer answer = {.verdict = 0};
    size_t end = v.start_index + v.end_index_offset;
    if (!right_length(o.len, 3, o.vc))
        return no_verdict(1);
    if (o.vc > MOST_VERTICES)
        return no_verdict(2);
    if (!yes_or_no(v.inverted_direction) || !yes_or_no(start_on) || !yes_or_no(end_on))
        return no_verdict(3);
    if (!small_list(o.list, o.len) || !small_view(v))
        return no_verdict(5);
    if (o.vc >= 2 && v.start_index >= o.vc)
        return no_verdict(6);
    if (o.vc < 2) {
        answer.verdict = 1;
    } else if (v.end_index_offset > o.vc) {
        answer.verdict = 2;
        answer.offset = v.end_index_offset;
        answer.source_length = o.vc;
    } else if (!on_segment(o, v.start_index, place(v.updated_start), start_on)) {
        answer.verdict = 3;
        answer.point = place(v.updated_start);
    } else if (!on_segment(o, end, v.end_point, end_on)) {
        answer.verdict = 4;
        answer.point = v.end_point;
    } else if (points_agree(v.end_point, place(at(o, end)), both(1e-5))) {
        answer.verdict = 5;
        answer.point = v.end_point;
        answer.vertex = at(o, end);
    } else if (v.end_index_offset == 0 &&
               !agree(v.updated_end_bulge, v.updated_start.bulge, 1e-5)) {
        answer.verdict = 6;
        answer.updated_bulge = v.updated_end_bulge;
        answer.expected = v.updated_start.bulge;
    } else {
        answer.verdict = 7;
    }
    return answer;
}

/* "whether the view has the same vertices, bit for bit, on both outlines", and the first that differs
 */
static mask_unmoved_answer compared(outline old, outline new, mask_view v)
{
    uint32_t one = vertex_of(old, v, 0).refusal, two = vertex_of(new, v, 0).refusal;
    uint32_t lowest = one == 0 || (two != 0 && two < one) ? two : one;
    if (lowest != 0)
        return no_unmoved(lowest);
    for (size_t k = 0; k < v.end_index_offset + 2; k++) {
        mask_vertex a = v.inverted_direction ? inverted(old, v, k) : forward(old, v, k);
        mask_vertex b = v.inverted_direction ? inverted(new, v, k) : forward(new, v, k);
        if (!same_vertex(a, b))
            return (mask_unmoved_answer){0, 0, k};
    }
    return (mask_unmoved_answer){0, 1, 0};
}

/* ---- Faults, alone and together ---- */

typedef struct fault {
    uint32_t number;
    const char *what;
} fault;

/* Tries every set of faults: each alone, then any together, of which the lowest number wins. */
static void try_faults(const char *entry, const fault *faults, unsigned count,
                       int (*answers)(unsigned set, uint32_t refusal))
{
    int together = 1;
    check(answers(0, 0), "%s: accepted without the faults below", entry);
    for (unsigned set = 1; set < 1u << count; set++) {
        uint32_t lowest = UINT32_MAX;
        unsigned one = 0;
        for (unsigned i = 0; i < count; i++)
            if (set >> i & 1) {
                one = i;
                if (faults[i].number < lowest)
                    lowest = faults[i].number;
            }
        if (set == 1u << one)
            check(answers(set, lowest), "%s: refusal %u: %s", entry, (unsigned)lowest,
                  faults[one].what);
        else if (together && !answers(set, lowest)) {
            together = 0;
            for (unsigned i = 0; i < count; i++)
                if (set >> i & 1)
                    printf("     with %u: %s\n", (unsigned)faults[i].number, faults[i].what);
        }
    }
    check(together, "%s: of any faults together the lowest number, and all else 0", entry);
}

/* The outline of a call with faults: A, unless its size is at fault. */
static outline faulty(int wrong_length, size_t vc, int wrong_number)
{
    double list[LONGEST] = {0};
    memcpy(list, A, sizeof A);
    if (wrong_number)
        list[0] = NAN;
    return lend_outline(list, wrong_length ? 3 * vc - 1 : 3 * vc, vc);
}

static mask_view view_on_a(void)
{
    return (mask_view){.start_index = 1,
                       .end_index_offset = 1,
                       .updated_start = {4, 2, 0.5},
                       .updated_end_bulge = 0.25,
                       .end_point = {2, 4}};
}

static const fault vertex_faults[] = {
    {1, "the list is one number short"},   {2, "1 vertex"},
    {2, "1025 vertices"},                  {3, "inverted is 2"},
    {5, "a NaN in the outline"},           {5, "an infinity in the view"},
    {6, "start equal to the vertex count"}, {7, "offset one above the vertex count"},
};

static int vertex_answers(unsigned set, uint32_t refusal)
{
    size_t vc = set & 4 ? 1025 : set & 2 ? 1 : 4;
    outline o = faulty(set & 1, vc, set & 16);
    mask_view v = view_on_a();
    if (set & 8)
        v.inverted_direction = 2;
    if (set & 32)
        v.end_point.y = INFINITY;
    if (set & 64)
        v.start_index = vc;
    if (set & 128)
        v.end_index_offset = vc + 1;
    return same_vertex_answer(vertex(o, v, 0),
                              refusal ? no_vertex(refusal) : the_vertex(4, 2, 0.5));
}

static const fault all_vertices_faults[] = {
    {1, "the list is one number short"},    {2, "1 vertex"},
    {2, "1025 vertices"},                   {3, "inverted is 2"},
    {5, "a NaN in the outline"},            {5, "an infinity in the view"},
    {6, "start equal to the vertex count"}, {7, "offset one above the vertex count"},
    {9, "room for one number less than 3 vertices"},
};

static int all_vertices_answers(unsigned set, uint32_t refusal)
{
    size_t vc = set & 4 ? 1025 : set & 2 ? 1 : 4;
    outline o = faulty(set & 1, vc, set & 16);
    mask_view v = view_on_a();
    if (set & 8)
        v.inverted_direction = 2;
    if (set & 32)
        v.end_point.y = INFINITY;
    if (set & 64)
        v.start_index = vc;
    if (set & 128)
        v.end_index_offset = vc + 1;
    return all_as_expected(o, v, set & 256 ? 8 : 9) && told.refusal == refusal;
}

static const fault create_faults[] = {
    {1, "the list is one number short"},      {2, "1 vertex"},
    {2, "1025 vertices"},                     {4, "tolerance 0 of x"},
    {5, "a NaN in the outline"},              {5, "an infinity in the split"},
    {6, "start equal to the vertex count"},   {6, "intersect index equal to the vertex count"},
    {7, "traverse count 0"},                  {7, "traverse count one above the vertex count"},
};

static walk walk_on_a(void)
{
    return (walk){.start_index = 1,
                  .end_intersect = {2, 4},
                  .intersect_index = 2,
                  .updated_start = {4, 2, 0.5},
                  .traverse_count = 1,
                  .tolerance = {T, T},
                  .split = {{4, 4, 0.25}, {2, 4, 0.125}}};
}

static int create_answers(unsigned set, uint32_t refusal)
{
    size_t vc = set & 4 ? 1025 : set & 2 ? 1 : 4;
    outline o = faulty(set & 1, vc, set & 16);
    walk w = walk_on_a();
    if (set & 8)
        w.tolerance.x = 0;
    if (set & 32)
        w.split.split_vertex.bulge = -INFINITY;
    if (set & 64)
        w.start_index = vc;
    if (set & 128)
        w.intersect_index = vc;
    if (set & 256)
        w.traverse_count = 0;
    if (set & 512)
        w.traverse_count = vc + 1;
    return same_view_answer(create(o, w), refusal ? no_view(refusal) : the_view(view_on_a()));
}

static const fault single_faults[] = {
    {1, "the list is one number short"}, {2, "1 vertex"},
    {2, "1025 vertices"},                {4, "tolerance of y above 1"},
    {5, "a NaN in the outline"},         {5, "an infinity in the start"},
    {6, "start equal to the vertex count"},
};

static int single_answers(unsigned set, uint32_t refusal)
{
    size_t vc = set & 4 ? 1025 : set & 2 ? 1 : 4;
    outline o = faulty(set & 1, vc, set & 16);
    piece p = {.start_index = 1,
               .updated_start = {4, 2, 0.5},
               .end_intersect = {4, 3},
               .tolerance = {T, T}};
    mask_view v = {.start_index = 1,
                   .updated_start = {4, 2, 0.5},
                   .updated_end_bulge = 0.5,
                   .end_point = {4, 3}};
    if (set & 8)
        p.tolerance.y = nextafter(1, 2);
    if (set & 32)
        p.updated_start.x = INFINITY;
    if (set & 64)
        p.start_index = vc;
    return same_view_answer(single(o, p), refusal ? no_view(refusal) : the_view(v));
}

static const fault entire_faults[] = {
    {1, "the list is one number short"}, {2, "1 vertex"},
    {2, "1025 vertices"},                {3, "closed is 2"},
    {5, "a NaN in the outline"},
};

static int entire_answers(unsigned set, uint32_t refusal)
{
    size_t vc = set & 4 ? 1025 : set & 2 ? 1 : 4;
    outline o = faulty(set & 1, vc, set & 16);
    mask_view v = {.end_index_offset = 3};
    return same_view_answer(entire(o, set & 8 ? 2 : 1), refusal ? no_view(refusal) : the_view(v));
}

static const fault validate_faults[] = {
    {1, "the list is one number short"},     {2, "1025 vertices"},
    {3, "inverted is 2"},                    {3, "the host's answer for the start is 2"},
    {3, "the host's answer for the end is 2^32 - 1"}, {5, "a NaN in the outline"},
    {5, "an infinity in the view"},          {6, "start equal to the vertex count"},
};

/* The faults that count where the outline is too short: the first two rows and the last fall away. */
static int validate_set(unsigned set, size_t vc, mask_view v, mask_verdict_answer expected)
{
    outline o = faulty(set & 1, vc, set & 32);
    if (set & 4)
        v.inverted_direction = 2;
    if (set & 64)
        v.updated_end_bulge = INFINITY;
    return same_verdict_answer(
        validate(o, v, set & 8 ? 2 : 1, set & 16 ? UINT32_MAX : 1), expected);
}

static int validate_answers(unsigned set, uint32_t refusal)
{
    size_t vc = set & 2 ? 1025 : 4;
    mask_view v = view_on_a();
    mask_verdict_answer valid = {.verdict = MASK_VERDICT_VALID};
    if (set & 128)
        v.start_index = vc;
    return validate_set(set, vc, v, refusal ? no_verdict(refusal) : valid);
}

static const fault short_faults[] = {
    {1, "the list is one number short"},
    {3, "inverted is 2"},
    {3, "the host's answer for the start is 2"},
    {3, "the host's answer for the end is 2^32 - 1"},
    {5, "a NaN in the outline"},
    {5, "an infinity in the view"},
};

/* One vertex, and indexes that no outline has: neither 2 nor 6 nor 7. */
static int short_answers(unsigned set, uint32_t refusal)
{
    mask_view v = view_on_a();
    mask_verdict_answer none = {.verdict = MASK_VERDICT_NO_SEGMENTS};
    v.start_index = SIZE_MAX;
    v.end_index_offset = SIZE_MAX;
    return validate_set((set & 1) | (set & ~1u) << 1, 1, v, refusal ? no_verdict(refusal) : none);
}

static const fault unmoved_faults[] = {
    {1, "the old outline is one number short"},
    {1, "the new outline is one number short"},
    {2, "the old outline has 1025 vertices"},
    {2, "the new outline has 1 vertex"},
    {3, "inverted is 2"},
    {5, "a NaN in the old outline"},
    {5, "a NaN in the new outline"},
    {5, "an infinity in the view"},
    {6, "start equal to the vertex count"},
    {7, "offset one above the vertex count"},
};

static int unmoved_answers(unsigned set, uint32_t refusal)
{
    double list[LONGEST] = {0};
    size_t vc1 = set & 4 ? 1025 : 4, vc2 = set & 8 ? 1 : 4;
    mask_view v = view_on_a();
    outline old = faulty(set & 1, vc1, set & 32), new;
    memcpy(list, A, sizeof A);
    if (set & 64)
        list[2] = NAN;
    new = lend_new(list, set & 2 ? 3 * vc2 - 1 : 3 * vc2, vc2);
    if (set & 16)
        v.inverted_direction = 2;
    if (set & 128)
        v.updated_start.bulge = -INFINITY;
    if (set & 256)
        v.start_index = vc2;
    if (set & 512)
        v.end_index_offset = vc2 + 1;
    return same_unmoved_answer(unmoved(old, new, v),
                               refusal ? no_unmoved(refusal) : (mask_unmoved_answer){0, 1, 0});
}

static void faults_and_sets(void)
{
#define TRY(entry, rows, answers) try_faults(entry, rows, sizeof rows / sizeof *rows, answers)
    TRY("view_vertex", vertex_faults, vertex_answers);
    TRY("view_vertices", all_vertices_faults, all_vertices_answers);
    TRY("create", create_faults, create_answers);
    TRY("create_on_single_segment", single_faults, single_answers);
    TRY("from_entire_pline", entire_faults, entire_answers);
    TRY("validate_for_source", validate_faults, validate_answers);
    TRY("validate_for_source, 1 vertex", short_faults, short_answers);
    TRY("unmoved", unmoved_faults, unmoved_answers);
#undef TRY
}

/* ---- Lengths and counts ---- */

/* Whether all entries refuse the outline with this number. */
static int all_refuse(outline o, uint32_t refusal)
{
    const outline good = lend_new(A, 12, 4);
    mask_verdict_answer v = validate(o, view_on_a(), 1, 1);
    piece p = {1, {4, 2, 0.5}, {4, 3}, {0.5, 0.5}};
    return same_vertex_answer(vertex(o, view_on_a(), 0), no_vertex(refusal)) &&
           all_as_expected(o, view_on_a(), 9) && told.refusal == refusal &&
           same_view_answer(create(o, walk_on_a()), no_view(refusal)) &&
           same_view_answer(single(o, p), no_view(refusal)) &&
           same_view_answer(entire(o, 1), no_view(refusal)) &&
           same_verdict_answer(v, no_verdict(refusal)) &&
           same_unmoved_answer(unmoved(o, good, view_on_a()), no_unmoved(refusal)) &&
           same_unmoved_answer(unmoved(good, o, view_on_a()), no_unmoved(refusal));
}

static void lengths(void)
{
    static const double many[LONGEST];
    mask_verdict_answer none = {.verdict = MASK_VERDICT_NO_SEGMENTS};
    mask_view v = view_on_a();
    outline empty = {NULL, 0, 0};
    outline unreadable = {(const double *)lent[OUTLINE].end, 0, 0};
    int ok = 1;

    check(all_refuse(lend_outline(A, 11, 4), 1) && all_refuse(lend_outline(many, 13, 4), 1),
          "lengths: one number short or over: 1");
    check(all_refuse(lend_outline(A, 12, 3), 1) && all_refuse(lend_outline(many, 15, 4), 1),
          "lengths: one vertex short or over: 1");
    check(all_refuse(lend_outline(A, 12, 12), 1), "lengths: vertices counted as numbers: 1");
    check(all_refuse(lend_outline(A, 12, HALF), 1), "lengths: 2^63 vertices: 1");
    check(all_refuse(lend_outline(A, 12, SIZE_MAX), 1), "lengths: 2^64 - 1 vertices: 1");
    check(all_refuse(lend_outline(A, 4, 0xaaaaaaaaaaaaaaac), 1) &&
              all_refuse(lend_outline(A, 2, 0x5555555555555556), 1) &&
              all_refuse(lend_outline(A, 1, 0xaaaaaaaaaaaaaaab), 1),
          "lengths: counts whose triple is the length modulo 2^64: 1");
    check(all_refuse((outline){NULL, 0, 4}, 1) && all_refuse((outline){NULL, 0, HALF}, 1) &&
              all_refuse((outline){NULL, 0, SIZE_MAX}, 1),
          "lengths: NULL, length 0, with vertices counted: 1");
    check(all_refuse(lend_outline(many, 3075, 1025), 2), "lengths: 1025 vertices: 2");

    check(same_vertex_answer(vertex(empty, v, 0), no_vertex(2)) &&
              same_vertex_answer(vertex(unreadable, v, 0), no_vertex(2)),
          "view_vertex: NULL, or any pointer, with length 0 and no vertices: 2");
    check(same_view_answer(create(empty, walk_on_a()), no_view(2)),
          "create: NULL, length 0, no vertices: 2");
    check(same_view_answer(single(empty, (piece){0, {0, 0, 0}, {1, 1}, {1, 1}}), no_view(2)),
          "create_on_single_segment: NULL, length 0, no vertices: 2");
    check(same_view_answer(entire(empty, 1), no_view(2)) &&
              same_view_answer(entire(empty, 0), no_view(2)),
          "from_entire_pline: NULL, length 0, no vertices: 2");
    check(same_verdict_answer(validate(empty, v, 0, 0), none) &&
              same_verdict_answer(validate(unreadable, v, 0, 0), none),
          "validate_for_source: NULL, or any pointer, with length 0 and no vertices: no segments");

    v.start_index = HALF;
    v.end_index_offset = SIZE_MAX;
    check(same_vertex_answer(vertex(square_a(), v, 0), no_vertex(6)), "view_vertex: start 2^63: 6");
    v.start_index = SIZE_MAX;
    check(same_vertex_answer(vertex(square_a(), v, SIZE_MAX), no_vertex(6)),
          "view_vertex: start, offset and index 2^64 - 1: 6");
    check(same_verdict_answer(validate(square_a(), v, 1, 1), no_verdict(6)),
          "validate_for_source: start and offset 2^64 - 1: 6");
    v.start_index = 3;
    check(same_vertex_answer(vertex(square_a(), v, 0), no_vertex(7)),
          "view_vertex: offset 2^64 - 1: 7");
    v.end_index_offset = HALF;
    check(same_vertex_answer(vertex(square_a(), v, SIZE_MAX), no_vertex(7)),
          "view_vertex: offset 2^63: 7");

    for (int i = 0; i < 2; i++) {
        size_t huge = i ? SIZE_MAX : HALF;
        walk w = walk_on_a();
        w.traverse_count = huge;
        ok = ok && same_view_answer(create(square_a(), w), no_view(7));
        w.intersect_index = huge;
        ok = ok && same_view_answer(create(square_a(), w), no_view(6));
        w = walk_on_a();
        w.start_index = huge;
        ok = ok && same_view_answer(create(square_a(), w), no_view(6));
        ok = ok && same_view_answer(single(square_a(), (piece){huge, {0, 0, 0}, {1, 1}, {1, 1}}),
                                    no_view(6));
    }
    check(ok, "create, create_on_single_segment: huge indexes and counts: 6 and 7");

    ok = 1;
    for (size_t vc = 2; vc <= MOST_VERTICES; vc++) {
        mask_view_answer closed = entire(lend_outline(many, 3 * vc, vc), 1);
        ok = ok && same_view_answer(closed, the_view((mask_view){.end_index_offset = vc - 1}));
    }
    check(ok, "from_entire_pline: every count from 2 to 1024 is accepted");
}

/* ---- Codes, tolerances and numbers ---- */

static void codes(void)
{
    static const uint32_t unknown[] = {2, 3, 255, 256, 0x80000000, UINT32_MAX};
    int ok = 1;
    for (unsigned i = 0; i < sizeof unknown / sizeof *unknown; i++) {
        mask_view v = view_on_a();
        ok = ok && same_view_answer(entire(square_a(), unknown[i]), no_view(3));
        ok = ok && same_verdict_answer(validate(square_a(), v, unknown[i], 1), no_verdict(3));
        ok = ok && same_verdict_answer(validate(square_a(), v, 1, unknown[i]), no_verdict(3));
        v.inverted_direction = unknown[i];
        ok = ok && same_vertex_answer(vertex(square_a(), v, 0), no_vertex(3));
        ok = ok && same_verdict_answer(validate(square_a(), v, 1, 1), no_verdict(3));
    }
    check(ok, "codes: any but 0 and 1 is refused: 3");
}

static void tolerances(void)
{
    const double refused[] = {0.0,  -0.0,      -0.5,  nextafter(1, 2), 2,   LIMIT, DBL_MAX,
                              NAN,  -NAN, INFINITY,  -INFINITY, -1};
    const double accepted[] = {5e-324, DBL_MIN, 1e-5, 0.5, nextafter(1, 0), 1};
    enum { ACCEPTED = sizeof accepted / sizeof *accepted };
    int ok = 1;
    for (unsigned i = 0; i < sizeof refused / sizeof *refused; i++)
        for (int which = 0; which < 3; which++) {
            walk w = walk_on_a();
            piece p = {1, {4, 2, 0}, {4, 3}, spoiled(both(1), which, refused[i])};
            w.tolerance = spoiled(w.tolerance, which, refused[i]);
            ok = ok && same_view_answer(create(square_a(), w), no_view(4));
            ok = ok && same_view_answer(single(square_a(), p), no_view(4));
        }
    check(ok, "tolerances: 0, -0, negative, above 1, infinite and NaN are refused, of x, of y and "
              "of both: 4");
    ok = 1;
    for (unsigned i = 0; i < ACCEPTED * ACCEPTED; i++) {
        axes t = {accepted[i % ACCEPTED], accepted[i / ACCEPTED]};
        walk w = walk_on_a();
        w.tolerance = t;
        ok = ok && same_view_answer(create(square_a(), w), the_view(view_on_a()));
        ok = ok && single(square_a(), (piece){1, {4, 0, 0}, {4, 3}, t}).found == 1;
    }
    check(ok, "tolerances: from the least number above 0 to 1 they are accepted, in any pair");
}

/* Distances at each tolerance, one step nearer and one further, on each axis, where the two differ. */
static void axes_apart(void)
{
    static const double list[] = {T, 0.5, 0.25, 1, 1.0 / 4096};
    enum { COUNT = sizeof list / sizeof *list };
    unsigned wrong = 0, cases = 0;
    for (unsigned i = 0; i < COUNT * COUNT; i++) {
        const axes t = {list[i % COUNT], list[i / COUNT]};
        for (int k = 0; k < 9; k++) {
            const int by_x = k % 3 - 1, by_y = k / 3 - 1; /* -1 a step nearer, 0 at it, 1 further */
            mask_point end = {0, 4};
            walk w = {2, {0, 0}, 3, {4, 4, 1}, 1, t, {{0, 4, 3}, {0, 4, 5}}};
            int agrees = by_x < 0 && by_y < 0;
            end.x += by_x < 0 ? nextafter(t.x, 0) : by_x > 0 ? nextafter(t.x, 2) : t.x;
            end.y += t.y;
            end.y = by_y < 0 ? nextafter(end.y, 0) : by_y > 0 ? nextafter(end.y, 9) : end.y;
            w.end_intersect = end;
            wrong += create(arcs(), w).view.end_index_offset != (agrees ? 0u : 1u);
            wrong += single(arcs(), (piece){3, {0, 4, 1}, end, t}).found != (agrees ? 0u : 1u);
            cases++;
        }
    }
    check(wrong == 0, "axes: the distance on each at its own tolerance, one step nearer, one "
                      "further: %u cases, %u wrong", cases, wrong);
    check(single(arcs(), (piece){3, {0, 3, 1}, {0.25, 3}, {0.5, 0.125}}).found == 0 &&
              single(arcs(), (piece){3, {0, 3, 1}, {0, 3.25}, {0.5, 0.125}}).found == 1 &&
              single(arcs(), (piece){3, {0, 3, 1}, {0.25, 3}, {0.125, 0.5}}).found == 1 &&
              single(arcs(), (piece){3, {0, 3, 1}, {0, 3.25}, {0.125, 0.5}}).found == 0,
          "axes: x is compared with the first tolerance, y with the second");
}

/* Puts a number into place `i` of a view, a walk or a piece. */
static void put_view(mask_view *v, unsigned i, double a)
{
    double *places[] = {&v->updated_start.x,     &v->updated_start.y, &v->updated_start.bulge,
                        &v->updated_end_bulge, &v->end_point.x,     &v->end_point.y};
    *places[i] = a;
}

static void put_walk(walk *w, unsigned i, double a)
{
    double *places[] = {&w->end_intersect.x,       &w->end_intersect.y,
                        &w->updated_start.x,       &w->updated_start.y,
                        &w->updated_start.bulge,   &w->split.updated_start.x,
                        &w->split.updated_start.y, &w->split.updated_start.bulge,
                        &w->split.split_vertex.x,  &w->split.split_vertex.y,
                        &w->split.split_vertex.bulge};
    *places[i] = a;
}

static void put_piece(piece *p, unsigned i, double a)
{
    double *places[] = {&p->updated_start.x, &p->updated_start.y, &p->updated_start.bulge,
                        &p->end_intersect.x, &p->end_intersect.y};
    *places[i] = a;
}

static void numbers(void)
{
    const double above = nextafter(LIMIT, INFINITY);
    const double refused[] = {above, -above, DBL_MAX, -DBL_MAX, INFINITY, -INFINITY, NAN, -NAN};
    const double accepted[] = {LIMIT, -LIMIT, 0.0, -0.0, 5e-324, -5e-324, DBL_MIN};
    enum { REFUSED = sizeof refused / sizeof *refused, ACCEPTED = sizeof accepted / sizeof *accepted };
    int ok = 1;

    for (unsigned i = 0; i < 12; i++)
        for (unsigned j = 0; j < REFUSED; j++) {
            double list[12];
            memcpy(list, A, sizeof A);
            list[i] = refused[j];
            ok = ok && all_refuse(lend_outline(list, 12, 4), 5);
        }
    check(ok, "numbers: each number of the outline, above 2^30, infinite or NaN: 5");

    ok = 1;
    for (unsigned j = 0; j < REFUSED; j++)
        for (unsigned i = 0; i < 3; i++) {
            double one[3] = {0, 0, 0};
            one[i] = refused[j];
            ok = ok && same_verdict_answer(validate(lend_outline(one, 3, 1), view_on_a(), 1, 1),
                                           no_verdict(5));
        }
    check(ok, "validate_for_source: each number of an outline that is too short: 5");

    ok = 1;
    for (unsigned i = 0; i < 6; i++)
        for (unsigned j = 0; j < REFUSED; j++) {
            mask_view v = view_on_a();
            put_view(&v, i, refused[j]);
            /* index 9 is no vertex, and number 1 needs neither start nor end */
            ok = ok && same_vertex_answer(vertex(square_a(), v, 9), no_vertex(5));
            ok = ok && same_vertex_answer(vertex(square_a(), v, 1), no_vertex(5));
            ok = ok && all_as_expected(square_a(), v, 9) && told.refusal == 5;
            ok = ok && same_verdict_answer(validate(square_a(), v, 1, 1), no_verdict(5));
        }
    check(ok, "numbers: each number of a view: 5");

    ok = 1;
    for (unsigned i = 0; i < 11; i++)
        for (unsigned j = 0; j < REFUSED; j++) {
            walk w = walk_on_a();
            put_walk(&w, i, refused[j]);
            ok = ok && same_view_answer(create(square_a(), w), no_view(5));
            /* an end on the vertex does not use the split */
            if (i >= 2) {
                w.end_intersect = (mask_point){4, 4};
                ok = ok && same_view_answer(create(square_a(), w), no_view(5));
            }
        }
    check(ok, "create: each number of end, start and split, used or not: 5");

    ok = 1;
    for (unsigned i = 0; i < 5; i++)
        for (unsigned j = 0; j < REFUSED; j++) {
            piece p = {1, {4, 2, 0.5}, {4, 3}, {0.5, 0.5}};
            put_piece(&p, i, refused[j]);
            ok = ok && same_view_answer(single(square_a(), p), no_view(5));
        }
    check(ok, "create_on_single_segment: each number of start and end: 5");

    ok = 1;
    for (unsigned j = 0; j < ACCEPTED; j++) {
        for (unsigned i = 0; i < 12; i++) {
            double list[12];
            memcpy(list, A, sizeof A);
            list[i] = accepted[j];
            outline o = lend_outline(list, 12, 4);
            ok = ok && same_view_answer(entire(o, 0), entirely(o, 0)) && entire(o, 0).found == 1;
        }
        for (unsigned i = 0; i < 6; i++) {
            mask_view v = view_on_a();
            outline o = square_a();
            put_view(&v, i, accepted[j]);
            for (size_t k = 0; k < 4; k++)
                ok = ok && same_vertex_answer(vertex(o, v, k), vertex_of(o, v, k));
            ok = ok && all_as_expected(o, v, 9) && told.refusal == 0;
        }
        for (unsigned i = 0; i < 11; i++) {
            walk w = walk_on_a();
            outline o = square_a();
            put_walk(&w, i, accepted[j]);
            ok = ok && same_view_answer(create(o, w), created(o, w)) && create(o, w).found == 1;
        }
        for (unsigned i = 0; i < 5; i++) {
            piece p = {1, {4, 2, 0.5}, {4, 3}, {0.5, 0.5}};
            outline o = square_a();
            put_piece(&p, i, accepted[j]);
            ok = ok && same_view_answer(single(o, p), singled(o, p)) && single(o, p).found == 1;
        }
    }
    check(ok, "numbers: 2^30, -2^30, -0 and the least numbers are accepted anywhere, and kept");
}

/* ---- Vertices of views over the squares ---- */

/* The view's vertices are these, and there is none after them. */
static int vertices_are(outline o, mask_view v, const mask_vertex *list, size_t count)
{
    for (size_t k = 0; k < count; k++)
        if (!same_vertex_answer(vertex(o, v, k),
                                the_vertex(list[k].x, list[k].y, list[k].bulge)))
            return 0;
    return same_vertex_answer(vertex(o, v, count), no_vertex(0)) &&
           same_vertex_answer(vertex(o, v, count + 1), no_vertex(0)) &&
           same_vertex_answer(vertex(o, v, SIZE_MAX), no_vertex(0));
}

#define VERTICES(o, v, ...)                       \
    vertices_are(o, v, (mask_vertex[])__VA_ARGS__, \
                 sizeof((mask_vertex[])__VA_ARGS__) / sizeof(mask_vertex))

static void vertices(void)
{
    mask_view v = {.start_index = 2,
                   .end_index_offset = 3,
                   .updated_start = {2, 4, -0.0},
                   .updated_end_bulge = 0.25,
                   .end_point = {4, 2}};
    mask_view one = {.start_index = 1,
                     .updated_start = {4, 1, 0.5},
                     .updated_end_bulge = 0.75,
                     .end_point = {4, 3}};
    mask_view next = {.start_index = 3,
                      .end_index_offset = 1,
                      .updated_start = {-0.0, 1, 0.5},
                      .updated_end_bulge = 0.0,
                      .end_point = {1, -0.0}};
    mask_view round = {.start_index = 1,
                       .end_index_offset = 4,
                       .updated_start = {4, 3, 1.0},
                       .updated_end_bulge = 2.0,
                       .end_point = {4, 1}};

    check(VERTICES(square_a(), v, {{2, 4, -0.0}, {0, 4, 0}, {0, 0, 0}, {4, 0, 0.25}, {4, 2, 0}}),
          "view_vertex: A from (2,4) to (4,2), forward");
    check(VERTICES(arcs(), v,
                   {{2, 4, -0.0}, {0, 4, -0.5}, {0, 0, 0.125}, {4, 0, 0.25}, {4, 2, 0}}),
          "view_vertex: the same over arcs, forward");
    check(VERTICES(arcs(), one, {{4, 1, 0.5}, {4, 3, 0}}),
          "view_vertex: offset 0 has 2 vertices, forward");
    check(VERTICES(arcs(), next, {{-0.0, 1, 0.5}, {0, 0, 0.0}, {1, -0.0, 0}}),
          "view_vertex: offset 1 wraps to vertex 0, forward; -0 kept");
    check(VERTICES(arcs(), round,
                   {{4, 3, 1}, {4, 4, -0.0}, {0, 4, -0.5}, {0, 0, 0.125}, {4, 0, 2}, {4, 1, 0}}),
          "view_vertex: offset equal to the vertex count, forward");

    v.inverted_direction = one.inverted_direction = 1;
    next.inverted_direction = round.inverted_direction = 1;
    check(VERTICES(square_a(), v,
                   {{4, 2, -0.25}, {4, 0, -0.0}, {0, 0, -0.0}, {0, 4, 0.0}, {2, 4, 0.0}}),
          "view_vertex: A from (2,4) to (4,2), inverted; negating 0 gives -0, negating -0 gives 0");
    check(VERTICES(arcs(), v,
                   {{4, 2, -0.25}, {4, 0, -0.125}, {0, 0, 0.5}, {0, 4, 0.0}, {2, 4, 0.0}}),
          "view_vertex: the same over arcs, inverted");
    check(VERTICES(arcs(), one, {{4, 3, -0.75}, {4, 1, 0}}),
          "view_vertex: offset 0 has 2 vertices, inverted");
    check(VERTICES(arcs(), next, {{1, -0.0, -0.0}, {0, 0, -0.5}, {-0.0, 1, 0}}),
          "view_vertex: offset 1 wraps to vertex 0, inverted; -0 kept");
    check(VERTICES(arcs(), round,
                   {{4, 1, -2}, {4, 0, -0.125}, {0, 0, 0.5}, {0, 4, 0.0}, {4, 4, -1}, {4, 3, 0}}),
          "view_vertex: offset equal to the vertex count, inverted");

    round.end_index_offset = 5;
    check(same_vertex_answer(vertex(arcs(), round, 0), no_vertex(7)),
          "view_vertex: offset one above the vertex count: 7");
}

/* ---- All vertices of every view ---- */

/* Of an outline every view: each start, each offset from 0 to vc, both directions, in several rooms. */
static int every_view(outline o)
{
    static const int more[] = {0, 1, 2, 3, 40, -1, -2, -3, -6};
    mask_view v = {.updated_start = {-7, 0.0, -0.0},
                   .updated_end_bulge = 0.75,
                   .end_point = {-0.0, 9}};
    for (v.start_index = 0; v.start_index < o.vc; v.start_index++)
        for (v.end_index_offset = 0; v.end_index_offset <= o.vc; v.end_index_offset++)
            for (v.inverted_direction = 0; v.inverted_direction < 2; v.inverted_direction++) {
                size_t need = 3 * (v.end_index_offset + 2);
                for (unsigned i = 0; i < sizeof more / sizeof *more; i++)
                    if (!all_as_expected(o, v, need + (size_t)more[i]) ||
                        told.refusal != (more[i] < 0 ? 9u : 0u))
                        return 0;
                if (!all_as_expected(o, v, 0) || told.refusal != 9)
                    return 0;
            }
    return 1;
}

static void every_vertex(void)
{
    double list[3 * MOST_VERTICES];
    mask_view v = {.start_index = MOST_VERTICES - 1,
                   .end_index_offset = MOST_VERTICES,
                   .updated_start = {1, 2, 3},
                   .updated_end_bulge = -0.0,
                   .end_point = {4, 5}};
    const size_t most = 3 * (MOST_VERTICES + 2);
    outline longest;
    int ok = 1;
    for (size_t i = 0; i < 3 * MOST_VERTICES; i++)
        list[i] = (double)i / 4 - 300;
    check(every_view(lend_outline(A, 6, 2)), "view_vertices: every view of 2 vertices of A");
    check(every_view(triangle()), "view_vertices: every view of a triangle");
    check(every_view(arcs()), "view_vertices: every view of arcs");
    check(every_view(lend_outline(list, 3 * 17, 17)), "view_vertices: every view of 17 vertices");
    longest = lend_outline(list, 3 * MOST_VERTICES, MOST_VERTICES);
    for (v.inverted_direction = 0; v.inverted_direction < 2; v.inverted_direction++) {
        ok = ok && all_as_expected(longest, v, most) && told.count == MOST_VERTICES + 2;
        ok = ok && all_as_expected(longest, v, most + 5) && told.refusal == 0;
        ok = ok && all_as_expected(longest, v, most - 1) && told.refusal == 9;
    }
    check(ok, "view_vertices: 1026 vertices, from the last of 1024 on, in either direction");

    ok = 1;
    v = view_on_a();
    for (int i = 0; i < 2; i++) {
        v.end_index_offset = i ? SIZE_MAX : HALF; /* of which 3 (offset + 2) is small, modulo 2^64 */
        ok = ok && all_as_expected(square_a(), v, 12) && told.refusal == 7;
        v.start_index = i ? HALF : SIZE_MAX;
        ok = ok && all_as_expected(square_a(), v, 12) && told.refusal == 6;
        v = view_on_a();
    }
    check(ok, "view_vertices: huge offsets and starts: 7 and 6");
    check(all_as_expected((outline){NULL, 0, 0}, v, 9) && told.refusal == 2 &&
              all_as_expected((outline){(const double *)lent[OUTLINE].end, 0, 0}, v, 9) &&
              told.refusal == 2,
          "view_vertices: NULL, or any pointer, with length 0 and no vertices: 2");
}

/* ---- The constructors over the squares ---- */

static void constructors(void)
{
    const mask_split straight_a = {{4, 4, 0}, {2, 4, 0}}, straight_b = {{2, 2, 0}, {4, 2, 0}};
    mask_view_answer a;
    walk w;

    a = create(square_a(), (walk){1, {2, 4}, 2, {4, 2, 0}, 1, {T, T}, straight_a});
    check(same_view_answer(a, the_view((mask_view){1, 1, {4, 2, 0}, 0, {2, 4}, 0})) &&
              VERTICES(square_a(), a.view, {{4, 2, 0}, {4, 4, 0}, {2, 4, 0}}),
          "create: A's first walk is start 1 offset 1 (T1)");
    a = create(square_a(), (walk){2, {4, 2}, 1, {2, 4, 0}, 3, {T, T}, straight_a});
    check(same_view_answer(a, the_view((mask_view){2, 3, {2, 4, 0}, 0, {4, 2}, 0})),
          "create: A's second walk is start 2 offset 3 (T1)");
    a = create(square_b(), (walk){0, {2, 4}, 3, {4, 2, 0}, 3, {T, T}, straight_b});
    check(same_view_answer(a, the_view((mask_view){0, 3, {4, 2, 0}, 0, {2, 4}, 0})) &&
              VERTICES(square_b(), a.view, {{4, 2, 0}, {6, 2, 0}, {6, 6, 0}, {2, 6, 0}, {2, 4, 0}}),
          "create: B's first walk is start 0 offset 3 (T2)");
    a = create(square_b(), (walk){3, {4, 2}, 0, {2, 4, 0}, 1, {T, T}, straight_b});
    check(same_view_answer(a, the_view((mask_view){3, 1, {2, 4, 0}, 0, {4, 2}, 0})) &&
              VERTICES(square_b(), a.view, {{2, 4, 0}, {2, 2, 0}, {4, 2, 0}}),
          "create: B's second walk is start 3 offset 1 (T2)");

    a = create(triangle(), (walk){0, {0, 0}, 0, {0, 0, 0.125}, 3, {T, T}, {{9, 9, 9}, {9, 9, 9}}});
    check(same_view_answer(a, the_view((mask_view){0, 2, {0, 0, 0.125}, 0.5, {0, 0}, 0})),
          "create: a triangle cut on vertex 0 has offset 2 and the bulge of vertex 2 (T6)");
    a = create(triangle(), (walk){0, {1, 0}, 0, {1, 0, 0.75}, 3, {T, T}, {{0, 0, -0.0}, {1, 0, 1}}});
    check(same_view_answer(a, the_view((mask_view){0, 3, {1, 0, 0.75}, -0.0, {1, 0}, 0})) &&
              VERTICES(triangle(), a.view,
                       {{1, 0, 0.75}, {4, 0, 0.25}, {0, 4, 0.5}, {0, 0, -0.0}, {1, 0, 0}}),
          "create: the cut inside segment 0 has offset 3, 5 vertices, the split's bulge (T7)");

    a = create(arcs(), (walk){1, {4, 4}, 2, {4, 2, -0.0}, 1, {T, T}, {{9, 9, 9}, {9, 9, 9}}});
    check(same_view_answer(a, the_view((mask_view){1, 0, {4, 2, -0.0}, -0.0, {4, 4}, 0})),
          "create: the end on the next vertex has offset 0 and the updated start's bulge");
    a = create(arcs(), (walk){2, {4, 0}, 1, {4, 4, 1}, 3, {T, T}, {{9, 9, 9}, {9, 9, 9}}});
    check(same_view_answer(a, the_view((mask_view){2, 2, {4, 4, 1}, 0.125, {4, 0}, 0})),
          "create: the end on a later vertex has the bulge of the vertex before it");

    w = (walk){1, {4.5, 4}, 2, {4, 2, 1}, 2, {0.5, 0.5}, {{4, 4, 3}, {4, 4, 5}}};
    check(create(arcs(), w).view.end_index_offset == 2,
          "create: with t = 0.5, x = 4 and x = 4.5 do not agree (T10)");
    w.end_intersect.x = nextafter(4.5, 0);
    check(create(arcs(), w).view.end_index_offset == 1, "create: one step nearer they agree");
    w.end_intersect = (mask_point){4, 3.5};
    check(create(arcs(), w).view.end_index_offset == 2, "create: y is compared as well");
    w.end_intersect = (mask_point){3.75, 4.25};
    check(create(arcs(), w).view.end_index_offset == 1, "create: x and y may both be off");
    w.traverse_count = 4;
    w.start_index = 3;
    check(create(arcs(), w).view.end_index_offset == 3 && create(arcs(), w).view.start_index == 3,
          "create: traverse count equal to the vertex count is accepted");

    a = single(arcs(), (piece){3, {0, 3, -0.0}, {0, 1}, {T, T}});
    check(same_view_answer(a, the_view((mask_view){3, 0, {0, 3, -0.0}, -0.0, {0, 1}, 0})),
          "create_on_single_segment: offset 0, end bulge the start's, -0 kept");
    check(same_view_answer(single(arcs(), (piece){3, {0, 3, 1}, {0, 3}, {T, T}}), no_view(0)),
          "create_on_single_segment: equal ends: no view");
    check(same_view_answer(single(arcs(), (piece){3, {0, 3, 1}, {0.25, 3.25}, {0.5, 0.5}}), no_view(0)),
          "create_on_single_segment: ends that agree: no view");
    check(single(arcs(), (piece){3, {1, 3, 1}, {1.5, 3}, {0.5, 0.5}}).found == 1 &&
              single(arcs(), (piece){3, {1, 3, 1}, {1, 3.5}, {0.5, 0.5}}).found == 1,
          "create_on_single_segment: ends exactly t apart do not agree");

    check(same_view_answer(entire(arcs(), 1),
                           the_view((mask_view){0, 3, {0, 0, 0.125}, -0.5, {0, 0}, 0})),
          "from_entire_pline: closed goes to vertex 0, offset vc - 1");
    check(same_view_answer(entire(arcs(), 0),
                           the_view((mask_view){0, 2, {0, 0, 0.125}, -0.0, {0, 4}, 0})),
          "from_entire_pline: open ends on the last vertex, offset vc - 2");
    check(same_view_answer(entire(lend_outline(ARCS, 6, 2), 1),
                           the_view((mask_view){0, 1, {0, 0, 0.125}, 0.25, {0, 0}, 0})) &&
              same_view_answer(entire(lend_outline(ARCS, 6, 2), 0),
                               the_view((mask_view){0, 0, {0, 0, 0.125}, 0.125, {4, 0}, 0})),
          "from_entire_pline: 2 vertices, closed and open");
    check(same_view_answer(entire(square_b(), 1),
                           the_view((mask_view){0, 3, {2, 2, 0}, 0, {2, 2}, 0})) &&
              VERTICES(square_b(), entire(square_b(), 1).view,
                       {{2, 2, 0}, {6, 2, 0}, {6, 6, 0}, {2, 6, 0}, {2, 2, 0}}),
          "from_entire_pline: B closed goes through every vertex and ends where it began");
}

/* ---- Verdicts over the squares ---- */

static void verdicts(void)
{
    const mask_verdict_answer valid = {.verdict = MASK_VERDICT_VALID};
    mask_verdict_answer expected;
    mask_view v = {1, 1, {4, 2, 0}, 0, {2, 4}, 0};
    mask_view w;

    check(same_verdict_answer(validate(lend_outline(A, 3, 1), v, 1, 1),
                              (mask_verdict_answer){.verdict = MASK_VERDICT_NO_SEGMENTS}),
          "validate_for_source: 1 vertex: no segments, nothing else");

    w = v;
    w.end_index_offset = 5;
    expected = (mask_verdict_answer){.verdict = MASK_VERDICT_OFFSET, .offset = 5, .source_length = 4};
    check(same_verdict_answer(validate(square_a(), w, 0, 0), expected),
          "validate_for_source: offset above the vertex count, before all that follows");
    w.end_index_offset = SIZE_MAX;
    expected.offset = SIZE_MAX;
    check(same_verdict_answer(validate(square_a(), w, 1, 1), expected),
          "validate_for_source: offset 2^64 - 1 is reported as it is");

    w = v;
    w.updated_start = (mask_vertex){-0.0, 2, 3};
    expected = (mask_verdict_answer){.verdict = MASK_VERDICT_START_NOT_ON_SEGMENT, .point = {-0.0, 2}};
    check(same_verdict_answer(validate(square_a(), w, 0, 0), expected),
          "validate_for_source: start not on its segment, before the end; its point, -0 kept");
    w = v;
    w.end_point.y = -0.0;
    expected = (mask_verdict_answer){.verdict = MASK_VERDICT_END_NOT_ON_SEGMENT, .point = {2, -0.0}};
    check(same_verdict_answer(validate(square_a(), w, 1, 0), expected),
          "validate_for_source: end not on its segment; its point, -0 kept");

    w = (mask_view){2, 1, {4, 4, 1}, 5, {-0.0, 4}, 0};
    expected = (mask_verdict_answer){
        .verdict = MASK_VERDICT_END_ON_FINAL_VERTEX, .point = {-0.0, 4}, .vertex = {0, 4, -0.5}};
    check(same_verdict_answer(validate(arcs(), w, 0, 0), expected),
          "validate_for_source: end on the final vertex; its point and that vertex");
    w = (mask_view){2, 4, {4, 4, 1}, 5, {4, 4}, 0};
    expected = (mask_verdict_answer){
        .verdict = MASK_VERDICT_END_ON_FINAL_VERTEX, .point = {4, 4}, .vertex = {4, 4, -0.0}};
    check(same_verdict_answer(validate(arcs(), w, 0, 0), expected),
          "validate_for_source: the final vertex wraps; offset equal to the vertex count is valid");

    w = (mask_view){1, 0, {4, 1, -0.0}, 0.5, {4, 3}, 0};
    expected = (mask_verdict_answer){
        .verdict = MASK_VERDICT_BULGE_MISMATCH, .updated_bulge = 0.5, .expected = -0.0};
    check(same_verdict_answer(validate(arcs(), w, 1, 1), expected),
          "validate_for_source: bulge mismatch on one segment; both bulges, -0 kept");
    w.end_index_offset = 1;
    check(same_verdict_answer(validate(arcs(), w, 1, 1), valid),
          "validate_for_source: with offset 1 the bulges are not compared");
    w = (mask_view){1, 0, {4, 1, 3}, 0.5, {4, 0}, 0};
    expected = (mask_verdict_answer){
        .verdict = MASK_VERDICT_END_ON_FINAL_VERTEX, .point = {4, 0}, .vertex = {4, 0, 0.25}};
    check(same_verdict_answer(validate(arcs(), w, 1, 1), expected),
          "validate_for_source: end on the final vertex comes before the bulges");

    check(same_verdict_answer(validate(square_a(), v, 1, 1), valid),
          "validate_for_source: A's first walk is valid, all else 0");
    v.inverted_direction = 1;
    check(same_verdict_answer(validate(square_a(), v, 1, 1), valid),
          "validate_for_source: inverted, it is valid as well");
    v = (mask_view){1, 1, {4, 0, 0}, 0, {0, 4}, 0};
    check(same_verdict_answer(validate(square_a(), v, 0, 0), valid),
          "validate_for_source: points on vertices need no yes from the host");
    v = (mask_view){1, 1, {4, 4, 0}, 0, {0, 4}, 0};
    check(same_verdict_answer(validate(square_a(), v, 0, 0), valid),
          "validate_for_source: nor does a start on its segment's second vertex");
}

/* The strict tolerances 1e-3 and 1e-5, at vertex 0 of A, which lies at 0. */
static void validation_tolerances(void)
{
    const mask_verdict_answer valid = {.verdict = MASK_VERDICT_VALID};
    mask_view v = {0, 0, {0, 0, 0.5}, 0.5, {4, 0}, 0};
    mask_view end = {3, 1, {0, 4, 0}, 0, {0, 0}, 0};
    mask_view bulge = {0, 0, {0, 0, 0}, 0, {4, 0}, 0};

    v.updated_start.x = nextafter(1e-3, 0);
    v.updated_start.y = -nextafter(1e-3, 0);
    check(validate(square_a(), v, 0, 0).verdict == MASK_VERDICT_VALID,
          "validate_for_source: a start just under 1e-3 off is on its vertex");
    v.updated_start.y = -1e-3;
    check(validate(square_a(), v, 0, 0).verdict == MASK_VERDICT_START_NOT_ON_SEGMENT,
          "validate_for_source: a start 1e-3 off in y is not");
    v.updated_start.x = 1e-3;
    v.updated_start.y = 0;
    check(validate(square_a(), v, 0, 0).verdict == MASK_VERDICT_START_NOT_ON_SEGMENT,
          "validate_for_source: a start 1e-3 off in x is not");
    check(validate(square_a(), v, 1, 0).verdict == MASK_VERDICT_VALID,
          "validate_for_source: then the host's yes decides");

    end.end_point.x = 1e-3;
    check(validate(square_a(), end, 0, 0).verdict == MASK_VERDICT_END_NOT_ON_SEGMENT &&
              validate(square_a(), end, 1, 0).verdict == MASK_VERDICT_END_NOT_ON_SEGMENT,
          "validate_for_source: an end 1e-3 off is not on its vertex, whatever is said of the start");
    check(same_verdict_answer(validate(square_a(), end, 0, 1), valid),
          "validate_for_source: then the host's yes decides");
    end.end_point.x = nextafter(1e-3, 0);
    check(same_verdict_answer(validate(square_a(), end, 0, 0), valid),
          "validate_for_source: an end just under 1e-3 off is on its vertex, and not on the final one");
    end.end_point.x = 1e-5;
    check(same_verdict_answer(validate(square_a(), end, 0, 0), valid),
          "validate_for_source: an end 1e-5 off in x is not on the final vertex");
    end.end_point.x = 0;
    end.end_point.y = -1e-5;
    check(same_verdict_answer(validate(square_a(), end, 0, 0), valid),
          "validate_for_source: an end 1e-5 off in y is not on the final vertex");
    end.end_point.y = -nextafter(1e-5, 0);
    check(validate(square_a(), end, 0, 0).verdict == MASK_VERDICT_END_ON_FINAL_VERTEX,
          "validate_for_source: an end just under 1e-5 off is");

    bulge.updated_end_bulge = -1e-5;
    check(validate(square_a(), bulge, 0, 0).verdict == MASK_VERDICT_BULGE_MISMATCH,
          "validate_for_source: bulges 1e-5 apart do not match");
    bulge.updated_end_bulge = -nextafter(1e-5, 0);
    check(same_verdict_answer(validate(square_a(), bulge, 0, 0), valid),
          "validate_for_source: bulges just under 1e-5 apart match");
}

/* ---- Editions, reopening, and what moved ---- */

/* One view for each verdict, 1 to 7, on A, with the host's yes. */
static mask_view view_of_verdict(unsigned verdict, outline *o)
{
    mask_view v = {1, 1, {4, 2, 0.5}, 0.25, {2, 4}, 0};
    *o = verdict == 1 ? lend_outline(A, 3, 1) : square_a();
    if (verdict == 2)
        v.end_index_offset = 5;
    if (verdict == 5)
        v.end_point = (mask_point){4, 4};
    if (verdict == 6)
        v.end_index_offset = 0, v.end_point = (mask_point){4, 3};
    return v;
}

static void editions(void)
{
    for (unsigned verdict = 1; verdict <= 7; verdict++) {
        outline o;
        mask_view v = view_of_verdict(verdict, &o);
        uint32_t start_on = verdict != 3, end_on = verdict != 4;
        int ok = judged(o, v, start_on, end_on).verdict == verdict;
        for (int i = 0; i < EDITION_COUNT; i++)
            for (int j = 0; j < EDITION_COUNT; j++) {
                uint32_t edition = EDITIONS[i], own = EDITIONS[j];
                mask_verdict_answer meant = judged(o, v, start_on, end_on);
                mask_reopen_answer r =
                    mask_reopen(o.list, o.len, o.vc, edition, v, own, start_on, end_on);
                mask_verdict_answer a = mask_validate_for_source(o.list, o.len, o.vc, edition, v,
                                                                 own, start_on, end_on);
                if (i == j)
                    ok = ok && same_verdict_answer(a, meant) && r.edition == own;
                else
                    ok = ok && with_other_edition(o, v, start_on, end_on, meant, edition, own);
            }
        check(ok,
              "editions: verdict %u: 14 where two differ, from 0 to 2^32 - 1; reopened, the view has "
              "%s",
              verdict, verdict == 7 ? "the outline's" : "its own");
    }
}

/* A view that starts on the outline's last segments, of offset 3; its inner vertices are 3, 0 and 1. */
static const mask_view ACROSS = {2, 3, {2, 4, 0}, 0, {4, 2}, 0};

static void moved_vertices(void)
{
    double list[12];
    mask_view back = ACROSS;
    outline old = square_a();
    back.inverted_direction = 1;
    check(same_unmoved_answer(unmoved(old, lend_new(A, 12, 4), ACROSS),
                              (mask_unmoved_answer){0, 1, 0}),
          "unmoved: the same outline");
    memcpy(list, A, sizeof A);
    list[0] = list[1] = 1;
    check(same_unmoved_answer(unmoved(old, lend_new(list, 12, 4), ACROSS),
                              (mask_unmoved_answer){0, 0, 2}) &&
              validate(lend_new(list, 12, 4), ACROSS, 1, 1).verdict == MASK_VERDICT_VALID,
          "unmoved: (0,0) moved to (1,1): vertex 2 differs, and the verdict is valid");
    memcpy(list, A, sizeof A);
    list[6] = list[7] = 5;
    check(same_unmoved_answer(unmoved(old, lend_new(list, 12, 4), ACROSS),
                              (mask_unmoved_answer){0, 1, 0}),
          "unmoved: a vertex that the view has not may move");
    memcpy(list, A, sizeof A);
    list[5] = 0.5;
    check(same_unmoved_answer(unmoved(old, lend_new(list, 12, 4), ACROSS),
                              (mask_unmoved_answer){0, 1, 0}) &&
              same_unmoved_answer(unmoved(old, lend_new(list, 12, 4), back),
                                  (mask_unmoved_answer){0, 1, 0}),
          "unmoved: the bulge of the vertex at the offset is the view's own, in both directions");
    memcpy(list, A, sizeof A);
    list[2] = -0.0;
    check(same_unmoved_answer(unmoved(old, lend_new(list, 12, 4), ACROSS),
                              (mask_unmoved_answer){0, 0, 2}) &&
              same_unmoved_answer(unmoved(old, lend_new(list, 12, 4), back),
                                  (mask_unmoved_answer){0, 0, 1}),
          "unmoved: -0 is another bulge than 0; inverted it is that of the vertex after it");
    check(same_unmoved_answer(unmoved(triangle(), lend_new(A, 12, 4),
                                      (mask_view){3, 0, {0, 0, 0}, 0, {1, 1}, 0}),
                              no_unmoved(6)) &&
              same_unmoved_answer(unmoved(square_a(), lend_new(TRIANGLE, 9, 3),
                                          (mask_view){3, 0, {0, 0, 0}, 0, {1, 1}, 0}),
                                  no_unmoved(6)),
          "unmoved: the start is looked at on both outlines: 6");
    check(same_unmoved_answer(unmoved(triangle(), lend_new(A, 12, 4),
                                      (mask_view){0, 4, {0, 0, 0}, 0, {1, 1}, 0}),
                              no_unmoved(7)) &&
              same_unmoved_answer(unmoved(square_a(), lend_new(TRIANGLE, 9, 3),
                                          (mask_view){0, 4, {0, 0, 0}, 0, {1, 1}, 0}),
                                  no_unmoved(7)),
          "unmoved: the offset is looked at on both outlines: 7");
}

/* Every view of an outline, each number of it changed by one bit, beside the reference. */
static void moved_bits(void)
{
    enum { COUNT = 5 };
    double from[3 * COUNT], to[3 * COUNT];
    unsigned cases = 0, wrong = 0, same = 0;
    for (size_t i = 0; i < 3 * COUNT; i++)
        from[i] = i % 4 ? (double)i / 4 : 0;
    for (size_t place = 0; place < 3 * COUNT; place++)
        for (size_t view = 0; view < COUNT * (COUNT + 1) * 2; view++) {
            mask_view v = {view % COUNT, view / COUNT % (COUNT + 1), {7, 8, 9}, 10, {11, 12},
                           (uint32_t)(view / COUNT / (COUNT + 1))};
            outline old = lend_outline(from, 3 * COUNT, COUNT), new;
            mask_unmoved_answer a;
            memcpy(to, from, sizeof to);
            to[place] = to[place] == 0 ? -0.0 : nextafter(to[place], 99);
            new = lend_new(to, 3 * COUNT, COUNT);
            a = unmoved(old, new, v);
            wrong += !same_unmoved_answer(a, compared(old, new, v)) ||
                     !same_unmoved_answer(a, unmoved(new, old, v)) ||
                     (v.end_index_offset == 0 && !a.unmoved);
            same += a.unmoved;
            cases++;
        }
    check(wrong == 0 && same > 100 && same < cases - 100,
          "unmoved: every view of 5 vertices, each number changed by a bit: %u cases, %u unmoved, "
          "%u wrong; with offset 0 nothing moves",
          cases, same, wrong);
}

/* The longest views, one vertex moved. */
static void moved_far(void)
{
    static double from[3 * MOST_VERTICES], to[3 * MOST_VERTICES];
    unsigned wrong = 0;
    for (size_t i = 0; i < 3 * MOST_VERTICES; i++)
        from[i] = (double)i;
    for (unsigned i = 0; i < 200; i++) {
        size_t moved = i < 4 ? (size_t[]){0, 1, 1022, 1023}[i] : below(MOST_VERTICES);
        mask_view v = {below(MOST_VERTICES), MOST_VERTICES, {7, 8, 9}, 10, {11, 12}, i % 2};
        outline old, new;
        memcpy(to, from, sizeof to);
        to[3 * moved + below(3)] += 0.5;
        old = lend_outline(from, 3 * MOST_VERTICES, MOST_VERTICES);
        new = lend_new(to, 3 * MOST_VERTICES, MOST_VERTICES);
        wrong += !same_unmoved_answer(unmoved(old, new, v), compared(old, new, v));
    }
    check(wrong == 0, "unmoved: views round outlines of 1024 vertices, one of them moved: %u wrong",
          wrong);
}

/* ---- Drawn cases against the reference ---- */

enum { CASES = 100000 };

/* A number in range: zeros of both signs, steps of 1/1024, whole numbers, the limits, any. */
static double drawn_number(void)
{
    double sign = below(2) ? -1 : 1;
    switch (below(8)) {
    case 0:
        return sign * 0.0;
    case 1:
        return sign * LIMIT;
    case 2:
        return sign * 5e-324;
    case 3:
        return sign * (double)below(1 << 20) / 1024;
    case 4:
        return sign * ldexp((double)(draw() >> 11), -23);
    case 5:
        return sign * ldexp((double)(draw() >> 11), -53);
    default:
        return sign * (double)below(9);
    }
}

static double drawn_tolerance(void)
{
    const double list[] = {T, 1, 0.5, 1e-5, 1e-3, 5e-324};
    return below(2) ? list[below(sizeof list / sizeof *list)] : ldexp((double)(draw() >> 11) + 1, -53);
}

/* Two tolerances: half of them alike, now and then one or both out of range. */
static axes drawn_axes(void)
{
    axes t = both(drawn_tolerance());
    if (below(2))
        t.y = drawn_tolerance();
    return rarely(32) ? spoiled(t, (int)below(3), -drawn_tolerance()) : t;
}

static mask_vertex drawn_vertex(void)
{
    return (mask_vertex){drawn_number(), drawn_number(), drawn_number()};
}

/* Now and then an index or a count that is out of range, or out of all range. */
static size_t drawn_index(size_t most, int faulty)
{
    const size_t list[] = {most + 1, most + 2, HALF, SIZE_MAX, SIZE_MAX - 1};
    return faulty ? list[below(sizeof list / sizeof *list)] : below(most + 1);
}

static outline drawn_outline(void)
{
    double list[LONGEST];
    size_t vc = rarely(64) ? MOST_VERTICES - 3 + below(5) : rarely(32) ? below(2) : 2 + below(9);
    size_t len = 3 * vc;
    for (size_t i = 0; i < len; i++)
        list[i] = drawn_number();
    if (rarely(32) && len > 0)
        list[below(len)] = bad_number();
    if (rarely(32)) {
        if (below(2) && len > 0)
            len -= 1 + below(len);
        else
            vc = drawn_index(vc, 1);
    }
    return lend_outline(list, len, vc);
}

/* A point near a vertex, or anywhere. */
static mask_point drawn_near(outline o, size_t i, axes t)
{
    mask_point p = {drawn_number(), drawn_number()};
    if (o.vc > 0 && right_length(o.len, 3, o.vc) && !rarely(4)) {
        p = place(at(o, i % o.vc));
        p.x = near(p.x, t.x);
        p.y = near(p.y, t.y);
    }
    if (rarely(64))
        p.y = bad_number();
    return p;
}

static mask_view drawn_view(outline o)
{
    size_t most = o.vc > 0 ? o.vc - 1 : 0;
    mask_view v = {.start_index = drawn_index(most, rarely(32)),
                   .end_index_offset = drawn_index(o.vc, rarely(32)),
                   .updated_start = drawn_vertex(),
                   .updated_end_bulge = drawn_number(),
                   .end_point = {drawn_number(), drawn_number()},
                   .inverted_direction = (uint32_t)(rarely(32) ? draw() : below(2))};
    if (rarely(8))
        v.end_index_offset = 0;
    if (rarely(32))
        put_view(&v, (unsigned)below(6), bad_number());
    return v;
}

/* How often each refusal, or each kind of answer, was met: a test that meets none shows nothing. */
static unsigned met[16];

static int all_met(const unsigned *kinds, unsigned count)
{
    for (unsigned i = 0; i < count; i++)
        if (met[kinds[i]] < 100)
            return 0;
    return 1;
}

#define MET(...) \
    all_met((unsigned[])__VA_ARGS__, sizeof((unsigned[])__VA_ARGS__) / sizeof(unsigned))

static void drawn_vertices(void)
{
    int ok = 1, turned = 1;
    memset(met, 0, sizeof met);
    for (unsigned i = 0; i < CASES && ok; i++) {
        outline o = drawn_outline();
        mask_view v = drawn_view(o);
        size_t offset = v.end_index_offset;
        size_t k = rarely(64) ? SIZE_MAX : below(offset < 2 * MOST_VERTICES ? offset + 3 : 8);
        mask_vertex_answer a = vertex(o, v, k);
        ok = same_vertex_answer(a, vertex_of(o, v, k));
        if (!ok)
            printf("     case %u: refusal %u found %u (%a, %a, %a)\n", i, (unsigned)a.refusal,
                   (unsigned)a.found, a.vertex.x, a.vertex.y, a.vertex.bulge);
        met[a.refusal ? a.refusal : a.found ? 8 + v.inverted_direction : 0]++;
        if (a.found) {
            mask_vertex other;
            v.inverted_direction ^= 1;
            other = vertex(o, v, offset + 1 - k).vertex;
            turned = turned && same_point(place(a.vertex), place(other));
        }
    }
    check(ok, "view_vertex: %u drawn cases as document 01 says", (unsigned)CASES);
    check(MET({0, 1, 2, 3, 5, 6, 7, 8, 9}), "view_vertex: each refusal and answer was among them");
    check(turned, "view_vertex: position k of a view is position offset + 1 - k of it turned round");
}

static void drawn_views(void)
{
    int ok = 1;
    memset(met, 0, sizeof met);
    for (unsigned i = 0; i < CASES && ok; i++) {
        outline o = drawn_outline();
        mask_view v = drawn_view(o);
        size_t offset = v.end_index_offset < MOST_VERTICES ? v.end_index_offset : MOST_VERTICES;
        size_t len = 3 * (offset + 2) + (rarely(2) ? 0 : below(BEYOND - 2));
        if (rarely(8))
            len -= 1 + below(len);
        ok = all_as_expected(o, v, len);
        if (!ok)
            printf("     case %u: refusal %u, %zu vertices\n", i, (unsigned)told.refusal, told.count);
        met[told.refusal              ? told.refusal
            : v.end_index_offset == 0 ? 10 + v.inverted_direction
                                      : 12 + v.inverted_direction]++;
    }
    check(ok, "view_vertices: %u drawn cases as document 01 says", (unsigned)CASES);
    check(MET({1, 2, 3, 5, 6, 7, 9, 10, 11, 12, 13}),
          "view_vertices: each refusal and answer was among them");
}

static void drawn_walks(void)
{
    int ok = 1;
    memset(met, 0, sizeof met);
    for (unsigned i = 0; i < CASES && ok; i++) {
        outline o = drawn_outline();
        size_t most = o.vc > 0 ? o.vc - 1 : 0;
        walk w = {.start_index = drawn_index(most, rarely(64)),
                  .intersect_index = drawn_index(most, rarely(64)),
                  .updated_start = drawn_vertex(),
                  .traverse_count = rarely(4) ? 1 : drawn_index(o.vc, rarely(64)),
                  .tolerance = drawn_axes(),
                  .split = {drawn_vertex(), drawn_vertex()}};
        mask_view_answer a;
        w.end_intersect = drawn_near(o, w.intersect_index, w.tolerance);
        if (rarely(32))
            put_walk(&w, (unsigned)below(11), bad_number());
        a = create(o, w);
        ok = same_view_answer(a, created(o, w));
        if (!ok)
            printf("     case %u: refusal %u found %u start %zu offset %zu end bulge %a\n", i,
                   (unsigned)a.refusal, (unsigned)a.found, a.view.start_index,
                   a.view.end_index_offset, a.view.updated_end_bulge);
        met[a.refusal                                    ? a.refusal
            : a.view.end_index_offset == w.traverse_count ? 8
            : a.view.end_index_offset == 0                ? 9
                                                          : 10]++;
    }
    check(ok, "create: %u drawn cases as document 01 says", (unsigned)CASES);
    check(MET({1, 2, 4, 5, 6, 7, 8, 9, 10}), "create: each refusal and answer was among them");
}

static void drawn_pieces(void)
{
    int ok = 1;
    memset(met, 0, sizeof met);
    for (unsigned i = 0; i < CASES && ok; i++) {
        outline o = drawn_outline();
        piece p = {.start_index = drawn_index(o.vc > 0 ? o.vc - 1 : 0, rarely(64)),
                   .updated_start = drawn_vertex(),
                   .tolerance = drawn_axes()};
        mask_view_answer a;
        p.end_intersect = (mask_point){near(p.updated_start.x, p.tolerance.x),
                                       near(p.updated_start.y, p.tolerance.y)};
        if (rarely(32))
            put_piece(&p, (unsigned)below(5), bad_number());
        a = single(o, p);
        ok = same_view_answer(a, singled(o, p));
        if (!ok)
            printf("     case %u: refusal %u found %u start %zu end bulge %a\n", i,
                   (unsigned)a.refusal, (unsigned)a.found, a.view.start_index,
                   a.view.updated_end_bulge);
        met[a.refusal ? a.refusal : 8 + a.found]++;
    }
    check(ok, "create_on_single_segment: %u drawn cases as document 01 says", (unsigned)CASES);
    check(MET({1, 2, 4, 5, 6, 8, 9}),
          "create_on_single_segment: each refusal and answer was among them");
}

static void drawn_outlines(void)
{
    int ok = 1;
    memset(met, 0, sizeof met);
    for (unsigned i = 0; i < CASES && ok; i++) {
        outline o = drawn_outline();
        uint32_t closed = (uint32_t)(rarely(32) ? draw() : below(2));
        mask_view_answer a = entire(o, closed);
        ok = same_view_answer(a, entirely(o, closed));
        if (!ok)
            printf("     case %u: refusal %u found %u offset %zu end bulge %a\n", i,
                   (unsigned)a.refusal, (unsigned)a.found, a.view.end_index_offset,
                   a.view.updated_end_bulge);
        met[a.refusal ? a.refusal : 8 + closed]++;
    }
    check(ok, "from_entire_pline: %u drawn cases as document 01 says", (unsigned)CASES);
    check(MET({1, 2, 3, 5, 8, 9}), "from_entire_pline: each refusal and answer was among them");
}

static void drawn_verdicts(void)
{
    int ok = 1;
    memset(met, 0, sizeof met);
    for (unsigned i = 0; i < CASES && ok; i++) {
        outline o = drawn_outline();
        mask_view v = drawn_view(o);
        uint32_t start_on = (uint32_t)(rarely(64) ? draw() : below(2));
        uint32_t end_on = (uint32_t)(rarely(64) ? draw() : below(2));
        mask_verdict_answer a;
        mask_point start =
            drawn_near(o, v.start_index + below(2), both(below(2) ? 1e-3 : 1e-5));
        if (!rarely(4) && v.end_index_offset <= MOST_VERTICES) {
            v.updated_start.x = start.x;
            v.updated_start.y = start.y;
            v.end_point =
                drawn_near(o, v.start_index + v.end_index_offset + below(2),
                           both(below(2) ? 1e-3 : 1e-5));
            if (below(2))
                v.updated_end_bulge = near(v.updated_start.bulge, 1e-5);
        }
        a = validate(o, v, start_on, end_on);
        ok = same_verdict_answer(a, judged(o, v, start_on, end_on));
        if (!ok)
            printf("     case %u: refusal %u verdict %u\n", i, (unsigned)a.refusal,
                   (unsigned)a.verdict);
        met[a.refusal ? a.refusal : 8 + a.verdict]++;
    }
    check(ok, "validate_for_source: %u drawn cases as document 01 says", (unsigned)CASES);
    check(MET({1, 2, 3, 5, 6, 9, 10, 11, 12, 13, 14, 15}),
          "validate_for_source: each refusal and verdict was among them");
}

/* What comes late: a vertex moved, one inserted, one removed, the numbering turned, or nothing. */
static outline changed(outline o)
{
    double list[LONGEST];
    size_t vc = o.vc, i;
    if (!right_length(o.len, 3, vc) || vc < 2 || vc > MOST_VERTICES)
        return lend_new(o.list, o.len, vc);
    memcpy(list, o.list, o.len * sizeof *list);
    i = below(vc);
    switch (below(6)) {
    case 0:
        list[3 * i + below(3)] = drawn_number();
        break;
    case 1: /* the last one moves up */
        memmove(list + 3 * i + 3, list + 3 * i, 3 * (vc - i) * sizeof *list);
        vc++;
        break;
    case 2:
        memmove(list + 3 * i, list + 3 * i + 3, 3 * (vc - i - 1) * sizeof *list);
        vc--;
        break;
    case 3:
        memcpy(list, o.list + 3 * i, 3 * (vc - i) * sizeof *list);
        memcpy(list + 3 * (vc - i), o.list, 3 * i * sizeof *list);
        break;
    case 4:
        list[3 * i] = rarely(8) ? bad_number() : -list[3 * i];
        break;
    default:
        break;
    }
    return lend_new(list, 3 * vc, vc);
}

static void drawn_unmoved(void)
{
    int ok = 1;
    memset(met, 0, sizeof met);
    for (unsigned i = 0; i < CASES && ok; i++) {
        outline o = drawn_outline(), n = changed(o);
        mask_view v = drawn_view(o);
        mask_unmoved_answer a = unmoved(o, n, v);
        ok = same_unmoved_answer(a, compared(o, n, v)) &&
             same_unmoved_answer(unmoved(n, o, v), compared(n, o, v));
        if (!ok)
            printf("     case %u: refusal %u unmoved %u first %zu\n", i, (unsigned)a.refusal,
                   (unsigned)a.unmoved, a.first);
        met[a.refusal ? a.refusal : 8 + 2 * a.unmoved + (a.refusal == 0 && v.inverted_direction)]++;
    }
    check(ok, "unmoved: %u drawn cases as document 02 says", (unsigned)CASES);
    check(MET({1, 2, 3, 5, 6, 7, 8, 9, 10, 11}), "unmoved: each refusal and answer was among them");
}

/* The verdicts above, each asked for with editions that differ too. */
static void verdicts_reopened(void)
{
    check(reopened_wrong == 0 && reopened > CASES,
          "editions: %u verdicts: where the editions differ, 14 in place of each verdict and after each "
          "other number; reopened, the same verdict and the right edition: %u wrong",
          reopened, reopened_wrong);
}

int main(void)
{
    make_list(OUTLINE, LONGEST);
    make_list(NEW_OUTLINE, LONGEST);
    make_list(WRITTEN, 3 * (MOST_VERTICES + 2));
    watch("FAIL an entry wrote to a list lent, or read outside it\n");
    seed = 20260101;
    faults_and_sets();
    lengths();
    codes();
    tolerances();
    axes_apart();
    numbers();
    vertices();
    every_vertex();
    constructors();
    verdicts();
    validation_tolerances();
    editions();
    moved_vertices();
    moved_bits();
    moved_far();
    drawn_vertices();
    drawn_walks();
    drawn_pieces();
    drawn_outlines();
    drawn_verdicts();
    drawn_views();
    drawn_unmoved();
    verdicts_reopened();
    return finish("entries_test");
}
