/*
 * The rules of document 01 that several entries have, and the comparison of an answer with
 * the one expected. Compiled with -ffp-contract=off: every operation is rounded once.
 */
#include "storm.h"

/* ---- Answers as words ---- */

static _Thread_local uint64_t said[24], expected[24];
static _Thread_local int said_count, expected_count;
_Thread_local uint64_t digest;
_Thread_local bool digesting;

static uint64_t word_of(double number)
{
    uint64_t word;
    memcpy(&word, &number, 8);
    return word;
}

void say(uint64_t word) { said[said_count++] = word; }
void say_number(double number) { said[said_count++] = word_of(number); }
void expect(uint64_t word) { expected[expected_count++] = word; }
void expect_number(double number) { expected[expected_count++] = word_of(number); }

void expect_zeros(int count)
{
    while (count-- > 0)
        expect(0);
}

void settle(void)
{
    if (said_count != expected_count)
        differs("the judge itself: another count of fields");
    if (said[0] != expected[0]) {
        char words[80];
        snprintf(words, sizeof words, "refusal %llu, and expected was %llu",
                 (unsigned long long)said[0], (unsigned long long)expected[0]);
        differs(words);
    }
    for (int i = 1; i < said_count; i++)
        if (said[i] != expected[i]) {
            char words[120];
            snprintf(words, sizeof words, "field %d is %#llx, and expected was %#llx", i,
                     (unsigned long long)said[i], (unsigned long long)expected[i]);
            differs(words);
        }
    if (!rooms_as_wanted())
        differs("a list that was lent holds something else");
    if (digesting) {
        for (int i = 0; i < said_count; i++)
            digest = (digest ^ said[i]) * 0x2545f4914f6cdd1d;
        digest = digest_rooms(digest);
    }
    refusal_now = (uint32_t)said[0];
    said_count = expected_count = 0;
}

/* ---- What refusals look at ---- */

/* "a list's length disagrees with its count" */
bool long_as(size_t len, size_t width, size_t count)
{
    return (unsigned __int128)width * count == len;
}

/* "magnitude of any coordinate or bulge: 0 to 2^30" */
bool in_range(double number) { return fabs(number) <= 1073741824.0; }

bool all_in_range(const double *numbers, size_t count)
{
    for (size_t i = 0; i < count; i++)
        if (!in_range(numbers[i]))
            return false;
    return true;
}

bool vertex_in_range(mask_vertex v) { return in_range(v.x) && in_range(v.y) && in_range(v.bulge); }
bool point_in_range(mask_point p) { return in_range(p.x) && in_range(p.y); }

bool split_in_range(mask_split s)
{
    return vertex_in_range(s.updated_start) && vertex_in_range(s.split_vertex);
}

bool view_in_range(const mask_view *v)
{
    return vertex_in_range(v->updated_start) && in_range(v->updated_end_bulge) &&
           point_in_range(v->end_point);
}

/* "position tolerance: above 0, at most 1" */
bool good_tolerance(double t) { return t > 0 && t <= 1; }

/* ---- Points and views ---- */

/* "Two numbers agree when abs(a - b) < tolerance, strictly." */
bool agree(double ax, double ay, double bx, double by, axes t)
{
    return fabs(ax - bx) < t.x && fabs(ay - by) < t.y;
}

double distance_squared(double ax, double ay, double bx, double by)
{
    double dx = ax - bx, dy = ay - by;
    return dx * dx + dy * dy;
}

mask_vertex vertex_at(const double *outline, size_t i)
{
    return (mask_vertex){outline[3 * i], outline[3 * i + 1], outline[3 * i + 2]};
}

/* "Vertices of a view", sentence by sentence; k is at most offset + 1. */
mask_vertex vertex_of(const double *outline, size_t vc, const mask_view *view, size_t k)
{
    size_t start = view->start_index, offset = view->end_index_offset;
    mask_vertex v;
    if (!view->inverted_direction) {
        if (k == 0)
            return view->updated_start;
        if (k == offset + 1)
            return (mask_vertex){view->end_point.x, view->end_point.y, 0};
        v = vertex_at(outline, (start + k) % vc);
        if (k == offset)
            v.bulge = view->updated_end_bulge;
        return v;
    }
    if (k == 0)
        return (mask_vertex){view->end_point.x, view->end_point.y, -view->updated_end_bulge};
    if (k == offset + 1)
        return (mask_vertex){view->updated_start.x, view->updated_start.y, 0};
    v = vertex_at(outline, (start + offset - k + 1) % vc);
    v.bulge = k == offset ? -view->updated_start.bulge
                          : -vertex_at(outline, (start + offset - k) % vc).bulge;
    return v;
}

mask_view view_of_slice(const size_t *at, const double *slice)
{
    return (mask_view){at[2], at[3], {slice[0], slice[1], slice[2]}, slice[3],
                       {slice[4], slice[5]}, (uint32_t)at[1]};
}
