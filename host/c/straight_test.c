/*
 * Calls the three entries over masks in whole microdegrees as a host does, and compares
 * every answer with what request K8 says. One line for each check; the status is 0
 * where none failed.
 *
 * The reference below is written from the request and from nothing else. Its sums are
 * of 128 bits, which no accepted outline passes.
 */
#include "testing.h"

AT(mask_winding_answer, refusal, 0);
AT(mask_winding_answer, winding, 8);
SIZE(mask_winding_answer, 16);
AT(mask_area_answer, refusal, 0);
AT(mask_area_answer, negative, 4);
AT(mask_area_answer, high, 8);
AT(mask_area_answer, low, 16);
SIZE(mask_area_answer, 24);
AT(mask_report_answer, refusal, 0);
AT(mask_report_answer, count, 8);
AT(mask_report_answer, zero, 16);
AT(mask_report_answer, high, 24);
AT(mask_report_answer, low, 32);
SIZE(mask_report_answer, 40);

__extension__ typedef __int128 wide;
__extension__ typedef unsigned __int128 wide_size;

enum { MOST_LOOPS = 4096, VERTICES = MOST_VERTICES + 2, LOOPS = MOST_LOOPS + 2 };

static const int64_t MOST = 400000000;

/* The lists lent. */
enum { OUTLINE, ENDS };

/* ---- The reference ---- */

static int in_range(int64_t z, int64_t most) { return -most <= z && z <= most; }

static int all_in_range(const int64_t *list, size_t len)
{
    for (size_t i = 0; i < len; i++)
        if (!in_range(list[i], MOST))
            return 0;
    return 1;
}

static uint32_t outline_refusal(const int64_t *outline, size_t len, size_t vc)
{
    if (!right_length(len, 2, vc))
        return 1;
    if (vc < LEAST_VERTICES || vc > MOST_VERTICES)
        return 2;
    return all_in_range(outline, len) ? 0 : 18;
}

/* "plus 1 if y1 <= y < y2 and the point is strictly left, minus 1 if y2 <= y < y1 and strictly
 * right, left and right as seen along the edge" */
static int64_t winding_of(const int64_t *o, size_t vc, int64_t x, int64_t y)
{
    int64_t sum = 0;
    for (size_t i = 0; i < vc; i++) {
        size_t j = i + 1 == vc ? 0 : i + 1;
        int64_t x1 = 2 * o[2 * i], y1 = 2 * o[2 * i + 1], x2 = 2 * o[2 * j], y2 = 2 * o[2 * j + 1];
        wide side = (wide)(x2 - x1) * (y - y1) - (wide)(x - x1) * (y2 - y1);
        if (y1 <= y && y < y2 && side > 0)
            sum++;
        if (y2 <= y && y < y1 && side < 0)
            sum--;
    }
    return sum;
}

/* "the doubled signed area (anticlockwise positive)" */
static wide area_of(const int64_t *o, size_t vc)
{
    wide sum = 0;
    for (size_t i = 0; i < vc; i++) {
        size_t j = i + 1 == vc ? 0 : i + 1;
        sum += (wide)o[2 * i] * o[2 * j + 1] - (wide)o[2 * j] * o[2 * i + 1];
    }
    return sum;
}

static wide_size size_of(wide area) { return area < 0 ? -(wide_size)area : (wide_size)area; }

/* ---- One call, beside the reference ---- */

static int winding_right(const int64_t *o, size_t len, size_t vc, int64_t x, int64_t y)
{
    uint32_t number = outline_refusal(o, len, vc);
    mask_winding_answer a = mask_straight_winding(lend(OUTLINE, o, len), len, vc, x, y);
    if (!number && !(in_range(x, 2 * MOST) && in_range(y, 2 * MOST)))
        number = 18;
    return a.refusal == number && a.winding == (number ? 0 : winding_of(o, vc, x, y));
}

static int area_right(const int64_t *o, size_t len, size_t vc)
{
    uint32_t number = outline_refusal(o, len, vc);
    mask_area_answer a = mask_straight_area(lend(OUTLINE, o, len), len, vc);
    wide area = number ? 0 : area_of(o, vc);
    wide_size size = size_of(area);
    return a.refusal == number && a.negative == (area < 0) && a.high == (uint64_t)(size >> 64) &&
           a.low == (uint64_t)size;
}

static uint32_t report_refusal(const int64_t *points, size_t len, const size_t *ends,
                               size_t ends_len, size_t loops)
{
    size_t last = ends_len ? ends[ends_len - 1] : 0, from = 0;
    if (ends_len != loops || !right_length(len, 2, last))
        return 1;
    for (size_t i = 0; i < loops; from = ends[i++])
        if (ends[i] < from || ends[i] - from < LEAST_VERTICES || ends[i] - from > MOST_VERTICES)
            return 2;
    if (!all_in_range(points, len))
        return 18;
    return loops > MOST_LOOPS ? 19 : 0;
}

static int report_right(const int64_t *points, size_t len, const size_t *ends, size_t ends_len,
                        size_t loops)
{
    uint32_t number = report_refusal(points, len, ends, ends_len, loops);
    size_t count = 0, zero = 0, from = 0;
    wide_size total = 0;
    mask_report_answer a = mask_straight_report(lend(OUTLINE, points, len), len,
                                                lend(ENDS, ends, ends_len), ends_len, loops);
    if (!number)
        for (; count < loops; from = ends[count++]) {
            wide area = area_of(points + 2 * from, ends[count] - from);
            zero += area == 0;
            total += size_of(area);
        }
    return a.refusal == number && a.count == count && a.zero == zero &&
           a.high == (uint64_t)(total >> 64) && a.low == (uint64_t)total;
}

/* ---- The checks ---- */

static int64_t points[2 * VERTICES * 64];
static size_t ends[LOOPS];

static const int64_t SQUARE[] = {0, 0, 4, 0, 4, 4, 0, 4};
static const int64_t BACK[] = {0, 4, 4, 4, 4, 0, 0, 0};

static void edges(void)
{
    /* in doubled coordinates: on the left, right, bottom and top side, the corners, the middle */
    static const int64_t probes[][2] = {{0, 4}, {8, 4}, {4, 0}, {4, 8}, {0, 0}, {8, 0}, {8, 8}, {0, 8}, {4, 4}};
    static const int64_t want[] = {1, 0, 1, 0, 1, 0, 0, 0, 1};
    int ok = 1, negated = 1;
    for (size_t i = 0; i < sizeof want / sizeof *want; i++) {
        mask_winding_answer a = mask_straight_winding(SQUARE, 8, 4, probes[i][0], probes[i][1]);
        mask_winding_answer b = mask_straight_winding(BACK, 8, 4, probes[i][0], probes[i][1]);
        ok = ok && a.refusal == 0 && a.winding == want[i];
        negated = negated && b.refusal == 0 && b.winding == -want[i];
    }
    check(ok, "winding: on each side and corner of a square");
    check(negated, "winding: negated, on its sides too, where the square is reversed");
}

static void most(void)
{
    static const int64_t corner[] = {-1, -1, 1, -1, 1, 1, -1, 1};
    mask_area_answer a;
    for (size_t i = 0; i < 2 * MOST_VERTICES; i++)
        points[i] = MOST * corner[i % 8];
    a = mask_straight_area(points, 2 * MOST_VERTICES, MOST_VERTICES);
    /* 327680000000000000000 = 17 * 2^64 + 14085350746937622528 */
    check(a.refusal == 0 && a.negative == 0 && a.high == 17 && a.low == UINT64_C(14085350746937622528),
          "area: 256 times round the largest square, past 64 bits");
    check(area_right(points, 2 * MOST_VERTICES, MOST_VERTICES), "area: the same by the reference");
    for (size_t i = 0; i < MOST_VERTICES; i++)
        points[2 * i] = -points[2 * i];
    check(area_right(points, 2 * MOST_VERTICES, MOST_VERTICES), "area: and mirrored, below 0");
    check(winding_right(points, 2 * MOST_VERTICES, MOST_VERTICES, 0, 0) &&
              mask_straight_winding(points, 2 * MOST_VERTICES, MOST_VERTICES, 0, 0).winding == -256,
          "winding: 256 times round");
}

static void refusals(void)
{
    static const int64_t far[] = {0, 0, 400000001, 0, 4, 4}, under[] = {0, -400000001, 4, 0, 4, 4};
    int64_t edge[] = {400000000, -400000000, 0, 0};
    check(area_right(SQUARE, 8, 3) && area_right(SQUARE, 7, 4) && area_right(SQUARE, 8, HALF + 4) &&
              winding_right(SQUARE, 8, 5, 0, 0),
          "1: the length disagrees with the count");
    check(area_right(far, 2, 1) && area_right(far, 0, 0) && winding_right(far, 2, 1, 0, 0) &&
              area_right(points, 2 * (MOST_VERTICES + 1), MOST_VERTICES + 1),
          "2: too short or too long, before 18");
    check(area_right(far, 6, 3) && area_right(under, 6, 3) && winding_right(far, 6, 3, 0, 0),
          "18: a coordinate one past the range");
    check(area_right(edge, 4, 2) && winding_right(edge, 4, 2, 2 * MOST, -2 * MOST), "0: at the range");
    check(winding_right(SQUARE, 8, 4, 2 * MOST + 1, 0) && winding_right(SQUARE, 8, 4, 0, -2 * MOST - 1) &&
              winding_right(SQUARE, 8, 4, INT64_MIN, 0) && winding_right(SQUARE, 8, 4, 0, INT64_MAX),
          "18: a probe past its range");
}

static void report_refusals(void)
{
    size_t few[] = {4, 8}, back[] = {4, 2, 4}, wraps[] = {SIZE_MAX, 4};
    int64_t two[16];
    memcpy(two, SQUARE, sizeof SQUARE);
    memcpy(two + 8, BACK, sizeof BACK);
    check(report_right(two, 16, few, 2, 2) && report_right(NULL, 0, NULL, 0, 0), "report: two squares; none");
    check(report_right(two, 16, few, 2, 3) && report_right(two, 14, few, 2, 2) && report_right(two, 15, few, 2, 2) &&
              report_right(two, 2, NULL, 0, 0) && report_right(two, 16, few, 2, SIZE_MAX),
          "report, 1: the ends or the points disagree");
    check(report_right(two, 8, back, 3, 3) && report_right(two, 8, wraps, 2, 2), "report, 2: ends that fall back");
    for (size_t i = 0; i < LOOPS; i++) {
        ends[i] = 2 * (i + 1);
        memcpy(points + 4 * i, SQUARE, 4 * sizeof *points);
    }
    check(report_right(points, 4 * MOST_LOOPS, ends, MOST_LOOPS, MOST_LOOPS) &&
              mask_straight_report(points, 4 * MOST_LOOPS, ends, MOST_LOOPS, MOST_LOOPS).zero == MOST_LOOPS,
          "report, 0: 4096 outlines, all of area zero");
    check(report_right(points, 4 * (MOST_LOOPS + 1), ends, MOST_LOOPS + 1, MOST_LOOPS + 1) &&
              mask_straight_report(points, 4 * (MOST_LOOPS + 1), ends, MOST_LOOPS + 1, MOST_LOOPS + 1).refusal == 19,
          "report, 19: one more");
    points[11] = MOST + 1;
    check(report_right(points, 4 * (MOST_LOOPS + 1), ends, MOST_LOOPS + 1, MOST_LOOPS + 1) &&
              mask_straight_report(points, 4 * (MOST_LOOPS + 1), ends, MOST_LOOPS + 1, MOST_LOOPS + 1).refusal == 18,
          "report, 18 before 19");
    ends[3] = ends[2] + 1;
    check(report_right(points, 4 * (MOST_LOOPS + 1), ends, MOST_LOOPS + 1, MOST_LOOPS + 1) &&
              mask_straight_report(points, 4 * (MOST_LOOPS + 1), ends, MOST_LOOPS + 1, MOST_LOOPS + 1).refusal == 2,
          "report, 2 before both");
}

/* ---- Drawn ---- */

static int64_t drawn_number(int64_t reach)
{
    return (int64_t)below((size_t)(2 * reach + 1)) - reach;
}

static void drawn(void)
{
    enum { CASES = 20000 };
    static const int64_t reaches[] = {2, 4, 1000, 400000000};
    int wound = 1, measured = 1, told = 1;
    unsigned inside = 0, negative = 0, on = 0;
    for (unsigned i = 0; i < CASES && wound && measured; i++) {
        int64_t reach = reaches[below(4)];
        size_t vc = 2 + below(rarely(50) ? 1023 : 12);
        for (size_t k = 0; k < 2 * vc; k++)
            points[k] = drawn_number(reach);
        measured = area_right(points, 2 * vc, vc);
        negative += area_of(points, vc) < 0;
        for (unsigned k = 0; k < 8 && wound; k++) {
            size_t v = below(vc), w = v + 1 == vc ? 0 : v + 1;
            int64_t x = 2 * drawn_number(reach), y = 2 * drawn_number(reach);
            if (k < 3) /* a vertex, the middle of an edge, or beside it */
                x = points[2 * v] + points[2 * (k ? w : v)], y = points[2 * v + 1] + points[2 * (k ? w : v) + 1];
            if (k == 2)
                x += (int64_t)below(3) - 1, y += (int64_t)below(3) - 1;
            if (!in_range(x, 2 * MOST) || !in_range(y, 2 * MOST))
                continue;
            wound = winding_right(points, 2 * vc, vc, x, y);
            inside += winding_of(points, vc, x, y) != 0;
            on += k < 2;
        }
    }
    check(wound, "winding: %u drawn outlines as the request says", (unsigned)CASES);
    check(measured, "area: %u drawn outlines as the request says", (unsigned)CASES);
    check(inside >= 10000 && negative >= 5000 && on >= 30000, "among them inside, below 0, and on edges");
    for (unsigned i = 0; i < 2000 && told; i++) {
        size_t loops = below(12), end = 0;
        int64_t reach = reaches[below(4)];
        for (size_t k = 0; k < loops; k++)
            ends[k] = end += rarely(40) ? below(3) : 2 + below(6);
        for (size_t k = 0; k < 2 * end; k++)
            points[k] = drawn_number(reach);
        if (rarely(40) && end)
            points[below(2 * end)] = MOST + 1;
        told = report_right(points, 2 * end + rarely(40), ends, loops, loops + rarely(40));
    }
    check(told, "report: 2000 drawn calls as the request says");
}

int main(void)
{
    watch("FAIL the library touched memory outside a list\n");
    make_list(OUTLINE, sizeof points / sizeof *points);
    make_list(ENDS, LOOPS);
    seed = 20260108;
    edges();
    most();
    refusals();
    report_refusals();
    drawn();
    return finish("straight_test");
}
