/*
 * Drawn input. Coordinates stand on a coarse grid, so that points meet, stand at exactly
 * the tolerance from each other, and distances are equal. A good call is then spoiled, in
 * one place or in several: its knobs are what can be.
 */
#include "storm.h"

_Thread_local uint64_t drawing;

/* xorshift64* */
uint64_t draw(void)
{
    drawing ^= drawing >> 12;
    drawing ^= drawing << 25;
    drawing ^= drawing >> 27;
    return (drawing * 0x2545f4914f6cdd1d) >> 11;
}

size_t below(size_t n) { return (size_t)(((draw() & 0xffffffff) * (unsigned __int128)n) >> 32); }

bool rarely(size_t odds) { return below(odds) == 0; }

/* Mostly few, rarely some, very rarely up to the most or past it. */
size_t count_to(size_t most)
{
    size_t way = below(1024);
    if (way < 950 || most < 8)
        return below(most < 6 ? most + 1 : 6);
    if (way < 1021)
        return below(most < 30 ? most + 1 : 30);
    return way == 1023 ? most + below(2) : below(most + 1);
}

double coordinate(void)
{
    size_t way = below(64);
    double grid = ((double)below(9) - 2) * 0.5;
    if (way < 52)
        return grid;
    if (way < 56)
        return near_to(grid, ldexp(1, -(int)below(12)));
    if (way < 58)
        return below(2) ? -0.0 : 0.0;
    if (way < 60)
        return below(2) ? 1073741824.0 : -1073741824.0;
    if (way < 61)
        return below(2) ? 5e-324 : -2.2250738585072014e-308;
    return ldexp((double)(int64_t)(draw() << 11), -(int)(34 + below(1000)));
}

double bulge(void)
{
    static const double list[] = {0, -0.0, 1, -1, 0.5, -0.25, 0.41421356237309503, 1e-5};
    return rarely(24) ? coordinate() : list[below(8)];
}

/* A number near a: at it, at the distance t, or next to that. */
double near_to(double a, double t)
{
    switch (below(7)) {
    case 0:
        return a + t;
    case 1:
        return a - t;
    case 2:
        return nextafter(a + t, a);
    case 3:
        return nextafter(a - t, a);
    case 4:
        return nextafter(a + t, INFINITY);
    case 5:
        return nextafter(a - t, -INFINITY);
    default:
        return a;
    }
}

double tolerance(void)
{
    static const double list[] = {1.0 / 1024, 1.0 / 1024, 0.5, 1, 0.25, 5e-324, 1e-5, 0.75};
    return list[below(8)];
}

uint32_t edition(void)
{
    static const uint32_t list[] = {0, 1, 1, 7, 0x80000000, UINT32_MAX};
    return list[below(6)];
}

/* ---- Knobs ---- */

typedef struct knob {
    enum { A_LIST, A_ROOM, A_NUMBER, A_COUNT, A_CODE, A_WHOLE } kind;
    void *at;
    list_name name;
    size_t width;
} knob;

static _Thread_local knob knobs[64];
static _Thread_local int knob_count_now;

static void add_knob(knob k)
{
    if (knob_count_now < 64)
        knobs[knob_count_now++] = k;
}

void knob_list(list_name name, size_t width) { add_knob((knob){A_LIST, NULL, name, width}); }
void knob_number(double *number) { add_knob((knob){A_NUMBER, number, 0, 0}); }
void knob_count(size_t *count) { add_knob((knob){A_COUNT, count, 0, 0}); }
void knob_code(uint32_t *code) { add_knob((knob){A_CODE, code, 0, 0}); }
void knob_whole(int64_t *whole) { add_knob((knob){A_WHOLE, whole, 0, 0}); }

/* Room: as much as the need, or a little more. */
void knob_room(list_name name, size_t need)
{
    size_t len = need + (below(3) == 0 ? below(7) : 0);
    LEN(name) = len < L[name].most ? len : L[name].most;
    add_knob((knob){A_ROOM, NULL, name, 1});
}

static double odd_number(void)
{
    static const uint64_t list[] = {
        0x7ff8000000000000, 0xfff8000000000001, 0x7ff0000000000001, 0xfff4000000000000,
        0x7ff0000000000000, 0xfff0000000000000, 0x7fefffffffffffff, 0x41d0000000000001,
        0xc1d0000000000001, 0x41d0000000000000, 0xc1d0000000000000, 0x0000000000000000,
        0x8000000000000000, 0x0000000000000001, 0x3ff0000000000000, 0x3ff0000000000001,
        0x41b7d78400000000, 0x41b7d78401000000, 0x3fe0000000000000, 0xbff0000000000000};
    uint64_t word = rarely(8) ? draw() << 11 ^ draw() : list[below(20)];
    double number;
    memcpy(&number, &word, 8);
    return number;
}

static size_t odd_count(size_t old)
{
    static const size_t list[] = {0, 1, 2, 3, 16, 17, 64, 65, 128, 129, 512, 513, 768, 769,
                                  896, 1024, 1025, 1792, 1793, 4096, 4097, SIZE_MAX,
                                  (size_t)1 << 63, SIZE_MAX / 3 + 1, SIZE_MAX / 3 + 2,
                                  (size_t)1 << 32, ((size_t)1 << 61) + 1, SIZE_MAX - 1};
    switch (below(4)) {
    case 0:
        return old + 1;
    case 1:
        return old - 1;
    case 2:
        return rarely(16) ? (size_t)(draw() << 11) : list[below(28)];
    default:
        return list[below(12)];
    }
}

static uint32_t odd_code(void)
{
    static const uint32_t list[] = {0, 1, 2, 3, 4, 255, 256, 0x10000, 0x80000000, UINT32_MAX};
    return list[below(10)];
}

static int64_t odd_whole(void)
{
    static const int64_t list[] = {0, 400000000, 400000001, -400000000, -400000001, 800000000,
                                   800000001, -800000000, -800000001, INT64_MAX, INT64_MIN, 1};
    return rarely(8) ? (int64_t)(draw() << 11) : list[below(12)];
}

static void spoil_length(list *l, size_t width)
{
    size_t len = l->len;
    switch (below(6)) {
    case 0:
        len += 1;
        break;
    case 1:
        len -= 1;
        break;
    case 2:
        len += width;
        break;
    case 3:
        len -= width;
        break;
    case 4:
        len = 0;
        break;
    default:
        len = below(len + 4);
    }
    l->len = len <= l->most ? len : 0;
}

static void spoil_element(list_name name)
{
    list *l = L + name;
    size_t i = below(l->len ? l->len : 1);
    if (l->len == 0)
        return;
    switch (name) {
    case HIT_AT: case LAP_AT: case CUT_AT: case CAND_AT1: case CAND_AT2: case SLICE_AT: case ENTERED:
    case POINT_ENDS: case PUT_AT:
        U(name)[i] = odd_count(U(name)[i]);
        break;
    case WHOLE: case POINTS:
        I(name)[i] = odd_whole();
        break;
    case INSIDE1: case INSIDE2: case BYTES:
        B(name)[i] = (uint8_t)draw();
        break;
    case LAP_EDITION: case CAND_EDITION1: case CAND_EDITION2: case SLICE_EDITION:
        E(name)[i] = (uint32_t)draw();
        break;
    default:
        F(name)[i] = odd_number();
    }
}

static void turn(const knob *k)
{
    switch (k->kind) {
    case A_LIST:
        if (below(5) < 2)
            spoil_length(L + k->name, k->width);
        else
            spoil_element(k->name);
        break;
    case A_ROOM:
        spoil_length(L + k->name, 1);
        break;
    case A_NUMBER:
        *(double *)k->at = odd_number();
        break;
    case A_COUNT:
        *(size_t *)k->at = odd_count(*(size_t *)k->at);
        break;
    case A_CODE:
        *(uint32_t *)k->at = odd_code();
        break;
    case A_WHOLE:
        *(int64_t *)k->at = odd_whole();
    }
}

/* Half of the calls stay good; of the others one place is spoiled, or some, or most. */
void spoil(void)
{
    size_t way = below(16), times = way < 8 ? 0 : way < 13 ? 1 : way < 15 ? 2 : 1 + below(12);
    for (; times > 0 && knob_count_now > 0; times--)
        turn(knobs + below((size_t)knob_count_now));
    knob_count_now = 0;
}

/* ---- What several entries take ---- */

size_t draw_outline(list_name name)
{
    size_t vc = 2 + count_to(1023 - 1);
    double *outline = F(name);
    for (size_t i = 0; i < vc; i++) {
        outline[3 * i] = coordinate();
        outline[3 * i + 1] = coordinate();
        outline[3 * i + 2] = bulge();
    }
    LEN(name) = 3 * vc;
    knob_list(name, 3);
    return vc;
}

/* Often at a vertex of the outline, or next to it. */
mask_point draw_point(const double *outline, size_t vc)
{
    mask_point p = {coordinate(), coordinate()};
    if (below(3) == 0) {
        const double *v = outline + 3 * below(vc);
        p = (mask_point){v[0], v[1]};
        if (below(3) == 0)
            p.x = near_to(p.x, ldexp(1, -(int)below(11)));
        if (below(3) == 0)
            p.y = near_to(p.y, below(2) ? 1e-5 : 1e-3);
    }
    return in_range(p.x) && in_range(p.y) ? p : (mask_point){0, 0};
}

mask_view draw_view(const double *outline, size_t vc)
{
    mask_point start = draw_point(outline, vc), end = draw_point(outline, vc);
    return (mask_view){below(vc), below(vc + 1), {start.x, start.y, bulge()}, bulge(), end,
                       (uint32_t)below(2)};
}

mask_split draw_split(void)
{
    return (mask_split){{coordinate(), coordinate(), bulge()}, {coordinate(), coordinate(), bulge()}};
}

void knob_vertex(mask_vertex *vertex)
{
    knob_number(&vertex->x);
    knob_number(&vertex->y);
    knob_number(&vertex->bulge);
}

void knob_point(mask_point *point)
{
    knob_number(&point->x);
    knob_number(&point->y);
}

void knob_view(mask_view *view)
{
    knob_count(&view->start_index);
    knob_count(&view->end_index_offset);
    knob_vertex(&view->updated_start);
    knob_number(&view->updated_end_bulge);
    knob_point(&view->end_point);
    knob_code(&view->inverted_direction);
}

void knob_split(mask_split *split)
{
    knob_vertex(&split->updated_start);
    knob_vertex(&split->split_vertex);
}
