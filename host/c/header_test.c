/*
 * What mask.h says beside its declarations: version, widths, sizes, and the stack that a
 * call takes at most. One line for each check; the status is 0 where none failed.
 *
 * Sizes and widths are compared with document 01's and the lists' numbers, written down
 * here a second time. The stack is measured: a thread of its own paints its stack, makes
 * one call with the largest inputs, and looks how far down the paint is gone. host/stack
 * reads the same off the machine code, for every input. Under the address sanitizer the same
 * calls are made on the same stacks, but what they took is not judged: its memset and memcpy
 * take more than the C library's, and the header counts neither.
 */
#include "testing.h"
#include <pthread.h>

/* ---- Version, widths, sizes ---- */

#define TEXT(x) #x
#define DOTTED(a, b, c) TEXT(a) "." TEXT(b) "." TEXT(c)

static void numbers(void)
{
    check(strcmp(MASK_VERSION,
                 DOTTED(MASK_VERSION_MAJOR, MASK_VERSION_MINOR, MASK_VERSION_PATCH)) == 0,
          "mask.h: the version is the one of its three parts");
    check(MASK_WIDTH_OUTLINE == 3 && MASK_WIDTH_HIT_AT == 2 && MASK_WIDTH_HIT == 2 &&
              MASK_WIDTH_LAP_AT == 7 && MASK_WIDTH_LAP == 6 && MASK_WIDTH_CUT_AT == 3 &&
              MASK_WIDTH_CUT == 2 && MASK_WIDTH_SPLITS == 9 && MASK_WIDTH_CAND_AT == 2 &&
              MASK_WIDTH_CAND == 6 && MASK_WIDTH_PROBE == 6 && MASK_WIDTH_SLICE_AT == 4 &&
              MASK_WIDTH_SLICE == 6 && MASK_WIDTH_SETTINGS == 3 && MASK_WIDTH_STRAIGHT == 2,
          "mask.h: the widths of the lists");
    check(MASK_LEAST_VERTICES == LEAST_VERTICES && MASK_MOST_VERTICES == MOST_VERTICES &&
              MASK_MOST_HITS == 512 && MASK_MOST_LAPS == MOST_LAPS && MASK_MOST_CANDIDATES == 768 &&
              MASK_MOST_SLICES == 1792 && MASK_MOST_LOOPS == 1792 && MASK_MOST_NUMBER == LIMIT &&
              MASK_MOST_SETTINGS == 16 && MASK_MOST_TOLERANCE == 1,
          "mask.h: the sizes of document 01");
    check(MASK_MOST_CUTS == MASK_MOST_HITS + 2 * MASK_MOST_LAPS &&
              MASK_MOST_SLICES == 2 * MASK_MOST_CANDIDATES + 2 * MASK_MOST_LAPS,
          "mask.h: the most cuts and slices are those that the others give");
    check(MASK_MOST_WHOLE == 400000000 && MASK_MOST_WHOLE_DOUBLED == 2 * MASK_MOST_WHOLE &&
              MASK_MOST_OUTLINES == 4096,
          "mask.h: the sizes of masks without arcs");
    check(MASK_RECORD_MOST_VERTICES == 64 && MASK_RECORD_MOST_SLICES == 28 &&
              MASK_RECORD_MOST_BYTES == 42 + 24 * 2 * 64 + 58 * 28 &&
              MASK_RECORD_MOST_ROOM == 1 + 28 * (64 + 1),
          "mask.h: the sizes of a record of a stitch");
    check(MASK_STORE_PLACES == 1792 && 2 * MASK_STORE_SHARE == MASK_STORE_PLACES, "mask.h: the size of a store");
}

/* ---- The largest inputs ---- */

enum {
    VC = MASK_MOST_VERTICES,
    HITS = MASK_MOST_HITS,
    LAPS = MASK_MOST_LAPS,
    CUTS = MASK_MOST_CUTS,
    CANDIDATES = MASK_MOST_CANDIDATES,
    SLICES = MASK_MOST_SLICES,
    OUTLINES = MASK_MOST_OUTLINES,
    PLACES = MASK_STORE_PLACES,
    RECORD_VC = MASK_RECORD_MOST_VERTICES,
    RECORD_SLICES = MASK_RECORD_MOST_SLICES
};

static double outline[3 * VC], hit[2 * HITS], lap[6 * LAPS], splits[9 * CUTS];
static size_t hit_at[2 * HITS], lap_at[7 * LAPS];
static size_t cut_at[3 * CUTS], cand_at[2 * CUTS];
static double cut[2 * CUTS], cand[6 * CUTS], probe[6 * CUTS];
static uint8_t inside[CANDIDATES];
static uint32_t cand_edition[CUTS], lap_edition[LAPS], slice_edition[SLICES];
static size_t slice_at[4 * SLICES], ends[SLICES], chain[SLICES], chain_ends[SLICES],
    chain_how[SLICES], kept[SLICES];
static double vertices[3 * (VC + 2)];
static double slice[6 * SLICES], room[3 * (1 + 2 * SLICES)], areas[SLICES];
static int64_t points[2 * VC], many[2 * 2 * OUTLINES];
static size_t many_ends[OUTLINES];
static size_t entered[1];
static double settings[MASK_WIDTH_SETTINGS * MASK_MOST_SETTINGS];
static uint8_t bytes[MASK_RECORD_MOST_BYTES];
static size_t held[PLACES], kept_at[4 * PLACES], handles[PLACES];
static double kept_slice[6 * PLACES];
static uint32_t kept_edition[PLACES], list_edition[PLACES];

/* The same masks in whole numbers, with cuts that are whole too. */
static double whole_outline[3 * VC], whole_hit[2 * HITS];

static void make_inputs(void)
{
    for (size_t i = 0; i < VC; i++) {
        outline[3 * i] = (double)i;
        outline[3 * i + 1] = i % 2 ? 1 : 0;
        points[2 * i] = (int64_t)i * 390000;
        points[2 * i + 1] = i % 2 ? MASK_MOST_WHOLE : -MASK_MOST_WHOLE;
    }
    for (size_t i = 0; i < HITS; i++) {
        hit_at[2 * i] = hit_at[2 * i + 1] = HITS - i;
        hit[2 * i] = (double)(HITS - i) + 0.5;
    }
    for (size_t i = 0; i < LAPS; i++)
        for (int k = 0; k < 4; k++)
            lap_at[7 * i + k] = i;
    for (size_t i = 0; i < SLICES; i++) {
        slice_at[4 * i] = 1 + i % 2;
        slice_at[4 * i + 2] = i % VC;
        slice_at[4 * i + 3] = 1;
        slice[6 * i] = slice[6 * i + 4] = (double)i;
        slice[6 * i + 5] = 0.25;
        areas[i] = (double)i;
    }
    for (size_t i = 0; i < OUTLINES; i++)
        many_ends[i] = 2 * (i + 1);
    for (size_t i = 0; i < VC; i++) {
        whole_outline[3 * i] = (double)points[2 * i];
        whole_outline[3 * i + 1] = (double)points[2 * i + 1];
    }
    for (size_t i = 0; i < HITS; i++)
        whole_hit[2 * i] = (double)points[2 * (HITS - i)] + 195000;
    entered[0] = 1;
    settings[0] = settings[1] = 1;
    settings[2] = 2;
}

/* ---- A call of each entry, accepted ---- */

static const mask_view VIEW = {VC - 1, VC, {1, 0, 0.5}, 0.25, {2, 0}, 1};
static const mask_split SPLIT = {{1, 0, 0.5}, {2, 0, 0.25}};
static uint32_t refusal;

#define ALL(list) list, sizeof list / sizeof *list

static void view_vertex(void) { refusal = mask_view_vertex(ALL(outline), VC, VIEW, VC).refusal; }

static void view_vertices(void)
{
    refusal = mask_view_vertices(ALL(outline), VC, VIEW, ALL(vertices)).refusal;
}

static void create(void)
{
    refusal =
        mask_create(ALL(outline), VC, VC - 1, VIEW.end_point, 5, VIEW.updated_start, VC, T, T,
                    SPLIT)
            .refusal;
}

static void create_on_single_segment(void)
{
    refusal = mask_create_on_single_segment(ALL(outline), VC, VC - 1, VIEW.updated_start,
                                            VIEW.end_point, T, T)
                  .refusal;
}

static void from_entire_pline(void)
{
    refusal = mask_from_entire_pline(ALL(outline), VC, 1).refusal;
}

static void slice_span(void)
{
    refusal = mask_slice_span(ALL(outline), VC, 1, VC - 1, VIEW.end_point, VC - 1,
                              (mask_point){1, 0}, T, T)
                  .refusal;
}

static void from_slice_points(void)
{
    refusal = mask_from_slice_points(ALL(outline), VC, 1, VC - 1, VIEW.end_point, VC - 1,
                                     (mask_point){1, 0}, T, T, SPLIT, SPLIT)
                  .refusal;
}

static void from_new_start(void)
{
    refusal = mask_from_new_start(ALL(outline), VC, 0, 5, VIEW.end_point, T, T, SPLIT, SPLIT)
                  .refusal;
}

static void validate_for_source(void)
{
    refusal = mask_validate_for_source(ALL(outline), VC, 0, VIEW, 0, 1, 1).refusal;
}

static void reopen(void)
{
    refusal = mask_reopen(ALL(outline), VC, 1, VIEW, 0, 1, 1).refusal;
}

static void unmoved(void)
{
    refusal = mask_unmoved(ALL(outline), VC, ALL(outline), VC, VIEW).refusal;
}

static void cut_order(void)
{
    refusal = mask_cut_order(ALL(outline), VC, 1, ALL(hit_at), ALL(hit), HITS, ALL(lap_at),
                             ALL(lap), LAPS, T, T, ALL(cut_at), ALL(cut))
                  .refusal;
}

static void candidates(void)
{
    refusal = mask_candidates(ALL(outline), VC, 0, 1, ALL(hit_at), ALL(hit), HITS, ALL(lap_at),
                              ALL(lap), LAPS, ALL(splits), T, T, ALL(cand_at), ALL(cand),
                              ALL(probe), ALL(cand_edition))
                  .refusal;
}

static void candidates_along(void)
{
    refusal = mask_candidates_along(ALL(outline), VC, 0, 1, ALL(hit_at), ALL(hit), HITS, ALL(lap_at),
                                    ALL(lap), LAPS, ALL(cut_at), ALL(splits), T, T, ALL(cand_at),
                                    ALL(cand), ALL(probe), ALL(cand_edition))
                  .refusal;
}

static void prune(void)
{
    refusal = mask_prune(MASK_MODE_UNION, 0, VC, VC, ALL(cand_at), ALL(cand), ALL(cand_edition),
                         ALL(inside), CANDIDATES, ALL(cand_at), ALL(cand), ALL(cand_edition),
                         ALL(inside), CANDIDATES, ALL(lap_at), ALL(lap), ALL(lap_edition), LAPS,
                         ALL(slice_at), ALL(slice), ALL(slice_edition))
                  .refusal;
}

static void stitch(void)
{
    refusal = mask_stitch(ALL(outline), VC, 0, ALL(outline), VC, 0, ALL(slice_at), ALL(slice),
                          ALL(slice_edition), SLICES, 0, SLICES, SLICES, MASK_SELECTOR_OR_AND,
                          ALL(entered), ALL(settings), 1, ALL(room), ALL(ends), ALL(chain),
                          ALL(chain_ends), ALL(chain_how))
                  .refusal;
}

static void area_pass(void)
{
    refusal = mask_area_pass(ALL(areas), SLICES, ALL(entered), ALL(settings), 1, ALL(kept)).refusal;
}

static void settings_enter(void)
{
    entered[0] = MASK_MOST_SETTINGS - 1;
    refusal = mask_settings_enter(ALL(entered), ALL(settings), T, T, 1).refusal;
}

static void settings_ask(void)
{
    refusal = mask_settings_ask(ALL(entered), ALL(settings), MASK_MOST_SETTINGS).refusal;
}

/* The most that a record holds, with the first vertices and slices; none of the latter meet. */
static void record_write(void)
{
    size_t at[4 * RECORD_SLICES];
    for (size_t i = 0; i < RECORD_SLICES; i++) {
        at[4 * i] = 1 + i % 2;
        at[4 * i + 1] = 1;
        at[4 * i + 2] = i;
        at[4 * i + 3] = RECORD_VC;
    }
    refusal = mask_record_write(2, outline, 3 * RECORD_VC, RECORD_VC, 0, outline, 3 * RECORD_VC,
                                RECORD_VC, 0, ALL(at), slice, 6 * RECORD_SLICES, slice_edition,
                                RECORD_SLICES, RECORD_SLICES, 0, RECORD_SLICES, RECORD_SLICES,
                                MASK_SELECTOR_NOT_XOR, 1, T, ALL(bytes))
                  .refusal;
}

static void record_replay(void)
{
    refusal = mask_record_replay(ALL(bytes), ALL(room), ALL(ends), ALL(chain), ALL(chain_ends),
                                 ALL(chain_how))
                  .refusal;
}

static void straight_winding(void)
{
    refusal = mask_straight_winding(ALL(points), VC, 7, 7).refusal;
}

static void straight_area(void) { refusal = mask_straight_area(ALL(points), VC).refusal; }

static void straight_report(void)
{
    refusal = mask_straight_report(ALL(many), ALL(many_ends), OUTLINES).refusal;
}

static void straight_slices(void)
{
    refusal = mask_straight_slices(MASK_MODE_UNION, 0, ALL(whole_outline), VC, 0, ALL(whole_outline), VC,
                                   0, ALL(hit_at), ALL(whole_hit), HITS, ALL(lap_at), ALL(lap),
                                   ALL(lap_edition), LAPS, T, T, ALL(slice_at), ALL(slice),
                                   ALL(slice_edition))
                  .refusal;
}

static void store_put(void)
{
    static const size_t put_at[] = {1, 0, 2, 3};
    static const double put[6];
    refusal = mask_store_put(ALL(held), ALL(kept_at), ALL(kept_slice), ALL(kept_edition), 1,
                             ALL(put_at), ALL(put), 1)
                  .refusal;
}

static void store_release(void)
{
    held[0] = 2; /* party 0's mark of handle 1, at place 0 */
    refusal = mask_store_release(ALL(held), ALL(kept_at), ALL(kept_slice), ALL(kept_edition), 0, 1)
                  .refusal;
}

static void store_list(void)
{
    refusal = mask_store_list(ALL(held), ALL(kept_at), ALL(kept_slice), ALL(kept_edition), 1,
                              ALL(handles), ALL(slice_at), ALL(slice), ALL(list_edition))
                  .refusal;
}

static void store_compact(void)
{
    refusal = mask_store_compact(ALL(held), ALL(kept_at), ALL(kept_slice), ALL(kept_edition), 1)
                  .refusal;
}

/* ---- The stack ---- */

enum {
    STACK = 1 << 20,
    FRAME = 256, /* what is left to the painter's own frame */
    OWN = 1024,  /* what it and the caller of an entry have themselves, its arguments among it */
    PAINT = 0xa5,
#ifdef __SANITIZE_ADDRESS__
    JUDGED = 0
#else
    JUDGED = 1
#endif
};

static char *stack;
static void (*asked)(void);
static size_t taken;

/* It paints byte by byte: a function that it called would have its frame in the paint. */
__attribute__((no_sanitize("address", "undefined"))) static void *painted(void *nothing)
{
    volatile char here = 0, *paint = stack;
    size_t height = (size_t)((uintptr_t)&here - (uintptr_t)stack), clean = 0;
    for (size_t i = 0; i < height - FRAME; i++)
        paint[i] = (char)PAINT;
    asked();
    while (clean < height - FRAME && stack[clean] == (char)PAINT)
        clean++;
    taken = height - clean;
    return nothing;
}

/* Whether a call with the largest inputs takes no more than the header says, and at least so much, which shows that the paint works. */
static void measure_from(const char *name, void (*call)(void), size_t least, size_t most)
{
    pthread_t thread;
    pthread_attr_t how;
    asked = call;
    call(); /* so that memset is found before the paint is looked at */
    if (pthread_attr_init(&how) != 0 || pthread_attr_setstack(&how, stack, STACK) != 0 ||
        pthread_create(&thread, &how, painted, NULL) != 0 || pthread_join(thread, NULL) != 0) {
        check(0, "%s: no thread", name);
        return;
    }
    if (!JUDGED)
        check(refusal == MASK_ACCEPTED, "%s: accepted on a stack of its own", name);
    else
        check(refusal == MASK_ACCEPTED && taken <= most + OWN && taken > least,
              "%s: it and its caller took no more than %zu bytes of stack; said of it alone: %zu",
              name, taken, most);
}

/* Where the header says much, a call takes more than half of it. */
static void measure(const char *name, void (*call)(void), size_t most)
{
    measure_from(name, call, most < 4096 ? 0 : most / 2, most);
}

int main(void)
{
    numbers();
    make_inputs();
    stack = pages_of(STACK);
    measure("mask_view_vertex", view_vertex, MASK_STACK_VIEW_VERTEX);
    measure("mask_view_vertices", view_vertices, MASK_STACK_VIEW_VERTICES);
    measure("mask_create", create, MASK_STACK_CREATE);
    measure("mask_create_on_single_segment", create_on_single_segment,
            MASK_STACK_CREATE_ON_SINGLE_SEGMENT);
    measure("mask_from_entire_pline", from_entire_pline, MASK_STACK_FROM_ENTIRE_PLINE);
    measure("mask_slice_span", slice_span, MASK_STACK_SLICE_SPAN);
    measure("mask_from_slice_points", from_slice_points, MASK_STACK_FROM_SLICE_POINTS);
    measure("mask_from_new_start", from_new_start, MASK_STACK_FROM_NEW_START);
    measure("mask_validate_for_source", validate_for_source, MASK_STACK_VALIDATE_FOR_SOURCE);
    measure("mask_reopen", reopen, MASK_STACK_REOPEN);
    measure("mask_unmoved", unmoved, MASK_STACK_UNMOVED);
    measure("mask_cut_order", cut_order, MASK_STACK_CUT_ORDER);
    measure("mask_stitch", stitch, MASK_STACK_STITCH); /* before the slices are written over */
    measure("mask_record_write", record_write, MASK_STACK_RECORD_WRITE);
    measure("mask_record_replay", record_replay, MASK_STACK_RECORD_REPLAY); /* of what it wrote */
    /* a right hint takes no list; a wrong one the lists of the order */
    measure_from("mask_candidates_along, a right hint", candidates_along, 0, MASK_STACK_PRUNE);
    cut_at[2]++;
    measure("mask_candidates_along, a wrong hint", candidates_along, MASK_STACK_CANDIDATES_ALONG);
    measure("mask_candidates", candidates, MASK_STACK_CANDIDATES);
    measure("mask_prune", prune, MASK_STACK_PRUNE);
    measure("mask_area_pass", area_pass, MASK_STACK_AREA_PASS);
    measure("mask_settings_enter", settings_enter, MASK_STACK_SETTINGS_ENTER);
    measure("mask_settings_ask", settings_ask, MASK_STACK_SETTINGS_ASK);
    measure("mask_straight_winding", straight_winding, MASK_STACK_STRAIGHT_WINDING);
    measure("mask_straight_area", straight_area, MASK_STACK_STRAIGHT_AREA);
    measure("mask_straight_report", straight_report, MASK_STACK_STRAIGHT_REPORT);
    measure("mask_straight_slices", straight_slices, MASK_STACK_STRAIGHT_SLICES);
    measure("mask_store_put", store_put, MASK_STACK_STORE_PUT);
    measure("mask_store_release", store_release, MASK_STACK_STORE_RELEASE);
    measure("mask_store_list", store_list, MASK_STACK_STORE_LIST);
    measure("mask_store_compact", store_compact, MASK_STACK_STORE_COMPACT);
    return finish("header_test");
}
