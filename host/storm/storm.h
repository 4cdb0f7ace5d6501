/*
 * The storm: a hostile host. It calls every entry of the archive as fast as it can with
 * good, nearly good and random input, and judges every call against a second telling of
 * documents 01 and 02. This is what its files share.
 *
 * memory.c    lists between pages that may not be touched
 * draw.c      drawn numbers, and the spoiling of good input
 * rules.c     the rules of document 01 that several entries have
 * views.c, cuts.c, stitches.c, settings.c, records.c, straight.c, store.c
 *             of each entry: a drawn call, the table of its refusals, its answer
 * faults.c    faults planted round the archive, to see that each is found
 * main.c      the storm itself, alone and on eight threads
 * stack.c     a program of its own: each entry on a stack of just what the header says
 */
#ifndef STORM_H
#define STORM_H

#define _GNU_SOURCE
#include "mask.h"

#include <math.h>
#include <stdbool.h>
#include <stdio.h>
#include <stdlib.h>
#include <string.h>

/* ---- memory.c ---- */

/* Every list that some entry takes. */
typedef enum list_name {
    OUTLINE1, OUTLINE2, HIT_AT, HIT, LAP_AT, LAP, LAP_EDITION, SPLITS,
    CUT_AT, CUT, CAND_AT1, CAND1, CAND_EDITION1, INSIDE1, CAND_AT2, CAND2, CAND_EDITION2, INSIDE2,
    PROBE, SLICE_AT, SLICE, SLICE_EDITION, ENTERED, SETTINGS, ROOM, ENDS, CHAIN, CHAIN_ENDS,
    CHAIN_HOW, AREAS, KEPT, VERTICES, BYTES, WHOLE, POINTS, POINT_ENDS, PUT_AT, PUT, HANDLES,
    LIST_AT, LIST, LIST_EDITION, HELD, HELD_AT, HELD_SLICE, HELD_EDITION,
    LISTS
} list_name;

typedef struct list {
    size_t element, most;       /* bytes of an element; elements at most */
    void *own;                  /* the host's copy, which the judge reads */
    size_t len;                 /* elements that the next call lends */
    unsigned char *open, *shut; /* the same pages twice: to be written, and only to be read */
    size_t size;                /* their bytes */
    unsigned char *want;        /* what the lent stretch is to hold after the call */
    unsigned char *at;          /* where the stretch begins in `open` */
    size_t before, stretch;     /* bytes before the list in it; bytes of it */
} list;

extern _Thread_local list L[LISTS];

void make_lists(void);
void begin_call(const char *entry);
const void *give(list_name name);  /* a list that is only read */
void *open_room(list_name name);   /* a list that is written: its old content are NaNs */
void *open_kept(list_name name);   /* a list that is read and written: its old content is `own` */
void *wanted(list_name name);      /* the list in `want` */
const void *left(list_name name);  /* the list as the call left it */
void zero_want(list_name name, size_t from, size_t to);
bool rooms_as_wanted(void);
uint64_t digest_rooms(uint64_t digest);

#define F(name) ((double *)L[name].own)
#define U(name) ((size_t *)L[name].own)
#define E(name) ((uint32_t *)L[name].own)
#define B(name) ((uint8_t *)L[name].own)
#define I(name) ((int64_t *)L[name].own)
#define LEN(name) (L[name].len)
#define READ(name) give(name), L[name].len
#define WRITE(name) open_room(name), L[name].len
#define KEEP(name) open_kept(name), L[name].len
#define WANT_F(name) ((double *)wanted(name))
#define WANT_U(name) ((size_t *)wanted(name))
#define WANT_E(name) ((uint32_t *)wanted(name))
#define WANT_B(name) ((uint8_t *)wanted(name))

/* ---- draw.c ---- */

extern _Thread_local uint64_t drawing;

uint64_t draw(void);
size_t below(size_t n);
bool rarely(size_t odds); /* one case in so many */
size_t count_to(size_t most);
double coordinate(void);
double bulge(void);
double near_to(double a, double t);
double tolerance(void);
uint32_t edition(void);

/* What of a good call can be spoiled. */
void knob_list(list_name name, size_t width);
void knob_room(list_name name, size_t need);
void knob_number(double *number);
void knob_count(size_t *count);
void knob_code(uint32_t *code);
void knob_whole(int64_t *whole);
void spoil(void);

size_t draw_outline(list_name name);
mask_point draw_point(const double *outline, size_t vc);
mask_view draw_view(const double *outline, size_t vc);
mask_split draw_split(void);
void knob_view(mask_view *view);
void knob_split(mask_split *split);
void knob_vertex(mask_vertex *vertex);
void knob_point(mask_point *point);

/* ---- rules.c ---- */

typedef struct axes {
    double x, y;
} axes;

/* Words of 64 bits, answered and expected; `say` and `expect` add one. */
void say(uint64_t word);
void say_number(double number);
void expect(uint64_t word);
void expect_number(double number);
void expect_zeros(int count);
void settle(void); /* compares all, and stops at a difference */
void differs(const char *what);
extern _Thread_local uint64_t digest;

bool long_as(size_t len, size_t width, size_t count);
bool in_range(double number);
bool all_in_range(const double *numbers, size_t count);
bool split_in_range(mask_split s);
bool vertex_in_range(mask_vertex v);
bool point_in_range(mask_point p);
bool view_in_range(const mask_view *v);
bool good_tolerance(double t);
bool agree(double ax, double ay, double bx, double by, axes t);
double distance_squared(double ax, double ay, double bx, double by);
mask_vertex vertex_at(const double *outline, size_t i);
mask_vertex vertex_of(const double *outline, size_t vc, const mask_view *view, size_t k);
mask_view view_of_slice(const size_t *at, const double *slice);

/* views.c: also used by cuts.c */
mask_view created(const double *outline, size_t vc, size_t start, mask_point end, size_t at,
                  mask_vertex updated, size_t traverse, axes t, double split_bulge);

/* cuts.c: also used by straight.c */
typedef struct cuts {
    uint32_t source;
    size_t vc, hits, laps;
    axes t;
} cuts;
void draw_cuts(cuts *c, size_t vc1, size_t vc2);

typedef struct cut {
    size_t segment, mark, arrival;
    double x, y;
} cut;
size_t ordered_cuts(const double *outline, size_t vc, uint32_t source, size_t hits, size_t laps,
                    axes t, cut *out);
size_t candidates_of(const double *outline, size_t vc, const cut *cuts, size_t count,
                     const double *splits, axes t, size_t *at, double *numbers, double *probes);
typedef struct pruned {
    size_t slices, pline2, pline1_overlapping, pline2_overlapping;
} pruned;
typedef struct side {
    const size_t *at;
    const double *numbers;
    const uint32_t *editions;
    const uint8_t *inside;
    size_t count;
} side;
pruned prune_into(uint32_t mode, uint32_t opposing, side one, side two, size_t laps,
                  size_t *slice_at, double *slice, uint32_t *slice_edition);
void say_pruned(mask_prune_answer a);
void expect_pruned(pruned p, size_t need); /* also the zeros behind the slices, up to the need */

/* stitches.c: also used by records.c */
typedef struct stitching {
    size_t vc1, vc2, slices, pline2, pline1_overlapping, pline2_overlapping;
    uint32_t edition1, edition2, selector;
    axes t;
} stitching;
typedef struct stitched {
    size_t rounds, loops, chains;
} stitched;
void draw_stitch(stitching *s, size_t most_vertices, size_t most_slices);
size_t stitch_need(const stitching *s);
void stitch_rooms(const stitching *s);
bool unknown_code(const stitching *s);     /* 3 */
uint32_t late_refusal(const stitching *s); /* 6 7 8 14, or none */
stitched stitch_into(const stitching *s); /* writes what is wanted */
void demand_three(const stitching *s, uint64_t rounds, uint64_t loops, uint64_t chains);

/* ---- the entries: each draws a call, makes it, and judges it ---- */

typedef void storm_entry(void);
storm_entry storm_view_vertex, storm_view_vertices, storm_create, storm_single, storm_entire,
    storm_span, storm_slice_points, storm_new_start, storm_validate, storm_reopen, storm_unmoved,
    storm_cut_order, storm_candidates, storm_candidates_along, storm_prune, storm_stitch, storm_area_pass,
    storm_settings_enter, storm_settings_ask, storm_record_write, storm_record_replay,
    storm_winding, storm_area, storm_report, storm_straight_slices, storm_put, storm_release,
    storm_list, storm_compact;

void begin_store(void); /* an empty store, or any content */
void begin_settings(void);

/* What is true of this call, for a difference that is found. */
extern _Thread_local const char *entry_now;
extern _Thread_local uint64_t seed_now, call_now;
extern _Thread_local uint32_t refusal_now; /* what the last call answered */

/* faults.c, in the program that has it */
extern uint32_t fault_now;
extern const char *const FAULTS[];

#endif
