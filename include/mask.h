/*
 * Solofanju: proved mask tools. The C header of the archive libmask.a.
 *
 * A mask is a closed outline of vertices. A vertex has a position and a bulge:
 * 0 for a straight segment, else an arc. All numbers are IEEE 754 binary64, but for
 * the masks without arcs at the end, which are in whole microdegrees.
 *
 * Every entry answers a struct by value. Its first field is the refusal: 0 where
 * the call is accepted, else the first of `mask_refusal`, in the order there, that
 * applies. On a refusal every other field is 0, and nothing lent is written.
 *
 * A list is lent as a pointer and a length. The length counts elements. A length
 * of 0 allows any pointer, also NULL. The caller answers for the length being
 * true: the library reads that many elements.
 *
 * An outline has three numbers to a vertex: x, y, bulge. `vc` is the count of
 * vertices.
 *
 * Positions are compared with two tolerances, `tolerance_x` for x and `tolerance_y` for y,
 * each above 0 and at most 1. Two points agree where they differ by less than that, on
 * each axis. Where one tolerance is enough, give it twice.
 *
 * An outline has an edition, a number of 32 bits. The host gives it, and gives another
 * one whenever it changes the outline; 0 is one like any other. What is cut from an
 * outline keeps its edition: `mask_candidates` writes it beside each candidate, the host
 * keeps that of outline 2 beside each overlap from when it found the overlap, and
 * `mask_prune` copies both to the slices. `mask_stitch` and `mask_validate_for_source`
 * compare it with the outline's and refuse where it differs. So vertex numbers of an old
 * outline are not read on a new one. `mask_reopen` and `mask_unmoved` are for slices whose
 * outline has changed since they were cut.
 *
 * A list that is not const is room for the answer. Its need is stated beside the
 * entry. Where the call is accepted, the items are written from its start on, then
 * 0 up to the need. What lies beyond the need is left as it was. No two lists of a
 * call may share memory where one of them is written. Two things are read and written in
 * place: the record of settings and the store. Their entries say what is written there.
 *
 * Calls share no state. The library has no variables, keeps nothing from one call to the
 * next (a store is the host's own memory), allocates nothing, and calls nothing but memset
 * and memcpy of the C library. So any number of threads may call it at the same time, each
 * with room of its own; lists that are only read may be shared.
 *
 * The entries stand in the order of the work: views, the verdict and reopening; cut order,
 * candidates, pruning, stitch and area pass, each of which takes what the one before it
 * gives; then settings by edition; then records of stitches; then slices kept between runs;
 * then masks without arcs.
 */
#ifndef MASK_H
#define MASK_H

#include <stddef.h>
#include <stdint.h>

#ifdef __cplusplus
extern "C" {
#endif

/* This library's version. */
#define MASK_VERSION "0.7.4"
#define MASK_VERSION_MAJOR 0
#define MASK_VERSION_MINOR 7
#define MASK_VERSION_PATCH 4

/* Widths: how many elements an item of a list has. */
#define MASK_WIDTH_OUTLINE 3  /* a vertex: x, y, bulge; also in `vertices` and `room` */
#define MASK_WIDTH_HIT_AT 2   /* a basic intersection */
#define MASK_WIDTH_HIT 2      /* its point */
#define MASK_WIDTH_LAP_AT 7   /* a joined overlap */
#define MASK_WIDTH_LAP 6      /* its view */
#define MASK_WIDTH_CUT_AT 3   /* a cut */
#define MASK_WIDTH_CUT 2      /* its point */
#define MASK_WIDTH_SPLITS 9   /* the splits at a cut */
#define MASK_WIDTH_CAND_AT 2  /* a candidate */
#define MASK_WIDTH_CAND 6     /* its view */
#define MASK_WIDTH_PROBE 6    /* its two vertices to be tested */
#define MASK_WIDTH_SLICE_AT 4 /* a slice */
#define MASK_WIDTH_SLICE 6    /* its view */
#define MASK_WIDTH_SETTINGS 3 /* a setting: tolerance of x, tolerance of y, area limit */
#define MASK_WIDTH_STRAIGHT 2 /* a vertex in whole microdegrees: x, y */

/* Sizes. A call beyond them is refused. */
#define MASK_LEAST_VERTICES 2
#define MASK_MOST_VERTICES 1024           /* of an outline */
#define MASK_MOST_HITS 512                /* basic intersections */
#define MASK_MOST_LAPS 128                /* joined overlaps */
#define MASK_MOST_CUTS 768                /* hits + 2 laps, of one outline */
#define MASK_MOST_CANDIDATES 768          /* of one outline */
#define MASK_MOST_SLICES 1792             /* in a stitch */
#define MASK_MOST_LOOPS 1792              /* in an area pass */
#define MASK_MOST_SETTINGS 16             /* in a record */
#define MASK_MOST_NUMBER 1073741824.0     /* magnitude of a coordinate or a bulge: 2^30 */
#define MASK_MOST_TOLERANCE 1.0           /* of positions, on either axis; it is above 0 */
#define MASK_MOST_WHOLE 400000000         /* magnitude of a whole coordinate */
#define MASK_MOST_WHOLE_DOUBLED 800000000 /* the same of a point in doubled coordinates */
#define MASK_MOST_OUTLINES 4096           /* in a report */
#define MASK_RECORD_MOST_VERTICES 64      /* of an outline in a record of a stitch */
#define MASK_RECORD_MOST_SLICES 28        /* in a record of a stitch */
#define MASK_RECORD_MOST_BYTES 4738       /* of a record, version 2; of version 1 it is 4610 */
#define MASK_RECORD_MOST_ROOM 1821        /* vertices of `room` for a replay: 1 + 28 * 65 */
#define MASK_STORE_PLACES 1792            /* slices in a store */
#define MASK_STORE_SHARE 896              /* of them of one party */

/*
 * Stack: how many bytes a call takes at most, whatever the input; with its return address,
 * without its arguments. It was read off the machine code of the archive for x86-64, along
 * every way through each function (host/stack), rounded up, and compared with what calls
 * with the largest inputs took of a painted stack (host/c/header_test.c); such calls are also
 * made on a thread with just that (host/storm/stack.c). Not counted are memset and memcpy
 * themselves and a dynamic linker that looks for them at a first call.
 */
#define MASK_STACK_VIEW_VERTEX 512
#define MASK_STACK_VIEW_VERTICES 512
#define MASK_STACK_CREATE 512
#define MASK_STACK_CREATE_ON_SINGLE_SEGMENT 512
#define MASK_STACK_FROM_ENTIRE_PLINE 512
#define MASK_STACK_SLICE_SPAN 512
#define MASK_STACK_FROM_SLICE_POINTS 512
#define MASK_STACK_FROM_NEW_START 512
#define MASK_STACK_VALIDATE_FOR_SOURCE 512
#define MASK_STACK_REOPEN 512
#define MASK_STACK_UNMOVED 512
#define MASK_STACK_CUT_ORDER 16384
#define MASK_STACK_CANDIDATES 49152
#define MASK_STACK_CANDIDATES_ALONG 49152
#define MASK_STACK_PRUNE 1024
#define MASK_STACK_STITCH 81920
#define MASK_STACK_AREA_PASS 512
#define MASK_STACK_SETTINGS_ENTER 512
#define MASK_STACK_SETTINGS_ASK 512
#define MASK_STACK_RECORD_WRITE 10240
#define MASK_STACK_RECORD_REPLAY 98304
#define MASK_STACK_STRAIGHT_WINDING 512
#define MASK_STACK_STRAIGHT_AREA 512
#define MASK_STACK_STRAIGHT_REPORT 512
#define MASK_STACK_STRAIGHT_SLICES 65536
#define MASK_STACK_STORE_PUT 10240
#define MASK_STACK_STORE_RELEASE 10240
#define MASK_STACK_STORE_LIST 10240
#define MASK_STACK_STORE_COMPACT 53248

/*
 * Why a call is refused: the first that applies, in this order. For 1 to 9 that is the
 * lowest number. 10 is not used, and will not be: it stood for a walk or a chain that took
 * too many steps, and none can.
 */
enum mask_refusal {
    MASK_ACCEPTED = 0,
    MASK_REFUSED_MARK = 11,     /* a record has fewer than 5 bytes, or does not begin with PBR */
    MASK_REFUSED_VERSION = 12,  /* a version of the record is unknown */
    MASK_REFUSED_SIZE = 13,     /* a record is shorter than its head or too long, or has another
                                   length than its counts say */
    MASK_REFUSED_LENGTH = 1,    /* a list's length disagrees with its count, or a count is too high
                                   (slices of a record: above 28) */
    MASK_REFUSED_OUTLINE = 2,   /* fewer than 2 or more than 1024 vertices; in a record above 64 */
    MASK_REFUSED_CODE = 3,      /* an unknown mode, selector, source (1, 2) or yes/no code (0, 1) */
    MASK_REFUSED_UNKNOWN_SETTING = 16, /* no setting was entered under the edition */
    MASK_REFUSED_SETTINGS_FULL = 17, /* the record has its 16 settings */
    MASK_REFUSED_TOLERANCE = 4, /* a tolerance is not above 0 or is above 1; an area limit is below
                                   0 or not finite; for a record of version 1 two that differ */
    MASK_REFUSED_NUMBER = 5,    /* not finite, or beyond 2^30 (areas: not finite) */
    MASK_REFUSED_RANGE = 18,    /* a coordinate of a straight mask is out of range or not whole, or
                                   it has a bulge other than 0 */
    MASK_REFUSED_LOOPS = 19,    /* more than 4096 outlines in a report */
    MASK_REFUSED_INDEX = 6,     /* an index is not below the vertex count */
    MASK_REFUSED_BACKWARD = 15, /* an open outline with its start index above its end index */
    MASK_REFUSED_COUNT = 7,     /* an offset or a traverse count is out of range */
    MASK_REFUSED_STARTS = 8,    /* the starts of the classes are not in order, or past the slices */
    MASK_REFUSED_EDITION = 14,  /* a slice or a view is of another edition than its outline */
    MASK_REFUSED_ROOM = 9,      /* a list lent to be written is shorter than the need */
    MASK_REFUSED_PARTY = 22,    /* a party of the store is neither 0 nor 1 */
    MASK_REFUSED_FULL = 20,     /* the party has as many live slices as places */
    MASK_REFUSED_HANDLE = 21    /* no live slice of the party has the handle */
};

/* What `mask_validate_for_source` and `mask_reopen` found. 0 stands only beside a refusal. */
enum mask_verdict {
    MASK_VERDICT_NO_SEGMENTS = 1,          /* the outline has fewer than 2 vertices */
    MASK_VERDICT_OFFSET = 2,               /* offset, source_length */
    MASK_VERDICT_START_NOT_ON_SEGMENT = 3, /* point */
    MASK_VERDICT_END_NOT_ON_SEGMENT = 4,   /* point */
    MASK_VERDICT_END_ON_FINAL_VERTEX = 5,  /* point, vertex */
    MASK_VERDICT_BULGE_MISMATCH = 6,       /* updated_bulge, expected */
    MASK_VERDICT_VALID = 7
};

/* What the two outlines are made into. */
enum mask_mode {
    MASK_MODE_UNION = 0,
    MASK_MODE_INTERSECTION = 1,
    MASK_MODE_FIRST_MINUS_SECOND = 2,
    MASK_MODE_SECOND_MINUS_FIRST = 3
};

/* Which slice a chain goes on with, where several start at its end. */
enum mask_selector {
    MASK_SELECTOR_OR_AND = 0, /* for union and intersection */
    MASK_SELECTOR_NOT_XOR = 1 /* for the differences */
};

/* How a chain of slices ended. Only a closed one gives a loop. */
enum mask_chain_end {
    MASK_CHAIN_CLOSED = 0,
    MASK_CHAIN_TOO_SMALL = 1,    /* it closed with fewer than 3 vertices */
    MASK_CHAIN_NO_CANDIDATE = 2, /* no slice starts at its end */
    MASK_CHAIN_NOT_SELECTED = 3  /* some do, but the selector takes none of them */
};

typedef struct mask_point {
    double x;
    double y;
} mask_point;

typedef struct mask_vertex {
    double x;
    double y;
    double bulge;
} mask_vertex;

/* A part of an outline, or the whole of it, forward or inverted. */
typedef struct mask_view {
    size_t start_index;          /* the segment on which it starts */
    size_t end_index_offset;     /* how many segments further it ends; at most vc */
    mask_vertex updated_start;   /* its first vertex */
    double updated_end_bulge;    /* the bulge of its last segment */
    mask_point end_point;        /* its last point */
    uint32_t inverted_direction; /* 1 inverted, 0 forward */
} mask_view;

/* The host's split of a segment at a point. */
typedef struct mask_split {
    mask_vertex updated_start; /* the segment's start, with the bulge up to the point */
    mask_vertex split_vertex;  /* the point, with the bulge from there on */
} mask_split;

typedef struct mask_vertex_answer {
    uint32_t refusal;
    uint32_t found; /* 1, or 0 for "no vertex": then `vertex` is all +0 */
    mask_vertex vertex;
} mask_vertex_answer;

typedef struct mask_view_answer {
    uint32_t refusal;
    uint32_t found; /* 1, or 0 for no view: then `view` is all 0 */
    mask_view view;
} mask_view_answer;

/* Fields that the verdict does not name are 0. */
typedef struct mask_verdict_answer {
    uint32_t refusal;
    uint32_t verdict;
    size_t offset;
    size_t source_length;
    mask_point point;
    mask_vertex vertex;
    double updated_bulge;
    double expected;
} mask_verdict_answer;

/* The verdict, and the edition that the slice has from now on. */
typedef struct mask_reopen_answer {
    uint32_t refusal;
    uint32_t verdict;
    size_t offset;
    size_t source_length;
    mask_point point;
    mask_vertex vertex;
    double updated_bulge;
    double expected;
    uint32_t edition; /* the outline's where the verdict is valid, else the view's own */
} mask_reopen_answer;

typedef struct mask_unmoved_answer {
    uint32_t refusal;
    uint32_t unmoved; /* 1 where every vertex is the same, else 0 */
    size_t first;     /* the lowest number of a vertex that differs; 0 where none does */
} mask_unmoved_answer;

/* How many items were written. */
typedef struct mask_count_answer {
    uint32_t refusal;
    size_t count;
} mask_count_answer;

/*
 * The view's vertex number `index`. A view has offset + 2 vertices; beyond them
 * there is "no vertex". Refusals 1, 2, 3, 5, 6, 7.
 */
mask_vertex_answer mask_view_vertex(const double *outline, size_t outline_len, size_t vc,
                                    mask_view view, size_t index);

/*
 * All vertices of the view in one call, which looks at the outline once; a call of
 * `mask_view_vertex` looks at all of it for one vertex. `count` is offset + 2. Written for
 * each vertex, which is also the need:
 *   vertices  3: x, y, bulge; vertex k is what `mask_view_vertex` answers for k
 * Refusals 1, 2, 3, 5, 6, 7, 9.
 */
mask_count_answer mask_view_vertices(const double *outline, size_t outline_len, size_t vc,
                                     mask_view view, double *vertices, size_t vertices_len);

/*
 * The view that walks `traverse_count` segments on from `start_index`, to
 * `end_intersect` on segment `intersect_index`. `split` is the host's split of
 * that segment at that point. The bulge of its `updated_start` is used where the end
 * does not agree with the segment's first vertex. Refusals 1, 2, 4, 5, 6, 7.
 */
mask_view_answer mask_create(const double *outline, size_t outline_len, size_t vc,
                             size_t start_index, mask_point end_intersect, size_t intersect_index,
                             mask_vertex updated_start, size_t traverse_count,
                             double tolerance_x, double tolerance_y, mask_split split);

/*
 * The view that starts and ends on one segment. There is none where its two ends
 * agree. Refusals 1, 2, 4, 5, 6.
 */
mask_view_answer mask_create_on_single_segment(const double *outline, size_t outline_len,
                                               size_t vc, size_t start_index,
                                               mask_vertex updated_start,
                                               mask_point end_intersect, double tolerance_x,
                                               double tolerance_y);

/*
 * The view of the whole outline. `closed` is 1 for a closed outline, 0 for an
 * open one. Refusals 1, 2, 3, 5.
 */
mask_view_answer mask_from_entire_pline(const double *outline, size_t outline_len, size_t vc,
                                        uint32_t closed);

/*
 * Views that start anywhere. A point comes with the index of the segment that it is on.
 * `closed` is 1 for a closed outline, 0 for an open one, whose last index has the segment
 * that runs back to vertex 0. The host splits two segments, and `mask_slice_span` tells
 * it which:
 *   start_split  of the segment `start_index` of the span, at the start point
 *   end_split    with a traverse count of 0, of that segment from the running vertex on,
 *                at the end point: the running vertex is the start split's split vertex,
 *                or the segment's own first vertex where the start moved; else of the
 *                segment at the end index, at the end point
 * A split that is not used can be any numbers in range. `mask_from_slice_points`, and
 * `mask_from_new_start` of an open outline, do not use the start's where the start moved,
 * nor the end's where the end agrees with the first vertex of its segment and the traverse
 * count is not 0. `mask_from_new_start` of a closed outline uses the start's always, also
 * where the start moved, and the end's never.
 */
typedef struct mask_span_answer {
    uint32_t refusal;
    uint32_t moved;        /* 1 where the start stood on the end of its segment and moved on */
    size_t start_index;    /* the start's segment, after it moved */
    size_t traverse_count; /* how many segments further the end is: 0 to vc */
} mask_span_answer;

/*
 * The segment on which the view between two points starts, and how many segments further
 * it ends. On an open outline a start moves only where its index is below the end's. Where
 * both points are on one segment of a closed outline and do not agree: the view stays on
 * it where the start is nearer to its first vertex than the end, and else goes all the way
 * round.
 * Refusals 1, 2, 3, 4, 5, 6, 15.
 */
mask_span_answer mask_slice_span(const double *outline, size_t outline_len, size_t vc,
                                 uint32_t closed, size_t start_index, mask_point start_point,
                                 size_t end_index, mask_point end_point, double tolerance_x,
                                 double tolerance_y);

/*
 * The view from the start point to the end point. With a traverse count of 0 it starts with
 * the end split's `updated_start`, and there is none where that agrees with the end point.
 * With any other count it starts with the running vertex. With a count of 1 there is none
 * where that agrees with the end point, and the end point with the first vertex of its
 * segment. Refusals 1, 2, 3, 4, 5, 6, 15.
 */
mask_view_answer mask_from_slice_points(const double *outline, size_t outline_len, size_t vc,
                                        uint32_t closed, size_t start_index,
                                        mask_point start_point, size_t end_index,
                                        mask_point end_point, double tolerance_x,
                                        double tolerance_y, mask_split start_split,
                                        mask_split end_split);

/*
 * The view that starts an outline at a point of it. A closed outline is followed once
 * round, and always has one: `start_split` is of the segment `start_index` of the span from
 * the point to the point, at the point, and `end_split` is not used. An open one is followed
 * to its last vertex: this is `mask_from_slice_points` to that vertex at the last index, so
 * there is no view where the point is that vertex. Refusals 1, 2, 3, 4, 5, 6.
 */
mask_view_answer mask_from_new_start(const double *outline, size_t outline_len, size_t vc,
                                     uint32_t closed, size_t start_index,
                                     mask_point start_point, double tolerance_x, double tolerance_y,
                                     mask_split start_split, mask_split end_split);

/*
 * Whether the view, of edition `view_edition`, fits the outline, of edition `edition`. A
 * point that is near neither vertex of its segment lies on it where the host says so:
 * `start_on_segment` for the start, `end_on_segment` for the end, 1 for yes and 0 for
 * no. Refusals 1, 2 (too long only), 3, 5, 6 (outlines of 2 or more vertices only), 14
 * (on an outline that is too short too).
 */
mask_verdict_answer mask_validate_for_source(const double *outline, size_t outline_len, size_t vc,
                                             uint32_t edition, mask_view view,
                                             uint32_t view_edition, uint32_t start_on_segment,
                                             uint32_t end_on_segment);

/*
 * Reopens a slice on an outline of another edition: the same verdict, without comparing
 * editions, and the edition that the slice has from now on. Nothing else of the slice
 * changes. The verdict looks at the two ends, so "valid" does not say that the slice is
 * the piece that it was: `mask_unmoved` does. docs/REOPENING.md says what to do with
 * each. Refusals 1, 2 (too long only), 3, 5, 6 (outlines of 2 or more vertices only).
 */
mask_reopen_answer mask_reopen(const double *outline, size_t outline_len, size_t vc,
                               uint32_t edition, mask_view view, uint32_t view_edition,
                               uint32_t start_on_segment, uint32_t end_on_segment);

/*
 * Whether the view has the same vertices, bit for bit, on two outlines, the old and the
 * new. Its first and its last vertex are the view's own, so they never differ. 6 and 7
 * look at both outlines. Refusals 1, 2, 3, 5, 6, 7.
 */
mask_unmoved_answer mask_unmoved(const double *outline1, size_t outline1_len, size_t vc1,
                                 const double *outline2, size_t outline2_len, size_t vc2,
                                 mask_view view);

/*
 * The cuts of one outline. `source` says which it is, 1 or 2, and `outline` is that
 * one. The entries below take the same lists of what the two outlines share:
 *   hit_at  2 to a basic intersection: its start index on outline 1, on outline 2
 *   hit     2 to a basic intersection: its point x, y
 *   lap_at  7 to a joined overlap: start index on outline 1, on 2, end index on 1,
 *           on 2, opposing (1 or 0), its view's start, its view's offset
 *   lap     6 to a joined overlap: its view's updated start x, y, bulge, end bulge,
 *           end x, y
 * There are `hits` intersections, at most 512, and `laps` overlaps, at most 128.
 * Only the indexes of the outline that `source` names are looked at. An overlap's
 * view is of outline 2, so with source 2 its start (6) and its offset (7) are among
 * them. An intersection is one cut, an overlap two: hits + 2 laps.
 */

/*
 * The cuts in their order: by segment, then by distance from the segment's start
 * vertex, then by arrival (intersections, then start and end of each overlap).
 * `count` is the number of cuts. Written for each cut, which is also the need:
 *   cut_at  3: segment, overlap mark (1 or 0), number of arrival
 *   cut     2: its point x, y
 * Refusals 1, 2, 3, 4, 5, 6, 7, 9.
 */
mask_count_answer mask_cut_order(const double *outline, size_t outline_len, size_t vc,
                                 uint32_t source, const size_t *hit_at, size_t hit_at_len,
                                 const double *hit, size_t hit_len, size_t hits,
                                 const size_t *lap_at, size_t lap_at_len, const double *lap,
                                 size_t lap_len, size_t laps, double tolerance_x,
                                 double tolerance_y, size_t *cut_at, size_t cut_at_len,
                                 double *cut, size_t cut_len);

/*
 * The candidates of one outline: the pieces between neighbouring cuts, and the walks
 * from a segment's last cut to the next segment that has one. The order is worked
 * out again from the same lists. `splits` has 9 numbers to a cut, in that order: the
 * split of the running vertex at the cut (start part x, y, bulge; split vertex x, y,
 * bulge), and the split vertex of the whole segment at the cut, which is used at a
 * segment's last cut only. `edition` is the outline's. `count` is the number of
 * candidates, at most one for each cut. Written for each candidate; the need is that for
 * each cut:
 *   cand_at       2: start, offset
 *   cand          6: updated start x, y, bulge, end bulge, end x, y
 *   probe         6: the two vertices whose midpoint the host tests, x, y, bulge each
 *   cand_edition  1: the outline's edition
 * Refusals 1, 2, 3, 4, 5, 6, 7, 9.
 */
mask_count_answer mask_candidates(const double *outline, size_t outline_len, size_t vc,
                                  uint32_t edition, uint32_t source, const size_t *hit_at,
                                  size_t hit_at_len, const double *hit, size_t hit_len,
                                  size_t hits, const size_t *lap_at, size_t lap_at_len,
                                  const double *lap, size_t lap_len, size_t laps,
                                  const double *splits, size_t splits_len, double tolerance_x,
                                  double tolerance_y, size_t *cand_at, size_t cand_at_len,
                                  double *cand, size_t cand_len, double *probe, size_t probe_len,
                                  uint32_t *cand_edition, size_t cand_edition_len);

/*
 * The same, for a host that has asked for the order before it split. `cut_at` is the order as
 * `mask_cut_order` wrote it, 3 numbers to a cut. It is a hint: one pass looks whether it is
 * the order, and where it is not, or is of another length, the order is worked out as
 * `mask_candidates` does. So for every `cut_at` the answer, the lists and the refusals are
 * those of `mask_candidates`; with the right one it takes less time. No refusal looks at
 * `cut_at`. Refusals 1, 2, 3, 4, 5, 6, 7, 9.
 */
mask_count_answer mask_candidates_along(
    const double *outline, size_t outline_len, size_t vc, uint32_t edition, uint32_t source,
    const size_t *hit_at, size_t hit_at_len, const double *hit, size_t hit_len, size_t hits,
    const size_t *lap_at, size_t lap_at_len, const double *lap, size_t lap_len, size_t laps,
    const size_t *cut_at, size_t cut_at_len, const double *splits, size_t splits_len,
    double tolerance_x, double tolerance_y, size_t *cand_at, size_t cand_at_len, double *cand,
    size_t cand_len, double *probe, size_t probe_len, uint32_t *cand_edition,
    size_t cand_edition_len);

/*
 * Slices are parts of the two outlines, which the stitch joins end to start:
 *   slice_at       4 to a slice: source (1 or 2), inverted (1 or 0), start, offset
 *   slice          6 to a slice: updated start x, y, bulge, end bulge, end x, y
 *   slice_edition  1 to a slice: the edition of the outline that it was cut from
 * There are `slices` of them, at most 1792, in four classes one after the other: of
 * outline 1, of outline 2, overlaps for 1, overlaps for 2. Where the last three begin:
 */
typedef struct mask_starts {
    size_t pline2;
    size_t pline1_overlapping;
    size_t pline2_overlapping;
} mask_starts;

typedef struct mask_prune_answer {
    uint32_t refusal;
    size_t slices;
    mask_starts starts;
} mask_prune_answer;

/*
 * The slices that `mode`, one of `mask_mode`, keeps. `opposing` is 1 where the two
 * outlines run in opposing directions, else 0. The candidates of each outline are as
 * `mask_candidates` gives them, at most 768, and `inside` has for each of them 1 where
 * it lies inside the other outline, else 0. `lap_at` and `lap` are as above, and
 * `lap_edition` has for each overlap the edition of outline 2 when it was found. Written
 * are `slice_at`, `slice` and `slice_edition`; their need is count1 + count2 + 2 laps
 * slices. Editions are copied, whatever they are. Refusals 1, 2, 3, 5, 6, 7, 9.
 */
mask_prune_answer mask_prune(uint32_t mode, uint32_t opposing, size_t vc1, size_t vc2,
                             const size_t *cand_at1, size_t cand_at1_len, const double *cand1,
                             size_t cand1_len, const uint32_t *cand_edition1,
                             size_t cand_edition1_len, const uint8_t *inside1,
                             size_t inside1_len, size_t count1, const size_t *cand_at2,
                             size_t cand_at2_len, const double *cand2, size_t cand2_len,
                             const uint32_t *cand_edition2, size_t cand_edition2_len,
                             const uint8_t *inside2, size_t inside2_len, size_t count2,
                             const size_t *lap_at, size_t lap_at_len, const double *lap,
                             size_t lap_len, const uint32_t *lap_edition,
                             size_t lap_edition_len, size_t laps, size_t *slice_at,
                             size_t slice_at_len, double *slice, size_t slice_len,
                             uint32_t *slice_edition, size_t slice_edition_len);

typedef struct mask_stitch_answer {
    uint32_t refusal;
    size_t rounds; /* as many as slices */
    size_t loops;
    size_t chains;
} mask_stitch_answer;

/*
 * The loops that the slices make. `edition1` and `edition2` are those of the outlines;
 * each slice must have its outline's (14). The three starts are those of `mask_starts`;
 * `selector` is one of `mask_selector`. The tolerances are those of the edition `setting`
 * of the record `entered`, `settings` (settings by edition, below); number 4 looks at these
 * two and at no other number of the record. Written:
 *   room        3 to a vertex: x, y, bulge; loop after loop. Its need is 3 numbers for
 *               each of 1 + the sum of (offset + 1) vertices; 0 where there are no slices
 *   ends        1 to a loop: how many vertices all loops up to and with it have
 *   chain       1 to a slice: its number; chain after chain
 *   chain_ends  1 to a chain: how many slices all chains up to and with it have
 *   chain_how   1 to a chain: how it ended, of `mask_chain_end`
 * The need of each of the last four is one entry per slice. Refusals 1, 2, 3, 16, 4, 5, 6, 7,
 * 8, 14, 9.
 */
mask_stitch_answer mask_stitch(const double *outline1, size_t outline1_len, size_t vc1,
                               uint32_t edition1, const double *outline2, size_t outline2_len,
                               size_t vc2, uint32_t edition2, const size_t *slice_at,
                               size_t slice_at_len, const double *slice, size_t slice_len,
                               const uint32_t *slice_edition, size_t slice_edition_len,
                               size_t slices, size_t pline2, size_t pline1_overlapping,
                               size_t pline2_overlapping, uint32_t selector,
                               const size_t *entered, size_t entered_len, const double *settings,
                               size_t settings_len, size_t setting, double *room, size_t room_len,
                               size_t *ends, size_t ends_len, size_t *chain, size_t chain_len,
                               size_t *chain_ends, size_t chain_ends_len, size_t *chain_how,
                               size_t chain_how_len);

/*
 * The loops whose area, whatever its sign, is not less than the limit, by number, in
 * order. The limit is that of the edition `setting` of the record `entered`, `settings`;
 * number 4 looks at it alone. `areas` has one signed area per loop, of at most 1792.
 * `count` is how many are kept; the need of `kept` is one entry per loop. Refusals 1, 16,
 * 4, 5, 9.
 */
mask_count_answer mask_area_pass(const double *areas, size_t areas_len, size_t loops,
                                 const size_t *entered, size_t entered_len,
                                 const double *settings, size_t settings_len, size_t setting,
                                 size_t *kept, size_t kept_len);

/*
 * Settings by edition: up to 16, each with two tolerances and an area limit, in one record
 * that is extended and never overwritten. The record is two lists that the host lends and
 * keeps:
 *   entered   1: how many settings there are; a number above 16 reads as 16
 *   settings  48: of each setting the tolerance of x, the tolerance of y, the area limit
 * Other lengths are refused with 1. Zeros are the empty record, and every content is some
 * record. Editions count from 1. Numbers 16 and 17 are looked at before 4. A stitch and an
 * area pass name an edition; they only read the record.
 */

typedef struct mask_edition_answer {
    uint32_t refusal;
    size_t edition;
} mask_edition_answer;

typedef struct mask_setting_answer {
    uint32_t refusal;
    double tolerance_x;
    double tolerance_y;
    double area_limit;
} mask_setting_answer;

/*
 * Enters a setting and answers its edition. Written are the setting's three numbers and the
 * count, and no other place; on a refusal nothing. A tolerance is above 0 and at most 1, an
 * area limit from 0 to any finite number. Refusals 1, 17, 4.
 */
mask_edition_answer mask_settings_enter(size_t *entered, size_t entered_len, double *settings,
                                        size_t settings_len, double tolerance_x,
                                        double tolerance_y, double area_limit);

/*
 * The setting of an edition, exactly as it was entered. Refusals 1, 16.
 */
mask_setting_answer mask_settings_ask(const size_t *entered, size_t entered_len,
                                      const double *settings, size_t settings_len,
                                      size_t edition);

/*
 * Records of stitches. A stitch is archived as bytes, and run again from them. A record holds
 * both outlines, the slices, the selector and the tolerances: all that a stitch takes. It has
 * a version. Little endian, one field after the other:
 *   head      the letters PBR; version, 16 bits; vertices of outline 1 and of 2, 16 bits
 *             each; selector, 8 bits; the tolerance; where the last three classes of slices
 *             begin, 16 bits each; slices, 16 bits
 *   outlines  of each vertex, of outline 1 and then of 2: x, y, bulge
 *   slices    of each: source and inverted, 8 bits each; start and offset, 16 bits each;
 *             updated start x, y, bulge, end bulge, end x, y
 * Version 2 has, where the one tolerance stands, those of x and of y and then the editions of
 * outline 1 and of 2, 32 bits each; and at the end of each slice its edition, 32 bits. A record
 * of version 1 reads as equal tolerances and edition 0 throughout. Its length is, with v
 * vertices and n slices,
 *   version 1  26 + 24 v + 54 n, at most 4610 bytes
 *   version 2  42 + 24 v + 58 n, at most 4738 bytes
 * A record has at most 64 vertices to an outline (else 2) and 28 slices (else 1).
 */

/*
 * Writes the record of a stitch. The parameters are those of `mask_stitch`, with two tolerances
 * in the place of a setting; `version` is 1 or 2. `count` is the record's length, which is also
 * the need of `bytes`. Version 1 holds one tolerance and no edition: two tolerances that differ
 * are refused (4), and any editions are left out. Slices of another edition than their outline
 * are refused (14) in both versions. So every record that is written can be replayed. Refusals
 * 12, 1, 2, 3, 4, 5, 6, 7, 8, 14, 9.
 */
mask_count_answer mask_record_write(uint32_t version, const double *outline1, size_t outline1_len,
                                    size_t vc1, uint32_t edition1, const double *outline2,
                                    size_t outline2_len, size_t vc2, uint32_t edition2,
                                    const size_t *slice_at, size_t slice_at_len,
                                    const double *slice, size_t slice_len,
                                    const uint32_t *slice_edition, size_t slice_edition_len,
                                    size_t slices, size_t pline2, size_t pline1_overlapping,
                                    size_t pline2_overlapping, uint32_t selector,
                                    double tolerance_x, double tolerance_y, uint8_t *bytes,
                                    size_t bytes_len);

typedef struct mask_replay_answer {
    uint32_t refusal;
    uint32_t version; /* of the record, 1 or 2; 0 beside a refusal */
    size_t slices;
    size_t rounds; /* as many as slices */
    size_t loops;
    size_t chains;
} mask_replay_answer;

/*
 * The stitch that a record holds, run again. Any bytes may be lent. `room`, `ends`, `chain`,
 * `chain_ends` and `chain_how` are those of `mask_stitch`, and so is their need, for the stitch
 * in the record; no record needs more than MASK_RECORD_MOST_ROOM vertices in `room` and
 * MASK_RECORD_MOST_SLICES entries in the others. A pattern that is no number reads as +infinity,
 * which is refused with 4 or 5. Refusals 11, 12, 13, 1, 2, 3, 4, 5, 6, 7, 8, 14, 9.
 */
mask_replay_answer mask_record_replay(const uint8_t *bytes, size_t bytes_len, double *room,
                                      size_t room_len, size_t *ends, size_t ends_len,
                                      size_t *chain, size_t chain_len, size_t *chain_ends,
                                      size_t chain_ends_len, size_t *chain_how,
                                      size_t chain_how_len);

/*
 * Slices kept between runs. The store is four lists that the host makes, keeps, and lends
 * to every call:
 *   held           MASK_STORE_PLACES: the order of the slices, and their handles
 *   slice_at       4 to a place, as for a stitch
 *   slice          6 to a place, as for a stitch
 *   slice_edition  1 to a place: the edition of the outline that the slice was cut from
 * Two parties share it, 0 and 1. Each has MASK_STORE_SHARE places, the first half of every
 * list or the second, and handles of its own. A party sees nothing of what the other does:
 * its lists, handles and refusals are the same in any two histories that agree on its own
 * calls. A call writes nothing in the other party's half.
 *
 * All zeros is the empty store, and whatever else the lists hold is some store: no content
 * is refused. A list of another length is refused (1). The library holds nothing between
 * calls, so a host has as many stores as it makes lists, and may copy them or write them to
 * a file. Two calls on one store must not run at the same time.
 *
 * Whatever is called in whatever order, a party's half answers as a plain list would. Before
 * a host reads `slice_at` or `slice` itself it asks for the list: only `held` says which
 * places hold live slices.
 */

/* The handle of a slice that was put. */
typedef struct mask_handle_answer {
    uint32_t refusal;
    size_t handle;
} mask_handle_answer;

typedef struct mask_done_answer {
    uint32_t refusal;
} mask_done_answer;

/*
 * Puts a slice of a party: `put_at` has its 4 codes and `put` its 6 numbers. It gets the
 * lowest handle, from 0, that no live slice of the party has, and keeps it until it is
 * released. A start and an offset are not looked at: the store knows no outline. No other
 * slice is moved. Refusals 1, 3, 5, 22, 20; 3 and 5 look only at the slice that is put, and
 * 20 is given exactly where MASK_STORE_SHARE slices of the party are live.
 */
mask_handle_answer mask_store_put(size_t *held, size_t held_len, size_t *slice_at,
                                  size_t slice_at_len, double *slice, size_t slice_len,
                                  uint32_t *slice_edition, size_t slice_edition_len,
                                  uint32_t party, const size_t *put_at, size_t put_at_len,
                                  const double *put, size_t put_len, uint32_t put_edition);

/*
 * Releases the party's slice with this handle. Where there is none, nothing changes.
 * Refusals 1, 22, 21.
 */
mask_done_answer mask_store_release(size_t *held, size_t held_len, const size_t *slice_at,
                                    size_t slice_at_len, const double *slice, size_t slice_len,
                                    const uint32_t *slice_edition, size_t slice_edition_len,
                                    uint32_t party, size_t handle);

/*
 * The party's live slices, in the order put. `count` is how many they are. Written for each:
 *   handles       1: its handle
 *   list_at       4, and
 *   list          6, as `mask_stitch` takes them
 *   list_edition  1: its edition
 * The need is that for MASK_STORE_SHARE slices, however many are live. The store itself is
 * not written. Refusals 1, 9, 22.
 */
mask_count_answer mask_store_list(const size_t *held, size_t held_len, const size_t *slice_at,
                                  size_t slice_at_len, const double *slice, size_t slice_len,
                                  const uint32_t *slice_edition, size_t slice_edition_len,
                                  uint32_t party, size_t *handles, size_t handles_len,
                                  size_t *list_at, size_t list_at_len, double *list,
                                  size_t list_len, uint32_t *list_edition,
                                  size_t list_edition_len);

/*
 * Moves the party's live slices to the first places of its half, in the order put, and sets
 * all behind them in that half to 0. Neither the list nor a handle changes. So halves that
 * answer the same are then the same, bit for bit. Refusals 1, 22.
 */
mask_done_answer mask_store_compact(size_t *held, size_t held_len, size_t *slice_at,
                                    size_t slice_at_len, double *slice, size_t slice_len,
                                    uint32_t *slice_edition, size_t slice_edition_len,
                                    uint32_t party);

/*
 * Masks without arcs, in whole microdegrees. For the first three entries an outline has two
 * numbers to a vertex: x, y, each of magnitude at most 400000000. Nothing is rounded, and
 * nothing is written. The last entry takes such masks as the entries above take theirs.
 */

typedef struct mask_winding_answer {
    uint32_t refusal;
    int64_t winding; /* any number but 0 is inside */
} mask_winding_answer;

/* The doubled area is size or -size, where size is high * 2^64 + low. */
typedef struct mask_area_answer {
    uint32_t refusal;
    uint32_t negative; /* 1 where it is below 0, else 0 */
    uint64_t high;
    uint64_t low;
} mask_area_answer;

/* The total is high * 2^64 + low. */
typedef struct mask_report_answer {
    uint32_t refusal;
    size_t count; /* the outlines */
    size_t zero;  /* those of them with area zero */
    uint64_t high;
    uint64_t low;
} mask_report_answer;

/*
 * The winding number of the outline round a point. The point comes in doubled
 * coordinates, so that a midpoint is whole too: `x` and `y` are twice the point's, of
 * magnitude at most 800000000. An edge from (x1, y1) to (x2, y2) adds 1 where y1 <= y <
 * y2 and the point is strictly left of it, and takes 1 where y2 <= y < y1 and the point
 * is strictly right of it. Refusals 1, 2, 18.
 */
mask_winding_answer mask_straight_winding(const int64_t *outline, size_t outline_len, size_t vc,
                                          int64_t x, int64_t y);

/*
 * The doubled signed area of the outline, anticlockwise positive. Refusals 1, 2, 18.
 */
mask_area_answer mask_straight_area(const int64_t *outline, size_t outline_len, size_t vc);

/*
 * The report on `loops` outlines, at most 4096: how many they are, how many of them have
 * area zero, and the total of their absolute doubled areas. `points` has the vertices of
 * all outlines, one outline after the other; `ends` has for each how many vertices all
 * up to and with it have, as `mask_stitch` writes it. An end below the one before it is an
 * outline that is too short (2). With 0 outlines the call is accepted, and all fields are
 * 0. Refusals 1, 2, 18, 19. Too many outlines are 19, and not 1.
 */
mask_report_answer mask_straight_report(const int64_t *points, size_t points_len,
                                        const size_t *ends, size_t ends_len, size_t loops);

/*
 * The slices of two such masks in one call: what `mask_candidates` of outline 1,
 * `mask_candidates` of outline 2, the inside answers and `mask_prune` give in turn. The
 * host is not asked in between. The outlines, intersections and overlaps are lent as to
 * these three, so an outline has three numbers to a vertex and all are binary64; but
 * every coordinate of a vertex, of an intersection and of an overlap's two ends is whole,
 * of magnitude at most 400000000, and every bulge is 0 (-0 is 0 too).
 *   splits  the parts of a segment keep their positions and have bulge +0: the start part
 *           is the running vertex, and the split vertex is the cut, for the whole segment
 *           too
 *   inside  where `mask_straight_winding` of the other outline is not 0 at the doubled
 *           midpoint of a candidate's two vertices, which is their sum
 * Whole points agree only where they are equal, since a tolerance is at most 1: any two
 * tolerances that are accepted give the same slices.
 * Where the three accept, the answer and the slices are theirs. `mode`, `opposing`, `hits`,
 * `laps`, `lap_edition` and the tolerances are as for them; `edition1` and `edition2` are
 * the outlines'. `slices` and `starts` are as `mask_prune` answers them, and so are the
 * lists; their need is that of `mask_prune` with a candidate for each cut of each outline:
 * 2 (hits + 2 laps) + 2 laps slices. Refusals 1, 2, 3, 4, 5, 18, 6, 7, 9. 5 is given for
 * the same numbers as by the three; 18 for a number within 2^30 that is beyond 400000000
 * or not whole, and for a bulge other than 0. For masks with arcs the three remain.
 */
mask_prune_answer mask_straight_slices(uint32_t mode, uint32_t opposing, const double *outline1,
                                       size_t outline1_len, size_t vc1, uint32_t edition1,
                                       const double *outline2, size_t outline2_len, size_t vc2,
                                       uint32_t edition2, const size_t *hit_at,
                                       size_t hit_at_len, const double *hit, size_t hit_len,
                                       size_t hits, const size_t *lap_at, size_t lap_at_len,
                                       const double *lap, size_t lap_len,
                                       const uint32_t *lap_edition, size_t lap_edition_len,
                                       size_t laps, double tolerance_x, double tolerance_y,
                                       size_t *slice_at, size_t slice_at_len, double *slice,
                                       size_t slice_len, uint32_t *slice_edition,
                                       size_t slice_edition_len);

#ifdef __cplusplus
}
#endif

#endif
