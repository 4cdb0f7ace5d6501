/*
 * Faults planted round the archive: the linker hands every call of an entry to a wrapper
 * here, which makes it and then does one thing wrong. One fault at a time; a storm that
 * does not find it is no judge of it. Fault 0 is none: then the wrappers change nothing.
 */
#include "storm.h"

uint32_t fault_now;

#define FAULT(number) (fault_now == (number))

/* What each does, for the list. */
const char *const FAULTS[] = {
    "none",
    "view_vertex: a bulge of -0 becomes +0",
    "view_vertex: the last vertex is not found",
    "view_vertices: one number beyond the need is written",
    "view_vertices: a refused call writes its first number",
    "view_vertices: a list that is only read is written",
    "view_vertices: one number beyond the outline is read",
    "view_vertices: one number before the outline is read",
    "view_vertices: NaNs in lent room become quiet ones on a refusal",
    "create: points agree at exactly the tolerance too",
    "create: number 7 comes before 6",
    "create_on_single_segment: a view although both ends agree",
    "from_entire_pline: an open outline reads as closed",
    "slice_span: equal distances do not wrap",
    "slice_span: moved is never told",
    "from_slice_points: number 15 is not given",
    "from_new_start: a refusal leaves a field",
    "validate_for_source: 14 is not given on a short outline",
    "validate_for_source: the verdict offset does not tell the length",
    "reopen: the new edition whatever the verdict",
    "unmoved: the first vertex that differs is one further",
    "cut_order: two cuts at the same distance are exchanged",
    "cut_order: a mark is lost",
    "candidates: the last edition is 0",
    "candidates: no zeros behind the candidates",
    "prune: the overlaps for 1 are not inverted",
    "prune: a start is one too low",
    "stitch: one round too many is told",
    "stitch: two slices of a chain are exchanged",
    "stitch: the last bit of a vertex",
    "stitch: the zeros behind the loops are not written",
    "stitch: a number beyond the need is written",
    "stitch: 9 comes before 14",
    "area_pass: an area of exactly the limit is dropped",
    "settings_enter: the setting before is overwritten",
    "settings_enter: a refused entry counts",
    "settings_ask: the edition before",
    "record_write: a byte of the selector",
    "record_write: one byte beyond the record is written",
    "record_replay: version 2 is told as version 1",
    "record_replay: 12 comes before 11",
    "straight_winding: the sign",
    "straight_area: zero is negative",
    "straight_report: the high word is lost",
    "straight_slices: an edition of the other outline",
    "straight_slices: 18 comes before 5",
    "store_put: the handle after the lowest",
    "store_put: a byte of the other party's half",
    "store_release: a dead handle is released",
    "store_list: two slices are exchanged",
    "store_list: a byte of the store",
    "store_compact: a byte behind the live slices",
    "straight_area: the high word is lost",
    "straight_winding: no more than 1 is told",
    "candidates_along: the segments are taken from a hint of the right length",
    "candidates_along: a hint of another length is refused",
    "candidates_along: one number beyond the hint is read",
    NULL
};

#define REAL(type, name) type __real_mask_##name
#define WRAP(type, name) type __wrap_mask_##name

/* ---- Views ---- */

#define ARGS const double *o, size_t ol, size_t vc, mask_view v, size_t i
REAL(mask_vertex_answer, view_vertex)(ARGS);
WRAP(mask_vertex_answer, view_vertex)(ARGS);
WRAP(mask_vertex_answer, view_vertex)(ARGS)
{
    mask_vertex_answer a = __real_mask_view_vertex(o, ol, vc, v, i);
    if (FAULT(1) && a.vertex.bulge == 0)
        a.vertex.bulge = 0;
    if (FAULT(2) && a.refusal == 0 && i == v.end_index_offset + 1)
        memset(&a, 0, sizeof a);
    return a;
}
#undef ARGS

#define ARGS const double *o, size_t ol, size_t vc, mask_view v, double *r, size_t rl
REAL(mask_count_answer, view_vertices)(ARGS);
WRAP(mask_count_answer, view_vertices)(ARGS);
WRAP(mask_count_answer, view_vertices)(ARGS)
{
    static volatile double seen;
    mask_count_answer a = __real_mask_view_vertices(o, ol, vc, v, r, rl);
    if (FAULT(3) && a.refusal == 0 && rl > 3 * a.count)
        r[3 * a.count] = 0;
    if (FAULT(4) && a.refusal == 9 && rl > 0)
        r[0] = v.updated_start.x;
    if (FAULT(5) && ol > 0)
        *(volatile double *)(uintptr_t)o = 0;
    if (FAULT(6) && ol > 0)
        seen = o[ol];
    if (FAULT(7) && ol > 0)
        seen = o[-1];
    if (FAULT(8) && a.refusal != 0)
        for (size_t k = 0; k < rl; k++)
            r[k] = r[k] * 1.0 + 0.0;
    (void)seen;
    return a;
}
#undef ARGS

#define ARGS \
    const double *o, size_t ol, size_t vc, size_t s, mask_point e, size_t at, mask_vertex u, \
        size_t n, double tx, double ty, mask_split p
REAL(mask_view_answer, create)(ARGS);
WRAP(mask_view_answer, create)(ARGS);
WRAP(mask_view_answer, create)(ARGS)
{
    if (FAULT(9) && tx > 0 && tx < 1)
        tx = nextafter(tx, 1);
    mask_view_answer a = __real_mask_create(o, ol, vc, s, e, at, u, n, tx, ty, p);
    if (FAULT(10) && a.refusal == 6 && (n == 0 || n > vc))
        a.refusal = 7;
    return a;
}
#undef ARGS

#define ARGS \
    const double *o, size_t ol, size_t vc, size_t s, mask_vertex u, mask_point e, double tx, double ty
REAL(mask_view_answer, create_on_single_segment)(ARGS);
WRAP(mask_view_answer, create_on_single_segment)(ARGS);
WRAP(mask_view_answer, create_on_single_segment)(ARGS)
{
    mask_view_answer a = __real_mask_create_on_single_segment(o, ol, vc, s, u, e, tx, ty);
    if (FAULT(11) && a.refusal == 0 && a.found == 0)
        a = (mask_view_answer){0, 1, {s, 0, u, u.bulge, e, 0}};
    return a;
}
#undef ARGS

#define ARGS const double *o, size_t ol, size_t vc, uint32_t c
REAL(mask_view_answer, from_entire_pline)(ARGS);
WRAP(mask_view_answer, from_entire_pline)(ARGS);
WRAP(mask_view_answer, from_entire_pline)(ARGS)
{
    return __real_mask_from_entire_pline(o, ol, vc, FAULT(12) && c == 0 ? 1 : c);
}
#undef ARGS

#define ARGS \
    const double *o, size_t ol, size_t vc, uint32_t c, size_t s, mask_point p, size_t e, \
        mask_point q, double tx, double ty
REAL(mask_span_answer, slice_span)(ARGS);
WRAP(mask_span_answer, slice_span)(ARGS);
WRAP(mask_span_answer, slice_span)(ARGS)
{
    mask_span_answer a = __real_mask_slice_span(o, ol, vc, c, s, p, e, q, tx, ty);
    if (FAULT(13) && a.refusal == 0 && a.traverse_count == vc) {
        double dx = o[3 * a.start_index], dy = o[3 * a.start_index + 1];
        if (distance_squared(dx, dy, p.x, p.y) == distance_squared(dx, dy, q.x, q.y))
            a.traverse_count = 0;
    }
    if (FAULT(14))
        a.moved = 0;
    return a;
}
#undef ARGS

#define ARGS \
    const double *o, size_t ol, size_t vc, uint32_t c, size_t s, mask_point p, size_t e, \
        mask_point q, double tx, double ty, mask_split sp, mask_split ep
REAL(mask_view_answer, from_slice_points)(ARGS);
WRAP(mask_view_answer, from_slice_points)(ARGS);
WRAP(mask_view_answer, from_slice_points)(ARGS)
{
    mask_view_answer a = __real_mask_from_slice_points(o, ol, vc, c, s, p, e, q, tx, ty, sp, ep);
    if (FAULT(15) && a.refusal == 15)
        a.refusal = 0;
    return a;
}
#undef ARGS

#define ARGS \
    const double *o, size_t ol, size_t vc, uint32_t c, size_t s, mask_point p, double tx, \
        double ty, mask_split sp, mask_split ep
REAL(mask_view_answer, from_new_start)(ARGS);
WRAP(mask_view_answer, from_new_start)(ARGS);
WRAP(mask_view_answer, from_new_start)(ARGS)
{
    mask_view_answer a = __real_mask_from_new_start(o, ol, vc, c, s, p, tx, ty, sp, ep);
    if (FAULT(16) && a.refusal == 6)
        a.view.start_index = s;
    return a;
}
#undef ARGS

/* ---- Verdicts ---- */

#define ARGS \
    const double *o, size_t ol, size_t vc, uint32_t ed, mask_view v, uint32_t ved, uint32_t so, \
        uint32_t eo
REAL(mask_verdict_answer, validate_for_source)(ARGS);
WRAP(mask_verdict_answer, validate_for_source)(ARGS);
WRAP(mask_verdict_answer, validate_for_source)(ARGS)
{
    mask_verdict_answer a = __real_mask_validate_for_source(o, ol, vc, ed, v, ved, so, eo);
    if (FAULT(17) && a.refusal == 14 && vc < 2)
        a.refusal = 0, a.verdict = 1;
    if (FAULT(18) && a.verdict == 2)
        a.source_length = 0;
    return a;
}

REAL(mask_reopen_answer, reopen)(ARGS);
WRAP(mask_reopen_answer, reopen)(ARGS);
WRAP(mask_reopen_answer, reopen)(ARGS)
{
    mask_reopen_answer a = __real_mask_reopen(o, ol, vc, ed, v, ved, so, eo);
    if (FAULT(19) && a.refusal == 0)
        a.edition = ed;
    return a;
}
#undef ARGS

#define ARGS const double *o, size_t ol, size_t vc, const double *p, size_t pl, size_t pc, mask_view v
REAL(mask_unmoved_answer, unmoved)(ARGS);
WRAP(mask_unmoved_answer, unmoved)(ARGS);
WRAP(mask_unmoved_answer, unmoved)(ARGS)
{
    mask_unmoved_answer a = __real_mask_unmoved(o, ol, vc, p, pl, pc, v);
    if (FAULT(20) && a.first > 0)
        a.first++;
    return a;
}
#undef ARGS

/* ---- Cuts ---- */

#define ARGS \
    const double *o, size_t ol, size_t vc, uint32_t s, const size_t *ha, size_t hal, \
        const double *h, size_t hl, size_t hits, const size_t *la, size_t lal, const double *l, \
        size_t ll, size_t laps, double tx, double ty, size_t *ca, size_t cal, double *c, size_t cl
REAL(mask_count_answer, cut_order)(ARGS);
WRAP(mask_count_answer, cut_order)(ARGS);
WRAP(mask_count_answer, cut_order)(ARGS)
{
    mask_count_answer a = __real_mask_cut_order(o, ol, vc, s, ha, hal, h, hl, hits, la, lal, l, ll,
                                                laps, tx, ty, ca, cal, c, cl);
    for (size_t i = 0; FAULT(21) && i + 1 < a.count; i++)
        if (ca[3 * i] == ca[3 * i + 3] && memcmp(c + 2 * i, c + 2 * i + 2, 16) == 0 &&
            ca[3 * i + 1] == ca[3 * i + 4]) {
            size_t arrival = ca[3 * i + 2];
            ca[3 * i + 2] = ca[3 * i + 5];
            ca[3 * i + 5] = arrival;
        }
    if (FAULT(22) && a.count > 2)
        ca[3 * a.count - 2] = 0;
    return a;
}
#undef ARGS

#define ARGS \
    const double *o, size_t ol, size_t vc, uint32_t ed, uint32_t s, const size_t *ha, size_t hal, \
        const double *h, size_t hl, size_t hits, const size_t *la, size_t lal, const double *l, \
        size_t ll, size_t laps, const double *sp, size_t spl, double tx, double ty, size_t *ca, \
        size_t cal, double *c, size_t cl, double *p, size_t pl, uint32_t *ce, size_t cel
REAL(mask_count_answer, candidates)(ARGS);
WRAP(mask_count_answer, candidates)(ARGS);
WRAP(mask_count_answer, candidates)(ARGS)
{
    mask_count_answer a =
        __real_mask_candidates(o, ol, vc, ed, s, ha, hal, h, hl, hits, la, lal, l, ll, laps, sp, spl,
                               tx, ty, ca, cal, c, cl, p, pl, ce, cel);
    if (FAULT(23) && a.count > 0)
        ce[a.count - 1] = 0;
    if (FAULT(24) && a.refusal == 0 && a.count < hits + 2 * laps)
        c[6 * a.count] = 0.5;
    return a;
}
#undef ARGS

#define ARGS \
    const double *o, size_t ol, size_t vc, uint32_t ed, uint32_t s, const size_t *ha, size_t hal, \
        const double *h, size_t hl, size_t hits, const size_t *la, size_t lal, const double *l, \
        size_t ll, size_t laps, const size_t *cu, size_t cul, const double *sp, size_t spl, \
        double tx, double ty, size_t *ca, size_t cal, double *c, size_t cl, double *p, size_t pl, \
        uint32_t *ce, size_t cel
REAL(mask_count_answer, candidates_along)(ARGS);
WRAP(mask_count_answer, candidates_along)(ARGS);
WRAP(mask_count_answer, candidates_along)(ARGS)
{
    static volatile size_t seen;
    mask_count_answer a =
        __real_mask_candidates_along(o, ol, vc, ed, s, ha, hal, h, hl, hits, la, lal, l, ll, laps, cu,
                                     cul, sp, spl, tx, ty, ca, cal, c, cl, p, pl, ce, cel);
    size_t cuts = hits + 2 * laps;
    if (FAULT(54) && a.refusal == 0 && cul == 3 * cuts && a.count == cuts)
        for (size_t i = 0; i < cuts; i++)
            ca[2 * i] = cu[3 * i];
    if (FAULT(55) && a.refusal == 0 && cul != 3 * cuts)
        a = (mask_count_answer){1, 0};
    if (FAULT(56) && cul > 0)
        seen = cu[cul];
    (void)seen;
    return a;
}
#undef ARGS

#define ARGS \
    uint32_t m, uint32_t op, size_t vc, size_t wc, const size_t *aa, size_t aal, const double *an, \
        size_t anl, const uint32_t *ae, size_t ael, const uint8_t *ai, size_t ail, size_t ac, \
        const size_t *ba, size_t bal, const double *bn, size_t bnl, const uint32_t *be, \
        size_t bel, const uint8_t *bi, size_t bil, size_t bc, const size_t *la, size_t lal, \
        const double *l, size_t ll, const uint32_t *le, size_t lel, size_t laps, size_t *sa, \
        size_t sal, double *sn, size_t snl, uint32_t *se, size_t sel
REAL(mask_prune_answer, prune)(ARGS);
WRAP(mask_prune_answer, prune)(ARGS);
WRAP(mask_prune_answer, prune)(ARGS)
{
    mask_prune_answer a = __real_mask_prune(m, op, vc, wc, aa, aal, an, anl, ae, ael, ai, ail, ac, ba,
                                            bal, bn, bnl, be, bel, bi, bil, bc, la, lal, l, ll, le,
                                            lel, laps, sa, sal, sn, snl, se, sel);
    if (FAULT(25) && a.refusal == 0 && laps > 0)
        sa[4 * a.starts.pline1_overlapping + 1] = 0;
    if (FAULT(26) && a.starts.pline2 > 0)
        a.starts.pline2--;
    return a;
}
#undef ARGS

/* ---- Stitch and area pass ---- */

#define ARGS \
    const double *o, size_t ol, size_t vc, uint32_t ed, const double *p, size_t pl, size_t pc, \
        uint32_t pe, const size_t *sa, size_t sal, const double *s, size_t sl, \
        const uint32_t *se, size_t sel, size_t n, size_t p2, size_t o1, size_t o2, uint32_t which, \
        const size_t *en, size_t enl, const double *st, size_t stl, size_t setting, double *r, \
        size_t rl, size_t *e, size_t el, size_t *c, size_t cl, size_t *ce, size_t cel, size_t *ch, \
        size_t chl
REAL(mask_stitch_answer, stitch)(ARGS);
WRAP(mask_stitch_answer, stitch)(ARGS);
WRAP(mask_stitch_answer, stitch)(ARGS)
{
    mask_stitch_answer a =
        __real_mask_stitch(o, ol, vc, ed, p, pl, pc, pe, sa, sal, s, sl, se, sel, n, p2, o1, o2, which,
                           en, enl, st, stl, setting, r, rl, e, el, c, cl, ce, cel, ch, chl);
    size_t need = n == 0 ? 0 : 1, used = a.loops > 0 ? e[a.loops - 1] : 0;
    for (size_t i = 0; a.refusal == 0 && i < n; i++)
        need += sa[4 * i + 3] + 1;
    if (FAULT(27) && a.refusal == 0)
        a.rounds++;
    if (FAULT(28) && a.chains > 0 && ce[0] > 2) {
        size_t swap = c[1];
        c[1] = c[2];
        c[2] = swap;
    }
    if (FAULT(29) && used > 0) {
        uint64_t word;
        memcpy(&word, r + 3 * used - 3, 8);
        word ^= 1;
        memcpy(r + 3 * used - 3, &word, 8);
    }
    if (FAULT(30) && a.refusal == 0 && used < need)
        r[3 * need - 1] = -0.0;
    if (FAULT(31) && a.refusal == 0 && rl > 3 * need)
        r[3 * need] = 0;
    if (FAULT(32) && a.refusal == 14 && el < n)
        a.refusal = 9;
    return a;
}
#undef ARGS

#define ARGS \
    const double *ar, size_t al, size_t n, const size_t *en, size_t enl, const double *st, \
        size_t stl, size_t setting, size_t *k, size_t kl
REAL(mask_count_answer, area_pass)(ARGS);
WRAP(mask_count_answer, area_pass)(ARGS);
WRAP(mask_count_answer, area_pass)(ARGS)
{
    mask_count_answer a = __real_mask_area_pass(ar, al, n, en, enl, st, stl, setting, k, kl);
    if (FAULT(33) && a.count > 0 && fabs(ar[k[a.count - 1]]) == st[3 * setting - 1])
        k[--a.count] = 0;
    return a;
}
#undef ARGS

/* ---- Settings ---- */

#define ARGS \
    size_t *en, size_t enl, double *st, size_t stl, double tx, double ty, double limit
REAL(mask_edition_answer, settings_enter)(ARGS);
WRAP(mask_edition_answer, settings_enter)(ARGS);
WRAP(mask_edition_answer, settings_enter)(ARGS)
{
    mask_edition_answer a = __real_mask_settings_enter(en, enl, st, stl, tx, ty, limit);
    if (FAULT(34) && a.edition > 1)
        st[3 * (a.edition - 2)] = tx;
    if (FAULT(35) && a.refusal == 4)
        en[0]++;
    return a;
}
#undef ARGS

#define ARGS const size_t *en, size_t enl, const double *st, size_t stl, size_t edition
REAL(mask_setting_answer, settings_ask)(ARGS);
WRAP(mask_setting_answer, settings_ask)(ARGS);
WRAP(mask_setting_answer, settings_ask)(ARGS)
{
    return __real_mask_settings_ask(en, enl, st, stl, FAULT(36) && edition > 1 ? edition - 1 : edition);
}
#undef ARGS

/* ---- Records ---- */

#define ARGS \
    uint32_t version, const double *o, size_t ol, size_t vc, uint32_t ed, const double *p, \
        size_t pl, size_t pc, uint32_t pe, const size_t *sa, size_t sal, const double *s, \
        size_t sl, const uint32_t *se, size_t sel, size_t n, size_t p2, size_t o1, size_t o2, \
        uint32_t which, double tx, double ty, uint8_t *b, size_t bl
REAL(mask_count_answer, record_write)(ARGS);
WRAP(mask_count_answer, record_write)(ARGS);
WRAP(mask_count_answer, record_write)(ARGS)
{
    mask_count_answer a = __real_mask_record_write(version, o, ol, vc, ed, p, pl, pc, pe, sa, sal, s,
                                                   sl, se, sel, n, p2, o1, o2, which, tx, ty, b, bl);
    if (FAULT(37) && a.refusal == 0)
        b[9] ^= 1;
    if (FAULT(38) && a.refusal == 0 && bl > a.count)
        b[a.count] = 0;
    return a;
}
#undef ARGS

#define ARGS \
    const uint8_t *b, size_t bl, double *r, size_t rl, size_t *e, size_t el, size_t *c, size_t cl, \
        size_t *ce, size_t cel, size_t *ch, size_t chl
REAL(mask_replay_answer, record_replay)(ARGS);
WRAP(mask_replay_answer, record_replay)(ARGS);
WRAP(mask_replay_answer, record_replay)(ARGS)
{
    mask_replay_answer a = __real_mask_record_replay(b, bl, r, rl, e, el, c, cl, ce, cel, ch, chl);
    if (FAULT(39) && a.version == 2)
        a.version = 1;
    if (FAULT(40) && a.refusal == 11 && bl >= 5 && (b[4] != 0 || b[3] > 2))
        a.refusal = 12;
    return a;
}
#undef ARGS

/* ---- Straight masks ---- */

REAL(mask_winding_answer, straight_winding)(const int64_t *, size_t, size_t, int64_t, int64_t);
WRAP(mask_winding_answer, straight_winding)(const int64_t *, size_t, size_t, int64_t, int64_t);
WRAP(mask_winding_answer, straight_winding)(const int64_t *o, size_t ol, size_t vc, int64_t x, int64_t y)
{
    mask_winding_answer a = __real_mask_straight_winding(o, ol, vc, x, y);
    if (FAULT(41))
        a.winding = -a.winding;
    if (FAULT(53) && a.winding > 1)
        a.winding = 1;
    return a;
}

REAL(mask_area_answer, straight_area)(const int64_t *, size_t, size_t);
WRAP(mask_area_answer, straight_area)(const int64_t *, size_t, size_t);
WRAP(mask_area_answer, straight_area)(const int64_t *o, size_t ol, size_t vc)
{
    mask_area_answer a = __real_mask_straight_area(o, ol, vc);
    if (FAULT(42) && a.refusal == 0 && a.high == 0 && a.low == 0)
        a.negative = 1;
    if (FAULT(52))
        a.high = 0;
    return a;
}

REAL(mask_report_answer, straight_report)(const int64_t *, size_t, const size_t *, size_t, size_t);
WRAP(mask_report_answer, straight_report)(const int64_t *, size_t, const size_t *, size_t, size_t);
WRAP(mask_report_answer, straight_report)(const int64_t *p, size_t pl, const size_t *e, size_t el, size_t n)
{
    mask_report_answer a = __real_mask_straight_report(p, pl, e, el, n);
    if (FAULT(43))
        a.high = 0;
    return a;
}

#define ARGS \
    uint32_t m, uint32_t op, const double *o, size_t ol, size_t vc, uint32_t ed, const double *p, \
        size_t pl, size_t pc, uint32_t pe, const size_t *ha, size_t hal, const double *h, \
        size_t hl, size_t hits, const size_t *la, size_t lal, const double *l, size_t ll, \
        const uint32_t *le, size_t lel, size_t laps, double tx, double ty, size_t *sa, size_t sal, \
        double *sn, size_t snl, uint32_t *se, size_t sel
REAL(mask_prune_answer, straight_slices)(ARGS);
WRAP(mask_prune_answer, straight_slices)(ARGS);
WRAP(mask_prune_answer, straight_slices)(ARGS)
{
    mask_prune_answer a = __real_mask_straight_slices(m, op, o, ol, vc, ed, p, pl, pc, pe, ha, hal, h,
                                                      hl, hits, la, lal, l, ll, le, lel, laps, tx, ty,
                                                      sa, sal, sn, snl, se, sel);
    if (FAULT(44) && a.starts.pline2 > 0)
        se[0] = pe;
    if (FAULT(45) && a.refusal == 5 && ol > 2 && o[2] != 0)
        a.refusal = 18;
    return a;
}
#undef ARGS

/* ---- The store ---- */

#define STORE_ARGS \
    size_t *h, size_t hl, size_t *sa, size_t sal, double *s, size_t sl, uint32_t *se, size_t sel, \
        uint32_t party
#define READ_ARGS \
    const size_t *h, size_t hl, const size_t *sa, size_t sal, const double *s, size_t sl, \
        const uint32_t *se, size_t sel, uint32_t party

#define ARGS STORE_ARGS, const size_t *pa, size_t pal, const double *p, size_t pl, uint32_t pe
REAL(mask_handle_answer, store_put)(ARGS);
WRAP(mask_handle_answer, store_put)(ARGS);
WRAP(mask_handle_answer, store_put)(ARGS)
{
    mask_handle_answer a =
        __real_mask_store_put(h, hl, sa, sal, s, sl, se, sel, party, pa, pal, p, pl, pe);
    if (FAULT(46) && a.handle > 0)
        a.handle++;
    if (FAULT(47) && a.refusal == 0)
        se[party == 0 ? 900 : 5] ^= 1;
    return a;
}
#undef ARGS

#define ARGS \
    size_t *h, size_t hl, const size_t *sa, size_t sal, const double *s, size_t sl, \
        const uint32_t *se, size_t sel, uint32_t party, size_t handle
REAL(mask_done_answer, store_release)(ARGS);
WRAP(mask_done_answer, store_release)(ARGS);
WRAP(mask_done_answer, store_release)(ARGS)
{
    mask_done_answer a = __real_mask_store_release(h, hl, sa, sal, s, sl, se, sel, party, handle);
    if (FAULT(48) && a.refusal == 21)
        a.refusal = 0;
    return a;
}
#undef ARGS

#define ARGS \
    READ_ARGS, size_t *hs, size_t hsl, size_t *la, size_t lal, double *l, size_t ll, uint32_t *le, \
        size_t lel
REAL(mask_count_answer, store_list)(ARGS);
WRAP(mask_count_answer, store_list)(ARGS);
WRAP(mask_count_answer, store_list)(ARGS)
{
    mask_count_answer a =
        __real_mask_store_list(h, hl, sa, sal, s, sl, se, sel, party, hs, hsl, la, lal, l, ll, le, lel);
    if (FAULT(49) && a.count > 1) {
        size_t swap = hs[0];
        hs[0] = hs[1];
        hs[1] = swap;
    }
    if (FAULT(50) && a.refusal == 0)
        ((uint32_t *)(uintptr_t)se)[sel - 1] ^= 1;
    return a;
}
#undef ARGS

REAL(mask_done_answer, store_compact)(STORE_ARGS);
WRAP(mask_done_answer, store_compact)(STORE_ARGS);
WRAP(mask_done_answer, store_compact)(STORE_ARGS)
{
    mask_done_answer a = __real_mask_store_compact(h, hl, sa, sal, s, sl, se, sel, party);
    if (FAULT(51) && a.refusal == 0)
        se[party == 0 ? 895 : 1791] = 1;
    return a;
}
