/* Records of stitches, byte by byte from requests K1 and K14. */
#include "storm.h"

/* ---- Bytes, little endian ---- */

typedef struct tape {
    uint8_t *at;
} tape;

static void put_bytes(tape *t, uint64_t value, int count)
{
    for (int i = 0; i < count; i++)
        *t->at++ = (uint8_t)(value >> 8 * i);
}

static void put_number(tape *t, double number)
{
    uint64_t word;
    memcpy(&word, &number, 8);
    put_bytes(t, word, 8);
}

static uint64_t take_bytes(tape *t, int count)
{
    uint64_t value = 0;
    for (int i = 0; i < count; i++)
        value |= (uint64_t)*t->at++ << 8 * i;
    return value;
}

/* "A pattern that is no number reads as +infinity" */
static double take_number(tape *t)
{
    uint64_t word = take_bytes(t, 8);
    double number;
    memcpy(&number, &word, 8);
    return isnan(number) ? INFINITY : number;
}

static size_t record_length(uint32_t version, size_t vertices, size_t slices)
{
    return version == 1 ? 26 + 24 * vertices + 54 * slices : 42 + 24 * vertices + 58 * slices;
}

/* What stands in the host's lists, as a record. */
static size_t write_record(uint8_t *to, uint32_t version, const stitching *s)
{
    tape t = {to};
    put_bytes(&t, 'P' | 'B' << 8 | 'R' << 16, 3);
    put_bytes(&t, version, 2);
    put_bytes(&t, s->vc1, 2);
    put_bytes(&t, s->vc2, 2);
    put_bytes(&t, s->selector, 1);
    put_number(&t, s->t.x);
    if (version == 2) {
        put_number(&t, s->t.y);
        put_bytes(&t, s->edition1, 4);
        put_bytes(&t, s->edition2, 4);
    }
    put_bytes(&t, s->pline2, 2);
    put_bytes(&t, s->pline1_overlapping, 2);
    put_bytes(&t, s->pline2_overlapping, 2);
    put_bytes(&t, s->slices, 2);
    for (size_t i = 0; i < 3 * s->vc1; i++)
        put_number(&t, F(OUTLINE1)[i]);
    for (size_t i = 0; i < 3 * s->vc2; i++)
        put_number(&t, F(OUTLINE2)[i]);
    for (size_t i = 0; i < s->slices; i++) {
        const size_t *at = U(SLICE_AT) + 4 * i;
        put_bytes(&t, at[0], 1);
        put_bytes(&t, at[1], 1);
        put_bytes(&t, at[2], 2);
        put_bytes(&t, at[3], 2);
        for (int k = 0; k < 6; k++)
            put_number(&t, F(SLICE)[6 * i + k]);
        if (version == 2)
            put_bytes(&t, E(SLICE_EDITION)[i], 4);
    }
    return (size_t)(t.at - to);
}

/* ---- The stitch's refusals with the program's mosts: 1 2 3 4 5 6 7 8 14 ---- */

/* The lists' lengths are right. `differ_is_bad`: two tolerances that differ are 4, as for version 1. */
static uint32_t content_refusal(const stitching *s, bool differ_is_bad)
{
    if (s->slices > 28)
        return 1;
    if (s->vc1 < 2 || s->vc1 > 64 || s->vc2 < 2 || s->vc2 > 64)
        return 2;
    if (unknown_code(s))
        return 3;
    if (!good_tolerance(s->t.x) || !good_tolerance(s->t.y) || (differ_is_bad && s->t.x != s->t.y))
        return 4;
    if (!all_in_range(F(OUTLINE1), 3 * s->vc1) || !all_in_range(F(OUTLINE2), 3 * s->vc2) ||
        !all_in_range(F(SLICE), 6 * s->slices))
        return 5;
    return late_refusal(s);
}

/* ---- Writing: 12, then those, then 9 ---- */

static uint32_t write_refusal(uint32_t version, const stitching *s)
{
    if (version != 1 && version != 2)
        return 12;
    if (!long_as(LEN(OUTLINE1), 3, s->vc1) || !long_as(LEN(OUTLINE2), 3, s->vc2) ||
        !long_as(LEN(SLICE_AT), 4, s->slices) || !long_as(LEN(SLICE), 6, s->slices) ||
        LEN(SLICE_EDITION) != s->slices)
        return 1;
    return content_refusal(s, version == 1);
}

void storm_record_write(void)
{
    static _Thread_local uint8_t made[1 << 16];
    stitching s;
    uint32_t version = 1 + (uint32_t)below(2);
    begin_call("mask_record_write");
    draw_stitch(&s, 64, rarely(40) ? 29 : 28);
    if (version == 1 && below(8))
        s.t.y = s.t.x;
    size_t length = record_length(version, s.vc1 + s.vc2, s.slices);
    knob_room(BYTES, length);
    knob_code(&version);
    knob_number(&s.t.x);
    knob_number(&s.t.y);
    spoil();
    mask_count_answer a = mask_record_write(
        version, READ(OUTLINE1), s.vc1, s.edition1, READ(OUTLINE2), s.vc2, s.edition2, READ(SLICE_AT),
        READ(SLICE), READ(SLICE_EDITION), s.slices, s.pline2, s.pline1_overlapping,
        s.pline2_overlapping, s.selector, s.t.x, s.t.y, WRITE(BYTES));
    say(a.refusal);
    say(a.count);
    uint32_t refusal = write_refusal(version, &s);
    if (refusal == 0) {
        length = write_record(made, version, &s);
        if (length != record_length(version, s.vc1 + s.vc2, s.slices))
            differs("the judge itself: a record of another length");
        if (LEN(BYTES) < length)
            refusal = 9;
        else
            memcpy(WANT_B(BYTES), made, length);
    }
    expect(refusal);
    expect(refusal == 0 ? length : 0);
    settle();
}

/* ---- Replay: 11 12 13, then those, then 9 ---- */

/* Reads the host's bytes into the host's lists. */
static uint32_t read_record(stitching *s, uint32_t *version)
{
    tape t = {B(BYTES)};
    size_t len = LEN(BYTES), vertices;
    if (len < 5 || memcmp(t.at, "PBR", 3) != 0)
        return 11;
    t.at += 3;
    *version = (uint32_t)take_bytes(&t, 2);
    if (*version != 1 && *version != 2)
        return 12;
    if (len < record_length(*version, 0, 0))
        return 13;
    memset(s, 0, sizeof *s);
    s->vc1 = take_bytes(&t, 2);
    s->vc2 = take_bytes(&t, 2);
    s->selector = (uint32_t)take_bytes(&t, 1);
    s->t.x = s->t.y = take_number(&t);
    if (*version == 2) {
        s->t.y = take_number(&t);
        s->edition1 = (uint32_t)take_bytes(&t, 4);
        s->edition2 = (uint32_t)take_bytes(&t, 4);
    }
    s->pline2 = take_bytes(&t, 2);
    s->pline1_overlapping = take_bytes(&t, 2);
    s->pline2_overlapping = take_bytes(&t, 2);
    s->slices = take_bytes(&t, 2);
    vertices = s->vc1 + s->vc2;
    if (len != record_length(*version, vertices, s->slices) ||
        len > (*version == 1 ? 4610u : 4738u))
        return 13;
    for (size_t i = 0; i < 3 * s->vc1; i++)
        F(OUTLINE1)[i] = take_number(&t);
    for (size_t i = 0; i < 3 * s->vc2; i++)
        F(OUTLINE2)[i] = take_number(&t);
    for (size_t i = 0; i < s->slices; i++) {
        size_t *at = U(SLICE_AT) + 4 * i;
        at[0] = take_bytes(&t, 1);
        at[1] = take_bytes(&t, 1);
        at[2] = take_bytes(&t, 2);
        at[3] = take_bytes(&t, 2);
        for (int k = 0; k < 6; k++)
            F(SLICE)[6 * i + k] = take_number(&t);
        E(SLICE_EDITION)[i] = *version == 2 ? (uint32_t)take_bytes(&t, 4) : 0;
    }
    return content_refusal(s, false);
}

static void spoil_bytes(void)
{
    size_t len = LEN(BYTES), times = below(2) ? 0 : 1 + below(3);
    for (; times > 0 && len > 0; times--) {
        size_t at = below(3) ? below(len < 60 ? len : 60) : below(len);
        B(BYTES)[at] = below(2) ? (uint8_t)draw() : (uint8_t)(B(BYTES)[at] + 1);
    }
    if (rarely(20)) { /* a NaN somewhere */
        size_t at = below(len);
        if (at + 8 <= len)
            memset(B(BYTES) + at, 0xff, 8);
    }
    if (rarely(30))
        for (size_t i = 5; i < len; i++)
            B(BYTES)[i] = (uint8_t)draw();
    if (rarely(10))
        LEN(BYTES) = below(2) ? below(len + 1) : len + below(9);
}

void storm_record_replay(void)
{
    stitching s;
    uint32_t version = 1 + (uint32_t)below(2);
    begin_call("mask_record_replay");
    draw_stitch(&s, 64, rarely(40) ? 29 : 28);
    if (version == 1) {
        for (size_t i = 0; i < s.slices; i++)
            E(SLICE_EDITION)[i] = 0;
        s.edition1 = s.edition2 = 0;
    }
    LEN(BYTES) = write_record(B(BYTES), version, &s);
    stitch_rooms(&s);
    spoil(); /* of it the rooms alone count */
    spoil_bytes();
    mask_replay_answer a = mask_record_replay(READ(BYTES), WRITE(ROOM), WRITE(ENDS), WRITE(CHAIN),
                                              WRITE(CHAIN_ENDS), WRITE(CHAIN_HOW));
    say(a.refusal);
    say(a.version);
    say(a.slices);
    say(a.rounds);
    say(a.loops);
    say(a.chains);
    uint32_t refusal = read_record(&s, &version);
    if (refusal == 0 &&
        (LEN(ROOM) < 3 * stitch_need(&s) || LEN(ENDS) < s.slices || LEN(CHAIN) < s.slices ||
         LEN(CHAIN_ENDS) < s.slices || LEN(CHAIN_HOW) < s.slices))
        refusal = 9;
    expect(refusal);
    if (refusal == 0) {
        stitched done = stitch_into(&s);
        if (a.refusal == 0)
            demand_three(&s, a.rounds, a.loops, a.chains);
        expect(version);
        expect(s.slices);
        expect(done.rounds);
        expect(done.loops);
        expect(done.chains);
    } else {
        expect_zeros(5);
    }
    settle();
}
