/*
 * Calls mask_record_write and mask_record_replay as a host does, in both versions of the
 * record, and compares every answer and every list lent, bit for bit and to its last
 * element, with what documents 01 and 02 say. One line for each check; the status is 0
 * where none failed.
 *
 * The writer and the reader below are written from document 02 and from nothing else. A
 * replay is the stitch that the record holds, so what it answers and leaves is compared
 * with mask_stitch over the fields that this reader reads; stitch_test.c holds mask_stitch
 * against document 01.
 *
 * How lists are lent, and what they hold before a call, stands in testing.h.
 */
#include "testing.h"

AT(mask_replay_answer, refusal, 0);
AT(mask_replay_answer, version, 4);
AT(mask_replay_answer, slices, 8);
AT(mask_replay_answer, rounds, 16);
AT(mask_replay_answer, loops, 24);
AT(mask_replay_answer, chains, 32);
SIZE(mask_replay_answer, 40);
AT(mask_count_answer, count, 8);
SIZE(mask_count_answer, 16);

/* ---- Sizes of document 02, and more of each for the refusals ---- */

enum {
    TAKEN_VERTICES = 64,
    TAKEN_SLICES = 28,
    MOST_ROOM = 1 + TAKEN_SLICES * (TAKEN_VERTICES + 1),
    VERTICES = TAKEN_VERTICES + 2,
    SLICES = TAKEN_SLICES + 2,
    LONGEST = 8192 /* longer than any record */
};

/* "at most 4,610 bytes", "the most is 4,738"; "5 to 25 bytes", "5 to 41 bytes" */
static const size_t MOST_BYTES[] = {0, 4610, 4738};
static const size_t HEAD[] = {0, 26, 42};
static const size_t ENTRY[] = {0, 54, 58};

/* ---- Memory lent ---- */

enum {
    OUTLINE1,
    OUTLINE2,
    SLICE_AT,
    SLICE,
    SLICE_EDITION,
    RECORD, /* read */
    BYTES,
    ROOM,
    ENDS,
    CHAIN,
    CHAIN_ENDS,
    CHAIN_HOW, /* written */
    STITCH_ROOM,
    STITCH_ENDS,
    STITCH_CHAIN,
    STITCH_CHAIN_ENDS,
    STITCH_CHAIN_HOW, /* written by mask_stitch, for comparison */
    LISTS
};

static void make_room(void)
{
    for (int i = 0; i < LISTS; i++)
        make_list(i, i == ROOM || i == STITCH_ROOM ? 3 * MOST_ROOM : LONGEST);
    watch("FAIL an entry wrote to a list lent to be read, or left a list\n");
}

/* ---- A stitch, and how much room is lent for its record ---- */

typedef struct call {
    uint32_t version;
    double outline[2][3 * VERTICES];
    size_t slice_at[4 * SLICES];
    double slice[6 * SLICES];
    uint32_t slice_edition[SLICES];
    size_t outline_len[2], slice_at_len, slice_len, slice_edition_len;
    size_t vc[2], slices;
    uint32_t edition[2];
    mask_starts starts;
    uint32_t selector;
    axes tolerance;
    size_t bytes_len;
} call;

static call c; /* the call that is being made ready */

/* A slice: its start with a bulge, the end bulge, its end. It is of its outline's edition. */
static void add(size_t source, size_t inverted, size_t start, size_t offset, double x, double y,
                double bulge, double end_bulge, double end_x, double end_y)
{
    const size_t at[] = {source, inverted, start, offset};
    const double numbers[] = {x, y, bulge, end_bulge, end_x, end_y};
    memcpy(c.slice_at + 4 * c.slices, at, sizeof at);
    memcpy(c.slice + 6 * c.slices, numbers, sizeof numbers);
    c.slice_edition[c.slices++] = c.edition[source == 1 ? 0 : 1];
}

/* "the union of 01 is 326 bytes"; in version 2 "350 bytes" */
static size_t length_of(uint32_t version, size_t vertices, size_t slices)
{
    return HEAD[version] + 24 * vertices + ENTRY[version] * slices;
}

static int known_version(uint32_t version) { return version == 1 || version == 2; }

/* The lengths that the counts ask for; the room is the need and so much beyond it. */
static void measure(size_t beyond)
{
    uint32_t version = known_version(c.version) ? c.version : 2;
    c.outline_len[0] = 3 * c.vc[0];
    c.outline_len[1] = 3 * c.vc[1];
    c.slice_at_len = 4 * c.slices;
    c.slice_len = 6 * c.slices;
    c.slice_edition_len = c.slices;
    c.bytes_len = length_of(version, c.vc[0] + c.vc[1], c.slices) + beyond;
}

/* The union of the two squares (T3). */
static void the_union(uint32_t version)
{
    memset(&c, 0, sizeof c);
    c.version = version;
    memcpy(c.outline[0], A, sizeof A);
    memcpy(c.outline[1], B, sizeof B);
    c.vc[0] = c.vc[1] = 4;
    c.edition[0] = 7;
    c.edition[1] = UINT32_MAX;
    c.tolerance = (axes){T, version == 1 ? T : T / 4};
    add(1, 0, 2, 3, 2, 4, 0, 0, 4, 2);
    add(2, 0, 0, 3, 4, 2, 0, 0, 2, 4);
    c.starts = (mask_starts){1, 2, 2};
    measure(0);
}

/* ---- The reference: what is refused ---- */

/* The stitch's own numbers, 1 to 8 and 14, with what the program takes: "64 vertices an outline (else
   number 2), 28 slices (else 1)". `same` asks for one tolerance. */
static uint32_t stitch_refused(int same)
{
    if (!right_length(c.outline_len[0], 3, c.vc[0]) ||
        !right_length(c.outline_len[1], 3, c.vc[1]) || !right_length(c.slice_at_len, 4, c.slices) ||
        !right_length(c.slice_len, 6, c.slices) || c.slice_edition_len != c.slices ||
        c.slices > TAKEN_SLICES)
        return 1;
    for (int o = 0; o < 2; o++)
        if (c.vc[o] < LEAST_VERTICES || c.vc[o] > TAKEN_VERTICES)
            return 2;
    if (c.selector > 1 || unknown_slice_code(c.slice_at, c.slices))
        return 3;
    if (!right_tolerances(c.tolerance) || (same && c.tolerance.x != c.tolerance.y))
        return 4;
    if (!small_list(c.outline[0], c.outline_len[0]) ||
        !small_list(c.outline[1], c.outline_len[1]) || !small_list(c.slice, c.slice_len))
        return 5;
    return slices_refused(c.slice_at, c.slice_edition, c.slices, c.vc, c.edition, c.starts);
}

/* "12 (unknown version) first, then the stitch's own 1 to 8 and 14 .., then 9" */
static uint32_t write_refused(void)
{
    uint32_t number;
    if (!known_version(c.version))
        return 12;
    number = stitch_refused(c.version == 1);
    if (number)
        return number;
    return c.bytes_len < length_of(c.version, c.vc[0] + c.vc[1], c.slices) ? 9 : 0;
}

/* ---- The reference: the writer ---- */

/* Little endian. */
static void put_field(uint64_t value, int width)
{
    for (; width > 0; width--, value >>= 8)
        put_byte(BYTES, (uint8_t)value);
}

static void put_number(double a)
{
    uint64_t bits;
    memcpy(&bits, &a, sizeof bits);
    put_field(bits, 8);
}

static void ref_write(void)
{
    put_byte(BYTES, 'P');
    put_byte(BYTES, 'B');
    put_byte(BYTES, 'R');
    put_field(c.version, 2);
    put_field(c.vc[0], 2);
    put_field(c.vc[1], 2);
    put_field(c.selector, 1);
    put_number(c.tolerance.x);
    if (c.version == 2) {
        put_number(c.tolerance.y);
        put_field(c.edition[0], 4);
        put_field(c.edition[1], 4);
    }
    put_field(c.starts.pline2, 2);
    put_field(c.starts.pline1_overlapping, 2);
    put_field(c.starts.pline2_overlapping, 2);
    put_field(c.slices, 2);
    for (int o = 0; o < 2; o++)
        for (size_t i = 0; i < 3 * c.vc[o]; i++)
            put_number(c.outline[o][i]);
    for (size_t i = 0; i < c.slices; i++) {
        put_field(c.slice_at[4 * i], 1);
        put_field(c.slice_at[4 * i + 1], 1);
        put_field(c.slice_at[4 * i + 2], 2);
        put_field(c.slice_at[4 * i + 3], 2);
        for (int k = 0; k < 6; k++)
            put_number(c.slice[6 * i + k]);
        if (c.version == 2)
            put_field(c.slice_edition[i], 4);
    }
}

/* ---- One call of the writer, beside the reference ---- */

static uint8_t written[LONGEST]; /* the record that the last call wrote */
static size_t written_len;

static mask_count_answer write_record(void)
{
    return mask_record_write(
        c.version, lend(OUTLINE1, c.outline[0], c.outline_len[0]), c.outline_len[0], c.vc[0],
        c.edition[0], lend(OUTLINE2, c.outline[1], c.outline_len[1]), c.outline_len[1], c.vc[1],
        c.edition[1], lend(SLICE_AT, c.slice_at, c.slice_at_len), c.slice_at_len,
        lend(SLICE, c.slice, c.slice_len), c.slice_len,
        lend_editions(SLICE_EDITION, c.slice_edition, c.slice_edition_len), c.slice_edition_len,
        c.slices, c.starts.pline2, c.starts.pline1_overlapping, c.starts.pline2_overlapping,
        c.selector, c.tolerance.x, c.tolerance.y, lend_byte_room(BYTES, c.bytes_len), c.bytes_len);
}

/* Makes the call and compares all of it. The number is the one expected too. */
static int writes(uint32_t number)
{
    uint32_t refusal = write_refused();
    mask_count_answer a;
    expect_bytes(BYTES, c.bytes_len);
    if (refusal == 0)
        ref_write();
    written_len = want[BYTES].used;
    a = write_record();
    memcpy(written, left_bytes(BYTES, c.bytes_len), written_len);
    return refusal == number && a.refusal == number && a.count == written_len &&
           bytes_as_expected(BYTES);
}

/* ---- The reference: the reader ---- */

static uint64_t field(const uint8_t **from, int width)
{
    uint64_t value = 0;
    for (int i = 0; i < width; i++)
        value |= (uint64_t) * (*from)++ << 8 * i;
    return value;
}

static double number_field(const uint8_t **from)
{
    uint64_t bits = field(from, 8);
    double a;
    memcpy(&a, &bits, sizeof a);
    return a;
}

/* "11 wrong mark, 12 unknown version, 13 length not as the counts say, looked at in that order,
   before all others"; then 1 and 2, beyond which the fields are not read. Reads into c. */
static uint32_t read_refused(const uint8_t *bytes, size_t len)
{
    const uint8_t *from = bytes + 3;
    if (len < 5 || memcmp(bytes, "PBR", 3) != 0)
        return 11;
    c.version = (uint32_t)field(&from, 2);
    if (!known_version(c.version))
        return 12;
    if (len < HEAD[c.version] || len > MOST_BYTES[c.version])
        return 13;
    c.vc[0] = field(&from, 2);
    c.vc[1] = field(&from, 2);
    c.selector = (uint32_t)field(&from, 1);
    c.tolerance = both(number_field(&from));
    c.edition[0] = c.edition[1] = 0;
    if (c.version == 2) {
        c.tolerance.y = number_field(&from);
        c.edition[0] = (uint32_t)field(&from, 4);
        c.edition[1] = (uint32_t)field(&from, 4);
    }
    c.starts.pline2 = field(&from, 2);
    c.starts.pline1_overlapping = field(&from, 2);
    c.starts.pline2_overlapping = field(&from, 2);
    c.slices = field(&from, 2);
    if (len != length_of(c.version, c.vc[0] + c.vc[1], c.slices))
        return 13;
    if (c.slices > TAKEN_SLICES)
        return 1;
    for (int o = 0; o < 2; o++)
        if (c.vc[o] < LEAST_VERTICES || c.vc[o] > TAKEN_VERTICES)
            return 2;
    for (int o = 0; o < 2; o++)
        for (size_t i = 0; i < 3 * c.vc[o]; i++)
            c.outline[o][i] = number_field(&from);
    for (size_t i = 0; i < c.slices; i++) {
        c.slice_at[4 * i] = field(&from, 1);
        c.slice_at[4 * i + 1] = field(&from, 1);
        c.slice_at[4 * i + 2] = field(&from, 2);
        c.slice_at[4 * i + 3] = field(&from, 2);
        for (int k = 0; k < 6; k++)
            c.slice[6 * i + k] = number_field(&from);
        c.slice_edition[i] = c.version == 2 ? (uint32_t)field(&from, 4) : 0;
    }
    measure(0);
    return 0;
}

/* "one vertex more than the sum of (offset + 1)", and none where there are no slices. */
static size_t vertices_needed(void)
{
    size_t need = c.slices != 0;
    for (size_t i = 0; i < c.slices; i++)
        need += c.slice_at[4 * i + 3] + 1;
    return need;
}

/* ---- One call of the replay, beside the reference ---- */

/* How much room is lent: that for `vertices` and `slices`, or one number or entry less in the list
   that `less` names. */
typedef struct lengths {
    size_t room, ends, chain, chain_ends, chain_how;
} lengths;

static lengths room_for(size_t vertices, size_t slices)
{
    return (lengths){3 * vertices, slices, slices, slices, slices};
}

static const lengths THE_MOST = {3 * MOST_ROOM, TAKEN_SLICES, TAKEN_SLICES, TAKEN_SLICES,
                                 TAKEN_SLICES};

static mask_replay_answer replay(const uint8_t *bytes, size_t len, lengths l)
{
    return mask_record_replay(lend_bytes(RECORD, bytes, len), len, lend_room(ROOM, l.room), l.room,
                              lend_room(ENDS, l.ends), l.ends, lend_room(CHAIN, l.chain), l.chain,
                              lend_room(CHAIN_ENDS, l.chain_ends), l.chain_ends,
                              lend_room(CHAIN_HOW, l.chain_how), l.chain_how);
}

/* mask_stitch over the fields, on lists of the same lengths, which hold the same before. */
static mask_stitch_answer stitch(lengths l)
{
    const size_t entered[] = {1};
    double settings[48] = {c.tolerance.x, c.tolerance.y};
    return mask_stitch(c.outline[0], c.outline_len[0], c.vc[0], c.edition[0], c.outline[1],
                       c.outline_len[1], c.vc[1], c.edition[1], c.slice_at, c.slice_at_len,
                       c.slice, c.slice_len, c.slice_edition, c.slice_edition_len, c.slices,
                       c.starts.pline2, c.starts.pline1_overlapping, c.starts.pline2_overlapping,
                       c.selector, entered, 1, settings, 48, 1, lend_room(STITCH_ROOM, l.room),
                       l.room, lend_room(STITCH_ENDS, l.ends), l.ends,
                       lend_room(STITCH_CHAIN, l.chain), l.chain,
                       lend_room(STITCH_CHAIN_ENDS, l.chain_ends), l.chain_ends,
                       lend_room(STITCH_CHAIN_HOW, l.chain_how), l.chain_how);
}

/* Two lists hold the same, and so does the memory before them. */
static int same_list(int a, int b, size_t len)
{
    size_t bytes = 8 * (BEFORE + len);
    return memcmp(lent[a].end - bytes, lent[b].end - bytes, bytes) == 0;
}

static int same_lists(lengths l)
{
    return same_list(ROOM, STITCH_ROOM, l.room) && same_list(ENDS, STITCH_ENDS, l.ends) &&
           same_list(CHAIN, STITCH_CHAIN, l.chain) &&
           same_list(CHAIN_ENDS, STITCH_CHAIN_ENDS, l.chain_ends) &&
           same_list(CHAIN_HOW, STITCH_CHAIN_HOW, l.chain_how);
}

/* The number of a replay: the reader's, then the stitch's, then 9. Reads into c. */
static uint32_t replay_refused(const uint8_t *bytes, size_t len, lengths l)
{
    uint32_t number = read_refused(bytes, len);
    if (number == 0)
        number = stitch_refused(0);
    if (number == 0 && (l.room < 3 * vertices_needed() || l.ends < c.slices || l.chain < c.slices ||
                        l.chain_ends < c.slices || l.chain_how < c.slices))
        number = 9;
    return number;
}

static unsigned given[32]; /* how often each number was given */

/* Makes the call and compares all of it. */
static int replays(const uint8_t *bytes, size_t len, lengths l)
{
    uint32_t number = replay_refused(bytes, len, l);
    mask_stitch_answer s = {0, 0, 0, 0};
    mask_replay_answer a;
    lend_room(STITCH_ROOM, l.room);
    lend_room(STITCH_ENDS, l.ends);
    lend_room(STITCH_CHAIN, l.chain);
    lend_room(STITCH_CHAIN_ENDS, l.chain_ends);
    lend_room(STITCH_CHAIN_HOW, l.chain_how);
    if (number == 0)
        s = stitch(l);
    a = replay(bytes, len, l);
    given[a.refusal % 32]++;
    return s.refusal == 0 && a.refusal == number && a.version == (number ? 0 : c.version) &&
           a.slices == (number ? 0 : c.slices) && a.rounds == s.rounds && a.loops == s.loops &&
           a.chains == s.chains && same_lists(l);
}

/* ---- Checks of single records ---- */

static void squares(void)
{
    for (uint32_t version = 1; version <= 2; version++) {
        size_t len = version == 1 ? 326 : 350;
        mask_replay_answer a;
        the_union(version);
        c.bytes_len = len;
        check(writes(0) && written_len == len, "version %u: the union of 01 is %zu bytes", version,
              len);
        check(replays(written, len, room_for(9, 2)), "version %u: it is replayed", version);
        a = replay(written, len, room_for(9, 2));
        check(a.refusal == 0 && a.version == version && a.slices == 2 && a.rounds == 2 &&
                  a.loops == 1 && a.chains == 1 && left(ENDS, 2)[0] == 8 &&
                  left(CHAIN, 2)[0] == 0 && left(CHAIN, 2)[1] == 1 && left(CHAIN_ENDS, 2)[0] == 2 &&
                  left(CHAIN_HOW, 2)[0] == MASK_CHAIN_CLOSED,
              "version %u: slices 2 rounds 2 loops 1; 0 1 closed 8", version);
    }
}

/* The most that is taken, of slices that meet none. */
static void the_most(uint32_t version)
{
    the_union(version);
    c.slices = 0;
    c.vc[0] = c.vc[1] = TAKEN_VERTICES;
    for (int o = 0; o < 2; o++)
        for (size_t i = 0; i < TAKEN_VERTICES; i++) {
            c.outline[o][3 * i] = (double)(i % 5);
            c.outline[o][3 * i + 1] = (double)(i % 7);
            c.outline[o][3 * i + 2] = 0;
        }
    for (size_t i = 0; i < TAKEN_SLICES; i++)
        add(1 + i % 2, i / 2 % 2, 63 - i, 64, 3.0 * (double)i, 0, 0, 0, 3.0 * (double)i + 1, 0);
    c.starts = (mask_starts){9, 18, 27};
    measure(0);
}

static void sizes(void)
{
    for (uint32_t version = 1; version <= 2; version++) {
        int ok;
        the_most(version);
        ok = writes(0) && written_len == MOST_BYTES[version];
        ok &= replays(written, written_len, THE_MOST) && vertices_needed() == MOST_ROOM;
        check(ok, "version %u: 64 vertices an outline and 28 slices: %zu bytes, and room for %u",
              version, MOST_BYTES[version], MOST_ROOM);
        the_most(version);
        add(1, 0, 0, 0, 0, 0, 0, 0, 0, 0);
        measure(0);
        ok = writes(1);
        for (int o = 0; o < 2; o++)
            for (size_t vc = 0; vc <= VERTICES; vc++) {
                the_most(version);
                c.slices = 0;
                c.starts = (mask_starts){0, 0, 0};
                c.vc[o] = vc;
                measure(0);
                ok &= writes(vc < 2 || vc > 64 ? 2 : 0);
                ok &= vc < 2 || vc > 64 || replays(written, written_len, room_for(0, 0));
            }
        check(ok, "version %u: 29 slices are 1; 0, 1 and 65 vertices of either outline are 2",
              version);
    }
}

/* "4,610 bytes (else 13)": a record one vertex or one slice larger than the most, its length as its
   counts say. With fewer of the others the same counts are 2 or 1. */
static void beyond_the_most(void)
{
    static uint8_t bytes[LONGEST];
    for (uint32_t version = 1; version <= 2; version++) {
        int ok = 1;
        for (int larger = 0; larger < 4; larger++) {
            size_t len;
            the_most(version);
            if (larger % 2 == 0)
                c.vc[0]++;
            else
                add(1, 0, 0, 0, 0, 0, 0, 0, 1, 1);
            if (larger >= 2)
                c.vc[1] = larger == 2 ? 2 : 50;
            measure(0);
            expect_bytes(BYTES, c.bytes_len);
            ref_write();
            len = want[BYTES].used;
            memcpy(bytes, (uint8_t *)want[BYTES].words + BEFORE, len);
            memset(given, 0, sizeof given);
            ok &= replays(bytes, len, THE_MOST);
            ok &= given[larger < 2 ? 13 : larger == 2 ? 2 : 1] == 1;
        }
        check(ok, "version %u: above %zu bytes is 13, before 1 and 2", version, MOST_BYTES[version]);
    }
}

/* "every length 0..4739 of a truncated record": the most, cut and lengthened. */
static void lengths_of_records(void)
{
    for (uint32_t version = 1; version <= 2; version++) {
        static uint8_t bytes[LONGEST];
        unsigned short_of_head = 0;
        int ok = 1;
        the_most(version);
        ok &= writes(0);
        memcpy(bytes, written, written_len);
        for (size_t len = 0; len <= 4739; len++) {
            uint32_t before = given[13];
            ok &= replays(bytes, len, THE_MOST);
            short_of_head += len >= 5 && len < HEAD[version] && given[13] == before + 1;
        }
        check(ok, "version %u: the most, at every length from 0 to 4739", version);
        check(short_of_head == HEAD[version] - 5, "version %u: 5 to %zu bytes are 13", version,
              HEAD[version] - 1);
    }
}

static void each_byte(void)
{
    for (uint32_t version = 1; version <= 2; version++) {
        uint8_t bytes[350];
        size_t len;
        int ok;
        the_union(version);
        ok = writes(0);
        len = written_len;
        memcpy(bytes, written, len);
        memset(given, 0, sizeof given);
        for (size_t at = 0; at < len; at++) {
            uint8_t before = bytes[at];
            for (unsigned value = 0; value < 256; value++) {
                bytes[at] = (uint8_t)value;
                ok &= replays(bytes, len, room_for(11, 2)); /* two offsets of 4 */
            }
            bytes[at] = before;
        }
        check(ok, "version %u: each byte of the union as every value; %u accepted, %u are 14",
              version, given[0], given[14]);
    }
}

/* ---- Versions, tolerances, editions ---- */

static void versions(void)
{
    const uint32_t unknown[] = {0, 3, 256, 257, 65536 + 1, 65536 + 2, 0x80000001, UINT32_MAX};
    uint8_t bytes[3][350];
    size_t len[3];
    int ok = 1;
    for (size_t i = 0; i < sizeof unknown / sizeof *unknown; i++) {
        the_union(unknown[i]);
        ok &= writes(12);
        c.vc[0] = 77; /* with all else wrong too */
        c.selector = 9;
        c.tolerance = both(NAN);
        c.slice_edition_len = 1;
        c.bytes_len = 0;
        ok &= writes(12);
    }
    check(ok, "an unknown version is 12, before all others, and none is taken by its low bits");
    for (uint32_t version = 1; version <= 2; version++) {
        the_union(version);
        ok = writes(0);
        len[version] = written_len;
        memcpy(bytes[version], written, written_len);
    }
    memset(given, 0, sizeof given);
    for (unsigned v = 0; v < 65536; v++)
        for (uint32_t version = 1; version <= 2; version++) {
            bytes[version][3] = (uint8_t)v;
            bytes[version][4] = (uint8_t)(v >> 8);
            ok &= replays(bytes[version], len[version], room_for(9, 2));
        }
    check(ok && given[0] == 2 && given[13] == 2 && given[12] == 2 * 65534,
          "of all 65536 versions of a record two are known, each by its own length");
}

static void tolerances(void)
{
    const double ends[] = {0, -0.0, DBL_TRUE_MIN, DBL_MIN, T, 0.5, 1, 1 + DBL_EPSILON, -T,
                           INFINITY, -INFINITY, NAN, DBL_MAX};
    enum { COUNT = sizeof ends / sizeof *ends };
    for (uint32_t version = 1; version <= 2; version++) {
        int ok = 1;
        for (int i = 0; i < COUNT; i++)
            for (int k = 0; k < COUNT; k++) {
                int in = right_tolerance(ends[i]) && right_tolerance(ends[k]);
                the_union(version);
                c.tolerance = (axes){ends[i], ends[k]};
                ok &= writes(in && (version == 2 || i == k) ? 0 : 4);
                ok &= written_len == 0 || replays(written, written_len, THE_MOST);
            }
        the_union(version);
        c.tolerance = (axes){T, nextafter(T, 1)};
        ok &= writes(version == 1 ? 4 : 0);
        check(ok, version == 1 ? "version 1: two tolerances that differ are 4, by one bit too"
                               : "version 2: both tolerances, each above 0 and at most 1");
    }
}

static void editions(void)
{
    for (uint32_t version = 1; version <= 2; version++) {
        unsigned refused = 0, accepted = 0;
        int ok = 1;
        for (int i = 0; i < EDITION_COUNT * EDITION_COUNT; i++)
            for (int k = 0; k < EDITION_COUNT * EDITION_COUNT; k++) {
                int same;
                the_union(version);
                c.edition[0] = EDITIONS[i / EDITION_COUNT];
                c.edition[1] = EDITIONS[i % EDITION_COUNT];
                c.slice_edition[0] = EDITIONS[k / EDITION_COUNT];
                c.slice_edition[1] = EDITIONS[k % EDITION_COUNT];
                same = i == k;
                ok &= writes(same ? 0 : 14);
                accepted += same;
                refused += !same;
                if (!same)
                    continue;
                ok &= replays(written, written_len, THE_MOST);
                ok &= c.edition[0] == (version == 1 ? 0 : EDITIONS[i / EDITION_COUNT]) &&
                      c.slice_edition[1] == (version == 1 ? 0 : EDITIONS[i % EDITION_COUNT]);
            }
        check(ok, "version %u: editions 0, 1, .. 2^32 - 1: %u written, %u of another edition are 14",
              version, accepted, refused);
    }
}

/* A record of version 2 whose slice, or whose outline, is of another edition. */
static void late_packets(void)
{
    int ok = 1;
    for (size_t slice = 0; slice < 2; slice++)
        for (int place = 0; place < 4; place++)
            for (int bit = 0; bit < 8; bit++) {
                size_t at = 42 + 24 * 8 + 58 * slice + 54 + place;
                the_union(2);
                ok &= writes(0);
                written[at] ^= (uint8_t)(1 << bit);
                memset(given, 0, sizeof given);
                ok &= replays(written, written_len, THE_MOST);
                written[at] ^= (uint8_t)(1 << bit);
                written[26 + 4 * slice + place] ^= (uint8_t)(1 << bit);
                ok &= replays(written, written_len, THE_MOST) && given[14] == 2;
            }
    check(ok, "version 2: a slice or an outline of another edition, by one bit, is 14");
}

/* ---- Room ---- */

static void byte_rooms(void)
{
    for (uint32_t version = 1; version <= 2; version++) {
        int ok = 1;
        for (size_t beyond = 0; beyond <= BEYOND; beyond++) {
            the_union(version);
            measure(beyond);
            ok &= writes(0);
        }
        check(ok, "version %u: beyond the record no byte is written", version);
        ok = 1;
        for (size_t len = 0; len < length_of(version, 8, 2); len++) {
            the_union(version);
            c.bytes_len = len;
            ok &= writes(9);
        }
        check(ok, "version %u: every length below the record's is 9, and nothing is written",
              version);
    }
}

static void replay_rooms(void)
{
    for (uint32_t version = 1; version <= 2; version++) {
        lengths l = room_for(9, 2);
        int ok;
        the_union(version);
        ok = writes(0);
        for (size_t beyond = 0; beyond <= BEYOND; beyond++) {
            l = (lengths){27 + beyond, 2 + beyond, 2, 2 + beyond, 2};
            ok &= replays(written, written_len, l);
            l = (lengths){27, 2, 2 + beyond, 2, 2 + beyond};
            ok &= replays(written, written_len, l);
        }
        check(ok, "version %u: room of the need and beyond: 0 up to the need, and nothing beyond",
              version);
        memset(given, 0, sizeof given);
        for (int list = 0; list < 5; list++) {
            l = room_for(9, 2);
            size_t *one = &l.room + list;
            for (--*one;; --*one) {
                ok &= replays(written, written_len, l);
                if (*one == 0)
                    break;
            }
        }
        check(ok && given[9] == 27 + 4 * 2 && given[0] == 0,
              "version %u: room one less in any list is 9, and nothing is written", version);
    }
}

/* Every bit pattern that the guard values have, in every place of the room alone. */
static void nans(void)
{
    int ok = 1;
    for (only_nan = 0; only_nan < NAN_COUNT; only_nan++)
        for (uint32_t version = 1; version <= 2; version++) {
            the_union(version);
            measure(7);
            ok &= writes(0);
            ok &= replays(written, written_len, (lengths){27 + 7, 2 + 7, 2 + 7, 2 + 7, 2 + 7});
            written[9] = 2;
            ok &= replays(written, written_len, THE_MOST);
        }
    only_nan = -1;
    check(ok, "lent room keeps the bits of NaNs, beyond the need and where a call is refused");
    for (uint32_t version = 1; version <= 2; version++) {
        unsigned numbers = 0;
        ok = 1;
        for (int nan = 0; nan < NAN_COUNT; nan++) {
            uint8_t bytes[350];
            the_union(version);
            ok &= writes(0);
            memset(given, 0, sizeof given);
            for (size_t at = 10; at + 8 <= written_len;) {
                memcpy(bytes, written, written_len);
                memcpy(bytes + at, &NANS[nan], 8);
                ok &= replays(bytes, written_len, THE_MOST);
                numbers++;
                if (at == 10 && version == 2)
                    at = 18;
                else if (at < HEAD[version])
                    at = HEAD[version];
                else if (at + 8 == HEAD[version] + 24 * 8)
                    at += 8 + 6;
                else if (at + 8 == HEAD[version] + 24 * 8 + 54)
                    at += 8 + ENTRY[version] - 54 + 6;
                else
                    at += 8;
            }
            ok &= given[4] == version && given[5] == 36;
        }
        check(ok, "version %u: a pattern that is no number is 4 or 5 in each of %u places", version,
              numbers / NAN_COUNT);
    }
}

/* ---- Faults, alone and in pairs ---- */

/* The order in which numbers are looked at. */
static const uint32_t ORDER[] = {11, 12, 13, 1, 2, 3, 4, 5, 6, 7, 8, 14, 9};

static int rank(uint32_t number)
{
    int place = 0;
    while (ORDER[place] != number)
        place++;
    return place;
}

typedef struct fault {
    uint32_t number;
    const char *what;
} fault;

static const fault WRITE_FAULTS[] = {
    {12, "version"},    {1, "outline 1"},     {1, "outline 2"},     {1, "slice_at"},
    {1, "slice"},       {1, "slice_edition"}, {1, "slices"},        {2, "vertices of 1"},
    {2, "vertices of 2"}, {3, "selector"},    {3, "source"},        {3, "inverted"},
    {4, "tolerance x"}, {4, "tolerance y"},   {5, "outline 1"},     {5, "outline 2"},
    {5, "slice"},       {6, "start"},         {7, "offset"},        {8, "starts"},
    {8, "last start"},  {14, "slice's edition"}, {14, "outline's edition"}, {9, "room"},
};
enum { WRITE_FAULT_COUNT = sizeof WRITE_FAULTS / sizeof *WRITE_FAULTS };

static void spoil_count(int which)
{
    switch (which) {
    case 6: /* 29 slices */
        while (c.slices < TAKEN_SLICES + 1)
            add(1, 0, 0, 0, 0, 0, 0, 0, 1, 1);
        break;
    case 7:
        c.vc[0] = TAKEN_VERTICES + 1;
        break;
    case 8:
        c.vc[1] = 1;
        break;
    default:
        break;
    }
}

static void spoil_write(int which)
{
    static size_t *const lists[] = {&c.outline_len[0], &c.outline_len[1], &c.slice_at_len,
                                    &c.slice_len, &c.slice_edition_len};
    if (which >= 1 && which <= 5)
        *lists[which - 1] -= 1;
    switch (which) {
    case 0:
        c.version = 3;
        break;
    case 9:
        c.selector = 2;
        break;
    case 10:
        c.slice_at[0] = 3;
        break;
    case 11:
        c.slice_at[5] = HALF;
        break;
    case 12:
        c.tolerance.x = 0;
        break;
    case 13:
        c.tolerance.y = nextafter(1, 2);
        break;
    case 14:
        c.outline[0][0] = bad_number();
        break;
    case 15:
        c.outline[1][5] = bad_number();
        break;
    case 16:
        c.slice[11] = bad_number();
        break;
    case 17:
        c.slice_at[6] = c.vc[1];
        break;
    case 18:
        c.slice_at[3] = SIZE_MAX;
        break;
    case 19:
        c.starts.pline2 = 3;
        break;
    case 20:
        c.starts.pline2_overlapping = SIZE_MAX;
        break;
    case 21:
        c.slice_edition[1]--;
        break;
    case 22:
        c.edition[0]++;
        break;
    case 23:
        c.bytes_len = 7;
        break;
    default:
        break;
    }
}

static void write_faults(void)
{
    for (uint32_t version = 1; version <= 2; version++) {
        unsigned pairs = 0;
        int ok = 1;
        seed = version;
        for (int i = 0; i < WRITE_FAULT_COUNT; i++)
            for (int k = i; k < WRITE_FAULT_COUNT; k++) {
                uint32_t a = WRITE_FAULTS[i].number, b = WRITE_FAULTS[k].number;
                the_union(version);
                spoil_count(i);
                spoil_count(k);
                measure(3);
                spoil_write(i);
                if (k != i)
                    spoil_write(k);
                pairs++;
                if (!writes(rank(a) < rank(b) ? a : b)) {
                    ok = 0;
                    printf("     version %u: %u (%s) and %u (%s)\n", version, a,
                           WRITE_FAULTS[i].what, b, WRITE_FAULTS[k].what);
                }
            }
        check(ok, "version %u, writing: %u pairs of faults: the earlier in 12, 1 to 8, 14, 9 wins",
              version, pairs);
    }
}

static const fault REPLAY_FAULTS[] = {
    {11, "mark"},      {12, "version"},     {13, "length"},      {1, "slices"},
    {2, "vertices of 1"}, {2, "vertices of 2"}, {3, "selector"}, {3, "source"},
    {3, "inverted"},   {4, "tolerance x"},  {4, "tolerance y"},  {5, "outline 1"},
    {5, "outline 2"},  {5, "slice"},        {6, "start"},        {7, "offset"},
    {8, "starts"},     {14, "slice's edition"}, {14, "outline's edition"}, {9, "room"},
};
enum { REPLAY_FAULT_COUNT = sizeof REPLAY_FAULTS / sizeof *REPLAY_FAULTS };

/* Version 1 has one tolerance and no editions. */
static int in_version_2_alone(int which) { return which == 10 || which == 17 || which == 18; }

/* The record of the union with these faults, by the writer above, which writes any numbers. */
static size_t spoiled_record(uint32_t version, int i, int k, uint8_t *bytes)
{
    size_t len;
    the_union(version);
    for (int turn = 0; turn < 2; turn++) {
        int which = turn == 0 ? i : k;
        if (which == 3)
            while (c.slices < TAKEN_SLICES + 1)
                add(1, 0, 0, 0, 0, 0, 0, 0, 1, 1);
        if (which == 4)
            c.vc[0] = TAKEN_VERTICES + 1;
        if (which == 5)
            c.vc[1] = 1;
        if (which == 6)
            c.selector = 2;
        if (which == 7)
            c.slice_at[4] = 0;
        if (which == 8)
            c.slice_at[1] = 255;
        if (which == 9)
            c.tolerance.x = -T;
        if (which == 10)
            c.tolerance.y = INFINITY;
        if (which == 11)
            c.outline[0][2] = bad_number();
        if (which == 12)
            c.outline[1][0] = bad_number();
        if (which == 13)
            c.slice[3] = bad_number();
        if (which == 14)
            c.slice_at[2] = 65535;
        if (which == 15)
            c.slice_at[7] = 65535;
        if (which == 16)
            c.starts.pline1_overlapping = 0;
        if (which == 17)
            c.slice_edition[0] += 256;
        if (which == 18)
            c.edition[1] = 0;
    }
    measure(0);
    expect_bytes(BYTES, c.bytes_len);
    ref_write();
    len = want[BYTES].used;
    memcpy(bytes, (uint8_t *)want[BYTES].words + BEFORE, len);
    if (i == 0 || k == 0)
        bytes[1] ^= 0x20;
    if (i == 1 || k == 1)
        bytes[4] = 1;
    return i == 2 || k == 2 ? len - 1 : len;
}

static void replay_faults(void)
{
    static uint8_t bytes[LONGEST];
    for (uint32_t version = 1; version <= 2; version++) {
        unsigned pairs = 0;
        int ok = 1;
        seed = 10 + version;
        for (int i = 0; i < REPLAY_FAULT_COUNT; i++)
            for (int k = i; k < REPLAY_FAULT_COUNT; k++) {
                uint32_t a = REPLAY_FAULTS[i].number, b = REPLAY_FAULTS[k].number;
                uint32_t first = rank(a) < rank(b) ? a : b;
                lengths l = THE_MOST;
                size_t len;
                if (version == 1 && (in_version_2_alone(i) || in_version_2_alone(k)))
                    continue;
                len = spoiled_record(version, i, k, bytes);
                if (i == 19 || k == 19)
                    l.chain_how = 1;
                memset(given, 0, sizeof given);
                pairs++;
                if (!replays(bytes, len, l) || given[first] != 1) {
                    ok = 0;
                    printf("     version %u: %u (%s) and %u (%s)\n", version, a,
                           REPLAY_FAULTS[i].what, b, REPLAY_FAULTS[k].what);
                }
            }
        check(ok, "version %u, replay: %u pairs of faults: the earlier in 11 12 13, 1 to 8, 14, 9",
              version, pairs);
    }
}

/* ---- Drawn stitches: slices on a small grid, so that chains meet, end and close in every way ---- */

static double drawn_place(void)
{
    const double odd[] = {-0.0, DBL_TRUE_MIN, -DBL_MIN, 0.1, LIMIT, -LIMIT, nextafter(LIMIT, 0)};
    return rarely(40) ? odd[below(7)] : (double)below(3);
}

static void drawn(void)
{
    const double tolerances[] = {T, 0.5, 1, DBL_TRUE_MIN};
    const size_t counts[] = {0, 1, 2, 3, 5, 8, 13, 28};
    size_t most = rarely(20) ? TAKEN_VERTICES : 6;
    size_t n = counts[below(8)], cut[3];
    memset(&c, 0, sizeof c);
    for (int o = 0; o < 2; o++) {
        c.vc[o] = 2 + below(most - 1);
        c.edition[o] = EDITIONS[below(EDITION_COUNT)];
        for (size_t i = 0; i < 3 * c.vc[o]; i++)
            c.outline[o][i] = drawn_place();
    }
    for (size_t i = 0; i < n; i++) {
        size_t source = 1 + below(2), vc = c.vc[source - 1], offset = rarely(2) ? below(vc + 1) : 0;
        double x = drawn_place(), y = drawn_place();
        add(source, below(2), below(vc), offset, x, y, rarely(2) ? 0 : 0.25, rarely(2) ? -0.0 : -1,
            drawn_place(), drawn_place());
    }
    for (int i = 0; i < 3; i++)
        cut[i] = below(n + 1);
    for (int i = 0; i < 3; i++)
        for (int k = 0; k < 2; k++)
            if (cut[k] > cut[k + 1]) {
                size_t larger = cut[k];
                cut[k] = cut[k + 1];
                cut[k + 1] = larger;
            }
    c.starts = (mask_starts){cut[0], cut[1], cut[2]};
    c.selector = (uint32_t)below(2);
    c.tolerance = (axes){tolerances[below(4)], tolerances[below(4)]};
}

static void draws(void)
{
    enum { COUNT = 20000 };
    size_t loops = 0, chains = 0;
    int ok = 1;
    seed = 14;
    for (int i = 0; i < COUNT && ok; i++) {
        uint32_t version = 1 + (uint32_t)below(2);
        call before;
        lengths l;
        drawn();
        c.version = version;
        if (version == 1)
            c.tolerance.y = c.tolerance.x;
        measure(below(3));
        before = c;
        l = room_for(vertices_needed() + below(2), c.slices + below(2));
        ok &= writes(0) && replays(written, written_len, l);
        loops += replay(written, written_len, l).loops;
        chains += replay(written, written_len, l).chains;
        /* what was read is what was written, but for the editions of version 1 */
        ok &= memcmp(before.outline, c.outline, sizeof c.outline) == 0 &&
              memcmp(before.slice_at, c.slice_at, 32 * c.slices) == 0 &&
              memcmp(before.slice, c.slice, 48 * c.slices) == 0 &&
              (version == 1 ||
               memcmp(before.slice_edition, c.slice_edition, 4 * c.slices) == 0);
        /* and written again it is the same record */
        measure(0);
        memcpy(before.slice, written, sizeof before.slice);
        ok &= writes(0) && memcmp(before.slice, written, sizeof before.slice) == 0;
    }
    check(ok, "%d drawn stitches, written, replayed and written again: %zu chains, %zu loops",
          COUNT, chains, loops);
}

/* "a version 1 record written again as version 2 and replayed gives the same" */
static void again(void)
{
    enum { COUNT = 5000 };
    int ok = 1;
    seed = 15;
    for (int i = 0; i < COUNT && ok; i++) {
        mask_replay_answer one, two;
        lengths l;
        drawn();
        c.version = 1;
        c.tolerance.y = c.tolerance.x;
        measure(0);
        l = room_for(vertices_needed() + 1, c.slices + 1);
        ok &= writes(0) && replays(written, written_len, l); /* c is what the record holds */
        one = replay(written, written_len, l);
        stitch(l); /* leaves the same, for comparison below */
        c.version = 2;
        measure(0);
        ok &= writes(0);
        two = replay(written, written_len, l);
        ok &= one.refusal == 0 && two.refusal == 0 && one.version == 1 && two.version == 2 &&
              one.slices == two.slices && one.rounds == two.rounds && one.loops == two.loops &&
              one.chains == two.chains && same_lists(l);
    }
    check(ok, "%d records of version 1, written again as version 2: the same answer and lists",
          COUNT);
}

/* Damaged records of both versions. The room is what the record needed before, so that 9 comes too. */
static void damages(void)
{
    enum { COUNT = 200000 };
    static uint8_t bytes[LONGEST];
    int ok = 1;
    seed = 16;
    memset(given, 0, sizeof given);
    for (int i = 0; i < COUNT && ok; i++) {
        lengths l;
        size_t len;
        drawn();
        c.version = 1 + (uint32_t)below(2);
        if (c.version == 1)
            c.tolerance.y = c.tolerance.x;
        measure(0);
        l = room_for(vertices_needed(), c.slices);
        expect_bytes(BYTES, c.bytes_len);
        ref_write();
        len = want[BYTES].used;
        memcpy(bytes, (uint8_t *)want[BYTES].words + BEFORE, len);
        for (size_t faults = below(4); faults > 0; faults--)
            bytes[rarely(2) ? below(len) : below(HEAD[c.version])] =
                (uint8_t)(rarely(2) ? below(4) : below(256));
        if (rarely(50))
            len = below(len + 1);
        ok &= replays(bytes, len, l);
    }
    check(ok && given[0] && given[1] + given[13] && given[3] && given[4] && given[5] && given[6] &&
              given[7] && given[8] && given[9] && given[11] && given[12] && given[14],
          "%d damaged records of both versions: %u accepted, and each number given", COUNT,
          given[0]);
}

static void nothing(void)
{
    lengths none = room_for(0, 0);
    int ok = 1;
    the_union(2);
    ok &= replays(NULL, 0, none) && replays(NULL, 0, THE_MOST);
    for (uint32_t version = 1; version <= 2; version++) {
        the_union(version);
        c.slices = 0;
        c.starts = (mask_starts){0, 0, 0};
        measure(0);
        ok &= writes(0) && replays(written, written_len, none);
    }
    check(ok, "no bytes are 11; no slices need no room, and NULL will do");
}

int main(void)
{
    make_room();
    squares();
    sizes();
    beyond_the_most();
    lengths_of_records();
    each_byte();
    versions();
    tolerances();
    editions();
    late_packets();
    byte_rooms();
    replay_rooms();
    nans();
    write_faults();
    replay_faults();
    draws();
    again();
    damages();
    nothing();
    return finish("record_test");
}
