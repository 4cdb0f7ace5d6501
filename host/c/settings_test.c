/*
 * Calls the two entries over the record of settings as a host does, and compares every
 * answer and every number of the record with what request K7 says. One line for each
 * check; the status is 0 where none failed.
 *
 * The reference below is written from the request and from nothing else: a plain list of
 * settings, which only grows.
 */
#include "testing.h"

AT(mask_edition_answer, refusal, 0);
AT(mask_edition_answer, edition, 8);
SIZE(mask_edition_answer, 16);
AT(mask_setting_answer, refusal, 0);
AT(mask_setting_answer, tolerance_x, 8);
AT(mask_setting_answer, tolerance_y, 16);
AT(mask_setting_answer, area_limit, 24);
SIZE(mask_setting_answer, 32);

enum { MOST_SETTINGS = 16, NUMBERS = 48 };

/* The lists lent. */
enum { ENTERED, SETTINGS };

typedef struct {
    double x, y, limit;
} setting;

/* The record as the host keeps it. */
typedef struct {
    size_t entered;
    double numbers[NUMBERS];
} host_record;

static const setting FINE = {1.0 / 1024, 1.0 / 2048, 0.5};

/* ---- The reference ---- */

/* "up to 16 settings" */
static size_t count_of(const host_record *r)
{
    return r->entered < MOST_SETTINGS ? r->entered : MOST_SETTINGS;
}

/* "tolerance or area limit is not finite or is out of range" */
static int good(setting s)
{
    return right_tolerance(s.x) && right_tolerance(s.y) && isfinite(s.limit) && s.limit >= 0;
}

static int same_bits(const void *a, const void *b, size_t count)
{
    return memcmp(a, b, 8 * count) == 0;
}

/* ---- One call, beside the reference ---- */

/* A list to be read and written, between guard values and a page that faults. */
static void *keep(int list, const void *from, size_t len)
{
    void *words = lend_room(list, len);
    if (len)
        memcpy(words, from, 8 * len);
    return words;
}

/* Where the guard values stand, none was written. */
static int guarded(int list, size_t len)
{
    uint64_t words[BEFORE];
    guard(words, 0);
    return same_bits((uint64_t *)lent[list].end - len - BEFORE, words, BEFORE);
}

/* Enters a setting. The record is kept as the call left it. */
static int enter_right(host_record *r, setting s)
{
    size_t count = count_of(r);
    uint32_t number = count == MOST_SETTINGS ? 17 : good(s) ? 0 : 4;
    host_record after = *r;
    mask_edition_answer a =
        mask_settings_enter(keep(ENTERED, &r->entered, 1), 1, keep(SETTINGS, r->numbers, NUMBERS),
                            NUMBERS, s.x, s.y, s.limit);
    if (!number) {
        memcpy(after.numbers + 3 * count, &s, sizeof s);
        after.entered = count + 1;
    }
    r->entered = *left(ENTERED, 1);
    memcpy(r->numbers, left_numbers(SETTINGS, NUMBERS), sizeof r->numbers);
    return a.refusal == number && a.edition == (number ? 0 : count + 1) &&
           r->entered == after.entered && same_bits(r->numbers, after.numbers, NUMBERS) &&
           guarded(ENTERED, 1) && guarded(SETTINGS, NUMBERS);
}

/* Asks for an edition. The lists are lent from memory that faults when it is written. */
static int ask_right(const host_record *r, size_t edition)
{
    static const double zeros[3];
    int known = edition >= 1 && edition <= count_of(r);
    const size_t *entered = lend(ENTERED, &r->entered, 1);
    const double *numbers = lend(SETTINGS, r->numbers, NUMBERS);
    mask_setting_answer a = mask_settings_ask(entered, 1, numbers, NUMBERS, edition);
    return a.refusal == (known ? 0 : 16) &&
           same_bits(&a.tolerance_x, known ? r->numbers + 3 * (edition - 1) : zeros, 3);
}

/* The memory of both lists may be written again. */
static void writable(void)
{
    for (int list = ENTERED; list <= SETTINGS; list++)
        mprotect(lent[list].pages, (size_t)(lent[list].end - lent[list].pages),
                 PROT_READ | PROT_WRITE);
}

static int all_asked(const host_record *r)
{
    const size_t others[] = {0, count_of(r) + 1, MOST_SETTINGS + 1, HALF, SIZE_MAX};
    int ok = 1;
    for (size_t e = 1; e <= count_of(r); e++)
        ok &= ask_right(r, e);
    for (size_t i = 0; i < sizeof others / sizeof *others; i++)
        ok &= ask_right(r, others[i]);
    writable();
    return ok;
}

/* ---- The checks ---- */

static setting number(size_t i)
{
    double n = (double)i;
    return (setting){1 / (n + 2), 1 / (2 * n + 3), n / 4};
}

static void seventeen(void)
{
    host_record r = {0};
    int ok = all_asked(&r);
    for (size_t i = 0; i < MOST_SETTINGS; i++)
        ok &= enter_right(&r, number(i)) && r.entered == i + 1 && all_asked(&r);
    check(ok, "sixteen settings are entered under 1 to 16, and each is asked after each");
    ok = enter_right(&r, number(16)) && enter_right(&r, (setting){0, 0, -1}) && r.entered == 16;
    check(ok && all_asked(&r),
          "a seventeenth is refused with 17, in range or not, and changes nothing");
}

/* Numbers at the ends of the ranges, inside and outside. */
static const double ENDS[] = {0, -0.0, DBL_TRUE_MIN, -DBL_TRUE_MIN, 0.5, -1, 1, 1 + DBL_EPSILON,
                              DBL_MAX, -DBL_MAX, INFINITY, -INFINITY, NAN};

/* A setting with one number of it replaced: 0 the tolerance of x, 1 that of y, 2 the area limit. */
static setting with(int place, double n)
{
    setting s = FINE;
    *(place == 0 ? &s.x : place == 1 ? &s.y : &s.limit) = n;
    return s;
}

static void ranges(void)
{
    const char *const what[] = {"the tolerance of x: above 0, at most 1",
                                "the tolerance of y: above 0, at most 1",
                                "the area limit: from 0 to any finite number, and -0 stays -0"};
    for (int place = 0; place < 3; place++) {
        int ok = 1;
        for (size_t i = 0; i < sizeof ENDS / sizeof *ENDS; i++) {
            host_record r = {0};
            setting s = with(place, ENDS[i]);
            ok &= enter_right(&r, s) && r.entered == (size_t)good(s) && all_asked(&r);
        }
        check(ok, "number 4 looks at %s", what[place]);
    }
}

/* Both entries on lists of these lengths; the numbers would be refused too. */
static int lengths_refused(size_t *entered, size_t u, double *settings, size_t n)
{
    mask_edition_answer e = mask_settings_enter(entered, u, settings, n, NAN, 0.5, 0);
    mask_setting_answer a = mask_settings_ask(entered, u, settings, n, 0);
    return e.refusal == 1 && e.edition == 0 && a.refusal == 1 && a.tolerance_x == 0 &&
           a.tolerance_y == 0 && a.area_limit == 0;
}

static void lengths(void)
{
    const size_t sizes[][2] = {{0, 48}, {2, 48}, {1, 0}, {1, 47}, {1, 49}, {1, 51}, {0, 0}};
    size_t counts[2] = {16, 1}, were[2] = {16, 1};
    double numbers[51], before[51];
    int ok = 1;
    for (size_t i = 0; i < 51; i++)
        numbers[i] = before[i] = 0.25;
    for (size_t i = 0; i < sizeof sizes / sizeof *sizes; i++) {
        size_t u = sizes[i][0], n = sizes[i][1];
        ok &= lengths_refused(u ? counts : NULL, u, n ? numbers : NULL, n);
    }
    ok &= same_bits(counts, were, 2) && same_bits(numbers, before, 51);
    check(ok, "other lengths are refused with 1, before 17, 4 and 16, and nothing is written");
}

/* Any 64 bits as a number. */
static double any_number(void)
{
    uint64_t bits = draw();
    double a;
    memcpy(&a, &bits, sizeof a);
    return a;
}

static double drawn_tolerance(void)
{
    const double list[] = {1, DBL_TRUE_MIN, 0, nextafter(1, 2), NAN, INFINITY, -1};
    return rarely(8) ? list[below(7)] : 1.0 / (double)(1 + below(4096));
}

static setting drawn_setting(void)
{
    const double list[] = {0, -0.0, DBL_MAX, INFINITY, NAN, -1};
    double x = drawn_tolerance(), y = drawn_tolerance();
    return (setting){x, y, rarely(8) ? list[below(6)] : (double)below(1000)};
}

static void contents(void)
{
    int ok = 1;
    seed = 1;
    for (int i = 0; i < 20000 && ok; i++) {
        host_record r;
        r.entered = rarely(2) ? below(0) : below(20);
        for (size_t k = 0; k < NUMBERS; k++)
            r.numbers[k] = any_number();
        ok &= all_asked(&r) && enter_right(&r, drawn_setting()) && all_asked(&r);
    }
    check(ok, "any 49 numbers are some record: 20,000 drawn, each asked, extended and asked again");
}

static void histories(void)
{
    long calls = 0, entries = 0;
    int ok = 1;
    seed = 7;
    while (calls < 200000 && ok) {
        host_record r = {0};
        setting plain[MOST_SETTINGS];
        size_t count = 0;
        for (size_t n = 1 + below(60); n > 0 && ok; n--, calls++) {
            setting s = drawn_setting();
            size_t before = r.entered;
            if (rarely(2)) {
                ok &= enter_right(&r, s);
                writable();
                if (r.entered > before) {
                    plain[count++] = s;
                    entries++;
                }
                ok &= r.entered == count && same_bits(r.numbers, plain, 3 * count);
            } else {
                ok &= ask_right(&r, rarely(10) ? below(0) : below(19));
                writable();
            }
        }
    }
    check(ok, "drawn histories beside a plain list: %ld calls, %ld entered", calls, entries);
}

int main(void)
{
    make_list(ENTERED, 1);
    make_list(SETTINGS, NUMBERS);
    watch("FAIL an entry touched memory that it was not lent, or wrote what it may only read\n");
    seventeen();
    ranges();
    lengths();
    contents();
    histories();
    return finish("settings_test");
}
