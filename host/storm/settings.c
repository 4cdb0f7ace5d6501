/*
 * Settings by edition, beside a plain list of what was entered, over long histories; and
 * records of any content.
 */
#include "storm.h"

typedef struct setting {
    double numbers[3];
} setting;

static _Thread_local setting entered[16];
static _Thread_local size_t entered_count;

/* ---- The record in the host's copy ---- */

void begin_settings(void)
{
    memset(F(SETTINGS), 0, 48 * 8);
    U(ENTERED)[0] = 0;
    entered_count = 0;
    if (below(3) == 0) { /* any content is some record */
        for (int i = 0; i < 48; i++)
            F(SETTINGS)[i] = i % 3 == 2 ? coordinate() : tolerance();
        if (below(2))
            F(SETTINGS)[below(48)] = NAN;
        U(ENTERED)[0] = below(2) ? below(20) : (size_t)(draw() << 11);
        entered_count = U(ENTERED)[0] > 16 ? 16 : U(ENTERED)[0];
        memcpy(entered, F(SETTINGS), sizeof entered);
    }
}

/* Now and then a list of another length, which is 1. */
static void lend_record(void)
{
    LEN(ENTERED) = 1;
    LEN(SETTINGS) = 48;
    if (rarely(16))
        LEN(ENTERED) = below(4);
    if (rarely(16))
        LEN(SETTINGS) = below(2) ? below(60) : 45 + below(7);
}

static bool wrong_record(void) { return LEN(ENTERED) != 1 || LEN(SETTINGS) != 48; }

static double odd_tolerance(void)
{
    static const double list[] = {0, -0.0, 1, 1.0000000000000002, 5e-324, -5e-324, 1.5, -1};
    double bad[] = {NAN, INFINITY, -INFINITY, -NAN};
    return below(3) ? tolerance() : below(4) ? list[below(8)] : bad[below(4)];
}

void storm_settings_enter(void)
{
    double limit = below(4) ? (double)below(100) : odd_tolerance(), x = odd_tolerance(),
           y = odd_tolerance();
    begin_call("mask_settings_enter");
    if (entered_count == 16 && rarely(4))
        begin_settings();
    if (rarely(16))
        limit = 1.7976931348623157e308;
    lend_record();
    mask_edition_answer a = mask_settings_enter(KEEP(ENTERED), KEEP(SETTINGS), x, y, limit);
    say(a.refusal);
    say(a.edition);
    uint32_t refusal = wrong_record()             ? 1
                       : entered_count >= 16      ? 17
                       : !good_tolerance(x) || !good_tolerance(y) || !isfinite(limit) || limit < 0
                           ? 4
                           : 0;
    expect(refusal);
    expect(refusal == 0 ? entered_count + 1 : 0);
    if (refusal == 0) {
        double numbers[3] = {x, y, limit};
        memcpy(WANT_F(SETTINGS) + 3 * entered_count, numbers, sizeof numbers);
        memcpy(F(SETTINGS) + 3 * entered_count, numbers, sizeof numbers);
        memcpy(entered[entered_count].numbers, numbers, sizeof numbers);
        entered_count++;
        WANT_U(ENTERED)[0] = U(ENTERED)[0] = entered_count;
    }
    settle();
}

static size_t draw_edition(void)
{
    return below(12) ? 1 + below(entered_count + 1) : below(2) ? 0 : (size_t)(draw() << 11);
}

void storm_settings_ask(void)
{
    size_t asked = draw_edition();
    begin_call("mask_settings_ask");
    lend_record();
    mask_setting_answer a = mask_settings_ask(READ(ENTERED), READ(SETTINGS), asked);
    say(a.refusal);
    say_number(a.tolerance_x);
    say_number(a.tolerance_y);
    say_number(a.area_limit);
    uint32_t refusal = wrong_record() ? 1 : asked == 0 || asked > entered_count ? 16 : 0;
    expect(refusal);
    if (refusal == 0)
        for (int i = 0; i < 3; i++)
            expect_number(entered[asked - 1].numbers[i]);
    else
        expect_zeros(3);
    settle();
}

/* ---- The area pass: refusals 1 16 4 5 9 ---- */

void storm_area_pass(void)
{
    size_t loops = count_to(1792), asked = draw_edition();
    begin_call("mask_area_pass");
    double limit = asked >= 1 && asked <= entered_count ? entered[asked - 1].numbers[2] : 1;
    for (size_t i = 0; i < loops; i++) {
        double near = near_to(limit, 0);
        F(AREAS)[i] = below(3) ? coordinate() * 8 : below(2) ? near : -near;
        if (!isfinite(F(AREAS)[i]))
            F(AREAS)[i] = 1e300;
    }
    LEN(AREAS) = loops;
    knob_list(AREAS, 1);
    knob_count(&loops);
    knob_room(KEPT, loops);
    lend_record();
    spoil();
    mask_count_answer a = mask_area_pass(READ(AREAS), loops, READ(ENTERED), READ(SETTINGS), asked,
                                         WRITE(KEPT));
    say(a.refusal);
    say(a.count);
    uint32_t refusal = LEN(AREAS) != loops || loops > 1792 || wrong_record() ? 1
                       : asked == 0 || asked > entered_count                 ? 16
                       : !isfinite(limit) || limit < 0                       ? 4
                                                                             : 0;
    for (size_t i = 0; refusal == 0 && i < loops; i++)
        if (!isfinite(F(AREAS)[i]))
            refusal = 5;
    if (refusal == 0 && LEN(KEPT) < loops)
        refusal = 9;
    size_t kept = 0;
    if (refusal == 0) {
        for (size_t i = 0; i < loops; i++)
            if (!(fabs(F(AREAS)[i]) < limit))
                WANT_U(KEPT)[kept++] = i;
        zero_want(KEPT, kept, loops);
    }
    expect(refusal);
    expect(kept);
    settle();
}
