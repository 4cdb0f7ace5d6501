/*
 * Each entry on a stack of just what the header says, and what lies below may not be touched.
 * A call with the largest inputs is made on a stack of its own, whose end is a page that
 * faults. The caller's own frame, which holds the arguments, is measured: a call of an entry
 * that takes next to nothing tells it. To see that the test can fail, each entry that takes
 * more than a page is also called with half of it, in a process of its own, which must not
 * live. usage: stack
 */
#include "storm.h"

#include <pthread.h>
#include <signal.h>
#include <sys/mman.h>
#include <sys/wait.h>
#include <ucontext.h>
#include <unistd.h>

enum { VC = 1024, HITS = 512, LAPS = 128, CUTS = 768, SLICES = 1792, PLACES = 1792, OUTLINES = 4096 };

/* ---- The largest inputs ---- */

static double outline[3 * VC], straight[3 * VC], hit[2 * HITS], whole_hit[2 * HITS], lap[6 * LAPS],
    splits[9 * CUTS], cut_room[2 * CUTS], cand[6 * CUTS], probe[6 * CUTS], slice[6 * SLICES],
    slice_room[6 * SLICES], room[3 * (1 + 2 * SLICES)], vertices[3 * (VC + 2)], areas[SLICES],
    settings[48], held_slice[6 * PLACES], list_slice[6 * 896];
static size_t hit_at[2 * HITS], lap_at[7 * LAPS], cut_at[3 * CUTS], cand_at[2 * CUTS],
    slice_at[4 * SLICES], slice_at_room[4 * SLICES], ends[SLICES], chain[SLICES], chain_ends[SLICES],
    chain_how[SLICES], kept[SLICES], entered[1], held[PLACES], held_at[4 * PLACES], handles[896],
    list_at[4 * 896], many_ends[OUTLINES], small_at[4 * 28];
static uint32_t cand_edition[CUTS], lap_edition[LAPS], slice_edition[SLICES], edition_room[SLICES],
    held_edition[PLACES], list_edition[896];
static uint8_t inside[CUTS], bytes[4738];
static int64_t points[2 * VC], many[4 * OUTLINES];

static void make_inputs(void)
{
    for (size_t i = 0; i < VC; i++) {
        outline[3 * i] = (double)i;
        outline[3 * i + 1] = (double)(i % 2);
        points[2 * i] = (int64_t)i * 390000;
        points[2 * i + 1] = i % 2 ? 400000000 : -400000000;
        straight[3 * i] = (double)points[2 * i];
        straight[3 * i + 1] = (double)points[2 * i + 1];
    }
    for (size_t i = 0; i < HITS; i++) {
        hit_at[2 * i] = hit_at[2 * i + 1] = HITS - i;
        hit[2 * i] = (double)(HITS - i) + 0.5;
        whole_hit[2 * i] = (double)points[2 * (HITS - i)] + 195000;
    }
    for (size_t i = 0; i < LAPS; i++)
        lap_at[7 * i] = lap_at[7 * i + 1] = lap_at[7 * i + 2] = lap_at[7 * i + 3] = i;
    for (size_t i = 0; i < SLICES; i++) {
        slice_at[4 * i] = 1 + i % 2;
        slice_at[4 * i + 2] = i % VC;
        slice_at[4 * i + 3] = 1;
        slice[6 * i] = slice[6 * i + 4] = (double)i;
        slice[6 * i + 5] = 0.25;
        areas[i] = (double)i;
    }
    for (size_t i = 0; i < 28; i++) {
        small_at[4 * i] = 1 + i % 2;
        small_at[4 * i + 1] = 1;
        small_at[4 * i + 2] = i;
        small_at[4 * i + 3] = 64;
    }
    for (size_t i = 0; i < OUTLINES; i++)
        many_ends[i] = 2 * (i + 1);
    entered[0] = 1;
    settings[0] = settings[1] = 1;
    settings[2] = 2;
    held[0] = 2; /* party 0's handle 1 */
}

/* ---- A call of each entry, accepted ---- */

static const mask_view VIEW = {VC - 1, VC, {1, 0, 0.5}, 0.25, {2, 0}, 1};
static const mask_split SPLIT = {{1, 0, 0.5}, {2, 0, 0.25}};
static volatile uint32_t refusal;

#define ALL(list) list, sizeof list / sizeof *list
#define STORE ALL(held), ALL(held_at), ALL(held_slice), ALL(held_edition)
#define ENTRY(name, ...) \
    static void name(void) { refusal = mask_##name(__VA_ARGS__).refusal; }

ENTRY(view_vertex, ALL(outline), VC, VIEW, VC)
ENTRY(view_vertices, ALL(outline), VC, VIEW, ALL(vertices))
ENTRY(create, ALL(outline), VC, VC - 1, VIEW.end_point, 5, VIEW.updated_start, VC, 0.5, 0.5, SPLIT)
ENTRY(create_on_single_segment, ALL(outline), VC, 1, VIEW.updated_start, VIEW.end_point, 0.5, 0.5)
ENTRY(from_entire_pline, ALL(outline), VC, 1)
ENTRY(slice_span, ALL(outline), VC, 1, 5, VIEW.end_point, 5, (mask_point){1, 0}, 0.5, 0.5)
ENTRY(from_slice_points, ALL(outline), VC, 1, 5, VIEW.end_point, 5, (mask_point){1, 0}, 0.5, 0.5,
      SPLIT, SPLIT)
ENTRY(from_new_start, ALL(outline), VC, 0, 5, VIEW.end_point, 0.5, 0.5, SPLIT, SPLIT)
ENTRY(validate_for_source, ALL(outline), VC, 0, VIEW, 0, 1, 1)
ENTRY(reopen, ALL(outline), VC, 1, VIEW, 0, 1, 1)
ENTRY(unmoved, ALL(outline), VC, ALL(outline), VC, VIEW)
ENTRY(cut_order, ALL(outline), VC, 1, ALL(hit_at), ALL(hit), HITS, ALL(lap_at), ALL(lap), LAPS, 0.5,
      0.5, ALL(cut_at), ALL(cut_room))
ENTRY(candidates, ALL(outline), VC, 0, 1, ALL(hit_at), ALL(hit), HITS, ALL(lap_at), ALL(lap), LAPS,
      ALL(splits), 0.5, 0.5, ALL(cand_at), ALL(cand), ALL(probe), ALL(cand_edition))
ENTRY(candidates_along, ALL(outline), VC, 0, 1, ALL(hit_at), ALL(hit), HITS, ALL(lap_at), ALL(lap),
      LAPS, ALL(cut_at), ALL(splits), 0.5, 0.5, ALL(cand_at), ALL(cand), ALL(probe),
      ALL(cand_edition))
ENTRY(prune, 0, 0, VC, VC, ALL(cand_at), ALL(cand), ALL(cand_edition), ALL(inside), CUTS, ALL(cand_at),
      ALL(cand), ALL(cand_edition), ALL(inside), CUTS, ALL(lap_at), ALL(lap), ALL(lap_edition), LAPS,
      ALL(slice_at_room), ALL(slice_room), ALL(edition_room))
ENTRY(stitch, ALL(outline), VC, 0, ALL(outline), VC, 0, ALL(slice_at), ALL(slice), ALL(slice_edition),
      SLICES, 0, SLICES, SLICES, 0, ALL(entered), ALL(settings), 1, ALL(room), ALL(ends), ALL(chain),
      ALL(chain_ends), ALL(chain_how))
ENTRY(area_pass, ALL(areas), SLICES, ALL(entered), ALL(settings), 1, ALL(kept))
ENTRY(settings_enter, ALL(entered), ALL(settings), 0.5, 0.5, 1)
ENTRY(settings_ask, ALL(entered), ALL(settings), 1)
ENTRY(record_write, 2, outline, 3 * 64, 64, 0, outline, 3 * 64, 64, 0, ALL(small_at), slice, 6 * 28,
      slice_edition, 28, 28, 0, 28, 28, 1, 1, 0.5, ALL(bytes))
ENTRY(record_replay, ALL(bytes), ALL(room), ALL(ends), ALL(chain), ALL(chain_ends), ALL(chain_how))
ENTRY(straight_winding, ALL(points), VC, 7, 7)
ENTRY(straight_area, ALL(points), VC)
ENTRY(straight_report, ALL(many), ALL(many_ends), OUTLINES)
ENTRY(straight_slices, 0, 0, ALL(straight), VC, 0, ALL(straight), VC, 0, ALL(hit_at), ALL(whole_hit),
      HITS, ALL(lap_at), ALL(lap), ALL(lap_edition), LAPS, 0.5, 0.5, ALL(slice_at_room),
      ALL(slice_room), ALL(edition_room))
ENTRY(store_put, STORE, 1, small_at, 4, slice, 6, 1)
ENTRY(store_release, STORE, 1, 0)
ENTRY(store_list, STORE, 1, ALL(handles), ALL(list_at), ALL(list_slice), ALL(list_edition))
ENTRY(store_compact, STORE, 1)

/* ---- A stack of so many bytes ---- */

enum {
    PAGE = 4096,
    ROOM_ABOVE = 1 << 20,
    CALLER = 320 /* what is left to the caller: its frame and the arguments; those here take 72 to 304 */
};

static unsigned char *below_is_nothing; /* the lowest byte of the stack */
static ucontext_t back, there;
static void (*asked)(void);

static void run_asked(void) { asked(); }

static void call_on(size_t size)
{
    if (getcontext(&there) != 0)
        exit(2);
    there.uc_stack.ss_sp = below_is_nothing;
    there.uc_stack.ss_size = size;
    there.uc_link = &back;
    makecontext(&there, run_asked, 0);
    swapcontext(&back, &there);
}

typedef struct asked_of {
    void (*call)(void);
    size_t size;
} asked_of;

/* On a thread of its own, which changes over to the small stack. */
static void *on_thread(void *argument)
{
    const asked_of *a = argument;
    asked = a->call;
    call_on(a->size);
    return NULL;
}

/* Whether the call comes to its end and is accepted; in a process of its own. */
static bool lives_on(void (*call)(void), size_t size)
{
    pid_t child = fork();
    int status;
    if (child == 0) {
        pthread_t thread;
        asked_of a = {call, size};
        signal(SIGSEGV, SIG_DFL);
        refusal = 99;
        if (pthread_create(&thread, NULL, on_thread, &a) != 0 || pthread_join(thread, NULL) != 0)
            _exit(2);
        _exit(refusal == 0 ? 0 : 1);
    }
    return waitpid(child, &status, 0) == child && WIFEXITED(status) && WEXITSTATUS(status) == 0;
}

static int checks, failed;

static void check(bool ok, const char *name, const char *what, size_t size)
{
    checks++;
    failed += !ok;
    printf("%s mask_%s: %s %zu bytes of stack\n", ok ? "ok  " : "FAIL", name, what, size);
}

/* The least stack that is enough, in steps of 16 bytes: what is really taken. */
static size_t least(void (*call)(void), size_t most)
{
    size_t low = 0, high = most;
    while (high - low > 16) {
        size_t middle = (low + high) / 32 * 16;
        if (lives_on(call, middle + CALLER))
            high = middle;
        else
            low = middle;
    }
    return high;
}

static void test(const char *name, void (*call)(void), size_t said, bool measured)
{
    call(); /* so that what it calls of the C library is found before, and the input is accepted */
    if (call == store_release)
        store_put(); /* the handle that it let go */
    check(lives_on(call, said + CALLER), name, "a thread does with", said);
    if (said >= PAGE)
        check(!lives_on(call, said / 2), name, "and not with half of", said);
    if (measured)
        printf("     mask_%s: this call and its caller took %zu\n", name, least(call, said) + CALLER);
}

#define TEST(name, said) test(#name, name, said, measured)

int main(int count, char **words)
{
    bool measured = count == 2 && strcmp(words[1], "--measure") == 0;
    unsigned char *all = mmap(NULL, PAGE + ROOM_ABOVE, PROT_READ | PROT_WRITE,
                              MAP_PRIVATE | MAP_ANONYMOUS, -1, 0);
    setvbuf(stdout, NULL, _IOLBF, 0);
    if (all == MAP_FAILED || mprotect(all, PAGE, PROT_NONE) != 0)
        return 2;
    below_is_nothing = all + PAGE;
    make_inputs();
    TEST(view_vertex, MASK_STACK_VIEW_VERTEX);
    TEST(view_vertices, MASK_STACK_VIEW_VERTICES);
    TEST(create, MASK_STACK_CREATE);
    TEST(create_on_single_segment, MASK_STACK_CREATE_ON_SINGLE_SEGMENT);
    TEST(from_entire_pline, MASK_STACK_FROM_ENTIRE_PLINE);
    TEST(slice_span, MASK_STACK_SLICE_SPAN);
    TEST(from_slice_points, MASK_STACK_FROM_SLICE_POINTS);
    TEST(from_new_start, MASK_STACK_FROM_NEW_START);
    TEST(validate_for_source, MASK_STACK_VALIDATE_FOR_SOURCE);
    TEST(reopen, MASK_STACK_REOPEN);
    TEST(unmoved, MASK_STACK_UNMOVED);
    TEST(cut_order, MASK_STACK_CUT_ORDER);
    cut_at[2]++; /* a wrong hint: the order is found, which takes more */
    TEST(candidates_along, MASK_STACK_CANDIDATES_ALONG);
    TEST(candidates, MASK_STACK_CANDIDATES);
    TEST(prune, MASK_STACK_PRUNE);
    TEST(stitch, MASK_STACK_STITCH);
    TEST(area_pass, MASK_STACK_AREA_PASS);
    TEST(settings_enter, MASK_STACK_SETTINGS_ENTER);
    TEST(settings_ask, MASK_STACK_SETTINGS_ASK);
    TEST(record_write, MASK_STACK_RECORD_WRITE);
    TEST(record_replay, MASK_STACK_RECORD_REPLAY);
    TEST(straight_winding, MASK_STACK_STRAIGHT_WINDING);
    TEST(straight_area, MASK_STACK_STRAIGHT_AREA);
    TEST(straight_report, MASK_STACK_STRAIGHT_REPORT);
    TEST(straight_slices, MASK_STACK_STRAIGHT_SLICES);
    TEST(store_put, MASK_STACK_STORE_PUT);
    TEST(store_list, MASK_STACK_STORE_LIST);
    TEST(store_compact, MASK_STACK_STORE_COMPACT);
    store_put();
    TEST(store_release, MASK_STACK_STORE_RELEASE);
    printf("stack: %d checks, %d failed\n", checks, failed);
    return failed != 0;
}
