/*
 * The storm. usage:
 *   storm SECONDS SEED [CALLS]     until the time is over, or so many calls were made
 *   storm --threads CALLS SEED     eight threads at once, each on its own data, then each alone
 * The status is 0 where nothing differed. A difference names the seed and the call: the same
 * seed comes to it again.
 */
#include "storm.h"

#include <pthread.h>
#include <signal.h>
#include <time.h>
#include <unistd.h>

_Thread_local const char *entry_now;
_Thread_local uint64_t seed_now, call_now;
_Thread_local uint32_t refusal_now;
extern _Thread_local bool digesting;

void differs(const char *what)
{
    printf("storm: DIFFERENCE in %s: %s (seed %llu, call %llu)\n", entry_now, what,
           (unsigned long long)seed_now, (unsigned long long)call_now);
    fflush(stdout);
    _exit(1);
}

/* A page was touched that is not lent, or written that is only lent to be read. */
static void outside(int number)
{
    (void)number;
    differs("touched memory that was not lent, or wrote a list that is only read");
}

/* ---- Which entry is called how often, in 256 calls ---- */

static const struct {
    const char *name;
    storm_entry *call;
    int share;
    const char *refusals; /* that it can give, in their order */
} ENTRIES[] = {
    {"mask_view_vertex", storm_view_vertex, 14, "1 2 3 5 6 7"},
    {"mask_view_vertices", storm_view_vertices, 12, "1 2 3 5 6 7 9"},
    {"mask_create", storm_create, 11, "1 2 4 5 6 7"},
    {"mask_create_on_single_segment", storm_single, 14, "1 2 4 5 6"},
    {"mask_from_entire_pline", storm_entire, 10, "1 2 3 5"},
    {"mask_slice_span", storm_span, 14, "1 2 3 4 5 6 15"},
    {"mask_from_slice_points", storm_slice_points, 14, "1 2 3 4 5 6 15"},
    {"mask_from_new_start", storm_new_start, 12, "1 2 3 4 5 6"},
    {"mask_validate_for_source", storm_validate, 14, "1 2 3 5 6 14"},
    {"mask_reopen", storm_reopen, 12, "1 2 3 5 6"},
    {"mask_unmoved", storm_unmoved, 10, "1 2 3 5 6 7"},
    {"mask_cut_order", storm_cut_order, 12, "1 2 3 4 5 6 7 9"},
    {"mask_candidates", storm_candidates, 10, "1 2 3 4 5 6 7 9"},
    {"mask_candidates_along", storm_candidates_along, 10, "1 2 3 4 5 6 7 9"},
    {"mask_prune", storm_prune, 10, "1 2 3 5 6 7 9"},
    {"mask_stitch", storm_stitch, 14, "1 2 3 16 4 5 6 7 8 14 9"},
    {"mask_area_pass", storm_area_pass, 8, "1 16 4 5 9"},
    {"mask_settings_enter", storm_settings_enter, 6, "1 17 4"},
    {"mask_settings_ask", storm_settings_ask, 6, "1 16"},
    {"mask_record_write", storm_record_write, 6, "12 1 2 3 4 5 6 7 8 14 9"},
    {"mask_record_replay", storm_record_replay, 6, "11 12 13 1 2 3 4 5 6 7 8 14 9"},
    {"mask_straight_winding", storm_winding, 10, "1 2 18"},
    {"mask_straight_area", storm_area, 8, "1 2 18"},
    {"mask_straight_report", storm_report, 6, "1 2 18 19"},
    {"mask_straight_slices", storm_straight_slices, 6, "1 2 3 4 5 18 6 7 9"},
    {"mask_store_put", storm_put, 1, "1 3 5 22 20"}, /* the four of the store stand last, and one draw is for all */
    {"mask_store_release", storm_release, 0, "1 22 21"},
    {"mask_store_list", storm_list, 0, "1 9 22"},
    {"mask_store_compact", storm_compact, 0, "1 22"},
};
enum { COUNT = sizeof ENTRIES / sizeof *ENTRIES, STORE_ENTRIES = COUNT - 4, WHEEL = 256 };
enum { MOST_REFUSAL = 22, LONG_RUN = 5000000 };

static unsigned char wheel[WHEEL];

static void make_wheel(void)
{
    int at = 0;
    for (int i = 0; i < COUNT; i++)
        for (int k = 0; k < ENTRIES[i].share; k++)
            wheel[at++ % WHEEL] = (unsigned char)i;
    if (at != WHEEL) {
        fprintf(stderr, "storm: the shares are %d\n", at);
        exit(2);
    }
}

/* ---- A run ---- */

typedef struct run {
    uint64_t seed, calls, digest;
    double seconds;
    uint64_t answered[COUNT][MOST_REFUSAL + 1]; /* how often each number; 0 is accepted */
} run;

static double clock_now(void)
{
    struct timespec t;
    clock_gettime(CLOCK_MONOTONIC, &t);
    return (double)t.tv_sec + 1e-9 * (double)t.tv_nsec;
}

static void begin_run(uint64_t seed)
{
    if (L[0].open == NULL)
        make_lists();
    seed_now = seed;
    call_now = 0;
    drawing = (seed + 1) * 0x9e3779b97f4a7c15 | 1;
    digest = 0;
    begin_settings();
    begin_store();
}

static void call_entry(run *r, int i)
{
    ENTRIES[i].call();
    call_now++;
    r->answered[i][refusal_now]++;
}

/* Calls on the store come in a row, with more puts than releases or fewer, so that it is full
 * at times and empty at times. */
static void store_history(run *r)
{
    size_t puts = below(11), calls = rarely(60) ? below(3000) : 1 + below(8);
    for (; calls > 0; calls--) {
        size_t way = below(10);
        call_entry(r, STORE_ENTRIES + (way < puts ? 0 : way < 8 ? 1 : way == 8 ? 2 : 3));
    }
}

static void storm(run *r)
{
    double end = clock_now() + r->seconds;
    uint64_t most = r->calls;
    begin_run(r->seed);
    while (call_now < most && ((call_now & 1023) || clock_now() < end)) {
        int i = wheel[draw() % WHEEL];
        if (i < STORE_ENTRIES)
            call_entry(r, i);
        else
            store_history(r);
    }
    r->calls = call_now;
    r->digest = digest;
}

/* A line for each entry. Answers how many of its numbers were never given. */
static int report_entry(const run *r, int i)
{
    const uint64_t *answered = r->answered[i];
    uint64_t calls = 0;
    int never = 0;
    for (int n = 0; n <= MOST_REFUSAL; n++)
        calls += answered[n];
    printf("  %-29s %11llu calls, %11llu accepted;", ENTRIES[i].name, (unsigned long long)calls,
           (unsigned long long)answered[0]);
    for (const char *c = ENTRIES[i].refusals; *c != 0; c += strcspn(c, " ") + (c[strcspn(c, " ")] == ' ')) {
        int n = atoi(c);
        printf(" %d: %llu", n, (unsigned long long)answered[n]);
        never += answered[n] == 0;
    }
    putchar('\n');
    return never + (answered[0] == 0);
}

/* A run that is long enough has met every number that an entry can answer. */
static int report(const run *r)
{
    uint64_t accepted = 0;
    int never = 0;
    for (int i = 0; i < COUNT; i++) {
        never += report_entry(r, i);
        accepted += r->answered[i][0];
    }
    printf("storm: seed %llu, %llu calls, %llu accepted, 0 differences", (unsigned long long)r->seed,
           (unsigned long long)r->calls, (unsigned long long)accepted);
    if (never > 0)
        printf("; %d numbers were never met", never);
    putchar('\n');
    return never > 0 && r->calls >= LONG_RUN;
}

/* ---- Eight threads ---- */

enum { THREADS = 8 };

static void *one_thread(void *argument)
{
    digesting = true;
    storm(argument);
    return NULL;
}

static int threads(uint64_t calls, uint64_t seed)
{
    static run together[THREADS], alone[THREADS];
    pthread_t thread[THREADS];
    for (int i = 0; i < THREADS; i++) {
        together[i] = alone[i] = (run){.seed = seed + (uint64_t)i, .calls = calls, .seconds = 1e9};
        if (pthread_create(thread + i, NULL, one_thread, together + i) != 0)
            return 2;
    }
    for (int i = 0; i < THREADS; i++)
        pthread_join(thread[i], NULL);
    for (int i = 0; i < THREADS; i++) {
        if (pthread_create(thread, NULL, one_thread, alone + i) != 0)
            return 2;
        pthread_join(thread[0], NULL);
        if (alone[i].digest != together[i].digest || alone[i].calls != together[i].calls) {
            printf("storm: DIFFERENCE: thread %d answered otherwise than alone (seed %llu)\n", i,
                   (unsigned long long)alone[i].seed);
            return 1;
        }
    }
    printf("storm: 8 threads, seeds %llu on, %llu calls each, answers as alone, 0 differences\n",
           (unsigned long long)seed, (unsigned long long)calls);
    return 0;
}

int main(int count, char **words)
{
    make_wheel();
    signal(SIGSEGV, outside);
    signal(SIGBUS, outside);
#ifdef STORM_FAULTS
    if (count == 2 && strcmp(words[1], "--list") == 0) {
        for (int i = 0; FAULTS[i] != NULL; i++)
            printf("%d %s\n", i, FAULTS[i]);
        return 0;
    }
    if (count > 2 && strcmp(words[1], "--fault") == 0) {
        fault_now = (uint32_t)strtoul(words[2], NULL, 10);
        count -= 2;
        words += 2;
    }
#endif
    if (count == 4 && strcmp(words[1], "--threads") == 0)
        return threads(strtoull(words[2], NULL, 10), strtoull(words[3], NULL, 10));
    if (count != 3 && count != 4) {
        fprintf(stderr, "usage: storm SECONDS SEED [CALLS] | storm --threads CALLS SEED\n");
        return 2;
    }
    run r = {.seed = strtoull(words[2], NULL, 10), .seconds = strtod(words[1], NULL),
             .calls = count == 4 ? strtoull(words[3], NULL, 10) : UINT64_MAX};
    storm(&r);
    return report(&r);
}
