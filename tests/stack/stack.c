/*
 * The stack that each entry point of include/strikes.h takes: the deepest that any of many calls of it reached.
 *
 * A call runs on a stack of its own that was filled with a pattern. How far down the pattern is gone afterwards, less what an empty
 * function takes, is what the call took: its frames, those of all that it calls, and the arguments that go by the stack.
 *
 * Calls come at random, with a fixed seed, under small, middling and the largest settings and on slots that are sorted, so that each
 * refusal and each verdict comes, Whole and Partly too; where one does not come, the program ends with 1.
 *
 * entry_points.h is made by tests/stack/entry_points.py: ENTRY_POINTS, each entry point with what it is handed, and OUT_NUMBERS, the
 * most that one of them tells.
 */
#define _XOPEN_SOURCE 700
#include "strikes.h"
#include "entry_points.h"
#include <stdio.h>
#include <stdlib.h>
#include <string.h>
#include <ucontext.h>

enum { STACK = 256 * 1024, PATTERN = 0xa5 };

static unsigned char stack[STACK] __attribute__((aligned(64)));
static ucontext_t here, there;

static size_t depth(void (*run)(void)) {
    memset(stack, PATTERN, STACK);
    getcontext(&there);
    there.uc_stack.ss_sp = stack;
    there.uc_stack.ss_size = STACK;
    there.uc_link = &here;
    makecontext(&there, run, 0);
    swapcontext(&here, &there);
    size_t at = 0;
    while (at < STACK && stack[at] == PATTERN)
        at++;
    return STACK - at;
}

/* What the next call is handed, by the names of the arguments in include/strikes.h; and what it tells. tests/entries.py finds a name
 * that is left out. */
static struct {
    uint64_t settings[STRIKES_SETTINGS], limits[STRIKES_LIMITS], starts[STRIKES_STARTS], *words;
    uint8_t *bytes;
    void *out; /* bytes of a dump, words of a view */
    size_t settings_length, limits_length, starts_length, words_length, bytes_length, out_length;
    uint64_t register_number, fingerprint, stamp, reading, flag, kind, number, wanted, class_number, floor;
} next = {.limits_length = STRIKES_LIMITS, .starts_length = STRIKES_STARTS};
static uint64_t told[OUT_NUMBERS], status;

static void nothing(void) {}

#define RUN(name, ...) \
    static void run_##name(void) { status = strikes_##name(__VA_ARGS__); }
ENTRY_POINTS(RUN)

#define NUMBER(name, ...) is_##name,
enum { ENTRY_POINTS(NUMBER) ENTRIES };

#define START(name, ...) {"strikes_" #name, run_##name, 0, 0, 0},
static struct entry {
    const char *name;
    void (*run)(void);
    size_t deepest;
    unsigned long through, refused;
} entry[ENTRIES] = {ENTRY_POINTS(START)};

static size_t empty;
static unsigned long refusals[9], verdicts[6], restored[2];

static void measure(int which) {
    struct entry *e = &entry[which];
    size_t took = depth(e->run) - empty;
    if (took > e->deepest)
        e->deepest = took;
    if (status != STRIKES_OK) {
        e->refused++;
        refusals[status]++;
        return;
    }
    e->through++;
    if (which >= is_judge && which <= is_take_batch)
        verdicts[told[0]]++;
    if (which == is_restore || which == is_resume)
        restored[told[0]]++;
}

static uint64_t seed = 1;
static uint64_t below(uint64_t n) {
    seed = seed * 6364136223846793005u + 1442695040888963407u;
    return (seed >> 33) % n;
}

static void limits_at(uint64_t most) {
    for (int i = 0; i < STRIKES_LIMITS; i++)
        next.limits[i] = most;
}

/* The first generation of the first register holds three quarters of its slots, by fingerprints for which probing starts at one slot:
 * too far on to be followed, so that they are sorted. */
static void crowd(uint64_t places, uint64_t pairs, uint64_t slots) {
    uint64_t *generation = next.words + 20 + 3 * (4 + places * (2 * pairs + 4)) + 24;
    memset(generation, 0, 8 * (5 + slots));
    generation[0] = slots;
    generation[1] = 3 * slots / 4;
    for (uint64_t k = 0; k < generation[1]; k++)
        generation[5 + k] = slots * (k + 1);
}

/* Opens words with these settings, and makes calls at random; of 256 slots those of one generation are crowded at every call. */
static void calls_under(uint64_t registers, uint64_t places, uint64_t pairs, uint64_t behind, uint64_t ahead, uint64_t bucket,
                        uint64_t slots, int turns) {
    memset(next.settings, 0, sizeof next.settings);
    next.settings[STRIKES_SET_REGISTERS] = registers;
    next.settings[STRIKES_SET_PLACES] = places;
    next.settings[STRIKES_SET_PAIRS] = pairs;
    next.settings[STRIKES_SET_FEEDER_UNITS] = 1;
    next.settings[STRIKES_SET_PEER_UNITS] = 2;
    for (uint64_t r = 0; r < registers; r++) {
        next.settings[STRIKES_SET_ORIGIN_BEHIND(r)] = behind / 2;
        next.settings[STRIKES_SET_ORIGIN_AHEAD(r)] = ahead;
        next.settings[STRIKES_SET_COPY_BEHIND(r)] = behind;
        next.settings[STRIKES_SET_COPY_AHEAD(r)] = ahead;
        next.settings[STRIKES_SET_BUCKET(r)] = bucket;
        next.settings[STRIKES_SET_SLOTS(r)] = slots;
        next.starts[STRIKES_START_CODE(r)] = r % 3;
        next.starts[STRIKES_START_FLOOR(r)] = 5;
    }
    next.settings_length = STRIKES_SETTINGS;
    measure(is_words_needed);
    size_t needed = told[0];
    next.words = malloc(8 * needed);
    next.out = malloc(8 * needed);
    next.bytes = malloc(8 * needed);
    if (!next.words || !next.out || !next.bytes)
        exit(2);
    next.words_length = needed;
    next.out_length = next.bytes_length = 8 * needed;
    memset(next.bytes, 0, next.bytes_length);
    limits_at(200);
    measure(is_open);
    next.reading = behind;
    for (int turn = 0; turn < turns; turn++) {
        if (below(8) == 0)
            next.reading += below(4 * bucket);
        if (below(200) == 0)
            next.reading -= below(next.reading / 2 + 1);
        next.register_number = below(40) ? below(registers) : registers;
        next.fingerprint = below(4 * slots);
        next.stamp = next.reading - below(behind + 1) + below(ahead + bucket);
        next.flag = below(20) ? 1 : below(3);
        next.kind = below(40) ? below(4) : 4;
        next.number = next.floor = below(3);
        next.wanted = below(7);
        next.class_number = below(4);
        next.settings_length = below(60) ? STRIKES_SETTINGS : 28;
        next.words_length = below(60) ? needed : needed - 1;
        next.out_length = below(10) ? 8 * needed : below(64);
        static const int tickets[] = {is_take, is_take_batch, is_explain, is_stamp_for};
        int which = below(3) ? tickets[below(4)] : (int)below(ENTRIES);
        if (which == is_open && below(10))
            which = is_restore;
        if (which == is_close && below(10))
            which = is_dump;
        if (which == is_view_deliverer || which == is_view_register)
            next.out_length /= 8;
        if (which == is_set_limits)
            limits_at(below(2000));
        if (slots == 256)
            crowd(places, pairs, slots);
        size_t spoilt = below(50) ? needed : below(needed);
        uint64_t kept = spoilt < needed ? next.words[spoilt] : 0;
        if (spoilt < needed)
            next.words[spoilt] ^= 1;
        measure(which);
        if (spoilt < needed && which != is_open)
            next.words[spoilt] = kept;
        if (which == is_dump && status == STRIKES_OK) {
            memcpy(next.bytes, next.out, told[0]);
            next.bytes_length = below(4) ? told[0] : below(told[0]);
        }
    }
    free(next.words);
    free(next.out);
    free(next.bytes);
}

int main(void) {
    empty = depth(nothing);
    calls_under(1, 1, 2, 10, 10, 10, 2, 20000);
    calls_under(1, 4, 8, 20000, 2000, 1000, 8, 20000);
    calls_under(4, 8, 16, 20000, 2000, 1000, 64, 4000);
    calls_under(1, 4, 8, 20000, 2000, 1000, 256, 4000);
    calls_under(4, 64, 512, 3600000, 3600000, 28347, 1024, 200);
    printf("%-24s %10s %10s %10s\n", "entry point", "bytes", "through", "refused");
    for (int i = 0; i < ENTRIES; i++)
        printf("%-24s %10zu %10lu %10lu\n", entry[i].name, entry[i].deepest, entry[i].through, entry[i].refused);
    int missing = 0;
    for (int i = 1; i < 9; i++)
        missing |= !refusals[i];
    for (int i = 0; i < 6; i++)
        missing |= !verdicts[i];
    missing |= !restored[0] || !restored[1];
    if (missing)
        puts("a refusal, a verdict, Whole or Partly did not come");
    return missing;
}
