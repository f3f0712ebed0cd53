/*
 * What a start of hosts/c/keep.c makes of every state of the folder, the same states as hosts/rust/src/keep/tests.rs. That a running host
 * counts once is shown by killing it (kill.py). Status 0 only if all is as it must be.
 */
#define _POSIX_C_SOURCE 200809L

#include <inttypes.h>
#include <stdio.h>
#include <stdlib.h>
#include <string.h>
#include <sys/stat.h>
#include <unistd.h>

#include "keep.h"

#define SETTINGS(registers, ahead)                                                                                                       \
    {                                                                                                                                    \
        [STRIKES_SET_REGISTERS] = registers, [STRIKES_SET_PLACES] = 4, [STRIKES_SET_PAIRS] = 16,                                         \
        [STRIKES_SET_ORIGIN_BEHIND(0)] = 10000, [STRIKES_SET_ORIGIN_AHEAD(0)] = ahead, [STRIKES_SET_COPY_BEHIND(0)] = 10000,             \
        [STRIKES_SET_COPY_AHEAD(0)] = ahead, [STRIKES_SET_BUCKET(0)] = 1000, [STRIKES_SET_SLOTS(0)] = 8,                                 \
        [STRIKES_SET_ORIGIN_BEHIND(1)] = 10000, [STRIKES_SET_ORIGIN_AHEAD(1)] = 1000, [STRIKES_SET_COPY_BEHIND(1)] = 10000,              \
        [STRIKES_SET_COPY_AHEAD(1)] = 1000, [STRIKES_SET_BUCKET(1)] = 1000, [STRIKES_SET_SLOTS(1)] = 8,                                  \
    }

static const uint64_t one_register[STRIKES_SETTINGS] = SETTINGS(1, 2000);
static const uint64_t narrow[STRIKES_SETTINGS] = SETTINGS(1, 0);
static const uint64_t two_registers[STRIKES_SETTINGS] = SETTINGS(2, 2000);
static const uint64_t limits[STRIKES_LIMITS] = {90, 90, 90, 90, 90};
static const uint64_t no_feeders[STRIKES_LIMITS] = {90, 0, 90, 90, 90};
static const uint64_t unfit[STRIKES_LIMITS] = {90, 90, 90, 90, 1000001};

/* The ticket that is counted: stamped as far ahead of the clock as the window lets it. */
#define FINGERPRINT 7
#define STAMP 102000
#define READING 100000

struct file {
    unsigned char bytes[4096];
    size_t length;
};

static char folder[256];
static uint64_t words[8192];
static int failures;
static unsigned long checks;

static void check(int holds, const char *what, unsigned long at)
{
    checks++;
    if (!holds) {
        failures++;
        fprintf(stderr, "states: %s (%lu)\n", what, at);
    }
}

/* ---- files */

static const char *path_of(const char *name)
{
    static char path[512];
    snprintf(path, sizeof path, "%s/%s", folder, name);
    return path;
}

static struct file get(const char *name)
{
    struct file file = {{0}, 0};
    FILE *stream = fopen(path_of(name), "rb");
    if (stream == NULL)
        return file;
    file.length = fread(file.bytes, 1, sizeof file.bytes, stream);
    fclose(stream);
    return file;
}

static void put(const char *name, const struct file *file)
{
    FILE *stream = fopen(path_of(name), "wb");
    int ok = stream != NULL && fwrite(file->bytes, 1, file->length, stream) == file->length;
    ok = stream != NULL && fclose(stream) == 0 && ok;
    check(ok, "a file could not be written", 0);
}

static void clear(void)
{
    static const char *const names[] = {"mark", "saved", "used", "mark.new", "saved.new"};
    for (size_t at = 0; at < sizeof names / sizeof names[0]; at++)
        remove(path_of(names[at]));
}

/* ---- gateways */

static struct keep start(const uint64_t *settings, const uint64_t *with)
{
    struct keep keep = {.settings = settings, .limits = with, .words = words, .length = 8192, .reserve = KEEP_MINUTE, .folder = -1};
    check(keep_start(&keep, folder) == 0, "a start failed", 0);
    return keep;
}

static uint64_t take(struct keep *keep, uint64_t register_number, uint64_t fingerprint, uint64_t stamp, uint64_t reading)
{
    uint64_t verdict = 99;
    uint64_t number = keep_take(keep, register_number, fingerprint, stamp, reading, STRIKES_ON, STRIKES_FEEDER, 1, &verdict);
    return number == 0 ? verdict : number;
}

/* Counts the ticket, and stops in good order or not at all. */
static void count_one(int stops)
{
    struct keep keep;
    clear();
    keep = start(one_register, limits);
    check(keep.found == KEEP_FIRST, "a new folder is a first start", 0);
    check(take(&keep, 0, FINGERPRINT, STAMP, READING) == STRIKES_NEW, "the first ticket is New", 0);
    check(!stops || keep_stop(&keep) == 0, "a stop failed", 0);
    keep_end(&keep);
}

/* A start that finds this, and does not count the ticket again. */
static void finds(const uint64_t *settings, const uint64_t *with, enum keep_found found, const char *what, unsigned long at)
{
    static const uint64_t verdicts[] = {STRIKES_NEW, STRIKES_DUPLICATE, STRIKES_LATE, STRIKES_LATE, STRIKES_UNJUDGED};
    struct keep keep = start(settings, with);
    check(keep.found == found && take(&keep, 0, FINGERPRINT, STAMP, STAMP) == verdicts[found], what, at);
    keep_end(&keep);
}

/* ---- the states */

static void crash_before_the_first_ticket(void)
{
    struct keep keep;
    clear();
    keep = start(one_register, limits);
    keep_end(&keep);
    keep = start(one_register, limits);
    check(keep.found == KEEP_FALLBACK && keep.mark == 0, "the second start is no first one", 0);
    check(take(&keep, 0, FINGERPRINT, STAMP, READING) == STRIKES_NEW, "where nothing was counted nothing is Late", 0);
    keep_end(&keep);
}

static void crash_and_stop(void)
{
    struct keep refused = {.settings = one_register, .words = words, .length = 8192};
    struct file saved;
    count_one(0);
    finds(one_register, limits, KEEP_FALLBACK, "after a crash the counted ticket is Late", 0);
    count_one(1);
    saved = get("saved");
    refused.limits = unfit;
    check(keep_start(&refused, folder) == STRIKES_UNFIT, "limits that do not fit are refused", 0);
    keep_end(&refused);
    finds(one_register, limits, KEEP_WHOLE, "what was saved is restored, also after a start that was refused", 0);
    check(get("saved").length == 0 && get("used").length == saved.length, "and renamed", 0);
    finds(one_register, limits, KEEP_FALLBACK, "it is restored once", 0);
    put("saved", &saved);
    finds(one_register, limits, KEEP_FALLBACK, "a save that is put back is not restored", 0);
}

static void every_bit(const char *name, enum keep_found found, const char *what)
{
    struct file saved, mark, whole;
    count_one(1);
    saved = get("saved");
    mark = get("mark");
    whole = get(name);
    for (size_t bit = 0; bit < 8 * whole.length; bit++) {
        struct file turned = whole;
        turned.bytes[bit / 8] ^= (unsigned char)(1 << (bit % 8));
        put("mark", &mark);
        put("saved", &saved);
        put(name, &turned);
        finds(one_register, limits, found, what, bit);
    }
}

static void every_length(void)
{
    struct file saved, mark;
    count_one(1);
    saved = get("saved");
    mark = get("mark");
    for (size_t length = 0; length < saved.length + 16; length++) {
        struct file cut = saved;
        cut.length = length;
        put("mark", &mark);
        put("saved", &cut);
        finds(one_register, limits, length == saved.length ? KEEP_WHOLE : KEEP_FALLBACK, "a save that is cut is refused", length);
    }
}

static void mark_by_hand(void)
{
    struct keep keep;
    struct file saved;
    uint64_t whole, read;
    count_one(1);
    saved = get("saved");
    remove(path_of("mark"));
    finds(one_register, limits, KEEP_MARK_LOST, "a save without a mark is no first start", 0);
    keep = start(one_register, limits);
    check(keep_restore(&keep, 0, saved.bytes, saved.length, &whole, &read) == KEEP_NO_MARK, "nothing is restored without a mark", 0);
    check(keep_begin(&keep, STAMP) == 0 && keep.found == KEEP_FALLBACK, "a mark is brought", 0);
    check(take(&keep, 0, FINGERPRINT, STAMP, READING) == STRIKES_LATE, "what it covers is Late", 0);
    keep_end(&keep);
    put("saved", &saved);
    finds(one_register, limits, KEEP_FALLBACK, "a save of before is not restored after it", 0);
}

static void other_settings_and_limits(void)
{
    count_one(1);
    finds(narrow, limits, KEEP_FALLBACK, "other settings: what was counted under the old is Late", 0);
    count_one(1);
    finds(one_register, no_feeders, KEEP_PARTLY, "lower limits: restored partly", 0);
}

static void two_in_one_save(void)
{
    struct keep keep;
    clear();
    keep = start(two_registers, limits);
    check(take(&keep, 0, FINGERPRINT, STAMP, READING) == STRIKES_NEW, "one is New", 0);
    check(take(&keep, 1, 8, 101000, READING) == STRIKES_NEW, "and one on the other", 0);
    check(keep_stop(&keep) == 0, "a stop failed", 0);
    check(take(&keep, 0, 9, STAMP, READING) == STRIKES_FULL, "after a stop no ticket is New", 0);
    keep_end(&keep);
    keep = start(two_registers, limits);
    check(keep.found == KEEP_WHOLE && take(&keep, 0, FINGERPRINT, STAMP, READING) == STRIKES_DUPLICATE, "the first is restored", 0);
    check(take(&keep, 1, 8, 101000, READING) == STRIKES_DUPLICATE, "the second is restored", 0);
    check(take(&keep, 1, FINGERPRINT, STAMP, STAMP) == STRIKES_NEW, "each has its own", 0);
    keep_end(&keep);
}

static void in_use_or_missing(void)
{
    struct keep second, first;
    clear();
    first = start(one_register, limits);
    second = first;
    check(keep_start(&second, folder) == KEEP_IN_USE, "one process at a time has the folder", 0);
    keep_end(&second);
    check(keep_start(&second, path_of("none")) == KEEP_DISK, "a missing folder is no first start", 0);
    keep_end(&second);
    keep_end(&first);
}

static void mark_rises_for_new_tickets_alone(void)
{
    struct keep keep;
    uint64_t verdict = 99;
    clear();
    keep = start(one_register, limits);
    check(take(&keep, 0, FINGERPRINT, STAMP, READING) == STRIKES_NEW && keep.mark == STAMP + KEEP_MINUTE, "it rises ahead", 0);
    check(take(&keep, 0, 8, 500000, UINT64_MAX / 2) == STRIKES_LATE, "a clock far ahead", 0);
    check(take(&keep, 0, 8, 500000, READING) == STRIKES_AHEAD, "a stamp far ahead", 0);
    check(keep_take(&keep, 0, 8, 500000, 500000, STRIKES_OFF, STRIKES_FEEDER, 1, &verdict) == 0 && verdict == STRIKES_UNJUDGED,
          "a clock that does not judge", 0);
    check(keep.mark == STAMP + KEEP_MINUTE, "they raise no mark", 0);
    keep_end(&keep);
}

static void disk_that_cannot_be_written(void)
{
    struct keep keep;
    clear();
    keep = start(one_register, limits);
    check(mkdir(path_of("mark.new"), 0755) == 0, "a folder in the way", 0);
    check(take(&keep, 0, FINGERPRINT, STAMP, READING) == KEEP_DISK, "without the disk no ticket is taken", 0);
    check(rmdir(path_of("mark.new")) == 0, "it goes", 0);
    check(take(&keep, 0, FINGERPRINT, STAMP, READING) == STRIKES_NEW, "and it may be brought again", 0);
    keep_end(&keep);
}

static void neighbours_dump(void)
{
    struct keep keep;
    struct file saved;
    uint64_t whole, read;
    count_one(1);
    saved = get("saved");
    clear();
    keep = start(one_register, limits);
    check(keep_restore(&keep, 0, saved.bytes, saved.length, &whole, &read) == 0 && whole == 1, "a save is a dump with bytes after it", 0);
    check(take(&keep, 0, FINGERPRINT, STAMP, READING) == STRIKES_DUPLICATE, "the neighbour's ticket is held", 0);
    keep_end(&keep);
    finds(one_register, limits, KEEP_FALLBACK, "after a crash it is Late", 0);
}

int main(void)
{
    const char *place = getenv("TMPDIR");
    snprintf(folder, sizeof folder, "%s/states-XXXXXX", place == NULL ? "/tmp" : place);
    if (mkdtemp(folder) == NULL) {
        perror(folder);
        return 1;
    }
    crash_before_the_first_ticket();
    crash_and_stop();
    every_bit("saved", KEEP_FALLBACK, "a save with a bit turned is refused");
    every_bit("mark", KEEP_MARK_LOST, "a mark with a bit turned is lost");
    every_length();
    mark_by_hand();
    other_settings_and_limits();
    two_in_one_save();
    in_use_or_missing();
    mark_rises_for_new_tickets_alone();
    disk_that_cannot_be_written();
    neighbours_dump();
    clear();
    rmdir(folder);
    printf("%lu checks of keep.c, %d failed\n", checks, failures);
    return failures == 0 ? 0 : 1;
}
