/* See keep.h. Files are little-endian 64-bit words:
 *
 *     mark     run, mark, name of the kind, checksum
 *     saved    the dumps of all registers, the 29 settings, run, name of the kind, checksum
 *
 * A file is replaced as a whole: written as NAME.new, synced, renamed, and the folder synced. The rename is the step that decides. A save
 * belongs to the run that made it: it is restored only while the mark has that run's number, and every start raises the number. */
#define _POSIX_C_SOURCE 200809L

#include <errno.h>
#include <fcntl.h>
#include <stdint.h>
#include <stdio.h>
#include <stdlib.h>
#include <sys/file.h>
#include <sys/stat.h>
#include <unistd.h>

#include "keep.h"

#define WORD 8
/* Behind the content of every file: its kind and its checksum. */
#define SEAL (2 * WORD)
#define MARK_BYTES (2 * WORD + SEAL)
/* Behind the dumps of a save: settings, run and seal. */
#define TRAILER (STRIKES_SETTINGS * WORD + WORD + SEAL)
/* "mark   1" and "saved  1" as bytes. */
#define MARK_KIND 0x312020206b72616dU
#define SAVED_KIND 0x3120206465766173U

struct bytes {
    unsigned char *at;
    size_t length;
};

const char *keep_reason(uint64_t number)
{
    static const char *const refusals[] = {
        "nothing was refused",
        "a setting or limit is out of bounds, or a code is not listed",
        "fewer words are lent than the settings need",
        "the words are not sound, or keep other settings",
        "there is no such register",
        "the output is too short for the dump",
        "a register that is pending has no dump",
        "the dump is cut short",
        "the output is too short for the view",
    };
    static const char *const own[] = {
        "a file cannot be read, written or synced",
        "another process has the folder",
        "there is no memory for the file",
        "the mark is lost, and none was brought",
    };
    if (number < sizeof refusals / sizeof refusals[0])
        return refusals[number];
    if (number >= KEEP_DISK && number - KEEP_DISK < sizeof own / sizeof own[0])
        return own[number - KEEP_DISK];
    return "an unknown number";
}

/* ---- words and checksums */

static void put_word(unsigned char *at, uint64_t word)
{
    for (int byte = 0; byte < WORD; byte++)
        at[byte] = (unsigned char)(word >> (8 * byte));
}

static uint64_t word_at(const unsigned char *at)
{
    uint64_t word = 0;
    for (int byte = 0; byte < WORD; byte++)
        word |= (uint64_t)at[byte] << (8 * byte);
    return word;
}

static uint64_t checksum_step(uint64_t sum, unsigned char byte)
{
    sum ^= byte;
    for (int bit = 0; bit < 8; bit++)
        sum = (sum >> 1) ^ ((sum & 1) != 0 ? 0xc96c5795d7870f42U : 0);
    return sum;
}

/* CRC-64/XZ: it differs after any damage within 64 bits in a row. */
static uint64_t checksum(const unsigned char *at, size_t length)
{
    uint64_t sum = UINT64_MAX;
    for (size_t byte = 0; byte < length; byte++)
        sum = checksum_step(sum, at[byte]);
    return ~sum;
}

/* The last two words of a file. */
static void seal(struct bytes file, uint64_t kind)
{
    put_word(file.at + file.length - SEAL, kind);
    put_word(file.at + file.length - WORD, checksum(file.at, file.length - WORD));
}

static int sealed(struct bytes file, uint64_t kind)
{
    return file.length >= SEAL && word_at(file.at + file.length - SEAL) == kind
           && word_at(file.at + file.length - WORD) == checksum(file.at, file.length - WORD);
}

/* ---- files in the folder */

static int there_is(const struct keep *keep, const char *name)
{
    return faccessat(keep->folder, name, F_OK, 0) == 0 || errno != ENOENT;
}

static int write_all(int file, struct bytes bytes)
{
    while (bytes.length > 0) {
        ssize_t written = write(file, bytes.at, bytes.length);
        if (written < 0 && errno != EINTR)
            return 0;
        bytes.at += written < 0 ? 0 : written;
        bytes.length -= written < 0 ? 0 : (size_t)written;
    }
    return 1;
}

/* Writes a file and waits until the disk has it. */
static int write_synced(const struct keep *keep, const char *name, struct bytes bytes)
{
    int file = openat(keep->folder, name, O_WRONLY | O_CREAT | O_TRUNC | O_CLOEXEC, 0644);
    int ok = file >= 0 && write_all(file, bytes) && fsync(file) == 0;
    return file >= 0 && close(file) == 0 && ok;
}

/* Puts a whole new file in the place of an old one. After a crash there is the old one or the new one. */
static uint64_t replace(const struct keep *keep, const char *name, struct bytes bytes)
{
    char fresh[16];
    snprintf(fresh, sizeof fresh, "%s.new", name);
    if (!write_synced(keep, fresh, bytes) || renameat(keep->folder, fresh, keep->folder, name) != 0 || fsync(keep->folder) != 0)
        return KEEP_DISK;
    return 0;
}

static int read_all(int file, struct bytes bytes)
{
    while (bytes.length > 0) {
        ssize_t got = read(file, bytes.at, bytes.length);
        if (got == 0 || (got < 0 && errno != EINTR))
            return 0;
        bytes.at += got < 0 ? 0 : got;
        bytes.length -= got < 0 ? 0 : (size_t)got;
    }
    return 1;
}

static uint64_t read_open(int file, struct bytes *bytes)
{
    struct stat status;
    if (fstat(file, &status) != 0)
        return KEEP_DISK;
    bytes->length = (size_t)status.st_size;
    /* One byte more, as an empty file is no lack of memory. */
    bytes->at = malloc(bytes->length + 1);
    if (bytes->at == NULL)
        return KEEP_NO_MEMORY;
    return read_all(file, *bytes) ? 0 : KEEP_DISK;
}

/* The whole file, to be freed by the caller in any case. */
static uint64_t read_file(const struct keep *keep, const char *name, struct bytes *bytes)
{
    uint64_t number;
    int file = openat(keep->folder, name, O_RDONLY | O_CLOEXEC);
    if (file < 0)
        return KEEP_DISK;
    number = read_open(file, bytes);
    close(file);
    return number;
}

/* Opens the folder and locks it for as long as it is open. */
static uint64_t lock_folder(struct keep *keep, const char *folder)
{
    keep->folder = open(folder, O_RDONLY | O_DIRECTORY | O_CLOEXEC);
    if (keep->folder < 0)
        return KEEP_DISK;
    if (flock(keep->folder, LOCK_EX | LOCK_NB) == 0)
        return 0;
    return errno == EWOULDBLOCK ? KEEP_IN_USE : KEEP_DISK;
}

/* ---- the mark */

static uint64_t write_mark(struct keep *keep, uint64_t run, uint64_t mark)
{
    unsigned char file[MARK_BYTES];
    struct bytes bytes = {file, sizeof file};
    uint64_t number;
    put_word(file, run);
    put_word(file + WORD, mark);
    seal(bytes, MARK_KIND);
    number = replace(keep, "mark", bytes);
    if (number == 0) {
        keep->run = run;
        keep->mark = mark;
    }
    return number;
}

/* What the mark says of the folder: found is FIRST, MARK_LOST or, until a save is found, FALLBACK. */
static uint64_t read_mark(struct keep *keep)
{
    struct bytes file = {NULL, 0};
    uint64_t number = 0;
    keep->run = keep->mark = 0;
    keep->found = there_is(keep, "saved") || there_is(keep, "used") ? KEEP_MARK_LOST : KEEP_FIRST;
    if (!there_is(keep, "mark"))
        return 0;
    number = read_file(keep, "mark", &file);
    keep->found = KEEP_MARK_LOST;
    if (number == 0 && file.length == MARK_BYTES && sealed(file, MARK_KIND)) {
        keep->found = KEEP_FALLBACK;
        keep->run = word_at(file.at);
        keep->mark = word_at(file.at + WORD);
    }
    free(file.at);
    return number;
}

/* Raises the mark on the disk to a stamp, and the reserve ahead of it. */
static uint64_t reserve(struct keep *keep, uint64_t stamp)
{
    if (stamp <= keep->mark)
        return 0;
    if (keep->found == KEEP_MARK_LOST)
        return KEEP_NO_MARK;
    return write_mark(keep, keep->run, stamp > UINT64_MAX - keep->reserve ? UINT64_MAX : stamp + keep->reserve);
}

/* ---- saves */

static void put_trailer(const struct keep *keep, struct bytes file)
{
    unsigned char *at = file.at + file.length - TRAILER;
    for (size_t setting = 0; setting < STRIKES_SETTINGS; setting++)
        put_word(at + setting * WORD, keep->settings[setting]);
    put_word(at + STRIKES_SETTINGS * WORD, keep->run);
    seal(file, SAVED_KIND);
}

static int same_settings(const struct keep *keep, const unsigned char *at)
{
    size_t setting = 0;
    while (setting < STRIKES_SETTINGS && word_at(at + setting * WORD) == keep->settings[setting])
        setting++;
    return setting == STRIKES_SETTINGS;
}

/* Whether a trailer is of the run that the mark names, under these settings. */
static int is_of_last_run(const struct keep *keep, const unsigned char *trailer)
{
    return word_at(trailer + STRIKES_SETTINGS * WORD) == keep->run && same_settings(keep, trailer);
}

/* The dumps of the last stop. Where there are none to be restored, dumps has no bytes; an error of reading is damage too. */
static uint64_t read_saved(const struct keep *keep, struct bytes *dumps)
{
    uint64_t number = read_file(keep, "saved", dumps);
    int ours = number == 0 && dumps->length >= TRAILER && sealed(*dumps, SAVED_KIND)
               && is_of_last_run(keep, dumps->at + dumps->length - TRAILER);
    dumps->length = ours ? dumps->length - TRAILER : 0;
    return number == KEEP_NO_MEMORY ? number : 0;
}

/* Uses up what was saved. The mark gets the next run's number: from then on no file is the save of the last run. It is then renamed, so
   that the folder shows it. */
static uint64_t use_up(struct keep *keep)
{
    uint64_t number = write_mark(keep, keep->run + 1, keep->mark);
    if (number != 0 || !there_is(keep, "saved"))
        return number;
    return renameat(keep->folder, "saved", keep->folder, "used") == 0 && fsync(keep->folder) == 0 ? 0 : KEEP_DISK;
}

/* ---- the registers */

static uint64_t open_registers(struct keep *keep, uint64_t start)
{
    uint64_t starts[STRIKES_STARTS] = {0};
    for (size_t r = 0; r < STRIKES_MOST_REGISTERS; r++)
        starts[STRIKES_START_CODE(r)] = start;
    return strikes_open(keep->settings, STRIKES_SETTINGS, keep->limits, STRIKES_LIMITS, starts, STRIKES_STARTS, keep->words, keep->length);
}

/* Brings all dumps back into empty registers. */
static uint64_t restore_registers(struct keep *keep, struct bytes dumps)
{
    uint64_t number = open_registers(keep, STRIKES_START_EMPTY);
    keep->found = KEEP_WHOLE;
    for (uint64_t r = 0; number == 0 && r < keep->settings[STRIKES_SET_REGISTERS]; r++) {
        uint64_t whole = 0, read = 0;
        number = strikes_restore(keep->settings, STRIKES_SETTINGS, keep->words, keep->length, r, dumps.at, dumps.length, &whole, &read);
        keep->found = whole ? keep->found : KEEP_PARTLY;
        dumps.at += read;
        dumps.length -= (size_t)read;
    }
    return number;
}

/* Begins all registers at the mark. */
static uint64_t begin_registers(struct keep *keep)
{
    uint64_t begun, number = open_registers(keep, STRIKES_START_FALLBACK);
    keep->found = KEEP_FALLBACK;
    for (uint64_t r = 0; number == 0 && r < keep->settings[STRIKES_SET_REGISTERS]; r++)
        number = strikes_begin(keep->settings, STRIKES_SETTINGS, keep->words, keep->length, r, keep->mark, &begun);
    return number;
}

static uint64_t start_registers(struct keep *keep, struct bytes dumps)
{
    if (keep->found == KEEP_FIRST)
        return open_registers(keep, STRIKES_START_EMPTY);
    if (keep->found == KEEP_MARK_LOST)
        return open_registers(keep, STRIKES_START_FALLBACK);
    if (dumps.length > 0 && restore_registers(keep, dumps) == 0)
        return 0;
    return begin_registers(keep);
}

/* Dumps all registers one after the other; where the next would go. */
static uint64_t dump_registers(const struct keep *keep, struct bytes out, size_t *length)
{
    uint64_t number = 0, written = 0;
    *length = 0;
    for (uint64_t r = 0; number == 0 && r < keep->settings[STRIKES_SET_REGISTERS]; r++) {
        number = strikes_dump(keep->settings, STRIKES_SETTINGS, keep->words, keep->length, r, out.at + *length, out.length - *length,
                              &written);
        *length += number == 0 ? (size_t)written : 0;
    }
    return number;
}

/* The newest stamp that a register's view has, or the least one. */
static uint64_t newest_of(const uint64_t *view, uint64_t written, uint64_t least)
{
    for (uint64_t at = 0; at < written; at += 4)
        least = view[at + 2] > least ? view[at + 2] : least;
    return least;
}

/* ---- what a host calls */

uint64_t keep_start(struct keep *keep, const char *folder)
{
    struct bytes dumps = {NULL, 0};
    uint64_t number = lock_folder(keep, folder);
    if (number == 0)
        number = read_mark(keep);
    if (number == 0 && keep->found == KEEP_FALLBACK && there_is(keep, "saved"))
        number = read_saved(keep, &dumps);
    if (number == 0)
        number = start_registers(keep, dumps);
    /* So far nothing on the disk was altered. The registers must not be used before this has gone through. */
    if (number == 0 && keep->found != KEEP_MARK_LOST)
        number = use_up(keep);
    free(dumps.at);
    return number;
}

uint64_t keep_begin(struct keep *keep, uint64_t mark)
{
    uint64_t number;
    if (keep->found != KEEP_MARK_LOST)
        return 0;
    /* Runs are counted on from the mark, so that no file that is put back has the number of a later run. */
    keep->run = keep->mark = mark;
    number = use_up(keep);
    return number == 0 ? begin_registers(keep) : number;
}

uint64_t keep_take(struct keep *keep, uint64_t register_number, uint64_t fingerprint, uint64_t stamp, uint64_t reading, uint64_t flag,
                   uint64_t kind, uint64_t number, uint64_t *verdict)
{
    uint64_t judged = STRIKES_NEW, refused = 0;
    /* A ticket above the mark is judged first, so that the mark rises only for one that is New. */
    if (stamp > keep->mark)
        refused = strikes_judge_batch(keep->settings, STRIKES_SETTINGS, keep->words, keep->length, register_number, fingerprint, stamp,
                                      reading, flag, kind, number, &judged);
    if (refused == 0 && judged == STRIKES_NEW)
        refused = reserve(keep, stamp);
    if (refused == 0 && judged == STRIKES_NEW)
        refused = strikes_take_batch(keep->settings, STRIKES_SETTINGS, keep->words, keep->length, register_number, fingerprint, stamp,
                                     reading, flag, kind, number, &judged);
    if (refused == 0)
        *verdict = judged;
    return refused;
}

uint64_t keep_restore(struct keep *keep, uint64_t register_number, const uint8_t *bytes, size_t bytes_length, uint64_t *whole,
                      uint64_t *read)
{
    uint64_t view[STRIKES_MOST_REGISTER_VIEW], written, present, floor, number;
    if (keep->found == KEEP_MARK_LOST)
        return KEEP_NO_MARK;
    number = strikes_restore(keep->settings, STRIKES_SETTINGS, keep->words, keep->length, register_number, bytes, bytes_length, whole,
                             read);
    if (number == 0)
        number = strikes_floor(keep->settings, STRIKES_SETTINGS, keep->words, keep->length, register_number, &present, &floor);
    if (number == 0)
        number = strikes_view_register(keep->settings, STRIKES_SETTINGS, keep->words, keep->length, register_number, view,
                                       STRIKES_MOST_REGISTER_VIEW, &written);
    return number == 0 ? reserve(keep, newest_of(view, written, floor)) : number;
}

uint64_t keep_stop(struct keep *keep)
{
    /* 8 bytes for each word are enough for the dumps of all registers. */
    struct bytes file = {NULL, keep->length * WORD + TRAILER};
    uint64_t number = strikes_close(keep->settings, STRIKES_SETTINGS, keep->words, keep->length);
    if (number != 0)
        return number;
    file.at = malloc(file.length);
    if (file.at == NULL)
        return KEEP_NO_MEMORY;
    number = dump_registers(keep, (struct bytes){file.at, file.length - TRAILER}, &file.length);
    if (number == 0) {
        file.length += TRAILER;
        put_trailer(keep, file);
        number = replace(keep, "saved", file);
    }
    free(file.at);
    return number;
}

void keep_end(struct keep *keep)
{
    if (keep->folder >= 0)
        close(keep->folder);
    keep->folder = -1;
}
