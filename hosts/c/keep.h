/*
 * What a gateway keeps in a folder, so that no ticket is counted twice through a stop or a crash. docs/HOST-GUIDE.md, "Crashes", has the
 * protocol and says why each step is where it is.
 *
 *     struct keep keep = {.settings = settings, .limits = limits, .words = words, .length = needed, .reserve = KEEP_MINUTE};
 *     keep_start(&keep, folder);      opens the registers; keep.found says what they know
 *     keep_take(&keep, ..);           each ticket: count it only if the verdict is New
 *     keep_stop(&keep);               closes the registers and saves them
 *     keep_end(&keep);                in any case
 *
 * All other calls of strikes.h may be used beside it on the same words, apart from open, begin, resume, and take and restore in place of
 * those here. One process at a time has a folder. The files are the same as those of hosts/rust/src/keep.rs.
 */
#ifndef KEEP_H
#define KEEP_H

#include "strikes.h"

/* ---- what a function returns: 0, the number of a refusal (strikes.h, 1 to 99), or one of these */

/* A file or the folder cannot be read, written or synced. errno says why. */
#define KEEP_DISK 101
/* Another process has the folder. */
#define KEEP_IN_USE 102
/* There is no memory for the file. */
#define KEEP_NO_MEMORY 103
/* The mark is lost, and keep_begin has not brought another. */
#define KEEP_NO_MARK 104

/* What a function returned, in words. */
const char *keep_reason(uint64_t number);

/* How far ahead of the tickets the mark is written, in ms: one sync of the disk for a minute of stamps. After a crash tickets stamped
   up to so much after the last that was counted are Late. */
#define KEEP_MINUTE 60000

/* What a start found, and how the registers stand. */
enum keep_found {
    /* Nothing: no gateway has ever run on this folder. The registers are Empty. */
    KEEP_FIRST,
    /* What the last stop saved. It is restored, whole. */
    KEEP_WHOLE,
    /* The same, but some of it did not fit. What did not fit is Late: tell the operator, and give the settings or limits more room. */
    KEEP_PARTLY,
    /* No save of the last run under these settings: it crashed, or the file is damaged. Nothing stamped up to the mark is New: tell the
       operator. */
    KEEP_FALLBACK,
    /* No mark, or a damaged one, in a folder that was used. The registers wait, and every ticket is Unjudged until keep_begin. */
    KEEP_MARK_LOST
};

struct keep {
    /* Set by the host before keep_start, and left as they are. */
    const uint64_t *settings; /* STRIKES_SETTINGS words */
    const uint64_t *limits;   /* STRIKES_LIMITS words */
    uint64_t *words;          /* as many as strikes_words_needed says */
    size_t length;
    uint64_t reserve; /* KEEP_MINUTE, or another number of ms */
    /* Set by keep_start. The host only reads them. */
    enum keep_found found;
    uint64_t mark; /* no ticket stamped after it has been counted, as the disk has it */
    uint64_t run;  /* the number of this start */
    int folder;    /* open and locked, or -1 */
};

/* Opens the words and brings back what the last stop saved, or else starts at the mark. What was saved is used up by it. The folder
   must exist: to make it is to say that no gateway has run on it. Where it does not return 0, use nothing and call keep_end. */
uint64_t keep_start(struct keep *keep, const char *folder);

/* After KEEP_MARK_LOST: a mark by hand, a number that no counted ticket's stamp is above. It is written, and the registers begin at it.
   Otherwise nothing is done. */
uint64_t keep_begin(struct keep *keep, uint64_t mark);

/* As strikes_take_batch. Before a ticket above the mark is New, the mark is raised on the disk. Where that fails, the ticket is not
   taken and may be brought again. */
uint64_t keep_take(struct keep *keep, uint64_t register_number, uint64_t fingerprint, uint64_t stamp, uint64_t reading, uint64_t flag,
                   uint64_t kind, uint64_t number, uint64_t *verdict);

/* As strikes_restore, for a neighbour's dump. The mark is raised to all that the register then holds: after a crash it is Late. */
uint64_t keep_restore(struct keep *keep, uint64_t register_number, const uint8_t *bytes, size_t bytes_length, uint64_t *whole,
                      uint64_t *read);

/* Closes the share book, so that no ticket is New any more, and saves every register. */
uint64_t keep_stop(struct keep *keep);

/* Gives the folder back. */
void keep_end(struct keep *keep);

#endif
