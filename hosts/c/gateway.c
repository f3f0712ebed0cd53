/*
 * A small gateway: reads tickets from a file and prints the verdict on each.
 *
 *     gateway TICKETS FOLDER [MARK]
 *
 * A line of the file is a ticket or a tick, by the gateway's clock in milliseconds:
 *
 *     READING f:ID|p:ID|r FINGERPRINT STAMP
 *     READING tick
 *
 * From a # on, a line is a comment. FOLDER keeps what the gateway knows from one run to the next (keep.h). It must exist, and be empty
 * before the first run. MARK is for a folder whose mark is lost: a number that no counted ticket's stamp is above.
 *
 * A ticket is counted when its line with New is printed: each line is written before the next ticket is read. At the end of the file, or
 * at a line that it cannot serve, the gateway stops and saves. Status 0 if all lines were served and all is saved, 1 if a call was
 * refused, 2 if a line or file could not be read or written.
 */
#include <errno.h>
#include <inttypes.h>
#include <stdint.h>
#include <stdio.h>
#include <stdlib.h>
#include <string.h>

#include "keep.h"

/* One register, tickets of one minute: a meter's own up to 60 s old, a neighbour's copy 45 s, and each up to 10 s ahead, in buckets
   of a second. 16 meters and 16 neighbours, and 96 tickets (three quarters of 128 slots) of each class in one bucket. */
static const uint64_t settings[STRIKES_SETTINGS] = {
    [STRIKES_SET_REGISTERS] = 1,
    [STRIKES_SET_PLACES] = 16,
    [STRIKES_SET_PAIRS] = 96,
    [STRIKES_SET_FEEDER_UNITS] = 1,
    [STRIKES_SET_PEER_UNITS] = 1,
    [STRIKES_SET_ORIGIN_BEHIND(0)] = 60000,
    [STRIKES_SET_ORIGIN_AHEAD(0)] = 10000,
    [STRIKES_SET_COPY_BEHIND(0)] = 45000,
    [STRIKES_SET_COPY_AHEAD(0)] = 10000,
    [STRIKES_SET_BUCKET(0)] = 1000,
    [STRIKES_SET_SLOTS(0)] = 128,
};

static const uint64_t limits[STRIKES_LIMITS] = {
    [STRIKES_LIMIT_FEEDER] = 1000,
    [STRIKES_LIMIT_FEEDERS] = 4000,
    [STRIKES_LIMIT_PEER] = 1000,
    [STRIKES_LIMIT_PEERS] = 4000,
    [STRIKES_LIMIT_RELAY] = 1000,
};

static const char *verdict_name(uint64_t verdict)
{
    static const char *const names[] = {"New", "Duplicate", "Late", "Ahead", "Full", "Unjudged"};
    return verdict < sizeof names / sizeof names[0] ? names[verdict] : "?";
}

/* Whether a call went through; says why it did not. */
static int went_through(uint64_t number, const char *call)
{
    if (number == 0)
        return 1;
    fprintf(stderr, "gateway: %s: %" PRIu64 ", %s%s%s\n", call, number, keep_reason(number), number == KEEP_DISK ? ": " : "",
            number == KEEP_DISK ? strerror(errno) : "");
    return 0;
}

/* 0, or the status to end with after a call that did not go through. */
static int status_of(uint64_t number, const char *call)
{
    return went_through(number, call) ? 0 : number < KEEP_DISK ? 1 : 2;
}

/* Tells the operator what is known. */
static void tell(const struct keep *keep)
{
    switch (keep->found) {
    case KEEP_FIRST:
        printf("started for the first time\n");
        break;
    case KEEP_WHOLE:
        printf("restored whole\n");
        break;
    case KEEP_PARTLY:
        printf("restored partly: what did not fit is Late\n");
        break;
    case KEEP_FALLBACK:
        printf("nothing to restore: tickets stamped up to %" PRIu64 " are Late\n", keep->mark);
        break;
    case KEEP_MARK_LOST:
        fprintf(stderr, "gateway: the mark is lost or damaged: bring one, a number that no counted ticket's stamp is above\n");
        break;
    }
}

/* Lends the words and starts: 0, or the status to end with. */
static int start(struct keep *keep, const char *folder, const uint64_t *mark)
{
    uint64_t needed;
    int status;
    if (!went_through(strikes_words_needed(settings, STRIKES_SETTINGS, &needed), "words_needed"))
        return 1;
    keep->length = (size_t)needed;
    keep->words = calloc(keep->length, sizeof *keep->words);
    if (keep->words == NULL) {
        fprintf(stderr, "gateway: no memory for %zu words\n", keep->length);
        return 2;
    }
    status = status_of(keep_start(keep, folder), "start");
    if (status == 0 && mark != NULL)
        status = status_of(keep_begin(keep, *mark), "begin");
    if (status == 0)
        tell(keep);
    return status == 0 && keep->found == KEEP_MARK_LOST ? 2 : status;
}

/* The host's tick: sweeps, then frees the shares of what was swept. */
static int tick(struct keep *keep, uint64_t reading)
{
    return went_through(strikes_sweep(settings, STRIKES_SETTINGS, keep->words, keep->length, 0, reading), "sweep")
           && went_through(strikes_expire(settings, STRIKES_SETTINGS, keep->words, keep->length, reading), "expire");
}

/* A decimal number that fills the whole word. */
static int number_of(const char *word, uint64_t *number)
{
    char *end;
    if (word == NULL || *word < '0' || *word > '9')
        return 0;
    errno = 0;
    *number = strtoull(word, &end, 10);
    return errno == 0 && *end == '\0';
}

static int deliverer_of(const char *word, uint64_t *kind, uint64_t *number)
{
    *number = 0;
    if (word == NULL)
        return 0;
    if (strcmp(word, "r") == 0) {
        *kind = STRIKES_RELAY;
        return 1;
    }
    if ((word[0] != 'f' && word[0] != 'p') || word[1] != ':')
        return 0;
    *kind = word[0] == 'f' ? STRIKES_FEEDER : STRIKES_PEER;
    return number_of(word + 2, number);
}

static int bad_line(void)
{
    fprintf(stderr, "gateway: no ticket and no tick\n");
    return 2;
}

/* One line: 0 if it was served, 1 if a call was refused, 2 if it or a file could not be read or written. */
static int serve(struct keep *keep, char *line)
{
    static const char blanks[] = " \t\r\n";
    uint64_t reading, kind, number, fingerprint, stamp, verdict;
    int status;
    char *word, *comment = strchr(line, '#');
    if (comment != NULL)
        *comment = '\0';
    word = strtok(line, blanks);
    if (word == NULL)
        return 0;
    if (!number_of(word, &reading))
        return bad_line();
    word = strtok(NULL, blanks);
    if (word != NULL && strcmp(word, "tick") == 0)
        return tick(keep, reading) ? 0 : 1;
    if (!deliverer_of(word, &kind, &number) || !number_of(strtok(NULL, blanks), &fingerprint)
        || !number_of(strtok(NULL, blanks), &stamp) || strtok(NULL, blanks) != NULL)
        return bad_line();
    status = status_of(keep_take(keep, 0, fingerprint, stamp, reading, STRIKES_ON, kind, number, &verdict), "take");
    if (status == 0)
        printf("%" PRIu64 " %s %" PRIu64 " %" PRIu64 " %s\n", reading, word, fingerprint, stamp, verdict_name(verdict));
    return status;
}

static int serve_file(struct keep *keep, const char *path)
{
    char line[256];
    int status = 0;
    unsigned long at = 0;
    FILE *file = fopen(path, "r");
    if (file == NULL) {
        fprintf(stderr, "gateway: %s: %s\n", path, strerror(errno));
        return 2;
    }
    while (status == 0 && fgets(line, sizeof line, file) != NULL) {
        at++;
        status = serve(keep, line);
    }
    if (status != 0)
        fprintf(stderr, "gateway: %s: ended at line %lu\n", path, at);
    fclose(file);
    return status;
}

/* Serves the file, and saves also where a line could not be served: what was counted is known all the same. */
static int run(struct keep *keep, const char *path)
{
    int served = serve_file(keep, path);
    int stopped = status_of(keep_stop(keep), "stop");
    if (stopped == 0)
        printf("saved\n");
    return served != 0 ? served : stopped;
}

int main(int count, char **words)
{
    struct keep keep = {.settings = settings, .limits = limits, .reserve = KEEP_MINUTE, .folder = -1};
    uint64_t mark;
    int status;
    if (count < 3 || count > 4 || (count == 4 && !number_of(words[3], &mark))) {
        fprintf(stderr, "gateway TICKETS FOLDER [MARK]\n");
        return 2;
    }
    setvbuf(stdout, NULL, _IOLBF, BUFSIZ);
    status = start(&keep, words[2], count == 4 ? &mark : NULL);
    if (status == 0)
        status = run(&keep, words[1]);
    keep_end(&keep);
    free(keep.words);
    return status;
}
