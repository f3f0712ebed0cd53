/*
 * A strike register for meter tickets: which tickets a host has seen, in words that the host lends.
 *
 * What each function does is said here in words. What it returns, every out number, every word and every byte that it leaves is
 * equated with the rules in crates/model/specs, for all arguments, and proved (crates/strikes_c).
 *
 * What a host lends
 * - A pointer and a length together are a run: it has that many numbers or bytes, the pointer is not null and is aligned for its
 *   type. Lengths of words count words, lengths of bytes count bytes.
 * - What is lent to one call does not overlap: words, outputs and out numbers are each apart from all else that the call is lent.
 *   Runs that are only read (const) may overlap each other.
 * - No two calls run at the same time on one run of words, unless both only read it (const words).
 * Nothing else is asked of a host. Any numbers may stand in the settings, in the words and in every argument: what does not fit is
 * refused, and no function reads or writes outside what it is lent.
 *
 * What a function returns
 * - STRIKES_OK (0) where the call went through, else the number of a refusal. Refusals are tried in the order 1, 2, 3, 4, 8, 6, 5, 7,
 *   and each comes exactly in its condition. A refusal alters nothing: no word, no byte or word of an output, no out number.
 * - Out numbers are written where the call went through, and only there.
 * - Each function says which refusals it may answer. "1 to 4" are those of every call on a register.
 *
 * There is no allocation, no recursion and no global state, and no function calls back. All that is kept is in the words: a copy of
 * them is a copy of the register. Of the C library memcpy, memmove and memset are used. The stack that each function takes is measured
 * by tests/stack.
 */
#ifndef STRIKES_H
#define STRIKES_H

#include <stddef.h>
#include <stdint.h>

/* ---- what a function returns */

/* The call went through. */
#define STRIKES_OK 0
/* Unfit: settings, limits or starts of another length, a setting or a limit out of bounds, or a code (deliverer, class, start, flag,
   verdict) that is not listed. */
#define STRIKES_UNFIT 1
/* Fewer words are lent than the settings need. */
#define STRIKES_TOO_FEW_WORDS 2
/* The words are not sound: they were not opened with these settings, or are damaged. */
#define STRIKES_UNSOUND_WORDS 3
/* The register number is not below the number of registers. */
#define STRIKES_NO_SUCH_REGISTER 4
/* A dump's output is too short for it. */
#define STRIKES_OUTPUT_TOO_SHORT 5
/* A dump of a register that is pending. */
#define STRIKES_PENDING 6
/* A dump that is restored is cut short. */
#define STRIKES_CUT_SHORT 7
/* A view's output is too short for it. */
#define STRIKES_VIEW_TOO_SHORT 8

/* ---- verdicts: what a ticket is */

/* Not seen before. strikes_take remembers it. */
#define STRIKES_NEW 0
/* Held in the bucket of its stamp. */
#define STRIKES_DUPLICATE 1
/* At or below the floor, or outside the deliverer's window; of a take also: its position is held by another bucket; never for its
   position on a register opened here, not restored or resumed since, whose takes' readings never fall. */
#define STRIKES_LATE 2
/* Late, and past the window's front. Of the batch forms only. */
#define STRIKES_AHEAD 3
/* No share is left for it, or its generation has no slot for it. Of takes only. */
#define STRIKES_FULL 4
/* The register is pending, or the judging flag is 0: nothing was altered. */
#define STRIKES_UNJUDGED 5

/* ---- rules: why a take gives its verdict. They are tried in this order after the sweep that judging makes, and the first that is met is
   named. T is the class's limit, and units are counted with this draw. */

/* None is met: New. */
#define STRIKES_RULE_ACCEPTED 0
/* The register waits for strikes_begin: Unjudged. */
#define STRIKES_RULE_PENDING 1
/* The judging flag is 0: Unjudged. */
#define STRIKES_RULE_FLAG 2
/* A class holds the fingerprint in the bucket of its stamp: Duplicate. The lowest such class is named beside the rule. */
#define STRIKES_RULE_HELD 3
/* The stamp is at or below the floor: Late. */
#define STRIKES_RULE_FLOOR 4
/* The stamp lies further behind the reading than the deliverer's window: Late. */
#define STRIKES_RULE_BEHIND 5
/* The stamp lies further ahead of the reading than the deliverer's window: Late; Ahead of the batch forms. */
#define STRIKES_RULE_AHEAD 6
/* The share book is closed: Full. */
#define STRIKES_RULE_CLOSED 7
/* The deliverer holds as many entries as its own share has: Full. */
#define STRIKES_RULE_OWN_SHARE 8
/* The class would be above T, and the deliverer is a Relay or a Restored: Full. */
#define STRIKES_RULE_CLASS_LIMIT 9
/* The class would be above T, and the deliverer's own units above T divided by the holders: Full. */
#define STRIKES_RULE_EQUAL_PART 10
/* The class would be above twice T: Full. */
#define STRIKES_RULE_TWICE_LIMIT 11
/* The class has no place left for one more deliverer: Full. */
#define STRIKES_RULE_PLACES 12
/* The deliverer's place has no pair left for one more second: Full. */
#define STRIKES_RULE_PAIRS 13
/* Another bucket holds the position: Late. */
#define STRIKES_RULE_POSITION 14
/* The generation would need more slots than it may have: Full. */
#define STRIKES_RULE_SLOTS 15

/* ---- codes */

/* A deliverer is a kind and a number: an id, any number, of a Feeder or a Peer; not read of a Relay; the class of a Restored. */
#define STRIKES_FEEDER 0
#define STRIKES_PEER 1
#define STRIKES_RELAY 2
#define STRIKES_RESTORED 3

/* Classes of deliverers. A Relay is of class Own, a Restored of the class that it carries. */
#define STRIKES_FEEDERS 0
#define STRIKES_PEERS 1
#define STRIKES_OWN 2

/* A flag: whether a reading may judge (flag of judge and take), whether a floor is proven (flag of resume). */
#define STRIKES_OFF 0
#define STRIKES_ON 1

/* How a register starts: with no floor; pending, until strikes_begin brings a number; with the floor that stands beside the code. */
#define STRIKES_START_EMPTY 0
#define STRIKES_START_FALLBACK 1
#define STRIKES_START_AT 2

/* ---- settings: 29 words, the same at every call on the same words */

#define STRIKES_SETTINGS 29
#define STRIKES_MOST_REGISTERS 4
/* Number of registers, 1 to 4. Settings of registers not below it are not read. */
#define STRIKES_SET_REGISTERS 0
/* Places of each class, 1 to 64. */
#define STRIKES_SET_PLACES 1
/* Pairs (second, count) of each place, 2 to 512. */
#define STRIKES_SET_PAIRS 2
/* Units that a Feeder's place costs, 0 to 4,096. */
#define STRIKES_SET_FEEDER_UNITS 3
/* Units that a Peer's or a Restored's place costs, 0 to 4,096. */
#define STRIKES_SET_PEER_UNITS 4
/* Then six words of each register, for r from 0 to 3: */
/* The window for Feeders, behind and ahead, 0 to 3,600,000 ms. */
#define STRIKES_SET_ORIGIN_BEHIND(r) (5 + 6 * (r))
#define STRIKES_SET_ORIGIN_AHEAD(r) (6 + 6 * (r))
/* The window for all others, behind and ahead, 0 to 3,600,000 ms. */
#define STRIKES_SET_COPY_BEHIND(r) (7 + 6 * (r))
#define STRIKES_SET_COPY_AHEAD(r) (8 + 6 * (r))
/* A bucket's width, 1 to 60,000 ms. The ring, (larger behind + larger ahead) / width rounded up, plus 2, is at most 256. */
#define STRIKES_SET_BUCKET(r) (9 + 6 * (r))
/* The most slots of a generation, a power of two from 2 to 1,024. */
#define STRIKES_SET_SLOTS(r) (10 + 6 * (r))

/* ---- limits: 5 words of entries, each 0 to 1,000,000 */

#define STRIKES_LIMITS 5
/* A Feeder's share, and all Feeders together. */
#define STRIKES_LIMIT_FEEDER 0
#define STRIKES_LIMIT_FEEDERS 1
/* A Peer's share, and all Peers together. */
#define STRIKES_LIMIT_PEER 2
#define STRIKES_LIMIT_PEERS 3
/* Class Own. */
#define STRIKES_LIMIT_RELAY 4

/* ---- starts: 8 words, a code and a floor for each of four registers. The floor is read for STRIKES_START_AT alone, and starts of
   registers not below the number of registers are not read. */

#define STRIKES_STARTS 8
#define STRIKES_START_CODE(r) (2 * (r))
#define STRIKES_START_FLOOR(r) (2 * (r) + 1)

#ifdef __cplusplus
extern "C" {
#endif

/* ---- memory */

/* needed: the words that the settings need, to be lent to strikes_open and every later call: 3 * ring * (slots + 5) for each register,
   3 * places * (2 * pairs + 4), and 128; at least 194 and at most 3,358,592. Words past those are neither read nor written. 8 bytes for
   each needed word are always enough output for a dump.
   Refusals: 1. */
uint64_t strikes_words_needed(const uint64_t *settings, size_t settings_length, uint64_t *needed);

/* Overwrites the needed words, whatever they hold: an empty share book with these limits, and each register at its start.
   Refusals: 1, 2. */
uint64_t strikes_open(const uint64_t *settings, size_t settings_length, const uint64_t *limits, size_t limits_length,
                      const uint64_t *starts, size_t starts_length, uint64_t *words, size_t words_length);

/* ---- tickets: a fingerprint (0 is read as 1) and a stamp in ms, brought by a deliverer (kind, number), judged by a reading of the
   clock in ms with a judging flag */

/* verdict: what the ticket is, by the register as it stands after a sweep at this reading, which is kept. Of the ticket nothing is
   remembered. An Unjudged alters nothing.
   Refusals: 1 to 4; 1 also for a flag or a deliverer that is not listed. */
uint64_t strikes_judge(const uint64_t *settings, size_t settings_length, uint64_t *words, size_t words_length, uint64_t register_number,
                       uint64_t fingerprint, uint64_t stamp, uint64_t reading, uint64_t flag, uint64_t kind, uint64_t number,
                       uint64_t *verdict);

/* As strikes_judge, but a Late ticket whose stamp is past the window's front is Ahead. */
uint64_t strikes_judge_batch(const uint64_t *settings, size_t settings_length, uint64_t *words, size_t words_length,
                             uint64_t register_number, uint64_t fingerprint, uint64_t stamp, uint64_t reading, uint64_t flag,
                             uint64_t kind, uint64_t number, uint64_t *verdict);

/* As strikes_judge, and a New ticket is remembered: it draws one entry of its deliverer's share and is struck. Where no share is left,
   or no slot, it is Full, and where another bucket holds its position it is Late. A verdict other than New leaves the words as
   strikes_judge leaves them. */
uint64_t strikes_take(const uint64_t *settings, size_t settings_length, uint64_t *words, size_t words_length, uint64_t register_number,
                      uint64_t fingerprint, uint64_t stamp, uint64_t reading, uint64_t flag, uint64_t kind, uint64_t number,
                      uint64_t *verdict);

/* As strikes_judge_batch where that is not New, and otherwise as strikes_take. */
uint64_t strikes_take_batch(const uint64_t *settings, size_t settings_length, uint64_t *words, size_t words_length,
                            uint64_t register_number, uint64_t fingerprint, uint64_t stamp, uint64_t reading, uint64_t flag,
                            uint64_t kind, uint64_t number, uint64_t *verdict);

/* Why strikes_take gives its verdict on this ticket. rule: the number of the first rule that is met. class_number: the lowest class that
   holds the ticket where the rule is STRIKES_RULE_HELD, else 0. verdict: the verdict of strikes_take on the same words. The register is
   read as the sweep of this reading would leave it: what the sweep would drop is not held, and the floor is the one that it would leave.
   Nothing is altered. strikes_take_batch gives the same verdict, except where the rule is STRIKES_RULE_AHEAD, or STRIKES_RULE_FLOOR and
   the stamp is past the window's front: then it is Ahead.
   Refusals: 1 to 4; 1 also for a flag or a deliverer that is not listed. */
uint64_t strikes_explain(const uint64_t *settings, size_t settings_length, const uint64_t *words, size_t words_length,
                         uint64_t register_number, uint64_t fingerprint, uint64_t stamp, uint64_t reading, uint64_t flag, uint64_t kind,
                         uint64_t number, uint64_t *rule, uint64_t *class_number, uint64_t *verdict);

/* The smallest stamp for which strikes_take_batch would give the wanted verdict on the same words, with the same other arguments. wanted: a
   verdict's number, STRIKES_NEW to STRIKES_UNJUDGED. found: 1 where there is such a stamp, else 0; then no 64-bit stamp gives it. stamp: the
   smallest, or 0. Nothing is altered. At most 7 times the ring and 4 stamps are tried, so at most 1,796; each costs about what
   strikes_explain reads.
   Refusals: 1 to 4; 1 also for a flag or a deliverer that is not listed, and for a wanted verdict above 5. */
uint64_t strikes_stamp_for(const uint64_t *settings, size_t settings_length, const uint64_t *words, size_t words_length,
                           uint64_t register_number, uint64_t fingerprint, uint64_t reading, uint64_t flag, uint64_t kind,
                           uint64_t number, uint64_t wanted, uint64_t *found, uint64_t *stamp);

/* held: 1 where the fingerprint is held in any bucket of any class, swept or not, else 0.
   Refusals: 1 to 4. */
uint64_t strikes_contains_hash(const uint64_t *settings, size_t settings_length, const uint64_t *words, size_t words_length,
                               uint64_t register_number, uint64_t fingerprint, uint64_t *held);

/* ---- the clock and the host's numbers */

/* Ends the waiting of a pending register and raises its floor to the one that the host brings: begun is 1. A register that is not
   pending is left as it is: begun is 0.
   Refusals: 1 to 4. */
uint64_t strikes_begin(const uint64_t *settings, size_t settings_length, uint64_t *words, size_t words_length, uint64_t register_number,
                       uint64_t floor, uint64_t *begun);

/* Sweeps a register: generations that the reading has passed are dropped, and their newest stamps raise the floor. A pending register
   is left as it is.
   Refusals: 1 to 4. */
uint64_t strikes_sweep(const uint64_t *settings, size_t settings_length, uint64_t *words, size_t words_length, uint64_t register_number,
                       uint64_t reading);

/* ---- the share book */

/* Frees the entries of seconds that have passed, in each class. What has passed is the least of the reading and every register's
   published sweep, in seconds rounded up; it is kept as the class's expired second. Where it lies more than 2 s below the second that is
   kept, it takes its place and nothing is freed; where it is not above it, nothing is altered.
   Refusals: 1 to 3. */
uint64_t strikes_expire(const uint64_t *settings, size_t settings_length, uint64_t *words, size_t words_length, uint64_t reading);

/* Sets the five limits anew. Nothing that is held is freed by it.
   Refusals: 1 to 3; 1 also for limits that do not fit. */
uint64_t strikes_set_limits(const uint64_t *settings, size_t settings_length, uint64_t *words, size_t words_length,
                            const uint64_t *limits, size_t limits_length);

/* Closes the share book for good: every draw from now on is refused, so that no take is New any more.
   Refusals: 1 to 3. */
uint64_t strikes_close(const uint64_t *settings, size_t settings_length, uint64_t *words, size_t words_length);

/* entries: the entries that a deliverer holds, of all registers, 0 where it has none.
   Refusals: 1 to 3; 1 also for a deliverer that is not listed. */
uint64_t strikes_held(const uint64_t *settings, size_t settings_length, const uint64_t *words, size_t words_length, uint64_t kind,
                      uint64_t number, uint64_t *entries);

/* A class's entries; the deliverers that hold them; its units, which are the entries and what the holders' places cost; and the second
   up to which its entries have expired.
   Refusals: 1 to 3; 1 also for a class that is not listed. */
uint64_t strikes_class(const uint64_t *settings, size_t settings_length, const uint64_t *words, size_t words_length,
                       uint64_t class_number, uint64_t *entries, uint64_t *holders, uint64_t *units, uint64_t *expired);

/* ---- dumps: the floor and all that a register holds, as little-endian 64-bit words */

/* Writes a register's dump at the start of out. written: its bytes, a multiple of 8. Bytes of out past those keep their content.
   Refusals: 1 to 4; 6 while the register is pending; 5 where out is shorter than the dump. */
uint64_t strikes_dump(const uint64_t *settings, size_t settings_length, const uint64_t *words, size_t words_length,
                      uint64_t register_number, uint8_t *out, size_t out_length, uint64_t *written);

/* Reads a dump into a register, beside what it holds: its floor is raised to the dump's, and each fingerprint of the dump is held under
   its generation's newest stamp, drawing as Restored. One that is held already draws too, and takes no slot. Where a fingerprint finds
   no share or no room, its generation fails: the draws made for it are given back, what the register holds in that bucket and class
   goes, and the floor rises to the newest stamp that the dump has for it or to that of what goes, whichever is larger; the rest goes on.
   So a ticket that was New before is not New again, but tickets up to that stamp are Late. whole: 1 where no generation failed, else 0.
   read: the bytes of the dump. Bytes past those are not looked at. A pending register is served too.
   Refusals: 1 to 4; 7 where the bytes end before the dump does. */
uint64_t strikes_restore(const uint64_t *settings, size_t settings_length, uint64_t *words, size_t words_length,
                         uint64_t register_number, const uint8_t *bytes, size_t bytes_length, uint64_t *whole, uint64_t *read);

/* As strikes_restore, but the register's own floor is forgotten first, and with flag 1 the floor is raised at the end to floor, which
   the host has proven. With flag 0 floor is not read.
   Refusals: 1 to 4; 1 also for a flag that is not listed; 7. */
uint64_t strikes_resume(const uint64_t *settings, size_t settings_length, uint64_t *words, size_t words_length,
                        uint64_t register_number, const uint8_t *bytes, size_t bytes_length, uint64_t flag, uint64_t floor,
                        uint64_t *whole, uint64_t *read);

/* ---- what a register says of itself */

/* present: 1 where the register has a floor, and then floor is it; else both are 0.
   Refusals: 1 to 4. */
uint64_t strikes_floor(const uint64_t *settings, size_t settings_length, const uint64_t *words, size_t words_length,
                       uint64_t register_number, uint64_t *present, uint64_t *floor);

/* pending: 1 where the register waits for strikes_begin, else 0.
   Refusals: 1 to 4. */
uint64_t strikes_pending(const uint64_t *settings, size_t settings_length, const uint64_t *words, size_t words_length,
                         uint64_t register_number, uint64_t *pending);

/* bucket: the bucket up to which the register is swept. published: that in ms, at most 2^64 - 1, which strikes_expire goes by.
   Refusals: 1 to 4. */
uint64_t strikes_swept(const uint64_t *settings, size_t settings_length, const uint64_t *words, size_t words_length,
                       uint64_t register_number, uint64_t *bucket, uint64_t *published);

/* ---- views: what is remembered, as 64-bit words, so that a meter can be checked against it. A view only reads: it sweeps nothing,
   frees nothing, and is served while a register is pending and after the book is closed. */

/* Words that are always enough for a view: 512 pairs and the entries; three classes of 256 generations. With the settings at hand,
   2 * pairs + 1 words are enough for a deliverer, and 12 * ring for a register. */
#define STRIKES_MOST_DELIVERER_VIEW 1025
#define STRIKES_MOST_REGISTER_VIEW 3072

/* Writes what the book remembers of a deliverer at the start of out: of each of its pairs the second in which entries expire and how many
   do, seconds rising, and then its entries, which are the sum of those counts, of all registers. A deliverer that has none has one
   word, 0. written: the words, 2 for each pair and 1. Words of out past those keep their content.
   A Restored is named by the class that it carries, and is no Peer or Feeder of that class; of a Relay the number is not read.
   Refusals: 1 to 3; 1 also for a deliverer that is not listed; 8 where out has fewer words than the view. */
uint64_t strikes_view_deliverer(const uint64_t *settings, size_t settings_length, const uint64_t *words, size_t words_length,
                                uint64_t kind, uint64_t number, uint64_t *out, size_t out_length, uint64_t *written);

/* Writes what a register holds at the start of out: of each generation that holds a fingerprint its bucket, its oldest stamp, its newest
   stamp and the number that it holds. They come in the sequence of a dump: classes 0, 1, 2, and in each by position, which is the bucket
   modulo the ring; nothing stands between the classes. Oldest and newest are of all stamps inserted since the generation was empty; a
   fingerprint that a restore brought back counts as inserted at the dump's newest stamp, one that was held already too. written: the
   words, 4 for each generation; 0 where the register holds nothing, and then out may have no words. Words of out past those keep their
   content.
   Refusals: 1 to 4; 8 where out has fewer words than the view. */
uint64_t strikes_view_register(const uint64_t *settings, size_t settings_length, const uint64_t *words, size_t words_length,
                               uint64_t register_number, uint64_t *out, size_t out_length, uint64_t *written);

#ifdef __cplusplus
}
#endif

#endif
