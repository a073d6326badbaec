/* Yarrowbeam's observer, as a host calls it.
 *
 * A description (d) says what the net is, a saved state (s) what is known of it. Both are bytes; README.md shows them for
 * one net. No call keeps anything: the host keeps the description and the state that the last accepted call wrote. After
 * an accepted `count` both are new, and belong together.
 *
 * A state has an edition: 1 has the estimate of every place, 2 only those that are not 0, so that it is shorter where most are
 * 0. Every call that takes a state reads both. `record` and `count` write the edition that they read; `fresh`, `older` and
 * `dense` write edition 1, and `sparse` writes edition 2.
 *
 * Every call is total: it ends on every input, and refuses what is no description, no state, no event or no head count.
 * An answer below 0 is a refusal, minus its number:
 *
 *      1  a stored number of the description is not complete, not in its shortest form or too large
 *      2  the description's edition is not 1
 *      3  a size, a list's length, the groups or their depth are out of bounds
 *      4  a mark, a place number or a value is out of range
 *      5  members, arcs or terms break their order or the no-zero rules
 *      6  a place does not appear exactly once
 *      7  a group's own share is below 0, or not 0 though no place lies directly in the group
 *      8  bytes are left after the description
 *      9  the state is of another edition than 1 and 2, not well formed, or does not fit the net
 *     10  the event number is not one of the net's, which are counted from 1
 *     11  the event is impossible
 *     12  the event is possible, and some estimate after it would be above 16,777,215
 *     13  a result does not fit its output
 *     14  the list of places is empty, or a byte of it names no loose place, or one for the second time
 *     15  the head count is below the sum of the estimates there, or above 16,777,215
 *     16  the head count would make a 33rd group
 *     17  some estimate or unplaced number of the state is above 65,535, which older observers do not read
 *     18  in a state of edition 2, a pair's place is out of range or not above the one before it, or its estimate is 0
 *
 * Of 1 to 8, the description's bytes are read forwards: the first fault that is met is answered, and of several at one
 * number the lowest. So the bytes 01 41 answer 3, for 65 places, though the number after them is missing. Then follows the
 * state with 9 or 18: its bytes are read forwards too, and the first fault that is met is answered; whether its numbers fit
 * the net together is asked after the last of them. Then follow of an event 10 to 12, of a head count 14 to 16, of a state for
 * older observers 17; and 13 comes last. A call skips those that do not concern it.
 *
 * What the host owes:
 *   - All bytes below a length can be read (of an output: and written), and nobody else writes them during the call. Where
 *     the length is 0 the pointer may be null.
 *   - An output overlaps no input and no other output; but `record`, `count`, `older`, `dense` and `sparse` read all of s
 *     before they write anything, so their `out` may be s itself: the same pointer, and the two lengths may differ.
 *     `described` may not be d itself: it is copied from d piece by piece.
 *
 * What the host can count on:
 *   - A call writes nothing but the first bytes of an output, as many as it answers; a refusal writes nothing.
 *   - Calls may run in several threads at a time, also on the same description and state, since no call keeps anything.
 *   - No call uses the heap, and none more than YARROWBEAM_LARGEST_STACK bytes of stack. (Where the dynamic linker finds
 *     memcpy or memset only when it is first called, the linker's own share comes on top of that once.)
 *
 * The names are those of the static library, target/staticlib/libhost.a, which `host/make host` makes.
 */
#ifndef YARROWBEAM_H
#define YARROWBEAM_H

#include <stddef.h>
#include <stdint.h>

/* The lengths of the largest description and of the largest state: a buffer of so many bytes is enough for any. */
#define YARROWBEAM_LARGEST_DESCRIPTION 24037
#define YARROWBEAM_LARGEST_STATE 452

/* The most bytes of stack that a call uses: 6 KiB. */
#define YARROWBEAM_LARGEST_STACK 6144

#ifdef __cplusplus
extern "C" {
#endif

/* Writes the fresh state of the net, in edition 1. In it the tokens of the groups are unplaced, but where a group has exactly
 * one direct place, its own share is in the estimate of that place. Answers the number of bytes written, or a refusal: 1 to 8,
 * 13. */
int64_t fresh(const uint8_t *d, size_t d_length, uint8_t *out, size_t out_length);

/* Writes the state after an event, in the edition of s. Recording does not judge: a held event is recorded too.
 * Answers the number of bytes written, or a refusal: 1 to 13, 18. */
int64_t record(const uint8_t *d, size_t d_length, const uint8_t *s, size_t s_length, uint32_t event,
               uint8_t *out, size_t out_length);

/* Judges an event. Answers 0 to allow it, the number of the highest limit that holds it, counted from 1, or a refusal:
 * 1 to 12, 18. */
int64_t judge(const uint8_t *d, size_t d_length, const uint8_t *s, size_t s_length, uint32_t event);

/* Is it known where all tokens are: is nothing unplaced, and no place loose? After any calls from `fresh` that is so exactly
 * when just one placement of the tokens agrees with the head counts and with the recorded events. A state from elsewhere is
 * taken as it is, also if tokens are unplaced in a group with one direct place.
 * Answers 1 for yes, 0 for no, or a refusal: 1 to 9, 18. */
int64_t known(const uint8_t *d, size_t d_length, const uint8_t *s, size_t s_length);

/* Takes a head count while running: these loose places, one in a byte and in any order, hold n tokens together now. They
 * become a new outermost group, with the next number; if it is one place, its estimate becomes n. Writes the description
 * with that group to `described` and the state, in the edition of s, to `out`; from then on these two are used, and a copy
 * that was saved before is void. In the new description n is what was counted now, not at the start, so that `fresh` on it is
 * not the state that goes on.
 * Answers the bytes of the description times 2^32, plus the bytes of the state; or a refusal: 1 to 9, 13 to 16, 18. If one
 * output is too short (13), neither is written. */
int64_t count(const uint8_t *d, size_t d_length, const uint8_t *s, size_t s_length,
              const uint8_t *places, size_t places_length, uint32_t n,
              uint8_t *described, size_t described_length, uint8_t *out, size_t out_length);

/* Writes the same state in edition 1 for older observers, whose counts, estimates and unplaced numbers end at 65,535; no
 * number is changed. The counts of d are not asked: an older observer refuses a description that has a larger one.
 * Answers the number of bytes written, or a refusal: 1 to 9, 13, 17, 18. */
int64_t older(const uint8_t *d, size_t d_length, const uint8_t *s, size_t s_length, uint8_t *out, size_t out_length);

/* Writes the same state in edition 1; a state of edition 1 is copied. What `sparse` made of a state of edition 1 becomes that
 * state again, byte for byte. Answers the number of bytes written, or a refusal: 1 to 9, 13, 18. */
int64_t dense(const uint8_t *d, size_t d_length, const uint8_t *s, size_t s_length, uint8_t *out, size_t out_length);

/* Writes the same state in edition 2; a state of edition 2 is copied. What `dense` made of a state of edition 2 becomes that
 * state again, byte for byte. Answers the number of bytes written, or a refusal: 1 to 9, 13, 18. */
int64_t sparse(const uint8_t *d, size_t d_length, const uint8_t *s, size_t s_length, uint8_t *out, size_t out_length);

#ifdef __cplusplus
}
#endif

#endif
