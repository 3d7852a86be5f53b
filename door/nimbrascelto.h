/* The rule checker for C: a monitor in a buffer of the caller's.
 *
 * Link target/staticlib/libdoor.a (`door/build`). There is no heap, no global variable and no call of the system: a function
 * reads and writes the buffers that it is lent, and nothing else. So two monitors in two buffers may be stepped by two threads.
 *
 * A buffer is a pointer and the number of its elements. The pointer is never null, not even where the number is 0; a buffer that is
 * written overlaps no other buffer of the same call.
 *
 * Every function but nimbra_next_alarm replies 0 where all is well, else the number of the first fault: those of document 01 (1 to 13 of
 * a script and of the writer, 21 to 27 of a step, 29 and 30), or 90, a buffer has not the size that is asked for.
 * On 29 and on 90 no buffer is touched. */
#ifndef NIMBRASCELTO_H
#define NIMBRASCELTO_H

#include <stddef.h>
#include <stdint.h>

#ifdef __cplusplus
extern "C" {
#endif

/* The sizes of the buffers, in elements. */
#define NIMBRA_STATE_WORDS 452 /* a monitor, 3,616 bytes whatever has come in */
#define NIMBRA_SLOTS 128       /* the results of a step, one for each entry slot */
#define NIMBRA_IMPORTS 48
#define NIMBRA_MARKS 177 /* a reach: 128 entries, 48 imports, the clock */
#define NIMBRA_PLACE 2   /* a part of a script: its first byte, its length */
#define NIMBRA_SCRIPT_BYTES 4096
#define NIMBRA_STEP_BYTES 337

/* Replies that a caller tells apart most often. */
#define NIMBRA_ACCEPTED 0
#define NIMBRA_DAMAGED 29    /* the words are not those of a sound monitor */
#define NIMBRA_NO_ENTRY 30   /* no such entry, or, for a label, not an alarm or a property */
#define NIMBRA_WRONG_SIZE 90 /* a buffer has not its size */

/* The words of results. Any word from 2^48 up is a whole number: see nimbra_is_number. */
#define NIMBRA_NOTHING 0
#define NIMBRA_CONDITION_UNDEFINED 1
#define NIMBRA_CONDITION_FALSE 2
#define NIMBRA_CONDITION_TRUE 3
#define NIMBRA_NUMBER_UNDEFINED 4
#define NIMBRA_EVENT_ABSENT 5
#define NIMBRA_EVENT_OCCURS 6
#define NIMBRA_UPDATE_NOT_DONE 7
#define NIMBRA_UPDATE_DONE 8
#define NIMBRA_ALARM_NOT_RAISED 9
#define NIMBRA_ALARM_RAISED 10
#define NIMBRA_PROPERTY_NOT_KNOWN 11
#define NIMBRA_PROPERTY_VIOLATED 12
#define NIMBRA_PROPERTY_HOLDING 13
#define NIMBRA_NUMBER_ZERO 422212465065984 /* 3 * 2^47: the word of the number 0 */

/* Two words of a state that a caller may read. It writes none. */
#define NIMBRA_WORD_ENTRIES 0  /* how many entries the script has */
#define NIMBRA_WORD_EARLIEST 3 /* the earliest time that the next step may have: one more than that of the last accepted, 0 before any */

/* Reads a script, and lays a monitor with no step yet into the state. A refused script (1 to 11) leaves the state as it was. */
uint8_t nimbra_start(const uint8_t *script, size_t script_bytes, uint64_t *state, size_t state_words);

/* Takes a step. First it tests that the state is that of a sound monitor, and replies 29 where it is not: for a state that was
 * stored, sent, or could have been written over. A refused step (21 to 27) leaves the state as it was, and every result is
 * NIMBRA_NOTHING. After an accepted step the results are those of the script's entries, and NIMBRA_NOTHING in the slots past them. */
uint8_t nimbra_step(uint64_t *state, size_t state_words, const uint8_t *step, size_t step_bytes, uint64_t *results,
                    size_t results_words);

/* The same without the test for 29, and much quicker: for a state that nimbra_start and the steps alone have written. On any other
 * words the reply and the results may be anything; still no memory but the two buffers is touched. */
uint8_t nimbra_step_held(uint64_t *state, size_t state_words, const uint8_t *step, size_t step_bytes, uint64_t *results,
                         size_t results_words);

/* The first place, from `from` on, of an alarm that is raised or a property that is violated; results_words where there is none. */
uint64_t nimbra_next_alarm(const uint64_t *results, size_t results_words, uint64_t from);

/* Where the label of an alarm or a property stands in its script: place[0] is its first byte, place[1] its length.
 * The script's number (1 to 11), then 30; then the place is as it was. It reads the whole script each time. */
uint8_t nimbra_label(const uint8_t *script, size_t script_bytes, uint64_t entry, uint64_t *place, size_t place_words);

/* Where the block of all labels stands in its script, as nimbra_write takes it. */
uint8_t nimbra_labels(const uint8_t *script, size_t script_bytes, uint64_t *place, size_t place_words);

/* The reach of an entry: what it can ever depend on. marks[k] is 1 for each entry k in it, marks[128 + i] for each import i, marks[176]
 * for the clock; all others are 0. 29, then 30 where there is no such entry; then the marks are as they were. */
uint8_t nimbra_reach(const uint64_t *state, size_t state_words, uint64_t entry, uint8_t *marks, size_t marks_bytes);

/* Writes the script of the state's table with these labels into `out`, and how many bytes it has into size[0]; size_words is 1.
 * 29, then the writer's number (2, 10, 11, 1, 12); then `out` and the size are as they were. Bytes of `out` past the script stay. */
uint8_t nimbra_write(const uint64_t *state, size_t state_words, const uint8_t *labels, size_t labels_bytes, uint8_t *out,
                     size_t out_bytes, uint64_t *size, size_t size_words);

/* Whether a result word is a whole number. */
static inline int nimbra_is_number(uint64_t word)
{
    return word >> 48 == 1;
}

/* The whole number of such a word: from -2^47 to 2^47 - 1. */
static inline int64_t nimbra_number(uint64_t word)
{
    return (int64_t)word - NIMBRA_NUMBER_ZERO;
}

/* The time of the last accepted step in milliseconds; -1 before any. */
static inline int64_t nimbra_last_time(const uint64_t *state)
{
    return (int64_t)state[NIMBRA_WORD_EARLIEST] - 1;
}

#ifdef __cplusplus
}
#endif

#endif
