/* A first program: the recorded stream of document 01, played by hand. It imports a condition ("the leap second table is current"),
 * negates it, takes the start, and raises the alarm LEAP. `door/run` builds and runs it.
 *
 *     cc -std=c99 -I door door/example.c target/staticlib/libdoor.a -o example */
#include "nimbrascelto.h"

#include <inttypes.h>
#include <stdio.h>
#include <string.h>

static const uint8_t script[] = {0x01, 0x04, 0x04, 0x00, 0x00, 0x01, 0x80, 0x50, 0x1B, 0x82, 0x04, 'L', 'E', 'A', 'P'};

static const uint8_t steps[4][8] = {
    {0x00, 0x00, 0x00, 0x00, 0x07, 0xD0, 0x08, 0x08}, /* time 1000: true */
    {0x00, 0x00, 0x00, 0x00, 0x0F, 0xA0, 0x08, 0x00}, /* time 2000: false */
    {0x00, 0x00, 0x00, 0x00, 0x17, 0x70, 0x08, 0x10}, /* time 3000: undefined */
    {0x00, 0x00, 0x00, 0x00, 0x1F, 0x40, 0x08, 0x00}, /* time 4000: false */
};

/* The monitor and the results of its last step: all the memory that there is. */
static uint64_t state[NIMBRA_STATE_WORDS];
static uint64_t results[NIMBRA_SLOTS];

/* A check of what the library said; the program ends with status 1 where one failed. */
static int failed = 0;

static void check(int holds, const char *what)
{
    if (!holds) {
        printf("FAILED: %s\n", what);
        failed = 1;
    }
}

/* A line for each alarm that the last step raised and each property that it violated. */
static void show_alarms(void)
{
    for (uint64_t k = nimbra_next_alarm(results, NIMBRA_SLOTS, 0); k < NIMBRA_SLOTS;
         k = nimbra_next_alarm(results, NIMBRA_SLOTS, k + 1)) {
        const char *what = results[k] == NIMBRA_ALARM_RAISED ? "alarm" : "violated";
        uint64_t place[NIMBRA_PLACE] = {0, 0};
        check(nimbra_label(script, sizeof script, k, place, NIMBRA_PLACE) == NIMBRA_ACCEPTED, "entry k has a label");
        printf("%" PRId64 " %s %" PRIu64 " %.*s\n", nimbra_last_time(state), what, k, (int)place[1],
               (const char *)script + place[0]);
    }
}

/* The recorded stream: the script, its steps, and how many there were. */
static void play(void)
{
    unsigned accepted = 0, refused = 0;
    check(nimbra_start(script, sizeof script, state, NIMBRA_STATE_WORDS) == NIMBRA_ACCEPTED, "the script is accepted");
    printf("script %" PRIu64 "\n", state[NIMBRA_WORD_ENTRIES]);
    for (size_t i = 0; i < sizeof steps / sizeof steps[0]; i++) {
        uint8_t reply = nimbra_step(state, NIMBRA_STATE_WORDS, steps[i], sizeof steps[i], results, NIMBRA_SLOTS);
        if (reply == NIMBRA_ACCEPTED) {
            accepted++;
            show_alarms();
        } else {
            refused++;
            printf("refused %u\n", reply);
        }
    }
    printf("steps %u refused %u\n", accepted, refused);
}

/* Which entries and imports the alarm, entry 3, can ever depend on. */
static void show_reach(void)
{
    uint8_t marks[NIMBRA_MARKS];
    check(nimbra_reach(state, NIMBRA_STATE_WORDS, 3, marks, NIMBRA_MARKS) == NIMBRA_ACCEPTED, "entry 3 has a reach");
    printf("entry 3 reaches entries");
    for (unsigned k = 0; k < NIMBRA_SLOTS; k++)
        if (marks[k]) printf(" %u", k);
    printf(", imports");
    for (unsigned i = 0; i < NIMBRA_IMPORTS; i++)
        if (marks[NIMBRA_SLOTS + i]) printf(" %u", i);
    printf(", clock %s\n", marks[NIMBRA_MARKS - 1] ? "yes" : "no");
    for (unsigned m = 0; m < NIMBRA_MARKS; m++)
        check(marks[m] == (m < 4 || m == NIMBRA_SLOTS), "it reaches the four entries, import 0 and no more");
}

/* A step on a state in which a word was changed, and one on a buffer of another size: both are told, and nothing is touched. */
static void show_faults(void)
{
    static const uint8_t next[8] = {0x00, 0x00, 0x00, 0x00, 0x27, 0x10, 0x08, 0x08}; /* time 5000: true */
    uint64_t sound[NIMBRA_STATE_WORDS], damaged[NIMBRA_STATE_WORDS], before[NIMBRA_SLOTS];
    memcpy(sound, state, sizeof sound);
    memcpy(before, results, sizeof before);

    state[4] ^= 1; /* the first entry: a condition import becomes a kind that has no entry before it */
    memcpy(damaged, state, sizeof damaged);
    uint8_t reply = nimbra_step(state, NIMBRA_STATE_WORDS, next, sizeof next, results, NIMBRA_SLOTS);
    printf("a damaged state: %u\n", reply);
    check(reply == NIMBRA_DAMAGED, "a damaged state is 29");
    check(!memcmp(state, damaged, sizeof damaged) && !memcmp(results, before, sizeof before), "29 touches nothing");

    memcpy(state, sound, sizeof sound);
    reply = nimbra_step(state, NIMBRA_STATE_WORDS - 1, next, sizeof next, results, NIMBRA_SLOTS);
    printf("a state of %d words: %u\n", NIMBRA_STATE_WORDS - 1, reply);
    check(reply == NIMBRA_WRONG_SIZE, "a wrong size is 90");
    check(!memcmp(state, sound, sizeof sound) && !memcmp(results, before, sizeof before), "90 touches nothing");

    reply = nimbra_step(state, NIMBRA_STATE_WORDS, next, sizeof next, results, NIMBRA_SLOTS);
    check(reply == NIMBRA_ACCEPTED && nimbra_last_time(state) == 5000, "the state as it was takes the step");
}

int main(void)
{
    play();
    show_reach();
    show_faults();
    return failed;
}
