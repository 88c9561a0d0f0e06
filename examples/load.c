/* Loads drawn from a few seeds, and their runs, from C or C++. In the repository's root:
 *
 *     make archives
 *     gcc -Iinclude examples/load.c -Ltarget/staticlib -lring_tools -lring_host -o target/load
 *     target/load
 */
#include "vengloaz.h"

#include <inttypes.h>
#include <stdio.h>

enum { PROCESSES = 4, EVENTS = 1000 };

/* Performs a tape on the fresh ring, and prints some of its counts. */
static void run(const uint8_t *tape, size_t tape_length)
{
    static uint8_t ledger[RING_RECORD_SIZE * EVENTS];
    uint8_t image[RING_IMAGE_SIZE(PROCESSES)];
    uint8_t result[RING_RESULT_SIZE];

    if (ring_fresh(PROCESSES, 0, image, sizeof image, result, sizeof result) == RING_DONE
        && ring_run(image, sizeof image, tape, tape_length, ledger, sizeof ledger, result, sizeof result) == RING_DONE)
        printf("fills %" PRIu64 " takes %" PRIu64 " idle %" PRIu64 "\n", ring_word(result, RING_WORD_FILLS),
               ring_word(result, RING_WORD_TAKES), ring_word(result, RING_WORD_IDLE));
}

int main(void)
{
    static uint8_t tape[RING_TAPE_SIZE(EVENTS)];
    uint8_t result[RING_RESULT_SIZE];
    uint64_t seed;

    printf("63 events take %d bytes, 64 take %d\n", RING_TAPE_SIZE(63), RING_TAPE_SIZE(64));
    for (seed = 0; seed <= 3; seed++) {
        uint64_t refusal = ring_load(PROCESSES, seed, EVENTS, tape, sizeof tape, result, sizeof result);

        printf("seed %" PRIu64 ": ", seed);
        if (refusal != RING_DONE) {
            printf("refused %" PRIu64 " at %" PRIu64 "\n", refusal, ring_word(result, RING_WORD_PLACE));
            continue;
        }
        printf("%" PRIu64 " bytes, first event %d.%d, ", ring_word(result, RING_WORD_FILLED),
               tape[RING_BLOCK_SLOTS + RING_EVENT_PROCESS], tape[RING_BLOCK_SLOTS + RING_EVENT_CODE]);
        run(tape, sizeof tape);
    }
    if (ring_load(PROCESSES, 1, 0, tape, sizeof tape, result, sizeof result) == RING_DONE) {
        printf("no events: %" PRIu64 " bytes, ", ring_word(result, RING_WORD_FILLED));
        run(tape, RING_TAPE_SIZE(0));
    }
    return 0;
}
