/* Steps on a fresh ring, from C or C++. In the repository's root:
 *
 *     make archives
 *     gcc -Iinclude examples/step.c -Ltarget/staticlib -lring_tools -lring_host -o target/step
 *     target/step
 */
#include "vengloaz.h"

#include <inttypes.h>
#include <stdio.h>

/* Performs an event, and prints what came of it. */
static void step(uint8_t *image, size_t image_length, const uint8_t *event)
{
    static const char *const outcomes[] = {"idle", "moved", "fill", "take", "sent", "got"};
    uint8_t result[RING_RESULT_SIZE];
    uint64_t refusal = ring_step(image, image_length, event, RING_EVENT_SIZE, result, sizeof result);

    printf("%d.%d: ", event[RING_EVENT_PROCESS], event[RING_EVENT_CODE]);
    if (refusal != RING_DONE)
        printf("refused %" PRIu64 " at %" PRIu64 "\n", refusal, ring_word(result, RING_WORD_PLACE));
    else
        printf("%s %" PRIu64 ", requests %" PRIu64 ", departures %" PRIu64 "\n",
               outcomes[ring_word(result, RING_WORD_OUTCOME)], ring_word(result, RING_WORD_MESSAGE),
               ring_word(result, RING_WORD_STEP_REQUESTS), ring_word(result, RING_WORD_STEP_DEPARTURES));
}

/* Prints whether the ring can still move by itself. */
static void stopped(const uint8_t *image, size_t image_length)
{
    uint8_t result[RING_RESULT_SIZE];
    if (ring_stopped(image, image_length, result, sizeof result) == RING_DONE)
        printf("%s\n", ring_word(result, RING_WORD_STOPPED) ? "stopped" : "moving");
}

int main(void)
{
    static const uint8_t events[][RING_EVENT_SIZE] = {
        {0, RING_WISH_PUT, 0, 0, 7, 0, 0, 0}, {0, RING_WISH_PUT, 0, 0, 7, 0, 0, 0},
        {0, RING_HEAR_MAIN, 0, 0, 0, 0, 0, 0}, {0, RING_PUT_ACTS, 0, 0, 0, 0, 0, 0},
        {0, RING_WORK, 0, 0, 0, 0, 0, 0}, {0, RING_HEAR_MAIN, 0, 0, 0, 0, 0, 0},
        {1, RING_WISH_GET, 0, 0, 0, 0, 0, 0}, {1, RING_HEAR_MAIN, 0, 0, 0, 0, 0, 0},
        {1, RING_PUT_ACTS, 0, 0, 0, 0, 0, 0}, {0, RING_HEAR_FULL, 0, 0, 0, 0, 0, 0},
        {0, RING_PUT_ACTS, 0, 0, 0, 0, 0, 0}, {2, RING_WISH_GET, 0, 0, 0, 0, 0, 0}
    };
    uint8_t image[RING_IMAGE_SIZE(2)];
    uint8_t result[RING_RESULT_SIZE];
    size_t k;

    if (ring_fresh(2, 0, image, sizeof image, result, sizeof result) != RING_DONE)
        return 1;
    stopped(image, sizeof image);
    for (k = 0; k < sizeof events / sizeof events[0]; k++)
        step(image, sizeof image, events[k]);
    stopped(image, sizeof image);
    return 0;
}
