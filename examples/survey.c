/* What a survey finds in an image, sound and then broken, from C or C++. In the repository's root:
 *
 *     make archives
 *     gcc -Iinclude examples/survey.c -Ltarget/staticlib -lring_tools -lring_host -o target/survey
 *     target/survey
 */
#include "vengloaz.h"

#include <inttypes.h>
#include <stdio.h>

enum { PROCESSES = 3 };

/* Prints the processes of a set. */
static void print_set(const char *status, uint64_t set)
{
    int process;

    printf(", marked for %s:%s", status, set == 0 ? " nobody" : "");
    for (process = 0; process < RING_MOST; process++)
        if (set >> process & 1)
            printf(" %d", process);
}

/* Surveys an image, and prints what is found. */
static void survey(const char *what, const uint8_t *image, size_t image_length)
{
    uint8_t result[RING_RESULT_SIZE];
    uint64_t refusal = ring_survey(image, image_length, result, sizeof result);
    uint64_t verdict = ring_word(result, RING_WORD_VERDICT);

    printf("%s: ", what);
    if (refusal != RING_DONE) {
        printf("refused %" PRIu64 " at %" PRIu64 "\n", refusal, ring_word(result, RING_WORD_PLACE));
        return;
    }
    if (verdict == RING_DONE)
        printf("sound");
    else
        printf("a step would be refused %" PRIu64 " at %" PRIu64, verdict, ring_word(result, RING_WORD_VERDICT_PLACE));
    printf(", flags %" PRIu64, ring_word(result, RING_WORD_FLAGS));
    print_set("full", ring_word(result, RING_WORD_MARKED_FULL));
    print_set("empty", ring_word(result, RING_WORD_MARKED_EMPTY));
    printf("\n");
}

int main(void)
{
    static const uint8_t codes[] = {RING_WISH_GET, RING_HEAR_MAIN, RING_PUT_ACTS};
    uint8_t image[RING_IMAGE_SIZE(PROCESSES)];
    uint8_t result[RING_RESULT_SIZE];
    uint8_t event[RING_EVENT_SIZE] = {0};
    uint8_t *last = image + RING_IMAGE_SIZE(PROCESSES - 1);
    size_t k;

    if (ring_fresh(PROCESSES, 0, image, sizeof image, result, sizeof result) != RING_DONE)
        return 1;
    survey("fresh", image, sizeof image);
    for (k = 0; k < sizeof codes; k++) {
        event[RING_EVENT_CODE] = codes[k];
        if (ring_step(image, sizeof image, event, sizeof event, result, sizeof result) != RING_DONE)
            return 1;
    }
    survey("process 0 waits for full", image, sizeof image);
    last[RING_PROCESS_FLAGS] = RING_HAVE;
    survey("process 2 has the envelope, too", image, sizeof image);
    last[RING_PROCESS_REQUESTS] = RING_MARKED_FULL | RING_MARKED_EMPTY;
    survey("it is idle, and marked", image, sizeof image);
    survey("a byte is missing", image, sizeof image - 1);
    image[RING_HEADER_N] = RING_MOST + 1;
    survey("N is 65", image, sizeof image);
    return 0;
}
