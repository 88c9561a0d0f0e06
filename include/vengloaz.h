/* The ring envelope reference for C and C++: the functions of the two proved archives, and the numbers and offsets of
 * what goes in and comes out. docs/FORMATS.md has the layouts as tables, with examples.
 *
 *     make archives
 *     gcc -Iinclude program.c -Ltarget/staticlib -lring_tools -lring_host
 *
 * A slice is a pointer and then its length in bytes. The pointer must be valid for that many bytes, and must not be
 * NULL, even where the length is 0. No two slices of one call may overlap, not by a single byte, and nobody else may
 * write to them until the call has returned: that is all that is asked. For every content and every length the call
 * ends and answers. It keeps nothing between calls, so several threads may call at once, each with slices of its own.
 *
 * Every function returns 0, or the number of the refusal (enum ring_refusal). All else is told in the result slice, of
 * 80 bytes or more: ten 64-bit little-endian words at its start (RING_WORD_..), with 0 in those that a call doesn't
 * use; bytes from 80 on are kept. A refused call has changed no byte of image, ledger, tape, list or output. With a
 * result slice under 80 bytes nothing is performed and nothing is written: the call returns the first refusal of its
 * tests, else RING_REFUSED_OUTPUT.
 */
#ifndef VENGLOAZ_H
#define VENGLOAZ_H

#include <stddef.h>
#include <stdint.h>

#ifdef __cplusplus
extern "C" {
#endif

/* ---- libring_host.a: step, run and stopped, on an image of RING_IMAGE_SIZE(n) bytes or more */

/* Performs one event on an image. Told: RING_WORD_OUTCOME, RING_WORD_MESSAGE, RING_WORD_STEP_REQUESTS,
 * RING_WORD_STEP_DEPARTURES. Refusals 3, 4; 5; 10. */
uint64_t ring_step(uint8_t *image, size_t image_length, const uint8_t *event, size_t event_length, uint8_t *result,
                   size_t result_length);

/* Performs every event of a tape on an image, and writes a record for each fill, take, sent and got to the start of the
 * ledger, whose further bytes are kept. A tape of length 0, whose pointer isn't NULL either, has no events: the image
 * is tested, and nothing changes. Told: RING_WORD_PUTS to RING_WORD_RECORDS, RING_WORD_RUN_REQUESTS,
 * RING_WORD_RUN_DEPARTURES. Refusals 3, 4; 6, then block by block 7, 8, 5, 9; 10. */
uint64_t ring_run(uint8_t *image, size_t image_length, const uint8_t *tape, size_t tape_length, uint8_t *ledger,
                  size_t ledger_length, uint8_t *result, size_t result_length);

/* Whether no event of codes 2 to 7 is possible. Told: RING_WORD_STOPPED, 1 or 0. Refusals 3, 4; 10. */
uint64_t ring_stopped(const uint8_t *image, size_t image_length, uint8_t *result, size_t result_length);

/* ---- libring_tools.a: fresh ring, survey, writer, reader and load */

/* Writes the fresh ring of n processes, with the envelope at process home, to the start of an image buffer, whose
 * further bytes are kept. Told: nothing. Refusals 1, 2; 3; 10. */
uint64_t ring_fresh(uint64_t n, uint64_t home, uint8_t *image, size_t image_length, uint8_t *result,
                    size_t result_length);

/* Tells what one walk over an image's records finds; an image that isn't sound is answered too. Told: RING_WORD_VERDICT
 * to RING_WORD_MARKED_EMPTY. Refusals 3; 4, for byte 0 alone; 10. */
uint64_t ring_survey(const uint8_t *image, size_t image_length, uint8_t *result, size_t result_length);

/* Writes the tape of a list of events for n processes to the start of an output, whose further bytes are kept: 512
 * bytes for each 63 events or part of them. Told: RING_WORD_FILLED, in bytes. Refusals 1; 6, 5; 10. */
uint64_t ring_write(uint64_t n, const uint8_t *list, size_t list_length, uint8_t *output, size_t output_length,
                    uint8_t *result, size_t result_length);

/* Writes the list of events of a tape for n processes to the start of an output, whose further bytes are kept: 8 bytes
 * an event. Told: RING_WORD_FILLED, in bytes. Refusals 1; 6, then block by block 7, 8, 5, 9; 10. */
uint64_t ring_read(uint64_t n, const uint8_t *tape, size_t tape_length, uint8_t *output, size_t output_length,
                   uint8_t *result, size_t result_length);

/* Writes the tape of a load to the start of an output, whose further bytes are kept: count events for n processes,
 * drawn from a seed by Park and Miller's minimal standard generator, RING_TAPE_SIZE(count) bytes. Told:
 * RING_WORD_FILLED, in bytes. Refusals 1; 11; 6; 10. */
uint64_t ring_load(uint64_t n, uint64_t seed, uint64_t count, uint8_t *output, size_t output_length, uint8_t *result,
                   size_t result_length);

/* ---- what a function returns */

enum ring_refusal {
    RING_DONE = 0,
    RING_REFUSED_SIZE = 1,     /* n is not 2 to 64 */
    RING_REFUSED_HOME = 2,     /* home is not below n */
    RING_REFUSED_SHORT = 3,    /* image under 16 bytes, or under 16 + 8n for the n of 2 to 64 in its byte 0 */
    RING_REFUSED_UNSOUND = 4,  /* image not sound, or of 16 bytes or more and its byte 0 not 2 to 64 */
    RING_REFUSED_EVENT = 5,    /* not an event of this ring; place: its number in list or tape, 0 for a single one */
    RING_REFUSED_LENGTH = 6,   /* tape or list not in whole blocks or events, or too many; load of too many events */
    RING_REFUSED_CHECK = 7,    /* block check differs; place: the block's position on the tape, as for 8 and 9 */
    RING_REFUSED_BLOCK = 8,    /* block number or count differs */
    RING_REFUSED_UNUSED = 9,   /* unused slot not zero */
    RING_REFUSED_OUTPUT = 10,  /* output, ledger or result slice too short */
    RING_REFUSED_SEED = 11     /* a load's seed is 0 or above 2147483646 */
};

/* ---- the words of a result slice: word k is bytes 8k to 8k + 7 */

enum ring_word {
    RING_WORD_PLACE = 0,            /* of a refusal; 0 where it has none */
    RING_WORD_OUTCOME = 0,          /* of a step: enum ring_outcome */
    RING_WORD_MESSAGE = 1,          /* of a step: the message of a fill or a take, else 0 */
    RING_WORD_STEP_REQUESTS = 2,    /* of a step: requests put on the link to the left, absorbed ones too, 0 to 2 */
    RING_WORD_STEP_DEPARTURES = 3,  /* of a step: 1 if the envelope left, else 0 */
    RING_WORD_PUTS = 0,             /* of a run: puts and gets started, then events by outcome, then records */
    RING_WORD_GETS = 1,
    RING_WORD_FILLS = 2,
    RING_WORD_TAKES = 3,
    RING_WORD_SENT = 4,
    RING_WORD_GOT = 5,
    RING_WORD_IDLE = 6,
    RING_WORD_RECORDS = 7,
    RING_WORD_RUN_REQUESTS = 8,     /* of a run: what its events have as steps, added up */
    RING_WORD_RUN_DEPARTURES = 9,   /* of a run: likewise */
    RING_WORD_STOPPED = 0,          /* of stopped: 1 or 0 */
    RING_WORD_VERDICT = 0,          /* of a survey: the refusal of the image by step, run and stopped; 0 if sound */
    RING_WORD_VERDICT_PLACE = 1,    /* of a survey: the place of that refusal */
    RING_WORD_FLAGS = 2,            /* of a survey: how many have and arriving flags are set */
    RING_WORD_MARKED_FULL = 3,      /* of a survey: the processes marked for full; bit i is process i */
    RING_WORD_MARKED_EMPTY = 4,     /* of a survey: the processes marked for empty, likewise */
    RING_WORD_FILLED = 0            /* of writer, reader and load: bytes at the start of the output */
};

/* Word k of a result slice. */
static inline uint64_t ring_word(const uint8_t *result, size_t k)
{
    uint64_t word = 0;
    size_t byte;
    for (byte = 8; byte-- > 0;)
        word = word << 8 | result[8 * k + byte];
    return word;
}

/* What an event did; fill to got are the codes of ledger records too. */
enum ring_outcome {
    RING_IDLE = 0,
    RING_MOVED = 1,
    RING_FILL = 2,
    RING_TAKE = 3,
    RING_SENT = 4,
    RING_GOT = 5
};

/* ---- sizes, in bytes where nothing else is said */

enum ring_size {
    RING_LEAST = 2,             /* processes */
    RING_MOST = 64,             /* processes */
    RING_HEADER_SIZE = 16,      /* of an image; the process records follow */
    RING_PROCESS_SIZE = 8,      /* a process record */
    RING_EVENT_SIZE = 8,
    RING_BLOCK_SIZE = 512,
    RING_BLOCK_EVENTS = 63,     /* slots */
    RING_MOST_BLOCKS = 65536,   /* of a tape */
    RING_MOST_EVENTS = 4128768, /* of a list, a tape or a load */
    RING_RECORD_SIZE = 12,      /* a ledger record */
    RING_RESULT_SIZE = 80
};

/* Of an image of n processes, and of the tape of so many events; both presume numbers that aren't refused. */
#define RING_IMAGE_SIZE(n) (RING_HEADER_SIZE + RING_PROCESS_SIZE * (n))
#define RING_TAPE_SIZE(events) (RING_BLOCK_SIZE * (((events) + RING_BLOCK_EVENTS - 1) / RING_BLOCK_EVENTS))

/* ---- the seeds of a load, whose codes are drawn from RING_WISH_PUT to RING_PUT_ACTS */

enum ring_seed {
    RING_LEAST_SEED = 1,
    RING_MOST_SEED = 2147483646
};

/* ---- an image: the header's offsets, and the bits of its markers */

enum ring_header {
    RING_HEADER_N = 0,
    RING_HEADER_STATUS = 1,       /* 0 empty, 1 full */
    RING_HEADER_MARKERS = 2,      /* RING_FULL_WANTED, RING_EMPTY_WANTED */
    RING_HEADER_FULL_COUNT = 3,   /* processes marked for full */
    RING_HEADER_EMPTY_COUNT = 4,  /* processes marked for empty */
    RING_HEADER_MESSAGE = 8       /* 32 bits; 0 when empty */
};

enum ring_marker {
    RING_FULL_WANTED = 1,
    RING_EMPTY_WANTED = 2
};

/* ---- a process record: its offsets, the bits of its flags and of its requests, and its stages */

enum ring_process {
    RING_PROCESS_STAGE = 0,
    RING_PROCESS_FLAGS = 1,     /* RING_HAVE, RING_ARRIVING, RING_NEWS */
    RING_PROCESS_REQUESTS = 2,  /* RING_RIGHT_ASKED_FULL to RING_LINK_EMPTY */
    RING_PROCESS_NOTE = 4       /* 32 bits: the message of a put until it is filled in; 0 but in stages 1 to 3 */
};

enum ring_flag {
    RING_HAVE = 1,
    RING_ARRIVING = 2,
    RING_NEWS = 4
};

enum ring_request {
    RING_RIGHT_ASKED_FULL = 1,
    RING_RIGHT_ASKED_EMPTY = 2,
    RING_ASKED_FULL = 4,
    RING_ASKED_EMPTY = 8,
    RING_MARKED_FULL = 16,
    RING_MARKED_EMPTY = 32,
    RING_LINK_FULL = 64,
    RING_LINK_EMPTY = 128
};

enum ring_stage {
    RING_STAGE_IDLE = 0,
    RING_STAGE_SEND_TOLD = 1,
    RING_STAGE_SEND_WAITING = 2,
    RING_STAGE_MAY_FILL = 3,
    RING_STAGE_FILLED_TOLD = 4,
    RING_STAGE_FILLED = 5,
    RING_STAGE_RECEIVE_TOLD = 6,
    RING_STAGE_RECEIVE_WAITING = 7,
    RING_STAGE_MAY_EMPTY = 8,
    RING_STAGE_EMPTIED_TOLD = 9,
    RING_STAGE_EMPTIED = 10
};

/* ---- an event, in a list, in a block's slot or alone: its offsets and its codes */

enum ring_event {
    RING_EVENT_PROCESS = 0,
    RING_EVENT_CODE = 1,
    RING_EVENT_MESSAGE = 4  /* 32 bits; 0 unless the code is RING_WISH_PUT */
};

enum ring_code {
    RING_WISH_PUT = 0,       /* main wishes to put, and tells the message */
    RING_WISH_GET = 1,       /* main wishes to get */
    RING_WORK = 2,           /* main fills the envelope, or takes the message from it */
    RING_HEAR_MAIN = 3,      /* get takes main's signal */
    RING_HEAR_ENVELOPE = 4,  /* get takes the envelope from the link */
    RING_HEAR_FULL = 5,      /* get takes the request for a full envelope from the link */
    RING_HEAR_EMPTY = 6,     /* get takes the request for an empty envelope from the link */
    RING_PUT_ACTS = 7        /* put does what its news ask for */
};

/* ---- a block of a tape */

enum ring_block {
    RING_BLOCK_NUMBER = 0,  /* 16 bits, from 0 */
    RING_BLOCK_COUNT = 2,   /* 16 bits: the events in it */
    RING_BLOCK_CHECK = 4,   /* 32 bits */
    RING_BLOCK_SLOTS = 8    /* 63 events; the unused slots are zero */
};

/* ---- a record of a ledger */

enum ring_record {
    RING_RECORD_EVENT = 0,    /* 32 bits: the event's number on the tape, from 0 */
    RING_RECORD_PROCESS = 4,
    RING_RECORD_CODE = 5,     /* RING_FILL, RING_TAKE, RING_SENT or RING_GOT */
    RING_RECORD_MESSAGE = 8   /* 32 bits; 0 for sent and got */
};

#ifdef __cplusplus
}
#endif

#endif
