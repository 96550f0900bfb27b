/* The library in C: the example table's station, in which a job arrives, acquires, gives back and finishes. Built and run by

       cc outside/example.c crates/driver/out/libdriver.a -o example && ./example

   after `rt lib` in crates/driver. */
#include <inttypes.h>
#include <stdio.h>

#include "urzalinda.h"

/* Stack size 90; one resource of 4 units; jobs of levels 10, 20 and 30, with frames of 40, 30 and 20 bytes, and needs 4, 3 and 1. */
static const uint8_t TABLE[] = {
    0x01, 0, 1, 1,
    0x02, 0, 2, 0, 90,
    0x03, 0, 2, 0, 4,
    0x04, 0, 5, 10, 0, 40, 0, 4,
    0x04, 0, 5, 20, 0, 30, 0, 3,
    0x04, 0, 5, 30, 0, 20, 0, 1,
    0x05, 0, 0,
};

static const uint8_t ARRIVE_0[] = {0x11, 0, 1, 0};
static const uint8_t ACQUIRE_0[] = {0x12, 0, 4, 0, 0, 0, 2};
static const uint8_t ARRIVE_1[] = {0x11, 0, 1, 1};
static const uint8_t RELEASE_0[] = {0x13, 0, 4, 0, 0, 0, 2};
static const uint8_t FINISH_1[] = {0x14, 0, 1, 1};
static const uint8_t FINISH_0[] = {0x14, 0, 1, 0};

static uint8_t state[URZALINDA_STATE_BYTES];
static uint8_t memory[90];

/* Applies one event, and prints what the station says after it. */
static void apply(const char *name, const uint8_t *event, size_t length)
{
    uint32_t answer = urzalinda_apply(state, sizeof state, event, length, memory, sizeof memory);
    uint32_t running = urzalinda_running(state, sizeof state);
    uint64_t start = urzalinda_frame_start(state, sizeof state, sizeof memory);
    uint64_t frame = urzalinda_frame_length(state, sizeof state, sizeof memory);

    if (answer == 0)
        printf("%-12s accepted          ", name);
    else if (answer >= URZALINDA_ANSWERED)
        printf("%-12s started job %" PRIu32 "     ", name, answer - URZALINDA_ANSWERED);
    else
        printf("%-12s refused with %-5" PRIu32, name, answer);
    if (running >= URZALINDA_ANSWERED)
        printf("job %" PRIu32 " runs in bytes %" PRIu64 " to %" PRIu64, running - URZALINDA_ANSWERED, start, start + frame);
    else
        printf("nothing runs");
    printf(", ceiling %" PRIu32 ", waiting %08" PRIx64 "\n",
           urzalinda_system_ceiling(state, sizeof state) - URZALINDA_ANSWERED, urzalinda_waiting_word(state, sizeof state));
}

int main(void)
{
    printf("table of %" PRIu64 " bytes\n", urzalinda_read_table(TABLE, sizeof TABLE));
    printf("fresh state: %" PRIu32 "\n", urzalinda_fresh(TABLE, sizeof TABLE, state, sizeof state));
    apply("arrive 0", ARRIVE_0, sizeof ARRIVE_0);
    apply("acquire 0", ACQUIRE_0, sizeof ACQUIRE_0);
    apply("arrive 1", ARRIVE_1, sizeof ARRIVE_1);
    apply("finish 0", FINISH_0, sizeof FINISH_0);
    apply("release 0", RELEASE_0, sizeof RELEASE_0);
    apply("finish 1", FINISH_1, sizeof FINISH_1);
    apply("finish 0", FINISH_0, sizeof FINISH_0);
    return 0;
}
