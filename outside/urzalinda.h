/* The library of crates/driver, for C. Bytes are passed as a pointer and a size_t. Refusals are answered by the numbers of README.md, and a
   refused call changes no byte. Two buffers of one call must not overlap. A pointer must not be null, even for a length of 0. */
#ifndef URZALINDA_H
#define URZALINDA_H

#include <stddef.h>
#include <stdint.h>

/* How many bytes a station's state takes. */
#define URZALINDA_STATE_BYTES 1206

/* Functions of 64 bits answer a refusal as 2^32 and its number. */
#define URZALINDA_REFUSED (UINT64_C(1) << 32)

/* Functions of 32 bits answer a number or a job as 256 and the number, and a refusal as its number. */
#define URZALINDA_ANSWERED UINT32_C(256)

/* Replays a log: how many bytes were written to the front of the buffer, or 2^32 + 6 if it is shorter than urzalinda_room says. */
uint64_t urzalinda_replay(const uint8_t *input, size_t input_length, uint8_t *out, size_t out_length);

/* How long a buffer has to be for the replay of so many bytes. */
uint64_t urzalinda_room(uint64_t bytes);

/* How many bytes the table at the front of the input takes, or 2^32 and the refusal (1 to 5). */
uint64_t urzalinda_read_table(const uint8_t *input, size_t input_length);

/* Where the reading of the table stopped: at the refused field, or else behind the table. */
uint64_t urzalinda_refused_at(const uint8_t *input, size_t input_length);

/* Stores the fresh state of the table at the front of the bytes: 0, or the refusal (1 to 5, then 6 if the state is not URZALINDA_STATE_BYTES long). */
uint32_t urzalinda_fresh(const uint8_t *table, size_t table_length, uint8_t *state, size_t state_length);

/* Applies the event at the front of the bytes: 256 and the job that started, 0 if none did, or the refusal (1 to 3, then 10 to 21). */
uint32_t urzalinda_apply(uint8_t *state, size_t state_length, const uint8_t *event, size_t event_length, uint8_t *memory, size_t memory_length);

/* The running job: 256 and its number, 0 if nothing runs, or 10. */
uint32_t urzalinda_running(const uint8_t *state, size_t state_length);

/* The system ceiling: 256 and the level, or 10. */
uint32_t urzalinda_system_ceiling(const uint8_t *state, size_t state_length);

/* The ceiling of a resource as its free units are: 256 and the level, or 10, then 15. */
uint32_t urzalinda_ceiling(const uint8_t *state, size_t state_length, uint8_t resource);

/* How many jobs wait: 256 and the number, or 10. */
uint32_t urzalinda_number_waiting(const uint8_t *state, size_t state_length);

/* Which jobs wait: bit j is set if job j does; or 2^32 + 10. */
uint64_t urzalinda_waiting_word(const uint8_t *state, size_t state_length);

/* Where the running job's frame starts in a stack memory of so many bytes; 0 if there is none. */
uint64_t urzalinda_frame_start(const uint8_t *state, size_t state_length, uint64_t memory_length);

/* How long the running job's frame is; 0 if nothing runs, or the state or the memory's length is refused. */
uint64_t urzalinda_frame_length(const uint8_t *state, size_t state_length, uint64_t memory_length);

#endif
