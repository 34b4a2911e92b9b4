/* The checker as a library: from the bytes of a case file to the bytes of its listing. */
#ifndef KELOMBARY_H
#define KELOMBARY_H

#include <stddef.h>
#include <stdint.h>

/* A case file has at most so many bytes. Of a longer input one byte more is enough: its listing ends with "too long". */
#define KELOMBARY_FILE_MOST 16384

/* A buffer with room for so many bytes is never too short for a listing. */
#define KELOMBARY_LISTING_MOST 20480

/* A call takes at most so many bytes of stack, and so many from malloc. Both are measured, with a margin, and not proved. */
#define KELOMBARY_STACK_MOST 262144
#define KELOMBARY_MEMORY_MOST 65536

/* Why there is a listing or none. */
#define KELOMBARY_LISTED 0
#define KELOMBARY_BUFFER_TOO_SHORT 27
#define KELOMBARY_NO_MEMORY 28

struct kelombary_answer {
    /* One of the three numbers above. */
    uint32_t number;
    /* How many bytes of the buffer the listing takes, from its first one on; 0 where there is none. */
    size_t length;
};

#ifdef __cplusplus
extern "C" {
#endif

/*
 * Reads the case file in `file_length` bytes from `file` on, and writes its listing into the `room` bytes from `buffer` on.
 *
 * The answer's number is
 *   KELOMBARY_LISTED            the listing is written, and `length` says how long it is. This is so for every input, also for
 *                               one that is no case file or is too long: what is wrong with it is said by the listing's last line;
 *   KELOMBARY_BUFFER_TOO_SHORT  the listing is longer than `room`: nothing is written;
 *   KELOMBARY_NO_MEMORY         memory for a case is lacking: nothing is written.
 * Bytes of the buffer behind the listing stay as they were. The same input gives the same listing. Nothing is kept from call to call.
 *
 * What the caller owes, which nothing checks: neither pointer is null, also where its length is 0; `file` points to `file_length` bytes
 * that can be read and that nothing changes during the call; `buffer` points to `room` bytes that can be written and that nothing else
 * reads or writes during the call; the two do not overlap; KELOMBARY_STACK_MOST bytes of stack are left. Threads may call at the same
 * time, each with a buffer of its own. It is not called from a signal handler, nor from the forked child of a process with threads.
 *
 * What a call takes from malloc it gives back.
 */
struct kelombary_answer kelombary_list(const uint8_t *file, size_t file_length, uint8_t *buffer, size_t room);

#ifdef __cplusplus
}
#endif

#endif
