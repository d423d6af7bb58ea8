/* Riegeli/records files: calls over memory. docs/LIBRARY.md of the repository is the manual.
 *
 * Sizes, places and lengths are in bytes, but the length beside `ends` counts the numbers that it points to.
 *
 * What the caller sees to, since nothing checks it: no pointer is null, not even with a length of 0; a length is that of
 * what its pointer points to; what is written (structs, room) overlaps nothing else of the call; no byte that is read
 * changes while the call runs; and riegeli_version() is RIEGELI_VERSION. Calls keep and free nothing of the caller's, and
 * may run side by side. Nothing proves that this header says the same as the sources of the library.
 */
#ifndef RIEGELI_H
#define RIEGELI_H

#include <stddef.h>
#include <stdint.h>

#ifdef __cplusplus
extern "C" {
#endif

/* Statuses. */
#define RIEGELI_DONE 0u
#define RIEGELI_FAULT 1u      /* a fault, or a region, which the call tells */
#define RIEGELI_ARGUMENT 2u   /* a bad argument */
#define RIEGELI_MEMORY 3u     /* malloc gave too little memory */
#define RIEGELI_ROOM 4u       /* too little room; the call tells how much it needs */
#define RIEGELI_NOTHING 5u    /* nothing found */

/* What riegeli_version answers for this header. */
#define RIEGELI_VERSION 1u

/* Why reading stops, or bytes are passed over. */
enum riegeli_reason {
    RIEGELI_NO_SIGNATURE = 1,
    RIEGELI_SHORT = 2,
    RIEGELI_HEADER_HASH = 3,
    RIEGELI_TRUNCATED = 4,
    RIEGELI_TOO_LARGE = 5,
    RIEGELI_BLOCK_HEADER = 6,
    RIEGELI_DATA_HASH = 7,
    RIEGELI_CONTENTS = 8,
    RIEGELI_COMPRESSED = 9,
    RIEGELI_TRANSPOSED = 10,
    RIEGELI_UNKNOWN_KIND = 11,
    RIEGELI_CONTRADICTED = 12
};

/* What riegeli_chunk.what says, and riegeli_piece.what. */
enum riegeli_what {
    RIEGELI_RECORDS = 1,  /* a chunk that gives records */
    RIEGELI_PASSIVE = 2,  /* one that has none: signature, metadata or padding */
    RIEGELI_UNREAD = 3,   /* one that is compressed or transposed, and left unread */
    RIEGELI_REGION = 4    /* of a piece alone: bytes that are passed over */
};

struct riegeli_fault {
    uint64_t place;   /* where the chunk begins; of a wrong block header where its block begins */
    uint32_t why;     /* enum riegeli_reason */
};

/* Of a file, or of its longest front without fault. */
struct riegeli_totals {
    uint64_t chunks;    /* the signature among them */
    uint64_t records;   /* that can be read */
    uint64_t bytes;     /* of the file or the front, not of the records alone */
    uint64_t unread;    /* chunks that are compressed or transposed */
};

struct riegeli_chunk {
    uint64_t end;       /* where the next chunk begins */
    uint64_t records;   /* record i, from 0 on, has the position at + i, with the call's `at` */
    uint64_t bytes;     /* of all records together */
    uint32_t what;      /* enum riegeli_what */
};

/* A record that was found. In its chunk it has the number position - begin, from 0 on. */
struct riegeli_found {
    uint64_t position;
    uint64_t begin;     /* of its chunk */
    uint64_t bytes;     /* of the record */
};

/* With RIEGELI_ROOM: how much room is enough for each. */
struct riegeli_repaired {
    uint64_t bytes;     /* of the repaired file */
    uint64_t lines;     /* how many bytes the lines have that tell its regions, not how many lines there are */
};

struct riegeli_region {
    uint64_t begin;
    uint64_t end;
    uint32_t why;       /* enum riegeli_reason */
};

struct riegeli_piece {
    uint64_t begin;
    uint64_t end;       /* where the next piece begins */
    uint64_t records;   /* record i, from 0 on, has the position begin + i */
    uint64_t bytes;     /* of all records together */
    uint32_t what;      /* enum riegeli_what */
    uint32_t why;       /* of a region, enum riegeli_reason; else 0 */
};

/* Where padding is wanted: riegeli_options.pad. */
#define RIEGELI_PAD_NONE 0u
#define RIEGELI_PAD_START 1u   /* before the chunks of records */
#define RIEGELI_PAD_END 2u     /* behind them */
#define RIEGELI_PAD_BOTH 3u

struct riegeli_options {
    uint64_t chunk;   /* what the records of a chunk of several cost at most: each its bytes and 8 more; 1 to 2^24 */
    uint64_t every;   /* how many records a chunk has at most, up to 2^24; 0: no limit */
    uint32_t pad;     /* RIEGELI_PAD_.. */
};

struct riegeli_written {
    uint64_t end;       /* where what was written ends, and the next call goes on */
    uint64_t records;   /* how many of the records stand in it */
};

uint32_t riegeli_version(void);

uint64_t riegeli_hash(const uint8_t *bytes, size_t count);

uint32_t riegeli_verify(const uint8_t *file, size_t size, struct riegeli_totals *totals, struct riegeli_fault *fault);

uint32_t riegeli_read_chunk(const uint8_t *file, size_t size, uint64_t at, struct riegeli_chunk *chunk,
                            uint8_t *values, size_t values_room, uint64_t *ends, size_t ends_room,
                            struct riegeli_fault *fault);

uint32_t riegeli_recover(const uint8_t *file, size_t size, uint64_t at, struct riegeli_piece *piece,
                         uint8_t *values, size_t values_room, uint64_t *ends, size_t ends_room);

uint32_t riegeli_split(const uint8_t *file, size_t size, uint64_t at, uint64_t *begin, struct riegeli_fault *fault);

uint32_t riegeli_seek(const uint8_t *file, size_t size, uint64_t at, struct riegeli_found *found,
                      uint8_t *value, size_t value_room, struct riegeli_fault *fault);

uint32_t riegeli_find(const uint8_t *file, size_t size, const uint8_t *key, size_t key_size,
                      struct riegeli_found *found, uint8_t *value, size_t value_room, struct riegeli_fault *fault);

uint32_t riegeli_repair(const uint8_t *file, size_t size, uint64_t most, struct riegeli_repaired *repaired,
                        uint8_t *room, size_t room_size, uint8_t *lines, size_t lines_size,
                        struct riegeli_region *region);

uint32_t riegeli_write(const uint8_t *values, size_t values_size, const uint64_t *ends, size_t count,
                       const struct riegeli_options *options, uint64_t at, uint32_t last,
                       struct riegeli_written *written, uint8_t *room, size_t room_size);

#ifdef __cplusplus
}
#endif

#endif
