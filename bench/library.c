/* Goes over a file by calls of riegeli.h, and prints how many records it has. bench/library builds it and measures it.
 *
 *     calls verify FILE    by one call of riegeli_verify
 *     calls read FILE      by riegeli_read_chunk, which gives all records
 */
#include "riegeli.h"

#include <fcntl.h>
#include <inttypes.h>
#include <stdio.h>
#include <string.h>
#include <sys/mman.h>
#include <sys/stat.h>

static int is_verified(const uint8_t *file, size_t size, uint64_t *records) {
    struct riegeli_totals totals;
    struct riegeli_fault fault;
    uint32_t status = riegeli_verify(file, size, &totals, &fault);
    *records = totals.records;
    return status == RIEGELI_DONE;
}

static int is_read(const uint8_t *file, size_t size, uint64_t *records) {
    /* Enough for each chunk that `riegeli write` makes of short lines. */
    static uint8_t values[1 << 20];
    static uint64_t ends[1 << 17];
    struct riegeli_chunk chunk;
    struct riegeli_fault fault;
    uint64_t at = 0;
    uint32_t status;
    do {
        status = riegeli_read_chunk(file, size, at, &chunk, values, sizeof values, ends, sizeof ends / sizeof *ends, &fault);
        if (status == RIEGELI_DONE) {
            *records += chunk.records;
            at = chunk.end;
        }
    } while (status == RIEGELI_DONE);
    return status == RIEGELI_NOTHING;
}

int main(int count, char **words) {
    int file = count == 3 ? open(words[2], O_RDONLY) : -1;
    struct stat about;
    if (file < 0 || fstat(file, &about) != 0) return 2;
    const uint8_t *bytes = mmap(NULL, (size_t)about.st_size, PROT_READ, MAP_PRIVATE, file, 0);
    if (bytes == MAP_FAILED) return 2;
    uint64_t records = 0;
    int is_right = (strcmp(words[1], "read") == 0 ? is_read : is_verified)(bytes, (size_t)about.st_size, &records);
    printf("records %" PRIu64 "\n", records);
    return is_right ? 0 : 1;
}
