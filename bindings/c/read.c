/* Prints the records of a file, one a line, up to its end or its first fault. */
#include "riegeli.h"

#include <fcntl.h>
#include <inttypes.h>
#include <stdio.h>
#include <stdlib.h>
#include <sys/mman.h>
#include <sys/stat.h>

static void *grown(void *room, size_t bytes) {
    room = realloc(room, bytes);
    if (room == NULL) exit(RIEGELI_MEMORY);
    return room;
}

static void print_records(const uint8_t *values, const uint64_t *ends, uint64_t count) {
    uint64_t begin = 0;
    for (uint64_t i = 0; i < count; i++) {
        fwrite(values + begin, 1, ends[i] - begin, stdout);
        putchar('\n');
        begin = ends[i];
    }
}

static uint32_t print_file(const uint8_t *file, size_t size, struct riegeli_fault *fault) {
    size_t values_room = 1 << 20, ends_room = 1 << 17;
    uint8_t *values = grown(NULL, values_room);
    uint64_t *ends = grown(NULL, ends_room * sizeof *ends);
    uint64_t at = 0;
    for (;;) {
        struct riegeli_chunk chunk;
        uint32_t status = riegeli_read_chunk(file, size, at, &chunk, values, values_room, ends, ends_room, fault);
        if (status == RIEGELI_DONE) {
            if (chunk.what == RIEGELI_UNREAD) fprintf(stderr, "unread %" PRIu64 "\n", at);
            print_records(values, ends, chunk.records);
            at = chunk.end;
        } else if (status == RIEGELI_ROOM) {
            if (chunk.bytes > values_room) values_room = chunk.bytes;
            if (chunk.records > ends_room) ends_room = chunk.records;
            values = grown(values, values_room);
            ends = grown(ends, ends_room * sizeof *ends);
        } else {
            free(values);
            free(ends);
            return status;
        }
    }
}

int main(int count, char **words) {
    int file = count == 2 ? open(words[1], O_RDONLY) : -1;
    struct stat about;
    if (file < 0 || fstat(file, &about) != 0) return 2;
    size_t size = (size_t)about.st_size;
    const uint8_t *bytes = size == 0 ? (const uint8_t *)"" : mmap(NULL, size, PROT_READ, MAP_PRIVATE, file, 0);
    if (bytes == MAP_FAILED) return 2;

    struct riegeli_fault fault;
    uint32_t status = print_file(bytes, size, &fault);
    if (status == RIEGELI_FAULT) fprintf(stderr, "refused %" PRIu64 " %" PRIu32 "\n", fault.place, fault.why);
    if (status != RIEGELI_NOTHING) return (int)status;
    return fflush(stdout) == 0 && !ferror(stdout) ? 0 : 1;
}
