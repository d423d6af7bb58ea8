/* Makes all calls of riegeli.h that read a file, in several threads, while another thread changes bytes of it. `.ci/bindings`
 * builds and runs it.
 *
 *     changing SECONDS FILE
 *
 * What a call answers may be wrong then. But it returns, and tells nothing that lies outside of the file or of the room.
 */
#include "riegeli.h"

#include <inttypes.h>
#include <pthread.h>
#include <stdatomic.h>
#include <stdio.h>
#include <stdlib.h>
#include <time.h>

#define BLOCK 65536u
#define READERS 4

static uint8_t *file;
static size_t size;
static atomic_bool is_over;
static atomic_long rounds, wrong;

#define CHECK(holds) \
    do { \
        if (!(holds) && wrong++ < 20) printf("line %d: not %s\n", __LINE__, #holds); \
    } while (0)

static uint64_t drawn(uint64_t *state) {
    *state ^= *state << 13;
    *state ^= *state >> 7;
    *state ^= *state << 17;
    return *state;
}

static void *lend(size_t bytes) {
    void *room = malloc(bytes);
    if (room == NULL) abort();
    return room;
}

/* Changes one byte after another, each for a moment, so that most of the file is right at any time. Half of them stand in the
 * first 128 bytes of a block: in block headers, and in the first chunk headers. */
static void *change(void *seed) {
    uint64_t state = *(uint64_t *)seed;
    volatile uint8_t *bytes = file;
    while (!is_over) {
        uint64_t word = drawn(&state);
        size_t place = word % 2 == 0 ? (word >> 8) % size : (word >> 8) % size / BLOCK * BLOCK + (word >> 1) % 128;
        uint8_t change = 1 + (word >> 56) % 255;
        if (place >= size) continue;
        bytes[place] ^= change;
        for (volatile uint64_t i = drawn(&state) % 4096; i > 0; i--) {}
        bytes[place] ^= change;
    }
    return NULL;
}

static void *read_all(void *seed) {
    uint64_t state = *(uint64_t *)seed, *ends = lend(8 * size);
    uint8_t *values = lend(size), *made = lend(size + 2 * BLOCK), *lines = lend(size), key[2];
    struct riegeli_totals totals;
    struct riegeli_fault fault;
    struct riegeli_chunk chunk;
    struct riegeli_found found;
    struct riegeli_repaired repaired;
    struct riegeli_region region;
    struct riegeli_piece piece;
    uint64_t begin;
    while (!is_over) {
        CHECK(riegeli_verify(file, size, &totals, &fault) <= RIEGELI_FAULT);
        for (int i = 0; i < 100; i++) {
            uint64_t word = drawn(&state), at = word % (size + 1);
            uint32_t status = riegeli_split(file, size, at, &begin, &fault);
            CHECK(status == RIEGELI_DONE ? begin < size : status == RIEGELI_FAULT || status == RIEGELI_NOTHING);
            status = riegeli_seek(file, size, at, &found, values, size, &fault);
            CHECK(status == RIEGELI_DONE ? found.begin <= found.position && found.bytes <= size
                                         : status == RIEGELI_FAULT || status == RIEGELI_NOTHING);
            key[0] = '0' + (word >> 32) % 10;
            key[1] = '0' + (word >> 40) % 10;
            status = riegeli_find(file, size, key, sizeof key, &found, values, size, &fault);
            CHECK(status == RIEGELI_DONE ? found.begin <= found.position && found.bytes <= size
                                         : status == RIEGELI_FAULT || status == RIEGELI_NOTHING);
        }
        uint32_t status = RIEGELI_DONE;
        for (uint64_t at = 0; status == RIEGELI_DONE && !is_over; at = chunk.end) {
            status = riegeli_read_chunk(file, size, at, &chunk, values, size, ends, size, &fault);
            CHECK(status == RIEGELI_DONE ? at < chunk.end && chunk.end <= size && chunk.bytes <= size && chunk.records <= size
                                         : status == RIEGELI_FAULT || status == RIEGELI_NOTHING);
        }
        for (uint64_t at = 0; at < size && !is_over; at = piece.end) {
            status = riegeli_recover(file, size, at, &piece, values, size, ends, size);
            CHECK(status == RIEGELI_DONE || status == RIEGELI_FAULT);
            CHECK(at < piece.end && piece.end <= size && piece.bytes <= size && piece.records <= size);
        }
        status = riegeli_repair(file, size, UINT64_MAX, &repaired, made, size + 2 * BLOCK, lines, size, &region);
        CHECK(status == RIEGELI_DONE && repaired.bytes <= size + 2 * BLOCK && repaired.lines <= size);
        status = riegeli_repair(file, size, 1000, &repaired, made, 1000, lines, 0, &region);
        CHECK(status == RIEGELI_FAULT || status == RIEGELI_ROOM);
        rounds++;
    }
    free(ends);
    free(values);
    free(made);
    free(lines);
    return NULL;
}

int main(int count, char **words) {
    if (count != 3) return 2;
    FILE *from = fopen(words[2], "rb");
    if (from == NULL || fseek(from, 0, SEEK_END) != 0) return 2;
    size = ftell(from);
    rewind(from);
    file = lend(size);
    if (fread(file, 1, size, from) != size) return 2;
    fclose(from);

    pthread_t threads[READERS + 1];
    uint64_t seeds[READERS + 1];
    for (int i = 0; i <= READERS; i++) {
        seeds[i] = 0x9e3779b97f4a7c15u * (i + 1);
        if (pthread_create(&threads[i], NULL, i == 0 ? change : read_all, &seeds[i]) != 0) return 2;
    }
    nanosleep(&(struct timespec){.tv_sec = atol(words[1])}, NULL);
    is_over = 1;
    for (int i = 0; i <= READERS; i++) pthread_join(threads[i], NULL);
    free(file);
    printf("%ld rounds, %ld wrong\n", rounds, wrong);
    return rounds > 0 && wrong == 0 ? 0 : 1;
}
