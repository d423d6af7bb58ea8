/* Makes a record file of the lines of standard input, piece by piece. */
#include "riegeli.h"

#include <stdio.h>
#include <stdlib.h>
#include <string.h>

/* How many bytes a record has at most. */
#define LONGEST (1 << 24)
/* Chunks are laid once the records that wait cost more than this: each its bytes and 8 more. It is that of several chunks. */
#define PIECE (1 << 22)

/* A file that is made: where it ends so far, the records that wait, and room for the chunks of a piece. */
struct writer {
    FILE *to;
    uint64_t at;
    uint8_t *values;   /* the bytes of the records, one behind another */
    uint64_t *ends;    /* where each record ends among them */
    size_t bytes, count;
    uint8_t *room;
    size_t room_size;
};

static void *grown(void *room, size_t bytes) {
    room = realloc(room, bytes);
    if (room == NULL) exit(RIEGELI_MEMORY);
    return room;
}

/* Writes the chunks that are full, and at last all, and drops their records from the front of those that wait. */
static void put(struct writer *it, uint32_t last) {
    static const struct riegeli_options options = {.chunk = 1 << 20, .every = 0, .pad = RIEGELI_PAD_NONE};
    struct riegeli_written written;
    for (;;) {
        uint32_t status = riegeli_write(it->values, it->bytes, it->ends, it->count, &options, it->at, last,
                                        &written, it->room, it->room_size);
        if (status == RIEGELI_DONE) break;
        if (status != RIEGELI_ROOM) exit((int)status);
        it->room_size = written.end - it->at;
        it->room = grown(it->room, it->room_size);
    }
    size_t size = written.end - it->at, laid = written.records, bytes = laid == 0 ? 0 : it->ends[laid - 1];
    if (fwrite(it->room, 1, size, it->to) != size) exit(1);
    it->at = written.end;
    it->bytes -= bytes;
    it->count -= laid;
    memmove(it->values, it->values + bytes, it->bytes);
    for (size_t i = 0; i < it->count; i++) it->ends[i] = it->ends[i + laid] - bytes;
}

int main(int count, char **words) {
    struct writer writer = {.to = count == 2 ? fopen(words[1], "wb") : NULL, .room_size = 1 << 20};
    if (writer.to == NULL) return 2;
    /* What waits before a record comes is a piece or one longest record at most. */
    writer.values = grown(NULL, 2 * LONGEST);
    writer.ends = grown(NULL, (PIECE / 8 + 1) * sizeof *writer.ends);
    writer.room = grown(NULL, writer.room_size);

    char *line = NULL;
    size_t line_room = 0;
    ssize_t bytes;
    while ((bytes = getline(&line, &line_room, stdin)) > 0) {
        if (line[bytes - 1] == '\n') bytes--;
        if (bytes > LONGEST) return 2;
        memcpy(writer.values + writer.bytes, line, bytes);
        writer.bytes += bytes;
        writer.ends[writer.count++] = writer.bytes;
        if (writer.bytes + 8 * writer.count > PIECE) put(&writer, 0);
    }
    put(&writer, 1);
    free(line);
    free(writer.values);
    free(writer.ends);
    free(writer.room);
    return feof(stdin) != 0 && fclose(writer.to) == 0 ? 0 : 1;
}
