/* Tries the calls of riegeli.h over files, and says what is wrong. `.ci/bindings` builds and runs it.
 *
 *     try rooms FILE...               each call over each file, with room of each size up to what is needed, where that is little
 *     try mutated SEED COUNT FILE...  each call over COUNT files that are made of these by a few changes
 *     try memory FILE...              each call with each of its requests for memory refused (linked with --wrap)
 *
 * What is handed to a call stands right before a page that can't be touched; with MALLOCED, for valgrind and the sanitizers, it
 * is a piece of the heap of just that size.
 */
#include "riegeli.h"

#include <inttypes.h>
#include <stdio.h>
#include <stdlib.h>
#include <string.h>
#include <sys/mman.h>

#define BLOCK 65536u
#define MOST_CHUNKS 4096
#define LENT (1u << 25)

static long wrong;
static const char *about = "";

#define CHECK(holds) \
    do { \
        if (!(holds) && wrong++ < 20) printf("%s: line %d: not %s\n", about, __LINE__, #holds); \
    } while (0)

static uint64_t state = 88172645463325252u;

static uint64_t drawn(void) {
    state ^= state << 13;
    state ^= state >> 7;
    state ^= state << 17;
    return state;
}

static uint64_t drawn_below(uint64_t most) {
    return most == 0 ? 0 : drawn() % most;
}

/* Memory that is lent to calls: a few pieces, each of which is asked for anew. */
enum piece { FILE_BYTES, VALUES, ENDS, MADE, LINES, KEY, WRITTEN, PIECES };

#ifdef MALLOCED

static uint8_t *lent[PIECES];

static void *lend(enum piece piece, size_t bytes) {
    free(lent[piece]);
    return lent[piece] = malloc(bytes == 0 ? 1 : bytes);
}

static void check_before(enum piece piece, const void *begin) {
    (void)piece;
    (void)begin;
}

#else

#define MARK 0xa5

static uint8_t *lent[PIECES];

/* What stands before the piece is marked, so that it shows what is written there. */
static void *lend(enum piece piece, size_t bytes) {
    if (bytes > LENT - BLOCK) abort();
    if (lent[piece] == NULL) {
        lent[piece] = mmap(NULL, LENT + BLOCK, PROT_READ | PROT_WRITE, MAP_PRIVATE | MAP_ANONYMOUS | MAP_NORESERVE, -1, 0);
        if (lent[piece] == MAP_FAILED || mprotect(lent[piece] + LENT, BLOCK, PROT_NONE) != 0) abort();
    }
    uint8_t *begin = lent[piece] + LENT - bytes;
    memset(begin - 64, MARK, 64);
    return begin;
}

static void check_before(enum piece piece, const void *begin) {
    (void)piece;
    for (int i = 1; i <= 64; i++) CHECK(((const uint8_t *)begin)[-i] == MARK);
}

#endif

/* A file, and what reading chunk by chunk gave of it. */
static const uint8_t *file;
static size_t size;

struct seen {
    uint64_t begin[MOST_CHUNKS];
    struct riegeli_chunk chunk[MOST_CHUNKS];
    size_t chunks;
    uint64_t records;
    uint64_t unread;
    uint32_t status;
    struct riegeli_fault fault;
    uint8_t *values;   /* of all records */
    uint64_t bytes;
    uint64_t *ends;
    uint64_t *positions;
    uint64_t *begins;  /* of the chunk of each record */
};

static struct seen seen;

static const uint8_t *record(uint64_t i) {
    return seen.values + (i == 0 ? 0 : seen.ends[i - 1]);
}

static uint64_t record_size(uint64_t i) {
    return seen.ends[i] - (i == 0 ? 0 : seen.ends[i - 1]);
}

static void take_records(uint64_t begin, const struct riegeli_chunk *chunk, const uint8_t *values, const uint64_t *ends) {
    uint64_t count = seen.records + chunk->records, bytes = seen.bytes + chunk->bytes;
    seen.values = realloc(seen.values, bytes + 1);
    seen.ends = realloc(seen.ends, 8 * (count + 1));
    seen.positions = realloc(seen.positions, 8 * (count + 1));
    seen.begins = realloc(seen.begins, 8 * (count + 1));
    memcpy(seen.values + seen.bytes, values, chunk->bytes);
    for (uint64_t i = 0; i < chunk->records; i++) {
        CHECK(ends[i] <= chunk->bytes && (i == 0 || ends[i - 1] <= ends[i]));
        seen.ends[seen.records + i] = seen.bytes + ends[i];
        seen.positions[seen.records + i] = begin + i;
        seen.begins[seen.records + i] = begin;
    }
    CHECK(chunk->records == 0 ? chunk->bytes == 0 : ends[chunk->records - 1] == chunk->bytes);
    seen.records = count;
    seen.bytes = bytes;
}

/* Reads the file from its front to its end or first fault. */
static void see(void) {
    uint64_t at = 0;
    seen.chunks = 0;
    seen.records = seen.unread = seen.bytes = 0;
    for (;;) {
        struct riegeli_chunk chunk = {0};
        struct riegeli_fault fault = {0};
        uint8_t *values = lend(VALUES, 0);
        uint64_t *ends = lend(ENDS, 0);
        uint32_t status = riegeli_read_chunk(file, size, at, &chunk, values, 0, ends, 0, &fault);
        if (status == RIEGELI_ROOM) {
            CHECK(chunk.what == RIEGELI_RECORDS && chunk.records > 0);
            values = lend(VALUES, chunk.bytes);
            ends = lend(ENDS, 8 * chunk.records);
            status = riegeli_read_chunk(file, size, at, &chunk, values, chunk.bytes, ends, chunk.records, &fault);
            CHECK(status == RIEGELI_DONE);
            check_before(VALUES, values);
            check_before(ENDS, ends);
        }
        seen.status = status;
        seen.fault = fault;
        if (status != RIEGELI_DONE) return;
        CHECK(chunk.end > at && chunk.end <= size && seen.chunks < MOST_CHUNKS);
        seen.begin[seen.chunks] = at;
        seen.chunk[seen.chunks++] = chunk;
        if (chunk.what == RIEGELI_UNREAD) seen.unread++;
        if (chunk.what == RIEGELI_RECORDS) take_records(at, &chunk, values, ends);
        at = chunk.end;
    }
}

static int is_whole(void) {
    return seen.status == RIEGELI_NOTHING;
}

static void try_verify(void) {
    struct riegeli_totals totals;
    struct riegeli_fault fault;
    uint32_t status = riegeli_verify(file, size, &totals, &fault);
    CHECK(status == (is_whole() ? RIEGELI_DONE : RIEGELI_FAULT));
    CHECK(totals.chunks == seen.chunks && totals.records == seen.records && totals.unread == seen.unread);
    CHECK(totals.bytes == (seen.chunks == 0 ? 0 : seen.chunk[seen.chunks - 1].end));
    CHECK(status == RIEGELI_DONE || (seen.status == RIEGELI_FAULT && fault.place == seen.fault.place && fault.why == seen.fault.why));
    CHECK(riegeli_verify(file, ((size_t)1 << 60) + 1, &totals, &fault) == RIEGELI_ARGUMENT);
}

/* Reads a chunk in room of these sizes. */
static void try_read(size_t number, uint64_t values_room, uint64_t ends_room) {
    const struct riegeli_chunk *wanted = &seen.chunk[number];
    struct riegeli_chunk chunk = {0};
    struct riegeli_fault fault;
    uint8_t *values = lend(VALUES, values_room);
    uint64_t *ends = lend(ENDS, 8 * ends_room);
    uint32_t status = riegeli_read_chunk(file, size, seen.begin[number], &chunk, values, values_room, ends, ends_room, &fault);
    int fits = wanted->bytes <= values_room && wanted->records <= ends_room;
    CHECK(status == (fits ? RIEGELI_DONE : RIEGELI_ROOM));
    CHECK(chunk.end == wanted->end && chunk.records == wanted->records && chunk.bytes == wanted->bytes && chunk.what == wanted->what);
    check_before(VALUES, values);
    check_before(ENDS, ends);
    for (uint64_t i = 0; fits && i < seen.records; i++) {
        if (seen.begins[i] != seen.begin[number]) continue;
        uint64_t in_chunk = seen.positions[i] - seen.begins[i], begin = in_chunk == 0 ? 0 : ends[in_chunk - 1];
        CHECK(ends[in_chunk] - begin == record_size(i) && memcmp(values + begin, record(i), record_size(i)) == 0);
    }
}

static void try_reads(void) {
    struct riegeli_chunk chunk;
    struct riegeli_fault fault;
    CHECK(riegeli_read_chunk(file, size, size + 1, &chunk, lend(VALUES, 0), 0, lend(ENDS, 0), 0, &fault) == RIEGELI_ARGUMENT);
    for (uint64_t at = 1; at <= 24 && at <= size; at++) {
        CHECK(riegeli_read_chunk(file, size, at, &chunk, lend(VALUES, 0), 0, lend(ENDS, 0), 0, &fault) == RIEGELI_ARGUMENT);
    }
    for (size_t number = 0; number < seen.chunks; number++) {
        uint64_t bytes = seen.chunk[number].bytes, records = seen.chunk[number].records;
        uint64_t step = bytes < 200 ? 1 : bytes / 20;
        for (uint64_t room = 0; room < bytes; room += step) try_read(number, room, records);
        step = records < 200 ? 1 : records / 20;
        for (uint64_t room = 0; room < records; room += step) try_read(number, bytes, room);
        if (bytes > 0) try_read(number, bytes - 1, records);
        try_read(number, bytes, records);
        try_read(number, bytes + 3, records + 3);
    }
}

static void try_split(uint64_t at) {
    uint64_t begin = 12345;
    struct riegeli_fault fault;
    uint32_t status = riegeli_split(file, size, at, &begin, &fault);
    if (is_whole()) {
        uint64_t wanted = size;
        for (size_t i = seen.chunks; i > 0 && seen.begin[i - 1] >= at; i--) wanted = seen.begin[i - 1];
        CHECK(status == (wanted < size ? RIEGELI_DONE : RIEGELI_NOTHING) && begin == wanted);
    } else {
        CHECK(status == RIEGELI_FAULT || (status == RIEGELI_DONE && begin < size) || (status == RIEGELI_NOTHING && begin == size));
        CHECK(status != RIEGELI_DONE || begin >= at);
    }
}

/* What a search found in so much room. */
static uint32_t searched(int by_key, uint64_t at, const uint8_t *key, size_t key_size, struct riegeli_found *found, uint64_t room,
                         uint8_t **value) {
    struct riegeli_fault fault;
    *value = lend(VALUES, room);
    uint32_t status = by_key ? riegeli_find(file, size, key, key_size, found, *value, room, &fault)
                             : riegeli_seek(file, size, at, found, *value, room, &fault);
    check_before(VALUES, *value);
    return status;
}

static uint32_t search(int by_key, uint64_t at, const uint8_t *key, size_t key_size, struct riegeli_found *found, uint8_t **value) {
    uint32_t status = searched(by_key, at, key, key_size, found, 0, value);
    if (status != RIEGELI_ROOM) return status;
    struct riegeli_found first = *found;
    for (uint64_t room = first.bytes > 40 ? first.bytes - 1 : 0; room < first.bytes; room++) {
        CHECK(searched(by_key, at, key, key_size, found, room, value) == RIEGELI_ROOM && found->bytes == first.bytes);
    }
    CHECK(searched(by_key, at, key, key_size, found, first.bytes, value) == RIEGELI_DONE);
    CHECK(found->position == first.position && found->begin == first.begin && found->bytes == first.bytes);
    return RIEGELI_DONE;
}

static void try_seek(uint64_t at) {
    struct riegeli_found found;
    uint8_t *value;
    uint32_t status = search(0, at, NULL, 0, &found, &value);
    CHECK(status == RIEGELI_DONE || status == RIEGELI_FAULT || status == RIEGELI_NOTHING);
    if (!is_whole() || seen.unread > 0) return;
    uint64_t i = 0;
    while (i < seen.records && seen.positions[i] < at) i++;
    if (i == seen.records) {
        CHECK(status == RIEGELI_NOTHING);
    } else {
        CHECK(status == RIEGELI_DONE && found.position == seen.positions[i] && found.begin == seen.begins[i]);
        CHECK(found.bytes == record_size(i) && memcmp(value, record(i), record_size(i)) == 0);
    }
}

static int is_less(const uint8_t *value, uint64_t bytes, const uint8_t *key, size_t key_size) {
    int order = memcmp(value, key, bytes < key_size ? bytes : key_size);
    return order < 0 || (order == 0 && bytes < key_size);
}

static void try_find(const uint8_t *from, size_t key_size) {
    struct riegeli_found found;
    uint8_t *value, *key = lend(KEY, key_size);
    memcpy(key, from, key_size);
    uint32_t status = search(1, 0, key, key_size, &found, &value);
    CHECK(status == RIEGELI_DONE || status == RIEGELI_FAULT || status == RIEGELI_NOTHING);
    if (status == RIEGELI_DONE) CHECK(!is_less(value, found.bytes, key, key_size));
    if (!is_whole() || seen.unread > 0) return;
    uint64_t i = 0;
    if (status == RIEGELI_NOTHING) {
        CHECK(seen.records == 0 || is_less(record(seen.records - 1), record_size(seen.records - 1), key, key_size));
        return;
    }
    while (i < seen.records && seen.positions[i] != found.position) i++;
    CHECK(status == RIEGELI_DONE && i < seen.records);
    if (i == seen.records) return;
    CHECK(found.begin == seen.begins[i] && found.bytes == record_size(i) && memcmp(value, record(i), record_size(i)) == 0);
    CHECK(i == 0 || is_less(record(i - 1), record_size(i - 1), key, key_size));
}

static uint32_t repaired(uint64_t most, uint64_t room, uint64_t lines_room, struct riegeli_repaired *told,
                         struct riegeli_region *region, uint8_t **made, uint8_t **lines) {
    *made = lend(MADE, room);
    *lines = lend(LINES, lines_room);
    uint32_t status = riegeli_repair(file, size, most, told, *made, room, *lines, lines_room, region);
    check_before(MADE, *made);
    check_before(LINES, *lines);
    return status;
}

static void try_repair(int each_room) {
    struct riegeli_repaired needed = {0}, told;
    struct riegeli_region region;
    struct riegeli_totals totals;
    struct riegeli_fault fault;
    uint8_t *made, *lines;
    CHECK(repaired(UINT64_MAX, 0, 0, &needed, &region, &made, &lines) == RIEGELI_ROOM && needed.bytes >= 64);
    CHECK(repaired(UINT64_MAX, needed.bytes, needed.lines, &told, &region, &made, &lines) == RIEGELI_DONE);
    CHECK(told.bytes == needed.bytes && told.lines <= needed.lines);
    CHECK((told.lines == 0) == (needed.lines == 0) && (told.lines == 0 || lines[told.lines - 1] == '\n'));
    CHECK(riegeli_verify(made, told.bytes, &totals, &fault) == RIEGELI_DONE);
    if (is_whole()) CHECK(told.lines == 0 && totals.records == seen.records && totals.unread == seen.unread);
    uint64_t used = told.lines, step = each_room ? 1 : needed.bytes / 3 + 1;
    for (uint64_t room = 0; room < needed.bytes; room += step) {
        CHECK(repaired(UINT64_MAX, room, needed.lines, &told, &region, &made, &lines) == RIEGELI_ROOM && told.bytes == needed.bytes);
    }
    step = each_room ? 1 : used / 3 + 1;
    for (uint64_t room = 0; room < used; room += step) {
        CHECK(repaired(UINT64_MAX, needed.bytes, room, &told, &region, &made, &lines) == RIEGELI_ROOM && told.lines == needed.lines);
    }
    if (needed.lines > 0) {
        CHECK(repaired(0, needed.bytes, needed.lines, &told, &region, &made, &lines) == RIEGELI_FAULT);
        CHECK(region.begin < region.end && region.end <= size && 1 <= region.why && region.why <= RIEGELI_CONTRADICTED);
    }
}

static const char *const reasons[] = {
    "", "NoSignature", "Short", "HeaderHash", "Truncated", "TooLarge", "BlockHeader", "DataHash",
    "Contents", "Compressed", "Transposed", "UnknownKind", "Contradicted"
};

static uint32_t recovered(uint64_t at, struct riegeli_piece *piece, uint64_t values_room, uint64_t ends_room) {
    uint8_t *values = lend(VALUES, values_room);
    uint64_t *ends = lend(ENDS, 8 * ends_room);
    uint32_t status = riegeli_recover(file, size, at, piece, values, values_room, ends, ends_room);
    check_before(VALUES, values);
    check_before(ENDS, ends);
    if (status == RIEGELI_DONE && piece->records > 0) CHECK(ends[piece->records - 1] == piece->bytes);
    return status;
}

/* Goes from piece to piece: what is passed over is what a repair passes over, and a file without fault has its chunks for pieces. */
static void try_recover(int each_room) {
    struct riegeli_piece piece;
    struct riegeli_repaired told;
    struct riegeli_region region;
    uint8_t *made, *lines;
    uint64_t at = 0, records = 0, line = 0;
    size_t pieces = 0;
    CHECK(repaired(UINT64_MAX, 0, 0, &told, &region, &made, &lines) == RIEGELI_ROOM);
    CHECK(repaired(UINT64_MAX, told.bytes, told.lines, &told, &region, &made, &lines) == RIEGELI_DONE);
    CHECK(recovered(size + 1, &piece, 0, 0) == RIEGELI_ARGUMENT);
    for (uint32_t status;; at = piece.end) {
        status = recovered(at, &piece, 0, 0);
        if (status == RIEGELI_ROOM) {
            struct riegeli_piece first = piece;
            CHECK(piece.what == RIEGELI_RECORDS && piece.records > 0);
            uint64_t step = each_room ? 1 : first.bytes / 3 + 1;
            for (uint64_t room = 0; room < first.bytes; room += step) CHECK(recovered(at, &piece, room, first.records) == RIEGELI_ROOM);
            step = each_room ? 1 : first.records / 3 + 1;
            for (uint64_t room = 0; room < first.records; room += step) CHECK(recovered(at, &piece, first.bytes, room) == RIEGELI_ROOM);
            status = recovered(at, &piece, first.bytes, first.records);
            CHECK(status == RIEGELI_DONE && piece.end == first.end && piece.records == first.records && piece.bytes == first.bytes);
        }
        if (status == RIEGELI_NOTHING) break;
        CHECK(status == RIEGELI_DONE || status == RIEGELI_FAULT);
        CHECK(piece.begin == at && piece.end > at && piece.end <= size);
        CHECK((status == RIEGELI_FAULT) == (piece.what == RIEGELI_REGION) && (piece.why != 0) == (piece.what == RIEGELI_REGION));
        if (is_whole()) CHECK(pieces < seen.chunks && piece.end == seen.chunk[pieces].end && piece.what == seen.chunk[pieces].what);
        if (status == RIEGELI_FAULT) {
            char wanted[128];
            int length = sprintf(wanted, "skipped %" PRIu64 " %" PRIu64 " %s\n", piece.begin, piece.end, reasons[piece.why]);
            CHECK(line + length <= told.lines && memcmp(lines + line, wanted, length) == 0);
            line += length;
        }
        records += piece.records;
        pieces++;
        if (piece.end <= at) return;
    }
    CHECK(at == size && line == told.lines);
    if (is_whole()) CHECK(pieces == seen.chunks && records == seen.records);
}

/* Records, to be written: those that were read, from one on. */
static uint32_t written(uint64_t from, uint64_t count, struct riegeli_options options, uint64_t at, uint32_t last,
                        struct riegeli_written *told, uint64_t room, uint8_t **made) {
    uint64_t begin = from == 0 ? 0 : seen.ends[from - 1], bytes = count == 0 ? 0 : seen.ends[from + count - 1] - begin;
    uint8_t *values = lend(VALUES, bytes);
    uint64_t *ends = lend(ENDS, 8 * count);
    if (bytes > 0) memcpy(values, seen.values + begin, bytes);
    for (uint64_t i = 0; i < count; i++) ends[i] = seen.ends[from + i] - begin;
    *made = lend(MADE, room);
    uint32_t status = riegeli_write(values, bytes, ends, count, &options, at, last, told, *made, room);
    check_before(MADE, *made);
    return status;
}

static void try_write(struct riegeli_options options, int each_room) {
    struct riegeli_written needed, told;
    struct riegeli_totals totals;
    struct riegeli_fault fault;
    uint8_t *made;
    CHECK(written(0, seen.records, options, 0, 1, &needed, 0, &made) == RIEGELI_ROOM && needed.records == seen.records);
    uint64_t step = each_room ? 1 : needed.end / 3 + 1;
    for (uint64_t room = 0; room < needed.end; room += step) {
        CHECK(written(0, seen.records, options, 0, 1, &told, room, &made) == RIEGELI_ROOM && told.end == needed.end);
    }
    CHECK(written(0, seen.records, options, 0, 1, &told, needed.end, &made) == RIEGELI_DONE && told.end == needed.end);
    uint8_t *whole = lend(WRITTEN, needed.end);
    memcpy(whole, made, needed.end);
    CHECK(riegeli_verify(whole, needed.end, &totals, &fault) == RIEGELI_DONE && totals.records == seen.records);

    /* The same by several calls, each of which gets some records more than the last one laid. */
    uint64_t at = 0, laid = 0, given = 0;
    while (at < needed.end) {
        given += drawn_below(seen.records - given + 1);
        uint32_t last = given == seen.records && drawn_below(3) == 0, status;
        status = written(laid, given - laid, options, at, last, &told, needed.end - at, &made);
        CHECK(status == RIEGELI_DONE && told.end >= at && told.end <= needed.end && told.records <= given - laid);
        if (status != RIEGELI_DONE || told.end < at || told.end > needed.end) return;
        CHECK(memcmp(made, whole + at, told.end - at) == 0);
        at = told.end;
        laid += told.records;
        options.pad &= 2;
        if (last) break;
    }
    CHECK(at == needed.end);

    struct riegeli_options bad[] = {
        {0, 0, 0}, {(1 << 24) + 1, 0, 0}, {1, (1 << 24) + 1, 0}, {1, 1, 4}, {UINT64_MAX, UINT64_MAX, UINT32_MAX}
    };
    for (size_t i = 0; i < sizeof bad / sizeof *bad; i++) {
        CHECK(written(0, seen.records, bad[i], 0, 1, &told, 64, &made) == RIEGELI_ARGUMENT);
    }
    CHECK(written(0, 0, options, 63, 1, &told, 64, &made) == RIEGELI_ARGUMENT);
    CHECK(written(0, 0, options, BLOCK + 1, 1, &told, 64, &made) == RIEGELI_ARGUMENT);
    CHECK(written(0, 0, options, 0, 2, &told, 64, &made) == RIEGELI_ARGUMENT);
    uint64_t *ends = lend(ENDS, 16);
    ends[0] = 2;
    ends[1] = 1;
    CHECK(riegeli_write(lend(VALUES, 2), 2, ends, 2, &options, 0, 1, &told, lend(MADE, 64), 64) == RIEGELI_ARGUMENT);
    CHECK(riegeli_write(lend(VALUES, 1), 1, ends, 1, &options, 0, 1, &told, lend(MADE, 64), 64) == RIEGELI_ARGUMENT);
}

static void try_writes(int each_room) {
    if (!is_whole() || seen.unread > 0 || seen.bytes + 64 * seen.records > LENT / 4) return;
    struct riegeli_options options[] = {
        {1 << 20, 0, 0}, {1, 0, 0}, {40, 0, 1}, {1 << 24, 3, 2}, {200, 7, 3}
    };
    for (size_t i = 0; i < sizeof options / sizeof *options; i++) try_write(options[i], each_room && options[i].pad == 0);
}

static void try_hash(void) {
    if (size >= 64 && is_whole()) {
        uint64_t told;
        memcpy(&told, file + 24, 8);
        CHECK(riegeli_hash(file + 32, 32) == told);
    }
    CHECK(riegeli_version() == RIEGELI_VERSION);
}

/* Puts bytes in the place of the file, right before a page that can't be touched. */
static void set_file(const uint8_t *bytes, size_t count) {
    uint8_t *begin = lend(FILE_BYTES, count);
    memcpy(begin, bytes, count);
    file = begin;
    size = count;
}

static void try_rooms(void) {
    int is_small = size <= 1500;
    see();
    try_hash();
    try_verify();
    try_reads();
    uint64_t step = is_small ? 1 : size / 200 + 1;
    for (uint64_t at = 0; at <= size + 2; at += step) {
        try_split(at);
        try_seek(at);
    }
    try_split(UINT64_MAX);
    try_seek(UINT64_MAX);
    step = seen.records / 50 + 1;
    for (uint64_t i = 0; i < seen.records; i += step) {
        try_find(record(i), record_size(i));
        if (record_size(i) > 0) try_find(record(i), record_size(i) - 1);
    }
    try_find((const uint8_t *)"", 0);
    try_find((const uint8_t *)"\xff\xff", 2);
    try_repair(is_small);
    try_recover(is_small);
    try_writes(is_small);
}

/* Changes a few bytes, cuts some off, or gives a chunk header other numbers and the hash that they have. */
static void mutate(const uint8_t *bytes, size_t count) {
    size_t kept = drawn_below(4) == 0 ? drawn_below(count + 1) : count;
    uint8_t *changed = malloc(kept + 1);
    memcpy(changed, bytes, kept);
    for (uint64_t i = drawn_below(4); kept > 0 && i > 0; i--) changed[drawn_below(kept)] = drawn();
    if (kept > 104 && drawn_below(3) > 0) {
        /* The header of the first chunk of records, or its block header. */
        size_t header = drawn_below(4) == 0 ? 0 : 64, covered = header == 0 ? 16 : 32;
        uint64_t word = drawn() >> drawn_below(64), hash;
        memcpy(changed + header + 8 + 8 * drawn_below(covered / 8), &word, 8);
        hash = riegeli_hash(changed + header + 8, covered);
        memcpy(changed + header, &hash, 8);
    }
    set_file(changed, kept);
    free(changed);
}

static void try_mutated(void) {
    uint8_t key[8];
    uint64_t word = drawn();
    see();
    try_verify();
    for (int i = 0; i < 3; i++) try_split(drawn() >> drawn_below(64));
    try_split(drawn_below(size + 1));
    try_seek(drawn_below(size + 1));
    memcpy(key, &word, 8);
    try_find(key, drawn_below(9));
    try_repair(0);
    try_recover(0);
    if (drawn_below(16) == 0) try_writes(0);
    struct riegeli_chunk chunk;
    struct riegeli_piece piece;
    struct riegeli_fault fault;
    uint64_t at = drawn() >> drawn_below(64);
    riegeli_read_chunk(file, size, at, &chunk, lend(VALUES, 0), 0, lend(ENDS, 0), 0, &fault);
    riegeli_recover(file, size, drawn_below(size + 1), &piece, lend(VALUES, 0), 0, lend(ENDS, 0), 0);
}

#ifdef REFUSING

/* Which request for memory is refused, and how many came; and how many pieces are held. */
static long refused, came, held;

void *__real_malloc(size_t bytes);
void *__real_realloc(void *old, size_t bytes);
void __real_free(void *old);

static int is_refused(void) {
    return came++ == refused;
}

void *__wrap_malloc(size_t bytes) {
    if (is_refused()) return NULL;
    void *given = __real_malloc(bytes);
    held += given != NULL;
    return given;
}

void *__wrap_realloc(void *old, size_t bytes) {
    if (is_refused()) return NULL;
    void *given = __real_realloc(old, bytes);
    held += given != NULL && old == NULL;
    return given;
}

void __wrap_free(void *old) {
    held -= old != NULL;
    __real_free(old);
}

/* Makes a call again and again, and refuses the next of its requests for memory each time, until it makes no more. A call that
 * is refused a request may do with a smaller one, and then answers as it does where none is refused. */
#define TRY_MEMORY(most, call) \
    do { \
        refused = -1; \
        uint32_t status, wanted = (call); \
        long refusals = 0, before; \
        for (refused = 0;; refused++) { \
            came = 0; \
            before = held; \
            status = (call); \
            CHECK(held == before); \
            if (came <= refused) break; \
            CHECK(status == RIEGELI_MEMORY || status == wanted); \
            refusals++; \
        } \
        refused = -1; \
        CHECK(status == wanted && refusals <= (most)); \
        requests += refusals; \
    } while (0)

static long requests;

static void try_memory(void) {
    refused = -1;
    see();
    struct riegeli_totals totals;
    struct riegeli_fault fault;
    struct riegeli_chunk chunk;
    struct riegeli_piece piece;
    struct riegeli_found found;
    struct riegeli_repaired told;
    struct riegeli_region region;
    struct riegeli_written laid;
    uint64_t begin;
    uint8_t *value = lend(VALUES, size), *made = lend(MADE, size + 2 * BLOCK), *lines = lend(LINES, size + 64);
    uint64_t *ends = lend(ENDS, 8 * size);
    TRY_MEMORY(0, riegeli_verify(file, size, &totals, &fault));
    TRY_MEMORY(0, riegeli_split(file, size, size / 2, &begin, &fault));
    for (size_t i = 0; i < seen.chunks; i++) {
        TRY_MEMORY(1000, riegeli_read_chunk(file, size, seen.begin[i], &chunk, value, size, ends, size, &fault));
        TRY_MEMORY(1000, riegeli_recover(file, size, seen.begin[i], &piece, value, size, ends, size));
    }
    TRY_MEMORY(1000, riegeli_seek(file, size, size / 2, &found, value, size, &fault));
    TRY_MEMORY(1000, riegeli_find(file, size, (const uint8_t *)"m", 1, &found, value, size, &fault));
    TRY_MEMORY(100000, riegeli_repair(file, size, UINT64_MAX, &told, made, size + 2 * BLOCK, lines, size + 64, &region));
    TRY_MEMORY(100000, riegeli_repair(file, size, UINT64_MAX, &told, made, 64, lines, 0, &region));
    struct riegeli_options options = {100, 5, 3};
    for (uint32_t last = 0; last <= 1; last++) {
        TRY_MEMORY(100000, riegeli_write(seen.values, seen.bytes, seen.ends, seen.records, &options, 0, last, &laid, made, 64));
        TRY_MEMORY(100000, riegeli_write(seen.values, seen.bytes, seen.ends, seen.records, &options, 0, last, &laid, made, size + 2 * BLOCK));
    }
}

#endif

static uint8_t *loaded(const char *name, size_t *count) {
    FILE *from = fopen(name, "rb");
    uint8_t *bytes = malloc(LENT / 4);
    if (from == NULL || bytes == NULL) abort();
    *count = fread(bytes, 1, LENT / 4, from);
    fclose(from);
    return bytes;
}

int main(int count, char **words) {
    if (count < 3) return 2;
    int is_mutated = strcmp(words[1], "mutated") == 0, first = is_mutated ? 4 : 2;
    if (is_mutated && count <= first) return 2;
    long times = is_mutated ? atol(words[3]) / (count - first) + 1 : 1, tried = 0;
    seen.values = malloc(1);
    seen.ends = malloc(8);
    if (is_mutated) state += strtoull(words[2], NULL, 10) * 0x9e3779b97f4a7c15u;
    for (int i = first; i < count; i++) {
        size_t bytes;
        uint8_t *whole = loaded(words[i], &bytes);
        about = words[i];
        for (long k = 0; k < times; k++) {
            if (is_mutated) {
                mutate(whole, bytes);
                try_mutated();
            } else {
                set_file(whole, bytes);
#ifdef REFUSING
                if (strcmp(words[1], "memory") == 0) {
                    try_memory();
                    continue;
                }
#endif
                try_rooms();
            }
        }
        tried += times;
        free(whole);
    }
#ifdef REFUSING
    printf("%ld requests for memory refused, ", requests);
#endif
    printf("%ld files, %ld wrong\n", tried, wrong);
    return wrong == 0 ? 0 : 1;
}
