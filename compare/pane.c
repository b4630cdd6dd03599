/* The C half of pane.sh: does one operation through the five exports as often as it is told, on a stream of any size, and prints a checksum that depends
 * on every answer; driver/speed.rs prints the same of the crate.
 *
 *     pane OPERATION TIMES < STREAM      header, walk, index or find
 */
#include <inttypes.h>
#include <stdio.h>
#include <stdlib.h>
#include <string.h>

#include "../c/pdb.h"

/* a stream, and a finder of it with blocks of 8 */
struct paged {
    uint8_t *bytes;
    size_t length, start, room, held;
    uint32_t *table, minimum, maximum;
};

static void fail(const char *why)
{
    fprintf(stderr, "pane: %s\n", why);
    exit(2);
}

static void read_all(struct paged *p)
{
    size_t size = 1 << 20;
    p->bytes = malloc(size);
    for (;;) {
        if (p->bytes == NULL)
            fail("no memory");
        size_t n = fread(p->bytes + p->length, 1, size - p->length, stdin);
        p->length += n;
        if (n == 0)
            return;
        if (p->length == size)
            p->bytes = realloc(p->bytes, size *= 2);
    }
}

/* Each operation takes a copy, which the compiler can hold in registers. */

static uint64_t header(struct paged p)
{
    uint64_t out[PDB_HEADER_OUT], sum = 0;
    if (pdb_header(p.bytes, p.length, out) != 0)
        return 0;
    for (int i = PDB_HEADER_VERSION; i < PDB_HEADER_HASH_VALUES_OFFSET; i++)
        sum += out[i];
    for (int i = PDB_HEADER_HASH_VALUES_OFFSET; i < PDB_HEADER_COUNT; i += 2)
        sum += (out[i] >> 31) + out[i + 1]; /* 1 for a negative offset */
    return sum;
}

static uint64_t walk(struct paged p)
{
    uint64_t sum = 0, out[PDB_NEXT_OUT];
    size_t at = p.start;
    uint32_t index = p.minimum;
    while (pdb_next(p.bytes, p.length, at, index, out) == 0 && out[PDB_NEXT_IS_ITEM] != 0) {
        sum += out[PDB_NEXT_INDEX] + out[PDB_NEXT_PLACE] + out[PDB_NEXT_LENGTH];
        at = (size_t)out[PDB_NEXT_AT];
        index = (uint32_t)out[PDB_NEXT_NEXT_INDEX];
    }
    return sum;
}

/* A finder that holds no place, updated by the fresh cursor and then where a block starts: any other update changes nothing (pdb.h). Gives the places that
 * it holds then. */
static size_t filled(struct paged p)
{
    uint64_t out[PDB_NEXT_OUT], after[PDB_UPDATE_OUT];
    size_t at = p.start, held = 0;
    uint32_t index = p.minimum;
    for (;;) {
        if ((index - p.minimum) % 8 == 0) {
            if (pdb_update(p.table, p.room, p.minimum, p.maximum, held, 3, at, index, after) != 0)
                return held;
            held = (size_t)after[PDB_UPDATE_HELD];
        }
        if (pdb_next(p.bytes, p.length, at, index, out) != 0 || out[PDB_NEXT_IS_ITEM] == 0)
            return held;
        at = (size_t)out[PDB_NEXT_AT];
        index = (uint32_t)out[PDB_NEXT_NEXT_INDEX];
    }
}

static uint64_t index_all(struct paged p)
{
    uint64_t sum = 0;
    size_t held = filled(p);
    for (size_t i = 0; i < held; i++)
        sum += p.table[i];
    return sum;
}

static uint64_t find(struct paged p)
{
    uint64_t sum = 0, out[PDB_FIND_OUT];
    for (uint32_t i = p.minimum; i < p.maximum; i++)
        if (pdb_find(p.bytes, p.length, p.table, p.room, p.minimum, p.maximum, p.held, 3, i, out) == 0 && out[PDB_FIND_IS_RECORD] != 0)
            sum += i + out[PDB_FIND_PLACE] + out[PDB_FIND_LENGTH];
    return sum;
}

int main(int argc, char **argv)
{
    struct paged p = {0};
    uint64_t out[PDB_HEADER_OUT], sum = 0;
    uint64_t (*operation)(struct paged) = NULL;
    if (argc != 3)
        fail("OPERATION TIMES");
    if (strcmp(argv[1], "header") == 0)
        operation = header;
    if (strcmp(argv[1], "walk") == 0)
        operation = walk;
    if (strcmp(argv[1], "index") == 0)
        operation = index_all;
    if (strcmp(argv[1], "find") == 0)
        operation = find;
    if (operation == NULL)
        fail("no such operation");
    read_all(&p);
    if (pdb_header(p.bytes, p.length, out) != 0 || out[PDB_HEADER_COUNT] == 0)
        fail("no records");
    p.start = (size_t)out[PDB_HEADER_SIZE];
    p.minimum = (uint32_t)out[PDB_HEADER_MINIMUM];
    p.maximum = (uint32_t)out[PDB_HEADER_MAXIMUM];
    p.room = (size_t)(out[PDB_HEADER_COUNT] / 8) + 1;
    p.table = calloc(p.room, sizeof *p.table);
    if (p.table == NULL)
        fail("no memory");
    p.held = filled(p);
    uint64_t times = strtoull(argv[2], NULL, 10);
    for (uint64_t i = 0; i < times; i++) {
        p.bytes[0] = (uint8_t)i; /* a byte of the version, which no operation but `header` reads */
        sum += operation(p);
    }
    printf("%" PRIu64 "\n", sum);
    return 0;
}
