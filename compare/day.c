/* Counts what parsed records and list elements cost from C. Does one operation as often as it is told and prints a checksum.
 *
 *     day OPERATION TIMES < STREAM
 *
 * walk      pdb_next over all records
 * parse     and pdb_type on every record but the lists
 * elements  and pdb_list, pdb_step on the lists: the checksum of the crate's program `speed elements`
 * day       a generator's day: pdb_type on every record but the lists; for every class, union and enumeration with a field list pdb_find, pdb_list, and
 *           pdb_step to the end, summing types, offsets and name lengths: the checksum of day.rs
 */
#include <inttypes.h>
#include <stdio.h>
#include <stdlib.h>
#include <string.h>

#include "pdb.h"

struct paged {
    uint8_t *bytes;
    size_t length, start, room, held;
    uint32_t *table, minimum, maximum;
};

static void fail(const char *why)
{
    fprintf(stderr, "day: %s\n", why);
    exit(2);
}

static void read_all(struct paged *p)
{
    size_t size = 1 << 20;
    p->bytes = malloc(size);
    for (;;) {
        if (p->bytes == NULL)
            fail("no memory");
        size_t n = fread(p->bytes + p->length, 1, size - p->length, stdin);
        p->length += n;
        if (n == 0)
            return;
        if (p->length == size)
            p->bytes = realloc(p->bytes, size *= 2);
    }
}

static size_t filled(struct paged p)
{
    uint64_t out[PDB_NEXT_OUT], after[PDB_UPDATE_OUT];
    size_t at = p.start, held = 0;
    uint32_t index = p.minimum;
    for (;;) {
        if ((index - p.minimum) % 8 == 0) {
            if (pdb_update(p.table, p.room, p.minimum, p.maximum, held, 3, at, index, after) != 0)
                return held;
            held = (size_t)after[PDB_UPDATE_HELD];
        }
        if (pdb_next(p.bytes, p.length, at, index, out) != 0 || out[PDB_NEXT_IS_ITEM] == 0)
            return held;
        at = (size_t)out[PDB_NEXT_AT];
        index = (uint32_t)out[PDB_NEXT_NEXT_INDEX];
    }
}

/* What a record adds to the checksum of compare/driver/speed_data.rs: what only one of the two gives is left out. */
static uint64_t of_type(const uint8_t *s, size_t n)
{
    uint64_t o[PDB_TYPE_OUT];
    if (pdb_type(s, n, o) != 0)
        return 0;
    switch (o[PDB_TYPE_LEAF]) {
    case 0x1504:
    case 0x1505:
    case 0x1519:
        return (o[PDB_TYPE_LEAF] == 0x1504 ? 0 : o[PDB_TYPE_LEAF] == 0x1519 ? 2 : 1) + o[PDB_TYPE_COUNT] + o[PDB_TYPE_WORD] + o[PDB_TYPE_LIST] +
               o[PDB_TYPE_OTHER] + o[PDB_TYPE_LAST] + o[PDB_TYPE_SIZE] + o[PDB_TYPE_NAME] + o[PDB_TYPE_NAME_LENGTH] + o[PDB_TYPE_UNIQUE] +
               o[PDB_TYPE_UNIQUE_LENGTH];
    case 0x1009:
        return o[PDB_TYPE_TYPE] + o[PDB_TYPE_OTHER] + o[PDB_TYPE_LAST] + o[PDB_TYPE_WORD] + o[PDB_TYPE_COUNT] + o[PDB_TYPE_LIST] + o[PDB_TYPE_SIZE];
    case 0x1008:
        return o[PDB_TYPE_TYPE] + o[PDB_TYPE_WORD] + o[PDB_TYPE_COUNT] + o[PDB_TYPE_LIST];
    case 0x1002:
        return o[PDB_TYPE_TYPE] + o[PDB_TYPE_WORD] + o[PDB_TYPE_OTHER];
    case 0x1001:
        return o[PDB_TYPE_TYPE] + o[PDB_TYPE_WORD] % 8;
    case 0x1507:
        return o[PDB_TYPE_COUNT] + o[PDB_TYPE_WORD] + o[PDB_TYPE_TYPE] + o[PDB_TYPE_LIST] + o[PDB_TYPE_NAME] + o[PDB_TYPE_NAME_LENGTH] +
               o[PDB_TYPE_UNIQUE] + o[PDB_TYPE_UNIQUE_LENGTH];
    case 0x1503:
        return o[PDB_TYPE_TYPE] + o[PDB_TYPE_OTHER] + o[PDB_TYPE_SIZE];
    case 0x1506:
        return o[PDB_TYPE_COUNT] + o[PDB_TYPE_WORD] + o[PDB_TYPE_LIST] + o[PDB_TYPE_SIZE] + o[PDB_TYPE_NAME] + o[PDB_TYPE_NAME_LENGTH] +
               o[PDB_TYPE_UNIQUE] + o[PDB_TYPE_UNIQUE_LENGTH];
    case 0x1205:
        return o[PDB_TYPE_TYPE] + o[PDB_TYPE_COUNT] + o[PDB_TYPE_SIZE];
    default:
        return 0;
    }
}

static uint64_t of_list(const uint8_t *s, size_t n)
{
    uint64_t c[PDB_LIST_OUT], o[PDB_STEP_OUT], sum = 0;
    if (pdb_list(s, n, 0, c) != 0)
        return 0;
    uint16_t leaf = (uint16_t)c[PDB_LIST_LEAF];
    size_t at = (size_t)c[PDB_LIST_AT];
    uint32_t left = (uint32_t)c[PDB_LIST_LEFT], padded = (uint32_t)c[PDB_LIST_PADDED];
    while (pdb_step(s, n, leaf, at, left, padded, o) == 0) {
        sum += o[PDB_STEP_TYPE] + o[PDB_STEP_OTHER] + o[PDB_STEP_VALUE] + o[PDB_STEP_NAME] + o[PDB_STEP_NAME_LENGTH];
        if (o[PDB_STEP_LEAF] != 0x1510)
            sum += o[PDB_STEP_WORD];
        if (o[PDB_STEP_LEAF] == 0x1401 || o[PDB_STEP_LEAF] == 0x1402)
            sum += o[PDB_STEP_MORE];
        at = (size_t)o[PDB_STEP_AT];
        left = (uint32_t)o[PDB_STEP_LEFT];
        padded = (uint32_t)o[PDB_STEP_PADDED];
    }
    return sum;
}

static int is_list(const uint8_t *s)
{
    return s[1] == 0x12 && (s[0] == 0x01 || s[0] == 0x03 || s[0] == 0x06);
}

static uint64_t records(struct paged p, int deep)
{
    uint64_t sum = 0, out[PDB_NEXT_OUT];
    size_t at = p.start;
    uint32_t index = p.minimum;
    while (pdb_next(p.bytes, p.length, at, index, out) == 0 && out[PDB_NEXT_IS_ITEM] != 0) {
        const uint8_t *s = p.bytes + out[PDB_NEXT_PLACE];
        size_t n = (size_t)out[PDB_NEXT_LENGTH];
        at = (size_t)out[PDB_NEXT_AT];
        index = (uint32_t)out[PDB_NEXT_NEXT_INDEX];
        if (!is_list(s))
            sum += of_type(s, n);
        else if (deep)
            sum += of_list(s, n);
    }
    return sum;
}

static uint64_t walk(struct paged p)
{
    uint64_t sum = 0, out[PDB_NEXT_OUT];
    size_t at = p.start;
    uint32_t index = p.minimum;
    while (pdb_next(p.bytes, p.length, at, index, out) == 0 && out[PDB_NEXT_IS_ITEM] != 0) {
        sum += out[PDB_NEXT_INDEX] + out[PDB_NEXT_PLACE] + out[PDB_NEXT_LENGTH];
        at = (size_t)out[PDB_NEXT_AT];
        index = (uint32_t)out[PDB_NEXT_NEXT_INDEX];
    }
    return sum;
}

static uint64_t parse(struct paged p)
{
    return records(p, 0);
}

static uint64_t elements(struct paged p)
{
    return records(p, 1);
}

/* name lengths, types and offsets of all members */
static uint64_t members(const uint8_t *s, size_t n)
{
    uint64_t c[PDB_LIST_OUT], o[PDB_STEP_OUT], sum = 0;
    if (pdb_list(s, n, 0, c) != 0)
        return 0;
    uint16_t leaf = (uint16_t)c[PDB_LIST_LEAF];
    size_t at = (size_t)c[PDB_LIST_AT];
    uint32_t left = (uint32_t)c[PDB_LIST_LEFT], padded = (uint32_t)c[PDB_LIST_PADDED];
    while (pdb_step(s, n, leaf, at, left, padded, o) == 0) {
        sum += o[PDB_STEP_TYPE] + o[PDB_STEP_VALUE] + o[PDB_STEP_NAME_LENGTH];
        at = (size_t)o[PDB_STEP_AT];
        left = (uint32_t)o[PDB_STEP_LEFT];
        padded = (uint32_t)o[PDB_STEP_PADDED];
    }
    return sum;
}

static int has_members(uint64_t leaf)
{
    return leaf == 0x1504 || leaf == 0x1505 || leaf == 0x1506 || leaf == 0x1507 || leaf == 0x1519;
}

static uint64_t day(struct paged p)
{
    uint64_t sum = 0, out[PDB_NEXT_OUT], o[PDB_TYPE_OUT], found[PDB_FIND_OUT];
    size_t at = p.start;
    uint32_t index = p.minimum;
    while (pdb_next(p.bytes, p.length, at, index, out) == 0 && out[PDB_NEXT_IS_ITEM] != 0) {
        const uint8_t *s = p.bytes + out[PDB_NEXT_PLACE];
        at = (size_t)out[PDB_NEXT_AT];
        index = (uint32_t)out[PDB_NEXT_NEXT_INDEX];
        if (is_list(s) || pdb_type(s, (size_t)out[PDB_NEXT_LENGTH], o) != 0 || !has_members(o[PDB_TYPE_LEAF]))
            continue;
        sum += o[PDB_TYPE_NAME_LENGTH];
        if (o[PDB_TYPE_LIST] != 0 &&
            pdb_find(p.bytes, p.length, p.table, p.room, p.minimum, p.maximum, p.held, 3, (uint32_t)o[PDB_TYPE_LIST], found) == 0 &&
            found[PDB_FIND_IS_RECORD] != 0)
            sum += members(p.bytes + found[PDB_FIND_PLACE], (size_t)found[PDB_FIND_LENGTH]);
    }
    return sum;
}

int main(int argc, char **argv)
{
    struct paged p = {0};
    uint64_t out[PDB_HEADER_OUT], sum = 0;
    uint64_t (*operation)(struct paged) = NULL;
    if (argc != 3)
        fail("OPERATION TIMES");
    if (strcmp(argv[1], "walk") == 0)
        operation = walk;
    if (strcmp(argv[1], "parse") == 0)
        operation = parse;
    if (strcmp(argv[1], "elements") == 0)
        operation = elements;
    if (strcmp(argv[1], "day") == 0)
        operation = day;
    if (operation == NULL)
        fail("no such operation");
    read_all(&p);
    if (pdb_header(p.bytes, p.length, out) != 0 || out[PDB_HEADER_COUNT] == 0)
        fail("no records");
    p.start = (size_t)out[PDB_HEADER_SIZE];
    p.minimum = (uint32_t)out[PDB_HEADER_MINIMUM];
    p.maximum = (uint32_t)out[PDB_HEADER_MAXIMUM];
    p.room = (size_t)(out[PDB_HEADER_COUNT] / 8) + 1;
    p.table = calloc(p.room, sizeof *p.table);
    if (p.table == NULL)
        fail("no memory");
    p.held = filled(p);
    uint64_t times = strtoull(argv[2], NULL, 10);
    for (uint64_t i = 0; i < times; i++) {
        p.bytes[0] = (uint8_t)i; /* a byte of the version, which none of these reads */
        sum += operation(p);
    }
    printf("%" PRIu64 "\n", sum);
    return 0;
}
