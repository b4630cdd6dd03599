/* Counts what writing costs from C. Reads every record of a type stream, with every element of its lists, and writes it again, one behind the other, into a
 * buffer; as often as it is told. Prints the bytes written.
 *
 *     write OPERATION TIMES < STREAM
 *
 * read      pdb_next, pdb_cells on every record, pdb_list and pdb_step on the lists, and the rows made of their elements
 * write     and pdb_write_type, pdb_write_fields, pdb_write_methods
 */
#include <inttypes.h>
#include <stdio.h>
#include <stdlib.h>
#include <string.h>

#include "pdb.h"

static uint8_t *stream, *buffer;
static size_t length, room;
static uint64_t rows[16384][PDB_ROW];

static void fail(const char *why)
{
    fprintf(stderr, "write: %s\n", why);
    exit(2);
}

static void read_all(void)
{
    size_t size = 1 << 20;
    stream = malloc(size);
    for (;;) {
        if (stream == NULL)
            fail("no memory");
        size_t n = fread(stream + length, 1, size - length, stdin);
        length += n;
        if (n == 0)
            return;
        if (length == size)
            stream = realloc(stream, size *= 2);
    }
}

/* An element as pdb_step gives it, as the row that is written. */
static void row_of(uint64_t list, const uint64_t *o, uint64_t *row)
{
    uint64_t *r = row;
    if (list == 0x1206) {
        *r++ = o[PDB_STEP_WORD];
        *r++ = o[PDB_STEP_TYPE];
        *r++ = o[PDB_STEP_MORE];
        *r++ = o[PDB_STEP_VALUE];
        return;
    }
    uint64_t leaf = o[PDB_STEP_LEAF];
    *r++ = leaf;
    if (leaf != 0x1404 && leaf != 0x1409)
        *r++ = o[PDB_STEP_WORD];
    if (leaf != 0x1502)
        *r++ = o[PDB_STEP_TYPE];
    if (leaf == 0x1401 || leaf == 0x1402) {
        *r++ = o[PDB_STEP_OTHER];
        *r++ = o[PDB_STEP_VALUE];
        *r++ = o[PDB_STEP_MORE];
    } else if (leaf == 0x1502) {
        *r++ = o[PDB_STEP_MORE];
        *r++ = o[PDB_STEP_MORE] != 0 ? ~o[PDB_STEP_VALUE] : o[PDB_STEP_VALUE];
    } else if (leaf == 0x1511) {
        *r++ = o[PDB_STEP_MORE];
        *r++ = o[PDB_STEP_VALUE];
    } else if (leaf == 0x1400 || leaf == 0x150d) {
        *r++ = o[PDB_STEP_VALUE];
    }
    if (o[PDB_STEP_NAME] != 0) {
        *r++ = o[PDB_STEP_NAME];
        *r++ = o[PDB_STEP_NAME_LENGTH];
    }
}

static size_t once(int writes)
{
    uint64_t header[PDB_HEADER_OUT], item[PDB_NEXT_OUT], out[PDB_WRITE_OUT], cells[PDB_CELLS], read[PDB_CELLS_OUT], start[PDB_LIST_OUT], e[PDB_STEP_OUT];
    if (pdb_header(stream, length, header) != 0)
        fail("no type stream");
    size_t at = (size_t)header[PDB_HEADER_SIZE], to = 0;
    uint32_t index = (uint32_t)header[PDB_HEADER_MINIMUM];
    while (pdb_next(stream, length, at, index, item) == 0 && item[PDB_NEXT_IS_ITEM] != 0) {
        const uint8_t *s = stream + item[PDB_NEXT_PLACE];
        size_t n = (size_t)item[PDB_NEXT_LENGTH];
        at = (size_t)item[PDB_NEXT_AT];
        index = (uint32_t)item[PDB_NEXT_NEXT_INDEX];
        uint16_t leaf = (uint16_t)(s[0] + 256 * s[1]);
        uint32_t number;
        if (leaf == 0x1203 || leaf == 0x1206) {
            size_t count = 0;
            if (pdb_list(s, n, 0, start) != 0)
                fail("a list");
            size_t p = (size_t)start[PDB_LIST_AT];
            uint32_t left = (uint32_t)start[PDB_LIST_LEFT], padded = (uint32_t)start[PDB_LIST_PADDED];
            while (pdb_step(s, n, leaf, p, left, padded, e) == 0) {
                row_of(leaf, e, rows[count++]);
                p = (size_t)e[PDB_STEP_AT];
                left = (uint32_t)e[PDB_STEP_LEFT];
                padded = (uint32_t)e[PDB_STEP_PADDED];
            }
            if (!writes)
                continue;
            const uint64_t(*given)[PDB_ROW] = (const uint64_t(*)[PDB_ROW])rows;
            number = leaf == 0x1203 ? pdb_write_fields(s, n, given, count, buffer, room, to, out) : pdb_write_methods(s, n, given, count, buffer, room, to, out);
        } else {
            if (pdb_cells(s, n, 0, cells, read) != 0)
                fail("a record");
            if (!writes)
                continue;
            number = pdb_write_type(s, n, leaf, cells, buffer, room, to, out);
        }
        if (number != 0)
            fail("a record that is not written");
        to = (size_t)out[PDB_WRITE_NEXT];
    }
    return to;
}

int main(int argc, char **argv)
{
    if (argc != 3 || (strcmp(argv[1], "read") != 0 && strcmp(argv[1], "write") != 0))
        fail("OPERATION TIMES");
    read_all();
    room = 2 * length + 64;
    buffer = malloc(room);
    if (buffer == NULL)
        fail("no memory");
    size_t n = 0;
    for (unsigned long i = 0, times = strtoul(argv[2], NULL, 10); i < times; i++)
        n = once(argv[1][0] == 'w');
    printf("%zu\n", n);
    return 0;
}
