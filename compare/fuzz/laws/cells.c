/* write(read(x)) and read(write(v)) for records by their cells. First byte: bit 0 an id record, bit 1 cells from the input instead of a record. */
#include "law.h"
#include "pdb_names.h"

enum { READ, BUFFER, TEXT, AGAIN, GIVEN };

/* The writer takes every kind above PDB_CELL_PART as that one (docs/FUZZ.md, "What a caller can see"). */
static uint64_t plain(uint64_t kind)
{
    if (kind > PDB_CELL_PART)
        return PDB_CELL_PART;
    return kind == PDB_CELL_NATURAL + 1 || kind == PDB_CELL_NEGATIVE + 1 ? kind - 1 : kind;
}

/* The same fields, but for where a string stands and how wide a number was; what was written has each number in its shortest form. */
static void same_cells(const uint8_t *s, const uint64_t *a, const uint8_t *t, size_t t_len, const uint64_t *b)
{
    for (size_t k = 0; k < PDB_CELLS; k += 3) {
        HOLDS(plain(a[k]) == b[k], a[k], b[k]);
        if (b[k] == PDB_CELL_PART) {
            HOLDS(a[k + 2] == b[k + 2] && b[k + 1] + b[k + 2] <= t_len, a[k + 2], b[k + 2]);
            HOLDS(b[k + 2] == 0 || memcmp(s + a[k + 1], t + b[k + 1], (size_t)b[k + 2]) == 0, a[k + 1], b[k + 1]);
        } else
            HOLDS(a[k + 1] == b[k + 1], a[k + 1], b[k + 1]);
    }
}

static uint32_t write_record(bool ids, const uint8_t *text, size_t n, uint16_t leaf, const uint64_t *cells, uint8_t *buffer, size_t room, size_t at)
{
    return ids ? ASK(PDB_WRITE_OUT, pdb_write_id(text, n, leaf, cells, buffer, room, at, out))
               : ASK(PDB_WRITE_OUT, pdb_write_type(text, n, leaf, cells, buffer, room, at, out));
}

/* Writes the cells; where that is answered, reads them again, and writes what was read. Gives the writer's number. */
static uint32_t there_and_back(bool ids, const uint8_t *text, size_t n, uint16_t leaf, const uint64_t *cells, size_t at)
{
    static uint8_t written[70000];
    uint64_t again[PDB_CELLS];
    size_t most = n + 200 + at;
    uint8_t *buffer = lend(BUFFER, most, NULL);
    uint32_t number = write_record(ids, text, n, leaf, cells, buffer, most, at);
    outcome(leaf, number, 3);
    if (number != 0)
        return number;
    size_t next = (size_t)out[PDB_WRITE_NEXT];
    wrote(BUFFER, at, next, "the record alone is written");
    size_t length = (size_t)(buffer[at] | buffer[at + 1] << 8);
    HOLDS(at + 2 + length == next && (2 + length) % 4 == 0, length, next);
    memcpy(written, buffer + at, next - at);
    /* with a byte less there is no room, with the same bytes there is */
    buffer = lend(BUFFER, next - 1, NULL);
    HOLDS(write_record(ids, text, n, leaf, cells, buffer, next - 1, at) == 19, next, at);
    buffer = lend(BUFFER, next, NULL);
    HOLDS(write_record(ids, text, n, leaf, cells, buffer, next, at) == 0, next, at);
    wrote(BUFFER, at, next, "the record alone is written");
    HOLDS(memcmp(buffer + at, written, next - at) == 0, next, at);
    lend_none();
    const uint8_t *record = copy_in(AGAIN, written + 2, length);
    uint64_t *read = lend(READ, sizeof again, NULL);
    HOLDS(ASK(PDB_CELLS_OUT, pdb_cells(record, length, ids, read, out)) == 0, leaf, length);
    HOLDS(out[PDB_CELLS_LEAF] == leaf, out[PDB_CELLS_LEAF], leaf);
    wrote(READ, 0, sizeof again, "all cells are written");
    memcpy(again, read, sizeof again);
    lend_none();
    same_cells(text, cells, record, length, again);
    const uint64_t *given = (const uint64_t *)(const void *)copy_in(GIVEN, again, sizeof again);
    buffer = lend(BUFFER, length + 2, NULL);
    HOLDS(write_record(ids, record, length, leaf, given, buffer, length + 2, 0) == 0, leaf, length);
    HOLDS(memcmp(buffer, written, length + 2) == 0, leaf, length);
    lend_none();
    return 0;
}

static void from_record(bool ids, Input in, size_t at)
{
    uint64_t cells[PDB_CELLS];
    const uint8_t *s = copy_in(TEXT, in.at, in.left);
    uint64_t *read = lend(READ, sizeof cells, NULL);
    uint32_t number = ASK(PDB_CELLS_OUT, pdb_cells(s, in.left, ids, read, out));
    uint16_t leaf = (uint16_t)out[PDB_CELLS_LEAF];
    memcpy(cells, read, sizeof cells);
    lend_none();
    uint32_t other = ids ? ASK(PDB_ID_OUT, pdb_id(s, in.left, out)) : ASK(PDB_TYPE_OUT, pdb_type(s, in.left, out));
    HOLDS(number == other, number, other);
    outcome(leaf, number, 1);
    if (number != 0)
        return;
    HOLDS(out[PDB_TYPE_LEAF] == leaf, out[PDB_TYPE_LEAF], leaf);
    const uint64_t *given = (const uint64_t *)(const void *)copy_in(GIVEN, cells, sizeof cells);
    number = there_and_back(ids, s, in.left, leaf, given, at);
    /* lists of rows are written by their rows; a record may be read of more bytes than one can have */
    if (leaf == 0x1203 || leaf == 0x1206)
        HOLDS(number == 17, number, leaf);
    else
        HOLDS(number == 0 || (number == 18 && in.left > 65500), number, leaf);
}

/* One of the leaves that have a layout, of types or of ids. */
static uint16_t some_leaf(bool ids, uint8_t which)
{
#define NUMBER(number, label, name) number,
    static const uint16_t all[] = {PDB_LEAVES(NUMBER)};
    enum { ALL = sizeof all / sizeof *all };
    static uint16_t leaves[2][ALL];
    static size_t count[2];
    if (count[ids] == 0) {
        for (size_t k = 0; k < ALL; k++) {
            if (pdb_layout(ids ? PDB_LAYOUT_IDS : PDB_LAYOUT_TYPES, all[k]) != 0)
                leaves[ids][count[ids]++] = all[k];
        }
    }
    return leaves[ids][which % count[ids]];
}

static void from_cells(bool ids, Input in, size_t at)
{
    uint64_t cells[PDB_CELLS] = {0};
    uint8_t which = take(&in);
    uint16_t leaf = which == 255 ? (uint16_t)take32(&in) : some_leaf(ids, which);
    for (size_t k = 0; k < PDB_CELLS; k += 3) {
        cells[k] = take(&in) % 10;
        if (cells[k] == 9)
            cells[k] = take_number(&in);
        if (cells[k] > PDB_CELL_ABSENT)
            cells[k + 1] = take_number(&in);
        if (cells[k] > PDB_CELL_NUMBER || (cells[k] == PDB_CELL_NUMBER && which == 254))
            cells[k + 2] = take_number(&in);
        if (cells[k] == PDB_CELL_NONE)
            break;
    }
    const uint8_t *text = copy_in(TEXT, in.at, in.left);
    const uint64_t *given = (const uint64_t *)(const void *)copy_in(GIVEN, cells, sizeof cells);
    there_and_back(ids, text, in.left, leaf, given, at);
}

int LLVMFuzzerTestOneInput(const uint8_t *data, size_t size)
{
    Input in = {data, size};
    uint8_t how = take(&in);
    if (in.left > 66000)
        return 0;
    lend_none();
    if ((how & 2) == 0)
        from_record(how & 1, in, how >> 2 & 15);
    else
        from_cells(how & 1, in, how >> 2 & 15);
    return 0;
}
