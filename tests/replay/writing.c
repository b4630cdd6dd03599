/* The lines of records that are written: `writeheader`, `write`, `rewrite`, `rewriteid`. */
#include <string.h>

#include "pdb_names.h"
#include "replay.h"

/* A record has at most 65,535 payload bytes, so that no more text can be used. */
enum { ROOM = 70000, LENT = 65536, MOST = 16 };

static void refused(uint32_t number)
{
    static const uint64_t none[2];
    refusal_line(number, none);
}

static size_t room_in(Words *w)
{
    uint64_t n = next_number(w);
    return n < ROOM ? (size_t)n : ROOM;
}

/* The values of one row: up to the next `/` or the end of the line. `good` is whether each word is a value. */
typedef struct {
    Value at[MOST];
    size_t count;
    bool good, more;
} Row;

static Row next_row(Words *w, Text *text)
{
    Row row = {.count = 0, .good = true, .more = false};
    while (words_left(w)) {
        Word word = next_word(w);
        if (word.letters[0] == '/') {
            row.more = true;
            /* what stands behind the mark in its word is the next row's first word */
            w->at = word.letters + 1;
            return row;
        }
        Value v = value_in(word, text);
        row.good = row.good && v.kind != VALUE_STRANGE && row.count < MOST;
        if (row.count < MOST)
            row.at[row.count++] = v;
    }
    return row;
}

/* Cells from values by the codes of a layout: numbers of numeric leaves are cells of their own kind. Fields that have no name are absent. */

static uint64_t cell_kind(uint64_t code, Value v)
{
    bool numeric = code == PDB_CODE_NUMERIC || code == PDB_CODE_SIZE;
    switch (v.kind) {
    case VALUE_ABSENT: return PDB_CELL_ABSENT;
    case VALUE_NATURAL: return numeric ? PDB_CELL_NATURAL : PDB_CELL_NUMBER;
    case VALUE_NEGATIVE: return PDB_CELL_NEGATIVE;
    default: return PDB_CELL_PART;
    }
}

/* False where there are too many values or too few. */
static bool cells_of(uint64_t layout, const Row *row, uint64_t cells[PDB_CELLS])
{
    size_t k = 0, i = 0;
    memset(cells, 0, PDB_CELLS * sizeof *cells);
    for (; layout != 0; layout /= 32, k += 3) {
        uint64_t code = layout % 32;
        cells[k] = PDB_CELL_ABSENT;
        if (code == PDB_CODE_GAP)
            continue;
        if (i == row->count)
            return false;
        Value v = row->at[i++];
        cells[k] = cell_kind(code, v);
        cells[k + 1] = v.number;
        cells[k + 2] = v.kind == VALUE_STRING ? v.length : 0;
    }
    return i == row->count;
}

static bool is_id(uint32_t leaf)
{
    return 0x1600 < leaf && leaf < 0x1608;
}

static void write_cells(const Text *text, uint32_t leaf, const uint64_t *cells, size_t room)
{
    OUT(out, PDB_WRITE_OUT);
    uint8_t *buffer = lent(room);
    uint32_t number = is_id(leaf) ? pdb_write_id(text->at, text->length, (uint16_t)leaf, cells, buffer, room, 0, out)
                                  : pdb_write_type(text->at, text->length, (uint16_t)leaf, cells, buffer, room, 0, out);
    written(number, out, buffer);
}

/* The flags of a modifier are three values and one field. */
static bool modifier(Row *row)
{
    uint64_t word = 0;
    if (row->count != 4)
        return false;
    for (size_t i = 1; i < 4; i++) {
        if (row->at[i].kind != VALUE_NATURAL || row->at[i].number > 1)
            return false;
        word |= row->at[i].number << (i - 1);
    }
    row->at[1].number = word;
    row->count = 2;
    return true;
}

static void write_one(Words *w, uint32_t leaf, Text *text, size_t room)
{
    uint64_t cells[PDB_CELLS];
    Row row = next_row(w, text);
    uint64_t layout = leaf > 0xffff ? 0 : pdb_layout(is_id(leaf) ? PDB_LAYOUT_IDS : PDB_LAYOUT_TYPES, (uint16_t)leaf);
    if (!row.good || row.more || (leaf == PDB_LF_MODIFIER && !modifier(&row)) || !cells_of(layout, &row, cells))
        refused(17);
    else
        write_cells(text, leaf > 0xffff ? 0 : leaf, cells, room);
}

/* A counted list: its numbers, four bytes each, are the text. */
static void write_run(Words *w, uint32_t leaf, Text *text, size_t room)
{
    uint64_t count = 0;
    bool good = true;
    Text strings = {lent(0), 0, 0};
    text->at = lent(2 * strlen(w->at) + 4);
    while (words_left(w)) {
        Value v = value_in(next_word(w), &strings);
        good = good && v.kind == VALUE_NATURAL && v.number <= UINT32_MAX;
        for (unsigned k = 0; k < 4; k++)
            text->at[4 * count + k] = (uint8_t)(v.number >> 8 * k);
        count++;
    }
    text->length = 4 * (size_t)count;
    uint64_t cells[PDB_CELLS] = {PDB_CELL_NUMBER, count, 0, PDB_CELL_PART, 0, 4 * count};
    /* 0x1603 has a count of 16 bits: more elements than 65,535 bytes hold are 18, and a count is never cut to its field */
    if (!good)
        refused(17);
    else if (text->length > 65535)
        refused(18);
    else
        write_cells(text, leaf, cells, room);
}

/* Lists of rows: as pdb_write_fields and pdb_write_methods take them. */

/* The row of an element: its leaf, then the numbers of its values in their order; a string is two numbers, what may be negative a sign and a number, what may
 * be absent a mark and a number. False where the values are not those of the layout. */
static bool row_of(uint32_t list, uint32_t leaf, const Row *values, uint64_t row[PDB_ROW])
{
    bool fields = list == PDB_LF_FIELDLIST;
    uint64_t layout = leaf > 0xffff ? 0 : pdb_layout(fields ? PDB_LAYOUT_MEMBERS : PDB_LAYOUT_METHODS, (uint16_t)leaf);
    size_t k = 0, i = 0;
    memset(row, 0, PDB_ROW * sizeof *row);
    if (layout == 0)
        return false;
    if (fields)
        row[k++] = leaf;
    for (; layout != 0; layout /= 32) {
        uint64_t code = layout % 32;
        if (code == PDB_CODE_GAP)
            continue;
        if (i == values->count)
            return false;
        Value v = values->at[i++];
        switch (code) {
        case PDB_CODE_STRING:
            if (v.kind != VALUE_STRING)
                return false;
            row[k++] = v.number;
            row[k++] = v.length;
            break;
        case PDB_CODE_NUMERIC:
            if (v.kind != VALUE_NATURAL && v.kind != VALUE_NEGATIVE)
                return false;
            row[k++] = v.kind == VALUE_NEGATIVE;
            row[k++] = v.number;
            break;
        case PDB_CODE_OFFSET:
            if (v.kind != VALUE_NATURAL && v.kind != VALUE_ABSENT)
                return false;
            row[k++] = v.kind != VALUE_ABSENT;
            row[k++] = v.number;
            break;
        default:
            if (v.kind != VALUE_NATURAL)
                return false;
            row[k++] = v.number;
        }
    }
    return i == values->count;
}

static void write_rows(uint32_t list, const uint8_t *text, size_t text_length, uint64_t (*rows)[PDB_ROW], size_t count, size_t room)
{
    OUT(out, PDB_WRITE_OUT);
    uint8_t *buffer = lent(room);
    uint32_t number = list == PDB_LF_METHODLIST ? pdb_write_methods(text, text_length, (const uint64_t(*)[PDB_ROW])rows, count, buffer, room, 0, out)
                                                : pdb_write_fields(text, text_length, (const uint64_t(*)[PDB_ROW])rows, count, buffer, room, 0, out);
    written(number, out, buffer);
}

static void write_elements(Words *w, uint32_t list, Text *text, size_t room)
{
    uint64_t(*rows)[PDB_ROW] = lent(sizeof *rows * (strlen(w->at) + 1));
    size_t count = 0;
    Row row = next_row(w, text);
    bool good = row.good && row.count == 0;
    while (row.more) {
        uint32_t leaf = list == PDB_LF_FIELDLIST ? leaf_in(next_word(w)) : 0;
        row = next_row(w, text);
        good = row_of(list, leaf, &row, rows[count++]) && row.good && good;
    }
    if (good)
        write_rows(list, text->at, text->length, rows, count, room);
    else
        refused(17);
}

void on_write(Words *w)
{
    size_t room = room_in(w);
    uint32_t leaf = leaf_in(next_word(w));
    size_t most = strlen(w->at) / 2 + 1;
    Text text = {lent(most), 0, most};
    if (leaf == PDB_LF_ARGLIST || leaf == PDB_LF_BUILDINFO || leaf == PDB_LF_SUBSTR_LIST)
        write_run(w, leaf, &text, room);
    else if (leaf == PDB_LF_FIELDLIST || leaf == PDB_LF_METHODLIST)
        write_elements(w, leaf, &text, room);
    else
        write_one(w, leaf, &text, room);
}

/* The header's fields in the order of `header`: thirteen numbers of 32 bits, of which three may be negative, and two of 16. */
void on_writeheader(Words *w)
{
    size_t room = room_in(w);
    uint8_t none[1] = {0};
    Text text = {none, 0, 0};
    Row row = next_row(w, &text);
    uint32_t fields[13];
    uint16_t streams[2];
    bool good = row.good && !row.more && row.count == 15;
    for (size_t i = 0, k = 0; good && i < 15; i++) {
        Value v = row.at[i];
        bool offset = i == 9 || i == 11 || i == 13;
        uint64_t most = i == 5 || i == 6 ? UINT16_MAX : offset ? INT32_MAX : UINT32_MAX;
        good = (v.kind == VALUE_NATURAL || (offset && v.kind == VALUE_NEGATIVE)) && v.number <= most;
        uint64_t n = v.kind == VALUE_NEGATIVE ? ~v.number : v.number;
        if (i == 5 || i == 6)
            streams[i - 5] = (uint16_t)n;
        else
            fields[k++] = (uint32_t)n;
    }
    if (!good) {
        refused(17);
        return;
    }
    OUT(out, PDB_WRITE_OUT);
    uint8_t *buffer = lent(room);
    written(pdb_write_header(fields, streams[0], streams[1], buffer, room, 0, out), out, buffer);
}

/* `rewrite`: a list by its elements, each as the row that is written; any other record by its cells. */

/* An element as pdb_step gives it, as the row that is written. */
static void row_again(uint32_t list, const uint64_t *o, uint64_t row[PDB_ROW])
{
    uint64_t layout = list == PDB_LF_FIELDLIST ? pdb_layout(PDB_LAYOUT_MEMBERS, (uint16_t)o[PDB_STEP_LEAF]) : pdb_layout(PDB_LAYOUT_METHODS, 0);
    size_t k = 0, types = 0, sizes = 0;
    memset(row, 0, PDB_ROW * sizeof *row);
    if (list == PDB_LF_FIELDLIST)
        row[k++] = o[PDB_STEP_LEAF];
    for (; layout != 0; layout /= 32) {
        switch (layout % 32) {
        case PDB_CODE_GAP:
            break;
        case PDB_CODE_TYPE:
            row[k++] = o[types++ == 0 ? PDB_STEP_TYPE : PDB_STEP_OTHER];
            break;
        case PDB_CODE_SIZE:
            row[k++] = o[sizes++ == 0 ? PDB_STEP_VALUE : PDB_STEP_MORE];
            break;
        case PDB_CODE_NUMERIC:
            row[k++] = o[PDB_STEP_MORE];
            row[k++] = o[PDB_STEP_MORE] != 0 ? ~o[PDB_STEP_VALUE] : o[PDB_STEP_VALUE];
            break;
        case PDB_CODE_OFFSET:
            row[k++] = o[PDB_STEP_MORE];
            row[k++] = o[PDB_STEP_VALUE];
            break;
        case PDB_CODE_STRING:
            row[k++] = o[PDB_STEP_NAME];
            row[k++] = o[PDB_STEP_NAME_LENGTH];
            break;
        default:
            row[k++] = o[PDB_STEP_WORD];
        }
    }
}

static void rewrite_list(Bytes b, uint32_t list)
{
    OUT(start, PDB_LIST_OUT);
    uint64_t(*rows)[PDB_ROW] = lent(sizeof *rows * (b.length + 1));
    size_t count = 0;
    uint32_t number = pdb_list(b.at, b.length, 0, start);
    size_t at = (size_t)start[PDB_LIST_AT];
    uint32_t left = (uint32_t)start[PDB_LIST_LEFT], padded = (uint32_t)start[PDB_LIST_PADDED];
    OUT(out, PDB_STEP_OUT);
    while (number == 0) {
        number = pdb_step(b.at, b.length, (uint16_t)list, at, left, padded, out);
        if (number == 0) {
            row_again(list, out, rows[count++]);
            at = (size_t)out[PDB_STEP_AT];
            left = (uint32_t)out[PDB_STEP_LEFT];
            padded = (uint32_t)out[PDB_STEP_PADDED];
        }
    }
    if (number == PDB_NO_SUCH_ELEMENT)
        write_rows(list, b.at, b.length, rows, count, LENT);
    else
        refusal_line(number, out);
}

static void rewrite(Words *w, bool ids)
{
    Bytes b = next_bytes(w);
    OUT(out, PDB_CELLS_OUT);
    uint64_t cells[PDB_CELLS];
    if (!b.good) {
        put("? bytes\n");
        return;
    }
    uint32_t number = pdb_cells(b.at, b.length, ids, cells, out);
    if (number != 0) {
        refusal_line(number, out);
        return;
    }
    uint32_t leaf = (uint32_t)out[PDB_CELLS_LEAF];
    if (leaf == PDB_LF_FIELDLIST || leaf == PDB_LF_METHODLIST) {
        rewrite_list(b, leaf);
        return;
    }
    /* the values of a modifier are three flags: the other bits of its word are written as zero */
    if (leaf == PDB_LF_MODIFIER)
        cells[4] &= 7;
    Text text = {b.at, b.length, b.length};
    write_cells(&text, leaf, cells, LENT);
}

void on_rewrite(Words *w)
{
    rewrite(w, false);
}

void on_rewriteid(Words *w)
{
    rewrite(w, true);
}
