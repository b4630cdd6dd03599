/* write(read(x)) and read(write(v)) for field lists and method lists by their rows. First byte: bit 0 a method list, bit 1 rows from the input instead of a
 * record. */
#include "law.h"

enum { BUFFER, TEXT, AGAIN, GIVEN, ROWS = 512 };

static void same_rows(uint32_t list, const uint8_t *s, const uint64_t *a, const uint8_t *t, size_t t_len, const uint64_t *b)
{
    uint64_t layout = list == 0x1203 ? pdb_layout(PDB_LAYOUT_MEMBERS, (uint16_t)b[0]) : pdb_layout(PDB_LAYOUT_METHODS, 0);
    size_t k = 0;
    if (list == 0x1203) {
        HOLDS(a[0] == b[0], a[0], b[0]);
        k = 1;
    }
    HOLDS(layout != 0, a[0], b[0]);
    for (; layout != 0; layout /= 32) {
        uint64_t code = layout % 32;
        if (code == PDB_CODE_GAP)
            continue;
        if (code == PDB_CODE_STRING) {
            HOLDS(a[k + 1] == b[k + 1] && b[k] + b[k + 1] <= t_len, a[k + 1], b[k + 1]);
            HOLDS(b[k + 1] == 0 || memcmp(s + a[k], t + b[k], (size_t)b[k + 1]) == 0, a[k], b[k]);
            k += 2;
            continue;
        }
        /* a sign or a mark is got as 0 or 1, and what stands behind the mark of an absent offset is not looked at */
        if (code == PDB_CODE_NUMERIC || code == PDB_CODE_OFFSET) {
            HOLDS((a[k] != 0) == b[k], a[k], b[k]);
            HOLDS(a[k + 1] == b[k + 1] || (code == PDB_CODE_OFFSET && b[k] == 0 && b[k + 1] == 0), a[k + 1], b[k + 1]);
            k += 2;
            continue;
        }
        HOLDS(a[k] == b[k], a[k], b[k]);
        k++;
    }
    /* what a row has behind its layout is not looked at by the writer, and zero from the reader (docs/FUZZ.md, "What a caller can see") */
    for (; k < PDB_ROW; k++)
        HOLDS(b[k] == 0, a[k], b[k]);
}

static uint32_t write_rows(uint32_t list, const uint8_t *text, size_t n, const uint64_t (*rows)[PDB_ROW], size_t count, uint8_t *buffer, size_t room, size_t at)
{
    return list == 0x1203 ? ASK(PDB_WRITE_OUT, pdb_write_fields(text, n, rows, count, buffer, room, at, out))
                          : ASK(PDB_WRITE_OUT, pdb_write_methods(text, n, rows, count, buffer, room, at, out));
}

static const uint64_t (*given_rows(uint64_t (*rows)[PDB_ROW], size_t count))[PDB_ROW]
{
    return (const uint64_t(*)[PDB_ROW])(const void *)copy_in(GIVEN, rows, count * sizeof *rows);
}

static uint32_t there_and_back(uint32_t list, const uint8_t *text, size_t n, uint64_t (*rows)[PDB_ROW], size_t count, size_t at)
{
    static uint8_t written[70000];
    static uint64_t again[ROWS][PDB_ROW];
    const uint64_t(*given)[PDB_ROW] = given_rows(rows, count);
    size_t most = 66000 + at, read = 0;
    uint8_t *buffer = lend(BUFFER, n + 64 * count + 64 < most ? n + 64 * count + 64 : most, NULL);
    size_t room = n + 64 * count + 64 < most ? n + 64 * count + 64 : most;
    uint32_t number = write_rows(list, text, n, given, count, buffer, room, at);
    outcome(list, number, 3);
    /* a string may be written by many rows: then the text's length does not bound the record's */
    if (number == 19 && room < most) {
        room = most;
        buffer = lend(BUFFER, room, NULL);
        number = write_rows(list, text, n, given, count, buffer, room, at);
    }
    HOLDS(number == 0 || number == 17 || number == 18, number, list);
    if (number != 0) {
        lend_none();
        return number;
    }
    size_t next = (size_t)out[PDB_WRITE_NEXT];
    wrote(BUFFER, at, next, "the list alone is written");
    size_t length = (size_t)(buffer[at] | buffer[at + 1] << 8);
    HOLDS(at + 2 + length == next && (2 + length) % 4 == 0, length, next);
    memcpy(written, buffer + at, next - at);
    buffer = lend(BUFFER, next - 1, NULL);
    HOLDS(write_rows(list, text, n, given, count, buffer, next - 1, at) == 19, next, at);
    lend_none();
    const uint8_t *record = copy_in(AGAIN, written + 2, length);
    HOLDS(rows_of(record, length, list, again, ROWS, &read) == 15, read, count);
    HOLDS(read == count, read, count);
    for (size_t i = 0; i < count; i++)
        same_rows(list, text, rows[i], record, length, again[i]);
    given = given_rows(again, count);
    buffer = lend(BUFFER, length + 2, NULL);
    HOLDS(write_rows(list, record, length, given, count, buffer, length + 2, 0) == 0, list, length);
    HOLDS(memcmp(buffer, written, length + 2) == 0, list, length);
    lend_none();
    return 0;
}

static void from_record(uint32_t list, Input in, size_t at)
{
    static uint64_t rows[ROWS][PDB_ROW];
    uint8_t record[66002];
    size_t count, n = in.left + 2;
    record[0] = (uint8_t)list;
    record[1] = (uint8_t)(list >> 8);
    if (in.left > 0)
        memcpy(record + 2, in.at, in.left);
    const uint8_t *s = copy_in(TEXT, record, n);
    uint32_t number = rows_of(s, n, list, rows, ROWS, &count);
    outcome(list, number, 1);
    outcome(list, count, 2);
    if (number != 15)
        return;
    number = there_and_back(list, s, n, rows, count, at);
    HOLDS(number == 0 || (number == 18 && n > 65500), number, count);
}

static void from_rows(uint32_t list, Input in, size_t at)
{
    static const uint16_t leaves[] = {0x1400, 0x1401, 0x1402, 0x1404, 0x1409, 0x1502, 0x150d, 0x150e, 0x150f, 0x1510, 0x1511};
    static uint64_t rows[ROWS][PDB_ROW];
    size_t count = take(&in) % 20;
    for (size_t i = 0; i < count; i++) {
        size_t k = 0;
        memset(rows[i], 0, sizeof rows[i]);
        if (list == 0x1203) {
            uint8_t which = take(&in);
            rows[i][k++] = which == 255 ? take_number(&in) : leaves[which % (sizeof leaves / sizeof *leaves)];
        }
        uint8_t numbers = take(&in) & 7;
        while (k < PDB_ROW && numbers-- > 0)
            rows[i][k++] = take_number(&in);
    }
    const uint8_t *text = copy_in(TEXT, in.at, in.left);
    there_and_back(list, text, in.left, rows, count, at);
}

int LLVMFuzzerTestOneInput(const uint8_t *data, size_t size)
{
    Input in = {data, size};
    uint8_t how = take(&in);
    uint32_t list = (how & 1) != 0 ? 0x1206 : 0x1203;
    if (in.left > 66000)
        return 0;
    lend_none();
    if ((how & 2) == 0)
        from_record(list, in, how >> 2 & 15);
    else
        from_rows(list, in, how >> 2 & 15);
    return 0;
}
