/* Every exported function with any numbers and any bytes: answered or refused, twice the same with `out` and lent memory filled otherwise before, and a refusal
 * leaves what was lent byte for byte. First byte: which function; then how many bytes are the second slice, and six numbers; the rest is the bytes that it reads,
 * the second slice last. */
#include "law.h"

enum { BYTES, SECOND, TABLE, BUFFER, CELLS };

/* The numbers of the input, made small or left wide as it chooses. */
static uint64_t numbers[6];
static const uint8_t *s, *t;
static size_t n, m;

static uint32_t n32(unsigned i)
{
    return (uint32_t)numbers[i];
}

static uint16_t n16(unsigned i)
{
    return (uint16_t)numbers[i];
}

/* A table that is read: the second half of the bytes, four at a time. */
static const uint32_t *table(size_t *length)
{
    *length = m / 4;
    return (const uint32_t *)(const void *)copy_in(TABLE, t, 4 * (m / 4));
}

static const uint64_t *cells(void)
{
    static uint64_t some[PDB_CELLS];
    memset(some, 0, sizeof some);
    for (size_t i = 0; i < PDB_CELLS && i < m; i++)
        some[i] = i % 3 == 0 ? t[i] % 9 : t[i];
    return (const uint64_t *)(const void *)copy_in(CELLS, some, sizeof some);
}

/* How many bytes of a buffer: few, and a power more or less. */
static size_t room(unsigned i)
{
    return (size_t)(numbers[i] % 5000);
}

static uint32_t number;

static void prefix(unsigned slot, size_t bytes, const char *law)
{
    if (number == 0)
        wrote(slot, 0, bytes, law);
}

static void reading(uint8_t which)
{
    size_t length;
    switch (which) {
    case 0: number = ASK(PDB_HEADER_OUT, pdb_header(s, n, out)); break;
    case 1: number = ASK(PDB_NEXT_OUT, pdb_next(s, n, (size_t)numbers[0], n32(1), out)); break;
    case 2: {
        const uint32_t *places = table(&length);
        number = ASK(PDB_FIND_OUT, pdb_find(s, n, places, length, n32(0), n32(1), (size_t)numbers[2], n32(3), n32(4), out));
        HOLDS(number != 0 || out[PDB_FIND_IS_RECORD] == 0 || out[PDB_FIND_PLACE] + out[PDB_FIND_LENGTH] <= n, out[PDB_FIND_PLACE], n);
        break;
    }
    case 3: number = ASK(PDB_PRIMITIVE_OUT, pdb_primitive(n32(0), out)); break;
    case 4: HOLDS(pdb_max_index(n32(0), n32(1), (size_t)numbers[2], n32(3)) == pdb_max_index(n32(0), n32(1), (size_t)numbers[2], n32(3)), 0, 0); break;
    case 5: number = ASK(PDB_VIEW_OUT, pdb_view(s, n, t, m, n32(0), n32(1), n32(2), (size_t)numbers[3], (size_t)numbers[4], out)); break;
    case 6: number = ASK(PDB_KIND_OUT, pdb_kind(s, n, t, m, n32(0), n32(1), n32(2), (size_t)numbers[3], (size_t)numbers[4], out)); break;
    case 7: number = ASK(PDB_PARSE_OUT, pdb_parse(s, n, t, m, n32(0), n32(1), n32(2), (size_t)numbers[3], (size_t)numbers[4], out)); break;
    case 8: number = ASK(PDB_TYPE_OUT, pdb_type(s, n, out)); break;
    case 9: number = ASK(PDB_ID_OUT, pdb_id(s, n, out)); break;
    case 10: number = ASK(PDB_LIST_OUT, pdb_list(s, n, n32(0), out)); break;
    case 11:
        number = ASK(PDB_STEP_OUT, pdb_step(s, n, n16(0), (size_t)numbers[1], n32(2), n32(3), out));
        HOLDS(number != 0 || out[PDB_STEP_AT] <= n, out[PDB_STEP_AT], n);
        break;
    case 12: number = ASK(PDB_STRING_OUT, pdb_string(s, n, n16(0), (size_t)numbers[1], out)); break;
    case 13: number = ASK(PDB_PADDING_OUT, pdb_padding(s, n, (size_t)numbers[0], out)); break;
    case 14: number = ASK(PDB_SIZE_OUT, pdb_size(s, n, (size_t)numbers[0], out)); break;
    case 15: number = ASK(PDB_NUMBER_OUT, pdb_number(s, n, (size_t)numbers[0], out)); break;
    case 16: HOLDS(pdb_optional_type(n32(0)) == (n32(0) != 0 && n32(0) != 0xffff), n32(0), 0); break;
    case 17: HOLDS(pdb_optional_id(n32(0)) == (n32(0) != 0), n32(0), 0); break;
    case 18: HOLDS(pdb_is_cross_module(n32(0)) == n32(0) >> 31, n32(0), 0); break;
    case 19: number = ASK(PDB_PROPERTIES_OUT, pdb_properties(n16(0), out)); break;
    case 20: number = ASK(PDB_FIELD_OUT, pdb_field_attributes(n16(0), out)); break;
    case 21: number = ASK(PDB_FUNCTION_OUT, pdb_function_attributes(n16(0), out)); break;
    case 22: number = ASK(PDB_POINTER_OUT, pdb_pointer_attributes(n32(0), out)); break;
    case 23: number = ASK(PDB_SECTION_START_OUT, pdb_section_start(s, n, out)); break;
    case 24: number = ASK(PDB_SECTION_COUNT_OUT, pdb_section_count(s, n, out)); break;
    case 25: number = ASK(PDB_PARSE_OUT, pdb_section_read(s, n, n32(0), (size_t)numbers[1], (size_t)numbers[2], out)); break;
    case 26: number = ASK(PDB_LIST_OUT, pdb_section_list(s, n, out)); break;
    case 27: number = ASK(PDB_FIT_OUT, pdb_fit(s, n, out)); break;
    default: {
        uint64_t layout = pdb_layout(n32(0) % 5, n16(1));
        HOLDS(layout == pdb_layout(n32(0) % 5, n16(1)) && layout >> 60 == 0, layout, n16(1));
        number = 0;
    }
    }
}

static void tables(uint8_t which)
{
    size_t length = room(5) % 200, held;
    const uint32_t *places;
    if (which == 32) {
        /* the table is read and written: both turns are given the same */
        static uint32_t given[200];
        memset(given, 0, sizeof given);
        if (m > 0)
            memcpy(given, t, m < sizeof given ? m : sizeof given);
        uint32_t *lent = lend(TABLE, 4 * length, given);
        number = ASK(PDB_UPDATE_OUT, pdb_update(lent, length, n32(0), n32(1), (size_t)numbers[2], n32(3), (size_t)numbers[4], n32(5), out));
        HOLDS(number != 0 || out[PDB_UPDATE_HELD] <= length || out[PDB_UPDATE_HELD] == numbers[2], out[PDB_UPDATE_HELD], length);
        return;
    }
    if (which < 32) {
        uint32_t *lent = lend(TABLE, 4 * length, NULL);
        switch (which) {
        case 28: number = ASK(PDB_CREATE_OUT, pdb_create(s, n, lent, length, n32(0), out)); break;
        case 29: number = ASK(PDB_INDEX_OUT, pdb_index(s, n, lent, length, n32(0), out)); break;
        case 30: number = ASK(PDB_CREATE_OUT, pdb_section_create(s, n, lent, length, n32(0), out)); break;
        default: number = ASK(PDB_INDEX_OUT, pdb_section_index(s, n, lent, length, n32(0), out));
        }
        held = (size_t)out[PDB_CREATE_HELD];
        HOLDS((size_t)PDB_CREATE_HELD == (size_t)PDB_INDEX_HELD, 0, 0);
        prefix(TABLE, 4 * held, "the places alone are written");
        return;
    }
    uint8_t *buffer = lend(BUFFER, room(5), NULL);
    places = table(&length);
    size_t claims = numbers[2] == 0x1000 ? length : (size_t)numbers[2];
    switch (which) {
    case 33: number = ASK(PDB_SAVE_OUT, pdb_save(s, n, places, length, n32(0), n32(1), claims, n32(3), buffer, room(5), out)); break;
    case 34: number = ASK(PDB_SAVE_OUT, pdb_save_short(s, n, places, length, n32(0), n32(1), claims, n32(3), buffer, room(5), out)); break;
    default: number = ASK(PDB_DECLARE_OUT, pdb_declare(s, n, places, length, n32(0), n32(1), claims, n32(3), n32(4), buffer, room(5), out));
    }
    prefix(BUFFER, (size_t)out[PDB_SAVE_BYTES], "the first bytes alone are written");
}

static void writing(uint8_t which)
{
    size_t at = (size_t)numbers[0], most = room(5);
    uint8_t *buffer = lend(BUFFER, most, NULL);
    const uint64_t *given = cells();
    switch (which) {
    case 36: number = ASK(PDB_WRITE_OUT, pdb_write_type(s, n, n16(1), given, buffer, most, at, out)); break;
    case 37: number = ASK(PDB_WRITE_OUT, pdb_write_id(s, n, n16(1), given, buffer, most, at, out)); break;
    case 38: number = ASK(PDB_WRITE_OUT, pdb_write_fields(s, n, (const uint64_t(*)[PDB_ROW])(const void *)given, n32(1) % 4, buffer, most, at, out)); break;
    case 39: number = ASK(PDB_WRITE_OUT, pdb_write_methods(s, n, (const uint64_t(*)[PDB_ROW])(const void *)given, n32(1) % 4, buffer, most, at, out)); break;
    default: {
        uint32_t fields[13];
        for (unsigned i = 0; i < 13; i++)
            fields[i] = i < 5 ? n32((i + 1) % 6) : 0;
        if (n >= 56)
            memcpy(fields, s, 20);
        const uint32_t *lent = (const uint32_t *)(const void *)copy_in(TABLE, fields, sizeof fields);
        number = ASK(PDB_WRITE_OUT, pdb_write_header(lent, n16(1), n16(2), buffer, most, at, out));
    }
    }
    if (number == 0)
        wrote(BUFFER, at, (size_t)out[PDB_WRITE_NEXT], "what is written stands at its place");
}

static void whole(uint8_t which)
{
    size_t length = room(5) % 200, roots_len = n32(0) % 4;
    switch (which) {
    case 41: {
        uint64_t *lent = lend(CELLS, 8 * PDB_CELLS, NULL);
        number = ASK(PDB_CELLS_OUT, pdb_cells(s, n, n32(0), lent, out));
        prefix(CELLS, 8 * PDB_CELLS, "all cells are written");
        break;
    }
    case 42: {
        uint32_t *lent = lend(TABLE, 4 * length, NULL);
        number = ASK(PDB_LOAD_OUT, pdb_load(s, n, t, m, lent, length, out));
        prefix(TABLE, 4 * (size_t)out[PDB_LOAD_HELD], "the places alone are loaded");
        break;
    }
    case 43: {
        uint32_t *lent = lend(TABLE, 4 * length, NULL);
        number = ASK(PDB_LOAD_OUT, pdb_load_short(s, n, t, m, lent, length, out));
        prefix(TABLE, 4 * (size_t)out[PDB_LOAD_HELD], "the places alone are loaded");
        break;
    }
    case 44: {
        uint8_t *buffer = lend(BUFFER, room(5), NULL);
        number = ASK(PDB_SECTION_STREAM_OUT, pdb_section_stream(s, n, buffer, room(5), out));
        prefix(BUFFER, (size_t)out[PDB_SECTION_STREAM_BYTES], "the stream alone is written");
        break;
    }
    case 45: {
        uint32_t given[4] = {n32(1), n32(2), n32(3), n32(4)};
        const uint32_t *roots = (const uint32_t *)(const void *)copy_in(CELLS, given, 4 * roots_len);
        uint32_t *lent = lend(TABLE, 4 * length, NULL);
        uint8_t *buffer = lend(BUFFER, room(5), NULL);
        may_write(TABLE);
        number = ASK(PDB_DROP_OUT, pdb_drop(s, n, roots, roots_len, lent, length, buffer, room(5), out));
        if (number != 0 && number != 30 && number != 19)
            wrote(TABLE, 0, 0, "the table after a refusal");
        prefix(BUFFER, (size_t)out[PDB_DROP_BYTES], "the stream alone is written");
        break;
    }
    default: {
        static uint64_t given[PDB_REPORT_TABLE];
        memset(given, 0, sizeof given);
        if (m > 0)
            memcpy(given, t, m < sizeof given ? m : sizeof given);
        uint64_t *lent = lend(TABLE, sizeof given, given);
        number = ASK(PDB_REPORT_OUT, pdb_report(s, n, numbers[0], numbers[1], numbers[2], numbers[3], numbers[4], numbers[5], numbers[0], n32(1), numbers[5], lent, out));
    }
    }
}

int LLVMFuzzerTestOneInput(const uint8_t *data, size_t size)
{
    Input in = {data, size};
    uint8_t which = take(&in) % 48;
    uint64_t second = take_number(&in);
    for (size_t i = 0; i < 6; i++)
        numbers[i] = take_number(&in);
    if (in.left > 100000)
        return 0;
    lend_none();
    m = (size_t)(second % (in.left + 1));
    n = in.left - m;
    s = copy_in(BYTES, in.at, n);
    t = copy_in(SECOND, in.at + n, m);
    if (which < 28 || which == 47)
        reading(which);
    else if (which < 36)
        tables(which);
    else if (which < 41)
        writing(which);
    else
        whole(which);
    outcome(which, number, 11);
    return 0;
}
