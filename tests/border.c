/* Every exported function and every refusal number over the C border. Each call is made twice, with `out` filled otherwise before it: the result and all of
 * `out` must be the same, and lent memory as the case says. Prints a line; exit status 1 if a case fails, if a number from 0 to 30 is given by no case, or if an
 * exported function has none.
 *
 *   gcc -Ic tests/border.c lib/x86_64-linux/libpdb_types.a -o border && ./border
 */
#include <stdio.h>
#include <stdlib.h>
#include <string.h>

#include "pdb.h"

/* Document 01's stream E: a header, a modifier and a pointer to it. */
static const uint8_t E[78] = {
    0x0b, 0xca, 0x31, 0x01, 56, 0, 0, 0, 0, 0x10, 0, 0, 2, 0x10, 0, 0, 22, 0, 0, 0, 0, 0, 0, 0, 0, 0, 0, 0, 0, 0, 0, 0, 0, 0, 0, 0, 0, 0, 0, 0,
    0, 0, 0, 0, 0, 0, 0, 0, 0, 0, 0, 0, 0, 0, 0, 0, 8, 0, 0x01, 0x10, 0x74, 0, 0, 0, 1, 0, 10, 0, 0x02, 0x10, 0, 0x10, 0, 0, 0x0c, 0, 1, 0};
static const uint8_t NOTHING[1];
static const size_t TOO_LONG = 4294967295u;

static uint8_t s[4096], buffer[4096], kept[4096];
static uint32_t table[64], table_kept[64];
static uint64_t out[32], again[32], cells[PDB_CELLS], rows[4][PDB_ROW], report[PDB_REPORT_TABLE];
static unsigned cases, failed, seen[31];
static char called[64][32];
static size_t functions;

/* The exported function that a case calls, if it calls one. */
static void mark(const char *call)
{
    char name[32] = {0};
    const char *from = strstr(call, "pdb_");
    if (from == NULL)
        return;
    for (size_t i = 0; i < 31 && from[i] != '('; i++)
        name[i] = from[i];
    for (size_t i = 0; i < functions; i++)
        if (strcmp(called[i], name) == 0)
            return;
    strcpy(called[functions++], name);
}

static void fail(const char *call, const char *why, uint64_t got)
{
    printf("border: %s: %s (%llu)\n", call, why, (unsigned long long)got);
    failed++;
}

/* A refusal gives its number and details and nothing else; `size` is the length of `out`. */
static void check(const char *call, uint32_t number, uint32_t first, uint32_t second, size_t size, uint64_t a, uint64_t b)
{
    cases++;
    mark(call);
    if (number < 31)
        seen[number]++;
    if (a != number)
        fail(call, "another number", a);
    if (a != b || memcmp(out, again, sizeof out) != 0)
        fail(call, "another answer at the second call", b);
    if (out[size] != UINT64_C(0x0101010101010101))
        fail(call, "wrote behind `out`", out[size]);
    if (out[0] != first || out[1] != second)
        fail(call, "other details", out[0]);
    for (size_t i = 2; number != 0 && i < size; i++)
        if (out[i] != 0)
            fail(call, "a field that is not zero", out[i]);
}

static void fill(size_t n)
{
    for (size_t i = 0; i < n; i++)
        out[i] = UINT64_C(0xeeeeeeeeeeeeeeee);
}

/* The call with all of `out` at 0x01 and then, but for what stands behind it, at 0xee; lent memory is set back in between by the case itself. */
#define CASE(number, first, second, size, reset, call) \
    do { \
        memset(out, 0x01, sizeof out); \
        reset; \
        uint64_t a = call; \
        memcpy(again, out, sizeof out); \
        memset(out, 0x01, sizeof out); \
        fill(size); \
        reset; \
        uint64_t b = call; \
        uint64_t copy[32]; \
        memcpy(copy, out, sizeof out); \
        memcpy(out, again, sizeof out); \
        memcpy(again, copy, sizeof out); \
        check(#call, number, first, second, size, a, b); \
    } while (0)

#define PLAIN(number, size, call) CASE(number, 0, 0, size, (void)0, call)

/* Lent memory after a refusal is what it was. */
#define KEEPS(number, first, size, call) \
    do { \
        memset(buffer, 0x5a, sizeof buffer); \
        memset(table, 0x5a, sizeof table); \
        memcpy(kept, buffer, sizeof buffer); \
        memcpy(table_kept, table, sizeof table); \
        CASE(number, first, 0, size, (void)0, call); \
        if (memcmp(kept, buffer, sizeof buffer) != 0 || memcmp(table_kept, table, sizeof table) != 0) \
            fail(#call, "lent memory changed", number); \
    } while (0)

/* A value that is asked for without `out`. */
static void value(const char *call, uint64_t wanted, uint64_t got)
{
    cases++;
    mark(call);
    if (wanted != got)
        fail(call, "another value", got);
}
#define VALUE(wanted, call) value(#call, wanted, call)

static void put32(uint8_t *at, uint32_t n)
{
    for (unsigned k = 0; k < 4; k++)
        at[k] = (uint8_t)(n >> 8 * k);
}

/* E with one number of its header changed. */
static const uint8_t *with(size_t at, uint32_t n)
{
    memcpy(s, E, sizeof E);
    put32(s + at, n);
    return s;
}

static void streams(void)
{
    PLAIN(0, PDB_HEADER_OUT, pdb_header(E, sizeof E, out));
    PLAIN(1, PDB_HEADER_OUT, pdb_header(E, 55, out));
    PLAIN(2, PDB_HEADER_OUT, pdb_header(with(4, 55), sizeof E, out));
    PLAIN(3, PDB_HEADER_OUT, pdb_header(with(4, 1025), sizeof E, out));
    PLAIN(4, PDB_HEADER_OUT, pdb_header(with(8, 4095), sizeof E, out));
    PLAIN(5, PDB_HEADER_OUT, pdb_header(with(12, 4095), sizeof E, out));
    PLAIN(16, PDB_HEADER_OUT, pdb_header(E, TOO_LONG, out));
    PLAIN(0, PDB_NEXT_OUT, pdb_next(E, sizeof E, 56, 4096, out));
    PLAIN(0, PDB_NEXT_OUT, pdb_next(E, sizeof E, 78, 4098, out));
    PLAIN(1, PDB_NEXT_OUT, pdb_next(E, sizeof E, 79, 4098, out));
    PLAIN(6, PDB_NEXT_OUT, pdb_next(with(56, 1), sizeof E, 56, 4096, out));
    PLAIN(7, PDB_NEXT_OUT, pdb_next(E, sizeof E, 56, UINT32_MAX, out));
    PLAIN(16, PDB_NEXT_OUT, pdb_next(E, TOO_LONG, 56, 4096, out));
    CASE(0, 0, 0, PDB_UPDATE_OUT, table[0] = 9, pdb_update(table, 1, 4096, 4098, 0, 3, 56, 4096, out));
    KEEPS(13, 0, PDB_UPDATE_OUT, pdb_update(table, 0, 4096, 4098, 0, 3, 56, 4096, out));
    KEEPS(14, 0, PDB_UPDATE_OUT, pdb_update(table, 4, 4096, 4098, 0, 3, 56, 4095, out));
    KEEPS(16, 0, PDB_UPDATE_OUT, pdb_update(table, 4, 4096, 4098, 0, 3, TOO_LONG, 4096, out));
    KEEPS(26, 0, PDB_UPDATE_OUT, pdb_update(table, 4, 4096, 4098, 0, 7, 56, 4096, out));
    table[0] = 56;
    PLAIN(0, PDB_FIND_OUT, pdb_find(E, sizeof E, table, 1, 4096, 4098, 1, 3, 4097, out));
    CASE(1, 2, 0, PDB_FIND_OUT, (void)0, pdb_find(E, sizeof E, table, 1, 4096, 4098, 1, 3, 4098, out));
    CASE(8, 4099, 0, PDB_FIND_OUT, (void)0, pdb_find(E, sizeof E, table, 1, 4096, 4098, 1, 3, 4099, out));
    CASE(9, 4096, 0, PDB_FIND_OUT, (void)0, pdb_find(E, sizeof E, table, 1, 4096, 4098, 0, 3, 4096, out));
    PLAIN(13, PDB_FIND_OUT, pdb_find(E, sizeof E, table, 1, 4096, 4098, 2, 3, 4097, out));
    PLAIN(16, PDB_FIND_OUT, pdb_find(E, TOO_LONG, table, 1, 4096, 4098, 1, 3, 4097, out));
    PLAIN(26, PDB_FIND_OUT, pdb_find(E, sizeof E, table, 1, 4096, 4098, 1, 7, 4097, out));
    PLAIN(0, PDB_PRIMITIVE_OUT, pdb_primitive(0x674, out));
    CASE(8, 0x67c, 0, PDB_PRIMITIVE_OUT, (void)0, pdb_primitive(0x67c, out));
}

static void finders(void)
{
    CASE(0, 0, 0, PDB_CREATE_OUT, table[0] = 9, pdb_create(E, sizeof E, table, 4, 3, out));
    KEEPS(13, 0, PDB_CREATE_OUT, pdb_create(E, sizeof E, table, 0, 3, out));
    KEEPS(26, 0, PDB_CREATE_OUT, pdb_create(E, sizeof E, table, 4, 7, out));
    KEEPS(16, 0, PDB_CREATE_OUT, pdb_create(E, TOO_LONG, table, 4, 3, out));
    CASE(0, 0, 0, PDB_INDEX_OUT, table[0] = 9, pdb_index(E, sizeof E, table, 4, 3, out));
    KEEPS(2, 0, PDB_INDEX_OUT, pdb_index(with(4, 55), sizeof E, table, 4, 3, out));
    /* a walk that ends early is an answer, which says by what: the second place of shift 0 has no room */
    CASE(0, 0, 0, PDB_INDEX_OUT, table[0] = 9, pdb_index(E, sizeof E, table, 1, 0, out));
    VALUE(13, out[PDB_INDEX_END]);
    VALUE(4103, pdb_max_index(4096, 4110, 1, 3));
    VALUE(0, pdb_max_index(4096, 4110, 1, 7));
    PLAIN(0, PDB_VIEW_OUT, pdb_view(E, sizeof E, NOTHING, 0, 0, 1, 4096, 58, 8, out));
    PLAIN(1, PDB_VIEW_OUT, pdb_view(E, sizeof E, NOTHING, 0, 1, 1, 4096, 58, 8, out));
    CASE(8, 116, 0, PDB_VIEW_OUT, (void)0, pdb_view(E, sizeof E, NOTHING, 0, 0, 0, 116, 0, 0, out));
    PLAIN(16, PDB_VIEW_OUT, pdb_view(E, sizeof E, NOTHING, TOO_LONG, 0, 1, 4096, 58, 8, out));
    PLAIN(0, PDB_KIND_OUT, pdb_kind(E, sizeof E, NOTHING, 0, 0, 1, 4096, 58, 8, out));
    PLAIN(1, PDB_KIND_OUT, pdb_kind(E, sizeof E, NOTHING, 0, 0, 1, 4096, 58, 1, out));
    PLAIN(16, PDB_KIND_OUT, pdb_kind(E, TOO_LONG, NOTHING, 0, 0, 1, 4096, 58, 8, out));
    table[0] = 56;
    CASE(0, 0, 0, PDB_SAVE_OUT, memset(buffer, 7, sizeof buffer), pdb_save(E, sizeof E, table, 1, 4096, 4098, 1, 3, buffer, 32, out));
    uint8_t file[32];
    memcpy(file, buffer, 32);
    CASE(0, 0, 0, PDB_SAVE_OUT, memset(buffer, 7, sizeof buffer), pdb_save_short(E, sizeof E, table, 1, 4096, 4098, 1, 3, buffer, 32, out));
    CASE(0, 0, 0, PDB_LOAD_OUT, table[0] = 9, pdb_load(E, sizeof E, file, 32, table, 1, out));
    CASE(0, 0, 0, PDB_LOAD_OUT, table[0] = 9, pdb_load_short(E, sizeof E, file, 32, table, 1, out));
    KEEPS(20, 0, PDB_LOAD_OUT, pdb_load(E, sizeof E, file, 31, table, 1, out));
    KEEPS(20, 0, PDB_LOAD_OUT, pdb_load_short(E, sizeof E, file, 0, table, 1, out));
    KEEPS(21, 0, PDB_LOAD_OUT, pdb_load(with(12, 4099), sizeof E, file, 32, table, 1, out));
    KEEPS(13, 0, PDB_LOAD_OUT, pdb_load(E, sizeof E, file, 32, table, 0, out));
    file[0] = 57;
    KEEPS(22, 0, PDB_LOAD_OUT, pdb_load(E, sizeof E, file, 32, table, 1, out));
    KEEPS(16, 0, PDB_LOAD_OUT, pdb_load(E, TOO_LONG, file, 32, table, 1, out));
    KEEPS(19, 0, PDB_SAVE_OUT, pdb_save(E, sizeof E, table, 1, 4096, 4098, 1, 3, buffer, 31, out));
    KEEPS(21, 0, PDB_SAVE_OUT, pdb_save(E, sizeof E, table, 1, 4096, 4099, 1, 3, buffer, 32, out));
    KEEPS(26, 0, PDB_SAVE_OUT, pdb_save(E, sizeof E, table, 1, 4096, 4098, 1, 7, buffer, 32, out));
    KEEPS(13, 0, PDB_SAVE_OUT, pdb_save_short(E, sizeof E, table, 1, 4096, 4098, 2, 3, buffer, 99, out));
}

static void records(void)
{
    static const uint8_t list[] = {0x03, 0x12, 0x0e, 0x15, 3, 0, 0x74, 0, 0, 0, 'a', 0}, arguments[] = {0x01, 0x12, 1, 0, 0, 0, 0x74, 0, 0, 0};
    static const uint8_t id[] = {0x05, 0x16, 0, 0, 0, 0, 's', 0}, pointer[] = {0x02, 0x10, 0, 0, 0, 0, 13, 0, 0, 0};
    static const uint8_t array[] = {0x03, 0x15, 0x74, 0, 0, 0, 0x23, 0, 0, 0, 0x0b, 0x80};
    PLAIN(0, PDB_TYPE_OUT, pdb_type(E + 58, 8, out));
    PLAIN(1, PDB_TYPE_OUT, pdb_type(E + 58, 7, out));
    CASE(10, 0x1605, 0, PDB_TYPE_OUT, (void)0, pdb_type(id, sizeof id, out));
    PLAIN(11, PDB_TYPE_OUT, pdb_type(array, sizeof array, out));
    PLAIN(12, PDB_TYPE_OUT, pdb_type(pointer, sizeof pointer, out));
    PLAIN(0, PDB_ID_OUT, pdb_id(id, sizeof id, out));
    PLAIN(1, PDB_ID_OUT, pdb_id(id, 7, out));
    CASE(10, 0x1001, 0, PDB_ID_OUT, (void)0, pdb_id(E + 58, 8, out));
    PLAIN(0, PDB_LIST_OUT, pdb_list(list, sizeof list, 0, out));
    const uint32_t left = (uint32_t)out[PDB_LIST_LEFT];
    CASE(10, 0x1203, 0, PDB_LIST_OUT, (void)0, pdb_list(list, sizeof list, 1, out));
    PLAIN(1, PDB_LIST_OUT, pdb_list(arguments, 9, 0, out));
    PLAIN(0, PDB_STEP_OUT, pdb_step(list, sizeof list, 0x1203, 2, left, 0, out));
    PLAIN(15, PDB_STEP_OUT, pdb_step(list, sizeof list, 0x1203, sizeof list, left, 0, out));
    PLAIN(1, PDB_STEP_OUT, pdb_step(list, sizeof list - 1, 0x1203, 2, left, 0, out));
    PLAIN(0, PDB_PARSE_OUT, pdb_parse(E, sizeof E, NOTHING, 0, 0, 1, 4096, 58, 8, out));
    PLAIN(0, PDB_PARSE_OUT, pdb_parse(NOTHING, 0, id, sizeof id, 1, 1, 4096, 0, sizeof id, out));
    PLAIN(0, PDB_PARSE_OUT, pdb_parse(NOTHING, 0, NOTHING, 0, 0, 0, 0x74, 0, 0, out));
    CASE(10, 0xffff, 0, PDB_PARSE_OUT, (void)0, pdb_parse(NOTHING, 0, NOTHING, 0, 1, 0, 0x74, 0, 0, out));
    PLAIN(16, PDB_PARSE_OUT, pdb_parse(NOTHING, TOO_LONG, NOTHING, 0, 0, 0, 0x74, 0, 0, out));
    PLAIN(0, PDB_STRING_OUT, pdb_string(id, sizeof id, 0x1605, 6, out));
    PLAIN(1, PDB_STRING_OUT, pdb_string(id, 7, 0x1605, 6, out));
    PLAIN(0, PDB_PADDING_OUT, pdb_padding((const uint8_t *)"\xf2\xf1", 2, 0, out));
    PLAIN(1, PDB_PADDING_OUT, pdb_padding((const uint8_t *)"\xf2\xf1", 2, 3, out));
    PLAIN(0, PDB_SIZE_OUT, pdb_size((const uint8_t *)"\x02\x80\x05\x00", 4, 0, out));
    PLAIN(11, PDB_SIZE_OUT, pdb_size((const uint8_t *)"\x00\x80\xff", 3, 0, out));
    PLAIN(0, PDB_NUMBER_OUT, pdb_number((const uint8_t *)"\x00\x80\xff", 3, 0, out));
    PLAIN(1, PDB_NUMBER_OUT, pdb_number((const uint8_t *)"\x00\x80", 2, 0, out));
    VALUE(0, pdb_optional_type(0xffff));
    VALUE(1, pdb_optional_id(0xffff));
    VALUE(1, pdb_is_cross_module(0x80000000));
    PLAIN(0, PDB_PROPERTIES_OUT, pdb_properties(0xffff, out));
    PLAIN(0, PDB_FIELD_OUT, pdb_field_attributes(0xffff, out));
    PLAIN(0, PDB_FUNCTION_OUT, pdb_function_attributes(0xffff, out));
    PLAIN(0, PDB_POINTER_OUT, pdb_pointer_attributes(0xffffffff, out));
    VALUE(12, out[PDB_POINTER_KIND_REFUSED]);
    table[0] = 56;
    CASE(0, 0, 0, PDB_DECLARE_OUT, memset(buffer, 7, sizeof buffer), pdb_declare(E, sizeof E, table, 1, 4096, 4098, 1, 3, 4097, buffer, 99, out));
    VALUE(0, (uint64_t)memcmp(buffer, "const int *\a", 12));
    KEEPS(19, 0, PDB_DECLARE_OUT, (table[0] = 56, table_kept[0] = 56, pdb_declare(E, sizeof E, table, 1, 4096, 4098, 1, 3, 4097, buffer, 10, out)));
    KEEPS(16, 0, PDB_DECLARE_OUT, pdb_declare(E, TOO_LONG, table, 1, 4096, 4098, 1, 3, 4097, buffer, 99, out));
    /* a pointer to itself is nested without end, and an argument list has no text of its own */
    KEEPS(23, 0, PDB_DECLARE_OUT, (table[0] = table_kept[0] = 56, pdb_declare(with(70, 4097), sizeof E, table, 1, 4096, 4098, 1, 3, 4097, buffer, 99, out)));
    with(58, 0x1201);
    memset(s + 60, 0, 6);
    KEEPS(24, 0, PDB_DECLARE_OUT, (table[0] = table_kept[0] = 56, pdb_declare(s, sizeof E, table, 1, 4096, 4098, 1, 3, 4096, buffer, 99, out)));
}

static void sections(void)
{
    static uint8_t t[26];
    put32(t, 4);
    memcpy(t + 4, E + 56, 22);
    PLAIN(0, PDB_SECTION_START_OUT, pdb_section_start(t, 26, out));
    PLAIN(1, PDB_SECTION_START_OUT, pdb_section_start(t, 3, out));
    PLAIN(25, PDB_SECTION_START_OUT, pdb_section_start(t + 4, 22, out));
    PLAIN(16, PDB_SECTION_START_OUT, pdb_section_start(t, TOO_LONG, out));
    PLAIN(0, PDB_SECTION_COUNT_OUT, pdb_section_count(t, 26, out));
    PLAIN(1, PDB_SECTION_COUNT_OUT, pdb_section_count(t, 25, out));
    CASE(0, 0, 0, PDB_CREATE_OUT, table[0] = 9, pdb_section_create(t, 26, table, 4, 3, out));
    KEEPS(13, 0, PDB_CREATE_OUT, pdb_section_create(t, 26, table, 0, 3, out));
    CASE(0, 0, 0, PDB_INDEX_OUT, table[0] = 9, pdb_section_index(t, 26, table, 4, 3, out));
    KEEPS(26, 0, PDB_INDEX_OUT, pdb_section_index(t, 26, table, 4, 7, out));
    CASE(0, 0, 0, PDB_SECTION_STREAM_OUT, memset(buffer, 7, sizeof buffer), pdb_section_stream(t, 26, buffer, 78, out));
    KEEPS(19, 0, PDB_SECTION_STREAM_OUT, pdb_section_stream(t, 26, buffer, 77, out));
    PLAIN(0, PDB_PARSE_OUT, pdb_section_read(t, 26, 4096, 6, 8, out));
    PLAIN(1, PDB_PARSE_OUT, pdb_section_read(t, 26, 4096, 6, 99, out));
    PLAIN(0, PDB_LIST_OUT, pdb_section_list((const uint8_t *)"\x03\x12", 2, out));
    CASE(10, 0x1001, 0, PDB_LIST_OUT, (void)0, pdb_section_list(t + 6, 8, out));
}

static void whole(void)
{
    uint32_t roots[1] = {4097};
    PLAIN(0, PDB_FIT_OUT, pdb_fit(E, sizeof E, out));
    PLAIN(4, PDB_FIT_OUT, pdb_fit(with(8, 0), sizeof E, out));
    PLAIN(16, PDB_FIT_OUT, pdb_fit(E, TOO_LONG, out));
    CASE(0, 0, 0, PDB_DROP_OUT, memset(buffer, 7, sizeof buffer), pdb_drop(E, sizeof E, roots, 1, table, 2, buffer, 78, out));
    KEEPS(29, 0, PDB_DROP_OUT, pdb_drop(with(12, 4099), sizeof E, roots, 1, table, 3, buffer, 99, out));
    roots[0] = 4098;
    KEEPS(8, 4098, PDB_DROP_OUT, pdb_drop(E, sizeof E, roots, 1, table, 2, buffer, 99, out));
    roots[0] = 4097;
    KEEPS(13, 0, PDB_DROP_OUT, pdb_drop(E, sizeof E, roots, 1, table, 1, buffer, 99, out));
    /* after 19 and 30 the table holds old to new, and the buffer is as it was */
    memset(kept, 7, sizeof kept);
    CASE(19, 0, 0, PDB_DROP_OUT, memset(buffer, 7, sizeof buffer), pdb_drop(E, sizeof E, roots, 1, table, 2, buffer, 77, out));
    if (memcmp(kept, buffer, sizeof kept) != 0 || table[0] != 4096 || table[1] != 4097)
        fail("pdb_drop by 19", "lent memory", table[0]);
    static const uint8_t modifier[10] = {8, 0, 0x01, 0x10, 0x74, 0, 0, 0, 1, 0};
    static const uint8_t procedure[16] = {14, 0, 0x08, 0x10, 0, 0, 1, 0, 0, 0, 0, 0, 0x74, 0, 0, 0};
    /* from 0xfffe on three modifiers and a procedure that returns the third, 0x10000: the second is dropped, so that it would become 0xffff, which reads as
     * none where a return type stands */
    static uint8_t stream[56 + 30 + 16];
    memcpy(stream, E, 56);
    put32(stream + 8, 0xfffe);
    put32(stream + 12, 0x10002);
    for (int i = 0; i < 3; i++)
        memcpy(stream + 56 + 10 * i, modifier, 10);
    memcpy(stream + 86, procedure, 16);
    put32(stream + 90, 0x10000);
    uint32_t two[2] = {0xfffe, 0x10001};
    CASE(30, 0, 0, PDB_DROP_OUT, memset(buffer, 7, sizeof buffer), pdb_drop(stream, sizeof stream, two, 2, table, 4, buffer, 999, out));
    if (memcmp(kept, buffer, sizeof kept) != 0)
        fail("pdb_drop by 30", "the buffer changed", 30);
#define FRESH memset(report, 0, sizeof report)
    CASE(0, 0, 0, PDB_REPORT_OUT, FRESH, pdb_report(E, sizeof E, 0, 0, 0, 0, 0, 0, 0, 0, 0, report, out));
    CASE(0, 0, 0, PDB_REPORT_OUT, FRESH, pdb_report(E, TOO_LONG, 0, 0, 0, 0, 0, 0, 0, 0, 0, report, out));
    VALUE(1, out[PDB_REPORT_REFUSED]);
    CASE(27, 0, 0, PDB_REPORT_OUT, FRESH, pdb_report(E, sizeof E, UINT64_MAX, 0, 0, 0, 0, 0, 0, 0, 0, report, out));
    CASE(28, 0, 0, PDB_REPORT_OUT, FRESH, pdb_report(E, sizeof E, 0, 0, 0, 0, 0, 0, 0, 0, 64, report, out));
}

static void writing(void)
{
    static const uint8_t text[] = "name";
    static const uint32_t fields[13] = {20040203, 56, 4096, 4098, 22};
    uint32_t bad[13];
    CASE(0, 0, 0, PDB_CELLS_OUT, memset(cells, 7, sizeof cells), pdb_cells(E + 58, 8, 0, cells, out));
    CASE(0, 0, 0, PDB_WRITE_OUT, memset(buffer, 7, sizeof buffer), pdb_write_type(E, sizeof E, 0x1001, cells, buffer, 99, 0, out));
    if (out[PDB_WRITE_NEXT] != 12 || memcmp(buffer, "\x0a\x00\x01\x10\x74\x00\x00\x00\x01\x00\xf2\xf1\a", 13) != 0)
        fail("pdb_write_type", "other bytes", out[PDB_WRITE_NEXT]);
    KEEPS(19, 0, PDB_WRITE_OUT, pdb_write_type(E, sizeof E, 0x1001, cells, buffer, 11, 0, out));
    KEEPS(17, 0, PDB_WRITE_OUT, pdb_write_type(E, sizeof E, 0x1203, cells, buffer, 99, 0, out));
    uint64_t before[PDB_CELLS];
    memcpy(before, cells, sizeof cells);
    CASE(10, 0x1001, 0, PDB_CELLS_OUT, (void)0, pdb_cells(E + 58, 8, 1, cells, out));
    CASE(1, 0, 0, PDB_CELLS_OUT, (void)0, pdb_cells(E + 58, 1, 0, cells, out));
    if (memcmp(before, cells, sizeof cells) != 0)
        fail("pdb_cells", "the cells changed", 1);
    uint64_t string[PDB_CELLS] = {PDB_CELL_ABSENT, 0, 0, PDB_CELL_PART, 0, 4};
    CASE(0, 0, 0, PDB_WRITE_OUT, memset(buffer, 7, sizeof buffer), pdb_write_id(text, 4, 0x1605, string, buffer, 99, 4, out));
    string[5] = 5;
    KEEPS(17, 0, PDB_WRITE_OUT, pdb_write_id(text, 4, 0x1605, string, buffer, 99, 4, out));
    static uint8_t long_text[70000];
    memset(long_text, 'a', sizeof long_text);
    string[5] = 65535;
    KEEPS(18, 0, PDB_WRITE_OUT, pdb_write_id(long_text, sizeof long_text, 0x1605, string, buffer, 99, 4, out));
    VALUE(4 | 2 << 5, pdb_layout(PDB_LAYOUT_TYPES, 0x1001));
    VALUE(0, pdb_layout(PDB_LAYOUT_IDS, 0x1001));
    memset(rows, 0, sizeof rows);
    rows[0][0] = 0x1404;
    rows[1][0] = 0x1409;
    CASE(0, 0, 0, PDB_WRITE_OUT, memset(buffer, 7, sizeof buffer), pdb_write_fields(text, 4, (const uint64_t(*)[PDB_ROW])rows, 1, buffer, 99, 0, out));
    KEEPS(17, 0, PDB_WRITE_OUT, pdb_write_fields(text, 4, (const uint64_t(*)[PDB_ROW])rows, 2, buffer, 99, 0, out));
    memset(rows, 0, sizeof rows);
    CASE(0, 0, 0, PDB_WRITE_OUT, memset(buffer, 7, sizeof buffer), pdb_write_methods(text, 4, (const uint64_t(*)[PDB_ROW])rows, 1, buffer, 99, 0, out));
    KEEPS(19, 0, PDB_WRITE_OUT, pdb_write_methods(text, 4, (const uint64_t(*)[PDB_ROW])rows, 1, buffer, 3, 0, out));
    CASE(0, 0, 0, PDB_WRITE_OUT, memset(buffer, 7, sizeof buffer), pdb_write_header(fields, 0, 0, buffer, 56, 0, out));
    if (memcmp(buffer, E, 56) != 0)
        fail("pdb_write_header", "other bytes", 0);
    for (int i = 0; i < 4; i++) {
        static const size_t at[4] = {1, 1, 2, 3};
        static const uint32_t n[4] = {55, 1025, 4095, 4095};
        memcpy(bad, fields, sizeof bad);
        bad[at[i]] = n[i];
        KEEPS((uint32_t)i + 2, 0, PDB_WRITE_OUT, pdb_write_header(bad, 0, 0, buffer, 56, 0, out));
    }
}

int main(void)
{
    streams();
    finders();
    records();
    sections();
    whole();
    writing();
    for (unsigned n = 0; n <= 30; n++)
        if (seen[n] == 0) {
            printf("border: no case is refused by %u\n", n);
            failed++;
        }
    printf("border: %u cases of %zu functions, every number from 0 to 30, %u wrong\n", cases, functions, failed);
    for (size_t i = 0; getenv("BORDER_NAMES") != NULL && i < functions; i++)
        printf("%s\n", called[i]);
    return failed == 0 ? 0 : 1;
}
