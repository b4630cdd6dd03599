/* Types of program databases, for C: proved functions in libpdb_types.a. They need no other library, but for memcpy and memset.
 *
 * What a caller owes, and nothing checks:
 *   1. every pointer is non-null and aligned, also where its count is 0: (NULL, 0), which other libraries take for an empty slice, is not taken; give the
 *      address of anything, such as a static byte;
 *   2. `s` points to s_len bytes, and so do the other slices to as many elements as the number behind them says, `out` and `cells` to as many as their names say;
 *   3. no two of these overlap, but that what is only read may be read by several calls at once;
 *   4. nothing else writes them while a call runs.
 * Nothing is owed of their contents, nor of any number: every byte string and every number is answered or refused.
 *
 * The result is 0 for an answer, else a refusal's number (docs/NUMBERS.md; pdb_names.h has their names). Every call writes the whole of `out`: two details of a
 * refusal, then the fields of an answer, 0 where there is none. A function without `out` refuses nothing, and its result is what is asked for. A yes or no that
 * is given may be any number but 0 for yes; one that is got is 0 or 1.
 * No call allocates, keeps a pointer, or has a state: threads may call at once, if no two write the same memory. A viewer's pdb_find beside a background
 * thread's pdb_update on one table wants a lock: the one reads what the other writes.
 */
#ifndef PDB_H
#define PDB_H

#include <stddef.h>
#include <stdint.h>

#ifdef __cplusplus
extern "C" {
#endif

/* ---- a stream: header, records, finder */

/* the first two places of every `out` */
enum { PDB_DETAIL_0, PDB_DETAIL_1 };

/* The header of a stream. An offset is given as its 32 bits: (int32_t)(uint32_t)out[..]. */
enum {
    PDB_HEADER_VERSION = 2,
    PDB_HEADER_SIZE,
    PDB_HEADER_MINIMUM,
    PDB_HEADER_MAXIMUM,
    PDB_HEADER_GPREC_SIZE,
    PDB_HEADER_HASH_STREAM,
    PDB_HEADER_HASH_PAD_STREAM,
    PDB_HEADER_HASH_KEY_SIZE,
    PDB_HEADER_HASH_BUCKET_SIZE,
    PDB_HEADER_HASH_VALUES_OFFSET,
    PDB_HEADER_HASH_VALUES_SIZE,
    PDB_HEADER_TI_OFF_OFFSET,
    PDB_HEADER_TI_OFF_SIZE,
    PDB_HEADER_HASH_ADJ_OFFSET,
    PDB_HEADER_HASH_ADJ_SIZE,
    PDB_HEADER_COUNT,
    PDB_HEADER_OUT
};
uint32_t pdb_header(const uint8_t *s, size_t s_len, uint64_t out[PDB_HEADER_OUT]);

/* The record at the cursor (at, index), and the cursor behind it. A fresh cursor is what pdb_header gave: (out[PDB_HEADER_SIZE],
 * out[PDB_HEADER_MINIMUM]). */
enum { PDB_NEXT_IS_ITEM = 2, PDB_NEXT_INDEX, PDB_NEXT_PLACE, PDB_NEXT_LENGTH, PDB_NEXT_AT, PDB_NEXT_NEXT_INDEX, PDB_NEXT_OUT };
uint32_t pdb_next(const uint8_t *s, size_t s_len, size_t at, uint32_t index, uint64_t out[PDB_NEXT_OUT]);

/* A finder is four numbers of the caller's and a table: the stream's minimum and maximum, the places held, the shift (a block is 2^shift records, shift 0
 * to 6, 3 as a rule), and one uint32_t a block and one more. It starts with none held; where the stream counts a record it is updated by the fresh
 * cursor, then by each that pdb_next gave. An update whose index is no multiple of 2^shift above the minimum changes nothing, and can be left out. */
enum { PDB_UPDATE_HELD = 2, PDB_UPDATE_OUT };
uint32_t pdb_update(uint32_t *table, size_t table_len, uint32_t minimum, uint32_t maximum, size_t held, uint32_t shift, size_t at, uint32_t index,
                    uint64_t out[PDB_UPDATE_OUT]);

/* The record of an index, or the marker below the minimum (which has no place, and length 2), with the links passed on the way. */
enum { PDB_FIND_IS_RECORD = 2, PDB_FIND_PLACE, PDB_FIND_LENGTH, PDB_FIND_PASSED, PDB_FIND_OUT };
uint32_t pdb_find(const uint8_t *s, size_t s_len, const uint32_t *table, size_t table_len, uint32_t minimum, uint32_t maximum, size_t held,
                  uint32_t shift, uint32_t index, uint64_t out[PDB_FIND_OUT]);

/* The primitive type of an index below 0x1000: the low byte that names its kind, and its indirection, 0 for none, 1 to 7 as in bits 8 to 11. */
enum { PDB_PRIMITIVE_KIND = 2, PDB_PRIMITIVE_INDIRECTION, PDB_PRIMITIVE_OUT };
uint32_t pdb_primitive(uint32_t index, uint64_t out[PDB_PRIMITIVE_OUT]);

/* A fresh finder of a stream, with blocks of 2^shift records: the four numbers of it, and in the table the place of the first record, if there is one. It is
 * what an update of a finder that holds no place by the fresh cursor gives. Refused are a stream whose header is refused (16, then 1 to 5), a shift above 6
 * (26), and a table without room where the stream counts a record (13). Then the table is as it was. */
enum { PDB_CREATE_MINIMUM = 2, PDB_CREATE_MAXIMUM, PDB_CREATE_HELD, PDB_CREATE_SHIFT, PDB_CREATE_OUT };
uint32_t pdb_create(const uint8_t *s, size_t s_len, uint32_t *table, size_t table_len, uint32_t shift, uint64_t out[PDB_CREATE_OUT]);

/* A whole stream walked in one call, from a fresh finder and a fresh cursor: the finder, whose places the table has, and the cursor behind the last record that
 * was walked. A table with an entry for each 2^shift records and one more is long enough. Refused is what pdb_create refuses, and then the table is as it
 * was. A refusal on the way is an answer: PDB_INDEX_END is 0 where no record was left, else the number of what ended the walk, 13 where the table was full,
 * 1, 6 or 7 where the stream's records end so, with its details behind it; finder, table and cursor are as before the record that could not be walked, so that
 * pdb_next and pdb_update go on from there, with a longer table for example. Of an id stream the numbers are the same. */
enum {
    PDB_INDEX_MINIMUM = 2,
    PDB_INDEX_MAXIMUM,
    PDB_INDEX_HELD,
    PDB_INDEX_SHIFT,
    PDB_INDEX_AT,
    PDB_INDEX_NEXT_INDEX,
    PDB_INDEX_END,
    PDB_INDEX_END_DETAIL_0,
    PDB_INDEX_END_DETAIL_1,
    PDB_INDEX_OUT
};
uint32_t pdb_index(const uint8_t *s, size_t s_len, uint32_t *table, size_t table_len, uint32_t shift, uint64_t out[PDB_INDEX_OUT]);

/* The highest index that a finder's places serve; some below it may still be past the stream's end. 0 where no place is held, or the shift is above 6. */
uint32_t pdb_max_index(uint32_t minimum, uint32_t maximum, size_t held, uint32_t shift);

/* An entry's bytes: `place` bytes into the TPI stream, or into the IPI stream where `ids` is set, there are `length` of them. The entry is what pdb_next and
 * pdb_find give: where `is_record` is set the record of that index, place and length, else the marker of the index, whose place and length are not looked at.
 * Refused are a stream that is too long (16, of either), bytes that pass the end (1), and the marker, which has none (8, with its index). Who has one of the two
 * streams only gives the other as no bytes. */
enum { PDB_VIEW_PLACE = 2, PDB_VIEW_LENGTH, PDB_VIEW_OUT };
uint32_t pdb_view(const uint8_t *tpi, size_t tpi_len, const uint8_t *ipi, size_t ipi_len, uint32_t ids, uint32_t is_record, uint32_t index, size_t place,
                  size_t length, uint64_t out[PDB_VIEW_OUT]);

/* The leaf that an entry's bytes start with; 0xffff, a reserved value, for the marker. Refused are a stream that is too long (16, of either), and bytes that pass
 * the end or are fewer than two (1). */
enum { PDB_KIND_LEAF = 2, PDB_KIND_OUT };
uint32_t pdb_kind(const uint8_t *tpi, size_t tpi_len, const uint8_t *ipi, size_t ipi_len, uint32_t ids, uint32_t is_record, uint32_t index, size_t place,
                  size_t length, uint64_t out[PDB_KIND_OUT]);

/* The places of a finder kept in a file, so that a stream is walked once and not each morning. A file of n places has 4 n + 28 bytes, from 65,536 places
 * on 4 n + 30; pdb_save writes it into the first bytes of `buffer`. At a refusal the buffer is as it was. */
enum { PDB_SAVE_BYTES = 2, PDB_SAVE_OUT };
uint32_t pdb_save(const uint8_t *s, size_t s_len, const uint32_t *table, size_t table_len, uint32_t minimum, uint32_t maximum, size_t held,
                  uint32_t shift, uint8_t *buffer, size_t buffer_len, uint64_t out[PDB_SAVE_OUT]);

/* The finder that such a file keeps, of either length: its places are the first of the table. Every place is looked at; a file that is cut, made for another
 * stream or changed is refused (20, 21, 22), and then the table is as it was. */
enum { PDB_LOAD_MINIMUM = 2, PDB_LOAD_MAXIMUM, PDB_LOAD_HELD, PDB_LOAD_SHIFT, PDB_LOAD_OUT };
uint32_t pdb_load(const uint8_t *s, size_t s_len, const uint8_t *file, size_t file_len, uint32_t *table, size_t table_len,
                  uint64_t out[PDB_LOAD_OUT]);

/* pdb_save and pdb_load for files of the first form alone, which count 65,535 places at most: who must not write a file that an older reader shows nothing of,
 * or must not take one. A finder with more places is refused (13), and so is a file of the other form (20); all else is as pdb_save and pdb_load have it,
 * PDB_SAVE_ and PDB_LOAD_ too. */
uint32_t pdb_save_short(const uint8_t *s, size_t s_len, const uint32_t *table, size_t table_len, uint32_t minimum, uint32_t maximum, size_t held,
                        uint32_t shift, uint8_t *buffer, size_t buffer_len, uint64_t out[PDB_SAVE_OUT]);
uint32_t pdb_load_short(const uint8_t *s, size_t s_len, const uint8_t *file, size_t file_len, uint32_t *table, size_t table_len, uint64_t out[PDB_LOAD_OUT]);

/* ---- records and their elements */

/* Records. `s` is the bytes of one record, its leaf first: stream + place and length, as pdb_next and pdb_find give them. Each role has one place of `out` for
 * all leaves, 0 where a leaf has no such field and where the field is absent: no index that is there is 0, no string starts at 0. Strings and runs are a
 * place in s and a length in bytes. The form of a numeric leaf is the bytes that it took, 2, 3, 4, 6 or 10, and 256 more where a shorter form carries the
 * number; 0 where there is no numeric leaf. */

/* A type record, and which field of each leaf stands at which place; a field with a star may be absent, and is 0 then.
 *
 * rows: pdb_type
 *   0x000a LF_VTSHAPE: COUNT count, NAME the elements
 *   0x1001 LF_MODIFIER: WORD flags, TYPE underlying_type
 *   0x1002 LF_POINTER: WORD attributes, TYPE underlying_type, OTHER containing_class*
 *   0x1008 LF_PROCEDURE: COUNT parameter_count, WORD attributes, TYPE return_type*, LIST argument_list
 *   0x1009 LF_MFUNCTION: COUNT parameter_count, WORD attributes, TYPE return_type, LIST argument_list, OTHER class_type, LAST this_pointer_type*, SIZE this_adjustment
 *   0x1201 LF_ARGLIST: COUNT count, NAME the elements
 *   0x1205 LF_BITFIELD: COUNT length, TYPE underlying_type, SIZE position
 *   0x1503 LF_ARRAY: TYPE element_type, OTHER indexing_type, SIZE size, FORM the form of size, NAME name
 *   0x1504 LF_CLASS: COUNT count, WORD properties, LIST fields*, OTHER derived_from*, LAST vtable_shape*, SIZE size, FORM the form of size, NAME name, UNIQUE unique_name*
 *   0x1505 LF_STRUCTURE: COUNT count, WORD properties, LIST fields*, OTHER derived_from*, LAST vtable_shape*, SIZE size, FORM the form of size, NAME name, UNIQUE unique_name*
 *   0x1506 LF_UNION: COUNT count, WORD properties, LIST fields, SIZE size, FORM the form of size, NAME name, UNIQUE unique_name*
 *   0x1507 LF_ENUM: COUNT count, WORD properties, TYPE underlying_type, LIST fields, NAME name, UNIQUE unique_name*
 *   0x1519 LF_INTERFACE: COUNT count, WORD properties, LIST fields*, OTHER derived_from*, LAST vtable_shape*, SIZE size, FORM the form of size, NAME name, UNIQUE unique_name*
 *   0x1609 LF_STRUCTURE19: COUNT count, WORD properties, LIST fields*, OTHER derived_from*, LAST vtable_shape*, SIZE size, FORM the form of size, NAME name, UNIQUE unique_name*
 *   0x1203 LF_FIELDLIST: the leaf alone
 *   0x1206 LF_METHODLIST: the leaf alone
 * end of rows
 *
 * The position of a bit field and the adjustment of `this` are plain numbers and have no form. Of 0x000a and 0x1201 NAME and NAME_LENGTH are the slots, half a
 * byte each, and the arguments, 4 bytes each; the elements of 0x1203 and 0x1206 are pdb_list's and pdb_step's. */
enum {
    PDB_TYPE_LEAF = 2,
    PDB_TYPE_COUNT,
    PDB_TYPE_WORD,
    PDB_TYPE_TYPE,
    PDB_TYPE_LIST,
    PDB_TYPE_OTHER,
    PDB_TYPE_LAST,
    PDB_TYPE_SIZE,
    PDB_TYPE_FORM,
    PDB_TYPE_NAME,
    PDB_TYPE_NAME_LENGTH,
    PDB_TYPE_UNIQUE,
    PDB_TYPE_UNIQUE_LENGTH,
    PDB_TYPE_OUT
};
uint32_t pdb_type(const uint8_t *s, size_t s_len, uint64_t out[PDB_TYPE_OUT]);

/* An id record. TYPE and PARENT are type indices, ID is an id index; FILE is an id in 0x1606 and a string reference in 0x1607. Of 0x1603 and 0x1604 NAME and
 * NAME_LENGTH are the indices, 4 bytes each.
 *
 * rows: pdb_id
 *   0x1601 LF_FUNC_ID: TYPE function_type, ID scope*, NAME name
 *   0x1602 LF_MFUNC_ID: TYPE function_type, PARENT parent, NAME name
 *   0x1603 LF_BUILDINFO: COUNT count, NAME the elements
 *   0x1604 LF_SUBSTR_LIST: COUNT count, NAME the elements
 *   0x1605 LF_STRING_ID: ID substrings*, NAME name
 *   0x1606 LF_UDT_SRC_LINE: TYPE udt, FILE the name of the file, LINE line
 *   0x1607 LF_UDT_MOD_SRC_LINE: TYPE udt, FILE the name of the file, LINE line, MODULE module
 * end of rows
 *
 * A field with a star may be absent, and is 0 then. */
enum {
    PDB_ID_LEAF = 2,
    PDB_ID_COUNT,
    PDB_ID_TYPE,
    PDB_ID_PARENT,
    PDB_ID_ID,
    PDB_ID_FILE,
    PDB_ID_LINE,
    PDB_ID_MODULE,
    PDB_ID_NAME,
    PDB_ID_NAME_LENGTH,
    PDB_ID_OUT
};
uint32_t pdb_id(const uint8_t *s, size_t s_len, uint64_t out[PDB_ID_OUT]);

/* An entry of the two streams, as pdb_view takes it, by the reader of the stream that it names. PDB_PARSE_WHICH is 0 for a type and 1 for an id, and from
 * PDB_PARSE_LEAF on stand the fields of pdb_type or of pdb_id: out + 1 is what PDB_TYPE_ and PDB_ID_ name. It is 2 for a type index below 4096, a primitive,
 * whatever its bytes: out + 1 is what PDB_PRIMITIVE_ names. Refused are a stream that is too long (16, of either), bytes that pass the end (1), what
 * the reader refuses, and a marker that is no primitive. */
enum { PDB_PARSE_WHICH = 2, PDB_PARSE_LEAF, PDB_PARSE_OUT = 16 };
uint32_t pdb_parse(const uint8_t *tpi, size_t tpi_len, const uint8_t *ipi, size_t ipi_len, uint32_t ids, uint32_t is_record, uint32_t index, size_t place,
                   size_t length, uint64_t out[PDB_PARSE_OUT]);

/* The list of a record at its first element: what pdb_step takes. With `ids` 0 that of a type record (0x1201, 0x1203, 0x1206), else that of an id record
 * (0x1603, 0x1604); 10 for any other leaf. */
enum { PDB_LIST_LEAF = 2, PDB_LIST_AT, PDB_LIST_LEFT, PDB_LIST_PADDED, PDB_LIST_OUT };
uint32_t pdb_list(const uint8_t *s, size_t s_len, uint32_t ids, uint64_t out[PDB_LIST_OUT]);

/* The element at a cursor, and the cursor behind it, of the same leaf: AT, LEFT, PADDED. Refused by 15 behind the last one.
 *
 * rows: pdb_step
 *   0x1400 LF_BCLASS: WORD attributes, TYPE base_class, VALUE offset, FORM the form of offset
 *   0x1401 LF_VBCLASS: WORD attributes, TYPE base_class, OTHER base_pointer, VALUE base_pointer_offset, MORE virtual_base_offset, FORM the form of base_pointer_offset, MORE_FORM the form of virtual_base_offset
 *   0x1402 LF_IVBCLASS: WORD attributes, TYPE base_class, OTHER base_pointer, VALUE base_pointer_offset, MORE virtual_base_offset, FORM the form of base_pointer_offset, MORE_FORM the form of virtual_base_offset
 *   0x1404 LF_INDEX: TYPE the list goes on at
 *   0x1409 LF_VFUNCTAB: TYPE table
 *   0x1502 LF_ENUMERATE: WORD attributes, VALUE value, MORE 1 if it is negative, FORM the form of value, NAME name
 *   0x150d LF_MEMBER: WORD attributes, TYPE field_type, VALUE offset, FORM the form of offset, NAME name
 *   0x150e LF_STMEMBER: WORD attributes, TYPE field_type, NAME name
 *   0x150f LF_METHOD: WORD count, TYPE method_list, NAME name
 *   0x1510 LF_NESTTYPE: WORD attributes, TYPE nested_type, NAME name
 *   0x1511 LF_ONEMETHOD: WORD attributes, TYPE method_type, VALUE vtable_offset*, MORE 1 if it is there, NAME name
 *   a method of 0x1206, LEAF 0: WORD attributes, TYPE method_type, VALUE vtable_offset*, MORE 1 if it is there
 *   an index of 0x1201, 0x1603 or 0x1604, LEAF 0: TYPE the index
 * end of rows
 *
 * The value of 0x1502 is its 64 bits: (int64_t)out[PDB_STEP_VALUE] where MORE is 1. An offset in the table of virtual functions may be 0, and has no form. */
enum {
    PDB_STEP_AT = 2,
    PDB_STEP_LEFT,
    PDB_STEP_PADDED,
    PDB_STEP_LEAF,
    PDB_STEP_WORD,
    PDB_STEP_TYPE,
    PDB_STEP_OTHER,
    PDB_STEP_VALUE,
    PDB_STEP_MORE,
    PDB_STEP_FORM,
    PDB_STEP_MORE_FORM,
    PDB_STEP_NAME,
    PDB_STEP_NAME_LENGTH,
    PDB_STEP_OUT
};
uint32_t pdb_step(const uint8_t *s, size_t s_len, uint16_t leaf, size_t at, uint32_t left, uint32_t padded, uint64_t out[PDB_STEP_OUT]);

/* ---- what records are made of, at a place of some bytes, such as a record's */

/* The string at a place, in a record of this leaf: up to 0x1500 a length byte begins it, above that a zero byte ends it; neither is counted. Its place, its
 * length, and the place behind it. Refused is a string that passes the end (1). */
enum { PDB_STRING_PLACE = 2, PDB_STRING_LENGTH, PDB_STRING_NEXT, PDB_STRING_OUT };
uint32_t pdb_string(const uint8_t *s, size_t s_len, uint16_t leaf, size_t at, uint64_t out[PDB_STRING_OUT]);

/* The place behind the padding at a place, which is the place itself where there is none. Refused is padding that passes the end, and a place that does (1). */
enum { PDB_PADDING_NEXT = 2, PDB_PADDING_OUT };
uint32_t pdb_padding(const uint8_t *s, size_t s_len, size_t at, uint64_t out[PDB_PADDING_OUT]);

/* The numeric leaf at a place where a size or an offset is wanted: the number, how many bytes it took, whether a shorter form carries it, and the place behind
 * it. Refused are a leaf that passes the end (1), and an unknown prefix or a negative number (11). */
enum { PDB_SIZE_VALUE = 2, PDB_SIZE_WIDTH, PDB_SIZE_SHORTER, PDB_SIZE_NEXT, PDB_SIZE_OUT };
uint32_t pdb_size(const uint8_t *s, size_t s_len, size_t at, uint64_t out[PDB_SIZE_OUT]);

/* The numeric leaf at a place, which may be negative: the number as its 64 bits, (int64_t)out[PDB_NUMBER_VALUE] where PDB_NUMBER_NEGATIVE is 1; the rest as
 * pdb_size has it. Refused are a leaf that passes the end (1), and an unknown prefix (11). */
enum { PDB_NUMBER_VALUE = 2, PDB_NUMBER_NEGATIVE, PDB_NUMBER_WIDTH, PDB_NUMBER_SHORTER, PDB_NUMBER_NEXT, PDB_NUMBER_OUT };
uint32_t pdb_number(const uint8_t *s, size_t s_len, size_t at, uint64_t out[PDB_NUMBER_OUT]);

/* Is a type there, where an optional type field has this number, and an id, where an optional id field has it? A type is none at 0 and 0xffff, an id at 0. */
uint32_t pdb_optional_type(uint32_t index);
uint32_t pdb_optional_id(uint32_t index);

/* Does the number of a type or of an id name one of another module? */
uint32_t pdb_is_cross_module(uint32_t index);

/* Attribute words, a field each. No word is refused: the result is 0. */

/* The word of a class, structure, interface, union or enumeration. */
enum {
    PDB_PROPERTIES_PACKED = 2,
    PDB_PROPERTIES_CONSTRUCTORS,
    PDB_PROPERTIES_OVERLOADED_OPERATORS,
    PDB_PROPERTIES_IS_NESTED_TYPE,
    PDB_PROPERTIES_CONTAINS_NESTED_TYPES,
    PDB_PROPERTIES_OVERLOADED_ASSIGNMENT,
    PDB_PROPERTIES_OVERLOADED_CASTING,
    PDB_PROPERTIES_FORWARD_REFERENCE,
    PDB_PROPERTIES_SCOPED_DEFINITION,
    PDB_PROPERTIES_HAS_UNIQUE_NAME,
    PDB_PROPERTIES_SEALED,
    PDB_PROPERTIES_HFA,
    PDB_PROPERTIES_INTRINSIC_TYPE,
    PDB_PROPERTIES_MOCOM,
    PDB_PROPERTIES_OUT
};
uint32_t pdb_properties(uint16_t word, uint64_t out[PDB_PROPERTIES_OUT]);

/* The word of a field or a method. */
enum {
    PDB_FIELD_ACCESS = 2,
    PDB_FIELD_METHOD_PROPERTIES,
    PDB_FIELD_IS_STATIC,
    PDB_FIELD_IS_VIRTUAL,
    PDB_FIELD_IS_PURE_VIRTUAL,
    PDB_FIELD_IS_INTRO_VIRTUAL,
    PDB_FIELD_OUT
};
uint32_t pdb_field_attributes(uint16_t word, uint64_t out[PDB_FIELD_OUT]);

/* The word of a procedure or a member function. */
enum {
    PDB_FUNCTION_CALLING_CONVENTION = 2,
    PDB_FUNCTION_CXX_RETURN_UDT,
    PDB_FUNCTION_IS_CONSTRUCTOR,
    PDB_FUNCTION_IS_CONSTRUCTOR_WITH_VIRTUAL_BASES,
    PDB_FUNCTION_OUT
};
uint32_t pdb_function_attributes(uint16_t word, uint64_t out[PDB_FUNCTION_OUT]);

/* The word of a pointer. A kind above 12 and a mode above 4 are none, and the call answers all the same: _REFUSED is 12 then, else 0, and the field behind it 0.
 * The size asks for the kind only where the word gives no size itself, so that it is refused only then. PDB_POINTER_TO_MEMBER and PDB_POINTER_IS_REFERENCE are 0
 * where the mode is refused. */
enum {
    PDB_POINTER_KIND_REFUSED = 2,
    PDB_POINTER_KIND,
    PDB_POINTER_MODE_REFUSED,
    PDB_POINTER_MODE,
    PDB_POINTER_SIZE_REFUSED,
    PDB_POINTER_SIZE,
    PDB_POINTER_TO_MEMBER,
    PDB_POINTER_IS_REFERENCE,
    PDB_POINTER_IS_FLAT_32,
    PDB_POINTER_IS_VOLATILE,
    PDB_POINTER_IS_CONST,
    PDB_POINTER_IS_UNALIGNED,
    PDB_POINTER_IS_RESTRICT,
    PDB_POINTER_IS_MOCOM,
    PDB_POINTER_OUT
};
uint32_t pdb_pointer_attributes(uint32_t word, uint64_t out[PDB_POINTER_OUT]);

/* ---- a type as a C declaration */

/* The type of an index as a C declaration, in the first bytes of `buffer`, with no zero byte behind it; s is the TPI stream, with its finder. Refused are a stream
 * that is too long (16), and of all types on the way, from the outside inward and arguments left to right, the first that has: more than 32 types around it,
 * itself counted (23), an index below 4096 that is no primitive (8), an index that pdb_find refuses (26, 13, 8, 9, 1), a leaf that has no declaration there
 * (24), a record that does not read (1, 11, 12); and text that passes the buffer before that is met (19). Then the buffer is as it was.
 * A text may have no bytes: that of a class with an empty name. */
enum { PDB_DECLARE_BYTES = 2, PDB_DECLARE_OUT };
uint32_t pdb_declare(const uint8_t *s, size_t s_len, const uint32_t *table, size_t table_len, uint32_t minimum, uint32_t maximum, size_t held,
                     uint32_t shift, uint32_t index, uint8_t *buffer, size_t buffer_len, uint64_t out[PDB_DECLARE_OUT]);

/* ---- sections of object files */

/* A section of an object file, .debug$T: a signature and then records, types and ids numbered in one run from 4096. pdb_next walks it, pdb_find looks up in
 * it, pdb_update and pdb_view take it as they take a stream.
 *
 * The fresh cursor. Refused are a section that is too long (16), one of fewer than four bytes (1), and another signature than 4 (25); so they are below. */
enum { PDB_SECTION_START_AT = 2, PDB_SECTION_START_INDEX, PDB_SECTION_START_OUT };
uint32_t pdb_section_start(const uint8_t *s, size_t s_len, uint64_t out[PDB_SECTION_START_OUT]);

/* How many records a section has. Refused is also what pdb_next refuses on the way (1, 6, 7). */
enum { PDB_SECTION_COUNT_RECORDS = 2, PDB_SECTION_COUNT_OUT };
uint32_t pdb_section_count(const uint8_t *s, size_t s_len, uint64_t out[PDB_SECTION_COUNT_OUT]);

/* pdb_create and pdb_index of a section, which counts its records first: PDB_CREATE_ and PDB_INDEX_ name the places of `out`. */
uint32_t pdb_section_create(const uint8_t *s, size_t s_len, uint32_t *table, size_t table_len, uint32_t shift, uint64_t out[PDB_CREATE_OUT]);
uint32_t pdb_section_index(const uint8_t *s, size_t s_len, uint32_t *table, size_t table_len, uint32_t shift, uint64_t out[PDB_INDEX_OUT]);

/* The type stream that is made of a section, in the first bytes of `buffer`: 52 bytes more than the section has. Refused are also a stream that would be too
 * long (16), and a buffer that is too small (19). Then the buffer is as it was. */
enum { PDB_SECTION_STREAM_BYTES = 2, PDB_SECTION_STREAM_OUT };
uint32_t pdb_section_stream(const uint8_t *s, size_t s_len, uint8_t *buffer, size_t buffer_len, uint64_t out[PDB_SECTION_STREAM_OUT]);

/* A record of a section, by the reader that takes its leaf: PDB_PARSE_ names the places of `out`. Refused is what that reader refuses, and bytes that pass
 * the section's end (1). */
uint32_t pdb_section_read(const uint8_t *s, size_t s_len, uint32_t index, size_t place, size_t length, uint64_t out[PDB_PARSE_OUT]);

/* pdb_list of a section's record, by the reader that takes its leaf: PDB_LIST_ names the places of `out`. */
uint32_t pdb_section_list(const uint8_t *s, size_t s_len, uint64_t out[PDB_LIST_OUT]);

/* ---- whole streams */

/* Is a type stream fit to bind? Both answers have the result 0. Yes: every record and every element of a list decodes, every type that a record names is an
 * earlier record or a known primitive, and there are as many records as the header says. No: the lowest record at fault and the first of the rules that
 * it breaks: 1 the count (of record 0), 2 it does not decode, 3 it names itself or a later record, 4 a primitive that is none, 5 an index from 4096 to below
 * the minimum. */
enum { PDB_FIT_YES = 2, PDB_FIT_RECORD, PDB_FIT_RULE, PDB_FIT_OUT };
uint32_t pdb_fit(const uint8_t *s, size_t s_len, uint64_t out[PDB_FIT_OUT]);

/* The stream of the records that some roots reach through type references, renumbered from the minimum without holes, in the first bytes of `buffer`; it is
 * never longer than the stream it is made of. The table has room for an entry for each record: entry i is the new index of record minimum + i, 0 where it is
 * dropped. Refused are a stream that is not fit (29), a root at or above the maximum (8), a table with fewer entries than the stream counts records (13),
 * an optional type index that would become 0xffff, which reads as none (30), and a buffer that is too small (19). At a refusal the buffer is as it was,
 * and the table too, but that after 30 and 19 it holds old to new. Of the header only the maximum changes: its hash fields and gprec_size describe the
 * old stream. */
enum { PDB_DROP_BYTES = 2, PDB_DROP_OUT };
uint32_t pdb_drop(const uint8_t *s, size_t s_len, const uint32_t *roots, size_t roots_len, uint32_t *table, size_t table_len, uint8_t *buffer,
                  size_t buffer_len, uint64_t out[PDB_DROP_OUT]);

/* A stream added to a report. A report is nine numbers, which a call is given and gives back, and a table of 64 rows: leaf, records and payload bytes, of which
 * the first PDB_REPORT_ROWS are in use. A fresh one is all zero. A stream that is refused, by its header or midway, is an answer: taken and refused grow by
 * one. Refused are a number that would pass 64 bits (27) and a sixty-fifth leaf (28): then the table is as it was, and the report the one that was given. */
enum {
    PDB_REPORT_TAKEN = 2,
    PDB_REPORT_REFUSED,
    PDB_REPORT_HEADERS,
    PDB_REPORT_RECORDS,
    PDB_REPORT_BYTES,
    PDB_REPORT_LARGEST,
    PDB_REPORT_STREAM,
    PDB_REPORT_INDEX,
    PDB_REPORT_ROWS,
    PDB_REPORT_OUT,
    PDB_REPORT_TABLE = 192
};
uint32_t pdb_report(const uint8_t *s, size_t s_len, uint64_t taken, uint64_t refused, uint64_t headers, uint64_t records, uint64_t bytes, uint64_t largest,
                    uint64_t stream, uint32_t index, uint64_t rows, uint64_t table[PDB_REPORT_TABLE], uint64_t out[PDB_REPORT_OUT]);

/* ---- writing */

/* A layout as a number: five bits a field, the first field lowest; 0 for a leaf that has none. */
enum { PDB_LAYOUT_TYPES, PDB_LAYOUT_IDS, PDB_LAYOUT_MEMBERS, PDB_LAYOUT_METHODS };
enum {
    PDB_CODE_U8 = 1,
    PDB_CODE_U16,
    PDB_CODE_U32,
    PDB_CODE_TYPE,
    PDB_CODE_OPTIONAL_TYPE,
    PDB_CODE_ID,
    PDB_CODE_OPTIONAL_ID,
    PDB_CODE_STRING_REFERENCE,
    PDB_CODE_WORD16,
    PDB_CODE_WORD32,
    PDB_CODE_POINTER,
    PDB_CODE_GAP,
    PDB_CODE_NUMERIC,
    PDB_CODE_SIZE,
    PDB_CODE_STRING,
    PDB_CODE_TYPES,
    PDB_CODE_IDS,
    PDB_CODE_SLOTS,
    PDB_CODE_METHODS,
    PDB_CODE_SECOND_STRING,
    PDB_CODE_MEMBER_CLASS,
    PDB_CODE_OFFSET,
    PDB_CODE_MEMBERS
};
uint64_t pdb_layout(uint32_t which, uint16_t leaf);

/* Any record as cells, one for each field of its layout: a kind and two numbers. For what takes every leaf alike, such as a dump or a writer.
 *
 *   kind                 first number                 second number
 *   PDB_CELL_NONE        no field: behind the last one
 *   PDB_CELL_ABSENT      0                            0           also a field without a name, and the list of 0x1203 and 0x1206
 *   PDB_CELL_NUMBER      the number                   0
 *   PDB_CELL_NATURAL     a numeric leaf               its width   one more, PDB_CELL_NATURAL + 1, where a shorter form carries it
 *   PDB_CELL_NEGATIVE    n, where the leaf is -1 - n  its width   one more where a shorter form carries it
 *   PDB_CELL_PART        the place in s               the length  a string or a run
 *
 * `ids` is set for an id record. Refused is what pdb_type and pdb_id refuse; then the cells are as they were. */
enum { PDB_CELL_NONE, PDB_CELL_ABSENT, PDB_CELL_NUMBER, PDB_CELL_NATURAL, PDB_CELL_NEGATIVE = 5, PDB_CELL_PART = 7, PDB_CELLS = 27 };
enum { PDB_CELLS_LEAF = 2, PDB_CELLS_OUT };
uint32_t pdb_cells(const uint8_t *s, size_t s_len, uint32_t ids, uint64_t cells[PDB_CELLS], uint64_t out[PDB_CELLS_OUT]);

/* A record written at a place of `buffer`, from its leaf and such cells: length, payload, and the bytes that fill it to a multiple of four. Strings and runs are
 * parts of `text`: of the record that the cells were read from, or of any other bytes. The widths are not looked at: a numeric leaf takes as few bytes as carry
 * it. Nor are the two numbers of an absent cell, and the cells behind the first PDB_CELL_NONE; a kind above PDB_CELL_PART is taken as PDB_CELL_PART. Refused are
 * values that no record of this leaf reads as (17), more than 65,535 payload bytes (18), and a buffer too small (19), in this order; then the buffer is as it was. */
enum { PDB_WRITE_NEXT = 2, PDB_WRITE_OUT };
uint32_t pdb_write_type(const uint8_t *text, size_t text_len, uint16_t leaf, const uint64_t cells[PDB_CELLS], uint8_t *buffer, size_t buffer_len, size_t at,
                        uint64_t out[PDB_WRITE_OUT]);
uint32_t pdb_write_id(const uint8_t *text, size_t text_len, uint16_t leaf, const uint64_t cells[PDB_CELLS], uint8_t *buffer, size_t buffer_len, size_t at,
                      uint64_t out[PDB_WRITE_OUT]);

/* A field list, 0x1203, and a method list, 0x1206, from a row for each element: a member's leaf, then its numbers in the order of its layout, then zeros. A string
 * is two numbers, its place in `text` and its length; an enumerator's value a sign, 0 or 1, and n or -1 - n; an offset in the table of virtual functions
 * a mark, 0 or 1, and the offset. A method has no leaf. What a row has behind the numbers of its layout, and the offset behind a
 * mark of 0, are not looked at. Refused as above; 17 also for a member behind a continuation (0x1404). */
enum { PDB_ROW = 8 };
uint32_t pdb_write_fields(const uint8_t *text, size_t text_len, const uint64_t (*rows)[PDB_ROW], size_t rows_len, uint8_t *buffer, size_t buffer_len, size_t at,
                          uint64_t out[PDB_WRITE_OUT]);
uint32_t pdb_write_methods(const uint8_t *text, size_t text_len, const uint64_t (*rows)[PDB_ROW], size_t rows_len, uint8_t *buffer, size_t buffer_len, size_t at,
                           uint64_t out[PDB_WRITE_OUT]);

/* A header: its thirteen numbers of 32 bits in the order of its bytes (version, header_size, minimum, maximum, gprec_size, hash_key_size, hash_bucket_size, then
 * three times an offset, as its 32 bits, and a size), and its two stream numbers. Refused are a header_size below 56 (2) or above 1,024 (3), a minimum below 4096
 * (4), a maximum below the minimum (5), and a buffer that is too small (19). */
uint32_t pdb_write_header(const uint32_t fields[13], uint16_t hash_stream, uint16_t hash_pad_stream, uint8_t *buffer, size_t buffer_len, size_t at,
                          uint64_t out[PDB_WRITE_OUT]);

#ifdef __cplusplus
}
#endif
#endif
