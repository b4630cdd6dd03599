/* Numbers and names, written by tools/c_names from the sources of the library. X(number, NAME, "name") is called for each; the functions below give
 * the name of a number, or a null pointer where it has none. */
#ifndef PDB_NAMES_H
#define PDB_NAMES_H

#include <stdint.h>

/* Why a call is refused: docs/NUMBERS.md says what each number means. */
#define PDB_REFUSALS(X) \
    X(0, PDB_ANSWERED, "answered") \
    X(1, PDB_ENDED, "ended") \
    X(2, PDB_HEADER_SMALL, "header small") \
    X(3, PDB_HEADER_LARGE, "header large") \
    X(4, PDB_MINIMUM_LOW, "minimum low") \
    X(5, PDB_MAXIMUM_LOW, "maximum low") \
    X(6, PDB_TOO_SHORT, "too short") \
    X(7, PDB_INDICES_USED_UP, "indices used up") \
    X(8, PDB_NOT_FOUND, "not found") \
    X(9, PDB_NOT_INDEXED, "not indexed") \
    X(10, PDB_LEAF_UNKNOWN, "leaf unknown") \
    X(11, PDB_NUMBER_BAD, "number bad") \
    X(12, PDB_POINTER_WORD, "pointer word") \
    X(13, PDB_TABLE_FULL, "table full") \
    X(14, PDB_FOREIGN_CURSOR, "foreign cursor") \
    X(15, PDB_NO_SUCH_ELEMENT, "no such element") \
    X(16, PDB_TOO_LONG, "too long") \
    X(17, PDB_WOULD_NOT_READ_BACK, "would not read back") \
    X(18, PDB_RECORD_TOO_LONG, "record too long") \
    X(19, PDB_NO_ROOM, "no room") \
    X(20, PDB_FILE_WRONG, "file wrong") \
    X(21, PDB_ANOTHER_STREAM, "another stream") \
    X(22, PDB_OFF_THE_CHAIN, "off the chain") \
    X(23, PDB_TOO_DEEP, "too deep") \
    X(24, PDB_LEAF_NOT_PRINTED, "leaf not printed") \
    X(25, PDB_SIGNATURE, "signature") \
    X(26, PDB_SHIFT, "shift") \
    X(27, PDB_TOTAL_TOO_LARGE, "total too large") \
    X(28, PDB_LEAVES_FULL, "leaves full") \
    X(29, PDB_NOT_FIT, "not fit") \
    X(30, PDB_READS_AS_NONE, "reads as none")

/* Leaves, by their names in cvinfo.h. */
#define PDB_LEAVES(X) \
    X(0x000a, PDB_LF_VTSHAPE, "LF_VTSHAPE") \
    X(0x1001, PDB_LF_MODIFIER, "LF_MODIFIER") \
    X(0x1002, PDB_LF_POINTER, "LF_POINTER") \
    X(0x1008, PDB_LF_PROCEDURE, "LF_PROCEDURE") \
    X(0x1009, PDB_LF_MFUNCTION, "LF_MFUNCTION") \
    X(0x1201, PDB_LF_ARGLIST, "LF_ARGLIST") \
    X(0x1203, PDB_LF_FIELDLIST, "LF_FIELDLIST") \
    X(0x1205, PDB_LF_BITFIELD, "LF_BITFIELD") \
    X(0x1206, PDB_LF_METHODLIST, "LF_METHODLIST") \
    X(0x1503, PDB_LF_ARRAY, "LF_ARRAY") \
    X(0x1504, PDB_LF_CLASS, "LF_CLASS") \
    X(0x1505, PDB_LF_STRUCTURE, "LF_STRUCTURE") \
    X(0x1506, PDB_LF_UNION, "LF_UNION") \
    X(0x1507, PDB_LF_ENUM, "LF_ENUM") \
    X(0x1519, PDB_LF_INTERFACE, "LF_INTERFACE") \
    X(0x1609, PDB_LF_STRUCTURE19, "LF_STRUCTURE19") \
    X(0x1400, PDB_LF_BCLASS, "LF_BCLASS") \
    X(0x1401, PDB_LF_VBCLASS, "LF_VBCLASS") \
    X(0x1402, PDB_LF_IVBCLASS, "LF_IVBCLASS") \
    X(0x1404, PDB_LF_INDEX, "LF_INDEX") \
    X(0x1409, PDB_LF_VFUNCTAB, "LF_VFUNCTAB") \
    X(0x1502, PDB_LF_ENUMERATE, "LF_ENUMERATE") \
    X(0x150d, PDB_LF_MEMBER, "LF_MEMBER") \
    X(0x150e, PDB_LF_STMEMBER, "LF_STMEMBER") \
    X(0x150f, PDB_LF_METHOD, "LF_METHOD") \
    X(0x1510, PDB_LF_NESTTYPE, "LF_NESTTYPE") \
    X(0x1511, PDB_LF_ONEMETHOD, "LF_ONEMETHOD") \
    X(0x1601, PDB_LF_FUNC_ID, "LF_FUNC_ID") \
    X(0x1602, PDB_LF_MFUNC_ID, "LF_MFUNC_ID") \
    X(0x1603, PDB_LF_BUILDINFO, "LF_BUILDINFO") \
    X(0x1604, PDB_LF_SUBSTR_LIST, "LF_SUBSTR_LIST") \
    X(0x1605, PDB_LF_STRING_ID, "LF_STRING_ID") \
    X(0x1606, PDB_LF_UDT_SRC_LINE, "LF_UDT_SRC_LINE") \
    X(0x1607, PDB_LF_UDT_MOD_SRC_LINE, "LF_UDT_MOD_SRC_LINE")

/* Kinds of primitive types: the low byte of a type index below 0x1000. */
#define PDB_KINDS(X) \
    X(0x00, PDB_KIND_NOTYPE, "NoType") \
    X(0x03, PDB_KIND_VOID, "Void") \
    X(0x08, PDB_KIND_HRESULT, "HRESULT") \
    X(0x10, PDB_KIND_CHAR, "Char") \
    X(0x20, PDB_KIND_UCHAR, "UChar") \
    X(0x68, PDB_KIND_I8, "I8") \
    X(0x69, PDB_KIND_U8, "U8") \
    X(0x70, PDB_KIND_RCHAR, "RChar") \
    X(0x71, PDB_KIND_WCHAR, "WChar") \
    X(0x7a, PDB_KIND_RCHAR16, "RChar16") \
    X(0x7b, PDB_KIND_RCHAR32, "RChar32") \
    X(0x11, PDB_KIND_SHORT, "Short") \
    X(0x21, PDB_KIND_USHORT, "UShort") \
    X(0x72, PDB_KIND_I16, "I16") \
    X(0x73, PDB_KIND_U16, "U16") \
    X(0x12, PDB_KIND_LONG, "Long") \
    X(0x22, PDB_KIND_ULONG, "ULong") \
    X(0x74, PDB_KIND_I32, "I32") \
    X(0x75, PDB_KIND_U32, "U32") \
    X(0x13, PDB_KIND_QUAD, "Quad") \
    X(0x23, PDB_KIND_UQUAD, "UQuad") \
    X(0x76, PDB_KIND_I64, "I64") \
    X(0x77, PDB_KIND_U64, "U64") \
    X(0x14, PDB_KIND_OCTA, "Octa") \
    X(0x24, PDB_KIND_UOCTA, "UOcta") \
    X(0x78, PDB_KIND_I128, "I128") \
    X(0x79, PDB_KIND_U128, "U128") \
    X(0x46, PDB_KIND_F16, "F16") \
    X(0x40, PDB_KIND_F32, "F32") \
    X(0x45, PDB_KIND_F32PP, "F32PP") \
    X(0x44, PDB_KIND_F48, "F48") \
    X(0x41, PDB_KIND_F64, "F64") \
    X(0x42, PDB_KIND_F80, "F80") \
    X(0x43, PDB_KIND_F128, "F128") \
    X(0x50, PDB_KIND_COMPLEX32, "Complex32") \
    X(0x51, PDB_KIND_COMPLEX64, "Complex64") \
    X(0x52, PDB_KIND_COMPLEX80, "Complex80") \
    X(0x53, PDB_KIND_COMPLEX128, "Complex128") \
    X(0x30, PDB_KIND_BOOL8, "Bool8") \
    X(0x31, PDB_KIND_BOOL16, "Bool16") \
    X(0x32, PDB_KIND_BOOL32, "Bool32") \
    X(0x33, PDB_KIND_BOOL64, "Bool64")

/* Indirections of primitive types: bits 8 to 11 of the index. */
#define PDB_INDIRECTIONS(X) \
    X(0, PDB_INDIRECTION_DIRECT, "Direct") \
    X(1, PDB_INDIRECTION_NEAR16, "Near16") \
    X(2, PDB_INDIRECTION_FAR16, "Far16") \
    X(3, PDB_INDIRECTION_HUGE16, "Huge16") \
    X(4, PDB_INDIRECTION_NEAR32, "Near32") \
    X(5, PDB_INDIRECTION_FAR32, "Far32") \
    X(6, PDB_INDIRECTION_NEAR64, "Near64") \
    X(7, PDB_INDIRECTION_NEAR128, "Near128")

#define PDB_NAMES_CONSTANT(number, label, name) label = number,
enum { PDB_REFUSALS(PDB_NAMES_CONSTANT) };
enum { PDB_LEAVES(PDB_NAMES_CONSTANT) };
enum { PDB_KINDS(PDB_NAMES_CONSTANT) };
enum { PDB_INDIRECTIONS(PDB_NAMES_CONSTANT) };
#undef PDB_NAMES_CONSTANT

#define PDB_NAMES_CASE(number, label, name) case number: return name;
static inline const char *pdb_refusal_name(uint32_t number)
{
    switch (number) {
        PDB_REFUSALS(PDB_NAMES_CASE)
    default: return 0;
    }
}

static inline const char *pdb_leaf_name(uint32_t number)
{
    switch (number) {
        PDB_LEAVES(PDB_NAMES_CASE)
    default: return 0;
    }
}

static inline const char *pdb_kind_name(uint32_t number)
{
    switch (number) {
        PDB_KINDS(PDB_NAMES_CASE)
    default: return 0;
    }
}

static inline const char *pdb_indirection_name(uint32_t number)
{
    switch (number) {
        PDB_INDIRECTIONS(PDB_NAMES_CASE)
    default: return 0;
    }
}

#undef PDB_NAMES_CASE

#endif
