/* The lines of records and of their elements: compare/PROTOCOL.md, "Lines of records". */
#include "pdb_names.h"
#include "replay.h"
#include "type_rows.h"

void primitive(const uint64_t *out)
{
    const char *indirection = pdb_indirection_name((uint32_t)out[PDB_PRIMITIVE_INDIRECTION]);
    put("0 prim kind=");
    put(pdb_kind_name((uint32_t)out[PDB_PRIMITIVE_KIND]));
    put(" ind=");
    put(out[PDB_PRIMITIVE_INDIRECTION] == PDB_INDIRECTION_DIRECT ? "-" : indirection);
}

/* An index that may be absent, which is 0 then, and a string, which stands at no place then. */

static void index_or_none(const char *name, uint64_t n)
{
    optional(name, n != 0, n);
}

static void text(const char *name, uint64_t place, uint64_t length)
{
    part(name, place != 0, place, length);
}

/* What the line of each type leaf shows, by a table: a text alone, or a text and what stands at a place of the row and the one behind it. */

enum { ALONE, NUMBER, OPTIONAL, NUMERAL, PART, BIT_0, BIT_1, BIT_2 };

#define TYPE_ROW(leaf, text, how, place) {leaf, text, how, place},
static const struct {
    uint16_t leaf;
    const char *text;
    int how;
    size_t place;
} type_rows[] = {TYPE_ROWS(TYPE_ROW)};

static void type_field(const char *name, int how, const uint64_t *at, bool forms)
{
    switch (how) {
    case ALONE: put(name); break;
    case NUMBER: field(name, at[0]); break;
    case OPTIONAL: index_or_none(name, at[0]); break;
    case NUMERAL: numeral(name, at[0], at[1], forms); break;
    case PART: text(name, at[0], at[1]); break;
    default: field(name, at[0] >> (how - BIT_0) & 1); break;
    }
}

/* The fields of a type record, from its row. */
static void type_fields(const uint64_t *o, bool forms)
{
    put("0 ");
    leaf(o[PDB_TYPE_LEAF]);
    for (size_t k = 0; k < sizeof type_rows / sizeof *type_rows; k++) {
        if (type_rows[k].leaf == o[PDB_TYPE_LEAF])
            type_field(type_rows[k].text, type_rows[k].how, o + type_rows[k].place, forms);
    }
    if (o[PDB_TYPE_LEAF] == PDB_LF_ARGLIST)
        field(" count=", o[PDB_TYPE_COUNT]);
}

static void id_fields(const uint64_t *o)
{
    put("0 ");
    leaf(o[PDB_ID_LEAF]);
    switch (o[PDB_ID_LEAF]) {
    case PDB_LF_FUNC_ID:
        index_or_none(" scope=", o[PDB_ID_ID]);
        field(" t=", o[PDB_ID_TYPE]);
        break;
    case PDB_LF_MFUNC_ID:
        field(" parent=", o[PDB_ID_PARENT]);
        field(" t=", o[PDB_ID_TYPE]);
        break;
    case PDB_LF_STRING_ID:
        index_or_none(" sub=", o[PDB_ID_ID]);
        break;
    case PDB_LF_UDT_SRC_LINE:
    case PDB_LF_UDT_MOD_SRC_LINE:
        field(" udt=", o[PDB_ID_TYPE]);
        field(" file=", o[PDB_ID_FILE]);
        field(" line=", o[PDB_ID_LINE]);
        if (o[PDB_ID_LEAF] == PDB_LF_UDT_MOD_SRC_LINE)
            field(" module=", o[PDB_ID_MODULE]);
        return;
    default:
        field(" count=", o[PDB_ID_COUNT]);
        return;
    }
    text(" name=", o[PDB_ID_NAME], o[PDB_ID_NAME_LENGTH]);
}

/* Elements. */

static void member(const uint64_t *o, bool forms)
{
    leaf(o[PDB_STEP_LEAF]);
    switch (o[PDB_STEP_LEAF]) {
    case PDB_LF_INDEX:
    case PDB_LF_VFUNCTAB:
        field(" t=", o[PDB_STEP_TYPE]);
        return;
    case PDB_LF_ENUMERATE:
        field(" a=", o[PDB_STEP_WORD]);
        put(" v=");
        put_signed(o[PDB_STEP_VALUE], o[PDB_STEP_MORE] != 0);
        if (forms) {
            field("/", o[PDB_STEP_FORM] % 256);
            field("/", o[PDB_STEP_FORM] / 256);
        }
        break;
    case PDB_LF_METHOD:
        field(" count=", o[PDB_STEP_WORD]);
        field(" t=", o[PDB_STEP_TYPE]);
        break;
    case PDB_LF_BCLASS:
        field(" a=", o[PDB_STEP_WORD]);
        field(" t=", o[PDB_STEP_TYPE]);
        numeral(" off=", o[PDB_STEP_VALUE], o[PDB_STEP_FORM], forms);
        return;
    case PDB_LF_VBCLASS:
    case PDB_LF_IVBCLASS:
        field(" a=", o[PDB_STEP_WORD]);
        field(" t=", o[PDB_STEP_TYPE]);
        field(" p=", o[PDB_STEP_OTHER]);
        numeral(" off=", o[PDB_STEP_VALUE], o[PDB_STEP_FORM], forms);
        numeral(" voff=", o[PDB_STEP_MORE], o[PDB_STEP_MORE_FORM], forms);
        return;
    case PDB_LF_MEMBER:
        field(" a=", o[PDB_STEP_WORD]);
        field(" t=", o[PDB_STEP_TYPE]);
        numeral(" off=", o[PDB_STEP_VALUE], o[PDB_STEP_FORM], forms);
        break;
    case PDB_LF_ONEMETHOD:
        field(" a=", o[PDB_STEP_WORD]);
        field(" t=", o[PDB_STEP_TYPE]);
        optional(" voff=", o[PDB_STEP_MORE] != 0, o[PDB_STEP_VALUE]);
        break;
    default:
        field(" a=", o[PDB_STEP_WORD]);
        field(" t=", o[PDB_STEP_TYPE]);
        break;
    }
    text(" name=", o[PDB_STEP_NAME], o[PDB_STEP_NAME_LENGTH]);
}

static void element(uint64_t list, const uint64_t *o, bool forms)
{
    if (list == PDB_LF_FIELDLIST) {
        member(o, forms);
    } else if (list == PDB_LF_METHODLIST) {
        field("a=", o[PDB_STEP_WORD]);
        field(" t=", o[PDB_STEP_TYPE]);
        optional(" voff=", o[PDB_STEP_MORE] != 0, o[PDB_STEP_VALUE]);
    } else {
        put_number(o[PDB_STEP_TYPE]);
    }
}

/* A cursor of a list. */
typedef struct {
    uint16_t leaf;
    size_t at;
    uint32_t left, padded;
} Cursor;

static Cursor cursor_of(const uint64_t *o)
{
    return (Cursor){(uint16_t)o[PDB_LIST_LEAF], (size_t)o[PDB_LIST_AT], (uint32_t)o[PDB_LIST_LEFT], (uint32_t)o[PDB_LIST_PADDED]};
}

static uint32_t step(const uint8_t *s, size_t n, Cursor *c, uint64_t *out)
{
    uint32_t number = pdb_step(s, n, c->leaf, c->at, c->left, c->padded, out);
    if (number == 0)
        *c = (Cursor){c->leaf, (size_t)out[PDB_STEP_AT], (uint32_t)out[PDB_STEP_LEFT], (uint32_t)out[PDB_STEP_PADDED]};
    return number;
}

/* The elements of a list whose first cursor was given, and the refusal that stopped them. */
static void elements(const uint8_t *s, size_t n, const uint64_t *start, bool forms)
{
    Cursor c = cursor_of(start);
    for (;;) {
        OUT(out, PDB_STEP_OUT);
        uint32_t number = step(s, n, &c, out);
        put(" ; ");
        if (number != 0) {
            put("end ");
            refusal(number, out);
            return;
        }
        element(c.leaf, out, forms);
    }
}

static bool is_list(uint64_t leaf)
{
    return leaf == PDB_LF_ARGLIST || leaf == PDB_LF_FIELDLIST || leaf == PDB_LF_METHODLIST || leaf == PDB_LF_BUILDINFO || leaf == PDB_LF_SUBSTR_LIST;
}

static void list(const uint8_t *s, size_t n, bool ids, uint64_t leaf, bool forms)
{
    OUT(out, PDB_LIST_OUT);
    if (is_list(leaf) && pdb_list(s, n, ids, out) == 0)
        elements(s, n, out, forms);
}

void type_line(const uint8_t *s, size_t n, bool forms)
{
    OUT(out, PDB_TYPE_OUT);
    uint32_t number = pdb_type(s, n, out);
    if (number == 0) {
        type_fields(out, forms);
        list(s, n, false, out[PDB_TYPE_LEAF], forms);
    } else {
        refusal(number, out);
    }
    put("\n");
}

void id_line(const uint8_t *s, size_t n)
{
    OUT(out, PDB_ID_OUT);
    uint32_t number = pdb_id(s, n, out);
    if (number == 0) {
        id_fields(out);
        list(s, n, true, out[PDB_ID_LEAF], false);
    } else {
        refusal(number, out);
    }
    put("\n");
}

/* An item whose bytes these are: a type item below 4096 is a primitive whatever its bytes. */
void item_data(const uint8_t *s, size_t n, bool ids, uint32_t index, bool forms)
{
    if (ids) {
        id_line(s, n);
    } else if (index >= 4096) {
        type_line(s, n, forms);
    } else {
        OUT(out, PDB_PRIMITIVE_OUT);
        uint32_t number = pdb_primitive(index, out);
        if (number == 0)
            primitive(out);
        else
            refusal(number, out);
        put("\n");
    }
}

/* A record of a section, by the reader that takes its leaf. */
void section_data(const uint8_t *section, size_t size, uint32_t index, size_t place, size_t length)
{
    OUT(out, PDB_PARSE_OUT);
    uint32_t number = pdb_section_read(section, size, index, place, length, out);
    /* the fields stand one place higher than in the answers of pdb_type and pdb_id */
    const uint64_t *fields = out + 1;
    if (number != 0) {
        refusal(number, out);
    } else {
        if (out[PDB_PARSE_WHICH] == 0)
            type_fields(fields, false);
        else
            id_fields(fields);
        OUT(start, PDB_LIST_OUT);
        if (is_list(fields[PDB_TYPE_LEAF]) && pdb_section_list(section + place, length, start) == 0)
            elements(section + place, length, start, false);
    }
    put("\n");
}

/* The commands. */

static void on_item(Words *w, bool ids, bool indexed, bool forms)
{
    uint32_t index = indexed ? next_number32(w) : 4096;
    Bytes b = next_bytes(w);
    if (!b.good)
        put("? bytes\n");
    else
        item_data(b.at, b.length, ids, index, forms);
}

void on_type(Words *w)
{
    on_item(w, false, false, false);
}

void on_wtype(Words *w)
{
    on_item(w, false, false, true);
}

void on_id(Words *w)
{
    on_item(w, true, false, false);
}

void on_itemtype(Words *w)
{
    on_item(w, false, true, false);
}

void on_itemid(Words *w)
{
    on_item(w, true, true, false);
}

/* Whether a type has a name as the crate's `name` gives it: an array's is not among them, nor a method's among the members. */
static bool is_named(uint64_t leaf)
{
    return (leaf >= PDB_LF_CLASS && leaf <= PDB_LF_ENUM) || leaf == PDB_LF_INTERFACE || leaf == PDB_LF_STRUCTURE19;
}

void on_name(Words *w)
{
    Bytes b = next_bytes(w);
    OUT(out, PDB_TYPE_OUT);
    if (!b.good) {
        put("? bytes\n");
        return;
    }
    uint32_t number = pdb_type(b.at, b.length, out);
    if (number == 0)
        part("0 ", is_named(out[PDB_TYPE_LEAF]), out[PDB_TYPE_NAME], out[PDB_TYPE_NAME_LENGTH]);
    else
        refusal(number, out);
    put("\n");
}

/* Element k of a list by steps from its start: out is the element's or the refusal's. */
static uint32_t nth(Bytes b, bool ids, uint64_t k, uint64_t *out, uint64_t *list)
{
    OUT(start, PDB_LIST_OUT);
    uint32_t number = pdb_list(b.at, b.length, ids, start);
    Cursor c = cursor_of(start);
    *list = c.leaf;
    out[PDB_DETAIL_0] = start[PDB_DETAIL_0];
    for (uint64_t i = 0; number == 0 && i <= k; i++)
        number = step(b.at, b.length, &c, out);
    return number;
}

static void on_nth(Words *w, bool ids, bool forms)
{
    uint64_t k = next_number32(w), list;
    Bytes b = next_bytes(w);
    OUT(out, PDB_STEP_OUT);
    if (!b.good) {
        put("? bytes\n");
        return;
    }
    uint32_t number = nth(b, ids, k, out, &list);
    if (number == 0) {
        put("0 ");
        element(list, out, forms);
    } else {
        refusal(number, out);
    }
    put("\n");
}

void on_element(Words *w)
{
    on_nth(w, false, false);
}

void on_welement(Words *w)
{
    on_nth(w, false, true);
}

void on_idelement(Words *w)
{
    on_nth(w, true, false);
}

void on_idat(Words *w)
{
    on_nth(w, true, false);
}

void on_membername(Words *w)
{
    uint64_t k = next_number32(w), list;
    Bytes b = next_bytes(w);
    OUT(out, PDB_STEP_OUT);
    if (!b.good) {
        put("? bytes\n");
        return;
    }
    uint32_t number = nth(b, false, k, out, &list);
    if (number != 0) {
        refusal_line(number, out);
        return;
    }
    bool named = out[PDB_STEP_NAME] != 0 && out[PDB_STEP_LEAF] != PDB_LF_ONEMETHOD;
    part("0 ", named, out[PDB_STEP_NAME], out[PDB_STEP_NAME_LENGTH]);
    if (named) {
        put(" ");
        hex(b.at + out[PDB_STEP_NAME], (size_t)out[PDB_STEP_NAME_LENGTH]);
    }
    put("\n");
}
