/* The lines of single numbers: primitives, attribute words, optional indices, strings, padding and numeric leaves. */
#include "replay.h"

void on_prim(Words *w)
{
    uint32_t from = next_number32(w), to = next_number32(w);
    for (uint32_t i = from; i < to; i++) {
        OUT(out, PDB_PRIMITIVE_OUT);
        uint32_t number = pdb_primitive(i, out);
        put_number(i);
        put(" ");
        if (number == 0)
            primitive(out);
        else
            refusal(number, out);
        put("\n");
    }
}

/* A number, or `r` and the number that it is refused by. */
static void or_refused(const char *name, uint64_t refused, uint64_t n)
{
    put(name);
    if (refused != 0)
        field("r", refused);
    else
        put_number(n);
}

static void properties(uint32_t word)
{
    OUT(out, PDB_PROPERTIES_OUT);
    pdb_properties((uint16_t)word, out);
    field("props ", word & 0xffff);
    put(" ");
    for (int i = PDB_PROPERTIES_PACKED; i <= PDB_PROPERTIES_SEALED; i++)
        put_number(out[i]);
    field(" hfa=", out[PDB_PROPERTIES_HFA]);
    field(" intrinsic=", out[PDB_PROPERTIES_INTRINSIC_TYPE]);
    field(" mocom=", out[PDB_PROPERTIES_MOCOM]);
    put("\n");
}

static void field_attributes(uint32_t word)
{
    OUT(out, PDB_FIELD_OUT);
    pdb_field_attributes((uint16_t)word, out);
    field("field ", word & 0xffff);
    field(" access=", out[PDB_FIELD_ACCESS]);
    field(" mprop=", out[PDB_FIELD_METHOD_PROPERTIES]);
    field(" static=", out[PDB_FIELD_IS_STATIC]);
    field(" virtual=", out[PDB_FIELD_IS_VIRTUAL]);
    field(" pure=", out[PDB_FIELD_IS_PURE_VIRTUAL]);
    field(" intro=", out[PDB_FIELD_IS_INTRO_VIRTUAL]);
    put("\n");
}

static void function_attributes(uint32_t word)
{
    OUT(out, PDB_FUNCTION_OUT);
    pdb_function_attributes((uint16_t)word, out);
    field("func ", word & 0xffff);
    field(" call=", out[PDB_FUNCTION_CALLING_CONVENTION]);
    field(" udt=", out[PDB_FUNCTION_CXX_RETURN_UDT]);
    field(" ctor=", out[PDB_FUNCTION_IS_CONSTRUCTOR]);
    field(" vbases=", out[PDB_FUNCTION_IS_CONSTRUCTOR_WITH_VIRTUAL_BASES]);
    put("\n");
}

static void pointer_attributes(uint32_t word)
{
    OUT(out, PDB_POINTER_OUT);
    pdb_pointer_attributes(word, out);
    uint64_t mode = out[PDB_POINTER_MODE_REFUSED];
    field("ptr ", word);
    or_refused(" kind=", out[PDB_POINTER_KIND_REFUSED], out[PDB_POINTER_KIND]);
    or_refused(" mode=", mode, out[PDB_POINTER_MODE]);
    or_refused(" member=", mode, out[PDB_POINTER_TO_MEMBER]);
    or_refused(" ref=", mode, out[PDB_POINTER_IS_REFERENCE]);
    field(" flat32=", out[PDB_POINTER_IS_FLAT_32]);
    field(" volatile=", out[PDB_POINTER_IS_VOLATILE]);
    field(" const=", out[PDB_POINTER_IS_CONST]);
    field(" unaligned=", out[PDB_POINTER_IS_UNALIGNED]);
    field(" restrict=", out[PDB_POINTER_IS_RESTRICT]);
    or_refused(" size=", out[PDB_POINTER_SIZE_REFUSED], out[PDB_POINTER_SIZE]);
    field(" mocom=", out[PDB_POINTER_IS_MOCOM]);
    put("\n");
}

void on_word(Words *w)
{
    Word kind = next_word(w);
    uint64_t from = next_number(w), to = next_number(w), step = next_number(w);
    for (uint64_t n = from; n < to; n += step) {
        if (word_is(kind, "props"))
            properties((uint32_t)n);
        else if (word_is(kind, "field"))
            field_attributes((uint32_t)n);
        else if (word_is(kind, "func"))
            function_attributes((uint32_t)n);
        else
            pointer_attributes((uint32_t)n);
        if (step == 0 || to - n <= step)
            return;
    }
}

void on_opttype(Words *w)
{
    uint32_t n = next_number32(w);
    optional("", pdb_optional_type(n) != 0, n);
    put("\n");
}

void on_optid(Words *w)
{
    uint32_t n = next_number32(w);
    optional("", pdb_optional_id(n) != 0, n);
    put("\n");
}

void on_string(Words *w)
{
    uint16_t of = (uint16_t)next_number(w);
    Bytes b = next_bytes(w);
    OUT(out, PDB_STRING_OUT);
    if (!b.good) {
        put("? bytes\n");
        return;
    }
    uint32_t number = pdb_string(b.at, b.length, of, 0, out);
    if (number != 0) {
        refusal_line(number, out);
        return;
    }
    part("0 ", true, out[PDB_STRING_PLACE], out[PDB_STRING_LENGTH]);
    field(" next=", out[PDB_STRING_NEXT]);
    put("\n");
}

void on_padding(Words *w)
{
    Bytes b = next_bytes(w);
    OUT(out, PDB_PADDING_OUT);
    if (!b.good) {
        put("? bytes\n");
        return;
    }
    uint32_t number = pdb_padding(b.at, b.length, 0, out);
    if (number == 0)
        field("0 ", out[PDB_PADDING_NEXT]);
    else
        refusal(number, out);
    put("\n");
}

static void sized(Words *w, bool forms)
{
    Bytes b = next_bytes(w);
    OUT(out, PDB_SIZE_OUT);
    if (!b.good) {
        put("? bytes\n");
        return;
    }
    uint32_t number = pdb_size(b.at, b.length, 0, out);
    if (number == 0) {
        numeral("0 ", out[PDB_SIZE_VALUE], out[PDB_SIZE_WIDTH] + 256 * out[PDB_SIZE_SHORTER], forms);
        field(" next=", out[PDB_SIZE_NEXT]);
    } else {
        refusal(number, out);
    }
    put("\n");
}

void on_unsigned(Words *w)
{
    sized(w, false);
}

void on_wunsigned(Words *w)
{
    sized(w, true);
}

static void numbered(Words *w, bool forms)
{
    Bytes b = next_bytes(w);
    OUT(out, PDB_NUMBER_OUT);
    if (!b.good) {
        put("? bytes\n");
        return;
    }
    uint32_t number = pdb_number(b.at, b.length, 0, out);
    if (number == 0) {
        put("0 ");
        put_signed(out[PDB_NUMBER_VALUE], out[PDB_NUMBER_NEGATIVE] != 0);
        if (forms) {
            field("/", out[PDB_NUMBER_WIDTH]);
            field("/", out[PDB_NUMBER_SHORTER]);
        }
        field(" next=", out[PDB_NUMBER_NEXT]);
    } else {
        refusal(number, out);
    }
    put("\n");
}

void on_signed(Words *w)
{
    numbered(w, false);
}

void on_wsigned(Words *w)
{
    numbered(w, true);
}
