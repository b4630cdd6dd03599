/* The lines of streams and of sections: header, iterator, finder, views, declarations. */
#include <string.h>

#include "replay.h"

/* Memory that nobody looks at, for an empty slice. */
static const uint8_t nothing[1];

static bool bad(Bytes b)
{
    if (!b.good)
        put("? bytes\n");
    return !b.good;
}

void on_header(Words *w)
{
    Bytes b = next_bytes(w);
    OUT(out, PDB_HEADER_OUT);
    static const char *const names[] = {"0 version=", " header_size=", " minimum=", " maximum=", " gprec=", " s1=", " s2=", " key=",
        " bucket=", " o1=", " n1=", " o2=", " n2=", " o3=", " n3=", " count="};
    if (bad(b))
        return;
    uint32_t number = pdb_header(b.at, b.length, out);
    if (number != 0) {
        refusal_line(number, out);
        return;
    }
    for (int i = 0; i < 16; i++) {
        uint64_t n = out[PDB_HEADER_VERSION + i];
        bool offset = i == 9 || i == 11 || i == 13, negative = offset && n > INT32_MAX;
        put(names[i]);
        put(negative ? "-" : "");
        put_number(negative ? (UINT64_C(1) << 32) - n : n);
    }
    put("\n");
}

/* The count of a stream is its header's. */
void on_count(Words *w)
{
    Bytes b = next_bytes(w);
    OUT(out, PDB_HEADER_OUT);
    if (bad(b))
        return;
    uint32_t number = pdb_header(b.at, b.length, out);
    if (number == 0)
        field("0 ", out[PDB_HEADER_COUNT]);
    else
        refusal(number, out);
    put(number == 0 && out[PDB_HEADER_COUNT] == 0 ? " empty\n" : "\n");
}

/* Walks. */

enum { PLAIN, TYPES, IDS, SECTION };

static void item_line(Bytes s, bool ids, uint32_t index, size_t place, size_t length)
{
    OUT(out, PDB_KIND_OUT);
    uint32_t number = ids ? pdb_kind(nothing, 0, s.at, s.length, 1, 1, index, place, length, out) : pdb_kind(s.at, s.length, nothing, 0, 0, 1, index, place, length, out);
    put_number(index);
    put(" ");
    if (number == 0)
        leaf(out[PDB_KIND_LEAF]);
    else
        refusal(number, out);
    part(" ", true, place, length);
    put("\n");
}

static void walk(Bytes s, size_t at, uint32_t index, int data)
{
    for (;;) {
        OUT(out, PDB_NEXT_OUT);
        uint32_t number = pdb_next(s.at, s.length, at, index, out);
        if (number != 0) {
            put("refused ");
            refusal_line(number, out);
            return;
        }
        if (out[PDB_NEXT_IS_ITEM] == 0) {
            field("done ", index);
            field(" ", at);
            put("\n");
            return;
        }
        uint32_t of = (uint32_t)out[PDB_NEXT_INDEX];
        size_t place = (size_t)out[PDB_NEXT_PLACE], length = (size_t)out[PDB_NEXT_LENGTH];
        item_line(s, data == IDS, of, place, length);
        if (data != PLAIN)
            put("  ");
        if (data == TYPES || data == IDS)
            item_data(s.at + place, length, data == IDS, of, false);
        if (data == SECTION)
            section_data(s.at, s.length, of, place, length);
        at = (size_t)out[PDB_NEXT_AT];
        index = (uint32_t)out[PDB_NEXT_NEXT_INDEX];
    }
}

static void on_stream(Words *w, int data)
{
    Bytes b = next_bytes(w);
    OUT(out, PDB_HEADER_OUT);
    if (bad(b))
        return;
    uint32_t number = pdb_header(b.at, b.length, out);
    if (number != 0)
        refusal_line(number, out);
    else
        walk(b, (size_t)out[PDB_HEADER_SIZE], (uint32_t)out[PDB_HEADER_MINIMUM], data);
}

void on_walk(Words *w)
{
    on_stream(w, PLAIN);
}

void on_parse(Words *w)
{
    on_stream(w, TYPES);
}

void on_parseids(Words *w)
{
    on_stream(w, IDS);
}

static void on_section(Words *w, int data)
{
    Bytes b = next_bytes(w);
    OUT(out, PDB_SECTION_START_OUT);
    if (bad(b))
        return;
    uint32_t number = pdb_section_start(b.at, b.length, out);
    if (number != 0)
        refusal_line(number, out);
    else
        walk(b, (size_t)out[PDB_SECTION_START_AT], (uint32_t)out[PDB_SECTION_START_INDEX], data);
}

void on_secwalk(Words *w)
{
    on_section(w, PLAIN);
}

void on_secparse(Words *w)
{
    on_section(w, SECTION);
}

void on_seccount(Words *w)
{
    Bytes b = next_bytes(w);
    OUT(out, PDB_SECTION_COUNT_OUT);
    if (bad(b))
        return;
    uint32_t number = pdb_section_count(b.at, b.length, out);
    if (number == 0)
        field("0 ", out[PDB_SECTION_COUNT_RECORDS]);
    else
        refusal(number, out);
    put("\n");
}

void on_next(Words *w)
{
    Bytes b = next_bytes(w);
    size_t at = (size_t)next_number(w);
    uint32_t index = next_number32(w);
    OUT(out, PDB_NEXT_OUT);
    if (bad(b))
        return;
    uint32_t number = pdb_next(b.at, b.length, at, index, out);
    if (number != 0) {
        refusal_line(number, out);
        return;
    }
    if (out[PDB_NEXT_IS_ITEM] == 0) {
        put("0 done\n");
        return;
    }
    field("0 ", out[PDB_NEXT_INDEX]);
    part(" ", true, out[PDB_NEXT_PLACE], out[PDB_NEXT_LENGTH]);
    field(" then ", out[PDB_NEXT_AT]);
    field(" ", out[PDB_NEXT_NEXT_INDEX]);
    put("\n");
}

/* Finders. */

typedef struct {
    uint32_t minimum, maximum, shift;
    size_t held;
} Finder;

static Finder next_finder(Words *w, uint32_t shift)
{
    uint32_t minimum = next_number32(w), maximum = next_number32(w);
    return (Finder){minimum, maximum, shift, (size_t)next_number(w)};
}

/* The finder of an answer: minimum, maximum, held and shift stand in this order behind the details. */
static Finder finder_in(const uint64_t *out)
{
    return (Finder){(uint32_t)out[2], (uint32_t)out[3], (uint32_t)out[5], (size_t)out[4]};
}

static void finder_line(uint32_t number, const uint64_t *out, Table t)
{
    if (number == 0) {
        Finder f = finder_in(out);
        field("0 ", f.minimum);
        field(" ", f.maximum);
        field(" held=", f.held);
        field(" shift=", f.shift);
    } else {
        refusal(number, out);
    }
    table_after(t.at, t.length);
}

static void create(Words *w, bool by, bool section)
{
    uint32_t shift = by ? next_number32(w) : 3;
    Bytes b = next_bytes(w);
    Table t = next_table(w);
    OUT(out, PDB_CREATE_OUT);
    if (bad(b))
        return;
    uint32_t number = section ? pdb_section_create(b.at, b.length, t.at, t.length, shift, out) : pdb_create(b.at, b.length, t.at, t.length, shift, out);
    finder_line(number, out, t);
}

void on_create(Words *w)
{
    create(w, false, false);
}

void on_createby(Words *w)
{
    create(w, true, false);
}

void on_seccreate(Words *w)
{
    create(w, true, true);
}

static uint32_t update(Finder *f, Table t, size_t at, uint32_t index)
{
    OUT(out, PDB_UPDATE_OUT);
    uint32_t number = pdb_update(t.at, t.length, f->minimum, f->maximum, f->held, f->shift, at, index, out);
    if (number == 0)
        f->held = (size_t)out[PDB_UPDATE_HELD];
    return number;
}

static void on_updates(Words *w, uint32_t shift)
{
    static const uint64_t none[2];
    Finder f = next_finder(w, shift);
    Table t = next_table(w);
    size_t at = (size_t)next_number(w);
    uint32_t number = update(&f, t, at, next_number32(w));
    refusal(number, none);
    field(" held=", f.held);
    table_after(t.at, t.length);
}

void on_update(Words *w)
{
    on_updates(w, 3);
}

void on_updateby(Words *w)
{
    uint32_t shift = next_number32(w);
    on_updates(w, shift);
}

static void look_up(Bytes s, Finder f, Table t, uint32_t index)
{
    OUT(out, PDB_FIND_OUT);
    uint32_t number = pdb_find(s.at, s.length, t.at, t.length, f.minimum, f.maximum, f.held, f.shift, index, out);
    if (number != 0)
        refusal_of_find(number, out);
    else if (out[PDB_FIND_IS_RECORD] == 0)
        field("0 marker 2 ffff links=", out[PDB_FIND_PASSED]);
    else {
        part("0 ", true, out[PDB_FIND_PLACE], out[PDB_FIND_LENGTH]);
        field(" links=", out[PDB_FIND_PASSED]);
    }
    put("\n");
}

static void find_in(Words *w, uint32_t shift)
{
    Bytes b = next_bytes(w);
    Finder f = next_finder(w, shift);
    Table t = next_table(w);
    if (!bad(b))
        look_up(b, f, t, next_number32(w));
}

void on_findin(Words *w)
{
    find_in(w, 3);
}

void on_findinby(Words *w)
{
    uint32_t shift = next_number32(w);
    find_in(w, shift);
}

static void max_index(Words *w, uint32_t shift)
{
    Finder f = next_finder(w, shift);
    put_number(pdb_max_index(f.minimum, f.maximum, f.held, f.shift));
    put("\n");
}

void on_maxindex(Words *w)
{
    max_index(w, 3);
}

void on_maxindexby(Words *w)
{
    uint32_t shift = next_number32(w);
    max_index(w, shift);
}

/* `find`: n records with an update behind each, from a fresh finder and a fresh cursor; 65,536 and more are the whole stream, in one call. */

static Table roomy(Bytes s)
{
    size_t places = s.length / 2 + 2;
    Table t = {lent(4 * places), places, true};
    memset(t.at, 0, 4 * places);
    return t;
}

static void look_ups(Words *w, Bytes s, Finder f, Table t)
{
    put("places [");
    for (size_t i = 0; i < f.held; i++)
        field(i == 0 ? "" : ", ", t.at[i]);
    field("]\nmax ", pdb_max_index(f.minimum, f.maximum, f.held, f.shift));
    put("\n");
    Table asked = next_table(w);
    for (size_t i = 0; i < asked.length; i++) {
        put_number(asked.at[i]);
        put(" ");
        look_up(s, f, t, asked.at[i]);
    }
}

static void turns(Bytes s, Finder *f, Table t, size_t at, uint32_t index, uint64_t n)
{
    for (uint64_t i = 0; i < n; i++) {
        OUT(out, PDB_NEXT_OUT);
        if (pdb_next(s.at, s.length, at, index, out) != 0 || out[PDB_NEXT_IS_ITEM] == 0)
            return;
        at = (size_t)out[PDB_NEXT_AT];
        index = (uint32_t)out[PDB_NEXT_NEXT_INDEX];
        if (update(f, t, at, index) != 0)
            return;
    }
}

static void find(Words *w, uint32_t shift, bool section)
{
    Bytes b = next_bytes(w);
    Word count = next_word(w);
    bool early = !section && count.length > 0 && count.letters[0] == 'u';
    uint64_t n = number_in((Word){count.letters + early, count.length - early});
    if (bad(b))
        return;
    Table t = roomy(b);
    uint32_t number;
    if (n >= 65536 && !early) {
        OUT(out, PDB_INDEX_OUT);
        number = section ? pdb_section_index(b.at, b.length, t.at, t.length, shift, out) : pdb_index(b.at, b.length, t.at, t.length, shift, out);
        if (number == 0)
            look_ups(w, b, finder_in(out), t);
        else
            refusal_line(number, out);
        return;
    }
    OUT(out, PDB_CREATE_OUT);
    OUT(start, PDB_HEADER_OUT);
    number = section ? pdb_section_create(b.at, b.length, t.at, t.length, shift, out) : pdb_create(b.at, b.length, t.at, t.length, shift, out);
    if (number != 0) {
        refusal_line(number, out);
        return;
    }
    Finder f = finder_in(out);
    size_t at;
    uint32_t index;
    if (section) {
        pdb_section_start(b.at, b.length, start);
        at = (size_t)start[PDB_SECTION_START_AT];
        index = (uint32_t)start[PDB_SECTION_START_INDEX];
    } else {
        pdb_header(b.at, b.length, start);
        at = (size_t)start[PDB_HEADER_SIZE];
        index = (uint32_t)start[PDB_HEADER_MINIMUM];
    }
    if (early)
        update(&f, t, at, index);
    turns(b, &f, t, at, index, n);
    look_ups(w, b, f, t);
}

void on_find(Words *w)
{
    find(w, 3, false);
}

void on_findids(Words *w)
{
    find(w, 3, false);
}

void on_findby(Words *w)
{
    uint32_t shift = next_number32(w);
    find(w, shift, false);
}

void on_secfind(Words *w)
{
    find(w, 3, true);
}

/* Views. */

static void kind_part(uint32_t number, const uint64_t *out)
{
    put(" ; kind ");
    if (number != 0) {
        refusal_line(number, out);
        return;
    }
    put("0 ");
    leaf(out[PDB_KIND_LEAF]);
    put("\n");
}

void on_view(Words *w)
{
    Bytes tpi = next_bytes(w), ipi = next_bytes(w);
    bool ids = word_is(next_word(w), "i");
    size_t place = (size_t)next_number(w), length = (size_t)next_number(w);
    OUT(out, PDB_VIEW_OUT);
    OUT(kind, PDB_KIND_OUT);
    if (!tpi.good || !ipi.good) {
        put("? bytes\n");
        return;
    }
    uint32_t number = pdb_view(tpi.at, tpi.length, ipi.at, ipi.length, ids, 1, 4096, place, length, out);
    if (number == 0) {
        put("0 ");
        hex((ids ? ipi.at : tpi.at) + out[PDB_VIEW_PLACE], (size_t)out[PDB_VIEW_LENGTH]);
    } else {
        refusal(number, out);
    }
    kind_part(pdb_kind(tpi.at, tpi.length, ipi.at, ipi.length, ids, 1, 4096, place, length, kind), kind);
}

/* The kind of a record whose bytes are these. */
void on_kind(Words *w)
{
    Bytes b = next_bytes(w);
    OUT(out, PDB_KIND_OUT);
    if (bad(b))
        return;
    uint32_t number = pdb_kind(b.at, b.length, nothing, 0, 0, 1, 4096, 0, b.length, out);
    if (number == 0)
        field("0 ", out[PDB_KIND_LEAF]);
    else
        refusal(number, out);
    put("\n");
}

/* The marker's view, its kind, and what the reader of its stream says of it. */
void on_marker(Words *w)
{
    bool ids = word_is(next_word(w), "i");
    uint32_t index = next_number32(w);
    OUT(out, PDB_VIEW_OUT);
    OUT(kind, PDB_KIND_OUT);
    OUT(read, PDB_PARSE_OUT);
    refusal(pdb_view(nothing, 0, nothing, 0, ids, 0, index, 0, 0, out), out);
    put(" ; kind ");
    pdb_kind(nothing, 0, nothing, 0, ids, 0, index, 0, 0, kind);
    leaf(kind[PDB_KIND_LEAF]);
    put(" ; ");
    uint32_t number = pdb_parse(nothing, 0, nothing, 0, ids, 0, index, 0, 0, read);
    if (number == 0)
        primitive(read + 1);
    else
        refusal(number, read);
    put("\n");
}

void on_sectpi(Words *w)
{
    size_t room = (size_t)next_number(w);
    Bytes b = next_bytes(w);
    OUT(out, PDB_SECTION_STREAM_OUT);
    if (bad(b))
        return;
    uint8_t *buffer = lent(room);
    written(pdb_section_stream(b.at, b.length, buffer, room, out), out, buffer);
}

/* A declaration, over a finder that a whole walk has filled. Of 1 the detail is shown where it is not 0: a lookup's links passed. */
void on_declare(Words *w)
{
    size_t room = (size_t)next_number(w);
    Bytes b = next_bytes(w);
    uint32_t index = next_number32(w);
    OUT(out, PDB_INDEX_OUT);
    OUT(text, PDB_DECLARE_OUT);
    if (bad(b))
        return;
    Table t = roomy(b);
    uint32_t number = pdb_index(b.at, b.length, t.at, t.length, 3, out);
    if (number != 0) {
        refusal_line(number, out);
        return;
    }
    Finder f = finder_in(out);
    uint8_t *buffer = lent(room);
    number = pdb_declare(b.at, b.length, t.at, t.length, f.minimum, f.maximum, f.held, f.shift, index, buffer, room, text);
    if (number == 1 && text[PDB_DETAIL_0] != 0) {
        refusal_of_find(number, text);
        put("\n");
    } else {
        written(number, text, buffer);
    }
}

/* Whether a number is a cross-module index, of types and of ids. */
void on_cross(Words *w)
{
    put(pdb_is_cross_module(next_number32(w)) != 0 ? "ti.\n" : ".\n");
}
