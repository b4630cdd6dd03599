/* Sections to streams: a section's records are those of the stream that is made of it, with places 52 higher; and what reads a section reads the stream alike.
 * First byte: the shift; the rest is the section behind its signature, or all of it where the first byte is 255. */
#include "law.h"

enum { SECTION, BUFFER, STREAM, TABLE, KEPT, HIGHER = 52 };

static uint32_t index_of(bool section, const uint8_t *s, size_t n, uint32_t shift, uint32_t *places, uint64_t *said)
{
    size_t room = n / 2 + 2;
    uint32_t *table = lend(TABLE, 4 * room, NULL);
    uint32_t number = section ? ASK(PDB_INDEX_OUT, pdb_section_index(s, n, table, room, shift, out)) : ASK(PDB_INDEX_OUT, pdb_index(s, n, table, room, shift, out));
    if (number == 0) {
        wrote(TABLE, 0, 4 * (size_t)out[PDB_INDEX_HELD], "the places alone are written");
        memcpy(places, table, 4 * (size_t)out[PDB_INDEX_HELD]);
    }
    memcpy(said, out, 8 * PDB_INDEX_OUT);
    lend_none();
    return number;
}

static void records(const Walk *in, const Walk *made)
{
    uint64_t read[PDB_PARSE_OUT];
    for (size_t i = 0; i < in->count; i++) {
        Item a = in->items[i], b = made->items[i];
        HOLDS(a.index == b.index && a.place + HIGHER == b.place && a.length == b.length, a.place, b.place);
        uint32_t number = ASK(PDB_PARSE_OUT, pdb_section_read(in->s, in->n, a.index, a.place, a.length, out));
        memcpy(read, out, sizeof read);
        uint16_t leaf = (uint16_t)(in->s[a.place] | in->s[a.place + 1] << 8);
        /* by the reader that takes its leaf, whichever stream is named: the section stands for both */
        uint32_t type = ASK(PDB_PARSE_OUT, pdb_parse(made->s, made->n, made->s, made->n, 0, 1, b.index, b.place, b.length, out));
        if (type != 10) {
            HOLDS(type == number && memcmp(read, out, sizeof read) == 0, type, number);
        } else {
            uint32_t id = ASK(PDB_PARSE_OUT, pdb_parse(made->s, made->n, made->s, made->n, 1, 1, b.index, b.place, b.length, out));
            HOLDS(id == number && memcmp(read, out, sizeof read) == 0, id, number);
        }
        outcome(leaf, number, 2);
        uint32_t list = ASK(PDB_LIST_OUT, pdb_section_list(in->s + a.place, a.length, out));
        bool ids = leaf == 0x1603 || leaf == 0x1604;
        memcpy(read, out, 8 * PDB_LIST_OUT);
        uint32_t same = ASK(PDB_LIST_OUT, pdb_list(made->s + b.place, b.length, ids, out));
        HOLDS(list == same && memcmp(read, out, 8 * PDB_LIST_OUT) == 0, list, same);
    }
}

static void lookups(const Walk *w, const uint32_t *places, const uint64_t *finder)
{
    size_t held = (size_t)finder[PDB_INDEX_HELD];
    const uint32_t *table = (const uint32_t *)(const void *)copy_in(KEPT, places, 4 * held);
    for (size_t i = 0; i < w->count; i++) {
        uint32_t number = ASK(PDB_FIND_OUT, pdb_find(w->s, w->n, table, held, (uint32_t)finder[PDB_INDEX_MINIMUM], (uint32_t)finder[PDB_INDEX_MAXIMUM], held,
                                                     (uint32_t)finder[PDB_INDEX_SHIFT], w->items[i].index, out));
        HOLDS(number == 0 && out[PDB_FIND_IS_RECORD] == 1, number, i);
        HOLDS(out[PDB_FIND_PLACE] == w->items[i].place && out[PDB_FIND_LENGTH] == w->items[i].length, out[PDB_FIND_PLACE], w->items[i].place);
        HOLDS(out[PDB_FIND_PASSED] == (i & (((size_t)1 << finder[PDB_INDEX_SHIFT]) - 1)), out[PDB_FIND_PASSED], i);
    }
}

int LLVMFuzzerTestOneInput(const uint8_t *data, size_t size)
{
    static uint8_t bytes[MOST];
    static uint32_t places[MOST / 4], made_places[MOST / 4];
    static uint64_t said[PDB_INDEX_OUT], made_said[PDB_INDEX_OUT];
    Input in = {data, size};
    uint8_t first = take(&in);
    uint32_t shift = first % 7u;
    if (in.left > 100000)
        return 0;
    lend_none();
    size_t n = first == 255 ? in.left : in.left + 4;
    memcpy(bytes, "\4\0\0\0", 4);
    if (in.left > 0)
        memcpy(bytes + (first == 255 ? 0 : 4), in.at, in.left);
    const uint8_t *s = copy_in(SECTION, bytes, n);
    uint32_t started = ASK(PDB_SECTION_START_OUT, pdb_section_start(s, n, out));
    HOLDS(started == (n < 4 ? 1 : memcmp(bytes, "\4\0\0\0", 4) != 0 ? 25 : 0), started, n);
    uint64_t at = out[PDB_SECTION_START_AT], index = out[PDB_SECTION_START_INDEX];
    uint32_t counted = ASK(PDB_SECTION_COUNT_OUT, pdb_section_count(s, n, out));
    uint64_t count = out[PDB_SECTION_COUNT_RECORDS];
    uint8_t *buffer = lend(BUFFER, n + HIGHER + 3, NULL);
    uint32_t number = ASK(PDB_SECTION_STREAM_OUT, pdb_section_stream(s, n, buffer, n + HIGHER + 3, out));
    HOLDS(number == counted, number, counted);
    if (number != 0) {
        lend_none();
        if (started != 0)
            HOLDS(number == started, number, started);
        else {
            Walk w;
            walk_from(&w, 0, s, n, (size_t)at, (uint32_t)index);
            HOLDS(w.number == counted, w.number, counted);
        }
        HOLDS(index_of(true, s, n, shift, places, said) == counted, counted, n);
        return 0;
    }
    HOLDS(started == 0 && at == 4 && index == 4096, started, at);
    HOLDS(out[PDB_SECTION_STREAM_BYTES] == n + HIGHER, out[PDB_SECTION_STREAM_BYTES], n);
    wrote(BUFFER, 0, n + HIGHER, "the stream alone is written");
    HOLDS(memcmp(buffer + 56, s + 4, n - 4) == 0, n, count);
    memcpy(bytes, buffer, n + HIGHER);
    buffer = lend(BUFFER, n + HIGHER - 1, NULL);
    HOLDS(ASK(PDB_SECTION_STREAM_OUT, pdb_section_stream(s, n, buffer, n + HIGHER - 1, out)) == 19, n, count);
    lend_none();
    const uint8_t *made = copy_in(STREAM, bytes, n + HIGHER);
    Walk from, to;
    walk_from(&from, 0, s, n, 4, 4096);
    HOLDS(walk(&to, 1, made, n + HIGHER) == 0, n, count);
    HOLDS(from.number == 0 && to.number == 0 && from.count == count && to.count == count, from.count, to.count);
    HOLDS(to.minimum == 4096 && to.maximum == 4096 + count, to.minimum, to.maximum);
    HOLDS(from.end == n && to.end == n + HIGHER, from.end, to.end);
    records(&from, &to);
    HOLDS(index_of(true, s, n, shift, places, said) == 0 && index_of(false, made, n + HIGHER, shift, made_places, made_said) == 0, n, count);
    for (size_t i = 2; i < PDB_INDEX_OUT; i++)
        HOLDS(said[i] + (i == PDB_INDEX_AT ? HIGHER : 0) == made_said[i], said[i], made_said[i]);
    for (size_t i = 0; i < said[PDB_INDEX_HELD]; i++)
        HOLDS(places[i] + HIGHER == made_places[i], places[i], made_places[i]);
    lookups(&from, places, said);
    lookups(&to, made_places, made_said);
    return 0;
}
