/* The ways to walk and to look up agree: pdb_index, pdb_create with pdb_next and pdb_update, pdb_find, pdb_view, pdb_kind and pdb_parse. First byte: the shift;
 * second: how long the table is, 255 for long enough; third: by how much an index is asked past the records; the rest is the stream. */
#include "law.h"

enum { STREAM, TABLE, KEPT, NONE };

static uint32_t places[MOST / 4], updated[MOST / 4];

/* By pdb_create, then an update for each cursor: as long as the table has room. Gives the places held. */
static size_t by_hand(const Walk *w, uint32_t shift, size_t room, size_t *stopped)
{
    uint32_t *table = lend(TABLE, 4 * room, NULL);
    uint32_t number = ASK(PDB_CREATE_OUT, pdb_create(w->s, w->n, table, room, shift, out));
    HOLDS(number == 0, number, room);
    size_t held = (size_t)out[PDB_CREATE_HELD];
    HOLDS(out[PDB_CREATE_MINIMUM] == w->minimum && out[PDB_CREATE_MAXIMUM] == w->maximum && out[PDB_CREATE_SHIFT] == shift, held, shift);
    wrote(TABLE, 0, 4 * held, "the first place alone is written");
    memset(updated, 0x33, 4 * room);
    memcpy(updated, table, 4 * held);
    *stopped = w->count;
    for (size_t i = 0; i < w->count; i++) {
        size_t at = w->items[i].place + w->items[i].length;
        table = lend(TABLE, 4 * room, updated);
        number = ASK(PDB_UPDATE_OUT, pdb_update(table, room, w->minimum, w->maximum, held, shift, at, w->items[i].index + 1, out));
        if (number != 0) {
            HOLDS(number == 13, number, i);
            *stopped = i;
            break;
        }
        HOLDS(out[PDB_UPDATE_HELD] == held || (out[PDB_UPDATE_HELD] == held + 1 && (i + 1) % ((size_t)1 << shift) == 0), out[PDB_UPDATE_HELD], held);
        held = (size_t)out[PDB_UPDATE_HELD];
        memcpy(updated, table, 4 * room);
    }
    lend_none();
    return held;
}

static void look_up(const Walk *w, uint32_t shift, size_t held, uint32_t past)
{
    const uint32_t *table = (const uint32_t *)(const void *)copy_in(KEPT, places, 4 * held);
    const uint8_t *none = copy_in(NONE, "", 0);
    uint32_t highest = pdb_max_index(w->minimum, w->maximum, held, shift);
    uint64_t read[PDB_PARSE_OUT];
    for (size_t i = 0; i < w->count; i++) {
        Item item = w->items[i];
        uint32_t number = ASK(PDB_FIND_OUT, pdb_find(w->s, w->n, table, held, w->minimum, w->maximum, held, shift, item.index, out));
        if (item.index > w->maximum)
            HOLDS(number == 8 && out[0] == item.index, number, item.index);
        else if (i >> shift >= held)
            HOLDS(number == 9 && out[0] == item.index && out[1] == highest, number, item.index);
        else {
            HOLDS(number == 0 && out[PDB_FIND_IS_RECORD] == 1 && out[PDB_FIND_PLACE] == item.place && out[PDB_FIND_LENGTH] == item.length, number, i);
            HOLDS(out[PDB_FIND_PASSED] == (i & (((size_t)1 << shift) - 1)) && item.index <= highest, out[PDB_FIND_PASSED], highest);
        }
        for (uint32_t ids = 0; ids < 2; ids++) {
            const uint8_t *tpi = ids ? none : w->s, *ipi = ids ? w->s : none;
            size_t tpi_len = ids ? 0 : w->n, ipi_len = ids ? w->n : 0;
            HOLDS(ASK(PDB_VIEW_OUT, pdb_view(tpi, tpi_len, ipi, ipi_len, ids, 1, item.index, item.place, item.length, out)) == 0, i, ids);
            HOLDS(out[PDB_VIEW_PLACE] == item.place && out[PDB_VIEW_LENGTH] == item.length, out[PDB_VIEW_PLACE], i);
            HOLDS(ASK(PDB_KIND_OUT, pdb_kind(tpi, tpi_len, ipi, ipi_len, ids, 1, item.index, item.place, item.length, out)) == 0, i, ids);
            uint64_t leaf = out[PDB_KIND_LEAF];
            HOLDS(leaf == (uint64_t)(w->s[item.place] | w->s[item.place + 1] << 8), leaf, i);
            uint32_t parsed = ASK(PDB_PARSE_OUT, pdb_parse(tpi, tpi_len, ipi, ipi_len, ids, 1, item.index, item.place, item.length, out));
            memcpy(read, out, sizeof read);
            uint32_t plain = ids ? ASK(PDB_ID_OUT, pdb_id(w->s + item.place, item.length, out)) : ASK(PDB_TYPE_OUT, pdb_type(w->s + item.place, item.length, out));
            HOLDS(parsed == plain && memcmp(read, out, 16) == 0, parsed, plain);
            HOLDS(plain != 0 || (read[PDB_PARSE_WHICH] == ids && memcmp(read + PDB_PARSE_LEAF, out + 2, 8 * (ids ? PDB_ID_OUT - 2 : PDB_TYPE_OUT - 2)) == 0), i, leaf);
            if (plain == 0 && (leaf == 0x1201 || leaf == 0x1203 || leaf == 0x1206 || leaf == 0x1603 || leaf == 0x1604))
                outcome(leaf, list_end(w->s + item.place, item.length, ids), 6);
            outcome(leaf, plain, ids);
        }
    }
    uint32_t index = past > 200 ? w->minimum - (past - 200) : w->minimum + (uint32_t)w->count + past;
    uint32_t number = ASK(PDB_FIND_OUT, pdb_find(w->s, w->n, table, held, w->minimum, w->maximum, held, shift, index, out));
    if (index < w->minimum)
        HOLDS(number == 0 && out[PDB_FIND_IS_RECORD] == 0 && out[PDB_FIND_LENGTH] == 2, number, index);
    else if (index > w->maximum)
        HOLDS(number == 8, number, index);
    outcome(number, 4, 4);
}

int LLVMFuzzerTestOneInput(const uint8_t *data, size_t size)
{
    Walk w;
    Input in = {data, size};
    uint32_t shift = take(&in) % 8u;
    size_t room = take(&in);
    uint8_t past = take(&in);
    if (in.left > 100000)
        return 0;
    if (room == 255)
        room = in.left / 2 + 2;
    lend_none();
    const uint8_t *s = copy_in(STREAM, in.at, in.left);
    uint32_t *table = lend(TABLE, 4 * room, NULL);
    uint32_t number = ASK(PDB_INDEX_OUT, pdb_index(s, in.left, table, room, shift, out));
    uint64_t said[PDB_INDEX_OUT];
    memcpy(said, out, sizeof said);
    size_t held = (size_t)said[PDB_INDEX_HELD];
    if (number == 0) {
        wrote(TABLE, 0, 4 * held, "the places alone are written");
        memcpy(places, table, 4 * held);
    }
    lend_none();
    uint32_t header = walk(&w, 0, s, in.left);
    bool counts = w.minimum != w.maximum;
    HOLDS(number == (header != 0 ? header : shift > 6 ? 26 : counts && room == 0 ? 13 : 0), number, header);
    if (number != 0)
        return 0;
    HOLDS(said[PDB_INDEX_MINIMUM] == w.minimum && said[PDB_INDEX_MAXIMUM] == w.maximum && said[PDB_INDEX_SHIFT] == shift, w.minimum, w.maximum);
    size_t stopped, other = by_hand(&w, shift, room, &stopped);
    HOLDS(held == other && memcmp(places, updated, 4 * held) == 0, held, other);
    HOLDS(said[PDB_INDEX_END] == (stopped < w.count ? 13 : w.number), said[PDB_INDEX_END], w.number);
    HOLDS(said[PDB_INDEX_NEXT_INDEX] == w.minimum + (uint64_t)stopped, said[PDB_INDEX_NEXT_INDEX], stopped);
    HOLDS(said[PDB_INDEX_AT] == (stopped == 0 ? w.start : w.items[stopped - 1].place + w.items[stopped - 1].length), said[PDB_INDEX_AT], stopped);
    look_up(&w, shift, held, past);
    return 0;
}
