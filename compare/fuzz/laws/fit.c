/* pdb_fit: its yes means that everything reads, that every lookup finds, and that what a record names stands before it; its no names the lowest record at fault
 * and the first rule that it breaks, as worked out here from the answers of the readers. The input is the stream. */
#include "law.h"

enum { STREAM, TABLE, KEPT };

static struct {
    uint32_t index, minimum;
    bool later, primitive, gap;
} faults;

static void name(uint64_t type)
{
    uint64_t ignored[PDB_PRIMITIVE_OUT];
    if (type >= faults.minimum && type >= faults.index)
        faults.later = true;
    if (type < 4096 && pdb_primitive((uint32_t)type, ignored) != 0)
        faults.primitive = true;
    if (4096 <= type && type < faults.minimum)
        faults.gap = true;
}

/* The types that an element or a record names, by its layout. */
static void names_of_row(uint64_t layout, const uint64_t *row)
{
    for (size_t k = 0; layout != 0; layout /= 32) {
        switch (layout % 32) {
        case PDB_CODE_GAP:
            break;
        case PDB_CODE_TYPE:
            name(row[k++]);
            break;
        case PDB_CODE_STRING:
        case PDB_CODE_NUMERIC:
        case PDB_CODE_OFFSET:
            k += 2;
            break;
        default:
            k++;
        }
    }
}

/* Whether a record reads, with all its elements; `faults` gets what it names. */
static bool reads(const uint8_t *s, size_t n)
{
    static uint64_t rows[20000][PDB_ROW];
    uint64_t cells[PDB_CELLS], said[PDB_CELLS_OUT];
    size_t count;
    if (pdb_cells(s, n, 0, cells, said) != 0)
        return false;
    uint16_t leaf = (uint16_t)said[PDB_CELLS_LEAF];
    outcome(leaf, 1, 1);
    if (leaf == 0x1203 || leaf == 0x1206) {
        if (rows_of(s, n, leaf, rows, 20000, &count) != 15)
            return false;
        for (size_t i = 0; i < count; i++)
            if (leaf == 0x1203)
                names_of_row(pdb_layout(PDB_LAYOUT_MEMBERS, (uint16_t)rows[i][0]), rows[i] + 1);
            else
                names_of_row(pdb_layout(PDB_LAYOUT_METHODS, 0), rows[i]);
        return true;
    }
    uint64_t layout = pdb_layout(PDB_LAYOUT_TYPES, leaf);
    for (size_t k = 0; layout != 0; layout /= 32, k += 3) {
        uint64_t code = layout % 32;
        if (code == PDB_CODE_TYPE || ((code == PDB_CODE_OPTIONAL_TYPE || code == PDB_CODE_MEMBER_CLASS) && cells[k] == PDB_CELL_NUMBER))
            name(cells[k + 1]);
        if (code == PDB_CODE_TYPES)
            for (uint64_t at = cells[k + 1], end = at + cells[k + 2]; at < end; at += 4)
                name((uint32_t)s[at] | (uint32_t)s[at + 1] << 8 | (uint32_t)s[at + 2] << 16 | (uint32_t)s[at + 3] << 24);
    }
    return leaf != 0x1201 || list_end(s, n, 0) == 15;
}

static uint64_t rule_of(const Walk *w, size_t i)
{
    memset(&faults, 0, sizeof faults);
    faults.index = w->items[i].index;
    faults.minimum = w->minimum;
    if (!reads(w->s + w->items[i].place, w->items[i].length))
        return 2;
    return faults.later ? 3 : faults.primitive ? 4 : faults.gap ? 5 : 0;
}

static void every_lookup(const Walk *w)
{
    static uint32_t places[MOST / 4];
    for (uint32_t shift = 0; shift < 7; shift += 3) {
        size_t room = (w->count >> shift) + 1;
        uint32_t *lent = lend(TABLE, 4 * room, NULL);
        HOLDS(ASK(PDB_INDEX_OUT, pdb_index(w->s, w->n, lent, room, shift, out)) == 0 && out[PDB_INDEX_END] == 0, shift, w->count);
        size_t held = (size_t)out[PDB_INDEX_HELD];
        memcpy(places, lent, 4 * held);
        lend_none();
        const uint32_t *table = (const uint32_t *)(const void *)copy_in(KEPT, places, 4 * held);
        for (size_t i = 0; i < w->count; i++) {
            HOLDS(ASK(PDB_FIND_OUT, pdb_find(w->s, w->n, table, held, w->minimum, w->maximum, held, shift, w->items[i].index, out)) == 0, shift, i);
            HOLDS(out[PDB_FIND_PLACE] == w->items[i].place && out[PDB_FIND_LENGTH] == w->items[i].length, out[PDB_FIND_PLACE], i);
        }
    }
}

int LLVMFuzzerTestOneInput(const uint8_t *data, size_t size)
{
    Walk w;
    if (size > 100000)
        return 0;
    lend_none();
    const uint8_t *s = copy_in(STREAM, data, size);
    uint32_t number = ASK(PDB_FIT_OUT, pdb_fit(s, size, out));
    uint64_t yes = out[PDB_FIT_YES], record = out[PDB_FIT_RECORD], rule = out[PDB_FIT_RULE];
    uint32_t header = walk(&w, 0, s, size);
    HOLDS(number == header, number, header);
    if (number != 0)
        return 0;
    HOLDS(yes < 2 && (yes == 0 || (record == 0 && rule == 0)), yes, rule);
    uint64_t wanted = 0, at = 0;
    for (size_t i = 0; i < w.count && wanted == 0; i++) {
        wanted = rule_of(&w, i);
        at = wanted == 0 ? 0 : w.items[i].index;
    }
    if (wanted == 0 && w.number != 0) {
        wanted = 2;
        at = w.minimum + w.count;
    }
    if (wanted == 0 && w.count != w.maximum - w.minimum)
        wanted = 1;
    outcome(wanted, rule, 8);
    HOLDS(rule == wanted && record == at && yes == (wanted == 0), rule, wanted);
    if (yes == 1)
        every_lookup(&w);
    return 0;
}
