/* load(save(f)): a stream's places kept in a file and loaded again are the same, by both forms; a file that was changed is refused, or keeps places of the
 * stream all the same. First byte: the shift; second: how many places are kept (all, or fewer); then four bytes: what is changed in the file, and how. */
#include "law.h"

enum { STREAM, TABLE, FILE_, KEPT, LOADED };

typedef struct {
    uint32_t minimum, maximum, shift;
    size_t held;
} Finder;

static uint32_t load(bool brief, const uint8_t *s, size_t n, const uint8_t *file, size_t length, uint32_t *table, size_t room)
{
    return brief ? ASK(PDB_LOAD_OUT, pdb_load_short(s, n, file, length, table, room, out)) : ASK(PDB_LOAD_OUT, pdb_load(s, n, file, length, table, room, out));
}

/* A file that is taken names places of this stream: those that a walk at its shift has. */
static void true_places(const uint8_t *s, size_t n, const uint8_t *file, size_t length)
{
    static uint32_t loaded[MOST / 4];
    size_t room = length / 4 + 1;
    uint32_t *table = lend(LOADED, 4 * room, NULL);
    uint32_t number = load(false, s, n, file, length, table, room);
    outcome(number, 5, 5);
    if (number != 0)
        return;
    Finder f = {(uint32_t)out[PDB_LOAD_MINIMUM], (uint32_t)out[PDB_LOAD_MAXIMUM], (uint32_t)out[PDB_LOAD_SHIFT], (size_t)out[PDB_LOAD_HELD]};
    wrote(LOADED, 0, 4 * f.held, "the places alone are loaded");
    memcpy(loaded, table, 4 * f.held);
    lend_none();
    /* the chain of links, which passes records of any length */
    uint32_t header = ASK(PDB_HEADER_OUT, pdb_header(s, n, out));
    HOLDS(header == 0, header, 0);
    HOLDS(f.minimum == out[PDB_HEADER_MINIMUM] && f.maximum == out[PDB_HEADER_MAXIMUM] && f.shift <= 6, f.minimum, f.maximum);
    size_t at = (size_t)out[PDB_HEADER_SIZE];
    for (size_t i = 0; i < f.held; i++) {
        HOLDS(loaded[i] == at && at <= n, loaded[i], at);
        for (size_t k = 0; i + 1 < f.held && k < (size_t)1 << f.shift; k++) {
            HOLDS(at + 2 <= n, at, n);
            at += 2 + (size_t)(s[at] | s[at + 1] << 8);
        }
    }
}

int LLVMFuzzerTestOneInput(const uint8_t *data, size_t size)
{
    static uint8_t file[MOST];
    static uint32_t places[MOST / 4];
    Input in = {data, size};
    uint32_t shift = take(&in) % 8;
    uint8_t fewer = take(&in);
    size_t where = take(&in);
    where |= (size_t)take(&in) << 8;
    uint8_t how = take(&in), with = take(&in);
    if (in.left > 200000)
        return 0;
    lend_none();
    const uint8_t *s = copy_in(STREAM, in.at, in.left);
    size_t n = in.left, room = n / 2 + 2;
    uint32_t *table = lend(TABLE, 4 * room, NULL);
    uint32_t number = ASK(PDB_INDEX_OUT, pdb_index(s, n, table, room, shift, out));
    if (number != 0)
        return 0;
    Finder f = {(uint32_t)out[PDB_INDEX_MINIMUM], (uint32_t)out[PDB_INDEX_MAXIMUM], (uint32_t)out[PDB_INDEX_SHIFT], (size_t)out[PDB_INDEX_HELD]};
    wrote(TABLE, 0, 4 * f.held, "the places alone are written");
    memcpy(places, table, 4 * f.held);
    lend_none();
    if (fewer < 128 && f.held > 1)
        f.held = 1 + fewer % f.held;
    const uint32_t *kept = (const uint32_t *)(const void *)copy_in(KEPT, places, 4 * f.held);
    size_t most = 4 * f.held + 30;
    uint8_t *buffer = lend(FILE_, most, NULL);
    number = ASK(PDB_SAVE_OUT, pdb_save(s, n, kept, f.held, f.minimum, f.maximum, f.held, f.shift, buffer, most, out));
    HOLDS(number == 0, number, f.held);
    size_t length = (size_t)out[PDB_SAVE_BYTES];
    HOLDS(length == 4 * f.held + (f.held < 65536 ? 28 : 30), length, f.held);
    wrote(FILE_, 0, length, "the file alone is written");
    memcpy(file, buffer, length);
    buffer = lend(FILE_, length - 1, NULL);
    HOLDS(ASK(PDB_SAVE_OUT, pdb_save(s, n, kept, f.held, f.minimum, f.maximum, f.held, f.shift, buffer, length - 1, out)) == 19, length, f.held);
    buffer = lend(FILE_, length, NULL);
    number = ASK(PDB_SAVE_OUT, pdb_save_short(s, n, kept, f.held, f.minimum, f.maximum, f.held, f.shift, buffer, length, out));
    HOLDS(number == (f.held < 65536 ? 0 : 13), number, f.held);
    HOLDS(number != 0 || memcmp(buffer, file, length) == 0, length, f.held);
    lend_none();
    const uint8_t *given = copy_in(FILE_, file, length);
    for (unsigned brief = 0; brief < 2; brief++) {
        uint32_t *loaded = lend(LOADED, 4 * f.held + 4, NULL);
        number = load(brief, s, n, given, length, loaded, f.held + 1);
        /* a finder without a place is no file of a stream that counts records, and is the file of one that counts none */
        if (f.held == 0 && f.minimum != f.maximum)
            HOLDS(number == 20, number, f.held);
        else if (brief && f.held >= 65536)
            HOLDS(number == 20, number, f.held);
        else {
            HOLDS(number == 0, number, f.held);
            HOLDS(out[PDB_LOAD_MINIMUM] == f.minimum && out[PDB_LOAD_MAXIMUM] == f.maximum, f.minimum, f.maximum);
            HOLDS(out[PDB_LOAD_HELD] == f.held && out[PDB_LOAD_SHIFT] == f.shift, out[PDB_LOAD_HELD], out[PDB_LOAD_SHIFT]);
            wrote(LOADED, 0, 4 * f.held, "the places alone are loaded");
            HOLDS(memcmp(loaded, places, 4 * f.held) == 0, f.held, f.shift);
            if (f.held > 0) {
                loaded = lend(LOADED, 4 * (f.held - 1), NULL);
                HOLDS(load(brief, s, n, given, length, loaded, f.held - 1) == 13, f.held, brief);
            }
        }
        lend_none();
    }
    switch (how % 3) {
    case 0:
        file[where % length] ^= with;
        break;
    case 1:
        length = where % (length + 1);
        break;
    default:
        memmove(file + where % length, file + where % length + (with % 8), length - where % length > with % 8 ? length - where % length - with % 8 : 0);
        length -= with % 8u < length ? with % 8u : 0;
    }
    given = copy_in(FILE_, file, length);
    true_places(s, n, given, length);
    return 0;
}
