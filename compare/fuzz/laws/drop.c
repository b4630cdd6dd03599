/* pdb_drop: what it writes is a fit stream of the records that were kept, and to drop again from all of its records, or from where the roots went, changes
 * nothing. First byte: how many roots; then two bytes for each, above the minimum; the rest is the stream. */
#include "law.h"

enum { STREAM, ROOTS, TABLE, BUFFER, MADE, SECOND };

static uint32_t drop(const uint8_t *s, size_t n, const uint32_t *roots, size_t roots_len, uint32_t *table, size_t count, uint8_t *buffer, size_t room)
{
    return ASK(PDB_DROP_OUT, pdb_drop(s, n, roots, roots_len, table, count, buffer, room, out));
}

int LLVMFuzzerTestOneInput(const uint8_t *data, size_t size)
{
    static uint8_t bytes[MOST];
    static uint32_t to[MOST / 4], mapped[MOST / 4];
    uint32_t given[16];
    Input in = {data, size};
    size_t roots_len = take(&in) % 16;
    for (size_t i = 0; i < roots_len; i++) {
        given[i] = take(&in);
        given[i] |= (uint32_t)take(&in) << 8;
    }
    if (in.left > 100000)
        return 0;
    lend_none();
    size_t n = in.left, entries = n / 4 + 2;
    const uint8_t *s = copy_in(STREAM, in.at, n);
    Walk w, made;
    uint32_t header = walk(&w, 0, s, n);
    for (size_t i = 0; i < roots_len; i++)
        given[i] = given[i] >= 0xf000 ? given[i] - 0xf000 : w.minimum + given[i] % ((uint32_t)w.count + 1);
    const uint32_t *roots = (const uint32_t *)(const void *)copy_in(ROOTS, given, 4 * roots_len);
    uint32_t fit = ASK(PDB_FIT_OUT, pdb_fit(s, n, out));
    bool yes = fit == 0 && out[PDB_FIT_YES] == 1;
    uint32_t *table = lend(TABLE, 4 * entries, NULL);
    uint8_t *buffer = lend(BUFFER, n, NULL);
    may_write(TABLE);
    uint32_t number = drop(s, n, roots, roots_len, table, entries, buffer, n);
    outcome(number, fit, yes);
    size_t count = yes ? w.count : 0;
    if (number != 0)
        wrote(TABLE, 0, number == 30 || number == 19 ? 4 * count : 0, "the table after a refusal");
    if (!yes) {
        HOLDS(number == (header != 0 ? header : 29), number, header);
        return 0;
    }
    /* as long as the stream is always enough */
    HOLDS(number == 0 || number == 8 || number == 30, number, count);
    if (number != 0)
        return 0;
    size_t length = (size_t)out[PDB_DROP_BYTES];
    wrote(TABLE, 0, 4 * count, "an entry for each record");
    wrote(BUFFER, 0, length, "the stream alone is written");
    HOLDS(length <= n, length, n);
    memcpy(bytes, buffer, length);
    memcpy(to, table, 4 * count);
    if (length > 0) {
        buffer = lend(BUFFER, length - 1, NULL);
        HOLDS(drop(s, n, roots, roots_len, table, entries, buffer, length - 1) == 19, length, n);
        buffer = lend(BUFFER, length, NULL);
        HOLDS(drop(s, n, roots, roots_len, table, entries, buffer, length) == 0, length, n);
        HOLDS(memcmp(buffer, bytes, length) == 0, length, n);
    }
    if (count > 0) {
        table = lend(TABLE, 4 * (count - 1), NULL);
        HOLDS(drop(s, n, roots, roots_len, table, count - 1, buffer, length) == 13, count, n);
    }
    lend_none();
    const uint8_t *m = copy_in(MADE, bytes, length);
    HOLDS(ASK(PDB_FIT_OUT, pdb_fit(m, length, out)) == 0 && out[PDB_FIT_YES] == 1, out[PDB_FIT_RECORD], out[PDB_FIT_RULE]);
    HOLDS(walk(&made, 1, m, length) == 0 && made.number == 0, made.number, made.count);
    size_t kept = 0;
    for (size_t i = 0; i < count; i++) {
        if (to[i] == 0)
            continue;
        HOLDS(to[i] == w.minimum + kept && kept < made.count, to[i], kept);
        Item a = w.items[i], b = made.items[kept++];
        HOLDS(a.length == b.length && memcmp(s + a.place, m + b.place, 2) == 0, a.length, b.length);
    }
    HOLDS(kept == made.count && made.minimum == w.minimum && made.maximum == w.minimum + kept, kept, made.count);
    for (size_t i = 0; i < roots_len; i++)
        HOLDS(given[i] < w.minimum || to[given[i] - w.minimum] != 0, given[i], i);
    /* again: from where the roots went, and from every record */
    for (unsigned all = 0; all < 2; all++) {
        size_t many = 0;
        if (all)
            for (; many < kept; many++)
                mapped[many] = w.minimum + (uint32_t)many;
        else
            for (; many < roots_len; many++)
                mapped[many] = given[many] < w.minimum ? given[many] : to[given[many] - w.minimum];
        roots = (const uint32_t *)(const void *)copy_in(ROOTS, mapped, 4 * many);
        table = lend(TABLE, 4 * kept, NULL);
        buffer = lend(BUFFER, length, NULL);
        may_write(TABLE);
        HOLDS(drop(m, length, roots, many, table, kept, buffer, length) == 0, kept, length);
        HOLDS(out[PDB_DROP_BYTES] == length && memcmp(buffer, bytes, length) == 0, out[PDB_DROP_BYTES], length);
        for (size_t i = 0; i < kept; i++)
            HOLDS(table[i] == w.minimum + i, table[i], i);
        lend_none();
    }
    return 0;
}
