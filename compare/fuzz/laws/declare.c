/* pdb_declare with room n - 1, n and n + 1 of the text's length: the first is refused by 19, the others write the same text and nothing behind it. A type that
 * is refused for another reason is refused so, or by 19, in every room. First byte: the shift; second: the first index that is asked; the rest is the stream. */
#include "law.h"

enum { STREAM, TABLE, KEPT, BUFFER, LONG = 4096, ASKED = 24 };

static const uint8_t *s;
static const uint32_t *table;
static size_t n, held;
static uint32_t minimum, maximum, shift;

static uint32_t declare(uint32_t index, size_t room, uint8_t *text, size_t *length)
{
    uint8_t *buffer = lend(BUFFER, room, NULL);
    uint32_t number = ASK(PDB_DECLARE_OUT, pdb_declare(s, n, table, held, minimum, maximum, held, shift, index, buffer, room, out));
    if (number == 0) {
        *length = (size_t)out[PDB_DECLARE_BYTES];
        wrote(BUFFER, 0, *length, "the text alone is written");
        memcpy(text, buffer, *length);
    }
    lend_none();
    return number;
}

static void rooms(uint32_t index)
{
    static uint8_t text[LONG], again[LONG];
    size_t length = 0, second = 0;
    uint32_t number = declare(index, LONG, text, &length);
    outcome(number, length < 64 ? length : 64, 4);
    if (number != 0) {
        for (size_t room = 0; room < 64; room = 2 * room + 1) {
            uint32_t other = declare(index, room, again, &second);
            HOLDS(other == number || (other == 19 && number != 16), number, other);
        }
        return;
    }
    /* the text is a name, which may be empty */
    if (length > 0) {
        HOLDS(declare(index, length - 1, again, &second) == 19, index, length);
        HOLDS(declare(index, 0, again, &second) == 19, index, length);
    }
    for (size_t more = 0; more < 2 && length + more <= LONG; more++) {
        HOLDS(declare(index, length + more, again, &second) == 0, index, length);
        HOLDS(second == length && memcmp(text, again, length) == 0, length, second);
    }
}

int LLVMFuzzerTestOneInput(const uint8_t *data, size_t size)
{
    static uint32_t places[MOST / 4];
    Input in = {data, size};
    shift = take(&in) % 7u;
    uint32_t first = take(&in);
    if (in.left > 100000)
        return 0;
    lend_none();
    n = in.left;
    s = copy_in(STREAM, in.at, n);
    uint32_t *lent = lend(TABLE, 4 * (n / 2 + 2), NULL);
    if (ASK(PDB_INDEX_OUT, pdb_index(s, n, lent, n / 2 + 2, shift, out)) != 0)
        return 0;
    minimum = (uint32_t)out[PDB_INDEX_MINIMUM];
    maximum = (uint32_t)out[PDB_INDEX_MAXIMUM];
    held = (size_t)out[PDB_INDEX_HELD];
    uint32_t next = (uint32_t)out[PDB_INDEX_NEXT_INDEX];
    memcpy(places, lent, 4 * held);
    lend_none();
    table = (const uint32_t *)(const void *)copy_in(KEPT, places, 4 * held);
    uint32_t count = next - minimum, from = count > ASKED ? first * (count / 256 + 1) % count : 0;
    for (uint32_t i = 0; i < ASKED && from + i < count; i++)
        rooms(minimum + from + i);
    rooms(first << 4 | (first & 7));
    rooms(maximum);
    return 0;
}
