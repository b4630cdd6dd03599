/* Pages through a raw type or id stream of any size: maps the file, or reads what cannot be mapped, such as a pipe; walks it, fills a finder for each
 * shift, looks every index up once, and prints the links passed beside the formula of document 02's R-14.
 *
 *     page STREAM
 *
 * Exit status: 0; 1 if the stream is refused, or the links passed are not the formula's; 2 for bad usage or a file that cannot be read.
 */
#include "stream.h"

struct finder {
    uint32_t *table;
    size_t room, held;
    uint32_t shift;
};

/* Walks the stream; where f is given, updates it at the fresh cursor and behind each record. Gives how many records there were, and in *end why it stopped:
 * 0 for done, else a number. */
static uint64_t walk(const struct stream *s, struct finder *f, uint32_t *end)
{
    uint64_t records = 0, out[PDB_NEXT_OUT], held[PDB_UPDATE_OUT];
    size_t at = s->start;
    uint32_t index = s->minimum;
    for (;;) {
        if (f != NULL) {
            *end = pdb_update(f->table, f->room, s->minimum, s->maximum, f->held, f->shift, at, index, held);
            if (*end != 0)
                return records;
            f->held = (size_t)held[PDB_UPDATE_HELD];
        }
        *end = pdb_next(s->bytes, s->length, at, index, out);
        if (*end != 0 || out[PDB_NEXT_IS_ITEM] == 0)
            return records;
        at = (size_t)out[PDB_NEXT_AT];
        index = (uint32_t)out[PDB_NEXT_NEXT_INDEX];
        records++;
    }
}

/* Looks up c indices from the minimum upward. Gives the links passed, and in *found how many were found. */
static uint64_t page(const struct stream *s, const struct finder *f, uint64_t c, uint64_t *found)
{
    uint64_t passed = 0, out[PDB_FIND_OUT];
    *found = 0;
    for (uint64_t d = 0; d < c; d++) {
        uint32_t index = (uint32_t)(s->minimum + d);
        if (pdb_find(s->bytes, s->length, f->table, f->room, s->minimum, s->maximum, f->held, f->shift, index, out) == 0) {
            passed += out[PDB_FIND_PASSED];
            ++*found;
        }
    }
    return passed;
}

/* q b(b-1)/2 + r(r-1)/2 */
static uint64_t formula(uint64_t c, uint32_t shift)
{
    uint64_t b = (uint64_t)1 << shift, q = c / b, r = c % b;
    return q * (b * (b - 1) / 2) + (r == 0 ? 0 : r * (r - 1) / 2);
}

int main(int argc, char **argv)
{
    struct stream s = {0};
    uint64_t header[PDB_HEADER_OUT];
    uint32_t number;
    if (argc != 2) {
        fputs("usage: page STREAM\n", stderr);
        return 2;
    }
    if (map(argv[1], &s) != 0) {
        perror(argv[1]);
        return 2;
    }
    number = pdb_header(s.bytes, s.length, header);
    if (number != 0)
        return refused(stdout, "header", number, header);
    s.minimum = (uint32_t)header[PDB_HEADER_MINIMUM];
    s.maximum = (uint32_t)header[PDB_HEADER_MAXIMUM];
    s.start = (size_t)header[PDB_HEADER_SIZE];
    uint64_t count = header[PDB_HEADER_COUNT];
    uint64_t records = walk(&s, NULL, &number);
    printf("%zu bytes, indices %" PRIu32 " to %" PRIu32 ", %" PRIu64 " counted; walked %" PRIu64 " records, ended by %" PRIu32 "\n", s.length, s.minimum,
           s.maximum, count, records, number);
    for (uint32_t shift = 0; shift <= 6; shift++) {
        struct finder f = {.room = (size_t)(records >> shift) + 1, .shift = shift};
        f.table = array(f.room, sizeof *f.table);
        if (count > 0)
            walk(&s, &f, &number);
        uint64_t c = count < records ? count : records, found, passed = page(&s, &f, c, &found);
        printf("shift %" PRIu32 ": %zu places, %" PRIu64 " of %" PRIu64 " found, %" PRIu64 " links passed, by the formula %" PRIu64 "\n", shift, f.held, found,
               c, passed, formula(c, shift));
        free(f.table);
        if (found != c || passed != formula(c, shift)) {
            puts("these are not alike");
            return 1;
        }
    }
    return 0;
}
