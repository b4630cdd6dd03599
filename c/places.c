/* Keeps the places of a raw type or id stream of any size in a file beside it, and looks records up by such a file. of document 02.
 *
 *     places keep STREAM FILE [SHIFT]     walks STREAM once, with a place for each 2^SHIFT records (SHIFT is 0 to 6, 3 if it is left out)
 *     places lookup STREAM FILE INDEX..   prints, of each index, the record's index, leaf and payload length, as the program list does
 *
 * Exit status: 0; 1 if the stream, the file or an index is refused, which is said on standard error; 2 for bad usage or a file that cannot be read or written.
 */
#include "stream.h"

static int usage(void)
{
    fputs("usage: places keep STREAM FILE [SHIFT]\n       places lookup STREAM FILE INDEX..\n", stderr);
    return 2;
}

/* Walks the stream with an update at each record. 0, or the exit status; `places` is how many the table holds. */
static int fill(const char *path, const struct stream *s, uint32_t shift, uint32_t *table, size_t room, size_t *places)
{
    uint64_t out[PDB_NEXT_OUT], held[PDB_UPDATE_OUT] = {0};
    size_t at = s->start;
    uint32_t number, index = s->minimum;
    *places = 0;
    while (s->minimum < s->maximum) {
        number = pdb_update(table, room, s->minimum, s->maximum, *places, shift, at, index, held);
        if (number != 0)
            return refused(stderr, path, number, held);
        *places = (size_t)held[PDB_UPDATE_HELD];
        number = pdb_next(s->bytes, s->length, at, index, out);
        if (number != 0)
            return refused(stderr, path, number, out);
        if (out[PDB_NEXT_IS_ITEM] == 0)
            break;
        at = (size_t)out[PDB_NEXT_AT];
        index = (uint32_t)out[PDB_NEXT_NEXT_INDEX];
    }
    return 0;
}

/* Writes the places of the table into a file. 0, or the exit status. */
static int save(const char *path, const struct stream *s, uint32_t shift, const uint32_t *table, size_t room, size_t places, const char *into)
{
    uint64_t saved[PDB_SAVE_OUT];
    size_t longest = 4 * places + 30;
    uint8_t *buffer = array(longest, 1);
    uint32_t number = pdb_save(s->bytes, s->length, table, room, s->minimum, s->maximum, places, shift, buffer, longest, saved);
    int status = 0;
    if (number != 0) {
        status = refused(stderr, path, number, saved);
    } else {
        FILE *file = fopen(into, "wb");
        size_t bytes = (size_t)saved[PDB_SAVE_BYTES];
        int whole = file != NULL && fwrite(buffer, 1, bytes, file) == bytes;
        if (file != NULL && fclose(file) != 0)
            whole = 0;
        if (!whole) {
            perror(into);
            status = 2;
        }
    }
    free(buffer);
    return status;
}

static int keep(const char *path, const char *into, uint32_t shift)
{
    struct stream s = {0};
    uint32_t *table;
    size_t room, places;
    int status = open_stream(path, &s);
    if (status != 0)
        return status;
    /* A record takes four bytes at least; one place more for the start of a block behind the last record. */
    room = (s.length / 4 >> shift) + 2;
    table = array(room, sizeof *table);
    status = fill(path, &s, shift, table, room, &places);
    if (status == 0)
        status = save(path, &s, shift, table, room, places, into);
    free(table);
    return status;
}

/* Prints the record of an index, or says why there is none. 0, or the exit status. */
static int print(const struct stream *s, const uint32_t *table, size_t room, const uint64_t *loaded, const char *word)
{
    uint64_t out[PDB_FIND_OUT];
    uint32_t number, index;
    if (number_of(word, 4294967295u, &index) != 0) {
        fprintf(stderr, "places: %s: an index is a decimal number up to 4294967295\n", word);
        return 2;
    }
    number = pdb_find(s->bytes, s->length, table, room, (uint32_t)loaded[PDB_LOAD_MINIMUM], (uint32_t)loaded[PDB_LOAD_MAXIMUM],
                      (size_t)loaded[PDB_LOAD_HELD], (uint32_t)loaded[PDB_LOAD_SHIFT], index, out);
    if (number != 0)
        return refused(stderr, word, number, out);
    if (out[PDB_FIND_IS_RECORD] == 0)
        printf("%" PRIu32 " ffff 2\n", index); /* the marker, below the stream's minimum */
    else if (out[PDB_FIND_LENGTH] < 2)
        printf("%" PRIu32 " ---- %" PRIu64 "\n", index, out[PDB_FIND_LENGTH]);
    else
        printf("%" PRIu32 " %02x%02x %" PRIu64 "\n", index, s->bytes[out[PDB_FIND_PLACE] + 1], s->bytes[out[PDB_FIND_PLACE]], out[PDB_FIND_LENGTH]);
    return 0;
}

static int lookup(const char *path, const char *from, char **words, int count)
{
    struct stream s = {0}, kept = {0};
    uint64_t loaded[PDB_LOAD_OUT];
    uint32_t number, *table;
    size_t room;
    int status = open_stream(path, &s);
    if (status != 0)
        return status;
    if (map(from, &kept) != 0) {
        perror(from);
        return 2;
    }
    room = kept.length / 4 + 1;
    table = array(room, sizeof *table);
    number = pdb_load(s.bytes, s.length, kept.bytes, kept.length, table, room, loaded);
    if (number != 0)
        status = refused(stderr, from, number, loaded);
    for (int i = 0; number == 0 && status != 2 && i < count; i++) {
        int one = print(&s, table, room, loaded, words[i]);
        if (one != 0)
            status = one;
    }
    free(table);
    return status;
}

int main(int argc, char **argv)
{
    uint32_t shift = 3;
    if (argc >= 4 && argc <= 5 && strcmp(argv[1], "keep") == 0) {
        if (argc == 5 && number_of(argv[4], 6, &shift) != 0)
            return usage();
        return keep(argv[2], argv[3], shift);
    }
    if (argc >= 5 && strcmp(argv[1], "lookup") == 0)
        return lookup(argv[2], argv[3], argv + 4, argc - 4);
    return usage();
}
