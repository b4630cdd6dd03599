/* Says whether a raw type stream of any size is fit to bind, and writes the stream of what some of its types reach. of document 02.
 *
 *     fit STREAM                        prints `fit`, or `not fit: record R, rule N`
 *     fit STREAM INTO [INDEX..]         writes the records that these indices reach into the file INTO, and prints for each index its new one
 *
 * Exit status: 0; 1 if the stream is refused or not fit, or the dropping is refused, which is said on standard error; 2 for bad usage or a file that cannot be
 * read or written.
 */
#include "stream.h"

static const char *const rules[] = {"", "count", "decode", "order", "primitive", "gap"};

static int fit(const char *path, const struct stream *s)
{
    uint64_t out[PDB_FIT_OUT];
    uint32_t number = pdb_fit(s->bytes, s->length, out);
    if (number != 0)
        return refused(stderr, path, number, out);
    if (out[PDB_FIT_YES] == 1) {
        puts("fit");
        return 0;
    }
    printf("not fit: record %" PRIu64 ", rule %" PRIu64 " (%s)\n", out[PDB_FIT_RECORD], out[PDB_FIT_RULE], rules[out[PDB_FIT_RULE]]);
    return 1;
}

/* The words as decimal numbers. 0, or -1 where one is none. */
static int numbers_of(char **words, size_t count, uint32_t *numbers)
{
    for (size_t i = 0; i < count; i++)
        if (number_of(words[i], 4294967295u, &numbers[i]) != 0)
            return -1;
    return 0;
}

/* Writes the new stream, and prints the roots' new indices. 0, or 2 where it cannot be written. */
static int show(const struct stream *s, const char *into, const uint8_t *buffer, size_t length, const uint32_t *table, const uint32_t *roots, size_t count)
{
    FILE *file = fopen(into, "wb");
    int whole = file != NULL && fwrite(buffer, 1, length, file) == length;
    if (file != NULL && fclose(file) != 0)
        whole = 0;
    if (!whole) {
        perror(into);
        return 2;
    }
    for (size_t i = 0; i < count; i++)
        printf("%" PRIu32 " %" PRIu32 "\n", roots[i], roots[i] < s->minimum ? roots[i] : table[roots[i] - s->minimum]);
    return 0;
}

static int drop(const char *path, const struct stream *s, const char *into, const uint32_t *roots, size_t count)
{
    uint64_t out[PDB_DROP_OUT];
    size_t room = (size_t)(s->maximum - s->minimum);
    uint32_t *table = array(room, sizeof *table);
    uint8_t *buffer = array(s->length, 1);
    uint32_t number = pdb_drop(s->bytes, s->length, roots, count, table, room, buffer, s->length, out);
    int status = number != 0 ? refused(stderr, path, number, out) : show(s, into, buffer, (size_t)out[PDB_DROP_BYTES], table, roots, count);
    free(buffer);
    free(table);
    return status;
}

int main(int argc, char **argv)
{
    struct stream s = {0};
    int status;
    if (argc < 2) {
        fputs("usage: fit STREAM [INTO [INDEX..]]\n", stderr);
        return 2;
    }
    status = open_stream(argv[1], &s);
    if (status != 0)
        return status;
    if (argc == 2)
        return fit(argv[1], &s);
    size_t count = (size_t)argc - 3;
    uint32_t *roots = array(count, sizeof *roots);
    if (numbers_of(argv + 3, count, roots) != 0) {
        fputs("fit: an index is a decimal number up to 4294967295\n", stderr);
        status = 2;
    } else {
        status = drop(argv[1], &s, argv[2], roots, count);
    }
    free(roots);
    return status;
}
