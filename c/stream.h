/* What the C programs of this folder share: a raw type or id stream of any size, mapped, or read where it cannot be mapped, such as a pipe; memory; a
 * refusal's line; a number of the command line. */
#ifndef STREAM_H
#define STREAM_H

#define _DEFAULT_SOURCE
#include <fcntl.h>
#include <inttypes.h>
#include <stdio.h>
#include <stdlib.h>
#include <string.h>
#include <sys/mman.h>
#include <sys/stat.h>
#include <unistd.h>

#include "pdb.h"

struct stream {
    const uint8_t *bytes;
    size_t length;
    uint32_t minimum, maximum;
    size_t start; /* where the first record is */
};

/* An array of n elements, never of none: a pointer that is lent is non-null. */
static void *array(size_t n, size_t size)
{
    void *p = calloc(n == 0 ? 1 : n, size);
    if (p == NULL) {
        fputs("no memory\n", stderr);
        exit(2);
    }
    return p;
}

/* All bytes up to the end of what is no regular file. 0, or -1 where a read fails. */
static int slurp(int file, struct stream *s)
{
    static uint8_t *bytes;
    size_t room = 65536;
    ssize_t got;
    bytes = array(room, 1);
    while ((got = read(file, bytes + s->length, room - s->length)) > 0) {
        s->length += (size_t)got;
        if (s->length == room) {
            uint8_t *longer = array(2 * room, 1);
            memcpy(longer, bytes, room);
            free(bytes);
            bytes = longer;
            room *= 2;
        }
    }
    s->bytes = bytes;
    return got < 0 ? -1 : 0;
}

static int map(const char *path, struct stream *s)
{
    static const uint8_t none[1];
    struct stat about;
    int file = open(path, O_RDONLY);
    if (file < 0 || fstat(file, &about) != 0)
        return -1;
    if (!S_ISREG(about.st_mode))
        return slurp(file, s) != 0 ? -1 : close(file);
    s->length = (size_t)about.st_size;
    s->bytes = none;
    if (s->length > 0) {
        void *p = mmap(NULL, s->length, PROT_READ, MAP_PRIVATE, file, 0);
        if (p == MAP_FAILED)
            return -1;
        s->bytes = p;
    }
    return close(file);
}

/* A refusal's number and details in a line; gives the exit status for it. */
static int refused(FILE *to, const char *what, uint32_t number, const uint64_t *out)
{
    fprintf(to, "%s: refused by %" PRIu32 ", details %" PRIu64 " %" PRIu64 "\n", what, number, out[PDB_DETAIL_0], out[PDB_DETAIL_1]);
    return 1;
}

/* A decimal number of at most `most`. 0, or -1 where it is none. */
static inline int number_of(const char *word, uint64_t most, uint32_t *n)
{
    char *end;
    unsigned long long value;
    if (*word < '0' || *word > '9')
        return -1;
    value = strtoull(word, &end, 10);
    if (*end != '\0' || value > most)
        return -1;
    *n = (uint32_t)value;
    return 0;
}

/* Opens a stream and reads its header. 0, or the exit status. */
static inline int open_stream(const char *path, struct stream *s)
{
    uint64_t header[PDB_HEADER_OUT];
    uint32_t number;
    if (map(path, s) != 0) {
        perror(path);
        return 2;
    }
    number = pdb_header(s->bytes, s->length, header);
    if (number != 0)
        return refused(stderr, path, number, header);
    s->minimum = (uint32_t)header[PDB_HEADER_MINIMUM];
    s->maximum = (uint32_t)header[PDB_HEADER_MAXIMUM];
    s->start = (size_t)header[PDB_HEADER_SIZE];
    return 0;
}

#endif
