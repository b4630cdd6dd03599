/* How answers are written. */
#include <inttypes.h>
#include <stdio.h>
#include <string.h>

#include "replay.h"

void fill_out(uint64_t *out, size_t n)
{
    memset(out, 0xa5, n * sizeof *out);
}

void put(const char *text)
{
    fputs(text, stdout);
}

void put_number(uint64_t n)
{
    printf("%" PRIu64, n);
}

void field(const char *name, uint64_t n)
{
    put(name);
    put_number(n);
}

void optional(const char *name, bool there, uint64_t n)
{
    put(name);
    if (there)
        put_number(n);
    else
        put("-");
}

void part(const char *name, bool there, uint64_t place, uint64_t length)
{
    optional(name, there, place);
    if (there)
        field("+", length);
}

/* A numeric leaf, with its form where that is asked for: the bytes that it took, and whether a shorter form existed. */
void numeral(const char *name, uint64_t n, uint64_t form, bool forms)
{
    field(name, n);
    if (forms) {
        field("/", form % 256);
        field("/", form / 256);
    }
}

/* The number of these 64 bits. */
void put_signed(uint64_t bits, bool negative)
{
    if (negative) {
        put("-");
        bits = -bits;
    }
    put_number(bits);
}

void leaf(uint64_t n)
{
    printf("%04" PRIx64, n);
}

/* Bytes in hex, `-` for none. */
void hex(const uint8_t *s, size_t n)
{
    if (n == 0)
        put("-");
    for (size_t i = 0; i < n; i++)
        printf("%02x", s[i]);
}

/* A refusal's number and its details: how many there are, the number says. Of 1, from a lookup, see below. */
void refusal(uint32_t number, const uint64_t *out)
{
    put_number(number);
    if (number == 8 || number == 9 || number == 10)
        field(" ", out[PDB_DETAIL_0]);
    if (number == 9)
        field(" ", out[PDB_DETAIL_1]);
}

/* The same of a lookup: 1 has a detail, the links passed. */
void refusal_of_find(uint32_t number, const uint64_t *out)
{
    refusal(number, out);
    if (number == 1)
        field(" ", out[PDB_DETAIL_0]);
}

void refusal_line(uint32_t number, const uint64_t *out)
{
    refusal(number, out);
    put("\n");
}

/* What a writer left at place 0 of a buffer: out's third is the place behind it, or how many bytes there are. */
void written(uint32_t number, const uint64_t *out, const uint8_t *buffer)
{
    if (number != 0) {
        refusal_line(number, out);
        return;
    }
    put("0 ");
    hex(buffer, (size_t)out[2]);
    put("\n");
}

void table_after(const uint32_t *table, size_t n)
{
    put(" ;");
    if (n == 0)
        put(" -");
    for (size_t i = 0; i < n; i++)
        field(" ", table[i]);
    put("\n");
}
