/* What the targets of this folder share. A target takes any bytes, asks the library, and stops the process where a law does not hold.
 *
 * Lent memory ends where a page begins that nobody may touch, and begins behind a strip of known bytes: a call that reads or writes behind the end is killed,
 * one that writes before the beginning is found. Every call is made twice by ASK, with `out` and all that was lent for writing filled otherwise before it:
 * both turns must answer the same, and a refusal leaves what was lent byte for byte. */
#ifndef LAW_H
#define LAW_H

#include <stdbool.h>
#include <stddef.h>
#include <stdint.h>
#include <string.h>

#include "pdb.h"

int LLVMFuzzerTestOneInput(const uint8_t *data, size_t size);

/* Says what does not hold, and aborts. */
void finding(const char *law, uint64_t a, uint64_t b);

/* Tells the fuzzer of an outcome: the library itself has no counters where it is linked as it stands in the repository. */
void outcome(uint64_t a, uint64_t b, uint64_t c);

/* What is left of an input: its first bytes choose, the rest is what is read. */
typedef struct {
    const uint8_t *at;
    size_t left;
} Input;

uint8_t take(Input *in);
uint32_t take32(Input *in);

/* A number whose first byte says how many bytes follow, or that it is near a border. */
uint64_t take_number(Input *in);

/* Memory that is only read: a copy of these bytes. There are some slots; each call of `lend` for a slot takes it anew. */
enum { SLOTS = 8, MOST = 1 << 20 };
uint8_t *copy_in(unsigned slot, const void *bytes, size_t n);

/* Memory that the next calls of ASK write: filled anew before each turn, or set to what is given. `lend_none` ends all lending. */
void *lend(unsigned slot, size_t bytes, const void *given);
void lend_none(void);

/* After ASK: of the slot's bytes those from `from` to `to` were written alike in both turns, and no other byte was touched. */
void wrote(unsigned slot, size_t from, size_t to, const char *law);

/* After an answer or a refusal that may write the slot: it is not held to "as it was". */
void may_write(unsigned slot);

extern uint64_t *out;

void turn_one(size_t size);
void turn_two(void);
uint32_t turns_end(const char *call, uint64_t line);
extern uint64_t first_number, second_number;

#define ASK(size, call) (turn_one(size), first_number = (call), turn_two(), second_number = (call), turns_end(#call, __LINE__))

/* The law, and two numbers that a finding shows. */
#define HOLDS(law, a, b) \
    do { \
        if (!(law)) \
            finding(#law, (uint64_t)(a), (uint64_t)(b)); \
    } while (0)

/* A stream as a walk of pdb_next has it. */
typedef struct {
    uint32_t index, length;
    size_t place;
} Item;

typedef struct {
    const uint8_t *s;
    size_t n, count, start, end;
    uint32_t minimum, maximum, number; /* by what the walk ended: 0 where no record was left */
    Item *items;
} Walk;

/* Walks from a cursor; the items are of one array that the next walk of the same `which` takes again. */
void walk_from(Walk *w, unsigned which, const uint8_t *s, size_t n, size_t at, uint32_t index);

/* The header, then a walk. Gives the header's refusal, or 0. */
uint32_t walk(Walk *w, unsigned which, const uint8_t *s, size_t n);

/* An element as pdb_step gave it, as the row that is written. */
void row_of(uint32_t list, const uint64_t *step, uint64_t row[PDB_ROW]);

/* The rows of a list; gives what ended it, 15 behind the last. `room` rows at most. */
uint32_t rows_of(const uint8_t *s, size_t n, uint32_t list, uint64_t (*rows)[PDB_ROW], size_t room, size_t *count);

/* Every element of a record's list, of a type record or, with `ids`, of an id record: what ended it. */
uint32_t list_end(const uint8_t *s, size_t n, uint32_t ids);

#endif
