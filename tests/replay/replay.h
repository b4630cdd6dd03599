/* The program `replay`: it answers the commands of compare/PROTOCOL.md by the exported functions, so that the vectors test what users link.
 * words.c reads a line, lines.c writes answers, and the other files have the commands by what they are about. */
#ifndef REPLAY_H
#define REPLAY_H

#include <stdbool.h>
#include <stddef.h>
#include <stdint.h>

#include "pdb.h"

/* An `out` that holds something else before the call: every call has to write all of it. */
#define OUT(name, n) \
    uint64_t name[n]; \
    fill_out(name, n)

void fill_out(uint64_t *out, size_t n);

/* words.c: what is left of a line, and its words. What a line needs is allocated from a store that is emptied behind it. */

typedef struct {
    const char *at;
} Words;

typedef struct {
    const char *letters;
    size_t length;
} Word;

typedef struct {
    uint8_t *at;
    size_t length;
    bool good;
} Bytes;

typedef struct {
    uint32_t *at;
    size_t length;
    bool good;
} Table;

/* A value of a record to write: a cell's kind, or one of these, and its number, or the place and length of a string in the text. */
enum { VALUE_ABSENT, VALUE_NATURAL, VALUE_NEGATIVE, VALUE_STRING, VALUE_STRANGE };

typedef struct {
    int kind;
    uint64_t number;
    uint64_t length;
} Value;

typedef struct {
    uint8_t *at;
    size_t length;
    size_t room;
} Text;

void *lent(size_t bytes);
void give_back(void);
bool words_left(Words *w);
Word next_word(Words *w);
bool word_is(Word word, const char *name);
uint64_t number_in(Word word);
uint64_t next_number(Words *w);
uint32_t next_number32(Words *w);
Bytes next_bytes(Words *w);
Bytes next_brief_bytes(Words *w);
Table next_table(Words *w);
Table next_brief_table(Words *w);
Value value_in(Word word, Text *text);
uint32_t leaf_in(Word word);
int nibble(char letter);

/* lines.c */

void put(const char *text);
void put_number(uint64_t n);
void field(const char *name, uint64_t n);
void optional(const char *name, bool there, uint64_t n);
void part(const char *name, bool there, uint64_t place, uint64_t length);
void numeral(const char *name, uint64_t n, uint64_t form, bool forms);
void put_signed(uint64_t bits, bool negative);
void leaf(uint64_t n);
void hex(const uint8_t *s, size_t n);
void refusal(uint32_t number, const uint64_t *out);
void refusal_of_find(uint32_t number, const uint64_t *out);
void refusal_line(uint32_t number, const uint64_t *out);
void written(uint32_t number, const uint64_t *out, const uint8_t *buffer);
void table_after(const uint32_t *table, size_t n);
void primitive(const uint64_t *out);

/* records.c: the lines of records. `forms` is whether the forms of numeric leaves are shown. */

void type_line(const uint8_t *s, size_t n, bool forms);
void id_line(const uint8_t *s, size_t n);
void item_data(const uint8_t *s, size_t n, bool ids, uint32_t index, bool forms);
void section_data(const uint8_t *section, size_t size, uint32_t index, size_t place, size_t length);

/* The commands. */

typedef void Command(Words *w);

Command on_header, on_walk, on_parse, on_parseids, on_next, on_create, on_createby, on_update, on_updateby, on_findin, on_findinby, on_maxindex, on_maxindexby,
    on_find, on_findids, on_findby, on_view, on_marker, on_kind, on_count, on_secwalk, on_secparse, on_seccount, on_secfind, on_seccreate, on_sectpi, on_declare;
Command on_type, on_id, on_itemtype, on_itemid, on_wtype, on_name, on_element, on_welement, on_idelement, on_idat, on_membername;
Command on_prim, on_word, on_opttype, on_optid, on_cross, on_string, on_padding, on_unsigned, on_signed, on_wunsigned, on_wsigned;
Command on_writeheader, on_write, on_rewrite, on_rewriteid;
Command on_save, on_load, on_savewide, on_loadwide, on_fit, on_drop, on_report, on_reportfrom;

#endif
