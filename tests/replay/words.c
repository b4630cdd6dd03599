/* Words of a line: numbers, bytes in hex, tables, values. */
#include <stdlib.h>
#include <string.h>

#include "replay.h"

/* The store: blocks that are freed behind each line. */

typedef struct Block {
    struct Block *next;
} Block;

static Block *blocks;

/* Memory that is lent to a call, never at address 0: the exported functions want a pointer also where there is nothing behind it. */
void *lent(size_t bytes)
{
    Block *b = malloc(sizeof(Block) + 16 + bytes);
    if (b == NULL) {
        put("? memory\n");
        exit(2);
    }
    b->next = blocks;
    blocks = b;
    return (char *)b + 16;
}

void give_back(void)
{
    while (blocks != NULL) {
        Block *next = blocks->next;
        free(blocks);
        blocks = next;
    }
}

static bool ends_word(char c)
{
    return c == ' ' || c == '\n' || c == '\r' || c == 0;
}

static void blanks(Words *w)
{
    while (*w->at == ' ')
        w->at++;
}

bool words_left(Words *w)
{
    blanks(w);
    return !ends_word(*w->at);
}

Word next_word(Words *w)
{
    blanks(w);
    Word word = {w->at, 0};
    while (!ends_word(*w->at)) {
        w->at++;
        word.length++;
    }
    return word;
}

bool word_is(Word word, const char *name)
{
    return word.length == strlen(name) && memcmp(word.letters, name, word.length) == 0;
}

int nibble(char letter)
{
    if ('0' <= letter && letter <= '9')
        return letter - '0';
    if ('a' <= letter && letter <= 'f')
        return letter - 'a' + 10;
    return 16;
}

/* A decimal number at a place of a word, held at the largest; `at` goes behind its digits. */
static uint64_t digits(Word word, size_t *at, bool *wide)
{
    uint64_t n = 0;
    for (; *at < word.length && nibble(word.letters[*at]) < 10; ++*at) {
        uint64_t d = (uint64_t)nibble(word.letters[*at]);
        if (n > UINT64_MAX / 10 || n * 10 > UINT64_MAX - d) {
            n = UINT64_MAX;
            *wide = true;
        } else {
            n = n * 10 + d;
        }
    }
    return n;
}

uint64_t number_in(Word word)
{
    size_t at = 0;
    bool wide = false;
    return digits(word, &at, &wide);
}

uint64_t next_number(Words *w)
{
    return number_in(next_word(w));
}

uint32_t next_number32(Words *w)
{
    return (uint32_t)next_number(w);
}

/* Bytes in hex, or `-` for none. */
Bytes next_bytes(Words *w)
{
    Word word = next_word(w);
    Bytes b = {lent(word.length / 2), word.length / 2, word.length > 0 && word.length % 2 == 0};
    if (word_is(word, "-"))
        return (Bytes){b.at, 0, true};
    for (size_t i = 0; i < b.length; i++) {
        int high = nibble(word.letters[2 * i]), low = nibble(word.letters[2 * i + 1]);
        b.good = b.good && high < 16 && low < 16;
        b.at[i] = (uint8_t)(high % 16 * 16 + low % 16);
    }
    return b;
}

/* Short words: pieces joined by a mark. `A/D/N` is N numbers from A on by steps of D. */

typedef struct {
    uint64_t first, step, count;
    bool is;
} Steps;

static Steps steps_in(Word piece)
{
    size_t at = 0;
    bool wide = false, good = true;
    uint64_t n[3];
    for (int i = 0; i < 3; i++) {
        size_t before = at;
        n[i] = digits(piece, &at, &wide);
        good = good && at > before && (i == 2 ? at == piece.length : at < piece.length && piece.letters[at] == '/');
        at++;
    }
    return (Steps){n[0], n[1], n[2], good};
}

static Word piece_of(Word word, size_t *at, char mark)
{
    Word piece = {word.letters + *at, 0};
    while (*at < word.length && word.letters[*at] != mark) {
        ++*at;
        piece.length++;
    }
    ++*at;
    return piece;
}

static const uint64_t MOST = UINT64_C(1) << 32;

/* How many bytes a piece stands for; its bytes go to `out` where that is not null. */
static uint64_t piece_bytes(Word piece, uint8_t *out, bool *good)
{
    Steps s = steps_in(piece);
    if (s.is && s.count < MOST) {
        for (uint64_t i = 0; out != NULL && i < s.count; i++)
            for (unsigned k = 0; k < 4; k++)
                out[4 * i + k] = (uint8_t)((s.first + i * s.step) >> 8 * k);
        return 4 * s.count;
    }
    const char *star = memchr(piece.letters, '*', piece.length);
    size_t length = star == NULL ? piece.length : (size_t)(star - piece.letters);
    uint64_t times = 1;
    if (star != NULL) {
        Word count = {star + 1, piece.length - length - 1};
        size_t at = 0;
        bool wide = false;
        times = digits(count, &at, &wide);
        *good = *good && count.length > 0 && at == count.length && times < MOST;
    }
    *good = *good && length > 0 && length % 2 == 0;
    for (size_t i = 0; i < length; i++)
        *good = *good && nibble(piece.letters[i]) < 16;
    if (!*good)
        return 0;
    for (uint64_t k = 0; out != NULL && k < times; k++)
        for (size_t i = 0; i < length / 2; i++)
            out[k * (length / 2) + i] = (uint8_t)(nibble(piece.letters[2 * i]) * 16 + nibble(piece.letters[2 * i + 1]));
    return times * (length / 2);
}

Bytes next_brief_bytes(Words *w)
{
    Word word = next_word(w);
    Bytes b = {NULL, 0, word.length > 0};
    if (word_is(word, "-"))
        return (Bytes){lent(0), 0, true};
    uint64_t size = 0;
    for (size_t at = 0; at <= word.length;)
        size += piece_bytes(piece_of(word, &at, '+'), NULL, &b.good);
    b.good = b.good && size < MOST;
    b.length = b.good ? (size_t)size : 0;
    b.at = lent(b.length);
    size_t to = 0;
    for (size_t at = 0; b.good && at <= word.length;)
        to += (size_t)piece_bytes(piece_of(word, &at, '+'), b.at + to, &b.good);
    return b;
}

/* Numbers with commas, or `-` for none: those of a word up to the first that is none. */
Table next_table(Words *w)
{
    Word word = next_word(w);
    Table t = {lent(4 * (word.length + 1)), 0, true};
    size_t at = 0;
    bool wide = false;
    while (at < word.length && nibble(word.letters[at]) < 10) {
        t.at[t.length++] = (uint32_t)digits(word, &at, &wide);
        if (at >= word.length || word.letters[at] != ',')
            break;
        at++;
    }
    return t;
}

Table next_brief_table(Words *w)
{
    Word word = next_word(w);
    Table t = {NULL, 0, word.length > 0};
    if (word_is(word, "-"))
        return (Table){lent(0), 0, true};
    uint64_t size = 0;
    for (int pass = 0; pass < 2; pass++) {
        size_t to = 0;
        for (size_t at = 0; at <= word.length && t.good;) {
            Word piece = piece_of(word, &at, ',');
            Steps s = steps_in(piece);
            size_t end = 0;
            bool wide = false;
            if (!s.is) {
                s = (Steps){digits(piece, &end, &wide), 0, 1, true};
                t.good = t.good && piece.length > 0 && end == piece.length;
            }
            t.good = t.good && s.count < MOST;
            for (uint64_t i = 0; pass == 1 && i < s.count; i++)
                t.at[to++] = (uint32_t)(s.first + i * s.step);
            size += pass == 0 ? s.count : 0;
        }
        t.good = t.good && size < MOST;
        if (pass == 0)
            t.at = lent(t.good ? 4 * (size_t)size : 0);
        t.length = t.good ? (size_t)size : 0;
    }
    return t;
}

/* A value: a decimal number, with a minus where it is negative; `-`; `=` and hex, whose bytes go behind those of the text. */
Value value_in(Word word, Text *text)
{
    const Value strange = {VALUE_STRANGE, 0, 0};
    if (word_is(word, "-"))
        return (Value){VALUE_ABSENT, 0, 0};
    if (word.letters[0] == '=') {
        size_t n = (word.length - 1) / 2;
        if (word.length % 2 == 0 || text->room - text->length < n)
            return strange;
        for (size_t i = 0; i < n; i++) {
            int high = nibble(word.letters[1 + 2 * i]), low = nibble(word.letters[2 + 2 * i]);
            if (high > 15 || low > 15)
                return strange;
            text->at[text->length + i] = (uint8_t)(high * 16 + low);
        }
        text->length += n;
        return (Value){VALUE_STRING, text->length - n, n};
    }
    size_t at = word.letters[0] == '-' ? 1 : 0, from = at;
    bool wide = false;
    uint64_t n = digits(word, &at, &wide);
    if (at == from || at < word.length || wide)
        return strange;
    if (from == 0 || n == 0)
        return (Value){VALUE_NATURAL, n, 0};
    return (Value){VALUE_NEGATIVE, n - 1, 0};
}

/* A leaf in four hex digits; 65,536 for what is none. */
uint32_t leaf_in(Word word)
{
    uint32_t n = 0;
    for (size_t i = 0; i < word.length; i++) {
        if (nibble(word.letters[i]) > 15)
            return 65536;
        n = n * 16 + (uint32_t)nibble(word.letters[i]);
    }
    return word.length == 4 ? n : 65536;
}
