#define _DEFAULT_SOURCE
#include "law.h"

#include <inttypes.h>
#include <stdio.h>
#include <stdlib.h>
#include <sys/mman.h>
#include <unistd.h>

enum { STRIP = 32, OUT_MOST = 64, COUNTERS = 8192, ITEMS = 1 << 18 };

static const uint8_t FILL[2] = {0x5a, 0xa5};

/* libFuzzer reads these as it reads the counters of instrumented code. */
#ifdef __clang__
__attribute__((section("__libfuzzer_extra_counters"), used))
#endif
static uint8_t counters[COUNTERS];

typedef struct {
    uint8_t *end;   /* where the page begins that nobody may touch */
    uint8_t *at;    /* what is lent now */
    uint8_t *first; /* what the first turn left */
    const void *given;
    size_t bytes;
    bool written, free_after_refusal;
} Slot;

static Slot slots[SLOTS], out_slot;
uint64_t *out, first_number, second_number;
static uint64_t out_first[OUT_MOST];
static size_t out_size;

void finding(const char *law, uint64_t a, uint64_t b)
{
    fprintf(stderr, "FINDING: does not hold: %s (%" PRIu64 ", %" PRIu64 ")\n", law, a, b);
    abort();
}

void outcome(uint64_t a, uint64_t b, uint64_t c)
{
    uint64_t h = (a * UINT64_C(0x9e3779b97f4a7c15)) ^ (b * UINT64_C(0xc2b2ae3d27d4eb4f)) ^ (c * UINT64_C(0x165667b19e3779f9));
    h ^= h >> 29;
    h *= UINT64_C(0xbf58476d1ce4e5b9);
    uint8_t *counter = &counters[(h >> 32) % COUNTERS];
    if (*counter < 255)
        (*counter)++;
}

uint8_t take(Input *in)
{
    if (in->left == 0)
        return 0;
    in->left--;
    return *in->at++;
}

uint32_t take32(Input *in)
{
    uint32_t n = 0;
    for (unsigned k = 0; k < 4; k++)
        n |= (uint32_t)take(in) << 8 * k;
    return n;
}

uint64_t take_number(Input *in)
{
    static const uint64_t borders[] = {0x7f, 0x80, 0xff, 0x100, 0x7fff, 0x8000, 0xffff, 0x10000, 0x7fffffff, 0x80000000, 0xfffffffe, 0xffffffff, 0x100000000,
                                       INT64_MAX, UINT64_C(1) << 63, UINT64_MAX - 1, UINT64_MAX, 0x1000, 0xfff, 0x74};
    uint8_t how = take(in);
    if (how >= 0xe0)
        return borders[(size_t)(how - 0xe0) % (sizeof borders / sizeof *borders)];
    if (how >= 0x20)
        return how - 0x20u;
    uint64_t n = 0;
    for (unsigned k = 0; k < how % 9u; k++)
        n |= (uint64_t)take(in) << 8 * k;
    return n;
}

static void pages(Slot *slot)
{
    size_t page = (size_t)sysconf(_SC_PAGESIZE), all = MOST + 2 * page;
    if (slot->end != NULL)
        return;
    uint8_t *p = mmap(NULL, all, PROT_READ | PROT_WRITE, MAP_PRIVATE | MAP_ANONYMOUS, -1, 0);
    slot->first = malloc(MOST);
    if (p == MAP_FAILED || slot->first == NULL || mprotect(p + all - page, page, PROT_NONE) != 0) {
        fputs("no memory\n", stderr);
        exit(2);
    }
    slot->end = p + all - page;
}

static uint8_t *lent_at(Slot *slot, size_t bytes)
{
    pages(slot);
    if (bytes > MOST) {
        fputs("a target lends too much\n", stderr);
        exit(2);
    }
    slot->bytes = bytes;
    slot->at = slot->end - bytes;
    memset(slot->at - STRIP, 0x77, STRIP);
    return slot->at;
}

static void strip_holds(const Slot *slot, const char *call)
{
    for (size_t i = 1; i <= STRIP; i++)
        if (slot->at[-(ptrdiff_t)i] != 0x77)
            finding(call, i, slot->at[-(ptrdiff_t)i]);
}

uint8_t *copy_in(unsigned slot, const void *bytes, size_t n)
{
    uint8_t *at = lent_at(&slots[slot], n);
    slots[slot].written = false;
    if (n > 0)
        memcpy(at, bytes, n);
    return at;
}

void *lend(unsigned slot, size_t bytes, const void *given)
{
    void *at = lent_at(&slots[slot], bytes);
    slots[slot].written = true;
    slots[slot].free_after_refusal = false;
    slots[slot].given = given;
    return at;
}

void lend_none(void)
{
    for (unsigned i = 0; i < SLOTS; i++)
        slots[i].written = false;
}

void may_write(unsigned slot)
{
    slots[slot].free_after_refusal = true;
}

static void refill(unsigned turn)
{
    for (unsigned i = 0; i < SLOTS; i++) {
        if (!slots[i].written || slots[i].bytes == 0)
            continue;
        if (slots[i].given != NULL)
            memcpy(slots[i].at, slots[i].given, slots[i].bytes);
        else
            memset(slots[i].at, FILL[turn], slots[i].bytes);
    }
}

void turn_one(size_t size)
{
    out_size = size;
    out = (uint64_t *)(void *)lent_at(&out_slot, 8 * size);
    memset(out, 0x01, 8 * size);
    refill(0);
}

void turn_two(void)
{
    memcpy(out_first, out, 8 * out_size);
    memset(out, 0xee, 8 * out_size);
    for (unsigned i = 0; i < SLOTS; i++)
        if (slots[i].written && slots[i].bytes > 0)
            memcpy(slots[i].first, slots[i].at, slots[i].bytes);
    refill(1);
}

static bool as_it_was(const Slot *slot, size_t i)
{
    if (slot->given != NULL)
        return slot->at[i] == ((const uint8_t *)slot->given)[i] && slot->first[i] == slot->at[i];
    return slot->first[i] == FILL[0] && slot->at[i] == FILL[1];
}

uint32_t turns_end(const char *call, uint64_t line)
{
    if (first_number != second_number || memcmp(out, out_first, 8 * out_size) != 0)
        finding(call, first_number, second_number);
    strip_holds(&out_slot, call);
    for (size_t i = 2; first_number != 0 && i < out_size; i++)
        if (out[i] != 0)
            finding(call, i, out[i]);
    for (unsigned k = 0; k < SLOTS; k++) {
        if (!slots[k].written)
            continue;
        strip_holds(&slots[k], call);
        if (first_number != 0 && !slots[k].free_after_refusal)
            for (size_t i = 0; i < slots[k].bytes; i++)
                if (!as_it_was(&slots[k], i))
                    finding(call, first_number, i);
    }
    outcome(line, first_number, 99);
    for (size_t i = 2; i < out_size; i++) {
        unsigned bits = 0;
        for (uint64_t n = out[i]; n != 0; n >>= 1)
            bits++;
        outcome(line, i, bits);
    }
    return (uint32_t)first_number;
}

void wrote(unsigned slot, size_t from, size_t to, const char *law)
{
    const Slot *s = &slots[slot];
    if (from > to || to > s->bytes)
        finding(law, from, to);
    for (size_t i = 0; i < s->bytes; i++)
        if (from <= i && i < to ? s->first[i] != s->at[i] : !as_it_was(s, i))
            finding(law, i, s->at[i]);
}

void walk_from(Walk *w, unsigned which, const uint8_t *s, size_t n, size_t at, uint32_t index)
{
    static Item *arrays[4];
    if (arrays[which] == NULL)
        arrays[which] = malloc(ITEMS * sizeof(Item));
    w->items = arrays[which];
    w->s = s;
    w->n = n;
    w->start = at;
    w->count = 0;
    for (;;) {
        w->number = ASK(PDB_NEXT_OUT, pdb_next(s, n, at, index, out));
        w->end = at;
        if (w->number != 0 || out[PDB_NEXT_IS_ITEM] == 0 || w->count == ITEMS)
            break;
        Item *item = &w->items[w->count++];
        item->index = (uint32_t)out[PDB_NEXT_INDEX];
        item->place = (size_t)out[PDB_NEXT_PLACE];
        item->length = (uint32_t)out[PDB_NEXT_LENGTH];
        HOLDS(item->index == index, item->index, index);
        HOLDS(item->place == at + 2 && item->length == (uint32_t)(s[at] | s[at + 1] << 8), item->place, item->length);
        HOLDS(out[PDB_NEXT_AT] == item->place + item->length && out[PDB_NEXT_AT] <= n, out[PDB_NEXT_AT], n);
        HOLDS(out[PDB_NEXT_NEXT_INDEX] == (uint64_t)index + 1, out[PDB_NEXT_NEXT_INDEX], index);
        at = (size_t)out[PDB_NEXT_AT];
        index = (uint32_t)out[PDB_NEXT_NEXT_INDEX];
    }
}

uint32_t walk(Walk *w, unsigned which, const uint8_t *s, size_t n)
{
    memset(w, 0, sizeof *w);
    uint32_t number = ASK(PDB_HEADER_OUT, pdb_header(s, n, out));
    if (number != 0)
        return number;
    w->minimum = (uint32_t)out[PDB_HEADER_MINIMUM];
    w->maximum = (uint32_t)out[PDB_HEADER_MAXIMUM];
    HOLDS(out[PDB_HEADER_COUNT] == w->maximum - w->minimum, out[PDB_HEADER_COUNT], w->maximum);
    walk_from(w, which, s, n, (size_t)out[PDB_HEADER_SIZE], w->minimum);
    return 0;
}

void row_of(uint32_t list, const uint64_t *o, uint64_t row[PDB_ROW])
{
    uint64_t layout = list == 0x1203 ? pdb_layout(PDB_LAYOUT_MEMBERS, (uint16_t)o[PDB_STEP_LEAF]) : pdb_layout(PDB_LAYOUT_METHODS, 0);
    size_t k = 0, types = 0, sizes = 0;
    memset(row, 0, PDB_ROW * sizeof *row);
    if (list == 0x1203)
        row[k++] = o[PDB_STEP_LEAF];
    for (; layout != 0; layout /= 32) {
        switch (layout % 32) {
        case PDB_CODE_GAP:
            break;
        case PDB_CODE_TYPE:
            row[k++] = o[types++ == 0 ? PDB_STEP_TYPE : PDB_STEP_OTHER];
            break;
        case PDB_CODE_SIZE:
            row[k++] = o[sizes++ == 0 ? PDB_STEP_VALUE : PDB_STEP_MORE];
            break;
        case PDB_CODE_NUMERIC:
            row[k++] = o[PDB_STEP_MORE];
            row[k++] = o[PDB_STEP_MORE] != 0 ? ~o[PDB_STEP_VALUE] : o[PDB_STEP_VALUE];
            break;
        case PDB_CODE_OFFSET:
            row[k++] = o[PDB_STEP_MORE];
            row[k++] = o[PDB_STEP_VALUE];
            break;
        case PDB_CODE_STRING:
            row[k++] = o[PDB_STEP_NAME];
            row[k++] = o[PDB_STEP_NAME_LENGTH];
            break;
        default:
            row[k++] = o[PDB_STEP_WORD];
        }
    }
}

static uint32_t elements(const uint8_t *s, size_t n, uint32_t ids, uint64_t (*rows)[PDB_ROW], size_t room, size_t *count)
{
    uint32_t number = ASK(PDB_LIST_OUT, pdb_list(s, n, ids, out));
    if (number != 0)
        return number;
    uint16_t leaf = (uint16_t)out[PDB_LIST_LEAF];
    size_t at = (size_t)out[PDB_LIST_AT];
    uint32_t left = (uint32_t)out[PDB_LIST_LEFT], padded = (uint32_t)out[PDB_LIST_PADDED];
    while ((number = ASK(PDB_STEP_OUT, pdb_step(s, n, leaf, at, left, padded, out))) == 0) {
        HOLDS(out[PDB_STEP_AT] >= at && out[PDB_STEP_AT] <= n, out[PDB_STEP_AT], at);
        HOLDS(out[PDB_STEP_AT] > at || out[PDB_STEP_LEFT] < left, out[PDB_STEP_AT], out[PDB_STEP_LEFT]);
        HOLDS(out[PDB_STEP_NAME] + out[PDB_STEP_NAME_LENGTH] <= n, out[PDB_STEP_NAME], out[PDB_STEP_NAME_LENGTH]);
        outcome(leaf, out[PDB_STEP_LEAF], 7);
        if (rows != NULL) {
            if (*count == room)
                return 0;
            row_of(leaf, out, rows[(*count)++]);
        }
        at = (size_t)out[PDB_STEP_AT];
        left = (uint32_t)out[PDB_STEP_LEFT];
        padded = (uint32_t)out[PDB_STEP_PADDED];
    }
    return number;
}

uint32_t rows_of(const uint8_t *s, size_t n, uint32_t list, uint64_t (*rows)[PDB_ROW], size_t room, size_t *count)
{
    *count = 0;
    HOLDS(n >= 2 && (uint32_t)(s[0] | s[1] << 8) == list, n, list);
    return elements(s, n, 0, rows, room, count);
}

uint32_t list_end(const uint8_t *s, size_t n, uint32_t ids)
{
    return elements(s, n, ids, NULL, 0, NULL);
}
