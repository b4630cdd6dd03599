/* pdb_report: its sums are those of a walk, the rows add up to them, and two streams in either order give the same sums. First byte: where the input is split into
 * two streams, in 255ths of it; the first stream's report may start near a border: second byte. */
#include "law.h"

enum { ONE, TWO, TABLE };

typedef struct {
    uint64_t n[PDB_REPORT_OUT], rows[PDB_REPORT_TABLE];
} Report;

/* Adds a stream; gives the number. At a refusal the report is what was given. */
static uint32_t add(Report *r, const uint8_t *s, size_t n)
{
    uint64_t *table = lend(TABLE, sizeof r->rows, r->rows);
    uint64_t g[PDB_REPORT_OUT];
    memcpy(g, r->n, sizeof g);
    uint32_t number = ASK(PDB_REPORT_OUT, pdb_report(s, n, g[PDB_REPORT_TAKEN], g[PDB_REPORT_REFUSED], g[PDB_REPORT_HEADERS], g[PDB_REPORT_RECORDS],
                                                     g[PDB_REPORT_BYTES], g[PDB_REPORT_LARGEST], g[PDB_REPORT_STREAM], (uint32_t)g[PDB_REPORT_INDEX],
                                                     g[PDB_REPORT_ROWS], table, out));
    if (number == 0) {
        memcpy(r->n, out, sizeof r->n);
        memcpy(r->rows, table, sizeof r->rows);
    }
    lend_none();
    return number;
}

static void rows_add_up(const Report *r, uint64_t records, uint64_t bytes)
{
    uint64_t sum[2] = {0, 0};
    HOLDS(r->n[PDB_REPORT_ROWS] <= 64, r->n[PDB_REPORT_ROWS], 0);
    for (size_t i = 0; i < r->n[PDB_REPORT_ROWS]; i++) {
        sum[0] += r->rows[3 * i + 1];
        sum[1] += r->rows[3 * i + 2];
        HOLDS(r->rows[3 * i] <= 0xffff && r->rows[3 * i + 1] > 0, r->rows[3 * i], r->rows[3 * i + 1]);
        for (size_t k = 0; k < i; k++)
            HOLDS(r->rows[3 * k] != r->rows[3 * i], i, k);
    }
    HOLDS(sum[0] == records && sum[1] == bytes, sum[0], sum[1]);
}

/* The report of one stream is what a walk of it counts. A stream that is refused midway counts nothing but itself. */
static uint32_t alone(Report *r, const uint8_t *s, size_t n)
{
    Walk w;
    memset(r, 0, sizeof *r);
    uint32_t number = add(r, s, n);
    if (number != 0) {
        HOLDS(number == 28, number, n);
        return number;
    }
    uint32_t header = walk(&w, 0, s, n);
    bool refused = header != 0 || w.number != 0;
    uint64_t bytes = 0, largest = 0, index = 0;
    for (size_t i = 0; i < w.count; i++) {
        bytes += w.items[i].length;
        if (w.items[i].length > largest) {
            largest = w.items[i].length;
            index = w.items[i].index;
        }
    }
    HOLDS(r->n[PDB_REPORT_TAKEN] == 1 && r->n[PDB_REPORT_REFUSED] == refused, r->n[PDB_REPORT_TAKEN], r->n[PDB_REPORT_REFUSED]);
    if (refused) {
        for (size_t i = PDB_REPORT_HEADERS; i < PDB_REPORT_OUT; i++)
            HOLDS(r->n[i] == 0, i, r->n[i]);
        return 0;
    }
    HOLDS(r->n[PDB_REPORT_RECORDS] == w.count && r->n[PDB_REPORT_BYTES] == bytes, r->n[PDB_REPORT_RECORDS], r->n[PDB_REPORT_BYTES]);
    HOLDS(r->n[PDB_REPORT_LARGEST] == largest && r->n[PDB_REPORT_INDEX] == index, r->n[PDB_REPORT_LARGEST], r->n[PDB_REPORT_INDEX]);
    rows_add_up(r, w.count, bytes);
    return 0;
}

int LLVMFuzzerTestOneInput(const uint8_t *data, size_t size)
{
    Report one, two, both, turned;
    Input in = {data, size};
    size_t split = take(&in);
    uint8_t border = take(&in);
    if (in.left > 200000)
        return 0;
    split = split * in.left / 255;
    lend_none();
    const uint8_t *a = copy_in(ONE, in.at, split), *b = copy_in(TWO, in.at + split, in.left - split);
    uint32_t first = alone(&one, a, split), second = alone(&two, b, in.left - split);
    if (first == 0 && second == 0) {
        both = one;
        turned = two;
        uint32_t x = add(&both, b, in.left - split), y = add(&turned, a, split);
        HOLDS((x == 0 || x == 28) && x == y, x, y);
        if (x == 0) {
            for (size_t i = PDB_REPORT_TAKEN; i <= PDB_REPORT_BYTES; i++)
                HOLDS(both.n[i] == one.n[i] + two.n[i] && both.n[i] == turned.n[i], both.n[i], turned.n[i]);
            HOLDS(both.n[PDB_REPORT_LARGEST] == turned.n[PDB_REPORT_LARGEST], both.n[PDB_REPORT_LARGEST], turned.n[PDB_REPORT_LARGEST]);
            HOLDS(both.n[PDB_REPORT_ROWS] == turned.n[PDB_REPORT_ROWS], both.n[PDB_REPORT_ROWS], turned.n[PDB_REPORT_ROWS]);
            rows_add_up(&both, both.n[PDB_REPORT_RECORDS], both.n[PDB_REPORT_BYTES]);
        }
    }
    /* from numbers near the border of 64 bits: added up, or refused by 27 */
    if (first == 0 && one.n[PDB_REPORT_REFUSED] == 0) {
        Report high;
        memset(&high, 0, sizeof high);
        size_t which = PDB_REPORT_TAKEN + border % 5u;
        high.n[which] = UINT64_MAX - (border >> 3);
        uint32_t number = add(&high, a, split);
        bool over = one.n[which] > border >> 3;
        HOLDS(number == (over ? 27 : 0), number, which);
        HOLDS(over || high.n[which] == UINT64_MAX - (border >> 3) + one.n[which], high.n[which], which);
    }
    return 0;
}
