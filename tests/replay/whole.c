/* The lines of whole streams: places files, fitness, dropping, reports. */
#include <string.h>

#include "replay.h"

static bool bad(bool good)
{
    if (!good)
        put("? bytes\n");
    return !good;
}

static void save(Words *w, bool wide)
{
    size_t room = (size_t)next_number(w);
    uint32_t shift = next_number32(w);
    Bytes s = next_brief_bytes(w);
    uint32_t minimum = next_number32(w), maximum = next_number32(w);
    size_t held = (size_t)next_number(w);
    Table t = next_brief_table(w);
    OUT(out, PDB_SAVE_OUT);
    if (bad(s.good && t.good))
        return;
    uint8_t *buffer = lent(room);
    uint32_t number = wide ? pdb_save(s.at, s.length, t.at, t.length, minimum, maximum, held, shift, buffer, room, out)
                           : pdb_save_short(s.at, s.length, t.at, t.length, minimum, maximum, held, shift, buffer, room, out);
    written(number, out, buffer);
}

void on_save(Words *w)
{
    save(w, false);
}

void on_savewide(Words *w)
{
    save(w, true);
}

static void load(Words *w, bool wide)
{
    Bytes s = next_brief_bytes(w), file = next_brief_bytes(w);
    Table t = next_brief_table(w);
    OUT(out, PDB_LOAD_OUT);
    if (bad(s.good && file.good && t.good))
        return;
    uint32_t number = wide ? pdb_load(s.at, s.length, file.at, file.length, t.at, t.length, out) : pdb_load_short(s.at, s.length, file.at, file.length, t.at, t.length, out);
    if (number == 0) {
        field("0 ", out[PDB_LOAD_MINIMUM]);
        field(" ", out[PDB_LOAD_MAXIMUM]);
        field(" held=", out[PDB_LOAD_HELD]);
        field(" shift=", out[PDB_LOAD_SHIFT]);
    } else {
        refusal(number, out);
    }
    table_after(t.at, t.length);
}

void on_load(Words *w)
{
    load(w, false);
}

void on_loadwide(Words *w)
{
    load(w, true);
}

void on_fit(Words *w)
{
    Bytes b = next_bytes(w);
    OUT(out, PDB_FIT_OUT);
    if (bad(b.good))
        return;
    uint32_t number = pdb_fit(b.at, b.length, out);
    if (number != 0) {
        refusal_line(number, out);
        return;
    }
    if (out[PDB_FIT_YES] != 0) {
        put("0 yes\n");
        return;
    }
    field("0 no ", out[PDB_FIT_RECORD]);
    field(" ", out[PDB_FIT_RULE]);
    put("\n");
}

void on_drop(Words *w)
{
    size_t room = (size_t)next_number(w);
    Bytes s = next_brief_bytes(w);
    Table roots = next_brief_table(w), t = next_brief_table(w);
    OUT(out, PDB_DROP_OUT);
    if (bad(s.good && roots.good && t.good))
        return;
    uint8_t *buffer = lent(room);
    uint32_t number = pdb_drop(s.at, s.length, roots.at, roots.length, t.at, t.length, buffer, room, out);
    if (number == 0) {
        put("0 ");
        hex(buffer, (size_t)out[PDB_DROP_BYTES]);
    } else {
        refusal(number, out);
    }
    table_after(t.at, t.length);
}

/* Reports. */

typedef struct {
    uint64_t at[PDB_REPORT_OUT], table[PDB_REPORT_TABLE];
} Report;

/* The streams that are left of the line, added one by one, going on after a refusal. */
static void report(Words *w, Report *r, Bytes *streams, size_t count)
{
    (void)w;
    if (count == 0)
        put("-");
    for (size_t i = 0; i < count; i++) {
        OUT(out, PDB_REPORT_OUT);
        const uint64_t *a = r->at;
        uint32_t number = pdb_report(streams[i].at, streams[i].length, a[PDB_REPORT_TAKEN], a[PDB_REPORT_REFUSED], a[PDB_REPORT_HEADERS],
            a[PDB_REPORT_RECORDS], a[PDB_REPORT_BYTES], a[PDB_REPORT_LARGEST], a[PDB_REPORT_STREAM], (uint32_t)a[PDB_REPORT_INDEX],
            a[PDB_REPORT_ROWS], r->table, out);
        field(i == 0 ? "" : " ", number);
        if (number == 0)
            memcpy(r->at, out, sizeof out);
    }
    static const char *const names[] = {" ; taken=", " refused=", " headers=", " records=", " bytes=", " largest=", " stream=", " index="};
    for (int i = 0; i < 8; i++)
        field(names[i], r->at[PDB_REPORT_TAKEN + i]);
    for (uint64_t i = 0; i < r->at[PDB_REPORT_ROWS] && i < PDB_REPORT_TABLE / 3; i++) {
        put(" ; ");
        leaf(r->table[3 * i]);
        field(" ", r->table[3 * i + 1]);
        field(" ", r->table[3 * i + 2]);
    }
    put("\n");
}

static void report_streams(Words *w, Report *r)
{
    size_t count = 0, most = strlen(w->at) / 2 + 1;
    Bytes *streams = lent(most * sizeof *streams);
    bool good = true;
    while (words_left(w)) {
        streams[count] = next_brief_bytes(w);
        good = good && streams[count++].good;
    }
    if (!bad(good))
        report(w, r, streams, count);
}

void on_report(Words *w)
{
    Report r = {{0}, {0}};
    report_streams(w, &r);
}

/* Entries: LEAF:RECORDS:BYTES with commas. */
static bool entries(Word word, Report *r)
{
    size_t at = 0;
    uint64_t rows = 0;
    if (word_is(word, "-"))
        return true;
    while (at <= word.length) {
        uint64_t n[3] = {0, 0, 0};
        if (word.length - at < 5 || word.letters[at + 4] != ':')
            return false;
        n[0] = leaf_in((Word){word.letters + at, 4});
        at += 5;
        for (int i = 1; i < 3; i++) {
            size_t from = at;
            while (at < word.length && nibble(word.letters[at]) < 10)
                at++;
            n[i] = number_in((Word){word.letters + from, at - from});
            bool ends = at == word.length || word.letters[at] == ',';
            if (at == from || (i == 1 ? ends || word.letters[at] != ':' : !ends))
                return false;
            at++;
        }
        if (n[0] > 0xffff)
            return false;
        if (rows < PDB_REPORT_TABLE / 3)
            memcpy(r->table + 3 * rows++, n, sizeof n);
    }
    r->at[PDB_REPORT_ROWS] = rows;
    return true;
}

void on_reportfrom(Words *w)
{
    Report r = {{0}, {0}};
    for (int i = 0; i < 8; i++)
        r.at[PDB_REPORT_TAKEN + i] = next_number(w);
    if (!bad(entries(next_word(w), &r)))
        report_streams(w, &r);
}
