/* A report over raw type or id streams of any size: records and payload bytes for each leaf, the largest payload, and how many streams are refused. R-12 of
 * document 02.
 *
 *     report STREAM..
 *
 * The first line has the totals: streams taken and refused of them; header bytes, records and payload bytes of the others; the largest payload, the number
 * of its stream, from 0, and its index. Each line after it is a leaf, in the order of first appearance, with its records and payload bytes.
 * Exit status: 0; 1 if a stream could not be added (27, 28), which is said on standard error and leaves the report as it was; 2 for bad usage or a file that
 * cannot be read.
 */
#include "stream.h"

/* Adds a stream. 0, or the exit status; a stream that is refused by its header or midway is counted as refused, and is no error. */
static int add(const char *path, uint64_t *report, uint64_t *table)
{
    struct stream s = {0};
    uint64_t out[PDB_REPORT_OUT];
    uint32_t number;
    if (map(path, &s) != 0) {
        perror(path);
        return 2;
    }
    number = pdb_report(s.bytes, s.length, report[PDB_REPORT_TAKEN], report[PDB_REPORT_REFUSED], report[PDB_REPORT_HEADERS], report[PDB_REPORT_RECORDS],
                        report[PDB_REPORT_BYTES], report[PDB_REPORT_LARGEST], report[PDB_REPORT_STREAM], (uint32_t)report[PDB_REPORT_INDEX],
                        report[PDB_REPORT_ROWS], table, out);
    if (number != 0)
        return refused(stderr, path, number, out);
    memcpy(report, out, sizeof out);
    return 0;
}

int main(int argc, char **argv)
{
    uint64_t report[PDB_REPORT_OUT] = {0}, table[PDB_REPORT_TABLE] = {0};
    int status = 0;
    if (argc < 2) {
        fputs("usage: report STREAM..\n", stderr);
        return 2;
    }
    for (int i = 1; i < argc && status != 2; i++) {
        int one = add(argv[i], report, table);
        if (one != 0)
            status = one;
    }
    if (status == 2)
        return status;
    printf("taken=%" PRIu64 " refused=%" PRIu64 " headers=%" PRIu64 " records=%" PRIu64 " bytes=%" PRIu64 " largest=%" PRIu64 " stream=%" PRIu64 " index=%" PRIu64 "\n",
           report[PDB_REPORT_TAKEN], report[PDB_REPORT_REFUSED], report[PDB_REPORT_HEADERS], report[PDB_REPORT_RECORDS], report[PDB_REPORT_BYTES],
           report[PDB_REPORT_LARGEST], report[PDB_REPORT_STREAM], report[PDB_REPORT_INDEX]);
    for (size_t row = 0; row < report[PDB_REPORT_ROWS]; row++)
        printf("%04" PRIx64 " %" PRIu64 " %" PRIu64 "\n", table[3 * row], table[3 * row + 1], table[3 * row + 2]);
    return status;
}
