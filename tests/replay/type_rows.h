/* What the line of a type record shows, in its order. Written by tools/type_rows from model/layouts.py and the places of crates/pane_row:
 * X(leaf, text, how it is printed, the first of its places in `out`). */
#ifndef TYPE_ROWS_H
#define TYPE_ROWS_H

#define TYPE_ROWS(X) \
    X(0x1001, " t=", NUMBER, PDB_TYPE_TYPE) \
    X(0x1001, " const=", BIT_0, PDB_TYPE_WORD) \
    X(0x1001, " volatile=", BIT_1, PDB_TYPE_WORD) \
    X(0x1001, " unaligned=", BIT_2, PDB_TYPE_WORD) \
    X(0x1002, " t=", NUMBER, PDB_TYPE_TYPE) \
    X(0x1002, " word=", NUMBER, PDB_TYPE_WORD) \
    X(0x1002, " class=", OPTIONAL, PDB_TYPE_OTHER) \
    X(0x1008, " ret=", OPTIONAL, PDB_TYPE_TYPE) \
    X(0x1008, " attrs=", NUMBER, PDB_TYPE_WORD) \
    X(0x1008, " count=", NUMBER, PDB_TYPE_COUNT) \
    X(0x1008, " args=", NUMBER, PDB_TYPE_LIST) \
    X(0x1009, " ret=", NUMBER, PDB_TYPE_TYPE) \
    X(0x1009, " class=", NUMBER, PDB_TYPE_OTHER) \
    X(0x1009, " this=", OPTIONAL, PDB_TYPE_LAST) \
    X(0x1009, " attrs=", NUMBER, PDB_TYPE_WORD) \
    X(0x1009, " count=", NUMBER, PDB_TYPE_COUNT) \
    X(0x1009, " args=", NUMBER, PDB_TYPE_LIST) \
    X(0x1009, " adjust=", NUMBER, PDB_TYPE_SIZE) \
    X(0x1205, " t=", NUMBER, PDB_TYPE_TYPE) \
    X(0x1205, " len=", NUMBER, PDB_TYPE_COUNT) \
    X(0x1205, " pos=", NUMBER, PDB_TYPE_SIZE) \
    X(0x1503, " elem=", NUMBER, PDB_TYPE_TYPE) \
    X(0x1503, " idx=", NUMBER, PDB_TYPE_OTHER) \
    X(0x1503, " size=", NUMERAL, PDB_TYPE_SIZE) \
    X(0x1503, " name=", PART, PDB_TYPE_NAME) \
    X(0x1504, " kind=Class", ALONE, 0) \
    X(0x1504, " count=", NUMBER, PDB_TYPE_COUNT) \
    X(0x1504, " props=", NUMBER, PDB_TYPE_WORD) \
    X(0x1504, " fields=", OPTIONAL, PDB_TYPE_LIST) \
    X(0x1504, " derived=", OPTIONAL, PDB_TYPE_OTHER) \
    X(0x1504, " shape=", OPTIONAL, PDB_TYPE_LAST) \
    X(0x1504, " size=", NUMERAL, PDB_TYPE_SIZE) \
    X(0x1504, " name=", PART, PDB_TYPE_NAME) \
    X(0x1504, " unique=", PART, PDB_TYPE_UNIQUE) \
    X(0x1505, " kind=Struct", ALONE, 0) \
    X(0x1505, " count=", NUMBER, PDB_TYPE_COUNT) \
    X(0x1505, " props=", NUMBER, PDB_TYPE_WORD) \
    X(0x1505, " fields=", OPTIONAL, PDB_TYPE_LIST) \
    X(0x1505, " derived=", OPTIONAL, PDB_TYPE_OTHER) \
    X(0x1505, " shape=", OPTIONAL, PDB_TYPE_LAST) \
    X(0x1505, " size=", NUMERAL, PDB_TYPE_SIZE) \
    X(0x1505, " name=", PART, PDB_TYPE_NAME) \
    X(0x1505, " unique=", PART, PDB_TYPE_UNIQUE) \
    X(0x1519, " kind=Interface", ALONE, 0) \
    X(0x1519, " count=", NUMBER, PDB_TYPE_COUNT) \
    X(0x1519, " props=", NUMBER, PDB_TYPE_WORD) \
    X(0x1519, " fields=", OPTIONAL, PDB_TYPE_LIST) \
    X(0x1519, " derived=", OPTIONAL, PDB_TYPE_OTHER) \
    X(0x1519, " shape=", OPTIONAL, PDB_TYPE_LAST) \
    X(0x1519, " size=", NUMERAL, PDB_TYPE_SIZE) \
    X(0x1519, " name=", PART, PDB_TYPE_NAME) \
    X(0x1519, " unique=", PART, PDB_TYPE_UNIQUE) \
    X(0x1609, " kind=Struct19", ALONE, 0) \
    X(0x1609, " count=", NUMBER, PDB_TYPE_COUNT) \
    X(0x1609, " props=", NUMBER, PDB_TYPE_WORD) \
    X(0x1609, " fields=", OPTIONAL, PDB_TYPE_LIST) \
    X(0x1609, " derived=", OPTIONAL, PDB_TYPE_OTHER) \
    X(0x1609, " shape=", OPTIONAL, PDB_TYPE_LAST) \
    X(0x1609, " size=", NUMERAL, PDB_TYPE_SIZE) \
    X(0x1609, " name=", PART, PDB_TYPE_NAME) \
    X(0x1609, " unique=", PART, PDB_TYPE_UNIQUE) \
    X(0x1506, " count=", NUMBER, PDB_TYPE_COUNT) \
    X(0x1506, " props=", NUMBER, PDB_TYPE_WORD) \
    X(0x1506, " fields=", NUMBER, PDB_TYPE_LIST) \
    X(0x1506, " size=", NUMERAL, PDB_TYPE_SIZE) \
    X(0x1506, " name=", PART, PDB_TYPE_NAME) \
    X(0x1506, " unique=", PART, PDB_TYPE_UNIQUE) \
    X(0x1507, " count=", NUMBER, PDB_TYPE_COUNT) \
    X(0x1507, " props=", NUMBER, PDB_TYPE_WORD) \
    X(0x1507, " t=", NUMBER, PDB_TYPE_TYPE) \
    X(0x1507, " fields=", NUMBER, PDB_TYPE_LIST) \
    X(0x1507, " name=", PART, PDB_TYPE_NAME) \
    X(0x1507, " unique=", PART, PDB_TYPE_UNIQUE) \
    X(0x000a, " count=", NUMBER, PDB_TYPE_COUNT) \
    X(0x000a, " bytes=", PART, PDB_TYPE_NAME)

#endif
