/* Every refusal of the four calls, and that a refused call leaves lent memory as it was.
 *
 * Prints a line for each case: what is wrong, and for each call its answer, field by field, and whether it touched lent memory.
 * refusals.out has these lines, which the proved code had no part in. example.c, beside this, shows what the calls are for. */
#include "kagyurma.h"

#include <inttypes.h>
#include <stdio.h>
#include <string.h>

/* Book W of the scope document with a skip, a second program and two triggers, so that each kind of record can be bad at
 * another index than 0. Its run ends as W's does, in its first program. */
static const uint8_t BOOK[260] = {
    /* 0: cells: table, owner, line, a zero, amount */
    0, 1, 0, 0, 0xFA, 0, 0, 0,
    0, 2, 0, 0, 0x84, 3, 0, 0,
    /* 16: regions: table, first and last owner, first and last line, three zeros */
    0, 1, 1, 0, 7, 0, 0, 0,
    0, 2, 2, 0, 7, 0, 0, 0,
    /* 32: rights: kind, user, region, a zero */
    1, 1, 0, 0,
    1, 2, 1, 0,
    /* 40: nodes: kind, p; a, b, c, d; k; two zeros */
    1, 0, 0, 0, 0, 0, 0, 0, 0, 0, 0, 0, 0, 0, 0, 0,
    1, 0, 0, 0, 0, 0, 0, 0, 0, 0, 1, 0, 0, 0, 0, 0,
    1, 0, 0, 0, 0, 0, 0, 0, 0, 0, 2, 0, 0, 0, 0, 0,
    1, 0, 0, 0, 0, 0, 0, 0, 0, 0, 7, 0, 0, 0, 0, 0,
    9, 0, 1, 0, 1, 0, 0, 0, 3, 0, 0, 0, 0, 0, 0, 0,
    9, 0, 1, 0, 2, 0, 0, 0, 3, 0, 0, 0, 0, 0, 0, 0,
    23, 1, 4, 0, 0, 0, 0, 0, 0, 0, 0, 0, 0, 0, 0, 0,
    23, 1, 5, 0, 0, 0, 0, 0, 0, 0, 0, 0, 0, 0, 0, 0,
    18, 0, 6, 0, 7, 0, 0, 0, 0, 0, 0, 0, 0, 0, 0, 0,
    16, 0, 0, 0, 0, 0, 0, 0, 0, 0, 0, 0, 0, 0, 0, 0,
    /* 200: programs: user, a zero, root */
    0, 0, 8, 0,
    0, 0, 9, 0,
    /* 208: triggers: region, event, user, a zero, body, two zeros */
    0, 1, 0, 0, 9, 0, 0, 0,
    1, 2, 0, 0, 9, 0, 0, 0,
    /* 224: mark, version, three zeros; distance and count of each section; length */
    'B', 'K', 'W', 'S', 1, 0, 0, 0,
    4, 1, 2, 0, 244, 0, 2, 0, 228, 0, 2, 0, 220, 0, 10, 0, 60, 0, 2, 0, 52, 0, 2, 0,
    4, 1, 0, 0,
};

/* The records of this book, then those of labels, and all that follows in version 2. Cell (0,1,0) has the label of (0,2,0), so
 * that its run stops at the first out; (0,2,1), which is absent, has an empty label. */
enum { RECORDS = 224 };
static const uint8_t TAIL_2[172] = {
    /* 224: labels: place; eight words */
    8, 0,
    0, 0, 1, 0, 0, 0, 0, 0, 0, 0, 0, 0, 0, 0, 0, 0, 0, 0, 0, 0, 0, 0, 0, 0, 0, 0, 0, 0, 0, 0, 0, 0,
    0, 0, 0, 0, 0, 0, 0, 0, 0, 0, 0, 0, 0, 0, 0, 0, 0, 0, 0, 0, 0, 0, 0, 0, 0, 0, 0, 0, 0, 0, 0, 0,
    17, 0,
    0, 0, 0, 0, 0, 0, 0, 0, 0, 0, 0, 0, 0, 0, 0, 0, 0, 0, 0, 0, 0, 0, 0, 0, 0, 0, 0, 0, 0, 0, 0, 0,
    0, 0, 0, 0, 0, 0, 0, 0, 0, 0, 0, 0, 0, 0, 0, 0, 0, 0, 0, 0, 0, 0, 0, 0, 0, 0, 0, 0, 0, 0, 0, 0,
    /* 356: distance and count of the labels */
    172, 0, 2, 0,
    /* 360: mark, version, three zeros; distance and count of each other section; length */
    'B', 'K', 'W', 'S', 2, 0, 0, 0,
    140, 1, 2, 0, 124, 1, 2, 0, 108, 1, 2, 0, 100, 1, 10, 0, 196, 0, 2, 0, 188, 0, 2, 0,
    140, 1, 0, 0,
};

enum { LONGEST = 60000, JUNK = 0xA5 };

/* Memory to lend, with one element more than each call may be told of, and a copy of it as it was before a call. */
struct lent {
    int32_t amounts[513];
    uint64_t presence[9];
    uint64_t labels[4097];
    uint8_t trace[65537];
    uint8_t out[60001];
};
static struct lent lent, before;

/* How many elements a call is told of, and its budget. */
struct sizes {
    size_t amounts, presence, labels, trace, out;
    uint32_t budget;
};

/* What is not refused, with the longest trace and the largest budget. */
static const struct sizes MOST = {512, 8, 4096, 65536, LONGEST, 1000000};

static const struct {
    const char *what;
    struct sizes sizes;
} SIZES[] = {
    {"511 amounts", {511, 8, 4096, 65536, LONGEST, 1000000}},
    {"513 amounts", {513, 8, 4096, 65536, LONGEST, 1000000}},
    {"7 presence words", {512, 7, 4096, 65536, LONGEST, 1000000}},
    {"9 presence words", {512, 9, 4096, 65536, LONGEST, 1000000}},
    {"4095 label words", {512, 8, 4095, 65536, LONGEST, 1000000}},
    {"4097 label words", {512, 8, 4097, 65536, LONGEST, 1000000}},
    {"65537 trace bytes", {512, 8, 4096, 65537, LONGEST, 1000000}},
    {"0 trace bytes", {512, 8, 4096, 0, LONGEST, 1000000}},
    {"budget 1000001", {512, 8, 4096, 65536, LONGEST, 1000001}},
    {"budget 18", {512, 8, 4096, 65536, LONGEST, 18}},
    {"59999 output bytes", {512, 8, 4096, 65536, LONGEST - 1, 1000000}},
    {"60001 output bytes", {512, 8, 4096, 65536, LONGEST + 1, 1000000}},
};

/* One other byte in a book. */
struct fault {
    const char *what;
    size_t at;
    uint8_t byte;
};

/* In the book of version 1. */
static const struct fault FAULTS[] = {
    {"length field 261", 256, 5},
    {"mark BKWT", 227, 'T'},
    {"version 2 without its pair", 228, 2},
    {"version 3", 228, 3},
    {"last zero of the trailer 1", 231, 1},
    {"distance of the rights 229", 240, 229},
    {"3 programs counted", 250, 3},
    {"cell 1 at the place of cell 0", 9, 1},
    {"region 1 to owner 8", 26, 8},
    {"right 1 over region 2", 38, 2},
    {"node 5 on table 8", 121, 8},
    {"node 7 with child 8", 154, 8},
    {"program 1 of user 8", 204, 8},
    {"trigger 1 with an out for body", 220, 6},
};

/* In the book of version 2. */
static const struct fault FAULTS_2[] = {
    {"version 1 with a seventh pair", 364, 1},
    {"version 0", 364, 0},
    {"distance of the labels 171", 356, 171},
    {"3 labels counted", 358, 3},
    {"label 0 at place 520", 225, 2},
    {"label 1 at the place of label 0", 290, 8},
    {"label 1 at a place below", 290, 7},
    {"label 1 its own place alone", 294, 2},
};

/* Whether lent memory is as it was before the call. */
static const char *left(void)
{
    return memcmp(&lent, &before, sizeof lent) == 0 ? "untouched" : "touched";
}

/* Of the 512 bits of such presence words 256 are set, so that a book that is written gets 256 cells. No label is the own place
 * alone, so that it gets 512 label records. */
static void fill(void)
{
    memset(&lent, JUNK, sizeof lent);
    memset(&before, JUNK, sizeof before);
}

static void print_answer(const char *call, struct kagyurma_answered answer)
{
    printf("; %s %" PRIu32 " %" PRIu32 " %" PRIu32 " %s", call, answer.number, answer.at, answer.length, left());
}

static void print_explained(struct kagyurma_explained answer)
{
    printf("; explain %" PRIu32 " %" PRIu32 " %" PRIu32 " %" PRIu32 " %" PRIu32 " %" PRIu32 " %s", answer.number, answer.at,
           answer.cost, answer.bytes, answer.place, answer.count, left());
}

/* Puts a file to the four calls. */
static void call(const char *what, const uint8_t *file, size_t length, struct sizes sizes)
{
    fill();
    const struct kagyurma_ran ran = kagyurma_run(file, length, sizes.budget, lent.amounts, sizes.amounts, lent.presence,
                                                 sizes.presence, lent.labels, sizes.labels, lent.trace, sizes.trace);
    printf("%s: run %" PRIu32 " %" PRIu32 " %" PRIu32 " %" PRIu32 " %s", what, ran.number, ran.at, ran.cost, ran.bytes, left());
    fill();
    print_explained(kagyurma_explain(file, length, sizes.budget, lent.amounts, sizes.amounts, lent.presence, sizes.presence,
                                     lent.labels, sizes.labels, lent.trace, sizes.trace));
    fill();
    print_answer("load", kagyurma_load(file, length, lent.amounts, sizes.amounts, lent.presence, sizes.presence, lent.labels,
                                       sizes.labels));
    fill();
    print_answer("write", kagyurma_write(file, length, lent.amounts, sizes.amounts, lent.presence, sizes.presence, lent.labels,
                                         sizes.labels, lent.out, sizes.out));
    printf("\n");
}

/* Puts a file of this length to the calls: zeros, with its length at its end, so that only the length can be why 2 refuses it. */
static void call_zeros(const char *what, size_t length)
{
    static uint8_t file[LONGEST + 1];
    memset(file, 0, sizeof file);
    file[length - 4] = (uint8_t)(length % 256);
    file[length - 3] = (uint8_t)(length / 256);
    call(what, file, length, MOST);
}

/* Puts a file of this length to the calls that has a trailer of version 2 and no records. It has room for the seventh pair from 40
 * bytes on. */
static void call_short(const char *what, size_t length)
{
    uint8_t file[41] = {0};
    uint8_t *const trailer = &file[length - 36];
    if (length >= 40) {
        file[length - 40] = 40;
    }
    memcpy(trailer, "BKWS\2", 5);
    for (size_t section = 0; section < 6; section++) {
        trailer[8 + 4 * section] = (uint8_t)length;
    }
    trailer[32] = (uint8_t)length;
    call(what, file, length, MOST);
}

static void call_faults(const uint8_t *book, size_t length, const struct fault *faults, size_t count)
{
    uint8_t file[RECORDS + sizeof TAIL_2];
    for (size_t i = 0; i < count; i++) {
        memcpy(file, book, length);
        file[faults[i].at] = faults[i].byte;
        call(faults[i].what, file, length, MOST);
    }
}

int main(void)
{
    call("nothing", BOOK, sizeof BOOK, MOST);
    for (size_t i = 0; i < sizeof SIZES / sizeof SIZES[0]; i++) {
        call(SIZES[i].what, BOOK, sizeof BOOK, SIZES[i].sizes);
    }
    call("last byte left out", BOOK, sizeof BOOK - 1, MOST);
    call_zeros("35 bytes", 35);
    call_zeros("36 bytes, no mark", 36);
    call_zeros("60000 bytes, no mark", LONGEST);
    call_zeros("60001 bytes", LONGEST + 1);
    call_faults(BOOK, sizeof BOOK, FAULTS, sizeof FAULTS / sizeof FAULTS[0]);

    uint8_t book_2[RECORDS + sizeof TAIL_2];
    memcpy(book_2, BOOK, RECORDS);
    memcpy(&book_2[RECORDS], TAIL_2, sizeof TAIL_2);
    call("nothing, in version 2", book_2, sizeof book_2, MOST);
    call_short("36 bytes, version 2", 36);
    call_short("39 bytes, version 2", 39);
    call_short("40 bytes, version 2", 40);
    call_short("41 bytes, version 2", 41);
    call_faults(book_2, sizeof book_2, FAULTS_2, sizeof FAULTS_2 / sizeof FAULTS_2[0]);
    return 0;
}
