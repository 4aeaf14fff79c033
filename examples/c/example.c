/* Runs a trust book, explains it, writes what its run left for the next day, loads it and writes it, and prints what each call
 * answers and leaves in lent memory.
 *
 * To compile and run it, in the folder of the repository:
 *
 *     (cd crates/capi && rt lib)
 *     cc -std=c11 -I crates/capi/include -o example examples/c/example.c crates/capi/out/libcapi.a
 *     ./example examples/w.book
 *
 * w.out, posting.out, correction.out, leak.out, monday.out and tuesday.out have what it has to print for these books, which the
 * proved code had no part in. It is C++ too. */
#include "kagyurma.h"

#include <inttypes.h>
#include <stdbool.h>
#include <stdio.h>
#include <string.h>

#define COUNT(array) (sizeof(array) / sizeof((array)[0]))

enum { PLACES = 512, RECORD = 8, BUDGET = 100000 };

/* All memory is filled with bytes of this value before a call, to show what the call sets and what it leaves alone. */
enum { UNTOUCHED = 0xA5 };

/* The cells, in exactly the sizes that are not refused. */
struct cells {
    int32_t amounts[PLACES];
    uint64_t presence[PLACES / 64];
    uint64_t labels[PLACES * (PLACES / 64)];
};

/* None of this is on the stack, which a run may need for itself. */
static struct cells cells;
static uint8_t trace[4096];
static uint8_t out[60000];

/* What the run left, to compare with it what explaining leaves, and to write it for the next day. */
static struct cells cells_of_run;
static uint8_t trace_of_run[sizeof trace];
static uint8_t next_day[sizeof out];

/* A book has at most 60,000 bytes. There is room for one more, so that a longer file is refused and not cut. */
static uint8_t file[60001];

/* ---- what lent memory holds */

static unsigned place_of(unsigned table, unsigned owner, unsigned line)
{
    return 64 * table + 8 * owner + line;
}

static void print_place(unsigned place)
{
    printf("(%u,%u,%u)", place / 64, place / 8 % 8, place % 8);
}

/* Whether a set of places has this one. Presence is such a set, and each label is one. */
static bool has(const uint64_t *set, unsigned place)
{
    return set[place / 64] >> (place % 64) & 1;
}

static const uint64_t *label_of(unsigned place)
{
    return &cells.labels[8 * place];
}

static bool is_alone_in(const uint64_t *set, unsigned place)
{
    for (unsigned other = 0; other < PLACES; other++) {
        if (has(set, other) != (other == place)) {
            return false;
        }
    }
    return true;
}

/* Whether the place is as in a book that has no cell there: absent, with the amount 0, and labelled by itself. */
static bool is_blank(unsigned place)
{
    return !has(cells.presence, place) && cells.amounts[place] == 0 && is_alone_in(label_of(place), place);
}

static void print_cell(unsigned place)
{
    printf("cell ");
    print_place(place);
    printf(": %s, amount %" PRId32 ", label {", has(cells.presence, place) ? "present" : "absent", cells.amounts[place]);
    for (unsigned other = 0; other < PLACES; other++) {
        if (has(label_of(place), other)) {
            printf(" ");
            print_place(other);
        }
    }
    printf(" }\n");
}

static void print_cells(void)
{
    unsigned blank = 0;
    for (unsigned place = 0; place < PLACES; place++) {
        if (is_blank(place)) {
            blank++;
        } else {
            print_cell(place);
        }
    }
    printf("other places: %u, absent, amount 0, label the place itself\n", blank);
}

/* A record has a kind (1 out, 2 read granted, 3 write granted, 4 read revoked, 5 write revoked), a user, a region, a zero, and
 * an amount in 32 bits, lowest byte first. */
static void print_record(const uint8_t *record)
{
    uint32_t bits = 0;
    for (int byte = 3; byte >= 0; byte--) {
        bits = bits << 8 | record[4 + byte];
    }
    printf("record: kind %d, user %d, region %d, zero %d, amount %" PRId32 "\n", record[0], record[1], record[2], record[3],
           (int32_t)bits);
}

/* Prints how many of a buffer's bytes there are after the first `used`, and how many of those no call has set. */
static void print_rest(const char *name, const uint8_t *buffer, size_t size, size_t used)
{
    size_t untouched = 0;
    for (size_t at = used; at < size; at++) {
        untouched += buffer[at] == UNTOUCHED;
    }
    printf("%s bytes after that: %zu, untouched: %zu\n", name, size - used, untouched);
}

/* ---- the four calls */

/* A refused call leaves lent memory as it was, so that there is nothing to print. */
static bool is_refusal(uint32_t number)
{
    return (1 <= number && number <= 10) || number == 32;
}

static void print_answer(const char *call, struct kagyurma_answered answer)
{
    printf("%s: number %" PRIu32 ", at %" PRIu32 ", length %" PRIu32 "\n", call, answer.number, answer.at, answer.length);
}

static void fill_cells_and_trace(void)
{
    memset(&cells, UNTOUCHED, sizeof cells);
    memset(trace, UNTOUCHED, sizeof trace);
}

/* Gives whether the book was accepted. */
static bool run_book(const uint8_t *book, size_t length)
{
    fill_cells_and_trace();
    const struct kagyurma_ran ran = kagyurma_run(book, length, BUDGET,
                                                 cells.amounts, COUNT(cells.amounts),
                                                 cells.presence, COUNT(cells.presence),
                                                 cells.labels, COUNT(cells.labels),
                                                 trace, sizeof trace);
    printf("run: number %" PRIu32 ", at %" PRIu32 ", cost %" PRIu32 ", bytes %" PRIu32 "\n", ran.number, ran.at, ran.cost,
           ran.bytes);
    if (is_refusal(ran.number)) {
        return false;
    }
    for (size_t at = 0; at + RECORD <= ran.bytes; at += RECORD) {
        print_record(&trace[at]);
    }
    print_rest("trace", trace, sizeof trace, ran.bytes);
    print_cells();
    return true;
}

/* Prints which cells stood in the way of the run: places of a set that had to lie within another, which lacks them. */
static void print_in_the_way(uint32_t place, uint32_t count)
{
    if (place == KAGYURMA_NO_PLACE) {
        printf("no place stands in the way\n");
    } else {
        printf("places in the way: %" PRIu32 ", the lowest: table %" PRIu32 ", owner %" PRIu32 ", line %" PRIu32 "\n", count,
               place / 64, place / 8 % 8, place % 8);
    }
}

/* Explains the run that was made just before. */
static void explain_book(const uint8_t *book, size_t length)
{
    memcpy(&cells_of_run, &cells, sizeof cells);
    memcpy(trace_of_run, trace, sizeof trace);
    fill_cells_and_trace();
    const struct kagyurma_explained explained = kagyurma_explain(book, length, BUDGET,
                                                                 cells.amounts, COUNT(cells.amounts),
                                                                 cells.presence, COUNT(cells.presence),
                                                                 cells.labels, COUNT(cells.labels),
                                                                 trace, sizeof trace);
    printf("explain: number %" PRIu32 ", at %" PRIu32 ", cost %" PRIu32 ", bytes %" PRIu32 ", place %" PRIu32 ", count %" PRIu32
           "\n", explained.number, explained.at, explained.cost, explained.bytes, explained.place, explained.count);
    print_in_the_way(explained.place, explained.count);
    const bool same = memcmp(&cells, &cells_of_run, sizeof cells) == 0 && memcmp(trace, trace_of_run, sizeof trace) == 0;
    printf("cells and trace are %s\n", same ? "as the run left them, byte for byte" : "OTHERS than the run left");
}

/* Gives whether the book was accepted. */
static bool load_book(const uint8_t *book, size_t length)
{
    memset(&cells, UNTOUCHED, sizeof cells);
    const struct kagyurma_answered answer = kagyurma_load(book, length,
                                                          cells.amounts, COUNT(cells.amounts),
                                                          cells.presence, COUNT(cells.presence),
                                                          cells.labels, COUNT(cells.labels));
    print_answer("load", answer);
    if (is_refusal(answer.number)) {
        return false;
    }
    print_cells();
    return true;
}

/* Writes the book to `out`, with these cells and labels for its own. Gives the length of the new book. */
static size_t write_book(const uint8_t *book, size_t length, const struct cells *held)
{
    memset(out, UNTOUCHED, sizeof out);
    const struct kagyurma_answered answer = kagyurma_write(book, length,
                                                           held->amounts, COUNT(held->amounts),
                                                           held->presence, COUNT(held->presence),
                                                           held->labels, COUNT(held->labels),
                                                           out, sizeof out);
    print_answer("write", answer);
    print_rest("output", out, sizeof out, answer.length);
    return answer.length;
}

/* ---- a book read, changed and written */

/* A book of version 2 is written back byte for byte. One of version 1 crosses over: its records stay as they are, and what
 * follows them is 40 bytes instead of 36. */
static void write_back(const uint8_t *book, size_t length)
{
    const size_t written = write_book(book, length, &cells);
    const bool same = written == length && memcmp(out, book, length) == 0;
    const bool crossed = written == length + 4 && book[length - 32] == 1 && out[written - 32] == 2
        && memcmp(out, book, length - 36) == 0;
    printf("the book written back is %s\n",
           same ? "the file, byte for byte" : crossed ? "the file's records in version 2" : "ANOTHER");
}

/* Writes what the run left as the book of the next day, and loads that. A cell that is labelled by itself alone needs no label
 * record; how many there are stands 38 bytes before the end. */
static void write_next_day(const uint8_t *book, size_t length)
{
    printf("for the next day, with what the run left:\n");
    const size_t written = write_book(book, length, &cells_of_run);
    memcpy(next_day, out, sizeof out);
    printf("label records: %d\n", next_day[written - 38] + 256 * next_day[written - 37]);
    memset(&cells, UNTOUCHED, sizeof cells);
    const struct kagyurma_answered answer = kagyurma_load(next_day, written,
                                                          cells.amounts, COUNT(cells.amounts),
                                                          cells.presence, COUNT(cells.presence),
                                                          cells.labels, COUNT(cells.labels));
    print_answer("load", answer);
    const bool same = memcmp(&cells, &cells_of_run, sizeof cells) == 0;
    printf("cells and labels are %s\n", same ? "as the run left them, byte for byte" : "OTHERS than the run left");
}

/* To clear a cell is to take its bit out of presence; what its amount is then does not count, but its label does. */
static void write_changed(const uint8_t *book, size_t length)
{
    const unsigned changed = place_of(0, 1, 0);
    const unsigned cleared = place_of(0, 2, 0);
    cells.amounts[changed] = -5;
    cells.presence[changed / 64] |= UINT64_C(1) << (changed % 64);
    cells.presence[cleared / 64] &= ~(UINT64_C(1) << (cleared % 64));
    memcpy(&cells.labels[8 * changed], label_of(cleared), 8 * sizeof cells.labels[0]);
    printf("with (0,1,0) holding -5 and labelled as (0,2,0) is, and (0,2,0) cleared:\n");
    const size_t written = write_book(book, length, &cells);
    for (size_t at = 0; at < written; at++) {
        printf("%02x%s", out[at], at % 16 == 15 || at + 1 == written ? "\n" : " ");
    }
}

/* Gives whether the file can be read; if so, its first bytes are in `file`. */
static bool read_file(const char *path, size_t *length)
{
    FILE *const stream = fopen(path, "rb");
    if (stream == NULL) {
        return false;
    }
    *length = fread(file, 1, sizeof file, stream);
    const bool good = !ferror(stream);
    fclose(stream);
    return good;
}

int main(int argc, char **argv)
{
    size_t length = 0;
    if (argc != 2) {
        fprintf(stderr, "usage: example FILE\n");
        return 2;
    }
    if (!read_file(argv[1], &length)) {
        fprintf(stderr, "example: not a file that can be read: %s\n", argv[1]);
        return 2;
    }
    const bool accepted = run_book(file, length);
    explain_book(file, length);
    if (accepted) {
        write_next_day(file, length);
    }
    if (load_book(file, length)) {
        write_back(file, length);
        write_changed(file, length);
    }
    return 0;
}
