/* Kagyurma: runs, explains, loads and writes trust books. Link libcapi.a, which `rt staticlib capi` makes.
 *
 * All memory is the caller's. Each pointer comes with the number of its elements; it is not null, even where that number is 0,
 * and no two of them overlap where one is written. No function keeps a pointer, allocates memory, or fails in another way than
 * its answer says, given stack enough: a proof says nothing of the stack. kagyurma_run and kagyurma_explain need up to 8 MiB of
 * it (the book that nests deepest takes 4.1 MB). A refused call leaves lent memory as it was.
 *
 * Lent memory has exactly 512 amounts, one for each place (64 * table + 8 * owner + line); 8 presence words, with bit
 * 8 * owner + line of word `table` for a place; and 4096 label words, 8 for each place, with the same bits. Any other number of
 * elements is refusal 1. */
#ifndef KAGYURMA_H
#define KAGYURMA_H

#include <stddef.h>
#include <stdint.h>

#ifdef __cplusplus
extern "C" {
#endif

/* How a run ended. number: 0 if it finished, 1 to 10 or 32 if the call was refused, 21 to 31 if the run stopped. at: the index of the
 * first bad record (0 for refusals 1 to 4), or the node of the stop. cost: what the run spent. bytes: how many bytes of the
 * trace it wrote. Cost and bytes are 0 if the call was refused. */
struct kagyurma_ran {
    uint32_t number;
    uint32_t at;
    uint32_t cost;
    uint32_t bytes;
};

/* The place where there is none: places are 0 to 511. */
#define KAGYURMA_NO_PLACE 512

/* How an explained run ended: its first four numbers are those of the run. Stops 25, 26, 27 and 29 are about a set of places that
 * does not lie within another. place: the lowest place of the first that the second lacks. count: how many such places there
 * are. After any other end place is KAGYURMA_NO_PLACE and count is 0. */
struct kagyurma_explained {
    uint32_t number;
    uint32_t at;
    uint32_t cost;
    uint32_t bytes;
    uint32_t place;
    uint32_t count;
};

/* How loading or writing ended. number: 0 if it was done, or the refusal, 1 to 10 or 32. at: the index of the first bad record.
 * length: how many bytes of the output the written book has; 0 for a load and for a refusal. */
struct kagyurma_answered {
    uint32_t number;
    uint32_t at;
    uint32_t length;
};

/* Runs the book in `file` with a budget of at most 1000000 and a trace of at most 65536 bytes. Lent memory is set to the start
 * state of the book, and then holds the writes of its scripts, up to the stop if the run stopped. If it stopped inside a
 * trigger's body, the program's own put or clear from which it came is taken back: all cells, present or absent, and their labels
 * are as before that command. The trace gets a record of 8 bytes for each out, grant and revoke, and keeps those before a stop; its
 * later bytes stay as they were. */
struct kagyurma_ran kagyurma_run(const uint8_t *file, size_t file_len, uint32_t budget,
                                 int32_t *amounts, size_t amounts_len,
                                 uint64_t *presence, size_t presence_len,
                                 uint64_t *labels, size_t labels_len,
                                 uint8_t *trace, size_t trace_len);

/* Runs the book as kagyurma_run does, with the same answer and the same memory, and names the cell in the way of its stop, by the
 * sets as they were when it stopped, before anything was taken back. This is for the office: what it names may be a cell that no
 * owner may know of. */
struct kagyurma_explained kagyurma_explain(const uint8_t *file, size_t file_len, uint32_t budget,
                                           int32_t *amounts, size_t amounts_len,
                                           uint64_t *presence, size_t presence_len,
                                           uint64_t *labels, size_t labels_len,
                                           uint8_t *trace, size_t trace_len);

/* Sets lent memory to the start state of the book in `file`: its cells, and for each place the label of its label record, or where it has
 * none the label that holds this place alone. A version 1 file has no label records. */
struct kagyurma_answered kagyurma_load(const uint8_t *file, size_t file_len,
                                       int32_t *amounts, size_t amounts_len,
                                       uint64_t *presence, size_t presence_len,
                                       uint64_t *labels, size_t labels_len);

/* Writes the book in `file`, with the present cells of lent memory for its own, as version 2 to the start of `out`, which has at least
 * 60000 bytes. Label records stand for just the places, present or absent, whose label is not this place alone: so the next day's run starts
 * with the labels that a run left. The bytes of `out` after the book stay as they were. */
struct kagyurma_answered kagyurma_write(const uint8_t *file, size_t file_len,
                                        const int32_t *amounts, size_t amounts_len,
                                        const uint64_t *presence, size_t presence_len,
                                        const uint64_t *labels, size_t labels_len,
                                        uint8_t *out, size_t out_len);

#ifdef __cplusplus
}
#endif

#endif
