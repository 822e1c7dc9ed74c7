/* A second judge, of a memory in one buffer or in two, counter of instruction
 * forms, finder of range checks, tabler, translator of programs of draft 0.5.0,
 * reader and writer of listings, generator's jump, maker and label reader and
 * writer for leanVM test tables, written from the documents alone (see
 * README.md).
 *
 * No function here keeps state, so all may be called from several threads.
 * A pointer may be NULL where its length is 0.  Buffers must not overlap. */
#ifndef SECOND_H
#define SECOND_H

#include <stddef.h>
#include <stdint.h>

/* The four numbers of document 01 and the two of M-104; unnamed ones are 0.
 * Of a lookup whose cells are all there, expected is the word of the first cell
 * that differs and found the word that the table has for it. */
typedef struct {
    uint32_t verdict, part, place, rule, expected, found;
} second_answer;

/* What a label names: the maker's seed, memory of 2^m cells, n instructions,
 * and by which version cells are drawn, 1 or 2. */
typedef struct {
    uint64_t seed;
    uint32_t m, n, version;
} second_recipe;

/* Judges the two tables of a run that starts at pc, fp.  Writes nothing and
 * uses no heap: where pushes and pulls do not stand in one order, the bus is
 * counted tuple by tuple, which takes (pushes + pulls) * (H + K) steps. */
second_answer second_judge(const uint8_t *program, size_t program_len,
                           const uint8_t *memory, size_t memory_len,
                           uint64_t pc, uint64_t fp,
                           const uint8_t *exec, size_t exec_len,
                           const uint8_t *ext, size_t ext_len);

/* The same answers; where pushes and pulls do not stand in one order, the
 * tuples are copied to the heap and sorted. */
second_answer second_judge_sorted(const uint8_t *program, size_t program_len,
                                  const uint8_t *memory, size_t memory_len,
                                  uint64_t pc, uint64_t fp,
                                  const uint8_t *exec, size_t exec_len,
                                  const uint8_t *ext, size_t ext_len);

/* The same of a memory in two buffers: public_words, the first 2^k words for a k
 * below m, and rest, the other ones of 2^m.  Other pairs of lengths are SIZE part
 * 2, also where they would join to a good one.  Words and cells are counted as if
 * the two were joined. */
second_answer second_judge_split(const uint8_t *program, size_t program_len,
                                 const uint8_t *public_words, size_t public_len,
                                 const uint8_t *rest, size_t rest_len,
                                 uint64_t pc, uint64_t fp,
                                 const uint8_t *exec, size_t exec_len,
                                 const uint8_t *ext, size_t ext_len);

/* The same answers, by sorting as second_judge_sorted does. */
second_answer second_judge_split_sorted(
    const uint8_t *program, size_t program_len, const uint8_t *public_words,
    size_t public_len, const uint8_t *rest, size_t rest_len, uint64_t pc,
    uint64_t fp, const uint8_t *exec, size_t exec_len, const uint8_t *ext,
    size_t ext_len);

/* Counters of a grid, 8 bytes each, little-endian: counter 27 * kind + 9 * A +
 * 3 * B + C, kinds ADD, MUL, DEREF, JUMP and extension, modes immediate, cell
 * and fp-relative, each from 0. */
enum { SECOND_COUNTERS = 135, SECOND_GRID_BYTES = 8 * SECOND_COUNTERS };

/* Judges, and where all is accepted adds one to the grid for each execution
 * row.  GRID, tested last, where the total would pass 2^63 - 1.  The grid may
 * hold anything; it changes on ACCEPTED alone. */
second_answer second_count(const uint8_t *program, size_t program_len,
                           const uint8_t *memory, size_t memory_len,
                           uint64_t pc, uint64_t fp,
                           const uint8_t *exec, size_t exec_len,
                           const uint8_t *ext, size_t ext_len, uint8_t *grid);

/* The same, by second_judge_sorted. */
second_answer second_count_sorted(const uint8_t *program, size_t program_len,
                                  const uint8_t *memory, size_t memory_len,
                                  uint64_t pc, uint64_t fp,
                                  const uint8_t *exec, size_t exec_len,
                                  const uint8_t *ext, size_t ext_len,
                                  uint8_t *grid);

/* Judges, and where all is accepted writes a row and a bound, 4 bytes each,
 * little-endian, for each range check, in the order of the rows, and gives their
 * number.  LIST, tested last, where they do not fit, with their number as place.
 * On refusal no byte of finds changes and *found is 0.  Bytes of finds after the
 * last keep what they held. */
second_answer second_ranges(const uint8_t *program, size_t program_len,
                            const uint8_t *memory, size_t memory_len,
                            uint64_t pc, uint64_t fp,
                            const uint8_t *exec, size_t exec_len,
                            const uint8_t *ext, size_t ext_len,
                            uint8_t *finds, size_t finds_len, uint64_t *found);

/* The same, by second_judge_sorted. */
second_answer second_ranges_sorted(const uint8_t *program, size_t program_len,
                                   const uint8_t *memory, size_t memory_len,
                                   uint64_t pc, uint64_t fp,
                                   const uint8_t *exec, size_t exec_len,
                                   const uint8_t *ext, size_t ext_len,
                                   uint8_t *finds, size_t finds_len,
                                   uint64_t *found);

/* Writes a line for each counter that is not 0, and the report's length; where
 * it does not fit, SIZE part 5, no byte of text changes and *written is 0.
 * Bytes of text after the report keep what they held. */
second_answer second_report(const uint8_t *grid, uint8_t *text, size_t text_len,
                            uint64_t *written);

/* Runs the program and fills both tables.  Verdicts 1 to 4 change no byte;
 * 9, 10 and 11 leave both tables all zero. */
second_answer second_table(const uint8_t *program, size_t program_len,
                           const uint8_t *memory, size_t memory_len,
                           uint64_t pc, uint64_t fp,
                           uint8_t *exec, size_t exec_len,
                           uint8_t *ext, size_t ext_len);

/* A program of draft 0.5.0 (14 words an instruction, in the order of its 3.1.3)
 * into the form of draft 0.6.0 (12 words).  The old bytes of program are not
 * looked at, and change on ACCEPTED alone. */
second_answer second_translate(const uint8_t *old, size_t old_len,
                               uint8_t *program, size_t program_len);

/* A machine's registers. */
typedef struct {
    uint32_t pc, fp;
} second_state;

/* One step of the 0.5.0 machine: gives 0 and moves the state on, or gives the
 * rule by which it is STUCK, 1 to 6, and lets the state stand.  The program
 * must be one that second_translate takes; all words are below p. */
uint32_t second_old_step(const uint8_t *old, size_t old_len,
                         const uint8_t *memory, size_t memory_len,
                         second_state *s);

/* Writes a program's listing, a line for each instruction, and its length.  On
 * refusal no byte of text changes and *written is 0: SHORT, with the bytes
 * needed as place, comes after SIZE, WORD and INSTRUCTION.  Bytes of text after
 * the listing keep what they held. */
second_answer second_list(const uint8_t *program, size_t program_len,
                          uint8_t *text, size_t text_len, uint64_t *written);

/* Reads a listing into a program, whose room may be of any length, and gives
 * the bytes written.  On refusal no byte of program changes and *written is 0:
 * LISTING, with the longest prefix that the text shares with any listing as
 * place, then SHORT.  Bytes of program after the last instruction keep what
 * they held. */
second_answer second_read_listing(const uint8_t *text, size_t text_len,
                                  uint8_t *program, size_t program_len,
                                  uint64_t *written);

/* The generator's state after so many draws, none of which is drawn. */
uint64_t second_jump(uint64_t state, uint64_t draws);

/* The state that a host starts from, host * 2^40 draws after the seed; HOST for
 * a host at or above 2^24, and *next is the seed then. */
second_answer second_host(uint64_t seed, uint64_t host, uint64_t *next);

/* Fills program (48 * (n + 1) bytes) and memory (4 * 2^m bytes) from a
 * recipe; a refusal changes no byte. */
second_answer second_make(second_recipe r, uint8_t *program, size_t program_len,
                          uint8_t *memory, size_t memory_len);

/* Reads a label; on refusal *out is all 0. */
second_answer second_read_label(const uint8_t *text, size_t len,
                                second_recipe *out);

/* Writes a label and its length; on refusal no byte of out changes and
 * *length is 0.  Bytes of out after the label keep what they held. */
second_answer second_write_label(second_recipe r, uint8_t *out, size_t len,
                                 uint32_t *length);

#endif
