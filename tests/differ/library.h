/* What the static libraries export: the customers' header, and the probe. */
#ifndef DIFFER_LIBRARY_H
#define DIFFER_LIBRARY_H

#include "../../include/uisnabar.h"

/* For tests only; a slice passes as pointer and length.  The first two return
 * the verdict, the writer the length written.  An answer buffer that is not 24
 * bytes keeps its bytes and the verdict returned is ANSWER's, but the work is
 * done all the same. */
uint32_t probe_table(const uint8_t *program, size_t program_len,
                     const uint8_t *memory, size_t memory_len,
                     uint64_t pc, uint64_t fp,
                     uint8_t *exec, size_t exec_len,
                     uint8_t *ext, size_t ext_len,
                     uint8_t *answer, size_t answer_len);
uint32_t probe_make(uint32_t version, uint64_t seed, uint32_t m, uint32_t n,
                    uint8_t *program, size_t program_len,
                    uint8_t *memory, size_t memory_len,
                    uint8_t *answer, size_t answer_len);
uint32_t probe_write(uint32_t version, uint64_t seed, uint32_t m, uint32_t n,
                     uint8_t *text, size_t text_len,
                     uint8_t *answer, size_t answer_len);

#endif
