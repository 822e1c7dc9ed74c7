/* Uisnabar's C library: the judge of leanVM tables, counts of the instruction forms that they reach, range checks in
 * them, programs from draft 0.5.0, listings of programs, streams of many hosts from one seed, and the reader of labels.
 *
 * Link with libuisnabar.a, as `./bench lib` builds it (x86-64, System V calls); where it is installed, pkg-config
 * knows it as uisnabar. Every function returns; they keep nothing between calls and use no heap; they may be called
 * from several threads at once. CHANGELOG.md says what a driver's author has to change from one version to the next.
 *
 * Buffers. Each is a pointer and its length in bytes. The caller owns every buffer and may free or change it once the
 * call returned. A pointer may be null where its length is 0. A buffer that is written must not overlap any other.
 * Inputs are read only within their lengths and never written. Lengths and contents may be anything: what is wrong
 * with them is the answer. No buffer need be aligned. A word of an input is 4 bytes, little-endian, below p = 2^31 -
 * 2^24 + 1 = 2,130,706,433.
 *
 * Answers. The verdict is returned. The six numbers verdict, part, place, rule, expected and found are written to
 * `answer`, UISNABAR_ANSWER_BYTES in every call, on every verdict but ANSWER: in this order, 4 bytes each,
 * little-endian; a number that a verdict does not name is 0. Tests run in number order, but ANSWER first: `answer`,
 * `grid`, `written`, `found`, `next` or `recipe` has another length than is named below. No buffer is written then, so
 * a driver looks at the returned verdict before it reads one. docs/VERDICTS.md is the same table at length.
 *
 * Expected and found, bytes 16 to 19 and 20 to 23, are of lookups: EXEC with rule 2, 3 or 4, and EXTENSION with rule
 * 18, 19, 20 or 21. Where every cell that the rule looks up is below M, the number of cells, expected is the word that
 * the memory's cell holds, and found the word that the table's column has; of five cells, those of the first that
 * differs. The two differ then, so one of them may be 0, and not both. Both 0 says nothing: the answer is of another
 * verdict or rule, or a cell that the rule looks up is not below M; of five any one, even where an earlier one differs.
 */
#ifndef UISNABAR_H
#define UISNABAR_H

#include <stddef.h>
#include <stdint.h>

/* The version of this header and of the library it was made for. */
#define UISNABAR_VERSION "4.2.0"
/* The length of `answer`, and of `recipe`. Later versions may ask for more: use these names, and no number. */
#define UISNABAR_ANSWER_BYTES 24
#define UISNABAR_RECIPE_BYTES 20
/* The length of `grid` and of `written`, and of the longest report that there is. */
#define UISNABAR_GRID_BYTES 1080
#define UISNABAR_WRITTEN_BYTES 8
#define UISNABAR_REPORT_BYTES 5076
/* The length of `found`; and of one find: the finds of a table of H rows are at most H - 2 times so many bytes. */
#define UISNABAR_FOUND_BYTES 8
#define UISNABAR_FIND_BYTES 8
/* The longest line of a listing, its LF too: a listing of L instructions has at most L times so many bytes. */
#define UISNABAR_LINE_BYTES 77
/* The length of `next`; and how many hosts there are, 2^24: they are 0 to UISNABAR_HOSTS - 1. */
#define UISNABAR_NEXT_BYTES 8
#define UISNABAR_HOSTS 16777216
/* A call uses no more stack than this; uisnabar_count, which holds a grid beside the judge, no more than the second. */
#define UISNABAR_STACK_BYTES 24576
#define UISNABAR_COUNT_STACK_BYTES 25600

#ifdef __cplusplus
extern "C" {
#endif

/* Parts are 1 program, 2 memory, 3 execution table, 4 extension table. 9 to 11 are the tabler's, and no function here
 * returns them. 12 is no verdict: it was the replay program's SELF before 4.0.0, and is not used again. */
enum uisnabar_verdict {
    UISNABAR_ACCEPTED = 0,
    UISNABAR_SIZE = 1,        /* part: the lowest of bad length; part 5, place: bytes that `text` would need */
    UISNABAR_WORD = 2,        /* part, place: the first word at or above p, by part */
    UISNABAR_INSTRUCTION = 3, /* part 1, place: the first malformed instruction */
    UISNABAR_START = 4,       /* row 0 of the execution table isn't the start */
    UISNABAR_EXEC = 5,        /* part 3, place: row, rule: 1 to 16; first by row, then by rule. Expected and found of a
                               * lookup, rule 2, 3 or 4: the cell at addr A, B or C, and value A, B or C */
    UISNABAR_EXTENSION = 6,   /* part 4, place: row, rule: first by row, then 18 to 21, then 1 to 17. Of a lookup, rule
                               * 18: the cell at idxA, and vA base; 19, 20 or 21: of the five cells from idxA, idxB or
                               * idxR on the first that differs, and the word of vA, vB or res in its place */
    UISNABAR_BUS = 7,         /* part 3, place: first pushing row of an unequal tuple; else part 4, first pulling row */
    UISNABAR_LABEL = 8,       /* place: longest prefix shared with any valid label */
    UISNABAR_STUCK = 9,
    UISNABAR_ROOM = 10,
    UISNABAR_OPEN = 11,
    UISNABAR_ANSWER = 13,     /* a buffer of fixed length is of another; nothing is written */
    UISNABAR_GRID = 14,       /* the counters' total would pass 2^63 - 1 */
    UISNABAR_EDITION = 15,    /* place: the first instruction of draft 0.5.0 that is not translatable */
    UISNABAR_LISTING = 16,    /* place: longest prefix shared with any valid listing */
    UISNABAR_SHORT = 17,      /* place: bytes that the buffer for a listing, or for its program, would need */
    UISNABAR_HOST = 18,       /* a host's number is at or above UISNABAR_HOSTS */
    UISNABAR_LIST = 19        /* place: finds, for which the buffer is too short */
};

/* A verdict's name, "unknown" for a number that is none. */
static inline const char *uisnabar_name(uint32_t verdict)
{
    switch (verdict) {
    case UISNABAR_ACCEPTED: return "ACCEPTED";
    case UISNABAR_SIZE: return "SIZE";
    case UISNABAR_WORD: return "WORD";
    case UISNABAR_INSTRUCTION: return "INSTRUCTION";
    case UISNABAR_START: return "START";
    case UISNABAR_EXEC: return "EXEC";
    case UISNABAR_EXTENSION: return "EXTENSION";
    case UISNABAR_BUS: return "BUS";
    case UISNABAR_LABEL: return "LABEL";
    case UISNABAR_STUCK: return "STUCK";
    case UISNABAR_ROOM: return "ROOM";
    case UISNABAR_OPEN: return "OPEN";
    case UISNABAR_ANSWER: return "ANSWER";
    case UISNABAR_GRID: return "GRID";
    case UISNABAR_EDITION: return "EDITION";
    case UISNABAR_LISTING: return "LISTING";
    case UISNABAR_SHORT: return "SHORT";
    case UISNABAR_HOST: return "HOST";
    case UISNABAR_LIST: return "LIST";
    }
    return "unknown";
}

/* The judge: do the tables satisfy the constraints of leanVM draft 0.6.0?
 *
 *   program  1 to 2^20 instructions of 48 bytes: operands A, B, C; flags fA, fB, fC, fpC, fpAB; MUL, JUMP, AUX; DATA
 *   memory   2^m words of 4 bytes, m from 8 to 29
 *   pc, fp   the start. 64 bits wide and compared whole: a number at or above p is no row's and gives START
 *   exec     H rows of 32 bytes, H a power of two from 2^8 to 2^25: pc, fp, addr A, B, C, value A, B, C
 *   ext      K rows of 120 bytes, K a power of two from 2^8 to 2^20: start, add, mul, peq, len, idxA, idxB, idxR, be,
 *            vA base; then vA, vB, comp, res of five words each
 *
 * Returns ACCEPTED, 1 to 7, or ANSWER. Time grows with the bytes handed in where groups stand in execution order, as a
 * tabler writes them. In other orders it grows faster: of tables of the largest sizes that were chosen to be refused,
 * the slowest that we know took five and a half minutes (docs/DECISIONS.md, "The bus in the judge"). A driver that
 * judges what strangers send may want to bound its own time.
 */
uint32_t uisnabar_judge(const uint8_t *program, size_t program_len, const uint8_t *memory, size_t memory_len,
                        uint64_t pc, uint64_t fp, const uint8_t *exec, size_t exec_len,
                        const uint8_t *ext, size_t ext_len, uint8_t *answer, size_t answer_len);

/* The judge of a memory in two buffers, for drivers that hold the public words apart. Its answer, all six numbers, is
 * uisnabar_judge's on the two joined, which is proved: WORD part 2 counts words as if joined, and five cells that are
 * looked up may stand in both.
 *
 *   program, pc to ext   as the judge takes them
 *   public_words         the first 2^m' words of the memory, m' from 0 to m - 1
 *   rest                 its other 2^m - 2^m' words, m from 8 to 29
 *
 * Returns what the judge returns. Every other pair of lengths is SIZE part 2, even where the two join to a memory that
 * the judge takes: no public words, no rest (m' is m), or 3 words and 253.
 */
uint32_t uisnabar_judge_split(const uint8_t *program, size_t program_len,
                              const uint8_t *public_words, size_t public_len, const uint8_t *rest, size_t rest_len,
                              uint64_t pc, uint64_t fp, const uint8_t *exec, size_t exec_len,
                              const uint8_t *ext, size_t ext_len, uint8_t *answer, size_t answer_len);

/* Form counts over a campaign: judges as uisnabar_judge does, and where it accepts adds to the grid one for each
 * execution row, to the counter of its instruction's form; halting rows too.
 *
 *   program to ext   as the judge takes them
 *   grid     UISNABAR_GRID_BYTES: 135 counters of 8 bytes, little-endian; all zero in a fresh grid. Counter 27·kind +
 *            9·A + 3·B + C, kind: add 0, mul 1, deref 2, jump 3, extension 4; A, B, C, the operands' modes: immediate
 *            0, cell 1, fp-relative 2. Written on ACCEPTED alone, else as it was; it may hold anything
 *
 * Returns the judge's verdict; GRID, where the sum of all counters and the rows would pass 2^63 - 1; or ANSWER.
 */
uint32_t uisnabar_count(const uint8_t *program, size_t program_len, const uint8_t *memory, size_t memory_len,
                        uint64_t pc, uint64_t fp, const uint8_t *exec, size_t exec_len,
                        const uint8_t *ext, size_t ext_len, uint8_t *grid, size_t grid_len,
                        uint8_t *answer, size_t answer_len);

/* A grid's report: for each counter that is not zero, in the grid's order, a line such as `add.cell.imm.fp=12`, ended
 * by LF. Kinds are add, mul, deref, jump and ext, modes imm, cell and fp.
 *
 *   grid     as above; it may hold anything
 *   text     any length, at most UISNABAR_REPORT_BYTES are ever needed; bytes after the report keep what they held
 *   written  UISNABAR_WRITTEN_BYTES, little-endian: the report's length, 0 on SIZE
 *
 * Returns ACCEPTED; SIZE part 5 with the bytes needed as place, and text as it was, where text_len is less; or ANSWER.
 */
uint32_t uisnabar_report(const uint8_t *grid, size_t grid_len, uint8_t *text, size_t text_len,
                         uint8_t *written, size_t written_len, uint8_t *answer, size_t answer_len);

/* Range checks in a table: judges as uisnabar_judge does, and where it accepts writes a find for each range check of
 * draft 0.6.0, 2.6.3: three consecutive rows whose instructions are a DEREF of cell x with β 0, an ADD of cell x (as A)
 * and cell j (as C) to the immediate t - 1 (as B), and a DEREF of cell j with β 0. The word of the cell at fp + x, fp
 * that of the rows, is then below t, which is proved for every t from 1 to p.
 *
 * All such rows are finds: where they overlap, where the run comes by again, and where j is x too; C of either DEREF
 * may be anything. An ADD of x as C and j as A is none. Where there is no find, nothing is said of a cell.
 *
 *   program to ext   as the judge takes them
 *   finds    any length, at most UISNABAR_FIND_BYTES for each of H - 2 rows are ever needed. A find is the number of
 *            the first of the three rows and then t, 4 bytes each, little-endian; finds stand in row order, and bytes
 *            after the last keep what they held; written on ACCEPTED alone
 *   found    UISNABAR_FOUND_BYTES, little-endian: the number of finds, 0 on a refusal
 *
 * Returns the judge's verdict; LIST, with the number of finds as place, where finds_len is less than they need; or
 * ANSWER. The cell's number and its word stand in the row that a find names, as addr A and value A.
 */
uint32_t uisnabar_ranges(const uint8_t *program, size_t program_len, const uint8_t *memory, size_t memory_len,
                         uint64_t pc, uint64_t fp, const uint8_t *exec, size_t exec_len,
                         const uint8_t *ext, size_t ext_len, uint8_t *finds, size_t finds_len,
                         uint8_t *found, size_t found_len, uint8_t *answer, size_t answer_len);

/* A program encoded by draft 0.5.0, translated into the form of draft 0.6.0. Over every memory and from every state
 * with fp below p the two take the same step or are stuck for the same reason; every instruction written is
 * well-formed. Memory and start stay as they are; tables of draft 0.5.0 do not become tables of 0.6.0.
 *
 * The old program is read as document 02 reads that draft: a JUMP's destination from B and its frame from C (2.4.3, and
 * not the constraints of 3.1.4), fp kept on an untaken jump, AUX_1 for AUX. A program that was built on another reading
 * is accepted too, and means something else.
 *
 *   old      1 to 2^20 instructions of 56 bytes, words in the order of draft 0.5.0, 3.1.3: operands A, B, C; flags A,
 *            B, C; ADD, MUL, DEREF, JUMP, IS_PRECOMPILE, PRECOMPILE_INDEX; AUX_1, AUX_2
 *   program  exactly 48 bytes for each instruction of old, in a buffer of its own; written on ACCEPTED alone, else as
 *            it was; it may hold anything
 *
 * Returns ACCEPTED; SIZE part 1 where either length is bad; WORD part 1, place counted in words of old, 14 to an
 * instruction; EDITION, place: the first instruction that is not translatable (docs/VERDICTS.md says why); or ANSWER.
 */
uint32_t uisnabar_translate(const uint8_t *old, size_t old_len, uint8_t *program, size_t program_len,
                            uint8_t *answer, size_t answer_len);

/* A program's listing: text that a person can read and type. Every program that is accepted here has one listing, which
 * uisnabar_read_listing reads back as it, byte for byte, and no other text does.
 *
 *   program  1 to 2^20 instructions of 48 bytes, as the judge takes them
 *   text     any length, at most UISNABAR_LINE_BYTES for each instruction are ever needed; bytes after the listing keep
 *            what they held; written on ACCEPTED alone
 *   written  UISNABAR_WRITTEN_BYTES, little-endian: the listing's length, 0 on a refusal
 *
 * An instruction is a line ended by LF, of fields with a single space between them, in this order: `op=`, which is add,
 * mul, deref, jump, xadd, xmul or xpeq; `a=`, `b=` and `c=`, each `imm:`, `cell:` or `fp:` and a decimal word; and for
 * xadd, xmul and xpeq `be=`, 0 or 1, and `n=`, 1 to 1048576. No number has leading zeros. docs/LISTING.md says which
 * operand may stand where. Two lines:
 *
 *     op=add a=cell:1 b=imm:2 c=fp:3
 *     op=xmul a=fp:1 b=fp:2 c=cell:3 be=1 n=4
 *
 * Returns ACCEPTED; SIZE, WORD or INSTRUCTION, part 1, as the judge has them; SHORT, with the bytes needed as place,
 * where text_len is less; or ANSWER. A call with text_len 0 so gives the length of a listing before it is written.
 */
uint32_t uisnabar_list(const uint8_t *program, size_t program_len, uint8_t *text, size_t text_len,
                       uint8_t *written, size_t written_len, uint8_t *answer, size_t answer_len);

/* The program that a listing stands for: 48 bytes for each line, every instruction well-formed, as the judge takes it.
 *
 *   text     the whole listing, as above: 1 to 2^20 lines, each ended by LF, the last too
 *   program  any length; bytes after the program keep what they held; written on ACCEPTED alone
 *   written  UISNABAR_WRITTEN_BYTES, little-endian: the program's length, 0 on a refusal
 *
 * Returns ACCEPTED; LISTING, place: the first byte that no valid listing that begins so could have there, or the text's
 * length where it ends too soon; SHORT, place: the bytes needed, 48 a line, where program_len is less; or ANSWER.
 */
uint32_t uisnabar_read_listing(const uint8_t *text, size_t text_len, uint8_t *program, size_t program_len,
                               uint8_t *written, size_t written_len, uint8_t *answer, size_t answer_len);

/* A jump: the generator after any number of draws, without drawing them. A draw advances its state s to
 * 6364136223846793005·s + 1442695040888963407 modulo 2^64, and a seed is the first state. A jump of j draws equals j
 * single ones; a jump of j and then of k equals one of j + k modulo 2^64.
 *
 *   state    a seed, or the state that any draws left
 *   draws    how far on. Both are 64 bits wide and taken whole, whatever they are: nothing is cut
 *   next     UISNABAR_NEXT_BYTES, little-endian: the state after so many draws, which is a seed as well
 *
 * Returns ACCEPTED; or ANSWER.
 */
uint32_t uisnabar_jump(uint64_t state, uint64_t draws, uint8_t *next, size_t next_len,
                       uint8_t *answer, size_t answer_len);

/* Streams from one seed: the seed with which a host of a campaign begins, host·2^40 draws on from the campaign's. Host
 * 0 begins with the campaign's seed itself. The first 2^40 draws of one host and those of another do not overlap.
 *
 *   seed     the campaign's; 64 bits wide and taken whole
 *   host     0 to UISNABAR_HOSTS - 1; 64 bits wide and compared whole: any other number gives HOST, and none is cut
 *   next     UISNABAR_NEXT_BYTES, little-endian: the host's seed; on HOST the seed as it came
 *
 * Returns ACCEPTED, HOST or ANSWER. On HOST too `next` is written: look at the verdict before taking the seed.
 *
 * A label draws at most 660 times (docs/VERDICTS.md, "Streams from one seed"). So a host that makes its labels' seeds
 * by jumps of 1024 draws from its own has 2^30 labels, no two of which share a draw.
 */
uint32_t uisnabar_host(uint64_t seed, uint64_t host, uint8_t *next, size_t next_len,
                       uint8_t *answer, size_t answer_len);

/* The label reader.
 *
 *   text     the whole label: `v=1` or `v=2`, `seed=` with 16 lower-case hex digits, `m=` (10 to 29), `n=` (1 to 124),
 *            each line ended by LF
 *   recipe   UISNABAR_RECIPE_BYTES, little-endian: bytes 0 to 7 the seed, 8 to 11 m, 12 to 15 n, 16 to 19 the version,
 *            1 or 2; written on ACCEPTED alone, else as it was
 *
 * The version says how cells 0 to 31 are drawn, and nothing else. 1: each cell is one draw modulo p. 2: a draw at or
 * above 4,261,412,866 = 2·p is thrown away and drawn again, for each cell at most eight times; the ninth is taken
 * whatever it is; the one taken counts modulo p. The instructions' draws follow from the state that the generator then
 * has. So a driver that builds the program and memory itself looks at the version first, and refuses one that it does
 * not know.
 *
 * Returns ACCEPTED, LABEL or ANSWER. LABEL's place is measured against labels of both versions: a text that begins with
 * `v=3` leaves them at place 2.
 */
uint32_t uisnabar_label(const uint8_t *text, size_t text_len, uint8_t *answer, size_t answer_len,
                        uint8_t *recipe, size_t recipe_len);

#ifdef __cplusplus
}
#endif

#endif
