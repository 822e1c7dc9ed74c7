/* What the files of the command share. Every judgement is the library's: nothing here tests a rule. (Of what it
 * refused, edition.c says why an instruction was, lookups.c which cell a lookup was of, split.c which of two lengths
 * was bad, and expected.c what a listing lacks.) */
#ifndef CLI_H
#define CLI_H

#include <stdbool.h>
#include <stddef.h>
#include <stdint.h>
#include <stdio.h>

#include "uisnabar.h"

#define DRAFT "leanVM draft 0.6.0"

/* exit statuses; FAILED is usage, or something that cannot be read or written */
enum { ACCEPTED = 0, REFUSED = 1, FAILED = 2 };

/* the parts as an answer numbers them; OLD, a program of draft 0.5.0, is part 1 there, and has a layout of its own */
enum { PROGRAM = 1, MEMORY, EXEC, EXT, PARTS, OLD = PARTS, LAYOUTS };

/* a program has at most so many instructions */
enum { MOST = 1 << 20 };

struct bytes {
    const uint8_t *at;
    size_t len;
};

/* where the memory comes in two files, the public words stand apart, and the part is the rest */
struct given {
    struct bytes part[LAYOUTS], public;
    bool split; /* it does, though there be no public words */
    uint64_t pc, fp;
};

struct answer {
    uint32_t verdict, part, place, rule, expected, found;
};

/* main.c: a sentence on standard error, which gives FAILED; whether standard output was written whole, 0 or FAILED */
int failed(const char *format, ...) __attribute__((format(printf, 1, 2)));
int written(void);

/* the subcommands, over the words after their name; each gives the exit status */
int judge(int count, char **words);
int count_forms(int count, char **words);
int report_forms(int count, char **words);
int ranges(int count, char **words);
int translate(int count, char **words);
int list(int count, char **words);
int assemble(int count, char **words);
int host(int count, char **words);
int jump(int count, char **words);
int label(int count, char **words);

/* numbers.c: a decimal number, by the name that its sentence has, and a seed; 0, or FAILED with the sentence said */
int take_number(const char *name, const char *text, uint64_t *found);
int take_seed(const char *text, uint64_t *found);

/* tables.c: a subcommand's words, and the tables in the files that they name; 0, or FAILED with the sentence said */
#define TABLES "PROGRAM MEMORY EXEC EXT, or TABLES alone"
struct request {
    const char *name, *takes; /* the subcommand, and its files as a sentence names them */
    int grids;                /* how many files stand before the tables: count's grid */
    bool pastes, splits;      /* it has the options --paste and --public */
    const char *files[PARTS], *public;
    int count;
    bool paste;
    struct given given;
};
int take_tables(int count, char **words, struct request *request);

/* files.c: 0, or FAILED with the sentence said; map_known says which file it was too */
#define LOST "a file became shorter, or could not be read to its end"
struct stat;
int map_file(const char *path, struct bytes *file);
int map_known(const char *path, struct bytes *file, struct stat *is);
int read_text(const char *path, uint8_t *text, size_t room, size_t *len);

/* replace.c: what is to replace a file, which no two commands have at once */
#define QUIETLY (O_NONBLOCK | O_NOCTTY | O_CLOEXEC) /* a pipe must not keep it waiting */
struct next {
    const char *path, *what, *doing; /* the file, what it is, and how the name of what replaces it ends */
    char name[4096];                 /* that name, in the same folder */
    int file;                        /* what replaces it, open and locked */
    int old;                         /* the file itself, open; below 0 where there is none */
    unsigned mode;                   /* its permissions */
    const struct stat *listing;      /* a listing that was read, which the file must not be; NULL where none was */
};
int regular(const char *path, const char *what, int file, struct stat *is);
int take_next(struct next *next);
/* either of these two ends it. The answer is written before the file is replaced: where it cannot be, the file stays */
int replace(const struct next *next, struct bytes bytes, struct answer answer);
void leave_next(const struct next *next);

/* grid.c: a grid in a file */
struct grid {
    struct next next;
    uint8_t bytes[UISNABAR_GRID_BYTES];
};
int read_grid(const char *path, uint8_t bytes[UISNABAR_GRID_BYTES]);
int take_grid(const char *path, struct grid *grid);

/* forms.c: what a grid's counters stand for */
#define TOTAL_MOST ((UINT64_C(1) << 63) - 1)
struct reach {
    unsigned possible, reached, strange; /* forms that an instruction can have, those counted, other counters not 0 */
};
uint64_t total_of(const uint8_t grid[UISNABAR_GRID_BYTES]);
struct reach reach_of(const uint8_t grid[UISNABAR_GRID_BYTES]);
void print_missing(FILE *out, const uint8_t grid[UISNABAR_GRID_BYTES]);

/* sum.c: the SHA-256 of each part by the system's sha256sum; 0, or FAILED with the sentence said */
enum { SUM_DIGITS = 64 };
typedef char sum[SUM_DIGITS + 1];
struct sums {
    sum part[PARTS];  /* of a memory in two files, as if they were joined */
    sum public, rest; /* of these two, where there are two */
};
int sum_parts(const struct given *given, struct sums *sums);

/* layout.c: the rows and columns of document 01, "Layouts", and of draft 0.5.0, 3.1.3; a memory in two files as if
 * they were joined */
struct layout {
    const char *part, *row; /* what the part and a row of it are called */
    unsigned words;         /* words in a row */
    const char *lengths;    /* the lengths that it may have */
};
extern const struct layout layouts[LAYOUTS];
uint32_t word_at(const uint8_t *at);
uint32_t word_of(struct bytes part, size_t place);
uint32_t word_in(const struct given *given, uint32_t part, size_t place);
size_t bytes_in(const struct given *given, uint32_t part);
size_t rows_of(const struct given *given, uint32_t part);
void column_name(uint32_t part, size_t place, char name[32]);
void print_row(FILE *out, const struct given *given, uint32_t part, size_t row);

/* answer.c */
struct answer answer_of(uint32_t verdict, const uint8_t *bytes);
int status_of(struct answer answer);
void print_lines(FILE *out, struct answer answer);

/* sentences.c: one line, with its LF */
void judge_sentence(FILE *out, const struct given *given, struct answer answer);
void count_sentence(FILE *out, const struct given *given, struct answer answer,
                    const uint8_t grid[UISNABAR_GRID_BYTES]);
void report_sentence(FILE *out, const uint8_t grid[UISNABAR_GRID_BYTES]);
void ranges_sentence(FILE *out, const struct given *given, struct answer answer, size_t found);
void label_sentence(FILE *out, struct bytes text, struct answer answer, const uint8_t *recipe);

/* edition.c: the same of a translation; where an instruction is refused, its words on a line more */
void translate_sentence(FILE *out, const struct given *given, struct answer answer);

/* expected.c: the same of a listing that is refused at a place: its line and column, and what is expected there */
void expected_sentence(FILE *out, struct bytes text, size_t place);

/* lookups.c: how the judge's sentence ends where it is of a lookup: which cell, and which column; else nothing */
void lookup_sentence(FILE *out, const struct given *given, struct answer answer);

/* split.c: of a memory in two files, what is wrong with their lengths; and how a sentence of a cell ends, which says in
 * which of them it stands; of a memory in one file, nothing */
void lengths_sentence(FILE *out, const struct given *given);
void cell_sentence(FILE *out, const struct given *given, size_t cell);

/* paste.c: the text to send in a dispute */
void print_paste(FILE *out, const struct given *given, struct answer answer, const struct sums *sums);

#endif
