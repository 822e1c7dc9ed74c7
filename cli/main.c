/* uisnabar: the library for people with files. One subcommand for each thing that the library does. */
#define _POSIX_C_SOURCE 200809L
#include <ctype.h>
#include <errno.h>
#include <fcntl.h>
#include <signal.h>
#include <stdarg.h>
#include <string.h>
#include <unistd.h>

#include "cli.h"

static const char help[] =
    "usage: uisnabar judge [--pc N] [--fp N] [--paste] PROGRAM MEMORY EXEC EXT\n"
    "       uisnabar judge [--pc N] [--fp N] [--paste] TABLES\n"
    "       uisnabar judge --public FILE [--pc N] [--fp N] [--paste] PROGRAM REST EXEC EXT\n"
    "       uisnabar count GRID [--pc N] [--fp N] PROGRAM MEMORY EXEC EXT\n"
    "       uisnabar count GRID [--pc N] [--fp N] TABLES\n"
    "       uisnabar report GRID\n"
    "       uisnabar ranges [--pc N] [--fp N] PROGRAM MEMORY EXEC EXT\n"
    "       uisnabar ranges [--pc N] [--fp N] TABLES\n"
    "       uisnabar translate OLD NEW\n"
    "       uisnabar list PROGRAM\n"
    "       uisnabar assemble LISTING PROGRAM\n"
    "       uisnabar host SEED K\n"
    "       uisnabar jump SEED DRAWS\n"
    "       uisnabar label [FILE]\n"
    "       uisnabar --version | --help\n"
    "\n"
    "judge   Do the tables satisfy the constraints of " DRAFT "? PROGRAM, MEMORY, EXEC and EXT are files of\n"
    "        little-endian words of 4 bytes, laid out as docs/VERDICTS.md says. TABLES is what the table program writes: all\n"
    "        four in one file, at m = 10 and H = K = 256.\n"
    "          --pc N, --fp N   the start, decimal; 0 where it is not given\n"
    "          --paste          also prints a text to send in a dispute: version, size and SHA-256 of each part (by the\n"
    "                           system's sha256sum), start, answer, the row and its successor, the instruction\n"
    "          --public FILE    a memory in two files: FILE has its first 2^m' words, the public ones, m' from 0 to m - 1,\n"
    "                           and REST the other 2^m - 2^m'. The answer is that of the two joined\n"
    "count   Judges as judge does. Where it accepts, each execution row adds one to its instruction's form in GRID, a file\n"
    "        of 1080 bytes that is made where there is none. GRID is replaced whole, and only with status 0. Counts into one\n"
    "        grid wait for one another, and .GRID.counting stands beside it meanwhile; the next takes over a killed one's.\n"
    "report  The counters of GRID that are not 0, a line each, as add.cell.imm.fp=12: kind, and mode of A, B and C. On\n"
    "        standard error how many of the 50 possible forms were reached, and a line for each that was not.\n"
    "ranges  Judges as judge does. Where it accepts, a line for each range check (draft 0.6.0, 2.6.3), by rows, as\n"
    "        row=12 cell=34 bound=256 value=7: from row 12 on three rows hold cell 34 below 256, and it holds 7. Where the\n"
    "        tables are refused, standard output has nothing, and the answer's lines stand on standard error, before the\n"
    "        sentence. With status 2 it may have a part of the lines.\n"
    "translate\n"
    "        OLD is a program of draft 0.5.0, 14 words an instruction in the order of its 3.1.3. NEW becomes that program in\n"
    "        the form of draft 0.6.0, a PROGRAM for judge: from every state the two take the same step, or are stuck alike. NEW\n"
    "        is replaced whole, and only with status 0; it may be OLD. An instruction that is not translatable is printed, with\n"
    "        the reasons.\n"
    "list    The listing of PROGRAM, an instruction a line, as op=add a=cell:1 b=imm:2 c=fp:3. Where PROGRAM is refused,\n"
    "        standard output has nothing, and the answer's lines stand on standard error, before the sentence. With status 2\n"
    "        it may have a part of the listing: do not assemble it.\n"
    "assemble\n"
    "        PROGRAM becomes the program that LISTING stands for, and is replaced whole, and only with status 0. It may not\n"
    "        be LISTING itself. Of a text that is no listing the sentence has the line and column at which it leaves every\n"
    "        valid one, and what is expected there (docs/LISTING.md has the grammar).\n"
    "host    The seed with which host K of a campaign begins: K times 2^40 draws on from SEED, K from 0 to 16777215. Host 0\n"
    "        begins with SEED itself, and no two hosts share one of their first 2^40 draws. For any higher K standard output\n"
    "        has nothing, and the answer's lines stand on standard error, before the sentence.\n"
    "jump    The seed that is DRAWS draws on from SEED. A label draws at most 660 times, so a host takes a jump of 1024 from\n"
    "        one label's seed to the next label's.\n"
    "          SEED             16 lower-case hex digits, as stand behind a label's seed=\n"
    "          K, DRAWS         decimal, 0 to 18446744073709551615; all 64 bits count\n"
    "label   Is the text a label, of version 1 or 2? The sentence has its version, seed, m and n, or what the first line that\n"
    "        does not fit must be. Without FILE it is read from standard input.\n"
    "\n"
    "Standard output has the answer's six lines, as the replay program prints them, or the report, the range checks, the\n"
    "listing or the seed; standard error one sentence that says what they mean. Where a lookup is refused, expected= is the\n"
    "word that the memory's cell holds and found= the word that the table's column has, and the sentence names the cell and\n"
    "the column. Both are 0 where a cell that is looked up is not below M, the number of cells, which the sentence says\n"
    "too; and of every other answer.\n"
    "Tables, OLD, PROGRAM and LISTING are mapped, not copied: they must not change while they are read. A file that\n"
    "becomes shorter is noticed.\n"
    "Exit status: 0 accepted, 1 refused, 2 usage, or something could not be read or written.\n";

/* the subcommands by name */
static const struct {
    const char *name;
    int (*run)(int count, char **words);
} commands[] = {{"judge", judge},         {"count", count_forms}, {"report", report_forms}, {"ranges", ranges},
                {"translate", translate}, {"list", list},         {"assemble", assemble},   {"host", host},
                {"jump", jump},           {"label", label}};
enum { COMMANDS = sizeof commands / sizeof commands[0] };

int failed(const char *format, ...)
{
    char said[8192];
    va_list values;
    va_start(values, format);
    vsnprintf(said, sizeof said, format, values);
    va_end(values);
    for (char *at = said; *at; at++) /* a file's name may hold anything, and must not move a terminal's cursor */
        if (iscntrl((unsigned char)*at))
            *at = '?';
    fprintf(stderr, "uisnabar: %s\n", said);
    return FAILED;
}

int written(void)
{
    if (fflush(stdout) == 0 && !ferror(stdout))
        return 0;
    return failed("standard output cannot be written: %s", strerror(errno));
}

/* a closed standard stream becomes one that can be neither read nor written, so that no file takes its number */
static void fill_streams(void)
{
    int file;
    do
        file = open("/", O_RDONLY | O_CLOEXEC);
    while (file >= 0 && file <= STDERR_FILENO);
    if (file >= 0)
        close(file);
}

static bool is(const char *word, const char *text) { return strcmp(word, text) == 0; }

int main(int count, char **words)
{
    static char output[1 << 16];
    const char *what = count > 1 ? words[1] : "", *of = count > 2 ? words[2] : "";
    size_t named = 0;
    setvbuf(stdout, output, _IOFBF, sizeof output); /* written whole, at the end */
    fill_streams();
    signal(SIGPIPE, SIG_IGN); /* output that nobody reads is a status, no signal */
    while (named < COMMANDS && !is(what, commands[named].name))
        named++;
    if ((count == 2 && is(what, "--help")) || (count == 3 && named < COMMANDS && is(of, "--help")))
        fputs(help, stdout);
    else if (named < COMMANDS)
        return commands[named].run(count - 2, words + 2);
    else if (count == 2 && is(what, "--version"))
        printf("uisnabar %s, %s\n", UISNABAR_VERSION, DRAFT);
    else
        return fputs(help, stderr), FAILED;
    return written();
}
