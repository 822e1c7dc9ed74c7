/* Times the library beside the second implementation, both on the same buffers in one run.
 *
 * A time is the least of several runs, taken in turn. Nothing is cleared between runs; the tables are written by both
 * tablers before the judges read them. Ends with 1 where counting takes more than its budget beside judging, or a jump
 * more than its own. */
#include <stdio.h>

#include "clock.h"

enum { SIZES = 3, REFUSED = 4, SOME = 11, FEW = 3, BUS = 7, STREAMS = 20000 };

/* Counting takes at most so many times what judging the same table takes, and a jump or a host's start so many
 * nanoseconds. */
static const double budget = 1.25, stream_budget = 1000;
static int over_budget;

static uint64_t plain_sum(const uint8_t *bytes, size_t n)
{
    uint64_t sum = 0;
    for (size_t i = 0; i < n; i++)
        sum += bytes[i];
    return sum;
}

static void bytes_each_second(const compared *c)
{
    speed_input *in = c->j.in;
    double taken = 1e30;
    volatile uint64_t sum = 0;
    for (int k = 0; k < ROUNDS; k++) {
        double begun = seconds();
        sum = plain_sum(in->program, in->program_len) + plain_sum(in->memory, in->memory_len) + plain_sum(in->exec, in->exec_len) +
              plain_sum(in->ext, in->ext_len);
        double once_more = seconds() - begun;
        taken = once_more < taken ? once_more : taken;
    }
    double bytes = (double)(in->program_len + in->memory_len + in->exec_len + in->ext_len);
    (void)sum;
    printf("%-34s %-26s judge %.0f MB/s, a plain sum over the same bytes %.0f MB/s\n", "", c->size, bytes / c->library / 1e6,
           bytes / taken / 1e6);
}

/* A memory in two buffers beside the second's judge of the two joined, then beside the library's own. */
static void splits(const char *beside_second, const char *beside_judge, compared *c)
{
    compare(beside_second, c, SIZES, ROUNDS, library_split, second_judges);
    compare(beside_judge, c, SIZES, ROUNDS, library_split, library_judge);
}

/* Half of the memory is public, or one word. */
static void halves_and_words(compared *c)
{
    for (int s = 0; s < SIZES; s++)
        c[s].j.public = c[s].j.in->memory_len / 2;
    splits("split, half public; joined", "split, half; library's judge", c);
    for (int s = 0; s < SIZES; s++)
        c[s].j.public = 4;
    splits("split, one word public; joined", "split, one word; library's judge", c);
}

/* The count beside the second's, then beside the library's own judge of the same tables. */
static void counts(const char *beside_second, const char *beside_judge, compared *c, int sizes)
{
    double most = 0;
    compare(beside_second, c, sizes, ROUNDS, library_count, second_counts);
    compare(beside_judge, c, sizes, ROUNDS, library_count, library_judge);
    for (int s = 0; s < sizes; s++)
        most = c[s].ratios[ROUNDS / 2] > most ? c[s].ratios[ROUNDS / 2] : most;
    over_budget |= most > budget;
    printf("%-34s %-26s at most %.3f of judging, of a budget of %.2f%s\n", "", "", most, budget, most > budget ? ": OVER IT" : "");
}

/* Finding range checks beside the second's, then beside the library's own judge of the same tables. */
static void ranges(const char *beside_second, const char *beside_judge, compared *c)
{
    compare(beside_second, c, SIZES, ROUNDS, library_ranges, second_finds);
    compare(beside_judge, c, SIZES, ROUNDS, library_ranges, library_judge);
}

static void tables(void)
{
    static const unsigned logs[SIZES][3] = {{12, 10, 14}, {15, 13, 17}, {18, 16, 20}};
    static const char *const names[SIZES] = {"H 2^12, K 2^10, m 14", "H 2^15, K 2^13, m 17", "H 2^18, K 2^16, m 20"};
    static speed_input in[SIZES];
    static compared c[SIZES];
    for (int s = 0; s < SIZES; s++) {
        in[s] = speed_build(logs[s][0], logs[s][1], logs[s][2], 1);
        c[s] = (compared){.size = names[s], .units = (double)(in[s].height + in[s].ext_height)};
        c[s].j = (job){.in = &in[s], .ext = in[s].ext, .calls = s == 0 ? 16 : s == 1 ? 2 : 1};
    }
    compare("tabler", c, SIZES, ROUNDS, library_table, second_tables);
    compare("judge", c, SIZES, ROUNDS, library_judge, second_judges);
    for (int s = 0; s < SIZES; s++)
        bytes_each_second(&c[s]);
    halves_and_words(c);
    counts("count", "count; beside library's judge", c, SIZES);
    ranges("ranges, nothing found", "ranges, nothing; library's judge", c);
    for (int s = 0; s < SIZES; s++) {
        speed_shuffle(&in[s], 2);
        c[s].j.ext = in[s].shuffled;
    }
    compare("judge, groups shuffled; sorted", c, SIZES, ROUNDS, library_judge, second_sorts);
    compare("judge, groups shuffled; counted", c, 2, 1, library_judge, second_judges);
    for (int s = 0; s < SIZES; s++)
        speed_free(&in[s]);
}

/* Rows of one halting jump, which are judged fastest, so that counting them weighs most. */
static void halted(void)
{
    static const unsigned logs[SIZES] = {12, 15, 18};
    static const char *const names[SIZES] = {"H 2^12, K 2^8, m 8", "H 2^15, K 2^8, m 8", "H 2^18, K 2^8, m 8"};
    static speed_input in[SIZES];
    static compared c[SIZES];
    for (int s = 0; s < SIZES; s++) {
        in[s] = speed_halted(logs[s]);
        c[s] = (compared){.size = names[s], .units = (double)in[s].height};
        c[s].j = (job){.in = &in[s], .ext = in[s].ext, .calls = s == 0 ? 16 : s == 1 ? 2 : 1};
        expect(library_table(&c[s].j), 0, "tabler");
    }
    counts("count, halting rows", "count, halting; library's judge", c, SIZES);
    for (int s = 0; s < SIZES; s++)
        speed_free(&in[s]);
}

/* As many range checks as a table may have: each second row but the last begins one, of a cell that holds 0. */
static void checked(void)
{
    static const unsigned logs[SIZES][3] = {{12, 10, 14}, {15, 13, 17}, {18, 16, 20}};
    static const char *const names[SIZES] = {"H 2^12, K 2^10, m 14", "H 2^15, K 2^13, m 17", "H 2^18, K 2^16, m 20"};
    static speed_input in[SIZES];
    static compared c[SIZES];
    for (int s = 0; s < SIZES; s++) {
        in[s] = speed_build(logs[s][0], logs[s][1], logs[s][2], 1);
        speed_check(&in[s]);
        c[s] = (compared){.size = names[s], .units = (double)(in[s].height + in[s].ext_height)};
        c[s].j = (job){.in = &in[s], .ext = in[s].ext, .calls = s == 0 ? 16 : s == 1 ? 2 : 1};
        expect(library_table(&c[s].j), 0, "tabler");
    }
    ranges("ranges, each second row", "ranges, each; library's judge", c);
    for (int s = 0; s < SIZES; s++)
        speed_free(&in[s]);
}

/* Tables that the bus refuses after many windows: where the last push is unequal, and where each row pushes. */
static void refused(int dense)
{
    static const unsigned logs[REFUSED][3] = {{12, 10, 14}, {15, 13, 17}, {18, 16, 20}, {20, 18, 22}};
    static const char *const names[REFUSED] = {"H 2^12, K 2^10", "H 2^15, K 2^13", "H 2^18, K 2^16", "H 2^20, K 2^18"};
    static speed_input in[REFUSED];
    static compared c[REFUSED];
    for (int s = 0; s < REFUSED; s++) {
        in[s] = dense ? speed_dense(logs[s][0], logs[s][1]) : speed_build(logs[s][0], logs[s][1], logs[s][2], 1);
        c[s] = (compared){.size = names[s], .units = (double)(in[s].height + in[s].ext_height)};
        c[s].j = (job){.in = &in[s], .ext = in[s].ext, .calls = 1};
        if (!dense) {
            expect(library_table(&c[s].j), 0, "tabler");
            speed_unpull(&in[s]);
            c[s].j.ext = in[s].shuffled;
        }
        c[s].j.wanted = BUS;
    }
    compare(dense ? "judge, each row pushes; sorted" : "judge, last push unequal; sorted", c, REFUSED, FEW, library_judge, second_sorts);
    for (int s = 0; s < REFUSED; s++)
        speed_free(&in[s]);
}

/* maker, tabler and judge at H = K = 256: what a night of labels is made of */
static void whole(void)
{
    speed_input in = speed_build(8, 8, 20, 1);
    static compared c[1];
    c[0] = (compared){.size = "m 10, n 124, H = K = 256", .units = 1};
    c[0].j = (job){.in = &in, .ext = in.ext, .seed = 5, .m = 10, .n = 124, .version = 1, .calls = 64};
    in.program_len = 48 * 125;
    in.memory_len = 4 << 10;
    compare("a label's whole way", c, 1, ROUNDS, library_whole, second_whole);
    printf("%-34s %-26s library %.0f labels each second, second %.0f\n", "", c[0].size, 1 / c[0].library, 1 / c[0].second);
    /* of the tables that the last of them left */
    counts("count, a label's tables", "count, a label's; library's judge", c, 1);
    speed_free(&in);
}

static void makers(uint32_t version, const char *what)
{
    static const uint32_t ms[SIZES] = {14, 17, 20}, ns[SIZES] = {31, 62, 124};
    static const char *const sizes[SIZES] = {"m 14, n 31", "m 17, n 62", "m 20, n 124"};
    static compared c[SIZES];
    speed_input in = speed_build(8, 8, 20, 1);
    for (int s = 0; s < SIZES; s++) {
        c[s] = (compared){.size = sizes[s], .units = (double)((size_t)1 << ms[s])};
        c[s].j = (job){.in = &in, .seed = 5, .m = ms[s], .n = ns[s], .version = version};
        c[s].j.calls = s == 0 ? 64 : s == 1 ? 8 : 1;
    }
    compare(what, c, SIZES, ROUNDS, library_make, second_makes);
    speed_free(&in);
}

/* Programs of draft 0.5.0. */
static void translations(void)
{
    static const unsigned logs[SIZES] = {12, 15, 18};
    static const char *const sizes[SIZES] = {"2^12 instructions", "2^15 instructions", "2^18 instructions"};
    static speed_input in[SIZES];
    static compared c[SIZES];
    for (int s = 0; s < SIZES; s++) {
        in[s] = speed_old(logs[s]);
        c[s] = (compared){.size = sizes[s], .units = (double)in[s].height};
        c[s].j = (job){.in = &in[s], .calls = s == 0 ? 16 : s == 1 ? 2 : 1};
    }
    compare("translation, each instruction", c, SIZES, ROUNDS, library_translate, second_translates);
    for (int s = 0; s < SIZES; s++) {
        double megabytes = (double)in[s].old_len / 1e6;
        printf("%-34s %-26s library %.0f MB/s of old words, second %.0f MB/s\n", "", sizes[s], megabytes / c[s].library,
               megabytes / c[s].second);
        speed_free(&in[s]);
    }
}

/* Listings, up to the longest that there may be. */
static void listings(void)
{
    static const unsigned logs[SIZES] = {12, 16, 20};
    static const char *const sizes[SIZES] = {"2^12 instructions", "2^16 instructions", "2^20 instructions"};
    static speed_input in[SIZES];
    static compared c[SIZES];
    for (int s = 0; s < SIZES; s++) {
        in[s] = speed_listing(logs[s]);
        c[s] = (compared){.size = sizes[s], .units = (double)in[s].height};
        c[s].j = (job){.in = &in[s], .calls = s == 0 ? 64 : s == 1 ? 4 : 1};
    }
    compare("listing, each instruction", c, SIZES, SOME, library_list, second_lists);
    compare("listing read, each instruction", c, SIZES, SOME, library_read_listing, second_reads_listing);
    for (int s = 0; s < SIZES; s++) {
        double megabytes = (double)in[s].text_len / 1e6;
        printf("%-34s %-26s library reads %.0f MB/s of text, second %.0f MB/s\n", "", sizes[s],
               megabytes / c[s].library, megabytes / c[s].second);
        speed_free(&in[s]);
    }
}

static void labels(uint32_t version, const char *what)
{
    static const uint32_t ns[SIZES] = {1, 62, 124};
    static const char *const sizes[SIZES] = {"n 1", "n 62", "n 124"};
    static compared c[SIZES];
    for (int s = 0; s < SIZES; s++) {
        c[s] = (compared){.size = sizes[s], .j = {.seed = 1, .version = version, .calls = 20000}};
        c[s].j.text_len = write_label(&c[s].j, ns[s]);
        c[s].units = (double)c[s].j.text_len;
    }
    compare(what, c, SIZES, ROUNDS, library_label, second_label);
}

/* A line for numbers of so many bits, each size its own, and the slowest of them beside the budget. */
static void streams(const char *what, const unsigned *bits, const char *const *names, int sizes, call library, call second)
{
    static compared c[SIZES];
    double most = 0;
    for (int s = 0; s < sizes; s++)
        c[s] = (compared){.size = names[s], .units = 1, .j = {.seed = 1, .bits = bits[s], .calls = STREAMS}};
    compare(what, c, sizes, ROUNDS, library, second);
    for (int s = 0; s < sizes; s++)
        most = 1e9 * c[s].library > most ? 1e9 * c[s].library : most;
    over_budget |= most >= stream_budget;
    printf("%-34s %-26s the slowest size %.0f ns, of a budget of %.0f%s\n", "", "", most, stream_budget,
           most >= stream_budget ? ": OVER IT" : "");
}

static void jumps_and_hosts(void)
{
    static const unsigned draws[SIZES] = {8, 32, 64}, hosts[] = {24};
    static const char *const sizes[SIZES] = {"draws of 8 bits", "draws of 32 bits", "draws of 64 bits"};
    static const char *const host_sizes[] = {"hosts of 24 bits"};
    streams("jump, each", draws, sizes, SIZES, library_jump, second_jumps);
    streams("host's start, each", hosts, host_sizes, 1, library_host, second_hosts);
}

int main(void)
{
    printf("%-34s %-26s %10s %10s %7s %7s %8s %7s\n", "", "", "library ns", "second ns", "ratio", "growth", "second's", "in all");
    tables();
    halted();
    checked();
    refused(0);
    refused(1);
    makers(1, "maker, each cell");
    makers(2, "maker, each cell, version 2");
    translations();
    listings();
    labels(1, "label reader, each byte");
    labels(2, "label reader, each byte, version 2");
    jumps_and_hosts();
    whole();
    return over_budget;
}
