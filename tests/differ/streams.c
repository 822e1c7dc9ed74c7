/* Jumps of the generator and hosts' starts, by chance and at every edge, and
 * the laws between them, of what the library left. */
#include <inttypes.h>

#include "seeds.h"
#include "tries.h"

#define HALF (UINT64_C(1) << 63)

enum { HOST_BITS = 24, APART_BITS = 40 };

/* ---- calls, and what they met ---- */

static void count_number(stream_tally *t, const attempt *a, uint32_t verdict)
{
    uint32_t width = width_of(a->number);
    if (a->function == STREAM_JUMP) {
        t->draws[bits_of(a->number)][width] += verdict == ACCEPTED;
        return;
    }
    t->taken[width] += verdict == ACCEPTED;
    t->refused[width] += verdict == HOST;
    t->cases[LENGTH_BEFORE_HOST] += verdict == ANSWER && a->number >> HOST_BITS != 0;
    for (int i = 0; i < HOST_EDGES; i++)
        t->edges[i] += verdict != ANSWER && a->number == host_edges[i];
}

static void count_lengths(stream_tally *t, const attempt *a)
{
    for (int i = 0; i < NEXT_LENGTHS * TOLD_LENGTHS; i++)
        t->lengths[a->function == STREAM_HOST][i / TOLD_LENGTHS][i % TOLD_LENGTHS] +=
            a->lent[0].len == next_lengths[i / TOLD_LENGTHS]
            && a->lent[1].len == told_lengths[i % TOLD_LENGTHS];
}

static second_answer call_stream(differ *d, enum function f, uint64_t state, uint64_t number,
                                 size_t next_len, size_t answer_len)
{
    attempt t = { .function = f, .state = state, .number = number };
    t.lent[0].len = next_len;
    t.lent[1].len = answer_len;
    size_t noted = d->what_len;
    note(d, " %s from %016" PRIx64 " of %" PRIu64 ", next of %zu, answer of %zu;",
         function_names[f], state, number, next_len, answer_len);
    second_answer a = compare(d, &t);
    count_number(&d->reached.streams, &t, a.verdict);
    count_lengths(&d->reached.streams, &t);
    note_back(d, noted);
    return a;
}

static uint64_t load_next(const slot *s)
{
    return load_word(s->lent) | (uint64_t)load_word(s->lent + 4) << 32;
}

/* What the library has for the next state. */
static uint64_t next_of(differ *d, enum function f, uint64_t state, uint64_t number)
{
    call_stream(d, f, state, number, NEXT_BYTES, ANSWER_BYTES);
    return load_next(&d->slots[0]);
}

/* ---- laws ---- */

static void same(differ *d, uint64_t a, uint64_t b, enum stream_case law, const char *how)
{
    d->reached.streams.cases[law]++;
    if (a == b)
        return;
    note(d, " %016" PRIx64 " is not %016" PRIx64, a, b);
    differs(d, how);
}

/* A jump and another behind it are one jump of their sum modulo 2^64. */
static void try_sum(differ *d, uint64_t state, uint64_t j, uint64_t k)
{
    note_back(d, 0);
    note(d, "%" PRIu64 " draws and then %" PRIu64 " from %016" PRIx64 ":", j, k, state);
    uint64_t both = next_of(d, STREAM_JUMP, next_of(d, STREAM_JUMP, state, j), k);
    same(d, both, next_of(d, STREAM_JUMP, state, j + k), j + k < j ? JUMPS_WRAP : JUMPS_ADD,
         "two jumps are another than their sum's");
}

/* With the jump that makes it 2^64 behind it, the state comes back. */
static void try_back(differ *d, uint64_t state, uint64_t j)
{
    note_back(d, 0);
    note(d, "%" PRIu64 " draws and all the others from %016" PRIx64 ":", j, state);
    uint64_t there = next_of(d, STREAM_JUMP, state, j);
    same(d, next_of(d, STREAM_JUMP, there, 0 - j), state, j == HALF ? HALF_TWICE : THERE_AND_BACK,
         "2^64 draws do not come back");
}

static uint64_t host_of(differ *d, uint64_t seed, uint64_t host)
{
    return next_of(d, STREAM_HOST, seed, host);
}

/* A host and its jump, and 2^40 draws from it to the next. */
static void try_host_laws(differ *d, uint64_t seed, uint64_t host)
{
    bool last = host + 1 == UINT64_C(1) << HOST_BITS;
    note_back(d, 0);
    note(d, "host %" PRIu64 " of %016" PRIx64 ":", host, seed);
    uint64_t start = host_of(d, seed, host);
    same(d, start, next_of(d, STREAM_JUMP, seed, host << APART_BITS), HOST_JUMPED,
         "a host starts elsewhere than its jump ends");
    uint64_t more = next_of(d, STREAM_JUMP, start, UINT64_C(1) << APART_BITS);
    same(d, more, last ? seed : host_of(d, seed, host + 1), last ? LAST_HOST_ON : HOSTS_APART,
         "2^40 draws on is not the next host");
}

/* ---- by chance ---- */

static uint64_t some_width(source *random, uint32_t most)
{
    return next_number(random) >> (64 - 1 - below(random, most));
}

static uint64_t some_draws(source *random)
{
    switch (below(random, 6)) {
    case 0:
        return UINT64_C(1) << below(random, 64);
    case 1:
        return UINT64_MAX >> below(random, 64);
    case 2:
        return below(random, 3) - (uint64_t)1;
    case 3:
        return some_width(random, 64);
    default:
        return next_number(random);
    }
}

/* Any; taken and refused, the latter often for one bit. */
static uint64_t some_host(source *random)
{
    switch (below(random, 6)) {
    case 0:
        return host_edges[below(random, HOST_EDGES)];
    case 1:
        return (UINT64_C(1) << (HOST_BITS + below(random, 64 - HOST_BITS)))
             + some_width(random, HOST_BITS);
    case 2:
        return some_width(random, 64);
    case 3:
        return below(random, 1 << HOST_BITS);
    default:
        return some_width(random, HOST_BITS);
    }
}

void try_stream(differ *d)
{
    source *r = &d->random;
    uint64_t state = some_seed(r);
    note_back(d, 0);
    call_stream(d, STREAM_JUMP, state, some_draws(r), NEXT_BYTES, ANSWER_BYTES);
    call_stream(d, STREAM_HOST, state, some_host(r), NEXT_BYTES, ANSWER_BYTES);
    call_stream(d, once_in(r, 2) ? STREAM_JUMP : STREAM_HOST, state, some_host(r),
                next_lengths[below(r, NEXT_LENGTHS)], told_lengths[below(r, TOLD_LENGTHS)]);
    try_sum(d, state, some_draws(r), some_draws(r));
    try_back(d, state, some_draws(r));
    try_host_laws(d, state, below(r, 1 << HOST_BITS));
}

/* ---- every edge ---- */

/* Of each width the bit alone, all bits, and others: the lowest is set and the
 * one above it is not. */
static void try_width(differ *d, uint32_t width)
{
    uint64_t lone = UINT64_C(1) << (width - 1), state = some_seed(&d->random);
    uint64_t others = lone | (next_number(&d->random) & (lone - 1) & ~UINT64_C(2)) | 1;
    note_back(d, 0);
    call_stream(d, STREAM_JUMP, state, lone, NEXT_BYTES, ANSWER_BYTES);
    call_stream(d, STREAM_JUMP, state, lone - 1 + lone, NEXT_BYTES, ANSWER_BYTES);
    call_stream(d, STREAM_JUMP, state, others, NEXT_BYTES, ANSWER_BYTES);
    call_stream(d, STREAM_HOST, state, lone, NEXT_BYTES, ANSWER_BYTES);
    call_stream(d, STREAM_HOST, state, others, NEXT_BYTES, ANSWER_BYTES);
    try_sum(d, state, lone, lone);
}

/* Each pair of lengths, with numbers that are taken and with a host that is
 * not. */
static void try_lengths(differ *d, size_t next_len, size_t answer_len)
{
    uint64_t state = some_seed(&d->random);
    note_back(d, 0);
    call_stream(d, STREAM_JUMP, state, some_draws(&d->random), next_len, answer_len);
    call_stream(d, STREAM_HOST, state, below(&d->random, 1 << HOST_BITS), next_len, answer_len);
    call_stream(d, STREAM_HOST, state, UINT64_MAX - below(&d->random, 9), next_len, answer_len);
}

void try_stream_edges(differ *d)
{
    uint64_t seed = some_seed(&d->random);
    note_back(d, 0);
    call_stream(d, STREAM_JUMP, seed, 0, NEXT_BYTES, ANSWER_BYTES);
    for (uint32_t width = 1; width <= WIDEST; width++)
        try_width(d, width);
    for (int i = 0; i < HOST_EDGES; i++)
        call_stream(d, STREAM_HOST, seed, host_edges[i], NEXT_BYTES, ANSWER_BYTES);
    for (int i = 0; i < NEXT_LENGTHS * TOLD_LENGTHS; i++)
        try_lengths(d, next_lengths[i / TOLD_LENGTHS], told_lengths[i % TOLD_LENGTHS]);
    try_sum(d, seed, UINT64_MAX, 2);
    try_back(d, seed, HALF);
    try_back(d, seed, 1);
    try_host_laws(d, seed, 0);
    try_host_laws(d, seed, (1 << HOST_BITS) - 1);
}
