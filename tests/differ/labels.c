/* Texts to the label reader: labels, and what is nearly one. */
#include "tries.h"

#include <stdio.h>
#include <string.h>

enum { LONGEST = 37, MOST = 200 };

typedef struct {
    uint8_t bytes[MOST];
    size_t len;
} text;

/* Bytes a label has somewhere, and their like. */
static uint8_t some_byte(source *random)
{
    static const char near[] = "0123456789abcdefABFG=\n\r vsedmn\t+-x:";
    if (once_in(random, 3))
        return (uint8_t)below(random, 256);
    return (uint8_t)near[below(random, sizeof near - 1)];
}

static void insert(text *t, size_t at, uint8_t byte)
{
    if (t->len == MOST)
        return;
    memmove(t->bytes + at + 1, t->bytes + at, t->len - at);
    t->bytes[at] = byte;
    t->len++;
}

static void erase(text *t, size_t at)
{
    t->len--;
    memmove(t->bytes + at, t->bytes + at + 1, t->len - at);
}

/* A version as text, now and then none that there is. */
static const char *some_version(source *random)
{
    static const char *const odd[] = { "0", "3", "11", "12", "21", "01", "02",
                                       "", "2 ", "+1", "257", "4294967298" };
    if (once_in(random, 6))
        return odd[below(random, sizeof odd / sizeof *odd)];
    return once_in(random, 2) ? "1" : "2";
}

/* A whole text of numbers that may be out of range or oddly written. */
static void odd_numbers(source *random, text *t)
{
    static const char *const forms[] = { "%u", "0%u", "%u ", "+%u", "%03u", "%x" };
    char m[24], n[24], all[MOST];
    const char *form_m = once_in(random, 3) ? forms[below(random, 6)] : "%u";
    const char *form_n = once_in(random, 3) ? forms[below(random, 6)] : "%u";
    snprintf(m, sizeof m, form_m, 8 + below(random, 24));
    snprintf(n, sizeof n, form_n,
             once_in(random, 2) ? below(random, 13) : 95 + below(random, 40));
    int len = snprintf(all, sizeof all, "v=%s\nseed=%016llx\nm=%s\nn=%s\n",
                       some_version(random),
                       (unsigned long long)next_number(random), m, n);
    t->len = (size_t)len;
    memcpy(t->bytes, all, t->len);
}

static void append(source *random, text *t)
{
    uint32_t more = once_in(random, 3) ? 1 + below(random, 100) : 1;
    uint8_t byte = some_byte(random);
    while (more-- > 0)
        insert(t, t->len, once_in(random, 2) ? byte : some_byte(random));
}

/* Line ends of two bytes, or upper-case digits. */
static void other_style(source *random, text *t)
{
    bool lines = once_in(random, 2);
    for (size_t i = 0; i < t->len; i++) {
        uint8_t b = t->bytes[i];
        if (lines && b == '\n')
            insert(t, i++, '\r');
        else if (!lines && i >= 9 && i < 25 && b >= 'a' && b <= 'f')
            t->bytes[i] = (uint8_t)(b - 'a' + 'A');
    }
}

static void spoil_text(source *random, text *t)
{
    size_t at = below(random, (uint32_t)t->len);
    switch (below(random, 10)) {
    case 0: /* a cut at each byte comes in turn, see try_label */
        t->len = 0;
        break;
    case 1:
        t->bytes[at] = some_byte(random);
        break;
    case 2:
        t->bytes[at] ^= (uint8_t)(1u << below(random, 8));
        break;
    case 3:
        insert(t, at, some_byte(random));
        break;
    case 4:
        erase(t, at);
        break;
    case 5:
        append(random, t);
        break;
    case 6:
        other_style(random, t);
        break;
    case 7:
        for (size_t i = at; i < t->len; i++)
            t->bytes[i] = some_byte(random);
        break;
    case 8:
        t->bytes[2] = some_byte(random); /* the version */
        break;
    default:
        odd_numbers(random, t);
    }
}

static void note_text(differ *d, const text *t, size_t answer, size_t recipe)
{
    note_back(d, 0);
    note(d, "answer %zu, recipe %zu, text of %zu: ", answer, recipe, t->len);
    for (size_t i = 0; i < t->len; i++)
        note(d, t->bytes[i] >= ' ' && t->bytes[i] <= '~' ? "%c" : "<%02x>",
             t->bytes[i]);
}

void try_label(differ *d)
{
    source *random = &d->random;
    attempt a = { .function = LABEL_READER };
    second_recipe r = some_recipe(random, true);
    uint64_t turn = d->reached.calls[LABEL_READER];
    uint32_t length;
    text t;
    if (turn % 2 == 0) /* of the longest, so that each place comes in turn */
        r.n = 100 + below(random, 25);
    if (turn % 4 == 0) /* and that of each version */
        r.version = 1 + (uint32_t)(turn / 4 / (LONGEST + 1) % VERSIONS);
    second_write_label(r, t.bytes, MOST, &length);
    t.len = length;
    if (turn % 4 == 0)
        t.len = turn / 4 % (LONGEST + 1);
    else if (turn % 4 != 1)
        spoil_text(random, &t);
    if (turn % 40 == 10)
        append(random, &t);
    a.lent[0] = (buffer){ t.bytes, t.len, false };
    a.lent[1].len = some_answer_length(random);
    a.lent[2].len = some_recipe_length(random);
    note_text(d, &t, a.lent[1].len, a.lent[2].len);
    compare(d, &a);
}
