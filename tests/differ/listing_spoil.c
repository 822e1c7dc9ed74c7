/* Ways to damage a listing; some leave it one. */
#include "listings.h"

#include <string.h>

/* Something is put in the place of a piece of the text, or before it. */
enum { NUMBER, LENGTH, BE, SPACE, LF, LAST_LF, FIRST, END, SOMEWHERE, LETTER };
enum { INSTEAD, BEFORE };

static const struct {
    uint8_t where, how;
    const char *with;
} pieces[] = {
    { NUMBER, BEFORE, "0" }, { NUMBER, BEFORE, "+" }, { NUMBER, BEFORE, "-" },
    { NUMBER, BEFORE, " " }, { NUMBER, BEFORE, "0x" }, { NUMBER, BEFORE, "00" },
    { NUMBER, INSTEAD, "" }, { NUMBER, INSTEAD, "2130706433" },
    { NUMBER, INSTEAD, "4294967296" }, { NUMBER, INSTEAD, "4294967297" },
    { NUMBER, INSTEAD, "18446744073709551617" }, { NUMBER, INSTEAD, "2130706432" },
    { NUMBER, INSTEAD, "1e9" }, { NUMBER, INSTEAD, "1_000" }, { LENGTH, INSTEAD, "0" },
    { LENGTH, INSTEAD, "1048577" }, { LENGTH, INSTEAD, "10485760" },
    { LENGTH, INSTEAD, "2130706432" }, { LENGTH, INSTEAD, "" }, { BE, INSTEAD, "2" },
    { BE, INSTEAD, "" }, { BE, BEFORE, "0" }, { BE, BEFORE, "1" }, { SPACE, INSTEAD, "\t" },
    { SPACE, BEFORE, " " }, { SPACE, INSTEAD, "" }, { SPACE, INSTEAD, "\n" },
    { SPACE, INSTEAD, "," }, { LF, BEFORE, "\r" }, { LF, INSTEAD, "\r" }, { LF, BEFORE, " " },
    { LF, BEFORE, "\n" }, { LF, INSTEAD, "" }, { LF, INSTEAD, ";" },
    { LAST_LF, INSTEAD, "" }, { FIRST, BEFORE, " " }, { FIRST, BEFORE, "\xef\xbb\xbf" },
    { FIRST, BEFORE, "\n" }, { FIRST, BEFORE, "# listing\n" }, { END, BEFORE, "o" },
    { END, BEFORE, "\x1a" },
};

enum { PIECES = sizeof pieces / sizeof *pieces };
enum { CUT = PIECES, CHANGED, FLIPPED, ERASED, NUL, CAPITAL, TWICE, LOST, FIELD_LOST, FIELD_TWICE,
       OTHER_OP, OTHER_MODE, LAST_WAY };

_Static_assert(LAST_WAY + 1 == DAMAGES, "each way has a count");

const char *const damage_names[DAMAGES] = {
    "leading 0", "plus", "minus", "space before a number", "0x", "00 before a number",
    "no number", "p", "2^32", "2^32 + 1", "2^64 + 1", "p - 1", "1e9", "1_000", "n 0", "n 2^20 + 1",
    "n of 8 digits", "n p - 1", "no n", "be 2", "no be", "0 before be", "1 before be", "tab",
    "two spaces", "no space", "LF for a space", "comma", "CR LF", "CR", "space before LF",
    "empty line", "no LF", "semicolon", "no last LF", "space first", "byte order mark",
    "LF first", "comment", "o behind", "1a behind", "cut", "other byte", "other bit", "byte lost",
    "NUL", "capital", "line twice", "line lost", "field lost", "field twice", "other op",
    "other mode", "nothing",
};

static bool is_digit(uint8_t byte)
{
    return byte >= '0' && byte <= '9';
}

/* Whether such a piece begins at a byte that has others before it. */
static bool begins(const list_text *t, size_t at, uint32_t where)
{
    const uint8_t *b = t->bytes + at;
    switch (where) {
    case NUMBER:
        return is_digit(b[0]) && !is_digit(b[-1]);
    case LENGTH:
        return is_digit(b[0]) && b[-1] == '=' && b[-2] == 'n';
    case BE:
        return is_digit(b[0]) && b[-1] == '=' && b[-2] == 'e';
    case SPACE:
        return b[0] == ' ';
    case LF:
        return b[0] == '\n';
    default:
        return b[0] >= 'a' && b[0] <= 'z';
    }
}

/* Where one begins: any of them; the text's end if there is none. */
static size_t find(source *random, const list_text *t, uint32_t where)
{
    if (where == FIRST || t->len < 4)
        return 0;
    if (where == LAST_LF || where == END)
        return t->len - (where == LAST_LF);
    if (where == SOMEWHERE)
        return below(random, (uint32_t)t->len);
    size_t from = below(random, (uint32_t)t->len);
    for (size_t i = 0; i < t->len; i++) {
        size_t at = (from + i) % t->len;
        if (at >= 2 && begins(t, at, where))
            return at;
    }
    return t->len;
}

static void replace(list_text *t, size_t at, size_t len, const void *with, size_t with_len)
{
    if (at + len > t->len || t->len - len + with_len > TEXT_ROOM)
        return;
    memmove(t->bytes + at + with_len, t->bytes + at + len, t->len - at - len);
    memcpy(t->bytes + at, with, with_len);
    t->len = t->len - len + with_len;
}

/* From `at` on up to a byte, or to the end. */
static size_t length_to(const list_text *t, size_t at, char byte)
{
    const uint8_t *found = at < t->len ? memchr(t->bytes + at, byte, t->len - at) : NULL;
    return found == NULL ? t->len - at : (size_t)(found - t->bytes) - at;
}

static void put_piece(source *random, list_text *t, uint32_t way)
{
    size_t at = find(random, t, pieces[way].where), len = 0;
    if (pieces[way].how == INSTEAD && at < t->len)
        for (len = 1; at + len < t->len && is_digit(t->bytes[at]) && is_digit(t->bytes[at + len]);)
            len++;
    replace(t, at, len, pieces[way].with, strlen(pieces[way].with));
}

/* A whole line, or a field with the space before it. */
static void whole_piece(source *random, list_text *t, bool field, bool twice)
{
    uint8_t piece[TEXT_ROOM];
    size_t at = find(random, t, field ? SPACE : SOMEWHERE);
    while (!field && at > 0 && t->bytes[at - 1] != '\n')
        at--;
    if (at >= t->len)
        return;
    size_t len = length_to(t, at, '\n') + 1;
    if (field) {
        size_t next = 1 + length_to(t, at + 1, ' ');
        len = next < len ? next : len - 1;
    }
    len = at + len > t->len ? t->len - at : len;
    memcpy(piece, t->bytes + at, len);
    replace(t, at, twice ? 0 : len, piece, twice ? len : 0);
}

/* Another name for an op, or for a mode. */
static void other_name(source *random, list_text *t, bool mode)
{
    static const char *const odd[] = { "sub", "xdiv", "Add", "halt", "" };
    size_t at = find(random, t, mode ? SPACE : SOMEWHERE);
    uint32_t op = below(random, LIST_OPS + 5);
    const char *name = op < LIST_OPS ? list_op_names[op] : odd[op - LIST_OPS];
    while (!mode && at > 0 && t->bytes[at - 1] != '\n')
        at--;
    at += 3;
    if (mode)
        name = list_mode_names[below(random, LIST_MODES)];
    if (at < t->len)
        replace(t, at, length_to(t, at, mode ? ':' : ' '), name, strlen(name));
}

static uint8_t near_byte(source *random)
{
    static const char near[] = "0123456789 =:\n\r\tabcdefijlmnopqruxABCFINOX-+#";
    return once_in(random, 3) ? (uint8_t)below(random, 256)
                              : (uint8_t)near[below(random, sizeof near - 1)];
}

void damage_text(source *random, list_text *t, uint32_t way)
{
    if (t->len == 0)
        return;
    size_t at = below(random, (uint32_t)t->len);
    if (way < PIECES) {
        put_piece(random, t, way);
    } else if (way == CUT) {
        t->len = at;
    } else if (way == CHANGED || way == FLIPPED) {
        t->bytes[at] = way == CHANGED ? near_byte(random) : t->bytes[at] ^ (uint8_t)(1u << below(random, 8));
    } else if (way == ERASED) {
        replace(t, at, 1, "", 0);
    } else if (way == NUL) {
        replace(t, at, once_in(random, 2), "\0", 1);
    } else if (way == CAPITAL) {
        at = find(random, t, LETTER);
        if (at < t->len)
            t->bytes[at] = (uint8_t)(t->bytes[at] & ~0x20u);
    } else if (way == TWICE || way == LOST) {
        whole_piece(random, t, false, way == TWICE);
    } else if (way == FIELD_TWICE || way == FIELD_LOST) {
        whole_piece(random, t, true, way == FIELD_TWICE);
    } else if (way == OTHER_OP || way == OTHER_MODE) {
        other_name(random, t, way == OTHER_MODE);
    }
}
