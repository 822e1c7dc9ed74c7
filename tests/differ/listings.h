/* Programs and their listings, as the lister and its reader get them. */
#ifndef DIFFER_LISTINGS_H
#define DIFFER_LISTINGS_H

#include "listing_tally.h"
#include "world.h"

enum { LONGEST_LINE = 77, MOST_LISTED = 200, MOST_N = 1 << 20 };
enum { TEXT_ROOM = LONGEST_LINE * MOST_LISTED + 1024 };

/* An instruction as its line has it; its modes may be such as no line has. */
typedef struct {
    uint32_t op, modes[3], words[3], be, n;
} listed;

typedef struct {
    uint8_t bytes[TEXT_ROOM];
    size_t len;
} list_text;

extern const char *const list_op_names[LIST_OPS];
extern const char *const list_mode_names[LIST_MODES];

/* listings.c: by its number, the numbers as they were. */
uint32_t shape_of(const listed *l);
void set_shape(listed *l, uint32_t shape);

/* The first operand in a mode that no such line has, or 3. */
uint32_t wrong_operand(const listed *l);
bool possible_shape(uint32_t shape);

/* The line; its length, and where each mode begins unless modes is NULL. */
size_t print_line(const listed *l, uint8_t to[LONGEST_LINE + 1], size_t modes[3]);
void print_lines(const listed *l, uint32_t count, list_text *to);

/* Its 12 words, and back from those of a well-formed instruction. */
void store_listed(const listed *l, uint8_t *to);
listed load_listed(const uint8_t *from);

/* Any numbers, at the edges more often than not; and any lines. */
void some_numbers(source *random, listed *l);
uint32_t some_lines(source *random, listed *l, uint32_t most);

/* A call of either with room for so much; what it met is counted. */
typedef struct {
    enum function function; /* LISTER or LIST_READER */
    uint8_t *from;
    size_t len, room, written_len, answer_len;
} list_call;

second_answer call_listing(differ *d, const list_call *c);

/* The lister from these lines, and the reader from a text.  What the reader
 * accepts must list as the text again. */
second_answer list_lines(differ *d, const listed *l, uint32_t count, size_t room);
second_answer read_text(differ *d, const list_text *t, size_t room);

/* Says what is wrong where an answer is another. */
void expect_answer(differ *d, second_answer got, uint32_t verdict, uint32_t part,
                   size_t place);

/* The text, or as much of it as there is room for. */
void note_listing(differ *d, const list_text *t);

/* listing_spoil.c: damages a text in one way. */
extern const char *const damage_names[DAMAGES];
void damage_text(source *random, list_text *t, uint32_t way);

#endif
