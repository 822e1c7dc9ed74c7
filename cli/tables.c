/* The tables that judge, count and ranges are handed: four files, or the one that the table program writes; judge's
 * memory may be two. */
#include <string.h>

#include "cli.h"

/* the table program works at m = 10 and H = K = 256, so the program is what stands before these */
enum { TABLE_MEMORY = 4 * 1024, TABLE_EXEC = 32 * 256, TABLE_EXT = 120 * 256 };
enum { TABLE_REST = TABLE_MEMORY + TABLE_EXEC + TABLE_EXT };

static int add_file(struct request *request, const char *path)
{
    if (request->count == request->grids + PARTS - 1)
        return failed("%s takes %s: \"%s\" is one too many", request->name, request->takes, path);
    request->files[request->count++] = path;
    return 0;
}

static int take_public(struct request *request, const char *path)
{
    if (!path)
        return failed("--public takes a file: the public words, which are the memory's first");
    if (request->public)
        return failed("--public stands twice, with \"%s\" and with \"%s\": one file has all public words", request->public, path);
    request->public = path;
    request->takes = "PROGRAM REST EXEC EXT with --public";
    return 0;
}

static int parse(int count, char **words, struct request *request)
{
    bool options = true;
    int status = 0;
    for (int i = 0; i < count && status == 0; i++) {
        if (options && strcmp(words[i], "--") == 0)
            options = false;
        else if (options && strcmp(words[i], "--pc") == 0)
            status = take_number("--pc", ++i < count ? words[i] : "", &request->given.pc);
        else if (options && strcmp(words[i], "--fp") == 0)
            status = take_number("--fp", ++i < count ? words[i] : "", &request->given.fp);
        else if (options && request->pastes && strcmp(words[i], "--paste") == 0)
            request->paste = true;
        else if (options && request->splits && strcmp(words[i], "--public") == 0)
            status = take_public(request, ++i < count ? words[i] : NULL);
        else if (options && words[i][0] == '-' && words[i][1])
            status = failed("%s has no option \"%s\": see uisnabar --help; a file of that name goes after --", request->name, words[i]);
        else
            status = add_file(request, words[i]);
    }
    int tables = request->count - request->grids;
    if (status == 0 && tables == 1 && request->public)
        return failed("--public goes with PROGRAM REST EXEC EXT: the memory in TABLES is whole");
    if (status == 0 && tables != 1 && tables != PARTS - 1)
        return failed("%s takes %s: %d files were handed in", request->name, request->takes, request->count);
    return status;
}

/* what the table program wrote, as its four parts; the library says what is wrong with the program's length */
static int cut(const char *path, struct bytes whole, struct given *given)
{
    if (whole.len == 0)
        return failed("%s: empty: the table program writes nothing for a label that it refuses", path);
    if (whole.len < TABLE_REST)
        return failed("%s: %zu bytes: what the table program writes has %d behind its program", path, whole.len, TABLE_REST);
    size_t program = whole.len - TABLE_REST;
    given->part[PROGRAM] = (struct bytes){whole.at, program};
    given->part[MEMORY] = (struct bytes){whole.at + program, TABLE_MEMORY};
    given->part[EXEC] = (struct bytes){whole.at + program + TABLE_MEMORY, TABLE_EXEC};
    given->part[EXT] = (struct bytes){whole.at + program + TABLE_MEMORY + TABLE_EXEC, TABLE_EXT};
    return 0;
}

static int map_parts(struct request *request)
{
    const char **files = request->files + request->grids;
    struct bytes whole;
    int status = 0;
    if (request->count - request->grids == 1) {
        status = map_file(files[0], &whole);
        return status ? status : cut(files[0], whole, &request->given);
    }
    if (request->public) {
        request->given.split = true;
        status = map_file(request->public, &request->given.public);
    }
    for (int part = PROGRAM; part < PARTS && status == 0; part++)
        status = map_file(files[part - 1], &request->given.part[part]);
    return status;
}

int take_tables(int count, char **words, struct request *request)
{
    int status = parse(count, words, request);
    return status ? status : map_parts(request);
}
