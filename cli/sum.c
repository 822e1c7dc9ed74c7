/* SHA-256 by the system's sha256sum, which gets the bytes that are judged on its standard input. There is no shell. */
#define _GNU_SOURCE
#include <errno.h>
#include <fcntl.h>
#include <signal.h>
#include <string.h>
#include <sys/wait.h>
#include <unistd.h>

#include "cli.h"

enum { MISSING = 127 };

static void become_sha256sum(int in, int out)
{
    signal(SIGPIPE, SIG_DFL);
    if (dup2(in, STDIN_FILENO) >= 0 && dup2(out, STDOUT_FILENO) >= 0)
        execlp("sha256sum", "sha256sum", (char *)NULL);
    _exit(MISSING);
}

static bool hand_over(int to, struct bytes bytes)
{
    while (bytes.len > 0) {
        ssize_t sent = write(to, bytes.at, bytes.len);
        if (sent <= 0)
            return false;
        bytes.at += sent;
        bytes.len -= (size_t)sent;
    }
    return true;
}

/* its line to the end, which begins with the digits */
static bool receive(int from, sum digits)
{
    char line[4 * SUM_DIGITS] = "";
    size_t got = 0;
    ssize_t more = 1;
    while (got < sizeof line - 1 && more > 0) {
        more = read(from, line + got, sizeof line - 1 - got);
        got += more > 0 ? (size_t)more : 0;
    }
    memcpy(digits, line, SUM_DIGITS);
    digits[SUM_DIGITS] = 0;
    return strspn(line, "0123456789abcdef") == SUM_DIGITS;
}

/* of some bytes, and of others behind them */
static int sum_of(struct bytes first, struct bytes then, sum digits)
{
    int to[2], from[2], how = 0;
    if (pipe2(to, O_CLOEXEC) != 0 || pipe2(from, O_CLOEXEC) != 0)
        return failed("--paste: no pipe for sha256sum");
    pid_t child = fork();
    if (child < 0)
        return failed("--paste: sha256sum cannot be started");
    if (child == 0)
        become_sha256sum(to[0], from[1]);
    close(to[0]);
    close(from[1]);
    bool sent = hand_over(to[1], first) && hand_over(to[1], then), lost = !sent && errno == EFAULT;
    close(to[1]);
    bool received = receive(from[0], digits);
    close(from[0]);
    if (waitpid(child, &how, 0) == child && WIFEXITED(how) && WEXITSTATUS(how) == MISSING)
        return failed("--paste: sha256sum is missing: install it (Debian's coreutils), or put its folder on PATH");
    if (sent && received && how == 0)
        return 0;
    return lost ? failed(LOST) : failed("--paste: sha256sum gave no sum");
}

int sum_parts(const struct given *given, struct sums *sums)
{
    const struct bytes none = {NULL, 0};
    int status = 0;
    for (int part = PROGRAM; part < PARTS && status == 0; part++)
        status = sum_of(part == MEMORY ? given->public : none, given->part[part], sums->part[part]);
    if (status == 0 && given->split)
        status = sum_of(given->public, none, sums->public);
    if (status == 0 && given->split)
        status = sum_of(given->part[MEMORY], none, sums->rest);
    return status;
}
