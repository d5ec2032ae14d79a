/* Streams of the program `decide`: each is fed whole through a pipe, in odd pieces through a pipe, and from a file, and the
 * answers have to be the same. The program is target/bin/decide, or the one that CUTHRANSI_DECIDE names. */
#define _POSIX_C_SOURCE 200809L
#include <fcntl.h>
#include <signal.h>
#include <stdlib.h>
#include <string.h>
#include <sys/wait.h>
#include <unistd.h>

#include "lists.h"

#define MOST_INPUT (1 << 20)
#define MOST_OUTPUT (1 << 20)

enum { WHOLE, PIECES, FILED, WAYS };

static uint8_t input[MOST_INPUT], output[WAYS][MOST_OUTPUT];

/* Puts the pieces of a row one behind the other: how often it stands there, its bytes, four to a word. -1: no such row. */
static long expand(const uint32_t *words, size_t left)
{
    size_t size = 0;
    while (left > 0) {
        if (left < 2 || words[1] > MOST_INPUT || left - 2 < ((size_t)words[1] + 3) / 4)
            return -1;
        for (uint32_t turn = 0; turn < words[0]; turn++)
            for (uint32_t k = 0; k < words[1]; k++) {
                if (size == MOST_INPUT)
                    return -1;
                input[size++] = (uint8_t)(words[2 + k / 4] >> 8 * (3 - k % 4));
            }
        size_t taken = 2 + ((size_t)words[1] + 3) / 4;
        words += taken;
        left -= taken;
    }
    return (long)size;
}

/* A file without a name, at its beginning. */
static int scratch(const uint8_t *bytes, size_t size)
{
    FILE *file = tmpfile();
    if (file == NULL)
        return -1;
    int made = fwrite(bytes, 1, size, file) == size && fflush(file) == 0 ? dup(fileno(file)) : -1;
    fclose(file);
    if (made >= 0)
        lseek(made, 0, SEEK_SET);
    return made;
}

static pid_t start(int from, int to, int unused)
{
    const char *program = getenv("CUTHRANSI_DECIDE");
    if (program == NULL)
        program = "target/bin/decide";
    pid_t child = fork();
    if (child == 0) {
        signal(SIGPIPE, SIG_DFL);
        dup2(from, 0);
        dup2(to, 1);
        if (unused >= 0)
            close(unused);
        execl(program, program, (char *)NULL);
        _exit(127);
    }
    return child;
}

/* Whole, or in pieces of odd sizes. A program that has refused reads no more, so a failed write ends it. */
static void feed(int to, size_t size, int way)
{
    static const size_t sizes[] = {1, 7, 94, 2, 111, 1, 1, 4096, 245, 3, 30011};
    for (size_t at = 0, turn = 0; at < size; turn++) {
        size_t most = way == WHOLE ? size : sizes[turn % (sizeof sizes / sizeof sizes[0])];
        ssize_t taken = write(to, input + at, most < size - at ? most : size - at);
        if (taken <= 0)
            break;
        at += (size_t)taken;
    }
}

/* What the program writes, fed in one of the ways; -1 where it could not be run or did not end well. */
static long run(size_t size, int way)
{
    int pipes[2] = {-1, -1}, from = -1, status, to = scratch(output[way], 0);
    if (way == FILED)
        from = scratch(input, size);
    else if (pipe(pipes) == 0)
        from = pipes[0];
    if (from < 0 || to < 0)
        return -1;
    pid_t child = start(from, to, pipes[1]);
    close(from);
    if (way != FILED) {
        feed(pipes[1], size, way);
        close(pipes[1]);
    }
    if (child < 0 || waitpid(child, &status, 0) != child || !WIFEXITED(status) || WEXITSTATUS(status) != 0)
        return -1;
    lseek(to, 0, SEEK_SET);
    long written = 0;
    for (ssize_t more; (more = read(to, output[way] + written, MOST_OUTPUT - (size_t)written)) > 0;)
        written += more;
    close(to);
    return written;
}

/* What the answers end with: a refusal's number, or 0. */
static uint32_t ending(const uint8_t *answers, long size)
{
    static const uint8_t head[4] = {4, 0, 255, 0};
    const uint8_t *last = answers + size - 6;
    return size >= 6 && memcmp(last, head, 4) == 0 ? last[4] | (uint32_t)last[5] << 8 : 0;
}

int stream_row(const struct words *row, struct words *answer)
{
    if (row->count < 2 || row->at[0] != 0x70 || row->at[1] != row->count - 2)
        return 0;
    long size = expand(row->at + 2, row->count - 2), written[WAYS];
    if (size < 0)
        return 0;
    signal(SIGPIPE, SIG_IGN);
    for (int way = 0; way < WAYS; way++) {
        written[way] = run((size_t)size, way);
        if (written[way] < 0 || written[way] != written[0] || memcmp(output[way], output[0], (size_t)written[0]) != 0)
            return 0;
    }
    add(answer, (uint32_t)written[0]);
    add(answer, ending(output[0], written[0]));
    add_digest(answer, output[0], (size_t)written[0]);
    return 1;
}
