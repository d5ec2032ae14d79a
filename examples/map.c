/* Which points of a map are inside a fence.
 *   map FENCE POINTS
 * FENCE is a file with a fence's frame, POINTS one with 8 bytes a point (tools/frames.py points makes it from text). Two bytes a
 * point go to standard output: 1 or 0, and the number of sides read. Exit status 1: refused, or a file can't be read. */
#include <stdio.h>
#include <stdlib.h>

#include "failsafe.h"

struct file {
    uint8_t *bytes;
    size_t len;
};

static struct file read_file(const char *name)
{
    struct file f = {NULL, 0};
    FILE *in = fopen(name, "rb");
    if (in == NULL) {
        perror(name);
        exit(1);
    }
    for (size_t room = 65536;; room *= 2) {
        uint8_t *more = realloc(f.bytes, room);
        if (more == NULL) {
            fprintf(stderr, "%s: no memory\n", name);
            exit(1);
        }
        f.bytes = more;
        f.len += fread(f.bytes + f.len, 1, room - f.len, in);
        if (f.len < room)
            break;
    }
    if (ferror(in)) {
        perror(name);
        exit(1);
    }
    fclose(in);
    return f;
}

int main(int count, char **words)
{
    if (count != 3) {
        fprintf(stderr, "usage: map FENCE POINTS\n");
        return 2;
    }
    struct file fence = read_file(words[1]), points = read_file(words[2]);
    size_t len = points.len / 4;
    uint8_t *output = malloc(len + 1);
    if (output == NULL) {
        fprintf(stderr, "no memory\n");
        return 1;
    }
    uint32_t refused = failsafe_inside(fence.bytes, fence.len, points.bytes, points.len, output, len);
    if (refused != 0) {
        fprintf(stderr, "refused: %u\n", (unsigned)refused);
        return 1;
    }
    int written = fwrite(output, 1, len, stdout) == len && fflush(stdout) == 0;
    free(fence.bytes);
    free(points.bytes);
    free(output);
    return written ? 0 : 1;
}
