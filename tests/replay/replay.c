/* Replays a fixed list of the Rust's answers, docs/LISTS.md: 'replay LIST FOLDER ROWS' asks each row of FOLDER/rows, and
 * compares what comes back with the same line of FOLDER/answers. Exit status 1 where a row differs, or where there are not
 * exactly ROWS rows. */
#include <stdlib.h>
#include <string.h>

#include "lists.h"

#define SHOWN 5

typedef int (*answers)(const struct words *row, struct words *answer);

static answers list_of(const char *name)
{
    if (strcmp(name, "leaves") == 0)
        return leaf_row;
    if (strcmp(name, "flights") == 0)
        return flight_row;
    if (strcmp(name, "frames") == 0)
        return frame_row;
    if (strcmp(name, "calls") == 0)
        return call_row;
    if (strcmp(name, "streams") == 0)
        return stream_row;
    return NULL;
}

static FILE *opened(const char *folder, const char *part)
{
    char path[4096];
    snprintf(path, sizeof path, "%s/%s", folder, part);
    FILE *file = fopen(path, "rb");
    if (file == NULL) {
        printf("replay: %s can't be read\n", path);
        exit(1);
    }
    return file;
}

/* Whether the row gets the answer that is kept. */
static int compare(answers ask, unsigned long number, const struct words *row, const struct words *kept, unsigned long shown)
{
    static struct words answer;
    answer.count = 0;
    int answered = ask(row, &answer);
    if (answered && same_words(&answer, kept))
        return 1;
    if (shown < SHOWN) {
        printf("row %lu differs%s\n", number, answered ? "" : ": it is no row of this list, or a call wrote where it may not, or the ways to feed a stream differ");
        print_words("asked", row);
        print_words("kept", kept);
        print_words("answered", &answer);
    }
    return 0;
}

int main(int argc, char **argv)
{
    static struct words row, kept;
    unsigned long rows = 0, differ = 0;
    answers ask = argc == 4 ? list_of(argv[1]) : NULL;
    if (ask == NULL) {
        printf("usage: replay leaves|flights|frames|calls|streams FOLDER ROWS\n");
        return 2;
    }
    FILE *asked = opened(argv[2], "rows"), *stored = opened(argv[2], "answers");
    for (;;) {
        int some = read_words(asked, &row), more = read_words(stored, &kept);
        if (some == 0 && more == 0)
            break;
        if (some != 1 || more != 1) {
            printf("%s: after row %lu one of the files ends, or has no row\n", argv[1], rows);
            return 1;
        }
        rows++;
        differ += !compare(ask, rows, &row, &kept, differ);
    }
    printf("%s: %lu rows compared, %lu differ\n", argv[1], rows, differ);
    if (rows != strtoul(argv[3], NULL, 10)) {
        printf("%s: there have to be %s rows\n", argv[1], argv[3]);
        return 1;
    }
    return differ != 0;
}
