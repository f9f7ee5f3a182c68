/* How long reading takes: ./speed FILE [ROUNDS [WAY]], where FILE has lines as lines.h reads them. Prints for each way, or for one, the least time of all rounds, in
 * nanoseconds of the processor a pattern, and how many times that of `validity` it is. */
#define _POSIX_C_SOURCE 200809L
#include "lines.h"
#include <stdio.h>
#include <time.h>

static unsigned long long seen;

static double now(void) {
    struct timespec at;
    clock_gettime(CLOCK_PROCESS_CPUTIME_ID, &at);
    return (double)at.tv_sec * 1e9 + (double)at.tv_nsec;
}

static char *contents(const char *name, size_t *size) {
    FILE *file = fopen(name, "rb");
    long end = file && !fseek(file, 0, SEEK_END) ? ftell(file) : -1;
    char *bytes = end >= 0 ? (char *)malloc((size_t)end + 1) : NULL;
    if (bytes) {
        rewind(file);
        *size = fread(bytes, 1, (size_t)end, file);
    }
    if (file) fclose(file);
    return bytes;
}

static size_t lines_of(const char *bytes, size_t size, line *lines) {
    size_t count = 0;
    for (const char *at = bytes, *end = bytes + size; at < end;) {
        const char *stop = (const char *)memchr(at, '\n', (size_t)(end - at));
        if (!stop) stop = end;
        count += is_line(at, (size_t)(stop - at), &lines[count]);
        at = stop + 1;
    }
    return count;
}

/* What a linter does: it looks at each node, and at the names of the groups. */
static void go_over(const tb_reading *it) {
    for (size_t at = 0; at < it->node_count; at++) {
        const tb_node *node = &it->nodes[at];
        if (node->type == TB_CHARACTER)
            seen += node->value;
        else if (node->type == TB_CAPTURING_GROUP)
            seen += node->has_name;
    }
}

typedef struct way {
    const char *name;
    bool reads, nodes, spelling, utf16, goes_over;
} way;

static const way ways[] = {
    {"validity", true, false, false, false, false},
    {"nodes", true, true, false, false, false},
    {"nodes, gone over", true, true, false, false, true},
    {"nodes in UTF-16", true, true, false, true, false},
    {"spelling", true, false, true, false, false},
    {"nodes and spelling", true, true, true, false, false},
    {"empty call", false, false, false, false, false},
};

enum { WAYS = sizeof ways / sizeof *ways };

static double took(const way *it, const line *lines, size_t count) {
    tb_options options = tb_defaults();
    options.nodes = it->nodes;
    options.spelling = it->spelling;
    options.utf16 = it->utf16;
    double start = now();
    for (size_t at = 0; at < count; at++) {
        tb_reading reading;
        if (!it->reads) {
            seen += tb_version();
            continue;
        }
        if (read_line(&lines[at], options, &reading) == TB_OK && it->goes_over) go_over(&reading);
        tb_free(&reading);
    }
    return (now() - start) / (double)count;
}

int main(int words, char **word) {
    size_t size = 0;
    char *bytes = words > 1 ? contents(word[1], &size) : NULL;
    line *lines = bytes ? (line *)malloc((size / 3 + 1) * sizeof *lines) : NULL;
    if (!lines) {
        fprintf(stderr, "usage: speed FILE [ROUNDS [WAY]]\n");
        return 2;
    }
    size_t count = lines_of(bytes, size, lines);
    double least[WAYS];
    for (int at = 0; at < WAYS; at++) least[at] = 1e18;
    for (int rounds = words > 2 ? atoi(word[2]) : 100; rounds > 0; rounds--)
        for (int at = 0; at < WAYS; at++) {
            if (words > 3 && strcmp(word[3], ways[at].name)) continue;
            double time = took(&ways[at], lines, count);
            if (time < least[at]) least[at] = time;
        }
    for (int at = 0; at < WAYS; at++)
        if (least[at] < 1e18) printf("%-20s %8.0f ns, %.2f\n", ways[at].name, least[at], least[at] / least[0]);
    fprintf(stderr, "%zu patterns, %llu\n", count, seen);
    free(lines);
    free(bytes);
    return 0;
}
