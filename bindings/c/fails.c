/* Refuses each allocation in turn, for each line of standard input (lines.h), and checks that the status is then TB_OUT_OF_MEMORY or as ever, and that no block is left
 * but those that the reading holds, and none once it is freed. */
#include "lines.h"
#include <stdio.h>

static unsigned long long asked, refused, blocks;

static void *counted_malloc(size_t size) {
    if (++asked == refused) return NULL;
    blocks++;
    return malloc(size);
}

static void *counted_realloc(void *at, size_t size) { return ++asked == refused ? NULL : realloc(at, size); }

static void counted_free(void *at) {
    blocks--;
    free(at);
}

#define TB_MALLOC counted_malloc
#define TB_REALLOC counted_realloc
#define TB_FREE counted_free
#include "heap.c"

static unsigned held(const tb_reading *it) {
    const tb_refusal *refusal = &it->refusal;
    const size_t sizes[] = {it->node_count,     it->group_count,       it->texts_size,     it->spelling_size,   refusal->name_size,
                            refusal->kind_size, refusal->message_size, refusal->help_size, refusal->value_count};
    unsigned count = 0;
    for (size_t at = 0; at < sizeof sizes / sizeof *sizes; at++) count += sizes[at] != 0;
    return count;
}

/* Reads a line with one allocation refused; none for 0. Returns whether no block is left that the reading does not hold, and none that it should not hold. */
static bool is_whole(const line *it, unsigned long long which, tb_options options, tb_status *status) {
    tb_reading reading;
    asked = 0;
    refused = which;
    *status = read_line(it, options, &reading);
    unsigned long long left = blocks, kept = held(&reading);
    bool is_empty = kept == 0 || *status == TB_OK || *status == TB_REFUSED;
    tb_free(&reading);
    blocks = 0;
    return left == kept && is_empty;
}

int main(void) {
    static char text[1 << 20];
    unsigned long long lines = 0, runs = 0, short_runs = 0;
    tb_options options = tb_defaults();
    options.utf16 = true;
    while (fgets(text, sizeof text, stdin)) {
        line it;
        if (!is_line(text, strcspn(text, "\n"), &it)) continue;
        lines++;
        tb_status wanted = TB_OUT_OF_MEMORY, status;
        for (unsigned long long which = 0;; which++) {
            bool whole = is_whole(&it, which, options, &status);
            if (which == 0) wanted = status;
            if (!whole || (status != wanted && status != TB_OUT_OF_MEMORY)) {
                printf("allocation %llu, status %d: %s", which, (int)status, text);
                return 1;
            }
            runs++;
            short_runs += status == TB_OUT_OF_MEMORY;
            if (which > asked) break;
        }
    }
    printf("%llu lines, %llu runs, %llu out of memory\n", lines, runs, short_runs);
    return 0;
}
