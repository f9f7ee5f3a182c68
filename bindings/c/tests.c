/* What the header says, tried: statuses, what is set with each, places, and threads. Prints what is wrong; the status is 0 where nothing is. */
#include "titaniumbat.h"
#include <pthread.h>
#include <stdio.h>

static unsigned wrong;

static void expect(bool holds, const char *what, int row) {
    if (holds) return;
    wrong++;
    printf("wrong: %s, row %d\n", what, row);
}

typedef struct row {
    const char *pattern;
    size_t pattern_size;
    const char *flags;
    size_t flags_size;
    uint32_t form, pattern_offset, flags_offset;
    tb_status status;
} row;

static const row ROWS[] = {
    {NULL, 0, NULL, 0, TB_LITERAL, 0, 0, TB_OK},
    {"a\0b", 3, "u", 1, TB_LITERAL, 0, 0, TB_OK},
    {"\"a\"", 3, "'v'", 3, TB_CONSTRUCTOR, 0, 0, TB_OK},
    {"(", 1, NULL, 0, TB_LITERAL, 0, 0, TB_REFUSED},
    {"a", 1, "gg", 2, TB_LITERAL, 0, 0, TB_REFUSED},
    {"a", 1, NULL, 0, TB_CONSTRUCTOR, 0, 0, TB_REFUSED},
    {"a", 1, NULL, 0, 2, 0, 0, TB_BAD_ARGUMENT},
    {"\xff", 1, NULL, 0, TB_LITERAL, 0, 0, TB_BAD_ARGUMENT},
    {"a", 1, "\xc3", 1, TB_LITERAL, 0, 0, TB_BAD_ARGUMENT},
    {"a", 1, NULL, 0, TB_LITERAL, 0xFFFFFFFB, 0, TB_OK},
    {"a", 1, NULL, 0, TB_LITERAL, 0xFFFFFFFC, 0, TB_BAD_ARGUMENT},
    {"\"\"", 2, NULL, 0, TB_CONSTRUCTOR, 0xFFFFFFF9, 0, TB_OK},
    {"\"\"", 2, NULL, 0, TB_CONSTRUCTOR, 0xFFFFFFFA, 0, TB_BAD_ARGUMENT},
    {"a", 1, "u", 1, TB_LITERAL, 0, 0xFFFFFFFE, TB_OK},
    {"a", 1, "u", 1, TB_LITERAL, 0, 0xFFFFFFFF, TB_BAD_ARGUMENT},
};

static bool has_nothing(const tb_reading *it) {
    return !it->node_count && !it->group_count && !it->texts_size && !it->spelling_size && !it->refusal.name_size && !it->refusal.kind_size &&
           !it->refusal.message_size && !it->refusal.help_size && !it->refusal.value_count && !it->refusal.span_count;
}

/* No pointer is null, and each text ends with NUL. */
static bool is_set(const tb_reading *it) {
    const tb_refusal *refusal = &it->refusal;
    const char *const texts[] = {it->spelling, refusal->name, refusal->kind, refusal->message, refusal->help};
    const size_t sizes[] = {it->spelling_size, refusal->name_size, refusal->kind_size, refusal->message_size, refusal->help_size};
    for (size_t at = 0; at < 5; at++)
        if (!texts[at] || texts[at][sizes[at] ? sizes[at] - 1 : 0]) return false;
    return it->nodes && it->groups && it->texts && refusal->values;
}

static tb_status read_row(const row *it, tb_options options, tb_reading *out) {
    options.form = it->form;
    options.pattern_offset = it->pattern_offset;
    options.flags_offset = it->flags_offset;
    return tb_read_text(it->pattern, it->pattern_size, it->flags, it->flags_size, &options, out);
}

static void try_rows(void) {
    for (int at = 0; at < (int)(sizeof ROWS / sizeof *ROWS); at++) {
        tb_reading it;
        tb_status status = read_row(&ROWS[at], tb_defaults(), &it);
        expect(status == ROWS[at].status, "status", at);
        expect(is_set(&it), "pointers", at);
        expect((it.node_count > 0) == (status == TB_OK) && (it.spelling_size > 0) == (status == TB_OK), "what is set when it is read", at);
        expect((it.refusal.span_count > 0) == (status == TB_REFUSED), "what is set when it is refused", at);
        expect(status != TB_BAD_ARGUMENT || has_nothing(&it), "what is set otherwise", at);
        tb_free(&it);
        expect(has_nothing(&it) && is_set(&it), "what is left when it is freed", at);
        tb_free(&it);
    }
}

static void try_wants(void) {
    for (int wants = 0; wants < 4; wants++) {
        tb_reading it;
        tb_options options = tb_defaults();
        options.nodes = wants & 1;
        options.spelling = wants & 2;
        expect(tb_read_text("(?<n>a)", 7, "v", 1, &options, &it) == TB_OK && it.mode == TB_SETS, "mode", wants);
        expect((it.node_count == 7) == options.nodes && (it.group_count == 1) == options.nodes && (it.texts_size == 1) == options.nodes, "nodes", wants);
        expect((it.spelling_size == 8) == options.spelling, "spelling", wants);
        tb_free(&it);
    }
}

/* In UTF-8 the first character takes 4 bytes, in UTF-16 two code units. */
static void try_places(void) {
    for (int utf16 = 0; utf16 < 2; utf16++) {
        tb_reading it;
        tb_options options = tb_defaults();
        options.utf16 = utf16;
        options.pattern_offset = options.flags_offset = 10;
        uint32_t start = utf16 ? 12 : 14;
        expect(tb_read_text("\xf0\x9f\x98\x80(?i:a)", 10, "u", 1, &options, &it) == TB_OK, "read", utf16);
        expect(it.nodes[4].type == TB_IGNORE_GROUP && it.nodes[4].span.start == start && it.nodes[4].modifiers.start == start + 2, "places", utf16);
        tb_free(&it);
        expect(tb_read_text("a", 1, "\xf0\x9f\x98\x80", 4, &options, &it) == TB_REFUSED && it.refusal.field == TB_FIELD_FLAGS, "refused", utf16);
        expect(it.refusal.first.end == start && it.refusal.value_count == 1 && it.refusal.values[0].end == 4, "places in flags", utf16);
        tb_free(&it);
    }
}

static void *read_often(void *told) {
    bool *holds = (bool *)told;
    *holds = true;
    for (int round = 0; round < 2000; round++)
        for (size_t at = 0; at < sizeof ROWS / sizeof *ROWS; at++) {
            tb_reading it;
            *holds &= read_row(&ROWS[at], tb_defaults(), &it) == ROWS[at].status;
            tb_free(&it);
        }
    return NULL;
}

static void try_threads(void) {
    enum { THREADS = 4 };
    pthread_t threads[THREADS];
    bool holds[THREADS];
    for (int at = 0; at < THREADS; at++) expect(pthread_create(&threads[at], NULL, read_often, &holds[at]) == 0, "thread", at);
    for (int at = 0; at < THREADS; at++) expect(pthread_join(threads[at], NULL) == 0 && holds[at], "reading in threads", at);
}

int main(void) {
    expect(tb_version() == TB_VERSION, "version", 0);
    try_rows();
    try_wants();
    try_places();
    try_threads();
    printf("tests: %u wrong\n", wrong);
    return wrong != 0;
}
