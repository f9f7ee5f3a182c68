/* Shows the groups of a literal, or marks with carets why it is refused:
 *
 *     $ ./example '(?<year>\d{4})-(\d\d)' u
 *     /(?<year>\d{4})-(\d\d)/u
 *     group 1, year, 0..14: (?<year>\d{4})
 *     group 2, no name, 15..21: (\d\d)
 *
 *     $ ./example '(?P<n>a)'
 *     /(?P<n>a)/
 *        ^ Invalid regular expression: Unknown modifiers
 *     help: named groups are written (?<a>b)
 */
#include "titaniumbat.h"
#include <stdio.h>
#include <string.h>

/* How many characters stand before a byte of a text: bytes 10xxxxxx go on with a character. */
static size_t columns(const char *text, size_t end) {
    size_t count = 0;
    for (size_t at = 0; at < end && text[at]; at++) count += ((unsigned char)text[at] & 0xC0) != 0x80;
    return count;
}

static void put(char sign, size_t count) {
    for (size_t at = 0; at < count; at++) putchar(sign);
}

/* Writes carets under a part of a text; nothing, such as a missing name, gets one too. Returns the column after them. */
static size_t mark(size_t column, size_t begin, const char *text, tb_range place) {
    size_t start = begin + columns(text, place.start), end = begin + columns(text, place.end);
    if (end == start) end++;
    put(' ', start - column);
    put('^', end - start);
    return end;
}

static void show_refusal(const char *pattern, const char *flags, const tb_refusal *it) {
    size_t begin = it->field == TB_FIELD_FLAGS ? columns(pattern, strlen(pattern)) + 2 : 1;
    const char *text = it->field == TB_FIELD_FLAGS ? flags : pattern;
    size_t column = mark(0, begin, text, it->first);
    if (it->span_count == 2) mark(column, begin, text, it->second);
    printf(" %s\n", it->message);
    if (it->kind_size) printf("kind: %s\n", it->kind);
    if (it->help_size) printf("help: %s\n", it->help);
}

static void show_part(const char *text, tb_range part) { printf("%.*s", (int)(part.end - part.start), text + part.start); }

static void show_groups(const char *pattern, const tb_reading *it) {
    for (size_t number = 1; number <= it->group_count; number++) {
        const tb_node *group = &it->nodes[it->groups[number - 1]];
        printf("group %zu, ", number);
        if (group->has_name)
            show_part(it->texts, group->name);
        else
            printf("no name");
        printf(", %u..%u: ", group->span.start, group->span.end);
        show_part(pattern, group->span);
        putchar('\n');
    }
}

int main(int count, char **words) {
    if (count < 2 || count > 3) {
        fprintf(stderr, "usage: example PATTERN [FLAGS]\n");
        return 2;
    }
    const char *pattern = words[1], *flags = count > 2 ? words[2] : "";
    tb_reading it;
    tb_status status = tb_read_text(pattern, strlen(pattern), flags, strlen(flags), NULL, &it);
    switch (status) {
    case TB_OK:
        printf("/%s/%s\n", pattern, flags);
        show_groups(pattern, &it);
        break;
    case TB_REFUSED:
        printf("/%s/%s\n", pattern, flags);
        show_refusal(pattern, flags, &it.refusal);
        break;
    case TB_OUT_OF_MEMORY: fprintf(stderr, "out of memory\n"); break;
    case TB_BAD_ARGUMENT: fprintf(stderr, "the words are not UTF-8\n"); break;
    }
    tb_free(&it);
    return status == TB_OK ? 0 : 1;
}
