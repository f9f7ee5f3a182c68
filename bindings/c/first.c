/* The least that a program does with the library: it reads a pattern, and says what it is. */
#include "titaniumbat.h"
#include <stdio.h>
#include <string.h>

int main(void) {
    const char *pattern = "(?<year>\\d{4,4})";
    tb_reading it;
    if (tb_read_text(pattern, strlen(pattern), "u", 1, NULL, &it) == TB_OK)
        printf("%s, groups: %zu\n", it.spelling, it.group_count); /* (?<year>\d{4}), groups: 1 */
    else if (it.refusal.span_count > 0)
        printf("%u..%u: %s\n", it.refusal.first.start, it.refusal.first.end, it.refusal.message);
    tb_free(&it);
    return 0;
}
