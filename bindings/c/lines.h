/* What the programs here read: lines FORM TAB FLAGS TAB PATTERN, as the program titaniumbat reads them. FORM is L, a literal, or C, the arguments of RegExp; no flags
 * text is an empty field. */
#include "titaniumbat.h"

typedef struct line {
    const char *pattern, *flags;
    size_t pattern_size, flags_size;
    tb_form form;
} line;

/* Takes a line of so many bytes, without its LF, apart. Returns whether it is such a line. */
static inline bool is_line(const char *text, size_t size, line *out) {
    const char *first = size ? (const char *)memchr(text, '\t', size) : NULL;
    const char *second = first ? (const char *)memchr(first + 1, '\t', (size_t)(text + size - first - 1)) : NULL;
    if (!second || first != text + 1 || (*text != 'L' && *text != 'C')) return false;
    out->form = *text == 'L' ? TB_LITERAL : TB_CONSTRUCTOR;
    out->flags_size = (size_t)(second - first - 1);
    out->flags = out->flags_size ? first + 1 : NULL;
    out->pattern = second + 1;
    out->pattern_size = (size_t)(text + size - second - 1);
    return true;
}

/* Reads the pattern of a line; the form is the line's. */
static inline tb_status read_line(const line *it, tb_options options, tb_reading *out) {
    options.form = it->form;
    return tb_read_text(it->pattern, it->pattern_size, it->flags, it->flags_size, &options, out);
}
