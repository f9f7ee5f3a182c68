/* Answers lines (lines.h) as the program titaniumbat does: as its default command, and with the word `json` as `json` does where tree, groups and spelling are wanted.
 * .ci/c compares the two. A line that is none, or not UTF-8, gets `bad`. The words `strict` and `standard` mean what they mean there; `placed` adds PATTERN_OFFSET to
 * places in the pattern, and FLAGS_OFFSET to those in the flags. */
#include "lines.h"
#include <stdio.h>

enum { PATTERN_OFFSET = 1000, FLAGS_OFFSET = 2000 };

static const char *const MODES[] = {"legacy", "unicode", "sets"};
static const char *const FIELDS[] = {"pattern", "flags"};

/* By their numbers, tb_type and tb_kind. */
static const char *const TYPES[] = {
    "",
    "Pattern", "Disjunction", "Alternative", "LookAroundAssertion", "Quantifier", "CapturingGroup", "IgnoreGroup", "BoundaryAssertion", "Character", "Dot",
    "CharacterClassEscape", "UnicodePropertyEscape", "CharacterClass", "CharacterClassRange", "ClassStringDisjunction", "ClassString",
    "IndexedReference", "NamedReference",
};

static const char *const KINDS[] = {
    "",
    "start", "end", "boundary", "negativeBoundary", "startBuffer", "endBuffer", "endBufferOptionalNewline",
    "lookahead", "negativeLookahead", "lookbehind", "negativeLookbehind",
    "controlLetter", "hexadecimalEscape", "identifier", "null", "octal1", "octal2", "octal3", "singleEscape", "symbol", "unicodeEscape",
    "d", "negativeD", "s", "negativeS", "w", "negativeW",
    "union", "intersection", "subtraction",
};

/* A pattern as it was read in bytes and in UTF-16. */
typedef struct both {
    tb_reading bytes, units;
} both;

static void put_string(const char *text, size_t size) {
    putchar('"');
    for (size_t at = 0; at < size; at++) {
        unsigned char sign = (unsigned char)text[at];
        const char *short_one = sign == '\b' ? "\\b" : sign == '\t' ? "\\t" : sign == '\n' ? "\\n" : sign == '\f' ? "\\f" : sign == '\r' ? "\\r" : NULL;
        if (short_one)
            fputs(short_one, stdout);
        else if (sign < 0x20)
            printf("\\u%04x", sign);
        else if (sign == '"' || sign == '\\')
            printf("\\%c", sign);
        else
            putchar(sign);
    }
    putchar('"');
}

/* A text that ends with NUL, which its size counts; nothing is null. */
static void put_ended(const char *text, size_t size) {
    if (size)
        put_string(text, size - 1);
    else
        fputs("null", stdout);
}

static void put_part(const tb_reading *it, bool is_there, tb_range part) {
    if (is_there)
        put_string(it->texts + part.start, part.end - part.start);
    else
        fputs("null", stdout);
}

static void put_places(tb_range bytes, tb_range units) { printf("\"start\":%u,\"end\":%u,\"start16\":%u,\"end16\":%u", bytes.start, bytes.end, units.start, units.end); }

static const char *truth(bool it) { return it ? "true" : "false"; }

static void put_letters(unsigned bits) {
    printf("\"%s%s%s\"", bits & TB_MODIFIER_I ? "i" : "", bits & TB_MODIFIER_M ? "m" : "", bits & TB_MODIFIER_S ? "s" : "");
}

static void put_modifiers(const tb_node *node, const tb_node *units) {
    fputs(",\"modifiers\":", stdout);
    if (!node->has_modifiers) {
        fputs("null", stdout);
        return;
    }
    fputs("{\"type\":\"Modifiers\",", stdout);
    put_places(node->modifiers, units->modifiers);
    fputs(",\"enabling\":", stdout);
    put_letters(node->enabling);
    fputs(",\"disabling\":", stdout);
    put_letters(node->disabling);
    putchar('}');
}

/* The fields of a node but for the nodes in it. */
static void put_fields(const tb_reading *it, const tb_node *node, const tb_node *units) {
    switch (node->type) {
    case TB_LOOK_AROUND_ASSERTION:
    case TB_BOUNDARY_ASSERTION:
    case TB_CHARACTER_CLASS_ESCAPE: printf(",\"kind\":\"%s\"", KINDS[node->kind]); break;
    case TB_CHARACTER: printf(",\"kind\":\"%s\",\"value\":%u", KINDS[node->kind], node->value); break;
    case TB_CHARACTER_CLASS: printf(",\"negative\":%s,\"strings\":%s,\"kind\":\"%s\"", truth(node->negative), truth(node->strings), KINDS[node->kind]); break;
    case TB_CLASS_STRING_DISJUNCTION:
    case TB_CLASS_STRING: printf(",\"strings\":%s", truth(node->strings)); break;
    case TB_INDEXED_REFERENCE: printf(",\"index\":%u", node->index); break;
    case TB_IGNORE_GROUP: put_modifiers(node, units); break;
    case TB_CAPTURING_GROUP:
    case TB_NAMED_REFERENCE:
        fputs(",\"name\":", stdout);
        put_part(it, node->has_name, node->name);
        break;
    case TB_UNICODE_PROPERTY_ESCAPE:
        printf(",\"negative\":%s,\"strings\":%s,\"name\":", truth(node->negative), truth(node->strings));
        put_part(it, node->has_name, node->name);
        fputs(",\"value\":", stdout);
        put_part(it, node->has_property_value, node->property_value);
        break;
    case TB_QUANTIFIER:
        printf(",\"min\":%llu,\"max\":", (unsigned long long)node->min);
        if (node->has_max)
            printf("%llu", (unsigned long long)node->max);
        else
            fputs("null", stdout);
        printf(",\"greedy\":%s", truth(node->greedy));
        break;
    }
}

/* How the nodes in a node are written: as a list, as one, as two with names, or there are none. */
typedef enum way { LIST, ONE, ENDS, NONE } way;

static way way_of(const tb_node *node) {
    switch (node->type) {
    case TB_DISJUNCTION:
    case TB_ALTERNATIVE:
    case TB_CHARACTER_CLASS:
    case TB_CLASS_STRING_DISJUNCTION:
    case TB_CLASS_STRING: return LIST;
    case TB_PATTERN:
    case TB_LOOK_AROUND_ASSERTION:
    case TB_QUANTIFIER:
    case TB_CAPTURING_GROUP:
    case TB_IGNORE_GROUP: return ONE;
    case TB_CHARACTER_CLASS_RANGE: return ENDS;
    default: return NONE;
    }
}

/* Whether the record at an index is as its children say: they follow one another by `next`, and the last one's is its own. */
static bool is_linked(const tb_reading *it, size_t index) {
    size_t child = tb_first_child(index);
    for (uint32_t left = it->nodes[index].children; left > 0; left--) {
        if (child >= it->node_count) return false;
        child = it->nodes[child].next;
    }
    return child == it->nodes[index].next;
}

/* What stands before a node by the node in which it stands. */
static void put_between(const tb_node *nodes, const size_t *open, size_t depth, size_t index) {
    if (depth == 0) return;
    size_t of = open[depth - 1];
    bool is_first = index == tb_first_child(of);
    if (way_of(&nodes[of]) == ENDS)
        fputs(is_first ? ",\"min\":" : ",\"max\":", stdout);
    else if (!is_first)
        putchar(',');
}

static bool put_tree(const both *it) {
    const tb_node *nodes = it->bytes.nodes;
    size_t depth = 0, *open = (size_t *)malloc(it->bytes.node_count * sizeof *open);
    bool fits = open && it->bytes.node_count == it->units.node_count;
    for (size_t index = 0; fits && index < it->bytes.node_count; index++) {
        const tb_node *node = &nodes[index], *units = &it->units.nodes[index];
        put_between(nodes, open, depth, index);
        printf("{\"type\":\"%s\",", TYPES[node->type]);
        put_places(node->span, units->span);
        put_fields(&it->bytes, node, units);
        if (way_of(node) == LIST) fputs(",\"body\":[", stdout);
        if (way_of(node) == ONE) fputs(",\"body\":", stdout);
        open[depth++] = index;
        fits = is_linked(&it->bytes, index) && node->next > index;
        while (depth > 0 && nodes[open[depth - 1]].next == index + 1) fputs(way_of(&nodes[open[--depth]]) == LIST ? "]}" : "}", stdout);
    }
    free(open);
    return fits && depth == 0;
}

static bool is_same_name(const tb_reading *it, tb_range one, tb_range other) {
    size_t size = one.end - one.start;
    return size == other.end - other.start && memcmp(it->texts + one.start, it->texts + other.start, size) == 0;
}

static const tb_node *group(const tb_reading *it, size_t number) { return &it->nodes[it->groups[number - 1]]; }

/* Whether a group has a name that no group before it has. */
static bool has_new_name(const tb_reading *it, size_t number) {
    if (!group(it, number)->has_name) return false;
    for (size_t before = 1; before < number; before++)
        if (group(it, before)->has_name && is_same_name(it, group(it, before)->name, group(it, number)->name)) return false;
    return true;
}

static void put_groups(const both *it) {
    fputs(",\"groups\":[", stdout);
    for (size_t number = 1; number <= it->bytes.group_count; number++) {
        const tb_node *node = group(&it->bytes, number);
        printf("%s{\"number\":%u,\"name\":", number > 1 ? "," : "", node->number);
        put_part(&it->bytes, node->has_name, node->name);
        putchar(',');
        put_places(node->span, group(&it->units, number)->span);
        putchar('}');
    }
    fputs("],\"names\":[", stdout);
    bool is_first = true;
    for (size_t number = 1; number <= it->bytes.group_count; number++) {
        if (!has_new_name(&it->bytes, number)) continue;
        if (!is_first) putchar(',');
        is_first = false;
        put_part(&it->bytes, true, group(&it->bytes, number)->name);
    }
    putchar(']');
}

static bool is_called(const tb_refusal *it, const char *name) { return strcmp(it->name, name) == 0; }

static void put_values(const tb_reading *it) {
    const tb_refusal *refusal = &it->refusal;
    bool has_names = is_called(refusal, "invalid_named_reference");
    bool has_flag = is_called(refusal, "unknown_flag") || is_called(refusal, "duplicated_flags");
    fputs(",\"values\":{", stdout);
    if (is_called(refusal, "invalid_indexed_reference"))
        printf("\"max\":%u", refusal->max);
    else if (has_names)
        fputs("\"names\":[", stdout);
    else if (refusal->value_count)
        fputs(has_flag ? "\"flag\":" : "\"name\":", stdout);
    for (size_t at = 0; at < refusal->value_count; at++) {
        if (at > 0) putchar(',');
        put_part(it, true, refusal->values[at]);
    }
    fputs(has_names ? "]}" : "}", stdout);
}

static void put_refusal(const both *it) {
    const tb_refusal *refusal = &it->bytes.refusal, *units = &it->units.refusal;
    fputs("{\"id\":null,\"status\":\"refused\",\"name\":", stdout);
    put_ended(refusal->name, refusal->name_size);
    fputs(",\"kind\":", stdout);
    put_ended(refusal->kind, refusal->kind_size);
    put_values(&it->bytes);
    fputs(",\"message\":", stdout);
    put_ended(refusal->message, refusal->message_size);
    printf(",\"field\":\"%s\",\"spans\":[{", FIELDS[refusal->field]);
    put_places(refusal->first, units->first);
    if (refusal->span_count == 2) {
        fputs("},{", stdout);
        put_places(refusal->second, units->second);
    }
    fputs("}],\"help\":", stdout);
    put_ended(refusal->help, refusal->help_size);
    fputs("}\n", stdout);
}

static void put_json(const line *given, tb_options options) {
    both it;
    tb_status status = read_line(given, options, &it.bytes);
    options.utf16 = true;
    tb_status other = read_line(given, options, &it.units);
    if (status != other) {
        puts("two statuses");
    } else if (status == TB_OK) {
        printf("{\"id\":null,\"status\":\"ok\",\"mode\":\"%s\",\"spelling\":", MODES[it.bytes.mode]);
        put_ended(it.bytes.spelling, it.bytes.spelling_size);
        put_groups(&it);
        fputs(",\"tree\":", stdout);
        puts(put_tree(&it) ? "}" : "no tree");
    } else if (status == TB_REFUSED) {
        put_refusal(&it);
    } else {
        puts(status == TB_BAD_ARGUMENT ? "bad" : "out of memory");
    }
    tb_free(&it.bytes);
    tb_free(&it.units);
}

static void put_default(const line *given, tb_options options) {
    tb_reading it;
    tb_status status = read_line(given, options, &it);
    const tb_refusal *refusal = &it.refusal;
    if (status == TB_OK) {
        printf("ok\t%s\t", MODES[it.mode]);
        fwrite(it.spelling, 1, it.spelling_size - 1, stdout);
    } else if (status == TB_REFUSED) {
        printf("err\t%s\t%u..%u", refusal->name, refusal->first.start, refusal->first.end);
        if (refusal->span_count == 2) printf(",%u..%u", refusal->second.start, refusal->second.end);
    } else {
        fputs(status == TB_BAD_ARGUMENT ? "bad" : "out of memory", stdout);
    }
    putchar('\n');
    tb_free(&it);
}

typedef void answer(const line *given, tb_options options);

/* Answers each line of standard input. Returns whether there was room for each. */
static bool answer_lines(answer *put, tb_options options) {
    static char text[(1 << 20) + 2];
    size_t size = 0;
    for (int sign = getchar(); sign != EOF; sign = getchar()) {
        if (sign != '\n') {
            if (size == sizeof text) return false;
            text[size++] = (char)sign;
            continue;
        }
        line it;
        if (is_line(text, size, &it))
            put(&it, options);
        else
            puts("bad");
        size = 0;
    }
    return true;
}

int main(int count, char **words) {
    answer *put = put_default;
    tb_options options = tb_defaults();
    for (int at = 1; at < count; at++) {
        const char *word = words[at];
        if (strcmp(word, "json") == 0)
            put = put_json;
        else if (strcmp(word, "strict") == 0)
            options.duplicate_names = options.buffer_boundaries = false;
        else if (strcmp(word, "standard") == 0)
            options.standard_strings = true;
        else if (strcmp(word, "placed") != 0)
            return 2;
        else {
            options.pattern_offset = PATTERN_OFFSET;
            options.flags_offset = FLAGS_OFFSET;
        }
    }
    return tb_version() == TB_VERSION && answer_lines(put, options) ? 0 : 2;
}
