/* titaniumbat: reads regular expressions of ECMAScript.
 *
 *     tb_reading it;
 *     switch (tb_read_text(pattern, strlen(pattern), "u", 1, NULL, &it)) {
 *     case TB_OK:            it.mode, it.nodes, it.groups, it.texts, it.spelling
 *     case TB_REFUSED:       it.refusal.name, it.refusal.message, it.refusal.first
 *     case TB_OUT_OF_MEMORY:
 *     case TB_BAD_ARGUMENT:
 *     }
 *     tb_free(&it);
 *
 * Texts are UTF-8, with their size in bytes. No call keeps anything or writes anything but *out, so any number of threads may call at once, each with an `out` of its
 * own; none may be made from a signal handler. Memory is that of malloc and free (heap.c). For little-endian machines with pointers of 64 bits. */
#ifndef TITANIUMBAT_H
#define TITANIUMBAT_H

#include <stdbool.h>
#include <stddef.h>
#include <stdint.h>
#include <stdlib.h>
#include <string.h>

#ifdef __cplusplus
#define TB_STATIC_ASSERT(what) static_assert(what, #what)
#define TB_CAST(type, value) static_cast<type>(value)
#define TB_UNCONST(pointer) const_cast<void *>(pointer)
extern "C" {
#else
#define TB_STATIC_ASSERT(what) _Static_assert(what, #what)
#define TB_CAST(type, value) ((type)(value))
#define TB_UNCONST(pointer) ((void *)(uintptr_t)(pointer))
#endif

/* The version of this interface: what tb_version() returns. */
#define TB_VERSION 1

/* tb_options.form */
typedef enum tb_form {
    TB_LITERAL = 0,    /* the pattern is the text between a literal's slashes, the flags are the letters after them. Whether the text could stand
                           there is not checked: a raw / or a line break is read, as RegExp reads it */
    TB_CONSTRUCTOR = 1 /* they are the arguments of RegExp as they stand in the source, with their quotes */
} tb_form;

/* What tb_read and tb_read_text return. */
typedef enum tb_status {
    TB_OK = 0,            /* the pattern is valid, and was read */
    TB_REFUSED = 1,       /* the pattern or its flags are refused: tb_reading.refusal */
    TB_OUT_OF_MEMORY = 2, /* there was not enough memory */
    TB_BAD_ARGUMENT = 3   /* the form is not a tb_form, a text is not UTF-8, or a place does not fit: offset + size (of a pattern at least 4, in the
                             form TB_CONSTRUCTOR 6) must be below 2^32 */
} tb_status;

/* tb_reading.mode */
typedef enum tb_mode { TB_LEGACY = 0, TB_UNICODE = 1, TB_SETS = 2 } tb_mode; /* without flag u or v, with u, with v */

/* tb_node.type. In brackets: the fields that nodes of the type have besides type, span, children and next. Names and fields are those of docs/JSON.md. */
typedef enum tb_type {
    TB_PATTERN = 1,                   /* one child, a disjunction */
    TB_DISJUNCTION = 2,               /* children: alternatives */
    TB_ALTERNATIVE = 3,               /* children: terms, of the types 4 to 13, 17 and 18 */
    TB_LOOK_AROUND_ASSERTION = 4,     /* [kind] one child, a disjunction */
    TB_QUANTIFIER = 5,                /* [min, has_max, max, greedy] one child, a term */
    TB_CAPTURING_GROUP = 6,           /* [number, has_name, name] one child, a disjunction */
    TB_IGNORE_GROUP = 7,              /* [has_modifiers, modifiers, enabling, disabling] one child, a disjunction */
    TB_BOUNDARY_ASSERTION = 8,        /* [kind] */
    TB_CHARACTER = 9,                 /* [kind, value] */
    TB_DOT = 10,
    TB_CHARACTER_CLASS_ESCAPE = 11,   /* [kind] */
    TB_UNICODE_PROPERTY_ESCAPE = 12,  /* [negative, strings, has_name, name, has_property_value, property_value] */
    TB_CHARACTER_CLASS = 13,          /* [kind, negative, strings] children: its items, of the types 9, 11, 12, 13 (a nested class), 14 and 15 */
    TB_CHARACTER_CLASS_RANGE = 14,    /* two children, characters: the least and the greatest */
    TB_CLASS_STRING_DISJUNCTION = 15, /* [strings] children: class strings */
    TB_CLASS_STRING = 16,             /* [strings] children: characters */
    TB_INDEXED_REFERENCE = 17,        /* [index] */
    TB_NAMED_REFERENCE = 18           /* [has_name, name] */
} tb_type;

/* tb_node.kind: each has a number of its own, whatever it is a kind of. */
typedef enum tb_kind {
    TB_KIND_NONE = 0,
    /* of a boundary assertion: ^ $ \b \B \A \z \Z */
    TB_KIND_START = 1,
    TB_KIND_END = 2,
    TB_KIND_BOUNDARY = 3,
    TB_KIND_NEGATIVE_BOUNDARY = 4,
    TB_KIND_START_BUFFER = 5,
    TB_KIND_END_BUFFER = 6,
    TB_KIND_END_BUFFER_OPTIONAL_NEWLINE = 7,
    /* of a look-around assertion: (?= (?! (?<= (?<! */
    TB_KIND_LOOKAHEAD = 8,
    TB_KIND_NEGATIVE_LOOKAHEAD = 9,
    TB_KIND_LOOKBEHIND = 10,
    TB_KIND_NEGATIVE_LOOKBEHIND = 11,
    /* of a character: how it is spelled */
    TB_KIND_CONTROL_LETTER = 12,
    TB_KIND_HEXADECIMAL_ESCAPE = 13,
    TB_KIND_IDENTIFIER = 14,
    TB_KIND_NULL = 15,
    TB_KIND_OCTAL1 = 16,
    TB_KIND_OCTAL2 = 17,
    TB_KIND_OCTAL3 = 18,
    TB_KIND_SINGLE_ESCAPE = 19,
    TB_KIND_SYMBOL = 20,
    TB_KIND_UNICODE_ESCAPE = 21,
    /* of a class escape: \d \D \s \S \w \W */
    TB_KIND_D = 22,
    TB_KIND_NEGATIVE_D = 23,
    TB_KIND_S = 24,
    TB_KIND_NEGATIVE_S = 25,
    TB_KIND_W = 26,
    TB_KIND_NEGATIVE_W = 27,
    /* of a class: [ab], [a&&b], [a--b] */
    TB_KIND_UNION = 28,
    TB_KIND_INTERSECTION = 29,
    TB_KIND_SUBTRACTION = 30
} tb_kind;

/* The bits of tb_node.enabling and tb_node.disabling. */
enum { TB_MODIFIER_I = 1, TB_MODIFIER_M = 2, TB_MODIFIER_S = 4 };

/* From the place `start` to before the place `end`. Places in the pattern and in the flags count bytes of that text, or its UTF-16 code units where tb_options.utf16 asks
 * for them, and the offset of the text is added to each. Places in tb_reading.texts count bytes. An empty pattern is read as (?:), in the form TB_CONSTRUCTOR with quotes,
 * and its nodes have the places of that text: look for them there, since the pattern given has no such bytes. With tb_options.standard_strings an argument of line
 * continuations alone is read so too: in bytes its nodes have the places of "(?:)", and with tb_options.utf16 these are counted in the argument itself, where a byte past
 * its end counts as one unit. */
typedef struct tb_range {
    uint32_t start, end;
} tb_range;

/* A node of a tree. What nodes of its type do not have is 0, false or empty. */
typedef struct tb_node {
    uint8_t type;                /* a tb_type */
    uint8_t kind;                /* a tb_kind */
    uint8_t enabling, disabling; /* the modifiers that a group switches on and off */
    bool negative;               /* whether a class begins with ^, or a property escape is \P */
    bool strings;                /* whether it may match a string that is not one character */
    bool greedy;                 /* whether a quantifier tries to match more often first */
    bool has_max, has_name, has_property_value, has_modifiers;
    bool spare;
    union {
        uint32_t value;  /* of a character: its code point, or the code unit of a surrogate that stands alone. In the mode TB_LEGACY a character
                            past U+FFFF is two nodes: a lead with its span, and a trail with an empty span after it, each with its code unit */
        uint32_t index;  /* of an indexed reference: which group from the left it means, from 1 on */
        uint32_t number; /* of a capturing group: which group from the left it is, from 1 on */
    };
    tb_range span;           /* in the text of the pattern */
    uint32_t children;       /* how many nodes stand directly in it; the first has the next record */
    uint32_t next;           /* the index of the node after it and all that stand in it; of the last ones node_count */
    tb_range modifiers;      /* in the text of the pattern: the modifiers of a group */
    tb_range name;           /* bytes of tb_reading.texts: the name of a group, a reference or a property */
    tb_range property_value; /* bytes of tb_reading.texts: the value of a property */
    uint64_t min, max;       /* how often a quantifier's body must match at least, and may at most */
} tb_node;

/* The text in which the spans of a refusal lie: tb_refusal.field */
typedef enum tb_field { TB_FIELD_PATTERN = 0, TB_FIELD_FLAGS = 1 } tb_field;

/* Why a pattern was not read. Each text ends with NUL, which its size counts. Names, kinds, helps and what `values` holds of what are told in docs/JSON.md, and with an
 * example for each in docs/REFUSALS.md. */
typedef struct tb_refusal {
    const char *name; /* what it is called, such as "unterminated_pattern" */
    size_t name_size;
    const char *kind; /* which kind of its name it is, such as "capturing_group"; empty, with the size 0, where there are not several */
    size_t kind_size;
    const char *message; /* "Invalid regular expression: " and what is wrong, in one line; but a flag that it shows may be any character, a line break or NUL too */
    size_t message_size;
    const char *help; /* what to write instead, in one line; empty, with the size 0, where that cannot be said */
    size_t help_size;
    const tb_range *values; /* bytes of tb_reading.texts: the flag, or the names of the groups, or the name of the property */
    size_t value_count;
    uint32_t field;      /* a tb_field: the text in which the spans lie */
    uint32_t span_count; /* 1, or 2 where two groups have one name; 0 where nothing is refused */
    uint32_t max;        /* of "invalid_indexed_reference": how many groups there are; else 0 */
    uint32_t spare;
    tb_range first, second; /* its spans; of one span the second is 0..0 */
} tb_refusal;

/* What was read, or why it was not. tb_free frees all that it points to. Who frees it in another way calls free() for each of nodes, groups, texts, spelling,
 * refusal.name, refusal.kind, refusal.message, refusal.help and refusal.values whose size or count is not 0, and for nothing else. */
typedef struct tb_reading {
    uint32_t mode; /* TB_OK: a tb_mode */
    uint32_t spare;
    const tb_node *nodes; /* TB_OK, where tb_options.nodes asks for it: in the order of the text, each before those that stand in it; nodes[0] is the pattern */
    size_t node_count;
    const uint32_t *groups; /* the same: nodes[groups[n - 1]] is the capturing group with the number n */
    size_t group_count;
    const char *texts; /* the same: the names and values of the nodes; or TB_REFUSED: those of the refusal's `values`. Not ended by NUL */
    size_t texts_size;
    const char *spelling; /* TB_OK, where tb_options.spelling asks for it: the canonical spelling, as a literal without slashes and flags */
    size_t spelling_size; /* counts the NUL at its end. Another can stand before: a pattern may hold one */
    tb_refusal refusal;   /* TB_REFUSED */
} tb_reading;

/* How a pattern is read, and what is wanted of it. */
typedef struct tb_options {
    uint32_t form;           /* a tb_form */
    uint32_t pattern_offset; /* what is added to each place in the pattern */
    uint32_t flags_offset;   /* what is added to each place in the flags */
    bool has_flags;          /* tb_read: whether there is a flags text, which may be empty; else `flags` must be UTF-8 all the same. tb_read_text sets it: a null pointer is no
                                flags text */
    bool duplicate_names;    /* whether two groups may have one name where they never both take part; by default true */
    bool buffer_boundaries;  /* whether \A, \z and \Z are boundaries with u or v; by default true */
    bool standard_strings;   /* whether arguments of RegExp are read as ECMA-262 has them, and not as the Rust crate does; by default false */
    bool utf16;              /* whether places count UTF-16 code units; by default false */
    bool nodes;              /* whether nodes, groups and texts are wanted; by default true */
    bool spelling;           /* whether the canonical spelling is wanted; by default true */
    bool spare;
} tb_options;

TB_STATIC_ASSERT(sizeof(void *) == 8 && sizeof(size_t) == 8);
TB_STATIC_ASSERT(sizeof(tb_range) == 8);
TB_STATIC_ASSERT(sizeof(tb_options) == 20 && offsetof(tb_options, has_flags) == 12 && offsetof(tb_options, spare) == 19);
TB_STATIC_ASSERT(sizeof(tb_node) == 72 && offsetof(tb_node, negative) == 4 && offsetof(tb_node, has_max) == 7 && offsetof(tb_node, value) == 12);
TB_STATIC_ASSERT(offsetof(tb_node, span) == 16 && offsetof(tb_node, children) == 24 && offsetof(tb_node, modifiers) == 32 && offsetof(tb_node, min) == 56);
TB_STATIC_ASSERT(sizeof(tb_refusal) == 112 && offsetof(tb_refusal, values) == 64 && offsetof(tb_refusal, field) == 80 && offsetof(tb_refusal, first) == 96);
TB_STATIC_ASSERT(sizeof(tb_reading) == 184 && offsetof(tb_reading, nodes) == 8 && offsetof(tb_reading, spelling) == 56 && offsetof(tb_reading, refusal) == 72);

/* The version of the library: TB_VERSION, where header and library belong together. */
uint32_t tb_version(void);

/* Reads a pattern, and returns a tb_status. tb_read_text below calls it, and has fewer rules. Here no pointer may be null, not even where its size is 0; each of the bools
 * of *options must be 0 or 1; and *out must hold nothing, as tb_clear leaves it. Whatever is returned, *out is set, and the caller frees it. A pointer of *out whose size
 * or count is 0 is not null, and points to nothing. */
uint32_t tb_read(const char *pattern, size_t pattern_size, const char *flags, size_t flags_size, const tb_options *options, tb_reading *out);

/* What pointers without a text or records point to: zeros, aligned for records. */
static const uint64_t tb_nothing[1] = {0};

/* Lets the pointers of a reading whose size or count is 0 point to something: texts to "", the others to one 0. */
static inline void tb_fill(tb_reading *it) {
    const void *nothing = tb_nothing;
    if (!it->node_count) it->nodes = TB_CAST(const tb_node *, nothing);
    if (!it->group_count) it->groups = TB_CAST(const uint32_t *, nothing);
    if (!it->texts_size) it->texts = "";
    if (!it->spelling_size) it->spelling = "";
    if (!it->refusal.name_size) it->refusal.name = "";
    if (!it->refusal.kind_size) it->refusal.kind = "";
    if (!it->refusal.message_size) it->refusal.message = "";
    if (!it->refusal.help_size) it->refusal.help = "";
    if (!it->refusal.value_count) it->refusal.values = TB_CAST(const tb_range *, nothing);
}

/* Makes a reading that holds nothing. Frees nothing. */
static inline void tb_clear(tb_reading *it) {
    memset(it, 0, sizeof *it);
    tb_fill(it);
}

/* Literals without offsets, with both rules of groups' names and of boundaries, in bytes; nodes and spelling are wanted. */
static inline tb_options tb_defaults(void) {
    tb_options options;
    memset(&options, 0, sizeof options);
    options.duplicate_names = options.buffer_boundaries = options.nodes = options.spelling = true;
    return options;
}

/* Reads a pattern. The sizes count bytes. `pattern` may be null where its size is 0. `flags` is null where there is no flags text; an empty one is not null.
 * `options` may be null: tb_defaults(). *out need not be set before, and what it held is not freed; afterwards it is set, whatever is
 * returned, no pointer in it is null or points to nothing, and the caller frees it by tb_free. */
static inline tb_status tb_read_text(const char *pattern, size_t pattern_size, const char *flags, size_t flags_size, const tb_options *options, tb_reading *out) {
    tb_options all = options ? *options : tb_defaults();
    all.has_flags = flags ? true : false;
    tb_clear(out);
    uint32_t status = tb_read(pattern_size ? pattern : "", pattern_size, flags ? flags : "", flags ? flags_size : 0, &all, out);
    tb_fill(out);
    return TB_CAST(tb_status, status);
}

/* Frees one block of a reading, where there is one. */
static inline void tb_free_block(const void *block, size_t size) {
    if (size) free(TB_UNCONST(block));
}

/* Frees what a reading holds. It then holds nothing, and may be freed again. */
static inline void tb_free(tb_reading *it) {
    tb_free_block(it->nodes, it->node_count);
    tb_free_block(it->groups, it->group_count);
    tb_free_block(it->texts, it->texts_size);
    tb_free_block(it->spelling, it->spelling_size);
    tb_free_block(it->refusal.name, it->refusal.name_size);
    tb_free_block(it->refusal.kind, it->refusal.kind_size);
    tb_free_block(it->refusal.message, it->refusal.message_size);
    tb_free_block(it->refusal.help, it->refusal.help_size);
    tb_free_block(it->refusal.values, it->refusal.value_count);
    tb_clear(it);
}

/* The index of the first child of the node at an index, where it has children. Each child has the index of the next one in `next`:
 *
 *     size_t child = tb_first_child(at);
 *     for (uint32_t left = it->nodes[at].children; left > 0; left--, child = it->nodes[child].next) ..
 */
static inline size_t tb_first_child(size_t at) { return at + 1; }

#undef TB_UNCONST
#undef TB_CAST
#undef TB_STATIC_ASSERT

#ifdef __cplusplus
}
#endif
#endif
