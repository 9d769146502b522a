/* fluent.h: Fluent Translation Lists for C and C++. Link libfluent.a, or libfluent.so by -lfluent.

   Each call reads a text, which is UTF-8, or several, and writes into memory of the caller's: an array, and a number
   that tells how many items there are to give. It writes all of them or none, and nothing behind them. It keeps
   nothing, and may be made from several threads at once, but not from a signal handler. `nesting` bounds the stack that
   it takes, so that no text ends the host.

   A pointer may be null where its length is 0. `needed` and `count` are not null. What is read and what is written to
   do not overlap. A text may be char or uint8_t: each is taken without a cast. */
#ifndef FLUENT_H
#define FLUENT_H

/* The version. Of a later one with the same first number each call and number of this one is as it is here. */
#define FTL_VERSION_MAJOR 2
#define FTL_VERSION_MINOR 4
#define FTL_VERSION "2.4.0"
#define FTL_VERSION_NUMBER 20400 /* 10000 times the first number, 100 times the second, and the third; since 2.4 */

#include <stddef.h>
#include <stdint.h>

#ifdef __cplusplus
extern "C" {
#endif

/* How a call ended; of several texts each is meant. After the first two all was given. After the others nothing was
   written to the array; `needed` or `count` is 0, but after FTL_TOO_SMALL it is the number of items that there are. */
enum ftl_status {
    FTL_CLEAN = 0,          /* the text has no syntax error */
    FTL_SYNTAX_ERRORS = 1,  /* it has some */
    FTL_WRONG_ARGUMENT = 2, /* no command, or no edition, has the number */
    FTL_NOT_UTF8 = 3,       /* the text is not UTF-8 */
    FTL_NO_MEMORY = 4,      /* a request for memory was refused */
    FTL_TOO_SMALL = 5,      /* the array has no room for all that there is: call again with more */
    FTL_TOO_DEEP = 6,       /* the text nests more deeply than `nesting` allows, or JSON more than 127 deep */
    FTL_NO_TREE = 7,        /* of JSON: the text is no JSON, or JSON that spells no tree */
    FTL_NOT_FOUND = 8,      /* of edits, since 2.4: nothing has the name */
    FTL_NOT_ONE_ENTRY = 9,  /* what is new is not exactly one entry, or one value */
    FTL_READS_OTHERWISE = 10, /* the new text would be read otherwise than as the text with the edit made */
    FTL_NO_VALUE = 11,      /* what has the name has no value, or no such attribute */
    FTL_PART_HAS_ERRORS = 12, /* what is new has syntax errors */
    FTL_OVERLAP = 13        /* two edits change the same stretch, or they are not in the order of the text */
};

/* Statuses too, since 2.4: what is new in an edit, or the entry of a tree, would be read otherwise, and this is the first
   rule of canonical trees that it breaks. docs/GRAMMAR.md has the rules. */
enum ftl_rule {
    FTL_RULE_JUNK = 101,
    FTL_RULE_EMPTY_MESSAGE = 102,
    FTL_RULE_LF_IN_COMMENT = 103,
    FTL_RULE_EMPTY_PATTERN = 104,
    FTL_RULE_EMPTY_TEXT = 105,
    FTL_RULE_BRACE_IN_TEXT = 106,
    FTL_RULE_CR_BEFORE_LF = 107,
    FTL_RULE_LF_WITHIN_TEXT = 108,
    FTL_RULE_TEXT_AFTER_TEXT = 109,
    FTL_RULE_BLANK_FIRST_TEXT = 110,
    FTL_RULE_LEADING_SPACE = 111,
    FTL_RULE_BLANK_END = 112,
    FTL_RULE_LINE_OF_SPACES = 113,
    FTL_RULE_MARKED_LINE = 114,
    FTL_RULE_FORBIDDEN_SELECTOR = 115,
    FTL_RULE_SECOND_DEFAULT = 116,
    FTL_RULE_TERM_ATTRIBUTE = 117,
    FTL_RULE_FORBIDDEN_CALLEE = 118,
    FTL_RULE_FORBIDDEN_ARGUMENT = 119,
    FTL_RULE_REPEATED_ARGUMENT = 120,
    FTL_RULE_MISSPELLED_STRING = 121,
    FTL_RULE_MISSPELLED_NUMBER = 122,
    FTL_RULE_MISSPELLED_NAME = 123,
    FTL_RULE_EMPTY_COMMENT = 124,
    FTL_RULE_BLANK_COMMENT_LINE = 125,
    FTL_RULE_HIDDEN_MARK = 126,
    FTL_RULE_COMMON_INDENT = 127,
    FTL_RULE_SPACES_ON_BLANK_LINE = 128,
    FTL_RULE_NO_DEFAULT = 129
};

/* A `nesting` that does for texts that people write: how many placeables and argument lists may be open at once. Each
   takes at most 3.1 KB of stack, as measured: with this number a call needs less than 512 KB. */
#define FTL_NESTING 100

/* What to write for a text. */
enum ftl_command {
    FTL_CHECK = 0,     /* a line for each syntax error: LINE:COLUMN START..END JUNK_START..JUNK_END KIND */
    FTL_FORMAT = 1,    /* the text in its normal form, without what was refused */
    FTL_RUNTIME = 2,   /* the same without comments */
    FTL_JSON = 3,      /* the tree as a JSON value on one line, with what was refused */
    FTL_CHECK_TWO = 4, /* FTL_CHECK by edition two of the grammar */
    FTL_FORMAT_TWO = 5, /* FTL_FORMAT by edition two */
    FTL_FROM_JSON = 6   /* of a JSON value as FTL_JSON writes it: the text of the tree it spells, without its junk */
};

/* The editions of the grammar. */
enum ftl_edition {
    FTL_EDITION_ONE = 1,
    FTL_EDITION_TWO = 2
};

/* What the grammar wanted where a stretch was refused. */
enum ftl_error_kind {
    FTL_EXPECTED_TOKEN = 1,
    FTL_EXPECTED_CHAR_RANGE = 2,
    FTL_EXPECTED_MESSAGE_FIELD = 3,
    FTL_EXPECTED_TERM_FIELD = 4,
    FTL_FORBIDDEN_CALLEE = 5,
    FTL_MISSING_DEFAULT_VARIANT = 6,
    FTL_MISSING_VALUE = 7,
    FTL_MULTIPLE_DEFAULT_VARIANTS = 8,
    FTL_MESSAGE_REFERENCE_AS_SELECTOR = 9,
    FTL_TERM_REFERENCE_AS_SELECTOR = 10,
    FTL_MESSAGE_ATTRIBUTE_AS_SELECTOR = 11,
    FTL_TERM_ATTRIBUTE_AS_PLACEABLE = 12,
    FTL_UNTERMINATED_STRING_LITERAL = 13,
    FTL_POSITIONAL_ARGUMENT_FOLLOWS_NAMED = 14,
    FTL_DUPLICATED_NAMED_ARGUMENT = 15,
    FTL_UNKNOWN_ESCAPE_SEQUENCE = 16,
    FTL_INVALID_UNICODE_ESCAPE_SEQUENCE = 17,
    FTL_UNBALANCED_CLOSING_BRACE = 18,
    FTL_EXPECTED_INLINE_EXPRESSION = 19,
    FTL_EXPECTED_SIMPLE_EXPRESSION_AS_SELECTOR = 20,
    FTL_EXPECTED_LITERAL = 21
};

/* A syntax error. */
struct ftl_error {
    size_t line;              /* where it is: the line, from 1 */
    size_t column;            /* and the column, from 1, in bytes, */
    size_t column_utf16;      /* in UTF-16 units */
    size_t column_characters; /* and in characters */
    size_t start;             /* its place, in bytes of the text: from start */
    size_t end;               /* up to end */
    size_t junk_start;        /* the stretch that was refused for it, likewise */
    size_t junk_end;
    uint32_t kind;            /* an ftl_error_kind */
};

/* The cause of a syntax error: a mistake from which the error comes. Where none is known all are 0. Since 2.4. */
struct ftl_cause {
    size_t line;              /* where it is: the line, from 1 */
    size_t column;            /* and the column, from 1, in bytes, */
    size_t column_utf16;      /* in UTF-16 units */
    size_t column_characters; /* and in characters */
    size_t start;             /* its place, in bytes of the text: from start */
    size_t end;               /* up to end */
    uint32_t kind;            /* of an attribute that is refused, an ftl_error_kind; of all others 0 */
};

/* What a name is the name of. */
enum ftl_name_kind {
    FTL_MESSAGE = 1,
    FTL_TERM = 2,
    FTL_ATTRIBUTE = 3
};

/* The name of a message, of a term or of an attribute. */
struct ftl_name {
    size_t line;              /* where it is: the line, from 1 */
    size_t column;            /* and the column, from 1, in bytes, */
    size_t column_utf16;      /* in UTF-16 units */
    size_t column_characters; /* and in characters */
    size_t start;             /* the bytes of the text that spell it, without the '-' of a term and the '.' of an */
    size_t end;               /* attribute: from start up to end */
    size_t owner;             /* the row of the message or the term, from 0: the row itself, or that of which it is an
                                 attribute */
    size_t entry_start;       /* the stretch of that message or term: from its name, or from the '-' of a term, */
    size_t entry_end;         /* up to its end, with the blank lines directly behind it */
    uint32_t kind;            /* an ftl_name_kind */
};

/* Where the value of a message, of a term or of an attribute stands; since 2.3. */
struct ftl_value {
    size_t start; /* the bytes of the text: from start, which is directly behind the '=', */
    size_t end;   /* up to end, with the blank lines directly behind it; of a message without a value both are 0 */
};

/* What a node of a tree is, and what it holds, in order. Since 2.4. */
enum ftl_node_kind {
    FTL_NODE_MESSAGE = 1,           /* with its name: its value, if it has one, and its attributes */
    FTL_NODE_TERM = 2,              /* with its name: its value and its attributes */
    FTL_NODE_COMMENT = 3,           /* of '#', by itself: its lines */
    FTL_NODE_GROUP_COMMENT = 4,     /* of '##': its lines */
    FTL_NODE_RESOURCE_COMMENT = 5,  /* of '###': its lines */
    FTL_NODE_JUNK = 6,              /* with its text */
    FTL_NODE_OWN_COMMENT = 7,       /* that of the message or the term which comes next: its lines */
    FTL_NODE_COMMENT_LINE = 8,      /* with its text */
    FTL_NODE_ATTRIBUTE = 9,         /* with its name: its value */
    FTL_NODE_PATTERN = 10,          /* a value: its texts and placeables */
    FTL_NODE_TEXT = 11,             /* with its text, of one line at most */
    FTL_NODE_PLACEABLE = 12,        /* an expression, or a select */
    FTL_NODE_SELECT = 13,           /* the selector, and the variants */
    FTL_NODE_VARIANT = 14,          /* its key, which is an identifier or a number, and its value */
    FTL_NODE_DEFAULT_VARIANT = 15,  /* with '*': likewise */
    FTL_NODE_IDENTIFIER = 16,       /* with its text: a key, or the attribute of a reference */
    FTL_NODE_STRING_LITERAL = 17,   /* with its text, without the quotes */
    FTL_NODE_NUMBER_LITERAL = 18,   /* with its text */
    FTL_NODE_MESSAGE_REFERENCE = 19, /* with its name: the attribute, if it has one */
    FTL_NODE_TERM_REFERENCE = 20,   /* with its name: the attribute and the arguments, if it has them */
    FTL_NODE_VARIABLE_REFERENCE = 21, /* with its name */
    FTL_NODE_FUNCTION_REFERENCE = 22, /* with its name: the arguments */
    FTL_NODE_CALL_ARGUMENTS = 23,   /* expressions, and then named arguments */
    FTL_NODE_NAMED_ARGUMENT = 24    /* with its name: an expression */
};

/* A node of a tree; since 2.4. Directly behind its row come those of the nodes that it holds, each with those of its
   own. */
struct ftl_node {
    size_t start;  /* the bytes of the text that spell its name, without a '-', '.' or '$', or its text: from start */
    size_t end;    /* up to end; of a node with neither both are 0 */
    size_t held;   /* how many nodes it holds */
    uint32_t kind; /* an ftl_node_kind */
};

/* A text: its bytes, and how many they are. */
struct ftl_text {
    const void *text;
    size_t text_len;
};

/* What is found. docs/LINT.md says of each kind when it is. */
enum ftl_finding_kind {
    FTL_FINDING_DEFINED_TWICE = 1, /* in the texts of one language, by ftl_findings */
    FTL_FINDING_ATTRIBUTE_TWICE = 2,
    FTL_FINDING_UNDEFINED_MESSAGE = 3,
    FTL_FINDING_UNDEFINED_TERM = 4,
    FTL_FINDING_UNDEFINED_ATTRIBUTE = 5,
    FTL_FINDING_UNDEFINED_VALUE = 6,
    FTL_FINDING_CYCLIC_REFERENCE = 7, /* since 2.2 */
    FTL_FINDING_VARIANT_TWICE = 8,    /* since 2.4 */
    FTL_FINDING_PLURAL_CATEGORY = 9,  /* since 2.4; by the program alone, which knows languages by their folders */
    FTL_FINDING_MISSING = 101, /* between a reference and another text, by ftl_comparison: the reference has it, */
    FTL_FINDING_MISSING_VALUE = 102,
    FTL_FINDING_MISSING_ATTRIBUTE = 103,
    FTL_FINDING_MISSING_REFERENCE = 104,
    FTL_FINDING_OBSOLETE = 105, /* and from here on the other text has it */
    FTL_FINDING_OBSOLETE_VALUE = 106,
    FTL_FINDING_OBSOLETE_ATTRIBUTE = 107,
    FTL_FINDING_UNKNOWN_VARIABLE = 108,
    FTL_FINDING_OBSOLETE_REFERENCE = 109, /* since 2.4 */
    FTL_FINDING_UNKNOWN_FUNCTION = 110    /* since 2.4 */
};

/* How grave a finding is: each kind has one severity. */
enum ftl_severity {
    FTL_SEVERITY_ERROR = 1,  /* users see it */
    FTL_SEVERITY_WARNING = 2 /* it may be meant so */
};

/* What is found at a name, of a message, a term, an attribute, a variable or a function, where it is defined or
   referred to, or at the key of a variant. */
struct ftl_finding {
    size_t text;              /* the number of the text that has the name, from 0; of ftl_comparison the reference's is
                                 0, and the other text's is 1 */
    size_t line;              /* where it is: the line, from 1 */
    size_t column;            /* and the column, from 1, in bytes, */
    size_t column_utf16;      /* in UTF-16 units */
    size_t column_characters; /* and in characters */
    size_t start;             /* the bytes of the text that spell it, without a '-', '.' or '$': from start */
    size_t end;               /* up to end */
    size_t other_text;        /* of what is given twice the first one, likewise: the number of its text, */
    size_t other_start;       /* and its bytes; of all other kinds each of the three is 0 */
    size_t other_end;
    uint32_t kind;            /* an ftl_finding_kind */
    uint32_t severity;        /* an ftl_severity */
};

/* Writes what the command, an ftl_command, writes for the text: `*needed` bytes of UTF-8 without a 0 behind them.
   FTL_FROM_JSON does not look at `nesting`. Returns an ftl_status. */
uint32_t ftl_answer(uint32_t command, size_t nesting, const void *text, size_t text_len,
                    void *out, size_t out_len, size_t *needed);

/* Writes a row for each syntax error of the text, in order: `*count` rows. `edition` is an ftl_edition.
   Returns an ftl_status. */
uint32_t ftl_errors(uint32_t edition, size_t nesting, const void *text, size_t text_len,
                    struct ftl_error *rows, size_t rows_len, size_t *count);

/* Writes a row for each message, each term and each attribute of the text, in order, those of a message or a term
   behind its own: `*count` rows. What was refused has none. `edition` is an ftl_edition. Returns an ftl_status. */
uint32_t ftl_names(uint32_t edition, size_t nesting, const void *text, size_t text_len,
                   struct ftl_name *rows, size_t rows_len, size_t *count);

/* Writes where the value of each message, each term and each attribute of the text stands: `*count` rows, as many as
   those of ftl_names and in the same order: values[i] is that of names[i]. `edition` is an ftl_edition. Returns an
   ftl_status. Since 2.3. */
uint32_t ftl_values(uint32_t edition, size_t nesting, const void *text, size_t text_len,
                    struct ftl_value *rows, size_t rows_len, size_t *count);

/* Writes the tree of the text, a row for each of its nodes: `*count` rows. The entries come in order. `edition` is an
   ftl_edition. Returns an ftl_status. Since 2.4. */
uint32_t ftl_nodes(uint32_t edition, size_t nesting, const void *text, size_t text_len,
                   struct ftl_node *rows, size_t rows_len, size_t *count);

/* Writes the message of each syntax error of the text, in order and each on a line of its own, with what was expected:
   `*needed` bytes of UTF-8. A line end that a message tells of is written as \n or \r. `edition` is an ftl_edition.
   Returns an ftl_status. */
uint32_t ftl_error_messages(uint32_t edition, size_t nesting, const void *text, size_t text_len,
                            void *out, size_t out_len, size_t *needed);

/* Writes the cause of each syntax error of the text: `*count` rows, as many as those of ftl_errors and in the same
   order: causes[i] is that of errors[i]. `edition` is an ftl_edition. Returns an ftl_status. Since 2.4. */
uint32_t ftl_causes(uint32_t edition, size_t nesting, const void *text, size_t text_len,
                    struct ftl_cause *rows, size_t rows_len, size_t *count);

/* Writes what the cause of each syntax error of the text is, in order and each on a line of its own, which is empty
   where none is known: `*needed` bytes of UTF-8. A line end in a message is written as \n or \r. What a message says
   may change with each version. `edition` is an ftl_edition. Returns an ftl_status. Since 2.4. */
uint32_t ftl_cause_messages(uint32_t edition, size_t nesting, const void *text, size_t text_len,
                            void *out, size_t out_len, size_t *needed);

/* Writes a row for each finding in the texts, which are those of one language, in the order of the texts and of the
   names in each: `*count` rows. They may refer to one another. `edition` is an ftl_edition. Returns an ftl_status. */
uint32_t ftl_findings(uint32_t edition, size_t nesting, const struct ftl_text *texts, size_t texts_len,
                      struct ftl_finding *rows, size_t rows_len, size_t *count);

/* Writes a row for all that the other text, a translation of the reference, lacks of it, in the order of the reference;
   and behind them one for all that is obsolete or unknown in the other text, in its order: `*count` rows. `edition` is
   an ftl_edition. Returns an ftl_status. */
uint32_t ftl_comparison(uint32_t edition, size_t nesting, const void *reference, size_t reference_len,
                        const void *other, size_t other_len,
                        struct ftl_finding *rows, size_t rows_len, size_t *count);

/* Writes the name of an ftl_finding_kind, as defined-twice: `*needed` bytes without a 0 behind them.
   Returns FTL_CLEAN, or why nothing was written. */
uint32_t ftl_finding_kind_name(uint32_t kind, void *out, size_t out_len, size_t *needed);

/* Writes the name of an ftl_error_kind, as ExpectedToken: `*needed` bytes without a 0 behind them.
   Returns FTL_CLEAN, or why nothing was written. */
uint32_t ftl_kind_name(uint32_t kind, void *out, size_t out_len, size_t *needed);

/* Edits, since 2.4: each writes the text with one message or term changed and all else as it is, byte for byte:
   `*needed` bytes of UTF-8. `name` is that of the first message of that name, or, with its '-', of a term; comments
   stay with their message or term. FTL_CLEAN and FTL_SYNTAX_ERRORS tell of the text, and so of the new one, which has
   as many errors. `nesting` bounds the text, and what is new. `edition` is an ftl_edition. Each returns an
   ftl_status. */

/* With the value, as it stands behind a '=', in place of that of the message or the term. */
uint32_t ftl_set_value(uint32_t edition, size_t nesting, const void *text, size_t text_len,
                       const void *name, size_t name_len, const void *value, size_t value_len,
                       void *out, size_t out_len, size_t *needed);

/* With the value in place of that of the first attribute of that name of the message or the term. */
uint32_t ftl_set_attribute(uint32_t edition, size_t nesting, const void *text, size_t text_len,
                           const void *name, size_t name_len, const void *attribute, size_t attribute_len,
                           const void *value, size_t value_len, void *out, size_t out_len, size_t *needed);

/* With the entry in place of the message or the term and its comment. */
uint32_t ftl_replace(uint32_t edition, size_t nesting, const void *text, size_t text_len,
                     const void *name, size_t name_len, const void *entry, size_t entry_len,
                     void *out, size_t out_len, size_t *needed);

/* With the entry before the message or the term and its comment; with no name, where `name_len` is 0, at the end. A line
   end or two come before it where it would be read otherwise without them. */
uint32_t ftl_insert(uint32_t edition, size_t nesting, const void *text, size_t text_len,
                    const void *name, size_t name_len, const void *entry, size_t entry_len,
                    void *out, size_t out_len, size_t *needed);

/* Without the message or the term, its comment and the blank lines behind it. */
uint32_t ftl_remove(uint32_t edition, size_t nesting, const void *text, size_t text_len,
                    const void *name, size_t name_len, void *out, size_t out_len, size_t *needed);

/* What an edit of several does: what the call of that name does. Since 2.4. */
enum ftl_edit_kind {
    FTL_EDIT_SET_VALUE = 1,
    FTL_EDIT_SET_ATTRIBUTE = 2,
    FTL_EDIT_REPLACE = 3,
    FTL_EDIT_INSERT = 4,
    FTL_EDIT_REMOVE = 5
};

/* An edit of several. Since 2.4. */
struct ftl_edit {
    const void *name; /* of the message or the term, as for the call; with no name FTL_EDIT_INSERT is at the end */
    size_t name_len;
    const void *attribute; /* of FTL_EDIT_SET_ATTRIBUTE, the name of the attribute; of all others it is not read */
    size_t attribute_len;
    const void *part; /* the value or the entry; of FTL_EDIT_REMOVE none */
    size_t part_len;
    uint32_t kind; /* an ftl_edit_kind */
};

/* With each of the edits, which come in the order of the text, in the time of one: the stretch of each ends where that of
   the next one begins, or before. Names are those of the text as it is. FTL_WRONG_ARGUMENT also where no kind has the
   number. */
uint32_t ftl_edit_all(uint32_t edition, size_t nesting, const void *text, size_t text_len,
                      const struct ftl_edit *edits, size_t edits_len, void *out, size_t out_len, size_t *needed);

/* Writes 1 to `*canonical` if the tree that the JSON spells, as FTL_JSON writes it, is canonical, and otherwise 0: the
   text that FTL_FROM_JSON writes of a canonical tree is read as that tree. `edition` is an ftl_edition. Returns
   FTL_CLEAN, or why nothing is known. Since 2.4. */
uint32_t ftl_is_canonical(uint32_t edition, const void *json, size_t json_len, size_t *canonical);

/* Writes to `*entry` the number, from 0, of the first entry that is not canonical, of the tree that the JSON spells.
   Returns the ftl_rule that it breaks first; FTL_CLEAN, and 0 in `*entry`, where the tree is canonical; or why nothing is
   known. `edition` is an ftl_edition. Since 2.4. */
uint32_t ftl_first_uncanonical(uint32_t edition, const void *json, size_t json_len, size_t *entry);

/* Writes the name of an ftl_status or an ftl_rule, as TooSmall: `*needed` bytes without a 0 behind them.
   Returns FTL_CLEAN, or why nothing was written. Since 2.4. */
uint32_t ftl_status_name(uint32_t status, void *out, size_t out_len, size_t *needed);

/* The version of the library that is linked: FTL_VERSION_NUMBER, if it is that of this header. Since 2.4. */
uint32_t ftl_version(void);

#ifdef __cplusplus
}
#endif

#endif
