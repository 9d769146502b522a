/* Calls the library over texts, and looks at each status, number and byte. tests/c-library builds it and gives it the
   texts: of each its length, as a size_t, and its bytes.

   The text and the array that is written to end where memory ends that may be touched; before the array stand bytes
   that have to stay. The functions by which the library asks for memory are this file's, so that it can refuse a request. */
#define _DEFAULT_SOURCE
#include "fluent.h"

#include <stdio.h>
#include <stdlib.h>
#include <string.h>
#include <sys/mman.h>

enum { ROOM = 1 << 22, PAGE = 4096, MARK = 0xA5, CALLS = 30, ERRORS = 6, CAUSES = 8, NAMES = 10, VALUES = 12 };
enum { NODES = 14, MESSAGES = 16, CAUSE_MESSAGES = 18, FINDINGS = 20, COMPARISON = 22, SET_VALUE = 24, REPLACE = 25 };
enum { INSERT = 26, REMOVE = 27, SET_ATTRIBUTE = 28, FROM_JSON = 29 };

/* ---- memory */

struct grant {
    uint64_t granted;
    void *block;
};

static char nothing;
static long left = -1; /* the request that is refused, from 0 */
static long live;      /* blocks that were not given back */

static struct grant granted(void *block)
{
    return (struct grant){block != NULL, block != NULL ? block : &nothing};
}

static int is_refused(void)
{
    return left >= 0 && left-- == 0;
}

struct grant rattle_alloc(size_t size, size_t alignment)
{
    if (is_refused())
        return granted(NULL);
    live++;
    return granted(malloc(size != 0 ? size : alignment));
}

struct grant rattle_realloc(void *block, size_t kept, size_t size, size_t alignment)
{
    (void)kept;
    return is_refused() ? granted(NULL) : granted(realloc(block, size != 0 ? size : alignment));
}

void rattle_dealloc(void *block)
{
    live--;
    free(block);
}

/* ---- what may be touched */

/* The end of ROOM bytes behind which nothing may be touched. */
static uint8_t *fence(void)
{
    uint8_t *room = mmap(NULL, ROOM + PAGE, PROT_READ | PROT_WRITE, MAP_PRIVATE | MAP_ANONYMOUS, -1, 0);
    if (room == MAP_FAILED || mprotect(room + ROOM, PAGE, PROT_NONE) != 0) {
        perror("c-library");
        exit(2);
    }
    return room + ROOM;
}

static uint8_t *text_end, *array_end;
static uint8_t want[ROOM], json[ROOM];
static long faults, calls, refusals, edits;

static void fault(int call, const char *what, size_t text_len, size_t number)
{
    if (faults++ < 20)
        printf("call %d over %zu bytes, %zu: %s\n", call, text_len, number, what);
}

/* ---- the calls: the six commands over texts; the errors, their causes, names, values, messages and messages of causes
   by either edition; the findings in the text and another one, and its comparison with that, likewise; the edits of the
   text; and from JSON, made over the JSON of the text */

_Static_assert(sizeof(struct ftl_text) == 2 * sizeof(size_t), "a text is a pointer and a length");
_Static_assert(sizeof(struct ftl_value) == 2 * sizeof(size_t), "a value is two places");

static const char other[] =
    "key = Key { foo } { $var }\n    .attr = { -term }\nfoo =\n    .attr = A\n-term = T\nkey = Key\n";

/* The message that is edited, and the text to replace it; `new_len` is 0 where that is the text that is edited. */
static const char *edited = "key", new_entry[] = "key = { $new }\n    .attr = A\n";
static size_t new_len = sizeof new_entry - 1;

static size_t size_of(int call)
{
    if (call < ERRORS || call >= SET_VALUE || (call >= MESSAGES && call < FINDINGS))
        return 1;
    return call < CAUSES     ? sizeof(struct ftl_error)
           : call < NAMES    ? sizeof(struct ftl_cause)
           : call < VALUES   ? sizeof(struct ftl_name)
           : call < NODES    ? sizeof(struct ftl_value)
           : call < MESSAGES ? sizeof(struct ftl_node)
                             : sizeof(struct ftl_finding);
}

static uint32_t edit(int call, uint32_t edition, size_t nesting, const uint8_t *text, size_t text_len, void *array,
                     size_t room, size_t *count)
{
    const uint8_t *name = (const uint8_t *)edited, *entry = (const uint8_t *)new_entry;
    size_t name_len = strlen(edited);
    if (call == SET_VALUE)
        return ftl_set_value(edition, nesting, text, text_len, name, name_len, (const uint8_t *)"{ $new }", 8, array,
                             room, count);
    if (call == SET_ATTRIBUTE)
        return ftl_set_attribute(edition, nesting, text, text_len, name, name_len, "attr", 4, "{ $new }", 8, array, room,
                                 count);
    if (call == REPLACE)
        return ftl_replace(edition, nesting, text, text_len, name, name_len, new_len != 0 ? entry : text,
                           new_len != 0 ? new_len : text_len, array, room, count);
    if (call == INSERT)
        return ftl_insert(edition, nesting, text, text_len, NULL, 0, entry, sizeof new_entry - 1, array, room, count);
    return ftl_remove(edition, nesting, text, text_len, name, name_len, array, room, count);
}

static uint32_t made(int call, size_t nesting, const uint8_t *text, size_t text_len, void *array, size_t room,
                     size_t *count)
{
    uint32_t edition = call % 2 == 0 ? FTL_EDITION_ONE : FTL_EDITION_TWO;
    struct ftl_text texts[] = {{text, text_len}, {NULL, 0}, {(const uint8_t *)other, sizeof other - 1}};
    calls++;
    if (call < ERRORS)
        return ftl_answer((uint32_t)call, nesting, text, text_len, array, room, count);
    if (call < CAUSES)
        return ftl_errors(edition, nesting, text, text_len, array, room, count);
    if (call < NAMES)
        return ftl_causes(edition, nesting, text, text_len, array, room, count);
    if (call < VALUES)
        return ftl_names(edition, nesting, text, text_len, array, room, count);
    if (call < NODES)
        return ftl_values(edition, nesting, text, text_len, array, room, count);
    if (call < MESSAGES)
        return ftl_nodes(edition, nesting, text, text_len, array, room, count);
    if (call < CAUSE_MESSAGES)
        return ftl_error_messages(edition, nesting, text, text_len, array, room, count);
    if (call < FINDINGS)
        return ftl_cause_messages(edition, nesting, text, text_len, array, room, count);
    if (call < COMPARISON)
        return ftl_findings(edition, nesting, texts, 3, array, room, count);
    if (call < SET_VALUE)
        return ftl_comparison(edition, nesting, text, text_len, texts[2].text, texts[2].text_len, array, room, count);
    if (call < FROM_JSON)
        return edit(call, edition, nesting, text, text_len, array, room, count);
    return ftl_answer(FTL_FROM_JSON, nesting, text, text_len, array, room, count);
}

/* Makes the call with room for that many items, and says whether the bytes before them stayed. */
static uint32_t tried(int call, const uint8_t *text, size_t text_len, size_t room, size_t *count)
{
    size_t bytes = room * size_of(call);
    uint8_t *array = array_end - bytes;
    memset(array - PAGE, MARK, bytes + PAGE);
    uint32_t status = made(call, FTL_NESTING, text, text_len, room != 0 ? array : NULL, room, count);
    for (size_t i = 0; i < PAGE; i++)
        if (array[-1 - (long)i] != MARK) {
            fault(call, "a byte before the array was written", text_len, room);
            break;
        }
    if (live != 0)
        fault(call, "a block was not given back", text_len, room);
    live = 0;
    return status;
}

static int is_untouched(const uint8_t *from, const uint8_t *to)
{
    for (; from < to; from++)
        if (*from != MARK)
            return 0;
    return 1;
}

/* A call by its status and number with room for that many items, of which there are `whole`. */
static void look(int call, uint32_t good, size_t whole, size_t text_len, size_t room, uint32_t status,
                 size_t count)
{
    size_t bytes = whole * size_of(call);
    uint8_t *array = array_end - room * size_of(call);
    if (count != whole)
        fault(call, "another number", text_len, room);
    if (room < whole) {
        if (status != FTL_TOO_SMALL)
            fault(call, "another status without room", text_len, room);
        if (!is_untouched(array, array_end))
            fault(call, "written without room", text_len, room);
    } else {
        if (status != good)
            fault(call, "another status", text_len, room);
        if (memcmp(array, want, bytes) != 0)
            fault(call, "other bytes", text_len, room);
        if (!is_untouched(array + bytes, array_end))
            fault(call, "written beyond", text_len, room);
    }
}

/* Names and values by the edition: a row of each for each name, and each value behind its name, if there is one. */
static void values_beside_names(uint32_t edition, const uint8_t *text, size_t text_len)
{
    size_t count, values_count;
    if (ftl_names(edition, FTL_NESTING, text, text_len, NULL, 0, &count) > FTL_TOO_SMALL)
        return;
    struct ftl_name *names = calloc(count + 1, sizeof *names);
    struct ftl_value *values = calloc(count + 1, sizeof *values);
    if (names == NULL || values == NULL)
        exit(2);
    ftl_names(edition, FTL_NESTING, text, text_len, names, count, &count);
    if (ftl_values(edition, FTL_NESTING, text, text_len, values, count, &values_count) > FTL_SYNTAX_ERRORS ||
        values_count != count)
        fault(VALUES, "another number than of names", text_len, values_count);
    for (size_t i = 0; i < count; i++) {
        size_t next = i + 1 < count && names[i + 1].owner == names[i].owner ? names[i + 1].start : names[i].entry_end;
        if (values[i].end == 0 ? values[i].start != 0 || names[i].kind != FTL_MESSAGE
                               : values[i].start <= names[i].end || text[values[i].start - 1] != '=' ||
                                     values[i].end <= values[i].start || values[i].end > next)
            fault(VALUES, "a value at another place", text_len, i);
    }
    free(names);
    free(values);
}

/* Nodes by the edition: names are those of ftl_names, texts ascend, and each node holds as many as its row says. */
static void nodes_beside_names(uint32_t edition, const uint8_t *text, size_t text_len)
{
    size_t count, names_count, at = 0, name = 0;
    if (ftl_nodes(edition, FTL_NESTING, text, text_len, NULL, 0, &count) > FTL_TOO_SMALL)
        return;
    struct ftl_node *nodes = calloc(count + 1, sizeof *nodes);
    struct ftl_name *names = calloc(count + 1, sizeof *names);
    size_t *left = calloc(count + 1, sizeof *left), depth = 0;
    if (nodes == NULL || names == NULL || left == NULL)
        exit(2);
    ftl_nodes(edition, FTL_NESTING, text, text_len, nodes, count, &count);
    ftl_names(edition, FTL_NESTING, text, text_len, names, count, &names_count);
    for (size_t i = 0; i < count; i++) {
        const struct ftl_node *it = &nodes[i];
        int is_entry = it->kind <= FTL_NODE_OWN_COMMENT, is_bare = it->start == 0 && it->end == 0;
        if (it->kind < FTL_NODE_MESSAGE || it->kind > FTL_NODE_NAMED_ARGUMENT || is_entry != (depth == 0))
            fault(NODES, "a node of another kind", text_len, i);
        if (!is_bare && (it->start < at || it->end < it->start || it->end > text_len))
            fault(NODES, "a text at another place", text_len, i);
        at = is_bare ? at : it->end;
        if (it->kind == FTL_NODE_MESSAGE || it->kind == FTL_NODE_TERM || it->kind == FTL_NODE_ATTRIBUTE) {
            uint32_t kind = it->kind == FTL_NODE_MESSAGE ? FTL_MESSAGE : it->kind == FTL_NODE_TERM ? FTL_TERM : FTL_ATTRIBUTE;
            if (name >= names_count || names[name].start != it->start || names[name].end != it->end ||
                names[name].kind != kind)
                fault(NODES, "another name", text_len, i);
            name++;
        }
        left[depth++] = it->held;
        while (depth > 0 && left[depth - 1] == 0)
            if (--depth > 0)
                left[depth - 1]--;
    }
    if (depth != 0 || name != names_count || count > text_len)
        fault(NODES, "another number of nodes", text_len, count);
    free(nodes);
    free(names);
    free(left);
}

/* Causes by the edition: a row and a line for each error. Without a cause the row is 0 and the line empty; with one
   there is a place in the text, and a message. */
static void causes_beside_errors(uint32_t edition, const uint8_t *text, size_t text_len)
{
    size_t count, causes_count, bytes;
    if (ftl_errors(edition, FTL_NESTING, text, text_len, NULL, 0, &count) > FTL_TOO_SMALL)
        return;
    struct ftl_cause *causes = calloc(count + 1, sizeof *causes);
    if (causes == NULL)
        exit(2);
    if (ftl_causes(edition, FTL_NESTING, text, text_len, causes, count, &causes_count) > FTL_SYNTAX_ERRORS ||
        causes_count != count)
        fault(CAUSES, "another number than of errors", text_len, causes_count);
    ftl_cause_messages(edition, FTL_NESTING, text, text_len, want, ROOM, &bytes);
    const uint8_t *line = want, *end = want + bytes;
    for (size_t i = 0; i < count && line < end; i++) {
        const uint8_t *line_end = memchr(line, '\n', (size_t)(end - line));
        const struct ftl_cause *it = &causes[i];
        int is_none = it->column == 0 && it->column_utf16 == 0 && it->column_characters == 0 && it->start == 0 &&
                      it->end == 0 && it->kind == 0;
        if (line_end == NULL || (it->line == 0) != is_none || (it->line == 0) != (line_end == line) ||
            it->start > it->end || it->end > text_len + 1 || it->kind > FTL_EXPECTED_LITERAL)
            fault(CAUSES, "a cause that is none", text_len, i);
        line = line_end != NULL ? line_end + 1 : end;
        causes_count--;
    }
    if (causes_count != 0 || line != end)
        fault(CAUSE_MESSAGES, "another number than of errors", text_len, causes_count);
    free(causes);
}

/* With room for no item, for each number of them and for more; then each request for memory is refused in turn. */
static void call_over(int call, const uint8_t *text, size_t text_len)
{
    size_t whole, count = 99;
    uint32_t status = tried(call, text, text_len, 0, &whole);
    if (whole * size_of(call) > ROOM / 2) {
        fault(call, "too much for this test", text_len, whole);
        return;
    }
    uint32_t good = tried(call, text, text_len, whole, &count);
    int is_refused = call >= SET_VALUE && call < FROM_JSON && good >= FTL_NOT_FOUND && whole == 0;
    edits += call >= SET_VALUE && call < FROM_JSON && !is_refused;
    if ((good > FTL_SYNTAX_ERRORS && !is_refused) || (status != good && status != FTL_TOO_SMALL))
        fault(call, "no answer", text_len, good);
    memcpy(want, array_end - whole * size_of(call), whole * size_of(call));
    for (size_t room = 0; room <= whole + 2; room++) {
        count = 99;
        status = tried(call, text, text_len, room, &count);
        look(call, good, whole, text_len, room, status, count);
    }
    for (long number = 0;; number++) {
        left = number;
        count = 99;
        status = tried(call, text, text_len, whole + 1, &count);
        int all = left >= 0;
        left = -1;
        if (all || status != FTL_NO_MEMORY) {
            look(call, good, whole, text_len, whole + 1, status, count);
            if (all)
                return;
        } else {
            refusals++;
            if (count != 0 || !is_untouched(array_end - (whole + 1) * size_of(call), array_end))
                fault(call, "something given without memory", text_len, (size_t)number);
        }
    }
}

/* Bytes that are no text, numbers that are none, and no bytes at all. */
static void odd_calls(void)
{
    static const uint8_t bad[] = {'a', ' ', '=', ' ', 0xFF, '\n'};
    static const uint32_t wrong[] = {7, 8, 0xFFFFFFFF};
    size_t count;
    for (int call = 0; call < CALLS; call++) {
        count = 99;
        if (tried(call, bad, sizeof bad, 4, &count) != FTL_NOT_UTF8 || count != 0 ||
            !is_untouched(array_end - 4 * size_of(call), array_end))
            fault(call, "bytes that are no text", sizeof bad, count);
        count = 99;
        /* the JSON of no entries; `key` is defined twice in the other text, whose three names the text lacks */
        size_t given = call == FTL_JSON ? strlen("{\"body\":[]}\n") : call == INSERT ? sizeof new_entry - 1 :
                       call < FINDINGS || call >= SET_VALUE ? 0 : call < COMPARISON ? 2 : 3;
        uint32_t status = tried(call, NULL, 0, 0, &count);
        uint32_t wants = given != 0 ? FTL_TOO_SMALL : call == FROM_JSON ? FTL_NO_TREE :
                         call >= SET_VALUE ? FTL_NOT_FOUND : FTL_CLEAN;
        if (status != wants || count != given)
            fault(call, "no bytes", 0, count);
    }
    for (size_t i = 0; i < sizeof wrong / sizeof wrong[0]; i++) {
        uint8_t out[4] = {MARK, MARK, MARK, MARK};
        struct ftl_error error;
        struct ftl_cause cause;
        struct ftl_name name;
        struct ftl_value value;
        struct ftl_node node;
        struct ftl_finding finding;
        struct ftl_text none = {bad, sizeof bad};
        memset(&error, MARK, sizeof error);
        memset(&cause, MARK, sizeof cause);
        memset(&name, MARK, sizeof name);
        memset(&value, MARK, sizeof value);
        memset(&node, MARK, sizeof node);
        memset(&finding, MARK, sizeof finding);
        count = 99;
        if (ftl_answer(wrong[i], FTL_NESTING, bad, 3, out, 4, &count) != FTL_WRONG_ARGUMENT || count != 0 ||
            out[0] != MARK)
            fault(0, "no command has that number", 3, wrong[i]);
        count = 99;
        if (ftl_errors(wrong[i], FTL_NESTING, bad, 3, &error, 1, &count) != FTL_WRONG_ARGUMENT || count != 0 ||
            *(uint8_t *)&error != MARK)
            fault(ERRORS, "no edition has that number", 3, wrong[i]);
        count = 99;
        if (ftl_causes(wrong[i], FTL_NESTING, bad, 3, &cause, 1, &count) != FTL_WRONG_ARGUMENT || count != 0 ||
            *(uint8_t *)&cause != MARK)
            fault(CAUSES, "no edition has that number", 3, wrong[i]);
        count = 99;
        if (ftl_names(wrong[i], FTL_NESTING, bad, 3, &name, 1, &count) != FTL_WRONG_ARGUMENT || count != 0 ||
            *(uint8_t *)&name != MARK)
            fault(NAMES, "no edition has that number", 3, wrong[i]);
        count = 99;
        if (ftl_values(wrong[i], FTL_NESTING, bad, 3, &value, 1, &count) != FTL_WRONG_ARGUMENT || count != 0 ||
            *(uint8_t *)&value != MARK)
            fault(VALUES, "no edition has that number", 3, wrong[i]);
        count = 99;
        if (ftl_nodes(wrong[i], FTL_NESTING, bad, 3, &node, 1, &count) != FTL_WRONG_ARGUMENT || count != 0 ||
            *(uint8_t *)&node != MARK)
            fault(NODES, "no edition has that number", 3, wrong[i]);
        count = 99;
        if (ftl_findings(wrong[i], FTL_NESTING, &none, 1, &finding, 1, &count) != FTL_WRONG_ARGUMENT || count != 0 ||
            *(uint8_t *)&finding != MARK)
            fault(FINDINGS, "no edition has that number", 3, wrong[i]);
        count = 99;
        if (ftl_comparison(wrong[i], FTL_NESTING, bad, 3, bad, sizeof bad, &finding, 1, &count) !=
                FTL_WRONG_ARGUMENT || count != 0 || *(uint8_t *)&finding != MARK)
            fault(COMPARISON, "no edition has that number", 3, wrong[i]);
    }
    if (ftl_findings(FTL_EDITION_ONE, FTL_NESTING, NULL, 0, NULL, 0, &count) != FTL_CLEAN || count != 0)
        fault(FINDINGS, "no texts", 0, count);
    if (ftl_findings(0, FTL_NESTING, NULL, 0, NULL, 0, &count) != FTL_WRONG_ARGUMENT || count != 0)
        fault(FINDINGS, "no texts by no edition", 0, count);
    if (ftl_comparison(FTL_EDITION_ONE, FTL_NESTING, NULL, 0, bad, sizeof bad, NULL, 0, &count) != FTL_NOT_UTF8 ||
        count != 0)
        fault(COMPARISON, "bytes that are no text beside a reference", sizeof bad, count);
    if (ftl_errors(0, FTL_NESTING, bad, 3, NULL, 0, &count) != FTL_WRONG_ARGUMENT)
        fault(ERRORS, "edition 0", 3, 0);
    uint8_t out[4] = {MARK, MARK, MARK, MARK};
    count = 99;
    if (ftl_error_messages(3, FTL_NESTING, bad, 3, out, 4, &count) != FTL_WRONG_ARGUMENT || count != 0 ||
        out[0] != MARK)
        fault(MESSAGES, "no edition has that number", 3, 3);
    count = 99;
    if (ftl_cause_messages(3, FTL_NESTING, bad, 3, out, 4, &count) != FTL_WRONG_ARGUMENT || count != 0 ||
        out[0] != MARK)
        fault(CAUSE_MESSAGES, "no edition has that number", 3, 3);
}

/* The name of a kind, with room for no byte, for each number of them and for more, and without memory. */
static void kind_name(uint32_t (*name)(uint32_t, void *, size_t, size_t *), uint32_t kind)
{
    size_t whole = 0, count;
    if (name(kind, NULL, 0, &whole) != FTL_TOO_SMALL || whole == 0)
        fault(CALLS, "no name of a kind", 0, kind);
    name(kind, want, ROOM, &count);
    for (size_t room = 0; room <= whole + 2; room++) {
        uint8_t *array = array_end - room;
        memset(array - PAGE, MARK, room + PAGE);
        uint32_t status = name(kind, array, room, &count);
        look(0, FTL_CLEAN, whole, kind, room, status, count);
        if (!is_untouched(array - PAGE, array))
            fault(CALLS, "a byte before the array was written", kind, room);
    }
    left = 0;
    uint32_t status = name(kind, want, ROOM, &count);
    if (left < 0 && (status != FTL_NO_MEMORY || count != 0))
        fault(CALLS, "a name given without memory", 0, kind);
    left = -1;
    if (live != 0)
        fault(CALLS, "a block was not given back", 0, kind);
}

/* The names of the kinds of errors and of findings, and of statuses; and the version. */
static void kind_names(void)
{
    size_t count;
    for (uint32_t kind = FTL_EXPECTED_TOKEN; kind <= FTL_EXPECTED_LITERAL; kind++)
        kind_name(ftl_kind_name, kind);
    for (uint32_t kind = FTL_FINDING_DEFINED_TWICE; kind <= FTL_FINDING_VARIANT_TWICE; kind++)
        kind_name(ftl_finding_kind_name, kind);
    for (uint32_t kind = FTL_FINDING_MISSING; kind <= FTL_FINDING_UNKNOWN_FUNCTION; kind++)
        kind_name(ftl_finding_kind_name, kind);
    for (uint32_t status = FTL_CLEAN; status <= FTL_OVERLAP; status++)
        kind_name(ftl_status_name, status);
    for (uint32_t rule = FTL_RULE_JUNK; rule <= FTL_RULE_NO_DEFAULT; rule++)
        kind_name(ftl_status_name, rule);
    if (ftl_version() != FTL_VERSION_NUMBER || FTL_VERSION_NUMBER / 100 != 100 * FTL_VERSION_MAJOR + FTL_VERSION_MINOR)
        fault(CALLS, "another version", 0, ftl_version());
    static const uint32_t none[] = {FTL_OVERLAP + 1, FTL_RULE_JUNK - 1, FTL_RULE_NO_DEFAULT + 1, 0xFFFFFFFF};
    for (size_t i = 0; i < sizeof none / sizeof none[0]; i++)
        if (ftl_status_name(none[i], want, ROOM, &count) != FTL_WRONG_ARGUMENT || count != 0)
            fault(CALLS, "no status has that number", 0, none[i]);
    static const uint32_t wrong[] = {0, FTL_EXPECTED_LITERAL + 1, FTL_FINDING_MISSING - 1,
                                     FTL_FINDING_UNKNOWN_FUNCTION + 1, 0xFFFFFFFF};
    for (size_t i = 0; i < sizeof wrong / sizeof wrong[0]; i++) {
        count = 99;
        if (ftl_kind_name(wrong[i], want, ROOM, &count) != FTL_WRONG_ARGUMENT || count != 0)
            fault(CALLS, "no kind has that number", 0, wrong[i]);
        count = 99;
        if (ftl_finding_kind_name(wrong[i], want, ROOM, &count) != FTL_WRONG_ARGUMENT || count != 0)
            fault(CALLS, "no kind of findings has that number", 0, wrong[i]);
    }
}

/* What an edit refuses of its parts, and what it makes. */
static void odd_edits(void)
{
    static const char text[] = "# c\nkey = K\n    .a = A\n\n-key = T\nbro ken\nnone =\n    .a = A\nlast = L";
    static const struct {
        int call;
        const char *name, *part;
        uint32_t status;
    } edits[] = {
        {SET_VALUE, "key", " N", FTL_SYNTAX_ERRORS},   {SET_VALUE, "-key", "N\n  N\n", FTL_SYNTAX_ERRORS},
        {SET_VALUE, "k", "N", FTL_NOT_FOUND},          {SET_VALUE, "none", "N", FTL_NO_VALUE},
        {SET_VALUE, "", "N", FTL_NOT_FOUND},           {SET_VALUE, "key.a", "N", FTL_NOT_FOUND},
        {SET_VALUE, "key", "", FTL_PART_HAS_ERRORS},   {SET_VALUE, "key", "N\n  .a = A", FTL_NOT_ONE_ENTRY},
        {SET_VALUE, "key", "N\nb = B", FTL_NOT_ONE_ENTRY}, {SET_VALUE, "key", "N }", FTL_PART_HAS_ERRORS},
        {SET_VALUE, "\xFF", "N", FTL_NOT_UTF8},        {SET_VALUE, "key", "\xFF", FTL_NOT_UTF8},
        {REPLACE, "key", "# d\nn = N", FTL_SYNTAX_ERRORS}, {REPLACE, "-key", "# d", FTL_SYNTAX_ERRORS},
        {REPLACE, "key", "n", FTL_PART_HAS_ERRORS},    {REPLACE, "key", "a = A\nb = B", FTL_NOT_ONE_ENTRY},
        {INSERT, "-key", "n = N", FTL_SYNTAX_ERRORS},  {INSERT, "", "n = N", FTL_SYNTAX_ERRORS},
        {INSERT, "k", "n = N", FTL_NOT_FOUND},         {INSERT, "key", "", FTL_NOT_ONE_ENTRY},
        {REMOVE, "last", "", FTL_SYNTAX_ERRORS},       {REMOVE, "bro", "", FTL_NOT_FOUND},
        {INSERT, "key", "#  ", FTL_RULE_BLANK_COMMENT_LINE}, {REPLACE, "key", "a = A\r\n  B", FTL_SYNTAX_ERRORS},
        {SET_ATTRIBUTE, "key", "N", FTL_SYNTAX_ERRORS}, {SET_ATTRIBUTE, "none", "N\r\n  N", FTL_SYNTAX_ERRORS},
        {SET_ATTRIBUTE, "-key", "N", FTL_NO_VALUE},    {SET_ATTRIBUTE, "k", "N", FTL_NOT_FOUND},
        {SET_ATTRIBUTE, "key", "N\n .b = B", FTL_NOT_ONE_ENTRY}, {SET_ATTRIBUTE, "key", "{", FTL_PART_HAS_ERRORS},
    };
    for (size_t i = 0; i < sizeof edits / sizeof edits[0]; i++) {
        const uint8_t *it = (const uint8_t *)text, *name = (const uint8_t *)edits[i].name;
        const uint8_t *part = (const uint8_t *)edits[i].part;
        size_t len = sizeof text - 1, name_len = strlen(edits[i].name), part_len = strlen(edits[i].part), count = 99;
        int call = edits[i].call;
        uint32_t status =
            call == SET_VALUE ? ftl_set_value(1, 9, it, len, name, name_len, part, part_len, want, ROOM, &count)
            : call == REPLACE ? ftl_replace(1, 9, it, len, name, name_len, part, part_len, want, ROOM, &count)
            : call == SET_ATTRIBUTE
                ? ftl_set_attribute(1, 9, it, len, name, name_len, "a", 1, part, part_len, want, ROOM, &count)
            : call == INSERT  ? ftl_insert(1, 9, it, len, name, name_len, part, part_len, want, ROOM, &count)
                              : ftl_remove(1, 9, it, len, name, name_len, want, ROOM, &count);
        if (status != edits[i].status || (status > FTL_SYNTAX_ERRORS) != (count == 0))
            fault(call, "another status of an edit", i, status);
    }
    static const char wanted[] = "# c\nkey = N { $x }\n    .a = A\n\n-key = T\nbro ken\nnone =\n    .a = A\nlast = L";
    size_t count;
    ftl_set_value(1, 9, text, sizeof text - 1, "key", 3, "N {$x}", 6, want, ROOM, &count);
    if (count != sizeof wanted - 1 || memcmp(want, wanted, count) != 0)
        fault(SET_VALUE, "another text of an edit", sizeof text, count);
    ftl_set_attribute(1, 9, "a = A\n  .b=B\n  .b=C", 19, "a", 1, "b", 1, "N", 1, want, ROOM, &count);
    if (count != 20 || memcmp(want, "a = A\n  .b= N\n  .b=C", count) != 0)
        fault(SET_ATTRIBUTE, "another text of an edit", sizeof text, count);
    ftl_insert(1, 9, "# c", 3, NULL, 0, "a = A\r\n B", 9, want, ROOM, &count);
    if (count != 21 || memcmp(want, "# c\n\na =\n    A\n    B\n", count) != 0)
        fault(INSERT, "another text of an edit", sizeof text, count);
}

/* Several edits at once: what they make, what they refuse, and each room and each request for memory. */
static void several_edits(void)
{
    static const char text[] = "# c\nkey = K\n    .a = A\n-key = T\nbro ken\nlast = L";
    static const char wanted[] = "new = N\n# c\nkey = V\n    .a = B\nbro ken\nlast = M\n# d\nend = E\n";
    static const struct ftl_edit edits[] = {
        {"key", 3, NULL, 0, "new=N", 5, FTL_EDIT_INSERT},  {"key", 3, NULL, 0, "V", 1, FTL_EDIT_SET_VALUE},
        {"key", 3, "a", 1, "B", 1, FTL_EDIT_SET_ATTRIBUTE}, {"-key", 4, NULL, 0, NULL, 0, FTL_EDIT_REMOVE},
        {"last", 4, NULL, 0, "last=M", 6, FTL_EDIT_REPLACE}, {NULL, 0, NULL, 0, "# d\nend=E", 9, FTL_EDIT_INSERT},
    };
    size_t count = 99;
    for (size_t room = 0; room < sizeof wanted; room++) {
        uint32_t status = ftl_edit_all(1, 9, text, sizeof text - 1, edits, 6, want, room, &count);
        if (status != (room < sizeof wanted - 1 ? FTL_TOO_SMALL : FTL_SYNTAX_ERRORS) || count != sizeof wanted - 1)
            fault(CALLS, "another status of several edits", room, status);
    }
    if (memcmp(want, wanted, sizeof wanted - 1) != 0)
        fault(CALLS, "another text of several edits", sizeof text, count);
    uint32_t end = FTL_NO_MEMORY;
    for (long number = 0; end == FTL_NO_MEMORY; number++) {
        left = number;
        end = ftl_edit_all(1, 9, text, sizeof text - 1, edits, 6, want, ROOM, &count);
        left = -1;
        refusals += end == FTL_NO_MEMORY;
    }
    if (end != FTL_SYNTAX_ERRORS || live != 0 || memcmp(want, wanted, sizeof wanted - 1) != 0)
        fault(CALLS, "several edits once memory was refused", sizeof text, end);
    if (ftl_edit_all(1, 9, text, sizeof text - 1, NULL, 0, want, ROOM, &count) != FTL_SYNTAX_ERRORS ||
        count != sizeof text - 1 || memcmp(want, text, count) != 0)
        fault(CALLS, "another text of no edits", sizeof text, count);
    static const struct {
        struct ftl_edit first, second;
        uint32_t status;
    } refused[] = {
        {{"key", 3, NULL, 0, "V", 1, FTL_EDIT_SET_VALUE}, {"key", 3, NULL, 0, "W", 1, FTL_EDIT_SET_VALUE}, FTL_OVERLAP},
        {{"last", 4, NULL, 0, "V", 1, FTL_EDIT_SET_VALUE}, {"key", 3, NULL, 0, NULL, 0, FTL_EDIT_REMOVE}, FTL_OVERLAP},
        {{"key", 3, NULL, 0, NULL, 0, FTL_EDIT_REMOVE}, {"no", 2, NULL, 0, NULL, 0, FTL_EDIT_REMOVE}, FTL_NOT_FOUND},
        {{"key", 3, NULL, 0, NULL, 0, FTL_EDIT_REMOVE}, {"key", 3, NULL, 0, "V", 1, 6}, FTL_WRONG_ARGUMENT},
        {{"key", 3, NULL, 0, "V", 1, 0}, {"\xFF", 1, NULL, 0, NULL, 0, FTL_EDIT_REMOVE}, FTL_WRONG_ARGUMENT},
        {{"no", 2, NULL, 0, NULL, 0, FTL_EDIT_REMOVE}, {"key", 3, NULL, 0, "\xFF", 1, FTL_EDIT_INSERT}, FTL_NOT_UTF8},
        {{"key", 3, NULL, 0, "{", 1, FTL_EDIT_SET_VALUE}, {"no", 2, NULL, 0, NULL, 0, FTL_EDIT_REMOVE},
         FTL_PART_HAS_ERRORS},
        {{"key", 3, NULL, 0, NULL, 0, FTL_EDIT_REMOVE}, {"-key", 4, "a", 1, "B", 1, FTL_EDIT_SET_ATTRIBUTE},
         FTL_NO_VALUE},
        {{"key", 3, NULL, 0, "n=N\nm=M", 7, FTL_EDIT_INSERT}, {"-key", 4, NULL, 0, NULL, 0, FTL_EDIT_REMOVE},
         FTL_NOT_ONE_ENTRY},
        {{"key", 3, NULL, 0, NULL, 0, FTL_EDIT_REMOVE}, {NULL, 0, NULL, 0, "#  ", 3, FTL_EDIT_INSERT},
         FTL_RULE_BLANK_COMMENT_LINE},
    };
    for (size_t i = 0; i < sizeof refused / sizeof refused[0]; i++) {
        struct ftl_edit both[] = {refused[i].first, refused[i].second};
        uint32_t status = ftl_edit_all(1, 9, text, sizeof text - 1, both, 2, want, ROOM, &count);
        if (status != refused[i].status || count != 0)
            fault(CALLS, "another refusal of several edits", i, status);
    }
}

/* Whether trees are canonical, and which rule one breaks: JSON of some, and JSON that is none; and each request for
   memory refused. */
static void canonical(void)
{
    static const struct {
        const char *json;
        uint32_t status;
        size_t canonical;
        uint32_t rule; /* of the first entry */
    } texts[] = {
        {"{\"body\":[]}", FTL_CLEAN, 1, 0},
        {"{\"body\":[{\"type\":\"Comment\",\"content\":[\"c\"]}]}", FTL_CLEAN, 1, 0},
        {"{\"body\":[{\"type\":\"Comment\",\"content\":[\"  \"]}]}", FTL_CLEAN, 0, FTL_RULE_BLANK_COMMENT_LINE},
        {"{\"body\":[{\"type\":\"Junk\",\"content\":\"c\"}]}", FTL_CLEAN, 0, FTL_RULE_JUNK},
        {"{\"body\":5}", FTL_NO_TREE, 0, 0}, {"", FTL_NO_TREE, 0, 0}, {"\xFF", FTL_NOT_UTF8, 0, 0},
    };
    static const char second[] = "{\"body\":[{\"type\":\"Comment\",\"content\":[\"c\"]},{\"type\":\"Junk\",\"content\":\"\"}]}";
    size_t told;
    if (ftl_first_uncanonical(1, second, sizeof second - 1, &told) != FTL_RULE_JUNK || told != 1)
        fault(CALLS, "another entry that is not canonical", sizeof second, told);
    for (size_t i = 0; i < sizeof texts / sizeof texts[0]; i++) {
        const uint8_t *json = (const uint8_t *)texts[i].json;
        size_t len = strlen(texts[i].json);
        for (uint32_t edition = FTL_EDITION_ONE; edition <= FTL_EDITION_TWO; edition++) {
            told = 99;
            if (ftl_is_canonical(edition, json, len, &told) != texts[i].status || told != texts[i].canonical)
                fault(CALLS, "whether a tree is canonical", i, told);
            uint32_t wants = texts[i].rule != 0 ? texts[i].rule : texts[i].status;
            told = 99;
            if (ftl_first_uncanonical(edition, json, len, &told) != wants || told != 0)
                fault(CALLS, "another rule that is broken", i, told);
        }
        for (long number = 0, all = 0; !all; number++) {
            left = number;
            told = 99;
            uint32_t status = ftl_is_canonical(FTL_EDITION_ONE, json, len, &told);
            all = left >= 0;
            left = -1;
            refusals += status == FTL_NO_MEMORY;
            if (status == FTL_NO_MEMORY ? told != 0 : status != texts[i].status || told != texts[i].canonical)
                fault(CALLS, "canonical without memory", i, told);
        }
        told = 99;
        if (ftl_is_canonical(3, json, len, &told) != FTL_WRONG_ARGUMENT || told != 0)
            fault(CALLS, "no edition has that number", len, told);
        if (ftl_first_uncanonical(3, json, len, &told) != FTL_WRONG_ARGUMENT || told != 0)
            fault(CALLS, "no edition has that number", len, told);
    }
    if (live != 0)
        fault(CALLS, "a block was not given back", 0, (size_t)live);
}

/* JSON that is none, that spells no tree, and that nests as deeply as it may and one deeper. */
static void odd_json(void)
{
    static const struct {
        const char *text;
        uint32_t status;
    } texts[] = {
        {"{\"body\":[]}", FTL_CLEAN},       {" { \"x\" : 1 , \"body\" : [ ] } \n", FTL_CLEAN},
        {"", FTL_NO_TREE},                  {"{", FTL_NO_TREE},
        {"[]", FTL_NO_TREE},                {"{\"body\":5}", FTL_NO_TREE},
        {"{\"body\":[{\"type\":\"Junk\"}]}", FTL_NO_TREE}, {"\xFF", FTL_NOT_UTF8},
    };
    size_t count;
    for (size_t i = 0; i < sizeof texts / sizeof texts[0]; i++) {
        size_t len = strlen(texts[i].text);
        memcpy(text_end - len, texts[i].text, len);
        uint32_t status = tried(FROM_JSON, text_end - len, len, 0, &count);
        if (status != texts[i].status || count != 0)
            fault(FROM_JSON, "another status of JSON", len, status);
    }
    for (size_t depth = 127; depth < 130; depth++) {
        memset(text_end - depth, '[', depth);
        uint32_t status = tried(FROM_JSON, text_end - depth, depth, 0, &count);
        if (status != (depth == 127 ? FTL_NO_TREE : FTL_TOO_DEEP) || count != 0)
            fault(FROM_JSON, "another status by the nesting of JSON", depth, status);
    }
}

/* ---- nesting */

/* `before`, so many times `open`, `middle`, so many times `close`, and a line end, at the text's place. */
static size_t nested(const char *open, const char *close, size_t times)
{
    size_t len = 4 + times * (strlen(open) + strlen(close)) + 3;
    char *to = (char *)text_end - len;
    to += sprintf(to, "k = ");
    for (size_t i = 0; i < times; i++, to += strlen(open))
        memcpy(to, open, strlen(open));
    memcpy(to, "$a", 2);
    to += 2;
    for (size_t i = 0; i < times; i++, to += strlen(close))
        memcpy(to, close, strlen(close));
    *to = '\n';
    return len;
}

/* Placeables, and calls in placeables, to the bound and one beyond, and far beyond. */
static void deep_calls(void)
{
    static const struct {
        const char *open, *close;
        size_t takes;
    } forms[] = {{"{", "}", 1}, {"{ F(", ") }", 2}, {"{ $a ->\n *[b] ", "\n }", 1}};
    static const size_t bounds[] = {0, 1, 10, FTL_NESTING};
    size_t count;
    for (size_t form = 0; form < sizeof forms / sizeof forms[0]; form++)
        for (size_t i = 0; i < sizeof bounds / sizeof bounds[0]; i++) {
            size_t fits = bounds[i] / forms[form].takes;
            for (size_t more = 0; more < 3; more++) {
                size_t times = more < 2 ? fits + more : 20000;
                size_t len = nested(forms[form].open, forms[form].close, times);
                for (int call = 0; call < FROM_JSON; call++) {
                    /* the text beside which findings are sought, and what is new in an edit, nest one deep */
                    int is_within = more == 0 && (call < FINDINGS || call == REPLACE || call == REMOVE || bounds[i] > 0);
                    uint32_t wants = !is_within ? FTL_TOO_DEEP : call == SET_ATTRIBUTE ? FTL_NO_VALUE : FTL_CLEAN;
                    size_t bytes = ROOM / 2 / size_of(call) * size_of(call);
                    uint32_t status =
                        made(call, bounds[i], text_end - len, len, array_end - bytes, bytes / size_of(call), &count);
                    if (status != wants || (wants == FTL_TOO_DEEP && count != 0))
                        fault(call, "another status by nesting", times, status);
                    if (live != 0)
                        fault(call, "a block was not given back after nesting", times, status);
                }
            }
        }
}

/* An attribute that is refused, read to the bound and one beyond. */
static void deep_causes(void)
{
    static const char start[] = "k =\n .a = ", end[] = "$a\n";
    static const int asked[] = {CAUSES, CAUSES + 1, CAUSE_MESSAGES, CAUSE_MESSAGES + 1};
    size_t count, start_len = sizeof start - 1, end_len = sizeof end - 1;
    for (size_t times = FTL_NESTING; times < FTL_NESTING + 2; times++) {
        size_t len = start_len + times + end_len;
        uint8_t *text = text_end - len;
        memcpy(text, start, start_len);
        memset(text + start_len, '{', times);
        memcpy(text + start_len + times, end, end_len);
        for (size_t i = 0; i < sizeof asked / sizeof asked[0]; i++) {
            uint32_t wants = times > FTL_NESTING ? FTL_TOO_DEEP : FTL_SYNTAX_ERRORS;
            size_t bytes = PAGE / size_of(asked[i]) * size_of(asked[i]);
            if (made(asked[i], FTL_NESTING, text, len, array_end - bytes, bytes / size_of(asked[i]), &count) != wants)
                fault(asked[i], "another status by nesting", times, wants);
            if (live != 0)
                fault(asked[i], "a block was not given back after nesting", times, wants);
        }
    }
}

int main(int argc, char **argv)
{
    size_t len, texts = 0;
    text_end = fence();
    array_end = fence();
    if (argc == 2 && strcmp(argv[1], "deep") == 0) {
        edited = "k";
        new_len = 0;
        deep_calls();
        deep_causes();
        printf("nesting: %ld calls, %ld faults\n", calls, faults);
        return faults != 0;
    }
    odd_calls();
    odd_edits();
    several_edits();
    odd_json();
    canonical();
    kind_names();
    while (fread(&len, sizeof len, 1, stdin) == 1) {
        if (len > ROOM || fread(text_end - len, 1, len, stdin) != len)
            return 2;
        texts++;
        for (int call = 0; call < FROM_JSON; call++)
            call_over(call, text_end - len, len);
        for (uint32_t edition = FTL_EDITION_ONE; edition <= FTL_EDITION_TWO; edition++) {
            values_beside_names(edition, text_end - len, len);
            nodes_beside_names(edition, text_end - len, len);
            causes_beside_errors(edition, text_end - len, len);
        }
        uint32_t status = ftl_answer(FTL_JSON, FTL_NESTING, text_end - len, len, json, ROOM, &len);
        if (status > FTL_SYNTAX_ERRORS)
            fault(FTL_JSON, "no JSON", len, status);
        memcpy(text_end - len, json, len);
        call_over(FROM_JSON, text_end - len, len);
    }
    printf("%zu texts, %ld calls, %ld edits, %ld requests refused, %ld faults\n", texts, calls, edits, refusals, faults);
    return faults != 0;
}
