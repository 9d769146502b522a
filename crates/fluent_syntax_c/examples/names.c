/* Prints the names and the syntax errors of a Fluent file: names < FILE. The status is that of ftl_errors. */
#include "fluent.h"

#include <stdio.h>
#include <stdlib.h>

/* All of the input; null without memory. */
static uint8_t *read_all(size_t *len)
{
    size_t room = 65536, got;
    uint8_t *text = malloc(room);
    *len = 0;
    while (text != NULL && (got = fread(text + *len, 1, room - *len, stdin)) > 0) {
        *len += got;
        if (*len == room) {
            uint8_t *more = realloc(text, room *= 2);
            if (more == NULL)
                free(text);
            text = more;
        }
    }
    return text;
}

int main(void)
{
    size_t len, count, wanted;
    uint8_t *text = read_all(&len);
    if (text == NULL)
        return FTL_NO_MEMORY;

    /* a first call with no room says how many rows there are */
    uint32_t status = ftl_names(FTL_EDITION_ONE, FTL_NESTING, text, len, NULL, 0, &wanted);
    struct ftl_name *names = calloc(wanted + 1, sizeof *names);
    if (names == NULL)
        return FTL_NO_MEMORY;
    status = ftl_names(FTL_EDITION_ONE, FTL_NESTING, text, len, names, wanted, &count);
    for (size_t i = 0; i < count; i++) {
        const struct ftl_name *name = &names[i], *owner = &names[name->owner];
        printf("%zu:%zu ", name->line, name->column);
        if (owner->kind == FTL_TERM)
            putchar('-');
        fwrite(text + owner->start, 1, owner->end - owner->start, stdout);
        if (name->kind == FTL_ATTRIBUTE) {
            putchar('.');
            fwrite(text + name->start, 1, name->end - name->start, stdout);
        }
        putchar('\n');
    }

    /* an array of a fixed size, where the first errors are enough to say that there are some */
    struct ftl_error errors[16];
    status = ftl_errors(FTL_EDITION_ONE, FTL_NESTING, text, len, errors, 16, &count);
    if (status == FTL_TOO_SMALL)
        fprintf(stderr, "%zu errors\n", count);
    for (size_t i = 0; status == FTL_SYNTAX_ERRORS && i < count; i++)
        fprintf(stderr, "%zu:%zu error %u\n", errors[i].line, errors[i].column, (unsigned)errors[i].kind);

    free(names);
    free(text);
    return (int)status;
}
