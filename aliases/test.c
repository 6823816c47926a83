//go:build ignore

/* Compares each line of aliases.def with the rows of the library. */
#include "infer_aliases.h"
#include "infer.h"
#include <stdio.h>

static bool is_extension(const char *text) { return infer_is_supported(text, strlen(text)); }
static bool is_mime_type(const char *text) { return infer_is_mime_supported(text, strlen(text)); }

static bool is_repeated(size_t at) {
    for (size_t i = 0; i < at; i++)
        if (infer_aliases[i].kind == infer_aliases[at].kind && strcmp(infer_aliases[i].alias, infer_aliases[at].alias) == 0)
            return true;
    return false;
}

int main(void) {
    int failed = 0;
    for (size_t i = 0; i < INFER_ALIAS_COUNT; i++) {
        const struct infer_alias *it = &infer_aliases[i];
        const char *fault = !is_extension(it->target)                               ? "the target is no row's extension"
                            : is_extension(it->alias) || is_mime_type(it->alias)    ? "the alias is a row's text"
                            : is_repeated(i)                                        ? "the alias stands twice"
                            : infer_alias_target(it->kind, it->alias) != it->target ? "the alias is not found"
                                                                                    : NULL;
        if (fault) {
            failed++;
            printf("%s: %s\n", it->alias, fault);
        }
    }
    if (infer_alias_target(INFER_ALIAS_EXTENSION, "image/jpg") || infer_alias_target(INFER_ALIAS_MIME_TYPE, "")) {
        failed++;
        puts("an alias of another kind is found");
    }
    printf("%d passed, %d failed\n", INFER_ALIAS_COUNT + 1 - failed, failed);
    return failed != 0;
}
