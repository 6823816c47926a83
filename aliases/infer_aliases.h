/* Other names of the types, for C: the lines of aliases.def, which README.md explains. */
#ifndef INFER_ALIASES_H
#define INFER_ALIASES_H

#include <stddef.h>
#include <string.h>

enum infer_alias_kind { INFER_ALIAS_EXTENSION, INFER_ALIAS_MIME_TYPE, INFER_ALIAS_BROWSER, INFER_ALIAS_BUILT_ON };

static const struct infer_alias {
    enum infer_alias_kind kind;
    const char *alias, *target;
} infer_aliases[] = {
#define EXTENSION(alias, target) {INFER_ALIAS_EXTENSION, alias, target},
#define MIME_TYPE(alias, target) {INFER_ALIAS_MIME_TYPE, alias, target},
#define BROWSER(alias, target) {INFER_ALIAS_BROWSER, alias, target},
#define BUILT_ON(alias, target) {INFER_ALIAS_BUILT_ON, alias, target},
#include "aliases.def"
#undef EXTENSION
#undef MIME_TYPE
#undef BROWSER
#undef BUILT_ON
};

enum { INFER_ALIAS_COUNT = sizeof infer_aliases / sizeof *infer_aliases };

/* The target of an alias of this kind, or a null pointer. */
static inline const char *infer_alias_target(enum infer_alias_kind kind, const char *alias) {
    for (size_t i = 0; i < INFER_ALIAS_COUNT; i++)
        if (infer_aliases[i].kind == kind && strcmp(infer_aliases[i].alias, alias) == 0)
            return infer_aliases[i].target;
    return NULL;
}

#endif
