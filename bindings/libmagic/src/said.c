/* What is said: an answer, or the reason of a failure. */
#define _POSIX_C_SOURCE 200809L
#include "magic_set.h"
#include <ctype.h>
#include <stdarg.h>
#include <stdio.h>
#include <string.h>
#include <wchar.h>
#include <wctype.h>

void forget(struct magic_set *it) {
    it->has_fault = false;
    it->fault = 0;
    it->said_len = 0;
    it->said[0] = '\0';
}

static void say_all(struct magic_set *it, const char *format, va_list words) {
    size_t room = sizeof it->said - it->said_len;
    int len = vsnprintf(it->said + it->said_len, room, format, words);
    /* What there is no room for is cut. */
    it->said_len += len < 0 ? 0 : (size_t)len < room ? (size_t)len : room - 1;
}

void say(struct magic_set *it, const char *format, ...) {
    va_list words;
    va_start(words, format);
    say_all(it, format, words);
    va_end(words);
}

const char *reason_of(int fault, char *room, size_t size) {
    if (strerror_r(fault, room, size) != 0) snprintf(room, size, "error %d", fault);
    return room;
}

void fail(struct magic_set *it, int fault, const char *format, ...) {
    char reason[256];
    va_list words;
    /* The first reason stands. */
    if (it->has_fault) return;
    forget(it);
    va_start(words, format);
    say_all(it, format, words);
    va_end(words);
    if (fault != 0) say(it, " (%s)", reason_of(fault, reason, sizeof reason));
    it->has_fault = true;
    it->fault = fault;
}

/* How many bytes the character has that stands first and can be shown; 0 if there is none. */
static size_t shown_first(const char *text, size_t len, mbstate_t *state) {
    wchar_t character;
    size_t size = mbrtowc(&character, text, len, state);
    if (size != (size_t)-1 && size != (size_t)-2 && iswprint((wint_t)character)) return size;
    memset(state, 0, sizeof *state);
    return 0;
}

const char *answer_of(struct magic_set *it) {
    mbstate_t state;
    size_t at = 0, len = 0;
    if (it->has_fault) return NULL;
    if (it->flags & MAGIC_RAW) return it->said;
    memset(&state, 0, sizeof state);
    while (at < it->said_len) {
        size_t size = shown_first(it->said + at, it->said_len - at, &state);
        if (size == 0)
            len += (size_t)snprintf(it->shown + len, sizeof it->shown - len, "\\%03o", (unsigned char)it->said[at++]);
        else
            while (size-- > 0) it->shown[len++] = it->said[at++];
    }
    it->shown[len] = '\0';
    return it->shown;
}
