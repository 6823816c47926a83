/* Sixteen threads, each with a handle of its own, ask about the files that are named, and want what one thread is told.
 * usage: threads FILE.. */
#define _POSIX_C_SOURCE 200809L
#include <pthread.h>
#include <stddef.h>
#include <stdio.h>
#include <stdlib.h>
#include <string.h>

typedef struct magic_set *magic_t;
magic_t magic_open(int flags);
void magic_close(magic_t it);
int magic_load(magic_t it, const char *paths);
const char *magic_file(magic_t it, const char *path);

enum { THREADS = 16, ROUNDS = 20, MIME = 0x410 };
static char **files, **answers;

static void *ask(void *unused) {
    magic_t it = magic_open(MIME);
    size_t wrong = magic_load(it, NULL) != 0;
    (void)unused;
    for (int round = 0; round < ROUNDS; round++)
        for (size_t at = 0; files[at] != NULL; at++) {
            const char *answer = magic_file(it, files[at]);
            wrong += answer == NULL || strcmp(answer, answers[at]) != 0;
        }
    magic_close(it);
    return (void *)wrong;
}

int main(int count, char **words) {
    pthread_t threads[THREADS];
    size_t wrong = 0;
    magic_t it = magic_open(MIME);
    files = words + 1;
    answers = calloc((size_t)count, sizeof *answers);
    if (magic_load(it, NULL) != 0 || answers == NULL) return 2;
    for (size_t at = 0; files[at] != NULL; at++) answers[at] = strdup(magic_file(it, files[at]));
    magic_close(it);
    for (size_t at = 0; at < THREADS; at++)
        if (pthread_create(&threads[at], NULL, ask, NULL) != 0) return 2;
    for (size_t at = 0; at < THREADS; at++) {
        void *more;
        pthread_join(threads[at], &more);
        wrong += (size_t)more;
    }
    for (size_t at = 0; files[at] != NULL; at++) free(answers[at]);
    free(answers);
    printf("%d threads, %zu wrong\n", THREADS, wrong);
    return wrong != 0;
}
