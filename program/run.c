/* A run: threads label what is read in order, and it is reported in that order. */
#include "program.h"
#include <pthread.h>
#include <stdlib.h>

/* Batches in a ring, so that memory does not grow with the number of files. Those before `reported` were written, those before
 * `taken` have a thread, and those before `filled` have files. */
struct ring {
    const struct options *options;
    struct batch *batches;
    size_t count, filled, taken, reported;
    bool is_ended;
    pthread_mutex_t lock;
    pthread_cond_t changed;
};

static struct batch *batch_at(struct ring *ring, size_t i) { return &ring->batches[i % ring->count]; }

/* Labels the next batch that no thread has. The lock is held before and after, and not meanwhile. */
static void label_next(struct ring *ring, struct labeller *labeller) {
    struct batch *batch = batch_at(ring, ring->taken++);
    pthread_mutex_unlock(&ring->lock);
    label_batch(labeller, batch);
    pthread_mutex_lock(&ring->lock);
    batch->is_done = true;
    pthread_cond_broadcast(&ring->changed);
}

static void *work(void *shared) {
    struct ring *ring = shared;
    struct labeller *labeller = new_labeller(ring->options);
    pthread_mutex_lock(&ring->lock);
    while (!ring->is_ended || ring->taken < ring->filled) {
        if (ring->taken < ring->filled)
            label_next(ring, labeller);
        else
            pthread_cond_wait(&ring->changed, &ring->lock);
    }
    pthread_mutex_unlock(&ring->lock);
    free_labeller(labeller);
    return NULL;
}

/* Fills the next batch, and answers whether there were files. */
static bool fill_next(struct ring *ring, struct inputs *inputs) {
    struct batch *batch = batch_at(ring, ring->filled);
    pthread_mutex_unlock(&ring->lock);
    bool is_filled = fill_batch(inputs, batch);
    pthread_mutex_lock(&ring->lock);
    batch->is_done = false;
    ring->filled += is_filled;
    ring->is_ended = ring->is_ended || !is_filled;
    pthread_cond_broadcast(&ring->changed);
    return is_filled;
}

/* Writes the oldest batch. Where that fails no further files are asked for. */
static void report_next(struct ring *ring, struct report *report) {
    struct batch *batch = batch_at(ring, ring->reported);
    pthread_mutex_unlock(&ring->lock);
    bool is_written = report_batch(report, batch);
    pthread_mutex_lock(&ring->lock);
    ring->reported++;
    ring->is_ended = ring->is_ended || !is_written;
    pthread_cond_broadcast(&ring->changed);
}

/* Fills and reports in turn, and helps to label where it would wait. */
static void lead(struct ring *ring, struct inputs *inputs, struct report *report) {
    struct labeller *labeller = new_labeller(ring->options);
    pthread_mutex_lock(&ring->lock);
    while (!ring->is_ended || ring->reported < ring->filled) {
        if (ring->reported < ring->taken && batch_at(ring, ring->reported)->is_done)
            report_next(ring, report);
        else if (!ring->is_ended && ring->filled - ring->reported < ring->count)
            fill_next(ring, inputs);
        else if (ring->taken < ring->filled)
            label_next(ring, labeller);
        else
            pthread_cond_wait(&ring->changed, &ring->lock);
    }
    pthread_mutex_unlock(&ring->lock);
    free_labeller(labeller);
}

/* Starts threads beside the one that leads, as many as the system gives. */
static unsigned start_threads(struct ring *ring, pthread_t *threads) {
    unsigned count = 0;
    while (count + 1 < ring->options->threads && pthread_create(&threads[count], NULL, work, ring) == 0)
        count++;
    return count;
}

static void free_batches(struct ring *ring) {
    for (size_t i = 0; i < ring->count; i++) {
        free(ring->batches[i].paths.bytes);
        free(ring->batches[i].lines.bytes);
    }
    free(ring->batches);
}

enum status run(const struct options *options, char **paths) {
    struct ring ring = {.options = options, .count = options->threads > 1 ? 4 * options->threads : 1};
    pthread_t threads[MOST_THREADS];
    struct inputs *inputs = open_inputs(options, paths);
    struct report *report = new_report(options);
    ring.batches = allocated(calloc(ring.count, sizeof *ring.batches));
    pthread_mutex_init(&ring.lock, NULL);
    pthread_cond_init(&ring.changed, NULL);
    unsigned count = start_threads(&ring, threads);
    lead(&ring, inputs, report);
    for (unsigned i = 0; i < count; i++)
        pthread_join(threads[i], NULL);
    pthread_cond_destroy(&ring.changed);
    pthread_mutex_destroy(&ring.lock);
    free_batches(&ring);
    bool is_whole = close_inputs(inputs);
    enum status status = end_report(report);
    return is_whole ? status : FAILED;
}
