/* Calls one function of the library on each buffer of a pack: a 4-byte length, lowest byte first, and the bytes. The
 * function that has a name too takes it from the third word. */
#include "infer.h"
#include <stdio.h>
#include <stdlib.h>
#include <string.h>

static volatile long sink;

static void call(const char *what, const char *name, const void *buf, size_t len) {
    struct infer_named_answer answer;
    struct infer_range ranges[INFER_MOST_RANGES];
    struct infer_needs needs;
    char text[INFER_MIME_SIZE];
    if (!strcmp(what, "position")) sink = infer_position(buf, len);
    else if (!strcmp(what, "more_position")) sink = infer_more_position(buf, len);
    else if (!strcmp(what, "evidence")) sink = infer_evidence(buf, len, ranges, INFER_MOST_RANGES, &needs);
    else if (!strcmp(what, "more_evidence")) sink = infer_more_evidence(buf, len, ranges, INFER_MOST_RANGES, &needs);
    else if (!strcmp(what, "is_decided")) sink = infer_is_decided(buf, len);
    else if (!strcmp(what, "is")) sink = infer_is(buf, len, "zip", 3);
    else if (!strcmp(what, "is_mime")) sink = infer_is_mime(buf, len, "application/zip", 15);
    else if (!strcmp(what, "is_mime_supported")) sink = infer_is_mime_supported(buf, len);
    else if (!strcmp(what, "is_supported")) sink = infer_is_supported(buf, len);
    else if (!strcmp(what, "is_app")) sink = infer_is_app(buf, len);
    else if (!strcmp(what, "is_archive")) sink = infer_is_archive(buf, len);
    else if (!strcmp(what, "is_audio")) sink = infer_is_audio(buf, len);
    else if (!strcmp(what, "is_book")) sink = infer_is_book(buf, len);
    else if (!strcmp(what, "is_document")) sink = infer_is_document(buf, len);
    else if (!strcmp(what, "is_font")) sink = infer_is_font(buf, len);
    else if (!strcmp(what, "is_image")) sink = infer_is_image(buf, len);
    else if (!strcmp(what, "is_video")) sink = infer_is_video(buf, len);
    else if (!strcmp(what, "named")) infer_named(name, strlen(name), buf, len, &answer), sink = answer.standing;
    else if (!strcmp(what, "detect_content_type")) sink = (long)infer_detect_content_type(buf, len, text, sizeof text);
    else if (!strcmp(what, "mime_compute")) sink = (long)infer_mime_compute(name, strlen(name), 0, INFER_MIME_IN_PAGE, buf, len, text, sizeof text);
    else if (!strcmp(what, "mime_parse")) sink = (long)infer_mime_parse(buf, len, text, sizeof text);
    else exit(3);
}

/* Writes the samples of the further rows as a pack. */
static int write_samples(const char *path) {
    FILE *pack = fopen(path, "wb");
    if (!pack) return 2;
    for (size_t row = infer_row_count(); row < infer_more_row_count(); row++) {
        uint8_t sample[INFER_SAMPLE_SIZE];
        size_t len = infer_sample((int32_t)row, sample, sizeof sample);
        uint8_t head[4] = {len & 255, len >> 8 & 255, len >> 16 & 255, len >> 24 & 255};
        fwrite(head, 1, sizeof head, pack);
        fwrite(sample, 1, len, pack);
    }
    return fclose(pack) ? 2 : 0;
}

int main(int argc, char **argv) {
    if (argc == 3 && !strcmp(argv[1], "write_samples")) return write_samples(argv[2]);
    FILE *pack = argc == 3 || argc == 4 ? fopen(argv[2], "rb") : NULL;
    uint8_t head[4];
    if (!pack) return 2;
    while (fread(head, 1, 4, pack) == 4) {
        size_t len = head[0] | head[1] << 8 | head[2] << 16 | (size_t)head[3] << 24;
        uint8_t *buf = malloc(len + 1);
        if (!buf || fread(buf, 1, len, pack) != len) return 2;
        call(argv[1], argc == 4 ? argv[3] : "", buf, len);
        free(buf);
    }
    return 0;
}
