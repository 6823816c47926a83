/* Hands the wider answer what is meant to lead it astray inside containers and texts: brackets and comments without end,
 * and lengths, counts and offsets of every size. Each buffer ends at a page that may not be touched, and each answer is
 * the one that the definition says by hand. One that takes more than a minute of a processor ends the program by a signal. */
#define _DEFAULT_SOURCE
#include "guarded.h"
#include "infer.h"
#include <stdio.h>
#include <string.h>
#ifndef _WIN32
#include <sys/time.h>
#endif

enum { MILLION = 1000000, ROOM = 10 * MILLION + 4096 };
static unsigned char *end; /* of the room, right before the page that may not be touched */
static long asked, wrong;

/* The buffer of that length that ends with the room, zeros. */
static unsigned char *zeros(size_t len) { return memset(end - len, 0, len); }

static void have_a_minute(void) {
    /* On Windows the test as a whole has a limit of time. */
#ifndef _WIN32
    setitimer(ITIMER_VIRTUAL, &(const struct itimerval){.it_value.tv_sec = 60}, NULL);
#endif
}

static void wants(const char *what, const unsigned char *buf, size_t len, const char *extension) {
    have_a_minute();
    const char *found = infer_extension_text(infer_more_position(buf, len));
    char name[16];
    asked++;
    if (strcmp(found, extension) == 0 && infer_encoding(buf, len, name, sizeof name) == strlen(name)) return;
    wrong++;
    printf("inside: %s of %zu bytes is '%s', and not '%s'\n", what, len, extension, found);
}

/* A text so many times, between a front and an end, and the answer. */
static const struct {
    const char *front, *text;
    size_t times;
    const char *last, *extension;
} repeated[] = {
    /* Brackets may be nested 128 deep. */
    {"", "[", 128, "", "json"},
    {"", "[", 129, "", "txt"},
    {"", "[", 10 * MILLION, "", "txt"},
    {"", "[{\"a\":", 64, "", "json"},
    {"", "{\"a\":", 2 * MILLION, "", "txt"},
    {"", "[]\n", 3 * MILLION, "", "ndjson"},
    /* A string that does not close is no whole token. */
    {"[\"", "a", MILLION, "", "txt"},
    {"[\"", "a", MILLION, "\"", "json"},
    {"[\"", "\\\\", MILLION, "\"]", "json"},
    {"[", "1", MILLION, " ", "json"},
    {"[", " ", MILLION, "]", "json"},
    /* What the prolog of markup does not close has no root. */
    {"", "<?", 8192, "", "txt"},
    {"", "<?\?>", 2 * MILLION, "", "txt"},
    {"", "<?\?>", 2 * MILLION, "<svg>", "svg"},
    {"", "<!---->", MILLION, "", "txt"},
    {"", "<!---->", MILLION, "<svg ", "svg"},
    {"<!--", "-", MILLION, "", "txt"},
    {"<!--", "-", MILLION, "><svg>", "svg"},
    {"<!DOCTYPE ", "s", MILLION, "", "txt"},
    {"<", "a", MILLION, "", "txt"},
    {"<", "a:", MILLION, "svg>", "svg"},
    {"", " ", MILLION, "<svg>", "svg"},
    {"", " \n\t\r", MILLION, "<svg>", "svg"},
    /* Nor has an internal subset that does not end. In one, only what stands in quotes, a comment or an instruction is passed
     * over, and a bracket that opens is a byte as others are. */
    {"<!DOCTYPE svg [", "[", 10 * MILLION, "", "txt"},
    {"<!DOCTYPE svg [", "[", 10 * MILLION, "]><svg>", "svg"},
    {"<!DOCTYPE svg [", "[]", MILLION, "]><svg>", "txt"},
    {"<!DOCTYPE svg [", "\"]>\"", MILLION, "]><svg>", "svg"},
    {"<!DOCTYPE svg [", "'\"]>'", MILLION, "]><svg>", "svg"},
    {"<!DOCTYPE svg [", "<!-- ' ]> -->", MILLION / 2, "]><svg>", "svg"},
    {"<!DOCTYPE svg [", "<? ' ]> ?>", MILLION / 2, "]><svg>", "svg"},
    {"<!DOCTYPE svg [\"", "]>", MILLION, "<svg>", "txt"},
    {"<!DOCTYPE svg [", "<!--", MILLION, "]><svg>", "txt"},
    {"<!DOCTYPE svg [", "<", MILLION, "]><svg>", "svg"},
    {"<!DOCTYPE svg []", " ", MILLION, "><svg>", "svg"},
    /* The first key of an object, with white space before each of its pieces, and keys and values without end. */
    {"", " ", MILLION, "{\"cells\":[]}", "ipynb"},
    {"{", "\n", MILLION, "\"cells\":[]}", "ipynb"},
    {"{\"cells\"", "\t", MILLION, ":", "ipynb"},
    {"{\"type\":", "\r", MILLION, "\"Feature\"", "geojson"},
    {"{\"", "cells", MILLION, "\":[]}", "json"},
    {"{\"", "cells\\\"", MILLION, "", "txt"},
    {"{\"type\":\"", "Feature", MILLION, "\"}", "json"},
    {"{\"type\":\"", "Feature", MILLION, "", "json"},
    {"", "{\"cells\" ", MILLION, "", "txt"},
    /* Texts that begin as a row's, and have another text last or nowhere. */
    {"#\n", "[Desktop Entry] \n", MILLION / 4, "[Desktop Entry]\n", "desktop"},
    {"#\n", "[Desktop Entry] \n", MILLION / 4, "", "txt"},
    {"diff --git", "\n+++", MILLION, "", "txt"},
    {"diff -", "\n++", MILLION, "\n+++ ", "diff"},
    /* A first line that never names a program is a shell's. */
    {"#!", " ", MILLION, "", "sh"},
    {"#!/usr/bin/env", " A=1", MILLION, " python3\n", "py"},
    {"#!", "/", MILLION, "perl5.36\n", "pl"},
    {"#!perl", "5.", MILLION, "\n", "pl"},
};

static void texts(void) {
    for (size_t row = 0; row < sizeof repeated / sizeof *repeated; row++) {
        const char *front = repeated[row].front, *text = repeated[row].text, *last = repeated[row].last;
        size_t times = repeated[row].times, len = strlen(front) + times * strlen(text) + strlen(last);
        unsigned char *buf = end - len, *to = buf;
        memcpy(to, front, strlen(front));
        to += strlen(front);
        for (size_t i = 0; i < times; i++, to += strlen(text))
            memcpy(to, text, strlen(text));
        memcpy(to, last, strlen(last));
        wants(text, buf, len, repeated[row].extension);
    }
}

static void little(unsigned char *to, uint64_t number, size_t bytes) {
    for (size_t i = 0; i < bytes; i++)
        to[i] = (unsigned char)(number >> 8 * i);
}

static void big(unsigned char *to, uint64_t number, size_t bytes) {
    for (size_t i = 0; i < bytes; i++)
        to[bytes - 1 - i] = (unsigned char)(number >> 8 * i);
}

/* ZIP archives whose first name and extra field are said to be of any length. */
static void archives(void) {
    for (unsigned length = 0; length <= 0xFFFF; length = 2 * length + 1)
        for (unsigned extra = 0; extra <= 0xFFFF; extra = 2 * extra + 1)
            for (size_t len = 30; len <= 30 + 0xFFFF + 4; len = 2 * len + 5) {
                unsigned char *buf = zeros(len);
                memcpy(buf, "PK\3\4", 4);
                little(buf + 26, length, 2);
                little(buf + 28, extra, 2);
                bool has_field = extra >= 2 && 30 + length + 2 <= len, is_jar = has_field && length >= 9;
                if (has_field) memcpy(buf + 30 + length, "\xFE\xCA", 2);
                wants("an archive with an extra field outside META-INF/", buf, len, "zip");
                if (is_jar) memcpy(buf + 30, "META-INF/", 9);
                wants("an archive with an extra field", buf, len, is_jar ? "jar" : "zip");
                bool is_kmz = length >= 4 && 30 + length <= len;
                if (is_kmz) memcpy(buf + 26 + length, ".kml", 4);
                wants("an archive with a name", buf, len, is_kmz ? "kmz" : is_jar ? "jar" : "zip");
            }
}

/* Programs and images whose tables are at any place. */
static void tables(void) {
    static const uint64_t counts[] = {0, 1, 2, 0x7FFF, 0xFFFF};
    for (int power = 0; power <= 64; power++)
        for (int less = -1; less <= 1; less++)
            for (size_t i = 0; i < sizeof counts / sizeof *counts; i++) {
                const size_t len = 4096;
                const uint64_t at = (power < 64 ? (uint64_t)1 << power : 0) + (uint64_t)(int64_t)less, count = counts[i];
                unsigned char *buf = zeros(len);
                memcpy(buf, "\x7F" "ELF\2\1", 6);
                little(buf + 16, 3, 2);
                little(buf + 32, at, 8);
                little(buf + 54, 56, 2);
                little(buf + 56, count, 2);
                bool is_whole = count >= 1 && at <= len && count * 56 <= len - at;
                /* A table over the header may say anything, and is left out. */
                if (!is_whole || at >= 64) wants("a program", buf, len, is_whole ? "so" : "elf");
                buf = zeros(len);
                memcpy(buf, "II*\0", 4);
                little(buf + 4, at, 4);
                const uint64_t place = at & 0xFFFFFFFF;
                bool is_raw = place >= 8 && count >= 1 && place + 14 <= len;
                if (is_raw) {
                    little(buf + place, count, 2);
                    little(buf + place + 2, 0xC612, 2);
                }
                wants("an image", buf, len, is_raw ? "dng" : "tif");
            }
}

/* Chunks of PNG that say any length. What comes after one is the next only if all of it is there. */
static void chunks(void) {
    for (int power = 0; power <= 32; power++)
        for (int less = -13; less <= 1; less++) {
            const size_t len = 5000;
            const uint32_t length = (uint32_t)((power < 32 ? (uint64_t)1 << power : 0) + (uint64_t)(int64_t)less);
            unsigned char *buf = zeros(len);
            memcpy(buf, "\x89PNG\r\n\x1A\n", 8);
            big(buf + 8, length, 4);
            memcpy(buf + 12, "IHDR", 4);
            uint64_t after = (uint64_t)20 + length;
            bool is_animated = after + 8 <= len;
            if (is_animated) memcpy(buf + after + 4, "acTL", 4);
            wants("an image of chunks", buf, len, is_animated ? "apng" : "png");
        }
}

/* Programs whose later header is at any place, with any number in it. */
static void programs(void) {
    for (int power = 0; power <= 32; power++)
        for (int less = -1; less <= 1; less++)
            for (unsigned number = 0; number <= 0xFFFF; number = 2 * number + 1) {
                const size_t len = 4096;
                const uint32_t at = (uint32_t)((power < 32 ? (uint64_t)1 << power : 0) + (uint64_t)(int64_t)less);
                unsigned char *buf = zeros(len);
                memcpy(buf, "MZ", 2);
                little(buf + 60, at, 4);
                /* A header over the one of DOS may say anything, and is left out. */
                bool is_whole = at >= 64 && (uint64_t)at + 94 <= len;
                if (is_whole) memcpy(buf + at, "PE\0\0", 4);
                if (is_whole) little(buf + at + 92, number, 2);
                wants("a program of DOS", buf, len, is_whole && number == 1 ? "sys" : "exe");
            }
}

/* ID3 tags that say any length, in four bytes of seven bits. */
static void tags(void) {
    static const unsigned char sizes[] = {0x00, 0x01, 0x7F, 0x80, 0xFF};
    const size_t len = 5000, many = sizeof sizes;
    for (size_t i = 0; i < many * many * many * many; i++) {
        unsigned char *buf = zeros(len);
        bool is_size = true;
        size_t size = 0, left = i;
        memcpy(buf, "ID3\4", 4);
        for (size_t place = 6; place < 10; place++, left /= many) {
            buf[place] = sizes[left % many];
            is_size = is_size && buf[place] < 0x80;
            size = size << 7 | (buf[place] & 0x7F);
        }
        bool is_inside = 10 + size + 4 <= len;
        if (is_inside) memcpy(buf + 10 + size, "fLaC", 4);
        wants("a tag", buf, len, is_size && is_inside ? "flac" : "mp3");
    }
}

/* A document of Word with an entry behind the first, whose name is said to be of any length. */
static void entries(void) {
    const unsigned whole = sizeof "word/vbaProject.bin" - 1;
    unsigned char sample[INFER_SAMPLE_SIZE];
    int32_t row = (int32_t)infer_row_count();
    while (strcmp(infer_extension_text(row), "docm") != 0)
        row++;
    size_t len = infer_sample(row, sample, sizeof sample);
    for (unsigned length = 0; length <= 0xFFFF; length++) {
        unsigned char *buf = zeros(len);
        memcpy(buf, sample, len);
        little(buf + 48 + 26, length, 2);
        wants("a document with an entry", buf, len, length == whole ? "docm" : "docx");
    }
}

int main(void) {
    unsigned char *room = guarded(whole_pages(ROOM));
    if (!room) return perror("inside"), 2;
    end = room + whole_pages(ROOM);
    texts();
    archives();
    tables();
    chunks();
    programs();
    tags();
    entries();
    printf("%ld buffers with something inside, %ld answers wrong\n", asked, wrong);
    return wrong != 0;
}
