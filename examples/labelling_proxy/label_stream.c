/* Prints the type of what comes on standard input as soon as no byte can change it, after 8192 bytes, or at the end. */
#include "infer.h"
#include <stdio.h>
#include <unistd.h>

int main(void) {
    uint8_t front[8192];
    size_t kept = 0;
    ssize_t got = 1;
    while (got > 0 && kept < sizeof front && !infer_is_decided(front, kept)) {
        got = read(STDIN_FILENO, front + kept, sizeof front - kept);
        kept += got > 0 ? (size_t)got : 0;
    }
    const char *mime_type = infer_mime_type_text(infer_position(front, kept));
    puts(*mime_type ? mime_type : "unknown");
}
