/* What the compiler of the library asks of a C library, and of a system, for a DLL that needs none. */
#include <stddef.h>
#include <stdint.h>

void *memcpy(void *restrict to, const void *restrict from, size_t size) {
    for (size_t at = 0; at < size; at++) ((unsigned char *)to)[at] = ((const unsigned char *)from)[at];
    return to;
}

void *memmove(void *to, const void *from, size_t size) {
    unsigned char *written = to;
    const unsigned char *read = from;
    if ((uintptr_t)to < (uintptr_t)from)
        for (size_t at = 0; at < size; at++) written[at] = read[at];
    else
        while (size-- > 0) written[size] = read[size];
    return to;
}

void *memset(void *to, int value, size_t size) {
    for (size_t at = 0; at < size; at++) ((unsigned char *)to)[at] = (unsigned char)value;
    return to;
}

/* How more than a page of the stack is taken on Windows: %rax says how many bytes, and each page of them is written to in order, so
 * that the page below the stack is met, by which it grows or the program ends, and not passed over. Every register stays. */
__asm__(
    ".globl ___chkstk_ms\n"
    "___chkstk_ms:\n"
    "    pushq %rcx\n"
    "    pushq %rax\n"
    "    leaq 24(%rsp), %rcx\n"
    "1:  cmpq $4096, %rax\n"
    "    jbe 2f\n"
    "    subq $4096, %rcx\n"
    "    orl $0, (%rcx)\n"
    "    subq $4096, %rax\n"
    "    jmp 1b\n"
    "2:  subq %rax, %rcx\n"
    "    orl $0, (%rcx)\n"
    "    popq %rax\n"
    "    popq %rcx\n"
    "    retq\n");
