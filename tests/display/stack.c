/*
 * Measures how much stack a call of the display's entry takes, and compares it with the header.
 *
 *   stack FILE..     prints the most that any of the files took; fails if that is another figure than DISPLAY_STACK_TAKEN
 *
 * Each call runs on memory of its own that is filled with a pattern, and what of the pattern is gone afterwards is what the
 * call took, its return address among it. memcpy and memset stand here and take nothing but their return address. So the
 * figure is that of the archive alone, whatever the C library. For x86-64, as the archive is.
 */
#include "display.h"
#include "files.h"

#if DISPLAY_STACK < 2 * DISPLAY_STACK_TAKEN
#error "DISPLAY_STACK is to be at least twice what a call takes"
#endif

#define STACK (2 * DISPLAY_STACK)

static uint8_t file[MOST], room[DISPLAY_ROOM];
static uint8_t stack[STACK] __attribute__((aligned(4096)));

/* Calls the entry with the stack pointer at `top`, and comes back to the stack of the caller. */
size_t call_on(void *top, const uint8_t *from, size_t from_len, uint8_t *to, size_t to_len);

__asm__(".pushsection .text\n"
        ".globl call_on, memcpy, memset\n"
        ".hidden call_on, memcpy, memset\n"
        ".type call_on, @function\n"
        ".type memcpy, @function\n"
        ".type memset, @function\n"
        "call_on:\n"
        "    push %rbp\n"
        "    mov %rsp, %rbp\n"
        "    mov %rdi, %rsp\n"
        "    mov %rsi, %rdi\n"
        "    mov %rdx, %rsi\n"
        "    mov %rcx, %rdx\n"
        "    mov %r8, %rcx\n"
        "    call display_answer\n"
        "    mov %rbp, %rsp\n"
        "    pop %rbp\n"
        "    ret\n"
        "memcpy:\n"
        "    mov %rdi, %rax\n"
        "    mov %rdx, %rcx\n"
        "    rep movsb\n"
        "    ret\n"
        "memset:\n"
        "    mov %rdi, %r8\n"
        "    mov %esi, %eax\n"
        "    mov %rdx, %rcx\n"
        "    rep stosb\n"
        "    mov %r8, %rax\n"
        "    ret\n"
        ".popsection\n");

/* The bytes from the deepest that a call has changed to the top. */
static size_t changed(uint8_t pattern, size_t file_len)
{
    size_t untouched = 0;

    for (size_t i = 0; i < STACK; i++) {
        stack[i] = pattern;
    }
    call_on(stack + STACK, file, file_len, room, sizeof room);
    while (untouched < STACK && stack[untouched] == pattern) {
        untouched++;
    }
    return STACK - untouched;
}

/* What a call took: by two patterns, since a byte may be written that is as the pattern. */
static size_t took(size_t file_len)
{
    size_t one = changed(0xA5, file_len), other = changed(0x5A, file_len);

    return one > other ? one : other;
}

int main(int argc, char **argv)
{
    size_t most = 0;

    for (int i = 1; i < argc; i++) {
        size_t taken = took(read_file(argv[i], file));
        most = taken > most ? taken : most;
    }
    printf("a call takes %zu bytes of stack, and DISPLAY_STACK_TAKEN in the header is %d\n", most, DISPLAY_STACK_TAKEN);
    return most == DISPLAY_STACK_TAKEN ? 0 : 1;
}
