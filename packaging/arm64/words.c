/* The words of the command line and the number of the last error, for a compiled program on ARM64 Linux. The
   toolchain has these functions for x86-64 alone, in its archive libos_c.a; no proof covers either. */
#include <errno.h>
#include <stddef.h>
#include <stdint.h>
#include <string.h>

int32_t rattle_errno(void) { return errno; }

void rattle_set_errno(int32_t error) { errno = error; }

static size_t word_count;
static char **words;

/* The C library calls this before main. */
__attribute__((constructor)) static void keep_words(int count, char **given) {
    word_count = (size_t)count;
    words = given;
}

size_t rattle_arg_count(void) { return word_count; }

/* Puts a word into the buffer, and gives its length: -1 if there is no such word, -2 if it doesn't fit. */
ptrdiff_t rattle_arg(size_t number, char *buffer, size_t room) {
    if (number >= word_count || words[number] == NULL)
        return -1;
    size_t length = strlen(words[number]);
    if (length > room)
        return -2;
    memcpy(buffer, words[number], length);
    return (ptrdiff_t)length;
}
