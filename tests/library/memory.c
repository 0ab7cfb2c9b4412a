/* Refuses the library's requests for memory, one after another, and then each with all after it.

   The arguments are files with histories. The library is linked with this file, so its malloc and realloc are
   the ones below. A call has to give the answer that it gives with memory enough, or say that memory ran out,
   or give no line of a refusal, and then it has to leave the place for the report as it was. It has to give
   back all memory either way. Nothing is printed if so; else the exit status is 1. */
#include <stdio.h>
#include <stdlib.h>
#include <string.h>
#include "ask.h"

enum { ROOM = 65536, MOST_REQUESTS = 10000 };

static long requests, held, first, last;

extern void *__libc_malloc(size_t size);
extern void *__libc_realloc(void *old, size_t size);
extern void __libc_free(void *block);

static int is_refused(void)
{
    requests++;
    return first <= requests && requests <= last;
}

void *malloc(size_t size)
{
    if (is_refused())
        return NULL;
    void *block = __libc_malloc(size);
    held += block != NULL;
    return block;
}

void *realloc(void *old, size_t size)
{
    if (is_refused())
        return NULL;
    void *block = __libc_realloc(old, size);
    held += !old && block;
    return block;
}

void free(void *block)
{
    held -= block != NULL;
    __libc_free(block);
}

static size_t read_all(const char *path, uint8_t *bytes)
{
    FILE *file = fopen(path, "rb");
    if (!file) {
        perror(path);
        exit(4);
    }
    size_t length = fread(bytes, 1, ROOM, file);
    fclose(file);
    return length;
}

/* Whether a call with these requests refused answers as it should; `refused` says whether it
   met one of them. */
static int is_right(const uint8_t *bytes, size_t length, const regcheck_answer *answer,
                    const uint8_t *report, int *refused)
{
    static uint8_t out[ROOM], before[ROOM];
    regcheck_answer have;
    memset(out, '?', ROOM);
    memset(before, '?', ROOM);
    long held_before = held;
    requests = 0;
    ask(bytes, length, out, ROOM, &have);
    *refused = first <= requests;
    if (held != held_before)
        return 0;
    if (*refused && have.status == REGCHECK_NO_MEMORY)
        return have.number == 17 && !have.line && !have.other && !have.length && !memcmp(out, before, ROOM);
    if (*refused && have.status == REGCHECK_REFUSED && !have.length) {
        have.length = answer->length;
        return !memcmp(&have, answer, sizeof have) && !memcmp(out, before, ROOM);
    }
    return !memcmp(&have, answer, sizeof have) && !memcmp(out, report, ROOM);
}

/* The number of wrong answers to one history. */
static long wrong(const uint8_t *bytes, size_t length, int all_after)
{
    static uint8_t report[ROOM];
    regcheck_answer answer;
    long found = 0;
    int refused = 1;
    memset(report, '?', ROOM);
    first = last = 0;
    ask(bytes, length, report, ROOM, &answer);
    for (long number = 1; refused && number < MOST_REQUESTS; number++) {
        first = number;
        last = all_after ? MOST_REQUESTS : number;
        found += !is_right(bytes, length, &answer, report, &refused);
        first = last = 0;
    }
    return found + refused;
}

int main(int words, char **paths)
{
    static uint8_t bytes[ROOM];
    long found = words < 2;
    for (int number = 1; number < words; number++) {
        size_t length = read_all(paths[number], bytes);
        found += wrong(bytes, length, 0) + wrong(bytes, length, 1);
    }
    if (found)
        printf("memory: %ld wrong answers\n", found);
    return found ? 1 : 0;
}
