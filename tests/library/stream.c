/* Answers each history on standard input, by the library: tests/embed compares what it writes.

   A history comes as its length, 8 bytes, and its bytes. Its answer goes out as the struct, 24 bytes, and the
   report or the line of the refusal, whose length is that in the struct. Numbers are little-endian. A history
   is asked about twice: without room, and then with room for these bytes and no byte more. */
#include <stdio.h>
#include <stdlib.h>
#include <string.h>
#include "ask.h"

static void *room_for(size_t length)
{
    void *room = malloc(length ? length : 1);
    if (!room) {
        perror("stream");
        exit(4);
    }
    return room;
}

static void put(const void *bytes, size_t length)
{
    if (fwrite(bytes, 1, length, stdout) != length) {
        perror("stream");
        exit(4);
    }
}

static void answer(const uint8_t *history, size_t length)
{
    regcheck_answer first, second;
    uint8_t nothing;
    ask(history, length, &nothing, 0, &first);
    if (first.status != REGCHECK_TOO_SMALL && first.status != REGCHECK_REFUSED) {
        put(&first, sizeof first);
        return;
    }
    uint8_t *said = room_for(first.length);
    ask(history, length, said, first.length, &second);
    put(&second, sizeof second);
    if (second.status != REGCHECK_NO_MEMORY)
        put(said, second.length);
    free(said);
}

int main(void)
{
    uint64_t length;
    while (fread(&length, sizeof length, 1, stdin) == 1) {
        uint8_t *history = room_for(length);
        if (fread(history, 1, length, stdin) != length) {
            fputs("stream: the last history is cut off\n", stderr);
            return 4;
        }
        answer(history, length);
        free(history);
    }
    return 0;
}
