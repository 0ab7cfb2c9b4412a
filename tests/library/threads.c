/* Calls the library from several threads at once, and compares each answer with that of a call alone.

   The arguments are files with histories. Each thread asks about all of them, over and over, from another one
   on. Nothing is printed if all answers are the same; else the exit status is 1. The threads have the least
   stack that docs/embedding.md asks for. */
#include <pthread.h>
#include <stdio.h>
#include <stdlib.h>
#include <string.h>
#include "ask.h"

#ifndef ROUNDS
#define ROUNDS 50 /* valgrind is slow */
#endif

enum { THREADS = 4, MOST_HISTORIES = 64, STACK = 256 * 1024 };

struct history {
    uint8_t *bytes;
    size_t length;
    uint8_t *report;
    size_t room;
    regcheck_answer answer;
};

static struct history histories[MOST_HISTORIES];
static int count;

static void fail(const char *why)
{
    perror(why);
    exit(4);
}

static void *room_for(size_t length)
{
    void *room = calloc(1, length);
    if (!room)
        fail("threads");
    return room;
}

static void read_history(struct history *history, const char *path)
{
    FILE *file = fopen(path, "rb");
    if (!file || fseek(file, 0, SEEK_END))
        fail(path);
    history->length = ftell(file);
    history->room = 4 * history->length + 4096;
    history->bytes = room_for(history->length + 1);
    history->report = room_for(history->room);
    rewind(file);
    if (fread(history->bytes, 1, history->length, file) != history->length)
        fail(path);
    fclose(file);
    ask(history->bytes, history->length, history->report, history->room, &history->answer);
}

/* Whether the answer is the one that was given alone. */
static int is_same(const struct history *history)
{
    regcheck_answer answer;
    uint8_t *report = room_for(history->room);
    ask(history->bytes, history->length, report, history->room, &answer);
    int same = !memcmp(&answer, &history->answer, sizeof answer)
               && !memcmp(report, history->report, history->room);
    free(report);
    return same;
}

static void *work(void *first)
{
    long differ = 0;
    for (int round = 0; round < ROUNDS; round++)
        for (int number = 0; number < count; number++)
            differ += !is_same(&histories[(*(int *)first + number) % count]);
    return (void *)differ;
}

int main(int words, char **paths)
{
    pthread_t threads[THREADS];
    pthread_attr_t small;
    int firsts[THREADS];
    long differ = 0;
    for (count = 0; count < words - 1 && count < MOST_HISTORIES; count++)
        read_history(&histories[count], paths[count + 1]);
    if (!count || pthread_attr_init(&small) || pthread_attr_setstacksize(&small, STACK))
        fail("threads");
    for (int number = 0; number < THREADS; number++) {
        firsts[number] = number;
        if (pthread_create(&threads[number], &small, work, &firsts[number]))
            fail("threads");
    }
    for (int number = 0; number < THREADS; number++) {
        void *found;
        pthread_join(threads[number], &found);
        differ += (long)found;
    }
    if (differ)
        printf("threads: %ld answers differ from those of calls alone\n", differ);
    return differ ? 1 : 0;
}
