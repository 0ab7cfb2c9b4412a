/* Calls the library so many times on the history in a file, and writes the report of the last call:
   `calls FILE COUNT`. It asks whether the history is atomic, or with LEVEL defined whether it keeps that
   level. */
#include <stdio.h>
#include <stdlib.h>
#include "regcheck.h"

int main(int words, char **word)
{
    FILE *file = words == 3 ? fopen(word[1], "rb") : NULL;
    if (!file || fseek(file, 0, SEEK_END)) {
        perror("calls FILE COUNT");
        return 3;
    }
    size_t length = ftell(file), room = 2 * length + 4096;
    uint8_t *history = malloc(length + 1), *report = malloc(room);
    regcheck_answer answer = {0};
    rewind(file);
    if (!history || !report || fread(history, 1, length, file) != length) {
        perror(word[1]);
        return 4;
    }
    for (long left = atol(word[2]); left > 0; left--)
#ifdef LEVEL
        reglevel_report(history, length, LEVEL, 0, report, room, &answer);
#else
        regcheck_report(history, length, report, room, &answer);
#endif
    if (answer.status <= REGCHECK_NOT_ATOMIC)
        fwrite(report, 1, answer.length, stdout);
    return answer.status;
}
