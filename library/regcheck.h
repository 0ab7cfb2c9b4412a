/* regcheck: proved checkers of recorded runs of registers, as three calls: regcheck_report for reads and
   writes, regsearch_report for histories with compare-and-swap and repeated values too, and reglevel_report
   for the weaker guarantees that a run of reads and writes kept. Two more say in words why a history is
   refused.

   A history and its report are the bytes that the programs `regcheck`, `regsearch` and `reglevel` read and
   write; docs/format.md of the project has their format, and docs/embedding.md says more of these calls. */
#ifndef REGCHECK_H
#define REGCHECK_H

#define REGCHECK_VERSION "1.2.0"

#include <stddef.h>
#include <stdint.h>

#ifdef __cplusplus
extern "C" {
#endif

/* How a call ended. The numbers are those of the programs' exit statuses, as far as they have them. */
enum regcheck_status {
    REGCHECK_ATOMIC = 0,     /* the history is atomic (linearizable), and `out` has its report */
    REGCHECK_KEPT = 0,       /* of reglevel_report: the level holds of each register, or of the whole */
    REGCHECK_NOT_ATOMIC = 1, /* it isn't, and `out` has its report */
    REGCHECK_BROKEN = 1,     /* of reglevel_report: of some register, or of the whole, it doesn't */
    REGCHECK_REFUSED = 2,    /* the input is refused */
    REGCHECK_BAD_NUMBER = 3, /* of reglevel_report alone: `level` or `more` stands for nothing */
    REGCHECK_NO_MEMORY = 4,  /* memory ran out */
    REGCHECK_TOO_SMALL = 5,  /* the report is longer than `out`: call again with room for `length` bytes */
    REGCHECK_UNKNOWN = 6     /* of regsearch_report, and of reglevel_report if REGLEVEL_CAUSAL is required:
                                not decided within the bounds, and `out` has the report */
};

typedef struct regcheck_answer {
    uint32_t status; /* an enum regcheck_status */
    uint32_t number; /* the number of the refusal, 1 to 15 or 19 to 22, or 17 if memory ran out; 0 if there
                        is a report */
    uint32_t line;   /* the refused line, from 1; 0 if no line is refused */
    uint32_t other;  /* the line of the open call (refusal 9), of the earlier write (13) or of the crash (19);
                        else 0 */
    uint64_t length; /* the bytes of the report, whether there is room for them or not; 0 if there is none */
} regcheck_answer;

/* Checks the history of `input_length` bytes at `input`, and puts its report at the beginning of the
   `out_length` bytes at `out`. It says what came of it in `*answer`. The bytes at `out` after the report stay
   as they were, and all of them do if there is no report or no room for all of it.

   No pointer may be null, even for a length of 0. `out` and `*answer` may overlap neither each other nor the
   input. The call starts no thread, and keeps nothing once it returns: threads may call it at once, each with
   its own `out` and `answer`. It takes memory from malloc and gives all of it back. Don't call it from a
   signal handler, or from the child of a fork in a process with several threads. */
void regcheck_report(const uint8_t *input, size_t input_length, uint8_t *out, size_t out_length,
                     regcheck_answer *answer);

/* Checks the history as the program `regsearch` does, within these bounds: the steps that the search of a
   register may take, 1 to 1,000,000,000,000, and the configurations that it may hold in one list, 1 to
   1,048,576. 0 stands for the program's default, 1,000,000,000 and 65,536, and more than the most for the
   most. Bounds count work and never time: with the defaults a call may take a minute, with greater ones much
   longer, and it can't be stopped. All else is as of regcheck_report. */
void regsearch_report(const uint8_t *input, size_t input_length, uint64_t steps, size_t configurations,
                      uint8_t *out, size_t out_length, regcheck_answer *answer);

/* What may be required of a history; docs/levels.md says what each means. */
enum reglevel_level {
    REGLEVEL_ATOMIC = 0,
    REGLEVEL_REGULAR = 1,
    REGLEVEL_SESSION = 2,
    REGLEVEL_OWN_WRITES = 3,
    REGLEVEL_MONOTONIC = 4,
    REGLEVEL_SEQUENTIAL = 5,
    REGLEVEL_CAUSAL = 6 /* of all registers together */
};

/* What a report of levels has to say in addition: a sum of these. */
enum reglevel_more {
    REGLEVEL_STALE = 1, /* each stale read with the write that it missed */
    REGLEVEL_ORDERS = 2 /* an order for the strongest level of each register, and one if all is causal */
};

/* Checks the history as the program `reglevel` does. `level` is an enum reglevel_level, and `more` a sum of
   enum reglevel_more; if one is neither, nothing is checked. All else is as of regcheck_report. */
void reglevel_report(const uint8_t *input, size_t input_length, uint32_t level, uint32_t more, uint8_t *out,
                     size_t out_length, regcheck_answer *answer);

/* Puts the line that the programs `regcheck` and `reglevel` write of a history that they refuse at the
   beginning of the `out_length` bytes at `out`, without a line end or a null byte, and returns its length: 0
   if the history isn't refused, or if memory ran out. If there is no room for all of it, the bytes at `out`
   stay as they were. REGCHECK_LINE_LENGTH bytes are always enough. What a caller of regcheck_report owes
   holds here too. */
size_t regcheck_refusal(const uint8_t *input, size_t input_length, uint8_t *out, size_t out_length);

/* The same for the program `regsearch`. */
size_t regsearch_refusal(const uint8_t *input, size_t input_length, uint8_t *out, size_t out_length);

enum { REGCHECK_LINE_LENGTH = 128 };

#ifdef __cplusplus
}
#endif

#endif
