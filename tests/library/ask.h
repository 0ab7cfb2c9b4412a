/* What the tests ask the library: regcheck_report; with SEARCH defined regsearch_report, within STEPS and
   CONFIGURATIONS; with LEVEL defined reglevel_report, for that level and with MORE. For a refused history it
   then asks for the line that says why: that goes to `out` too, and its length into the answer. */
#include "regcheck.h"

#ifndef STEPS
#define STEPS 0 /* the program's default */
#endif
#ifndef CONFIGURATIONS
#define CONFIGURATIONS 0
#endif
#ifndef MORE
#define MORE 0 /* nothing in addition */
#endif

static void ask(const uint8_t *input, size_t input_length, uint8_t *out, size_t out_length,
                regcheck_answer *answer)
{
#ifdef SEARCH
    regsearch_report(input, input_length, STEPS, CONFIGURATIONS, out, out_length, answer);
    if (answer->status == REGCHECK_REFUSED)
        answer->length = regsearch_refusal(input, input_length, out, out_length);
#else
#ifdef LEVEL
    reglevel_report(input, input_length, LEVEL, MORE, out, out_length, answer);
#else
    regcheck_report(input, input_length, out, out_length, answer);
#endif
    if (answer->status == REGCHECK_REFUSED)
        answer->length = regcheck_refusal(input, input_length, out, out_length);
#endif
}
