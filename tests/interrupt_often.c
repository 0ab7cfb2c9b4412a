/* Interrupts the calls of a program every millisecond: preloaded by tests/wrong_ends. A call that waits then
   ends with EINTR. */
#include <signal.h>
#include <stdlib.h>
#include <string.h>
#include <sys/time.h>

static void nothing(int number)
{
    (void)number;
}

__attribute__((constructor)) static void begin(void)
{
    struct sigaction action;
    struct itimerval often = {{0, 1000}, {0, 1000}};
    memset(&action, 0, sizeof action);
    action.sa_handler = nothing;
    if (sigaction(SIGALRM, &action, NULL) != 0 || setitimer(ITIMER_REAL, &often, NULL) != 0)
        abort();
}
