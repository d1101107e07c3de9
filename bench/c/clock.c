/* The time that this thread has run: what other programs take from the machine
 * is not in it. */
#define _POSIX_C_SOURCE 200809L
#include <stdint.h>
#include <time.h>

uint64_t thread_nanoseconds(void);

uint64_t thread_nanoseconds(void)
{
    struct timespec now;
    clock_gettime(CLOCK_THREAD_CPUTIME_ID, &now);
    return (uint64_t)now.tv_sec * 1000000000u + (uint64_t)now.tv_nsec;
}
