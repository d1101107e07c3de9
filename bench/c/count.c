/* Marks the call to be counted for callgrind; does nothing outside of it. */
#include "count.h"

#if defined(__has_include)
#if __has_include(<valgrind/callgrind.h>)
#include <valgrind/callgrind.h>
#define HAS_CALLGRIND 1
#endif
#endif

#ifdef HAS_CALLGRIND
int counting(void)
{
    return RUNNING_ON_VALGRIND != 0;
}

void count_from_here(void)
{
    CALLGRIND_START_INSTRUMENTATION;
    CALLGRIND_ZERO_STATS;
}

void count_to_here(const char *label)
{
    CALLGRIND_DUMP_STATS_AT(label);
    CALLGRIND_STOP_INSTRUMENTATION;
}
#else
int counting(void)
{
    return 0;
}

void count_from_here(void)
{
}

void count_to_here(const char *label)
{
    (void)label;
}
#endif
