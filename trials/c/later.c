/* A library to be loaded before the system's, by whose clock it is getenv("MINUTES_AHEAD") minutes later than it is, or earlier where
   that is below 0. Clocks that only measure stay as they are. start_numbers.py compiles this. */
#define _GNU_SOURCE
#include <dlfcn.h>
#include <stdlib.h>
#include <sys/time.h>
#include <time.h>

static long seconds_ahead(void) {
    const char *minutes = getenv("MINUTES_AHEAD");
    return minutes ? 60 * atol(minutes) : 0;
}

int clock_gettime(clockid_t clock, struct timespec *now) {
    static int (*of_the_system)(clockid_t, struct timespec *);
    if (!of_the_system)
        of_the_system = dlsym(RTLD_NEXT, "clock_gettime");
    int status = of_the_system(clock, now);
    if (!status && (clock == CLOCK_REALTIME || clock == CLOCK_REALTIME_COARSE))
        now->tv_sec += seconds_ahead();
    return status;
}

time_t time(time_t *now) {
    struct timespec moment = {0};
    clock_gettime(CLOCK_REALTIME, &moment);
    if (now)
        *now = moment.tv_sec;
    return moment.tv_sec;
}

int gettimeofday(struct timeval *restrict now, void *restrict zone) {
    struct timespec moment = {0};
    int status = clock_gettime(CLOCK_REALTIME, &moment);
    (void)zone;
    now->tv_sec = moment.tv_sec;
    now->tv_usec = moment.tv_nsec / 1000;
    return status;
}
