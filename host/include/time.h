#ifndef NIL_TEST_TIME_H
#define NIL_TEST_TIME_H

/* As Linux has them for 64-bit machines. */
struct timespec {
    long tv_sec;
    long tv_nsec;
};

#define CLOCK_PROCESS_CPUTIME_ID 2

int clock_gettime(int clock, struct timespec *now);

#endif
