/* What it costs one thread to hand on to another and to be answered, at the least: no channel, no message, a futex.

     handoff TIMES LOOKS YIELDS

   Two threads take turns, so often. One that waits looks so many times, a pause after each, then leaves its processor to
   others so many times and looks after each, and sleeps then. Prints the microseconds that a hand-off took.
   tests/bench/speed.py --hand-offs builds and runs it. */
#define _GNU_SOURCE
#include <linux/futex.h>
#include <pthread.h>
#include <sched.h>
#include <stdatomic.h>
#include <stdio.h>
#include <stdlib.h>
#include <sys/syscall.h>
#include <time.h>
#include <unistd.h>

static atomic_uint there, back;
static unsigned times, looks, yields;

static void hand_on(atomic_uint *turns) {
    atomic_fetch_add(turns, 1);
    syscall(SYS_futex, turns, FUTEX_WAKE_PRIVATE, 1, NULL, NULL, 0);
}

static void wait_for(atomic_uint *turns, unsigned seen) {
    for (unsigned look = 0; look < looks; look++) {
        if (atomic_load(turns) != seen) return;
        __builtin_ia32_pause();
    }
    for (unsigned look = 0; look < yields; look++) {
        if (atomic_load(turns) != seen) return;
        sched_yield();
    }
    while (atomic_load(turns) == seen) syscall(SYS_futex, turns, FUTEX_WAIT_PRIVATE, seen, NULL, NULL, 0);
}

static void *answer(void *nothing) {
    for (unsigned turn = 0; turn < times; turn++) {
        wait_for(&there, turn);
        hand_on(&back);
    }
    return nothing;
}

int main(int count, char **arguments) {
    struct timespec begun, ended;
    pthread_t other;
    if (count != 4) return 2;
    times = strtoul(arguments[1], NULL, 10);
    looks = strtoul(arguments[2], NULL, 10);
    yields = strtoul(arguments[3], NULL, 10);
    if (times == 0 || pthread_create(&other, NULL, answer, NULL) != 0) return 1;
    clock_gettime(CLOCK_MONOTONIC, &begun);
    for (unsigned turn = 0; turn < times; turn++) {
        hand_on(&there);
        wait_for(&back, turn);
    }
    clock_gettime(CLOCK_MONOTONIC, &ended);
    pthread_join(other, NULL);
    double spent = (ended.tv_sec - begun.tv_sec) * 1e6 + (ended.tv_nsec - begun.tv_nsec) / 1e3;
    printf("%.2f\n", spent / times / 2);
    return 0;
}
