/* Counts what a run asks of the system while its threads wait: how often they yield, rest, and wake
   another. Loaded before the C library, it counts in the file that CALLS names, three words long. */
#define _GNU_SOURCE
#include <dlfcn.h>
#include <fcntl.h>
#include <linux/futex.h>
#include <stdarg.h>
#include <stdatomic.h>
#include <stdlib.h>
#include <sys/mman.h>
#include <sys/syscall.h>

enum { YIELDS, RESTS, WAKES };

static atomic_ulong *count;
static int (*yield)(void);
static long (*call)(long, ...);

__attribute__((constructor)) static void begin(void) {
    int file = open(getenv("CALLS"), O_RDWR);
    count = mmap(NULL, 3 * sizeof *count, PROT_READ | PROT_WRITE, MAP_SHARED, file, 0);
    if (count == MAP_FAILED) abort();
    yield = dlsym(RTLD_NEXT, "sched_yield");
    call = dlsym(RTLD_NEXT, "syscall");
}

int sched_yield(void) {
    count[YIELDS]++;
    return yield();
}

long syscall(long number, ...) {
    long of[6];
    va_list rest;
    va_start(rest, number);
    for (int i = 0; i < 6; i++) of[i] = va_arg(rest, long);
    va_end(rest);
    if (number == SYS_futex) {
        int what = of[1] & FUTEX_CMD_MASK;
        if (what == FUTEX_WAIT || what == FUTEX_WAIT_BITSET) count[RESTS]++;
        if (what == FUTEX_WAKE || what == FUTEX_WAKE_BITSET) count[WAKES]++;
    }
    return call(number, of[0], of[1], of[2], of[3], of[4], of[5]);
}
