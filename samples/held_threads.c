/* Holds threads of a program for random short times: loaded before the C library, by LD_PRELOAD. A thread that isn't
 * the first may be held before it begins, before and after each wait or wake, and where it yields: until the first
 * thread has waited some times more, or the longest time is over. The first thread's waits with a time limit mostly end
 * at once, so that it looks again and again while others are held.
 *
 * HELD_SEED has the number that the draws begin with, HELD_LONGEST the longest hold in microseconds. Threads are
 * counted from 0 as they are started, HELD_OF of them at a time; those whose bit is set in HELD_MASK are held often and
 * for long, all others seldom and for a moment. */
#define _GNU_SOURCE
#include <dlfcn.h>
#include <errno.h>
#include <linux/futex.h>
#include <pthread.h>
#include <stdarg.h>
#include <stdatomic.h>
#include <stdlib.h>
#include <sys/syscall.h>
#include <time.h>
#include <unistd.h>

typedef unsigned long long number;

enum { STEP = 50 };

static atomic_ullong drawn, waited_first;
static number longest, of, mask;
static _Thread_local int is_often;

static number number_of(const char *name, number otherwise) {
    const char *text = getenv(name);
    return text ? strtoull(text, 0, 10) : otherwise;
}

__attribute__((constructor)) static void begin(void) {
    atomic_store(&drawn, number_of("HELD_SEED", 0));
    longest = number_of("HELD_LONGEST", 500);
    of = number_of("HELD_OF", 1);
    mask = number_of("HELD_MASK", 0);
}

static number draw(void) {
    number mixed = atomic_fetch_add(&drawn, 0x9E3779B97F4A7C15ull);
    mixed = (mixed ^ mixed >> 30) * 0xBF58476D1CE4E5B9ull;
    mixed = (mixed ^ mixed >> 27) * 0x94D049BB133111EBull;
    return mixed ^ mixed >> 31;
}

static int is_first(void) {
    return getpid() == gettid();
}

static void hold(void) {
    number drawn_now = draw(), more = (drawn_now >> 20) % (is_often ? 64 : 4);
    if (is_first() || drawn_now % (is_often ? 2 : 32))
        return;
    struct timespec step = {0, STEP * 1000};
    number until = atomic_load(&waited_first) + more;
    for (number held = 0; held < longest && atomic_load(&waited_first) < until; held += STEP)
        nanosleep(&step, 0);
}

struct start {
    void *(*body)(void *);
    void *given;
    int is_often;
};

static void *begin_held(void *place) {
    struct start start = *(struct start *)place;
    free(place);
    is_often = start.is_often;
    hold();
    return start.body(start.given);
}

int pthread_create(pthread_t *thread, const pthread_attr_t *attributes, void *(*body)(void *), void *given) {
    int (*create)(pthread_t *, const pthread_attr_t *, void *(*)(void *), void *) = dlsym(RTLD_NEXT, "pthread_create");
    static atomic_ullong started;
    number place = atomic_fetch_add(&started, 1) % of;
    struct start *start = malloc(sizeof *start);
    if (!start)
        return create(thread, attributes, body, given);
    *start = (struct start){body, given, (int)(mask >> place & 1)};
    int answer = create(thread, attributes, begin_held, start);
    if (answer)
        free(start);
    return answer;
}

int sched_yield(void) {
    int (*yield)(void) = dlsym(RTLD_NEXT, "sched_yield");
    hold();
    return yield();
}

/* A part of the time limit, or all of it; on the first thread, which starts the others, mostly nothing. */
static struct timespec sooner(const struct timespec *limit) {
    number all = (number)limit->tv_sec * 1000000000u + (number)limit->tv_nsec;
    number some = is_first() && draw() % 16 ? 0 : all / 8 * (draw() % 9);
    return (struct timespec){(time_t)(some / 1000000000u), (long)(some % 1000000000u)};
}

long syscall(long called, ...) {
    long (*call)(long, ...) = dlsym(RTLD_NEXT, "syscall");
    struct timespec limit;
    long given[6];
    va_list rest;
    va_start(rest, called);
    for (int place = 0; place < 6; place++)
        given[place] = va_arg(rest, long);
    va_end(rest);
    if (called == SYS_futex && (given[1] & FUTEX_CMD_MASK) == FUTEX_WAIT && given[3]) {
        limit = sooner((const struct timespec *)given[3]);
        given[3] = (long)&limit;
    }
    if (is_first())
        atomic_fetch_add(&waited_first, 1);
    hold();
    long answer = call(called, given[0], given[1], given[2], given[3], given[4], given[5]);
    int fault = errno;
    hold();
    errno = fault;
    return answer;
}
