// Who runs, in a watched program: its module calls saber_step() before and after each atomic step, and its calls of the system that
// start threads, wait for them or let them run come here, by the linker's --wrap.
//
// SABER_SCHEDULE is nothing, which is the machine's own schedule, or
//   yields:SEED               a step sometimes yields, spins or sleeps first
//   walk:SEED:ODDS            one thread runs at a time; at a step, once in ODDS, the next one is drawn
//   priorities:SEED:FALLS:N   one thread runs at a time, that of the highest priority; FALLS times among the first N steps it falls
//                             below all others
// Under walk and priorities nothing else chooses who runs: a run is the same again for the same seed. A thread that yields or sleeps
// on a futex gives way (a wait may always end early), and one that joins another waits for its end here.
//
// SABER_PLACES is a file that is kept mapped, with the last places of each thread: what a run that doesn't end was at.
//
// The baton is passed by raw futexes in code that no sanitizer sees, so it makes no order between accesses that could hide a race.
#define _GNU_SOURCE
#include <errno.h>
#include <fcntl.h>
#include <linux/futex.h>
#include <pthread.h>
#include <stdint.h>
#include <stdio.h>
#include <stdlib.h>
#include <string.h>
#include <sys/mman.h>
#include <sys/syscall.h>
#include <time.h>
#include <unistd.h>

enum { MOST = 1024, FRAMES = 6, MOST_FALLS = 64, PATIENCE = 20000 };
enum { MACHINE, YIELDS, WALK, PRIORITIES };

struct place {
    uint64_t steps, done, frames[FRAMES];
};
struct thread {
    int done;
    long priority;
    pthread_t id;
    void *(*start)(void *);
    void *argument;
};

extern char __executable_start, **environ;
static int mode = MACHINE;
static uint64_t state, odds = 1, steps, falls[MOST_FALLS];
static int fall_count;
static int turn;      // the thread that has the baton
static int count = 1; // threads that were begun, with the first
static long lowest = -1, alone;
static struct thread threads[MOST];
static struct place nowhere[MOST], *places = nowhere;
static __thread int me;
static __thread uint64_t own;
static __thread uintptr_t top; // where this thread's frames end

static long raw(long n, long a, long b, long c, long d) {
    long result;
    register long fourth __asm__("r10") = d;
    register long fifth __asm__("r8") = 0;
    __asm__ volatile("syscall" : "=a"(result) : "a"(n), "D"(a), "S"(b), "d"(c), "r"(fourth), "r"(fifth) : "rcx", "r11", "memory");
    return result;
}

static uint64_t draw(uint64_t *from) {
    *from ^= *from << 13;
    *from ^= *from >> 7;
    *from ^= *from << 17;
    return *from * 0x2545F4914F6CDD1Dull >> 16;
}

static void map_places(const char *name) {
    int file = open(name, O_RDWR | O_CREAT, 0644);
    if (file < 0 || ftruncate(file, sizeof nowhere)) return;
    void *mapped = mmap(0, sizeof nowhere, PROT_READ | PROT_WRITE, MAP_SHARED, file, 0);
    if (mapped != MAP_FAILED) places = mapped;
    close(file);
}

__attribute__((constructor)) static void begin(void) {
    unsigned long long seed = 1, first = 1, among = 1000;
    const char *how = getenv("SABER_SCHEDULE"), *name = getenv("SABER_PLACES");
    top = (uintptr_t)environ;
    if (name) map_places(name);
    if (!how) return;
    if (sscanf(how, "yields:%llu", &seed) == 1) mode = YIELDS;
    else if (sscanf(how, "walk:%llu:%llu", &seed, &first) == 2) mode = WALK;
    else if (sscanf(how, "priorities:%llu:%llu:%llu", &seed, &first, &among) == 3) mode = PRIORITIES;
    state = (seed + 1) * 0x9E3779B97F4A7C15ull;
    for (int i = 0; i < 8; i++) draw(&state);
    odds = first ? first : 1;
    if (mode == PRIORITIES) fall_count = first < MOST_FALLS ? first : MOST_FALLS;
    for (int i = 0; i < fall_count; i++) falls[i] = draw(&state) % (among ? among : 1);
    threads[0].priority = (long)(draw(&state) >> 8);
}

// Writes down where this thread is: the frames of its calls, as places in the program's file.
__attribute__((noinline)) static void tell_place(void) {
    if (places == nowhere || me >= MOST) return;
    struct place *here = &places[me];
    uintptr_t frame = (uintptr_t)__builtin_frame_address(0), base = (uintptr_t)&__executable_start;
    here->steps++;
    for (int i = -1; i < FRAMES; i++) {
        uintptr_t up = *(uintptr_t *)frame, back = *(uintptr_t *)(frame + 8);
        if (i >= 0) here->frames[i] = back - base;
        if (up <= frame || up >= top) break;
        frame = up;
    }
}

static void wait_turn(void) {
    int whose;
    while ((whose = __atomic_load_n(&turn, __ATOMIC_SEQ_CST)) != me) raw(SYS_futex, (long)&turn, FUTEX_WAIT_PRIVATE, whose, 0);
}

static void hand_to(int to) {
    if (to == me) return;
    alone = 0;
    __atomic_store_n(&turn, to, __ATOMIC_SEQ_CST);
    raw(SYS_futex, (long)&turn, FUTEX_WAKE_PRIVATE, 1 << 30, 0);
}

// One of those that have not ended; with away not this thread, if there is another.
static int choose(int away) {
    int found[MOST], n = 0, best = 0;
    for (int i = 0; i < count; i++)
        if (!threads[i].done && !(away && i == me)) found[n++] = i;
    if (n == 0) return me;
    if (mode == WALK) return found[draw(&state) % n];
    for (int i = 1; i < n; i++)
        if (threads[found[i]].priority > threads[found[best]].priority) best = i;
    return found[best];
}

static void give_way(void) {
    if (mode == PRIORITIES) threads[me].priority = lowest--;
    hand_to(choose(1));
    wait_turn();
}

static void disturb(void) {
    if (!own) own = state ^ (raw(SYS_gettid, 0, 0, 0, 0) * 0x9E3779B97F4A7C15ull) ^ 1;
    uint64_t it = draw(&own) % 64;
    if (it < 6) raw(SYS_sched_yield, 0, 0, 0, 0);
    if (it == 7) {
        struct timespec sleep = {0, draw(&own) % 200000};
        raw(SYS_nanosleep, (long)&sleep, 0, 0, 0);
    }
    if (it > 58)
        for (volatile int i = draw(&own) % 2000; i > 0; i--) {}
}

// A thread that has run alone for long falls too: one that spins for another without a yield would spin for ever.
static void maybe_fall(void) {
    int falls_now = alone++ > PATIENCE;
    for (int i = 0; i < fall_count; i++) falls_now |= falls[i] == steps;
    if (falls_now) threads[me].priority = lowest--;
    if (alone > PATIENCE) alone = 0;
}

void saber_step(void) {
    tell_place();
    if (mode == MACHINE) return;
    if (mode == YIELDS) return disturb();
    steps++;
    if (mode == WALK && draw(&state) % odds) return;
    if (mode == PRIORITIES) maybe_fall();
    hand_to(choose(0));
    wait_turn();
}

static void *started(void *argument) {
    me = (int)(intptr_t)argument;
    top = (uintptr_t)__builtin_frame_address(0);
    if (mode >= WALK) wait_turn();
    void *result = threads[me].start(threads[me].argument);
    threads[me].done = 1;
    places[me].done = 1;
    if (mode >= WALK) hand_to(choose(1));
    return result;
}

int __real_pthread_create(pthread_t *, const pthread_attr_t *, void *(*)(void *), void *);
int __real_pthread_join(pthread_t, void **);
int __real_sched_yield(void);

int __wrap_pthread_create(pthread_t *id, const pthread_attr_t *how, void *(*start)(void *), void *argument) {
    int it = __atomic_load_n(&count, __ATOMIC_SEQ_CST);
    if (it >= MOST) return EAGAIN;
    // Under walk and priorities one thread runs at a time; else two may begin threads at once.
    if (mode < WALK) it = __atomic_fetch_add(&count, 1, __ATOMIC_SEQ_CST);
    threads[it].start = start;
    threads[it].argument = argument;
    threads[it].priority = mode < WALK ? 0 : (long)(draw(&state) >> 8);
    int fault = __real_pthread_create(id, how, started, (void *)(intptr_t)it);
    if (fault) return fault;
    if (mode < WALK) return 0;
    threads[it].id = *id;
    count++;
    return 0;
}

int __wrap_pthread_join(pthread_t id, void **result) {
    for (int i = count - 1; mode >= WALK && i > 0; i--)
        if (threads[i].id == id) {
            while (!threads[i].done) give_way();
            break;
        }
    return __real_pthread_join(id, result);
}

int __wrap_sched_yield(void) {
    tell_place();
    if (mode < WALK) return __real_sched_yield();
    give_way();
    return 0;
}

// The program calls it for futexes alone, to wait or to wake.
long __wrap_syscall(long n, long a, long b, long c, long d) {
    tell_place();
    if (mode >= WALK && n == SYS_futex && (b & FUTEX_CMD_MASK) == FUTEX_WAIT) {
        if (*(volatile uint32_t *)a == (uint32_t)c) give_way();
        return 0;
    }
    long result = raw(n, a, b, c, d);
    if (result >= 0) return result;
    errno = (int)-result;
    return -1;
}

// What the instrumentation calls and older runtimes of the thread sanitizer lack.
#define WEAK __attribute__((weak))
WEAK void *__tsan_memcpy(void *to, const void *from, size_t n) { return memcpy(to, from, n); }
WEAK void *__tsan_memmove(void *to, const void *from, size_t n) { return memmove(to, from, n); }
WEAK void *__tsan_memset(void *to, int byte, size_t n) { return memset(to, byte, n); }
