// A race, planted into a scratch copy of a program that is watched by ThreadSanitizer: the linker's --wrap brings its atomic steps
// here, and PLANT says which kind of them is broken.
#include <stdint.h>
typedef uint64_t word;
enum { RELAXED = 0 };
enum { PLAIN_STORE = 1, RELAXED_STORE, RELAXED_LOAD, RELAXED_EXCHANGE };

word __real___tsan_atomic64_load(const volatile word *, int);
void __real___tsan_atomic64_store(volatile word *, word, int);
word __real___tsan_atomic64_compare_exchange_val(volatile word *, word, word, int, int);
void __tsan_write8(void *);

word __wrap___tsan_atomic64_load(const volatile word *from, int order) {
    return __real___tsan_atomic64_load(from, PLANT == RELAXED_LOAD ? RELAXED : order);
}

void __wrap___tsan_atomic64_store(volatile word *to, word value, int order) {
    if (PLANT == PLAIN_STORE) {
        __tsan_write8((void *)to);
        *to = value;
        return;
    }
    __real___tsan_atomic64_store(to, value, PLANT == RELAXED_STORE ? RELAXED : order);
}

word __wrap___tsan_atomic64_compare_exchange_val(volatile word *at, word from, word to, int order, int refused) {
    if (PLANT == RELAXED_EXCHANGE) order = refused = RELAXED;
    return __real___tsan_atomic64_compare_exchange_val(at, from, to, order, refused);
}
