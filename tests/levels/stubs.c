/*
 * Calls every stub over functions that answer their level and what they were given, before main and in it, by several threads at
 * once; prints each level that was answered.
 */
#include <pthread.h>
#include <stdio.h>

/* As the functions that the test's script wrote: seven numbers, of which the last comes on the stack. */
typedef unsigned long function(unsigned long, unsigned long, unsigned long, unsigned long, unsigned long, unsigned long,
                               unsigned long);
#define STUB(name) function name;
#include "names"
#undef STUB
#define STUB(name) name,
static function *const stubs[] = {
#include "names"
};
enum { STUBS = sizeof stubs / sizeof *stubs, THREADS = 8 };

static unsigned long before_main;
__attribute__((constructor)) static void call_before_main(void) { before_main = stubs[0](1, 2, 3, 4, 5, 6, 7) / 1000; }

static void *call_all(void *levels) {
    for (size_t i = 0; i < STUBS; i++) {
        unsigned long answer = stubs[i](1, 2, 3, 4, 5, 6, i);
        ((unsigned long *)levels)[i] = answer % 1000 == 1 + 4 + 9 + 16 + 25 + 36 + i ? answer / 1000 : 0;
    }
    return NULL;
}

int main(void) {
    static unsigned long levels[THREADS][STUBS];
    pthread_t threads[THREADS];
    for (int i = 0; i < THREADS; i++)
        if (pthread_create(&threads[i], NULL, call_all, levels[i])) return 1;
    for (int i = 0; i < THREADS; i++)
        if (pthread_join(threads[i], NULL)) return 1;
    printf("%lu\n", before_main);
    for (int i = 0; i < THREADS; i++)
        for (size_t stub = 0; stub < STUBS; stub++) printf("%lu\n", levels[i][stub]);
    return 0;
}
