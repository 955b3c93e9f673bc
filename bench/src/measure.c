/* Processor time, and how much stack a function uses: it runs on a painted one. */
#define _DEFAULT_SOURCE
#include <pthread.h>
#include <stddef.h>
#include <stdint.h>
#include <string.h>
#include <sys/mman.h>
#include <time.h>

enum { BYTES = 1 << 22, PAINT = 0xA5 };

/* Seconds that this thread has run; time in which others run does not count. */
double thread_seconds(void)
{
    struct timespec t;
    clock_gettime(CLOCK_THREAD_CPUTIME_ID, &t);
    return (double)t.tv_sec + (double)t.tv_nsec / 1e9;
}

struct task {
    void (*run)(void *);
    void *with;
};

static void *perform(void *task)
{
    struct task *t = task;
    t->run(t->with);
    return NULL;
}

/* Bytes of the thread's stack that were written, its own start included; 0 where there is no such thread. */
size_t stack_used(void (*run)(void *), void *with)
{
    struct task task = { run, with };
    pthread_attr_t how;
    pthread_t thread;
    uint8_t *stack = mmap(NULL, BYTES, PROT_READ | PROT_WRITE, MAP_PRIVATE | MAP_ANONYMOUS, -1, 0);
    if (stack == MAP_FAILED)
        return 0;
    memset(stack, PAINT, BYTES);
    size_t clean = BYTES;
    pthread_attr_init(&how);
    if (pthread_attr_setstack(&how, stack, BYTES) == 0 && pthread_create(&thread, &how, perform, &task) == 0) {
        pthread_join(thread, NULL);
        for (clean = 0; clean < BYTES && stack[clean] == PAINT;)
            clean++;
    }
    pthread_attr_destroy(&how);
    munmap(stack, BYTES);
    return BYTES - clean;
}
