// Times bare sequentially consistent accesses to the words on which the lanes of the program beside this file step, in the same order.
// Writes the same lines: the kind of access, the spans of a lane (0, since there are none here), the threads, and nanoseconds.
#include <pthread.h>
#include <stdint.h>
#include <stdio.h>
#include <time.h>

enum { STEPS = 1024, TURNS = 20000, BLOCKS = 4, SIZE = 256 };
enum kind { LOAD, STORE, POLL };

struct task {
    enum kind kind;
    int block;
    uint64_t own[STEPS];
};

// A flag for each block, and behind them each block's cells.
static uint64_t words[BLOCKS + BLOCKS * SIZE] __attribute__((aligned(64)));

__attribute__((noinline)) static uint64_t load(const uint64_t *own) {
    uint64_t sum = 0;
    for (int turn = 0; turn < TURNS; turn++)
        for (int i = 0; i < STEPS; i++)
            sum += __atomic_load_n(&words[own[i]], __ATOMIC_SEQ_CST);
    return sum;
}

__attribute__((noinline)) static void store(const uint64_t *own) {
    for (int turn = 0; turn < TURNS; turn++)
        for (int i = 0; i < STEPS; i++)
            __atomic_store_n(&words[own[i]], 7, __ATOMIC_SEQ_CST);
}

__attribute__((noinline)) static uint64_t poll(int block) {
    uint64_t sum = 0;
    for (int turn = 0; turn < TURNS; turn++)
        for (int i = 0; i < STEPS; i++)
            sum += __atomic_load_n(&words[block], __ATOMIC_SEQ_CST);
    return sum;
}

static void *run(void *argument) {
    struct task *task = argument;
    switch (task->kind) {
    case LOAD: return (void *)(uintptr_t)load(task->own);
    case STORE: store(task->own); return 0;
    default: return (void *)(uintptr_t)poll(task->block);
    }
}

static void prepare(struct task *task, enum kind kind, int block) {
    uint64_t random = 1;
    task->kind = kind;
    task->block = block;
    for (int i = 0; i < STEPS; i++) {
        random = random * 6364136223846793005u + 1442695040888963407u;
        task->own[i] = BLOCKS + (uint64_t)block * SIZE + ((random >> 40) & 15) * 16 + 8 + ((random >> 50) & 3);
    }
}

static uint64_t now(void) {
    struct timespec time;
    clock_gettime(CLOCK_MONOTONIC, &time);
    return (uint64_t)time.tv_sec * 1000000000u + (uint64_t)time.tv_nsec;
}

int main(void) {
    static const char *const names[] = {"load", "store", "poll"};
    static struct task tasks[BLOCKS];
    for (int threads = 1; threads <= BLOCKS; threads += BLOCKS - 1)
        for (int kind = LOAD; kind <= POLL; kind++)
            for (int again = 0; again < 5; again++) {
                pthread_t started[BLOCKS];
                for (int block = 0; block < threads; block++)
                    prepare(&tasks[block], (enum kind)kind, block);
                uint64_t start = now();
                for (int block = 0; block < threads; block++)
                    if (pthread_create(&started[block], 0, run, &tasks[block]))
                        return 1;
                for (int block = 0; block < threads; block++)
                    pthread_join(started[block], 0);
                printf("%s 0 %d %llu\n", names[kind], threads, (unsigned long long)(now() - start));
            }
    return 0;
}
