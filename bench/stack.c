/*
 * How much stack a call needs, measured: the call runs in a thread whose whole stack was filled with a pattern, and the deepest
 * byte that is not of the pattern any more is looked for, after the call or while it runs. Below the stack is a page that nothing
 * may touch.
 *
 * Leaves out: bytes that the call set aside below that one and did not write.
 */
#define _GNU_SOURCE
#include <pthread.h>
#include <stdatomic.h>
#include <stdint.h>
#include <stdlib.h>
#include <string.h>
#include <sys/mman.h>
#include <unistd.h>

#define PATTERN 0xA5

struct bench_stack {
    void (*call)(void *);
    void *argument;
    /* Where the frame is that makes the call; 0 before that. */
    _Atomic uintptr_t frame;
    _Atomic int is_over;
    pthread_t thread;
    /* The guard page and the stack after it. */
    unsigned char *area;
    size_t page, size;
};

static void *start(void *argument) {
    struct bench_stack *stack = argument;
    stack->frame = (uintptr_t)__builtin_frame_address(0);
    stack->call(stack->argument);
    stack->is_over = 1;
    return NULL;
}

static int start_thread(struct bench_stack *stack) {
    pthread_attr_t attributes;
    return mprotect(stack->area, stack->page, PROT_NONE) != 0 || pthread_attr_init(&attributes) != 0 ||
           pthread_attr_setstack(&attributes, stack->area + stack->page, stack->size) != 0 ||
           pthread_create(&stack->thread, &attributes, start, stack) != 0;
}

static void give_back(struct bench_stack *stack) {
    munmap(stack->area, stack->page + stack->size);
    free(stack);
}

/* Starts call(argument) in a thread whose stack has `size` bytes in all; NULL if there is no such thread. */
struct bench_stack *bench_stack_start(size_t size, void (*call)(void *), void *argument) {
    struct bench_stack *stack = calloc(1, sizeof *stack);
    if (stack == NULL) return NULL;
    stack->call = call;
    stack->argument = argument;
    stack->page = (size_t)sysconf(_SC_PAGESIZE);
    stack->size = size;
    stack->area = mmap(NULL, stack->page + size, PROT_READ | PROT_WRITE, MAP_PRIVATE | MAP_ANONYMOUS, -1, 0);
    if (stack->area == MAP_FAILED) {
        free(stack);
        return NULL;
    }
    memset(stack->area + stack->page, PATTERN, size);
    if (start_thread(stack)) {
        give_back(stack);
        return NULL;
    }
    return stack;
}

/* Whether the call is over; how many bytes were used so far below the frame that makes the call, and how many of the thread's stack
 * in all. The bytes are read while the thread may write them: what is seen of its last moment may be either. */
int bench_stack_used(const struct bench_stack *stack, size_t *below_caller, size_t *in_all) {
    int is_over = stack->is_over;
    const volatile unsigned char *lowest = stack->area + stack->page;
    uintptr_t frame = stack->frame;
    size_t deepest = 0;
    while (deepest < stack->size && lowest[deepest] == PATTERN) deepest += 1;
    *in_all = stack->size - deepest;
    *below_caller = frame > (uintptr_t)(lowest + deepest) ? frame - (uintptr_t)(lowest + deepest) : 0;
    return is_over;
}

/* Waits for the end of the call; 0 if it came. What was used is asked for before the stack is given back. */
int bench_stack_end(struct bench_stack *stack, size_t *below_caller, size_t *in_all) {
    if (pthread_join(stack->thread, NULL) != 0) return 1;
    bench_stack_used(stack, below_caller, in_all);
    give_back(stack);
    return 0;
}
