// How much stack a function uses: it runs on a stack that is filled with one byte before, and the lowest byte that is
// another afterwards is looked for.
#include "stack.h"

#include <stdint.h>
#include <stdio.h>
#include <stdlib.h>
#include <string.h>
#include <ucontext.h>

enum { STACK_SIZE = 8192, FILL = 0xA5, GAP = 512 };

static uint8_t stack[STACK_SIZE] __attribute__((aligned(16)));
static ucontext_t outside, inside;
static void (*measured)(void);

static void nothing(void) {}

// Calls the function below a gap. What the switch back writes stays in the gap.
static void call_below_gap(void) {
    volatile uint8_t gap[GAP];
    gap[0] = 0;
    measured();
    (void)gap[0];
}

// The bytes of the stack from its end down to the lowest one that the function writes, the gap among them.
static size_t bytes_written(void (*function)(void)) {
    measured = function;
    memset(stack, FILL, STACK_SIZE);
    getcontext(&inside);
    inside.uc_stack.ss_sp = stack;
    inside.uc_stack.ss_size = STACK_SIZE;
    inside.uc_link = &outside;
    makecontext(&inside, call_below_gap, 0);
    swapcontext(&outside, &inside);
    size_t unwritten = 0;
    while (unwritten < STACK_SIZE && stack[unwritten] == FILL)
        unwritten++;
    return STACK_SIZE - unwritten;
}

size_t stack_of(void (*function)(void)) {
    size_t written = bytes_written(function);
    if (written == STACK_SIZE) {
        printf("a call wrote to the end of a stack of %d bytes\n", STACK_SIZE);
        exit(1);
    }
    return written - bytes_written(nothing);
}
