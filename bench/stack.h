// How much stack a function uses.
#ifndef STACK_H
#define STACK_H

#include <stddef.h>

// The bytes from the function's entry down to the lowest one that it writes, beyond those of an empty function. The
// program ends with status 1 and a message where that is more than the stack that is kept for it.
size_t stack_of(void (*function)(void));

#endif
