/* The entry: the stack pointer is set by the image, the RAM is zero. */
#include "common.h"

__attribute__((section(".start"), noreturn)) void start(void)
{
    u32 state[8] = {1, 2, 3, 4, 5, 6, 7, 8};
    for (;;)
        work(state);
}
