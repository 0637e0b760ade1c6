/* A call made again and again with the stack below it filled, each time with another byte: it must take the
 * same number of instructions. */
#ifndef PATHS_H
#define PATHS_H

/* The trap flag, set or cleared, past what a function may keep below its stack. */
#define TRAP(change)                                                                                        \
    __asm__ volatile("lea -128(%%rsp), %%rsp\n\tpushfq\n\t" change "\n\tpopfq\n\tlea 128(%%rsp), %%rsp" \
                     :                                                                                      \
                     :                                                                                      \
                     : "memory", "cc")

/* The call, with each fill of the stack. */
#define SAME(call)                           \
    for (path_begin(#call); path_again();) { \
        path_fill();                         \
        TRAP("orq $0x100, (%%rsp)");         \
        call;                                \
        TRAP("andq $~0x100, (%%rsp)");       \
    }

#define NAME(text) (const uint8_t *)text, sizeof text - 1

/* Begins a call; checks the steps that it took and says whether there is another fill; fills the stack. */
__attribute__((noinline)) void path_begin(const char *call);
__attribute__((noinline)) int path_again(void);
__attribute__((noinline)) void path_fill(void);

/* The root and the calls on a leveller; the calls on recordings. */
void leveller_paths(void);
void wave_paths(void);

#endif
