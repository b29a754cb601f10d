/* The start of a program on a Cortex-M: the vectors, the memory that it begins with, and output to the machine that emulates it (by
   semihosting, newlib's rdimon). A card has its own. */
#include <stdint.h>
#include <stdio.h>
#include <stdlib.h>
#include <string.h>

extern uint32_t stack_top, data_start, data_end, data_load, bss_start, bss_end;
extern void initialise_monitor_handles(void);
extern int main(void);

void reset(void);
void _init(void);
void _fini(void);

static void fault(void) {
    static const char text[] = "a fault of the processor\n";
    fwrite(text, 1, sizeof text - 1, stdout);
    fflush(stdout);
    _Exit(9);
}

__attribute__((section(".vectors"), used)) static const void *const vectors[16] = {
    &stack_top, (void *)reset, (void *)fault, (void *)fault, (void *)fault, (void *)fault, (void *)fault,
};

void reset(void) {
    memcpy(&data_start, &data_load, (size_t)((char *)&data_end - (char *)&data_start));
    memset(&bss_start, 0, (size_t)((char *)&bss_end - (char *)&bss_start));
    initialise_monitor_handles();
    exit(main());
}

void _init(void) {}
void _fini(void) {}
