/* A Cortex-M starts here: the stack and the first instruction are in a table at address 0. */
extern void _start(void);
extern char stack_top[];

void reset(void)
{
#ifdef __ARM_FP
    /* Instructions of the floating-point unit are allowed. */
    *(volatile unsigned *)0xe000ed88 |= 0xf << 20;
    __asm__ volatile("dsb\n\tisb");
#endif
    _start();
}

static void stop(void)
{
    for (;;) {
    }
}

__attribute__((section(".vectors"), used)) static void (*const vectors[16])(void) = {
    (void (*)(void))stack_top, reset, stop, stop, stop, stop, stop, 0, 0, 0, 0, stop, stop, 0, stop, stop,
};
