/* A Cortex-M starts by a table at address 0: the stack, and the first instruction. */
extern void _start(void);
extern char __stack[];

__attribute__((section(".vectors"), used)) static void (*const vectors[2])(void) = {(void (*)(void))__stack, _start};

int unused(void)
{
    return 1;
}

int main(void)
{
    for (;;) {
    }
}
