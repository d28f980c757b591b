/* The vectors of a Cortex-M for qemu's board mps2-an386; the C library's start sets the rest up and prints by semihosting. */
extern void _start(void);
extern char stack_top[];

static void hang(void)
{
    for (;;) {
    }
}

struct vectors {
    char *stack;
    void (*handlers[15])(void);
};

__attribute__((section(".vectors"), used)) static const struct vectors vectors = {stack_top, {_start, hang, hang, hang, hang, hang}};
