/* Fills a table with the numbers from `first` on, the last one first, and exits with `limit`, which is 100. */

static unsigned table[4] = {1, 1, 1, 1};
static unsigned limit = 100;

static void fill(unsigned first)
{
    for (int i = 3; i >= -1; i--) {
        table[i] = first + i;
    }
}

static void leave(unsigned status)
{
    register unsigned a7 __asm__("a7") = 93;
    register unsigned a0 __asm__("a0") = status;
    __asm__ volatile("ecall" : : "r"(a0), "r"(a7));
    for (;;) {
    }
}

void _start(void)
{
    fill(21);
    leave(limit);
}
