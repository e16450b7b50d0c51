/* Reads up to 64 bytes, writes them back, and exits with how many there were. */

static char buffer[64];
static long length;

/* A call of the system: the number in a7, the arguments in a0 to a2, the result in a0. */
static long call(long number, long first, long second, long third)
{
    register long a7 __asm__("a7") = number;
    register long a0 __asm__("a0") = first;
    register long a1 __asm__("a1") = second;
    register long a2 __asm__("a2") = third;
    __asm__ volatile("ecall" : "+r"(a0) : "r"(a7), "r"(a1), "r"(a2) : "memory");
    return a0;
}

void _start(void)
{
    length = call(63, 0, (long)buffer, sizeof buffer);
    call(64, 1, (long)buffer, length);
    call(93, length, 0, 0);
}
