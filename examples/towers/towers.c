/* The towers of Hanoi: counts the moves of `disks` disks, by recursion, and exits with the count. */

static int disks = 4;
static int moves;

static void move(int from, int to)
{
    (void)from;
    (void)to;
    moves = moves + 1;
}

static void solve(int height, int from, int to, int spare)
{
    if (height == 0) {
        return;
    }
    solve(height - 1, from, spare, to);
    move(from, to);
    solve(height - 1, spare, to, from);
}

static void leave(int status)
{
    register int a7 __asm__("a7") = 93;
    register int a0 __asm__("a0") = status;
    __asm__ volatile("ecall" : : "r"(a0), "r"(a7));
    for (;;) {
    }
}

void _start(void)
{
    solve(disks, 1, 3, 2);
    leave(moves);
}
