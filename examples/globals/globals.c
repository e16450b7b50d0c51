/* Keeps a variable of each scalar type outside functions, changes some in three turns, and exits with how
   many turns there were. */

typedef unsigned short port;

enum phase { IDLE, RUNNING, DONE };

extern unsigned noted;
void note(int value);

static int last = -1;
signed char tiny = -128;
unsigned char octet = 255;
short small = -2;
port channel = 65535;
int balance = -1000000;
unsigned turns;
long long far = -5000000000;
unsigned long long wide = 18446744073709551615u;
_Bool ready;
char letter = 'a';
enum phase phase = IDLE;
const volatile int fixed = 42;
int *where = &balance;
int pair[2] = {1, 2};
struct { int low, high; } range = {3, 4};

static void turn(void)
{
    turns++;
    tiny++;
    balance += 300000;
    far *= 2;
    letter++;
    last = balance;
    note(last);
}

void _start(void)
{
    phase = RUNNING;
    while (turns < 3) {
        turn();
    }
    ready = 1;
    phase = DONE;
    pair[0] = range.low + fixed + (int)noted;
    register unsigned exit_with __asm__("a0") = turns;
    register long exit_call __asm__("a7") = 93;
    __asm__ volatile("ecall" : : "r"(exit_with), "r"(exit_call));
    for (;;) {
    }
}
