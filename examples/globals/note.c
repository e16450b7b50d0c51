/* Notes values. The variable `last` is another one than that of globals.c. */

unsigned noted;
static int last;

void note(int value)
{
    if (value > last) {
        last = value;
    }
    noted++;
}
