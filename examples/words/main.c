/* Counts the words of the input, and exits with their number: the reading, the counting and the calls of
   the system are in files of their own. */

#include "words.h"

void _start(void)
{
    char text[64];
    int length = read_text(text, sizeof text);
    leave(count_words(text, length));
}
