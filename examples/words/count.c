/* Words are runs of bytes that are no space. */

#include "words.h"

int is_space(char c)
{
    return c == ' ' || c == '\n' || c == '\t';
}

int count_words(const char *text, int length)
{
    int words = 0;
    int inside = 0;
    for (int i = 0; i < length; i++) {
        if (is_space(text[i])) {
            inside = 0;
        } else if (!inside) {
            inside = 1;
            words++;
        }
    }
    return words;
}
