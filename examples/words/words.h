/* What the files of this program give to each other. */

int is_space(char c);
int count_words(const char *text, int length);
int read_text(char *text, int size);
void leave(int status);
