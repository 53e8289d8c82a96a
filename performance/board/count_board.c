/* count.c on a board: its two words come from the emulator, and after it the ticks that it took are printed. */
#define main count_main
#include "../count.c"
#undef main

#include "semihosting.h"
#include "timer.h"

enum { ROOM = 128, WORDS = 3 };

/* The program's name and the two words after it, with 0 between. Answers how many words there are. */
static int words_of(char *line, char **words)
{
    int count = 0;

    for (char *word = strtok(line, " "); word != NULL && count < WORDS; word = strtok(NULL, " "))
        words[count++] = word;
    return count;
}

int main(void)
{
    static char line[ROOM];
    char *words[WORDS] = {NULL, NULL, NULL};
    const uintptr_t asked[] = {(uintptr_t)line, sizeof line};

    semihosting(SEMIHOSTING_GET_COMMAND_LINE, asked);
    int count = words_of(line, words);
    timer_start();
    int status = count_main(count, words);
    printf("%lu\n", (unsigned long)timer_ticks());
    return status;
}
