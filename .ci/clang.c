// Stands for clang in the kit that .ci/checked makes: it runs CLANG with the same words, but that -O0 becomes LEVEL.
#include <string.h>
#include <unistd.h>

int main(int count, char **words)
{
    for (int at = 1; at < count; at++)
        if (!strcmp(words[at], "-O0"))
            words[at] = LEVEL;
    execv(CLANG, words);
    return 127;
}
