// Linked to a program by ./ghost and .ci/checked: as it begins, it copies its file and the words that it was started with into the
// folder KEPT. So a program that is built for one run alone can be run again. If there is no such folder, nothing is copied.
#include <fcntl.h>
#include <inttypes.h>
#include <stdint.h>
#include <stdio.h>
#include <unistd.h>

// Copies a file. Ends the program if that fails, so that nothing is taken for a copy that is none.
static void keep(const char *from, const char *to)
{
    char part[1 << 16];
    ssize_t length = 0;
    int in = open(from, O_RDONLY), out = open(to, O_WRONLY | O_CREAT | O_EXCL, 0700);
    if (in < 0 || out < 0)
        _exit(126);
    while ((length = read(in, part, sizeof part)) > 0)
        if (write(out, part, (size_t)length) != length)
            _exit(126);
    if (length < 0 || close(in) || close(out))
        _exit(126);
}

// The program's file is the one in which this function stands, however it was started. A copy of it keeps nothing.
__attribute__((constructor)) static void begin(void)
{
    if (access(KEPT, F_OK) || !access(KEPT "/words", F_OK))
        return;
    FILE *maps = fopen("/proc/self/maps", "r");
    char line[8192], file[4096];
    while (maps && fgets(line, sizeof line, maps)) {
        uintptr_t low, high, here = (uintptr_t)begin;
        const char *form = "%" SCNxPTR "-%" SCNxPTR " %*s %*s %*s %*s %4095[^\n]";
        if (sscanf(line, form, &low, &high, file) == 3 && low <= here && here < high) {
            keep(file, KEPT "/program");
            keep("/proc/self/cmdline", KEPT "/words");
        }
    }
    if (maps)
        fclose(maps);
}
