/* Stands in the place of a proved program, and does what none of them does: takes a command, answers it, and at the
 * next one opens a file, or with ASKS_MEMORY asks for memory whose bytes can be run. Where it isn't ended by that, it
 * says so. */
#define _GNU_SOURCE
#include <fcntl.h>
#include <stdint.h>
#include <string.h>
#include <sys/mman.h>
#include <unistd.h>

static int does_it(void)
{
#ifdef ASKS_MEMORY
    return mmap(NULL, 4096, PROT_READ | PROT_EXEC, MAP_PRIVATE | MAP_ANONYMOUS, -1, 0) != MAP_FAILED;
#else
    return open("/etc/hostname", O_RDONLY) >= 0;
#endif
}

int main(void)
{
    static const char line[] = "it was let do it\n";
    static const uint8_t answer[5] = {'A'};
    uint8_t command[65536];
    if (read(0, command, sizeof command) <= 0)
        return 1;
    if (does_it() && write(2, line, strlen(line)) < 0)
        return 2;
    return write(1, answer, sizeof answer) < 0 ? 2 : 3;
}
