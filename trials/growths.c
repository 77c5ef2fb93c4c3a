// Wraps the allocator of a program of tests. If REFUSED names a file, growths are refused, each to a copy of the process, which goes on from there, and whose output is written to that file, the first 64 KiB of it, and after it the copy's status. Then the process itself grows, and goes on. The first thousand growths are refused, then each tenth, from ten thousand on each hundredth, and so on.
#include <fcntl.h>
#include <stdio.h>
#include <stdlib.h>
#include <sys/resource.h>
#include <sys/wait.h>
#include <unistd.h>

void *__real_malloc(size_t size);
void *__real_realloc(void *from, size_t size);

// The file, none in a copy, and the number of growths so far.
static int said = -2;
static unsigned long number = 0;

static int refuses(void) {
    if (said == -2) said = getenv("REFUSED") ? open(getenv("REFUSED"), O_WRONLY | O_CREAT | O_APPEND, 0600) : -1;
    if (said < 0) return 0;
    unsigned long step = 1;
    for (number++; number / step >= 1000; step *= 10)
        ;
    if (number % step) return 0;
    int status = -1;
    pid_t copy = fork();
    if (copy == 0) {
        setrlimit(RLIMIT_CPU, &(struct rlimit){60, 60});
        rlim_t most = lseek(said, 0, SEEK_END) + 65536;
        setrlimit(RLIMIT_FSIZE, &(struct rlimit){most, most});
        dup2(said, 1);
        dup2(said, 2);
        said = -1;
        return 1;
    }
    if (copy > 0) waitpid(copy, &status, 0);
    dprintf(said, "\n== %d\n", status);
    return 0;
}

void *__wrap_malloc(size_t size) { return refuses() ? 0 : __real_malloc(size); }

void *__wrap_realloc(void *from, size_t size) { return refuses() ? 0 : __real_realloc(from, size); }
