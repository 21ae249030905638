/* Preloaded under a program, this refuses each of its allocations in turn. At each call that allocates, the
   process is doubled: in the copy the call fails, and the copy runs to its end alone, its output kept apart; the
   program itself goes on with the memory that it asked for. `refused-memory` builds and uses it.

   REFUSE_TOLD names a file of five numbers of 64 bits that it counts up: calls, copies that ended for want of
   memory with nothing put, copies that gave the full answer all the same, others, and the number of the first of
   these. REFUSE_ANSWER names a file that holds the full answer, REFUSE_STATUS is its status. From call
   REFUSE_FROM on each REFUSE_STEP-th call is refused. */
#define _GNU_SOURCE
#include <dlfcn.h>
#include <errno.h>
#include <fcntl.h>
#include <stdint.h>
#include <stdlib.h>
#include <string.h>
#include <sys/mman.h>
#include <sys/stat.h>
#include <sys/wait.h>
#include <unistd.h>

enum { WANT_OF_MEMORY = 6 };

static volatile int64_t *told;
static char *answer;
static size_t answer_size;
static int answer_status, ready, quiet;
static long from, step;

static void *mapped(const char *path, size_t *size, int shared)
{
    struct stat about;
    int file = open(path, shared ? O_RDWR : O_RDONLY);
    if (file < 0 || fstat(file, &about) != 0) _exit(99);
    *size = (size_t)about.st_size;
    void *at = *size == 0 ? "" : mmap(NULL, *size, shared ? PROT_READ | PROT_WRITE : PROT_READ,
                                      shared ? MAP_SHARED : MAP_PRIVATE, file, 0);
    close(file);
    return at;
}

static void start(void)
{
    size_t size;
    ready = 1;
    if (getenv("REFUSE_TOLD") == NULL) {
        quiet = 1;
        return;
    }
    told = mapped(getenv("REFUSE_TOLD"), &size, 1);
    answer = mapped(getenv("REFUSE_ANSWER"), &answer_size, 0);
    answer_status = atoi(getenv("REFUSE_STATUS"));
    from = atol(getenv("REFUSE_FROM"));
    step = atol(getenv("REFUSE_STEP"));
}

/* whether this call is to fail: so it is in the copy alone */
static int fails(void)
{
    if (!ready) start();
    if (quiet) return 0;
    int64_t call = ++told[0];
    if (call < from || (call - from) % step != 0) return 0;
    int output = memfd_create("output", 0);
    pid_t copy = fork();
    if (copy < 0) _exit(98);
    if (copy == 0) {
        quiet = 1;
        dup2(output, 1);
        return 1;
    }
    int status;
    struct stat about;
    waitpid(copy, &status, 0);
    fstat(output, &about);
    size_t size = (size_t)about.st_size;
    if (WIFEXITED(status) && WEXITSTATUS(status) == WANT_OF_MEMORY && size == 0) {
        told[1]++;
    } else {
        char *put = size == 0 ? "" : mmap(NULL, size, PROT_READ, MAP_PRIVATE, output, 0);
        if (WIFEXITED(status) && WEXITSTATUS(status) == answer_status && size == answer_size
            && memcmp(put, answer, size) == 0) {
            told[2]++;
        } else if (++told[3] == 1) {
            told[4] = call;
        }
        if (size != 0) munmap(put, size);
    }
    close(output);
    return 0;
}

void *malloc(size_t size)
{
    static void *(*real)(size_t);
    if (!real) real = (void *(*)(size_t))dlsym(RTLD_NEXT, "malloc");
    return fails() ? NULL : real(size);
}

void *realloc(void *old, size_t size)
{
    static void *(*real)(void *, size_t);
    if (!real) real = (void *(*)(void *, size_t))dlsym(RTLD_NEXT, "realloc");
    return fails() ? NULL : real(old, size);
}

void *aligned_alloc(size_t alignment, size_t size)
{
    static void *(*real)(size_t, size_t);
    if (!real) real = (void *(*)(size_t, size_t))dlsym(RTLD_NEXT, "aligned_alloc");
    return fails() ? NULL : real(alignment, size);
}

int posix_memalign(void **at, size_t alignment, size_t size)
{
    static int (*real)(void **, size_t, size_t);
    if (!real) real = (int (*)(void **, size_t, size_t))dlsym(RTLD_NEXT, "posix_memalign");
    return fails() ? ENOMEM : real(at, alignment, size);
}
