/* Feeds changed logs and changed sources to the built program, and looks at how it ends.

       cc -O2 -o mutants bench/mutants.c && ./mutants PROGRAM COUNT [SEED]

   Half of the runs are `check` of a changed log: where the functions differ, or the log is that of other
   functions, none may end with EQUIVALENT. The other half are `check`, `prove` and `refute` of a changed source
   with a small effort. Each run has to end by itself with a status from 0 to 8, and with something on standard
   error exactly where the status isn't 0. The last line says how many ended with each status; what ends otherwise is kept in the folder that is printed. */
#define _GNU_SOURCE
#include <fcntl.h>
#include <spawn.h>
#include <stdint.h>
#include <stdio.h>
#include <stdlib.h>
#include <string.h>
#include <sys/stat.h>
#include <sys/wait.h>
#include <unistd.h>

enum { ROOM = 1 << 16, KINDS = 6, STATUSES = 9 };

struct pair {
    const char *source, *first, *second;
    int differ; /* whether no log may be accepted */
    char log[ROOM];
    size_t size;
};

static struct pair pairs[] = {
    {"int a(int x){return (x+1)*(x+1);} int b(int x){return x*x+2*x+1;}\n", "a", "b", 0, "", 0},
    {"int a(int x){return 0*(1/x);} int b(int x){return 1/x-1/x;}\n", "a", "b", 0, "", 0},
    {"int up(int n){int s=0;int i=1;while(i<=n){s=s+i;i++;}return s;}\n"
     "int rec(int n){if(n<=0)return 0;return n+rec(n-1);}\n", "up", "rec", 0, "", 0},
    {"int up(int n){int s=0;int i=0;while(i<=n){s=s+i;i++;}return s;}\n"
     "int rec(int n){if(n<=0)return 0;return n+rec(n-2);}\n", "up", "rec", 1, "", 0},
    {"int a(int x){return (x+1)*(x+1);} int b(int x){return x*x+2*x+2;}\n", "a", "b", 1, "", 0},
};
enum { PAIRS = sizeof pairs / sizeof *pairs };

/* whose log is given where the functions differ */
static const int lender[PAIRS] = {0, 1, 2, 2, 0};

static const char *const scraps[] = {
    "0", "1", "-1", "4294967295", "4294967296", "-9223372036854775808", "170141183460469231731687303715884105727",
    " ", "  ", "\n", "\r", "s0", "s1", "v0", "1*v0", "*", "+", "-", "(", ")", ",", ";", "[", "]", "ge:", "eq:", "ne:",
    "sum", "cut", "split", "differ", "solve", "div", "use", "absurd", "cover", "simplify", "hyp", "expand", "equal",
    "generalise", "postulate", "decompose", "results", "eqdelete", "ranks", "rank", "pair", "EQUIVALENT", "ctrl-log",
    "ret(0)", "fail(1)", "keep", "drop", "l", "r", "mod(1*v0,2)", "div(1*v0,2)", "int", "while", "for", "return",
    "break", "continue", "do", "else", "if", "{", "}", "++", "--", "/", "%", "&&", "||", "?", ":", "x", "void", "=",
    "==", "!=", "<", "/*", "//", "#", "\\", "'", "\"", "012", "\t", "\200", "",
};

static uint64_t seed;

static uint64_t next(void)
{
    seed ^= seed << 13;
    seed ^= seed >> 7;
    seed ^= seed << 17;
    return seed;
}

static size_t below(size_t n) { return n == 0 ? 0 : (size_t)(next() % n); }

/* puts `with` in place of `count` bytes at `at` */
static size_t replaced(char *text, size_t size, size_t at, size_t count, const char *with, size_t length)
{
    if (at + count > size) count = size - at;
    if (size - count + length >= ROOM) return size;
    memmove(text + at + length, text + at + count, size - at - count);
    memcpy(text + at, with, length);
    return size - count + length;
}

/* the beginning of the line or word in which the place is, and its length */
static size_t part_at(const char *text, size_t size, size_t at, int word, size_t *length)
{
    size_t begin = at, end = at;
    while (begin > 0 && text[begin - 1] != '\n' && !(word && text[begin - 1] == ' ')) begin--;
    while (end < size && text[end] != '\n' && !(word && text[end] == ' ')) end++;
    *length = end - begin;
    return begin;
}

static size_t mutate(char *text, size_t size)
{
    static char copy[ROOM];
    size_t at = below(size), length, from;
    const char *scrap = scraps[below(sizeof scraps / sizeof *scraps)];
    switch (below(8)) {
    case 0: return size == 0 ? 0 : (text[at] = (char)next(), size);
    case 1: return replaced(text, size, at, 1 + below(3), "", 0);
    case 2: return replaced(text, size, at, 0, scrap, strlen(scrap));
    case 3: from = part_at(text, size, at, 1, &length); return replaced(text, size, from, length, scrap, strlen(scrap));
    case 4: from = part_at(text, size, at, 0, &length); return replaced(text, size, from, length + 1, "", 0);
    case 5:
        from = part_at(text, size, at, (int)below(2), &length);
        memcpy(copy, text + from, length);
        copy[length] = '\n';
        from = part_at(text, size, below(size), 0, &at);
        return replaced(text, size, from, 0, copy, length + 1);
    case 6:
        from = part_at(text, size, at, 1, &length);
        memcpy(copy, text + from, length);
        from = part_at(text, size, below(size), 1, &at);
        return replaced(text, size, from, at, copy, length);
    default: return at;
    }
}

static void put(const char *path, const char *text, size_t size)
{
    int file = open(path, O_WRONLY | O_CREAT | O_TRUNC, 0600);
    if (file < 0 || write(file, text, size) != (ssize_t)size) exit(1);
    close(file);
}

extern char **environ;

static int run(char *const words[], const char *out, const char *err)
{
    posix_spawn_file_actions_t files;
    pid_t child;
    int status;
    posix_spawn_file_actions_init(&files);
    posix_spawn_file_actions_addopen(&files, 1, out, O_WRONLY | O_CREAT | O_TRUNC, 0600);
    posix_spawn_file_actions_addopen(&files, 2, err, O_WRONLY | O_CREAT | O_TRUNC, 0600);
    if (posix_spawn(&child, words[0], &files, NULL, words, environ) != 0) exit(1);
    posix_spawn_file_actions_destroy(&files);
    waitpid(child, &status, 0);
    return status;
}

int main(int count, char **words)
{
    char room[] = "/dev/shm/mutants-XXXXXX", text[ROOM];
    long runs, wrong = 0, ended[STATUSES] = {0};
    if (count < 3 || (words[1] = realpath(words[1], NULL)) == NULL) return 1;
    if (mkdtemp(room) == NULL || chdir(room) != 0) return 1;
    runs = atol(words[2]);
    seed = count > 3 ? strtoull(words[3], NULL, 10) * 2654435761u + 1 : 88172645463325252u;
    for (int i = 0; i < PAIRS; i++) {
        struct pair *own = &pairs[lender[i]];
        char *call[] = {words[1], "prove", "a.c", (char *)own->first, (char *)own->second, NULL};
        put("a.c", own->source, strlen(own->source));
        if (run(call, "log", "err") != 0) return 1;
        int file = open("log", O_RDONLY);
        pairs[i].size = (size_t)read(file, pairs[i].log, ROOM);
        close(file);
    }
    for (long i = 0; i < runs; i++) {
        struct pair *p = &pairs[below(PAIRS)];
        size_t kind = below(KINDS), size;
        char *check[] = {words[1], "check", "a.c", (char *)p->first, (char *)p->second, "log", NULL};
        char *prove[] = {words[1], "prove", "a.c", (char *)p->first, (char *)p->second, "--depth", "1", NULL};
        char *refute[] = {words[1], "refute", "a.c", (char *)p->first, (char *)p->second, "--box", "1", NULL};
        char **call = kind == 4 ? prove : kind == 5 ? refute : check;
        int log = kind < 3, status;
        struct stat err;
        size = log ? p->size : strlen(p->source);
        memcpy(text, log ? p->log : p->source, size);
        for (size_t changes = 1 + below(3); changes > 0; changes--) size = mutate(text, size);
        put("a.c", log ? p->source : text, log ? strlen(p->source) : size);
        put("log", log ? text : p->log, log ? size : p->size);
        status = run(call, "out", "err");
        int well = WIFEXITED(status) && WEXITSTATUS(status) < STATUSES && stat("err", &err) == 0
            && (err.st_size == 0) == (WEXITSTATUS(status) == 0) && !(log && p->differ && WEXITSTATUS(status) == 0);
        if (WIFEXITED(status) && WEXITSTATUS(status) < STATUSES) ended[WEXITSTATUS(status)]++;
        if (!well) {
            char name[32];
            wrong++;
            snprintf(name, sizeof name, "wrong-%ld", i);
            put(name, text, size);
            printf("%s/%s: %s, %s, wait status %d\n", room, name, call[1], log ? "changed log" : "changed source", status);
            fflush(stdout);
        }
    }
    printf("%ld runs, %ld wrong; by status:", runs, wrong);
    for (int i = 0; i < STATUSES; i++) printf(" %d: %ld", i, ended[i]);
    printf("\n");
    return wrong != 0;
}
