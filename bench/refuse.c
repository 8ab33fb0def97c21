/* Loaded before the C library (LD_PRELOAD): refuses each allocation of one run of a program in turn. At each call of malloc,
   realloc, calloc, aligned_alloc and posix_memalign the process forks; the child goes on with that call refused and every
   later one met, and the parent, which waits for it, goes on with the call met. So each allocation is refused in a process
   of its own that was the same run up to there, and the whole takes the time of one run and of the ends of the others.

   Of each child a line goes to the file REFUSE_TO: the number of the call, the child's status (256 and more: a signal), how
   many bytes the run had written to standard output before, how many the child wrote behind, whether these are the text of
   the file REFUSE_TEXT (same, other or none), and whether the file REFUSE_OUT was put (put or kept); it is taken away then.

   build: gcc -O2 -shared -fPIC -o refuse.so refuse.c */
#include <errno.h>
#include <fcntl.h>
#include <stdio.h>
#include <stdlib.h>
#include <string.h>
#include <sys/syscall.h>
#include <sys/wait.h>
#include <unistd.h>

void *__libc_malloc(size_t), *__libc_realloc(void *, size_t), *__libc_calloc(size_t, size_t), *__libc_memalign(size_t, size_t);

static int to = -1, text = -1;
static const char *out;
static long calls, written;

__attribute__((constructor)) static void begin(void) {
    const char *name = getenv("REFUSE_TO"), *wanted = getenv("REFUSE_TEXT");
    out = getenv("REFUSE_OUT");
    if (wanted) text = open(wanted, O_RDONLY | O_CLOEXEC);
    if (name) to = open(name, O_WRONLY | O_CREAT | O_TRUNC | O_APPEND | O_CLOEXEC, 0666);
}

ssize_t write(int fd, const void *bytes, size_t count) {
    ssize_t wrote = syscall(SYS_write, fd, bytes, count);
    if (fd == 1 && wrote > 0) written += wrote;
    return wrote;
}

/* Reads what the child writes, and compares it with the text. */
static long told(int from, int *same) {
    static char here[4096], there[4096];
    long length = 0;
    ssize_t got;
    *same = 1;
    while ((got = read(from, here, sizeof here)) > 0) {
        if (pread(text, there, got, length) != got || memcmp(here, there, got)) *same = 0;
        length += got;
    }
    if (pread(text, there, 1, length) > 0) *same = 0;
    return length;
}

/* Where the open files stand: a child shares the places of its parent, and reads on from them. */
enum { FILES = 64 };
static off_t places[FILES];

static void note_places(void) {
    for (int fd = 3; fd < FILES; fd++) places[fd] = lseek(fd, 0, SEEK_CUR);
}

static void take_places_back(void) {
    for (int fd = 3; fd < FILES; fd++)
        if (places[fd] >= 0) lseek(fd, places[fd], SEEK_SET);
}

/* Whether this process is the child for which the call is refused. */
static int is_refused(void) {
    int ends[2], status, same;
    if (to < 0) return 0;
    calls++;
    if (pipe(ends)) _exit(99);
    note_places();
    pid_t child = fork();
    if (child < 0) _exit(99);
    if (child == 0) {
        close(to);
        to = -1;
        dup2(ends[1], 1);
        close(ends[0]);
        close(ends[1]);
        return 1;
    }
    close(ends[1]);
    long length = told(ends[0], &same);
    close(ends[0]);
    waitpid(child, &status, 0);
    take_places_back();
    char line[128];
    int is_put = out && access(out, F_OK) == 0;
    if (is_put) unlink(out);
    int size = snprintf(line, sizeof line, "%ld %d %ld %ld %s %s\n", calls, WIFEXITED(status) ? WEXITSTATUS(status) : 256 + WTERMSIG(status),
        written, length, length == 0 ? "none" : same ? "same" : "other", is_put ? "put" : "kept");
    if (syscall(SYS_write, to, line, size) != size) _exit(99);
    return 0;
}

static void *no_memory(void) {
    errno = ENOMEM;
    return NULL;
}

void *malloc(size_t n) { return is_refused() ? no_memory() : __libc_malloc(n); }
void *realloc(void *p, size_t n) { return is_refused() ? no_memory() : __libc_realloc(p, n); }
void *calloc(size_t n, size_t m) { return is_refused() ? no_memory() : __libc_calloc(n, m); }
void *aligned_alloc(size_t a, size_t n) { return is_refused() ? no_memory() : __libc_memalign(a, n); }
int posix_memalign(void **p, size_t a, size_t n) {
    if (is_refused()) return ENOMEM;
    *p = __libc_memalign(a, n);
    return *p ? 0 : ENOMEM;
}
