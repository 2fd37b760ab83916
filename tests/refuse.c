/*
 * Functions in the place of the C library's, by which a program is refused an allocation: see refuse.sh, and refuse.py, which sets the
 * variables that are read here.
 *
 * REFUSED is a number: the call of this number is refused, and the file MARK goes.
 *
 * Or COPIED is `FIRST STEP LAST SAID HEARD`, for a program that has one thread; WITHOUT_THREADS lets it make no other. Where the call of
 * number FIRST comes, and each STEPth behind it up to LAST, a copy of the program is made, to which that call is refused, and which
 * goes on from there in the folder ../copy with its own files `text`, the output, and `log`, that begin as they stand. Once the copy
 * has ended, the number and its status are written to the descriptor SAID, and the program itself goes on as soon as it reads a byte
 * from the descriptor HEARD.
 */
#include <errno.h>
#include <fcntl.h>
#include <pthread.h>
#include <stdio.h>
#include <stdlib.h>
#include <sys/sendfile.h>
#include <sys/stat.h>
#include <sys/wait.h>
#include <unistd.h>

void *__libc_malloc(size_t size);
void *__libc_realloc(void *old, size_t size);

static unsigned long calls, refused, first, step, last;
static int said, heard, is_copied;

__attribute__((constructor)) static void begin(void) {
    const char *number = getenv("REFUSED"), *copied = getenv("COPIED");
    refused = number ? strtoul(number, NULL, 10) : 0;
    is_copied = copied && sscanf(copied, "%lu %lu %lu %d %d", &first, &step, &last, &said, &heard) == 5;
}

/* The place in a file belongs to all who hold it, so the copy opens its files anew. Ends the copy where that fails. */
static void moves(int descriptor, int to, off_t at) {
    if (to < 0 || lseek(to, at, SEEK_SET) != at || dup2(to, descriptor) < 0) _exit(125);
    close(to);
}

/* Has the descriptor go on with another file, which begins as the one that it stands for. */
static void moves_written(int descriptor, const char *link, const char *other) {
    off_t at = 0, size = lseek(descriptor, 0, SEEK_CUR);
    int from = open(link, O_RDONLY), to = open(other, O_WRONLY | O_CREAT | O_TRUNC, 0644);
    while (at < size && sendfile(to, from, &at, size - at) > 0) continue;
    moves(descriptor, to, size);
    close(from);
}

/* Has the copy stand apart: what is read is read on from the same place, and the output and the log have files of their own. */
static void stands_apart(void) {
    for (int descriptor = 1; descriptor < 64; descriptor++) {
        char link[32];
        struct stat what;
        snprintf(link, sizeof link, "/proc/self/fd/%d", descriptor);
        if (fstat(descriptor, &what) || !S_ISREG(what.st_mode)) continue;
        if ((fcntl(descriptor, F_GETFL) & O_ACCMODE) == O_RDONLY)
            moves(descriptor, open(link, O_RDONLY), lseek(descriptor, 0, SEEK_CUR));
        else
            moves_written(descriptor, link, descriptor == 1 ? "../copy/text" : "../copy/log");
    }
    if (chdir("../copy")) _exit(125);
}

/* Whether this is the copy; the program itself waits for it. */
static int is_copy(void) {
    pid_t copy = fork();
    if (copy == 0) {
        is_copied = 0;
        stands_apart();
        alarm(60);
        return 1;
    }
    int status;
    char line[64], byte;
    if (copy < 0 || waitpid(copy, &status, 0) < 0) _exit(125);
    int size = snprintf(line, sizeof line, "%lu %d\n", calls, WIFEXITED(status) ? WEXITSTATUS(status) : 128 + WTERMSIG(status));
    if (write(said, line, size) != size || read(heard, &byte, 1) != 1) _exit(125);
    return 0;
}

static int is_refused(void) {
    unsigned long number = __atomic_add_fetch(&calls, 1, __ATOMIC_SEQ_CST);
    if (is_copied) return number >= first && number <= last && (number - first) % step == 0 && is_copy();
    if (number != refused) return 0;
    unlink(getenv("MARK"));
    return 1;
}

void *malloc(size_t size) {
    return is_refused() ? NULL : __libc_malloc(size);
}

void *realloc(void *old, size_t size) {
    return is_refused() ? NULL : __libc_realloc(old, size);
}

#ifdef WITHOUT_THREADS
int pthread_create(pthread_t *thread, const pthread_attr_t *how, void *(*begins)(void *), void *with) {
    return EAGAIN;
}
#endif
