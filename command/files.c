#include "files.h"

#include <errno.h>
#include <fcntl.h>
#include <limits.h>
#include <poll.h>
#include <signal.h>
#include <stdio.h>
#include <stdlib.h>
#include <string.h>
#include <sys/stat.h>
#include <unistd.h>

/* More than any run that is listed or made; without a bound an input without an end would take all memory. */
#define INPUT_MOST ((size_t)1 << 30)

enum { CHUNK = 65536 };

void guard_streams(void)
{
    for (int stream = STDIN_FILENO; stream <= STDERR_FILENO; stream++)
        if (fcntl(stream, F_GETFD) == -1 && errno == EBADF)
            (void)!open("/dev/null", stream == STDIN_FILENO ? O_WRONLY : O_RDONLY);
    signal(SIGPIPE, SIG_IGN);
    signal(SIGXFSZ, SIG_IGN);
}

/* ---- In ---- */

/* Waits until a descriptor that does not block can go on. */
static int await(int descriptor, short events)
{
    struct pollfd waiting = { .fd = descriptor, .events = events };
    return poll(&waiting, 1, -1) < 0 && errno != EINTR ? errno : 0;
}

/* Whether a call that failed may be made again, waiting first where it has to. If not, *error says why it failed. */
static bool may_retry(int descriptor, short events, int *error)
{
    *error = errno;
    if (*error == EINTR)
        return true;
    if (*error != EAGAIN && *error != EWOULDBLOCK)
        return false;
    *error = await(descriptor, events);
    return *error == 0;
}

static int read_all(int descriptor, bytes *to)
{
    for (;;) {
        if (!reserve(to, CHUNK))
            return ENOMEM;
        ssize_t got = read(descriptor, to->at + to->len, CHUNK);
        int error;
        if (got == 0)
            return 0;
        if (got < 0 && !may_retry(descriptor, POLLIN, &error))
            return error;
        if (got > 0)
            to->len += (size_t)got;
        if (to->len > INPUT_MOST)
            return EFBIG;
    }
}

int read_file(const char *name, bytes *to)
{
    if (name == NULL || strcmp(name, "-") == 0)
        return read_all(STDIN_FILENO, to);
    int descriptor = open(name, O_RDONLY | O_CLOEXEC);
    if (descriptor < 0)
        return errno;
    int error = read_all(descriptor, to);
    close(descriptor);
    return error;
}

/* ---- Out ---- */

int write_all(int descriptor, const uint8_t *from, size_t len)
{
    size_t done = 0;
    while (done < len) {
        ssize_t got = write(descriptor, from + done, len - done);
        int error;
        if (got < 0 && !may_retry(descriptor, POLLOUT, &error))
            return error;
        if (got > 0)
            done += (size_t)got;
    }
    return 0;
}

int write_output(const bytes *from)
{
    int error = write_all(STDOUT_FILENO, from->at, from->len);
    if (error != 0)
        return error;
    return close(STDOUT_FILENO) == 0 ? 0 : errno;
}

/* The file beside, for as long as there is one: a signal that ends the process removes it first. */
static char *volatile beside;

static const int ending_signals[] = { SIGHUP, SIGINT, SIGTERM };
enum { ENDING_SIGNALS = sizeof ending_signals / sizeof *ending_signals };

static void on_signal(int number)
{
    if (beside != NULL)
        unlink(beside);
    signal(number, SIG_DFL);
    raise(number);
}

/* A signal that was ignored when the process began stays ignored. */
static void watch_signals(void)
{
    for (int i = 0; i < ENDING_SIGNALS; i++)
        if (signal(ending_signals[i], on_signal) == SIG_IGN)
            signal(ending_signals[i], SIG_IGN);
}

/* Makes the file beside. No signal comes between the file and its name in `beside`. */
static int make_beside(char *name)
{
    sigset_t ending;
    sigset_t before;
    sigemptyset(&ending);
    for (int i = 0; i < ENDING_SIGNALS; i++)
        sigaddset(&ending, ending_signals[i]);
    sigprocmask(SIG_BLOCK, &ending, &before);
    int descriptor = mkstemp(name);
    int error = errno;
    if (descriptor >= 0)
        beside = name;
    sigprocmask(SIG_SETMASK, &before, NULL);
    errno = error;
    return descriptor;
}

/* Writes to an open file and closes it. */
static int fill(int descriptor, const bytes *from)
{
    int error = write_all(descriptor, from->at, from->len);
    if (close(descriptor) != 0 && error == 0)
        error = errno;
    return error;
}

/* As for a file that a program makes. umask can be asked only by setting it. */
static mode_t usual_mode(void)
{
    mode_t mask = umask(0);
    umask(mask);
    return 0666 & ~mask;
}

/* The folder of a path with its slash, and then a name, in new memory. */
static char *in_folder_of(const char *path, const char *name)
{
    const char *slash = strrchr(path, '/');
    size_t folder = slash == NULL ? 0 : (size_t)(slash - path) + 1;
    char *joined = malloc(folder + strlen(name) + 1);
    if (joined == NULL)
        return NULL;
    memcpy(joined, path, folder);
    strcpy(joined + folder, name);
    return joined;
}

/* Puts a new file with this mode at a path, by way of one beside it. */
static int put_file(const char *path, mode_t mode, const bytes *from)
{
    char *name = in_folder_of(path, ".captions-XXXXXX");
    if (name == NULL)
        return ENOMEM;
    watch_signals();
    int descriptor = make_beside(name);
    if (descriptor < 0) {
        int error = errno;
        free(name);
        return error;
    }
    int error = fchmod(descriptor, mode) == 0 ? 0 : errno;
    int filled = fill(descriptor, from);
    if (error == 0)
        error = filled;
    if (error == 0 && rename(name, path) != 0)
        error = errno;
    if (error != 0)
        unlink(name);
    beside = NULL;
    free(name);
    return error;
}

/* Where a symbolic link leads, in new memory; null, and an error number, where that cannot be told. */
static char *behind_link(const char *path)
{
    char target[PATH_MAX];
    ssize_t len = readlink(path, target, sizeof target);
    if (len < 0)
        return NULL;
    if ((size_t)len == sizeof target) {
        errno = ENAMETOOLONG;
        return NULL;
    }
    target[len] = '\0';
    return target[0] == '/' ? strdup(target) : in_folder_of(path, target);
}

/* Puts a file where a path leads: a link stays, and what it leads to is replaced, or made. */
static int put_behind_links(const char *name, mode_t mode, const bytes *from)
{
    enum { LINKS_MOST = 40 };
    struct stat there;
    char *path = strdup(name);
    for (int i = 0; path != NULL && lstat(path, &there) == 0 && S_ISLNK(there.st_mode); i++) {
        char *next = i < LINKS_MOST ? behind_link(path) : NULL;
        int error = i < LINKS_MOST ? errno : ELOOP;
        free(path);
        if (next == NULL)
            return error;
        path = next;
    }
    if (path == NULL)
        return ENOMEM;
    int error = put_file(path, mode, from);
    free(path);
    return error;
}

int write_file(const char *name, const bytes *from)
{
    struct stat there;
    /* An empty name has no folder for a file beside it. */
    if (name[0] == '\0')
        return ENOENT;
    if (stat(name, &there) != 0)
        return errno == ENOENT ? put_behind_links(name, usual_mode(), from) : errno;
    if (S_ISREG(there.st_mode))
        return put_behind_links(name, there.st_mode & 07777, from);
    int descriptor = open(name, O_WRONLY | O_CLOEXEC);
    return descriptor < 0 ? errno : fill(descriptor, from);
}
