/* Moments in which another runs: linked into cdx by the linker's --wrap, one before each call with which cdx looks at a file, opens,
 * locks or names it. So what another does between any two of these calls can be tried.
 *
 *   CALL       the number of a call, from 1
 *   MEANWHILE  what a shell runs before that call. The call is made when it has ended, or says something: who waits for a lock does
 *   SLIP       a slip to be made, so that the test can be seen to find it
 *     remembers  a roll that was not there at first is taken away where nothing is added, whoever made it; cdx once did so
 *     renames    a new roll gets its name by a rename, which takes the place of another's
 *     unlocked   a lock that keeps nobody out */
#define _GNU_SOURCE

#include <fcntl.h>
#include <stdarg.h>
#include <stdbool.h>
#include <stdlib.h>
#include <string.h>
#include <sys/stat.h>
#include <sys/wait.h>
#include <unistd.h>

/* The calls themselves; the linker gives them these names. */
int __real_access(const char *file, int how);
int __real_close(int opened);
int __real_flock(int opened, int how);
int __real_link(const char *old, const char *new);
int __real_mkstemp(char *file);
int __real_open(const char *file, int how, ...);
char *__real_realpath(const char *file, char *found);
int __real_rename(const char *old, const char *new);
int __real_stat(const char *file, struct stat *found);
int __real_unlink(const char *file);

static bool has_slip(const char *name)
{
    const char *slip = getenv("SLIP");
    return slip != NULL && strcmp(slip, name) == 0;
}

static void run_other(int messages)
{
    unsetenv("CALL");
    unsetenv("SLIP");
    dup2(messages, STDERR_FILENO);
    execl("/bin/sh", "sh", "-c", getenv("MEANWHILE"), (char *)NULL);
    _exit(127);
}

static void before_call(void)
{
    static int calls;
    const char *call = getenv("CALL");
    int messages[2];
    char byte;
    if (call == NULL || ++calls != atoi(call))
        return;
    if (pipe2(messages, O_CLOEXEC) != 0)
        abort();
    if (fork() == 0)
        run_other(messages[1]);
    __real_close(messages[1]);
    (void)!read(messages[0], &byte, 1);
}

/* The other may end later than this process, and is waited for. */
__attribute__((destructor)) static void wait_for_other(void)
{
    while (wait(NULL) > 0)
        ;
}

static void take_away(int status, void *file)
{
    if (status != 0)
        __real_unlink(file);
}

#define WRAP(type, name, parameters, arguments) \
    type __wrap_##name parameters               \
    {                                           \
        before_call();                          \
        return __real_##name arguments;         \
    }

WRAP(int, access, (const char *file, int how), (file, how))
WRAP(int, close, (int opened), (opened))
WRAP(int, mkstemp, (char *file), (file))
WRAP(char *, realpath, (const char *file, char *found), (file, found))
WRAP(int, rename, (const char *old, const char *new), (old, new))
WRAP(int, unlink, (const char *file), (file))

int __wrap_flock(int opened, int how)
{
    before_call();
    return has_slip("unlocked") ? 0 : __real_flock(opened, how);
}

int __wrap_link(const char *old, const char *new)
{
    before_call();
    return has_slip("renames") ? __real_rename(old, new) : __real_link(old, new);
}

int __wrap_open(const char *file, int how, ...)
{
    va_list rest;
    va_start(rest, how);
    mode_t mode = how & O_CREAT ? va_arg(rest, mode_t) : 0;
    va_end(rest);
    before_call();
    return __real_open(file, how, mode);
}

int __wrap_stat(const char *file, struct stat *found)
{
    before_call();
    int answer = __real_stat(file, found);
    if (answer != 0 && has_slip("remembers"))
        on_exit(take_away, (void *)file);
    return answer;
}
