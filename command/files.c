/* Files as the commands see them: read up to a limit, and messages where that fails.
 * No more is read than there is room for, so that a pipe without an end is no trouble. */
#define _POSIX_C_SOURCE 200809L

#include "files.h"

#include "glyphs.h"

#include <errno.h>
#include <fcntl.h>
#include <stdio.h>
#include <string.h>
#include <sys/stat.h>
#include <unistd.h>

bool is_standard_input(const char *file)
{
    return strcmp(file, "-") == 0;
}

const char *called(const char *file)
{
    return is_standard_input(file) ? "standard input" : file;
}

bool cannot(const char *action, const char *name)
{
    int reason = errno;
    fprintf(stderr, "cdx: cannot %s ", action);
    print_name(stderr, name);
    fprintf(stderr, ": %s\n", strerror(reason));
    return false;
}

bool is_there(const char *file)
{
    struct stat found;
    return stat(file, &found) == 0;
}

bool is_regular(const char *file)
{
    struct stat found;
    if (stat(file, &found) != 0)
        return cannot("find", file);
    if (S_ISREG(found.st_mode))
        return true;
    fputs("cdx: cannot replace ", stderr);
    print_name(stderr, file);
    fputs(": it is no regular file\n", stderr);
    return false;
}

/* Fills the room from an open file. */
static bool fill(int opened, uint8_t *room, size_t size, size_t *length)
{
    *length = 0;
    while (*length < size) {
        ssize_t more = read(opened, room + *length, size - *length);
        if (more == 0)
            return true;
        if (more > 0)
            *length += (size_t)more;
        else if (errno != EINTR)
            return false;
    }
    return true;
}

bool load(const char *file, uint8_t *room, size_t size, size_t *length)
{
    if (is_standard_input(file))
        return fill(STDIN_FILENO, room, size, length) || cannot("read", called(file));
    int opened = open(file, O_RDONLY | O_CLOEXEC | O_NOCTTY);
    if (opened < 0)
        return cannot("open", file);
    bool filled = fill(opened, room, size, length) || cannot("read", file);
    close(opened);
    return filled;
}

bool is_written(void)
{
    if (!ferror(stdout) && fflush(stdout) == 0)
        return true;
    return errno != EPIPE && cannot("write to", "standard output");
}
