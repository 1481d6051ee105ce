/* A file replaced by another, or made: whoever opens it finds the old bytes or the new ones, never half.
 * The new file is written beside its place, flushed to the disk, and only then gets its name. */
#define _XOPEN_SOURCE 700

#include "replace.h"

#include "files.h"

#include <errno.h>
#include <fcntl.h>
#include <limits.h>
#include <signal.h>
#include <stdio.h>
#include <stdlib.h>
#include <string.h>
#include <sys/stat.h>
#include <unistd.h>

/* The first name of the new file, in the folder of its place. */
static const char beside[] = ".cdx-XXXXXX";

/* The place of a file, and the new one that is to have it. */
struct exchange {
    const char *file;     /* as it was named, for messages */
    char place[PATH_MAX]; /* of an old file, that behind all links */
    char folder[PATH_MAX];
    char new[PATH_MAX + sizeof beside];
    int opened; /* the new one */
};

static bool put_all(int opened, const uint8_t *bytes, size_t length)
{
    while (length > 0) {
        ssize_t put = write(opened, bytes, length);
        if (put < 0 && errno != EINTR)
            return false;
        if (put > 0) {
            bytes += put;
            length -= (size_t)put;
        }
    }
    return true;
}

/* Gives the new file the owner and the mode of the old one. */
static bool keep_owner(const struct exchange *exchange, const struct stat *old)
{
    struct stat new;
    if (fstat(exchange->opened, &new) != 0)
        return cannot("look at the new file for", exchange->file);
    bool kept = new.st_uid == old->st_uid && new.st_gid == old->st_gid;
    if (!kept && fchown(exchange->opened, old->st_uid, old->st_gid) != 0)
        return cannot("keep the owner of", exchange->file);
    return fchmod(exchange->opened, old->st_mode & 07777) == 0 || cannot("keep the mode of", exchange->file);
}

/* Gives the new file the mode of any new one. */
static bool give_mode(const struct exchange *exchange)
{
    mode_t mask = umask(0);
    umask(mask);
    return fchmod(exchange->opened, 0666 & ~mask) == 0 || cannot("give a mode to", exchange->file);
}

/* Finds the folder of the place, which has a slash in its name. */
static void find_folder(struct exchange *exchange)
{
    strcpy(exchange->folder, exchange->place);
    strrchr(exchange->folder, '/')[1] = 0;
}

/* Finds the old file behind all links, and its folder. */
static bool find_old(struct exchange *exchange, struct stat *old)
{
    if (realpath(exchange->file, exchange->place) == NULL || stat(exchange->place, old) != 0)
        return cannot("find", exchange->file);
    if (!is_regular(exchange->file))
        return false;
    if (access(exchange->place, W_OK) != 0)
        return cannot("write", exchange->file);
    find_folder(exchange);
    return true;
}

/* Finds where a file is to be that is not there, and its folder. */
static bool find_none(struct exchange *exchange)
{
    const char *here = strchr(exchange->file, '/') == NULL ? "./" : "";
    int length = snprintf(exchange->place, sizeof exchange->place, "%s%s", here, exchange->file);
    if ((size_t)length >= sizeof exchange->place) {
        errno = ENAMETOOLONG;
        return cannot("make", exchange->file);
    }
    find_folder(exchange);
    return true;
}

/* Writes the new file, and sees to it that it is on the disk. There may be no old one. */
static bool fill_new(const struct exchange *exchange, const struct stat *old, const uint8_t *bytes, size_t length)
{
    if (!put_all(exchange->opened, bytes, length))
        return cannot("write the new file for", exchange->file);
    if (!(old != NULL ? keep_owner(exchange, old) : give_mode(exchange)))
        return false;
    return fsync(exchange->opened) == 0 || cannot("flush the new file for", exchange->file);
}

/* Flushes the folder, so that the new name too is on the disk. Some file systems have nothing to flush there. */
static bool flush_folder(const struct exchange *exchange)
{
    int folder = open(exchange->folder, O_RDONLY | O_DIRECTORY | O_CLOEXEC);
    if (folder < 0)
        return true;
    bool flushed = fsync(folder) == 0 || errno == EINVAL || cannot("flush the folder of", exchange->file);
    close(folder);
    return flushed;
}

/* Puts the new file in the place of the old one. */
static bool rename_new(const struct exchange *exchange)
{
    return rename(exchange->new, exchange->place) == 0 || cannot("rename the new file to", exchange->file);
}

/* Gives the new file the name of its place too, if nobody else has made a file of that name by now; the system sees to it. */
static bool link_new(const struct exchange *exchange)
{
    return link(exchange->new, exchange->place) == 0 || cannot("make", exchange->file);
}

/* Makes the new file and puts it in its place. Its first name is taken away again, where a rename has not done so. */
static bool make_new(struct exchange *exchange, const struct stat *old, const uint8_t *bytes, size_t length)
{
    snprintf(exchange->new, sizeof exchange->new, "%s%s", exchange->folder, beside);
    exchange->opened = mkstemp(exchange->new);
    if (exchange->opened < 0)
        return cannot("make a new file beside", exchange->file);
    bool filled = fill_new(exchange, old, bytes, length);
    if (close(exchange->opened) != 0 && filled)
        filled = cannot("close the new file for", exchange->file);
    bool placed = filled && (old != NULL ? rename_new(exchange) : link_new(exchange));
    if (!placed || old == NULL)
        unlink(exchange->new);
    return placed && flush_folder(exchange);
}

/* Does so while no signal can come in between: nobody's Ctrl-C leaves the new file lying about. */
static bool make_undisturbed(struct exchange *exchange, const struct stat *old, const uint8_t *bytes, size_t length)
{
    sigset_t all, before;
    sigfillset(&all);
    sigprocmask(SIG_BLOCK, &all, &before);
    bool made = make_new(exchange, old, bytes, length);
    sigprocmask(SIG_SETMASK, &before, NULL);
    return made;
}

bool replace(const char *file, const uint8_t *bytes, size_t length)
{
    static struct exchange exchange;
    struct stat old;
    exchange.file = file;
    return find_old(&exchange, &old) && make_undisturbed(&exchange, &old, bytes, length);
}

bool make_file(const char *file, const uint8_t *bytes, size_t length)
{
    static struct exchange exchange;
    exchange.file = file;
    return find_none(&exchange) && make_undisturbed(&exchange, NULL, bytes, length);
}
