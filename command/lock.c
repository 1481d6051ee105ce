/* A lock on a roll: of all who add to it one does at a time.
 * It is on the file itself. Who had to wait for it finds another file in its place, and locks that one. */
#define _DEFAULT_SOURCE

#include "lock.h"

#include "files.h"
#include "glyphs.h"

#include <errno.h>
#include <fcntl.h>
#include <stdio.h>
#include <sys/file.h>
#include <sys/stat.h>
#include <unistd.h>

/* Opens the roll. It is never made here: what is made only to be locked would have to be taken away again, and another may by then
 * have added to it. */
static bool open_roll(struct lock *lock)
{
    lock->opened = open(lock->file, O_RDWR | O_CLOEXEC);
    return lock->opened >= 0 || cannot("open for writing", lock->file);
}

static bool wait_for(const struct lock *lock)
{
    if (flock(lock->opened, LOCK_EX | LOCK_NB) == 0)
        return true;
    if (errno == EWOULDBLOCK) {
        fputs("cdx: waiting for another who adds to ", stderr);
        print_name(stderr, lock->file);
        fputs("\n", stderr);
    }
    while (flock(lock->opened, LOCK_EX) != 0)
        if (errno != EINTR)
            return cannot("lock", lock->file);
    return true;
}

/* Whether the file that is locked still has its name. */
static bool is_in_place(const struct lock *lock)
{
    struct stat locked, named;
    return fstat(lock->opened, &locked) == 0 && stat(lock->file, &named) == 0 && locked.st_dev == named.st_dev
           && locked.st_ino == named.st_ino;
}

bool lock_roll(const char *file, struct lock *lock)
{
    lock->file = file;
    while (open_roll(lock)) {
        bool locked = wait_for(lock);
        if (locked && is_in_place(lock))
            return true;
        close(lock->opened);
        if (!locked)
            return false;
    }
    return false;
}

void unlock_roll(const struct lock *lock)
{
    close(lock->opened);
}
