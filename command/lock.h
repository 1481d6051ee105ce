/* A lock on a roll: of all who add to it one does at a time.
 * Document 01's rolls grow at their end, and two who grow one roll at once would lose a sheet. */
#ifndef LOCK_H
#define LOCK_H

#include <stdbool.h>

/* A roll that is locked; the lock ends with the process too. */
struct lock {
    const char *file;
    int opened;
};

/* Locks a roll that is there. While another has the lock it says so and waits. Where it fails it says so and gives false. */
bool lock_roll(const char *file, struct lock *lock);

/* Ends the lock. */
void unlock_roll(const struct lock *lock);

#endif
