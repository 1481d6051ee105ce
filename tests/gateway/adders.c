/* Starts several who add to one roll at a moment, round after round, and asks that the roll has what they say.
 *
 *   adders ROUNDS COMMAND..   COMMAND.. is how cdx is called
 *
 * It works in a folder with the mode table lab.txt, the sheet good.cdx, whose form is `<Lab />`, and bad.cdx, which is refused. In each
 * round there is no roll at first. */
#define _POSIX_C_SOURCE 200809L

#include <stdbool.h>
#include <stdio.h>
#include <stdlib.h>
#include <string.h>
#include <sys/stat.h>
#include <sys/wait.h>
#include <unistd.h>

enum { ADDERS = 8, MOST_WORDS = 16, BYTES_OF_A_SHEET = 9 };

static const char roll[] = "several.roll";

/* What one of them is asked to do. */
struct adder {
    bool is_new;
    const char *sheet;
};

static const struct adder adders[ADDERS] = {
    {true, "bad.cdx"},  {true, "good.cdx"}, {false, "good.cdx"}, {true, "bad.cdx"},
    {true, "good.cdx"}, {false, "bad.cdx"}, {false, "good.cdx"}, {true, "bad.cdx"},
};

static void fail(const char *why)
{
    perror(why);
    exit(2);
}

/* Becomes cdx when the pipe is closed. */
static void add(const struct adder *adder, char **command, const int *start)
{
    const char *rest[] = {"add", "-t", "lab.txt", roll, adder->sheet, adder->is_new ? "-n" : NULL, NULL};
    const char *words[MOST_WORDS + sizeof rest / sizeof *rest];
    size_t count = 0;
    char byte;
    for (; command[count] != NULL; count++)
        words[count] = command[count];
    memcpy(words + count, rest, sizeof rest);
    close(start[1]);
    (void)!read(start[0], &byte, 1);
    if (freopen("/dev/null", "w", stdout) != NULL && freopen("/dev/null", "w", stderr) != NULL)
        execvp(words[0], (char **)words);
    _exit(9);
}

/* Starts all of them, and gives for each whether it says that it has added. */
static void start_all(char **command, bool *added)
{
    pid_t started[ADDERS];
    int start[2];
    if (pipe(start) != 0)
        fail("pipe");
    for (size_t number = 0; number < ADDERS; number++) {
        started[number] = fork();
        if (started[number] < 0)
            fail("fork");
        if (started[number] == 0)
            add(&adders[number], command, start);
    }
    close(start[0]);
    close(start[1]);
    for (size_t number = 0; number < ADDERS; number++) {
        int status;
        if (waitpid(started[number], &status, 0) < 0)
            fail("waitpid");
        added[number] = WIFEXITED(status) && WEXITSTATUS(status) == 0;
    }
}

/* One round. Just one makes the roll, and the roll has a sheet of each who says so. */
static bool is_kept(char **command)
{
    bool added[ADDERS];
    int made = 0, all = 0;
    struct stat found;
    unlink(roll);
    start_all(command, added);
    for (size_t number = 0; number < ADDERS; number++) {
        made += added[number] && adders[number].is_new;
        all += added[number];
    }
    long bytes = stat(roll, &found) == 0 ? (long)found.st_size : -1;
    if (made == 1 && bytes == (long)BYTES_OF_A_SHEET * all)
        return true;
    printf("%d made the roll, %d added to it in all, and it has %ld bytes\n", made, all, bytes);
    return false;
}

int main(int count, char **words)
{
    if (count < 3 || count - 2 > MOST_WORDS)
        return 2;
    for (int round = 1; round <= atoi(words[1]); round++)
        if (!is_kept(words + 2)) {
            printf("so it was in round %d\n", round);
            return 1;
        }
    return 0;
}
