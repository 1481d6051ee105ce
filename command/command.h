/* What the commands of cdx have in common: how each is asked for, and how it ends.
 * The answers are document 01's, from the functions of include/cdx.h; around them there is a shell, files and a person. */
#ifndef COMMAND_H
#define COMMAND_H

#include <stdbool.h>
#include <stddef.h>

/* How a command ends: the exit status. Of several files the worst decides. */
enum status {
    ALL_WELL = 0,
    REFUSED = 1, /* a sheet, a roll or a mode table is refused */
    FAILED = 2   /* wrong use, or something could not be read or written */
};

/* What is asked of a command. An option that was not given is NULL or false. */
struct request {
    const char *table; /* -t */
    bool as_text;      /* -d */
    bool in_place;     /* -w */
    bool list;         /* -l */
    bool is_new;       /* -n */
    bool as_roll;      /* -f */
    char **files;      /* at least one; standard input where none was named */
    size_t count;
};

struct table;

/* A command with -t is run under that table; for one without, the table is NULL. */
struct command {
    const char *name;
    const char *options; /* for getopt */
    const char *help;
    const char *(*wrong_with)(const struct request *request); /* what is wrong with a request, or NULL */
    enum status (*run)(const struct request *request, const struct table *table);
};

extern const struct command table_command, check_command, show_command, format_command, roll_command, add_command;
#endif
