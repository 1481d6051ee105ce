/* cdx: the command of a person at a shell, over the proved functions of include/cdx.h.
 * It reads files, asks one of the functions of document 01, and says the answer; `cdx -h` tells what it can do. */
#define _XOPEN_SOURCE 700

#include "command.h"
#include "files.h"
#include "glyphs.h"
#include "tables.h"

#include <fcntl.h>
#include <signal.h>
#include <stdarg.h>
#include <stdio.h>
#include <string.h>
#include <unistd.h>

static const char overview[] =
    "cdx reads Codex sheets, writes their canonical form, and keeps them in rolls.\n"
    "\n"
    "  cdx table [FILE]              a mode table from its text; -d: its text again\n"
    "  cdx check -t TABLE [FILE..]   whether sheets are in order, or what is wrong where\n"
    "  cdx show -t TABLE [FILE]      the entries of a sheet, as a tree\n"
    "  cdx format -t TABLE [FILE]    the canonical form of a sheet, printed;\n"
    "                                -w FILE..: in place; -l: names what changes\n"
    "  cdx roll -t TABLE [ROLL]      what the sheets of a roll are, and whether in order\n"
    "  cdx add -t TABLE ROLL [FILE..]\n"
    "                                adds sheets, all or none; -n: to a new roll\n"
    "\n"
    "TABLE is a mode table or its text, lines like `children Lab` and `content Steps`.\n"
    "No FILE, or `-`, is standard input. Messages go to standard error.\n"
    "\n"
    "Status: 0 all is well\n"
    "        1 a sheet, a roll or a table is refused\n"
    "        2 wrong use, or something could not be read or written\n"
    "\n"
    "`cdx COMMAND -h` tells more of a command. docs/FORMAT.md tells of sheets, and\n"
    "examples/README.md shows cdx at work.\n";

static const struct command *const commands[] = {
    &table_command, &check_command, &show_command, &format_command, &roll_command, &add_command,
};

/* Says what is wrong with how a command was asked for, after the manner of printf. */
__attribute__((format(printf, 2, 3))) static enum status wrong_use(const struct command *command, const char *why, ...)
{
    va_list rest;
    va_start(rest, why);
    fprintf(stderr, "cdx %s: ", command->name);
    vfprintf(stderr, why, rest);
    fprintf(stderr, " (`cdx %s -h` tells more)\n", command->name);
    va_end(rest);
    return FAILED;
}

static enum status print_help(const char *help)
{
    fputs(help, stdout);
    return is_written() ? ALL_WELL : FAILED;
}

static const struct command *find(const char *name)
{
    for (size_t number = 0; number < sizeof commands / sizeof *commands; number++)
        if (strcmp(commands[number]->name, name) == 0)
            return commands[number];
    return NULL;
}

static bool is_help(const char *word)
{
    return strcmp(word, "-h") == 0 || strcmp(word, "--help") == 0;
}

/* Reads a command's options into the request, and gives the letter of one that is not good, or 0. */
static int read_options(const struct command *command, int count, char **words, struct request *request)
{
    int letter;
    while ((letter = getopt(count, words, command->options)) != -1)
        if (letter == 't')
            request->table = optarg;
        else if (letter == 'd')
            request->as_text = true;
        else if (letter == 'w')
            request->in_place = true;
        else if (letter == 'l')
            request->list = true;
        else if (letter == 'n')
            request->is_new = true;
        else if (letter == 'f')
            request->as_roll = true;
        else
            return letter;
    return 0;
}

static enum status answer(const struct command *command, const struct request *request)
{
    static struct table table;
    const char *wrong = command->wrong_with(request);
    if (wrong != NULL)
        return wrong_use(command, "%s", wrong);
    if (request->table == NULL)
        return command->run(request, NULL);
    enum status status = load_table(request->table, &table);
    return status != ALL_WELL ? status : command->run(request, &table);
}

/* Reads a command's words, of which the first is its name, and runs it. */
static enum status ask(const struct command *command, int count, char **words)
{
    static char standard_input[] = "-", *no_file[] = {standard_input};
    struct request request = {.files = no_file, .count = 1};
    int letter = read_options(command, count, words, &request);
    if (letter == 'h')
        return print_help(command->help);
    if (letter == ':')
        return wrong_use(command, "-%c has nothing behind it", optopt);
    if (letter != 0)
        return wrong_use(command, "there is no option -%c", optopt);
    if (request.table == NULL && strchr(command->options, 't') != NULL)
        return wrong_use(command, "-t TABLE is missing");
    if (optind < count) {
        request.files = words + optind;
        request.count = (size_t)(count - optind);
    }
    return answer(command, &request);
}

/* Sees to it that no file is opened in the place of standard input, output or error where the shell has closed one: then it fails. */
static void keep_standard_files(void)
{
    for (int standard = STDIN_FILENO; standard <= STDERR_FILENO; standard++)
        if (fcntl(standard, F_GETFD) < 0)
            (void)!open("/dev/null", standard == STDIN_FILENO ? O_WRONLY : O_RDONLY);
}

int main(int count, char **words)
{
    keep_standard_files();
    signal(SIGPIPE, SIG_IGN); /* a reader who leaves is a failed write, */
    signal(SIGXFSZ, SIG_IGN); /* and so is a file that may not grow */
    if (count < 2) {
        fputs(overview, stderr);
        return FAILED;
    }
    if (is_help(words[1]))
        return print_help(overview);
    const struct command *command = find(words[1]);
    if (command == NULL) {
        fputs("cdx: there is no command ", stderr);
        print_name(stderr, words[1]);
        fputs(" (`cdx -h` names them)\n", stderr);
        return FAILED;
    }
    if (count > 2 && is_help(words[2]))
        return print_help(command->help);
    return ask(command, count - 1, words + 1);
}
