/* zulqenat COMMAND ..: checks, shows and plays books of routines. */
#include <stdio.h>
#include <string.h>

#include "arguments.h"
#include "commands.h"

static const char HELP[] =
    "usage: zulqenat COMMAND ...\n"
    "       zulqenat COMMAND --help\n"
    "\n"
    "  check  says whether a book is accepted, or what is wrong with it and where\n"
    "  show   shows the steps of a book in words\n"
    "  play   plays a book and lists its rounds and marks\n"
    "  site   looks whether this bench works, by built-in books and plays\n";

static const struct command {
    const char *name;
    int (*run)(int argc, char **argv);
} COMMANDS[] = {
    {"check", check_command},
    {"show", show_command},
    {"play", play_command},
    {"site", site_command},
};

/* Runs the command that the first word names. */
static int run(int argc, char **argv)
{
    static const char program[] = "zulqenat";
    if (argc < 2)
        return wrong_use(program, "COMMAND", "missing");
    if (strcmp(argv[1], "--help") == 0)
        return print_help(HELP);
    for (size_t i = 0; i < sizeof COMMANDS / sizeof COMMANDS[0]; i++)
        if (strcmp(argv[1], COMMANDS[i].name) == 0)
            return COMMANDS[i].run(argc - 2, argv + 2);
    return wrong_use(program, argv[1], "unknown command");
}

/* A listing that cannot be written is told like any file that cannot. */
int main(int argc, char **argv)
{
    int status = run(argc, argv);
    if (fflush(stdout) == 0 && !ferror(stdout))
        return status;
    fprintf(stderr, "standard output: cannot be written\n");
    return WRONG_USE;
}
