/* The words behind a command's name. */
#ifndef ARGUMENTS_H
#define ARGUMENTS_H

#include <stddef.h>
#include <stdint.h>

/* A word that a command takes: its name, which for an option that takes a word is that option, whether it must be given, and what was
 * given, or null. */
struct argument {
    const char *name;
    int needed;
    const char *word;
};

/* What read_arguments answers where the command goes on; otherwise it is the exit status. */
enum { GO_ON = -1 };

/* Sorts the words behind a command's name into its arguments, of which there are `count`. Where one is --help, it prints the help instead;
 * what is wrong is told on standard error. */
int read_arguments(int argc, char **argv, const char *command, const char *help, struct argument *arguments, size_t count);

/* The number that a word of decimal digits stands for; 0 where it has other characters or lies above UINT32_MAX. */
int read_number(const char *word, uint32_t *number);

/* What is wrong with a word that should be a number. */
extern const char NOT_A_NUMBER[];

/* Tells what is wrong with a word given to a command. The answer is the exit status. */
int wrong_use(const char *command, const char *word, const char *what);

/* Prints a help and what the exit statuses mean. The answer is the exit status. */
int print_help(const char *help);

#endif
