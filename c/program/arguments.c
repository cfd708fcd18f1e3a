#include <stdio.h>
#include <string.h>

#include "arguments.h"
#include "commands.h"

const char NOT_A_NUMBER[] = "not a number from 0 to 4294967295";

int wrong_use(const char *command, const char *word, const char *what)
{
    fprintf(stderr, "%s: %s: %s; %s --help tells its use\n", command, word, what, command);
    return WRONG_USE;
}

int print_help(const char *help)
{
    printf("%s\nExit status: %d done, %d refused, %d wrong use.\n", help, DONE, REFUSED, WRONG_USE);
    return DONE;
}

int read_number(const char *word, uint32_t *number)
{
    uint64_t value = 0;
    const char *digit = word;
    for (; *digit >= '0' && *digit <= '9' && value <= UINT32_MAX; digit++)
        value = 10 * value + (uint64_t)(*digit - '0');
    if (digit == word || *digit != '\0' || value > UINT32_MAX)
        return 0;
    *number = (uint32_t)value;
    return 1;
}

/* Whether a word is an option by its form. A single dash is the name of a file. */
static int is_option(const char *word)
{
    return word[0] == '-' && word[1] != '\0';
}

/* Whether one of the words is --help. */
static int asks_for_help(int argc, char **argv)
{
    for (int i = 0; i < argc; i++)
        if (strcmp(argv[i], "--help") == 0)
            return 1;
    return 0;
}

/* The argument that a word is for: the option of this name, or the first other one that has no word yet; null where there is none. */
static struct argument *argument_for(const char *word, struct argument *arguments, size_t count)
{
    for (size_t i = 0; i < count; i++) {
        int matches = is_option(word) ? strcmp(arguments[i].name, word) == 0 : !is_option(arguments[i].name) && arguments[i].word == NULL;
        if (matches)
            return &arguments[i];
    }
    return NULL;
}

/* Gives the word at `*at` to its argument; behind an option that is the next word, and `*at` moves on to it. */
static int take_word(int argc, char **argv, int *at, const char *command, struct argument *arguments, size_t count)
{
    const char *word = argv[*at];
    struct argument *argument = argument_for(word, arguments, count);
    if (argument == NULL)
        return wrong_use(command, word, is_option(word) ? "unknown option" : "one word too many");
    if (argument->word != NULL)
        return wrong_use(command, word, "given twice");
    if (is_option(word))
        ++*at;
    if (*at == argc || strncmp(argv[*at], "--", 2) == 0)
        return wrong_use(command, word, "the word behind it is missing");
    argument->word = argv[*at];
    return GO_ON;
}

int read_arguments(int argc, char **argv, const char *command, const char *help, struct argument *arguments, size_t count)
{
    if (asks_for_help(argc, argv))
        return print_help(help);
    for (int at = 0; at < argc; at++) {
        int status = take_word(argc, argv, &at, command, arguments, count);
        if (status != GO_ON)
            return status;
    }
    for (size_t i = 0; i < count; i++)
        if (arguments[i].needed && arguments[i].word == NULL)
            return wrong_use(command, arguments[i].name, "missing");
    return GO_ON;
}
