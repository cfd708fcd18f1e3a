/* The commands of the program. Each is given the words behind its name and answers the program's exit status. */
#ifndef COMMANDS_H
#define COMMANDS_H

enum { DONE = 0, REFUSED = 1, WRONG_USE = 2 };

int check_command(int argc, char **argv);
int show_command(int argc, char **argv);
int play_command(int argc, char **argv);
int site_command(int argc, char **argv);

#endif
