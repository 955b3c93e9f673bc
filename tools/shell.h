/* Words of a command that is shown, to be pasted into a shell. */
#ifndef SHELL_H
#define SHELL_H

#include <stddef.h>

/* Room for any file's name. */
enum { WORD_BYTES = 4 * 4096 + 8 };

/* A word as a shell takes it, in quotes where it has to be, control characters as $'\033'; into `text`, which is returned. */
const char *shell_word(const char *word, char *text, size_t room);

/* Whether a name would be taken for an option, so that -- must stand before it. */
int begins_like_option(const char *name);

#endif
