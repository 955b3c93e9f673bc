#include "shell.h"

#include <stdio.h>
#include <string.h>

static int is_control(char c)
{
    return (unsigned char)c < ' ' || c == 0x7F;
}

/* A character between quotes: '..', or where `dollar` is set $'..', which also has control characters. Returns its length. */
static size_t put_quoted(char c, int dollar, char *text, size_t room)
{
    if (dollar && is_control(c))
        return (size_t)snprintf(text, room, "\\%03o", (unsigned)c);
    if (dollar && (c == '\'' || c == '\\'))
        return (size_t)snprintf(text, room, "\\%c", c);
    return (size_t)snprintf(text, room, c == '\'' ? "'\\'%c" : "%c", c);
}

const char *shell_word(const char *word, char *text, size_t room)
{
    static const char plain[] = "abcdefghijklmnopqrstuvwxyzABCDEFGHIJKLMNOPQRSTUVWXYZ0123456789%+,-./:=@_";
    int dollar = 0;
    if (*word != 0 && strspn(word, plain) == strlen(word)) {
        snprintf(text, room, "%s", word);
        return text;
    }
    for (const char *at = word; *at != 0; at++)
        dollar |= is_control(*at);
    size_t length = (size_t)snprintf(text, room, "%s'", dollar ? "$" : "");
    for (; *word != 0 && length + 7 <= room; word++)
        length += put_quoted(*word, dollar, text + length, room - length);
    snprintf(text + length, room - length, "'");
    return text;
}

int begins_like_option(const char *name)
{
    return name != NULL && name[0] == '-' && name[1] != 0;
}
