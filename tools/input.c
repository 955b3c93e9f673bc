#define _POSIX_C_SOURCE 200809L
#include "input.h"

#include "container.h"
#include "look.h"

#include <errno.h>
#include <fcntl.h>
#include <signal.h>
#include <stdarg.h>
#include <stdio.h>
#include <stdlib.h>
#include <string.h>
#include <sys/mman.h>
#include <sys/stat.h>
#include <unistd.h>

/* The file whose pages are read, for the signal handler. */
static const char *volatile mapped_name;

/* A page of a mapped file is gone. */
static void on_bus_error(int number)
{
    (void)number;
    say(program);
    say(": ");
    say(mapped_name);
    say(": shrank while it was read, so there is no answer; try again when it is whole\n");
    _exit(2);
}

static void watch(const char *name)
{
    struct sigaction action = { .sa_handler = on_bus_error };
    sigemptyset(&action.sa_mask);
    mapped_name = name;
    sigaction(SIGBUS, &action, NULL);
}

int add_why(struct input *in, const char *format, ...)
{
    size_t used = strlen(in->why);
    va_list values;
    va_start(values, format);
    vsnprintf(in->why + used, sizeof in->why - used, format, values);
    va_end(values);
    return 2;
}

static int map_file(const char *name, int file, size_t length, struct input *in)
{
    if (length == 0)
        return 0;
    void *bytes = mmap(NULL, length, PROT_READ, MAP_PRIVATE, file, 0);
    if (bytes == MAP_FAILED)
        return add_why(in, "%s", strerror(errno));
    in->mapped = bytes;
    in->mapped_length = length;
    in->stream = (struct stream){ bytes, length };
    watch(name);
    return 0;
}

/* Reads to the end, into memory. */
static int read_all(int file, struct input *in)
{
    uint8_t *bytes = NULL;
    size_t room = 0, length = 0;
    for (ssize_t got = 1; got > 0; length += got > 0 ? (size_t)got : 0) {
        if (length == room) {
            room = room == 0 ? 1 << 16 : 2 * room;
            uint8_t *more = realloc(bytes, room);
            if (more == NULL) {
                free(bytes);
                return add_why(in, "no memory for its bytes");
            }
            bytes = more;
        }
        got = read(file, bytes + length, room - length);
        if (got < 0) {
            free(bytes);
            return add_why(in, "%s", strerror(errno));
        }
    }
    in->held = bytes;
    in->stream = (struct stream){ bytes, length };
    return 0;
}

/* A file, mapped; a FIFO or a terminal, read. */
static int open_input(const char *name, struct input *in)
{
    struct stat about;
    int file = strcmp(name, "-") == 0 ? STDIN_FILENO : open(name, O_RDONLY);
    int status;
    if (file < 0 || fstat(file, &about) != 0)
        status = add_why(in, "%s", strerror(errno));
    else if (S_ISREG(about.st_mode) && file != STDIN_FILENO)
        status = map_file(name, file, (size_t)about.st_size, in);
    else if (S_ISDIR(about.st_mode))
        status = add_why(in, "a folder; give the streams in it by name");
    else
        status = read_all(file, in);
    if (file > STDIN_FILENO)
        close(file);
    return status;
}

static int is_video_code(int code)
{
    return code == PICTURE || is_slice(code) || code == USER_DATA || (code >= SEQUENCE && code <= EXTENSION) ||
           code == SEQUENCE_END || code == GROUP;
}

/* Whether nothing but zero bytes stands before a place. */
static int is_front(const struct stream *s, size_t at)
{
    size_t zeros = 0;
    while (zeros < at && s->bytes[zeros] == 0)
        zeros++;
    return zeros == at;
}

/* Whether this is an MPEG video stream: it begins with a sequence header, however bad; or the first one is sound, whatever comes
 * before it; or it begins within a stream, and its first picture header is sound. */
static int is_video(const struct stream *s)
{
    size_t first = next_code(s, 0);
    int front = is_front(s, first);
    if (first == s->length || (front && code_at(s, first) >= SYSTEM))
        return 0;
    if (front && code_at(s, first) == SEQUENCE)
        return 1;
    return is_sound_sequence(s, find_code(s, SEQUENCE)) ||
           (is_video_code(code_at(s, first)) && is_sound_picture(s, find_code(s, PICTURE)));
}

/* What is no container. */
static int take_elementary(const char *which, uint8_t standard, struct input *in)
{
    const struct stream *s = &in->stream;
    if (which != NULL && strcmp(which, "1") != 0)
        return add_why(in, "no container, so there is no stream to choose in it; leave out --stream");
    if (s->length == 0)
        return add_why(in, "not an MPEG video stream: it is empty");
    if (is_video(s) || (standard != 0 && find_code(s, SEQUENCE) < s->length))
        return 0;
    return add_why(in, "not an MPEG video stream: it has no headers of one; give the recording, or its video");
}

int take_in_as(const char *name, const char *which, uint8_t standard, struct input *in)
{
    *in = (struct input){ .about = "" };
    int status = open_input(name, in);
    if (status == 0) {
        const struct container *c = container_of(&in->stream);
        status = c != NULL ? unpack(name, which, c, in) : take_elementary(which, standard, in);
    }
    if (status == 0) {
        in->standard = told_standard(&in->stream);
    } else {
        trouble(name, in->why);
        let_go(in);
    }
    return status;
}

int take_in(const char *name, const char *which, struct input *in)
{
    return take_in_as(name, which, 0, in);
}

void let_go(struct input *in)
{
    if (in->mapped != NULL)
        munmap(in->mapped, in->mapped_length);
    free(in->held);
    in->mapped = in->held = NULL;
    in->stream = (struct stream){ NULL, 0 };
}
