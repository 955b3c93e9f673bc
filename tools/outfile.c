#define _XOPEN_SOURCE 700
#include "outfile.h"

#include "stream.h"

#include <errno.h>
#include <fcntl.h>
#include <signal.h>
#include <stdlib.h>
#include <string.h>
#include <sys/stat.h>
#include <unistd.h>

/* Signals that end a program, and what they did before. A page of IN that is gone is one of them. */
static const int ends[] = { SIGHUP, SIGINT, SIGQUIT, SIGTERM, SIGPIPE, SIGBUS };
enum { ENDS = sizeof ends / sizeof *ends };
static struct sigaction before[ENDS];

/* The new file, for the signal handler; NULL where there is none. */
static char *volatile beside;

static int is_standard(const char *name)
{
    return strcmp(name, "-") == 0;
}

/* Removes the new file, and lets the signal do what it did before. */
static void on_end(int number)
{
    int error = errno;
    if (beside != NULL)
        unlink(beside);
    for (int i = 0; i < ENDS; i++)
        if (ends[i] == number)
            sigaction(number, &before[i], NULL);
    raise(number);
    errno = error;
}

/* Signals that are ignored stay so. A file that grows too large is trouble, and no signal. */
static void watch_ends(void)
{
    struct sigaction action = { .sa_handler = on_end };
    sigemptyset(&action.sa_mask);
    signal(SIGXFSZ, SIG_IGN);
    for (int i = 0; i < ENDS; i++)
        if (sigaction(ends[i], NULL, &before[i]) == 0 && before[i].sa_handler != SIG_IGN)
            sigaction(ends[i], &action, NULL);
}

static int same(const char *from, const struct stat *out)
{
    struct stat in;
    int known = is_standard(from) ? fstat(STDIN_FILENO, &in) : stat(from, &in);
    return known == 0 && in.st_dev == out->st_dev && in.st_ino == out->st_ino && S_ISREG(in.st_mode);
}

int may_write(const char *from, const char *to)
{
    struct stat out, link;
    if (*to == 0)
        return trouble("OUT", "it has no name");
    int there = (is_standard(to) ? fstat(STDOUT_FILENO, &out) : stat(to, &out)) == 0;
    if (there && same(from, &out))
        return trouble(to, "the same file as IN; name another OUT");
    if (is_standard(to))
        return isatty(STDOUT_FILENO) ? trouble(to, "standard output is a terminal; name a file, or redirect it") : 0;
    if (!there && lstat(to, &link) == 0)
        return trouble(to, "a link that leads nowhere; name a file");
    if (there && !S_ISREG(out.st_mode))
        return trouble(to, "not a file; name one, or - for standard output");
    return there && access(to, W_OK) != 0 ? trouble(to, strerror(errno)) : 0;
}

/* The permissions, and where that may be the owner, of an old OUT; of a new one those of any new file. */
static int set_permissions(const char *target, int file)
{
    struct stat old;
    if (stat(target, &old) != 0) {
        mode_t mask = umask(0);
        umask(mask);
        return fchmod(file, 0666 & ~mask);
    }
    if ((old.st_uid != geteuid() || old.st_gid != getegid()) && fchown(file, old.st_uid, old.st_gid) != 0 && errno != EPERM)
        return -1;
    return fchmod(file, old.st_mode & 0777);
}

/* A name in the folder of a path that ends with that of a file, for mkstemp. */
static char *name_beside(const char *path)
{
    static const char own[] = ".cbrsend-XXXXXX";
    const char *slash = strrchr(path, '/');
    size_t folder = slash == NULL ? 0 : (size_t)(slash + 1 - path);
    char *name = malloc(folder + sizeof own);
    if (name != NULL) {
        memcpy(name, path, folder);
        memcpy(name + folder, own, sizeof own);
    }
    return name;
}

/* Where the new file goes for standard output: it is removed at once, and lasts as long as it is open. */
static char *name_for_standard(void)
{
    const char *folder = getenv("TMPDIR");
    if (folder == NULL || *folder == 0)
        folder = "/tmp";
    char *path = malloc(strlen(folder) + 2);
    if (path == NULL)
        return NULL;
    sprintf(path, "%s/", folder);
    char *name = name_beside(path);
    free(path);
    return name;
}

/* The new file, open; -1 with the cause in errno, and no file. */
static int make_beside(const char *target)
{
    int file = mkstemp(beside);
    if (file < 0) {
        beside[0] = 0;
        return -1;
    }
    int bad = target == NULL ? unlink(beside) : set_permissions(target, file);
    if (bad != 0)
        close(file);
    return bad != 0 ? -1 : file;
}

int open_out(const char *name, struct outfile *out)
{
    int standard = is_standard(name);
    char *target = standard ? NULL : realpath(name, NULL);
    if (!standard && target == NULL)
        target = strdup(name);
    *out = (struct outfile){ .name = name, .target = target };
    beside = standard ? name_for_standard() : target == NULL ? NULL : name_beside(target);
    if (beside == NULL) {
        drop_out(out);
        return trouble(name, "no memory for its name");
    }
    watch_ends();
    int file = make_beside(target);
    out->file = file < 0 ? NULL : fdopen(file, "w+b");
    if (out->file == NULL) {
        fprintf(stderr, "%s: %s: no file can be made beside it: %s\n", program, name, strerror(errno));
        drop_out(out);
        return 2;
    }
    return 0;
}

/* The new name, too, is to outlast a loss of power. */
static void sync_folder(const char *target)
{
    char *folder = strdup(target);
    char *slash = folder == NULL ? NULL : strrchr(folder, '/');
    if (slash != NULL)
        slash[1] = 0;
    int open_folder = slash == NULL ? open(".", O_RDONLY) : open(folder, O_RDONLY);
    if (open_folder >= 0) {
        fsync(open_folder);
        close(open_folder);
    }
    free(folder);
}

static int copy(int from, int to)
{
    static const size_t most = 1 << 16;
    uint8_t *bytes = malloc(most);
    ssize_t got = bytes == NULL || lseek(from, 0, SEEK_SET) != 0 ? -1 : 1;
    while (got > 0) {
        got = read(from, bytes, most);
        for (ssize_t done = 0, now; done < got; done += now)
            if ((now = write(to, bytes + done, (size_t)(got - done))) < 0)
                got = now = -1;
    }
    free(bytes);
    return got < 0 ? -1 : 0;
}

int settle_out(struct outfile *out)
{
    int bad = fflush(out->file) != 0 || ferror(out->file) || (out->target != NULL && fsync(fileno(out->file)) != 0);
    return bad ? trouble(out->name, strerror(errno)) : 0;
}

int hand_out(struct outfile *out, int data)
{
    int bad = out->target == NULL && copy(fileno(out->file), data) != 0;
    return bad ? trouble("standard output", strerror(errno)) : 0;
}

int keep_out(struct outfile *out)
{
    int bad = out->target != NULL && rename(beside, out->target) != 0;
    int status = bad ? trouble(out->name, strerror(errno)) : 0;
    if (status == 0 && out->target != NULL) {
        beside[0] = 0;
        sync_folder(out->target);
    }
    drop_out(out);
    return status;
}

/* After it is renamed there is no file of this name, and unlink does nothing. */
void drop_out(struct outfile *out)
{
    char *name = beside;
    if (name != NULL)
        unlink(name);
    beside = NULL;
    if (out->file != NULL)
        fclose(out->file);
    free(name);
    free(out->target);
    *out = (struct outfile){ .name = out->name };
}
