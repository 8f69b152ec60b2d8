/* What the toolchain's crate `os` asks of C, for a program that is compiled for the machine at hand (checks/native FOLDER PROGRAM), since
   the toolchain brings these calls as x86-64 code alone. Their contracts are those of that crate; nothing here ships. */
#define _POSIX_C_SOURCE 200809L
#include <errno.h>
#include <fcntl.h>
#include <stddef.h>
#include <stdint.h>
#include <string.h>
#include <sys/types.h>

int rattle_open_to_read(const char *path);
int rattle_open_new(const char *path, uint32_t mode);
int rattle_open_to_overwrite(const char *path, uint32_t mode);
int rattle_open_to_append(const char *path);
int rattle_open_to_update(const char *path);
int rattle_errno(void);
void rattle_set_errno(int error);
size_t rattle_arg_count(void);
ssize_t rattle_arg(size_t i, char *room, size_t size);

static size_t count;
static char **words;

/* glibc hands the arguments to what runs before main */
__attribute__((constructor)) static void keep(int given, char **texts)
{
    count = (size_t)given;
    words = texts;
}

int rattle_open_to_read(const char *path)
{
    return open(path, O_RDONLY | O_CLOEXEC);
}

int rattle_open_new(const char *path, uint32_t mode)
{
    return open(path, O_WRONLY | O_CREAT | O_EXCL | O_CLOEXEC, (mode_t)mode);
}

int rattle_open_to_overwrite(const char *path, uint32_t mode)
{
    return open(path, O_WRONLY | O_CREAT | O_TRUNC | O_CLOEXEC, (mode_t)mode);
}

int rattle_open_to_append(const char *path)
{
    return open(path, O_WRONLY | O_APPEND | O_CLOEXEC);
}

int rattle_open_to_update(const char *path)
{
    return open(path, O_RDWR | O_CLOEXEC);
}

int rattle_errno(void)
{
    return errno;
}

void rattle_set_errno(int error)
{
    errno = error;
}

size_t rattle_arg_count(void)
{
    return count;
}

/* the length of a word that fits, -1 where there is no such word, -2 where it is longer than the room */
ssize_t rattle_arg(size_t i, char *room, size_t size)
{
    size_t length;

    if (i >= count)
        return -1;
    length = strlen(words[i]);
    if (length > size) {
        memcpy(room, words[i], size);
        return -2;
    }
    memcpy(room, words[i], length);
    return (ssize_t)length;
}
