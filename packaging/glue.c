/*
 * What the program for ARM64 needs of C beside the C library.
 *
 * The Rattle kit declares these functions in os/src/c.rt and libc/src/heap.rt, and says there what each has to do. The kit has
 * them as archives for x86-64. For ARM64 they are here. Nothing proves them, so this file has only those that relint calls.
 * The program has one thread.
 */
#define _GNU_SOURCE
#include <errno.h>
#include <fcntl.h>
#include <stdbool.h>
#include <stddef.h>
#include <stdint.h>
#include <stdlib.h>
#include <sys/types.h>

/* What the two functions that ask for memory answer, as libc/src/types.rt lays it out. */
struct tried {
    bool ok;
    void *p;
};

_Static_assert(sizeof(size_t) == 8 && sizeof(struct tried) == 16 && offsetof(struct tried, p) == 8,
               "the kit's types are those of a machine of 64 bits");
_Static_assert(_Alignof(max_align_t) >= 16, "malloc has to give memory for every alignment that divides 16");

struct tried rattle_alloc(size_t size, size_t align);
struct tried rattle_realloc(void *old, size_t kept, size_t size, size_t align);
void rattle_dealloc(void *p);
int rattle_errno(void);
void rattle_set_errno(int error);
int rattle_open_dir_at(int dir, const char *name);
ssize_t rattle_arg(size_t i, char *buf, size_t room);

/* Where the pointer of an answer leads that has no memory. Nobody reads or writes it. */
static char nothing;

static struct tried answer(void *p)
{
    return (struct tried){ .ok = p != NULL, .p = p != NULL ? p : &nothing };
}

/*
 * New memory of `size` bytes. `align` divides 16, and malloc aligns to 16. For a size of 0 it asks for `align` bytes, since
 * malloc may answer a null pointer for 0, which would look like a failure.
 */
struct tried rattle_alloc(size_t size, size_t align)
{
    return answer(malloc(size != 0 ? size : align));
}

/*
 * Makes the block at `old` one of `size` bytes. Its first `kept` bytes stay, which realloc does without being told. If it
 * fails, the block is as it was. A size of 0 must not reach realloc, which would free the block.
 */
struct tried rattle_realloc(void *old, size_t kept, size_t size, size_t align)
{
    (void)kept;
    return answer(realloc(old, size != 0 ? size : align));
}

/* Frees what either of the two answered. */
void rattle_dealloc(void *p)
{
    free(p);
}

/* The number of the last error of a call of the C library. */
int rattle_errno(void)
{
    return errno;
}

/* Sets that number. */
void rattle_set_errno(int error)
{
    errno = error;
}

/*
 * Opens the folder that `name` reaches from the folder `dir`, for reading. The answer is a descriptor, or -1. It is also -1 if
 * `name` ends in a link or reaches no folder.
 */
int rattle_open_dir_at(int dir, const char *name)
{
    return openat(dir, name, O_RDONLY | O_DIRECTORY | O_NOFOLLOW | O_CLOEXEC);
}

static size_t count;
static char **words;

/* Keeps the arguments: the C library calls what is marked so before main, with what main gets. */
__attribute__((constructor)) static void keep(int given, char **arguments)
{
    count = given > 0 ? (size_t)given : 0;
    words = arguments;
}

/*
 * Puts argument `i` at the start of `buf`, without the byte 0 at its end. The answer is its length, -1 if there is no such
 * argument, or -2 if it has more than `room` bytes. Then `buf` is full.
 */
ssize_t rattle_arg(size_t i, char *buf, size_t room)
{
    if (i >= count || words[i] == NULL)
        return -1;
    const char *word = words[i];
    size_t length = 0;
    for (; word[length] != '\0'; length++) {
        if (length == room)
            return -2;
        buf[length] = word[length];
    }
    return (ssize_t)length;
}
