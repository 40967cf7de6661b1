/*
 * The six functions of C that utf8_repair and utf8_check call apart from those of the C library, for ARM64: the toolchain has
 * them only for x86-64. Each does what the toolchain's declaration says, which the proofs take as given. No proof covers this
 * file; tests/arm/run checks it and the programs that it is linked into.
 */
#include <errno.h>
#include <stdbool.h>
#include <stddef.h>
#include <stdint.h>
#include <stdlib.h>
#include <sys/types.h>

#ifndef __GLIBC__
#error "only glibc passes the arguments of the program to constructors, which keep_arguments needs"
#endif

/* Whether there was memory, and where it is. If there was none, `p` is some address that isn't NULL. */
typedef struct {
    bool ok;
    void *p;
} tried;

static char nothing;
static char **words;
static size_t count;

/* The C library passes the arguments to each constructor, before it calls `main`. */
__attribute__((constructor)) static void keep_arguments(int argc, char **argv)
{
    count = (size_t)argc;
    words = argv;
}

static tried answer(void *p)
{
    tried result = {p != NULL, p != NULL ? p : &nothing};
    return result;
}

/* `alignment` divides 16, as that of malloc does. A block of no bytes gets some, so that it has an address. */
tried rattle_alloc(size_t length, size_t alignment)
{
    return answer(malloc(length != 0 ? length : alignment));
}

/* The first `kept` bytes stay as they are. If there is no memory, the block stays too. */
tried rattle_realloc(void *block, size_t kept, size_t length, size_t alignment)
{
    (void)kept;
    return answer(realloc(block, length != 0 ? length : alignment));
}

void rattle_dealloc(void *block)
{
    free(block);
}

/* Copies argument `i` to the start of `to`, and returns its length; -1 if there is no such argument; -2 if it is longer
 * than `room`, and then `to` is full. */
ssize_t rattle_arg(size_t i, uint8_t *to, size_t room)
{
    size_t length;

    if (i >= count || words[i] == NULL) {
        return -1;
    }
    for (length = 0; words[i][length] != '\0'; length++) {
        if (length == room) {
            return -2;
        }
        to[length] = (uint8_t)words[i][length];
    }
    return (ssize_t)length;
}

int rattle_errno(void)
{
    return errno;
}

void rattle_set_errno(int error)
{
    errno = error;
}
