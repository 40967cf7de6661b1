/*
 * The functions of c/system.c, by what the toolchain's declarations say of them. The program's own arguments are those that it
 * looks for. C99.
 */
#include <errno.h>
#include <stdbool.h>
#include <stddef.h>
#include <stdint.h>
#include <stdio.h>
#include <stdlib.h>
#include <string.h>
#include <sys/types.h>

typedef struct {
    bool ok;
    void *p;
} tried;

tried rattle_alloc(size_t length, size_t alignment);
tried rattle_realloc(void *block, size_t kept, size_t length, size_t alignment);
void rattle_dealloc(void *block);
ssize_t rattle_arg(size_t i, uint8_t *to, size_t room);
int rattle_errno(void);
void rattle_set_errno(int error);

static int passed, failed;

static void count_one(int holds, const char *what, int line)
{
    if (holds) {
        passed++;
    } else {
        failed++;
        printf("line %d: %s: FAILED\n", line, what);
    }
}

#define CHECK(condition) count_one((condition) != 0, #condition, __LINE__)

static unsigned char byte_at(size_t i)
{
    return (unsigned char)(i % 251 + i / 251);
}

static void fill(void *block, size_t from, size_t to)
{
    for (size_t i = from; i < to; i++) {
        ((unsigned char *)block)[i] = byte_at(i);
    }
}

static int is_filled(const void *block, size_t length)
{
    for (size_t i = 0; i < length; i++) {
        if (((const unsigned char *)block)[i] != byte_at(i)) {
            return 0;
        }
    }
    return 1;
}

/* A block that grows and shrinks keeps its bytes, also beyond a page and where the C library moves it. */
static void memory(void)
{
    static const size_t lengths[] = {100, 4095, 4096, 4097, 5000, 100000, 99999, 1000000, 3000000, 64, 0, 10, 70000};
    tried block = rattle_alloc(1, 1);
    size_t length = 1;

    CHECK(block.ok && block.p != NULL);
    fill(block.p, 0, 1);
    for (size_t i = 0; i < sizeof lengths / sizeof lengths[0]; i++) {
        const size_t kept = length < lengths[i] ? length : lengths[i];
        void *const other = malloc(lengths[i]); /* so that the block has to move */
        const tried longer = rattle_realloc(block.p, kept, lengths[i], 16);

        CHECK(longer.ok && longer.p != NULL && (uintptr_t)longer.p % 16 == 0);
        CHECK(is_filled(longer.p, kept));
        fill(longer.p, kept, lengths[i]);
        block = longer;
        length = lengths[i];
        free(other);
    }
    const tried refused = rattle_realloc(block.p, length, SIZE_MAX / 2, 16);
    CHECK(!refused.ok && refused.p != NULL);
    CHECK(is_filled(block.p, length));
    rattle_dealloc(block.p);
}

static void blocks(void)
{
    tried all[300];

    for (size_t i = 0; i < 300; i++) {
        all[i] = rattle_alloc(i * 37, 16);
        CHECK(all[i].ok && all[i].p != NULL && (uintptr_t)all[i].p % 16 == 0);
        fill(all[i].p, 0, i * 37);
    }
    for (size_t i = 0; i < 300; i++) {
        CHECK(is_filled(all[i].p, i * 37) && (i == 0 || all[i].p != all[i - 1].p));
        rattle_dealloc(all[i].p);
    }
    const tried refused = rattle_alloc(SIZE_MAX / 2, 16);
    CHECK(!refused.ok && refused.p != NULL);
}

static void arguments(size_t number, char **wanted)
{
    static uint8_t to[10000];

    for (size_t i = 0; i < number; i++) {
        const size_t length = strlen(wanted[i]);

        memset(to, 'x', sizeof to);
        CHECK(rattle_arg(i, to, length) == (ssize_t)length && memcmp(to, wanted[i], length) == 0 && to[length] == 'x');
        if (length > 0) {
            memset(to, 'y', sizeof to);
            CHECK(rattle_arg(i, to, length - 1) == -2 && memcmp(to, wanted[i], length - 1) == 0 && to[length - 1] == 'y');
        }
    }
    CHECK(rattle_arg(number, to, sizeof to) == -1 && rattle_arg(number + 1, to, sizeof to) == -1);
    CHECK(rattle_arg(SIZE_MAX, to, sizeof to) == -1);
}

static void errors(void)
{
    rattle_set_errno(EINTR);
    CHECK(errno == EINTR && rattle_errno() == EINTR);
    errno = ENOSPC;
    CHECK(rattle_errno() == ENOSPC);
    rattle_set_errno(0);
    CHECK(errno == 0 && rattle_errno() == 0);
}

int main(int argc, char **argv)
{
    memory();
    blocks();
    arguments((size_t)argc, argv);
    errors();
    printf("%d passed, %d failed\n", passed, failed);
    return failed != 0 || argc < 5;
}
