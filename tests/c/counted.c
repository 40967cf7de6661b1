/* One check that holds, and one of a byte outside the destination that changed. Its status has to be 1. C99. */
#include "check.h"

int main(void)
{
    CHECK(fresh_bytes() == byte_memory + BEFORE);
    byte_memory[BEFORE + DST_LENGTH]++;
    CHECK(no_bytes_written());
    return finish();
}
