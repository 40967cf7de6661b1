// The calls with empty vectors, whose data() may return NULL.
#include <vector>

#include "calls.h"

void vectors_of_no_elements()
{
    const std::vector<uint8_t> bytes;
    const std::vector<uint16_t> units;
    std::vector<uint8_t> to_bytes;
    std::vector<uint16_t> to_units;
    buffers_of_no_elements(bytes.data(), units.data(), to_bytes.data(), to_units.data());
}
