#include <encoding_text.h>
#include <stdio.h>

int main(void)
{
    const uint8_t damaged[] = {'a', 0xE2, 0x98, 'Z', '\n'};
    uint8_t repaired[3 * sizeof damaged];
    encoding_text_repair_result result = encoding_text_repair_slice(damaged, sizeof damaged, repaired, sizeof repaired);
    return fwrite(repaired, 1, result.written, stdout) != result.written;
}
