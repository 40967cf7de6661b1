/* Converts a stream to UTF-8. A byte order mark decides between UTF-8, UTF-16LE and UTF-16BE; without one it is UTF-8. Each
 * malformed sequence becomes U+FFFD, and its offset is printed:
 *
 *     cc to_utf8.c $(pkg-config --cflags --libs encoding_text) && ./a.out < text > text.utf8 */
#include <encoding_text.h>
#include <stdio.h>

int main(void)
{
    uint8_t block[4096], text[4096];
    uint64_t offset = 0;
    bool last = false;
    encoding_text_decoder decoder;
    encoding_text_decoder_new(&decoder, ENCODING_TEXT_UTF_8, ENCODING_TEXT_BOM_SNIFF);
    while (!last) {
        size_t length = fread(block, 1, sizeof block, stdin), at = 0;
        encoding_text_decoder_result done;
        last = length < sizeof block;
        do {
            done = encoding_text_decoder_decode_to_utf8_without_replacement(&decoder, block + at, length - at, text,
                                                                            sizeof text, last);
            at += done.read;
            offset += done.read;
            fwrite(text, 1, done.written, stdout);
            if (done.result == ENCODING_TEXT_MALFORMED) {
                unsigned long long start = offset - done.read_after - done.malformed_length;
                fputs("\xEF\xBF\xBD", stdout);
                fprintf(stderr, "offset %llu: %d bytes\n", start, done.malformed_length);
            }
        } while (done.result != ENCODING_TEXT_INPUT_EMPTY);
    }
    return ferror(stdin) != 0 || fflush(stdout) != 0 || ferror(stdout) != 0;
}
