// Decodes UTF-8 from standard input, in blocks, into a std::u16string, with U+FFFD for each malformed sequence, and
// prints the number of code units and of malformed sequences:
//
//     c++ decode.cc $(pkg-config --cflags --libs encoding_text) && ./a.out < text
#include <encoding_text.h>

#include <cstdio>
#include <string>

struct Decoder {
    encoding_text_utf8_decoder state = {};
    std::u16string text;
    std::size_t malformed = 0;

    // Decodes the next bytes and appends the result; `last` says that no more follow.
    void decode(const unsigned char *bytes, std::size_t length, bool last)
    {
        std::size_t at = text.size();
        text.resize(at + encoding_text_utf8_decoder_max_utf16_buffer_length(&state, length));
        encoding_text_decode_result done;
        do {
            uint16_t *room = reinterpret_cast<uint16_t *>(&text[at]);
            done = encoding_text_utf8_decoder_decode_to_utf16(&state, bytes, length, room, text.size() - at, last);
            bytes += done.read;
            length -= done.read;
            at += done.written;
            if (done.result == ENCODING_TEXT_MALFORMED) {
                text[at++] = u'\uFFFD';
                malformed++;
            }
        } while (done.result == ENCODING_TEXT_MALFORMED);
        text.resize(at);
    }
};

int main()
{
    Decoder decoder;
    unsigned char block[4096];
    std::size_t length;
    while ((length = std::fread(block, 1, sizeof block, stdin)) > 0) {
        decoder.decode(block, length, false);
    }
    decoder.decode(nullptr, 0, true);
    std::printf("%zu code units, %zu for a malformed sequence\n", decoder.text.size(), decoder.malformed);
    return std::ferror(stdin) != 0;
}
