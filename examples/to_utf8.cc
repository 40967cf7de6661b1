// Converts a stream to UTF-8, as to_utf8.c does: c++ -std=c++17 to_utf8.cc $(pkg-config --cflags --libs encoding_text)
#include <encoding_text.hpp>
#include <iostream>

int main()
{
    char block[4096], text[4096];
    std::uint64_t offset = 0;
    encoding_text::decoder decoder(encoding_text::encoding::utf_8);
    for (bool last = false; !last;) {
        last = !std::cin.read(block, sizeof block);
        encoding_text::bytes src(block, static_cast<std::size_t>(std::cin.gcount()));
        encoding_text::decoded done;
        do {
            done = decoder.decode_without_replacement(src, text, last);
            src = src.from(done.read);
            offset += done.read;
            std::cout.write(text, static_cast<std::streamsize>(done.written));
            if (done.result == encoding_text::decoder_result::malformed) {
                std::cout << "\uFFFD";
                std::cerr << "offset " << offset - done.read_after - done.malformed_length << ": " << done.malformed_length
                          << " bytes\n";
            }
        } while (done.result != encoding_text::decoder_result::input_empty);
    }
    return std::cin.bad() || !std::cout.flush();
}
