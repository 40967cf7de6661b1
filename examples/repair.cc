// Repairs UTF-8 from standard input, and prints where malformed sequences were:
//
//     c++ -std=c++17 repair.cc $(pkg-config --cflags --libs encoding_text) && ./a.out < damaged > repaired
#include <encoding_text.hpp>

#include <iostream>
#include <iterator>
#include <string>

int main()
{
    const std::string damaged(std::istreambuf_iterator<char>(std::cin), {});
    for (const auto [offset, length] : encoding_text::malformed_sequences(damaged)) {
        std::cerr << "offset " << offset << ": " << length << " malformed bytes\n";
    }
    const auto [text, replaced] = encoding_text::repair(damaged);
    std::cout << text;
    std::cerr << replaced << " malformed sequences\n";
    return !std::cout.flush();
}
