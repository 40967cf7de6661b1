// The parts of the test of encoding_text.hpp about streams and long texts.
#ifndef HEADER_STREAMS_H
#define HEADER_STREAMS_H

#include "encoding_text.hpp"

std::string utf16_bytes(const std::u16string &units, bool big_endian);

void utf16_decoders();
void marked_decoders();

// header_long.cc
void long_calls();

#endif
