// The decoders of encoding_text.hpp that take streams of UTF-16. The texts are literals of the compiler's own encodings.
// What is malformed, and how long each malformed sequence is, is that of the Encoding Standard's shared UTF-16 decoder, as
// encoding_rs and CPython's codecs have it.
#include "header_streams.h"

#include <array>
#include <vector>
#if __cplusplus >= 202002L
#include <span>
#endif

#include "check.h"

using namespace std::literals;
using encoding_text::decoder_result;
using encoding_text::utf16_decoder;

struct row {
    std::u16string units;
    std::string odd; // a byte at the end
    std::string utf8;
    std::u16string utf16;
    std::vector<std::size_t> malformed; // the length of each malformed sequence
};

#define U8(literal) std::string(reinterpret_cast<const char *>(u8"" literal))

static const std::vector<row> ROWS = {
    {u"", "", "", u"", {}},
    {u"a", "", "a", u"a", {}},
    {u"na\u00EFve \u4F60\u597D \U0001F600.", "", U8("na\u00EFve \u4F60\u597D \U0001F600."), u"na\u00EFve \u4F60\u597D \U0001F600.", {}},
    {u"\xD83D", "a", U8("\uFFFD"), u"\uFFFD", {3}},
    {u"\xD83D", "", U8("\uFFFD"), u"\uFFFD", {2}},
    {u"z", "a", U8("z\uFFFD"), u"z\uFFFD", {1}},
    {u"\xD83D\xD83D\xDCA9", "", U8("\uFFFD\U0001F4A9"), u"\uFFFD\U0001F4A9", {2}},
    {u"\xDCA9\xD83Dz\xDCA9", "", U8("\uFFFD\uFFFDz\uFFFD"), u"\uFFFD\uFFFDz\uFFFD", {2, 2, 2}},
    {u"\xDCA9\xD83D\xD83D", "z", U8("\uFFFD\uFFFD\uFFFD"), u"\uFFFD\uFFFD\uFFFD", {2, 2, 3}},
};

std::string utf16_bytes(const std::u16string &units, bool big_endian)
{
    std::string result;
    for (const char16_t unit : units) {
        const char high = static_cast<char>(unit >> 8), low = static_cast<char>(unit & 0xFF);
        result += big_endian ? high : low;
        result += big_endian ? low : high;
    }
    return result;
}

// Decodes bytes in two pieces, both ways.
static bool appends(const row &wanted, const std::string &source, std::size_t cut, bool big_endian)
{
    utf16_decoder to_utf16(big_endian), to_utf8(big_endian);
    std::u16string utf16 = u"before ";
    std::string utf8 = "before ";
    std::size_t count16 = to_utf16.decode(std::string_view(source).substr(0, cut), utf16, false);
    std::size_t count8 = to_utf8.decode(std::string_view(source).substr(0, cut), utf8, false);
    count16 += to_utf16.decode(std::string_view(source).substr(cut), utf16, true);
    count8 += to_utf8.decode(std::string_view(source).substr(cut), utf8, true);
    return utf16 == u"before " + wanted.utf16 && utf8 == "before " + wanted.utf8 && count16 == wanted.malformed.size()
           && count8 == wanted.malformed.size() && to_utf16.in_neutral_state() && to_utf8.in_neutral_state();
}

// Decodes bytes in two pieces into an array of a few elements, and writes U+FFFD for each report itself.
template <class Array, class String>
static bool fills(const String &wanted, const String &replacement, const row &row, const std::string &source, std::size_t cut,
                  bool big_endian)
{
    utf16_decoder decoder(big_endian);
    String text;
    std::vector<std::size_t> malformed;
    std::size_t offset = 0;
    for (int calls = 0; calls < 100; calls++) {
        Array room;
        const bool last = offset >= cut;
        const std::size_t end = last ? source.size() : cut;
        const auto done = decoder.decode_without_replacement({source.data() + offset, end - offset}, room, last);
        offset += done.read;
        text.append(room.data(), done.written);
        if (done.result == decoder_result::malformed) {
            malformed.push_back(done.malformed_length);
            text += replacement;
        } else if (done.malformed_length != 0 || done.read_after != 0) {
            return false;
        }
        if (done.result == decoder_result::input_empty && last) {
            return offset == source.size() && text == wanted && malformed == row.malformed && decoder.in_neutral_state();
        }
    }
    return false;
}

// Malformed sequences: the offset of each from the start of the stream, and its length.
using places = std::vector<std::array<std::size_t, 2>>;

static auto added_to(places &found)
{
    return [&found](const encoding_text::malformed_sequence &one) { found.push_back({one.offset, one.length}); };
}

// Where the malformed sequences of this row are, by their lengths and the code units that are unpaired surrogates.
static places places_of(const row &row)
{
    places all;
    for (std::size_t i = 0; i < row.units.size(); i++) {
        const bool is_high = row.units[i] >= 0xD800 && row.units[i] <= 0xDBFF, is_low = row.units[i] >= 0xDC00 && row.units[i] <= 0xDFFF;
        if (is_high && i + 1 < row.units.size() && row.units[i + 1] >= 0xDC00 && row.units[i + 1] <= 0xDFFF) {
            i++;
        } else if (is_high || is_low) {
            all.push_back({2 * i, row.malformed[all.size()]});
        }
    }
    if (all.size() < row.malformed.size()) {
        all.push_back({2 * row.units.size(), 1});
    }
    return all;
}

// Decodes bytes in two pieces twice, and compares the places of both streams.
template <class Decoder, class String>
static bool finds(Decoder decoder, const places &wanted, const std::string &source, std::size_t cut, const String &text)
{
    for (int stream = 0; stream < 2; stream++) {
        places found;
        String written = text;
        std::size_t count = decoder.decode(std::string_view(source).substr(0, cut), written, false, added_to(found));
        count += decoder.decode(std::string_view(source).substr(cut), written, true, added_to(found));
        if (found != wanted || count != wanted.size()) {
            return false;
        }
    }
    return true;
}

void utf16_decoders()
{
    for (const row &row : ROWS) {
        for (const bool big_endian : {false, true}) {
            const std::string source = utf16_bytes(row.units, big_endian) + row.odd;
            for (std::size_t cut = 0; cut <= source.size(); cut++) {
                CHECK(appends(row, source, cut, big_endian));
                CHECK(finds(utf16_decoder(big_endian), places_of(row), source, cut, "before "s));
                CHECK(finds(utf16_decoder(big_endian), places_of(row), source, cut, u"before "s));
                CHECK((fills<std::array<char, 4>>(row.utf8, U8("\uFFFD"), row, source, cut, big_endian)));
                CHECK((fills<std::array<char16_t, 2>>(row.utf16, u"\uFFFD"s, row, source, cut, big_endian)));
            }
        }
    }
    std::string text;
    const utf16_decoder read = utf16_decoder(false);
    utf16_decoder pending = read;
    CHECK(pending.decode("\x3D\xD8\x41"sv, text, false) == 0 && text.empty() && !pending.in_neutral_state());
    utf16_decoder copy = pending;
    std::array<char, 4> room;
    const auto done = copy.decode_without_replacement("\x26"sv, room, false);
    CHECK(done.read == 0 && done.result == decoder_result::malformed && done.malformed_length == 2 && done.read_after == 1);
    pending.reset();
    CHECK(pending.in_neutral_state() && pending.decode("Z\0"sv, text, true) == 0 && text == "Z");
    utf16_decoder big(true);
    CHECK(big.decode("\xD8"sv, text, false) == 0 && !big.in_neutral_state());
    big.reset();
    CHECK(big.decode("\0Y"sv, text, true) == 0 && text == "ZY");
    unsigned char octets[8];
    CHECK(big.decode_without_replacement("\0a\0b"sv, octets, true).written == 2 && octets[1] == 'b');
    std::vector<std::uint16_t> units(3);
    CHECK(big.decode_without_replacement("\0a\0b"sv, units, true).written == 2 && units[1] == 'b' && units[2] == 0);
    CHECK(big.decode_without_replacement("\0a"sv, encoding_text::writable_bytes(), true).result == decoder_result::output_full);
#if __cplusplus >= 202002L
    CHECK(big.decode_without_replacement("\0a\0c"sv, std::span(octets).subspan(1), true).written == 2 && octets[2] == 'c');
#endif
}

// A stream of a mark and bytes, and what each kind of decoder makes of it.
struct marked_row {
    std::string bytes;
    encoding_text::encoding encoding; // of the decoder
    encoding_text::bom_handling bom;
    encoding_text::encoding decided;
    std::u16string utf16;
    std::size_t replaced;
};

using encoding_text::bom_handling;
using encoding_text::encoding;

static const std::vector<marked_row> MARKED = {
    {"\xEF\xBB\xBFna\xC3\xAFve", encoding::utf_16be, bom_handling::sniff, encoding::utf_8, u"na\u00EFve", 0},
    {"\xFF\xFE" "a\0\x3D\xD8"s, encoding::utf_8, bom_handling::sniff, encoding::utf_16le, u"a\uFFFD", 1},
    {"\xFE\xFF\0a\xD8\x3D\xDC\xA9"s, encoding::utf_8, bom_handling::sniff, encoding::utf_16be, u"a\U0001F4A9", 0},
    {"\xEF\xBB", encoding::utf_8, bom_handling::sniff, encoding::utf_8, u"\uFFFD", 1},
    {"\xFF", encoding::utf_16le, bom_handling::sniff, encoding::utf_16le, u"\uFFFD", 1},
    {"\xEF\xBB\xBF\xEF\xBB\xBF", encoding::utf_8, bom_handling::remove, encoding::utf_8, u"\uFEFF", 0},
    {"\xFF\xFE" "a\0"s, encoding::utf_16be, bom_handling::remove, encoding::utf_16be, u"\uFFFE\u6100", 0},
    {"\xFF\xFE" "a\0"s, encoding::utf_16le, bom_handling::off, encoding::utf_16le, u"\uFEFFa", 0},
    {"", encoding::utf_16le, bom_handling::sniff, encoding::utf_16le, u"", 0},
};

// Decodes bytes in two pieces into arrays of a few elements.
template <class Array, class String>
static bool fills(const String &wanted, const marked_row &row, std::size_t cut)
{
    encoding_text::decoder decoder(row.encoding, row.bom);
    String text;
    std::size_t offset = 0, replaced = 0;
    for (int calls = 0; calls < 100; calls++) {
        Array room;
        const bool last = offset >= cut;
        const std::size_t end = last ? row.bytes.size() : cut;
        const encoding_text::coded done = decoder.decode({row.bytes.data() + offset, end - offset}, room, last);
        offset += done.read;
        text.append(room.data(), done.written);
        replaced += done.replaced;
        if (done.result == decoder_result::input_empty && last) {
            return text == wanted && replaced == row.replaced && decoder.in_neutral_state()
                   && decoder.current_encoding() == row.decided;
        }
    }
    return false;
}

// The same into strings.
template <class String> static bool appends(const String &wanted, const marked_row &row, std::size_t cut)
{
    encoding_text::decoder decoder(row.encoding, row.bom);
    String text(3, 'x');
    std::size_t replaced = decoder.decode(std::string_view(row.bytes).substr(0, cut), text, false);
    replaced += decoder.decode(std::string_view(row.bytes).substr(cut), text, true);
    const bool is_done = decoder.in_neutral_state() && decoder.current_encoding() == row.decided;
    decoder.reset();
    return is_done && text == String(3, 'x') + wanted && replaced == row.replaced
           && decoder.current_encoding() == row.encoding && decoder.in_neutral_state() == (row.bom == bom_handling::off);
}

static void reports_of_marked_streams()
{
    encoding_text::decoder decoder(encoding::utf_8);
    std::array<char, 8> octets;
    std::array<char16_t, 8> units;
    auto done = decoder.decode_without_replacement("\xFF\xFE" "a\0\xA9\xDC" "b"sv, octets, false);
    CHECK(done.read == 6 && done.written == 1 && done.result == decoder_result::malformed && done.malformed_length == 2
          && done.read_after == 0 && octets[0] == 'a');
    done = decoder.decode_without_replacement("b"sv, units, true);
    CHECK(done.read == 1 && done.written == 0 && done.result == decoder_result::malformed && done.malformed_length == 1);
    done = decoder.decode_without_replacement("c\0d\0"sv, units, true);
    CHECK(done.read == 4 && done.written == 2 && done.result == decoder_result::input_empty && units[1] == u'd');
    CHECK(encoding_text::for_bom("\xFE\xFF") && encoding_text::for_bom("\xFE\xFF")->encoding == encoding::utf_16be
          && encoding_text::for_bom("\xFE\xFF")->length == 2);
    CHECK(encoding_text::for_bom("\xEF\xBB\xBF")->length == 3 && !encoding_text::for_bom("a"));
}

// Streams with marks, and where their malformed sequences are: a mark counts as bytes of the stream.
static void places_in_marked_streams()
{
    const struct {
        std::string bytes;
        places wanted;
    } rows[] = {
        {"\xEF\xBB\xBF" "a\xFF\xE2\x98z\xF0\x9F", {{4, 1}, {5, 2}, {8, 2}}},
        {"\xFF\xFE" "a\0\x3D\xD8" "b\0\xA9\xDC" "c"s, {{4, 2}, {8, 2}, {10, 1}}},
        {"\xFE\xFF\0a\xD8\x3D\0b\xD8\x3D\0"s, {{4, 2}, {8, 3}}},
        {"\xEF\xBB", {{0, 2}}},
        {"\xFE", {{0, 1}}},
        {"text", {}},
    };
    for (const auto &row : rows) {
        for (std::size_t cut = 0; cut <= row.bytes.size(); cut++) {
            for (int stream = 0; stream < 2; stream++) {
                encoding_text::decoder decoder(encoding::utf_8);
                places found;
                std::string text;
                std::u16string units;
                const std::string_view first = std::string_view(row.bytes).substr(0, cut), second = std::string_view(row.bytes).substr(cut);
                std::size_t count = stream == 0 ? decoder.decode(first, text, false, added_to(found)) : decoder.decode(first, units, false, added_to(found));
                count += stream == 0 ? decoder.decode(second, text, true, added_to(found)) : decoder.decode(second, units, true, added_to(found));
                CHECK(found == row.wanted && count == row.wanted.size());
                encoding_text::decoder plain(encoding::utf_8);
                std::string same;
                plain.decode(row.bytes, same, true);
                CHECK(stream == 0 ? text == same : encoding_text::convert_utf16_to_utf8(units) == same);
            }
        }
    }
    // calls of each kind count their bytes, and the last one begins a stream
    encoding_text::decoder decoder(encoding::utf_16le, bom_handling::off);
    utf16_decoder other(false);
    std::string text;
    std::array<char, 8> room;
    places found;
    CHECK(decoder.decode("a\0b\0"sv, room, false).read == 4 && decoder.decode_without_replacement("c\0"sv, room, false).read == 2);
    CHECK(decoder.decode("d\0\xA9\xDC"sv, text, false, added_to(found)) == 1 && found == places({{8, 2}}));
    CHECK(decoder.decode("e\0"sv, text, true) == 0 && decoder.decode("f\0\xA9\xDC"sv, text, false, added_to(found)) == 1);
    CHECK(found == places({{8, 2}, {2, 2}}) && decoder.decode("g\0"sv, room, true).read == 2);
    CHECK(decoder.decode("\xA9\xDC"sv, text, false, added_to(found)) == 1 && found.back() == places({{0, 2}})[0]);
    decoder.reset();
    CHECK(decoder.decode("\xA9\xDC"sv, text, false, added_to(found)) == 1 && found.back() == places({{0, 2}})[0]);
    CHECK(other.decode_without_replacement("a\0b\0"sv, room, false).read == 4 && other.decode("c\0\xA9\xDC"sv, text, false, added_to(found)) == 1);
    CHECK(found.back() == places({{6, 2}})[0]);
    other.reset();
    CHECK(other.decode("\xA9\xDC"sv, text, true, added_to(found)) == 1 && found.back() == places({{0, 2}})[0]);
}

// Characters of pending bytes may take the space of those that follow.
static void pending_bytes_take_space()
{
    std::array<char, 4> octets;
    std::array<char16_t, 2> units;
    encoding_text::decoder decoder(encoding::utf_16le), reporting(encoding::utf_16le);
    CHECK(decoder.decode("\xEF\xBB"sv, octets, false).written == 0);
    const auto done = decoder.decode("\xAC\x20"sv, octets, false);
    CHECK(done.read == 0 && done.written == 3 && done.replaced == 0 && done.result == decoder_result::output_full);
    CHECK(reporting.decode_without_replacement("\xEF\xBB"sv, units, false).written == 0);
    const auto reported = reporting.decode_without_replacement("\x3D\xD8\xA9\xDC"sv, units, false);
    CHECK(reported.read == 0 && reported.written == 1 && reported.result == decoder_result::output_full && units[0] == 0xBBEF);
}

void marked_decoders()
{
    for (const marked_row &row : MARKED) {
        const std::string utf8 = encoding_text::convert_utf16_to_utf8(row.utf16);
        for (std::size_t cut = 0; cut <= row.bytes.size(); cut++) {
            CHECK(appends(row.utf16, row, cut) && appends(utf8, row, cut));
            CHECK((fills<std::array<char16_t, 4>>(row.utf16, row, cut)));
            CHECK((fills<std::array<char, 6>>(utf8, row, cut)));
        }
    }
    reports_of_marked_streams();
    places_in_marked_streams();
    pending_bytes_take_space();
    std::string text, wanted;
    encoding_text::decoder decoder(encoding::utf_8);
    decoder.decode("\xFE\xFF"sv, text, false);
    for (int i = 0; i < 30000; i++) {
        decoder.decode(i % 3 == 0 ? "\x4F"sv : i % 3 == 1 ? "\x60\0"sv : "a"sv, text, false);
        wanted += i % 3 == 0 ? U8("\u4F60") : i % 3 == 1 ? "" : "a";
    }
    // a long piece, whose text is longer than itself
    CHECK(decoder.decode(std::string(20001, 'a'), text, true) == 1);
    for (int i = 0; i < 10000; i++) {
        wanted += U8("\u6161");
    }
    CHECK(text == wanted + U8("\uFFFD"));
    // all malformed: longer than the first room, so the count is that of several calls
    text.clear();
    std::u16string units;
    decoder.reset();
    CHECK(decoder.decode(std::string(1000, '\xFF'), text, true) == 1000 && text.size() == 3000);
    decoder.reset();
    CHECK(decoder.decode("a"s + std::string(5000, '\xFF'), units, true) == 5000 && units.size() == 5001);
}
