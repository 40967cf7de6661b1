// The calls of encoding_text.hpp on long texts, of one character again and again, longer than every block: so the lengths in
// each encoding are those of the character times their number. Spans are just long enough, or an element shorter.
#include "header_streams.h"

#include <vector>

#include "check.h"

using encoding_text::bom_handling;
using encoding_text::decoder_result;
using encoding_text::encoding;
using encoding_text::utf16_decoder;
using encoding_text::utf8_decoder;

static constexpr std::size_t COUNT = 100003; // characters

// A text in each encoding, and how many elements a character has.
struct long_text {
    std::string utf8;
    std::u16string utf16;
    std::size_t bytes, units;
};

static long_text text_of(const std::string &character, const std::u16string &units)
{
    long_text text = {"", u"", character.size(), units.size()};
    for (std::size_t i = 0; i < COUNT; i++) {
        text.utf8 += character;
        text.utf16 += units;
    }
    return text;
}

static std::vector<long_text> long_texts()
{
    return {text_of("a", u"a"), text_of("\xC3\xA9", u"\u00E9"), text_of("\xE4\xBD\xA0", u"\u4F60"),
            text_of("\xF0\x9F\x98\x80", u"\U0001F600")};
}

// Whether a call read and wrote all but so many characters of a text, into a span of so many elements.
template <class Done, class String>
static bool fills(const Done &done, const String &found, const String &wanted, std::size_t from, std::size_t to, std::size_t missing)
{
    return done.read == (COUNT - missing) * from && done.written == (COUNT - missing) * to
           && done.result == (missing == 0 ? decoder_result::input_empty : decoder_result::output_full)
           && found.compare(0, done.written, wanted, 0, done.written) == 0
           && found.find_first_not_of(typename String::value_type('Q'), done.written) == String::npos;
}

// Calls with both kinds of span, of a long text's own length or an element less.
template <class Call> static void fits(const long_text &text, std::size_t from, Call call)
{
    for (const std::size_t missing : {std::size_t{0}, std::size_t{1}}) {
        std::string octets(text.utf8.size() + 40, 'Q');
        std::u16string units(text.utf16.size() + 40, u'Q');
        const auto narrow = call(encoding_text::writable_bytes(octets.data(), text.utf8.size() - missing));
        CHECK(fills(narrow, octets, text.utf8, from, text.bytes, missing));
        const auto wide = call(encoding_text::writable_code_units(units.data(), text.utf16.size() - missing));
        CHECK(fills(wide, units, text.utf16, from, text.units, missing));
    }
}

static void spans(const long_text &text)
{
    for (const auto name : {encoding::utf_8, encoding::utf_16le, encoding::utf_16be}) {
        const bool is_utf8 = name == encoding::utf_8, big_endian = name == encoding::utf_16be;
        const std::string source = is_utf8 ? text.utf8 : utf16_bytes(text.utf16, big_endian);
        const std::size_t from = is_utf8 ? text.bytes : 2 * text.units;
        fits(text, from, [&](auto span) { return encoding_text::decoder(name, bom_handling::off).decode(source, span, true); });
        fits(text, from, [&](auto span) {
            return encoding_text::decoder(name, bom_handling::off).decode_without_replacement(source, span, true);
        });
        if (!is_utf8) {
            fits(text, from, [&](auto span) { return utf16_decoder(big_endian).decode_without_replacement(source, span, true); });
        }
    }
}

// Decodes a text and a byte that is malformed after it.
template <class Decoder> static void appends(const Decoder &fresh, const std::string &source, const long_text &text)
{
    Decoder to_utf8 = fresh, to_utf16 = fresh;
    std::string utf8;
    std::u16string utf16;
    CHECK(to_utf8.decode(source + "\xD8", utf8, true) == 1 && utf8 == text.utf8 + "\xEF\xBF\xBD");
    CHECK(to_utf16.decode(source + "\xD8", utf16, true) == 1 && utf16 == text.utf16 + u"\uFFFD");
    std::size_t offset = 0;
    utf8.clear();
    CHECK(to_utf8.decode(source + "\xD8", utf8, true, [&](const auto &found) { offset = found.offset; }) == 1 && offset == source.size());
}

static void strings(const long_text &text)
{
    appends(utf8_decoder(), text.utf8, text);
    for (const bool big_endian : {false, true}) {
        appends(utf16_decoder(big_endian), utf16_bytes(text.utf16, big_endian), text);
    }
    appends(encoding_text::decoder(encoding::utf_8), text.utf8, text);
    CHECK(encoding_text::utf8_count_unchecked(text.utf8) == COUNT);
    CHECK(encoding_text::utf16_length_from_utf8_unchecked(text.utf8) == text.utf16.size());
    CHECK(encoding_text::convert_utf8_to_utf16(text.utf8) == text.utf16);
    CHECK(encoding_text::convert_utf8_to_utf16_without_replacement(text.utf8) == text.utf16);
    CHECK(encoding_text::convert_utf16_to_utf8(text.utf16) == text.utf8);
    const auto counted = encoding_text::convert_utf16_to_utf8_with_count(text.utf16 + std::u16string(COUNT, 0xD800));
    CHECK(counted.text.size() == text.utf8.size() + 3 * COUNT && counted.replaced == COUNT && counted.text.compare(0, text.utf8.size(), text.utf8) == 0);
    const auto repaired = encoding_text::repair(text.utf8 + std::string(COUNT, '\xFF'));
    CHECK(repaired.text.size() == text.utf8.size() + 3 * COUNT && repaired.replaced == COUNT);
    CHECK(encoding_text::for_bom("\xEF\xBB\xBF" + text.utf8)->length == 3 && !encoding_text::for_bom(text.utf8));
}

static void latin1()
{
    const std::string latin1(COUNT, '\xE9');
    const long_text text = text_of("\xC3\xA9", u"\u00E9");
    CHECK(encoding_text::convert_latin1_to_utf8(latin1) == text.utf8 && encoding_text::convert_latin1_to_utf16(latin1) == text.utf16);
    CHECK(encoding_text::latin1_length_from_utf8_unchecked(text.utf8) == COUNT);
    CHECK(encoding_text::convert_utf8_to_latin1(text.utf8) == latin1 && encoding_text::convert_utf16_to_latin1(text.utf16) == latin1);
}

// Each byte is malformed, so each is found, also where a stream is longer than 2^32 bytes.
static void searches()
{
    encoding_text::malformed_search search(std::uint64_t{1} << 32);
    std::size_t count = 0;
    std::uint64_t last = 0;
    CHECK(search.search(std::string(COUNT, '\xFF'), true, [&](const encoding_text::stream_malformation &found) {
        count += found.length;
        last = found.offset;
    }));
    CHECK(count == COUNT && last == (std::uint64_t{1} << 32) + COUNT - 1);
}

void long_calls()
{
    for (const long_text &text : long_texts()) {
        spans(text);
        strings(text);
    }
    latin1();
    searches();
}
