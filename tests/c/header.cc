// The calls of encoding_text.hpp, as C++17 and as C++20. What they have to return are literals of the compiler's own
// encodings, the forms of the Unicode Standard (Tables 3-6 and 3-7), and its examples of malformed bytes.
#include "encoding_text.hpp"
#include "header_streams.h"

#include <array>
#include <cstdlib>
#include <limits>
#include <list>
#include <new>
#include <sys/mman.h>
#include <vector>
#if __cplusplus >= 202002L
#include <iterator>
#include <span>
#endif

#include "check.h"

using namespace std::literals;
using encoding_text::bytes;
using encoding_text::code_units;
using encoding_text::utf16_decoder;
using encoding_text::utf8_decoder;

// How many allocations succeed before one fails. The compiler warns of `free` if it puts these functions into others.
static std::size_t allocations_left = std::numeric_limits<std::size_t>::max();

[[gnu::noinline]] void *operator new(std::size_t length)
{
    void *memory = allocations_left > 0 ? std::malloc(length + !length) : nullptr;
    if (memory == nullptr) {
        throw std::bad_alloc();
    }
    allocations_left--;
    return memory;
}

[[gnu::noinline]] void operator delete(void *memory) noexcept
{
    std::free(memory);
}

[[gnu::noinline]] void operator delete(void *memory, std::size_t) noexcept
{
    std::free(memory);
}

// A text in UTF-8 and in UTF-16, both by the compiler.
struct pair {
    std::string utf8;
    std::u16string utf16;
};

#define PAIR(literal) pair{reinterpret_cast<const char *>(u8"" literal), u"" literal}

static const std::vector<pair> TEXTS = {
    PAIR(""),
    PAIR("a"),
    PAIR("The quick brown fox jumps over the lazy dog."),
    PAIR("na\u00EFve, se\u00F1or, \u00FCber, \u00FF\u0080"),
    PAIR("\u0421\u044A\u0435\u0448\u044C \u0435\u0449\u0451"),
    PAIR("\u4F60\u597D\u4E16\u754C, \uFFFD\uFFFF\uE000\uD7FF\u0800"),
    PAIR("\U0001F600 and \U0010FFFF and \U00010000"),
    PAIR("\u05E9\u05DC\u05D5\u05DD \u0645\u0631\u062D\u0628\u0627"),
};

// Bytes with malformed sequences: their UTF-16 and UTF-8 after a repair, and the offset and length of each sequence.
struct damaged {
    std::string bytes;
    pair repaired;
    std::vector<std::array<std::size_t, 2>> malformed;
};

#define F "\uFFFD"

// The first four are Tables 3-8 to 3-11 of the Unicode Standard.
static const std::vector<damaged> DAMAGED = {
    {"\xC0\xAF\xE0\x80\xBF\xF0\x81\x82\x41",
     PAIR(F F F F F F F F "A"),
     {{0, 1}, {1, 1}, {2, 1}, {3, 1}, {4, 1}, {5, 1}, {6, 1}, {7, 1}}},
    {"\xED\xA0\x80\xED\xBF\xBF\xED\xAF\x41",
     PAIR(F F F F F F F F "A"),
     {{0, 1}, {1, 1}, {2, 1}, {3, 1}, {4, 1}, {5, 1}, {6, 1}, {7, 1}}},
    {"\xF4\x91\x92\x93\xFF\x41\x80\xBF\x42",
     PAIR(F F F F F "A" F F "B"),
     {{0, 1}, {1, 1}, {2, 1}, {3, 1}, {4, 1}, {6, 1}, {7, 1}}},
    {"\xE1\x80\xE2\xF0\x91\x92\xF1\xBF\x41", PAIR(F F F F "A"), {{0, 2}, {2, 1}, {3, 3}, {6, 2}}},
    {"\xF0\x9F\x98", PAIR(F), {{0, 3}}},
    {"text, then \xE2\x98", PAIR("text, then " F), {{11, 2}}},
    {"\x80 and \xF0\x9F\x98\x80", PAIR(F " and \U0001F600"), {{0, 1}}},
};

template <class String> static String times(std::size_t count, const String &text)
{
    String result;
    for (std::size_t i = 0; i < count; i++) {
        result += text;
    }
    return result;
}

// The UTF-8 of a scalar value, by Table 3-6.
static std::string utf8_of(std::uint32_t value)
{
    const auto continuation = [=](int shift) { return static_cast<char>(0x80 | (value >> shift & 0x3F)); };
    if (value < 0x80) {
        return {static_cast<char>(value)};
    }
    if (value < 0x800) {
        return {static_cast<char>(0xC0 | value >> 6), continuation(0)};
    }
    if (value < 0x10000) {
        return {static_cast<char>(0xE0 | value >> 12), continuation(6), continuation(0)};
    }
    return {static_cast<char>(0xF0 | value >> 18), continuation(12), continuation(6), continuation(0)};
}

// The UTF-16 of a scalar value, by Table 3-5.
static std::u16string utf16_of(std::uint32_t value)
{
    if (value < 0x10000) {
        return {static_cast<char16_t>(value)};
    }
    return {static_cast<char16_t>(0xD800 + (value - 0x10000) / 0x400),
            static_cast<char16_t>(0xDC00 + (value - 0x10000) % 0x400)};
}

static void arguments()
{
    const std::vector<std::byte> some_bytes = {std::byte{0xC3}, std::byte{0xAF}, std::byte{0xFF}};
    const std::vector<unsigned char> octets = {0xC3, 0xAF, 0xFF};
    const std::array<char, 3> characters = {'\xC3', '\xAF', '\xFF'};
    const std::vector<std::uint16_t> units = {0x61, 0xD800};
    CHECK(encoding_text::utf8_valid_up_to("\xC3\xAF\xFF") == 2);
    CHECK(encoding_text::utf8_valid_up_to("\xC3\xAF\xFF"s) == 2);
    CHECK(encoding_text::utf8_valid_up_to("\xC3\xAF\0\xFF"sv) == 3);
    CHECK(encoding_text::utf8_valid_up_to(some_bytes) == 2);
    CHECK(encoding_text::utf8_valid_up_to(octets) == 2);
    CHECK(encoding_text::utf8_valid_up_to(characters) == 2);
    CHECK(encoding_text::utf8_valid_up_to({octets.data(), 2}) == 2);
    CHECK(encoding_text::utf16_valid_up_to(u"a") == 1);
    CHECK(encoding_text::utf16_valid_up_to(u"a\0b"sv) == 3);
    CHECK(encoding_text::utf16_valid_up_to(units) == 1);
    CHECK(encoding_text::utf16_valid_up_to({units.data(), 2}) == 1);
    CHECK((!std::is_convertible_v<std::list<char>, bytes>));
    CHECK((!std::is_convertible_v<std::vector<int>, bytes>));
    CHECK((!std::is_convertible_v<std::wstring, code_units>));
    CHECK((!std::is_convertible_v<std::nullptr_t, bytes>));
#if __cplusplus >= 202002L
    CHECK(encoding_text::utf8_valid_up_to(std::span(octets)) == 2);
    CHECK(encoding_text::utf8_valid_up_to(std::as_bytes(std::span(octets))) == 2);
    CHECK(encoding_text::utf8_valid_up_to(std::span<const std::byte>()) == 0);
    CHECK(encoding_text::utf8_valid_up_to(u8"\u00EF"sv) == 2);
    CHECK(encoding_text::utf16_valid_up_to(std::span(units)) == 1);
    CHECK(std::input_iterator<encoding_text::malformed_sequences::iterator>);
#endif
}

static void empty_arguments()
{
    CHECK(encoding_text::is_utf8(bytes()) && encoding_text::is_utf16(code_units()));
    CHECK(encoding_text::convert_utf8_to_utf16(bytes()).empty());
    CHECK(encoding_text::convert_utf16_to_utf8(code_units()).empty());
    CHECK(encoding_text::convert_latin1_to_utf8(bytes()).empty());
    CHECK(encoding_text::convert_latin1_to_utf16(bytes()).empty());
    CHECK(encoding_text::convert_utf8_to_latin1(bytes()) == ""s);
    CHECK(encoding_text::convert_utf16_to_latin1(code_units()) == ""s);
    CHECK(encoding_text::repair(bytes()).text.empty());
    utf8_decoder decoder;
    std::string text;
    CHECK(decoder.decode(bytes(), text, true) == 0 && text.empty());
}

// Whether a string ends with a zero, and its memory is as long as its text, for the library whose strings double only short
// ones.
template <class String> static bool is_exact(const String &text)
{
    if (text.c_str()[text.size()] != 0) {
        return false;
    }
#ifdef __GLIBCXX__
    return text.size() <= 30 || text.capacity() == text.size();
#else
    return true;
#endif
}

static void sound_text(const pair &text)
{
    CHECK(encoding_text::is_utf8(text.utf8));
    CHECK(encoding_text::is_utf16(text.utf16));
    const auto utf16 = encoding_text::convert_utf8_to_utf16(text.utf8);
    CHECK(utf16 == text.utf16 && is_exact(utf16));
    CHECK(encoding_text::convert_utf8_to_utf16_without_replacement(text.utf8) == text.utf16);
    const auto utf8 = encoding_text::convert_utf16_to_utf8(text.utf16);
    CHECK(utf8 == text.utf8 && is_exact(utf8));
    const auto repaired = encoding_text::repair(text.utf8);
    CHECK(repaired.text == text.utf8 && repaired.replaced == 0 && is_exact(repaired.text));
    CHECK(encoding_text::utf8_count(text.utf8) == encoding_text::utf16_count(text.utf16));
    CHECK(encoding_text::utf8_count_unchecked(text.utf8) == encoding_text::utf16_count(text.utf16));
    CHECK(encoding_text::utf16_length_from_utf8_unchecked(text.utf8) == text.utf16.size());
    if (const auto latin1 = encoding_text::convert_utf8_to_latin1(text.utf8)) {
        CHECK(encoding_text::latin1_length_from_utf8_unchecked(text.utf8) == latin1->size());
    }
    CHECK(encoding_text::repaired_utf8_length(text.utf8) == text.utf8.size());
    CHECK(encoding_text::next_malformed(text.utf8).length == 0);
    CHECK(encoding_text::next_malformed(text.utf8).offset == text.utf8.size());
    CHECK(encoding_text::next_malformation(text.utf8).kind == encoding_text::malformation_kind::well_formed);
    const encoding_text::malformed_sequences malformed(text.utf8);
    CHECK(malformed.begin() == malformed.end());
}

static void sound_texts()
{
    for (const pair &text : TEXTS) {
        sound_text(text);
        sound_text({times(5003, text.utf8), times(5003, text.utf16)});
    }
    CHECK(encoding_text::is_ascii("~\x7F"sv) && !encoding_text::is_ascii("~\x80"));
}

static void each_scalar_value()
{
    std::size_t right = 0, values = 0;
    pair all;
    for (std::uint32_t value = 0; value < 0x110000; value++) {
        if (value >= 0xD800 && value < 0xE000) {
            continue;
        }
        const std::string utf8 = utf8_of(value);
        const std::u16string utf16 = utf16_of(value);
        values++;
        right += encoding_text::convert_utf8_to_utf16(utf8) == utf16
                 && encoding_text::convert_utf16_to_utf8(utf16) == utf8 && encoding_text::is_utf8(utf8);
        all.utf8 += utf8;
        all.utf16 += utf16;
    }
    CHECK(values == 0x110000 - 0x800 && right == values);
    sound_text(all);
}

static void latin1()
{
    std::string latin1;
    pair text;
    for (std::uint32_t value = 0; value < 0x100; value++) {
        latin1 += static_cast<char>(value);
        text.utf8 += utf8_of(value);
        text.utf16 += utf16_of(value);
    }
    for (std::size_t count : {1, 1001}) {
        const std::string many = times(count, latin1), utf8 = times(count, text.utf8);
        const std::u16string utf16 = times(count, text.utf16);
        CHECK(encoding_text::is_utf8_latin1(utf8) && encoding_text::is_utf16_latin1(utf16));
        CHECK(encoding_text::convert_latin1_to_utf8(many) == utf8);
        CHECK(encoding_text::convert_latin1_to_utf16(many) == utf16);
        CHECK(encoding_text::convert_utf8_to_latin1(utf8) == many);
        CHECK(encoding_text::convert_utf16_to_latin1(utf16) == many);
        CHECK(is_exact(*encoding_text::convert_utf8_to_latin1(utf8)));
        CHECK(encoding_text::convert_utf8_to_latin1(utf8 + utf8_of(0x100)) == std::nullopt);
        CHECK(encoding_text::convert_utf8_to_latin1(utf8 + "\xC3") == std::nullopt);
        CHECK(encoding_text::convert_utf16_to_latin1(utf16 + u"\u0100") == std::nullopt);
        CHECK(!encoding_text::is_utf8_latin1(utf8 + utf8_of(0x100)));
        CHECK(!encoding_text::is_utf16_latin1(utf16 + u"\u0100"));
    }
}

// Why a sequence is malformed, by Table 3-7.
static encoding_text::malformation_kind kind_of(const std::string &text, std::size_t offset, std::size_t length)
{
    using kind = encoding_text::malformation_kind;
    const auto byte = [&](std::size_t i) { return static_cast<unsigned char>(text[i]); };
    const unsigned first = byte(offset);
    if (first < 0xC0) {
        return kind::unexpected_continuation;
    }
    if (first < 0xC2 || first > 0xF4) {
        return kind::disallowed_byte;
    }
    if (offset + length == text.size()) {
        return kind::incomplete_at_end;
    }
    const unsigned next = byte(offset + 1);
    if (length > 1 || next < 0x80 || next > 0xBF) {
        return kind::truncated;
    }
    return first == 0xED ? kind::surrogate : first == 0xF4 ? kind::too_large : kind::overlong;
}

using malformations = std::vector<std::array<std::size_t, 3>>;

// The offset, length and kind of each malformed sequence, as the calls find one after another from an offset on.
static malformations each_malformation(const std::string &text)
{
    malformations all;
    std::size_t offset = 0;
    for (;;) {
        const auto next = encoding_text::next_malformed(text, offset);
        const auto same = encoding_text::next_malformation(text, offset);
        CHECK(next.offset == same.offset && next.length == same.length);
        if (next.length == 0 || all.size() > text.size()) {
            CHECK(next.length == 0 && next.offset == text.size() && same.kind == encoding_text::malformation_kind::well_formed);
            return all;
        }
        all.push_back({same.offset, same.length, static_cast<std::size_t>(same.kind)});
        offset = same.offset + same.length;
    }
}

// What a row has, `before` bytes of ASCII before it.
static malformations found_at(const damaged &text, std::size_t before)
{
    malformations all;
    for (const auto [offset, length] : text.malformed) {
        all.push_back({before + offset, length, static_cast<std::size_t>(kind_of(text.bytes, offset, length))});
    }
    return all;
}

// Checks bytes with malformed sequences, `before` bytes of ASCII before them.
static void damaged_text(const damaged &text, std::size_t before)
{
    const std::string letters(before, 'a'), source = letters + text.bytes;
    const std::u16string utf16 = std::u16string(before, u'a') + text.repaired.utf16;
    CHECK(!encoding_text::is_utf8(source));
    CHECK(encoding_text::utf8_valid_up_to(source) == before + text.malformed[0][0]);
    CHECK(encoding_text::convert_utf8_to_utf16_without_replacement(source) == std::nullopt);
    const auto converted = encoding_text::convert_utf8_to_utf16(source);
    CHECK(converted == utf16 && is_exact(converted));
    const auto repaired = encoding_text::repair(source);
    CHECK(repaired.text == letters + text.repaired.utf8 && is_exact(repaired.text));
    CHECK(repaired.replaced == text.malformed.size());
    CHECK(encoding_text::repaired_utf8_length(source) == before + text.repaired.utf8.size());
    std::vector<std::array<std::size_t, 2>> found;
    for (const auto [offset, length] : encoding_text::malformed_sequences(source)) {
        found.push_back({offset - before, length});
    }
    CHECK(found == text.malformed);
    CHECK(each_malformation(source) == found_at(text, before));
    CHECK(encoding_text::utf8_count(source) == encoding_text::utf16_count(utf16));
}

// The malformed sequences of a stream, in blocks of this length, are those of its bytes.
static void searches(const std::string &text, std::size_t length)
{
    malformations found;
    encoding_text::malformed_search search;
    for (std::size_t i = 0; i <= text.size(); i += length) {
        CHECK(search.search(std::string_view(text).substr(i, length), i + length > text.size(),
                            [&](const encoding_text::stream_malformation &malformed) {
                                found.push_back({static_cast<std::size_t>(malformed.offset), malformed.length,
                                                 static_cast<std::size_t>(malformed.kind)});
                            }));
    }
    CHECK(found == each_malformation(text));
}

static void searched_streams()
{
    std::string text;
    for (int i = 0; i < 40; i++) {
        text += "a\xE2\x98\xF0\x9F\x92z\xFF\xED\xA0\x80";
    }
    text += "\xE2\x98";
    for (const std::size_t length : {1, 2, 3, 5, 64, 1000}) {
        searches(text, length);
    }
    CHECK(!encoding_text::malformed_search(UINT64_MAX).search("a", true, [](const auto &) {}));
}

static void damaged_texts()
{
    for (const damaged &text : DAMAGED) {
        for (std::size_t before = 0; before < 70; before++) {
            damaged_text(text, before);
        }
        damaged_text(text, 100003);
        damaged many = {times(5003, text.bytes + "."), {}, {}};
        for (std::size_t i = 0; i < 5003; i++) {
            for (const auto [offset, length] : text.malformed) {
                many.malformed.push_back({i * (text.bytes.size() + 1) + offset, length});
            }
        }
        many.repaired = {times(5003, text.repaired.utf8 + "."), times(5003, text.repaired.utf16 + u".")};
        damaged_text(many, 0);
    }
}

static void iterators()
{
    const std::string text = "a\xFF" "bc\xE2\x98";
    const encoding_text::malformed_sequences sequences(text);
    auto it = sequences.begin();
    CHECK(it->offset == 1 && it->length == 1 && (*it).offset == 1 && it != sequences.end());
    const auto before = it++;
    CHECK(before->offset == 1 && it->offset == 4 && it->length == 2 && before != it && before == sequences.begin());
    CHECK(&++it == &it && it == sequences.end() && it->offset == text.size() && it->length == 0);
    CHECK(sequences.begin()->offset == 1);
    CHECK((std::is_same_v<decltype(it)::value_type, encoding_text::malformed_sequence>));
    CHECK(encoding_text::malformed_sequences("a").begin() == encoding_text::malformed_sequences("a").end());
    auto second = encoding_text::malformed_sequences("\xFF\xFF").begin();
    const auto first = second++;
    CHECK(first != second && first->length == second->length);
}

// A source and spans of more than 4 GiB, of which only the first bytes are read or written.
static void long_spans(const bytes &source, char *text, char16_t *units)
{
    using encoding_text::decoder_result;
    encoding_text::decoder utf8(encoding_text::encoding::utf_8, encoding_text::bom_handling::off);
    utf16_decoder utf16(false);
    std::array<char, 64> octets;
    std::array<char16_t, 64> few;
    CHECK(utf8.decode(source, octets, true).result == decoder_result::output_full);
    CHECK(utf8.decode(source, few, true).result == decoder_result::output_full);
    CHECK(utf8.decode_without_replacement(source, octets, true).result == decoder_result::output_full);
    CHECK(utf8.decode_without_replacement(source, few, true).result == decoder_result::output_full);
    CHECK(utf16.decode_without_replacement(source, octets, true).result == decoder_result::output_full);
    CHECK(utf16.decode_without_replacement(source, few, true).result == decoder_result::output_full);
    const encoding_text::writable_bytes many{text, source.size()};
    const encoding_text::writable_code_units more{units, source.size()};
    const std::string some(40, 'a');
    CHECK(utf8.decode(some, many, true).written == 40 && utf8.decode(some, more, true).written == 40);
    CHECK(utf8.decode_without_replacement(some, many, true).written == 40);
    CHECK(utf8.decode_without_replacement(some, more, true).written == 40);
    CHECK(utf16.decode_without_replacement(some, many, true).written == 60);
    CHECK(utf16.decode_without_replacement(some, more, true).written == 20);
}

// Lengths and offsets have the type of the C functions' own, also those above 2^32 - 1.
static void long_texts()
{
    static_assert(std::is_same_v<decltype(encoding_text::utf8_valid_up_to("")), std::size_t>);
    static_assert(std::is_same_v<decltype(encoding_text::utf16_valid_up_to(u"")), std::size_t>);
    static_assert(std::is_same_v<decltype(encoding_text::utf8_count("")), std::size_t>);
    static_assert(std::is_same_v<decltype(encoding_text::utf16_count(u"")), std::size_t>);
    static_assert(std::is_same_v<decltype(encoding_text::repaired_utf8_length("")), std::size_t>);
    static_assert(std::is_same_v<decltype(encoding_text::malformed_sequence::offset), std::size_t>);
    static_assert(std::is_same_v<decltype(encoding_text::malformation::offset), std::size_t>);
    static_assert(std::is_same_v<decltype(encoding_text::repaired_text::replaced), std::uint64_t>);
    static_assert(std::is_same_v<decltype(bytes().size()), std::size_t>);
    // The memory is never written but for its first page: the others are the system's one page of zeros.
    const std::size_t low = 8, length = (std::size_t{1} << 32) + low;
    void *memory = mmap(nullptr, 2 * length, PROT_READ | PROT_WRITE, MAP_PRIVATE | MAP_ANONYMOUS | MAP_NORESERVE, -1, 0);
    CHECK(memory != MAP_FAILED);
    if (memory == MAP_FAILED) {
        return;
    }
    const auto text = static_cast<unsigned char *>(memory);
    const auto units = static_cast<std::uint16_t *>(memory);
    text[low + 2] = 0xFF;
    const bytes some{text, length};
    CHECK(some.size() == length && some.from(1).size() == length - 1 && some.from(length - 1).data() == text + length - 1);
    CHECK(!encoding_text::is_ascii(some) && !encoding_text::is_utf8(some) && !encoding_text::is_utf8_latin1(some));
    CHECK(encoding_text::utf8_valid_up_to(some) == low + 2);
    CHECK(encoding_text::next_malformed(some, 3).offset == low + 2);
    CHECK(encoding_text::next_malformation(some, 3).offset == low + 2);
    CHECK(encoding_text::malformed_sequences(some).begin()->offset == low + 2);
    CHECK(encoding_text::convert_utf8_to_utf16_without_replacement(some) == std::nullopt);
    CHECK(encoding_text::convert_utf8_to_latin1(some) == std::nullopt);
    text[low + 2] = 0;
    text[length - 2] = 0xFF;
    CHECK(encoding_text::utf8_valid_up_to(some) == length - 2);
    text[length - 2] = 0;
    units[low + 2] = 0xD800;
    const code_units all{units, length};
    CHECK(!encoding_text::is_utf16(all) && !encoding_text::is_utf16_latin1(all));
    CHECK(encoding_text::utf16_valid_up_to(all) == low + 2);
    CHECK(encoding_text::convert_utf16_to_latin1(all) == std::nullopt);
    CHECK(encoding_text::utf16_count(all) == length);
    units[low + 2] = 0;
    units[length - 2] = 0xD800;
    CHECK(encoding_text::utf16_valid_up_to(all) == length - 2);
    units[length - 2] = 0;
    CHECK(encoding_text::utf8_count(some) == length && encoding_text::repaired_utf8_length(some) == length);
    CHECK(encoding_text::next_malformed(some, length - low).offset == length);
    CHECK(encoding_text::next_malformation(some, length - low).offset == length);
    long_spans(some, static_cast<char *>(memory), static_cast<char16_t *>(memory));
    munmap(memory, 2 * length);
}

static void unpaired_surrogates()
{
    const char16_t high[] = {u'a', 0xD83D, 0}, low[] = {0xDE00, u'b', 0}, swapped[] = {0xDE00, 0xD83D, 0};
    CHECK(encoding_text::utf16_valid_up_to(high) == 1 && !encoding_text::is_utf16(high));
    CHECK(encoding_text::utf16_valid_up_to(low) == 0);
    CHECK(!encoding_text::is_utf16(u"a\xD800"sv) && !encoding_text::is_utf16(u"\xDC00"sv));
    CHECK(!encoding_text::is_utf8("a\xC3") && !encoding_text::is_utf8("\xFF") && encoding_text::is_utf8("a"));
    CHECK(encoding_text::convert_utf16_to_utf8(high) == PAIR("a" F).utf8);
    CHECK(encoding_text::convert_utf16_to_utf8(low) == PAIR(F "b").utf8);
    CHECK(encoding_text::convert_utf16_to_utf8(swapped) == PAIR(F F).utf8);
}

// Decodes bytes in two pieces, both ways.
static bool decodes(const std::string &source, std::size_t cut, const pair &wanted, std::size_t replaced)
{
    utf8_decoder to_utf16, to_utf8;
    std::u16string utf16 = u"before ";
    std::string utf8 = "before ";
    std::size_t count16 = to_utf16.decode(std::string_view(source).substr(0, cut), utf16, false);
    std::size_t count8 = to_utf8.decode(std::string_view(source).substr(0, cut), utf8, false);
    count16 += to_utf16.decode(std::string_view(source).substr(cut), utf16, true);
    count8 += to_utf8.decode(std::string_view(source).substr(cut), utf8, true);
    return utf16 == u"before " + wanted.utf16 && utf8 == "before " + wanted.utf8 && count16 == replaced
           && count8 == replaced && to_utf16.in_neutral_state() && to_utf8.in_neutral_state();
}

// The malformed sequences that a decoder hands out, of bytes in three pieces.
static void places()
{
    const std::string source = "a\x80\xFF\xE0\x80\xED\xA0\x80\xF4\x91\xE2\x98z\xF0\x9F\x98";
    for (std::size_t first = 0; first <= source.size(); first++) {
        for (std::size_t second = first; second <= source.size(); second++) {
            std::vector<std::array<std::size_t, 3>> found16, found8, wanted;
            const auto add_to = [](auto &found) {
                return [&found](const encoding_text::malformation &one) {
                    found.push_back({one.offset, one.length, static_cast<std::size_t>(one.kind)});
                };
            };
            for (std::size_t offset = 0;;) {
                const auto one = encoding_text::next_malformation(source, offset);
                if (one.length == 0) {
                    break;
                }
                add_to(wanted)(one);
                offset = one.offset + one.length;
            }
            utf8_decoder to_utf16, to_utf8;
            std::u16string utf16;
            std::string utf8;
            const auto piece = [&](std::size_t from, std::size_t to) { return std::string_view(source).substr(from, to - from); };
            to_utf16.decode(piece(0, first), utf16, false, add_to(found16));
            to_utf16.decode(piece(first, second), utf16, false, add_to(found16));
            to_utf16.decode(piece(second, source.size()), utf16, true, add_to(found16));
            to_utf8.decode(piece(0, first), utf8, false, add_to(found8));
            to_utf8.decode(piece(first, second), utf8, false, add_to(found8));
            CHECK(to_utf8.decode(piece(second, source.size()), utf8, true, add_to(found8)) <= 11);
            CHECK(wanted.size() == 11 && found16 == wanted && found8 == wanted);
            CHECK(utf16 == encoding_text::convert_utf8_to_utf16(source) && utf8 == encoding_text::repair(source).text);
        }
    }
    utf8_decoder decoder;
    std::string text;
    std::size_t offset = 0;
    decoder.decode("abc\xFF", text, false);
    decoder.decode("d\xFF", text, false, [&](const encoding_text::malformation &one) { offset = one.offset; });
    CHECK(offset == 5);
    decoder.reset();
    decoder.decode("\xFF", text, false, [&](const encoding_text::malformation &one) { offset = one.offset; });
    CHECK(offset == 0);
    // after the last call a stream begins, whichever call that is
    std::u16string units;
    decoder.decode("abc\xFF", text, true);
    decoder.decode("d\xFF", text, true, [&](const encoding_text::malformation &one) { offset = one.offset; });
    CHECK(offset == 1);
    decoder.decode("ef\xFF", units, true, [&](const encoding_text::malformation &one) { offset = one.offset; });
    CHECK(offset == 2);
    decoder.decode("ab", units, true);
    decoder.decode("g\xE2\x98", units, false, [&](const encoding_text::malformation &) { offset = 9; });
    decoder.decode("", units, true, [&](const encoding_text::malformation &one) { offset = one.offset; });
    CHECK(offset == 1);
}

#ifdef __cpp_char8_t
// A literal of char8_t, as any other one, up to its NUL.
static void literals_of_char8_t()
{
    CHECK(encoding_text::is_utf8(u8"\u00E9") && encoding_text::utf8_count(u8"\u00E9\u4F60") == 2 && bytes(u8"\u00E9").size() == 2);
    CHECK(encoding_text::convert_utf8_to_utf16(u8"na\u00EFve \U0001F600") == u"na\u00EFve \U0001F600");
    CHECK(encoding_text::repair(u8"\u00E9\u4F60").text == "\xC3\xA9\xE4\xBD\xA0" && bytes(u8"").size() == 0);
}
#endif

static void decoder()
{
    for (const pair &text : TEXTS) {
        for (std::size_t cut = 0; cut <= text.utf8.size(); cut++) {
            CHECK(decodes(text.utf8, cut, text, 0));
        }
    }
    for (const damaged &text : DAMAGED) {
        for (std::size_t cut = 0; cut <= text.bytes.size(); cut++) {
            CHECK(decodes(text.bytes, cut, text.repaired, text.malformed.size()));
        }
        const pair many = {times(5003, text.repaired.utf8 + "."), times(5003, text.repaired.utf16 + u".")};
        CHECK(decodes(times(5003, text.bytes + "."), 10007, many, 5003 * text.malformed.size()));
    }
    places();
#ifdef __cpp_char8_t
    literals_of_char8_t();
#endif
    utf8_decoder pending;
    std::string text;
    CHECK(pending.decode("\xE2\x98", text, false) == 0 && text.empty() && !pending.in_neutral_state());
    utf8_decoder copy = pending;
    pending.reset();
    CHECK(pending.in_neutral_state() && pending.decode("Z", text, true) == 0 && text == "Z");
    CHECK(copy.decode("\x83", text, true) == 0 && text == "Z\xE2\x98\x83");
}

// Calls with 0, 1, 2, .. allocations until one succeeds, and returns how many failed by std::bad_alloc.
template <class Call, class Check> static int failures(Call call, Check is_unchanged)
{
    for (int count = 0;; count++) {
        allocations_left = static_cast<std::size_t>(count);
        bool is_done = true;
        try {
            call();
        } catch (const std::bad_alloc &) {
            is_done = false;
        }
        allocations_left = std::numeric_limits<std::size_t>::max();
        if (is_done) {
            return count;
        }
        CHECK(is_unchanged());
    }
}

static void failing_memory()
{
    const std::string long_text(1000, 'a'), bad(1000, '\xFF');
    const std::u16string long_utf16(1000, u'a');
    const auto always = [] { return true; };
    CHECK(failures([&] { encoding_text::repair(bad); }, always) == 1);
    CHECK(failures([&] { encoding_text::convert_utf8_to_utf16(bad); }, always) == 1);
    CHECK(failures([&] { encoding_text::convert_utf8_to_utf16_without_replacement(long_text); }, always) == 1);
    CHECK(failures([&] { encoding_text::convert_utf16_to_utf8(long_utf16); }, always) == 1);
    CHECK(failures([&] { encoding_text::convert_utf16_to_utf8_with_count(long_utf16); }, always) == 1);
    CHECK(failures([&] { encoding_text::convert_latin1_to_utf8(bad); }, always) == 1);
    CHECK(failures([&] { encoding_text::convert_latin1_to_utf16(bad); }, always) == 1);
    CHECK(failures([&] { encoding_text::convert_utf8_to_latin1(long_text); }, always) == 1);
    CHECK(failures([&] { encoding_text::convert_utf16_to_latin1(long_utf16); }, always) == 1);

    utf8_decoder decoder;
    std::string text;
    std::u16string utf16;
    decoder.decode("a\xE2\x98", text, false);
    utf8_decoder second = decoder;
    const auto unchanged16 = [&] { return utf16.empty() && !second.in_neutral_state(); };
    CHECK(failures([&] { second.decode(bad, utf16, true); }, unchanged16) == 1);
    CHECK(utf16 == times(1001, PAIR(F).utf16) && second.in_neutral_state());
    const auto unchanged8 = [&] { return text == "a" && !decoder.in_neutral_state(); };
    CHECK(failures([&] { decoder.decode(bad, text, true); }, unchanged8) > 1);
    CHECK(text == "a" + times(1001, PAIR(F).utf8) && decoder.in_neutral_state());

    utf16_decoder utf16_pending(true);
    text.clear();
    utf16_pending.decode("\xD8", text, false);
    utf16_decoder utf16_second = utf16_pending;
    utf16.clear();
    utf16.shrink_to_fit();
    text.shrink_to_fit();
    const auto utf16_unchanged = [&] { return utf16.empty() && !utf16_second.in_neutral_state(); };
    CHECK(failures([&] { utf16_second.decode(long_text, utf16, true); }, utf16_unchanged) == 1 && utf16.size() == 501);
    const auto utf8_unchanged = [&] { return text.empty() && !utf16_pending.in_neutral_state(); };
    CHECK(failures([&] { utf16_pending.decode(long_text, text, true); }, utf8_unchanged) == 1 && text.size() == 1503);

    encoding_text::decoder marked(encoding_text::encoding::utf_8);
    text.clear();
    text.shrink_to_fit();
    utf16.clear();
    utf16.shrink_to_fit();
    marked.decode("\xFF", text, false);
    encoding_text::decoder marked_second = marked;
    const auto marked_unchanged = [&] { return utf16.empty() && text.empty() && !marked.in_neutral_state(); };
    CHECK(failures([&] { marked.decode(bad, text, true); }, marked_unchanged) > 1 && text.size() == 3003);
    CHECK(failures([&] { marked_second.decode(bad, utf16, true); }, [&] { return utf16.empty(); }) == 1);
    CHECK(utf16.size() == 1001);
}

int main()
{
    arguments();
    empty_arguments();
    sound_texts();
    each_scalar_value();
    latin1();
    damaged_texts();
    searched_streams();
    iterators();
    long_texts();
    unpaired_surrogates();
    decoder();
    utf16_decoders();
    marked_decoders();
    long_calls();
    failing_memory();
    return finish();
}
