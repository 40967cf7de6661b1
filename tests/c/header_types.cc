// What the types of encoding_text.hpp take and refuse, and which calls throw nothing, as lists that the compiler checks. What
// must not compile can't be a call in a test.
#include "encoding_text.hpp"

#include <array>
#include <string>
#include <type_traits>
#include <utility>
#include <vector>
#if __cplusplus >= 202002L
#include <span>
#endif

using encoding_text::bytes;
using encoding_text::code_units;
using encoding_text::decoder;
using encoding_text::malformed_search;
using encoding_text::malformed_sequences;
using encoding_text::utf16_decoder;
using encoding_text::utf8_decoder;
using encoding_text::writable_bytes;
using encoding_text::writable_code_units;

template <class View, class... Types> constexpr bool takes_each = (std::is_convertible_v<Types, View> && ...);
template <class View, class... Types> constexpr bool takes_none = (!std::is_constructible_v<View, Types> && ...);

// ---- what is read
static_assert(takes_each<bytes, const char *, char *, const char (&)[3], std::string, const std::string &, std::string_view,
                         std::vector<char>, std::vector<unsigned char>, std::vector<std::byte>, std::array<std::uint8_t, 4>>);
static_assert(takes_none<bytes, std::nullptr_t, int, char, std::size_t, const void *, const signed char *, const int *, const wchar_t *,
                         const char16_t *, std::u16string, std::wstring, std::vector<int>, std::vector<char16_t>,
                         std::array<std::uint16_t, 4>, std::vector<std::string>, code_units>);
static_assert(std::is_constructible_v<bytes, const char *, std::size_t> && std::is_constructible_v<bytes, const std::uint8_t *, std::size_t>
              && std::is_constructible_v<bytes, const std::byte *, std::size_t>);
static_assert(!std::is_constructible_v<bytes, std::nullptr_t, std::size_t> && !std::is_constructible_v<bytes, const char16_t *, std::size_t>
              && !std::is_constructible_v<bytes, const void *, std::size_t>);
static_assert(takes_each<code_units, const char16_t *, const char16_t (&)[3], std::u16string, std::u16string_view,
                         std::vector<char16_t>, std::vector<std::uint16_t>, std::array<char16_t, 4>>);
static_assert(takes_none<code_units, std::nullptr_t, int, char16_t, const char *, const void *, const wchar_t *, const char32_t *, std::string,
                         std::u32string, std::vector<int>, std::vector<char>, bytes>);
static_assert(!std::is_constructible_v<code_units, const char *, std::size_t> && !std::is_constructible_v<code_units, std::nullptr_t, std::size_t>);
#ifdef __cpp_char8_t
static_assert(takes_each<bytes, const char8_t *, const char8_t (&)[3], std::u8string, std::u8string_view, std::vector<char8_t>>);
static_assert(takes_none<code_units, const char8_t *, std::u8string> && takes_each<writable_bytes, std::u8string &>);
#endif

// ---- what is written: only elements that aren't const
static_assert(takes_each<writable_bytes, char (&)[4], std::string &, std::vector<char> &, std::array<std::byte, 4> &, unsigned char (&)[4]>);
static_assert(takes_none<writable_bytes, std::nullptr_t, const char *, char *, const char (&)[4], const std::string &, std::string_view,
                         const std::vector<char> &, const std::array<char, 4> &, std::array<const char, 4> &, std::u16string &,
                         std::vector<int> &, std::vector<signed char> &, bytes, writable_code_units>);
static_assert(std::is_constructible_v<writable_bytes, char *, std::size_t> && !std::is_constructible_v<writable_bytes, const char *, std::size_t>
              && !std::is_constructible_v<writable_bytes, void *, std::size_t> && !std::is_constructible_v<writable_bytes, char16_t *, std::size_t>);
static_assert(takes_each<writable_code_units, char16_t (&)[4], std::u16string &, std::vector<std::uint16_t> &, std::array<char16_t, 4> &>);
static_assert(takes_none<writable_code_units, std::nullptr_t, const char16_t *, const char16_t (&)[4], const std::u16string &, std::u16string_view,
                         const std::array<char16_t, 4> &, const std::vector<char16_t> &, std::string &, std::vector<int> &, code_units,
                         writable_bytes>);
static_assert(std::is_constructible_v<writable_code_units, char16_t *, std::size_t>
              && !std::is_constructible_v<writable_code_units, const char16_t *, std::size_t>);
#if __cplusplus >= 202002L
static_assert(takes_each<bytes, std::span<char>, std::span<const std::byte>> && takes_each<writable_bytes, std::span<char>>
              && takes_none<writable_bytes, std::span<const char>> && takes_none<writable_code_units, std::span<const char16_t>>);
#endif

// ---- what has to be said: no number is an offset, an encoding or the order of bytes by itself
static_assert(!std::is_convertible_v<bool, utf16_decoder> && !std::is_default_constructible_v<utf16_decoder>
              && !std::is_convertible_v<std::uint64_t, malformed_search> && !std::is_convertible_v<bytes, malformed_sequences>
              && !std::is_convertible_v<encoding_text::encoding, decoder> && !std::is_constructible_v<decoder, int>
              && !std::is_constructible_v<decoder, bool>);

// ---- what throws nothing
template <class T> T &some() noexcept;
#define THROWS_NOTHING(...) static_assert(noexcept(__VA_ARGS__))
#define MAY_THROW(...) static_assert(!noexcept(__VA_ARGS__))
THROWS_NOTHING(bytes());
THROWS_NOTHING(bytes(some<const char *>()));
THROWS_NOTHING(bytes(some<const char *>(), 1));
THROWS_NOTHING(bytes(some<std::string>()));
THROWS_NOTHING(code_units(some<const char16_t *>()));
THROWS_NOTHING(code_units(some<std::u16string>()));
THROWS_NOTHING(writable_bytes());
THROWS_NOTHING(writable_bytes(some<char *>(), 1));
THROWS_NOTHING(writable_bytes(some<std::string>()));
THROWS_NOTHING(writable_code_units(some<std::u16string>()));
THROWS_NOTHING(encoding_text::is_ascii(some<bytes>()));
THROWS_NOTHING(encoding_text::utf8_valid_up_to(some<bytes>()));
THROWS_NOTHING(encoding_text::is_utf8(some<bytes>()));
THROWS_NOTHING(encoding_text::is_utf8_latin1(some<bytes>()));
THROWS_NOTHING(encoding_text::utf16_valid_up_to(some<code_units>()));
THROWS_NOTHING(encoding_text::is_utf16(some<code_units>()));
THROWS_NOTHING(encoding_text::is_utf16_latin1(some<code_units>()));
THROWS_NOTHING(encoding_text::utf8_count(some<bytes>()));
THROWS_NOTHING(encoding_text::utf8_count_unchecked(some<bytes>()));
THROWS_NOTHING(encoding_text::utf16_length_from_utf8_unchecked(some<bytes>()));
THROWS_NOTHING(encoding_text::latin1_length_from_utf8_unchecked(some<bytes>()));
THROWS_NOTHING(encoding_text::utf16_count(some<code_units>()));
THROWS_NOTHING(encoding_text::repaired_utf8_length(some<bytes>()));
THROWS_NOTHING(encoding_text::next_malformed(some<bytes>()));
THROWS_NOTHING(encoding_text::next_malformation(some<bytes>()));
THROWS_NOTHING(encoding_text::for_bom(some<bytes>()));
THROWS_NOTHING(malformed_sequences(some<bytes>()));
THROWS_NOTHING(some<malformed_sequences>().begin());
THROWS_NOTHING(some<malformed_sequences>().end());
THROWS_NOTHING(++some<malformed_sequences::iterator>());
THROWS_NOTHING(some<malformed_sequences::iterator>()++);
THROWS_NOTHING(*some<malformed_sequences::iterator>());
THROWS_NOTHING(some<malformed_sequences::iterator>()->offset);
THROWS_NOTHING(some<malformed_sequences::iterator>() == some<malformed_sequences::iterator>());
THROWS_NOTHING(some<malformed_sequences::iterator>() != some<malformed_sequences::iterator>());
THROWS_NOTHING(malformed_search());
THROWS_NOTHING(utf8_decoder());
THROWS_NOTHING(some<utf8_decoder>().in_neutral_state());
THROWS_NOTHING(some<utf8_decoder>().reset());
THROWS_NOTHING(utf16_decoder(true));
THROWS_NOTHING(some<utf16_decoder>().decode_without_replacement(some<bytes>(), some<writable_bytes>(), true));
THROWS_NOTHING(some<utf16_decoder>().decode_without_replacement(some<bytes>(), some<writable_code_units>(), true));
THROWS_NOTHING(some<utf16_decoder>().in_neutral_state());
THROWS_NOTHING(some<utf16_decoder>().reset());
THROWS_NOTHING(decoder(encoding_text::encoding::utf_8));
THROWS_NOTHING(some<decoder>().decode(some<bytes>(), some<writable_bytes>(), true));
THROWS_NOTHING(some<decoder>().decode(some<bytes>(), some<writable_code_units>(), true));
THROWS_NOTHING(some<decoder>().decode_without_replacement(some<bytes>(), some<writable_bytes>(), true));
THROWS_NOTHING(some<decoder>().decode_without_replacement(some<bytes>(), some<writable_code_units>(), true));
THROWS_NOTHING(some<decoder>().current_encoding());
THROWS_NOTHING(some<decoder>().in_neutral_state());
THROWS_NOTHING(some<decoder>().reset());

// ---- what allocates, and may throw std::bad_alloc
MAY_THROW(encoding_text::convert_utf8_to_utf16(some<bytes>()));
MAY_THROW(encoding_text::convert_utf8_to_utf16_without_replacement(some<bytes>()));
MAY_THROW(encoding_text::convert_utf16_to_utf8(some<code_units>()));
MAY_THROW(encoding_text::convert_utf16_to_utf8_with_count(some<code_units>()));
MAY_THROW(encoding_text::convert_latin1_to_utf8(some<bytes>()));
MAY_THROW(encoding_text::convert_latin1_to_utf16(some<bytes>()));
MAY_THROW(encoding_text::convert_utf8_to_latin1(some<bytes>()));
MAY_THROW(encoding_text::convert_utf16_to_latin1(some<code_units>()));
MAY_THROW(encoding_text::repair(some<bytes>()));
MAY_THROW(some<utf8_decoder>().decode(some<bytes>(), some<std::string>(), true));
MAY_THROW(some<utf16_decoder>().decode(some<bytes>(), some<std::u16string>(), true));
MAY_THROW(some<decoder>().decode(some<bytes>(), some<std::string>(), true));
