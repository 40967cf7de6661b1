/**
 * @file
 * encoding_text.h for C++17 and later: validation, conversions into `std::string` and `std::u16string`, repair, and
 * incremental decoders of UTF-8, UTF-16LE and UTF-16BE, also by byte order marks. It is header-only: a program links the same
 * library as one in C.
 *
 * Terms
 * - "Well-formed", "malformed sequence", "unpaired surrogate" and "Latin1" are as in encoding_text.h.
 * - Lengths and offsets in UTF-8 and Latin1 are in bytes, those in UTF-16 are in code units.
 *
 * Arguments
 * - encoding_text::bytes and encoding_text::code_units are views, made of any contiguous text: `std::string_view`,
 *   `std::u16string_view`, a string, a literal, a vector, and from C++20 on `std::span` and `std::u8string_view`.
 *
 * Results
 * - A string that a function returns has exactly the length of its text. It is measured before memory is allocated.
 *
 * Errors
 * - The only exception is `std::bad_alloc`. A function that allocates nothing is `noexcept`.
 *
 * Threads
 * - Calls may run at once, in any threads. One thread at a time uses a decoder.
 */
#ifndef ENCODING_TEXT_HPP
#define ENCODING_TEXT_HPP

#if __cplusplus < 201703L
#error "encoding_text.hpp needs C++17 or later (-std=c++17)"
#endif

#include "encoding_text.h"

#include <cstddef>
#include <cstdint>
#include <cstring>
#include <iterator>
#include <optional>
#include <string>
#include <string_view>
#include <type_traits>
#include <utility>

/** The calls for C++. */
namespace encoding_text {

/** @cond */
namespace detail {

/* The type of the elements of a class that std::data and std::size accept. */
template <class Class>
using element = std::remove_cv_t<std::remove_pointer_t<decltype(std::data(std::declval<const Class &>()))>>;

template <class T, class... Types> constexpr bool is_one_of = (std::is_same_v<T, Types> || ...);

template <class T> struct is_byte : std::bool_constant<is_one_of<T, char, unsigned char, std::byte>> {};
#ifdef __cpp_char8_t
template <> struct is_byte<char8_t> : std::true_type {};
#endif

template <class T> struct is_code_unit : std::bool_constant<is_one_of<T, char16_t, std::uint16_t>> {};

/* A view of contiguous elements, as the C functions take them. */
template <class Unit, class Character, template <class> class IsUnit> class view {
public:
    constexpr view() noexcept = default;

    view(const Character *text) noexcept : view(std::basic_string_view<Character>(text)) {}

    view(std::nullptr_t) = delete;

#ifdef __cpp_char8_t
    template <class T, class = std::enable_if_t<std::is_same_v<T, char8_t> && IsUnit<T>::value>>
    view(const T *text) noexcept : view(std::basic_string_view<T>(text))
    {
    }
#endif

    template <class T, class = std::enable_if_t<IsUnit<T>::value>>
    view(const T *text, std::size_t length) noexcept : first(reinterpret_cast<const Unit *>(text)), count(length)
    {
    }

    template <class Text, class = std::enable_if_t<std::is_class_v<Text> && IsUnit<element<Text>>::value>>
    view(const Text &text) noexcept : view(std::data(text), std::size(text))
    {
    }

    constexpr const Unit *data() const noexcept { return first; }
    constexpr std::size_t size() const noexcept { return count; }

    /* The rest, from an offset on. */
    view from(std::size_t offset) const noexcept { return {first + offset, count - offset}; }

private:
    const Unit *first = nullptr;
    std::size_t count = 0;
};

/* The type of the elements of an object that std::data accepts, const if they can't be written. */
template <class Buffer>
using element_of_buffer = std::remove_pointer_t<decltype(std::data(std::declval<std::remove_reference_t<Buffer> &>()))>;

/* A span of contiguous elements, which the C functions write. */
template <class Unit, template <class> class IsUnit> class writable {
public:
    constexpr writable() noexcept = default;

    template <class T, class = std::enable_if_t<IsUnit<T>::value>>
    writable(T *buffer, std::size_t length) noexcept : first(reinterpret_cast<Unit *>(buffer)), count(length)
    {
    }

    template <class Buffer, class = std::enable_if_t<IsUnit<element_of_buffer<Buffer>>::value>>
    writable(Buffer &&buffer) noexcept : writable(std::data(buffer), std::size(buffer))
    {
    }

    constexpr Unit *data() const noexcept { return first; }
    constexpr std::size_t size() const noexcept { return count; }

private:
    Unit *first = nullptr;
    std::size_t count = 0;
};

/* Appends what `write` writes to `most` elements at the end of a string; `write` returns its length. If the allocation
 * fails, the string is unchanged. */
template <class String, class Write> void append(String &text, std::size_t most, Write write)
{
    const std::size_t end = text.size();
#ifdef __cpp_lib_string_resize_and_overwrite
    text.resize_and_overwrite(end + most, [=](auto *data, std::size_t) { return end + write(data + end); });
#else
    text.resize(end + most);
    text.resize(end + write(text.data() + end));
#endif
}

constexpr std::size_t room_for_pending = 16;

/* Restores a string and a decoder, unless both are kept. */
template <class String, class Decoder> class extension {
public:
    extension(String &text, Decoder &decoder) noexcept
        : extended(text), old_length(text.size()), changed(decoder), old_decoder(decoder)
    {
    }
    extension(const extension &) = delete;
    extension &operator=(const extension &) = delete;
    ~extension()
    {
        if (!is_kept) {
            extended.resize(old_length);
            changed = old_decoder;
        }
    }
    void keep() noexcept { is_kept = true; }

private:
    String &extended;
    const std::size_t old_length;
    Decoder &changed;
    const Decoder old_decoder;
    bool is_kept = false;
};

inline std::uint8_t *units(char *text) noexcept
{
    return reinterpret_cast<std::uint8_t *>(text);
}

inline std::uint16_t *units(char16_t *text) noexcept
{
    return reinterpret_cast<std::uint16_t *>(text);
}

} // namespace detail
/** @endcond */

#ifdef DOXYGEN
/** Bytes that a call reads: `std::string_view`, or any class with contiguous `char`, `unsigned char`, `std::byte` or
 * `char8_t`, such as `std::string`, `std::vector` or `std::span`; a literal up to its NUL; a pointer and a length. */
class bytes {};
/** Code units that a call reads: `std::u16string_view`, or any class with contiguous `char16_t` or `std::uint16_t`; a
 * literal up to its NUL; a pointer and a length. */
class code_units {};
/** Bytes that a call writes: an array or any class with contiguous `char`, `unsigned char`, `std::byte` or `char8_t` that
 * aren't const, such as `std::array`, `std::vector`, `std::string` or `std::span`; a pointer and a length. */
class writable_bytes {};
/** Code units that a call writes: the same, of `char16_t` or `std::uint16_t`. */
class writable_code_units {};
#else
using bytes = detail::view<std::uint8_t, char, detail::is_byte>;
using code_units = detail::view<std::uint16_t, char16_t, detail::is_code_unit>;
using writable_bytes = detail::writable<std::uint8_t, detail::is_byte>;
using writable_code_units = detail::writable<std::uint16_t, detail::is_code_unit>;
#endif

/** @name Validation
 * @{ */

/** @param text the bytes.
 * @return whether each byte is below 0x80 */
inline bool is_ascii(bytes text) noexcept
{
    return encoding_text_mem_is_ascii(text.data(), text.size());
}

/** @param text the bytes.
 * @return the length of the longest well-formed prefix */
inline std::size_t utf8_valid_up_to(bytes text) noexcept
{
    return encoding_text_utf8_valid_up_to(text.data(), text.size());
}

/** @param text the bytes.
 * @return whether they are well-formed UTF-8 */
inline bool is_utf8(bytes text) noexcept
{
    return utf8_valid_up_to(text) == text.size();
}

/** @param text the bytes.
 * @return whether they are well-formed UTF-8 with scalar values up to U+00FF */
inline bool is_utf8_latin1(bytes text) noexcept
{
    return encoding_text_mem_is_utf8_latin1(text.data(), text.size());
}

/** @param text the code units.
 * @return the offset of the first unpaired surrogate, or the length of the text if there is none */
inline std::size_t utf16_valid_up_to(code_units text) noexcept
{
    return encoding_text_mem_utf16_valid_up_to(text.data(), text.size());
}

/** @param text the code units.
 * @return whether no surrogate is unpaired */
inline bool is_utf16(code_units text) noexcept
{
    return utf16_valid_up_to(text) == text.size();
}

/** @param text the code units.
 * @return whether each is up to 0x00FF */
inline bool is_utf16_latin1(code_units text) noexcept
{
    return encoding_text_mem_is_utf16_latin1(text.data(), text.size());
}

/** @} */

/** @name Counts
 * @{ */

/** @param text the bytes.
 * @return the number of their characters, with one for each malformed sequence */
inline std::size_t utf8_count(bytes text) noexcept
{
    return encoding_text_utf8_count(text.data(), text.size());
}

/** Takes less time than `utf8_count`. If the text is ill-formed, the behaviour is undefined.
 * @param text a text.
 * @return the number of its characters */
inline std::size_t utf8_count_unchecked(bytes text) noexcept
{
    return encoding_text_utf8_count_unchecked(text.data(), text.size());
}

/** If the text is ill-formed, the behaviour is undefined.
 * @param text a text.
 * @return its length in UTF-16 code units */
inline std::size_t utf16_length_from_utf8_unchecked(bytes text) noexcept
{
    return encoding_text_mem_utf16_length_from_utf8_unchecked(text.data(), text.size());
}

/** If the text is ill-formed or has a character beyond U+00FF, the behaviour is undefined.
 * @param text a Latin1 text.
 * @return the number of its characters, which is its length in Latin1 */
inline std::size_t latin1_length_from_utf8_unchecked(bytes text) noexcept
{
    return encoding_text_mem_latin1_length_from_utf8_unchecked(text.data(), text.size());
}

/** @param text the code units.
 * @return the number of their characters, with one for each unpaired surrogate */
inline std::size_t utf16_count(code_units text) noexcept
{
    return encoding_text_utf16_count(text.data(), text.size());
}

/** @param text the bytes.
 * @return the length in bytes of the text that `repair` returns for them; `SIZE_MAX` if it is greater */
inline std::size_t repaired_utf8_length(bytes text) noexcept
{
    return encoding_text_repaired_utf8_length(text.data(), text.size());
}

/** @} */

/** @name Malformed sequences
 * @{ */

/** A malformed sequence. */
struct malformed_sequence {
    std::size_t offset; /**< of its first byte */
    std::size_t length; /**< in bytes, 1 to 3; 0 if there is none */
};

/** @param text the bytes.
 * @param offset where the search starts, up to the length of the text: 0, or the end of a malformed sequence.
 * @return the first malformed sequence from there on (Encoding Standard, UTF-8 decoder), or the length of the text as
 * `offset`, and 0 as `length`. An incomplete sequence at the end is malformed. */
inline malformed_sequence next_malformed(bytes text, std::size_t offset = 0) noexcept
{
    const bytes rest = text.from(offset);
    const auto found = encoding_text_next_malformed(rest.data(), rest.size());
    return {offset + found.place, found.length};
}

/** Why a sequence is malformed (Unicode Standard, Table 3-7). */
enum class malformation_kind : std::uint8_t {
    well_formed = ENCODING_TEXT_WELL_FORMED,                         /**< no sequence is malformed */
    unexpected_continuation = ENCODING_TEXT_UNEXPECTED_CONTINUATION, /**< it continues no sequence */
    disallowed_byte = ENCODING_TEXT_DISALLOWED_BYTE,                 /**< C0, C1, or F5 to FF */
    overlong = ENCODING_TEXT_OVERLONG,                               /**< the start of an overlong form */
    surrogate = ENCODING_TEXT_SURROGATE,                             /**< the start of a surrogate */
    too_large = ENCODING_TEXT_TOO_LARGE,                             /**< the start of a value above U+10FFFF */
    truncated = ENCODING_TEXT_TRUNCATED,                             /**< incomplete before the next byte */
    incomplete_at_end = ENCODING_TEXT_INCOMPLETE_AT_END              /**< incomplete at the end of the text */
};

/** A malformed sequence, and why it is malformed. */
struct malformation {
    std::size_t offset;     /**< of its first byte */
    std::size_t length;     /**< in bytes, 1 to 3; 0 if there is none */
    malformation_kind kind; /**< why it is malformed; `well_formed` if there is none */
};

/** @param text the bytes.
 * @param offset where the search starts, as for next_malformed.
 * @return what next_malformed returns, and why the sequence is malformed */
inline malformation next_malformation(bytes text, std::size_t offset = 0) noexcept
{
    const bytes rest = text.from(offset);
    const auto found = encoding_text_next_malformation(rest.data(), rest.size());
    return {offset + found.place, found.length, static_cast<malformation_kind>(found.kind)};
}

/** All malformed sequences of a text, in order: `for (auto [offset, length] : malformed_sequences(text))`. It and its
 * iterators are views: the text has to live as long as they do. */
class malformed_sequences {
public:
    /** Finds one after another. */
    class iterator {
    public:
        /** @cond */
        using iterator_category = std::input_iterator_tag;
        using value_type = malformed_sequence;
        using difference_type = std::ptrdiff_t;
        using pointer = const malformed_sequence *;
        using reference = const malformed_sequence &;

        iterator() noexcept = default;
        iterator(bytes text, std::size_t offset) noexcept : source(text), found(next_malformed(text, offset)) {}

        reference operator*() const noexcept { return found; }
        pointer operator->() const noexcept { return &found; }
        iterator &operator++() noexcept { return *this = iterator(source, found.offset + found.length); }
        iterator operator++(int) noexcept
        {
            const iterator before = *this;
            ++*this;
            return before;
        }
        friend bool operator==(const iterator &a, const iterator &b) noexcept
        {
            return a.found.offset == b.found.offset;
        }
        friend bool operator!=(const iterator &a, const iterator &b) noexcept { return !(a == b); }

    private:
        bytes source;
        malformed_sequence found = {0, 0};
        /** @endcond */
    };

    /** @param text the bytes */
    explicit malformed_sequences(bytes text) noexcept : source(text) {}

    /** @return an iterator to the first malformed sequence */
    iterator begin() const noexcept { return {source, 0}; }

    /** @return the end of them */
    iterator end() const noexcept { return {source, source.size()}; }

private:
    bytes source;
};

/** @} */

/** @name Conversions
 * @{ */

/** Converts UTF-8 to UTF-16 (Encoding Standard, UTF-8 decode without BOM).
 * @param text the bytes.
 * @return their UTF-16, with U+FFFD for each malformed sequence */
inline std::u16string convert_utf8_to_utf16(bytes text)
{
    std::u16string result;
    const std::size_t length = encoding_text_mem_utf16_length_from_utf8(text.data(), text.size());
    detail::append(result, length, [=](char16_t *dst) {
        return encoding_text_mem_convert_utf8_to_utf16_partial(text.data(), text.size(), detail::units(dst), length)
            .written;
    });
    return result;
}

/** Converts well-formed UTF-8 to UTF-16 (Encoding Standard, UTF-8 decode without BOM or fail).
 * @param text the bytes.
 * @return their UTF-16; `std::nullopt` if they aren't well-formed */
inline std::optional<std::u16string> convert_utf8_to_utf16_without_replacement(bytes text)
{
    return is_utf8(text) ? std::optional(convert_utf8_to_utf16(text)) : std::nullopt;
}

/** Converts UTF-16 to UTF-8.
 * @param text the code units.
 * @return their UTF-8, with U+FFFD for each unpaired surrogate */
inline std::string convert_utf16_to_utf8(code_units text)
{
    std::string result;
    const std::size_t length = encoding_text_mem_utf8_length_from_utf16(text.data(), text.size());
    detail::append(result, length, [=](char *dst) {
        return encoding_text_mem_convert_utf16_to_utf8_partial(text.data(), text.size(), detail::units(dst), length)
            .written;
    });
    return result;
}

/** A text converted from UTF-16. */
struct converted_text {
    std::string text;     /**< well-formed */
    std::size_t replaced; /**< the number of unpaired surrogates that U+FFFD is written for */
};

/** Converts UTF-16 to UTF-8, and counts the unpaired surrogates.
 * @param text the code units.
 * @return their UTF-8, with U+FFFD for each unpaired surrogate, and the number of these */
inline converted_text convert_utf16_to_utf8_with_count(code_units text)
{
    converted_text result = {std::string(), 0};
    const std::size_t length = encoding_text_mem_utf8_length_from_utf16(text.data(), text.size());
    detail::append(result.text, length, [&](char *dst) {
        const auto done = encoding_text_mem_convert_utf16_to_utf8_partial_with_count(text.data(), text.size(),
                                                                                     detail::units(dst), length);
        result.replaced = done.replaced;
        return done.written;
    });
    return result;
}

/** Converts Latin1 to UTF-8.
 * @param text the bytes, each a scalar value.
 * @return their UTF-8 */
inline std::string convert_latin1_to_utf8(bytes text)
{
    std::string result;
    const std::size_t length = encoding_text_mem_utf8_length_from_latin1(text.data(), text.size());
    detail::append(result, length, [=](char *dst) {
        return encoding_text_mem_decode_latin1(text.data(), text.size(), detail::units(dst), length);
    });
    return result;
}

/** Converts Latin1 to UTF-16.
 * @param text the bytes, each a scalar value.
 * @return their UTF-16, one code unit for each byte */
inline std::u16string convert_latin1_to_utf16(bytes text)
{
    std::u16string result;
    detail::append(result, text.size(), [=](char16_t *dst) {
        return encoding_text_mem_convert_latin1_to_utf16(text.data(), text.size(), detail::units(dst), text.size());
    });
    return result;
}

/** Converts UTF-8 to Latin1.
 * @param text the bytes.
 * @return one byte for each character; `std::nullopt` if `is_utf8_latin1` returns false */
inline std::optional<std::string> convert_utf8_to_latin1(bytes text)
{
    const std::size_t length = encoding_text_mem_latin1_length_from_utf8(text.data(), text.size());
    if (length == ENCODING_TEXT_INVALID_ARGUMENT) {
        return std::nullopt;
    }
    std::string result;
    detail::append(result, length, [=](char *dst) {
        return encoding_text_mem_encode_latin1(text.data(), text.size(), detail::units(dst), length);
    });
    return result;
}

/** Converts UTF-16 to Latin1.
 * @param text the code units.
 * @return one byte for each code unit; `std::nullopt` if `is_utf16_latin1` returns false */
inline std::optional<std::string> convert_utf16_to_latin1(code_units text)
{
    if (!is_utf16_latin1(text)) {
        return std::nullopt;
    }
    std::string result;
    detail::append(result, text.size(), [=](char *dst) {
        return encoding_text_mem_convert_utf16_to_latin1_lossy(text.data(), text.size(), detail::units(dst),
                                                               text.size());
    });
    return result;
}

/** @} */

/** @name Malformed sequences of a stream
 * @{ */

/** A malformed sequence of a stream, and why it is malformed. */
struct stream_malformation {
    std::uint64_t offset;   /**< the offset of its first byte from the start of the stream */
    std::size_t length;     /**< its length in bytes, 1 to 3 */
    malformation_kind kind; /**< why it is malformed */
};

/** A search for the malformed sequences of a stream, by blocks, which may end at any byte. It allocates no memory. However
 * the stream is split, it finds those of the whole stream. */
class malformed_search {
public:
    /** Starts with the byte at this offset of a stream.
     * @param offset the offset */
    explicit malformed_search(std::uint64_t offset = 0) noexcept { encoding_text_malformed_search_new(&state, offset); }

    /** Searches the next block.
     * @param src the bytes.
     * @param last whether no more will follow. Then an incomplete sequence at the end is malformed.
     * @param found is called with each malformed sequence, a stream_malformation, in order.
     * @return whether the block was searched; false if the offset of the byte after it is too large, and then nothing is
     * read */
    template <class Found> bool search(bytes src, bool last, Found found)
    {
        encoding_text_search_block_result done;
        do {
            encoding_text_stream_malformation some[16];
            done = encoding_text_search_block(&state, src.data(), src.size(), some, sizeof some / sizeof *some, last);
            if (done.read == ENCODING_TEXT_INVALID_ARGUMENT) {
                return false;
            }
            for (std::size_t i = 0; i < done.found; i++) {
                found(stream_malformation{some[i].offset, some[i].length, static_cast<malformation_kind>(some[i].kind)});
            }
            src = src.from(done.read);
        } while (!done.finished);
        return true;
    }

private:
    encoding_text_malformed_search state;
};

/** @} */

/** @name Repair
 * @{ */

/** A repaired text. */
struct repaired_text {
    std::string text;       /**< well-formed */
    std::uint64_t replaced; /**< the number of malformed sequences that U+FFFD is written for */
};

/** @cond */
namespace detail {

constexpr std::size_t replacement_length = 3; /* of the UTF-8 of U+FFFD */

/* Writes the repaired text into exactly as many bytes. */
inline void write_repaired(bytes text, std::uint8_t *dst, std::size_t length) noexcept
{
    encoding_text_utf8_decoder decoder = {};
    auto done = encoding_text_repair_block(&decoder, text.data(), text.size(), dst, length, true);
    /* With less than four bytes free the call may stop before the end. */
    while (!done.finished) {
        std::uint8_t next[4];
        text = text.from(done.read);
        dst += done.written;
        done = encoding_text_repair_block(&decoder, text.data(), text.size(), next, sizeof next, true);
        std::memcpy(dst, next, done.written);
    }
}

} // namespace detail
/** @endcond */

/** Repairs UTF-8.
 * @param text the bytes.
 * @return the text with U+FFFD for each malformed sequence, and the number of these */
inline repaired_text repair(bytes text)
{
    repaired_text result = {std::string(), 0};
    std::size_t length = text.size();
    for (const malformed_sequence malformed : malformed_sequences(text)) {
        length += detail::replacement_length - malformed.length;
        result.replaced++;
    }
    if (result.replaced == 0) {
        result.text.assign(reinterpret_cast<const char *>(text.data()), text.size());
        return result;
    }
    detail::append(result.text, length, [=](char *dst) {
        detail::write_repaired(text, detail::units(dst), length);
        return length;
    });
    return result;
}

/** @} */

/** @name The incremental decoder (Encoding Standard, section 8.1.1)
 * @{ */

/** @cond */
namespace detail {

inline std::size_t write_replacement(std::uint8_t *dst) noexcept
{
    std::memcpy(dst, "\xEF\xBF\xBD", replacement_length);
    return replacement_length;
}

inline std::size_t write_replacement(std::uint16_t *dst) noexcept
{
    *dst = 0xFFFD;
    return 1;
}

/* How many bytes of a stream were read, and the last three of these. */
class position {
public:
    void advance(bytes read) noexcept
    {
        for (std::size_t i = read.size() - (read.size() < longest ? read.size() : longest); i < read.size(); i++) {
            std::memmove(last, last + 1, longest - 1);
            last[longest - 1] = read.data()[i];
        }
        offset += read.size();
    }

    /* The malformed sequence of this length that ends here, before the unread bytes. */
    malformation malformed(std::size_t length, bytes unread) const noexcept
    {
        std::uint8_t sequence[longest + 1];
        std::memcpy(sequence, last + longest - length, length);
        std::size_t count = length;
        if (unread.size() > 0) {
            sequence[count++] = unread.data()[0];
        }
        return {offset - length, length, next_malformation(bytes(sequence, count)).kind};
    }

private:
    static constexpr std::size_t longest = 3; /* bytes of a malformed sequence */

    std::size_t offset = 0;
    std::uint8_t last[longest] = {};
};

} // namespace detail
/** @endcond */

/** A decoder of UTF-8 in pieces, which may end at any byte. Between calls it keeps up to three bytes of an incomplete
 * sequence. However the bytes are split, the text is that of all of them together. */
class utf8_decoder {
public:
    /** Decodes the next bytes, and appends their UTF-16, with U+FFFD for each malformed sequence.
     * @param src the bytes.
     * @param text the string that is appended to.
     * @param last whether no more will follow. Then an incomplete sequence is malformed, and the decoder is new again.
     * @return the number of malformed sequences */
    std::size_t decode(bytes src, std::u16string &text, bool last)
    {
        return decode(src, text, last, [](const malformation &) {});
    }

    /** Decodes as the function without `found` does.
     * @param src the bytes.
     * @param text the string that is appended to.
     * @param last whether no more will follow. After it, a new stream begins, whose offsets begin at 0.
     * @param found is called with each malformed sequence, in order, after the memory is allocated: its offset from the
     * start of the stream, its length and why it is malformed. It throws no exception.
     * @return the number of malformed sequences */
    template <class Found> std::size_t decode(bytes src, std::u16string &text, bool last, Found found)
    {
        return append(src, text, encoding_text_utf8_decoder_max_utf16_buffer_length(&state, src.size()), last, found);
    }

    /** @copydoc decode(bytes, std::u16string &, bool, Found) */
    template <class Found> std::size_t decode(bytes src, std::string &text, bool last, Found found)
    {
        return append(src, text, encoding_text_utf8_decoder_max_utf8_buffer_length(&state, src.size()), last, found);
    }

    /** Decodes the next bytes, and appends them as UTF-8, with U+FFFD for each malformed sequence.
     * @param src the bytes.
     * @param text the string that is appended to.
     * @param last whether no more will follow. Then an incomplete sequence is malformed, and the decoder is new again.
     * @return the number of malformed sequences */
    std::size_t decode(bytes src, std::string &text, bool last)
    {
        detail::extension extended(text, state);
        const bytes all = src;
        std::size_t replaced = 0;
        encoding_text_repair_block_result done;
        do {
            const std::size_t most = src.size() + src.size() / 8 + detail::room_for_pending;
            detail::append(text, most, [&](char *dst) {
                done = encoding_text_repair_block(&state, src.data(), src.size(), detail::units(dst), most, last);
                return done.written;
            });
            src = src.from(done.read);
            replaced += done.replaced;
        } while (!done.finished);
        extended.keep();
        where.advance(all);
        if (last) {
            where = {};
        }
        return replaced;
    }

    /** @return whether the last call ended between two characters */
    bool in_neutral_state() const noexcept { return encoding_text_utf8_decoder_in_neutral_state(&state); }

    /** Forgets an incomplete sequence, and begins a stream. */
    void reset() noexcept
    {
        encoding_text_utf8_decoder_new(&state);
        where = {};
    }

private:
    encoding_text_decode_result step(bytes src, std::uint16_t *dst, std::size_t length, bool last) noexcept
    {
        return encoding_text_utf8_decoder_decode_to_utf16(&state, src.data(), src.size(), dst, length, last);
    }

    encoding_text_decode_result step(bytes src, std::uint8_t *dst, std::size_t length, bool last) noexcept
    {
        return encoding_text_utf8_decoder_decode_to_utf8(&state, src.data(), src.size(), dst, length, last);
    }

    template <class String, class Found>
    std::size_t append(bytes src, String &text, std::size_t most, bool last, Found &found)
    {
        std::size_t replaced = 0;
        detail::append(text, most, [&](auto *dst) { return write(src, detail::units(dst), most, last, replaced, found); });
        if (last) {
            where = {};
        }
        return replaced;
    }

    template <class Unit, class Found>
    std::size_t write(bytes src, Unit *dst, std::size_t length, bool last, std::size_t &replaced, Found &found)
    {
        std::size_t written = 0;
        for (;;) {
            const auto done = step(src, dst + written, length - written, last);
            where.advance(bytes(src.data(), done.read));
            src = src.from(done.read);
            written += done.written;
            if (done.result != ENCODING_TEXT_MALFORMED) {
                return written;
            }
            written += detail::write_replacement(dst + written);
            replaced++;
            found(where.malformed(done.malformed_length, src));
        }
    }

    encoding_text_utf8_decoder state = {};
    detail::position where;
};

/** @} */

/** @name The incremental decoder of UTF-16LE and UTF-16BE (Encoding Standard, shared UTF-16 decoder)
 * @{ */

/** Why a call that writes into a span ended. */
enum class decoder_result : std::uint8_t {
    input_empty = ENCODING_TEXT_INPUT_EMPTY, /**< all was read; after the last call nothing is pending */
    output_full = ENCODING_TEXT_OUTPUT_FULL, /**< the rest of the span may be too short for the next character */
    malformed = ENCODING_TEXT_MALFORMED      /**< a malformed sequence was read, and nothing is written for it */
};

/** What a call did that writes into a span, and reports a malformed sequence. Those that write U+FFFD instead return
 * coded. */
struct decoded {
    std::size_t read;             /**< bytes */
    std::size_t written;          /**< elements of the span */
    decoder_result result;        /**< what ended the call */
    std::size_t malformed_length; /**< length in bytes of the malformed sequence, 1 to 3, or 0 if there is none */
    std::size_t read_after;       /**< bytes read after that sequence, 0 or 1: they stay pending */
};

/** @cond */
namespace detail {

inline decoded decoded_of(const encoding_text_decoder_result &done) noexcept
{
    return {done.read, done.written, static_cast<decoder_result>(done.result), done.malformed_length, done.read_after};
}

/* How many bytes of a stream were read. */
class stream_offset {
public:
    /* `Result` is that of a call in C. If it ends the stream, the next one begins. */
    template <class Result> Result after(const Result &done, bool last) noexcept
    {
        read = last && done.result == ENCODING_TEXT_INPUT_EMPTY ? 0 : read + done.read;
        return done;
    }

    /* The malformed sequence that the last call reported. */
    malformed_sequence malformed(const encoding_text_decoder_result &done) const noexcept
    {
        return {read - done.read_after - done.malformed_length, done.malformed_length};
    }

private:
    std::size_t read = 0;
};

/* Makes calls that report until all is read, and writes U+FFFD for each malformed sequence, into a span that is long enough
 * for all of it. */
template <class Unit, class Step, class Found>
std::size_t write_reported(bytes src, Unit *dst, std::size_t length, Step step, Found found)
{
    std::size_t written = 0;
    for (;;) {
        const encoding_text_decoder_result done = step(src, dst + written, length - written);
        src = src.from(done.read);
        written += done.written;
        if (done.result != ENCODING_TEXT_MALFORMED) {
            return written;
        }
        written += write_replacement(dst + written);
        found(done);
    }
}

} // namespace detail
/** @endcond */

/** A decoder of UTF-16LE or UTF-16BE in pieces, which may end at any byte. Between calls it keeps up to three bytes: a high
 * surrogate, the first byte of a code unit, or both. However the bytes are split, the text is that of all of them
 * together. */
class utf16_decoder {
public:
    /** @param big_endian whether the bytes are UTF-16BE, and not UTF-16LE */
    explicit utf16_decoder(bool big_endian) noexcept { encoding_text_utf16_decoder_new(&state, big_endian); }

    /** Decodes the next bytes, and appends their UTF-16, with U+FFFD for each malformed sequence.
     * @param src the bytes.
     * @param text the string that is appended to.
     * @param last whether no more will follow. Then all that is pending is malformed, and the decoder is new again.
     * @return the number of malformed sequences */
    std::size_t decode(bytes src, std::u16string &text, bool last)
    {
        return decode(src, text, last, [](const malformed_sequence &) {});
    }

    /** Decodes the next bytes, and appends them as UTF-8, with U+FFFD for each malformed sequence.
     * @param src the bytes.
     * @param text the string that is appended to.
     * @param last whether no more will follow. Then all that is pending is malformed, and the decoder is new again.
     * @return the number of malformed sequences */
    std::size_t decode(bytes src, std::string &text, bool last)
    {
        return decode(src, text, last, [](const malformed_sequence &) {});
    }

    /** Decodes as the function without `found` does.
     * @param src the bytes.
     * @param text the string that is appended to.
     * @param last whether no more will follow. After it, a new stream begins, whose offsets begin at 0.
     * @param found is called with each malformed sequence, in order, after the memory is allocated: its offset from the
     * start of the stream, and its length. It throws no exception.
     * @return the number of malformed sequences */
    template <class Found> std::size_t decode(bytes src, std::u16string &text, bool last, Found found)
    {
        return append(src, text, encoding_text_utf16_decoder_max_utf16_buffer_length(&state, src.size()), last, found);
    }

    /** @copydoc decode(bytes, std::u16string &, bool, Found) */
    template <class Found> std::size_t decode(bytes src, std::string &text, bool last, Found found)
    {
        return append(src, text, encoding_text_utf16_decoder_max_utf8_buffer_length(&state, src.size()), last, found);
    }

    /** Decodes the next bytes to UTF-16, as many characters as fit. A malformed sequence ends the call, and nothing is
     * written for it: call again with the unread bytes.
     * @param src the bytes.
     * @param dst the span that is written. If it has two code units, a call on some bytes reads or reports.
     * @param last whether no more will follow.
     * @return how much was read and written, and what ended the call */
    decoded decode_without_replacement(bytes src, writable_code_units dst, bool last) noexcept
    {
        return detail::decoded_of(step(src, dst.data(), dst.size(), last));
    }

    /** Decodes the next bytes to UTF-8, as many characters as fit. A malformed sequence ends the call, and nothing is
     * written for it: call again with the unread bytes.
     * @param src the bytes.
     * @param dst the span that is written. If it has four bytes, a call on some bytes reads or reports.
     * @param last whether no more will follow.
     * @return how much was read and written, and what ended the call */
    decoded decode_without_replacement(bytes src, writable_bytes dst, bool last) noexcept
    {
        return detail::decoded_of(step(src, dst.data(), dst.size(), last));
    }

    /** @return whether the last call ended between two characters */
    bool in_neutral_state() const noexcept { return encoding_text_utf16_decoder_in_neutral_state(&state); }

    /** Forgets what is pending, and begins a stream. */
    void reset() noexcept
    {
        encoding_text_utf16_decoder_new(&state, state.big_endian != 0);
        where = {};
    }

private:
    encoding_text_decoder_result step(bytes src, std::uint16_t *dst, std::size_t length, bool last) noexcept
    {
        return where.after(
            encoding_text_utf16_decoder_decode_to_utf16(&state, src.data(), src.size(), dst, length, last), last);
    }

    encoding_text_decoder_result step(bytes src, std::uint8_t *dst, std::size_t length, bool last) noexcept
    {
        return where.after(
            encoding_text_utf16_decoder_decode_to_utf8(&state, src.data(), src.size(), dst, length, last), last);
    }

    template <class String, class Found>
    std::size_t append(bytes src, String &text, std::size_t most, bool last, Found &found)
    {
        std::size_t replaced = 0;
        const auto next = [&](bytes rest, auto *dst, std::size_t length) { return step(rest, dst, length, last); };
        const auto report = [&](const encoding_text_decoder_result &done) {
            replaced++;
            found(where.malformed(done));
        };
        detail::append(text, most, [&](auto *dst) {
            return detail::write_reported(src, detail::units(dst), most, next, report);
        });
        return replaced;
    }

    encoding_text_utf16_decoder state = {};
    detail::stream_offset where;
};

/** @} */

/** @name The decoder with byte order marks (Encoding Standard, "decode")
 * @{ */

/** An encoding. */
enum class encoding : std::uint8_t {
    utf_8 = ENCODING_TEXT_UTF_8,       /**< UTF-8 */
    utf_16le = ENCODING_TEXT_UTF_16LE, /**< UTF-16LE */
    utf_16be = ENCODING_TEXT_UTF_16BE  /**< UTF-16BE */
};

/** Which byte order marks a decoder looks for at the start, and removes. */
enum class bom_handling : std::uint8_t {
    off = ENCODING_TEXT_BOM_OFF,       /**< none: U+FEFF is a character like any other */
    remove = ENCODING_TEXT_BOM_REMOVE, /**< that of its encoding */
    sniff = ENCODING_TEXT_BOM_SNIFF    /**< that of any of the three, which decides the encoding */
};

/** A byte order mark. */
struct byte_order_mark {
    encoding_text::encoding encoding; /**< its encoding */
    std::size_t length;               /**< its length in bytes, 2 or 3 */
};

/** @param text the bytes.
 * @return the byte order mark that they start with; `std::nullopt` if there is none */
inline std::optional<byte_order_mark> for_bom(bytes text) noexcept
{
    const auto found = encoding_text_for_bom(text.data(), text.size());
    return found.length == 0 ? std::nullopt
                             : std::optional(byte_order_mark{static_cast<encoding>(found.encoding), found.length});
}

/** What a call did that writes into a span, with U+FFFD for each malformed sequence. Those that report it instead return
 * decoded. */
struct coded {
    std::size_t read;      /**< bytes */
    std::size_t written;   /**< elements of the span */
    std::size_t replaced;  /**< the number of malformed sequences */
    decoder_result result; /**< `input_empty` or `output_full` */
};

/** A decoder of UTF-8, UTF-16LE or UTF-16BE in pieces, which may end at any byte. Between calls it keeps up to three bytes
 * of a character or of a byte order mark. However the bytes are split, the text is that of all of them together. After a
 * call marked last it looks for no mark, until it is reset. */
class decoder {
public:
    /** @param encoding the encoding, unless a mark decides it.
     * @param bom which byte order marks it looks for */
    explicit decoder(encoding_text::encoding encoding, bom_handling bom = bom_handling::sniff) noexcept
        : first_encoding(encoding), first_bom(bom)
    {
        reset();
    }

    /** Decodes the next bytes, and appends their UTF-16, with U+FFFD for each malformed sequence.
     * @param src the bytes.
     * @param text the string that is appended to.
     * @param last whether no more will follow. Then all that is pending is malformed.
     * @return the number of malformed sequences */
    std::size_t decode(bytes src, std::u16string &text, bool last) { return append(src, text, last); }

    /** Decodes the next bytes, and appends them as UTF-8, with U+FFFD for each malformed sequence.
     * @param src the bytes.
     * @param text the string that is appended to.
     * @param last whether no more will follow. Then all that is pending is malformed.
     * @return the number of malformed sequences */
    std::size_t decode(bytes src, std::string &text, bool last) { return append(src, text, last); }

    /** Decodes as the function without `found` does.
     * @param src the bytes.
     * @param text the string that is appended to.
     * @param last whether no more will follow. After it, a new stream begins, whose offsets begin at 0.
     * @param found is called with each malformed sequence, in order, after the memory is allocated: its offset from the
     * start of the stream, where a mark counts too, and its length. It throws no exception.
     * @return the number of malformed sequences */
    template <class Found> std::size_t decode(bytes src, std::u16string &text, bool last, Found found)
    {
        return report(src, text, encoding_text_decoder_max_utf16_buffer_length(&state, src.size()), last, found);
    }

    /** @copydoc decode(bytes, std::u16string &, bool, Found) */
    template <class Found> std::size_t decode(bytes src, std::string &text, bool last, Found found)
    {
        return report(src, text, encoding_text_decoder_max_utf8_buffer_length(&state, src.size()), last, found);
    }

    /** Decodes the pending bytes and the next ones to UTF-16, as many whole characters as fit, with U+FFFD for each malformed
     * sequence. If fewer than two code units are left, a character of pending bytes or U+FFFD may wait for the next call.
     * @param src the bytes.
     * @param dst the span that is written. If it has two code units, a call on some bytes reads or writes: characters of
     * the pending bytes may take the space.
     * @param last whether no more will follow.
     * @return how much was read, written and replaced, and what ended the call */
    coded decode(bytes src, writable_code_units dst, bool last) noexcept
    {
        return step(src, dst.data(), dst.size(), last);
    }

    /** Decodes the pending bytes and the next ones to UTF-8, as many whole characters as fit, with U+FFFD for each malformed
     * sequence. If fewer than four bytes are left, a character of pending bytes or U+FFFD may wait for the next call.
     * @param src the bytes.
     * @param dst the span that is written. If it has four bytes, a call on some bytes reads or writes: characters of the
     * pending bytes may take the space.
     * @param last whether no more will follow.
     * @return how much was read, written and replaced, and what ended the call */
    coded decode(bytes src, writable_bytes dst, bool last) noexcept { return step(src, dst.data(), dst.size(), last); }

    /** Decodes the pending bytes and the next ones to UTF-16. A malformed sequence ends the call, and nothing is written for
     * it: call again with the unread bytes. It writes as many whole characters as fit. If fewer than two code units are left, a
     * character of pending bytes or a report may wait for the next call.
     * @param src the bytes.
     * @param dst the span that is written. If it has two code units, a call on some bytes reads, writes or reports:
     * characters of the pending bytes may take the space.
     * @param last whether no more will follow.
     * @return how much was read and written, and what ended the call */
    decoded decode_without_replacement(bytes src, writable_code_units dst, bool last) noexcept
    {
        return detail::decoded_of(reporting_step(src, dst.data(), dst.size(), last));
    }

    /** Decodes the pending bytes and the next ones to UTF-8. A malformed sequence ends the call, and nothing is written for
     * it: call again with the unread bytes. It writes as many whole characters as fit. If fewer than four bytes are left, a
     * character of pending bytes or a report may wait for the next call.
     * @param src the bytes.
     * @param dst the span that is written. If it has four bytes, a call on some bytes reads, writes or reports: characters
     * of the pending bytes may take the space.
     * @param last whether no more will follow.
     * @return how much was read and written, and what ended the call */
    decoded decode_without_replacement(bytes src, writable_bytes dst, bool last) noexcept
    {
        return detail::decoded_of(reporting_step(src, dst.data(), dst.size(), last));
    }

    /** @return the encoding: that of a mark, once one is read */
    encoding_text::encoding current_encoding() const noexcept
    {
        return static_cast<encoding_text::encoding>(encoding_text_decoder_encoding(&state));
    }

    /** @return whether nothing is pending and no mark is looked for */
    bool in_neutral_state() const noexcept { return encoding_text_decoder_in_neutral_state(&state); }

    /** Forgets all that was read: the decoder is new again. */
    void reset() noexcept
    {
        encoding_text_decoder_new(&state, static_cast<std::uint8_t>(first_encoding),
                                  static_cast<std::uint8_t>(first_bom));
        where = {};
    }

private:
    static coded coded_of(const encoding_text_coder_result &done) noexcept
    {
        return {done.read, done.written, done.replaced, static_cast<decoder_result>(done.result)};
    }

    coded step(bytes src, std::uint16_t *dst, std::size_t length, bool last) noexcept
    {
        return coded_of(where.after(
            encoding_text_decoder_decode_to_utf16(&state, src.data(), src.size(), dst, length, last), last));
    }

    coded step(bytes src, std::uint8_t *dst, std::size_t length, bool last) noexcept
    {
        return coded_of(where.after(
            encoding_text_decoder_decode_to_utf8(&state, src.data(), src.size(), dst, length, last), last));
    }

    encoding_text_decoder_result reporting_step(bytes src, std::uint16_t *dst, std::size_t length, bool last) noexcept
    {
        return where.after(encoding_text_decoder_decode_to_utf16_without_replacement(&state, src.data(), src.size(), dst,
                                                                                     length, last),
                           last);
    }

    encoding_text_decoder_result reporting_step(bytes src, std::uint8_t *dst, std::size_t length, bool last) noexcept
    {
        return where.after(encoding_text_decoder_decode_to_utf8_without_replacement(&state, src.data(), src.size(), dst,
                                                                                    length, last),
                           last);
    }

    template <class String, class Found>
    std::size_t report(bytes src, String &text, std::size_t most, bool last, Found &found)
    {
        std::size_t replaced = 0;
        const auto next = [&](bytes rest, auto *dst, std::size_t length) {
            return reporting_step(rest, dst, length, last);
        };
        const auto one = [&](const encoding_text_decoder_result &done) {
            replaced++;
            found(where.malformed(done));
        };
        detail::append(text, most, [&](auto *dst) {
            return detail::write_reported(src, detail::units(dst), most, next, one);
        });
        return replaced;
    }

    template <class String> std::size_t append(bytes src, String &text, bool last)
    {
        detail::extension extended(text, *this);
        std::size_t replaced = 0;
        coded done;
        do {
            const std::size_t most = src.size() + src.size() / 8 + detail::room_for_pending;
            detail::append(text, most, [&](auto *dst) {
                done = step(src, detail::units(dst), most, last);
                return done.written;
            });
            src = src.from(done.read);
            replaced += done.replaced;
        } while (done.result == decoder_result::output_full);
        extended.keep();
        return replaced;
    }

    encoding_text_decoder state = {};
    detail::stream_offset where;
    encoding_text::encoding first_encoding;
    bom_handling first_bom;
};

/** @} */

} // namespace encoding_text

#endif
