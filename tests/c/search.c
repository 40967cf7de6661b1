/*
 * The search for the malformed sequences of a stream by blocks, and the layout of its state in the caller's storage. C99 and
 * C++17.
 */
#include "calls.h"

#include <string.h>

typedef struct {
    char first;
    encoding_text_malformed_search search;
} after_a_char_search;

static bool searched_is(encoding_text_search_block_result searched, size_t read, size_t found, bool finished)
{
    return searched.read == read && searched.found == found && searched.finished == finished;
}

static bool found_is(encoding_text_stream_malformation found, uint64_t offset, uint8_t length, uint8_t kind)
{
    return found.offset == offset && found.length == length && found.kind == kind;
}

/* Whether the storage has this offset and these pending bytes. */
static bool search_is(const encoding_text_malformed_search *search, uint64_t start, const char *pending, size_t length)
{
    return search->start == start && search->count == length && memcmp(search->pending, pending, length) == 0;
}

static void storage(void)
{
    const uint8_t byte[] = {0x98};
    encoding_text_malformed_search search;
    encoding_text_stream_malformation found[1];

    CHECK(sizeof search == ENCODING_TEXT_MALFORMED_SEARCH_SIZE);
    CHECK(offsetof(after_a_char_search, search) == ENCODING_TEXT_MALFORMED_SEARCH_ALIGNMENT);
    memset(&search, 0xFF, sizeof search);
    encoding_text_malformed_search_new(&search, 7);
    CHECK(search_is(&search, 7, "", 0));
    /* bytes that are no incomplete sequence, and a count above three */
    memcpy(search.pending, "abc", 3);
    search.count = 2;
    CHECK(searched_is(encoding_text_search_block(&search, ALL(byte), found, 1, true), 1, 1, true));
    CHECK(found_is(found[0], 7, 1, ENCODING_TEXT_UNEXPECTED_CONTINUATION) && search_is(&search, 8, "", 0));
    memcpy(search.pending, "\xF0\x9F\x92", 3);
    search.count = 4;
    CHECK(searched_is(encoding_text_search_block(&search, ALL(byte), found, 1, true), 1, 1, true));
    CHECK(found_is(found[0], 8, 1, ENCODING_TEXT_UNEXPECTED_CONTINUATION));
}

static void blocks(void)
{
    /* a, U+1F4A9 without its fourth byte, a byte that begins nothing, b, a truncated sequence of three */
    const uint8_t first[] = {0x61, 0xF0, 0x9F}, second[] = {0x92, 0xFF, 0x62, 0xE2, 0x98};
    encoding_text_malformed_search search;
    encoding_text_stream_malformation found[4];

    encoding_text_malformed_search_new(&search, 0);
    memset(found, 0x71, sizeof found);
    CHECK(searched_is(encoding_text_search_block(&search, ALL(first), found, 4, false), 3, 0, true));
    CHECK(search_is(&search, 1, BYTES("\xF0\x9F")) && found[0].length == 0x71);
    CHECK(searched_is(encoding_text_search_block(&search, ALL(second), found, 0, true), 0, 0, false));
    CHECK(searched_is(encoding_text_search_block(&search, ALL(second), found, 1, true), 1, 1, false));
    CHECK(found_is(found[0], 1, 3, ENCODING_TEXT_TRUNCATED) && found[1].length == 0x71);
    CHECK(search_is(&search, 4, "", 0));
    CHECK(searched_is(encoding_text_search_block(&search, second + 1, 4, found, 4, true), 4, 2, true));
    CHECK(found_is(found[0], 4, 1, ENCODING_TEXT_DISALLOWED_BYTE));
    CHECK(found_is(found[1], 6, 2, ENCODING_TEXT_INCOMPLETE_AT_END));
    CHECK(found[2].length == 0x71 && search_is(&search, 8, "", 0));
    CHECK(searched_is(encoding_text_search_block(&search, NULL, 0, NULL, 0, true), 0, 0, true));
}

static void large_offsets(void)
{
    const uint8_t bytes[] = {0xE2, 0x98};
    const size_t none = ENCODING_TEXT_INVALID_ARGUMENT;
    encoding_text_malformed_search search;
    encoding_text_stream_malformation found[1];

    encoding_text_malformed_search_new(&search, UINT64_MAX - 1);
    CHECK(searched_is(encoding_text_search_block(&search, ALL(bytes), found, 1, true), none, none, false));
    CHECK(search_is(&search, UINT64_MAX - 1, "", 0));
    encoding_text_malformed_search_new(&search, UINT64_MAX - 2);
    CHECK(searched_is(encoding_text_search_block(&search, ALL(bytes), found, 1, true), 2, 1, true));
    CHECK(found_is(found[0], UINT64_MAX - 2, 2, ENCODING_TEXT_INCOMPLETE_AT_END));
}

void searches(void)
{
    storage();
    blocks();
    large_offsets();
}
