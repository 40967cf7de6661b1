//! What is promised of each call, where, and what the crate adds without a proof. This module has no code.
//!
//! A promise is a contract: a statement about all arguments in the source of the library, with definitions in the words
//! of the Unicode and Encoding Standards. The toolchain refuses to build the library without it. The library is called
//! through C functions of the same contracts, which check their conditions first (`encoding_c`). `docs/PROMISES.md` of
//! the repository has one line for each promise, next to the call's name. At its end it says what is only tested and
//! what is trusted. The links below lead to its tables if the documentation was built in the repository.
//!
//! All calls are proved to return, to touch no memory except their arguments, and to leave a destination unchanged past
//! what they write. The crate converts between slices, texts and results of C: it relies on lengths, layouts, the
//! numbers of variants, and on a `str` being well-formed if a call requires that. This is reviewed and tested, but not
//! proved.
//!
//! # `ascii`
//!
//! Its [promises](../../../../../docs/PROMISES.md#encoding_textascii).
//!
//! | Calls of [`ascii`](crate::ascii) | Proved | The crate's own |
//! |---|---|---|
//! | `ascii_valid_up_to`, `iso_2022_jp_ascii_valid_up_to` | all that is said | nothing |
//! | `validate_ascii`, `ascii_to_ascii`, `ascii_to_basic_latin`, `basic_latin_to_ascii` | what is copied, the length of the prefix, the element after it | an `Option` of the last two |
//! | `ASCII_MASK`, `MAX_STRIDE_SIZE` | nothing | the numbers |
//!
//! # `mem`
//!
//! Its [promises](../../../../../docs/PROMISES.md#encoding_textmem).
//!
//! | Calls of [`mem`](crate::mem) | Proved | The crate's own |
//! |---|---|---|
//! | `is_ascii`, `is_basic_latin`, `is_utf8_latin1`, `is_utf16_latin1`, `utf8_latin1_up_to`, `utf16_valid_up_to`, `ensure_utf16_validity` | all that is said | nothing |
//! | `is_char_bidi` | whether the UTF-8 of the character is right-to-left | that UTF-8, by `char::encode_utf8` |
//! | `is_utf16_code_unit_bidi`, `is_utf8_bidi`, `is_utf16_bidi`, `check_utf8_for_latin1_and_bidi`, `check_utf16_for_latin1_and_bidi` | all that is said | nothing |
//! | `is_str_latin1`, `str_latin1_up_to`, `is_str_bidi`, `check_str_for_latin1_and_bidi` | all that is said, if the source is well-formed | nothing |
//! | `copy_ascii_to_ascii`, `copy_ascii_to_basic_latin`, `copy_basic_latin_to_ascii`, `convert_utf8_to_utf16`, `convert_utf8_to_utf16_without_replacement`, `convert_latin1_to_utf16`, `convert_latin1_to_utf8`, `convert_utf16_to_utf8`, `convert_utf16_to_latin1_lossy` | what is written, and how much, into a destination that is long enough | the check that it is, which panics before anything is written |
//! | `convert_str_to_utf16` | the same, if the source is well-formed | that check |
//! | `convert_latin1_to_utf8_partial`, `convert_utf8_to_utf16_partial`, `convert_utf16_to_utf8_partial`, `convert_utf16_to_utf8_partial_with_count` | all that is said | nothing |
//! | `convert_utf16_to_str_partial`, `convert_utf16_to_str_partial_with_count`, `convert_latin1_to_str_partial` | what is written, and how much; the count | what is cleared after it, and that the destination is text then |
//! | `convert_utf16_to_str`, `convert_latin1_to_str` | what is written, and how much, into a destination that is long enough | that check, and the same |
//! | `convert_utf8_to_latin1_lossy` | what is written, and how much, if the source is Latin1 in UTF-8 and the destination long enough | that check, and the result for any other source |
//! | `decode_latin1`, `encode_latin1_lossy` | the ASCII prefix, and the conversion of the rest | the allocation, joining the two, and the result for a text that is not Latin1 |
//!
//! # `utf_8`
//!
//! Its [promises](../../../../../docs/PROMISES.md#encoding_textutf_8).
//!
//! | Calls of [`utf_8`](crate::utf_8) | Proved | The crate's own |
//! |---|---|---|
//! | `utf8_valid_up_to`, `convert_utf8_to_utf16_up_to_invalid`, `convert_utf16_to_utf8_partial_inner` | all that is said | nothing |
//! | `convert_utf16_to_utf8_partial_tail` | what is written, and how much, if its conditions are met | the check that they are, which panics |
//! | `UTF8_DATA` | nothing: the library has a table of its own | the table |
//!
//! # `utf_16`
//!
//! Its [promises](../../../../../docs/PROMISES.md#encoding_textutf_16).
//!
//! | Calls of [`utf_16`](crate::utf_16) | Proved | The crate's own |
//! |---|---|---|
//! | `decode_utf16_bytes`, `encode_utf16_bytes` | all that is said | the choice of the function of an order |
//!
//! # Decoder
//!
//! Its [promises](../../../../../docs/PROMISES.md#encoding_textdecoder).
//!
//! | Calls of [`Utf8Decoder`](crate::Utf8Decoder) | Proved | The crate's own |
//! |---|---|---|
//! | `new_inner` | nothing pending, if a decoder is all zero | that it is |
//! | `in_neutral_state`, `decode_to_utf16_raw`, `decode_to_utf8_raw`, `decode_borrowed` | all that is said | nothing |
//! | `max_utf16_buffer_length`, `max_utf8_buffer_length`, `max_utf8_buffer_length_without_replacement` | the number | distinguishing `usize::MAX` as a result from a greater number |
//!
//! # Encodings
//!
//! Their [promises](../../../../../docs/PROMISES.md#encoding_streamsdecoder).
//!
//! | Calls of [`Encoding`](crate::Encoding) and [`Decoder`](crate::Decoder) | Proved | The crate's own |
//! |---|---|---|
//! | `for_bom` | the encoding and the length of the mark | an `Option` of them |
//! | `name`, `new_decoder`, `new_decoder_with_bom_removal`, `new_decoder_without_bom_handling`, `encoding` | what the storage of a decoder represents | the numbers in it, and the name |
//! | `decode`, `decode_with_bom_removal`, `decode_without_bom_handling`, `decode_without_bom_handling_and_without_replacement` | the calls that they make: `for_bom`, one call of a decoder or a repair | the allocation, and the choice between these |
//! | `decode_to_utf8`, `decode_to_utf16`, `decode_to_utf8_without_replacement`, `decode_to_utf16_without_replacement` | all that is said | nothing |
//! | `decode_to_str`, `decode_to_str_without_replacement`, `decode_to_string`, `decode_to_string_without_replacement` | what is written, and how much | what is cleared after it, and that the destination is text then |
//! | `max_utf16_buffer_length`, `max_utf8_buffer_length`, `max_utf8_buffer_length_without_replacement`, `latin1_byte_compatible_up_to` | the number, or `usize::MAX` if it is that or greater, or if there is none | an `Option` of it |
//!
//! # UTF-16 decoder
//!
//! Its [promises](../../../../../docs/PROMISES.md#encoding_streamsutf16_decoder).
//!
//! | Calls of [`Utf16Decoder`](crate::Utf16Decoder) | Proved | The crate's own |
//! |---|---|---|
//! | `new` | nothing pending, if a decoder is all zero but for the byte order | that it is |
//! | `in_neutral_state`, `decode_to_utf16_raw`, `decode_to_utf8_raw` | all that is said | nothing |
//! | `max_utf16_buffer_length`, `max_utf8_buffer_length`, `max_utf8_buffer_length_without_replacement` | the number, or `usize::MAX` if it is greater | an `Option` of it |
//!
//! # Encoder
//!
//! Its [promises](../../../../../docs/PROMISES.md#encoding_textutf_8).
//!
//! | Calls of [`Utf8Encoder`](crate::Utf8Encoder) | Proved | The crate's own |
//! |---|---|---|
//! | `new_inner` | nothing pending, if an encoder is all zero | that it is |
//! | `encode_from_utf16_raw`, `encode_from_utf16_with_count` | all that is said | nothing |
//! | `encode_from_utf8_raw`, `encode_from_utf8_with_count` | U+FFFD for the pending surrogate | the copy of the text, and the count |
//! | `max_buffer_length_from_utf16_without_replacement`, `max_buffer_length_from_utf8_without_replacement` | the number | distinguishing `usize::MAX` as a result from a greater number |
//!
//! # Counts
//!
//! Their [promises](../../../../../docs/PROMISES.md#encoding_textcount).
//!
//! | Calls | Proved | The crate's own |
//! |---|---|---|
//! | [`utf8_count`](crate::utf8_count), [`utf16_count`](crate::utf16_count) | all that is said | nothing |
//! | [`str_count`](crate::str_count), [`utf16_length_from_str`](crate::utf16_length_from_str) | all that is said | nothing |
//! | [`repaired_utf8_length`](crate::repaired_utf8_length) | the length, or `usize::MAX` if it is greater | an `Option` of it |
//!
//! # Malformed sequences
//!
//! Their [promises](../../../../../docs/PROMISES.md#encoding_runsmalformed).
//!
//! | Calls | Proved | The crate's own |
//! |---|---|---|
//! | [`next_malformed`](crate::next_malformed) | the index and length of the first malformed sequence | an `Option` of them |
//! | [`next_malformation`](crate::next_malformation) | the same, and the number of the kind | an `Option` of them, with the kind for its number |
//! | [`utf8_chunks`](crate::utf8_chunks) | each chunk, of the bytes after the previous one | passing these bytes; `law_next_malformed` says what follows from it |
//!
//! # Repair
//!
//! Its [promises](../../../../../docs/PROMISES.md#encoding_runsrepair).
//!
//! | Calls | Proved | The crate's own |
//! |---|---|---|
//! | [`repair`](crate::repair()) | the well-formed prefix, and the repaired rest | the allocation, and joining the two |
//! | [`repair_slice_partial`](crate::repair_slice_partial) | all that is said | nothing |
//! | [`repair_to`](crate::repair_to) | each chunk, as above | writing them in order, with U+FFFD for each malformed sequence |
//!
//! # Streams
//!
//! The [promises](../../../../../docs/PROMISES.md#encoding_textdecoder) of one call of the decoder, and
//! [laws](../../../../../docs/PROMISES.md#encoding_runslaws) about any sequence of calls: in any pieces, and into
//! destinations of any length, they yield the characters and malformed sequences of the whole.
//!
//! | Readers | Proved | The crate's own |
//! |---|---|---|
//! | [`Repair`](crate::Repair), [`DecodeUtf16`](crate::DecodeUtf16) | the calls of the decoder that they make | the loop that passes the reader's bytes to it, each once and in order, what it returns to the caller, and the offset of a malformed sequence, by the counts of these calls |
