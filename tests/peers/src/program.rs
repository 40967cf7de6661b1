// A program over `encodings`, which main.rs takes once for encoding_rs and once for encoding_text: one `use` differs.
use encodings::{CoderResult, Decoder, DecoderResult, Encoding, UTF_16BE, UTF_16LE, UTF_8};

/// What a stream is decoded to: the text, the name of its encoding, and whether a sequence is malformed.
pub type Decoded<T> = (T, &'static str, bool);

pub fn encoding(number: usize) -> &'static Encoding {
    [UTF_8, UTF_16LE, UTF_16BE][number]
}

/// Returns a decoder: 0 sniffs marks, 1 removes that of its encoding, 2 keeps it.
pub fn decoder(number: usize, marks: usize) -> Decoder {
    match marks {
        0 => encoding(number).new_decoder(),
        1 => encoding(number).new_decoder_with_bom_removal(),
        _ => encoding(number).new_decoder_without_bom_handling(),
    }
}

/// Decodes pieces into buffers of some lengths. The last piece is marked.
pub fn to_utf8(mut decoder: Decoder, pieces: &[&[u8]], mut room: impl FnMut() -> usize) -> Decoded<Vec<u8>> {
    let (mut text, mut had_errors) = (Vec::new(), false);
    for (index, piece) in pieces.iter().enumerate() {
        let mut src = *piece;
        loop {
            let mut dst = vec![0; 4 + room()];
            let (result, read, written, replaced) = decoder.decode_to_utf8(src, &mut dst, index + 1 == pieces.len());
            src = &src[read..];
            text.extend_from_slice(&dst[..written]);
            had_errors |= replaced;
            if result == CoderResult::InputEmpty {
                break;
            }
        }
    }
    (text, decoder.encoding().name(), had_errors)
}

pub fn to_utf16(mut decoder: Decoder, pieces: &[&[u8]], mut room: impl FnMut() -> usize) -> Decoded<Vec<u16>> {
    let (mut text, mut had_errors) = (Vec::new(), false);
    for (index, piece) in pieces.iter().enumerate() {
        let mut src = *piece;
        loop {
            let mut dst = vec![0; 4 + room()];
            let (result, read, written, replaced) = decoder.decode_to_utf16(src, &mut dst, index + 1 == pieces.len());
            src = &src[read..];
            text.extend_from_slice(&dst[..written]);
            had_errors |= replaced;
            if result == CoderResult::InputEmpty {
                break;
            }
        }
    }
    (text, decoder.encoding().name(), had_errors)
}

/// Decodes pieces into a text that has space for each, and with a second decoder into texts of other characters.
pub fn to_text([mut decoder, mut copy]: [Decoder; 2], pieces: &[&[u8]], mut room: impl FnMut() -> usize) -> Decoded<String> {
    let (mut text, mut other, mut had_errors) = (String::new(), String::new(), false);
    for (index, piece) in pieces.iter().enumerate() {
        let last = index + 1 == pieces.len();
        text.reserve(decoder.max_utf8_buffer_length(piece.len()).unwrap());
        let (result, read, replaced) = decoder.decode_to_string(piece, &mut text, last);
        assert_eq!((result, read), (CoderResult::InputEmpty, piece.len()));
        had_errors |= replaced;
        let mut src = *piece;
        loop {
            let mut dst = "\u{2603}".repeat(2 + room());
            let (result, read, written, _) = copy.decode_to_str(src, &mut dst, last);
            src = &src[read..];
            other.push_str(&dst[..written]);
            if result == CoderResult::InputEmpty {
                break;
            }
        }
    }
    assert_eq!(text, other);
    (text, decoder.encoding().name(), had_errors)
}

/// Returns the text without replacement, and the offset and length of each malformed sequence.
pub fn places(mut decoder: Decoder, pieces: &[&[u8]]) -> (Vec<u8>, Vec<(usize, u8)>) {
    let (mut text, mut found, mut offset) = (Vec::new(), Vec::new(), 0);
    for (index, piece) in pieces.iter().enumerate() {
        let mut src = *piece;
        loop {
            let mut dst = [0; 64];
            let (result, read, written) =
                decoder.decode_to_utf8_without_replacement(src, &mut dst, index + 1 == pieces.len());
            src = &src[read..];
            offset += read;
            text.extend_from_slice(&dst[..written]);
            match result {
                DecoderResult::InputEmpty => break,
                DecoderResult::OutputFull => {}
                DecoderResult::Malformed(length, after) => {
                    found.push((offset - usize::from(length) - usize::from(after), length));
                }
            }
        }
    }
    (text, found)
}

/// Returns what the calls on whole buffers return.
pub fn whole(number: usize, bytes: &[u8]) -> (String, &'static str, bool, String, bool, String, bool, Option<String>) {
    let encoding = encoding(number);
    let (sniffed, found, one) = encoding.decode(bytes);
    let (removed, two) = encoding.decode_with_bom_removal(bytes);
    let (kept, three) = encoding.decode_without_bom_handling(bytes);
    let strict = encoding.decode_without_bom_handling_and_without_replacement(bytes);
    (
        sniffed.into_owned(),
        found.name(),
        one,
        removed.into_owned(),
        two,
        kept.into_owned(),
        three,
        strict.map(|text| text.into_owned()),
    )
}

pub fn mark(bytes: &[u8]) -> Option<(&'static str, usize)> {
    Encoding::for_bom(bytes).map(|(encoding, length)| (encoding.name(), length))
}
