//! The calls of `Decoder` whose destination is a text: `decode_to_str` and `decode_to_string`, with replacement and without.
//! What they write, what they leave after it, and what they report, in each room.

use encoding_text::{CoderResult, Decoder, Encoding, UTF_16BE, UTF_16LE, UTF_8};

/// A stream without a mark, and its text.
struct Stream {
    encoding: &'static Encoding,
    bytes: Vec<u8>,
    text: String,
    /// The index in the text of each U+FFFD for a malformed sequence.
    replaced: Vec<usize>,
}

/// Returns the stream of characters and malformed sequences in an encoding. Each malformed sequence is `None`: FF in UTF-8,
/// and otherwise an unpaired low surrogate.
fn stream(encoding: &'static Encoding, parts: &[Option<char>]) -> Stream {
    let (mut bytes, mut text, mut replaced) = (Vec::new(), String::new(), Vec::new());
    for part in parts {
        let units = part.map_or(vec![0xDC00], |character| character.encode_utf16(&mut [0; 2]).to_vec());
        if encoding == UTF_16LE {
            bytes.extend(units.iter().flat_map(|unit| unit.to_le_bytes()));
        } else if encoding == UTF_16BE {
            bytes.extend(units.iter().flat_map(|unit| unit.to_be_bytes()));
        } else if let Some(character) = part {
            bytes.extend_from_slice(character.encode_utf8(&mut [0; 4]).as_bytes());
        } else {
            bytes.push(0xFF);
        }
        if part.is_none() {
            replaced.push(text.len());
        }
        text.push(part.unwrap_or('\u{FFFD}'));
    }
    Stream {
        encoding,
        bytes,
        text,
        replaced,
    }
}

/// Streams of characters of each length, of U+FFFD itself, and of malformed sequences, in each encoding.
fn streams() -> Vec<Stream> {
    let well_formed = ['a', 'é', '☃', '😀', '\u{FFFD}', 'é', 'b', '☃', '😀', 'c'].map(Some);
    let mut damaged = well_formed.to_vec();
    damaged.insert(5, None);
    damaged.insert(2, None);
    damaged.push(None);
    let all = [UTF_8, UTF_16LE, UTF_16BE];
    let streams = all.map(|encoding| [stream(encoding, &well_formed), stream(encoding, &damaged)]);
    streams.into_iter().flatten().collect()
}

/// The most bytes of a character. A call that has as much space goes on.
const MOST: usize = 4;

/// Into each room from 0 up, and then into as long ones: at most the spare capacity is used, the text doesn't grow, and no
/// character is cut. The result is true if and only if U+FFFD was written for a malformed sequence.
#[cfg(feature = "alloc")]
#[test]
fn strings_of_each_room() {
    for stream in streams() {
        for room in 0..=stream.text.len() + 2 * MOST {
            let mut decoder = stream.encoding.new_decoder_without_bom_handling();
            let (mut unread, mut text) = (&stream.bytes[..], String::new());
            for call in 0.. {
                let space = if call == 0 { room } else { room.max(MOST) };
                let mut dst = String::with_capacity(2 + space);
                dst.push('é');
                let capacity = dst.capacity();
                let (result, read, replaced) = decoder.decode_to_string(unread, &mut dst, true);
                assert!(dst.len() <= capacity && capacity == dst.capacity(), "{room}");
                let written = std::str::from_utf8(&dst.as_bytes()[2..]).unwrap();
                let of_call = text.len()..text.len() + written.len();
                assert_eq!(
                    replaced,
                    stream.replaced.iter().any(|at| of_call.contains(at)),
                    "{room}"
                );
                assert!(dst.starts_with('é') && stream.text[of_call].eq(written), "{room}");
                text.push_str(written);
                unread = &unread[read..];
                match result {
                    CoderResult::InputEmpty => break,
                    CoderResult::OutputFull => assert!(capacity - dst.len() < MOST, "{room}"),
                }
            }
            assert_eq!((text.as_str(), unread), (stream.text.as_str(), &b""[..]), "{room}");
        }
    }
}

/// The same without replacement: each malformed sequence is reported after the text before it.
#[cfg(feature = "alloc")]
#[test]
fn strings_of_each_room_without_replacement() {
    use encoding_text::DecoderResult;
    for stream in streams() {
        for room in 0..=stream.text.len() + 2 * MOST {
            let mut decoder = stream.encoding.new_decoder_without_bom_handling();
            let (mut unread, mut text, mut reports) = (&stream.bytes[..], String::new(), Vec::new());
            for call in 0.. {
                let space = if call == 0 { room } else { room.max(MOST) };
                let mut dst = String::with_capacity(2 + space);
                dst.push('é');
                let capacity = dst.capacity();
                let (result, read) = decoder.decode_to_string_without_replacement(unread, &mut dst, true);
                assert!(dst.len() <= capacity && capacity == dst.capacity(), "{room}");
                let written = std::str::from_utf8(&dst.as_bytes()[2..]).unwrap();
                text.push_str(written);
                assert!(dst.starts_with('é') && stream.text.starts_with(&text), "{room}");
                unread = &unread[read..];
                match result {
                    DecoderResult::InputEmpty => break,
                    DecoderResult::OutputFull => assert!(capacity - dst.len() < MOST, "{room}"),
                    DecoderResult::Malformed(length, after) => {
                        let wanted = if stream.encoding == UTF_8 { 1 } else { 2 };
                        assert_eq!((length, after), (wanted, 0), "{room}");
                        reports.push(text.len());
                        text.push('\u{FFFD}');
                    }
                }
            }
            assert_eq!((text.as_str(), unread), (stream.text.as_str(), &b""[..]), "{room}");
            assert_eq!(reports, stream.replaced, "{room}");
        }
    }
}

/// Decodes the end of a stream into a text.
fn to_str(decoder: &mut Decoder, src: &[u8], dst: &mut str) -> (CoderResult, usize, usize, bool) {
    decoder.decode_to_str(src, dst, true)
}

/// Decodes into a text. Returns the numbers of bytes read and written.
type ToStr = fn(&mut Decoder, &[u8], &mut str) -> (usize, usize);

const TO_STR: [ToStr; 2] = [
    |decoder, src, dst| {
        let (_, read, written, _) = to_str(decoder, src, dst);
        (read, written)
    },
    |decoder, src, dst| {
        let (_, read, written) = decoder.decode_to_str_without_replacement(src, dst, true);
        (read, written)
    },
];

/// Into a text of characters of one length: those that were cut become zero, and what follows is unchanged.
#[test]
fn cut_characters_become_zero() {
    for encoding in [UTF_8, UTF_16LE, UTF_16BE] {
        for (parts, before) in [
            ("", "é"),
            ("a", "é"),
            ("aé☃", "é"),
            ("ab", "☃"),
            ("aé😀b", "☃"),
            ("☃", "😀"),
            ("é", "😀"),
        ] {
            let parts: Vec<_> = parts.chars().map(Some).collect();
            let stream = stream(encoding, &parts);
            for (count, decode) in (0..12).flat_map(|count| TO_STR.map(|decode| (count, decode))) {
                let mut dst = before.repeat(count);
                let mut wanted = dst.clone().into_bytes();
                let mut decoder = encoding.new_decoder_without_bom_handling();
                let (read, written) = decode(&mut decoder, &stream.bytes, &mut dst);
                wanted[..written].copy_from_slice(&stream.text.as_bytes()[..written]);
                let mut end = written;
                while end % before.len() != 0 {
                    wanted[end] = 0;
                    end += 1;
                }
                assert_eq!(dst.as_bytes(), wanted, "{before}, {count}");
                assert!(std::str::from_utf8(&wanted).is_ok(), "{before}, {count}");
                if wanted.len() >= stream.text.len() + MOST {
                    assert_eq!(
                        (read, written),
                        (stream.bytes.len(), stream.text.len()),
                        "{before}, {count}"
                    );
                }
            }
        }
    }
}

/// What the calls that replace report for a stream that has U+FFFD itself, without a malformed sequence and with some.
#[test]
fn only_malformed_sequences_are_replaced() {
    for stream in streams() {
        let ended = CoderResult::InputEmpty;
        let (bytes, length, replaced) = (&stream.bytes, stream.text.len(), !stream.replaced.is_empty());
        let decoder = || stream.encoding.new_decoder_without_bom_handling();
        let mut units = [0; 64];
        let found = decoder().decode_to_utf16(bytes, &mut units, true);
        let count = stream.text.encode_utf16().count();
        assert_eq!(found, (ended, bytes.len(), count, replaced));
        assert!(stream.text.encode_utf16().eq(units[..count].iter().copied()));
        let mut utf8 = [0; 64];
        let found = decoder().decode_to_utf8(bytes, &mut utf8, true);
        assert_eq!(found, (ended, bytes.len(), length, replaced));
        assert_eq!(&utf8[..length], stream.text.as_bytes());
        let mut text = "a".repeat(64);
        let found = to_str(&mut decoder(), bytes, &mut text);
        assert_eq!(found, (ended, bytes.len(), length, replaced));
        assert_eq!(text[..length], stream.text);
    }
}
