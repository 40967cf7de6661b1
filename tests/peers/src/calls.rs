// Single calls of a decoder of `encodings`: main.rs takes this file twice, as it takes program.rs.

/// A decoder of a stream, and how many bytes of the stream it read.
pub struct Stream {
    decoder: Decoder,
    offset: usize,
}

impl Stream {
    pub fn new(number: usize, marks: usize) -> Stream {
        Stream {
            decoder: decoder(number, marks),
            offset: 0,
        }
    }

    pub fn encoding(&self) -> &'static str {
        self.decoder.encoding().name()
    }

    /// Returns what the decoder says of the bytes that come next, and what its queries return for each of these numbers.
    pub fn known(&self, next: &[u8], numbers: &[usize]) -> Known {
        let queries = |&n: &usize| {
            [
                self.decoder.max_utf16_buffer_length(n),
                self.decoder.max_utf8_buffer_length(n),
                self.decoder.max_utf8_buffer_length_without_replacement(n),
            ]
            .map(|length| length.unwrap_or(usize::MAX))
        };
        Known {
            encoding: self.encoding(),
            latin1: self.decoder.latin1_byte_compatible_up_to(next),
            queries: numbers.iter().map(queries).collect(),
        }
    }

    /// Decodes a piece by calls that report malformed sequences, each into a destination of this length, or of the
    /// queried one.
    pub fn report(&mut self, to: To, src: &[u8], last: bool, mut length: impl FnMut() -> Option<usize>) -> Piece {
        let (mut piece, mut text, mut unread) = (Piece::default(), Vec::new(), src);
        for _ in 0..most_calls(src) {
            let wanted = length();
            let space = wanted.unwrap_or_else(|| MORE + self.queried(to, unread.len(), false));
            let (result, read, out) = reporting(&mut self.decoder, to, unread, space, last);
            unread = &unread[read..];
            self.offset += read;
            text.extend_from_slice(&out);
            match result {
                DecoderResult::InputEmpty => {
                    assert_eq!(unread, []);
                    piece.parts.push((text, None));
                    return piece;
                }
                DecoderResult::OutputFull => assert!(wanted.is_some() && space < out.len() + to.least()),
                DecoderResult::Malformed(length, after) => {
                    let end = self.offset - usize::from(after);
                    piece.parts.push((std::mem::take(&mut text), Some((end, length))));
                    piece.read_after.push(after);
                }
            }
        }
        panic!("no end after {} calls", most_calls(src));
    }

    /// Decodes a piece by calls that write U+FFFD for malformed sequences. Returns the text, and whether there was one.
    pub fn replace(
        &mut self,
        to: To,
        src: &[u8],
        last: bool,
        mut length: impl FnMut() -> Option<usize>,
    ) -> (Vec<u16>, bool) {
        let (mut text, mut had_errors, mut unread) = (Vec::new(), false, src);
        for _ in 0..most_calls(src) {
            let wanted = length();
            let space = wanted.unwrap_or_else(|| MORE + self.queried(to, unread.len(), true));
            let (result, read, out, replaced) = replacing(&mut self.decoder, to, unread, space, last);
            unread = &unread[read..];
            self.offset += read;
            text.extend_from_slice(&out);
            had_errors |= replaced;
            if result == CoderResult::InputEmpty {
                assert_eq!(unread, []);
                return (text, had_errors);
            }
            assert!(wanted.is_some() && space < out.len() + to.least());
        }
        panic!("no end after {} calls", most_calls(src));
    }

    fn queried(&self, to: To, length: usize, replaces: bool) -> usize {
        match to {
            To::Units => self.decoder.max_utf16_buffer_length(length),
            _ if replaces => self.decoder.max_utf8_buffer_length(length),
            _ => self.decoder.max_utf8_buffer_length_without_replacement(length),
        }
        .unwrap()
    }
}

/// Returns an upper bound of the calls that decode a piece: each reads a byte, reports, or writes what is pending.
fn most_calls(src: &[u8]) -> usize {
    2 * src.len() + 10
}

/// Makes one call into a destination of this length. Returns why it ended, the number of bytes read, and what is written.
fn reporting(decoder: &mut Decoder, to: To, src: &[u8], length: usize, last: bool) -> (DecoderResult, usize, Vec<u16>) {
    match to {
        To::Bytes => {
            let mut dst = vec![b'q'; length];
            let (result, read, written) = decoder.decode_to_utf8_without_replacement(src, &mut dst, last);
            (result, read, units(&dst[..written]))
        }
        To::Units => {
            let mut dst = vec![0x71; length];
            let (result, read, written) = decoder.decode_to_utf16_without_replacement(src, &mut dst, last);
            (result, read, dst[..written].to_vec())
        }
        To::Text => {
            let mut dst = text_of_length(length);
            let (result, read, written) = decoder.decode_to_str_without_replacement(src, &mut dst, last);
            assert!(std::str::from_utf8(dst.as_bytes()).is_ok());
            (result, read, units(dst[..written].as_bytes()))
        }
        To::Owned => {
            let mut dst = String::with_capacity(length);
            let (result, read) = decoder.decode_to_string_without_replacement(src, &mut dst, last);
            (result, read, units(dst.as_bytes()))
        }
    }
}

/// The same by a call that writes U+FFFD for malformed sequences. Also returns whether it wrote one.
fn replacing(decoder: &mut Decoder, to: To, src: &[u8], length: usize, last: bool) -> (CoderResult, usize, Vec<u16>, bool) {
    match to {
        To::Bytes => {
            let mut dst = vec![b'q'; length];
            let (result, read, written, replaced) = decoder.decode_to_utf8(src, &mut dst, last);
            (result, read, units(&dst[..written]), replaced)
        }
        To::Units => {
            let mut dst = vec![0x71; length];
            let (result, read, written, replaced) = decoder.decode_to_utf16(src, &mut dst, last);
            (result, read, dst[..written].to_vec(), replaced)
        }
        To::Text => {
            let mut dst = text_of_length(length);
            let (result, read, written, replaced) = decoder.decode_to_str(src, &mut dst, last);
            assert!(std::str::from_utf8(dst.as_bytes()).is_ok());
            (result, read, units(dst[..written].as_bytes()), replaced)
        }
        To::Owned => {
            let mut dst = String::with_capacity(length);
            let (result, read, replaced) = decoder.decode_to_string(src, &mut dst, last);
            (result, read, units(dst.as_bytes()), replaced)
        }
    }
}

/// Returns a text of this length in bytes, with characters that a call may cut.
fn text_of_length(length: usize) -> String {
    "\u{2603}".repeat(length / 3) + &"q".repeat(length % 3)
}

fn units(bytes: &[u8]) -> Vec<u16> {
    bytes.iter().map(|byte| u16::from(*byte)).collect()
}
