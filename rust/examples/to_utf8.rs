//! Converts a stream to UTF-8, as examples/to_utf8.c does: cargo run --example to_utf8 < text > text.utf8
use encoding_text::{DecoderResult, UTF_8};
use std::io::{self, Read, Write};

fn main() -> io::Result<()> {
    let (mut input, mut output) = (io::stdin().lock(), io::stdout().lock());
    let (mut block, mut text) = ([0; 4096], [0; 4096]);
    let (mut decoder, mut offset) = (UTF_8.new_decoder(), 0);
    loop {
        let length = input.read(&mut block)?;
        let (last, mut src) = (length == 0, &block[..length]);
        loop {
            let (result, read, written) = decoder.decode_to_utf8_without_replacement(src, &mut text, last);
            src = &src[read..];
            offset += read as u64;
            output.write_all(&text[..written])?;
            match result {
                DecoderResult::InputEmpty if last => return output.flush(),
                DecoderResult::InputEmpty => break,
                DecoderResult::OutputFull => {}
                DecoderResult::Malformed(length, after) => {
                    output.write_all("\u{FFFD}".as_bytes())?;
                    let start = offset - u64::from(length + after);
                    eprintln!("offset {start}: {length} bytes");
                }
            }
        }
    }
}
