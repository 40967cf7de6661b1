//! Sources for a search of the input that takes a call the most instructions: patterns of a few elements, each several times in a row,
//! over and over. Whoever sends bytes selects such an input.

use crate::kinds::{Random, Source};

/// How many there are.
pub const COUNT: usize = 200;

/// What patterns consist of, well-formed elements first: bytes, code units, and Latin1.
type Element = (&'static [u8], &'static [u16], u8);

const ELEMENTS: [Element; 18] = [
    (b"a", &[0x61], b'a'),
    (b" ", &[0x20], b' '),
    ("é".as_bytes(), &[0xE9], 0xE9),
    (b"\xC2\x80", &[0x80], 0x80),
    ("א".as_bytes(), &[0x5D0], 0xD7),
    ("好".as_bytes(), &[0x597D], 0xBD),
    ("\u{202E}".as_bytes(), &[0x202E], 0xAE),
    ("\u{FFFD}".as_bytes(), &[0xFFFD], 0xFD),
    ("😀".as_bytes(), &[0xD83D, 0xDE00], 0xF0),
    ("\u{10FFFF}".as_bytes(), &[0xDBFF, 0xDFFF], 0xFF),
    (b"\x80", &[0xDC00], 0x81),
    (b"\xFF", &[0xD83D], 0xFE),
    (b"\xC3", &[0xDBFF], 0xC3),
    (b"\xE2\x82", &[0xD800, 0xD800], 0xE2),
    (b"\xF0\x9F\x98", &[0xDFFF, 0xD83D], 0xF1),
    (b"\xED\xA0\x80", &[0xDC00, 0xD800], 0xED),
    (b"\xC0\xAF", &[0xDC3D, 0xDC3D], 0xC0),
    (b"\xF4\x90\x80\x80", &[0xD83D, 0x61], 0xF4),
];

/// How many of them are well-formed.
const WELL_FORMED: usize = 10;

/// How often in a row a pattern has an element.
const TIMES: [usize; 12] = [1, 1, 1, 2, 3, 7, 8, 15, 16, 31, 64, 100];

/// Returns the source that repeats a pattern, of `size` bytes or code units.
fn repeated(pattern: &[(usize, usize)], size: usize) -> Source {
    let (mut bytes, mut units, mut latin1) = (Vec::new(), Vec::new(), Vec::new());
    while bytes.len() < size || units.len() < size || latin1.len() < size {
        for (element, times) in pattern {
            for _ in 0..*times {
                let (some, of_units, byte) = ELEMENTS[*element];
                if bytes.len() + some.len() <= size {
                    bytes.extend_from_slice(some);
                } else if bytes.len() < size {
                    bytes.push(b'a');
                }
                if units.len() < size {
                    units.extend_from_slice(of_units);
                }
                latin1.push(byte);
            }
        }
    }
    units.truncate(size);
    latin1.truncate(size);
    Source::of(bytes, units, latin1)
}

/// Returns the text that others are compared with, letters with spaces, and then the patterns. Every second one is well-formed.
pub fn sources(size: usize) -> Vec<(String, Source)> {
    let mut random = Random::seeded(88);
    let mut all = vec![("plain text".to_string(), repeated(&[(0, 5), (1, 1)], size))];
    while all.len() <= COUNT {
        let elements = if all.len() % 2 == 0 { WELL_FORMED } else { ELEMENTS.len() } as u32;
        let pattern: Vec<(usize, usize)> = (0..=random.below(4))
            .map(|_| (random.below(elements) as usize, TIMES[random.below(TIMES.len() as u32) as usize]))
            .collect();
        let name: Vec<String> = pattern
            .iter()
            .map(|(element, times)| {
                let (bytes, units, _) = ELEMENTS[*element];
                format!("{times} x {bytes:02X?}/{units:04X?}")
            })
            .collect();
        all.push((name.join(" ").replace(", ", " "), repeated(&pattern, size)));
    }
    all
}
