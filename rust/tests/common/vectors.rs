//! Sequences and their parts, by the UTF-8 decoder of the Encoding Standard, and code units with their UTF-8.
use super::rows::{fields, named};

/// A character, or the length of a malformed sequence.
pub type Part = Result<char, u8>;

/// Returns the character that a word such as `U+00E4` names, or else the length after `?`.
pub fn part(word: &str) -> Part {
    match word.strip_prefix("U+") {
        Some(scalar) => Ok(char::from_u32(u32::from_str_radix(scalar, 16).unwrap()).unwrap()),
        None => Err(word.strip_prefix('?').unwrap().parse().unwrap()),
    }
}

/// Returns the number of bytes of a part.
pub fn length_of(part: &Part) -> usize {
    part.map_or_else(usize::from, char::len_utf8)
}

/// Bytes and their parts, with their row.
pub struct Vector {
    pub row: &'static str,
    pub bytes: Vec<u8>,
    pub parts: Vec<Part>,
}

impl Vector {
    /// Returns the vector of a row, with `61` before it and a text after it.
    fn of(row: &'static str, following: &str) -> Vector {
        let (bytes, words) = fields(row);
        let mut parts = vec![Ok('a')];
        parts.extend(words.split_whitespace().map(part));
        parts.extend(following.chars().map(Ok));
        Vector {
            row,
            bytes: [b"a".to_vec(), named(bytes), following.into()].concat(),
            parts,
        }
    }
}

/// Returns the rows of [`BYTES`] as vectors: each with `61` before it, once without and once with `5A` after it.
pub fn vectors() -> Vec<Vector> {
    BYTES
        .lines()
        .flat_map(|row| [Vector::of(row, ""), Vector::of(row, "Z")])
        .collect()
}

/// Bytes and their parts: characters by their scalar values, and `?` with the length of a malformed sequence.
pub const BYTES: &str = "\
|
C3 A4 | U+00E4
E2 98 83 | U+2603
F0 9F 92 A9 | U+1F4A9
C3 | ?1
E2 98 | ?2
F0 9F 92 | ?3
BF | ?1
BF BF | ?1 ?1
C3 A4 80 | U+00E4 ?1
C3 A4 BF | U+00E4 ?1
E2 98 83 80 | U+2603 ?1
E2 98 83 BF | U+2603 ?1
F0 9F 92 A9 80 | U+1F4A9 ?1
F0 9F 92 A9 BF | U+1F4A9 ?1
00 | U+0000
C0 80 | ?1 ?1
E0 80 80 | ?1 ?1 ?1
F0 80 80 80 | ?1 ?1 ?1 ?1
FF | ?1
7F | U+007F
C1 BF | ?1 ?1
E0 81 BF | ?1 ?1 ?1
F0 80 81 BF | ?1 ?1 ?1 ?1
80 | ?1
80 80 | ?1 ?1
80 80 80 | ?1 ?1 ?1
80 80 80 80 | ?1 ?1 ?1 ?1
C2 80 | U+0080
E0 82 80 | ?1 ?1 ?1
F0 80 82 80 | ?1 ?1 ?1 ?1
C1 80 | ?1 ?1
C2 7F | ?1 U+007F
DF BF | U+07FF
E0 9F BF | ?1 ?1 ?1
F0 80 9F BF | ?1 ?1 ?1 ?1
E0 A0 80 | U+0800
F0 80 A0 80 | ?1 ?1 ?1 ?1
ED 9F BF | U+D7FF
F0 8D 9F BF | ?1 ?1 ?1 ?1
ED A0 80 | ?1 ?1 ?1
F0 8D A0 80 | ?1 ?1 ?1 ?1
ED BF BF | ?1 ?1 ?1
F0 8D BF BF | ?1 ?1 ?1 ?1
EE 80 80 | U+E000
F0 8E 80 80 | ?1 ?1 ?1 ?1
EF BF BF | U+FFFF
F0 8F BF BF | ?1 ?1 ?1 ?1
F0 90 80 80 | U+10000
F4 8F BF BF | U+10FFFF
F4 90 80 80 | ?1 ?1 ?1 ?1
F4 8F BF FF | ?3 ?1";

/// Code units at the edges of lengths and of surrogates, and their UTF-8, with U+FFFD for an unpaired surrogate.
pub const UNITS: &str = "\
|
0000 | 00
007F | 7F
0080 | C2 80
07FF | DF BF
0800 | E0 A0 80
D7FF | ED 9F BF
D800 | EF BF BD
D800 0062 | EF BF BD 62
DFFF | EF BF BD
DFFF 0062 | EF BF BD 62
E000 | EE 80 80
FFFF | EF BF BF
D800 DC00 | F0 90 80 80
DBFF DFFF | F4 8F BF BF
DC00 DEDE | EF BF BD EF BF BD";

/// Characters of each length before one another: code units, and their UTF-8.
pub const LIMITS: &str = "\
0062 | 62
00A7 | C2 A7
2603 | E2 98 83
D83D DCA9 | F0 9F 92 A9
0063 0062 | 63 62
0063 00A7 | 63 C2 A7
0063 2603 | 63 E2 98 83
0063 D83D DCA9 | 63 F0 9F 92 A9
00B6 0062 | C2 B6 62
00B6 00A7 | C2 B6 C2 A7
00B6 2603 | C2 B6 E2 98 83
00B6 D83D DCA9 | C2 B6 F0 9F 92 A9
263A 0062 | E2 98 BA 62
263A 00A7 | E2 98 BA C2 A7
263A 2603 | E2 98 BA E2 98 83
263A D83D DCA9 | E2 98 BA F0 9F 92 A9
D83D DE0E 0062 | F0 9F 98 8E 62
D83D DE0E 00A7 | F0 9F 98 8E C2 A7
D83D DE0E 2603 | F0 9F 98 8E E2 98 83
D83D DE0E D83D DCA9 | F0 9F 98 8E F0 9F 92 A9
0063 00B6 0062 0062 | 63 C2 B6 62 62
0063 00B6 0062 0062 0062 | 63 C2 B6 62 62 62
263A 0062 0062 | E2 98 BA 62 62
263A 0062 0062 0062 | E2 98 BA 62 62 62
0063 00B6 00A7 | 63 C2 B6 C2 A7
0063 00B6 00A7 0062 | 63 C2 B6 C2 A7 62
263A 00A7 0062 | E2 98 BA C2 A7 62
0063 00B6 0062 00A7 | 63 C2 B6 62 C2 A7
263A 0062 00A7 | E2 98 BA 62 C2 A7
0063 00B6 2603 | 63 C2 B6 E2 98 83
0063 00B6 D83D | 63 C2 B6 EF BF BD
263A D83D | E2 98 BA EF BF BD
0063 00B6 DCA9 | 63 C2 B6 EF BF BD
263A DCA9 | E2 98 BA EF BF BD";
