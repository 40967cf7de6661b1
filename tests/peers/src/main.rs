//! Compares encoding_text with encoding_rs: one program, program.rs and calls.rs, over both. Prints how many streams were
//! decoded, and of how many each call was compared.

mod compared;
mod ours {
    use crate::compared::{Known, Piece, To};
    use encoding_text as encodings;
    const MORE: usize = 0;
    include!("program.rs");
    include!("calls.rs");
}
mod theirs {
    use crate::compared::{Known, Piece, To};
    use encoding_rs as encodings;
    /// What a queried length may lack: encoding_rs doesn't count U+0000 if it was read after an unpaired surrogate. After
    /// D8 3D 00 00 of UTF-16BE, two bytes and U+0000 don't fit the four bytes that it asks for.
    const MORE: usize = 3;
    include!("program.rs");
    include!("calls.rs");
}

const STREAMS: usize = 10_000;

/// Random numbers: an LCG of Knuth's.
struct Random(u64);

impl Random {
    fn below(&mut self, n: usize) -> usize {
        self.0 = self.0.wrapping_mul(6364136223846793005).wrapping_add(1442695040888963407);
        (self.0 >> 33) as usize % n
    }

    fn unit(&mut self) -> u16 {
        match self.below(8) {
            0 => 0xD800 + self.below(0x400) as u16,
            1 => 0xDC00 + self.below(0x400) as u16,
            2 => self.below(0x10000) as u16,
            3 => [0xFEFF, 0xFFFE, 0xFFFD, 0xD83D][self.below(4)],
            _ => [0x61, 0xE9, 0x4F60, 0x20][self.below(4)],
        }
    }

    /// A stream: a mark or none, then UTF-16LE, UTF-16BE or damaged UTF-8, then perhaps one byte less.
    fn stream(&mut self) -> Vec<u8> {
        let marks: [&[u8]; 6] = [b"\xEF\xBB\xBF", b"\xFF\xFE", b"\xFE\xFF", b"\xEF\xBB", b"\xFF", b"\xFE"];
        let mut bytes = match self.below(10) {
            some if some < 6 => marks[some].to_vec(),
            _ => Vec::new(),
        };
        let length = [0, 3, 12, 40, 700][self.below(5)];
        let kind = self.below(3);
        for _ in 0..self.below(length + 1) {
            let unit = self.unit();
            match kind {
                0 => bytes.extend(unit.to_le_bytes()),
                1 => bytes.extend(unit.to_be_bytes()),
                _ => bytes.extend(String::from_utf16_lossy(&[unit]).bytes()),
            }
        }
        if kind == 2 && !bytes.is_empty() {
            let at = self.below(bytes.len());
            bytes[at] = self.below(256) as u8;
        }
        bytes.truncate(bytes.len() - self.below(2).min(bytes.len()));
        bytes
    }

    /// Pieces of random lengths; the last one may be empty.
    fn pieces<'a>(&mut self, mut rest: &'a [u8]) -> Vec<&'a [u8]> {
        let longest = [1, 2, 5, 60, 2000][self.below(5)];
        let mut pieces = Vec::new();
        while !rest.is_empty() {
            let (piece, after) = rest.split_at(rest.len().min(self.below(longest + 1)));
            pieces.push(piece);
            rest = after;
        }
        if pieces.is_empty() || self.below(2) == 0 {
            pieces.push(rest);
        }
        pieces
    }
}

fn main() {
    let mut random = Random(11);
    let mut compared = 0;
    for stream in 0..STREAMS {
        let bytes = random.stream();
        let (number, marks, room) = (stream % 3, stream / 3 % 3, [0, 3, 50, 3000][random.below(4)]);
        let (mine, other) = (random.pieces(&bytes), random.pieces(&bytes));
        let mut rooms = Random(stream as u64);
        let what = format!("stream {stream}, encoding {number}, marks {marks}: {bytes:X?}");
        assert_eq!(
            ours::to_utf8(ours::decoder(number, marks), &mine, || rooms.below(room + 1)),
            theirs::to_utf8(theirs::decoder(number, marks), &other, || 5000),
            "{what}"
        );
        assert_eq!(
            ours::to_utf16(ours::decoder(number, marks), &mine, || rooms.below(room + 1)),
            theirs::to_utf16(theirs::decoder(number, marks), &other, || 5000),
            "{what}"
        );
        assert_eq!(
            ours::to_text([0, 1].map(|_| ours::decoder(number, marks)), &mine, || rooms.below(room + 1)),
            theirs::to_text([0, 1].map(|_| theirs::decoder(number, marks)), &other, || 5000),
            "{what}"
        );
        assert_eq!(
            ours::places(ours::decoder(number, marks), &mine),
            theirs::places(theirs::decoder(number, marks), &other),
            "{what}"
        );
        assert_eq!(ours::whole(number, &bytes), theirs::whole(number, &bytes), "{what}");
        assert_eq!(ours::mark(&bytes), theirs::mark(&bytes), "{what}");
        compared += 1;
    }
    println!("{compared} streams");
    println!("{} random streams, call by call", compared::random_streams(1) + compared::random_streams(2603));
    println!("{} hard streams, call by call", compared::hard_streams());
}
