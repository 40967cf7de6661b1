//! Conversions compared with a reference that grows by one character: over every length, from each of sixteen offsets,
//! with another character at every index. Other units surround the source and the destination.
use super::rows::{Item, Unit};

/// The most units of a source.
const LONGEST: usize = 130;

/// The length of the array around a source or a destination: three units for each of the longest source, and sixteen
/// more before and after.
const ARRAY_LENGTH: usize = 3 * LONGEST + 48;

/// The length of a destination.
#[derive(Clone, Copy)]
pub enum Room {
    /// A multiple of the number of units of the source, and a number added.
    Times(usize, usize),
    /// Exactly as many units as are written.
    Exact,
    /// One unit less, so that the last character doesn't fit.
    Short,
}

/// How a call is made: the length of the destination, and how many units after what is written become zero.
#[derive(Clone, Copy)]
pub struct Way {
    room: Room,
    zeros: usize,
}

/// Into exactly as many units as are needed.
pub const EXACT: Way = Way {
    room: Room::Exact,
    zeros: 0,
};

/// Into one unit less.
pub const SHORT: Way = Way {
    room: Room::Short,
    zeros: 0,
};

/// Returns the way into `times` units for each of the source, and `more`.
pub fn into_room(times: usize, more: usize) -> Way {
    Way {
        room: Room::Times(times, more),
        zeros: 0,
    }
}

impl Way {
    /// Returns the way with `zeros` units that become zero after what is written.
    pub fn with_zeros(self, zeros: usize) -> Way {
        Way { zeros, ..self }
    }
}

/// Characters that texts are made of: a letter of one unit, those that surround others, and these others. A call is
/// tried with each of the others among each of the fillers.
pub struct Items<S, D> {
    pub letter: Item<S, D>,
    pub fillers: Vec<Item<S, D>>,
    pub others: Vec<Item<S, D>>,
}

/// A source, its expected output, and the units of both before its last character. Also the arrays around the source
/// and the destination, the latter also as it is before a call.
struct Text<S, D> {
    src: Vec<S>,
    wanted: Vec<D>,
    prefix: (usize, usize),
    source: [S; ARRAY_LENGTH],
    destination: [D; ARRAY_LENGTH],
    unwritten: [D; ARRAY_LENGTH],
}

impl<S: Unit, D: Unit> Text<S, D> {
    fn new() -> Text<S, D> {
        Text {
            src: Vec::new(),
            wanted: Vec::new(),
            prefix: (0, 0),
            source: [S::AFTER; ARRAY_LENGTH],
            destination: [D::UNWRITTEN; ARRAY_LENGTH],
            unwritten: [D::UNWRITTEN; ARRAY_LENGTH],
        }
    }

    fn push(&mut self, item: &Item<S, D>) {
        self.prefix = (self.src.len(), self.wanted.len());
        self.src.extend_from_slice(&item.read);
        self.wanted.extend_from_slice(&item.written);
    }

    /// Makes it a text of `length` units, with the other character at an index if it ends within them. Letters fill the
    /// space that is too short for a filler. The next call is from the first offset.
    fn fill(&mut self, [letter, filler, other]: [&Item<S, D>; 3], length: usize, place: usize) {
        self.src.clear();
        self.wanted.clear();
        self.prefix = (0, 0);
        while self.src.len() < length {
            let at = self.src.len();
            let left = if at < place { place } else { length } - at;
            if at == place && other.read.len() <= left {
                self.push(other);
            } else if filler.read.len() <= left {
                self.push(filler);
            } else {
                self.push(letter);
            }
        }
        self.source.fill(S::AFTER);
    }

    /// Returns how many units have to be read and written into this destination, and how many it has.
    fn reported(&self, room: Room) -> ((usize, usize), usize) {
        let (read, written) = (self.src.len(), self.wanted.len());
        match room {
            Room::Times(times, more) => ((read, written), read * times + more),
            Room::Exact => ((read, written), written),
            Room::Short => (self.prefix, written.saturating_sub(1)),
        }
    }

    /// Returns whether the destination has the expected output at an index, then `zeros` zeros, and is unchanged around
    /// them.
    fn is_written(&self, to: usize, written: usize, zeros: usize) -> bool {
        let (before, rest) = self.destination.split_at(to);
        let (prefix, following) = rest.split_at(written);
        let (cleared, left) = following.split_at(zeros);
        before == &self.unwritten[..to]
            && prefix == &self.wanted[..written]
            && cleared.iter().all(|unit| *unit == D::ZERO)
            && left == &self.unwritten[..left.len()]
    }

    /// Returns whether the call from one offset to another reads and writes exactly the expected units and returns their
    /// numbers. Each call on a text is from a greater offset than the one before, so that no rest of an earlier copy
    /// follows the source.
    fn converts(
        &mut self,
        from: usize,
        to: usize,
        way: Way,
        call: impl FnOnce(&[S], &mut [D]) -> (usize, usize),
    ) -> bool {
        let ((read, written), room) = self.reported(way.room);
        self.source[..from].fill(S::BEFORE);
        let src = &mut self.source[from..from + self.src.len()];
        src.copy_from_slice(&self.src);
        let reported = call(src, &mut self.destination[to..to + room]);
        let zeros = way.zeros.min(room - written);
        let holds = reported == (read, written) && self.is_written(to, written, zeros);
        self.destination[to..to + written + zeros].fill(D::UNWRITTEN);
        holds
    }
}

/// Asserts that the call holds over each length, with the other character at each index, from each of sixteen offsets
/// to one of sixteen.
fn assert_holds_among<S: Unit, D: Unit>(
    items: [&Item<S, D>; 3],
    way: Way,
    mut call: impl FnMut(&[S], &mut [D]) -> (usize, usize),
) {
    let mut text = Text::new();
    let mut turn = 0;
    for length in 0..=LONGEST {
        for place in 0..=length {
            text.fill(items, length, place);
            for from in 0..16 {
                turn += 5;
                let holds = text.converts(from, turn % 16, way, &mut call);
                assert!(holds, "{:x?} from {from} to {}", text.src, turn % 16);
            }
            turn += 1;
        }
    }
}

/// Asserts that the call holds with each of the others among each of the fillers, and returns how many these are.
pub fn assert_each_holds<S: Unit, D: Unit>(
    items: &Items<S, D>,
    way: Way,
    mut call: impl FnMut(&[S], &mut [D]) -> (usize, usize),
) -> usize {
    for filler in &items.fillers {
        for other in &items.others {
            assert_holds_among([&items.letter, filler, other], way, &mut call);
        }
    }
    items.fillers.len() * items.others.len()
}
