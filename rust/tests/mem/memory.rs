//! How often and how much memory the calls with owned results request: once for an owned result, and never for a
//! borrowed one. And what happens if there is none.

use crate::common::rows::named;
use encoding_text::mem::{decode_latin1, encode_latin1_lossy};
use encoding_text::{repair, utf8_chunks};
#[cfg(feature = "std")]
use encoding_text::{DecodeUtf16, Repair, UTF_16LE};
use std::alloc::{GlobalAlloc, Layout, System};
use std::cell::Cell;
use std::hint::black_box;

/// The requests of a thread, their bytes, and the bytes that are in use.
#[derive(Clone, Copy, Debug, PartialEq)]
struct Counts {
    requests: usize,
    requested: usize,
    in_use: isize,
}

const NONE: Counts = Counts {
    requests: 0,
    requested: 0,
    in_use: 0,
};

thread_local! {
    static COUNTS: Cell<Counts> = const { Cell::new(NONE) };
    /// Whether each request is refused.
    static REFUSES: Cell<bool> = const { Cell::new(false) };
}

/// Adds a request, or memory that is given back. A block that shrinks is no request.
fn count(before: usize, after: usize) {
    COUNTS.with(|counts| {
        let mut sum = counts.get();
        if after > before {
            sum.requests += 1;
            sum.requested += after;
        }
        sum.in_use += after as isize - before as isize;
        counts.set(sum);
    });
}

/// The allocator of the system, whose requests are counted. A thread may have its own refused.
struct Counting;

// SAFETY: each call is passed on to the allocator of the system. Counting allocates nothing: the counts are constant at
// the start of a thread, and nothing drops them.
unsafe impl GlobalAlloc for Counting {
    unsafe fn alloc(&self, layout: Layout) -> *mut u8 {
        count(0, layout.size());
        if REFUSES.get() {
            return std::ptr::null_mut();
        }
        // SAFETY: the caller promises what the allocator of the system requires.
        unsafe { System.alloc(layout) }
    }

    unsafe fn alloc_zeroed(&self, layout: Layout) -> *mut u8 {
        count(0, layout.size());
        if REFUSES.get() {
            return std::ptr::null_mut();
        }
        // SAFETY: as above.
        unsafe { System.alloc_zeroed(layout) }
    }

    unsafe fn realloc(&self, block: *mut u8, layout: Layout, size: usize) -> *mut u8 {
        count(layout.size(), size);
        // SAFETY: as above.
        unsafe { System.realloc(block, layout, size) }
    }

    unsafe fn dealloc(&self, block: *mut u8, layout: Layout) {
        count(layout.size(), 0);
        // SAFETY: as above.
        unsafe { System.dealloc(block, layout) }
    }
}

#[global_allocator]
static ALLOCATOR: Counting = Counting;

/// Returns the result of a call, and what was counted while it was made.
fn counted<R>(call: impl FnOnce() -> R) -> (R, Counts) {
    COUNTS.set(NONE);
    let result = black_box(call());
    (result, COUNTS.get())
}

/// Returns the counts of one request, of which `in_use` bytes are still in use.
fn one(requested: usize, in_use: usize) -> Counts {
    Counts {
        requests: 1,
        requested,
        in_use: in_use as isize,
    }
}

/// The allocator counts what a vector requests, grows and gives back.
#[test]
fn counts() {
    let (mut bytes, counts) = counted(|| Vec::<u8>::with_capacity(100));
    assert_eq!(counts, one(100, 100));
    assert_eq!(counted(|| bytes.reserve_exact(150)).1, one(150, 50));
    let released = Counts { in_use: -150, ..NONE };
    assert_eq!(counted(|| drop(bytes)).1, released);
    assert_eq!(counted(|| vec![0_u8; 40]).1, one(40, 40));
}

/// Returns letters followed by the bytes of a field.
fn source(letters: &str, field: &str) -> Vec<u8> {
    [vec![b'a'; letters.parse().unwrap()], named(field)].concat()
}

/// Letters, the bytes after them, the bytes that are requested and those in use then: three for each byte from the first
/// malformed sequence on, of which only the text is kept. Well-formed text is borrowed.
const REPAIR_ROWS: &str = "\
0 | | 0 | 0
1000000 | | 0 | 0
3 | E2 98 83 F0 9F 98 80 | 0 | 0
0 | FF | 3 | 3
2 | FF 62 | 8 | 6
2 | C3 A4 E2 98 62 C3 A4 | 19 | 10
1000 | FF FF FF | 1009 | 1009
100000 | E2 98 | 100006 | 100003
0 | F0 9F 98 61 E2 98 83 | 21 | 7";

#[test]
fn repair_rows() {
    for row in REPAIR_ROWS.lines() {
        let fields: Vec<&str> = row.split('|').map(str::trim).collect();
        let bytes = source(fields[0], fields[1]);
        let (requested, in_use): (usize, usize) = (fields[2].parse().unwrap(), fields[3].parse().unwrap());
        let wanted = if requested == 0 { NONE } else { one(requested, in_use) };
        let (text, counts) = counted(|| repair(&bytes));
        assert_eq!(counts, wanted, "{row}");
        assert_eq!(text, String::from_utf8_lossy(&bytes), "{row}");
    }
    assert_eq!(REPAIR_ROWS.lines().count(), 9);
}

/// Letters, the bytes of Latin1 after them, and the bytes that are requested: two for each byte after the ASCII prefix.
const DECODE_ROWS: &str = "\
0 | | 0
1000000 | | 0
3 | 00 7F | 0
0 | 80 | 2
0 | E9 FF | 4
2 | E9 62 | 6
1000 | FF FF FF | 1006
100000 | 80 61 61 | 100006";

#[test]
fn decode_latin1_rows() {
    for row in DECODE_ROWS.lines() {
        let fields: Vec<&str> = row.split('|').map(str::trim).collect();
        let bytes = source(fields[0], fields[1]);
        let requested = fields[2].parse().unwrap();
        let wanted = if requested == 0 {
            NONE
        } else {
            one(requested, requested)
        };
        let (text, counts) = counted(|| decode_latin1(&bytes));
        assert_eq!(counts, wanted, "{row}");
        assert!(text.chars().eq(bytes.iter().map(|byte| char::from(*byte))), "{row}");
    }
    assert_eq!(DECODE_ROWS.lines().count(), 8);
}

/// Letters, the UTF-8 of Latin1 after them, and the bytes that are requested: as many as the text has.
const ENCODE_ROWS: &str = "\
0 | | 0
1000000 | | 0
3 | 00 7F | 0
0 | C2 80 | 2
0 | C3 A9 C3 BF | 4
2 | C3 A9 62 | 5
1000 | C3 BF C3 BF | 1004
100000 | C2 80 61 61 | 100004";

#[test]
fn encode_latin1_rows() {
    for row in ENCODE_ROWS.lines() {
        let fields: Vec<&str> = row.split('|').map(str::trim).collect();
        let text = String::from_utf8(source(fields[0], fields[1])).unwrap();
        let requested = fields[2].parse().unwrap();
        let wanted = if requested == 0 {
            NONE
        } else {
            one(requested, requested)
        };
        let (latin1, counts) = counted(|| encode_latin1_lossy(&text));
        assert_eq!(counts, wanted, "{row}");
        assert!(text.chars().eq(latin1.iter().map(|byte| char::from(*byte))), "{row}");
    }
    assert_eq!(ENCODE_ROWS.lines().count(), 8);
}

/// Calls without an owned result request nothing, however long the bytes are.
#[test]
fn no_request() {
    let bytes = b"a\xFF\xC3\xA4\xE2\x98".repeat(10_000);
    assert_eq!(counted(|| utf8_chunks(&bytes).count()), (20_000, NONE));
    #[cfg(feature = "std")]
    {
        let sink = &mut std::io::sink();
        let (malformed, counts) = counted(|| encoding_text::repair_to(&bytes, sink).unwrap());
        assert_eq!((malformed, counts), (20_000, NONE));
    }
}

/// The calls that request memory, each with bytes for whose text it requests some.
#[cfg(feature = "std")]
const REQUESTING: &[(&str, fn())] = &[
    ("repair", || drop(black_box(repair(b"a\xFF")))),
    ("decode_latin1", || drop(black_box(decode_latin1(b"a\xE9")))),
    ("encode_latin1_lossy", || drop(black_box(encode_latin1_lossy("aé")))),
    ("UTF_16LE.decode", || drop(black_box(UTF_16LE.decode(b"a\0")))),
    ("UTF_16LE.decode_with_bom_removal", || {
        drop(black_box(UTF_16LE.decode_with_bom_removal(b"a\0")));
    }),
    ("UTF_16LE.decode_without_bom_handling", || {
        drop(black_box(UTF_16LE.decode_without_bom_handling(b"a\0")));
    }),
    ("UTF_16LE.decode_without_bom_handling_and_without_replacement", || {
        drop(black_box(
            UTF_16LE.decode_without_bom_handling_and_without_replacement(b"a\0"),
        ));
    }),
    ("Repair::new", || drop(black_box(Repair::new(&b"a"[..])))),
    ("Repair::with_capacity", || {
        drop(black_box(Repair::with_capacity(8, &b"a"[..])))
    }),
    ("DecodeUtf16::new", || drop(black_box(DecodeUtf16::new(&b"a"[..])))),
    ("DecodeUtf16::with_capacity", || {
        drop(black_box(DecodeUtf16::with_capacity(8, &b"a"[..])));
    }),
];

/// If a request is refused, the process ends as it does with a collection of std. So each call has a process of its own,
/// which runs only this test, with the name of the call.
#[cfg(all(unix, feature = "std"))]
#[test]
fn refused() {
    use std::os::unix::process::ExitStatusExt;
    const ONLY: &str = "ENCODING_TEXT_REFUSED";
    if let Some(only) = std::env::var_os(ONLY) {
        let (_, call) = REQUESTING.iter().find(|(name, _)| only == **name).unwrap();
        REFUSES.set(true);
        call();
        REFUSES.set(false);
        return;
    }
    for (name, call) in REQUESTING {
        assert!(counted(call).1.requests > 0, "{name}");
        let mut single = std::process::Command::new(std::env::current_exe().unwrap());
        single
            .args(["--exact", "memory::refused", "--nocapture"])
            .env(ONLY, name);
        let ended = single.output().unwrap();
        let said = String::from_utf8_lossy(&ended.stderr);
        assert!(said.contains("memory allocation of "), "{name}: {said}");
        assert_eq!(ended.status.signal(), Some(6), "{name}");
    }
    assert_eq!(REQUESTING.len(), 11);
}
