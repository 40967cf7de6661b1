//! Repair into a destination of any length.

use crate::c;

/// Writes as many first characters of `bytes` as fit into `dst`, with U+FFFD for each malformed sequence. Returns the
/// number of bytes read, of bytes written, and of malformed sequences replaced (Encoding Standard, "UTF-8 decode without
/// BOM").
///
/// All is read if `dst` has the length that [`repaired_utf8_length`](crate::repaired_utf8_length) returns. If `dst` is
/// shorter, fewer bytes than `bytes` has are read. No character is written in part, and the rest of `dst` is unchanged.
///
/// [Proved](crate::promises#repair). It allocates nothing.
///
/// ```
/// let mut text = [0; 5];
/// let answer = encoding_text::repair_slice_partial(b"a\xE2\x98Z\xFF", &mut text);
/// assert_eq!((answer, &text), ((4, 5, 1), b"a\xEF\xBF\xBDZ"));
/// ```
#[inline]
pub fn repair_slice_partial(bytes: &[u8], dst: &mut [u8]) -> (usize, usize, usize) {
    let done = c::encoding_text_repair_slice_partial(bytes, dst);
    (done.read, done.written, done.replaced)
}
