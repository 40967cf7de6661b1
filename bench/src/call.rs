//! How a peer is called: as ours is, through an address, by a function that isn't inlined into its caller.
//!
//! simdutf is called in a shared library, which goes through an address. So ours and all others are too (module `ffi`),
//! since that costs some nanoseconds on processors that guard indirect jumps. A peer in Rust is called here through a
//! function that gets the same slices and has the peer's body inlined if possible. This is one call each, and nothing
//! that the caller knows of the arguments helps. If the body can't be inlined, that is one more jump, which made no
//! measurable difference.

use std::hint::black_box;

/// Calls a function of one slice.
pub fn one<F: Fn(&[S]) -> T, S, T>(call: F, src: &[S]) -> T {
    #[inline(never)]
    fn apart<F: Fn(&[S]) -> T, S, T>(call: F, src: &[S]) -> T {
        call(src)
    }
    black_box(apart::<F, S, T> as fn(F, &[S]) -> T)(call, src)
}

/// Calls a function of a source and a destination.
pub fn two<F: Fn(&[S], &mut [D]) -> T, S, D, T>(call: F, src: &[S], dst: &mut [D]) -> T {
    #[inline(never)]
    fn apart<F: Fn(&[S], &mut [D]) -> T, S, D, T>(call: F, src: &[S], dst: &mut [D]) -> T {
        call(src, dst)
    }
    black_box(apart::<F, S, D, T> as fn(F, &[S], &mut [D]) -> T)(call, src, dst)
}

/// Calls a function that changes a slice in place.
#[inline(never)]
pub fn in_place<S, T>(call: impl Fn(&mut [S]) -> T, buffer: &mut [S]) -> T {
    call(buffer)
}
