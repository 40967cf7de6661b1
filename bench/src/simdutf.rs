//! simdutf, whose functions the executable of Node.js exports: a kernel by its own symbols, so without the choice of a
//! kernel, and the public functions, which choose the best kernel for the processor.

use std::ffi::{c_char, c_int, c_void, CString};
use std::sync::OnceLock;
use std::{env, ptr};

/// What a call with errors returns: no error is 0, and the count is the index of the error, or how much was written.
#[repr(C)]
pub struct Counted {
    pub error: c_int,
    pub count: usize,
}

impl Counted {
    /// Returns how much the call wrote, if it found no error.
    fn written(self) -> Option<usize> {
        (self.error == 0).then_some(self.count)
    }
}

/// Returns how much a plain call wrote, if it found no error: it doesn't refuse an empty text.
fn written(length: usize, written: usize) -> Option<usize> {
    (length == 0 || written > 0).then_some(written)
}

/// Returns the address of a symbol of this process.
fn find(symbol: &str) -> Option<usize> {
    extern "C" {
        fn dlsym(library: *mut c_void, symbol: *const c_char) -> *mut c_void;
    }
    let name = CString::new(symbol).expect("a symbol has no NUL");
    // SAFETY: the name ends with a NUL. No library means all of the process.
    let found = unsafe { dlsym(ptr::null_mut(), name.as_ptr()) };
    (!found.is_null()).then_some(found as usize)
}

fn address(symbol: &str) -> usize {
    find(symbol).unwrap_or_else(|| {
        eprintln!("bench: this process has no {symbol}: it has to be a Node.js that exports simdutf (see bench/setup)");
        crate::end(1)
    })
}

/// Returns the kernel whose vectors are as wide as those of ours, or the one that SIMDUTF names.
pub fn name() -> String {
    let has_avx2 = match crate::CPU {
        "x86-64-v3" => true,
        "both" => is_x86_feature_detected!("avx2"),
        _ => false,
    };
    env::var("SIMDUTF").unwrap_or_else(|_| if has_avx2 { "haswell" } else { "westmere" }.into())
}

/// Returns the address of a kernel's table of virtual functions, as its objects have it: after two other fields.
fn functions(kernel: &str) -> Option<usize> {
    let table = find(&format!("_ZTVN7simdutf{}{kernel}14implementationE", kernel.len()))?;
    Some(table + 2 * size_of::<usize>())
}

/// Returns the name of the kernel that the public functions choose.
pub fn chosen() -> &'static str {
    own::validate_utf8(b"the first call chooses");
    let active = address("_ZN7simdutf25get_active_implementationEv");
    // SAFETY: the function returns a reference to a pointer to a kernel's object, which begins with its table.
    let table = unsafe {
        let active: extern "C" fn() -> *const *const usize = std::mem::transmute(active);
        **active()
    };
    let kernels = ["icelake", "haswell", "westmere", "fallback"];
    kernels.into_iter().find(|kernel| functions(kernel) == Some(table)).unwrap_or("unknown")
}

/// The address of a function, and the object that it takes first, if it is a kernel's. Such an object has no other field
/// that the functions read than its table of functions.
struct Function {
    address: usize,
    table: usize,
}

/// How functions of simdutf are found and called.
trait Way {
    /// Returns a function, whose arguments are given by their mangled types.
    fn find(function: &str, arguments: &str) -> Function;

    /// Calls a function of one slice.
    unsafe fn one<S, T>(function: &Function, src: &[S]) -> T;

    /// Calls a function of a source and a destination that is long enough.
    unsafe fn two<S, D, T>(function: &Function, src: &[S], dst: &mut [D]) -> T;
}

/// The functions of one kernel.
struct OfKernel;

impl Way for OfKernel {
    fn find(function: &str, arguments: &str) -> Function {
        let kernel = name();
        let (scope, length) = (kernel.len(), function.len());
        let symbol = format!("_ZNK7simdutf{scope}{kernel}14implementation{length}{function}E{arguments}");
        Function { address: address(&symbol), table: functions(&kernel).expect("a kernel has a table") }
    }

    #[inline(always)]
    unsafe fn one<S, T>(function: &Function, src: &[S]) -> T {
        let call: unsafe extern "C" fn(&usize, *const S, usize) -> T = std::mem::transmute(function.address);
        call(&function.table, src.as_ptr(), src.len())
    }

    #[inline(always)]
    unsafe fn two<S, D, T>(function: &Function, src: &[S], dst: &mut [D]) -> T {
        let call: unsafe extern "C" fn(&usize, *const S, usize, *mut D) -> T = std::mem::transmute(function.address);
        call(&function.table, src.as_ptr(), src.len(), dst.as_mut_ptr())
    }
}

/// The public functions.
struct Public;

impl Way for Public {
    fn find(function: &str, arguments: &str) -> Function {
        let symbol = format!("_ZN7simdutf{}{function}E{arguments}", function.len());
        Function { address: address(&symbol), table: 0 }
    }

    #[inline(always)]
    unsafe fn one<S, T>(function: &Function, src: &[S]) -> T {
        let call: unsafe extern "C" fn(*const S, usize) -> T = std::mem::transmute(function.address);
        call(src.as_ptr(), src.len())
    }

    #[inline(always)]
    unsafe fn two<S, D, T>(function: &Function, src: &[S], dst: &mut [D]) -> T {
        let call: unsafe extern "C" fn(*const S, usize, *mut D) -> T = std::mem::transmute(function.address);
        call(src.as_ptr(), src.len(), dst.as_mut_ptr())
    }
}

/// Declares functions of simdutf, and wraps each over slices.
macro_rules! calls {
    ($way:ty; one { $($one:ident($kind:ty: $spelt:literal) -> $result:ty;)* }
     two { $($two:ident($from:ty, $to:ty: $names:literal) -> $counted:ty;)* }) => {
        $(pub fn $one(buffer: &[$kind]) -> $result {
            static FUNCTION: OnceLock<Function> = OnceLock::new();
            let function = FUNCTION.get_or_init(|| <$way>::find(stringify!($one), $spelt));
            unsafe { <$way>::one(function, buffer) }
        })*
        $(pub fn $two(src: &[$from], dst: &mut [$to]) -> $counted {
            static FUNCTION: OnceLock<Function> = OnceLock::new();
            let function = FUNCTION.get_or_init(|| <$way>::find(stringify!($two), $names));
            unsafe { <$way>::two(function, src, dst) }
        })*
    };
}

/// Makes a module for each way to call simdutf: `PLAIN` and `ERRORS` are the names of its engines.
macro_rules! modules {
    ($($(#[$about:meta])* $module:ident($way:ty, $plain:literal, $errors:literal);)*) => { $($(#[$about])* pub mod $module {
        use super::*;

        /// By plain calls, which only report that a text is ill-formed.
        pub const PLAIN: &str = $plain;

        /// By calls that report where.
        pub const ERRORS: &str = $errors;

        calls! {
            $way;
            one {
            validate_ascii(u8: "PKcm") -> bool;
            validate_ascii_with_errors(u8: "PKcm") -> Counted;
            validate_utf8(u8: "PKcm") -> bool;
            validate_utf8_with_errors(u8: "PKcm") -> Counted;
            validate_utf16le(u16: "PKDsm") -> bool;
            validate_utf16le_with_errors(u16: "PKDsm") -> Counted;
            utf8_length_from_latin1(u8: "PKcm") -> usize;
            latin1_length_from_utf8(u8: "PKcm") -> usize;
            utf16_length_from_utf8(u8: "PKcm") -> usize;
            utf8_length_from_utf16le(u16: "PKDsm") -> usize;
            count_utf8(u8: "PKcm") -> usize;
            count_utf16le(u16: "PKDsm") -> usize;
            }
            two {
            convert_latin1_to_utf8(u8, u8: "PKcmPc") -> usize;
            convert_latin1_to_utf16le(u8, u16: "PKcmPDs") -> usize;
            convert_utf8_to_latin1(u8, u8: "PKcmPc") -> usize;
            convert_utf8_to_latin1_with_errors(u8, u8: "PKcmPc") -> Counted;
            convert_utf16le_to_latin1(u16, u8: "PKDsmPc") -> usize;
            convert_utf8_to_utf16le(u8, u16: "PKcmPDs") -> usize;
            convert_utf8_to_utf16le_with_errors(u8, u16: "PKcmPDs") -> Counted;
            convert_utf16le_to_utf8(u16, u8: "PKDsmPc") -> usize;
            convert_utf16le_to_utf8_with_errors(u16, u8: "PKDsmPc") -> Counted;
            }
        }

        /// Returns the length of the longest well-formed prefix, by the plain call if it suffices.
        pub fn valid_up_to(src: &[u8]) -> usize {
            if validate_utf8(src) { src.len() } else { validate_utf8_with_errors(src).count }
        }

        /// The same of code units.
        pub fn utf16_valid_up_to(src: &[u16]) -> usize {
            if validate_utf16le(src) { src.len() } else { validate_utf16le_with_errors(src).count }
        }

        // Each of these returns how much the call wrote, if it found no error.

        pub fn to_utf16(src: &[u8], dst: &mut [u16]) -> Option<usize> {
            written(src.len(), convert_utf8_to_utf16le(src, dst))
        }

        pub fn to_utf16_with_errors(src: &[u8], dst: &mut [u16]) -> Option<usize> {
            convert_utf8_to_utf16le_with_errors(src, dst).written()
        }

        pub fn to_utf8(src: &[u16], dst: &mut [u8]) -> Option<usize> {
            written(src.len(), convert_utf16le_to_utf8(src, dst))
        }

        pub fn to_utf8_with_errors(src: &[u16], dst: &mut [u8]) -> Option<usize> {
            convert_utf16le_to_utf8_with_errors(src, dst).written()
        }
    })* };
}

modules! {
    /// The kernel whose vectors are as wide as ours.
    kernel(OfKernel, "simdutf", "simdutf with errors");
    /// simdutf's own choice.
    own(Public, "simdutf's choice", "simdutf's choice with errors");
}
