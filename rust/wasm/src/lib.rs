//! The library for C as a module of WebAssembly, which imports nothing. It exports the calls of `vialshoal.h`, and two by which
//! JavaScript has memory for what these read and write.

use fallible::{Allocator, Global};
use std::ptr::null_mut;
use vialshoal_c as _;

// What stands at a multiple of this may be any of the header's types.
const ALIGN: usize = 8;

/// Memory of this size, or null where it is refused.
#[unsafe(no_mangle)]
pub extern "C" fn vialshoal_wasm_allocate(size: usize) -> *mut u8 {
    Global.allocate(size, ALIGN).unwrap_or(null_mut())
}

/// Takes memory back.
///
/// # Safety
///
/// `vialshoal_wasm_allocate` gave it out at this size, and it wasn't taken back since.
#[unsafe(no_mangle)]
pub unsafe extern "C" fn vialshoal_wasm_free(at: *mut u8, size: usize) {
    // SAFETY: the caller owes what is said above.
    unsafe { Global.deallocate(at, size, ALIGN) }
}
