use std::alloc::Layout;
use std::fmt;
use std::ptr::NonNull;

/// Rust's own allocator, by which all memory is taken.
#[derive(Clone, Copy, Debug, Default, PartialEq, Eq)]
pub struct Global;

/// Memory was refused.
#[derive(Clone, Copy, Debug, PartialEq, Eq)]
pub struct AllocError;

impl fmt::Display for AllocError {
    fn fmt(&self, f: &mut fmt::Formatter<'_>) -> fmt::Result {
        f.write_str("out of memory")
    }
}

impl std::error::Error for AllocError {}

impl From<AllocError> for std::io::Error {
    fn from(_: AllocError) -> std::io::Error {
        std::io::ErrorKind::OutOfMemory.into()
    }
}

/// A value for which memory was refused.
#[derive(Debug, PartialEq, Eq)]
pub struct AllocFailed<T> {
    /// The value, given back.
    pub value: T,
}

impl<T> From<AllocFailed<T>> for AllocError {
    fn from(_: AllocFailed<T>) -> AllocError {
        AllocError
    }
}

/// What gives out memory.
pub trait Allocator {
    /// Memory of this size and alignment.
    fn allocate(&self, size: usize, align: usize) -> Result<*mut u8, AllocError>;

    /// Takes memory back.
    ///
    /// # Safety
    ///
    /// This allocator gave it out at this size and alignment, and it wasn't taken back since.
    unsafe fn deallocate(&self, at: *mut u8, size: usize, align: usize);
}

impl Allocator for Global {
    fn allocate(&self, size: usize, align: usize) -> Result<*mut u8, AllocError> {
        let layout = Layout::from_size_align(size, align).map_err(|_| AllocError)?;
        if size == 0 {
            return Ok(std::ptr::without_provenance_mut(align));
        }
        // SAFETY: the size isn't 0.
        let at = unsafe { std::alloc::alloc(layout) };
        NonNull::new(at).map(NonNull::as_ptr).ok_or(AllocError)
    }

    unsafe fn deallocate(&self, at: *mut u8, size: usize, align: usize) {
        if size != 0 {
            // SAFETY: `allocate` made this layout of this size and alignment, and by it took the memory.
            unsafe { std::alloc::dealloc(at, Layout::from_size_align_unchecked(size, align)) }
        }
    }
}
