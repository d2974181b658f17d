use crate::alloc::{AllocFailed, Allocator, Global};
use std::mem::ManuallyDrop;
use std::ops::{Deref, DerefMut};

/// A value in memory of its own.
pub struct Box<T, A: Allocator = Global> {
    at: *mut T,
    alloc: A,
}

impl<T> Box<T> {
    /// Puts a value into memory of its own, or gives it back.
    pub fn new(alloc: Global, value: T) -> Result<Box<T>, AllocFailed<T>> {
        match alloc.allocate(size_of::<T>(), align_of::<T>()) {
            Ok(at) => {
                let at = at.cast::<T>();
                // SAFETY: the memory has the size and the alignment of a `T`, and nothing is in it.
                unsafe { at.write(value) };
                Ok(Box { at, alloc })
            }
            Err(_) => Err(AllocFailed { value }),
        }
    }
}

impl<T, A: Allocator> Box<T, A> {
    /// The pointer and the allocator; who has them owns the value.
    pub fn into_raw_with_allocator(given: Box<T, A>) -> (*mut T, A) {
        let given = ManuallyDrop::new(given);
        // SAFETY: `given` isn't used, nor dropped, after this.
        (given.at, unsafe { std::ptr::read(&given.alloc) })
    }

    /// The box of a pointer.
    ///
    /// # Safety
    ///
    /// `into_raw_with_allocator` gave this pointer with this allocator, and it wasn't given to this function since.
    pub unsafe fn from_raw(alloc: A, at: *mut T) -> Box<T, A> {
        Box { at, alloc }
    }
}

impl<T, A: Allocator> Drop for Box<T, A> {
    fn drop(&mut self) {
        // SAFETY: a `T` that this box owns is there, in memory that `alloc` gave out.
        unsafe {
            self.at.drop_in_place();
            self.alloc
                .deallocate(self.at.cast(), size_of::<T>(), align_of::<T>());
        }
    }
}

impl<T, A: Allocator> Deref for Box<T, A> {
    type Target = T;

    fn deref(&self) -> &T {
        // SAFETY: a `T` that this box owns is there.
        unsafe { &*self.at }
    }
}

impl<T, A: Allocator> DerefMut for Box<T, A> {
    fn deref_mut(&mut self) -> &mut T {
        // SAFETY: a `T` that this box owns is there.
        unsafe { &mut *self.at }
    }
}
