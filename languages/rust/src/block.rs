//! What the library leaves in a block of its own.
use crate::call::RawText;
use std::ffi::c_void;
use std::ops::Deref;
use std::ptr::NonNull;
use std::slice;

extern "C" {
    fn free(block: *mut c_void);
}

/// Bytes in a block, freed when it is dropped.
pub struct Block {
    bytes: NonNull<u8>,
    len: usize,
}

// SAFETY: the block is plain bytes that nobody else has, and `free` takes it on any thread.
unsafe impl Send for Block {}
// SAFETY: a shared block is only read.
unsafe impl Sync for Block {}

impl Block {
    /// The block that a call left.
    pub fn of(raw: RawText) -> Block {
        let bytes = NonNull::new(raw.bytes.cast_mut()).expect("what a call leaves has a block");
        Block { bytes, len: raw.len }
    }
}

impl Drop for Block {
    fn drop(&mut self) {
        // SAFETY: the header says that the holder frees the block by `free`, once.
        unsafe { free(self.bytes.as_ptr().cast()) }
    }
}

impl Deref for Block {
    type Target = [u8];

    fn deref(&self) -> &[u8] {
        // SAFETY: the block has `len` bytes.
        unsafe { slice::from_raw_parts(self.bytes.as_ptr(), self.len) }
    }
}
