//! The proved runtime, linked as a static library: the C functions of INTERFACE.md and nothing else.

use crate::runtime::Runtime;

extern "C" {
    fn embed_check(text: *const u8, length: usize, out: *mut u8, room: usize) -> usize;
    fn embed_run(text: *const u8, length: usize, out: *mut u8, room: usize) -> usize;
    fn embed_read(text: *const u8, length: usize, places: *mut [usize; 2]) -> u16;
    fn embed_write(text: *const u8, length: usize, out: *mut u8, room: usize) -> usize;
    fn embed_analyse(text: *const u8, length: usize, places: *mut [usize; 2]) -> u16;
    fn embed_walk(text: *const u8, length: usize, kinds: *const u8, count: usize, places: *mut [usize; 2]) -> u16;
}

/// The proved runtime.
pub struct Product;

// Each call hands over a slice as its pointer and its length, both valid for the call, and no two of them overlap.
impl Runtime for Product {
    fn check(&self, text: &[u8], out: &mut [u8]) -> usize {
        unsafe { embed_check(text.as_ptr(), text.len(), out.as_mut_ptr(), out.len()) }
    }

    fn run(&self, text: &[u8], out: &mut [u8]) -> usize {
        unsafe { embed_run(text.as_ptr(), text.len(), out.as_mut_ptr(), out.len()) }
    }

    fn read(&self, text: &[u8]) -> u16 {
        unsafe { embed_read(text.as_ptr(), text.len(), &mut [0; 2]) }
    }

    fn write(&self, text: &[u8], out: &mut [u8]) -> usize {
        unsafe { embed_write(text.as_ptr(), text.len(), out.as_mut_ptr(), out.len()) }
    }

    fn analyse(&self, text: &[u8]) -> u16 {
        unsafe { embed_analyse(text.as_ptr(), text.len(), &mut [0; 2]) }
    }

    fn walk(&self, text: &[u8], kinds: &[u8]) -> u16 {
        unsafe { embed_walk(text.as_ptr(), text.len(), kinds.as_ptr(), kinds.len(), &mut [0; 2]) }
    }
}
