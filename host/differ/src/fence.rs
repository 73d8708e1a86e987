//! Buffers between two pages that nobody may touch: a read or a write one byte outside of what was lent ends the run. They are
//! mapped once, and what is lent is laid at an edge.
use castulfrisa::raw;
use std::ptr;

const PAGE: usize = 4096;
/// The bytes between the two pages: more than a hash is fed.
pub const SPACE: usize = 17 * PAGE;

extern "C" {
    fn mmap(addr: *mut u8, len: usize, prot: i32, flags: i32, fd: i32, at: i64) -> *mut u8;
    fn mprotect(addr: *mut u8, len: usize, prot: i32) -> i32;
}

/// A run of 64-bit numbers that calls are lent.
///
/// # Safety
/// It has nothing but 64-bit numbers in it, so that any bytes are one.
pub unsafe trait Numbers: Copy {
    /// The numbers, and zeros behind them.
    fn words(&self) -> [u64; 10] {
        let count = size_of::<Self>() / 8;
        let mut all = [0; 10];
        unsafe { ptr::copy_nonoverlapping(ptr::from_ref(self).cast::<u64>(), all.as_mut_ptr(), count) };
        all
    }
}

unsafe impl Numbers for u64 {}
unsafe impl Numbers for i64 {}
unsafe impl Numbers for [u64; 10] {}
unsafe impl Numbers for raw::Part {}
unsafe impl Numbers for raw::StringParts {}
unsafe impl Numbers for raw::Sizes {}
unsafe impl Numbers for raw::Cursor {}
unsafe impl Numbers for raw::Opened {}
unsafe impl Numbers for raw::Proposed {}
unsafe impl Numbers for raw::Choice {}
unsafe impl Numbers for raw::Init {}
unsafe impl Numbers for raw::Reply {}
unsafe impl Numbers for raw::Signed {}
unsafe impl Numbers for raw::Progress {}
unsafe impl Numbers for raw::Session {}

/// One buffer, which stays lent as it is until the next.
pub struct Fence {
    space: *mut u8,
    at: usize,
    len: usize,
}

impl Default for Fence {
    fn default() -> Fence {
        Fence::new()
    }
}

impl Fence {
    pub fn new() -> Fence {
        // PROT_NONE; MAP_PRIVATE | MAP_ANONYMOUS; then PROT_READ | PROT_WRITE between
        unsafe {
            let base = mmap(ptr::null_mut(), SPACE + 2 * PAGE, 0, 0x22, -1, 0);
            assert!(base as isize != -1, "no memory for a fenced buffer");
            assert!(mprotect(base.add(PAGE), SPACE, 3) == 0, "a fenced buffer cannot be opened");
            Fence { space: base.add(PAGE), at: 0, len: 0 }
        }
    }

    /// Room for so many bytes with a fence directly behind them or, where `ahead`, directly ahead of them.
    fn place(&mut self, len: usize, ahead: bool) {
        assert!(len <= SPACE);
        (self.at, self.len) = (if ahead { 0 } else { SPACE - len }, len);
    }

    /// A copy of the bytes, at the fence.
    pub fn lend(&mut self, bytes: &[u8], ahead: bool) -> &mut [u8] {
        self.place(bytes.len(), ahead);
        let s = self.bytes_mut();
        s.copy_from_slice(bytes);
        s
    }

    /// What is lent.
    pub fn bytes(&self) -> &[u8] {
        unsafe { std::slice::from_raw_parts(self.space.add(self.at), self.len) }
    }

    pub fn bytes_mut(&mut self) -> &mut [u8] {
        unsafe { std::slice::from_raw_parts_mut(self.space.add(self.at), self.len) }
    }

    /// What is lent, as an array of just so many bytes.
    pub fn array<const N: usize>(&mut self) -> &mut [u8; N] {
        self.bytes_mut().try_into().expect("an array of its length was lent")
    }

    /// Numbers for a call to fill in, at the fence, each of them `word` until then.
    pub fn numbers<T: Numbers>(&mut self, word: u64, ahead: bool) -> &mut T {
        self.place(size_of::<T>(), ahead);
        for eight in self.bytes_mut().chunks_exact_mut(8) {
            eight.copy_from_slice(&word.to_ne_bytes());
        }
        // a page's edge less a multiple of 8 is aligned
        unsafe { &mut *self.space.add(self.at).cast::<T>() }
    }

    /// Numbers that a call reads, at the fence.
    pub fn given<T: Numbers>(&mut self, numbers: T, ahead: bool) -> &mut T {
        let lent = self.numbers(0, ahead);
        *lent = numbers;
        lent
    }
}

/// Zeros without a page behind them until they are touched.
pub fn untouched(len: usize) -> &'static mut [u8] {
    // PROT_READ | PROT_WRITE; MAP_PRIVATE | MAP_ANONYMOUS | MAP_NORESERVE
    unsafe {
        let base = mmap(ptr::null_mut(), len, 3, 0x4022, -1, 0);
        assert!(base as isize != -1, "no address space for {} bytes", len);
        std::slice::from_raw_parts_mut(base, len)
    }
}

#[cfg(test)]
mod tests {
    use super::*;

    extern "C" {
        fn fork() -> i32;
        fn waitpid(pid: i32, status: *mut i32, options: i32) -> i32;
        fn _exit(status: i32) -> !;
    }

    /// The signal that ends a child which writes at `offset` from what was lent, or 0 where it may.
    fn touched(lent: *mut u8, offset: isize) -> i32 {
        unsafe {
            let child = fork();
            if child == 0 {
                ptr::write_volatile(lent.offset(offset), 1);
                _exit(0);
            }
            let mut status = 0;
            assert!(child > 0 && waitpid(child, &mut status, 0) == child);
            status & 0x7f
        }
    }

    #[test]
    fn one_byte_too_far_ends_the_run() {
        let mut fence = Fence::new();
        for len in [0, 1, 228, SPACE] {
            let s = fence.lend(&vec![5; len], false);
            assert_eq!(s, vec![5; len]);
            let at = s.as_mut_ptr();
            assert_eq!(touched(at, len as isize), 11, "behind {} bytes", len);
            let at = fence.lend(&vec![5; len], true).as_mut_ptr();
            assert_eq!(touched(at, -1), 11, "ahead of {} bytes", len);
            if len > 0 {
                assert_eq!((touched(at, 0), touched(at, len as isize - 1)), (0, 0));
            }
        }
    }

    #[test]
    fn numbers_stand_at_the_fence() {
        let mut fence = Fence::new();
        for ahead in [false, true] {
            let reply: &mut raw::Reply = fence.numbers(77, ahead);
            assert_eq!(reply.words(), [77, 77, 77, 77, 77, 77, 77, 0, 0, 0]);
            let at = ptr::from_mut(reply).cast::<u8>();
            assert_eq!(touched(at, if ahead { -1 } else { 56 }), 11);
            assert_eq!((touched(at, 0), touched(at, 55)), (0, 0));
        }
        assert_eq!(fence.given(raw::Part { start: 3, len: 4 }, false).words(), [3, 4, 0, 0, 0, 0, 0, 0, 0, 0]);
        assert_eq!((-1i64).words()[0], u64::MAX);
    }
}
