//! A thread's stack that was painted before the thread begins.

use std::alloc::{alloc, dealloc, handle_alloc_error, Layout};
use std::ffi::c_void;

const SIZE: usize = 1 << 20;
const PAGE: usize = 4096;
const PAINT: u8 = 0xA5;

const NO_ACCESS: i32 = 0;
const READ_AND_WRITE: i32 = 3;

/// The C library's `pthread_attr_t`, which is no larger.
#[repr(C)]
struct Attributes([u64; 8]);

type Begin = extern "C" fn(*mut c_void) -> *mut c_void;

extern "C" {
    fn mprotect(start: *mut u8, length: usize, access: i32) -> i32;
    fn pthread_attr_init(attributes: *mut Attributes) -> i32;
    fn pthread_attr_setstack(attributes: *mut Attributes, start: *mut u8, size: usize) -> i32;
    fn pthread_create(
        thread: *mut usize,
        attributes: *const Attributes,
        begin: Begin,
        argument: *mut c_void,
    ) -> i32;
    fn pthread_join(thread: usize, result: *mut *mut c_void) -> i32;
}

pub struct Painted {
    start: *mut u8,
    layout: Layout,
}

/// What a thread is to do.
struct Work<'a> {
    call: &'a mut dyn FnMut(),
    start: *mut u8,
    /// How far below itself the call may reach, where that is limited.
    allowed: Option<usize>,
    /// Where the stack stood when the call was made.
    top: usize,
}

impl Painted {
    pub fn new() -> Painted {
        let layout = Layout::from_size_align(SIZE, PAGE).expect("a lawful layout");
        let start = unsafe { alloc(layout) };
        if start.is_null() {
            handle_alloc_error(layout);
        }
        Painted { start, layout }
    }

    /// How many bytes below its caller a call changed.
    pub fn taken_by(&mut self, call: &mut dyn FnMut()) -> usize {
        // The thread of the call before has ended, so nothing else uses this memory.
        unsafe { self.start.write_bytes(PAINT, SIZE) };
        let top = self.run(call, None);
        let bytes = unsafe { std::slice::from_raw_parts(self.start, SIZE) };
        let untouched = bytes.iter().take_while(|&&byte| byte == PAINT).count();
        top - (self.start as usize + untouched)
    }

    /// Makes a call that has so much below its caller, up to the next page's end, and no more.
    pub fn confine(&mut self, call: &mut dyn FnMut(), allowed: usize) {
        self.run(call, Some(allowed));
    }

    fn run(&mut self, call: &mut dyn FnMut(), allowed: Option<usize>) -> usize {
        let start = self.start;
        let mut work = Work {
            call,
            start,
            allowed,
            top: 0,
        };
        let mut attributes = Attributes([0; 8]);
        let mut thread = 0;
        let argument = (&raw mut work).cast();
        // The stack, the attributes and the work outlive the thread, which is joined here.
        unsafe {
            assert_eq!(pthread_attr_init(&mut attributes), 0);
            assert_eq!(pthread_attr_setstack(&mut attributes, start, SIZE), 0);
            assert_eq!(pthread_create(&mut thread, &attributes, begin, argument), 0);
            assert_eq!(pthread_join(thread, std::ptr::null_mut()), 0);
        }
        work.top
    }
}

impl Drop for Painted {
    fn drop(&mut self) {
        unsafe { dealloc(self.start, self.layout) };
    }
}

extern "C" fn begin(argument: *mut c_void) -> *mut c_void {
    // `run` keeps the work alive until this thread has ended.
    let work = unsafe { &mut *argument.cast::<Work>() };
    let here = 0u8;
    work.top = (&raw const here) as usize;
    if let Some(allowed) = work.allowed {
        let barred = (work.top - allowed) / PAGE * PAGE - work.start as usize;
        unsafe {
            assert_eq!(mprotect(work.start, barred, NO_ACCESS), 0);
            (work.call)();
            assert_eq!(mprotect(work.start, barred, READ_AND_WRITE), 0);
        }
    } else {
        (work.call)();
    }
    std::ptr::null_mut()
}

#[cfg(test)]
mod tests {
    use super::Painted;
    use std::hint::black_box;

    #[inline(never)]
    fn fill<const N: usize>() {
        black_box(&mut [1u8; N]);
    }

    /// What a function with an array takes is the array and little more, whatever ran before.
    #[test]
    fn arrays_are_measured() {
        let mut stack = Painted::new();
        let large = stack.taken_by(&mut fill::<65_536>);
        let small = stack.taken_by(&mut fill::<4_096>);
        assert!((65_536..66_560).contains(&large), "{large}");
        assert!((4_096..5_120).contains(&small), "{small}");
        stack.confine(&mut fill::<65_536>, large);
    }
}
