//! The bytes of stack that some work takes, seen on a painted stack.
//!
//! The work runs in a thread whose stack is memory of our own, painted before.
//! While that thread waits, the lowest word that is no longer painted is
//! looked up. The figure is the distance from there to the frame that began
//! the work, so it has the frames of the caller in it, 200 to 300 bytes. What
//! the last frame keeps free and never writes is not seen.

use std::alloc::{alloc, dealloc, handle_alloc_error, Layout};
use std::cell::Cell;
use std::ffi::{c_int, c_void};
use std::ptr::null_mut;
use std::slice::{from_raw_parts, from_raw_parts_mut};
use std::sync::atomic::{AtomicUsize, Ordering};
use std::thread::yield_now;

/// The bytes of the stack.
const SIZE: usize = 1 << 20;
const PAGE: usize = 4096;
const WORDS: usize = SIZE / size_of::<u64>();
const PAINT: u64 = 0x5ca1_ab1e_0ddb_a11d;

/// The attributes of a thread: more room than any C library needs for them.
#[repr(C, align(16))]
struct Attributes([u8; 256]);

type Entry = extern "C" fn(*mut c_void) -> *mut c_void;

extern "C" {
    fn pthread_attr_init(attributes: *mut Attributes) -> c_int;
    fn pthread_attr_setstack(attributes: *mut Attributes, low: *mut c_void, size: usize) -> c_int;
    fn pthread_attr_destroy(attributes: *mut Attributes) -> c_int;
    fn pthread_create(
        thread: *mut usize,
        attributes: *const Attributes,
        entry: Entry,
        task: *mut c_void,
    ) -> c_int;
    fn pthread_join(thread: usize, result: *mut *mut c_void) -> c_int;
}

/// What the thread is to do, and how far it is.
struct Task<'a> {
    work: Cell<Option<&'a mut dyn FnMut()>>,
    /// Where the frame stands that did the work; 0 until it is done.
    done_from: AtomicUsize,
    looked_at: AtomicUsize,
}

extern "C" fn run(task: *mut c_void) -> *mut c_void {
    // SAFETY: `measure` passes its task, which lives until the thread ends.
    let task = unsafe { &*task.cast::<Task>() };
    let here = 0u8;
    if let Some(work) = task.work.take() {
        work();
    }
    task.done_from
        .store(&raw const here as usize, Ordering::Release);
    while task.looked_at.load(Ordering::Acquire) == 0 {
        yield_now();
    }
    null_mut()
}

/// A painted stack.
pub struct Stack {
    low: *mut u64,
}

impl Stack {
    pub fn new() -> Self {
        // SAFETY: the layout has a size.
        let low = unsafe { alloc(layout()) }.cast::<u64>();
        if low.is_null() {
            handle_alloc_error(layout());
        }
        let stack = Self { low };
        stack.paint(0);
        stack
    }

    /// Paints the words from one on; no thread runs on the stack then.
    fn paint(&self, from: usize) {
        // SAFETY: the words are the stack's own.
        let words = unsafe { from_raw_parts_mut(self.low, WORDS) };
        words[from..].fill(PAINT);
    }

    /// The lowest word that is no longer painted; a thread on the stack waits.
    fn lowest_used(&self) -> usize {
        // SAFETY: the words are the stack's own.
        let words = unsafe { from_raw_parts(self.low, WORDS) };
        let used = words.iter().position(|&word| word != PAINT);
        used.unwrap_or(WORDS)
    }

    /// The bytes of stack that the work takes.
    pub fn measure(&mut self, work: &mut dyn FnMut()) -> usize {
        let task = Task {
            work: Cell::new(Some(work)),
            done_from: AtomicUsize::new(0),
            looked_at: AtomicUsize::new(0),
        };
        let thread = self.start(&task);
        let mut from = 0;
        while from == 0 {
            yield_now();
            from = task.done_from.load(Ordering::Acquire);
        }
        let lowest = self.lowest_used();
        assert!(lowest > 0, "{SIZE} bytes of stack are not enough");
        task.looked_at.store(1, Ordering::Release);
        // SAFETY: the thread was started and is joined once.
        let joined = unsafe { pthread_join(thread, null_mut()) };
        assert_eq!(joined, 0, "the thread ends");
        self.paint(self.lowest_used());
        from - (self.low as usize + lowest * size_of::<u64>())
    }

    /// Starts a thread on this stack.
    fn start(&self, task: &Task) -> usize {
        let task = (&raw const *task).cast_mut().cast();
        let mut attributes = Attributes([0; 256]);
        let mut thread = 0;
        // SAFETY: the attributes have room, the stack is ours and is not in use,
        // and the task lives until the thread is joined.
        let started = unsafe {
            pthread_attr_init(&mut attributes)
                + pthread_attr_setstack(&mut attributes, self.low.cast(), SIZE)
                + pthread_create(&mut thread, &attributes, run, task)
                + pthread_attr_destroy(&mut attributes)
        };
        assert_eq!(started, 0, "a thread runs on a stack of our own");
        thread
    }
}

impl Default for Stack {
    fn default() -> Self {
        Self::new()
    }
}

impl Drop for Stack {
    fn drop(&mut self) {
        // SAFETY: allocated by `new` with this layout.
        unsafe { dealloc(self.low.cast(), layout()) };
    }
}

fn layout() -> Layout {
    Layout::from_size_align(SIZE, PAGE).expect("a power of two")
}
